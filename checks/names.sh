#!/bin/sh
# Looks up each name that a document has in backticks, and each file that a document links to. Prints each one that isn't found with its
# document, and ends with status 1 then.
#
# A name is looked for as what it looks like:
# - a path is a file or a folder: from the top, from crates/, from a crate, or from the document's folder. NAME and * stand for a part of it.
# - `Module.name` is a word of a file Module.antt, and `crate::name` one of that crate. `Type::name` is two words of one file.
# - Any other word is one of crates/*/src, of crates/*/specs or of a script, or a part of a path.
# Comments don't count. Words of one letter, numbers, bytes in hexadecimal digits, what begins with a sign, indented and fenced blocks, and what
# stands after `rt` are left out.
set -eu
cd "$(dirname "$0")/.."

# Words that are not the repository's: tools, names of Rust's, and what stands for something else in a command or a notation.
exceptions='sh cp dd rt sync git strace perf valgrind callgrind md5sum dasdcopy rustc python3 Mutex expect TMPDIR'
placeholders='NAME NUMBER SERIAL STAMP OLD NEW STORAGE DEVICE BYTE BYTES CALL ENTRY TEXT FROM STEP'

work=$(mktemp -d)
trap 'rm -rf "$work"' EXIT
documents=$(find README.md CONTRIBUTING.md docs bench/README.md crates -name '*.md' | sort)
sources=$(find crates/*/src crates/*/specs examples bench checks .ci -type f ! -name '*.md')
find . -name .git -prune -o -name out -prune -o -print | sed 's|^\./||' >"$work/paths"

# One line for each name: its document, and the name.
# shellcheck disable=SC2086
awk '
    FNR == 1 { is_fenced = 0 }
    /^```/ { is_fenced = !is_fenced; next }
    is_fenced || /^    / { next }
    {
        parts = split($0, part, "`")
        for (i = 2; i <= parts; i += 2) {
            words = split(part[i], word, /[ \t]+/)
            if (word[1] == "rt") continue
            for (j = 1; j <= words; j++) if (word[j] ~ /^[A-Za-z_.*]/) print FILENAME "\t" word[j]
        }
    }
' $documents | sort -u >"$work/names"

# One line for each link to a file: its document, and where it leads.
# shellcheck disable=SC2086
awk '
    {
        parts = split($0, part, /\]\(/)
        for (i = 2; i <= parts; i++) {
            sub(/[)#].*$/, "", part[i])
            if (part[i] != "" && part[i] !~ /:/) print FILENAME "\t" part[i]
        }
    }
' $documents | sort -u >"$work/links"

# shellcheck disable=SC2086
awk -v exceptions="$exceptions $placeholders" '
    BEGIN {
        FS = "\t"
        count = split(exceptions, list, " ")
        for (i = 1; i <= count; i++) known[list[i]] = 1
    }

    # Whether something of a set is like this, where NAME and * stand for a part.
    function is_like(text, set,    pattern, it) {
        if (text in set) return 1
        if (text !~ /NAME|\*/) return 0
        pattern = text
        gsub(/\./, "[.]", pattern)
        gsub(/NAME|\*/, "[^/]*", pattern)
        for (it in set) if (it ~ ("^" pattern "$")) return 1
        return 0
    }

    function is_there(path, document,    home) {
        sub(/\/$/, "", path)
        home = document
        sub(/[^\/]*$/, "", home)
        return is_like(path, is_path) || is_like("crates/" path, is_path) || is_like(home path, is_path) || is_like("crates/*/" path, is_path)
    }

    function ask(key, name, document) {
        wanted[key] = 1
        askers++
        asked[askers] = key
        line_of[askers] = document ": " name
    }

    function ask_words(name, document,    count, word, i) {
        count = split(name, word, /[^A-Za-z0-9_]+/)
        for (i = 1; i <= count; i++) {
            if (word[i] !~ /^[A-Za-z_][A-Za-z0-9_]/ || word[i] ~ /^([0-9A-F][0-9A-F])+$/) continue
            if (!is_like(word[i], known)) ask(word[i], name, document)
        }
    }

    function look_up(name, document,    bare, pair) {
        bare = name
        sub(/[^A-Za-z0-9_\/*]+$/, "", bare)
        if (bare in known) return
        if (bare ~ /^[A-Za-z0-9_.*\/-]+$/ && bare ~ /\// && bare ~ /[a-z]/) {
            if (!is_there(bare, document)) missed[document ": " name] = 1
        } else if (bare ~ /^[A-Z][A-Za-z]*\.[A-Za-z_]+$/) {
            ask(bare, name, document)
        } else if (bare ~ /^[a-z_]+::[A-Za-z_]+$/) {
            ask(bare, name, document)
        } else if (bare ~ /^[A-Z][A-Za-z]*::[a-z_]+$/) {
            split(bare, pair, "::")
            of_pair[pair[1]] = of_pair[pair[2]] = 1
            pairs[bare] = 1
            ask(bare, name, document)
        } else ask_words(name, document)
    }

    # Paths come first, then the names, then the sources.
    FILENAME == ARGV[1] {
        is_path[$0] = 1
        parts = split($0, part, "/")
        for (i = 1; i <= parts; i++) known[part[i]] = 1
        parts = split($0, part, /[\/.-]/)
        for (i = 1; i <= parts; i++) known[part[i]] = 1
        next
    }

    FILENAME == ARGV[2] { look_up($2, $1); next }

    function end_file(    it, pair) {
        for (it in pairs) {
            split(it, pair, "::")
            if (pair[1] in here && pair[2] in here) found[it] = 1
        }
        split("", here)
    }

    FNR == 1 {
        end_file()
        parts = split(FILENAME, part, "/")
        crate = part[1] == "crates" ? part[2] "::" : ""
        module = part[parts]
        sub(/\.[a-z]*$/, ".", module)
        comment = FILENAME ~ /\.rt$/ ? "//.*$" : FILENAME ~ /\.antt$/ ? "--( .*)?$" : "(^|[ \t])#.*$"
    }

    {
        sub(comment, "")
        words = split($0, word, /[^A-Za-z0-9_]+/)
        for (i = 1; i <= words; i++) {
            it = word[i]
            found[it] = found[module it] = found[crate it] = 1
            if (it in of_pair) here[it] = 1
        }
    }

    END {
        end_file()
        for (i = 1; i <= askers; i++) if (!(asked[i] in found)) missed[line_of[i]] = 1
        for (it in missed) { print it; status = 1 }
        exit status
    }
' "$work/paths" "$work/names" $sources >"$work/missed" && status=0 || status=$?
while IFS='	' read -r document link; do
    if [ ! -e "$(dirname "$document")/$link" ]; then
        printf '%s: (%s)\n' "$document" "$link" >>"$work/missed"
        status=1
    fi
done <"$work/links"
sort "$work/missed"
exit "$status"
