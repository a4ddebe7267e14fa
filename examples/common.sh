# What the examples share, which read it with `.` at their beginning: the programs, a temporary folder, in which they then are, new devices
# in it, and what it takes to kill the program and to recover. $0 names the example. The programs are those of the folder PROGRAMS, if it
# is set; else those that the repository builds.

repository=$(cd "$(dirname "$0")/../.." && pwd)
program=${PROGRAMS:-$repository/crates/xrc/out}/xrc
trace_program=${PROGRAMS:-$repository/crates/xrc_trace/out}/xrc_trace

fail() {
    printf '%s: %s\n' "$(basename "$(dirname "$0")")" "$1" >&2
    exit 1
}

# The bytes of a text of hexadecimal digit pairs.
bytes() {
    for pair in $1; do
        # shellcheck disable=SC2059
        printf "\\$(printf '%03o' "0x$pair")"
    done
}

# The bytes of a trace whose lines stand on standard input.
trace() {
    "$trace_program" write || fail "these lines are no trace"
}

# New devices for so many controllers: control, state, two journals, and so many volumes, 9 at most, of one cylinder each. The program
# gives volume 0 the label SEC001, volume 1 SEC002, and so on; what it says stands in the file labelled.
new_devices() {
    rm -f control state journal.* volume.* labelled
    truncate -s 1024 control
    truncate -s 16384 state
    truncate -s $((8192 + $1 * 1818624)) journal.0 journal.1
    device=0
    while [ "$device" -lt "$2" ]; do
        truncate -s 860672 "volume.$device"
        device=$((device + 1))
    done
    device=0
    while [ "$device" -lt "$2" ]; do
        "$program" init "$device" "SEC00$((device + 1))" 1 >>labelled || fail "volume $device gets no label"
        device=$((device + 1))
    done
}

# Of a volume so many bytes from a place on, in hexadecimal digits.
volume_bytes() {
    od -An -v -tx1 -j "$2" -N "$3" "volume.$1" | tr -d ' \n'
}

# What the slot of a volume's track begins with: so many bytes.
slot() {
    volume_bytes "$1" $((512 + $2 * 57344)) "$3"
}

# Shows and checks what the slot of a volume's track begins with, and says what that is.
check_slot() {
    found=$(slot "$1" "$2" $((${#3} / 2)))
    echo "On volume $1 the slot of track $2 begins with $found: $4."
    [ "$found" = "$3" ] || fail "the slot of track $2 on volume $1 does not begin with $3"
}

# Shows what the program said, a file of replies, and checks that it is what a second file has.
check_said() {
    cat "$1"
    cmp -s "$2" "$1" || fail "the program does not say what was wanted"
}

# The process of the program, and the one that writes a trace, if there is one.
running=
writing=

stop_all() {
    [ -z "$running" ] || kill -9 "$running" 2>/dev/null || true
    [ -z "$writing" ] || kill -9 "$writing" 2>/dev/null || true
    rm -rf "$site"
}

# Waits until a command succeeds, for a minute at most, and fails with a text if it doesn't.
wait_until() {
    failure=$1
    shift
    tries=0
    until "$@"; do
        tries=$((tries + 1))
        [ "$tries" -lt 600 ] || fail "$failure"
        sleep 0.1
    done
}

# Kills the program, and ends the process that writes a trace.
crash() {
    kill -9 "$running" 2>/dev/null || fail "the program ended by itself"
    wait "$running" 2>/dev/null || true
    running=
    [ -z "$writing" ] || kill -9 "$writing" 2>/dev/null || true
    [ -z "$writing" ] || wait "$writing" 2>/dev/null || true
    writing=
}

# Recovers the site twice, which says the same both times, and shows it.
recover() {
    for said in recovered again; do
        status=0
        "$program" recover ABC </dev/null >"$said" || status=$?
        [ "$status" -eq 0 ] || fail "a recovery ends with $status"
    done
    cmp -s recovered again || fail "a second recovery says: $(cat again)"
    echo "xrc recover ABC says:"
    cat recovered
}

# The libraries that a crate stands on, each once.
libraries_below() {
    awk -v top="$1" -F: '
        !/^#/ && NF > 1 { split($1, name, " "); below[name[1]] = $2 }
        function visit(crate,    count, i, names) {
            if (crate in seen || !(crate in below)) return
            seen[crate] = 1
            count = split(below[crate], names, " ")
            for (i = 1; i <= count; i++) visit(names[i])
            if (crate != top) print crate
        }
        END { visit(top) }' "$repository/crates.txt"
}

# How far the proof of a crate is: which libraries that it stands on are proved, of how many, how long it took so far, and what comes.
say_progress() {
    proved=0 all=0 next=$1
    for library in $(libraries_below "$1"); do
        all=$((all + 1))
        if [ -e "$repository/crates/$library/out/rlib/stamp" ]; then
            proved=$((proved + 1))
        elif [ "$next" = "$1" ]; then
            next=$library
        fi
    done
    [ "$proved $next" != "${said_before:-}" ] || return 0
    said_before="$proved $next"
    echo "$proved of $all libraries below $1 are proved after $((($(date +%s) - begun) / 60)) minutes; now $next"
}

# Proves and builds a program, and what it stands on, without tests, and says how far it is.
build() {
    [ ! -x "$repository/crates/$1/out/$1" ] || return 0
    command -v rt >/dev/null || fail "the toolchain's command rt is not installed"
    echo "Proving and building $1 and the libraries below it, without tests. In a fresh clone that is long; what is proved is kept."
    begun=$(date +%s)
    while kill -0 $$ 2>/dev/null; do
        say_progress "$1"
        sleep 2
    done &
    saying=$!
    (cd "$repository/crates/$1" && rt run </dev/null >out.log 2>&1) || true
    kill "$saying" 2>/dev/null || true
    wait "$saying" 2>/dev/null || true
    if [ ! -x "$repository/crates/$1/out/$1" ]; then
        cat "$repository/crates/$1/out.log" >&2
        fail "$1 was not built"
    fi
    rm -f "$repository/crates/$1/out.log"
    echo "$1 is built, after $((($(date +%s) - begun) / 60)) minutes."
}

if [ -z "${PROGRAMS:-}" ]; then
    build xrc_trace
    build xrc
fi

site=$(mktemp -d)
trap stop_all EXIT
cd "$site" || exit
