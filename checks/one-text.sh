#!/bin/sh
# Looks for definitions that differ in nothing but their names: two `pub` definitions of crates/*/specs, or two exported functions, with one text
# once their own names and those of their parameters are left out of account. Two names for one idea are read as two ideas. Prints each such group
# with its places, and ends with status 1 if there is one.
#
# A constructor's text is its type's, and a law's body is empty: neither counts. Nor do crates of tests.
set -eu
cd "$(dirname "$0")/.."
exec python3 - <<'PYTHON'
import glob
import os
import re
import sys

TESTS = re.compile(r"^(?:.*_tests|test_fixtures|scenarios|simulation)$")
ITEM = re.compile(r"^(?:[a-z]+ )*pub (?:(?:abbrev|unfoldable|record|data|open) )*([^\s():]+)")
FUNCTION = re.compile(r"^ *pub (?:const )?fn (\w+)")
WORD = re.compile(r"[^\W\d][\w'-]*|\d+|\S")

def renamed(text, names):
    """Returns the words of a text, with each of these names by its number."""
    numbers = {name: f"${number}" for number, name in enumerate(names)}
    return " ".join(numbers.get(word, word) for word in WORD.findall(text))


def definitions(file):
    """Returns the name, the line and the text of each definition of a file of specs."""
    with open(file, encoding="utf-8") as source:
        lines = source.read().split("\n")
    starts = [at for at, line in enumerate(lines) if ITEM.match(line) and not re.match(r"(?:pub )?(?:use|mod)\b", line)]
    for at in starts:
        name = ITEM.match(lines[at])[1]
        end = at + 1
        while end < len(lines) and lines[end].strip() and not lines[end].startswith("--") and end not in starts:
            end += 1
        yield name, at + 1, lines[at:end]


def text_of_definition(name, lines):
    """Returns what a definition says: of a record its fields, else its type and its cases."""
    whole = "\n".join(lines)
    if re.match(r"(?:[a-z]+ )*pub (?:record|data)|(?:record|data) ", whole) or " record " in lines[0].split(name)[0] or " data " in lines[0].split(name)[0]:
        parameters = re.findall(r"[({]([\w' ]+?) :", lines[0])
        names = [name] + [word for part in parameters for word in part.split()]
        return renamed(re.sub(r"--[^\n]*", "", whole), names)
    said = re.sub(r"\(([\w' ]+?) : ", lambda m: "(" * len(m[1].split()), lines[0])
    said = said[said.index(name) :]
    cases = []
    for line in lines[1:]:
        line = re.sub(r"--.*", "", line)
        if re.match(rf"{re.escape(name)}(?= |$)", line):
            left, _, _ = line.partition(" = ")
            cases.append((line, [word for word in re.findall(r"[^\W\d][\w'-]*", left)]))
        elif cases:
            cases[-1] = (cases[-1][0] + " " + line, cases[-1][1])
        else:
            said += " " + line
    bodies = [renamed(text, dict.fromkeys([name] + [n for n in names if n[0].islower()])) for text, names in cases]
    return renamed(said, [name]) + " | " + " | ".join(bodies)


def functions(file):
    """Returns the name, the line and the text of each `pub fn` of a file, without its clauses."""
    with open(file, encoding="utf-8") as source:
        lines = source.read().split("\n")
    for at, line in enumerate(lines):
        match = FUNCTION.match(line)
        if not match:
            continue
        depth = len(line) - len(line.lstrip())
        end = at
        while end < len(lines) and not re.match(rf" {{{depth}}}(\}}|\{{\}})", lines[end]):
            end += 1
        kept = [text for text in lines[at : end + 1] if not re.match(r"\s*(//|requires |ensures )", text)]
        text = "\n".join(kept)
        if re.search(r"\{\s*\}\s*$", text) or "self" in text.split("{")[0]:
            continue
        head = text.split("{")[0]
        names = [match[1]] + re.findall(r"(\w+):", head)
        yield match[1], at + 1, renamed(text, dict.fromkeys(names))


def main():
    places = {}
    for crate in sorted(os.listdir("crates")):
        if TESTS.match(crate):
            continue
        for file in sorted(glob.glob(f"crates/{crate}/specs/**/*.antt", recursive=True)):
            for name, line, lines in definitions(file):
                places.setdefault(text_of_definition(name, lines), []).append((name, f"{file}:{line}"))
        for file in sorted(glob.glob(f"crates/{crate}/src/**/*.rt", recursive=True)):
            for name, line, text in functions(file):
                places.setdefault(text, []).append((name, f"{file}:{line}"))
    new = 0
    for text, found in sorted(places.items(), key=lambda item: item[1]):
        if len(found) < 2:
            continue
        names = {name for name, _ in found}
        new += 1
        print(f"{' '.join(sorted(names))}: {' '.join(place for _, place in found)}")
    if new:
        print(f"one-text: {new} texts have more than one definition", file=sys.stderr)
    return 1 if new else 0


sys.exit(main())
PYTHON
