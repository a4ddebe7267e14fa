#!/bin/sh
# Prints the sizes of the crates, from the bottom to the top, as tables of docs/SIZES.md: lines of code (with contracts), of definitions
# and of proofs, and the number of edits; and which public functions may wait or start threads, by the bounds of their handles.
#
# `sh checks/sizes.sh LOG`, where LOG has what `sh checks/gate-minutes.sh` printed, adds what the log tells of each crate: how many
# functions were proved, and processor minutes.
set -eu
log=${1:-/dev/null}
case $log in /*) ;; *) log=$PWD/$log ;; esac
cd "$(dirname "$0")/.."
exec python3 - "$log" <<'PYTHON'
import glob
import os
import re
import sys

FUNCTION = re.compile(r"^( *)pub (?:const )?fn (\w+)(?:<(.*?)>)?\(")
BLOCK = re.compile(r"^impl(?:<.*?>)? (?:.* for )?([A-Z]\w*)")


def crates():
    """Returns the names of the crates in the order of crates.txt."""
    with open("crates.txt", encoding="utf-8") as lines:
        return [line.split(":")[0].strip() for line in lines if ":" in line and not line.startswith("#")]


def count_lines(pattern):
    count = 0
    for file in glob.glob(pattern, recursive=True):
        with open(file, encoding="utf-8") as lines:
            count += sum(1 for _ in lines)
    return count


def sizes(crate):
    home = f"crates/{crate}"
    edits = len(glob.glob(f"{home}/must-fail/*.edit"))
    return (count_lines(f"{home}/src/**/*.rt"), count_lines(f"{home}/specs/**/*.antt"), count_lines(f"{home}/proofs/**/*.antt"), edits)


def told(path, names):
    """Returns what a log tells of the crates: functions that were proved, and processor minutes."""
    functions, minutes, crate = {}, {}, None
    with open(path, encoding="utf-8", errors="replace") as lines:
        for line in lines:
            begun = re.search(r"== (\w+)$", line)
            crate = begun[1] if begun else crate
            proved = re.search(r"logic=proved .*?functions=(\d+)", line)
            if proved and crate in names:
                functions[crate] = int(proved[1])
            row = re.match(r"\| (\w+) \| ([0-9.]+) \|", line)
            if row and row[1] in names:
                minutes[row[1]] = float(row[2])
    return functions, minutes


def bounded(crate, bound):
    """Returns the public functions of a crate whose handle has a bound, each with its type."""
    found = []
    for file in sorted(glob.glob(f"crates/{crate}/src/*.rt")):
        owner = None
        with open(file, encoding="utf-8") as lines:
            for line in lines:
                block = BLOCK.match(line)
                owner = block[1] if block else None if line.startswith("}") else owner
                function = FUNCTION.match(line)
                if function and re.search(rf"\b{bound}\b", function[3] or ""):
                    name = f"{owner}::{function[2]}" if function[1] else function[2]
                    found += [name] if is_public(crate, file, name) else []
    return found


def is_public(crate, file, name):
    """Whether a crate's root passes on a file, or of it a function or the type whose function it is."""
    root = f"crates/{crate}/src/lib.rt"
    if not os.path.isfile(root):
        return False
    with open(root, encoding="utf-8") as text:
        passed = " ".join(re.findall(r"pub (?:mod|use) [^;]*;", text.read()))
    module = os.path.basename(file).removesuffix(".rt")
    return re.search(rf"\bmod {module};|\b{name.split('::')[0]}\b", passed) is not None


def table(heads, rows):
    print(f"| {' | '.join(heads)} |\n|{'---|' * len(heads)}")
    for row in rows:
        print(f"| {' | '.join(row)} |")
    print()


def main():
    names = crates()
    functions, minutes = told(sys.argv[1], set(names))
    heads = ["Crate", "Code", "Definitions", "Proofs", "Edits"]
    heads += ["Functions"] if functions else []
    heads += ["Processor minutes"] if minutes else []
    rows, sums = [], [0, 0, 0, 0]
    for name in names:
        of_crate = sizes(name)
        sums = [a + b for a, b in zip(sums, of_crate)]
        row = [f"`{name}`", *(f"{it:,}" for it in of_crate)]
        row += [str(functions.get(name, ""))] if functions else []
        row += [str(minutes.get(name, ""))] if minutes else []
        rows.append(row)
    last = [f"all {len(names)}", *(f"{it:,}" for it in sums)]
    last += [f"{sum(functions.values()):,}"] if functions else []
    last += [f"{sum(minutes.values()):.0f}"] if minutes else []
    table(heads, [*rows, last])
    rows = []
    for name in names:
        waits, threads = bounded(name, "Wait"), bounded(name, "Threads")
        if waits or threads:
            rows.append([f"`{name}`", *(", ".join(f"`{it}`" for it in its) or "none" for its in (waits, threads))])
    table(["Crate", "May wait", "May start threads"], rows)


main()
PYTHON
