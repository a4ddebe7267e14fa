#!/bin/sh
# Looks for names of definitions that stand in two crates: a `pub` item of a crate's specs/*.antt, with its fields and constructors
# left out of account. A crate that passes on what another one defines (`pub use`) defines nothing. Prints each such name with its
# places, and ends with status 1 if there is one.
set -eu
cd "$(dirname "$0")/.."
exec python3 - <<'PYTHON'
import glob
import os
import re
import sys

# An item begins at the margin. Words as `abbrev` or `record` stand before its `pub`, or after it.
ITEM = re.compile(r"(?:[a-z]+ )*pub (?:(?:abbrev|unfoldable|record|data|open) )*([^\s():]+)")


def definitions(file):
    """Returns the name and the line of each definition of a file."""
    with open(file, encoding="utf-8") as lines:
        for line, text in enumerate(lines, 1):
            item = ITEM.match(text)
            if item and item[1] not in ("mod", "use"):
                yield item[1], line


def main():
    places = {}
    for file in sorted(glob.glob("crates/*/specs/**/*.antt", recursive=True)):
        crate = file.split(os.sep)[1]
        for name, line in definitions(file):
            places.setdefault(name, {}).setdefault(crate, []).append(f"{file}:{line}")
    offenders = {name: crates for name, crates in sorted(places.items()) if len(crates) > 1}
    for name, crates in offenders.items():
        print(f"{name}: {' '.join(place for its in crates.values() for place in its)}")
    if offenders:
        print(f"one-name: {len(offenders)} names stand in two crates or more: {' '.join(offenders)}", file=sys.stderr)
    return 1 if offenders else 0


sys.exit(main())
PYTHON
