#!/bin/sh
# Looks for limits that stand as numbers where their names belong. crates/xrc_cli/specs/Limits.antt has each limit's name and number. In a contract
# or a definition such a number may not be a bound: it may not stand beside a comparison or a product, nor be all of a definition.
# Nor may code compare with it. Nor may it be the value of a constant outside the modules of constants, if the constant's name has MOST, FEWEST,
# LONGEST or LAST in it.
#
# Prints each place, and ends with status 1 if there is one. Crates of tests, the generated input and the file with the numbers don't count.
set -eu
cd "$(dirname "$0")/.."
exec python3 - <<'PYTHON'
import glob
import re
import sys

TESTS = re.compile(r"^crates/(?:\w*_tests|test_fixtures|scenarios|simulation|workload)/")
NUMBERS = "crates/xrc_cli/specs/Limits.antt"
MODULES = re.compile(r"/src/(?:limits|layout|block)\.rt$")

# Numbers that are no limits: what they are, by file and text.
OTHERS = [
    ("crates/tod_stamp/", "16", "the digits of a stamp, and the values of a digit"),
    ("crates/tod_stamp/", "256", "the values of a byte"),
    ("crates/change_map/", "64", "the bits of a word"),
    ("crates/xrc_command/", "16", "the digits of a stamp"),
    ("crates/ckd_track/", "2", "the length of a field"),
    ("crates/write_trace/specs/Headers.antt", "2", "a version"),
]


def limits():
    """Returns the numbers of the limits as they are spelled."""
    with open(NUMBERS, encoding="utf-8") as lines:
        found = re.findall(r"^  pub \w+ : \w+ ≡ ([\d^ -]+)$", lines.read(), re.M)
    return sorted({number.strip() for number in found}, key=len, reverse=True)


def is_said(file, line):
    """Whether a line is of a contract or of a definition."""
    if file.endswith(".antt"):
        return not re.match(r"\s*(--|use |pub use )", line)
    return bool(re.match(r"\s*(requires|ensures|ghost )", line))


def main():
    numbers = [number for number in limits() if number not in ("2", "15", "24", "30")]
    alone = "|".join(re.escape(number) for number in numbers)
    bound = re.compile(rf"[≤<≡≢] *\(?({alone})(?![\w.^]| \^)|(?<![\w.^])({alone}) *[≤<]|\b(?:within \S+|nat_l[et] \S+) ({alone})(?![\w.^])|\bnat_l[et] ({alone}) |(?<![\w.^])({alone}) \*|\* ({alone})(?![\w.^])|\bare_below ({alone}) |^\w+ = ({alone})$")
    value = re.compile(rf"^\s*(?:pub(?:\(crate\))? )?const (?:\w+_)?(?:MOST|FEWEST|LONGEST|LAST)(?:_\w+)?: [ui]\w+ = ({alone})\b")
    compared = re.compile(rf"(?:(?<![-=<>])[<>]=?|==) ({alone})(?![\w.^])|\.\.= ?({alone})(?![\w.^])")
    journals = re.compile(r"\b2 ≤ [\w.()]*journals|nat_le 2 [\w.()]*journals")
    bad = 0
    for file in sorted(glob.glob("crates/*/src/**/*.rt", recursive=True) + glob.glob("crates/*/specs/**/*.antt", recursive=True)):
        if TESTS.match(file) or file == NUMBERS or "_vectors" in file:
            continue
        with open(file, encoding="utf-8") as lines:
            for at, line in enumerate(lines, 1):
                found = []
                if is_said(file, line):
                    # The status of a command is a number of its own.
                    line = re.sub(r"\bstatus (?:≡|==) \d+", "status", line)
                    found = [next(n for n in groups if n) for groups in bound.findall(line)] + ["2" for _ in journals.findall(line)]
                elif not MODULES.search(file) and file.endswith(".rt") and not re.match(r"\s*//", line):
                    line = re.sub(r"(?<=\d)_(?=\d)", "", line)
                    found = value.findall(line) + [next(n for n in groups if n) for groups in compared.findall(line)]
                for number in found:
                    if any(file.startswith(where) and number == other for where, other, _ in OTHERS):
                        continue
                    bad += 1
                    print(f"{file}:{at}: {number}: {line.strip()[:150]}")
    return 1 if bad else 0


sys.exit(main())
PYTHON
