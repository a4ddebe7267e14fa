#!/bin/sh
# Looks for exported calls that no other library makes, nor the program: functions that a crate's lib.rt passes on, and `pub fn` of its exported
# types. docs/ARCHITECTURE.md names those that are there for another reason, in its paragraph that begins with `Not called by the program`.
# Prints each call that this paragraph leaves out, and each name there that no crate exports; ends with status 1 if there is one.
#
# Crates of tests call what they test, so they don't count. A law is a function with an empty body, and nobody calls it. A call is looked for by
# its name, so a call of one name hides another one; such a one may stand in that paragraph too.
set -eu
cd "$(dirname "$0")/.."
exec python3 - <<'PYTHON'
import glob
import os
import re
import sys

# What takes no part in the program.
TESTS = re.compile(r"^(?:.*_tests|test_fixtures|scenarios|simulation)$")
FUNCTION = re.compile(r"^( *)pub (?:const )?(?:unsafe )?fn (\w+)", re.M)
BLOCK = re.compile(r"^impl(?:<[^{]*?>)? (?:[\w:<>, ]+ for )?(\w+)", re.M)


def code(file):
    """Returns the text of a file without its comments and clauses."""
    with open(file, encoding="utf-8") as lines:
        kept = [line for line in lines if not re.match(r"\s*(//|ghost |ensures |requires )", line)]
    return "".join(kept)


def exported(text):
    """Returns the names that a lib.rt passes on."""
    names = set()
    for group in re.findall(r"^pub use ([^;]+);", text, re.M):
        names.update(re.findall(r"(?:\{|,|::|\s)(\w+)(?=[,}\s]|$)", group))
    return names


def is_law(text, at):
    """Whether the function that begins there has an empty body."""
    body = text.index("{", at)
    return text[body + 1 :].lstrip()[:1] == "}"


def calls(files, names):
    """Returns the exported functions of a crate, and the `pub fn` of its exported types, as `name` and `Type::name`."""
    found = set()
    for file in files:
        text = code(file)
        blocks = [(match.start(), match[1]) for match in BLOCK.finditer(text)]
        for match in FUNCTION.finditer(text):
            if is_law(text, match.start()):
                continue
            if not match[1]:
                if match[2] in names:
                    found.add(match[2])
            else:
                inside = [name for start, name in blocks if start < match.start()]
                if inside and inside[-1] in names:
                    found.add(f"{inside[-1]}::{match[2]}")
    return found


def is_called(call, texts):
    """Whether one of these texts has a call of that name."""
    owner, _, name = call.rpartition("::")
    shapes = rf"(?:\.|\b{owner}(?:::<[^>]*>)?::|Self::){name}\b" if owner else rf"(?<![\w.]){name}(?:::<[^;]*?>)?\("
    if not owner:
        shapes += rf"|[(,] *{name}[,)]"
    return any(re.search(shapes, text) for text in texts)


def main():
    libraries = sorted(os.path.dirname(os.path.dirname(file)) for file in glob.glob("crates/*/src/lib.rt"))
    crates = [f"crates/{name}" for name in sorted(os.listdir("crates"))]
    sources = {crate: [code(file) for file in glob.glob(f"{crate}/src/**/*.rt", recursive=True)] for crate in crates}
    exports = set()
    uncalled = set()
    for crate in libraries:
        if TESTS.match(os.path.basename(crate)):
            continue
        others = [text for other, texts in sources.items() if other != crate and not TESTS.match(os.path.basename(other)) for text in texts]
        with open(f"{crate}/src/lib.rt", encoding="utf-8") as lines:
            names = exported(lines.read())
        files = glob.glob(f"{crate}/src/**/*.rt", recursive=True)
        here = calls(files, names)
        exports.update(here | {call.partition("::")[0] for call in here})
        uncalled.update(call for call in here if not is_called(call, others))
    with open("docs/ARCHITECTURE.md", encoding="utf-8") as lines:
        said = [line for line in lines if line.startswith("Not called by the program")]
    named = set(re.findall(r"`([\w:]+)`", "".join(said)))
    uncalled = {call for call in uncalled if call.partition("::")[0] not in named}
    for call in sorted(uncalled - named):
        print(f"{call}: nobody calls it, and docs/ARCHITECTURE.md does not say why")
    gone = {call for call in named if call not in exports}
    for call in sorted(gone):
        print(f"{call}: docs/ARCHITECTURE.md names it, and no crate exports it")
    return 1 if uncalled - named or gone else 0


sys.exit(main())
PYTHON
