#!/usr/bin/env python3
"""Says whether everything has the same version: planner, dispatch, the man pages and the newest entry of CHANGELOG.md.

    tools/version.py            prints each place with its number; exit status 1 if two differ
    tools/version.py 1.2.0      first writes this number wherever it stands; CHANGELOG.md gets its heading by hand

If planner or dispatch is built, what it prints for `--version` is looked at, too.
"""
import pathlib
import re
import subprocess
import sys

ROOT = pathlib.Path(__file__).resolve().parent.parent
NUMBER = r"(\d+\.\d+\.\d+)"
# Where the number stands, and the text before it.
PLACES = {
    "CHANGELOG.md": rf"(?m)^## {NUMBER}",
    "crates/planner_words/src/asking.rt": rf'\.version\("{NUMBER}"\)',
    "crates/dispatch_run/src/asking.rt": rf'\.version\("{NUMBER}"\)',
    "docs/ats.1": rf'\A\.TH ATS 1 "" "ats {NUMBER}"',
    "docs/dispatch.1": rf'\A\.TH DISPATCH 1 "" "dispatch {NUMBER}"',
    "docs/planner.1": rf'\A\.TH PLANNER 1 "" "planner {NUMBER}"',
}


def found():
    """Each place with its number, or None."""
    numbers = {}
    for file, pattern in PLACES.items():
        at = re.search(pattern, (ROOT / file).read_text())
        numbers[file] = at and at[1]
    for program in ("planner", "dispatch"):
        built = ROOT / f"crates/{program}/out/{program}"
        if built.exists():
            said = subprocess.run([built, "--version"], capture_output=True, text=True).stdout
            at = re.search(NUMBER, said)
            numbers[f"{program} --version"] = at and at[1]
    return numbers


def write(number):
    for file, pattern in PLACES.items():
        if file != "CHANGELOG.md":
            text = (ROOT / file).read_text()
            at = re.search(pattern, text)
            (ROOT / file).write_text(text[: at.start(1)] + number + text[at.end(1) :])


def main():
    if sys.argv[1:]:
        if not re.fullmatch(NUMBER, sys.argv[1]):
            sys.exit(f"{sys.argv[1]} isn't a version: three numbers with dots")
        write(sys.argv[1])
    numbers = found()
    for place, number in numbers.items():
        print(f"{number or 'none':>8}  {place}")
    return 0 if len(set(numbers.values())) == 1 and None not in numbers.values() else 1


if __name__ == "__main__":
    sys.exit(main())
