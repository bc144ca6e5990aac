#!/usr/bin/env python3
"""Says which parts of a crate's proof took longest in its last check from scratch.

    rm -rf crates/NAME/out && (cd crates/NAME && rt check --jobs 1)
    tools/slowest.py NAME [HOW_MANY]

A check keeps each module in a file as soon as it is proved, so the times of the files tell how long each took. With more than one job, or
after a second check, they don't. `NAME.Lts` is what the toolchain makes of the function NAME, `NAME.Proof` its proof of that, and
`NAME.Answers` our proofs of its goals; other modules are definitions and lemmas. Seconds are by the clock, so other work on the machine
adds to them.
"""
import pathlib
import re
import sys

CRATES = pathlib.Path(__file__).resolve().parent.parent / "crates"


def module_of(file, crate):
    """The module that a kept file is of: its name without the crate and the endings."""
    name = file.name.removesuffix(".oantt").removesuffix(".decls")
    return re.sub(rf"^Rattle-{crate}-?(proofs\.)?", "", name) or crate


def seconds_by_module(crate):
    """How long each module took: the time since the file that was written before, for both of its files."""
    files = sorted((CRATES / crate / "out" / "incremental").rglob("*.oantt"), key=lambda file: file.stat().st_mtime_ns)
    taken = {}
    for before, file in zip(files, files[1:]):
        module = module_of(file, crate)
        taken[module] = taken.get(module, 0) + (file.stat().st_mtime_ns - before.stat().st_mtime_ns) / 1e9
    return taken


def main(words):
    taken = seconds_by_module(words[0]) if words else {}
    if not taken:
        print("usage: tools/slowest.py CRATE [HOW_MANY], after a check from scratch (the head of this file says how)", file=sys.stderr)
        return 2
    total = sum(taken.values())
    print(f"{total:8.1f} in all, {len(taken)} modules")
    for module in sorted(taken, key=taken.get, reverse=True)[: int(words[1]) if len(words) > 1 else 20]:
        print(f"{taken[module]:8.1f} {100 * taken[module] / total:5.1f}% {module}")
    return 0


if __name__ == "__main__":
    sys.exit(main(sys.argv[1:]))
