#!/usr/bin/env python3
"""Lists the places in which the crates' code or proofs share six or more lines.

    tools/repeats.py [--code | --proofs] [CRATE..] [-- OPTIONS OF duplicates]

The command `duplicates` reads neither .rt nor .antt files. This copies them, as .rs and .hs files, to a temporary folder, without what the
toolchain makes (out/), and runs it there. A row is a place to look at, not a verdict.
"""
import pathlib
import shutil
import subprocess
import sys
import tempfile

CRATES = pathlib.Path(__file__).resolve().parent.parent / "crates"
ENDINGS = {".rt": ".rs", ".antt": ".hs"}


def copied(names, endings, to):
    """Copies the files of the crates with these endings, and says how many there were."""
    count = 0
    for name in names:
        for file in (CRATES / name).rglob("*"):
            path = file.relative_to(CRATES)
            if file.suffix in endings and path.parts[1] != "out":
                copy = (to / path).with_suffix(endings[file.suffix])
                copy.parent.mkdir(parents=True, exist_ok=True)
                shutil.copy(file, copy)
                count += 1
    return count


def main(words):
    options = []
    if "--" in words:
        words, options = words[: words.index("--")], words[words.index("--") + 1 :]
    endings = dict(ENDINGS)
    if "--code" in words:
        del endings[".antt"]
    if "--proofs" in words:
        del endings[".rt"]
    names = [word for word in words if not word.startswith("--")] or sorted(path.name for path in CRATES.iterdir() if path.is_dir())
    if not shutil.which("duplicates"):
        print("repeats: there is no command duplicates on the path", file=sys.stderr)
        return 2
    with tempfile.TemporaryDirectory() as folder:
        if not copied(names, endings, pathlib.Path(folder)):
            print("repeats: no such files", file=sys.stderr)
            return 2
        return subprocess.run(["duplicates", "--repo", folder, *options], check=False).returncode


if __name__ == "__main__":
    sys.exit(main(sys.argv[1:]))
