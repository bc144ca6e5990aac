#!/usr/bin/env python3
"""Renews the numbers of lines in docs/definitions.md and of bugs in bench/planted/README.md. Prints which definition files, and which
crates with planted bugs, are in a table twice, in none, or gone; and which crates have another number of other files than their row says.

A row with a crate, names of files and a number counts these files of the crate's folder `specs/`. A row of the last table has the number
of the crate's other files, and counts them. The row `all` sums all of them; any other row with a number sums the rows of the table that it
ends. A row of bugs has crates, how many of their bugs are in files and let through, and what the toolchain's came to, which stays.
"""
import glob
import os
import re

HERE = os.path.dirname(os.path.abspath(__file__))
ROOT = os.path.dirname(HERE)
PAGE = os.path.join(HERE, "definitions.md")
FILES = re.compile(r"\| `(\w+)` \| ([A-Z][\w, ]+) \| \d+ \|(.*)")
OTHERS = re.compile(r"\| `(\w+)` \| (\d+) \| \d+ \|")
SUM = re.compile(r"\| ([\w ]+) \| \| \d+ \|(.*)")
PLANTED = os.path.join(ROOT, "bench", "planted")
BUGS = re.compile(r"\| (`\w+`(?:, `\w+`)*) \| \d+ \| \d+ \| (\d+|–) \| (\d+|–) \|")
ALL_BUGS = re.compile(r"\| all \|(?: \d+ \|){4}")


def lines_of(path):
    with open(os.path.join(ROOT, path), "rb") as file:
        return file.read().count(b"\n")


def count_of(crate, names, seen):
    """The lines of a crate's files with these names, each of which is added to those seen."""
    count = 0
    for name in names.split(", "):
        path = f"crates/{crate}/specs/{name}.antt"
        if not os.path.exists(os.path.join(ROOT, path)):
            print("no such file any more:", path)
        elif path in seen:
            print("twice:", path)
        else:
            seen.add(path)
            count += lines_of(path)
    return count


def others_of(crate, seen):
    """The names of a crate's files that aren't among those seen."""
    paths = {os.path.relpath(path, ROOT) for path in glob.glob(os.path.join(ROOT, f"crates/{crate}/specs/*.antt"))}
    return sorted(os.path.basename(path)[:-len(".antt")] for path in paths - seen if not path.endswith("/Lib.antt"))


def bugs_of(crate):
    """How many bugs are planted in a crate, and how many of them are let through."""
    path = os.path.join(PLANTED, f"{crate}.txt")
    if not os.path.exists(path):
        print("no planted bugs any more:", crate)
        return 0, 0
    with open(path) as file:
        names = re.findall(r"^== (.*)", file.read(), re.M)
    return len(names), sum(name.startswith("survivor_") for name in names)


def count_bugs():
    """Renews the table of planted bugs."""
    page = os.path.join(PLANTED, "README.md")
    with open(page) as file:
        rows = file.read().split("\n")
    seen, sums = [], [0, 0, 0, 0]
    for number, row in enumerate(rows):
        found = BUGS.fullmatch(row)
        if found:
            crates = re.findall(r"\w+", found[1])
            seen += crates
            here, through = (sum(counts) for counts in zip(*map(bugs_of, crates)))
            figures = [str(here), str(through), found[2], found[3]]
            sums = [sum_so_far + int(it.replace("–", "0")) for sum_so_far, it in zip(sums, figures)]
            rows[number] = f"| {found[1]} | {' | '.join(figures)} |"
        elif ALL_BUGS.fullmatch(row):
            rows[number] = f"| all | {' | '.join(map(str, sums))} |"
    with open(page, "w") as file:
        file.write("\n".join(rows))
    files = {os.path.basename(path)[:-len(".txt")] for path in glob.glob(os.path.join(PLANTED, "*.txt"))}
    for crate in sorted(files - set(seen)):
        print("no row of planted bugs:", crate)
    for crate in sorted({crate for crate in seen if seen.count(crate) > 1}):
        print("planted bugs twice:", crate)


def count_lines():
    """Renews the tables of definition files."""
    with open(PAGE) as page:
        rows = page.read().split("\n")
    seen, part, every = set(), 0, 0
    for number, row in enumerate(rows):
        files, others, total = FILES.fullmatch(row), OTHERS.fullmatch(row), SUM.fullmatch(row)
        if files:
            crate, names, words = files.groups()
            count = count_of(crate, names, seen)
            part += count
            every += count
            rows[number] = f"| `{crate}` | {names} | {count} |{words}"
        elif others:
            crate, former = others.groups()
            names = others_of(crate, seen)
            if len(names) != int(former):
                print(f"{crate} has {len(names)} other files, and had {former}:", ", ".join(names))
            count = count_of(crate, ", ".join(names), seen) if names else 0
            part += count
            every += count
            rows[number] = f"| `{crate}` | {len(names)} | {count} |"
        elif total:
            name, words = total.groups()
            rows[number] = f"| {name} | | {every if name == 'all' else part} |{words}"
            part = 0
    with open(PAGE, "w") as page:
        page.write("\n".join(rows))
    found = {os.path.relpath(path, ROOT) for path in glob.glob(os.path.join(ROOT, "crates/*/specs/*.antt"))}
    for path in sorted(found - seen):
        if not path.endswith("/Lib.antt"):
            print("in no table:", path)


if __name__ == "__main__":
    count_lines()
    count_bugs()
