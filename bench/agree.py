#!/usr/bin/env python3
"""Draws documents and commands, runs two programs on them, and tells where their answers differ.

    ./build                              builds the program, once
    bench/agree.py OTHER                 20,000 cases of the built program beside another one of the same words
    bench/agree.py OTHER --cases 500     fewer

The draws are the same at each call. The documents have two to six trains on drawn walks through a small grid, some with exits, sections,
connections, travel times and further tables, a few with something wrong. Exit codes, what is written and what is said must be equal byte
for byte. Each document that differs is kept, and printed with its command.
"""
import argparse
import collections
import concurrent.futures
import json
import pathlib
import random
import subprocess
import sys
import tempfile
import time

HERE = pathlib.Path(__file__).resolve().parent
PROGRAM = HERE.parent / "crates" / "ats" / "out" / "ats"
PATIENCE = 60


def walk(draw, width, height, place, length):
    """A walk through a grid from a point on, without a step straight back where there is another."""
    before, way = None, []
    while len(way) < length:
        way.append(place)
        steps = [(place[0] + dx, place[1] + dy) for dx, dy in ((1, 0), (-1, 0), (0, 1), (0, -1))]
        steps = [it for it in steps if 0 <= it[0] < width and 0 <= it[1] < height and it != before] or [before]
        before, place = place, draw.choice(steps)
    return way


def section(draw, version, missions, exits):
    """A section with a limit, and shares that begin and end at 0."""
    changes = []
    for mission, leaves in zip(missions, exits):
        places = len(mission) + leaves
        shares = [0] * places
        if draw.random() < 0.7 and places > 2:
            first = draw.randrange(1, places - 1)
            for place in range(first, draw.randrange(first, places - 1) + 1):
                shares[place] = draw.randint(1, 4 if version > 1 else 1)
        changes.append([share - before for share, before in zip(shares, [0] + shares)])
    return {"limit": draw.randint(1, 4 if version > 1 else 2), "changes": changes}


def connection(draw, missions, exits):
    """A connection, most often one of two trains and of places that there are."""
    train, other = draw.sample(range(len(missions)), 2)
    most = lambda number: len(missions[number]) - 1 + exits[number]
    return [train, draw.randint(0, max(0, most(train) - (draw.random() < 0.9))), other, draw.randint(0, most(other))]


def table(draw, version, trains, former):
    """A table: the missions of the former one, some with another end, or drawn ones."""
    starts = draw.sample([(x, y) for x in range(4) for y in range(3)], trains)
    ways = [walk(draw, 4, 3, place, draw.randint(1, 6)) for place in starts]
    missions = [[f"P{x}_{y}" for x, y in way] for way in ways]
    exits = [version > 1 and draw.random() < 0.5 for _ in range(trains)]
    if former:
        changed = draw.randrange(trains) if draw.random() < 0.5 else None
        missions = [missions[train] if train == changed else mission for train, mission in enumerate(former["missions"])]
        exits = former["exits"] if draw.random() < 0.8 else exits
    drawn = {"missions": missions, "exits": exits, "after": draw.randint(0, 6) if former else 0}
    drawn["sections"] = [section(draw, version, missions, exits) for _ in range(draw.choice([0, 0, 1, 2, 5]))]
    if version == 3:
        drawn["connections"] = [
            connection(draw, missions, exits) for _ in range(draw.choice([0, 1, 2]))
        ]
    if draw.random() < 0.5:
        drawn["times"] = [[draw.randint(1, 9) for _ in range(len(mission) - 1 + leaves)] for mission, leaves in zip(missions, exits)]
    return drawn


def document(draw):
    version, trains, zones = draw.randint(1, 3), draw.randint(2, 6), draw.choice([1, 1, 2, 4])
    tables = []
    for _ in range(draw.choice([1, 1, 1, 2, 3])):
        tables.append(table(draw, version, trains, tables[-1] if tables else None))
    points = [(x, y) for y in range(3) for x in range(4)]
    links = [[f"P{x}_{y}", f"P{p}_{q}"] for x, y in points for p, q in ((x + 1, y), (x, y + 1)) if p < 4 and q < 3]
    drawn = {
        "version": version, "points": [[f"P{x}_{y}", k % zones] for k, (x, y) in enumerate(points)], "links": links, "zones": zones,
        "trains": [f"T{i}" for i in range(trains)], "start": [0] * trains, "tables": tables,
    }
    if draw.random() < 0.1:
        drawn["start"][draw.randrange(trains)] = draw.randrange(4)
    return drawn


def first_words(draw):
    """A command that needs no certificate."""
    budget = ["--budget", str(draw.choice([1, 5, 30, 200, 3000]))] if draw.random() < 0.4 else ["--budget", "20000"]
    command = draw.choice(["make", "make", "make", "repair", "repair", "derive", "migrate", "check"])
    if command == "repair" and draw.random() < 0.5:
        budget += ["--rounds", str(draw.choice([0, 1, 3, 20]))]
    if command == "derive":
        budget += ["--most", str(draw.randint(2, 5))]
    return [command, *(budget if command in ("make", "repair", "derive") else [])]


def later_words(draw):
    """A command on a document with a certificate."""
    weave = ["weave", "--seed", str(draw.randrange(1000)), "--steps", str(draw.choice([0, 1, 20, 300, 5000]))]
    return draw.choice([["run"], ["check"], ["sim"], weave])


def answer(program, words, text):
    ran = subprocess.run([program, *words], input=text, capture_output=True, timeout=PATIENCE)
    return ran.returncode, ran.stdout, ran.stderr


def case(number, other, program=PROGRAM):
    """One case: the command on a drawn document, and another on what it writes. Gives the words and the text that differ, if any."""
    draw = random.Random(number)
    words, text = first_words(draw), json.dumps(document(draw)).encode()
    mine = answer(program, words, text)
    if mine != answer(other, words, text):
        return words[0], mine[0], (words, text)
    if mine[0] or words[0] not in ("make", "repair", "derive"):
        return words[0], mine[0], None
    words, text = later_words(draw), mine[1]
    mine = answer(program, words, text)
    if mine != answer(other, words, text):
        return words[0], mine[0], (words, text)
    if words[0] != "run":
        return words[0], mine[0], None
    lines = mine[1].splitlines(keepends=True)
    words, text = draw.choice([["verify"], ["resume"]]), text + b"journal\n" + b"".join(lines[: draw.randrange(len(lines) + 1)])
    mine = answer(program, words, text)
    return words[0], mine[0], None if mine == answer(other, words, text) else (words, text)


def main():
    asked = argparse.ArgumentParser(description="Draws documents and commands, and compares the answers of two programs.")
    asked.add_argument("other", help="a program of the same words")
    asked.add_argument("--cases", type=int, default=20_000)
    asked.add_argument("--beside", type=int, default=2, help="how many cases beside each other")
    asked = asked.parse_args()
    if not PROGRAM.exists():
        sys.exit("build the program first: ./build")
    began, counts, faults = time.time(), collections.Counter(), 0
    with concurrent.futures.ThreadPoolExecutor(asked.beside) as pool:
        for last, code, differs in pool.map(lambda number: case(number, asked.other), range(asked.cases)):
            counts[f"{last} {code}"] += 1
            if differs:
                faults += 1
                with tempfile.NamedTemporaryFile(delete=False) as kept:
                    kept.write(differs[1])
                print(f"{' '.join(differs[0])} < {kept.name}", flush=True)
    print(", ".join(f"{ended}: {count}" for ended, count in sorted(counts.items())))
    print(f"{asked.cases} cases in {time.time() - began:.0f} s, {faults} differ")
    return 1 if faults else 0


if __name__ == "__main__":
    sys.exit(main())
