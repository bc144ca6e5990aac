#!/usr/bin/env python3
"""Runs documents by many threads, and has `verify` check every journal.

    ./build                        builds the program, once
    bench/stress.py                10,000 runs
    bench/stress.py --runs 500     fewer

The documents are the examples, documents of `gen` with up to 32 trains, and each of these with its points dealt to 1, 4 or 16 zones and
with up to three further tables. Each run draws its document, 1 to 16 workers, the rounds, and the steps of a block; the draws are the
same at each call, the schedules are not. A run that doesn't end with 0, takes longer than half a minute, or whose journal `verify`
refuses, is printed with its words, and its document is kept. It is no part of the gate, since it takes minutes.
"""
import argparse
import collections
import concurrent.futures
import json
import os
import pathlib
import random
import subprocess
import sys
import tempfile
import time

HERE = pathlib.Path(__file__).resolve().parent
PROGRAM = HERE.parent / "crates" / "ats" / "out" / "ats"
PATIENCE = 30


def ats(words, text):
    return subprocess.run([PROGRAM, *words], input=text, capture_output=True, timeout=PATIENCE)


def in_zones(document, zones):
    """The document with its points dealt to as many zones as there are points for."""
    zones = min(zones, len(document["points"]))
    points = [[name, number % zones] for number, (name, _) in enumerate(document["points"])]
    return {**document, "zones": zones, "points": points}


def with_tables(document, afters):
    """The document with further tables like its last one, each due after a number of moves."""
    last = document["tables"][-1]
    later = max(table.get("after", 0) for table in document["tables"])
    return {**document, "tables": document["tables"] + [{**last, "after": later + after} for after in afters]}


def read(text):
    return json.loads(text)


def documents():
    """The documents, by a name that says how each is made."""
    plain = {}
    for file in sorted((HERE.parent / "examples").glob("*.json")):
        if ats(["run"], file.read_bytes()).returncode == 0:
            plain[file.stem] = read(file.read_bytes())
    for trains in (2, 5, 8, 16, 31, 32):
        for seed in range(3):
            made = ats(["gen", "--seed", str(seed), "--trains", str(trains)], b"")
            plain[f"gen of {trains} trains, seed {seed}"] = read(made.stdout)
    found = {}
    for name, document in plain.items():
        for zones in (1, 4, 16):
            for afters in ((), (1,), (0, 3, 20)):
                varied = with_tables(in_zones(document, zones), afters)
                found[f"{name}; {zones} zones; {len(varied['tables'])} tables"] = json.dumps(varied).encode()
    return found


def words_of(draw):
    words = ["run", "--workers", str(draw.randint(1, 16))]
    if draw.random() < 0.7:
        words += ["--rounds", str(draw.choice([0, 1, 2, 7, 40, 1000]))]
    if draw.random() < 0.6:
        words += ["--block", str(draw.randint(1, 4))]
    return words


def fault_of(words, text):
    """What is wrong with one run, if anything is."""
    try:
        ran = ats(words, text)
        if ran.returncode:
            return f"status {ran.returncode}: {ran.stderr.decode().strip()}"
        checked = ats(["verify"], text + b"\njournal\n" + ran.stdout)
        return "" if checked.returncode == 0 else f"verify: {checked.stderr.decode().strip()}"
    except subprocess.TimeoutExpired:
        return f"no end after {PATIENCE} seconds"


def main():
    asked = argparse.ArgumentParser(description="Runs documents by many threads, and has verify check every journal.")
    asked.add_argument("--runs", type=int, default=10_000)
    asked.add_argument("--beside", type=int, default=2, help="how many runs beside each other")
    asked = asked.parse_args()
    if not PROGRAM.exists():
        sys.exit("build the program first: ./build")
    draw, found = random.Random(1), documents()
    names, began, faults = list(found), time.time(), 0
    drawn = [(draw.choice(names), words_of(draw)) for _ in range(asked.runs)]
    by_workers = collections.Counter(words[2] for _, words in drawn)
    with concurrent.futures.ThreadPoolExecutor(asked.beside) as pool:
        answers = pool.map(lambda it: fault_of(it[1], found[it[0]]), drawn)
        for (name, words), fault in zip(drawn, answers):
            if fault:
                faults += 1
                with tempfile.NamedTemporaryFile(suffix=".json", delete=False) as kept:
                    kept.write(found[name])
                print(f"{' '.join(words)} on {name} ({kept.name}): {fault}", flush=True)
    counts = ", ".join(f"{workers}: {by_workers[workers]}" for workers in sorted(by_workers, key=int))
    print(f"{asked.runs} runs of {len(found)} documents in {time.time() - began:.0f} s, {faults} faults; by workers {counts}")
    return 1 if faults else 0


if __name__ == "__main__":
    sys.exit(main())
