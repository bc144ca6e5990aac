#!/usr/bin/env python3
"""Whether trains keep to the crossings of plans: it knows ways alone, and no sections.

    ./build                                     builds the programs, once
    bench/ways.py examples/junction.toml ..     some plans
    bench/ways.py                               the plans of examples/ that have crossings

Of each plan it makes the document, certifies it, and looks at each state of `sim`, of `run` and of 40 runs of `weave`: no two trains may be
on ways of one crossing that aren't parallel. The ways are read from the plan, and where trains are from the lines of the run and the
missions of the document. Then it takes away each section before the plan's own, one at a time, and draws 60 runs without it: each section
that is needed is missed by some of them. A section of which no run shows this is named; others may keep the same out.
"""
import argparse
import itertools
import json
import random
import sys
import tomllib

from model import Yard, line_of
from programs import ROOT, called, command_of

WEAVES = 40
DRAWN = 60
SCISSORS = ((0, 1, 2), (3, 4, 5), (0, 1, 5), (0, 4, 5), (3, 4, 2), (3, 1, 2))


class Crossing:
    """The ways of a crossing by their names, and which of them trains may be on at once."""

    def __init__(self, name, ways, parallel):
        self.name, self.ways = name, ways
        self.parallel = {frozenset(pair) for group in parallel for pair in itertools.combinations(group, 2)}

    def ways_at(self, route, place):
        """The ways on which a train is at a place of its route: it goes along the whole way, in either direction, and is between the ends."""
        return {name for name, way in self.ways.items() if goes_over(way, route, place) or goes_over(way[::-1], route, place)}

    def is_kept(self, one, other):
        """Whether two trains may be on these ways at once."""
        return all(frozenset((u, v)) in self.parallel for u in one for v in other)


def goes_over(way, route, place):
    """Whether a place of a route is between the ends of a way that the route goes along."""
    return any(route[place - k : place - k + len(way)] == way for k in range(1, len(way) - 1) if k <= place)


def crossings_of(plan):
    """The crossings of a plan, its scissors and its ladders."""
    found = []
    for entry in plan.get("crossing", []):
        found.append(Crossing(entry.get("name"), entry["ways"], entry.get("parallel", [])))
    for entry in plan.get("scissors", []):
        points = [point for track in entry["tracks"] for point in track]
        ways = {str(number): [points[k] for k in way] for number, way in enumerate(SCISSORS)}
        found.append(Crossing(entry.get("name"), ways, [["0", "1"]]))
    for entry in plan.get("ladder", []):
        ways = {f"{lead} {road}": [lead, entry["name"], road] for lead in entry["leads"] for road in entry["roads"]}
        found.append(Crossing(entry["name"], ways, []))
    return found


def broken(crossings, yard):
    """The first crossing in which two trains are on ways that aren't parallel, and the trains."""
    for crossing in crossings:
        on = [crossing.ways_at(way, place) for way, place in zip(yard.table.ways, yard.state)]
        for one, other in itertools.combinations(range(len(on)), 2):
            if on[one] and on[other] and not crossing.is_kept(on[one], on[other]):
                return crossing.name, yard.trains[one], yard.trains[other]
    return None


def follow(crossings, document, lines):
    """How many states a run has, and what is broken in the first that breaks something."""
    yard, states = Yard(document), 1
    fault = broken(crossings, yard)
    for text in lines:
        form, words = line_of(text, yard) or (None, None)
        if form in (None, "end"):
            break
        if form != "move":
            yard.fault(states, form, words)
            continue
        yard.state[words["train"]] += 1
        states += 1
        fault = fault or broken(crossings, yard)
    return states, fault


def drawn(document, seed):
    """A run that is drawn: a state after each move, until all have arrived or none can move."""
    draw, yard = random.Random(seed), Yard(document)
    haste = [draw.random() + 0.05 for _ in yard.state]
    while True:
        free = [train for train in range(len(yard.state)) if yard.obstacle(train) is None]
        if not free:
            return
        yard.state[draw.choices(free, [haste[train] for train in free])[0]] += 1
        yield yard


def without(document, section):
    """The document without one section of its first table."""
    table = dict(document["tables"][0])
    table["sections"] = table["sections"][:section] + table["sections"][section + 1 :]
    return {**document, "tables": [table]}


def is_missed(crossings, document, section):
    """Whether a drawn run breaks something without a section."""
    lacking = without(document, section)
    return any(broken(crossings, yard) for seed in range(DRAWN) for yard in drawn(lacking, seed))


def runs_of(ats, text):
    """The lines of the runs of a certified document, each with its name."""
    weaves = [f"weave --seed {seed} --steps 200" for seed in range(WEAVES)]
    for name in ["sim", "run", *weaves]:
        status, written, said, _ = called(ats + name.split(), text)
        if status != 0:
            raise SystemExit(f"{name}: status {status}: {said}")
        yield name, written.splitlines()


def look(path, ats, planner):
    """Looks at one plan, and says what was found; whether nothing is wrong."""
    text = path.read_text()
    plan = tomllib.loads(text)
    crossings = crossings_of(plan)
    status, written, said, _ = called(planner + ["certify"], text)
    if status != 0:
        print(f"{path.name}: {said}")
        return False
    document = json.loads(written)
    states = faults = 0
    for name, lines in runs_of(ats, written):
        seen, fault = follow(crossings, document, lines)
        states += seen
        if fault:
            faults += 1
            print(f"{path.name}: {name}: {fault[1]} and {fault[2]} on {fault[0]}")
    made = len(document["tables"][0]["sections"]) - len(plan.get("section", []))
    needless = [section for section in range(made) if not is_missed(crossings, document, section)]
    print(f"{path.name}: {len(crossings)} crossings, {made} sections for them, {states} states, {faults} runs with a fault")
    for section in needless:
        print(f"{path.name}: no drawn run shows that section {section} is needed")
    return not faults and not needless


def main():
    parser = argparse.ArgumentParser(description=__doc__.splitlines()[0])
    parser.add_argument("plans", nargs="*", help="plans; if none, those of examples/ that have crossings")
    parser.add_argument("--ats", help="the command of ats")
    parser.add_argument("--planner", help="the command of planner")
    words = parser.parse_args()
    plans = [ROOT / plan for plan in words.plans] or [
        path for path in sorted((ROOT / "examples").glob("*.toml")) if crossings_of(tomllib.loads(path.read_text()))
    ]
    ats, planner = command_of(words.ats, "ats"), command_of(words.planner, "planner")
    return 0 if all([look(path, ats, planner) for path in plans]) else 1


if __name__ == "__main__":
    sys.exit(main())
