#!/usr/bin/env python3
"""Draws small documents, goes through all their states, and tells where `planner` and `ats` say otherwise.

    bench/search.py                              20,000 documents, with those commands that planner has
    bench/search.py --cases 500 certify order    fewer, and some commands

Of each document it asks:
  certify   ends as `ats make` does, if that ends: with certificates that `ats check` accepts where no state of any table is stuck, else
            with a state that is stuck, and what is told of runs to it is so; a document that `ats` refuses gets the same cause
  explain   `--at .. --run` of the stuck state, and of a drawn legal one: a run that is right and ends there, or no run where there is none
  order     keeps the document but for sections, and its sections, first; forbids no state that a run from the start reaches, and leaves
            the same states reached
  of-run    the same of `order --of-run`, but for the states: the drawn journal that it is given verifies under the new document, or with
            the first lines of it, or with none, all trains can still arrive; so says `ats verify`, if `ats make` certifies the document
  protect   keeps the document but for sections and certificates, and its sections, first; its legal states are those that can be
            completed, each under its table; `ats check` accepts the certificates

The draws are the same at each call: trains on walks through a small grid (agree.py), and trains that follow or meet one another on one
way. The states are those of states.py. Each document with a fault is kept and named. It ends with 1 if there is any.
"""
import argparse
import collections
import json
import multiprocessing
import random
import re
import sys
import tempfile
import time

import agree
from model import FORMS, Yard, line_of, verdict
from programs import called, command_of, compact
from states import States, count

MOST_STATES, BUDGET = 2000, 100_000
LEADS, LEADS_NOT = "A run from the start leads there:\n", "No run from the start leads there."
APART = re.compile(r"No run from the start leads there, since (\S+) and (\S+) are never both at these places\.")
STARTS = "The trains are there at the start: no move is needed."
COMMANDS = ["certify", "explain", "order", "of-run", "protect"]


def on_one_way(draw):
    """A document whose trains go along one walk, most in one direction, some from places further on."""
    trains = draw.randint(2, 4)
    way = list(dict.fromkeys(agree.walk(draw, 4, 3, (draw.randrange(4), draw.randrange(3)), draw.randint(6, 12))))
    names = [f"P{x}_{y}" for x, y in way]
    while any(abs(a[0] - b[0]) + abs(a[1] - b[1]) != 1 for a, b in zip(way, way[1:])):
        way.pop()
    names = names[: len(way)]
    if len(names) < 2:
        return None
    missions, start = [], []
    for first in sorted(draw.sample(range(len(names)), min(trains, len(names))), reverse=True):
        begun = draw.randint(0, min(2, first))
        mission = names[first - begun : len(names) - draw.choice([0, 0, 0, 1])]
        if draw.random() < 0.05:
            mission, begun = names[first::-1], 0
        missions.append(mission or names[first : first + 1])
        start.append(min(begun, len(missions[-1]) - 1))
    all_leave = draw.random() < 0.8
    exits = [all_leave or draw.random() < 0.5 for _ in missions]
    sections = [agree.section(draw, 3, missions, exits) for _ in range(draw.choice([0, 0, 0, 1, 2]))]
    table = {"missions": missions, "exits": exits, "sections": sections}
    if draw.random() < 0.2:
        table["connections"] = [agree.connection(draw, missions, exits)]
    tables = [table]
    if draw.random() < 0.15:
        tables.append({**table, "after": draw.randint(0, 4), "sections": [agree.section(draw, 3, missions, exits)]})
    points = [(x, y) for y in range(3) for x in range(4)]
    links = [[f"P{x}_{y}", f"P{p}_{q}"] for x, y in points for p, q in ((x + 1, y), (x, y + 1)) if p < 4 and q < 3]
    return {
        "version": 3, "points": [[f"P{x}_{y}", 0] for x, y in points], "links": links, "zones": 1,
        "trains": [f"T{train}" for train in range(len(missions))], "start": start, "tables": tables,
    }


def first_trains(document, trains):
    """The document with its first trains alone."""
    for member in ("trains", "start"):
        document[member] = document[member][:trains]
    for table in document["tables"]:
        table.pop("connections", None)
        for member in ("missions", "exits", "times"):
            if member in table:
                table[member] = table[member][:trains]
        for section in table["sections"]:
            section["changes"] = section["changes"][:trains]
    return document


def drawn(number):
    """A document of few states."""
    draw = random.Random(number)
    while True:
        document = on_one_way(draw) if draw.random() < 0.7 else agree.document(draw)
        if document and draw.random() < 0.02:
            document = first_trains(document, draw.randint(0, 1))
        if document and count(document) <= MOST_STATES:
            return document


def text_of(form, words):
    """A line of a journal."""
    words = {word: "-" if value is None else str(value) for word, value in words.items()}
    return re.sub("<([a-z]+)>", lambda it: words[it[1]], FORMS[form])


def without(document, *members):
    return {**document, "tables": [{key: value for key, value in table.items() if key not in members} for table in document["tables"]]}


class Case:
    """One document, what the programs say of it, and the faults that were found."""

    def __init__(self, number, asked):
        self.asked, self.document = asked, drawn(number)
        self.draw = random.Random(-number - 1)
        self.text = compact(self.document)
        self.faults, self.counts = [], collections.Counter()
        self.states = None

    def run(self, program, words, text=None):
        code, written, said, _ = called([*self.asked[program], *words], self.text if text is None else text)
        if code < 0:
            self.faults.append(f"{' '.join(words)} ended with {code}")
        return code, written, said

    def expect(self, is_so, fault):
        if not is_so:
            self.faults.append(fault)
        return is_so

    def judge(self):
        made = self.run("ats", ["make", "--budget", str(BUDGET)])
        self.counts[f"make {made[0]}"] += 1
        if made[0] == 3:
            for command in set(self.asked["commands"]) - {"explain"}:
                self.refused(command, made[2])
            return
        self.states = States(self.document)
        table = self.states.first_stuck_table()
        self.expect(made[0] == 5 or (made[0] == 0) == (table is None), f"make ended with {made[0]}; the first stuck table is {table}")
        at = self.named("make", made[2], table) if made[0] == 6 else None
        for command in self.asked["commands"]:
            getattr(self, command.replace("-", "_"))(*([made, table] if command == "certify" else [at] if command == "explain" else []))

    def refused(self, command, line):
        code, written, said = self.run("planner", ["order", "--of-run", "1"] if command == "of-run" else [command])
        same = code == 1 and not written and line.removeprefix("ats: ") in said
        self.expect(same, f"{command} ended with {code} where ats says {line}: {said}")
        self.counts[f"{command} refuses"] += 1

    def named(self, command, said, table):
        """The stuck state of the line `206 Stuck`, which has to be one of the first table that has any."""
        words = dict(word.split("=", 1) for word in said.partition("\n")[0].split() if "=" in word)
        at = tuple(int(place) for place in words.get("at", "").split(",") if place.isdigit())
        number = words.get("table", "")
        if not self.expect(len(at) == len(self.states.trains) and number.isdigit(), f"{command} names no state: {said}"):
            return None
        number = int(number)
        if self.expect(number == table, f"{command} names a state of table {number}; the first stuck one is of table {table}"):
            self.expect(self.states.is_stuck(number, at), f"{command} names a state that isn't stuck: {said}")
        return number, at

    def accepted(self, command, written):
        checked = self.run("ats", ["check"], written)
        self.expect(checked[0] == 0, f"{command}: check says {checked[2]}")

    def certify(self, made, table):
        code, written, said = self.run("planner", ["certify", "--budget", str(BUDGET)])
        if code == 0:
            self.counts["certify 0"] += 1
            self.expect(table is None, f"certify ended with 0, and table {table} has a stuck state")
            self.accepted("certify", written)
            if made[0] == 0:
                same = without(json.loads(written), "certificate") == without(json.loads(made[1]), "certificate")
                self.expect(same, "certify wrote another document than make, not only other certificates")
        elif "206 Stuck" in said:
            self.counts["certify stuck"] += 1
            self.expect(code == 1 and not written and table is not None, f"certify names a stuck state, and there is none: {said}")
            number, at = self.named("certify", said, table) or (None, None)
            if at:
                self.run_told("certify", said, number, at, (number, at) in self.states.reached())
        else:
            self.counts["certify gave up"] += 1
            self.expect(code == 1 and not written and "gave up" in said, f"certify ended with {code}: {said}")

    def explain(self, stuck):
        asks = [stuck] if stuck else []
        number = self.draw.randrange(len(self.states.tables))
        if self.states.legal[number]:
            asks.append((number, self.draw.choice(sorted(self.states.legal[number]))))
        reached = self.states.reached()
        for number, at in asks:
            if at:
                self.explained(number, at, (number, at) in reached)

    def explained(self, number, at, is_reached):
        words = ["explain", "--at", ",".join(map(str, at)), "--table", str(number), "--run"]
        code, written, said = self.run("planner", words)
        about = " ".join(words)
        self.expect(code == 0, f"{about} ended with {code}: {said}")
        self.run_told(about, written, number, at, is_reached)

    def run_told(self, about, told, number, at, is_reached):
        """What is told of runs to a state has to be so."""
        yard, command = Yard(self.document), about.split()[0]
        _, leads, text = told.partition(LEADS)
        if leads:
            self.counts[f"{command}: a run"] += 1
            right = self.is_right(yard, text.splitlines())
            ends = yard.table is yard.tables[number] and tuple(yard.state) == at
            self.expect(right and ends, f"{about} wrote a run that {'ends elsewhere' if right else 'is wrong'}")
        elif STARTS in told:
            self.counts[f"{command}: a run"] += 1
            self.expect(number == 0 and tuple(yard.state) == at, f"{about} says that no move is needed, and the trains are elsewhere")
        elif LEADS_NOT in told:
            self.counts[f"{command}: no run"] += 1
            self.expect(not is_reached, f"{about} says that there is no run, and there is one")
        elif found := APART.search(told):
            self.counts[f"{command}: two apart"] += 1
            first, second = (self.document["trains"].index(name) for name in found.groups())
            both = [state for table, state in self.states.reached() if table == number and state[first] == at[first] and state[second] == at[second]]
            self.expect(not both, f"{about} says that two trains are never both there, and a run has them there")
        else:
            self.counts[f"{command}: not known"] += 1
            self.expect("were searched, and neither" in told, f"{about} says nothing of a run")

    @staticmethod
    def is_right(yard, lines):
        """Whether these are the first lines of a right journal; the yard is then in the state that they lead to."""
        for number, line in enumerate(lines, 1):
            found = line_of(line, yard)
            if not found or found[1].pop("n", None) != number or yard.fault(number, *found):
                return False
        return True

    def whole(self, text):
        """A document with all its members, as `migrate` writes it."""
        return json.loads(self.run("ats", ["migrate"], text)[1])

    def kept(self, command, written):
        """The states of what was written, if that is the document with further sections, behind its own."""
        former, after = self.whole(self.text), self.whole(written)
        same = without(former, "sections", "certificate") == without(after, "sections", "certificate")
        self.expect(same, f"{command} changed more than sections and certificates")
        for old, new in zip(former["tables"], after["tables"]):
            own, some = old["sections"], new["sections"]
            self.expect(some[: len(own)] == own, f"{command} changed or moved a section")
            self.expect(len(some) <= 64, f"{command} wrote {len(some)} sections")
            self.counts[f"{command}: sections"] += len(some) - len(own)
        return States(after)

    def order(self):
        code, written, said = self.run("planner", ["order"])
        self.counts[f"order {code}"] += 1
        if code != 0:
            self.expect(code == 1 and not written and said, f"order ended with {code}: {said}")
            return
        after, reached = self.kept("order", written), self.states.reached()
        forbidden = sorted((number, state) for number, state in reached if state not in after.legal[number])
        self.expect(not forbidden, f"order forbids states that are reached: {forbidden[:3]}")
        self.expect(forbidden or after.reached() == reached, "order changed which states are reached")

    def drawn_run(self):
        """The yard at the end of a drawn run, and the lines of its journal."""
        yard, lines = Yard(self.document), []
        while True:
            table = yard.answer(yard.tried + 1)
            movers = [train for train in range(len(yard.state)) if yard.obstacle(train) is None]
            if table:
                form, words = table
            elif movers:
                train = self.draw.choice(movers)
                place = yard.state[train]
                form, words = "move", dict(zip(("train", "from", "to"), (train, *yard.table.ways[train][place : place + 2])))
            else:
                return yard, lines
            yard.fault(len(lines) + 1, form, words)
            named = {**words, "train": yard.trains[words["train"]]} if "train" in words else words
            lines.append(text_of(form, {**named, "n": len(lines) + 1}))

    def of_run(self):
        yard, lines = self.drawn_run()
        is_whole = yard.first_unfinished() is None and yard.tried + 1 == len(yard.tables)
        end = f"end moves={yard.moves} tables={yard.exchanges}\n"
        given = lines if is_whole and self.draw.random() < 0.6 else lines[: self.draw.choice([0, 0, len(lines) // 2])]
        is_given = is_whole and len(given) == len(lines)
        journal = "".join(line + "\n" for line in given) + (end if is_given else "")
        words = ["order", "--of-run", str(self.draw.choice([0, self.draw.randrange(2**32)]))]
        code, written, said = self.run("planner", words, self.text + "journal\n" * bool(journal) + journal)
        self.counts[f"of-run {code}, {'given' if is_given else 'begun' if journal else 'drawn'}"] += 1
        if code != 0:
            expected = code == 1 and not written and said and (not is_given or "no room is left" in said)
            self.expect(expected, f"{' '.join(words)} ended with {code}: {said}")
            return
        after = self.kept("of-run", written)
        last = len(self.states.tables) - 1
        ends = tuple(len(way) - 1 for way in Yard(self.document).tables[last].ways)
        self.expect(is_given or last > 0 or (last, ends) in after.reached(), "of-run: the trains can't arrive any more")
        if is_given:
            found = verdict(self.whole(written), journal.encode())
            self.expect(found.startswith("ok "), f"of-run: the run doesn't verify under the new document: {found}")
            made = self.run("ats", ["make", "--budget", str(BUDGET)], written)
            if made[0] == 0:
                checked = self.run("ats", ["verify"], made[1] + "journal\n" + journal)
                self.counts[f"of-run verify {checked[0]}"] += 1
                self.expect(checked[0] == 0, f"of-run: verify says {checked[2]}")

    def protect(self):
        code, written, said = self.run("planner", ["protect"])
        self.counts[f"protect {code}"] += 1
        if code != 0:
            self.expect(code == 1 and not written and said, f"protect ended with {code}: {said}")
            return
        after = self.kept("protect", written)
        self.accepted("protect", written)
        for number in range(len(self.states.tables)):
            lost = sorted(self.states.completing(number) - after.legal[number])
            self.expect(not lost, f"protect forbids states of table {number} that can be completed: {lost[:3]}")
            kept = sorted(after.legal[number] - self.states.completing(number))
            self.expect(not kept, f"protect keeps states of table {number} that can't be completed: {kept[:3]}")


def case(task):
    number, asked = task
    one = Case(number, asked)
    try:
        one.judge()
    except Exception as fault:
        one.faults.append(f"{type(fault).__name__}: {fault}")
    return number, one.text, one.faults, one.counts


def main():
    asked = argparse.ArgumentParser(description="Judges planner's commands on drawn documents by a plain search through all states.")
    asked.add_argument("commands", nargs="*", help=f"some of {', '.join(COMMANDS)}; all that planner has if none is given")
    asked.add_argument("--cases", type=int, default=20_000)
    asked.add_argument("--first", type=int, default=0, help="the number of the first draw")
    asked.add_argument("--beside", type=int, default=2, help="how many documents beside each other")
    asked.add_argument("--ats", help="a command in place of ats")
    asked.add_argument("--planner", help="a command in place of planner")
    asked = asked.parse_args()
    if set(asked.commands) - set(COMMANDS):
        sys.exit(f"the commands are {', '.join(COMMANDS)}")
    with_programs = {"ats": command_of(asked.ats, "ats"), "planner": command_of(asked.planner, "planner")}
    helped = "".join(called([*with_programs["planner"], *words, "--help"], "")[1] for words in ([], ["explain"], ["order"]))
    there = {"certify": "\n  certify", "order": "\n  order", "protect": "\n  protect", "explain": "--run", "of-run": "--of-run"}
    commands = [command for command in asked.commands or COMMANDS if there[command] in helped]
    for command in set(asked.commands or COMMANDS) - set(commands):
        print(f"left out: planner has no {'explain --run' if command == 'explain' else command}", file=sys.stderr)
    with_programs["commands"] = commands
    began, counts, faults = time.time(), collections.Counter(), 0
    tasks = ((asked.first + number, with_programs) for number in range(asked.cases))
    with multiprocessing.Pool(asked.beside) as pool:
        for number, text, some, ended in pool.imap_unordered(case, tasks, chunksize=20):
            counts += ended
            faults += len(some)
            if some:
                with tempfile.NamedTemporaryFile("w", delete=False, suffix=".json") as kept:
                    kept.write(text)
                print("\n".join(f"draw {number}, {kept.name}: {fault}" for fault in some), flush=True)
    print(", ".join(f"{ended}: {count}" for ended, count in sorted(counts.items())))
    print(f"{asked.cases} documents in {time.time() - began:.0f} s, {faults} faults")
    return 1 if faults else 0


if __name__ == "__main__":
    sys.exit(main())
