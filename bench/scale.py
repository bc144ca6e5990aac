#!/usr/bin/env python3
"""Certifies lines, metros, yards and more of growing size in several ways, and prints a table of nodes and seconds.

    bench/scale.py                                     all families
    bench/scale.py line metro --seconds 20             some, with at most 20 seconds of a processor for each answer
    bench/scale.py --other COMMAND                     beside another finder of certificates, which takes the words of `planner certify`
    bench/scale.py --kept rows.json --picture nodes.svg      rows that this file has aren't measured again; and a picture of all

The documents (families.py) are the same in every run. For each: `ats make`; `planner certify`; `planner order`, and `certify` of what it
writes; the same with `order --of-run 0`. Nodes are counted in the document that was written, and `ats check` has to accept it.
`--other-order COMMAND` takes the words of `planner order`; what it writes is given to `--other`. SPIN counts the states that are reached,
with at most 1 GiB. A SAT solver, cadical or minisat, says whether a table allows a stuck state: it gives no certificate. Each tool that is
missing is left out, with a line that says so. The programs are those of `./build`, or else trial builds. It ends with 1 if an answer is
wrong.
"""
import argparse
import json
import shutil
import sys
from pathlib import Path

import families
import other_ways
from model import Yard
from programs import called, command_of, compact, proved
from scale_picture import picture

# Each family: its function and sizes.
FAMILIES = {
    "line": [("line", 4, 16), ("line", 6, 20), ("line", 8, 30), ("line", 12, 40), ("line", 20, 30), ("entered_line", 32, 96, 24)],
    "two lines": [
        ("two_lines", 8, 16), ("two_lines", 12, 20), ("two_lines", 16, 30), ("two_lines", 24, 40), ("two_entered_lines", 32, 64, 16),
    ],
    "metro": [
        ("metro", 4, 4), ("metro", 8, 6), ("metro", 12, 10), ("metro", 14, 12), ("metro", 16, 12), ("entered_metro", 32, 40, 40),
    ],
    "single track": [
        ("single_track", 4, 3), ("single_track", 6, 3), ("single_track", 16, 3), ("single_track", 32, 3),
    ],
    "ladder": [("ladder", 4, 4), ("ladder", 8, 8), ("ladder", 12, 12), ("ladder", 14, 14), ("ladder", 24, 24)],
    "yard": [("yard", 4, 4), ("yard", 8, 4), ("yard", 12, 6), ("entered_yard", 32, 32)],
    "depot": [
        ("depot", 4, 8), ("depot", 8, 10), ("depot", 12, 10), ("depot", 16, 28, 15), ("depot", 24, 58, 30),
        ("depot", 32, 58, 30),
    ],
    "junction": [("junction", 8, 6), ("junction", 12, 8), ("junction", 16, 10), ("entered_junction", 32, 48, 48)],
    "circle": [("circle", 4, 12, 1), ("circle", 8, 16, 1), ("circle", 8, 24, 3), ("circle", 12, 36, 2)],
}
COLUMNS = ["make", "certify", "order", "of-run", "other", "other-order", "spin", "sat", "sat-order"]


def told(code, said):
    """A short word for an answer without a document."""
    if code is None:
        return "time"
    for word in ("Stuck", "Spent"):
        if word in said:
            return word.lower()
    return "gave up" if "gave up" in said or "gives up" in said else (said.splitlines() or ["?"])[-1][:60]


class Measuring:
    """The programs that are there, and how long each may take."""

    def __init__(self, asked):
        self.seconds = asked.seconds
        self.ats = command_of(asked.ats, "ats")
        self.planner = command_of(asked.planner, "planner")
        self.other = asked.other and command_of(asked.other, "")
        self.other_order = asked.other_order and command_of(asked.other_order, "")
        self.faults = 0
        self.left_out = set()
        helped = called([*self.planner, "--help"], "")[1]
        for command in ("certify", "order"):
            if f"\n  {command}" not in helped:
                self.leave_out(command, f"planner has no command {command}")
        if "--of-run" not in called([*self.planner, "order", "--help"], "")[1]:
            self.leave_out("of-run", "planner's order has no --of-run")
        for column, command in (("other", self.other), ("other-order", self.other and self.other_order)):
            if not command:
                self.leave_out(column, f"no --{column}")
        if not shutil.which("spin") or not shutil.which("gcc"):
            self.leave_out("spin", "spin or gcc isn't installed")
        if not other_ways.solver():
            self.leave_out("sat", "neither cadical nor minisat is installed")
        for column in asked.without:
            self.leave_out(column, "by --without")

    def leave_out(self, column, why):
        print(f"left out: {column} ({why})", file=sys.stderr)
        self.left_out.add(column)

    def wrong(self, name, what):
        self.faults += 1
        print(f"{name}: {what}", file=sys.stderr, flush=True)

    def is_stuck(self, document, said):
        """Whether a line names a stuck state of the document."""
        line = next((line for line in said.splitlines() if "206 Stuck" in line), "")
        words = dict(word.split("=") for word in line.split() if "=" in word)
        if not {"table", "at"} <= words.keys():
            return False
        yard = Yard(document)
        yard.table, yard.state = yard.tables[int(words["table"])], [int(place) for place in words["at"].split(",")]
        return yard.first_unfinished() is not None and all(yard.obstacle(train) for train in range(len(yard.state)))

    def certified(self, name, command, document):
        """The nodes that a command writes and its seconds, or a word for what it says."""
        code, written, said, seconds = called(command, compact(document), self.seconds)
        if code == 0:
            check = called([*self.ats, "check"], written)
            if check[0] != 0:
                self.wrong(name, f"{command[-1]}: the certificate is refused: {check[2]}")
            answer = {"nodes": sum(len(table["certificate"]) for table in json.loads(written)["tables"])}
        else:
            answer = {"said": told(code, said)}
            if answer["said"] == "stuck" and not self.is_stuck(document, said):
                self.wrong(name, f"{command[-1]}: a state that isn't stuck: {said}")
        return {**answer, "seconds": round(seconds, 3)}

    def ordered(self, command, document):
        """The document that an order command writes, or None; and its answer so far."""
        code, written, said, seconds = called(command, compact(document), self.seconds)
        if code != 0:
            return None, {"said": told(code, said), "seconds": round(seconds, 3)}
        ordered = json.loads(written)
        return ordered, {"order-seconds": round(seconds, 3), "sections": len(ordered["tables"][0]["sections"])}

    def order(self, row, key, order, certify, document):
        ordered, answer = self.ordered(order, document)
        if ordered is not None:
            answer.update(self.certified(row["name"], certify, ordered))
        row[key] = answer
        return ordered

    def ask_solver(self, row, key, document):
        at, seconds = other_ways.allowed_stuck(document, self.seconds)
        said = "time" if at is None else "stuck" if at else "none"
        row[key] = {"said": said, "seconds": round(seconds, 3)}
        ways = [row.get(way) or {} for way in ("make", "certify", "other")]
        certified, stuck = any("nodes" in way for way in ways), any(way.get("said") == "stuck" for way in ways)
        if key == "sat" and (at and certified or at == [] and stuck):
            self.wrong(row["name"], f"the solver says {said}, the commands differ")

    def measure(self, row, document, columns):
        ordered = None
        if "make" in columns:
            row["make"] = self.certified(row["name"], [*self.ats, "make"], document)
        if "certify" in columns:
            row["certify"] = self.certified(row["name"], [*self.planner, "certify"], document)
            if "nodes" in row.get("make", {}) and "nodes" not in row["certify"]:
                self.wrong(row["name"], "make finds a certificate, and certify doesn't")
        if "order" in columns:
            ordered = self.order(row, "order", [*self.planner, "order"], [*self.planner, "certify"], document)
        if "of-run" in columns:
            self.order(row, "of-run", [*self.planner, "order", "--of-run", "0"], [*self.planner, "certify"], document)
        if "other" in columns:
            row["other"] = self.certified(row["name"], self.other, document)
        if "other-order" in columns:
            ordered = self.order(row, "other-order", self.other_order, self.other, document) or ordered
        if "spin" in columns:
            row["spin"] = other_ways.reached(document, self.seconds)
        if "sat" in columns:
            self.ask_solver(row, "sat", document)
        if "sat-order" in columns and ordered:
            self.ask_solver(row, "sat-order", ordered)


def number(count):
    return f"{count:,}" if count < 10_000_000 else f"{count / 1e6:,.0f} million"


def cell(answer, seconds):
    """A cell of the table: nodes and seconds, or what was said."""
    if not answer:
        return ""
    if "states" in answer:
        return f"{'' if answer['whole'] else '> '}{number(answer['states'])} / {answer['seconds']:.1f}"
    time_taken = f" / {answer['seconds'] + answer.get('order-seconds', 0):.2f}"
    added = f"{answer['sections']} S: " if "sections" in answer else ""
    if "nodes" in answer:
        return added + number(answer["nodes"]) + time_taken
    return added + (f"> {seconds} s" if answer["said"] == "time" else answer["said"] + time_taken)


def table(rows, seconds):
    """The rows as a table in Markdown, with those columns that have something."""
    heads = {
        "make": "`make`", "certify": "`certify`", "order": "`order`, `certify`", "of-run": "`order --of-run 0`, `certify`", "other": "other",
        "other-order": "other, with order",
        "spin": "SPIN: states", "sat": "SAT: stuck states", "sat-order": "SAT, with order",
    }
    shown = [column for column in COLUMNS if any(row.get(column) for row in rows)]
    lines = ["| " + " | ".join(["family", "trains", "places", *(heads[column] for column in shown)]) + " |"]
    lines.append("|" + "|".join(["---", "--:", "--:"] + ["--:"] * len(shown)) + "|")
    for row in rows:
        first = [row["family"] + (", in blocks" if row["blocks"] else ""), str(row["trains"]), str(row["places"])]
        lines.append("| " + " | ".join(first + [cell(row.get(column), seconds) for column in shown]) + " |")
    return "\n".join(lines)


def row_of(family, builder, sizes, document):
    table = document["tables"][0]
    return {
        "family": family, "name": " ".join([builder, *map(str, sizes)]), "trains": len(document["trains"]),
        "blocks": bool(table["sections"]) and builder != "metro",
        "places": max(len(mission) + leaves for mission, leaves in zip(table["missions"], table["exits"])),
    }


def ratios(rows):
    """How often the nodes and the seconds of certify are those of the other finder: the greatest ratio, and its row."""
    lines = []
    for mine, other in (("certify", "other"), ("order", "other-order")):
        both = [row for row in rows if "nodes" in (row.get(mine) or {}) and "nodes" in (row.get(other) or {})]
        for what in ("nodes", "seconds") if both else ():
            ratio, name = max((row[mine][what] / max(row[other][what], 0.01), row["name"]) for row in both)
            lines.append(f"{what} of {mine} by those of {other}, in {len(both)} rows: at most {ratio:.2f} ({name})")
    return lines


def main():
    asked = argparse.ArgumentParser(description="Certifies documents of growing size in several ways, and prints a table.")
    asked.add_argument("families", nargs="*", help="families, by their names; all if none is given")
    asked.add_argument("--seconds", type=int, default=60, help="the most processor seconds for each answer")
    asked.add_argument("--ats", help="a command in place of ats")
    asked.add_argument("--planner", help="a command in place of planner")
    asked.add_argument("--other", metavar="COMMAND", help="another finder, of the words of planner certify")
    asked.add_argument("--other-order", metavar="COMMAND", help="another maker of order sections, of the words of planner order")
    asked.add_argument("--without", nargs="*", default=[], choices=COLUMNS, metavar="COLUMN", help=f"leaves out: {', '.join(COLUMNS)}")
    asked.add_argument("--kept", metavar="FILE", help="keeps the rows here; what it has isn't measured again")
    asked.add_argument("--picture", metavar="FILE", help="writes a picture of nodes by trains")
    asked = asked.parse_args()
    unknown = set(asked.families) - FAMILIES.keys()
    if unknown:
        sys.exit(f"no such family: {', '.join(unknown)}; there are {', '.join(FAMILIES)}")
    measuring = Measuring(asked)
    kept = Path(asked.kept) if asked.kept else None
    known = json.loads(kept.read_text()) if kept and kept.exists() else {}
    rows = []
    for family in asked.families or FAMILIES:
        for builder, *sizes in FAMILIES[family]:
            document = getattr(families, builder)(*sizes)
            about = row_of(family, builder, sizes, document)
            row = known.setdefault(about["name"], {})
            row.update(about)
            measuring.measure(row, document, [it for it in COLUMNS if it not in measuring.left_out and not row.get(it)])
            rows.append(row)
            print(row["name"], {column: row[column] for column in COLUMNS if row.get(column)}, file=sys.stderr, flush=True)
            if kept:
                kept.write_text(json.dumps(known, indent=1))
    print(table(rows, asked.seconds))
    for line in ratios(rows):
        print(line)
    if asked.picture:
        Path(asked.picture).write_text(picture(rows))
    if any(not asked_for and not proved(name).exists() for name, asked_for in (("ats", asked.ats), ("planner", asked.planner))):
        print("The times are of trial builds with run-time checks.")
    return 1 if measuring.faults else 0


if __name__ == "__main__":
    sys.exit(main())
