#!/usr/bin/env python3
"""Tests the schemas of documents and of plans with Python's jsonschema: what they take and refuse, beside the programs.

    bench/schema.py                  both schemas, the second also on 6,000 drawn plans
    bench/schema.py --cases 500      fewer

docs/document.schema.json has to take each example, and to refuse documents that `ats` refuses too. docs/plan.schema.json has to take each
plan that `planner plan` takes, and to refuse each that it refuses for its shape: for a key that is unknown or missing, a value of a wrong
type, or a name, a number or a length out of range. A plan that is refused for its meaning alone it may take: what a name stands for no
schema knows. The plans are those of plans.py: the examples, those of call_tests, some at the limits, and mutations of these, which are
the same at each call. It ends with 1 if there is a fault.
"""
import argparse
import collections
import json
import random
import re
import sys

try:
    import jsonschema
    import tomllib
except ModuleNotFoundError as missing:
    sys.exit(f"bench/schema.py needs Python 3.11 and the package jsonschema: {missing}")

import plans
from programs import ROOT, called, command_of

SECTION = {"limit": 1, "changes": [[0, 1, -1]]}

# What planner says of a shape, and of a meaning.
SHAPE = re.compile(
    r'" takes .*, and this is of type |"(zones|ways)" takes a table|(?<!"route)" is missing$|: no key "|: this is no table of keys$|'
    r": the route is empty$|a (time|dwell|limit|weight|share) is \d+ to \d+, and this is |a table is due after 0 to 1000000 moves, and this is |"
    r'"(?!@|[^"]*\{\})[^"]*" is no (name: 1 to 16|zone: they are|link: two points)|: there is no train$|'
    r"^line \d+: train .*: the route has \d+ places|"
    r'"count" goes from 1 to 32, and this is |one (train|section|connection|table|pattern) too many|: there are \d+ ways; |'
    r'"holds" says all of it; leave out "|the weight for all others is said twice, |: scissors have two tracks of three points$|'
    r'" has no point between its ends$'
)
# A route and a count may be in a pattern, which a schema doesn't look up; nor does it whether there are ways where a point begins with `@`.
MEANING = re.compile(
    r': "route" is missing$|"(@|[^"]*\{\})[^"]*" is no name: 1 to 16|: no (point|train|pattern|way) "|rests on itself$|'
    r"has itself within it$|"
    r": another one has this name$|"
    r", so its name needs \{\} for the number$|: with these there are more than 32 trains$|: these are \d+ points; |"
    r'" is no step of the route$|: the train doesn\'t come to "| ticks with its dwell: 1000 are the most$|'
    r'" is not on the route of train "|" comes more than once on the route of train "|'
    r'" comes twice in a row$|" is the name of an earlier train too$|: starts at "|: without an exit it ends at "|" is never left: |'
    r': ends at "|: its route begins at "|is for all others, and is the name of a train too|"-" without an exit: train "|'
    r'" is changed twice by this table$|: a train doesn\'t wait for itself$|: no train of this section comes to "| alone takes \d+ of \d+$|'
    r": at the start \d+ of \d+ are taken, |: no line goes from \"|\" is in a zone already$|: zone \d+ has no point, and zone \d+ has$|"
    r'" is a place that has another name here too$|"start" is for the first place, and is the name of a point too: |'
    r'table \d+, train .*: the route has \d+ places|: there are more faults than these$|" by no way of it( in table \d+)?$|'
    r" have a point between their ends in common$|: no room for the sections of the crossings up to it: "
)
# What it says of a plan that it takes.
REMARK = re.compile(r'^line \d+: remark: train ".*": only this train comes to ".*", and once; did you mean ".*"\? ')
NUMBER = re.compile(r"takes (a whole number|whole numbers).*, and this is of type float$")


def changed(document, **members):
    """The document with other members, of itself or of its first table."""
    own = {name: value for name, value in members.items() if name in ("version", "points", "links", "zones", "trains", "start", "tables")}
    table = {**document["tables"][0], **{name: value for name, value in members.items() if name not in own}}
    return {**document, "tables": [table, *document["tables"][1:]], **own}


def refused_documents(good):
    """Documents with one thing wrong that a schema can see, by the code of their refusal."""
    yield 102, {name: value for name, value in good.items() if name != "start"}
    yield 102, changed(good, zones="1")
    yield 102, changed(good, missions=None)
    yield 102, changed(good, certificate=[[5]])
    yield 102, changed(good, sections=[{"limit": 1}])
    yield 102, changed(good, version=3, connections=[[0, 0, 1]])
    yield 102, changed(good, version=2, exits=[1])
    yield 102, changed(good, points=[["A"]])
    yield 103, changed(good, version=4)
    yield 105, changed({**good, "tables": good["tables"] * 2}, tables=[good["tables"][0], {**good["tables"][0], "after": 1_000_001}])
    yield 115, changed(good, tables=[])
    yield 115, changed(good, tables=good["tables"] * 17)
    yield 1, changed(good, points=[[f"P{k}", 0] for k in range(513)])
    yield 1, changed(good, links=[["A", "B"]] * 2049)
    yield 1, changed(good, zones=17)
    yield 8, changed(good, zones=0)
    yield 7, changed(good, points=[["A B", 0], ["B", 0], ["C", 0]])
    yield 7, changed(good, points=[["A" * 17, 0], ["B", 0], ["C", 0]])
    yield 11, changed(good, trains=[f"T{k}" for k in range(33)], start=[0] * 33)
    yield 17, changed(good, trains=[""])
    yield 12, changed(good, missions=[[]])
    yield 12, changed(good, missions=[["A", "B"] * 65])
    yield 21, changed(good, sections=[SECTION] * 65)
    yield 23, changed(good, sections=[{"limit": 1, "changes": [[0, 2, -2]]}])
    yield 23, changed(good, version=2, sections=[{"limit": 1, "changes": [[0, 5, -5]]}])
    yield 25, changed(good, sections=[{**SECTION, "limit": 33}])
    yield 25, changed(good, version=2, sections=[{**SECTION, "limit": 129}])
    yield 26, changed(good, version=3, connections=[[0, 0, 0, 0]] * 33)
    yield 114, changed(good, times=[[1, 0]])
    yield 114, changed(good, times=[[1, 1001]])


def validator_of(name, kind):
    schema = json.loads((ROOT / "docs" / name).read_text())
    kind.check_schema(schema)
    return kind(schema)


def documents_told(ats):
    """How many documents were asked about, and what is wrong."""
    validator, faults, number = validator_of("document.schema.json", jsonschema.Draft202012Validator), [], 0
    for file in sorted((ROOT / "examples").glob("*.json")):
        number += 1
        for error in validator.iter_errors(json.loads(file.read_text())):
            faults.append(f"{file.name}: {error.json_path}: {error.message[:120]}")
    first = json.loads((ROOT / "examples" / "first-path.json").read_text())
    for code, document in refused_documents(first):
        number += 1
        status, _, line, _ = called([*ats, "make"], json.dumps(document))
        answer = int(line.split()[1]) if status else 0
        if answer != code or validator.is_valid(document):
            faults.append(f"code {code}: ats answers {answer}, the schema {'takes' if validator.is_valid(document) else 'refuses'} it")
    return number, faults


def has_whole_float(value):
    """Whether a number is written with a fraction, which is 0: in JSON it is a whole number."""
    if isinstance(value, (dict, list)):
        return any(map(has_whole_float, value.values() if isinstance(value, dict) else value))
    return isinstance(value, float) and value.is_integer()


class Plans:
    """What planner and the schema say of plans."""

    def __init__(self, planner):
        self.planner, self.faults, self.counts = planner, [], collections.Counter()
        self.validator = validator_of("plan.schema.json", jsonschema.Draft7Validator)

    def tell(self, text, words):
        self.faults.append(f"{words}\n{text}")

    def verdict(self, text):
        """What planner says of a plan: `taken`, or refused for its `shape` or `meaning`, or `float` if its shape is wrong in that alone."""
        status, _, said, _ = called([*self.planner, "plan"], text)
        lines = [line for line in said.splitlines() if not (status == 0 and REMARK.search(line))]
        for line in lines:
            if not (SHAPE.search(line) or MEANING.search(line)):
                self.tell(text, f"planner says: {line}")
        if (status == 0) != (not lines):
            self.tell(text, f"planner ends with {status} and {len(lines)} lines")
        shapes = [line for line in lines if SHAPE.search(line)]
        if shapes and all(map(NUMBER.search, shapes)):
            return "float"
        return "shape" if shapes else "meaning" if lines else "taken"

    def compare(self, text, is_right=None):
        """Compares planner and the schema on a plan, of which it may be known whether it is right; gives it back if planner takes it."""
        plan, verdict = tomllib.loads(text), self.verdict(text)
        takes = self.validator.is_valid(plan)
        self.counts[f"{verdict}, {'taken' if takes else 'refused'}"] += 1
        if verdict == "taken" and not takes:
            error = next(self.validator.iter_errors(plan))
            # planner looks at the values of a pattern only in the trains that take them
            if error.absolute_path[0] != "pattern":
                self.tell(text, f"planner takes it, the schema doesn't: {error.json_path}: {error.message[:120]}")
        if takes and (verdict == "shape" or verdict == "float" and not has_whole_float(plan)):
            self.tell(text, "planner refuses its shape, the schema takes it")
        if is_right is not None and is_right != (verdict == "taken"):
            self.tell(text, f"planner should {'take' if is_right else 'refuse'} it")
        if is_right is False and takes:
            self.tell(text, "the schema should refuse it")
        return plan if verdict == "taken" else None


def plans_told(planner, cases):
    """How many plans of which verdicts were asked about, and what is wrong."""
    told, right = Plans(planner), []
    for file in sorted((ROOT / "examples").glob("*.toml")):
        right.append(told.compare(file.read_text(), True))
    for text in plans.rows_of_the_tests():
        try:
            tomllib.loads(text)
        except tomllib.TOMLDecodeError:
            continue
        right.append(told.compare(text))
    right.append(told.compare(plans.EVERY_KEY, True))
    for plan, is_right in [*plans.lengths(), *plans.numbers(), *plans.crossings()]:
        told.compare(plans.toml_of(plan), is_right)
    right = [plan for plan in right if plan]
    drawn = plans.mutations(random.Random("plans"), right + right[-1:] * 5)
    for _ in range(cases):
        told.compare(plans.toml_of(next(drawn)))
    return told


def main():
    asked = argparse.ArgumentParser(description="Compares the schemas of documents and of plans with what the programs take and refuse.")
    asked.add_argument("--cases", type=int, default=6000, help="how many plans are drawn")
    asked.add_argument("--ats", help="a command in place of ats")
    asked.add_argument("--planner", help="a command in place of planner")
    asked = asked.parse_args()
    number, faults = documents_told(command_of(asked.ats, "ats"))
    print(f"{number} documents, {len(faults)} faults")
    told = plans_told(command_of(asked.planner, "planner"), asked.cases)
    print("\n".join(faults + told.faults[:5]), end="\n" if faults or told.faults else "")
    print("; ".join(f"{words}: {count}" for words, count in sorted(told.counts.items())))
    print(f"{sum(told.counts.values())} plans, {len(told.faults)} faults")
    return 1 if faults or told.faults else 0


if __name__ == "__main__":
    sys.exit(main())
