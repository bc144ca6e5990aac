"""Plans for schema.py: those of the tests, plans at the limits of what a plan may have, and mutations."""
import copy
import datetime
import json
import re
import tomllib

from programs import ROOT

# A plan that has every key.
EVERY_KEY = """
lines = [["W", "S", "L1", "E", "X"], ["V", "S", "L2", "E", "Y"], ["L2", "E", "X"]]
switches = ["S", "E"]
open = false
[zones]
"0" = ["W", "S"]
"1" = ["E"]
[[train]]
name = "T0"
route = ["W", "S", "L1", "E", "X", "E", "L1", "S", "W"]
start = "W#1"
exit = true
times = { default = 2, "W S" = 5 }
[[train]]
name = "T1"
route = ["V", "S", "L2", "E", "Y"]
exit = false
times = 3
dwell = { default = 0, L2 = 0 }
[[section]]
name = "between the switches"
limit = 4
points = ["L1", "L2"]
weight = { T0 = 2, "" = 1 }
only = ["T0", "T1"]
[[section]]
limit = 1
from = { T0 = "L1#2" }
to = { T0 = "W#2", T1 = "E" }
[[section]]
limit = 2
weight = 0
from = "L2"
to = "Y"
[[section]]
limit = 8
holds = { T0 = { "S#1" = 1, X = 2, "W#2" = 0, "-" = 4 }, T1 = { start = 2, L2 = 3 } }
[[connection]]
train = "T1"
leaves = "V"
after = "T0"
reached = "L1#1"
[[crossing]]
name = "between the switches"
ways = { one = ["S", "L1", "E"], other = ["S", "L2", "E"], "in" = ["V", "S", "L2"], out = ["W", "S", "L1"] }
parallel = [["one", "other"]]
[[scissors]]
name = "the same"
tracks = [["S", "L1", "E"], ["S", "L2", "E"]]
[[ladder]]
name = "S"
leads = ["W", "V"]
roads = ["L1", "L2"]
[[table]]
after = 4
[[table.train]]
name = "T1"
route = ["V", "S", "L2", "E", "X"]
exit = true
times = { "V S" = 7 }
dwell = 0
[[table.section]]
limit = 1
points = ["S"]
[[table.connection]]
train = "T1"
leaves = "V"
after = "T0"
reached = "X"
"""

# Values of every type, right and wrong ones for each key.
STRINGS = ["", "T0", "T1", "A", "M#2", "S#1", "S#0", "S#01", "S#+1", "S#", "#1", "S#1#1", "T-1", "A B", "W S", "W  S", "W S L1", "default"]
STRINGS += ["sixteen_letters_", "seventeen_letters", "Ä", "no\tname", "0", "15", "16", "01", "+1", "true", "1"]
NUMBERS = [0, 1, 2, 3, 4, 5, -1, 128, 129, 1000, 1001, 1_000_000, 1_000_001, 2**63 - 1, -(2**63), True, False]
NUMBERS += [0.5, 1.0, 4.0, float("inf"), float("nan"), 1e300]
OTHERS = [datetime.date(2026, 1, 1), [], ["A"], ["A", "B"], ["T0"], [1], ["A", 1], [["A", "B"]], [[]], [{}], {}, {"T0": 1}, {"T0": "S"}]
OTHERS += [{"default": 2}, {"default": "2"}, {"name": "T0"}, {"": 1}, {"0": ["W"]}, [{"name": "T9", "route": ["A"]}], {"W S": 3, "A": 1}]
OTHERS += [{"T0": {"X": 1, "-": 2}}, {"T0": {"W": 5}}, {"T1": {}}, ["S", "L1", "E"], [["one", "in"]], {"in": ["W", "S", "L1"]}]
KEYS = "lines switches open zones train section connection table name route start exit times dwell limit points weight only from to holds".split()
KEYS += "leaves after reached crossing ways parallel scissors tracks ladder leads roads default trains title via".split() + ["", "W S", "T0", "0", "15", "16"]


def key_of(key):
    """A key in TOML, in quotes if it needs them."""
    return key if re.fullmatch("[A-Za-z0-9_-]+", key) else text_of(key)


def text_of(value):
    """A value in TOML."""
    if isinstance(value, dict):
        return "{ " + ", ".join(f"{key_of(key)} = {text_of(one)}" for key, one in value.items()) + " }"
    if isinstance(value, list):
        return "[" + ", ".join(map(text_of, value)) + "]"
    if isinstance(value, (bool, str)):
        return json.dumps(value, ensure_ascii=False)
    return value.isoformat() if isinstance(value, datetime.date) else repr(value)


def toml_of(plan):
    """A plan in TOML, with a line for each key at its top."""
    return "".join(f"{key_of(key)} = {text_of(value)}\n" for key, value in plan.items())


def rows_of_the_tests():
    """The plans in the rows of call_tests."""
    for file in sorted((ROOT / "crates" / "call_tests" / "src").glob("planner_*.rt")):
        for name, text in re.findall(r'const (\w+): &str =\s*r##"(.*?)"##;', file.read_text(), re.DOTALL):
            if name == "CORRIDOR":
                corridor = text.split("\n")
            elif name == "CHANGES":
                yield from (changed(corridor, row.split(" => ")[0]) for row in text.split("\n"))
            else:
                rows = (row.partition("\n") for row in text.split("\n====\n"))
                yield from (rest.split("----")[0] for words, _, rest in rows if words == "plan")


def changed(lines, changes):
    """The corridor of call_tests with some of its lines changed, as a row there says it."""
    lines = dict(enumerate(lines, 1))
    for change in changes.split(";"):
        number, _, line = change.partition(":")
        lines[int(number)] = line
    return "\n".join(lines.values()).replace(" / ", "\n")


def with_value(plan, path, value):
    """The plan with another value at a path."""
    plan = copy.deepcopy(plan)
    above = plan
    for key in path[:-1]:
        above = above[key]
    above[path[-1]] = value
    return plan


def lengths():
    """Plans of several trains, sections and so on, and whether that many may be there."""
    pair = [{"name": f"T{k}", "route": [f"A{k}", "M", f"B{k}"]} for k in range(2)]
    section, wait = {"limit": 1, "points": []}, {"train": "T0", "leaves": "A0", "after": "T1", "reached": "M"}
    for count in (0, 1, 32, 33):
        trains = [{"name": f"T{k}", "route": [f"A{k}"]} for k in range(count)]
        yield {"train": trains}, 0 < count <= 32
        yield {"train": trains[:32], "table": [{"after": 1, "train": trains}]}, 0 < count <= 32
    for count in (0, 1, 64, 65):
        yield {"train": pair, "section": [section] * count}, count <= 64
        yield {"train": pair, "table": [{"after": 1, "section": [section] * count}]}, count <= 64
    for count in (0, 1, 32, 33):
        yield {"train": pair, "connection": [wait] * count}, count <= 32
        yield {"train": pair, "table": [{"after": 1, "connection": [wait] * count}]}, count <= 32
    for count in (0, 1, 15, 16):
        yield {"train": pair, "table": [{"after": 1}] * count}, count <= 15
    for places, is_right in ((0, False), (1, True), (127, True), (128, True), (129, False)):
        train = {"name": "T0", "route": ["A", "B"] * (places // 2) + ["A"] * (places % 2)}
        for leaves in ({}, {"exit": False}, {"exit": True}):
            fits = is_right and places + leaves.get("exit", False) <= 128
            yield {"train": [{**train, **leaves}]}, fits
            table = {"after": 1, "train": [{**train, **leaves}]}
            yield {"train": [{"name": "T0", "route": ["A"]}], "table": [table]}, fits


def numbers():
    """Plans with numbers and names in range and out of it, and whether they may be there."""
    plan = tomllib.loads(EVERY_KEY)
    plan["section"].append({"limit": 4, "points": []})
    zoned = {"train": [{"name": "T0", "route": [f"P{k}" for k in range(16)]}], "zones": {str(k): [f"P{k}"] for k in range(16)}}
    ranges = [(("section", 4, "limit"), 0, 128), (("section", 4, "weight"), 0, 4), (("section", 4, "weight", "T0"), 0, 4)]
    ranges += [(("section", 4, "weight", ""), 0, 4), (("train", 1, "times"), 1, 1000), (("train", 0, "times", "default"), 1, 1000)]
    ranges += [(("section", 3, "holds", train, place), 0, 4) for train, place in (("T0", "S#1"), ("T0", "-"), ("T1", "start"))]
    ranges += [(("train", 0, "times", "L1 S"), 1, 1000), (("table", 0, "train", 0, "times"), 1, 1000)]
    ranges += [(("table", 0, "after"), 0, 1_000_000)]
    for path, least, most in ranges:
        if path[:3] == ("section", 4, "weight"):
            plan["section"][4]["weight"] = {}
        for number in (least - 1, least, most, most + 1):
            yield with_value(plan, path, number), least <= number <= most
    standing = {"train": [{"name": "T0", "route": ["A", "B", "C"], "dwell": {"default": 1000, "B": 5, "C": 0}}]}
    for ticks, is_right in ((-1, False), (0, True), (999, True), (1000, None), (1001, False)):
        yield with_value(standing, ("train", 0, "dwell", "B"), ticks), is_right
        yield with_value(standing, ("train", 0, "dwell"), ticks), is_right
    for point, is_right in (("B", True), ("C", True), ("A", None), ("Q", None), ("A B", False), ("", False), ("seventeen_letters", None)):
        yield with_value(standing, ("train", 0, "dwell", point), 0), is_right
    yield zoned, True
    for zone in ("16", "01", "+1", "-1", "1.0", "", "west"):
        yield with_value(zoned, ("zones", zone), []), False
    yield with_value(zoned, ("zones", "0"), ["P0", "P0"]), False
    for place in ("W#1", "S#1", "S#0", "S#01", "S#+1", "S#", "#1", "S#1#1", "S#one", "S 1", ""):
        if place != "S#1":  # a switch
            yield with_value(plan, ("train", 0, "start"), place), place == "W#1"
        yield with_value(plan, ("connection", 0, "reached"), place), place in ("W#1", "S#1")
        yield with_value(plan, ("section", 3, "holds", "T0", place), 1), place in ("W#1", "S#1")
    for name in ("a", "A_9", "sixteen_letters_", "", "seventeen_letters", "T-1", "T 1", "Ä", "T#1"):
        is_right = re.fullmatch("[A-Za-z0-9_]{1,16}", name) is not None
        yield {"train": [{"name": name, "route": ["A"]}]}, is_right
        yield {"train": [{"name": "T0", "route": [name]}]}, is_right
        yield {"lines": [["A"], [name]], "train": [{"name": "T0", "route": ["A"]}]}, is_right


def crossings():
    """Plans with crossings, and whether they may be there; None, if they are refused for their meaning."""
    plan = {"train": [{"name": "T0", "route": ["A", "M", "B"]}, {"name": "T1", "route": ["C", "N", "D"]}]}
    one, other = ["A", "M", "B"], ["C", "N", "D"]
    for points in ([], ["A"], ["A", "B"], one, one[::-1], ["A", "M", "Q"], ["A", "M", "A"], ["A", "M", "C"]):
        is_right = len(points) == 3 and (True if points in (one, one[::-1]) else None)
        yield {**plan, "crossing": [{"ways": {"one": points}}]}, is_right
        yield {**plan, "scissors": [{"tracks": [points, other]}]}, is_right
    for group in ([], ["one"], ["one", "other"], ["one", "another"], ["", "one"]):
        crossing = {"ways": {"one": one, "other": other}, "parallel": [group]}
        yield {**plan, "crossing": [crossing]}, True if set(group) <= {"one", "other"} else None
    for count in (0, 1, 2, 3):
        yield {**plan, "scissors": [{"tracks": [one, other, one][:count]}]}, count == 2
    for name, leads, roads in (("M", ["A"], ["B"]), ("M", ["B"], ["A"]), ("N", ["A"], ["B"]), ("M", [], []), ("Q", ["A"], ["B"])):
        yield {**plan, "ladder": [{"name": name, "leads": leads, "roads": roads}]}, True if name == "M" else None
    for count in (63, 64):
        crossing = {"ways": {"one": one, "other": other}}
        yield {**plan, "section": [{"limit": 1, "points": []}] * count, "crossing": [crossing]}, True if count == 63 else None


def places_in(value, path=()):
    """The paths of all values that are below a value."""
    keys = value if isinstance(value, dict) else range(len(value)) if isinstance(value, list) else ()
    for key in keys:
        yield (*path, key)
        yield from places_in(value[key], (*path, key))


def values_in(value):
    """All values that are below a value."""
    for one in value.values() if isinstance(value, dict) else value if isinstance(value, list) else ():
        yield one
        yield from values_in(one)


def misspelt(draw, key):
    """Another key, mostly like this one."""
    at = draw.randrange(len(key) + 1)
    return draw.choice([key + "s", key[:at] + key[at + 1 :], key.upper(), key[:at] + "x" + key[at:], draw.choice(KEYS)])


def value_like(draw, plan, value):
    """A value of the same type, which is mostly one that may be there."""
    if isinstance(value, bool):
        return not value
    if isinstance(value, int):
        return draw.choice([number for number in NUMBERS if isinstance(number, int)])
    if isinstance(value, str):
        return draw.choice([one for one in values_in(plan) if isinstance(one, str)] * 2 + STRINGS)
    if isinstance(value, list):
        return draw.choice([value * 2, value[:-1], value[1:], value[::-1], value + value[:1], []])
    return draw.choice([one for one in values_in(plan) if isinstance(one, type(value))] + [{}])


def other_value(draw, plan, value):
    """A value in place of this one."""
    kind = draw.randrange(8)
    if kind == 0:
        return [value]
    if kind == 1 and isinstance(value, (list, dict)) and value:
        return draw.choice(list(value.values() if isinstance(value, dict) else value))
    if kind == 2 and isinstance(value, list):
        return draw.choice([value + [draw.choice(STRINGS + NUMBERS)], " ".join(map(str, value))])
    if kind == 3:
        return draw.choice(list(values_in(plan)))
    if kind < 6 and isinstance(value, (int, float)):
        return draw.choice(NUMBERS)
    if kind < 6 and isinstance(value, str):
        return draw.choice(STRINGS)
    return draw.choice(STRINGS + NUMBERS + OTHERS)


def mutate(draw, plan):
    """Changes a plan at a place. Each kind of place, such as a limit of a section, is drawn equally often."""
    kinds = {}
    for path in places_in(plan):
        kinds.setdefault(tuple("*" if isinstance(key, int) else key for key in path), []).append(path)
    if not kinds:
        return
    path = draw.choice(kinds[draw.choice(sorted(kinds))])
    above = plan
    for key in path[:-1]:
        above = above[key]
    key, kind = path[-1], draw.randrange(8)
    if kind < 2:
        del above[key]
    elif kind == 2 and isinstance(above, dict):
        renamed = {misspelt(draw, key) if one == key else one: value for one, value in above.items()}
        above.clear()
        above.update(renamed)
    elif kind == 3 and isinstance(above, dict):
        above[draw.choice(KEYS)] = copy.deepcopy(other_value(draw, plan, 1))
    elif kind < 6:
        above[key] = copy.deepcopy(value_like(draw, plan, above[key]))
    else:
        above[key] = copy.deepcopy(other_value(draw, plan, above[key]))


def mutations(draw, plans):
    """Plans without end, each one of these with one to three changes."""
    while True:
        plan = copy.deepcopy(draw.choice(plans))
        for _ in range(draw.choice([1, 1, 1, 1, 2, 3])):
            mutate(draw, plan)
        yield plan
