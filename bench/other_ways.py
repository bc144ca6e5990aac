"""What other tools are asked about a document: SPIN to go through all states that are reached from the start, and a SAT solver whether
a state that the table allows is stuck. Only table 0 is looked at.
"""
import re
import shutil
import subprocess
import tempfile
from pathlib import Path

from model import Table
from programs import bound, called, spent

NOWHERE = 512
MEGABYTES = 1024

CHECKS = """
static int count(unsigned char *at, int section) {
  int train, sum = 0;
  for (train = 0; train < TRAINS; train++) sum += share[section][train][at[train]];
  return sum;
}
static int may(unsigned char *at, int train) {
  int other, section, wait, next = at[train] + 1;
  if (at[train] == last[train]) return 0;
  for (other = 0; other < TRAINS; other++)
    if (other != train && point[train][next] != NOWHERE && point[other][at[other]] == point[train][next]) return 0;
  for (section = 0; section < SECTIONS; section++)
    if (count(at, section) - share[section][train][at[train]] + share[section][train][next] > limit[section]) return 0;
  for (wait = 0; wait < WAITS; wait++)
    if (waits[wait][0] == train && waits[wait][1] == at[train] && at[waits[wait][2]] < waits[wait][3]) return 0;
  return 1;
}
static int arrived(unsigned char *at) {
  int train;
  for (train = 0; train < TRAINS; train++) if (at[train] != last[train]) return 0;
  return 1;
}
"""


def array(kind, name, sizes, rows):
    """A constant table in C; one of no rows gets a row of zeros."""
    text = str(rows).replace("[", "{").replace("]", "}") if rows else "{0}"
    return f"static const {kind} {name}{''.join(f'[{max(1, size)}]' for size in sizes)} = {text};"


def tables_in_c(table):
    numbers = {}
    points = [[NOWHERE if point is None else numbers.setdefault(point, len(numbers)) for point in way] for way in table.ways]
    trains, places, sections = len(points), max(map(len, points)), len(table.limits)
    return "\n".join([
        *(f"enum {{ {name} = {value} }};" for name, value in [
            ("TRAINS", trains), ("SECTIONS", sections), ("WAITS", len(table.connections)), ("NOWHERE", NOWHERE)]),
        array("unsigned char", "last", [trains], [table.last(train) for train in range(trains)]),
        array("short", "point", [trains, places], points),
        array("int", "limit", [sections], table.limits),
        array("signed char", "share", [sections, trains, places], table.shares),
        array("unsigned char", "waits", [len(table.connections), 4], [list(one) for one in table.connections]),
        CHECKS,
        "#define HAS_ARRIVED arrived(now.at)",
        *(f"#define MAY_{train} may(now.at, {train})" for train in range(trains)),
    ])


def in_promela(start):
    """The trains for SPIN, which takes no call in a `c_expr`, but a name that stands for one."""
    trains = range(len(start))
    return "\n".join([
        'c_decl { \\#include "tables.h" }',
        f'c_state "unsigned char at[{len(start)}]" "Global"',
        "active proctype trains() {",
        "  d_step { c_code { signal(SIGXCPU, stopped); " + " ".join(f"now.at[{train}] = {start[train]};" for train in trains) + " } }",
        "  do",
        *(f"  :: d_step {{ c_expr {{ MAY_{train} }} -> c_code {{ now.at[{train}]++; }} }}" for train in trains),
        "  :: c_expr { HAS_ARRIVED } -> break",
        "  od",
        "}",
    ])


def reached(document, seconds):
    """How many states SPIN stored in so many processor seconds, whether these are all, and how many of them are stuck. Its states are those
    of the trains, one before the start, and two after the arrival."""
    with tempfile.TemporaryDirectory() as folder:
        Path(folder, "tables.h").write_text(tables_in_c(Table(document["tables"][0], document["version"])))
        Path(folder, "trains.pml").write_text(in_promela(document["start"]))
        quiet = {"cwd": folder, "check": True, "capture_output": True}
        subprocess.run(["spin", "-a", "trains.pml"], **quiet)
        options = ["-DSAFETY", "-DNOREDUCE", f"-DMEMLIM={MEGABYTES}"]
        subprocess.run(["gcc", "-O2", "-w", *options, "-o", "pan", "pan.c"], **quiet)
        before = spent()
        searched = subprocess.run(
            ["./pan", "-m5000", "-c0", "-w22"], cwd=folder, stdout=subprocess.PIPE, text=True, preexec_fn=lambda: bound(seconds)
        )
        said = searched.stdout
    states, errors = (int(re.search(form, said)[1]) for form in [r"(\d+) states, stored", r"errors: (\d+)"])
    is_whole = not any(words in said for words in ("Search not completed", "max search depth too small"))
    return {"states": states, "whole": is_whole, "stuck": errors, "seconds": round(spent() - before, 3)}


class Formula:
    """Clauses over variables that are numbered from 1, as DIMACS has them."""

    def __init__(self):
        self.variables, self.clauses = 0, []

    def variable(self):
        self.variables += 1
        return self.variables

    def add(self, *literals):
        """One of these literals holds. True may be among them, and False adds nothing."""
        if True not in [literal for literal in literals if isinstance(literal, bool)]:
            self.clauses.append([literal for literal in literals if not isinstance(literal, bool)])

    def one_of(self, some):
        """Exactly one of some variables is true; by a ladder of new ones."""
        self.add(*some)
        former = False
        for variable in some:
            here = self.variable()
            self.add(-variable, here)
            if former:
                self.add(-former, here)
                self.add(-former, -variable)
            former = here

    def text(self):
        lines = [f"p cnf {self.variables} {len(self.clauses)}", *(" ".join(map(str, [*clause, 0])) for clause in self.clauses)]
        return "\n".join(lines) + "\n"


def opposite(literal):
    return not literal if isinstance(literal, bool) else -literal


def counted(formula, at, shares, most):
    """Literals for 'the shares of all trains add up to at least k', for k from 0 to most + 1."""
    sums = [True] + [False] * (most + 1)
    for train, places in enumerate(shares):
        greatest = max(places)
        if not greatest:
            continue
        least = [True] + [formula.variable() for _ in range(greatest)] + [False]
        for place, share in enumerate(places):
            for value in range(1, greatest + 1):
                formula.add(-at[train][place], least[value] if share >= value else -least[value])
        before, sums = sums, [True] + [formula.variable() for _ in range(most + 1)]
        for total in range(1, most + 2):
            for value in range(greatest + 1):
                rest = before[max(0, total - value)]
                formula.add(opposite(rest), opposite(least[value]), sums[total])
                formula.add(rest, least[value + 1], -sums[total])
    return sums


def stuck_formula(table):
    """The formula of a legal state in which no train can move and not all have arrived, and the variable of each train's places."""
    formula = Formula()
    at = [[formula.variable() for _ in way] for way in table.ways]
    for places in at:
        formula.one_of(places)
    holders = {}
    for train, way in enumerate(table.ways):
        for place, point in enumerate(way):
            if point is not None:
                holders.setdefault(point, {}).setdefault(train, []).append(at[train][place])
    held = {}
    for point, trains in holders.items():
        held[point] = {train: formula.variable() for train in trains}
        for train, places in trains.items():
            formula.add(-held[point][train], *places)
            for place in places:
                formula.add(-place, held[point][train])
        some = list(held[point].values())
        for number, one in enumerate(some):
            for other in some[:number]:
                formula.add(-one, -other)
    sums = [counted(formula, at, shares, limit) for shares, limit in zip(table.shares, table.limits)]
    for limit, totals in zip(table.limits, sums):
        formula.add(opposite(totals[limit + 1]))
    formula.add(*(-places[-1] for places in at))
    for train, way in enumerate(table.ways):
        for place in range(len(way) - 1):
            reasons = [variable for other, variable in held.get(way[place + 1], {}).items() if other != train]
            for shares, limit, totals in zip(table.shares, table.limits, sums):
                rise = shares[train][place + 1] - shares[train][place]
                if rise > 0:
                    reasons.append(totals[max(0, limit - rise + 1)])
            for mover, left, other, needed in table.connections:
                if (mover, left) == (train, place):
                    reasons.extend(at[other][:needed])
            formula.add(-at[train][place], *reasons)
    return formula, at


SOLVERS = {"cadical": ["cadical", "-q", "in"], "minisat": ["minisat", "-verb=0", "in", "out"]}


def solver():
    return next((name for name in SOLVERS if shutil.which(name)), None)


def allowed_stuck(document, seconds):
    """A stuck state that table 0 allows, as places, [] if there is none, or None if the solver hasn't ended in time; and its seconds."""
    formula, at = stuck_formula(Table(document["tables"][0], document["version"]))
    name = solver()
    with tempfile.TemporaryDirectory() as folder:
        Path(folder, "in").write_text(formula.text())
        words = [str(Path(folder, word)) if word in ("in", "out") else word for word in SOLVERS[name]]
        code, said, _, taken = called(words, "", seconds)
        model = Path(folder, "out").read_text() if name == "minisat" and code is not None else said
    if code in (None, 20):
        return [] if code else None, taken
    assert code == 10, (code, said)
    true = {int(word) for word in re.findall(r"-?\d+", model) if int(word) > 0}
    return [next(place for place, variable in enumerate(places) if variable in true) for places in at], taken
