"""Sessions of the live dispatcher that are drawn: documents with certificates, and lines that clients might send, good and bad.

The same number gives the same session. A session is drawn beside a plain model of the yard (model.py), so that most places that it names are
those that trains are at or come to next.
"""
import json
import random
import subprocess

import agree
from model import Yard

TAG_BYTES = "ABCXYZabcxyz0189_.:-"
JUNK = [
    b"", b"#", b"# ping", b"##a ping", b"#a", b"#a ", b"#" + b"t" * 33 + b" ping", b"#" + b"t" * 32 + b" ping", b" ask T0", b"ask", b"ask ",
    b"ask  T0", b"ASK T0", b"want", b"can", b"why", b"drop", b"at", b"at T0", b"since", b"since x", b"since 01", b"table x", b"state 1",
    b"fits 1", b"ping ping", b"quit now", b"hello hello", b"help me", b"why *", b"drop *", b"want *", b"can T0 1", b"why T0 1", b"drop T0 1",
    b"ask T0 1 2", b"want T0 x", b"ask T0 +1", b"ask T0 00", b"ask T0 4294967295", b"ask T0 4294967296", b"ask T0 9999999999",
    b"ask T0 99999999999", b"since 4294967296", b"table 9999999999", b"at T0 4294967296", b"ask\tT0", b"ask T0\x00", b"\xff", b"ping\x7f",
    b"#a ping\xc3\xa9", b"x" * 255, b"x" * 256, b"x" * 257, b"x" * 5000, b"ask " + b"T" * 252, b"\r", b"\r\r", b"ask T0\r\r", b"jouranl",
    b"journal", b"live", b"1 move T0 A B", b"end moves=0 tables=0", b"! due 1", b"| row", b"ask T0 ", b"ask T0 1 ", b"at T0 0 0", b"quit ",
]
BROKEN_HEADS = [
    lambda text, journal, mode: text,
    lambda text, journal, mode: text + b"journal\n" + journal,
    lambda text, journal, mode: text[: len(text) // 2] + b"\njournal\nlive\n",
    lambda text, journal, mode: text + b"journal\n" + journal + mode,
    lambda text, journal, mode: text + b"journal\n" + journal + mode + b" \n",
    lambda text, journal, mode: text + b"journal\n" + journal + b"live x\n",
    lambda text, journal, mode: text + b"journal \n" + journal + mode + b"\n",
    lambda text, journal, mode: text + b"journal\n" + journal + b"1 move T0 A B\n" + mode + b"\n",
    lambda text, journal, mode: text + b"journal\n" + journal[:-5] + b"\n" + mode + b"\n",
    lambda text, journal, mode: text + b"journal\n" + journal[len(journal) // 2 :] + mode + b"\n",
    lambda text, journal, mode: text + b"journal\n" + journal + b"end moves=1 tables=0\n" + mode + b"\n",
    lambda text, journal, mode: text.replace(b'"certificate":[[', b'"certificate":[[3],[') + b"journal\n" + mode + b"\n",
    lambda text, journal, mode: text.replace(b'"start":[0', b'"start":[99') + b"journal\n" + mode + b"\n",
]


def called(ats, words, text):
    ran = subprocess.run([*ats, *words], input=text, capture_output=True, timeout=60)
    return ran.stdout if ran.returncode == 0 else b""


def crowd(draw):
    """A document whose trains cross the same few points in one order, and leave: none is ever stuck, and many wait for one another."""
    trains, points = draw.randint(3, 8), [f"X{k}" for k in range(draw.randint(1, 5))]
    ways = [[f"S{i}", *(points[k] for k in sorted(draw.sample(range(len(points)), draw.randint(1, len(points)))))] for i in range(trains)]
    start, taken = [0] * trains, set()
    for train, way in enumerate(ways):
        place = draw.randrange(len(way))
        if way[place] not in taken:
            start[train] = place
        taken.add(way[start[train]])
    names = [f"S{i}" for i in range(trains)] + points
    return {
        "version": 2, "points": [[name, 0] for name in names], "links": sorted({step for way in ways for step in zip(way, way[1:])}), "zones": 1,
        "trains": [f"T{i}" for i in range(trains)], "start": start,
        "tables": [{"missions": ways, "exits": [True] * trains, "sections": [], "after": 0}],
    }


def document(number, ats):
    """The text of a small document with certificates: of `gen`, or drawn and then made or repaired."""
    for attempt in range(1000):
        draw = random.Random(f"document {number} {attempt}")
        if draw.random() < 0.2:
            return called(ats, ["gen", "--seed", str(draw.randrange(1000)), "--trains", str(draw.randint(1, 6))], b"")
        text = json.dumps(crowd(draw) if draw.random() < 0.2 else agree.document(draw)).encode()
        made = called(ats, ["make", "--budget", "20000"], text) or called(ats, ["repair", "--budget", "20000"], text)
        if made:
            return made
    raise RuntimeError(f"no document {number}")


class Drawn:
    """Draws the lines of one session. The yard moves along as the program's does, but for standing wants and trains that are leaving."""

    def __init__(self, draw, document, yard, reports):
        self.draw, self.document, self.yard, self.reports = draw, document, yard, reports
        self.number = {name: number for number, name in enumerate(document["trains"])}
        self.there = list(document["start"])
        wants = draw.choice([24, 24, 24, 24, 200])      # (in some sessions nearly all trains have a want)
        self.weights = [26, wants, 5, 26 if reports else 1, 1, 4, 3, 8, 2, 3, 1, 1, 0.3]

    def train(self):
        names = self.document["trains"]
        return self.draw.choice(names) if names and self.draw.random() < 0.98 else self.draw.choice(["T99", "T0", "x", "Local", "-"])

    def at(self, train):
        return self.yard.state[self.number[train]] if train in self.number else 0

    def place(self, train):
        """A place near the one that the train is at."""
        at = self.at(train)
        near = self.draw.choice([at, at, at + 1, at + 1, at + 1, at + 1, at - 1, at + 2, self.draw.randrange(0, 9), 99])
        return max(0, near)

    def request(self):
        draw, train = self.draw, self.train()
        verb = draw.choices(
            ["ask", "want", "can", "at", "drop", "why", "state", "table", "fits", "since", "ping", "hello", "help"], self.weights
        )[0]
        if verb in ("ask", "want"):
            place = self.place(train) if draw.random() < 0.4 else None
            self.moved(train, place)
            return f"{verb} {train}" + (f" {place}" if place is not None else "")
        if verb == "at":
            place = self.at(train) if draw.random() < 0.8 else self.place(train)
            self.reported(train, place)
            return f"at {train} {place}"
        if verb in ("drop", "why"):
            return f"{verb} {train}"
        if verb == "can":
            return f"can {draw.choice([train, train, '*'])}"
        if verb == "table":
            self.tried()
            return draw.choice(["table", "table", f"table {draw.randrange(0, len(self.yard.tables) + 2)}"])
        if verb == "since":
            return f"since {draw.randrange(0, self.yard.moves + 4)}"
        return verb

    def moved(self, train, place):
        at = self.at(train)
        if train not in self.number or place not in (None, at + 1) or (self.reports and self.there[self.number[train]] < at):
            return
        if self.yard.obstacle(self.number[train]) is None:
            self.yard.state[self.number[train]] += 1
            self.yard.moves += 1

    def reported(self, train, place):
        if train in self.number and place <= self.at(train):
            self.there[self.number[train]] = max(place, self.there[self.number[train]])

    def tried(self):
        answer = self.yard.answer(self.yard.tried + 1)
        if answer is not None:
            self.yard.fault(0, *answer)

    def line(self):
        draw = self.draw
        if draw.random() < 0.06:
            return draw.choice(JUNK) + b"\n"
        line = self.request()
        if draw.random() < 0.3:
            line = f"#{''.join(draw.choices(TAG_BYTES, k=draw.randint(1, 4)))} {line}"
        if draw.random() < 0.01:
            at = draw.randrange(len(line))
            line = line[:at] + draw.choice([" ", "\t", "\x7f", "0", "#", "T", "*"]) + line[at + draw.randrange(2) :]
            line = line.replace("ask *", "can *")       # (the program has no `ask *`, others may)
        return line.encode() + draw.choice([b"\n"] * 19 + [b"\r\n"])


def session(draw, text, document, journal):
    """A session on a document: its input, and the lines of the journal in its head, or None if the head is drawn to be refused. They are the
    first ones of a journal of the document."""
    lines = journal.splitlines(keepends=True)
    lines = lines[: draw.randrange(len(lines) + 1)] if draw.random() < 0.5 else []
    reports = draw.random() < 0.5
    mode = b"live reports" if reports else b"live"
    if draw.random() < 0.03:
        return draw.choice(BROKEN_HEADS)(text, b"".join(lines), mode), None
    yard = Yard(document)
    for line in lines:
        words = line.decode().split()
        if words[1] == "move":
            yard.state[document["trains"].index(words[2])] += 1
            yard.moves += 1
        else:
            yard.fault(0, *yard.answer(yard.tried + 1))
    drawn = Drawn(draw, document, yard, reports)
    some = [drawn.line() for _ in range(draw.choice([0, 3, 10, 25, 40, 60]))]
    if draw.random() < 0.2:
        some += [draw.choice([b"quit\n", b"#q quit\n", b"quit\nping\n", b"ask T0", b"quit"])]
    return text + b"journal\n" + b"".join(lines) + mode + b"\n" + b"".join(some), b"".join(lines)
