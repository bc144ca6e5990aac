"""A plain model of documents and journals, written from docs/formats.md alone: what `verify` has to answer to a journal.

It shares no code with the program and is made to be read, not to be fast. It takes documents that the program accepts; it doesn't
look at certificates.
"""

import copy
import itertools
import re

GREATEST = 2**32 - 1
NUMBER, NAME = "0|[1-9][0-9]*", "[A-Za-z0-9_]{1,16}"
FORMS = {
    "move": "<n> move <train> <from> <to>",
    "table": "<n> table <table>",
    "differs": "<n> kept <table> differs <train> <place>",
    "over": "<n> kept <table> over <section> <count>",
    "end": "end moves=<moves> tables=<tables>",
}
WORDS = {"train": NAME, "from": NAME, "to": f"{NAME}|-"}
PATTERNS = {
    form: re.compile(re.sub("<([a-z]+)>", lambda it: f"(?P<{it[1]}>{WORDS.get(it[1], NUMBER)})", text)) for form, text in FORMS.items()
}


class Table:
    """One table of a document: each train's points, None where it has left, its shares, and what else says when it may move."""

    def __init__(self, table, version):
        trains = len(table["missions"])
        exits = table.get("exits", []) if version >= 2 else []
        self.ways = [way + [None] if leaves else way for way, leaves in zip(table["missions"], exits or [False] * trains)]
        self.limits = [section["limit"] for section in table.get("sections", [])]
        self.shares = [[list(itertools.accumulate(one)) for one in section["changes"]] for section in table.get("sections", [])]
        self.connections = table.get("connections", []) if version >= 3 else []
        self.after = table.get("after", 0)

    def last(self, train):
        return len(self.ways[train]) - 1

    def count(self, section, state):
        return sum(shares[place] for shares, place in zip(self.shares[section], state))


class Yard:
    """Where the trains are, the table in force, the last table that was tried, and the number of moves."""

    def __init__(self, document):
        self.tables = [Table(table, document["version"]) for table in document["tables"]]
        self.trains = document["trains"]
        self.points = {None} | {name for name, _ in document["points"]}
        self.state = list(document["start"])
        self.table, self.tried, self.moves, self.exchanges = self.tables[0], 0, 0, 0

    def copied(self):
        other = copy.copy(self)
        other.state = list(self.state)
        return other

    def arrived(self, train):
        return self.state[train] == self.table.last(train)

    def first_unfinished(self):
        return next((train for train in range(len(self.state)) if not self.arrived(train)), None)

    def obstacle(self, train):
        """What keeps a train from its next step, in the words of refusal 75, or None."""
        if self.arrived(train):
            return "Arrived"
        place = self.state[train]
        after = self.state[:train] + [place + 1] + self.state[train + 1 :]
        point = self.table.ways[train][place + 1]
        for other, at in enumerate(self.state):
            if other != train and point is not None and self.table.ways[other][at] == point:
                return f"Occupied by={other}"
        for section, limit in enumerate(self.table.limits):
            if self.table.count(section, after) > limit:
                return f"Full section={section} count={self.table.count(section, self.state)}"
        for number, (mover, left, other, reached) in enumerate(self.table.connections):
            if (mover, left) == (train, place) and self.state[other] < reached:
                return f"Waits connection={number}"
        return None

    def answer(self, number):
        """The line that a table gets which is due and next: its form and its words; else None."""
        if number != self.tried + 1 or number >= len(self.tables):
            return None
        table = self.tables[number]
        if self.moves < table.after and self.first_unfinished() is not None:
            return None
        for train, at in enumerate(self.state):
            for place in range(at + 1):
                if table.ways[train][place : place + 1] != [self.table.ways[train][place]]:
                    return "differs", {"table": number, "train": train, "place": place}
        for section, limit in enumerate(table.limits):
            count = table.count(section, self.state)
            if count > limit:
                return "over", {"table": number, "section": section, "count": count}
        return "table", {"table": number}

    def fault(self, number, form, words):
        """Why line `number` isn't right, or None; a right line is done."""
        if form != "move":
            if self.answer(words["table"]) != (form, words):
                return f"76 Table line={number}"
            self.tried = words["table"]
            if form == "table":
                self.table = self.tables[self.tried]
                self.exchanges += 1
            return None
        train = words["train"]
        if self.arrived(train):
            return f"75 Move line={number} Arrived"
        place = self.state[train]
        if self.table.ways[train][place : place + 2] != [words["from"], words["to"]]:
            return f"79 Place line={number}"
        obstacle = self.obstacle(train)
        if obstacle is not None:
            return f"75 Move line={number} {obstacle}"
        self.state[train] += 1
        self.moves += 1
        return None


def line_of(text, yard):
    """A line's form and its words, numbers and trains as numbers, or None where it has no form of a journal's line."""
    for form, pattern in PATTERNS.items():
        match = pattern.fullmatch(text)
        if match:
            words = match.groupdict()
            numbers = {word: int(value) for word, value in words.items() if word not in WORDS}
            points = {word: None if words[word] == "-" else words[word] for word in ("from", "to") if word in words}
            trains = {"train": words["train"]} if "train" in words else {}
            known = yard.points.issuperset(points.values()) and set(yard.trains).issuperset(trains.values())
            if not known or any(number > GREATEST for number in numbers.values()):
                return None
            return form, {**numbers, **points, **{word: yard.trains.index(name) for word, name in trains.items()}}
    return None


def parsed(line, number, yard):
    """The form and the words of the line that has a number in its journal, or the refusal."""
    found = line_of(line.decode("latin-1"), yard)
    if found is None:
        return f"71 Line line={number}"
    if found[1].pop("n", number) != number:
        return f"72 Number line={number}"
    return found


def read(text, yard, first=1):
    """The lines of a journal from a number on, or the refusal."""
    lines = []
    for number in itertools.count(first):
        if not text:
            return "73 NoEnd"
        line, newline, text = text.partition(b"\n")
        found = parsed(line, number, yard) if newline else f"71 Line line={number}"
        if isinstance(found, str):
            return found
        lines.append(found)
        if found[0] == "end":
            return "74 After" if text else lines


def ended(yard, lines, first=1):
    """What `verify` writes of the lines from a number on, in the state of the yard before them."""
    for number, (form, words) in enumerate(lines[:-1], first):
        fault = yard.fault(number, form, words)
        if fault:
            return fault
    if yard.first_unfinished() is not None:
        return f"77 Unfinished train={yard.first_unfinished()}"
    if yard.tried + 1 < len(yard.tables):
        return f"80 Open table={yard.tried + 1}"
    if lines[-1][1] != {"moves": yard.moves, "tables": yard.exchanges}:
        return "78 Counts"
    return f"ok moves={yard.moves} tables={yard.exchanges}"


def verdict(document, text):
    """What `verify` writes of a journal of a document that it accepts: the line `ok ..`, or the refusal."""
    yard = Yard(document)
    lines = read(text, yard)
    return lines if isinstance(lines, str) else ended(yard, lines)


class Journal:
    """A right journal, and what `verify` writes where a byte of it is another one; nothing before that byte is looked at again."""

    def __init__(self, document, text):
        yard = Yard(document)
        self.text, self.lines, self.yards = text, read(text, yard), []
        for number, (form, words) in enumerate(self.lines, 1):
            self.yards.append(yard.copied())
            if form != "end" and yard.fault(number, form, words):
                raise ValueError("a journal that isn't right")

    def cut(self, end):
        """What `verify` writes of its first bytes."""
        number, begin = self.text.count(b"\n", 0, end) + 1, self.text.rfind(b"\n", 0, end) + 1
        return read(self.text[begin:end], self.yards[number - 1], number)

    def changed(self, at, byte):
        """What `verify` writes of it with another byte at a place."""
        number, begin = self.text.count(b"\n", 0, at) + 1, self.text.rfind(b"\n", 0, at) + 1
        yard, rest = self.yards[number - 1].copied(), bytearray(self.text[begin:])
        is_new_line = b"\n" in (rest[at - begin : at - begin + 1], bytes([byte]))
        rest[at - begin] = byte
        if is_new_line:
            lines = read(bytes(rest), yard, number)
            return lines if isinstance(lines, str) else ended(yard, lines, number)
        found = parsed(bytes(rest.partition(b"\n")[0]), number, yard)
        return found if isinstance(found, str) else ended(yard, [found] + self.lines[number:], number)
