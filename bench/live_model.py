"""A plain model of the live dispatcher, written from docs/live.md alone: what it writes to the lines of a session.

It stands on model.py, shares no code with the program, and is made to be read. It takes documents and journals that the program accepts; the
hash of the document and the rows of `help` are left out of what it writes.
"""
import re

from model import Yard

MOST_BYTES, GREATEST = 256, 2**32 - 1
TAG = re.compile(rb"#[A-Za-z0-9_.:-]{1,32}")
NUMBER = re.compile(r"0|[1-9][0-9]{0,9}")
# How many words may follow a verb.
VERBS = {
    "ask": (1, 2), "want": (1, 2), "drop": (1, 1), "can": (1, 1), "at": (2, 2), "why": (1, 1), "state": (0, 0), "table": (0, 1), "fits": (0, 0),
    "since": (1, 1), "ping": (0, 0), "hello": (0, 0), "help": (0, 0), "quit": (0, 0),
}


class Fault(Exception):
    """A request that is answered by an error."""


class Live:
    """The yard with its journal, what trains have reported, and the wants that stand: by train, the tag of each."""

    def __init__(self, document, lines, reports):
        self.yard, self.start, self.reports = Yard(document), document["start"], reports
        self.lines, self.granted, self.answered = [], {}, {}
        self.wants, self.due, self.is_done, self.has_quit = {}, None, False, False
        for line in lines:
            words = line.split(" ")
            if words[1] == "move":
                self.move(self.yard.trains.index(words[2]))
            else:
                self.table()
        self.there = [max(at - 1, start) for at, start in zip(self.yard.state, self.start)]
        self.is_done = self.has_ended()

    def name(self, train):
        return self.yard.trains[train]

    def number_of_trains(self):
        return len(self.yard.trains)

    def has_ended(self):
        return self.yard.first_unfinished() is None and self.yard.tried + 1 == len(self.yard.tables)

    # The journal

    def move(self, train):
        """Moves a train on, and writes the line."""
        before, after = (self.yard.table.ways[train][self.yard.state[train] + step] for step in (0, 1))
        self.yard.state[train] += 1
        self.yard.moves += 1
        line = f"{len(self.lines) + 1} move {self.name(train)} {before} {after or '-'}"
        self.lines.append(line)
        self.granted[train, self.yard.state[train]] = len(self.lines)
        return line

    def table(self):
        """Tries the next table, and writes the line."""
        number = self.yard.tried + 1
        form, words = self.yard.answer(number)
        self.yard.fault(0, form, words)
        said = {"table": f"table {number}", "over": f"kept {number} over {words.get('section')} {words.get('count')}"}
        said["differs"] = f"kept {number} differs {self.name(words.get('train', 0))} {words.get('place')}"
        line = f"{len(self.lines) + 1} {said[form]}"
        self.lines.append(line)
        self.answered[number] = f"{'table' if form == 'table' else 'kept'} {number} line={len(self.lines)}"
        return line

    # What a train is told

    def share(self, section, train, place):
        return self.yard.table.shares[section][train][place]

    def greatest(self, section, train):
        """The greatest share of a train from the place that it has reported to the one that it was granted."""
        return max(self.share(section, train, place) for place in range(self.there[train], self.yard.state[train] + 1))

    def room(self, section, train, taken, by):
        place = self.yard.state[train]
        more = self.share(section, train, place + 1) - self.share(section, train, place)
        names = ",".join(self.name(other) for other in by) or "-"
        return f"section={section} count={taken} more={more} limit={self.yard.table.limits[section]} by={names}", by

    def told(self, train):
        """What a train is told: a word, the text of the cause, and the trains that it waits for."""
        obstacle, at = self.yard.obstacle(train), self.yard.state
        if obstacle is None:
            return self.told_by_reports(train) if self.reports else ("may", "", [])
        word, _, rest = obstacle.partition(" ")
        if word == "Arrived":
            return "arrived", "", []
        if word == "Occupied":
            other = int(rest.removeprefix("by="))
            return "occupied", f"occupied by={self.name(other)}", [other]
        if word == "Waits":
            number = int(rest.removeprefix("connection="))
            _, _, other, reached = self.yard.table.connections[number]
            return "waits", f"connection={number} by={self.name(other)} reached={reached}", [other]
        section = int(rest.split(" ")[0].removeprefix("section="))
        by = [other for other in range(self.number_of_trains()) if self.share(section, other, at[other]) > 0]
        text, by = self.room(section, train, self.yard.table.count(section, at), by)
        return "full", f"full {text}", by

    def told_by_reports(self, train):
        """What a train is told by reports where the yard would let it go."""
        place = self.yard.state[train]
        if self.there[train] != place:
            return "away", f"away={place}", []
        point = self.yard.table.ways[train][place + 1]
        for other in range(self.number_of_trains()):
            if point is not None and point in self.yard.table.ways[other][self.there[other] : self.yard.state[other]]:
                return "leaving", f"leaving by={self.name(other)}", [other]
        for section, limit in enumerate(self.yard.table.limits):
            more = self.share(section, train, place + 1) - self.share(section, train, place)
            taken = [self.greatest(section, other) for other in range(self.number_of_trains())]
            if more > 0 and sum(taken) + more > limit:
                by = [other for other in range(self.number_of_trains()) if taken[other] > self.share(section, other, self.yard.state[other])]
                text, by = self.room(section, train, sum(taken), by)
                return "clearing", f"clearing {text}", by
        return "may", "", []

    def spot(self, train, step):
        place = self.yard.state[train] + step
        return f"{self.name(train)} {place} {self.yard.table.ways[train][place] or '-'}"

    def prospect(self, train):
        word, text, _ = self.told(train)
        if word == "arrived":
            return f"arrived {self.name(train)} {self.yard.state[train]}"
        return f"may {self.spot(train, 1)}" if word == "may" else f"wait {self.spot(train, 1)} {text}"

    # Requests: each gives the rows and lines before its answer, and the answer.

    def elsewhere(self, train, place):
        """The answer to a place that isn't the next one, if it was granted before."""
        at = self.yard.state[train]
        if place > self.yard.table.last(train):
            raise Fault(f"306 Place last={self.yard.table.last(train)}")
        if place > at + 1:
            raise Fault(f"307 Ahead at={at}")
        if place <= self.start[train]:
            raise Fault(f"308 Before start={self.start[train]}")
        point = self.yard.table.ways[train][place] or "-"
        return f"again {self.name(train)} {place} {point} line={self.granted[train, place]}"

    def ask(self, train, place=None, wants=None):
        if place is not None and place != self.yard.state[train] + 1:
            return [], self.elsewhere(train, place)
        if place is not None and place > self.yard.table.last(train):
            return [], self.elsewhere(train, place)
        word, _, _ = self.told(train)
        if word == "may":
            line = self.move(train)
            self.wants.pop(train, None)
            return [line], f"granted {self.spot(train, 0)} line={len(self.lines)}"
        if wants is not None and word != "arrived":
            self.wants.pop(train, None)         # (a want that is repeated comes last)
            self.wants[train] = wants
        return [], self.prospect(train)

    def drop(self, train):
        return [], f"dropped {self.name(train)} {int(self.wants.pop(train, None) is not None)}"

    def at(self, train, place):
        if place > self.yard.state[train]:
            raise Fault(f"307 Ahead at={self.yard.state[train]}")
        self.there[train] = max(place, self.there[train])
        return [], f"there {self.name(train)} {self.there[train]}"

    def try_table(self, number=None):
        tried, tables = self.yard.tried, len(self.yard.tables)
        if number is not None and not 0 < number < tables:
            raise Fault(f"309 Table tables={tables}")
        if number is not None and number <= tried:
            return [], f"again {self.answered[number]}"
        if number is not None and number > tried + 1:
            raise Fault(f"307 Ahead at={tried}")
        if tried + 1 == tables:
            return [], "nomore"
        if not self.is_due():
            return [], f"early {tried + 1} moves={self.yard.moves} after={self.yard.tables[tried + 1].after}"
        line = self.table()
        return [line], self.answered[tried + 1]

    def is_due(self):
        return self.yard.answer(self.yard.tried + 1) is not None

    def fits(self):
        number = self.yard.tried + 1
        if number == len(self.yard.tables):
            return [], "nomore"
        yard = self.yard.copied()
        due = "due" if self.is_due() else "early"
        yard.moves = max(yard.moves, yard.tables[number].after)
        form, words = yard.answer(number)
        if form == "table":
            return [], f"fits {number} {due}"
        if form == "differs":
            return [], f"differs {number} {due} train={self.name(words['train'])} place={words['place']}"
        return [], f"over {number} {due} section={words['section']} count={words['count']}"

    def can(self, train):
        if train is not None:
            return [], self.prospect(train)
        words = [self.told(other)[0] for other in range(self.number_of_trains())]
        may, arrived = words.count("may"), words.count("arrived")
        rows = [f"| {self.prospect(other)}" for other in range(self.number_of_trains())]
        return rows, f"could may={may} wait={len(words) - may - arrived} arrived={arrived}"

    def why(self, train):
        found = [train]
        for one in found:
            found += [other for other in self.told(one)[2] if other not in found]
        rows = [f"| {self.prospect(one)}" for one in found]
        those = lambda word: ",".join(self.name(one) for one in found if self.told(one)[0] == word) or "-"
        return rows, f"why {self.name(train)} trains={len(found)} may={those('may')} away={those('away')}"

    def figures(self):
        arrived = sum(self.yard.arrived(train) for train in range(self.number_of_trains()))
        table = self.yard.tables.index(self.yard.table)
        return (f"line={len(self.lines)} moves={self.yard.moves} table={table} tried={self.yard.tried} of={len(self.yard.tables)} "
                f"arrived={arrived} trains={self.number_of_trains()}")

    def state(self):
        there = lambda train: f" there={self.there[train]}" if self.reports else ""
        rows = [f"| at {self.spot(train, 0)} {self.told(train)[0]}{there(train)}" for train in range(self.number_of_trains())]
        return rows, f"state {self.figures()}"

    def since(self, number):
        if number > len(self.lines):
            raise Fault(f"310 Lost line={len(self.lines)}")
        return [f"| {line}" for line in self.lines[number:]], f"since {number} line={len(self.lines)}"

    # Lines

    def train(self, word):
        if word not in self.yard.trains:
            raise Fault("305 Train")
        return self.yard.trains.index(word)

    @staticmethod
    def number(word):
        if not NUMBER.fullmatch(word):
            raise Fault("304 Words")
        return min(int(word), GREATEST)

    def served(self, tag, verb, words):
        """What a request gives: rows, and its answer."""
        if verb not in VERBS:
            raise Fault("303 Verb")
        least, most = VERBS[verb]
        if not least <= len(words) <= most:
            raise Fault("304 Words")
        if verb == "at" and not self.reports:
            raise Fault("312 Reports")
        if verb in ("ask", "want"):
            train, *place = self.train(words[0]), *map(self.number, words[1:])
            return self.ask(train, *(place or [None]), tag if verb == "want" else None)
        if verb == "at":
            return self.at(self.train(words[0]), self.number(words[1]))
        if verb in ("drop", "why"):
            return getattr(self, verb)(self.train(words[0]))
        if verb == "can":
            return self.can(None if words[0] == "*" else self.train(words[0]))
        if verb == "table":
            return self.try_table(*map(self.number, words))
        if verb == "since":
            return self.since(self.number(words[0]))
        if verb in ("state", "fits"):
            return getattr(self, verb)()
        self.has_quit = verb == "quit"
        figures, line = self.figures(), f"line={len(self.lines)}"
        return [], {"hello": f"ready dispatch=1 {figures}", "help": "help", "ping": f"pong {line}", "quit": f"bye {line}"}[verb]

    def heard(self, line):
        """All that a line gives: the lines and rows before its answer, the answer, and what follows it."""
        line = line.removesuffix(b"\r")
        if not line:
            return []
        if len(line) > MOST_BYTES:
            return ["error 301 Long limit=256"]
        foreign = next((at for at, byte in enumerate(line) if not 32 <= byte < 127), None)
        if foreign is not None:
            return [f"error 302 Byte at={foreign}"]
        first, _, rest = line.partition(b" ")
        if first.startswith(b"#") and not TAG.fullmatch(first):
            return ["error 311 Tag"]
        tag = first.decode() + " " if first.startswith(b"#") else ""
        verb, *words = (rest if tag else line).decode().split(" ")
        try:
            before, answer = self.served(tag, verb, words)
        except Fault as fault:
            before, answer = [], f"error {fault}"
        return [row if row[0].isdigit() else tag + row for row in before] + [tag + answer] + self.following()

    def next_want(self, first):
        """The index of the want that is granted next: from this one on to the last, and then from the first on."""
        trains = list(self.wants)
        return next((k for k in [*range(first, len(trains)), *range(first)] if self.told(trains[k])[0] == "may"), None)

    def following(self):
        """What follows an answer: wants that are granted, in their turn, and the events of tables and of the end."""
        rows, index = [], 0
        while (index := self.next_want(index)) is not None:
            train = list(self.wants)[index]
            tag = self.wants.pop(train)
            rows += [self.move(train), f"{tag}! granted {self.spot(train, 0)} line={len(self.lines)}"]
        return rows + self.events()

    def events(self):
        rows = []
        number = self.yard.tried + 1
        if self.due != number and self.is_due():
            self.due = number
            rows.append(f"! due {number}")
        if not self.is_done and self.has_ended():
            self.is_done = True
            rows.append(f"! done moves={self.yard.moves} tables={self.yard.exchanges}")
        return rows

    def last(self):
        return f"{'end' if self.has_ended() else 'suspend'} moves={self.yard.moves} tables={self.yard.exchanges}"


def written(document, lines, reports, requests):
    """What the program writes in a session with these lines of the journal, to these bytes after the line `live`."""
    live = Live(document, lines, reports)
    rows = [f"ready dispatch=1 {live.figures()}", *live.events()]
    for line in requests.split(b"\n")[:-1]:
        rows += live.heard(line)
        if live.has_quit:
            break
    return "".join(row + "\n" for row in [*rows, live.last()]).encode()
