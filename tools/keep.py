#!/usr/bin/env python3
"""Keeps a live dispatcher going: its journal on disk, a new start after a crash, and many clients for one yard.

    tools/keep.py --journal FILE --document FILE ./dispatch                    one client, on standard input and output
    tools/keep.py --journal FILE --document FILE --socket PATH ./dispatch      many clients, on a Unix socket
    tools/keep.py --journal FILE --document FILE --port N ./dispatch           many clients, on a port of this machine

To a client the keeper looks like the program itself (docs/live.md). It begins with a `ready` line, every client sees every line of the
journal, and each sees its own answers and the events of its own wants. What the keeper adds:

- A line of the journal is written to FILE and synced before anything that follows it is passed on. The file is locked, and a last line
  that was cut off by a crash is removed: nobody has seen what follows it.
- If the program dies, it is started again with the document and the journal. The keeper then sends it what the trains had reported, the
  wants that stood, and each request that has no answer yet. No line is made twice, and no answer is left out.
- If the keeper dies, it is started again by whoever started it. Clients connect again and repeat what has no answer, with its place.

Beside the journal is FILE.document-sha256, which says which document the journal belongs to. Another document is refused.
The keeper ends at SIGTERM or SIGINT; with one client also when its input ends. Then it adds the line `end ..` if the journal is whole.
"""
import argparse
import collections
import errno
import fcntl
import hashlib
import json
import os
import re
import select
import signal
import socket
import stat
import subprocess
import sys
import time

MOST_UNDER_WAY = 64             # requests that the program hasn't answered yet, of all clients together
MOST_BYTES = 256                # of a line; a longer one is refused by the program, which needs only its first bytes to see that
MOST_UNREAD = 1 << 20           # bytes that a client may leave unread before it is cut off
SLOW = 1 << 16                  # bytes that a client may leave unread before its requests wait
MOST_STARTS = 10                # starts within a minute without an answer between them
LAST_SECONDS = 5                # how long clients may take to read what was written before the end
KINDS = (b"move", b"table", b"kept")
JOURNAL_LINE = re.compile(rb"[0-9]+ (move|table|kept) [A-Za-z0-9_ -]+\n")
END_LINE = re.compile(rb"e|en|end|end [a-z0-9= ]*\n?")
UNTAGGED = (b"error 301 ", b"error 302 ", b"error 311 ")        # answers to lines in which no tag was read


def say(text):
    print(f"keep.py: {text}", file=sys.stderr, flush=True)


def stop(text, code=1):
    say(text)
    sys.exit(code)


def write_whole(descriptor, data):
    """Writes all of the data to a file."""
    while data:
        data = data[os.write(descriptor, data) :]


def sync_folder(path):
    """Syncs the entry of a file in its folder."""
    folder = os.open(os.path.dirname(os.path.abspath(path)), os.O_RDONLY)
    os.fsync(folder)
    os.close(folder)


def split_tag(line):
    """The tag of a line with its blank, if it has one, and the rest."""
    if line.startswith(b"#"):
        tag, blank, rest = line.partition(b" ")
        return tag + blank, rest
    return b"", line


class Journal:
    """The file of the journal. It is locked, and holds whole lines alone."""

    def __init__(self, path):
        self.file = os.open(path, os.O_RDWR | os.O_CREAT | os.O_APPEND, 0o644)
        try:
            fcntl.flock(self.file, fcntl.LOCK_EX | fcntl.LOCK_NB)
        except BlockingIOError:
            stop(f"{path} is kept by another keeper")
        length = journal_length(self.text())
        if length is None:
            stop(f"{path} isn't a journal; it was left as it is")
        os.ftruncate(self.file, length)
        os.fsync(self.file)
        sync_folder(path)

    def text(self):
        return os.pread(self.file, os.fstat(self.file).st_size, 0)

    def append(self, lines):
        write_whole(self.file, lines)
        os.fsync(self.file)


def journal_length(text):
    """How long the whole numbered lines of a journal are. What may follow them is `end ..`, which is made anew, or a line that was cut off.
    None if this is no journal."""
    length, number = 0, 1
    for line in text.splitlines(keepends=True):
        if JOURNAL_LINE.fullmatch(line) and line.startswith(b"%d " % number):
            length, number = length + len(line), number + 1
        else:
            break
    rest = text[length:]
    return length if was_cut_off(rest, number) or END_LINE.fullmatch(rest) else None


def was_cut_off(rest, number):
    """Whether this is the beginning of the journal's line of that number."""
    first, blank, later = rest.partition(b" ")
    if not blank:
        return (b"%d" % number).startswith(first)
    kind, blank, later = later.partition(b" ")
    return first == b"%d" % number and b"\n" not in later and (kind in KINDS if blank else any(word.startswith(kind) for word in KINDS))


class Request:
    """A line on its way to the program, and the rows of its answer so far. Without a client it is one of the keeper's own."""

    def __init__(self, line, client=None, quits=False):
        self.line, self.client, self.quits, self.rows = line, client, quits, []

    @property
    def words(self):
        return split_tag(self.line.removesuffix(b"\r"))[1].split(b" ")

    def is_about(self, train):
        return self.words[0] in (b"ask", b"want") and self.words[1:2] == [train]

    def name(self, number):
        """Names the place, or the table, that was already granted, so that a repetition has no effect."""
        self.line = split_tag(self.line)[0] + b" ".join([*self.words[: 1 if self.words[0] == b"table" else 2], b"%d" % number])


class Want:
    """A want that stands: the client that hears of it, the tag with its blank, and the place."""

    def __init__(self, client, tag, train, place):
        self.client, self.tag, self.train, self.place = client, tag, train, place

    def line(self):
        return b"%swant %s %s" % (self.tag, self.train, self.place)

    def event(self, granted):
        """The event, from the words after `granted`."""
        return self.tag + b"! granted " + granted


class Client:
    """One client: the lines that it has sent and that aren't under way yet, and the bytes that it hasn't read yet."""

    def __init__(self, reader, writer, connection=None):
        self.reader, self.writer, self.connection = reader, writer, connection
        self.lines, self.part, self.unread = collections.deque(), b"", bytearray()
        self.under_way, self.is_greeted, self.has_ended, self.is_gone = 0, False, False, False

    def may_be_read(self):
        return not self.has_ended and len(self.lines) < MOST_UNDER_WAY and len(self.unread) < SLOW

    def has_next(self):
        return self.lines and self.is_greeted and not self.is_gone and len(self.unread) < SLOW

    def is_served(self):
        return self.has_ended and not self.lines and not self.under_way and not self.unread

    def read(self):
        """Takes what there is to read. Bytes without a newline are no request yet."""
        try:
            data = os.read(self.reader, 1 << 16)
        except BlockingIOError:
            return
        except OSError:
            data = b""
        if not data:
            self.has_ended = True
            return
        *lines, part = (self.part + data).split(b"\n")
        self.part = part[: MOST_BYTES + 2]
        self.lines.extend(line[: MOST_BYTES + 2] for line in lines if line not in (b"", b"\r"))        # (an empty line has no answer)

    def send(self, row):
        self.unread += row + b"\n"
        if len(self.unread) > MOST_UNREAD:
            say("a client that doesn't read is cut off")
            self.is_gone = True

    def write(self):
        """Writes as much as the client takes without a wait: to a pipe that is ready, that is PIPE_BUF bytes."""
        try:
            most = len(self.unread) if self.connection else select.PIPE_BUF
            del self.unread[: os.write(self.writer, self.unread[:most])]
        except BlockingIOError:
            pass
        except OSError:
            self.is_gone = True

    def close(self):
        if self.connection:
            self.connection.close()


class Program:
    """The running dispatcher."""

    def __init__(self, command, header):
        how = {"stdin": subprocess.PIPE, "stdout": subprocess.PIPE, "bufsize": 0, "start_new_session": True}
        self.process = subprocess.Popen(command, **how)
        self.reader, self.writer = self.process.stdout.fileno(), self.process.stdin.fileno()
        self.unread, self.part, self.ready = bytearray(), b"", None
        try:
            write_whole(self.writer, header)
            while b"\n" not in self.part and (data := os.read(self.reader, 1 << 16)):
                self.part += data
        except BrokenPipeError:
            pass
        if b"\n" in self.part:
            self.ready, self.part = self.part.split(b"\n", 1)
            if not self.ready.startswith(b"ready dispatch=1 "):
                stop(f"this is no live dispatcher: it begins with {self.ready!r}")
            os.set_blocking(self.reader, False)
            os.set_blocking(self.writer, False)

    def send(self, line):
        self.unread += line + b"\n"

    def write(self):
        try:
            del self.unread[: os.write(self.writer, self.unread)]
        except BlockingIOError:
            pass
        except BrokenPipeError:
            self.unread.clear()                 # that it has ended is seen when it is read

    def rows(self):
        """The whole rows that it has written, or None at its end."""
        try:
            data = os.read(self.reader, 1 << 16)
        except BlockingIOError:
            return []
        *rows, self.part = (self.part + data).split(b"\n")
        return rows if data or rows else None

    def is_done(self):
        """Whether all trains had arrived, and all tables had been tried, when it was started."""
        told = dict(word.split(b"=", 1) for word in self.ready.split(b" ") if b"=" in word)
        return told[b"arrived"] == told[b"trains"] and int(told[b"tried"]) + 1 == int(told[b"of"])

    def hang_up(self):
        if not self.process.stdin.closed:
            self.process.stdin.close()

    def end(self):
        """Waits for its end. Gives its exit code, below 0 if a signal ended it."""
        self.unread.clear()
        self.hang_up()
        self.process.stdout.close()
        return self.process.wait()


class Keeper:
    def __init__(self, asked):
        with open(asked.document, "rb") as file:
            self.document = file.read().rstrip(b"\n") + b"\n"
        self.command, self.mode = asked.command, b"live reports" if asked.reports else b"live"
        self.journal = Journal(asked.journal)
        self.keep_document(asked)
        self.clients, self.under_way, self.turn = [], collections.deque(), 0
        self.reports, self.wants = {}, {}       # by train: the place of its last report, and its standing want
        self.last_line, self.due, self.starts = None, None, collections.deque(maxlen=MOST_STARTS)
        self.is_closing, self.is_over = False, False
        self.program = self.started()
        self.is_done = self.program.is_done()
        self.listener = listener(asked)
        if not self.listener:
            self.welcome(Client(0, 1))

    def keep_document(self, asked):
        """Keeps which document the journal belongs to, and refuses another one."""
        kept, wanted = f"{asked.journal}.document-sha256", hashlib.sha256(self.document).hexdigest() + "\n"
        if os.path.exists(kept) and self.journal.text():
            with open(kept) as file:
                if file.read() != wanted:
                    stop(f"{asked.journal} was begun with another document than {asked.document} (see {kept})")
            return
        with open(f"{kept}.new", "w") as file:
            file.write(wanted)
            file.flush()
            os.fsync(file.fileno())
        os.replace(f"{kept}.new", kept)
        sync_folder(kept)

    # The program

    def started(self):
        """Starts the program from the document and the journal, again if a signal ends it meanwhile."""
        while True:
            now = time.monotonic()
            if len(self.starts) == MOST_STARTS and now - self.starts[0] < 60:
                stop(f"the program was started {MOST_STARTS} times within a minute, and has answered nothing")
            self.starts.append(now)
            program = Program(self.command, self.document + b"journal\n" + self.journal.text() + self.mode + b"\n")
            if program.ready is not None:
                say(f"started process {program.process.pid}: {program.ready.decode('latin-1')}")
                return program
            code = program.end()
            if code >= 0:
                stop(f"the program refuses the document or the journal, with code {code}", code or 1)

    def ask(self, request):
        self.under_way.append(request)
        self.program.send(request.line)

    def start_again(self):
        """After a crash: a new program is told what the former one knew, and what it was asked and hasn't answered."""
        say(f"the program ended with {self.program.end()}")
        waiting = [request for request in self.under_way if request.client]
        self.under_way.clear()
        self.explain_last_line(waiting)
        self.program = self.started()
        if self.program.is_done() and not self.is_done:
            self.event_of_end()
        for train, place in self.reports.items():
            self.ask(Request(b"at %s %s" % (train, place)))
        for want in self.wants.values():
            self.ask(Request(want.line()))
        for request in waiting:
            request.rows.clear()
            self.ask(request)

    def explain_last_line(self, waiting):
        """If the program died right after a line of the journal, what followed it is missing: the event of a want, or the answer to the
        first request. That request is repeated with the place that it was granted, or the table that it tried."""
        if self.last_line is None:
            return
        number, kind, *words = self.last_line.split(b" ")
        self.last_line = None
        if kind == b"move":
            train, place = words[0], self.place_of(words[0])
            if train in self.wants:
                self.fire(self.wants[train], b"%s %d %s line=%s" % (train, place, words[2], number))
            elif waiting and waiting[0].is_about(train):
                waiting[0].name(place)
        elif waiting and waiting[0].words[0] == b"table":
            waiting[0].name(int(words[0]))

    def event_of_end(self):
        kinds = [line.split(b" ")[1] for line in self.journal.text().splitlines()]
        row = b"! done moves=%d tables=%d" % (kinds.count(b"move"), kinds.count(b"table"))
        self.event(row, row[2:])

    def place_of(self, train):
        """The place of a train by the document and the journal."""
        document = json.loads(self.document)
        moves = sum(line.split(b" ")[1:3] == [b"move", train] for line in self.journal.text().splitlines())
        return document["start"][document["trains"].index(train.decode())] + moves

    # What the program writes

    def hear(self, rows):
        """Keeps the lines of the journal among these rows, and then passes the rows on."""
        lines = [row + b"\n" for row in rows if row[:1].isdigit()]
        if lines:
            self.journal.append(b"".join(lines))
        for row in rows:
            self.last_line = row if row[:1].isdigit() else None
            if self.last_line is None:
                self.pass_on(row)
            else:
                self.due = None if row.split(b" ")[1] in (b"table", b"kept") else self.due
                self.send_all(row)

    def pass_on(self, row):
        tag, text = split_tag(row)
        if text.startswith(b"! "):
            self.event(row, text[2:])
        elif text.startswith(b"| ") and self.under_way:
            self.under_way[0].rows.append(row)
        elif not self.under_way and text.startswith((b"end ", b"suspend ")):
            if text.startswith(b"end "):
                self.journal.append(row + b"\n")
            self.send_all(row)
            self.is_over = True
        elif not self.under_way:
            stop(f"the program answers what it wasn't asked: {row!r}")
        else:
            self.answer(self.under_way.popleft(), tag, text)

    def event(self, row, text):
        if text.startswith(b"granted "):
            train = text.split(b" ")[1]
            if train in self.wants:
                self.fire(self.wants[train], text.partition(b" ")[2])
        elif text.startswith(b"done "):
            self.is_done = True
            self.send_all(row)
        elif row != self.due:                   # after a new start it is said again that a table is due
            self.due = row
            self.send_all(row)

    def fire(self, want, granted):
        """Tells a client that what it wanted was granted."""
        del self.wants[want.train]
        if want.client in self.clients:
            want.client.send(want.event(granted))

    def answer(self, request, tag, text):
        """Passes on the rows and the answer of a request, whose effect is kept in mind for the next start."""
        if tag.rstrip() != split_tag(request.line)[0].rstrip() and not text.startswith(UNTAGGED):
            stop(f"the program answers {request.line!r} with {tag + text!r}")
        self.starts.clear()
        words = text.split(b" ")
        if request.client is None:
            self.repeated(request, words)
            return
        self.remember(request, tag, words)
        if request.quits and text.startswith(b"pong "):
            text = b"bye " + text[5:]
        client = request.client
        client.under_way -= 1
        if client in self.clients:
            for row in [*request.rows, tag + text]:
                client.send(row)
            self.greeted(client)

    def repeated(self, request, words):
        """What a want that was sent again has got is news to its client."""
        if request.words[0] == b"want" and words[0] in (b"granted", b"again") and words[1] in self.wants:
            self.fire(self.wants[words[1]], b" ".join(words[1:]))

    def remember(self, request, tag, words):
        if words[0] == b"there":
            self.reports[words[1]] = words[2]
        elif words[0] == b"dropped":
            self.wants.pop(words[1], None)
        elif words[0] == b"wait" and request.words[0] == b"want":
            self.wants.pop(words[1], None)      # (a want that is repeated comes last)
            self.wants[words[1]] = Want(request.client, tag, words[1], words[2])

    # Clients

    def welcome(self, client):
        """A client begins with the answer to `hello`, as the program begins: from that line on it sees all that comes."""
        self.clients.append(client)
        client.under_way += 1
        self.ask(Request(b"hello", client))

    def greeted(self, client):
        if not client.is_greeted:
            client.is_greeted = True
            if self.due is not None:
                client.send(self.due)

    def send_all(self, row):
        for client in self.clients:
            if client.is_greeted:
                client.send(row)

    def accept(self):
        try:
            connection, _ = self.listener.accept()
        except OSError:
            return
        connection.setblocking(False)
        if connection.family == socket.AF_INET:
            connection.setsockopt(socket.IPPROTO_TCP, socket.TCP_NODELAY, 1)
        self.welcome(Client(connection.fileno(), connection.fileno(), connection))

    def take_requests(self):
        """Takes lines of the clients, in turn, as long as few enough are under way."""
        ready = collections.deque(client for client in self.clients if client.has_next())
        if ready:
            ready.rotate(-(self.turn % len(ready)))
            self.turn += 1
        while ready and len(self.under_way) < MOST_UNDER_WAY and not self.is_closing:
            client = ready.popleft()
            line = client.lines.popleft()
            tag, verb = split_tag(line)
            quits = verb in (b"quit", b"quit\r")
            client.under_way += 1
            self.ask(Request(tag + b"ping" if quits else line, client, quits))
            if quits:
                client.has_ended = True
                client.lines.clear()
            if client.has_next():
                ready.append(client)

    def part_from_clients(self):
        """Lets clients go that have gone, and those that have had all their answers; at the end those wait for the last line."""
        for client in [client for client in self.clients if client.is_gone or (client.is_served() and not self.is_closing)]:
            self.clients.remove(client)
            client.close()

    # The loop

    def close(self):
        """Takes no more requests. The program answers those under way, and ends."""
        self.is_closing = True
        for client in self.clients:
            client.has_ended = True
            client.lines.clear()

    def readers(self, woken):
        """What is done with what can be read, by descriptor. What the program writes isn't among it."""
        if self.is_closing:
            return {}
        found = {client.reader: client.read for client in self.clients if client.may_be_read()}
        if self.listener:
            found[self.listener.fileno()] = self.accept
        return {**found, woken: self.close}

    def wait(self, woken):
        """Waits until something can be read or written, and does it. The program comes last, since another may take its place."""
        readers, writers = self.readers(woken), {client.writer: client for client in self.clients if client.unread}
        if self.program.unread:
            writers[self.program.writer] = self.program
        poll = select.poll()
        for descriptor in {self.program.reader, *readers, *writers}:
            wanted = select.POLLOUT if descriptor in writers else 0
            poll.register(descriptor, wanted if descriptor in writers and descriptor not in readers else wanted | select.POLLIN)
        found = dict(poll.poll())
        for descriptor, events in found.items():
            if descriptor in writers and events & ~select.POLLIN:
                writers[descriptor].write()
            if descriptor in readers and events & ~select.POLLOUT and not self.is_closing:
                readers[descriptor]()
        if self.program.reader in found:
            self.listen()

    def listen(self):
        rows = self.program.rows()
        if rows is not None:
            self.hear(rows)
        elif not self.is_over:
            self.start_again()

    def run(self, woken):
        while not self.is_over:
            self.wait(woken)
            if not self.listener and all(client.has_ended and not client.lines for client in self.clients):
                self.close()
            self.part_from_clients()
            self.take_requests()
            if self.program.unread:
                self.program.write()
            elif self.is_closing:
                self.program.hang_up()
        self.say_goodbye()
        return self.program.end()

    def say_goodbye(self):
        """Lets the clients read what was written last, if they do so soon."""
        end = time.monotonic() + LAST_SECONDS
        while time.monotonic() < end and (writers := {client.writer: client for client in self.clients if client.unread and not client.is_gone}):
            poll = select.poll()
            for descriptor in writers:
                poll.register(descriptor, select.POLLOUT)
            for descriptor, _ in poll.poll(100):
                writers[descriptor].write()


def listener(asked):
    """The socket that clients connect to, or None where the one client is standard input."""
    if asked.port is not None:
        found = socket.create_server(("127.0.0.1", asked.port))
        say(f"listens on port {found.getsockname()[1]} of 127.0.0.1")
    elif asked.socket:
        if os.path.exists(asked.socket):
            remove_left_socket(asked.socket)
        found = socket.socket(socket.AF_UNIX)
        found.bind(asked.socket)
        found.listen(64)
        say(f"listens on {asked.socket}")
    else:
        return None
    found.setblocking(False)
    return found


def remove_left_socket(path):
    """Removes a socket that a keeper left behind when it was killed."""
    with socket.socket(socket.AF_UNIX) as other:
        if not stat.S_ISSOCK(os.stat(path).st_mode) or other.connect_ex(path) != errno.ECONNREFUSED:
            stop(f"{path} is in use")
    os.unlink(path)


def woken_by_signals():
    """A descriptor that can be read once the keeper is to end."""
    reader, writer = os.pipe()
    os.set_blocking(writer, False)
    signal.set_wakeup_fd(writer)
    for number in (signal.SIGTERM, signal.SIGINT):
        signal.signal(number, lambda *_: None)
    return reader


def main():
    asked = argparse.ArgumentParser(description="Keeps a live dispatcher going: its journal, new starts, and many clients.")
    asked.add_argument("--journal", required=True, help="the file of the journal, which may be there already")
    asked.add_argument("--document", required=True, help="the file of the document")
    asked.add_argument("--reports", action="store_true", help="trains say where they are (`live reports`)")
    where = asked.add_mutually_exclusive_group()
    where.add_argument("--socket", metavar="PATH", help="serve clients on a Unix socket")
    where.add_argument("--port", type=int, metavar="N", help="serve clients on a port of this machine; 0 takes a free one")
    asked.add_argument("command", nargs=argparse.REMAINDER, metavar="COMMAND", help="the program, and its words")
    asked = asked.parse_args()
    asked.command = asked.command[1:] if asked.command[:1] == ["--"] else asked.command
    if not asked.command:
        sys.exit("keep.py: which program? For example: tools/keep.py --journal FILE --document FILE ./dispatch")
    try:
        woken = woken_by_signals()
        code = Keeper(asked).run(woken)
        if asked.socket:
            os.unlink(asked.socket)
        return code
    except OSError as fault:
        return stop(f"{fault.strerror}{': ' + str(fault.filename) if fault.filename else ''}")


if __name__ == "__main__":
    sys.exit(main())
