#!/usr/bin/env python3
"""Compares, times and attacks the live dispatcher, and prints a table or a line for each group.

    bench/live.py                                   all groups, of the program that ./dispatch runs
    bench/live.py sessions --other COMMAND          100,000 drawn sessions beside another program with the same answers
    bench/live.py times kills --program COMMAND     some groups, of another program

    sessions   drawn sessions: what is written is equal, byte for byte, to what a plain model (live_model.py) writes; or to what the other
               program writes, and then also what is said and the exit code
    chunks     each split of a session's bytes gives the same output, and each answer comes before more is read
    slow       clients that send all before they read anything, or that read a few bytes at a time
    times      a request at a time, and windows of 100
    million    a million requests to one program: how long they take, and that its memory doesn't grow
    hash       `ready` names the document, and a session of another one is refused
    client     the client of docs/live.md, with its keeper
    keeper     drawn sessions through tools/keep.py give what the program gives
    cuts       the program dies at any byte of what it writes: the keeper's client sees all answers and events
    kills      the program, its keeper and their clients are killed at random: no line of the journal is lost or doubled

The `ready` line's hash of the document, the rows of `help`, and the verbs that the other program may have besides aren't compared. The exit
status is 1 if something is wrong. What differs is kept in a file, and printed.
"""
import argparse
import collections
import contextlib
import hashlib
import json
import multiprocessing
import os
import pathlib
import random
import re
import select
import shlex
import signal
import socket
import statistics
import subprocess
import sys
import tempfile
import threading
import time

import live_model
import live_sessions
import model
import programs

HERE = pathlib.Path(__file__).resolve().parent
KEEPER = HERE.parent / "tools" / "keep.py"
PATIENCE = 30
ON_ONE_DOCUMENT = 20
ASKED = argparse.Namespace()
Ran = collections.namedtuple("Ran", "code out err")


# One run of a whole session

class Runner:
    """Runs programs whose standard streams are files in memory: with thousands of short runs that is the quickest way."""

    def __init__(self):
        self.files = [os.memfd_create(name) for name in ("in", "out", "err")]

    def run(self, command, text):
        for file in self.files:
            os.ftruncate(file, 0)
            os.lseek(file, 0, os.SEEK_SET)
        os.pwrite(self.files[0], text, 0)
        actions = [(os.POSIX_SPAWN_DUP2, file, number) for number, file in enumerate(self.files)]
        process = os.posix_spawnp(command[0], command, ENVIRONMENT, file_actions=actions)
        signal.signal(signal.SIGALRM, lambda *_: os.kill(process, signal.SIGKILL))
        signal.alarm(PATIENCE)
        _, status = os.waitpid(process, 0)
        signal.alarm(0)
        out, err = (os.pread(file, os.fstat(file).st_size, 0) for file in self.files[1:])
        return Ran(os.waitstatus_to_exitcode(status), out, err)


ENVIRONMENT = dict(os.environb)
RUNNER = None                   # of this process
HASH = re.compile(rb"(?m)^((?:#\S+ )?ready dispatch=1) document=\S+")
HELP = re.compile(rb"(?m)(?:^(?:#\S+ )?\| .*\n)*(^(?:#\S+ )?help) requests=.*$")


def begin_process():
    global RUNNER
    RUNNER = Runner()


def comparable(ran):
    """What is compared of a run: the hash of the document and the rows of `help` are left out, and so is the program's name."""
    out = HASH.sub(rb"\1", ran.out)
    return Ran(ran.code, HELP.sub(rb"\1", out) if b"help requests=" in out else out, ran.err.partition(b": ")[2])


def journal_of(out):
    return b"".join(line for line in out.splitlines(keepends=True) if line[:1].isdigit())


# Sessions beside another program

def kinds(out):
    """How many answers of each kind there are: an error by its number, a `wait` by its cause."""
    counts = collections.Counter()
    for line in out.splitlines():
        if line[:1].isdigit():
            counts["line of the journal"] += 1
            continue
        words = line.decode("latin-1").split(" ")
        words = words[1:] if words[0].startswith("#") else words
        if words[0] == "error":
            counts[" ".join(words[:3])] += 1
        elif words[0] == "wait":
            counts[f"wait {words[4].partition('=')[0]}"] += 1
        elif words[0] == "!":
            counts[f"! {words[1]}"] += 1
        elif words[0] != "|":
            counts[words[0]] += 1
    return counts


def kept_session(given):
    """The name of a file in which a session is kept."""
    with tempfile.NamedTemporaryFile(delete=False, suffix=".session") as kept:
        kept.write(given)
    return kept.name


def sessions_of(number):
    """All sessions on one document: what differs, and how many answers of each kind there were."""
    text = live_sessions.document(number, ASKED.ats)
    document, journal, counts, differing = json.loads(text), b"", collections.Counter(), []
    for index in range(ON_ONE_DOCUMENT):
        draw = random.Random(f"session {ASKED.seed} {number} {index}")
        given, resumed = live_sessions.session(draw, text, document, journal)
        mine = comparable(RUNNER.run(ASKED.program, given))
        counts += kinds(mine.out)
        counts[f"code {mine.code}"] += 1
        journal = journal if resumed is None else resumed + journal_of(mine.out)
        if not is_right(mine, document, given, resumed):
            differing.append((f"{number}.{index}", given))
    return counts, differing


def is_right(mine, document, given, resumed):
    """Whether a run is as it should be, by the other program or by the model, which doesn't judge heads that are refused."""
    if ASKED.other:
        return mine == comparable(RUNNER.run(ASKED.other, given))
    if resumed is None:
        return mine.code in (0, 3, 4, 9) and (mine.code == 0 or not mine.out)
    mode = given.index(b"\nlive") + 1
    begins = given.index(b"\n", mode) + 1
    wanted = live_model.written(document, resumed.decode().splitlines(), given[mode:begins] == b"live reports\n", given[begins:])
    return mine == Ran(0, wanted, b"")


def sessions():
    """Compares drawn sessions, and counts what was answered."""
    began, counts, faults = time.time(), collections.Counter(), 0
    numbers = range(ASKED.seed, ASKED.seed + -(-ASKED.sessions // ON_ONE_DOCUMENT))
    with multiprocessing.Pool(ASKED.beside, begin_process) as pool:
        for some, differing in pool.imap_unordered(sessions_of, numbers, chunksize=4):
            counts += some
            for name, given in differing:
                faults += 1
                print(f"session {name}: < {kept_session(given)}", flush=True)
    print(", ".join(f"{kind}: {count}" for kind, count in sorted(counts.items())))
    requests = sum(count for kind, count in counts.items() if kind[0] != "!" and not kind.startswith(("code", "line", "end", "suspend")))
    took = time.time() - began
    return faults, f"{len(numbers) * ON_ONE_DOCUMENT} sessions, {requests} answers in {took:.0f} s; {faults} differ"


# Sessions through pipes

def is_part(row):
    """Whether a row isn't the last of an answer: a row of a list, an event, or a line of the journal."""
    rest = row.partition(b" ")[2] if row.startswith(b"#") else row
    return row[:1].isdigit() or rest.startswith((b"| ", b"! "))


def is_whole(data):
    """Whether the bytes have the last row of an answer, with at most three events behind it."""
    return data.endswith(b"\n") and any(b"\n" not in row and not is_part(row) for row in data.rsplit(b"\n", 4)[:-1])


class Piped:
    """A program on pipes, for requests one by one or in windows."""

    def __init__(self, command, head):
        self.process = subprocess.Popen(command, stdin=subprocess.PIPE, stdout=subprocess.PIPE, stderr=subprocess.DEVNULL, bufsize=0)
        self.process.stdin.write(head)
        self.lines = self.process.stdout.fileno()
        self.part = b""
        self.rows = collections.deque()

    def row(self):
        """The next row, without its newline."""
        while not self.rows:
            data = os.read(self.lines, 1 << 16)
            if not data:
                raise EOFError("the program has ended")
            *rows, self.part = (self.part + data).split(b"\n")
            self.rows.extend(rows)
        return self.rows.popleft()

    def answer(self):
        """The next answer; rows, events and lines of the journal are passed over."""
        while True:
            row = self.row()
            if not is_part(row):
                return row.partition(b" ")[2] if row.startswith(b"#") else row

    def ask(self, lines, count=1):
        """Sends requests and waits for so many answers."""
        self.process.stdin.write(lines)
        return [self.answer() for _ in range(count)]

    def ask_only(self, line):
        """Sends a request and reads until its answer is whole, of which nothing is taken apart: for times."""
        self.process.stdin.write(line)
        data = os.read(self.lines, 1 << 16)
        while not is_whole(data):
            more = os.read(self.lines, 1 << 16)
            if not more:
                raise EOFError("the program has ended")
            data += more

    def end(self):
        self.process.stdin.close()
        while os.read(self.lines, 1 << 16):
            pass
        self.process.stdout.close()
        return self.process.wait()


def some_sessions(count):
    """Drawn sessions with a good head: the input, and where the requests begin."""
    number, found = ASKED.seed, 0
    while found < count:
        text, journal = live_sessions.document(number, ASKED.ats), b""
        for index in range(4):
            draw = random.Random(f"piped {ASKED.seed} {number} {index}")
            given, resumed = live_sessions.session(draw, text, json.loads(text), journal)
            ran = RUNNER.run(ASKED.program, given)
            journal = journal if resumed is None else resumed + journal_of(ran.out)
            if ran.code == 0 and resumed is not None:
                found += 1
                live = given.index(b"\nlive") + 1
                yield given, given.index(b"\n", live) + 1, ran
        number += 1


def answers_so_far(given):
    """What the program has to have written once it has read these bytes: all but the last line that it would write at their end."""
    out = RUNNER.run(ASKED.program, given[: given.rfind(b"\n") + 1]).out
    last = out.rfind(b"\n", 0, -1) + 1
    return out if b"\nbye " in out or b" bye " in out[last - 40 :] else out[:last]


def fed(given, begins, cuts, ran):
    """One session in pieces: after each piece all that can be answered is answered, without the next one."""
    process = subprocess.Popen(ASKED.program, stdin=subprocess.PIPE, stdout=subprocess.PIPE, stderr=subprocess.DEVNULL, bufsize=0)
    written, out = 0, b""
    with contextlib.suppress(BrokenPipeError):
        for cut in sorted(cuts):
            process.stdin.write(given[written:cut])
            written = cut
            wanted = answers_so_far(given[:cut]) if cut >= begins else b""
            while len(out) < len(wanted):
                if not select.select([process.stdout], [], [], PATIENCE)[0]:
                    process.kill()
                    process.wait()
                    return f"after {cut} bytes {len(out)} of {len(wanted)} bytes are written"
                out += os.read(process.stdout.fileno(), len(wanted) - len(out))
        process.stdin.write(given[written:])
    process.stdin.close()
    out += process.stdout.read()
    process.stdout.close()
    return "" if (process.wait(), out) == (ran.code, ran.out) else f"cut at {sorted(cuts)} it gives another output"


def chunks():
    """Whether sessions that come in pieces are answered alike, and piece by piece."""
    began, faults, pieces = time.time(), 0, 0
    draw = random.Random(ASKED.seed)
    for number, (given, begins, ran) in enumerate(some_sessions(ASKED.pieces)):
        cuts = set(draw.sample(range(len(given)), 3)) | {draw.randrange(begins, len(given) + 1) for _ in range(5)}
        if number % 20 == 0:
            cuts = set(range(begins - 3, len(given)))       # byte by byte
        pieces += len(cuts) + 1
        fault = fed(given, begins, cuts, ran)
        if fault:
            faults += 1
            print(f"chunks: < {kept_session(given)}: {fault}", flush=True)
    return faults, f"{ASKED.pieces} sessions in {pieces} pieces in {time.time() - began:.0f} s; {faults} faults"


def slow():
    """Whether clients that read late, or slowly, get the same output."""
    began, faults, count = time.time(), 0, 0
    head = head_of(busy_document())
    body = b"".join(b"#%d %s\n" % (number, line) for number, line in enumerate([b"state", b"ask T0", b"why T1", b"since 0", b"can *"] * 200))
    wanted = RUNNER.run(ASKED.program, head + body)
    if wanted.code:
        return 1, f"the program ended with {wanted.code}, or took more than {PATIENCE} seconds"
    for most, wait in ((1 << 16, 0.5), (7, 0), (4096, 0.0005)):
        count += 1
        process = subprocess.Popen(ASKED.program, stdin=subprocess.PIPE, stdout=subprocess.PIPE, stderr=subprocess.DEVNULL, bufsize=0)
        writer = threading.Thread(target=lambda: (process.stdin.write(head + body), process.stdin.close()))
        writer.start()
        time.sleep(wait if most == 1 << 16 else 0)
        out = bytearray()
        while data := os.read(process.stdout.fileno(), most):
            out += data
            if most == 4096:
                time.sleep(wait)
        writer.join()
        process.stdout.close()
        if (process.wait(), bytes(out)) != (wanted.code, wanted.out):
            faults += 1
            print(f"slow: with reads of {most} bytes the output is another one", flush=True)
    return faults, f"{count} slow readers of {len(wanted.out)} bytes in {time.time() - began:.0f} s; {faults} faults"


# Times and memory

def busy_document():
    """32 trains that go to and fro on two points each: 4,064 moves, and no train is ever in another one's way."""
    ways = [[f"{'AB'[place % 2]}{train}" for place in range(127)] for train in range(32)]
    return {
        "version": 2, "zones": 1, "points": [[f"{side}{train}", 0] for train in range(32) for side in "AB"],
        "links": [[f"A{train}", f"B{train}"] for train in range(32)], "trains": [f"T{train}" for train in range(32)], "start": [0] * 32,
        "tables": [{"missions": ways, "exits": [True] * 32}],
    }


def head_of(document, mode=b"live", journal=b""):
    text = live_sessions.called(ASKED.ats, ["make"], programs.compact(document).encode())
    return text + b"journal\n" + journal + mode + b"\n"


def metro():
    """The metro of six trains, with the order that its tracks force, and a certificate."""
    text = (HERE.parent / "examples" / "metro.json").read_bytes()
    return live_sessions.called(ASKED.ats, ["make"], text) + b"journal\nlive\n"


LAST = re.compile(rb"#last pong line=\d+\n\Z")


def micros(program, lines):
    """The median of the microseconds from a request until its whole answer has been read."""
    taken = []
    for line in lines:
        began = time.perf_counter_ns()
        program.ask_only(line)
        taken.append(time.perf_counter_ns() - began)
    return statistics.median(taken) / 1000


def per_second(program, lines):
    """How many requests a second are answered in windows of 100: the median over windows. A `ping` ends each, so that nothing is parsed."""
    taken = []
    for first in range(0, len(lines) - 99, 100):
        window = b"".join(lines[first : first + 100]) + b"#last ping\n"
        began = time.perf_counter_ns()
        program.process.stdin.write(window)
        data = b""
        while not LAST.search(data, max(0, len(data) - 40)):
            data += os.read(program.lines, 1 << 18)
        taken.append(time.perf_counter_ns() - began)
    return 101e9 / statistics.median(taken)


def rows_of_times():
    """What is timed: a name, the session's head, lines that come first, and lines that are timed."""
    wide, line = head_of(busy_document()), head_of(busy_document(), b"live reports")
    grants = [b"ask T%d %d\n" % (number % 32, number // 32 + 1) for number in range(4000)]
    wants = [b"want T%d %d\n" % (number % 32, number // 32 + 1) for number in range(4000)]
    reported = [line for number in range(2000) for line in (b"ask T%d\n" % (number % 32), b"at T%d %d\n" % (number % 32, number // 32 + 1))]
    yield "`ping`", wide, [], [b"ping\n"] * 4000
    yield "`ask`, granted (32 trains)", wide, [], grants
    yield "`want`, granted", wide, [], wants
    yield "`ask` and `at` with reports", line, [], reported
    yield "`ask`, again", wide, grants, grants
    yield "`ask`, wait (metro of 6 trains)", metro(), [], [b"ask T%d 1\n" % (1 + number % 4) for number in range(4000)]
    yield "`can *`, 32 trains", wide, [], [b"can *\n"] * 2000
    yield "`why`, metro", metro(), [b"ask T1\n"], [b"why T%d\n" % (1 + number % 6) for number in range(4000)]
    yield "`state`, 32 trains", wide, [], [b"state\n"] * 2000
    yield "an error", wide, [], [b"ask T99\n"] * 4000


def times():
    """The table of times. A start is a new program up to its `ready` line."""
    print(f"{'request':36}{'median us':>12}{'a second, in windows of 100':>30}")
    for name, head, first, lines in rows_of_times():
        figures = []
        for measure in (micros, per_second):
            program = Piped(ASKED.program, head)
            program.answer()
            for at in range(0, len(first), 100):
                program.ask(b"".join(first[at : at + 100]), len(first[at : at + 100]))
            figures.append(measure(program, lines))
            program.end()
        print(f"{name:36}{figures[0]:>12.1f}{figures[1]:>30,.0f}", flush=True)
    for name, head in (("metro", metro()), ("32 trains, 4,064 moves", head_of(busy_document())), ("a journal of 4,064 lines", whole_head())):
        print(f"start: {name}, {len(head) >> 10} KiB: {start_millis(head):.1f} ms", flush=True)
    return 0, ""


def whole_head():
    text = live_sessions.called(ASKED.ats, ["make"], programs.compact(busy_document()).encode())
    return text + b"journal\n" + journal_of(live_sessions.called(ASKED.ats, ["run"], text)) + b"live\n"


def start_millis(head):
    taken = []
    for _ in range(15):
        began = time.perf_counter()
        program = Piped(ASKED.program, head)
        program.answer()
        taken.append(time.perf_counter() - began)
        program.end()
    return 1000 * statistics.median(taken)


def peak(program):
    """The most memory that a running program has had, in KiB."""
    with open(f"/proc/{program.process.pid}/status") as status:
        return int(next(line.split()[1] for line in status if line.startswith("VmHWM")))


def million():
    """A million requests of all kinds to one program: first all moves, then drawn lines over and over."""
    text = live_sessions.called(ASKED.ats, ["make"], programs.compact(busy_document()).encode())
    document = json.loads(text)
    program = Piped(ASKED.program, text + b"journal\nlive reports\n")
    program.answer()
    for place in range(1, 128):
        window = b"".join(b"want T%d %d\nat T%d %d\n" % (train, place, train, place) for train in range(32))
        program.ask(window, 64)
    drawn = live_sessions.Drawn(random.Random(ASKED.seed), document, model.Yard(document), True)
    windows = []
    for _ in range(50):
        lines = [line for line in (drawn.line() for _ in range(120)) if line.strip() and b"since" not in line and not is_quit(line)][:100]
        windows.append((b"".join(lines), len(lines)))
    asked, began = 0, time.time()
    while asked < 10_000:
        for window, count in windows:
            program.ask(window, count)
            asked += count
    before = peak(program)
    while asked < ASKED.requests:
        for window, count in windows:
            program.ask(window, count)
            asked += count
    after, took = peak(program), time.time() - began
    program.end()
    grown = after - before
    return int(grown > 64), f"{asked} requests in {took:.1f} s; at most {before} KiB after the first 10,000, {after} KiB at the end"


def is_quit(line):
    return line.split(b" ")[-1].strip() == b"quit" or line.startswith(b"quit")


# The keeper

def through_keeper(room, given, begins, program):
    """A session through the keeper: the run, and the journal that is kept."""
    document, _, rest = given[:begins].partition(b"\njournal\n")
    *lines, mode, _ = rest.split(b"\n")
    for name in os.listdir(room):
        os.unlink(f"{room}/{name}")
    pathlib.Path(f"{room}/document").write_bytes(document + b"\n")
    pathlib.Path(f"{room}/journal").write_bytes(b"".join(line + b"\n" for line in lines))
    reports = ["--reports"] if mode == b"live reports" else []
    command = [KEEPER, "--journal", f"{room}/journal", "--document", f"{room}/document", *reports, *program]
    try:
        kept = subprocess.run(command, input=given[begins:], capture_output=True, timeout=PATIENCE)
    except subprocess.TimeoutExpired as fault:
        return Ran(None, fault.stdout or b"", b""), b""
    return Ran(kept.returncode, kept.stdout, kept.stderr), pathlib.Path(f"{room}/journal").read_bytes()


def whole_journal(given, begins, ran):
    """The journal after a session: the lines in its head, those that were written, and its end if it has one."""
    before = given[:begins].partition(b"\njournal\n")[2]
    last = ran.out.splitlines(keepends=True)[-1]
    return journal_of(before) + journal_of(ran.out) + (last if last.startswith(b"end ") else b"")


def keeper():
    """Whether a session through the keeper gives what the program gives."""
    began, faults, count = time.time(), 0, 0
    with tempfile.TemporaryDirectory() as room:
        for given, begins, ran in some_sessions(ASKED.kept):
            kept, journal = through_keeper(room, given, begins, ASKED.program)
            count += 1
            if (kept.code, kept.out) != (0, ran.out) or journal != whole_journal(given, begins, ran):
                faults += 1
                print(f"keeper: < {kept_session(given)}", flush=True)
    return faults, f"{count} sessions through the keeper in {time.time() - began:.0f} s; {faults} differ"


# A program that passes on what another one writes, and at its first start dies after so many bytes.
CUT = """
import os, signal, subprocess, sys
is_first = not os.path.exists(sys.argv[1])
open(sys.argv[1], "w").close()
left = int(sys.argv[2])
program = subprocess.Popen(sys.argv[3:], stdout=subprocess.PIPE)
while data := os.read(program.stdout.fileno(), 1 << 16):
    os.write(1, data[: max(0, left)] if is_first else data)
    left -= len(data)
    if is_first and left <= 0:
        os.kill(os.getpid(), signal.SIGKILL)
sys.exit(program.wait())
"""


AGAIN = re.compile(rb"\bagain (table |kept )?")


def answers_told(out):
    """The answers and events that a client gets, in some order; what is answered `again` counts as the first answer."""
    lines = [line for line in out.splitlines() if not line[:1].isdigit()]
    return sorted(AGAIN.sub(lambda found: found[1] if found[1] else b"granted ", line) for line in lines)


# Several standing wants that are granted after one request, with the line that granted the request itself, if one did.
GRANTS = re.compile(rb"(?m)(?:^\d+ .*\n(?:#\S+ )?granted .*\n)?(?:^\d+ .*\n(?:#\S+ )?! granted .*\n){2,}")


def cut_of(draw, out):
    """Where a program dies: before or after the line of the journal that grants a want, after another one, or anywhere. It doesn't die among
    several grants of standing wants: a new program begins with the first want again, and may grant them in another order. Most sessions in
    which no want is granted later are left out."""
    wants = [place for found in re.finditer(rb"(?m)^\d+ .*\n(?=(#\S+ )?! granted)", out) for place in found.span()]
    if not wants and draw.random() < 0.8:
        return None
    lines = [found.end() for found in re.finditer(rb"(?m)^\d+ .*\n", out)]
    place = draw.choice(draw.choice([wants, wants, lines, []]) or range(len(out)))
    return None if any(found.start() < place < found.end() for found in GRANTS.finditer(out)) else place


def cuts():
    """Whether a program that dies at some byte of its output goes unnoticed: the keeper's client gets each answer and event once, and the
    journal is the same."""
    began, faults, count, draw = time.time(), 0, 0, random.Random(ASKED.seed)
    with tempfile.TemporaryDirectory() as room:
        for given, begins, ran in some_sessions(20 * ASKED.cuts):
            most = cut_of(draw, ran.out)
            if most is None:
                continue
            if count == ASKED.cuts:
                break
            most += ran.out.index(b"\n") + 1       # the keeper asks `hello` first, which gives that line again
            kept, journal = through_keeper(room, given, begins, [sys.executable, "-c", CUT, f"{room}/mark", str(most), *ASKED.program])
            count += 1
            good = kept.code == 0 and journal_of(kept.out) == journal_of(ran.out) and answers_told(kept.out) == answers_told(ran.out)
            if not good or journal != whole_journal(given, begins, ran):
                faults += 1
                print(f"cuts: after {most} bytes of < {kept_session(given)}", flush=True)
    return faults, f"{count} programs cut off in {time.time() - began:.0f} s; {faults} faults"


def document_hash():
    """Whether `ready` has the SHA-256 of the document, and a session that names another one is refused."""
    text = (HERE.parent / "examples" / "corridor.json").read_bytes().rstrip(b"\n") + b"\n"
    right, faults = hashlib.sha256(text).hexdigest().encode(), 0
    for mode in (b"live", b"live reports"):
        plain = RUNNER.run(ASKED.program, text + b"journal\n" + mode + b"\n")
        if b" document=" not in plain.out:
            return 0, "left out: the program says no hash"
        named = RUNNER.run(ASKED.program, text + b"journal\n" + mode + b" document=" + right + b"\n")
        other = RUNNER.run(ASKED.program, text + b"journal\n" + mode + b" document=" + right[:-1] + b"x\n")
        faults += not plain.out.startswith(b"ready dispatch=1 document=" + right + b" line=0 ") or named != plain
        faults += (other.code, other.out, other.err.partition(b": ")[2]) != (3, b"", b"313 Document\n")
    return faults, f"{faults} faults"


def client():
    """Whether the client of docs/live.md takes both trains of the corridor to their ends, while the program is killed."""
    page, text = (HERE.parent / "docs" / "live.md").read_text(), (HERE.parent / "examples" / "corridor.json").read_bytes()
    code = re.search(r"```python\n(.*?)```", page, re.DOTALL)[1]
    with tempfile.TemporaryDirectory() as room:
        kept = Kept(room, "client", text, True)
        clients = [subprocess.Popen([sys.executable, "-c", code, kept.path, train], stdout=subprocess.PIPE, text=True) for train in ("T0", "T1")]
        time.sleep(0.3)
        kept.kill_program()
        said = [one.communicate(timeout=PATIENCE)[0].split("\n") for one in clients]
        kept.end()
        verdict = model.verdict(json.loads(text), pathlib.Path(kept.journal).read_bytes())
    wanted = [[f"T0 goes to {point}" for point in "MNB"] + [""], [f"T1 goes to {point}" for point in "NMD"] + [""]]
    good = said == wanted and [one.returncode for one in clients] == [0, 0] and verdict == "ok moves=6 tables=0"
    return int(not good), f"{said[0][:-1]}, {said[1][:-1]}; the journal: {verdict}"


# A program that passes on what another one writes a few bytes at a time, so that a kill can cut it off anywhere.
DRIP = """
import os, random, subprocess, sys, time
program = subprocess.Popen(sys.argv[1:], stdout=subprocess.PIPE)
while data := os.read(program.stdout.fileno(), 1 << 16):
    while data:
        size = random.choice([1, 3, 10, 40])
        os.write(1, data[:size])
        data = data[size:]
        time.sleep(random.choice([0, 0.0005, 0.002]))
sys.exit(program.wait())
"""


def wait_for(happens):
    end = time.monotonic() + PATIENCE
    while not happens() and time.monotonic() < end:
        time.sleep(0.0005)


class Kept:
    """A keeper on a Unix socket, with a journal of its own, that is started again when it is killed."""

    def __init__(self, room, number, text, reports, drips=False):
        self.document, self.journal, self.path = f"{room}/document", f"{room}/{number}.journal", f"{room}/socket"
        pathlib.Path(self.document).write_bytes(text)
        self.words = [KEEPER, "--journal", self.journal, "--document", self.document, "--socket", self.path, *["--reports"] * reports]
        self.words += [sys.executable, "-c", DRIP] * drips + ASKED.program
        self.program, self.told, self.answers = None, threading.Lock(), 0
        self.start()

    def start(self):
        self.keeper = subprocess.Popen(self.words, stderr=subprocess.PIPE, text=True)
        threading.Thread(target=self.follow, args=(self.keeper,), daemon=True).start()

    def follow(self, keeper):
        """Keeps the process of the program, which the keeper tells."""
        for line in keeper.stderr:
            found = re.search(r"started process (\d+)", line)
            if found:
                with self.told:
                    self.program = int(found[1])
            elif line.startswith("keep.py: ") and not re.search(r"listens|ended with", line):
                print(line, end="", flush=True)

    def running(self):
        """Waits until a program runs. None if that takes too long, or the keeper has ended."""
        wait_for(lambda: self.program is not None or self.keeper.poll() is not None)
        with self.told:
            return self.program

    def kill_program(self):
        process = self.running()
        with self.told:
            self.program = None
        if process is not None:
            with contextlib.suppress(ProcessLookupError):
                os.kill(process, signal.SIGKILL)        # (while the keeper runs it waits for it, so the number is still its own)

    def kill(self, tail):
        """Kills the keeper, and leaves a line in the journal that was cut off, as a machine that stops does."""
        self.keeper.kill()
        self.keeper.wait()
        with self.told:
            self.program = None
        if tail:
            with open(self.journal, "ab") as file:
                number = pathlib.Path(self.journal).read_bytes().count(b"\n") + 1
                file.write((b"%d move T" % number)[:tail])
        self.start()

    def end(self):
        """Ends the keeper. It has no clients any more, and drivers that are stuck give up."""
        keeper, self.keeper = self.keeper, None
        keeper.terminate()
        return keeper.wait()


class Driver(threading.Thread):
    """A client that drives some trains: it asks for each next place until the train has arrived, over again after each lost connection.
    A train is at its place as soon as that was granted."""

    def __init__(self, kept, trains, lasts, reports, draw):
        super().__init__(daemon=True)
        self.kept, self.trains, self.lasts, self.reports, self.draw = kept, trains, lasts, reports, draw
        self.seen, self.grants, self.faults = {}, [], []
        self.places, self.asked = dict.fromkeys(trains, 0), set()
        self.connection = None

    def run(self):
        while any(self.places[train] < self.lasts[train] for train in self.trains) and self.kept.keeper:
            try:
                with socket.socket(socket.AF_UNIX) as self.connection:
                    self.connection.settimeout(PATIENCE)
                    self.connection.connect(self.kept.path)
                    self.drive(self.connection.makefile("rb"))
            except TimeoutError:
                self.faults.append(f"no answer in {PATIENCE} seconds, at {self.places}")
                return
            except (OSError, EOFError):
                time.sleep(0.002)

    def send(self, line):
        self.connection.sendall(line.encode() + b"\n")

    def cut_off(self):
        """Breaks the connection, if there is one, as if the client had died. It begins again, and knows only how far its trains are."""
        with contextlib.suppress(OSError, AttributeError):
            self.connection.shutdown(socket.SHUT_RDWR)

    def rows(self, file):
        """The rows as they come. Lines of the journal are kept."""
        for row in file:
            if not row.endswith(b"\n"):
                break
            row = row[:-1].decode()
            if row[:1].isdigit():
                number = int(row.partition(" ")[0])
                if self.seen.setdefault(number, row) != row:
                    self.faults.append(f"line {number} is {self.seen[number]!r}, and then {row!r}")
            else:
                yield row
        raise EOFError

    def drive(self, file):
        """Asks `state` where the trains are, and then for each next place."""
        for row in self.rows(file):
            tag, text = row.split(" ", 1) if row.startswith("#") else ("", row)
            words = text.split(" ")
            self.kept.answers += words[0] not in ("|", "!")
            if words[0] == "ready":
                self.asked.clear()
                self.send("#where state")
            elif tag == "#where" and words[:2] == ["|", "at"]:
                self.found(words[2], int(words[3]))
            elif tag == "#where" and words[0] == "state":
                for train in self.trains:
                    self.next(train)
            elif words[:2] == ["!", "granted"]:
                self.granted("granted", words[2:])
            elif words[0] in ("granted", "again"):
                self.granted(words[0], words[1:])
            elif words[0] == "wait" and tag == "#ask":
                self.send(f"#want want {words[1]} {words[2]}")
            elif words[0] == "error":
                self.faults.append(row)
            if all(self.places[train] >= self.lasts[train] for train in self.trains):
                return

    def found(self, train, place):
        if train in self.places:
            self.places[train] = max(place, self.places[train])

    def granted(self, how, words):
        train, place, line = words[0], int(words[1]), int(words[3].partition("=")[2])
        self.grants.append((how, train, place, line))
        if self.places[train] + 1 < place:
            self.faults.append(f"{train} is at {self.places[train]}, and gets {how} {place}")
        if self.places[train] < place:
            self.places[train] = place
            self.next(train)

    def next(self, train):
        """Reports where the train is, and asks for its next place. The first request on a connection names it, since a former one may still be
        under way. Of the later ones some don't: only the keeper can repeat those."""
        place = self.places[train]
        if self.reports and place:
            self.send(f"#at at {train} {place}")
        if place < self.lasts[train]:
            verb = self.draw.choice(["want", "want", "ask"])
            named = train not in self.asked or self.draw.random() < 0.5
            self.asked.add(train)
            self.send(f"#{verb} {verb} {train}" + f" {place + 1}" * named)


def faults_of(text, journal, drivers):
    """What is wrong with the journal of one run, beside what its clients have seen."""
    faults = [fault for driver in drivers for fault in driver.faults]
    verdict = model.verdict(json.loads(text), journal)
    if not verdict.startswith("ok "):
        faults.append(f"the journal: {verdict}")
    lines = dict(enumerate(journal.decode().splitlines(), 1))
    moves, places = collections.Counter(), {}
    for number, line in lines.items():
        words = line.split(" ")
        if words[1:2] == ["move"]:
            moves[words[2]] += 1
            places[words[2], moves[words[2]]] = number
    grants = collections.Counter()
    for driver in drivers:
        faults += [f"line {number} was {row!r} and is {lines.get(number)!r}" for number, row in driver.seen.items() if lines.get(number) != row]
        for how, train, place, line in driver.grants:
            grants[train, place] += how == "granted"
            if places.get((train, place)) != line:
                faults.append(f"{train} was granted place {place} by line {line}, and the journal has it in line {places.get((train, place))}")
    return faults + [f"{train} was granted place {place} {count} times" for (train, place), count in grants.items() if count > 1]


MOST_IN_VAIN = 5                # kills one after another without an answer to a client: the keeper gives up after ten starts in vain
# What is killed in a run, and how often: the program, the keeper, the keeper with a line of the journal cut off, a client.
MIXES = [[1, 0, 0, 0], [6, 1, 1, 2], [3, 0, 0, 1]]


def one_run(room, number, draw, text, most):
    """One run of a document to its end, with at most so many kills; how many of each kind there were, and what is wrong."""
    document, reports, mix, killed = json.loads(text), number % 2 == 1, MIXES[number % 3], collections.Counter()
    drips = number % 4 > 0
    names, kept = document["trains"], Kept(room, number, text, reports, drips)
    yard = model.Yard(document)
    lasts = {name: yard.table.last(train) for train, name in enumerate(names)}
    drivers = [Driver(kept, names[part::3], lasts, reports, random.Random(f"{number} {part}")) for part in range(3) if names[part::3]]
    for driver in drivers:
        driver.start()
    before, in_vain = 0, 0
    while any(driver.is_alive() for driver in drivers) and sum(killed.values()) < most:
        kept.running()
        if kept.keeper.poll() is not None:
            break
        before, in_vain = kept.answers, 0 if kept.answers > before else in_vain + 1
        if in_vain == MOST_IN_VAIN:
            wait_for(lambda: kept.answers > before or not any(driver.is_alive() for driver in drivers))
        time.sleep(draw.expovariate(20 if drips else draw.choice([60, 60, 1000])))
        chosen = draw.choices(["program", "keeper", "torn keeper", "client"], mix)[0]
        killed[chosen] += 1
        if chosen == "program":
            kept.kill_program()
        elif chosen == "client":
            draw.choice(drivers).cut_off()
        else:
            kept.kill(draw.randint(1, 7) if chosen == "torn keeper" else 0)
    for driver in drivers:
        driver.join(PATIENCE if kept.keeper.poll() is None else 0)
    stuck = [f"{driver.trains} don't arrive: {driver.places}" for driver in drivers if driver.is_alive()]
    kept.running()
    stuck += [f"the keeper ended with {code}"] if (code := kept.end()) else []
    journal = pathlib.Path(kept.journal).read_bytes()
    return killed, len(journal.splitlines()) - 1, stuck + faults_of(text, journal, drivers)


def kills():
    """Runs with kills until there were as many as asked for."""
    began, killed, runs, lines, faults = time.time(), collections.Counter(), 0, 0, 0
    draw = random.Random(ASKED.seed)
    texts = [live_sessions.called(ASKED.ats, ["make"], (HERE.parent / "examples" / "metro.json").read_bytes())]
    texts += [live_sessions.called(ASKED.ats, ["gen", "--seed", str(seed), "--trains", "16"], b"") for seed in range(3)]
    with tempfile.TemporaryDirectory() as room:
        while sum(killed.values()) < ASKED.kills:
            some, count, found = one_run(room, runs, draw, texts[runs % len(texts)], ASKED.kills - sum(killed.values()))
            killed, runs, lines, faults = killed + some, runs + 1, lines + count, faults + len(found)
            for fault in found[:5]:
                print(f"kills: run {runs - 1}: {fault}", flush=True)
    counts = ", ".join(f"{kind} {count}" for kind, count in killed.items())
    return faults, f"{sum(killed.values())} kills ({counts}) in {runs} runs of {lines} lines in {time.time() - began:.0f} s; {faults} faults"


GROUPS = {"sessions": sessions, "chunks": chunks, "slow": slow, "times": times, "million": million, "hash": document_hash,
          "client": client, "keeper": keeper, "cuts": cuts, "kills": kills}


def main():
    asked = argparse.ArgumentParser(description="Compares, times and attacks the live dispatcher.")
    asked.add_argument("groups", nargs="*", metavar="GROUP", help=", ".join(GROUPS))
    asked.add_argument("--program", help="a command in place of the built dispatch")
    asked.add_argument("--other", help="a command with the same answers, for the group sessions")
    asked.add_argument("--ats", help="a command in place of ats, for certificates")
    asked.add_argument("--sessions", type=int, default=100_000)
    asked.add_argument("--pieces", type=int, default=400, help="sessions of the group chunks")
    asked.add_argument("--kept", type=int, default=100, help="sessions of the group keeper")
    asked.add_argument("--cuts", type=int, default=200)
    asked.add_argument("--kills", type=int, default=1000)
    asked.add_argument("--requests", type=int, default=1_000_000)
    asked.add_argument("--seed", type=int, default=1)
    asked.add_argument("--beside", type=int, default=2, help="how many runs beside each other")
    asked.parse_args(namespace=ASKED)
    if set(ASKED.groups) - set(GROUPS):
        sys.exit(f"the groups are {', '.join(GROUPS)}")
    ASKED.program = programs.command_of(ASKED.program, "dispatch")
    ASKED.other = shlex.split(ASKED.other) if ASKED.other else None
    ASKED.ats = programs.command_of(ASKED.ats, "ats")
    begin_process()
    wrong = 0
    for group in ASKED.groups or GROUPS:
        faults, told = GROUPS[group]()
        wrong += faults
        if told:
            print(f"{group}: {told}", flush=True)
    return 1 if wrong else 0


if __name__ == "__main__":
    sys.exit(main())
