#!/usr/bin/env python3
"""Attacks the built program with hostile inputs, little memory and failing devices, and prints a table of how it answered.

    ./build                                    builds the program, once
    bench/attack.py                            all groups, in some ten minutes
    bench/attack.py journal calls              some groups
    bench/attack.py --all journal allocations  without leaving any out: each byte of a journal, each allocation of each command
    bench/attack.py --other PROGRAM builds     another build of the program beside it, on 10,000 documents
    bench/attack.py --program PROGRAM          another program than the one that ./build makes

An attack is one run of the program. It is *refused* where the exit code isn't 0, standard output has nothing, and standard error has one
line, whose number belongs to the exit code. It is *right* where the answer is the one that was wanted, or where a run's journal is legal
by a plain model of its own (model.py). All else is *wrong*, and is printed: another answer, a crash, a run that takes too long, which for
the greatest inputs is more than a second of processor time, or ten if `serde_json` reads it. Faults of single calls come from a library,
faults.c, which gcc compiles and which is loaded before the C
library; the table shows how many runs there were.
"""
import argparse
import atexit
import collections
import concurrent.futures
import functools
import itertools
import json
import os
import pathlib
import random
import re
import resource
import shutil
import struct
import subprocess
import sys
import tempfile
import time

import agree
from model import Journal, verdict

HERE = pathlib.Path(__file__).resolve().parent
ASKED = argparse.Namespace(program=HERE.parent / "crates" / "ats" / "out" / "ats", other=None, all=False)
EXAMPLES = sorted((HERE.parent / "examples").glob("*.json"))
MOST = 16_777_216
CODES = [
    (range(1, 44), 3), (range(51, 60), 4), (range(70, 81), 9), (range(101, 122), 3), ([201], 1), ([202], 2),
    ([205, 209], 5), ([206], 6), ([207], 7), ([208], 8), ([210], 3),
]
PATIENCE = 30
COMMANDS = ["run", "check", "make", "derive", "repair", "migrate", "sim", "weave --seed 5 --steps 200", "run --workers 3", "run --workers 8 --block 3"]

FAULTS = ("read", "write", "tell", "memory", "thread")

Ran = collections.namedtuple("Ran", "code out err seconds")
Attack = collections.namedtuple("Attack", "name words text judge seconds run", defaults=(1, None))


def ats(words, text, under=(), **streams):
    """One run of the program, by the words of another program that starts it, if any."""
    streams = {"stdout": subprocess.PIPE, "stderr": subprocess.PIPE, **({} if "stdin" in streams else {"input": text}), **streams}
    began = time.perf_counter()
    ran = subprocess.run([*under, ASKED.program, *words.split()], timeout=PATIENCE, **streams)
    return Ran(ran.returncode, ran.stdout or b"", ran.stderr.decode(), time.perf_counter() - began)


def limited(words, text, **limits):
    """One run of the program with at most so many bytes of `AS`, its address space, or of `STACK`, or seconds of `CPU`."""
    def limit():
        for name, most in limits.items():
            resource.setrlimit(getattr(resource, f"RLIMIT_{name}"), (most, most))

    return ats(words, text, preexec_fn=limit)


@functools.cache
def library():
    """The library of faults, compiled into a folder that is removed at the end."""
    folder = tempfile.mkdtemp(prefix="ats-faults-")
    atexit.register(shutil.rmtree, folder)
    subprocess.run(["gcc", "-O1", "-shared", "-fPIC", "-o", f"{folder}/faults.so", HERE / "faults.c", "-ldl"], check=True)
    return f"{folder}/faults.so"


def counted(words, text, **faults):
    """One run of the program with such faults (faults.c), and how many calls of each kind it made."""
    with tempfile.NamedTemporaryFile() as shared:
        shared.truncate(4096)
        given = {f"FAULTS_{kind.upper()}": str(number) for kind, number in faults.items()}
        ran = ats(words, text, env={"LD_PRELOAD": library(), "FAULTS": shared.name, **given})
        made = dict(zip(FAULTS, struct.unpack("5Q", os.pread(shared.fileno(), 40, 0))))
        if not made["memory"]:
            sys.exit("the library of faults isn't loaded: it needs a program that is linked dynamically")
        return ran, made


def faulty(words, text, **faults):
    return counted(words, text, **faults)[0]


def fed(words, text, size):
    """One run of the program that reads a few bytes at a time."""
    began = time.perf_counter()
    with subprocess.Popen([ASKED.program, *words.split()], stdin=subprocess.PIPE, stdout=subprocess.PIPE, stderr=subprocess.PIPE, bufsize=0) as ran:
        try:
            for at in range(0, len(text), size):
                ran.stdin.write(text[at : at + size])
        except BrokenPipeError:
            pass
        ran.stdin.close()
        out, err = ran.stdout.read(), ran.stderr.read()
    return Ran(ran.returncode, out, err.decode(), time.perf_counter() - began)


def refused(ran):
    """Whether a run was refused as it has to be: one line of standard error, whose number belongs to the exit code, and nothing else."""
    line = re.fullmatch(r"ats: ([0-9]+) [A-Za-z]+( [^\n]*)?\n", ran.err)
    return bool(line) and (not ran.out or ran.code == 8) and any(int(line[1]) in numbers and ran.code == code for numbers, code in CODES)


def says(line):
    """Wants a refusal's line, or that of `verify`."""
    return lambda ran: ran.out.decode() == line + "\n" and ran.code == 0 if line.startswith("ok ") else ran.err == f"ats: {line}\n" and refused(ran)


def same(wanted):
    """Wants the exit code and the bytes of another run."""
    return lambda ran: (ran.code, ran.out, ran.err) == (wanted.code, wanted.out, wanted.err)


def legal(text):
    """Wants a refusal, or a journal that the plain model takes."""
    return lambda ran: refused(ran) if ran.code else verdict(json.loads(text), ran.out).startswith("ok ")


def part(whole, moved):
    """Wants the refusal of a failed write, and the first bytes of another run, or of a right run where it may have another text."""
    def judge(ran):
        first = ran.out == whole.out[:moved] if whole else len(ran.out) == moved
        return (ran.code, ran.err) == (8, "ats: 208 WriteFault\n") and first

    return judge


def dumb(wanted, told):
    """Wants a refusal's exit code, where no more than this of its line was taken."""
    return lambda ran: (ran.code, ran.out, ran.err) == (wanted.code, b"", wanted.err[:told])


def short_of_memory(whole):
    """Wants the exit code of no memory with nothing written, or another judge's answer."""
    return lambda ran: refused(ran) if ran.code == 2 else whole(ran)


def some(numbers, most):
    """All numbers with --all; else so many of them at most, from the first to the last."""
    numbers = list(numbers)
    step = 1 if ASKED.all else -(-len(numbers) // most) or 1
    return numbers[::step]


def written(document):
    return json.dumps(document, separators=(",", ":")).encode()


def examples(command="run"):
    return [(file.stem, file.read_bytes()) for file in EXAMPLES if ats(command, file.read_bytes()).code == 0]


def cut():
    """Each first part of each example."""
    for name, text in examples():
        for end in range(len(text.rstrip())):
            yield Attack(f"{name} cut at byte {end}", "run", text[:end], says("101 NotJson"))


def places(value, way=()):
    """The ways to each value in a document."""
    yield way
    inner = value.items() if isinstance(value, dict) else enumerate(value) if isinstance(value, list) else ()
    for key, one in inner:
        yield from places(one, way + (key,))


def put(document, way, value):
    """A document with another value at a place of it."""
    if not way:
        return value
    copied = json.loads(json.dumps(document))
    at = copied
    for key in way[:-1]:
        at = at[key]
    at[way[-1]] = value
    return copied


EDGES = [
    -(2**31) - 1, -(2**31), -5, -4, -1, 0, 1, 4, 5, 16, 17, 32, 33, 64, 65, 127, 128, 129, 512, 1000, 1001, 1_000_000, 1_000_001, 2**31,
    2**32 - 1, 2**32, 2**64, 1.0, 1e300, None, True, "", "T0", "a name of 17 bytes"[:17], [], {}, [[]], [0, 0, 0], "\u0000",
]


def values():
    """Each value of each example in the place of one of some edges of all ranges."""
    draw = random.Random(1)
    for name, text in examples():
        document = json.loads(text)
        for way in places(document):
            for edge in EDGES if ASKED.all else draw.sample(EDGES, 4):
                changed = written(put(document, way, edge))
                yield Attack(f"{name} with {edge!r} at {way}", "run", changed, legal(changed))


def changed_bytes():
    """A byte of an example in the place of another one: it may be accepted, but then its journal is legal."""
    draw = random.Random(2)
    for name, text in examples():
        for at in draw.sample(range(len(text)), min(150, len(text))):
            changed = text[:at] + bytes([draw.choice(b'"[]{},:0129AZ-. \n\x00\xff')]) + text[at + 1 :]
            yield Attack(f"{name}, byte {at} {changed[at:at + 1]!r}", draw.choice(COMMANDS), changed, lambda ran: refused(ran) or ran.code == 0)


def filled(front, one, back):
    """A text of the greatest length: a front, as often as fits a part, and a back."""
    room = MOST - len(front) - len(back)
    count = room // len(one)
    return front + one * count + b" " * (room - count * len(one)) + back


def within(seconds):
    """Runs the program, and ends it after so many seconds of processor time."""
    return lambda words, text: limited(words, text, CPU=seconds)


# The greatest inputs with members that are ignored, which `serde_json` reads: ten seconds of processor time each, the others have one.
IGNORED = {
    "one long name", "escapes", "members of one name", "members of other names", "long numbers", "many such lists", "fractions in a member",
    "fractions with version 9",
}


def shapes():
    """The greatest inputs, of every shape, in a second each, or in ten."""
    first = dict(examples())["first-path"]
    open_end = first.rstrip()[:-1]
    deep = b"[" * 126 + b"]" * 126
    one = b'{"version":1,"points":[["A",0],["B",0]],"links":[["A","B"]],"zones":1,"trains":["T"],"start":[0],"tables":[{"missions":[["A","B"]],"certificate":['
    missions = [[f"{'AB'[k % 2]}{i}" for k in range(128)] for i in range(32)]
    sections = [{"limit": 32, "changes": [[(1, -1)[k % 2] if (i + s) % 3 else 0 for k in range(128)] for i in range(32)]} for s in range(64)]
    big = {
        "version": 2, "zones": 1, "points": [[f"{side}{i}", 0] for i in range(32) for side in "AB"], "links": [[f"A{i}", f"B{i}"] for i in range(32)],
        "trains": [f"T{i}" for i in range(32)], "start": [0] * 32, "tables": [{"missions": missions, "sections": sections}],
    }
    many = {**big, "tables": big["tables"] * 16}
    tables = written({**big, "tables": [{"missions": missions, "times": [[1000] * 127] * 32, "after": 0 if t == 0 else 1_000_000} for t in range(16)]})
    texts = {
        "brackets": b"[" * MOST,
        "braces": b'{"a":' * (MOST // 5),
        "one list": filled(b"[", b"0,", b"0]"),
        "a list of lists": filled(b"[", b"[],", b"[]]"),
        "one long name": filled(open_end + b',"', b"x", b'":0}'),
        "escapes": filled(open_end + b',"x":"', b"\\u0041", b'"}'),
        "members of one name": filled(open_end, b',"x":0', b"}"),
        "members that are repeated": filled(open_end, b',"zones":1', b"}"),
        "members of other names": open_end + b"".join(b',"m%07d":0' % k for k in range((MOST - len(open_end) - 1) // 13)) + b"}",
        "long numbers": filled(open_end + b',"x":', b"9", b"}"),
        "points": filled(b'{"version":1,"points":[', b'["A",0],', b'["B",0]]}'),
        "tables": filled(b'{"version":1,"points":[],"links":[],"zones":1,"trains":[],"start":[],"tables":[', b"{},", b"{}]}"),
        "spaces": filled(first, b" ", b""),
        "a byte too many": b" " * (MOST + 1),
        "arrived nodes": one + b",".join([b"[3]"] * 1_000_000) + b"]}]}",
        "splits on one path": one + b",".join([b"[0,0,0]"] * 499_999 + [b"[3]"] * 500_000) + b"]}]}",
        "trees that are missing": one + b",".join([b"[0,0,0]"] * 1_000_000) + b"]}]}",
        "64 sections of 32 trains with 128 places": written(big),
        "the same in 16 tables": written(many)[:MOST],
        "16 tables": tables,
        "lines of a journal": filled(first + b"journal\n", b"1 move T0 A B\n", b""),
        "one line of a journal": filled(first + b"journal\n", b"1", b""),
        "a node too many": one + b",".join([b"[3]"] * 1_000_001) + b"]}]}",
        "lists in 200 lists": b"[" * 200 + b"]" * 200,
        "lists in 125 lists of a member": open_end + b',"more":' + deep + b"}",
        "the same with version 9": open_end + b',"version":9,"more":' + deep + b"}",
        "a list more in them": open_end + b',"more":[' + deep + b"]}",
        "many such lists": filled(open_end + b',"more":[', deep[1:-1] + b",", b"0]}"),
        "fractions in a member": filled(open_end + b',"more":[', b"1.5,", b"0]}"),
        "fractions with version 9": filled(b'{"version":9,"more":[', b"1.5,", b"0]}"),
    }
    lines = {
        "the same with version 9": "103 Version value=9", "a list more in them": "101 NotJson", "fractions with version 9": "103 Version value=9",
        "brackets": "101 NotJson", "lists in 200 lists": "101 NotJson", "arrived nodes": "42 Over table=0 used=1",
        "a node too many": "43 TooMany table=0 count=1000001", "splits on one path": "51 Split table=0 index=1",
        "trees that are missing": "41 Short table=0 missing=1000001", "a byte too many": f"104 TooLong limit={MOST}",
    }
    for name, text in texts.items():
        words = "verify" if "journal" in name else "check" if b'"certificate"' in text else "make"
        judge = says(lines[name]) if name in lines else lambda ran: refused(ran) or ran.code == 0
        run = within(10 if name in IGNORED else 1)
        yield Attack(f"{name}, {len(text)} bytes, {words}", words, text, judge, PATIENCE, run)
        if words == "make":
            yield Attack(f"{name}, {len(text)} bytes, check", "check", text, lambda ran: refused(ran) or ran.code == 0, PATIENCE, run)


def stack():
    """The greatest inputs again, with 100 KiB of stack more than the least run takes: `serde_json` takes 94 for 127 levels."""
    first = dict(examples())["first-path"]
    least = next(most for most in range(1 << 14, 1 << 23, 1 << 12) if starts("run", first, STACK=most))
    for attack in shapes():
        judge = same(ats(attack.words, attack.text))
        yield attack._replace(judge=judge, seconds=PATIENCE, run=lambda words, text: limited(words, text, STACK=least + (100 << 10)))


def long_journal():
    """A document whose run has 4,064 moves and 15 tables, and its journal."""
    missions = [[f"{'AB'[k % 2]}{i}" for k in range(127)] for i in range(32)]
    document = {
        "version": 2, "zones": 1, "points": [[f"{side}{i}", 0] for i in range(32) for side in "AB"], "links": [[f"A{i}", f"B{i}"] for i in range(32)],
        "trains": [f"T{i}" for i in range(32)], "start": [0] * 32,
        "tables": [{"missions": missions, "exits": [True] * 32, "after": 250 * t} for t in range(16)],
    }
    text = ats("make", written(document)).out
    return text, ats("run", text).out


def journal():
    """One byte of a long journal changed: `verify` names the line, or the changed journal is right too. And the journal cut."""
    draw, (text, lines) = random.Random(3), long_journal()
    right = Journal(json.loads(text), lines)
    for at in some(range(len(lines)), 800):
        other = draw.choice([byte for byte in b"0123456789ABT abdefk=-\n\x00\xff" if byte != lines[at]])
        changed = lines[:at] + bytes([other]) + lines[at + 1 :]
        yield Attack(f"journal, byte {at} as {chr(other)!r}", "verify", text + b"journal\n" + changed, says(right.changed(at, other)))
    for end in some(range(len(lines)), 800):
        yield Attack(f"journal cut at byte {end}", "verify", text + b"journal\n" + lines[:end], says(right.cut(end)))


def words():
    """Words at the edges of each option's range, and words that nothing takes."""
    text = dict(examples())["first-path"]
    ranges = {
        "run --workers": (0, 16), "run --rounds": (0, 1_000_000), "run --block": (1, 4), "make --budget": (1, 1_000_000), "derive --most": (2, 8),
        "derive --budget": (1, 1_000_000), "repair --rounds": (0, 10_000), "weave --steps": (0, 1_000_000), "weave --seed": (0, 2**32 - 1),
        "gen --seed": (0, 2**32 - 1), "gen --trains": (0, 32), "drill --workers": (0, 16),
    }
    for option, (least, most) in ranges.items():
        for number in (least, most, least - 1, most + 1, 2**32, 2**64, f"0{most}", f"+{most}", f"{most}.0", "x", ""):
            good = number in (least, most)
            judge = (lambda ran: ran.code != 1 and (refused(ran) or ran.code == 0)) if good else says("201 Words")
            yield Attack(f"{option} {number}", f"{option} {number}" if number != "" else option, text, judge)
    for line in ("", "help", "--help", "-h", "--version", "walk", "RUN", "run run", "run 3", "--rounds 3 run", "run --rounds 3 --rounds 3", "check --budget 3"):
        yield Attack(f"words: {line}", line, text, says("201 Words"))


def memory():
    """Each command in less and less address space, down to where the program doesn't start."""
    started = next(most for most in range(1 << 18, 1 << 33, 1 << 12) if starts("walk", b"", 1, AS=most))
    yard = ats("repair", (HERE.parent / "examples" / "eight-train-yard.json").read_bytes()).out
    for name, text in [("two-tables", dict(examples())["two-tables"]), ("eight-train-yard, repaired", yard)]:
        for command in [*COMMANDS, "gen --trains 8", "drill --trains 8 --workers 4"]:
            wanted, journal = ats(command, text), command.startswith("run")
            whole = legal(text) if journal and not wanted.code else same(wanted)
            judge = short_of_memory(whole)
            enough = next(most for most in range(started, 1 << 40, 1 << 18) if limited(command, text, AS=most).code == wanted.code)
            for most in range(started, enough + (1 << 18), max(1 << 12, (enough - started) // 60)):
                run = lambda words, text, most=most: limited(words, text, AS=most)
                yield Attack(f"{command} on {name} in {most >> 10} KiB", command, text, judge, 5, run)


def starts(words, text, code=0, **limits):
    """Whether the program starts, and ends with a code, under such limits."""
    try:
        return limited(words, text, **limits).code == code
    except (OSError, subprocess.SubprocessError):
        return False


def into(name):
    """A run whose standard output is a file of that name."""
    def run(words, text):
        with open(name, "wb") as sink:
            return ats(words, text, stdout=sink)

    return run


def into_closed_pipe(words, text):
    """A run whose standard output is a pipe that nobody reads."""
    reader, writer = os.pipe()
    os.close(reader)
    try:
        return ats(words, text, stdout=writer)
    finally:
        os.close(writer)


def out_of_directory(words, text):
    """A run whose standard input can't be read."""
    directory = os.open("/", os.O_RDONLY)
    try:
        return ats(words, text, stdin=directory)
    finally:
        os.close(directory)


def commands():
    """Each command with an input, the answer to it, and a judge of answers."""
    text = dict(examples())["two-tables"]
    lines = ats("run", text).out
    inputs = {**{command: text for command in COMMANDS}, "verify": text + b"journal\n" + lines, "resume": text + b"journal\n" + lines[: lines.find(b"\n") + 1]}
    for command, text in [*inputs.items(), ("gen --seed 2 --trains 3", b""), ("drill --seed 2 --trains 3 --workers 2", b"")]:
        wanted = ats(command, text)
        yield command, text, wanted, legal(text) if command.startswith("run --workers") else same(wanted)


def devices():
    """Devices that give a few bytes at a time, and that fail."""
    for command, text, wanted, judge in commands():
        if text:
            for size in range(1, 17):
                yield Attack(f"{command}, {size} bytes at a time", command, text, judge, 5, lambda words, text, size=size: fed(words, text, size))
            yield Attack(f"{command} out of a directory", command, text, says("207 ReadFault"), 1, out_of_directory)
        if wanted.code == 0:
            yield Attack(f"{command} into a full disk", command, text, says("208 WriteFault"), 1, into("/dev/full"))
            yield Attack(f"{command} into a closed pipe", command, text, says("208 WriteFault"), 1, into_closed_pipe)


def calls():
    """Each read and each write that fails, of 16 bytes each, and reads and writes of 1 to 16 bytes."""
    for command, text, wanted, judge in commands():
        for most in range(1, 17):
            run = lambda words, text, most=most: faulty(words, text, most=most)
            yield Attack(f"{command}, reads and writes of {most} bytes", command, text, judge, 5, run)
        _, made = counted(command, text, most=16)
        for number in range(made["read"]):
            run = lambda words, text, number=number: faulty(words, text, most=16, read=number)
            yield Attack(f"{command}, read {number} fails", command, text, says("207 ReadFault"), 1, run)
        for number in range(made["write"]):
            run = lambda words, text, number=number: faulty(words, text, most=16, write=number)
            whole = None if command.startswith("run --workers") else wanted
            yield Attack(f"{command}, write {number} fails", command, text, part(whole, 16 * number), 1, run)
        for number in range(made["tell"]):
            run = lambda words, text, number=number: faulty(words, text, most=16, tell=number)
            yield Attack(f"{command}, write {number} of its line fails", command, text, dumb(wanted, 16 * number), 1, run)
        wanted_code = 7 if text else 8
        yield Attack(f"{command} by closed descriptors", command, text, lambda ran, code=wanted_code: ran.code == code, 1, closed)


def closed(words, text):
    """A run without standard input, output and error."""
    def close():
        for descriptor in range(3):
            os.close(descriptor)

    return ats(words, text, preexec_fn=close, stdin=subprocess.DEVNULL)


def allocations():
    """Each allocation of each command that fails, alone or with all after it; and each thread that can't be made."""
    yard = ats("repair", (HERE.parent / "examples" / "eight-train-yard.json").read_bytes()).out
    more = [(command, yard, legal(yard) if "workers" in command else same(ats(command, yard))) for command in COMMANDS]
    for command, text, judge in [*((command, text, judge) for command, text, _, judge in commands()), *more]:
        _, made = counted(command, text)
        for number in some(range(made["memory"]), 60):
            run = lambda words, text, number=number: faulty(words, text, memory=number)
            yield Attack(f"{command}, allocation {number} fails", command, text, short_of_memory(judge), 5, run)
        for number in some(range(made["memory"]), 20):
            run = lambda words, text, number=number: faulty(words, text, memory=number, on=1)
            yield Attack(f"{command}, allocations from {number} on fail", command, text, short_of_memory(judge), 5, run)
        for number in range(made["thread"]):
            for on in ({}, {"on": 1}):
                run = lambda words, text, number=number, on=on: faulty(words, text, thread=number, **on)
                yield Attack(f"{command}, thread {number} isn't made {on}", command, text, judge, 5, run)


def builds():
    """Another build of the program beside it, on drawn documents."""
    for number in range(10_000 if ASKED.other else 0):
        yield Attack(f"case {number}", "", b"", lambda ran: not ran.err, PATIENCE, lambda words, text, number=number: beside(number))


def beside(number):
    """What both builds answer to a case: where they differ, the words of it."""
    began = time.perf_counter()
    _, code, differs = agree.case(number, ASKED.other, ASKED.program)
    return Ran(code, b"", " ".join(differs[0]) if differs else "", time.perf_counter() - began)


def tools():
    """Each command under valgrind, and a run with workers under its detectors of races: the same answer, and nothing that they report."""
    if not shutil.which("valgrind"):
        return
    watched = ["valgrind", "-q", "--error-exitcode=99"]
    drawn = [(f"seed {seed}", ats(f"gen --seed {seed} --trains 4", b"").out) for seed in range(5)]
    for name, text in [*examples(), *drawn]:
        for command in COMMANDS:
            judge = legal(text) if "workers" in command else same(ats(command, text))
            yield Attack(f"{command} on {name} under valgrind", command, text, judge, PATIENCE, lambda words, text: ats(words, text, watched))
        for tool in ("drd", "helgrind"):
            races = [f"--tool={tool}", *[f"--suppressions={HERE / 'helgrind.supp'}"] * (tool == "helgrind")]
            run = lambda words, text, races=races: ats(words, text, [*watched, *races])
            yield Attack(f"run --workers 8 on {name} under {tool}", "run --workers 8", text, legal(text), PATIENCE, run)


GROUPS = {
    "words": words, "cut": cut, "values": values, "bytes": changed_bytes, "shapes": shapes, "stack": stack, "journal": journal, "memory": memory,
    "allocations": allocations, "devices": devices, "calls": calls, "tools": tools, "builds": builds,
}


def answer(attack):
    """How the program answered: `refused`, `right`, or what was wrong."""
    try:
        ran = (attack.run or ats)(attack.words, attack.text)
    except subprocess.TimeoutExpired:
        return f"no end after {PATIENCE} seconds"
    if not attack.judge(ran):
        return f"code {ran.code}, {ran.out[:60]!r}, {ran.err.strip()[:120]!r}"
    if ran.seconds > attack.seconds:
        return f"{ran.seconds:.1f} seconds"
    return "refused" if ran.code else "right"


def answers(pool, attacks):
    """Each attack with its answer, as they come."""
    while some_attacks := list(itertools.islice(attacks, 200)):
        yield from zip(some_attacks, pool.map(answer, some_attacks))


def main():
    asked = argparse.ArgumentParser(description="Attacks the built program, and prints a table of how it answered.")
    asked.add_argument("groups", nargs="*", metavar="GROUP", help=", ".join(GROUPS))
    asked.add_argument("--program", type=pathlib.Path, help="another program than the built one")
    asked.add_argument("--other", type=pathlib.Path, help="another build of the program, for the group builds")
    asked.add_argument("--all", action="store_true", help="each byte of a journal, each allocation, and all edges of ranges")
    asked.add_argument("--beside", type=int, default=2, help="how many runs beside each other")
    asked = asked.parse_args(namespace=ASKED)
    if not asked.program.exists():
        sys.exit("build the program first: ./build")
    table = []
    with concurrent.futures.ThreadPoolExecutor(asked.beside) as pool:
        for group in asked.groups or GROUPS:
            began, counts = time.time(), collections.Counter()
            for attack, answered in answers(pool, GROUPS[group]()):
                counts[answered if answered in ("refused", "right") else "wrong"] += 1
                if answered not in ("refused", "right"):
                    print(f"{group}: {attack.name}: {answered}", flush=True)
            table.append((group, sum(counts.values()), counts["refused"], counts["right"], counts["wrong"], f"{time.time() - began:.0f} s"))
    print(f"{'group':12}{'attacks':>9}{'refused':>9}{'right':>9}{'wrong':>9}{'time':>8}")
    for row in table:
        print(f"{row[0]:12}" + "".join(f"{one:>9}" for one in row[1:5]) + f"{row[5]:>8}")
    return 1 if any(row[4] for row in table) else 0


if __name__ == "__main__":
    sys.exit(main())
