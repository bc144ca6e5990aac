#!/usr/bin/env python3
"""Proves every crate below the three programs, several side by side and lowest first, and builds the programs: ats first.

    ./build

It prints a line for each crate that is proved, and one for each minute in which none is: how many of how many, the time gone, the
time expected, and what is being proved. What the toolchain prints goes to out/build.log. What an earlier build kept in
crates/NAME/out is used again, also if that build was ended: only what is left or has changed is proved. RT_JOBS=N takes N processors.
"""
import contextlib
import json
import os
import re
import signal
import subprocess
import sys
import tempfile
import threading
import time

import toolchain

ROOT = os.path.dirname(os.path.dirname(os.path.abspath(__file__)))
LOG = f"{ROOT}/out/build.log"
# How long each crate took on this machine, from nothing, by the clock.
SHOWN = f"{ROOT}/out/build.json"
# What matters of the log of a crate that isn't proved.
TELLING = re.compile(r"error|not proved|no proof|could not tell|killed|^rt: ")
MOST_TELLING = 9
# The programs, in the order in which they are wanted.
PROGRAMS = ["ats", "planner", "dispatch"]
# Added to the work of the first program, so that all below it comes before anything else.
FIRST = 1_000_000
# After so many seconds without a line comes one that says what is being proved.
QUIET = 60
ENDING = (signal.SIGINT, signal.SIGTERM, signal.SIGHUP)
# What this machine shows counts from crates on that together were expected to take so many seconds.
ENOUGH = 30


def clock(seconds):
    return f"{int(seconds) // 60}:{int(seconds) % 60:02}"


def minutes(seconds):
    return f"{max(1, round(seconds / 60))} minute{'s' if seconds >= 90 else ''}"


class Guess:
    """How long each crate is likely to take: by what this machine has shown, else by docs/gate.json and how this machine compares with that."""

    def __init__(self, crates, lines_of):
        with open(f"{ROOT}/docs/gate.json") as file:
            work = json.load(file)["work"]
        figures = {}
        for crate, kind, seconds in work:
            if kind in ("proof", "build"):
                figures[crate] = figures.get(crate, 0) + seconds
        rate = sum(figures.values()) / max(1, sum(lines_of(it) for it in crates if it.name in figures))
        self.figures = {it.name: figures.get(it.name, rate * lines_of(it)) for it in crates}
        self.now, self.before, self.half = {}, {}, {it.name for it in crates if it.has_kept()}
        with contextlib.suppress(OSError, ValueError), open(SHOWN) as file:
            self.before = {name: seconds for name, seconds in json.load(file).items() if name in self.figures}

    def took(self, name, seconds):
        """Takes what a crate took, unless it went on from work that was kept."""
        if name not in self.half:
            self.now[name] = seconds
            with open(SHOWN + ".new", "w") as file:
                json.dump({**self.before, **self.now}, file, indent=1, sort_keys=True)
            os.replace(SHOWN + ".new", SHOWN)

    def speed(self, running):
        """How many seconds by the clock a second of docs/gate.json takes here."""
        for shown in (self.now, {**self.before, **self.now}):
            expected = sum(self.figures[it] for it in shown)
            if expected >= ENOUGH:
                found = sum(shown.values()) / expected
                break
        else:
            found = 1
        late = [(gone, self.figures[name]) for name, gone in running.items() if gone > found * self.figures[name]]
        return max([found, *[gone / max(1, expected) for gone, expected in late if expected >= ENOUGH]])

    def seconds(self, name, speed):
        return speed * self.figures[name] * (0.5 if name in self.half else 1)


class Build:
    def __init__(self, rt):
        self.rt, self.began = rt, time.time()
        every = {it.name: it for it in rt.rtlib.crates_below(f"{ROOT}/crates")}
        self.programs = [every[it] for it in PROGRAMS]
        below = {it.name: it for program in self.programs for it in [*program.below(), program]}
        for it in self.programs:
            rt.read_files(it)
        self.crates = list(below.values())
        self.held = rt.rtlib.lock(self.crates)
        self.kept = {it.name for it in self.crates if self.is_kept(it)}
        self.guess = Guess(self.crates, self.lines)
        self.running, self.done, self.failed = {}, [], []
        self.news, self.changed, self.ended = [], threading.Condition(), False
        self.lanes = int(os.environ.get("RT_JOBS") or rt.processors())

    def is_kept(self, crate):
        if crate not in self.programs:
            return crate.is_built()
        file = f"{crate.folder}/out/{crate.name}"
        return os.path.isfile(file) and self.rt.rtlib.text_of(f"{file}.stamp") == crate.stamp() + self.rt.rtlib.sum_of(file)

    def lines(self, crate):
        return sum((self.rt.rtlib.text_of(it) or "").count("\n") for it in self.rt.rtlib.files_of(crate.folder))

    def left(self, crates=None):
        """The seconds that are likely left for these crates: by their longest chain, or by all that there is to do."""
        gone = {name: time.time() - began for name, began in self.running.items()}
        speed, to_do = self.guess.speed(gone), {}
        for it in crates or self.crates:
            if it.name not in self.kept and it.name not in self.done:
                whole = self.guess.seconds(it.name, speed)
                to_do[it] = max(whole - gone.get(it.name, 0), whole / 10)
        chains = {}
        for it in sorted(to_do, key=lambda it: len(it.below())):
            chains[it] = to_do[it] + max([chains[dep] for dep in it.below() if dep in chains], default=0)
        return max(max(chains.values(), default=0), sum(to_do.values()) / self.lanes)

    def times(self):
        """The time gone, and what is likely left: until ./ats is there, and in all."""
        if self.failed or self.count() == len(self.crates):
            return f"{clock(time.time() - self.began)} gone"
        first = self.programs[0]
        is_there = first.name in self.kept or first.name in self.done
        ats = "" if is_there else f", {minutes(self.left([*first.below(), first]))} until ./{first.name}"
        return f"{clock(time.time() - self.began)} gone, about {minutes(self.left())} left{ats}"

    def count(self):
        return len(self.kept) + len(self.done)

    def under_way(self):
        if not self.running:
            return ""
        return "; now " + ", ".join(f"{name} ({clock(time.time() - began)})" for name, began in self.running.items())

    def say(self, text):
        print(text, flush=True)

    def tell(self):
        """Prints what has been proved, once what follows it has begun, and after a quiet minute what is being proved."""
        while True:
            with self.changed:
                self.changed.wait_for(lambda: self.news or self.ended, timeout=QUIET)
                if self.news and not self.ended:
                    # (in moments the next crates have begun, whose stamps are reckoned first)
                    self.changed.wait_for(lambda: self.ended, timeout=0.5)
                news, self.news = self.news, []
                for number, text in news:
                    self.say(f"{number:>4} of {len(self.crates)}  {self.times()}: {text}{self.under_way()}")
                if not news and not self.ended and self.running:
                    self.say(f"{self.count():>4} of {len(self.crates)}  {self.times()}{self.under_way()}")
                if self.ended:
                    return

    def fail(self, crate, said, status):
        self.failed.append(crate)
        if status < 0:
            self.say(f"The check of {crate} was stopped by signal {-status}, and says nothing of it. What is proved is kept: run ./build again.")
            return
        if len(self.failed) > 1:
            self.say(f"{crate} isn't proved either.")
            return
        lines = [it for it in said.splitlines() if TELLING.search(it)] or said.splitlines()[-MOST_TELLING:]
        self.say(f"{crate} ISN'T PROVED, so no program above it is built. The whole log is {LOG}; what matters of it:")
        for line in lines[:MOST_TELLING]:
            self.say(f"    {line[:300]}")

    def work(self, crate, jobs):
        """Proves a library; proves, compiles and links a program, and has it answer its own example."""
        flags, rtlib = ["--jobs", str(jobs)], self.rt.rtlib
        if crate not in self.programs:
            return crate.build_rlib(flags, anew=False)
        # (its words and its input are files beside its sources, and so is what it is to write)
        how = {"input": crate.stream("stdin") or b"", "stdout": subprocess.PIPE, "timeout": rtlib.LIMIT}
        return crate.build_and_run(flags, crate.said.get("args", []), False, **how)

    def prove(self, crate, given, jobs):
        if not all(given[it.name, "proof"] for it in crate.below() if it.name not in self.kept):
            return False
        began = time.time()
        with self.changed:
            self.running[crate.name] = began
        with tempfile.TemporaryFile("w+", errors="replace") as crate.out:
            status = self.work(crate, jobs)
            crate.out.seek(0)
            said = crate.out.read()
        with self.changed:
            del self.running[crate.name]
            with open(LOG, "a") as log:
                log.write(f"== {crate.name}\n{said}")
            seconds = time.time() - began
            if status:
                self.fail(crate.name, said, status)
            else:
                self.done.append(crate.name)
                self.guess.took(crate.name, seconds)
                is_program = crate in self.programs
                what = f"proved and linked ({clock(seconds)}): ./{crate.name} answers by it from now on" if is_program else f"proved ({clock(seconds)})"
                self.news.append((self.count(), f"{crate.name} is {what}"))
                self.changed.notify_all()
        return status == 0

    def run(self):
        """Does all that is left, the first program's part first, and returns whether everything is proved."""
        tasks = {}
        for crate in sorted(self.crates, key=lambda it: len(it.below())):
            if crate.name in self.kept:
                continue
            os.makedirs(f"{crate.folder}/out", exist_ok=True)
            waits = [(it.name, "proof") for it in crate.below() if it.name not in self.kept]
            weight = self.guess.seconds(crate.name, 1) + FIRST * (crate is self.programs[0])
            work = lambda given, jobs, it=crate: self.prove(it, given, jobs)
            tasks[crate.name, "proof"] = (waits, weight, self.rt.need(crate), work)
        teller = threading.Thread(target=self.tell, daemon=True)
        teller.start()
        given = self.rt.in_lanes(tasks)
        with self.changed:
            self.ended = True
            self.changed.notify_all()
        teller.join()
        return all(given.values())


def ended(number, _):
    """Ends at once: what the toolchain's commands kept is used by the next run."""
    for it in ENDING:
        signal.signal(it, signal.SIG_IGN)
    print("\n./build was ended. What is proved is kept, and most of what was under way: ./build goes on from there.", flush=True)
    os._exit(128 + number)


def main():
    rt = toolchain.module() or sys.exit("build: the toolchain's command rt isn't on the path")
    # (all that it starts ends with it)
    rt.rtlib.guarded()
    for it in ENDING:
        signal.signal(it, ended)
    os.makedirs(f"{ROOT}/out", exist_ok=True)
    open(LOG, "w").close()
    build = Build(rt)
    total, kept = len(build.crates), len(build.kept)
    print(f"To prove: {total - len(PROGRAMS)} libraries, and the programs {', '.join(PROGRAMS)}, which are then linked. Processors: {build.lanes}", flush=True)
    if kept:
        print(f"{kept} of these {total} are kept from an earlier run.", flush=True)
    if kept < total:
        print(f"Guess: {build.times().split('gone, ')[1]}. The lines below guess by what this machine shows. The toolchain's log: out/build.log", flush=True)
    if not build.run():
        print(f"Not proved: {', '.join(build.failed)}, as is said above.", flush=True)
        return 1
    print(f"All is proved, and ./ats, ./planner and ./dispatch are the proved programs, after {clock(time.time() - build.began)}. Next: ./ats run < examples/first-path.json", flush=True)
    print("To change something: CONTRIBUTING.md. The tests, the must-fail edits and every proof from nothing: .ci/run", flush=True)
    return 0


if __name__ == "__main__":
    sys.exit(main())
