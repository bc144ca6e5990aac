#!/usr/bin/env python3
"""Plants wrong bodies in copies of the crates, and tells which of them the prover lets through.

    bench/plant.py --all            all that are in bench/planted, several crates side by side
    bench/plant.py cert_tree ..     those of these crates

planted/CRATE.txt has a line `== NAME` for each bug, and below it lines as in a must-fail edit. The prover is to refuse a bug, unless its
name begins with `survivor_`: planted/README.md says why it lets those through. Each bug is tried on a copy of its crate. After ./build
that takes ten to forty seconds, over what was proved and kept there, and what isn't refused so is tried again from nothing; without
./build, the crate and all below it are proved first. Prints a line for each bug that ends otherwise than it should, a line for each crate,
and then how many were refused and how long that took. RT_JOBS=N takes N processors.
"""
import json
import os
import pathlib
import re
import resource
import shutil
import sys
import tempfile
import threading
import time

ROOT = pathlib.Path(__file__).resolve().parent.parent
sys.path.insert(0, str(ROOT / "tools"))
import toolchain  # noqa: E402

PLANTED = ROOT / "bench" / "planted"
# The seconds that a bug of each crate took on this machine.
SHOWN = ROOT / "out" / "plant.json"
ANSWER = re.compile(r"must-fail \w+/\w+\.edit: (refused|NOT REFUSED|BAD EDIT)")


def bugs_of(crate):
    """The bugs of a crate by their names."""
    blocks = re.split(r"^== ", (PLANTED / f"{crate}.txt").read_text(), flags=re.M)[1:]
    return dict(block.split("\n", 1) for block in blocks)


def seconds_a_bug(crates):
    """How long a bug of each crate takes: by what this machine has shown, else as long as one of the gate's edits."""
    with open(ROOT / "docs" / "gate.json") as file:
        edits = {crate: seconds for crate, kind, seconds in json.load(file)["work"] if kind == "edits"}
    shown = json.loads(SHOWN.read_text()) if SHOWN.exists() else {}
    known = {it: edits[it] / max(1, len(list((ROOT / "crates" / it / "must-fail").glob("*.edit")))) for it in edits if (ROOT / "crates" / it).is_dir()}
    usual = sum(known.values()) / len(known)
    return {it: shown.get(it, known.get(it, usual)) for it in crates}


def copied(room):
    """Copies the sources, and shares the libraries that are proved."""
    shutil.copytree(ROOT / "crates", room / "crates", ignore=shutil.ignore_patterns("out", "must-fail"))
    for name in ("crates.txt", "HANDLES"):
        shutil.copy(ROOT / name, room / name)
    for library in ROOT.glob("crates/*/out/rlib"):
        shutil.copytree(library, room / library.relative_to(ROOT), copy_function=shared)


def shared(file, to):
    """Links a file, or copies it where it can't be linked. (Nothing is written into a library that is there.)"""
    try:
        os.link(file, to)
    except OSError:
        shutil.copy2(file, to)


class Planting:
    def __init__(self, rt, room, crates):
        self.rt, self.room, self.began, self.printing = rt, room, time.time(), threading.Lock()
        self.bugs = {it: bugs_of(it) for it in crates}
        self.expected = {it: seconds * len(self.bugs[it]) for it, seconds in seconds_a_bug(crates).items()}
        every = {it.name: it for it in rt.rtlib.crates_below(str(room))}
        self.crates = {it: every[it] for it in crates}
        self.below = {dep.name: dep for it in self.crates.values() for dep in it.below()}
        self.refused = self.through = self.odd = self.done = 0

    def build(self, crate, given, jobs):
        """Proves a library that others here stand on, unless it is proved already."""
        if not all(given[it.name, "proof"] for it in crate.below()):
            return False
        with tempfile.TemporaryFile("w+", errors="replace") as crate.out:
            return crate.build_rlib(["--jobs", str(jobs)], anew=False) == 0

    def answer(self, crate, name, text, kept):
        edit = self.room / f"{crate.name}-bugs" / f"{name}.edit"
        edit.parent.mkdir(exist_ok=True)
        edit.write_text(text)
        found = ANSWER.match(self.rt.must_fail(crate, str(edit), ["--jobs", "1"], kept and str(kept))[1])
        return found[1] if found else "NOT TRIED"

    def plant(self, name, given):
        """Tries the bugs of a crate, each over what is kept of the proof of the crate itself, and what isn't refused from nothing."""
        crate, began = self.crates[name], time.time()
        if not all(given[it.name, "proof"] for it in crate.below()):
            answers = {bug: "NOT TRIED" for bug in self.bugs[name]}
        else:
            kept = self.room / f"{name}-kept"
            before = ROOT / "crates" / name / "out" / "incremental"
            shutil.copytree(before, kept) if before.is_dir() else kept.mkdir()
            answers = {bug: self.answer(crate, bug, text, kept) for bug, text in self.bugs[name].items()}
            # (a crate that isn't proved over what was kept shows that this can't be relied on)
            is_sound = not self.rt.checked(crate, {}, ["--jobs", "1"], str(kept)).returncode
            shutil.rmtree(kept)
            for bug, text in self.bugs[name].items():
                if not is_sound or answers[bug] != wanted(bug):
                    answers[bug] = self.answer(crate, bug, text, None)
        with self.printing:
            self.tell(name, answers, time.time() - began)

    def tell(self, name, answers, seconds):
        self.done += 1
        self.refused += sum(it == "refused" for it in answers.values())
        self.through += sum(it == "NOT REFUSED" for it in answers.values())
        for bug, answer in answers.items():
            if answer != wanted(bug):
                self.odd += 1
                print(f"{name} {bug}: {answer}")
        print(f"{self.done} of {len(self.crates)}, {clock(time.time() - self.began)} gone: {name}, {len(answers)} tried in {clock(seconds)}", flush=True)
        if answers:
            shown = json.loads(SHOWN.read_text()) if SHOWN.exists() else {}
            SHOWN.write_text(json.dumps({**shown, name: round(seconds / len(answers), 1)}, indent=1, sort_keys=True))

    def run(self):
        tasks = {}
        for it in sorted(self.below.values(), key=lambda it: len(it.below())):
            waits = [(dep.name, "proof") for dep in it.below()]
            tasks[it.name, "proof"] = (waits, 1, self.rt.need(it), lambda given, jobs, it=it: self.build(it, given, jobs))
        for name, it in self.crates.items():
            waits = [(dep.name, "proof") for dep in it.below()]
            tasks[name, "edits"] = (waits, self.expected[name], self.rt.need(it), lambda given, jobs, name=name: self.plant(name, given))
        self.rt.in_lanes(tasks)


def wanted(bug):
    return "NOT REFUSED" if bug.startswith("survivor_") else "refused"


def clock(seconds):
    return f"{int(seconds) // 60}:{int(seconds) % 60:02}"


def main():
    every = sorted(path.stem for path in PLANTED.glob("*.txt"))
    crates = every if sys.argv[1:] == ["--all"] else sys.argv[1:]
    if not crates or not set(crates) <= set(every):
        print(f"usage: bench/plant.py --all, or CRATE.. of: {' '.join(every)}", file=sys.stderr)
        return 2
    rt = toolchain.module() or sys.exit("plant: the toolchain's command rt isn't on the path")
    rt.rtlib.guarded()
    lanes = min(int(os.environ.get("RT_JOBS") or rt.processors()), len(crates))
    (ROOT / "out").mkdir(exist_ok=True)
    # (not below the repository, where the toolchain would find the copies)
    with tempfile.TemporaryDirectory(prefix="plant-") as room:
        room = pathlib.Path(room)
        copied(room)
        planting = Planting(rt, room, crates)
        expected = max(sum(planting.expected.values()) / lanes, max(planting.expected.values()))
        count = sum(map(len, planting.bugs.values()))
        print(f"{count} wrong bodies of {len(crates)} crates, {lanes} crates side by side: about {clock(expected)}, longer if the crates aren't proved yet", flush=True)
        planting.run()
        took, used = time.time() - planting.began, resource.getrusage(resource.RUSAGE_CHILDREN)
    print(f"{planting.refused} refused, {planting.through} let through, {planting.odd} otherwise than they should")
    print(f"It took {clock(took)} on {lanes} processors, {(used.ru_utime + used.ru_stime) / 60:.0f} processor minutes")
    return 1 if planting.odd else 0


if __name__ == "__main__":
    sys.exit(main())
