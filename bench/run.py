#!/usr/bin/env python3
"""Makes documents, runs the built program on them, and prints times, peak memory and ratios as a table.

    ./build                   builds the program, once
    bench/run.py              all groups
    bench/run.py check make   some groups

Each time is the least of some runs. The documents are the same in every run (documents.py); their certificates are made by
the program itself. Nothing is asserted: the table is to be read.

`json` is Python's json.loads of the same bytes, as a measure of the machine. `read` is a run of `check` that ends at the tree,
since the certificate lacks its last node: the document is read, and nothing is checked. `check` is a whole run less that, and
`make` a run of `make`, from the document without a certificate to its text with one.
"""
import json
import os
import resource
import sys
import tempfile
import time

from documents import corridor, loop, shuttles, spoiled, with_nodes, yard

HERE = os.path.dirname(os.path.abspath(__file__))
PROGRAM = os.path.join(HERE, "..", "crates", "ats", "out", "ats")
RUNS = 5


def run(text, command, stack=None):
    """What the program writes for a document, what it says on standard error, its milliseconds, and its peak memory in MiB."""
    with tempfile.TemporaryFile() as source, tempfile.TemporaryFile() as sink, tempfile.TemporaryFile() as errors:
        source.write(text)
        source.seek(0)
        began = time.perf_counter()
        child = os.fork()
        if child == 0:
            if stack:
                resource.setrlimit(resource.RLIMIT_STACK, (stack, stack))
            os.dup2(source.fileno(), 0)
            os.dup2(sink.fileno(), 1)
            os.dup2(errors.fileno(), 2)
            os.execv(PROGRAM, [PROGRAM, *command.split()])
        _, _, usage = os.wait4(child, 0)
        spent = (time.perf_counter() - began) * 1000
        sink.seek(0)
        errors.seek(0)
        return sink.read(), errors.read().decode().strip(), spent, usage.ru_maxrss / 1024


def timed(text, command, wanted=""):
    """The least milliseconds and the peak memory of some runs, each of which says what is wanted on standard error."""
    runs = [run(text, command) for _ in range(RUNS)]
    for _, said, _, _ in runs:
        if not said.startswith(wanted) or bool(said) != bool(wanted):
            sys.exit(f"{command}: {said or 'nothing said'}, and not {wanted or 'nothing'}")
    return min(it[2] for it in runs), max(it[3] for it in runs)


def json_time(text):
    def once():
        began = time.perf_counter()
        json.loads(text)
        return (time.perf_counter() - began) * 1000

    return min(once() for _ in range(RUNS))


def made(document):
    """The document with the certificate that the program makes for it, as text, and the nodes, each as a text."""
    answer = json.loads(run(with_nodes(document, []), "make")[0])
    nodes = [json.dumps(node, separators=(",", ":")) for node in answer["tables"][0]["certificate"]]
    return with_nodes(document, nodes), nodes


def show(columns, widths):
    print("  ".join(str(column).rjust(width) for column, width in zip(columns, widths)), flush=True)


def first_columns(name, document, nodes):
    return [name, len(document["trains"]), len(document["tables"][0]["sections"]), len(nodes)]


def check_group():
    """Checking against reading."""
    widths = [22, 6, 8, 9, 9, 9, 9, 9, 10, 9]
    show(["check", "trains", "sections", "nodes", "json ms", "read ms", "check ms", "ns/node", "read/check", "MiB"], widths)
    for name, document in [
        ("yard", yard(1, 8, 7, 8)),
        ("yard, 4 sections", yard(1, 8, 8, 4)),
        ("corridor", corridor(1, 8, 95)),
        ("loop", loop(1, 2, 120)),
        ("corridor", corridor(1, 4, 120)),
        ("two corridors", corridor(2, 8, 48)),
        ("four corridors", corridor(4, 8, 24)),
        ("yard", yard(1, 16, 1, 1)),
        ("four yards", yard(4, 8, 4, 4)),
    ]:
        text, nodes = made(document)
        reading, _ = timed(with_nodes(document, nodes[:-1]), "check", "ats: 41 Short")
        whole, peak = timed(text, "check")
        check = max(whole - reading, 0.001)
        times = [f"{it:.1f}" for it in [json_time(text), reading, check]]
        ratios = [f"{check * 1e6 / len(nodes):.0f}", f"{reading / check:.1f}", f"{peak:.0f}"]
        show(first_columns(name, document, nodes) + times + ratios, widths)


def make_group():
    """Making against reading back, and nodes per second by the number of nodes."""
    widths = [22, 6, 8, 9, 9, 9, 9, 9, 9, 9]
    show(["make", "trains", "sections", "nodes", "json ms", "read ms", "make ms", "ns/node", "Mnodes/s", "MiB"], widths)
    for name, document in [
        ("loop", loop(1, 2, 30)),
        ("loop", loop(1, 2, 120)),
        ("loop", loop(1, 8, 6)),
        ("loop", loop(1, 8, 9)),
        ("loop", loop(1, 8, 11)),
        ("loop", loop(1, 8, 12)),
        ("corridor", corridor(1, 8, 3)),
        ("corridor", corridor(1, 8, 10)),
        ("corridor", corridor(1, 8, 95)),
        ("yard", yard(1, 4, 8, 4)),
        ("yard", yard(1, 8, 3, 4)),
        ("yard", yard(1, 8, 8, 4)),
        ("yard", yard(1, 8, 7, 8)),
        ("two corridors", corridor(2, 8, 48)),
        ("yard", yard(1, 16, 1, 1)),
        ("four corridors", corridor(4, 8, 3)),
        ("four corridors", corridor(4, 8, 24)),
        ("four corridors", corridor(4, 8, 50)),
        ("four yards", yard(4, 8, 4, 4)),
    ]:
        text, nodes = made(document)
        reading, _ = timed(with_nodes(document, nodes[:-1]), "check", "ats: 41 Short")
        making, peak = timed(with_nodes(document, []), "make")
        times = [f"{it:.1f}" for it in [json_time(text), reading, making]]
        ratios = [f"{making * 1e6 / len(nodes):.0f}", f"{len(nodes) / making / 1000:.2f}", f"{peak:.0f}"]
        show(first_columns(name, document, nodes) + times + ratios, widths)


def stack_group():
    """Certificates near 1,000,000 nodes, accepted or refused with a stack of 256 KiB."""
    widths = [22, 9, 12, 60]
    show(["stack", "nodes", "stack KiB", "answer"], widths)
    document = yard(1, 8, 8, 4)
    text, nodes = made(document)
    for name, some, count in [
        ("accepted", text, len(nodes)),
        ("refused at its end", spoiled(text), len(nodes)),
        ("a comb", with_nodes(document, ["[0,0,0]"] * 499_999 + ["[3]"] * 500_000), 999_999),
    ]:
        written, said, _, _ = run(some, "check", stack=256 * 1024)
        show([name, count, 256, said or written.decode().strip()], widths)


def workers_group():
    """Whole runs on one thread and by 1 to 4 workers, each of which has a zone of its own; and the check alone."""
    widths = [8, 6, 9, 9, 9, 9, 9, 9]
    show(["trains", "moves", "check ms", "run ms", "1 worker", "2", "3", "4"], widths)
    for trains, places in [(4, 128), (8, 128), (16, 128), (32, 128)]:
        text, _ = made(shuttles(trains, places, 4))
        words = ["check", "run"] + [f"run --workers {workers}" for workers in range(1, 5)]
        times = [f"{timed(text, command)[0]:.1f}" for command in words]
        show([trains, trains * (places - 1)] + times, widths)


GROUPS = {"check": check_group, "make": make_group, "stack": stack_group, "workers": workers_group}


def main():
    if not os.path.exists(PROGRAM):
        sys.exit("build the program first: ./build")
    for name in sys.argv[1:] or GROUPS:
        GROUPS[name]()
        print()


if __name__ == "__main__":
    main()
