#!/usr/bin/env python3
"""Drives the trains of a rail network in SUMO. Each moves from track to track only when it is granted the next one.

    examples/sumo/drive.py --net FILE --routes FILE --document FILE COMMAND..       the command speaks the protocol of docs/live.md
    examples/sumo/drive.py --net FILE --routes FILE --alone                         without a dispatcher: SUMO's own rules

A train holds at the end of each track. Once it is wholly there it reports that (`at`), and wants the next place (`want`). The route file, the
network and the document are those that plan_of.py made a plan of; vehicles outside the layout are let in once they are granted their first
track. The exit status is 0 if all trains have left the network and none has collided.

    --seed N        lets each train begin up to five minutes late, drawn from the seed
    --kill N        kills the program after each N grants; its process is the one that tools/keep.py names
    --until N       ends after so many seconds of the simulation (7,200)
    --sumo COMMAND  sumo-gui, to watch
"""
import argparse
import contextlib
import json
import os
import random
import re
import signal
import subprocess
import sys
import tempfile
import threading

os.environ.setdefault("SUMO_HOME", "/usr/share/sumo")
sys.path.insert(0, os.path.join(os.environ["SUMO_HOME"], "tools"))
import traci

import plan_of

RULES = ["--time-to-teleport", "-1", "--collision.action", "warn", "--collision.check-junctions", "true", "--no-step-log", "--no-warnings"]
FOREVER = 1e6
MOST_LATE = 300


class Dispatcher:
    """A client of the protocol: requests go out together, and `ping` is the last of them."""

    def __init__(self, command):
        self.process = subprocess.Popen(command, stdin=subprocess.PIPE, stdout=subprocess.PIPE, stderr=subprocess.PIPE, text=True)
        self.program, self.kills = None, 0
        threading.Thread(target=self.follow, daemon=True).start()
        if not self.row().startswith("ready "):
            sys.exit("drive.py: the dispatcher doesn't begin with `ready`")

    def follow(self):
        """Keeps the number of the program's process, which the keeper says at each start."""
        for line in self.process.stderr:
            found = re.search(r"started process (\d+)", line)
            self.program = int(found[1]) if found else self.program
            if not found and "ended with" not in line:
                print(line, end="", file=sys.stderr)

    def row(self):
        """The next row that isn't a line of the journal."""
        while (row := self.process.stdout.readline())[:1].isdigit():
            pass
        return row.rstrip("\n")

    def ask(self, requests):
        """The answers and events up to now, without the rows before an answer."""
        self.process.stdin.write("".join(f"{request}\n" for request in [*requests, "ping"]))
        self.process.stdin.flush()
        answers = []
        while not (row := self.row()).startswith("pong "):
            if not row or row.startswith("error "):
                sys.exit(f"drive.py: {row or 'the dispatcher has ended'}")
            answers.append(row.removeprefix("! "))
        return answers

    def kill(self):
        self.kills += 1
        with contextlib.suppress(ProcessLookupError):
            os.kill(self.program, signal.SIGKILL)

    def quit(self):
        """The last line: `end ..` if the journal is whole."""
        self.process.stdin.close()
        last = [row for row in self.process.stdout if not row[:1].isdigit()][-1:]
        self.process.wait()
        return "".join(last).strip()


class Driver:
    """One train. Its `place` is the one that it was granted, and `there` the one that it has reported."""

    def __init__(self, train, net):
        self.train, self.net = train, net
        self.place, self.there, self.wants, self.since, self.late = 0, 0, False, None, 0
        self.has_left, self.is_in = False, False
        self.number = {index: number for number, place in enumerate(train.places) for index in place.indices}
        self.tails = [{number, *plan_of.covered(train, number, net)} for number in range(len(train.places))]
        if train.places[0].indices:
            self.enter()
            self.hold(0)

    def last(self):
        return len(self.train.places) - 1

    def enter(self):
        """Lets the train in at the beginning of its route."""
        train, self.is_in = self.train, True
        traci.route.add(f"route of {train.vehicle}", train.edges)
        given = {key: train.attributes[key] for key in ("departPos", "departSpeed", "departLane") if key in train.attributes}
        traci.vehicle.add(train.vehicle, f"route of {train.vehicle}", typeID=train.kind, depart="now", **given)

    def end_of(self, number):
        edge = self.train.edges[self.train.places[number].indices[-1]]
        return edge, self.net.length[edge] - 1.0

    def hold(self, number):
        """Has the train stop at the end of its track at a place, unless it leaves there."""
        if number < self.last():
            traci.vehicle.setStop(self.train.vehicle, *self.end_of(number), 0, FOREVER)

    def let_go(self, number):
        """Takes the stop at a place away."""
        if traci.vehicle.isStopped(self.train.vehicle):
            traci.vehicle.resume(self.train.vehicle)
        else:
            traci.vehicle.setStop(self.train.vehicle, *self.end_of(number), 0, 0)

    def granted(self, place):
        """Goes on to a place: it may only stop there, and no longer where it is."""
        if place <= self.place:
            return
        self.place, self.wants, self.since = place, False, None
        if place > self.last():
            return
        if not self.is_in:
            self.enter()
            self.hold(place)
            return
        self.hold(place)
        self.let_go(place - 1)

    def tail(self):
        """The index of the route's edge on which the train ends; None if its head is in a junction."""
        index, vehicle = traci.vehicle.getRouteIndex(self.train.vehicle), self.train.vehicle
        if traci.vehicle.getRoadID(vehicle).startswith(":") or index < 0:
            return None
        rest = self.train.length - traci.vehicle.getLanePosition(vehicle)
        while rest > 0 and index > 0:
            index -= 1
            rest -= self.net.length[self.train.edges[index]]
        return index

    def is_wholly_there(self):
        """Whether the head is on the last edge of the granted place, and the tail is where the plan has it."""
        if self.has_left or not self.is_in:
            return True
        if self.train.vehicle not in traci.vehicle.getIDList():
            return False                        # it hasn't found room on its first edge yet
        index, tail = traci.vehicle.getRouteIndex(self.train.vehicle), self.tail()
        at_head = tail is not None and index == self.train.places[self.place].indices[-1]
        return at_head and all(self.number[some] in self.tails[self.place] for some in range(tail, index + 1))

    def is_ready(self, now):
        """Whether the train may go on: it departs, or has stood long enough at its place, or has left the network."""
        if self.has_left:
            return True
        if self.place == 0 and now < self.train.depart + self.late:
            return False
        if not self.is_in:
            return True
        if self.since is None and traci.vehicle.getSpeed(self.train.vehicle) < 0.1:
            self.since = now
        dwell = self.train.places[self.place].dwell
        return self.place < self.last() and (not dwell or (self.since is not None and now - self.since >= dwell))

    def requests(self, now):
        """What the train has to say: that it is at its place, and that it wants the next one."""
        some = []
        if self.is_wholly_there():
            if self.there < self.place:
                self.there = self.place
                some.append(f"at {self.train.name} {self.place}")
            if self.place <= self.last() and not self.wants and self.is_ready(now):
                self.wants = True
                some.append(f"want {self.train.name} {self.place + 1}")
        return some


def with_dispatcher(asked, net, trains):
    """The run under the dispatcher, up to its end: how many have left, when, and how many collided."""
    dispatcher = Dispatcher(asked.command)
    drivers = {train.name: Driver(train, net) for train in trains}
    if asked.seed is not None:
        draw = random.Random(asked.seed)
        for driver in drivers.values():
            driver.late = draw.randrange(MOST_LATE)
    now, collisions, grants, left = 0, 0, 0, {}
    while now < asked.until and any(driver.there <= driver.last() for driver in drivers.values()):
        traci.simulationStep()
        now = int(traci.simulation.getTime())
        collisions += len(traci.simulation.getCollisions())
        for driver in drivers.values():
            if driver.train.vehicle in traci.simulation.getArrivedIDList():
                driver.has_left, left[driver.train.name] = True, now
        for row in dispatcher.ask([request for driver in drivers.values() for request in driver.requests(now)]):
            words = row.split(" ")
            if words[0] in ("granted", "again"):
                drivers[words[1]].granted(int(words[2]))
                grants += 1
                if asked.kill and grants % asked.kill == 0:
                    dispatcher.kill()
    last = dispatcher.quit()
    print(f"dispatched: {len(left)} of {len(trains)} left, the last at {max(left.values(), default=now)} s; collisions {collisions}; "
          f"the program was killed {dispatcher.kills} times; {last}")
    return len(left) == len(trains) and not collisions and last.startswith("end ")


def alone(asked, trains):
    """The run by SUMO's own rules, until all have left or none has moved for ten minutes."""
    now, moved, left, at = 0, 0, set(), {}
    while now < asked.until and now - moved < 600 and len(left) < len(trains):
        traci.simulationStep()
        now = int(traci.simulation.getTime())
        left |= set(traci.simulation.getArrivedIDList())
        before, at = at, {vehicle: traci.vehicle.getRoadID(vehicle) for vehicle in traci.vehicle.getIDList()}
        moved = now if at != before else moved
    standing = ", ".join(f"{vehicle} on {edge}" for vehicle, edge in sorted(at.items()))
    print(f"alone: {len(left)} of {len(trains)} left" + (f"; standing since {moved} s: {standing}" if at else ""))
    return len(left) == len(trains)


def main():
    asked = argparse.ArgumentParser(description="Drives the trains of a rail network in SUMO by a live dispatcher.")
    asked.add_argument("--net", required=True, help="the network, as netconvert writes it")
    asked.add_argument("--routes", required=True, help="the vehicles and their routes")
    asked.add_argument("--document", help="the document, whose trains are the vehicles")
    asked.add_argument("--alone", action="store_true", help="without a dispatcher")
    asked.add_argument("--seed", type=int, metavar="N", help="trains begin late, by delays drawn from this")
    asked.add_argument("--kill", type=int, default=0, metavar="N", help="kill the program after each N grants")
    asked.add_argument("--until", type=int, default=7200, metavar="N", help="seconds of the simulation")
    asked.add_argument("--sumo", default="sumo", metavar="COMMAND")
    asked.add_argument("command", nargs=argparse.REMAINDER, metavar="COMMAND")
    asked = asked.parse_args()
    net = plan_of.Net(asked.net)
    trains = plan_of.trains_of(asked.routes, net)
    if asked.document:
        with open(asked.document) as file:
            document = json.load(file)
        missions = dict(zip(document["trains"], document["tables"][0]["missions"]))
        if missions != {train.name: train.mission() for train in trains}:
            sys.exit("drive.py: the document isn't made of these routes")
    with tempfile.TemporaryDirectory() as room:
        given = ["-r", asked.routes] if asked.alone else ["-a", kinds_of(asked.routes, f"{room}/kinds.xml")]
        with contextlib.redirect_stdout(None):          # (it says that it tries again while SUMO starts)
            traci.start([asked.sumo, "-n", asked.net, *given, *RULES], stdout=subprocess.DEVNULL)
        good = alone(asked, trains) if asked.alone else with_dispatcher(asked, net, trains)
        traci.close()
    return 0 if good else 1


def kinds_of(routes, name):
    """A file of the kinds of vehicles alone, since the vehicles are let in here."""
    tree = plan_of.ET.parse(routes)
    for child in list(tree.getroot()):
        if child.tag != "vType":
            tree.getroot().remove(child)
    tree.write(name)
    return name


if __name__ == "__main__":
    sys.exit(main())
