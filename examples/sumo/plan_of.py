#!/usr/bin/env python3
"""A plan for `planner` from a rail network of SUMO and the routes of its vehicles.

    examples/sumo/plan_of.py NET.net.xml ROUTES.rou.xml > plan.toml

The network is what `netconvert` writes; in the routes every vehicle has its edges (`duarouter` makes such vehicles of trips and flows).

- An edge is a point, and the two edges of a track that is used both ways are one point. Names are cut to 16 letters, digits and `_`.
- A vehicle is a train that leaves the layout at the end of its route. One that departs later, or where another one starts, begins at a point
  of its own outside, IN_NAME: it is let in once it is granted its first edge.
- A train that reverses on a track is at one place all the while. It has to fit on the track.
- Where a train is longer than a track, its tail covers tracks behind it: a section for each of them keeps others out.
- Where two connections cross in one junction, a section lets in one train at a time. A train counts from when it is granted the track behind
  the crossing until it leaves that track, since shares belong to places, and a junction is none.
- A stop's duration is added to the time of the step that ends there.

What a plan can't say is written as a comment: the `until` of a stop, stops at a station by its name, and two times for one step. Sections
against deadlock aren't made here: write them by hand, as line.sections.toml has them.
"""
import dataclasses
import itertools
import json
import math
import re
import sys
import xml.etree.ElementTree as ET

MARGIN = 5.0                    # metres that a train may stand before the end of its track
MOST_TICKS = 1000


@dataclasses.dataclass
class Place:
    """A place of a train: its point, and the indices of its route's edges there; two or more if it reverses, none outside the layout."""

    point: str
    indices: list
    dwell: float = 0


@dataclasses.dataclass
class Train:
    vehicle: str
    name: str
    kind: str
    length: float
    speed: float
    depart: float
    edges: list
    attributes: dict
    places: list = dataclasses.field(default_factory=list)
    remarks: list = dataclasses.field(default_factory=list)

    def mission(self):
        return [place.point for place in self.places]

    def named(self, number):
        """The point of a place, as a plan names it if the train comes there more than once."""
        time = self.mission()[: number + 1].count(self.places[number].point)
        return self.places[number].point + (f"#{time}" if time > 1 else "")


class Net:
    """The edges of a network: their points, lengths and speeds, and which connections cross."""

    def __init__(self, file):
        root = ET.parse(file).getroot()
        self.point, self.length, self.speed, self.shapes = {}, {}, {}, {}
        for edge in root.iter("edge"):
            lane = edge.find("lane")
            if edge.get("function") == "internal":
                self.shapes.update({one.get("id"): shape_of(one) for one in edge.iter("lane")})
            elif edge.get("function") is None:
                self.add(edge.get("id"), edge.get("bidi") or lane.get("bidi"), float(lane.get("length")), float(lane.get("speed")))
        self.ways = {(one.get("from"), one.get("to")): one.get("via") for one in root.iter("connection")}

    def add(self, edge, twin, length, speed):
        self.length[edge], self.speed[edge] = length, speed
        twin = (twin or "").removesuffix("_0")
        self.point[edge] = self.point[twin] if twin in self.point else new_name(edge.lstrip("-"), set(self.point.values()))

    def track(self, way):
        """The line of a connection through its junction."""
        lane, line = self.ways[way], []
        while lane in self.shapes:
            line += self.shapes[lane]
            lane = self.ways.get((lane.rpartition("_")[0], way[1]))
        return line

    def cross(self, way, other):
        """Whether two connections cross, and have no track in common that keeps their trains apart."""
        junctions = {self.ways[way].rpartition("_")[0].rpartition("_")[0] for way in (way, other)}
        if len(junctions) > 1 or {self.point[edge] for edge in way} & {self.point[edge] for edge in other}:
            return False
        return any(meet(*one, *two) for one in itertools.pairwise(self.track(way)) for two in itertools.pairwise(self.track(other)))


def shape_of(lane):
    return [tuple(map(float, corner.split(",")[:2])) for corner in lane.get("shape").split()]


def meet(a, b, c, d):
    """Whether the segments from a to b and from c to d cross or touch. Two on one line don't."""
    def side(p, q, r):
        return (q[0] - p[0]) * (r[1] - p[1]) - (q[1] - p[1]) * (r[0] - p[0])

    sides = side(a, b, c), side(a, b, d), side(c, d, a), side(c, d, b)
    return any(sides) and sides[0] * sides[1] <= 0 and sides[2] * sides[3] <= 0


def new_name(text, taken):
    """A name of a document that isn't taken."""
    name = re.sub(r"[^A-Za-z0-9_]", "_", text)[:16] or "p"
    numbers = itertools.count(2)
    while name in taken:
        number = f"_{next(numbers)}"
        name = name[: 16 - len(number)] + number
    return name


def trains_of(file, net):
    """The trains of the routes, in the order in which they depart."""
    root = ET.parse(file).getroot()
    if root.find("flow") is not None or root.find("trip") is not None:
        sys.exit("flows and trips have no edges: duarouter makes vehicles of them")
    kinds = {kind.get("id"): kind for kind in root.iter("vType")}
    routes = {route.get("id"): route.get("edges").split() for route in root.findall("route")}
    found = []
    for vehicle in sorted(root.findall("vehicle"), key=lambda vehicle: float(vehicle.get("depart"))):
        kind, inner = kinds[vehicle.get("type")], vehicle.find("route")
        edges = routes[vehicle.get("route")] if inner is None else inner.get("edges").split()
        name = new_name(vehicle.get("id"), {train.name for train in found})
        length, speed = float(kind.get("length")), float(kind.get("maxSpeed", 1000))
        attributes = {key: value for key, value in vehicle.attrib.items() if key.startswith("depart") and key != "depart"}
        found.append(Train(vehicle.get("id"), name, kind.get("id"), length, speed, float(vehicle.get("depart")), edges, attributes))
        find_places(found[-1], net, {train.places[0].point for train in found[:-1]})
        find_stops(found[-1], vehicle, net)
    return found


def find_places(train, net, starts):
    for index, edge in enumerate(train.edges):
        if index and (train.edges[index - 1], edge) not in net.ways:
            sys.exit(f"{train.vehicle}: there is no connection from {train.edges[index - 1]} to {edge}")
        point = net.point[edge]
        if train.places and train.places[-1].point == point:
            if train.length + MARGIN > net.length[edge]:
                sys.exit(f"{train.vehicle} is too long to reverse on {edge}")
            train.places[-1].indices.append(index)
        else:
            train.places.append(Place(point, [index]))
    if train.depart > 0 or train.places[0].point in starts:
        train.places.insert(0, Place(f"IN_{train.name}"[:16], []))


def find_stops(train, vehicle, net):
    """Adds the duration of each stop to the next place at its edge."""
    number = 0
    for stop in vehicle.findall("stop"):
        edge = stop.get("edge") or (stop.get("lane") or "").rpartition("_")[0]
        if edge not in net.point:
            train.remarks.append(f"a stop at {stop.attrib} isn't on an edge of the network")
            continue
        while number < len(train.places) and edge not in [train.edges[index] for index in train.places[number].indices]:
            number += 1
        if number == len(train.places):
            sys.exit(f"{train.vehicle}: its route doesn't come to the stop at {edge}")
        train.places[number].dwell += float(stop.get("duration", 0))
        if stop.get("until"):
            train.remarks.append(f"the stop at {edge} lasts until {stop.get('until')}: a plan has no clock")


def covered(train, number, net):
    """The numbers of the places behind a place that the tail covers when the train stands at the end of its track there."""
    place = train.places[number]
    rest = train.length + MARGIN - (net.length[train.edges[place.indices[-1]]] if place.indices else math.inf)
    found = []
    for before in range(number - 1, -1, -1):
        if rest <= 0 or not train.places[before].indices:
            break
        found.append(before)
        rest -= net.length[train.edges[train.places[before].indices[-1]]]
    return found


def ticks(train, net, number):
    """The time of the step that ends at a place: back over the tracks on which it reversed, over the new one, and the stop there."""
    before, place = train.places[number - 1], train.places[number]
    edges = [train.edges[index] for index in before.indices[1:] + place.indices[:1]]
    took = sum(net.length[edge] / min(net.speed[edge], train.speed) for edge in edges) + place.dwell
    if took > MOST_TICKS:
        train.remarks.append(f"the step to {place.point} takes {took:.0f} ticks: at most {MOST_TICKS} are allowed")
    return min(MOST_TICKS, max(1, math.ceil(took)))


def print_train(train, net):
    times = {}
    for number in range(1, len(train.places)):
        step, took = f"{train.places[number - 1].point} {train.places[number].point}", ticks(train, net, number)
        if times.setdefault(step, took) != took:
            train.remarks.append(f"the step {step} takes {times[step]} or {took} ticks: a plan has one time for it")
            times[step] = max(took, times[step])
    for remark in train.remarks:
        print(f"# {train.name}: {remark}")
    print("[[train]]")
    print(f"name = {json.dumps(train.name)}")
    print(f"route = {json.dumps(train.mission())}")
    print("exit = true")
    print("times = { default = 1" + "".join(f", {json.dumps(step)} = {took}" for step, took in times.items()) + " }\n")


def print_section(name, lines):
    print(f"[[section]]\nname = {json.dumps(name)}\nlimit = 1")
    print("\n".join(lines) + "\n")


def inline(table):
    return "{ " + ", ".join(f"{key} = {json.dumps(value)}" for key, value in table.items()) + " }"


def print_tails(trains, net):
    """A section for each point that the tail of a train covers while the train is further on."""
    tails = {}
    for train in trains:
        for number in range(len(train.places)):
            for before in covered(train, number, net):
                tails.setdefault(train.places[before].point, []).append((train, before, number))
    for point, some in tails.items():
        visitors = [train for train in trains if point in train.mission()]
        if len(visitors) == 1:
            continue
        if all(train.mission().count(point) == 1 for train in visitors):
            print_exact_tail(point, visitors, some)
        else:
            points = list(dict.fromkeys([point] + [train.places[number].point for train, _, number in some]))
            print("# (some train comes here more than once, so the tracks are one block for all)")
            print_section(f"tails on {point}", [f"points = {json.dumps(points)}"])


def print_exact_tail(point, visitors, some):
    """Each train counts from the point on until it, or its tail, has left it."""
    until = {}
    for train in visitors:
        last = max([number for other, _, number in some if other is train], default=train.mission().index(point))
        if last + 1 < len(train.places):
            until[train.name] = train.named(last + 1)
    lines = [f"only = {json.dumps([train.name for train in visitors])}", f"from = {inline({train.name: point for train in visitors})}"]
    print_section(f"tails on {point}", lines + [f"to = {inline(until)}"] * bool(until))


def print_crossings(trains, net):
    """A section for each two connections that cross, over the tracks behind the crossing."""
    users = {}
    for train in trains:
        for way in itertools.pairwise(train.edges):
            users.setdefault(way, []).append(train.name)
    for way, other in itertools.combinations(users, 2):
        if net.cross(way, other):
            only = list(dict.fromkeys(users[way] + users[other]))
            points = [net.point[way[1]], net.point[other[1]]]
            print_section(f"{' to '.join(way)} crosses {' to '.join(other)}", [f"points = {json.dumps(points)}", f"only = {json.dumps(only)}"])


def main():
    if len(sys.argv) != 3:
        sys.exit(__doc__)
    net = Net(sys.argv[1])
    trains = trains_of(sys.argv[2], net)
    print("# Made by plan_of.py from a network and routes of SUMO. A tick is a second.\n")
    for train in trains:
        print_train(train, net)
    print_tails(trains, net)
    print_crossings(trains, net)


if __name__ == "__main__":
    main()
