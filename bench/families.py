"""Documents of trains on tracks of a few kinds, each in sizes up to the limits of docs/formats.md. No chance and no clock.

A family is a function of its sizes. Trains start on the tracks themselves or, where there are many, each at an entry of its own, and then
the tracks are parted into signal blocks: sections that let one train in at a time.
"""


def document(missions, leave, sections=()):
    """A document of one table. All trains leave after their last point, or none. A section is a limit, its points, and the trains that
    it concerns (None: all); each of them has a share of 1 at its points."""
    points = list(dict.fromkeys(point for mission in missions for point in mission))
    links = dict.fromkeys(tuple(sorted(step)) for mission in missions for step in zip(mission, mission[1:]))
    return {
        "version": 2,
        "points": [[point, 0] for point in points],
        "links": [list(link) for link in links],
        "zones": 1,
        "trains": [f"T{train}" for train in range(len(missions))],
        "start": [0] * len(missions),
        "tables": [{
            "missions": missions,
            "exits": [leave] * len(missions),
            "sections": [section(missions, leave, *one) for one in sections],
        }],
    }


def section(missions, leave, limit, inside, only=None):
    """A section of a document: the trains that it concerns count while they are at its points."""
    inside, changes = set(inside), []
    for train, mission in enumerate(missions):
        counts = only is None or train in only
        shares = [int(counts and point in inside) for point in mission] + [0] * leave
        changes.append([share - former for share, former in zip(shares, [0] + shares)])
    return {"limit": limit, "changes": changes}


def track(name, length):
    return [f"{name}{number}" for number in range(length)]


def blocks(way, length):
    """Signal blocks of so many points each along a way; a single point at its end needs none."""
    parts = [way[first : first + length] for first in range(0, len(way), length)] if length else []
    return [(1, part) for part in parts if len(part) > 1]


def following(trains, name, length):
    """Trains one behind the other on a one-way track, all to its end."""
    way = track(name, length)
    return [way[trains - 1 - train :] for train in range(trains)]


def line(trains, length):
    """A one-way line with the trains one behind the other at its beginning; all leave at its end."""
    return document(following(trains, "L", length), True)


def entered_line(trains, length, block):
    """A one-way line in signal blocks, which trains enter from points of their own."""
    way = track("L", length)
    return document([[f"In{train}"] + way for train in range(trains)], True, blocks(way, block))


def two_lines(trains, length):
    """Two lines that have nothing in common, with half of the trains each."""
    return document(following(trains // 2, "L", length) + following(trains // 2, "R", length), True)


def two_entered_lines(trains, length, block):
    ways = [track("L", length), track("R", length)]
    missions = [[f"In{train}"] + ways[train % 2] for train in range(trains)]
    return document(missions, True, blocks(ways[0], block) + blocks(ways[1], block))


def metro(trains, stations, block=0):
    """A line of two tracks between terminals of two platforms, each entered and left by one crossover. Trains are spread over both
    tracks, go once round to their own western platform, and leave. A train passes the last station only if its platform is free."""
    east, west, platforms = track("E", stations), track("W", stations), 2
    taken, missions = set(), []
    for train in range(trains):
        here, there = f"Wp{train % platforms}", f"Ep{train % platforms}"
        circle = [here, "Wx"] + east + ["Ex", there, "Ex"] + west[::-1] + ["Wx"]
        first = train * (2 * stations + 4) // trains
        while circle[first % len(circle)] in taken | {"Wx", "Ex"}:
            first += 1
        first %= len(circle)
        taken.add(circle[first])
        round_trip = (circle * 2)[first:]
        last = len(round_trip) - 1 - round_trip[::-1].index(here)
        missions.append(round_trip[: last + 1])
    terminals = [(1, [f"{end}x", f"{end}p{platform}"], range(platform, trains, platforms)) for end in "WE" for platform in range(platforms)]
    return document(missions, True, terminals + blocks(east, block) + blocks(west[::-1], block))


def single_track(trains, loops):
    """A single track with loops between two yards, half of the trains each way: eastbound ones take track A of each loop, westbound ones
    track B. It blocks itself if trains fill both tracks of a loop from both sides."""
    missions = []
    for train in range(trains):
        if train < trains // 2:
            stretch = [point for loop in range(loops) for point in (f"S{loop}", f"A{loop}")] + [f"S{loops}"]
            missions.append([f"West{train}"] + stretch + [f"EastEnd{train}"])
        else:
            stretch = [f"S{loops}"] + [point for loop in reversed(range(loops)) for point in (f"B{loop}", f"S{loop}")]
            missions.append([f"East{train}"] + stretch + [f"WestEnd{train}"])
    return document(missions, False)


def ladder(trains, roads, blocked=0):
    """Roads that lead by one ladder of points to a main line, with a train in each; all leave. Blocked, the ladder and the main line are
    one signal block each."""
    steps, main = track("X", roads), ["M0", "M1"]
    missions = [[f"Road{train}"] + steps[train::-1] + main for train in range(trains)]
    return document(missions, True, [(1, steps), (1, main)] if blocked else [])


def yard(trains, roads):
    """A one-way yard: trains in a queue, a ladder, roads, a ladder, and the main line, by which all leave."""
    queue, inward, outward = track("Q", trains), track("I", roads), track("O", roads)
    missions = []
    for train in range(trains):
        road = train % roads
        missions.append(queue[train::-1] + ["M0"] + inward[: road + 1] + [f"Road{road}"] + outward[road:] + ["M1", "M2"])
    return document(missions, True)


def entered_yard(trains, roads):
    """The same yard, which trains enter from points of their own; each of its ladders is a signal block."""
    inward, outward = track("I", roads), track("O", roads)
    missions = []
    for train in range(trains):
        road = train % roads
        missions.append([f"In{train}", "M0"] + inward[: road + 1] + [f"Road{road}"] + outward[road:] + ["M1", "M2"])
    return document(missions, True, [(1, ["M0"] + inward), (1, outward + ["M1", "M2"])])


def depot(trains, stations, block=0):
    """A depot with a road for each train: all leave by one throat, go round by the turn of a line and come back to their roads."""
    circle = ["X"] + track("E", stations) + ["Turn"] + track("W", stations) + ["Y"]
    missions = [[f"Road{train}"] + circle + [f"Road{train}"] for train in range(trains)]
    return document(missions, False, blocks(circle, block))


def junction(trains, length):
    """Two lines that join: trains of four flows, A to C, B to C, C to A and C to B. They meet where A and B merge, where C parts, and
    where the way from C to A crosses the one from B. All leave."""
    each = trains // 4
    ways = {name: track(name, length) for name in ("FromA", "FromB", "FromC", "ToA", "ToB", "ToC")}
    missions = []
    for train in range(each):
        missions.append(ways["FromA"][train:] + ["Merge"] + ways["ToC"])
        missions.append(ways["FromB"][train:] + ["Cross", "Merge"] + ways["ToC"])
        missions.append(ways["FromC"][train:] + ["Part", "Cross"] + ways["ToA"])
        missions.append(ways["FromC"][each + train :] + ["Part"] + ways["ToB"])
    return document(missions, True)


def entered_junction(trains, length, block):
    """The same junction, which trains enter from points of their own, in signal blocks."""
    ways = {name: track(name, length) for name in ("FromA", "FromB", "FromC", "ToA", "ToB", "ToC")}
    joints = [["Merge"], ["Cross", "Merge"], ["Part", "Cross"], ["Part"]]
    flows = [("FromA", "ToC"), ("FromB", "ToC"), ("FromC", "ToA"), ("FromC", "ToB")]
    missions = []
    for train in range(trains):
        come, go = flows[train % 4]
        missions.append([f"In{train}"] + ways[come] + joints[train % 4] + ways[go])
    return document(missions, True, [one for way in ways.values() for one in blocks(way, block)])


def circle(trains, length, laps):
    """A circle of points on which trains are spread; they go round so many laps in one direction, and leave."""
    way = track("C", length)
    missions = []
    for train in range(trains):
        first = train * length // trains
        missions.append([way[(first + step) % length] for step in range(length * laps)])
    return document(missions, True)


def entered_metro(trains, stations, block):
    """A line of two tracks in signal blocks, with a terminal of two platforms at its eastern end. Trains enter and leave in the west."""
    east, west = track("E", stations), track("W", stations)
    missions = [[f"In{train}"] + east + ["Ex", f"Ep{train % 2}", "Ex"] + west[::-1] for train in range(trains)]
    terminals = [(1, ["Ex", f"Ep{platform}"], range(platform, trains, 2)) for platform in range(2)]
    return document(missions, True, terminals + blocks(east, block) + blocks(west[::-1], block))
