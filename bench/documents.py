"""Documents of a few kinds, made by rule: no chance and no clock, so each is the same in every run."""

import json


def document(missions, sections, exits):
    """A document of one table without a certificate. Missions are lists of points by number; a section is a limit and
    the changes of each train."""
    points = 1 + max(point for mission in missions for point in mission)
    links = {(min(p, q), max(p, q)) for mission in missions for p, q in zip(mission, mission[1:])}
    return {
        "version": 2,
        "points": [[f"P{p}", 0] for p in range(points)],
        "links": [[f"P{p}", f"P{q}"] for p, q in sorted(links)],
        "zones": 1,
        "trains": [f"T{i}" for i in range(len(missions))],
        "start": [0] * len(missions),
        "tables": [
            {
                "missions": [[f"P{p}" for p in mission] for mission in missions],
                "exits": [exits] * len(missions),
                "sections": [{"limit": limit, "changes": changes} for limit, changes in sections],
                "certificate": [],
            }
        ],
    }


def beside(parts, missions_of):
    """The missions of several parts of a layout that have no point in common; each part is (trains, points, missions)."""
    missions, first = [], 0
    for part in range(parts):
        some = missions_of(part)
        missions += [[first + point for point in mission] for mission in some]
        first += 1 + max(point for mission in some for point in mission)
    return missions


def stretches(parts, trains, places, ends, limit):
    """One section for each part and each end: its trains count on the places from 1 up to the end."""
    sections = []
    for part in range(parts):
        for end in ends:
            inside = [0, 1] + [0] * (end - 1) + [-1] + [0] * (places - 2 - end)
            changes = [inside if i // trains == part else [0] * places for i in range(parts * trains)]
            sections.append((limit, changes))
    return sections


def loop(parts, trains, places):
    """Loops on which trains follow one another, two points apart, and leave the layout behind their last place."""
    missions = beside(parts, lambda _: [[(2 * i + a) % (2 * trains) for a in range(places)] for i in range(trains)])
    return document(missions, [], True)


def corridor(parts, trains, length):
    """Corridors that trains enter from both ends, each from a point and to a point of its own. One section for each
    corridor keeps it to one train at a time."""

    def missions_of(_):
        way = list(range(length))
        ways = [way if i % 2 == 0 else way[::-1] for i in range(trains)]
        return [[length + 2 * i] + ways[i] + [length + 2 * i + 1] for i in range(trains)]

    return document(beside(parts, missions_of), stretches(parts, trains, length + 2, [length], 1), False)


def yard(parts, trains, length, sections):
    """Yards that trains leave by one line, all in one direction, each from a point and to a point of its own. The sections
    of each yard count its trains on longer and longer parts of the line."""

    def missions_of(_):
        return [[length + 2 * i] + list(range(length)) + [length + 2 * i + 1] for i in range(trains)]

    ends = [1 + s * (length - 1) // max(1, sections - 1) for s in range(sections)]
    return document(beside(parts, missions_of), stretches(parts, trains, length + 2, ends, trains), False)


def shuttles(trains, places, zones):
    """Each train goes to and fro between two points of its own, which are in a zone that it shares with every so many trains."""
    missions = beside(trains, lambda _: [[place % 2 for place in range(places)]])
    points = [[f"P{point}", point // 2 % zones] for point in range(2 * trains)]
    return {**document(missions, [], False), "zones": zones, "points": points}


def with_nodes(document, nodes):
    """The text of a document with a certificate; each node is a text."""
    text = json.dumps(document, separators=(",", ":"))
    return text.replace('"certificate":[]', '"certificate":[' + ",".join(nodes) + "]").encode()


def spoiled(text):
    """The text of a document whose certificate's last node is a move of train 0 in place of what it was."""
    head, mark, tail = text.partition(b'"certificate":')
    nodes, end, rest = tail.partition(b"]]")
    return head + mark + nodes[: nodes.rindex(b"[")] + b"[4,0" + end + rest
