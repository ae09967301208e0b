#!/usr/bin/env python3
"""Writes gallery.day, the survey and the routing tree of a made-up gallery floor; gallery.md explains them.

    python3 make_gallery.py > gallery.day
    python3 make_gallery.py --table        the nodes with room, place, parent and slots, as gallery.md has them
"""

import sys
from math import hypot

# A wall takes from a signal what this many metres of open floor take.
WALL = 3.0
# A node's parent is less than this far away, walls counted.
LINK = 12.0
# A node is heard less than this far away, walls counted. Those in the passage hang free under the ceiling.
HEARD_FROM_ROOM = 16.0
HEARD_FROM_PASSAGE = 18.0

# Metres from the middle of the passage, x to the east and y to the north.
# Walls from north to south: x, and from which y to which.
WALLS_ACROSS = (
    [(x, -6, 6) for x in (-54, -42, -30, -18, -6, 6, 18, 30, 42, 54)]
    + [(x, 6, 42) for x in (-6, 6)]
    + [(x, 6, 30) for x in (-42, -30, 30, 42)]
)
# Walls from west to east: y, and from which x to which.
WALLS_ALONG = (
    [(y, -54, 54) for y in (-6, 6)]
    + [(y, -6, 6) for y in (18, 30, 42)]
    + [(y, x, x + 12) for y in (18, 30) for x in (-42, 30)]
)

# Room, x, y and slots of each node. Node 0 is the base station.
NODES = [
    ("passage", 0, -3, 0),
    ("passage", -5, 0, 1),
    ("passage", 5, 0, 1),
    ("passage", 0, 4, 1),
    ("west 1", -10, 3, 1),
    ("west 1", -16, -2, 1),
    ("west 2", -22, 3, 1),
    ("west 2", -27, -2, 1),
    ("west 3", -34, 2, 1),
    ("west 3", -40, -3, 1),
    ("west 4", -46, 2, 1),
    ("west 4", -52, -3, 2),
    ("print room", -36, 10, 1),
    ("print room", -35, 16, 1),
    ("map room", -37, 24, 1),
    ("east 1", 10, -3, 1),
    ("east 1", 16, 2, 1),
    ("east 2", 22, -3, 1),
    ("east 2", 27, 2, 1),
    ("east 3", 34, -1, 1),
    ("east 3", 40, 3, 1),
    ("east 4", 46, -2, 1),
    ("east 4", 52, 3, 1),
    ("library", 35, 10, 1),
    ("library", 38, 16, 1),
    ("reading room", 36, 23, 2),
    ("north 1", 3, 10, 1),
    ("north 1", -2, 16, 1),
    ("north 2", 3, 22, 1),
    ("north 2", -2, 28, 1),
    ("north 3", 2, 34, 2),
    ("north 3", -2, 40, 3),
]


def walls_between(a, b):
    """How many walls the straight line from node a to node b goes through."""
    (_, ax, ay, _), (_, bx, by, _) = NODES[a], NODES[b]
    count = 0
    for x, low, high in WALLS_ACROSS:
        if (ax < x) != (bx < x):
            count += low <= ay + (by - ay) * (x - ax) / (bx - ax) < high
    for y, low, high in WALLS_ALONG:
        if (ay < y) != (by < y):
            count += low <= ax + (bx - ax) * (y - ay) / (by - ay) < high
    return count


def reach(a, b):
    """The way from node a to node b, each wall counted as so many metres more."""
    (_, ax, ay, _), (_, bx, by, _) = NODES[a], NODES[b]
    return hypot(ax - bx, ay - by) + WALL * walls_between(a, b)


def survey():
    """The edges a -> b: node b hears node a."""
    edges = []
    for a, (room, _, _, _) in enumerate(NODES):
        heard = HEARD_FROM_PASSAGE if room == "passage" else HEARD_FROM_ROOM
        edges += [(a, b) for b in range(len(NODES)) if b != a and reach(a, b) < heard]
    return edges


def routing_tree():
    """Each node's parent on its way of short hops, the one with the smallest sum of squared hops."""
    cost = {0: 0.0}
    parent = {}
    done = set()
    while len(done) < len(cost):
        near = min((n for n in cost if n not in done), key=lambda n: (cost[n], n))
        done.add(near)
        for n in range(len(NODES)):
            through = cost[near] + reach(near, n) ** 2
            if n not in done and reach(near, n) < LINK and through < cost.get(n, float("inf")):
                cost[n], parent[n] = through, near
    return [(n, parent[n], NODES[n][3]) for n in range(1, len(NODES))]


def day_file():
    records = [(1, len(NODES))]
    records += [(2, a, b) for a, b in survey()]
    records += [(3, child, parent, slots) for child, parent, slots in routing_tree()]
    return bytes(value for record in records for value in record)


def table():
    rows = ["| node | room | x | y | parent | slots |", "|---|---|---|---|---|---|"]
    up = {child: parent for child, parent, _ in routing_tree()}
    for n, (room, x, y, slots) in enumerate(NODES):
        rows.append(f"| {n} | {room} | {x} | {y} | {up.get(n, '–')} | {slots or '–'} |")
    return "\n".join(rows)


if __name__ == "__main__":
    if sys.argv[1:] == ["--table"]:
        print(table())
    else:
        sys.stdout.buffer.write(day_file())
