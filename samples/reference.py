#!/usr/bin/env python3
"""The transmission plan of a site, worked out from the written rules alone.

Reads a day file on standard input and prints what the program `siteplan` has to print for it.
Nothing here is taken from that program: this file is what its output is compared with.
"""

import sys

BASE = 0
MOST_NODES = 64
MOST_SLOTS = 4
MOST_BYTES = 16384

# bytes of a record by its kind, the kind byte among them
SIZE = {1: 2, 2: 3, 3: 4, 4: 6, 5: 5, 6: 5, 7: 3}

TEXT = {
    1: "there is not exactly one tree record for each node but the base station",
    2: "a tree record names a node that the site does not have, gives slots not from 1 to 4,"
       " or has the base station or its own parent as child",
    3: "a tree record repeats a child",
    4: "a tree record's child has no way to the base station",
    11: "the number of nodes is not from 1 to 64",
    12: "an edge names a node that the site does not have",
    31: "a record of unknown kind",
    32: "a record is cut short",
    33: "records in the wrong order",
    36: "the file is longer than 16384 bytes",
}


class Refused(Exception):
    """A refusal: its number, and the place that it names, if it names one."""

    def __init__(self, number, place=None):
        super().__init__(number, place)
        self.number = number
        self.place = place

    def line(self):
        where = "" if self.place is None else f" ({self.place})"
        return f"refused {self.number}: {TEXT[self.number]}{where}"


def read_survey(data):
    """The node count, the edges and the tree records of a day file, up to its first record of kind 4 to 7."""
    if len(data) > MOST_BYTES:
        raise Refused(36, "byte 0")
    nodes = None
    edges = []
    tree = []
    at = 0
    while at < len(data):
        kind = data[at]
        if kind not in SIZE:
            raise Refused(31, f"byte {at}")
        if len(data) - at < SIZE[kind]:
            raise Refused(32, f"byte {at}")
        body = data[at + 1 : at + SIZE[kind]]
        if (kind == 1) != (nodes is None):
            # the first record is of kind 1, and no other is
            raise Refused(33, f"byte {at}")
        if kind >= 4:
            break
        if kind == 1:
            nodes = body[0]
        elif kind == 2:
            edges.append((body[0], body[1]))
        else:
            tree.append((body[0], body[1], body[2]))
        at += SIZE[kind]
    if nodes is None:
        raise Refused(33, "byte 0")
    return nodes, edges, tree


def check_model(nodes, edges):
    if not 1 <= nodes <= MOST_NODES:
        raise Refused(11)
    for place, (a, b) in enumerate(edges):
        if a >= nodes or b >= nodes:
            raise Refused(12, f"edge {place}")


def way_to_base(parent, node):
    """The hops from the node to the base station, or None where its parents lead round in a ring."""
    hops = 0
    while node != BASE:
        if node not in parent or hops > len(parent):
            return None
        node = parent[node]
        hops += 1
    return hops


def check_tree(nodes, tree):
    if len(tree) != nodes - 1:
        raise Refused(1)
    for place, (child, parent, slots) in enumerate(tree):
        outside = child >= nodes or parent >= nodes
        if outside or not 1 <= slots <= MOST_SLOTS or child == BASE or child == parent:
            raise Refused(2, f"tree record {place}")
    seen = set()
    for place, (child, _, _) in enumerate(tree):
        if child in seen:
            raise Refused(3, f"tree record {place}")
        seen.add(child)
    parents = {child: parent for child, parent, _ in tree}
    for place, (child, _, _) in enumerate(tree):
        if way_to_base(parents, child) is None:
            raise Refused(4, f"tree record {place}")


def proper(nodes, transmission):
    a, b = transmission
    return a < nodes and b < nodes and a != b


def conflict(nodes, edges, one, other):
    """Whether two transmissions, each a pair (from, to), cannot be in one slot."""
    if not proper(nodes, one) or not proper(nodes, other):
        return True
    (a, b), (c, d) = one, other
    if {a, b} & {c, d}:
        return True
    return (a, d) in edges or (c, b) in edges


def make_plan(nodes, edges, tree):
    """The steps, each a list of transmissions in the order in which they joined."""
    parent = {child: up for child, up, _ in tree}
    left = {child: slots for child, _, slots in tree}
    children = {node: [child for child in parent if parent[child] == node] for node in range(nodes)}
    depth = {node: way_to_base(parent, node) for node in parent}
    if not tree:
        return [[]]
    steps = []
    while any(left.values()):
        candidates = [
            node
            for node in left
            if left[node] > 0 and all(left[child] == 0 for child in children[node])
        ]
        candidates.sort(key=lambda node: (-depth[node], node))
        step = []
        for node in candidates:
            transmission = (node, parent[node])
            if not any(conflict(nodes, edges, transmission, other) for other in step):
                step.append(transmission)
        for node, _ in step:
            left[node] -= 1
        steps.append(step)
    return steps


def minimum_step_distance(nodes, edges, steps):
    """The smallest d from 1 on such that steps at least d apart have no conflict between them."""
    farthest = 0
    for i, early in enumerate(steps):
        for j in range(i + 1, len(steps)):
            if any(conflict(nodes, edges, one, other) for one in early for other in steps[j]):
                farthest = max(farthest, j - i)
    return farthest + 1


def lines(data):
    try:
        nodes, edges, tree = read_survey(data)
        check_model(nodes, edges)
        check_tree(nodes, tree)
    except Refused as refused:
        return [refused.line()]
    edges = set(edges)
    steps = make_plan(nodes, edges, tree)
    distance = minimum_step_distance(nodes, edges, steps)
    out = [
        f"site: {nodes} nodes, base station {BASE}",
        f"plan: {len(steps)} steps, minimum step distance {distance}",
    ]
    for number, step in enumerate(steps):
        shown = ", ".join(f"{a} -> {b}" for a, b in step) or "no transmission"
        out.append(f"step {number}: {shown}")
    return out


if __name__ == "__main__":
    print("\n".join(lines(sys.stdin.buffer.read())))
