#!/usr/bin/env python3
"""Works out what the program `compare` has to print when product and naive scheduler agree.

It makes the same day files from the same integer generator and lists each by its own reading of docs/RULES.md: waits by
iterating their equation upwards, runs by jumping from start to start. Run it and compare with crates/compare/stdout.
"""

import struct
from collections import Counter

FILES = 12_000
LIMIT = 16_384
MASK = (1 << 64) - 1

# ---- the generator: every draw, in the order of the crate `compare`

NODES, EDGE, TREE, QUERY, RELEASE, CLOSE, RUN = range(1, 8)
BODY = {NODES: "<B", EDGE: "<BB", TREE: "<BBB", QUERY: "<BHH", RELEASE: "<I", CLOSE: "<I", RUN: "<H"}
SIZE = {kind: 1 + struct.calcsize(body) for kind, body in BODY.items()}


def encode(records):
    return b"".join(bytes([kind]) + struct.pack(BODY[kind], *body) for kind, *body in records)


class Source:
    def __init__(self, index):
        self.state = (index + 1) * 0x9E3779B97F4A7C15 & MASK

    def below(self, bound):
        self.state = (self.state * 6364136223846793005 + 1442695040888963407) & MASK
        return (self.state >> 33) % bound if bound else 0

    def one_in(self, bound):
        return self.below(bound) == 0

    def shuffle(self, items):
        for i in range(1, len(items)):
            j = self.below(i + 1)
            items[i], items[j] = items[j], items[i]


class Site:
    """A drawn site, which may be spoilt before its records are written."""

    def __init__(self, source, nodes):
        self.nodes = nodes
        labels = list(range(1, nodes))
        source.shuffle(labels)
        labels = [0] + labels
        shape = source.below(4)
        most = 1 + source.below(4)
        self.tree = []
        for place in range(1, nodes):
            up = self.parent_place(source, shape, place)
            self.tree.append([labels[place], labels[up], 1 + source.below(most)])
        self.edges = []
        for _ in range(source.below(4 * nodes if source.one_in(8) else nodes)):
            self.edges.append([source.below(nodes), source.below(nodes)])

    @staticmethod
    def parent_place(source, shape, place):
        if shape == 0:
            return source.below(place)
        return [0, place - 1, 0, place // 2][shape]

    def scale(self):
        return max(1, sum(link[2] for link in self.tree))

    def spoil(self, source):
        """Puts in one fault; which refusal follows is not decided here."""
        n = self.nodes
        what = source.below(6)
        i, j = source.below(len(self.tree)), source.below(len(self.tree))
        if what == 0:
            self.nodes = 0 if source.one_in(2) else 65 + source.below(191)
        elif what == 1:
            beyond = n + source.below(256 - n)
            inside = source.below(n)
            self.edges.append([beyond, inside] if source.one_in(2) else [inside, beyond])
        elif what == 2:
            if source.one_in(2):
                self.tree.pop()
            else:
                self.tree.append([source.below(n), source.below(n), 1])
        elif what == 3:
            self.spoil_link(source, n, self.tree[i])
        elif what == 4:
            self.tree[i][0] = self.tree[j][0]
        else:
            self.tree[i][1], self.tree[j][1] = self.tree[j][0], self.tree[i][0]

    @staticmethod
    def spoil_link(source, n, link):
        how = source.below(6)
        if how == 0:
            link[0] = n + source.below(256 - n)
        elif how == 1:
            link[1] = n + source.below(256 - n)
        elif how == 2:
            link[2] = 0
        elif how == 3:
            link[2] = 5 + source.below(251)
        elif how == 4:
            link[0] = 0
        else:
            link[1] = link[0]

    def records(self, source):
        body = [(TREE, *link) for link in self.tree] + [(EDGE, *edge) for edge in self.edges]
        source.shuffle(body)
        return [(NODES, self.nodes)] + body


class Day:
    """Draws the records after the site. The scale is the number of slots of the tree, so at least the plan's length."""

    def __init__(self, source, scale):
        self.source = source
        self.scale = scale
        slack = [3, 6, 12, 40][source.below(4)]
        self.base = 30_000 if source.one_in(64) else min(30_000, scale * slack)
        self.asked = 0

    def faulty_query(self):
        source = self.source
        period = self.base
        how = source.below(4)
        if how == 0:
            return 0, 0
        if how == 1:
            return period, period + 1 + source.below(9)
        if how == 2:
            return 60_001 + source.below(5_535), 1 + source.below(100)
        return 60_001 + source.below(5_535), 0

    def ordinary_query(self):
        source = self.source
        period = self.base + source.below(self.base)
        how = source.below(3)
        if how == 0:
            return period, 0
        return period, period - source.below(period // (2 if how == 1 else 8))

    def query(self):
        source = self.source
        self.asked += 1
        how = source.below(16)
        if how == 2:
            return QUERY, source.below(4), self.scale + source.below(self.scale), 0
        priority = source.below(256 if source.one_in(2) else 10)
        if how == 0:
            return (QUERY, priority) + self.faulty_query()
        if how == 1:
            period = self.base + source.below(self.base)
            return QUERY, priority, period, 1 + source.below(min(3 * self.scale, period))
        return (QUERY, priority) + self.ordinary_query()

    def number(self):
        source = self.source
        if source.one_in(32):
            return source.below(1 << 31) * 2
        if source.one_in(3):
            return source.below(self.asked + 2)
        return 1 + source.below(min(self.asked, 10))

    def run(self):
        source = self.source
        how = source.below(8)
        if how == 0:
            return RUN, source.below(2)
        if how <= 3:
            return RUN, 1 + source.below(self.scale)
        if how <= 5:
            return RUN, 1 + source.below(min(600, 2 * self.base))
        if how == 6:
            return RUN, source.below(300)
        return RUN, source.below(65_536 if source.one_in(40) else 40)

    def act(self):
        how = self.source.below(20)
        if how <= 8:
            return RELEASE, self.number()
        if how <= 10:
            return CLOSE, self.number()
        if how <= 12:
            return self.query()
        return self.run()

    def short_act(self):
        """An act for long files: hardly a query, and short runs, so that their many records take little time."""
        how = self.source.below(256)
        if how <= 1:
            return self.query()
        if how == 2:
            return CLOSE, self.number()
        if how <= 128:
            return RELEASE, self.number()
        return RUN, self.source.below(8)

    def records(self, bookings, acts):
        records = []
        for _ in range(bookings):
            records.append(self.query())
            if self.source.one_in(8):
                records.append((RUN, self.source.below(self.scale)))
        for _ in range(acts):
            records.append(self.act())
        return records


def site_and_day(source):
    nodes = 1 + source.below(64 if source.one_in(12) else 20)
    site = Site(source, nodes)
    day = Day(source, site.scale())
    before = site.records(source)
    bookings = 0 if source.one_in(16) else 1 + source.below(40)
    acts = 0 if source.one_in(16) else source.below(80)
    return before, day.records(bookings, acts), day


def sound(source):
    before, after, _ = site_and_day(source)
    return encode(before + after)


def faulty_site(source):
    site = Site(source, 4 + source.below(17))
    day = Day(source, site.scale())
    site.spoil(source)
    if source.one_in(2):
        site.spoil(source)
    before = site.records(source)
    return encode(before + day.records(source.below(3), source.below(3)))


def insert_late(source, records, record):
    """Puts a record at a drawn place, but not in front of all."""
    at = 1 + source.below(len(records))
    if at <= len(records):
        records.insert(at, record)


def wrong_order(source):
    before, after, day = site_and_day(source)
    how = source.below(6)
    if how == 0:
        records = before[1:] + after
    elif how == 1:
        records = before + after
        count = source.below(65)
        insert_late(source, records, (NODES, count))
    elif how == 2:
        insert_late(source, after, (EDGE, 0, 0))
        records = before + after
    elif how == 3:
        insert_late(source, after, (TREE, 1, 0, 1))
        records = before + after
    elif how == 4:
        records = [day.act()] + before + after
    else:
        records = []
    return encode(records)


def unknown_kind(source):
    before, after, _ = site_and_day(source)
    records = before + after
    at = source.below(len(records) + 1)
    kind = 0 if source.one_in(4) else 8 + source.below(248)
    return encode(records[:at]) + bytes([kind]) + encode(records[at:])


def cut_short(source):
    data = sound(source)
    return data[:source.below(len(data))]


def changed(source):
    data = bytearray(sound(source))
    for _ in range(1 + source.below(4)):
        at = source.below(len(data))
        data[at] = source.below(256 if source.one_in(2) else 9)
    return bytes(data)


def noise(source):
    how = source.below(3)
    data = bytearray([1, 1] if how == 2 else [])
    for _ in range(source.below(64)):
        data.append(source.below(256 if how == 0 else 9))
    return bytes(data)


def filled(source, size):
    """A sound file of exactly this many bytes: releases of 5 bytes until runs of 3 bytes can fill the rest."""
    before, after, day = site_and_day(source)
    data = bytearray(encode(before + after))
    while len(data) + 16 < size:
        data += encode([day.short_act()])
    for _ in range(2):
        if len(data) < size and (size - len(data)) % 3 != 0:
            data += encode([(RELEASE, day.number())])
    while len(data) < size:
        data += encode([(RUN, source.below(8))])
    return bytes(data)


def sized(source):
    how = source.below(8)
    if how == 0:
        return filled(source, LIMIT)
    if how <= 2:
        return filled(source, 2_000 + source.below(LIMIT - 2_000))
    if how <= 4:
        return filled(source, LIMIT + 1)
    return filled(source, LIMIT + 1 + source.below(4_000))


CLASSES = [sound] * 6 + [faulty_site, wrong_order, unknown_kind, cut_short, changed, changed, noise, sound, sound, sized]
SHORT_LISTS = (13, 14)


def draw(index):
    """The file of this index, the length of the list for its lines, and of the one for its STOP line."""
    source = Source(index)
    cls = index % 16
    data = CLASSES[cls](source)
    room = 64 + 6 * len(data)
    if cls in SHORT_LISTS:
        how = source.below(4)
        room = source.below([12, 100, 1 + len(data), 1 + 2 * len(data)][how])
    return data, room, source.below(24)


# ---- the listing


class Stop(Exception):
    def __init__(self, refusal, offset, inner=None):
        self.refusal, self.offset, self.inner = refusal, offset, inner

    def line(self):
        inner = "" if self.inner is None else f" {self.inner}"
        return f"STOP {self.refusal} {self.offset}{inner}\n".encode()


class No(Exception):
    """A refusal of the engine, with the query that it names."""

    def __init__(self, *numbers):
        self.numbers = numbers


def check_site(n, edges, tree):
    """The inner number of the first fault, or None."""
    if not 1 <= n <= 64:
        return 11
    if any(max(edge) >= n for edge in edges):
        return 12
    if len(tree) != n - 1:
        return 1
    for child, parent, slots in tree:
        if child >= n or parent >= n or slots not in (1, 2, 3, 4) or child == 0 or child == parent:
            return 2
    up = {child: parent for child, parent, _ in tree}
    if len(up) != len(tree):
        return 3
    rooted = {0}
    while True:
        more = {child for child, parent in up.items() if parent in rooted} - rooted
        if not more:
            break
        rooted |= more
    return 4 if any(child not in rooted for child in up) else None


def make_plan(edges, tree):
    """Length and minimum step distance of the plan of a sound site."""
    hears = {(a, b) for a, b in edges}

    def conflict(s, t):
        return bool({*s} & {*t}) or (s[0], t[1]) in hears or (t[0], s[1]) in hears

    up = {child: parent for child, parent, _ in tree}
    left = {child: slots for child, _, slots in tree}

    def depth(node):
        return 0 if node == 0 else 1 + depth(up[node])

    order = sorted(up, key=lambda node: (-depth(node), node))
    steps = []
    while any(left.values()):
        busy = {up[node] for node in up if left[node]}
        step = []
        for node in [node for node in order if left[node] and node not in busy]:
            t = (node, up[node])
            if not any(conflict(t, other) for other in step):
                step.append(t)
                left[node] -= 1
        steps.append(step)
    farthest = 0
    for i, first in enumerate(steps):
        for j in range(i + 1, len(steps)):
            if j - i > farthest and any(conflict(s, t) for s in first for t in steps[j]):
                farthest = j - i
    return max(1, len(steps)), 1 + farthest


class Query:
    def __init__(self, number, priority, period, deadline):
        self.number, self.priority, self.period, self.deadline = number, priority, period, deadline
        self.earliest = 0
        self.waits = False
        self.leaving = False

    def rank(self):
        return self.priority, self.number


class Engine:
    def __init__(self, length, distance):
        self.length, self.distance = length, distance
        self.slot = 0
        self.free_at = 0
        self.numbers = 1
        self.queries = {}

    def wait_in(self, ranked, at):
        """The longest wait of the query at this place, or None where it cannot keep its deadline."""
        wait = 0
        while True:
            rounds = sum(wait // query.period + 1 for query in ranked[:at])
            more = self.distance - 1 + self.distance * rounds
            if more + self.length > ranked[at].deadline:
                return None
            if more == wait:
                return wait
            wait = more

    def ask(self, priority, period, deadline):
        if not 1 <= deadline <= period <= 60_000:
            raise No(20)
        if self.numbers > 1_000_000:
            raise No(21)
        if len(self.queries) == 32:
            raise No(22)
        query = Query(self.numbers, priority, period, deadline)
        ranked = sorted([*self.queries.values(), query], key=Query.rank)
        waits = {}
        for at, present in enumerate(ranked):
            waits[present.number] = self.wait_in(ranked, at)
            if waits[present.number] is None:
                raise No(23, present.number)
        self.queries[query.number] = query
        self.numbers += 1
        return query.number, waits[query.number]

    def find(self, number):
        query = self.queries.get(number)
        if query is None or query.leaving:
            raise No(25)
        return query

    def release(self, number):
        query = self.find(number)
        if self.slot < query.earliest:
            raise No(26)
        if query.waits:
            raise No(27)
        query.waits = True
        query.earliest = self.slot + query.period

    def close(self, number):
        self.find(number).leaving = True

    def run(self, slots):
        """The starts (slot, number) of so many slots."""
        end = self.slot + slots
        while self.slot < end:
            waiting = [query for query in self.queries.values() if query.waits]
            if not waiting:
                self.queries = {n: query for n, query in self.queries.items() if not query.leaving}
                break
            start = max(self.slot, self.free_at)
            if start >= end:
                break
            first = min(waiting, key=Query.rank)
            first.waits = False
            self.free_at = start + self.distance
            self.slot = start + 1
            yield start, first.number
        self.slot = end


class Listing:
    def __init__(self, data, room):
        self.data, self.room = data, room
        self.text = b""
        self.nodes = None
        self.edges, self.tree = [], []
        self.engine = None

    def line(self, offset, *words):
        text = " ".join(map(str, words)).encode() + b"\n"
        if len(self.text) + len(text) > self.room:
            raise Stop(34, offset)
        self.text += text

    def open(self, offset):
        if self.engine is None:
            inner = check_site(self.nodes, self.edges, self.tree)
            if inner is not None:
                raise Stop(35, offset, inner)
            length, distance = make_plan(self.edges, self.tree)
            self.line(offset, "PLAN", length, distance)
            self.engine = Engine(length, distance)

    def act(self, offset, kind, body):
        try:
            if kind == QUERY:
                priority, period, deadline = body
                self.line(offset, "QUERY", *self.engine.ask(priority, period, deadline or period))
            elif kind == RELEASE:
                self.engine.release(*body)
            elif kind == CLOSE:
                self.engine.close(*body)
            else:
                for start, number in self.engine.run(*body):
                    self.line(offset, "START", start, number)
        except No as no:
            self.line(offset, "NO", no.numbers[0], offset, *no.numbers[1:])

    def take(self, offset, kind, body):
        if (kind == NODES) != (self.nodes is None):
            raise Stop(33, offset)
        if kind == NODES:
            self.nodes = body[0]
        elif kind in (EDGE, TREE):
            if self.engine is not None:
                raise Stop(33, offset)
            (self.edges if kind == EDGE else self.tree).append(body)
        else:
            self.open(offset)
            self.act(offset, kind, body)

    def list(self):
        data = self.data
        if len(data) > LIMIT:
            raise Stop(36, 0)
        offset = 0
        while offset < len(data):
            kind = data[offset]
            if kind not in SIZE:
                raise Stop(31, offset)
            if offset + SIZE[kind] > len(data):
                raise Stop(32, offset)
            self.take(offset, kind, struct.unpack_from(BODY[kind], data, offset + 1))
            offset += SIZE[kind]
        if self.nodes is None:
            raise Stop(33, offset)
        self.open(offset)


def list_file(data, room):
    """The text, and the stop or None."""
    listing = Listing(data, room)
    try:
        listing.list()
        return listing.text, None
    except Stop as stop:
        return listing.text, stop


# ---- what is printed


def digest(value, data):
    for byte in data:
        value = (value ^ byte) * 0x100000001B3 & MASK
    return value


def name_of(stop):
    if stop is None:
        return "complete"
    inner = "" if stop.inner is None else f", inner {stop.inner}"
    return f"stopped by {stop.refusal}{inner}:"


def example():
    data = bytes.fromhex(
        "0103 03020101 03010001 04050A000000 040308000600 0501000000 070100 0502000000 0501000000 070300"
    )
    want = b"PLAN 2 2\nQUERY 1 1\nQUERY 2 1\nSTART 0 1\nNO 26 35\nSTART 2 2\n"
    return list_file(data, len(want)) == (want, None)


def main():
    endings, lines = Counter(), Counter()
    files, listings = 0xCBF29CE484222325, 0xCBF29CE484222325
    for index in range(FILES):
        data, room, _ = draw(index)
        text, stop = list_file(data, room)
        endings[name_of(stop)] += 1
        for line in text.split(b"\n")[:-1]:
            words = line.decode().split(" ")
            lines["NO " + words[1] if words[0] == "NO" else words[0]] += 1
        files = digest(files, data)
        listings = digest(listings, text + (b"" if stop is None else stop.line()))
    assert example()
    print("example listed as expected")
    print(f"files {FILES}, agree {FILES}, differ 0")
    order = ["complete"] + [f"stopped by {n}:" for n in (31, 32, 33, 34)]
    order += [f"stopped by 35, inner {n}:" for n in (1, 2, 3, 4, 11, 12)] + ["stopped by 36:"]
    assert set(endings) <= set(order)
    for name in order:
        print(f"{name} {endings[name]} of {endings[name]}")
    kinds = ["PLAN", "QUERY", "START"] + [f"NO {n}" for n in range(20, 28)]
    assert set(lines) <= set(kinds)
    print("lines: " + ", ".join(f"{kind} {lines[kind]}" for kind in kinds))
    print(f"digest of the files {files:016x}")
    print(f"digest of the listings {listings:016x}")


if __name__ == "__main__":
    main()
