#!/usr/bin/env python3
"""The listing of a day file, worked out from the written rules alone.

Reads a day file on standard input and prints its listing, and the STOP line after it where the listing stops.

    python3 listing_reference.py < day.day
    python3 listing_reference.py --room 100 < day.day      with an output list of 100 bytes

Nothing here is taken from the library: this file is what its listing is compared with. The plan and the refusals of
graph and tree come from reference.py, which was written from the rules as well.
"""

import argparse
import sys

import reference

MOST_BYTES = 16384
MOST_QUERIES = 32
MOST_NUMBER = 1_000_000
MOST_PERIOD = 60_000

NODES, EDGE, TREE, QUERY, RELEASE, CLOSE, RUN = 1, 2, 3, 4, 5, 6, 7

# the lengths of a record's numbers in bytes, by its kind
FIELDS = {
    NODES: [1],
    EDGE: [1, 1],
    TREE: [1, 1, 1],
    QUERY: [1, 2, 2],
    RELEASE: [4],
    CLOSE: [4],
    RUN: [2],
}

READY, WAITING, LEAVING, LEAVING_WAITING = "ready", "waiting", "leaving", "leaving, a round waiting"


class Stop(Exception):
    """The listing ends here: the refusal's number, where in the file, and what 35 adds."""

    def __init__(self, refusal, offset, inner=0, position=0):
        super().__init__(refusal, offset, inner, position)
        self.refusal = refusal
        self.offset = offset
        self.inner = inner
        self.position = position

    def line(self):
        more = f" {self.inner}" if self.refusal == 35 else ""
        return f"STOP {self.refusal} {self.offset}{more}\n"


class No(Exception):
    """A refusal of the engine: its number, and the query that it names, if it names one."""

    def __init__(self, refusal, named=None):
        super().__init__(refusal, named)
        self.refusal = refusal
        self.named = named


# The engine


class Query:
    def __init__(self, number, priority, period, deadline):
        self.number = number
        self.priority = priority
        self.period = period
        self.deadline = deadline
        self.earliest = 0  # no release before this slot
        self.phase = READY

    def rank(self):
        return (self.priority, self.number)


class Engine:
    def __init__(self, length, distance):
        self.length = length
        self.distance = distance
        self.slot = 0
        self.last_start = None
        self.next_number = 1
        self.queries = []

    def longest_wait(self, query, queries):
        """The smallest w with w = Δ − 1 + Δ × Σ(⌊w ÷ P_h⌋ + 1); None where it would not keep the deadline."""
        periods = [other.period for other in queries if other.rank() < query.rank()]
        w = 0
        while w + self.length <= query.deadline:
            right = self.distance - 1 + self.distance * sum(w // period + 1 for period in periods)
            if right == w:
                return w
            # the right side grows with w, so no w between the two is a solution
            w = right
        return None

    def book(self, priority, period, deadline):
        """Books and confirms together; answers the number and the longest wait."""
        if not 1 <= deadline <= period <= MOST_PERIOD:
            raise No(20)
        if self.next_number > MOST_NUMBER:
            raise No(21)
        if len(self.queries) == MOST_QUERIES:
            raise No(22)
        new = Query(self.next_number, priority, period, deadline)
        queries = self.queries + [new]
        for query in sorted(queries, key=Query.rank):
            if self.longest_wait(query, queries) is None:
                raise No(23, query.number)
        self.queries = queries
        self.next_number += 1
        return new.number, self.longest_wait(new, queries)

    def open_query(self, number):
        """The ready or waiting query of that number."""
        for query in self.queries:
            if query.number == number and query.phase in (READY, WAITING):
                return query
        raise No(25)

    def release(self, number):
        query = self.open_query(number)
        if self.slot < query.earliest:
            raise No(26)
        if query.phase == WAITING:
            raise No(27)
        query.phase = WAITING
        query.earliest = self.slot + query.period

    def close(self, number):
        query = self.open_query(number)
        query.phase = LEAVING if query.phase == READY else LEAVING_WAITING

    def run_slot(self):
        """Runs the next slot; answers the number of the query whose round starts in it, or None."""
        started = None
        waiting = [query for query in self.queries if query.phase in (WAITING, LEAVING_WAITING)]
        if not waiting:
            self.queries = [query for query in self.queries if query.phase != LEAVING]
        elif self.last_start is None or self.slot - self.last_start >= self.distance:
            first = min(waiting, key=Query.rank)
            first.phase = READY if first.phase == WAITING else LEAVING
            self.last_start = self.slot
            started = first.number
        self.slot += 1
        return started


# The listing


def read_record(data, at):
    """Kind, numbers and end of the record at that offset."""
    kind = data[at]
    if kind not in FIELDS:
        raise Stop(31, at)
    end = at + 1 + sum(FIELDS[kind])
    if end > len(data):
        raise Stop(32, at)
    numbers = []
    place = at + 1
    for width in FIELDS[kind]:
        numbers.append(int.from_bytes(data[place : place + width], "little"))
        place += width
    return kind, numbers, end


def deadline_or_default(period, deadline):
    """A deadline of 0 in a query record means the period."""
    return period if deadline == 0 else deadline


class Listing:
    def __init__(self, room):
        self.room = room  # the length of the output list; None: as long as it needs to be
        self.text = b""
        self.nodes = None
        self.edges = []
        self.tree = []
        self.engine = None  # once the plan is made

    def write(self, text, offset):
        line = text.encode("ascii") + b"\n"
        if self.room is not None and len(self.text) + len(line) > self.room:
            raise Stop(34, offset)
        self.text += line

    def make_plan(self, offset):
        try:
            reference.check_model(self.nodes, self.edges)
            reference.check_tree(self.nodes, self.tree)
        except reference.Refused as refused:
            # the place is a text such as 'edge 3'
            position = int(refused.place.split()[-1]) if refused.place else 0
            raise Stop(35, offset, refused.number, position) from None
        edges = set(self.edges)
        steps = reference.make_plan(self.nodes, edges, self.tree)
        distance = reference.minimum_step_distance(self.nodes, edges, steps)
        self.engine = Engine(len(steps), distance)
        self.write(f"PLAN {len(steps)} {distance}", offset)

    def survey(self, kind, numbers, offset):
        if kind == NODES:
            if self.nodes is not None:
                raise Stop(33, offset)
            self.nodes = numbers[0]
            return
        if self.nodes is None or self.engine is not None:
            raise Stop(33, offset)
        (self.edges if kind == EDGE else self.tree).append(tuple(numbers))

    def call(self, kind, numbers, offset):
        if self.nodes is None:
            raise Stop(33, offset)
        if self.engine is None:
            self.make_plan(offset)
        try:
            if kind == QUERY:
                priority, period, deadline = numbers
                number, wait = self.engine.book(priority, period, deadline_or_default(period, deadline))
                self.write(f"QUERY {number} {wait}", offset)
            elif kind == RELEASE:
                self.engine.release(numbers[0])
            elif kind == CLOSE:
                self.engine.close(numbers[0])
            else:
                for _ in range(numbers[0]):
                    slot = self.engine.slot
                    started = self.engine.run_slot()
                    if started is not None:
                        self.write(f"START {slot} {started}", offset)
        except No as no:
            named = "" if no.named is None else f" {no.named}"
            self.write(f"NO {no.refusal} {offset}{named}", offset)

    def read(self, data):
        if len(data) > MOST_BYTES:
            raise Stop(36, 0)
        at = 0
        while at < len(data):
            kind, numbers, end = read_record(data, at)
            if kind in (NODES, EDGE, TREE):
                self.survey(kind, numbers, at)
            else:
                self.call(kind, numbers, at)
            at = end
        if self.nodes is None:
            raise Stop(33, at)
        if self.engine is None:
            self.make_plan(at)


def list_day(data, room=None):
    """The listing's bytes, and the Stop that ended it, or None."""
    listing = Listing(room)
    try:
        listing.read(data)
    except Stop as stop:
        return listing.text, stop
    return listing.text, None


if __name__ == "__main__":
    parser = argparse.ArgumentParser(description="print the listing of the day file on standard input")
    parser.add_argument("--room", type=int, help="length of the output list in bytes (default: enough)")
    text, stop = list_day(sys.stdin.buffer.read(), parser.parse_args().room)
    sys.stdout.buffer.write(text)
    if stop is not None:
        sys.stdout.buffer.write(stop.line().encode("ascii"))
