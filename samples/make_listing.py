#!/usr/bin/env python3
"""Writes the small day files of listing/ and what their listings are, the STOP line after them where there is one.

The lines are not made by a program: they were worked out by hand, as the comments say, and typed in.
"""

from pathlib import Path

HERE = Path(__file__).parent

# The base station alone: L = 1 and Δ = 1, so a wait is the number of rounds that may come before. 2 bytes.
ALONE = [[1, 1]]
# 2 -> 1 -> 0, one slot each: node 1 sends after its child, and both have node 1, so L = 2 and Δ = 2. 10 bytes.
BRANCH = [[1, 3], [3, 2, 1, 1], [3, 1, 0, 1]]

# each file as its records, one list of bytes to a record, and its lines
FILES = {
    # Deadline 0 is the period 10. Query 1 is first alone: its wait is Δ - 1 = 1. Query 2 ranks before it: 1.
    # The round of 1 starts in slot 0; in slot 1 a release of 1 is before slot 10: 26 at byte 35. The records have
    # the offsets 10 and 16 (queries), 22, 27, 30, 35 and 40. The round of 2 waits until slot 0 + Δ.
    "example": (
        BRANCH
        + [[4, 5, 10, 0, 0, 0], [4, 3, 8, 0, 6, 0], [5, 1, 0, 0, 0], [7, 1, 0], [5, 2, 0, 0, 0], [5, 1, 0, 0, 0], [7, 3, 0]],
        ["PLAN 2 2", "QUERY 1 1", "QUERY 2 1", "START 0 1", "NO 26 35", "START 2 2"],
    ),
    # The plan is made at the file's end.
    "nodes-only": (ALONE, ["PLAN 1 1"]),
    "site-only": (BRANCH, ["PLAN 2 2"]),
    # A run of 0 slots makes the plan as well. After another one it is still slot 0, so the second release, at byte 19,
    # is early for the period 1; after a run of 1 slot the third is not.
    "run-0": (
        ALONE
        + [[7, 0, 0], [4, 0, 1, 0, 0, 0], [5, 1, 0, 0, 0], [7, 0, 0], [5, 1, 0, 0, 0], [7, 1, 0], [5, 1, 0, 0, 0], [7, 1, 0]],
        ["PLAN 1 1", "QUERY 1 0", "NO 26 19", "START 0 1", "START 1 1"],
    ),
    # Period and deadline not 1 ≤ D ≤ P ≤ 60,000: 0 with deadline 0, which is the period; 10 with 11; 60,001 (61 EA,
    # lowest byte first). 60,000 (60 EA) is accepted, and has the number 1: the refused ones took none.
    "20": (
        ALONE + [[4, 0, 0, 0, 0, 0], [4, 0, 10, 0, 11, 0], [4, 0, 0x61, 0xEA, 1, 0], [4, 0, 0x60, 0xEA, 0, 0]],
        ["PLAN 1 1", "NO 20 2", "NO 20 8", "NO 20 14", "QUERY 1 0"],
    ),
    # 32 queries of falling rank: that of number n waits for one round of each of the n - 1 before it. The record
    # of the 33rd stands at 2 + 32 * 6 = 194. With query 5 closed and a slot without a waiting round it is accepted, at
    # 194 + 6 + 5 + 3 = 208, and 31 rank before it.
    "22": (
        ALONE
        + [[4, i, 200, 0, 0, 0] for i in range(32)]
        + [[4, 32, 200, 0, 0, 0], [6, 5, 0, 0, 0], [7, 1, 0], [4, 32, 200, 0, 0, 0]],
        ["PLAN 1 1"] + [f"QUERY {i + 1} {i}" for i in range(32)] + ["NO 22 194", "QUERY 33 31"],
    ),
    # Query 1 has period 2 and deadline 1: its wait 0 and one slot are just in time. One before it makes its wait 1:
    # refused at 8, naming it. One after it waits for w = ⌊w ÷ 2⌋ + 1, so w = 1: with deadline 1 it is late itself and
    # refused at 14 by the number that it would have, with deadline 2 accepted.
    "23": (
        ALONE + [[4, 5, 2, 0, 1, 0], [4, 0, 10, 0, 10, 0], [4, 9, 9, 0, 1, 0], [4, 9, 9, 0, 2, 0]],
        ["PLAN 1 1", "QUERY 1 0", "NO 23 8 1", "NO 23 14 2", "QUERY 2 1"],
    ),
    # The queries 1 and 2 at 10 and 16: waits 1 and 1 + 2 * 1 = 3. No number 0 or 3: 25 at 22 and 27. Query 1 is closed
    # with its round waiting; no second closing (42) and no release (47) then. The round starts all the same.
    "25": (
        BRANCH
        + [[4, 1, 100, 0, 0, 0], [4, 2, 100, 0, 0, 0], [5, 0, 0, 0, 0], [6, 3, 0, 0, 0], [5, 1, 0, 0, 0]]
        + [[6, 1, 0, 0, 0], [6, 1, 0, 0, 0], [5, 1, 0, 0, 0], [7, 5, 0]],
        ["PLAN 2 2", "QUERY 1 1", "QUERY 2 3", "NO 25 22", "NO 25 27", "NO 25 42", "NO 25 47", "START 0 1"],
    ),
    # Low, middle and high, released in slots 0, 1 and 1. The round of 1 runs until slot 1; from slot 2 on the first in
    # rank starts, then the next one two slots later. Waits at booking: each new one ranks before all others.
    "ranks": (
        BRANCH
        + [[4, 3, 100, 0, 0, 0], [4, 2, 100, 0, 0, 0], [4, 1, 100, 0, 0, 0], [5, 1, 0, 0, 0], [7, 1, 0]]
        + [[5, 2, 0, 0, 0], [5, 3, 0, 0, 0], [7, 9, 0]],
        ["PLAN 2 2", "QUERY 1 1", "QUERY 2 1", "QUERY 3 1", "START 0 1", "START 2 3", "START 4 2"],
    ),
    # Of equal priority the smaller number ranks first: the second waits for the first, 1 + 2 * 1 = 3, and starts after it
    # although it is released before it.
    "ties": (
        BRANCH + [[4, 5, 100, 0, 0, 0], [4, 5, 100, 0, 0, 0], [5, 2, 0, 0, 0], [5, 1, 0, 0, 0], [7, 9, 0]],
        ["PLAN 2 2", "QUERY 1 1", "QUERY 2 3", "START 0 1", "START 2 2"],
    ),
    # A closed query counts until a slot without a waiting round: the third waits for two before it, 1 + 2 * 2 = 5.
    # Then query 1 is gone, and the fourth waits for two before it too.
    "leaving": (
        BRANCH
        + [[4, 1, 100, 0, 0, 0], [4, 2, 100, 0, 0, 0], [6, 1, 0, 0, 0], [4, 3, 100, 0, 0, 0], [7, 1, 0], [4, 4, 100, 0, 0, 0]],
        ["PLAN 2 2", "QUERY 1 1", "QUERY 2 3", "QUERY 3 5", "QUERY 4 5"],
    ),
    # exactly as long as a file may be: 2 + 5 + 3 * 5459 = 16384 bytes; the release at 2 is of an unknown number
    "full": (ALONE + [[5, 0, 0, 0, 0]] + [[7, 0, 0]] * 5459, ["PLAN 1 1", "NO 25 2"]),
    # as long too, and the last record, at 2 + 3 * 5460 = 16382, is cut short
    "32-full": (ALONE + [[7, 0, 0]] * 5460 + [[5, 1]], ["PLAN 1 1", "STOP 32 16382"]),
    # unknown, and also before the record of kind 1
    "31-first": ([[0, 1]], ["STOP 31 0"]),
    # no plan is made: the file's end was not reached
    "31-survey": (BRANCH + [[255]], ["STOP 31 10"]),
    "31": (BRANCH + [[4, 1, 10, 0, 0, 0], [8, 1, 1], [7, 1, 0]], ["PLAN 2 2", "QUERY 1 1", "STOP 31 16"]),
    # cut short, and also before the record of kind 1
    "32-first": ([[2, 0]], ["STOP 32 0"]),
    # the first query record is not whole, so no plan is made at it
    "32-query": (BRANCH + [[4, 1, 10, 0, 0]], ["STOP 32 10"]),
    "32": (BRANCH + [[7, 1, 0], [7, 1]], ["PLAN 2 2", "STOP 32 13"]),
    "33-empty": ([], ["STOP 33 0"]),
    "33-edge-first": ([[2, 0, 1], [1, 2], [3, 1, 0, 1]], ["STOP 33 0"]),
    "33-tree-first": ([[3, 1, 0, 1], [1, 2]], ["STOP 33 0"]),
    "33-query-first": ([[4, 1, 10, 0, 10, 0], [1, 1]], ["STOP 33 0"]),
    "33-run-first": ([[7, 1, 0], [1, 1]], ["STOP 33 0"]),
    "33-twice": ([[1, 2], [3, 1, 0, 1], [1, 2]], ["STOP 33 6"]),
    # after the plan was made, here by runs of 0 slots: nodes, edge, tree
    "33-late-nodes": (BRANCH + [[7, 0, 0], [1, 3]], ["PLAN 2 2", "STOP 33 13"]),
    "33-late-edge": (BRANCH + [[7, 0, 0], [2, 0, 1]], ["PLAN 2 2", "STOP 33 13"]),
    "33-late-tree": (BRANCH + [[7, 0, 0], [3, 1, 0, 1]], ["PLAN 2 2", "STOP 33 13"]),
    # The plan is refused where it is made: at the first record of kind 4 to 7, or at the file's end.
    "35-11-none": ([[1, 0]], ["STOP 35 2 11"]),
    # the edge and the missing tree would be refused too, and come later
    "35-11-too-many": ([[1, 65], [2, 0, 70]], ["STOP 35 5 11"]),
    # the missing tree would be refused too, and comes later
    "35-12": ([[1, 3], [2, 1, 2], [2, 2, 3], [7, 1, 0]], ["STOP 35 8 12"]),
    "35-1": ([[1, 3], [3, 1, 0, 1], [5, 1, 0, 0, 0]], ["STOP 35 6 1"]),
    # the second record has five slots
    "35-2": ([[1, 3], [3, 1, 0, 4], [3, 2, 1, 5]], ["STOP 35 10 2"]),
    "35-3": ([[1, 3], [3, 2, 0, 1], [3, 2, 1, 1], [4, 1, 10, 0, 0, 0]], ["STOP 35 10 3"]),
    # 2 and 3 are each other's parent
    "35-4": ([[1, 4], [3, 1, 0, 1], [3, 2, 3, 1], [3, 3, 2, 1], [6, 1, 0, 0, 0]], ["STOP 35 14 4"]),
    # the record at which the plan is made is cut short, which comes before the plan's refusal
    "32-before-35": ([[1, 0], [7, 1]], ["STOP 32 2"]),
    # one byte more than a file may have; the unknown kind would be refused too, and comes later
    "36": ([[0] * 16385], ["STOP 36 0"]),
}

if __name__ == "__main__":
    for name, (records, lines) in FILES.items():
        (HERE / f"listing/{name}.day").write_bytes(bytes(b for record in records for b in record))
        (HERE / f"listing/{name}.expected").write_text("".join(line + "\n" for line in lines), encoding="ascii")
