#!/usr/bin/env python3
"""Writes the small day files: branch.day, single.day, ended.day, and those of refused/.

Their expected output is not made by a program: it was worked out by hand and typed in.
"""

from pathlib import Path

HERE = Path(__file__).parent

# each file as its records, one list of bytes to a record
FILES = {
    # 2 -> 1 -> 0
    "branch": [[1, 3], [3, 2, 1, 1], [3, 1, 0, 1]],
    # the base station alone
    "single": [[1, 1]],
    # as branch; the query ends the survey, so the byte 255 after it is not read
    "ended": [[1, 3], [3, 2, 1, 1], [3, 1, 0, 1], [4, 1, 10, 0, 10, 0], [255]],
    "refused/1": [[1, 3], [3, 1, 0, 1]],
    "refused/2-base-as-child": [[1, 3], [3, 0, 1, 1], [3, 2, 1, 1]],
    "refused/2-no-such-node": [[1, 3], [3, 1, 0, 1], [3, 3, 1, 1]],
    "refused/2-own-parent": [[1, 3], [3, 1, 0, 1], [3, 2, 2, 1]],
    "refused/2-slots": [[1, 3], [3, 1, 0, 4], [3, 2, 1, 5]],
    "refused/3": [[1, 3], [3, 2, 0, 1], [3, 2, 1, 1]],
    # 2 and 3 are each other's parent
    "refused/4": [[1, 4], [3, 1, 0, 1], [3, 2, 3, 1], [3, 3, 2, 1]],
    "refused/11-none": [[1, 0]],
    # the edge and the missing tree would be refused too, and come later
    "refused/11-too-many": [[1, 65], [2, 0, 70]],
    # the missing tree would be refused too, and comes later
    "refused/12": [[1, 3], [2, 1, 2], [2, 2, 3]],
    "refused/31": [[1, 2], [3, 1, 0, 1], [8]],
    # unknown, and also before the record of kind 1
    "refused/31-first": [[0, 1]],
    "refused/32": [[1, 2], [3, 1, 0]],
    # cut short, and also before the record of kind 1
    "refused/32-first": [[2, 0]],
    "refused/33-before": [[2, 0, 1], [1, 2], [3, 1, 0, 1]],
    "refused/33-empty": [],
    # one byte more than a day file may have; the unknown kind would be refused too, and comes later
    "refused/36": [[0] * 16385],
    "refused/33-query-first": [[4, 1, 10, 0, 10, 0], [1, 1]],
    "refused/33-twice": [[1, 2], [3, 1, 0, 1], [1, 2]],
}

if __name__ == "__main__":
    for name, records in FILES.items():
        (HERE / f"{name}.day").write_bytes(bytes(b for record in records for b in record))
