#!/usr/bin/env python3
"""Holds what the bench program's listers make of pseudo-random day files to the reference in Python.

    bench/compare.py WHO [COUNT [SEED]]        WHO: plain, skipping or library; build with bench/run first

Prints how many agree and what the files came to; exits non-zero where one does not agree.
"""

import collections
import subprocess
import sys
from pathlib import Path

HERE = Path(__file__).parent
sys.path.insert(0, str(HERE.parent / "samples"))
import listing_reference  # noqa: E402

NUMBERS = 9


def frames(stream):
    """File, room and answer, as `bench answers` writes them."""
    while head := stream.read(8 * NUMBERS):
        numbers = [int.from_bytes(head[8 * i : 8 * i + 8], "little") for i in range(NUMBERS)]
        file_length, room, length, refusal, offset, inner, position, untouched, stop_length = numbers
        file = stream.read(file_length)
        listing = stream.read(min(length, room))
        stop_line = stream.read(stop_length)
        yield file, room, (length, listing, refusal, offset, inner, position, stop_line, untouched)


def expected(file, room):
    text, stop = listing_reference.list_day(file, room)
    if stop is None:
        return len(text), text, 0, 0, 0, 0, b"", 1
    return len(text), text, stop.refusal, stop.offset, stop.inner, stop.position, stop.line().encode("ascii"), 1


def main():
    who = sys.argv[1]
    count, seed = (sys.argv[2:] + ["2000", "1"][len(sys.argv) - 2 :])[:2]
    command = [HERE.parent / "target/bench/release/bench", "answers", who, count, seed]
    seen = collections.Counter()
    agree = 0
    with subprocess.Popen(command, stdout=subprocess.PIPE) as program:
        for number, (file, room, got) in enumerate(frames(program.stdout)):
            want = expected(file, room)
            if got == want:
                agree += 1
            else:
                print(f"file {number}, room {room}, {file.hex()}:\n  {who}: {got}\n  reference: {want}")
            seen["whole" if got[2] == 0 else f"STOP {got[2]}" + (f" {got[4]}" if got[2] == 35 else "")] += 1
            for line in got[1].splitlines():
                word, *numbers = line.split()
                seen[(word + b" " + numbers[0] if word == b"NO" else word).decode()] += 1
    print(f"{who} and reference: agree on {agree} of {count} pseudo-random files")
    print(", ".join(f"{what}: {seen[what]}" for what in sorted(seen)))
    return 0 if agree == int(count) and program.returncode == 0 else 1


if __name__ == "__main__":
    sys.exit(main())
