#!/usr/bin/env python3
"""Runs a controller on damaged day files and with short output lists, and compares with the reference's listings.

    damaged.py CONTROLLER        the last line is 'N passed, M failed'
"""

import subprocess
import sys
from pathlib import Path

SAMPLES = Path(__file__).parent.parent / "samples"
sys.path.insert(0, str(SAMPLES))
import listing_reference  # noqa: E402


def damaged():
    """Day files, each with what it is."""
    example = (SAMPLES / "listing/example.day").read_bytes()
    day = (SAMPLES / "day.day").read_bytes()
    for at in range(len(example)):
        yield f"the first {at} bytes of the example", example[:at]
        yield f"the example without byte {at}", example[:at] + example[at + 1 :]
        for byte in (0, 1, 2, 3, 4, 5, 6, 7, 8, 64, 255):
            yield f"the example with byte {at} {byte}", example[:at] + bytes([byte]) + example[at + 1 :]
    for at in range(0, len(day), 13):
        yield f"the first {at} bytes of the day", day[:at]
        yield f"the day without byte {at}", day[:at] + day[at + 1 :]


def cases():
    """Day files with the room of the output list, None where it is enough."""
    for what, file in damaged():
        yield what, file, None
    for name, step in (("listing/example", 1), ("day", 29)):
        file = (SAMPLES / f"{name}.day").read_bytes()
        length = (SAMPLES / f"{name}.expected").stat().st_size
        for room in sorted({*range(0, length, step), length - 1, length, length + 1}):
            yield f"{name} with room {room}", file, room


def main(controller):
    passed = failed = 0
    for what, file, room in cases():
        text, stop = listing_reference.list_day(file, room)
        stop_line, parts = b"", (0, 0, 0, 0)
        if stop is not None:
            stop_line, parts = stop.line().encode("ascii"), (stop.refusal, stop.offset, stop.inner, stop.position)
        told = "length {} refusal {} offset {} inner {} position {}\n".format(len(text), *parts)
        words = [controller, "-t"] + ([] if room is None else ["-r", str(room)])
        got = subprocess.run(words, input=file, capture_output=True, check=False)
        if (got.returncode, got.stdout, got.stderr) == (0, text + stop_line, told.encode("ascii")):
            passed += 1
        else:
            failed += 1
            print(f"differs: {what}: {file.hex()}")
    print(f"{passed} passed, {failed} failed")
    return 0 if failed == 0 else 1


if __name__ == "__main__":
    sys.exit(main(sys.argv[1]))
