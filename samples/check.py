#!/usr/bin/env python3
"""Compares the references' output for every NAME.day here and in the folders with NAME.expected."""

import sys
from pathlib import Path

import listing_reference
import reference
import textform

HERE = Path(__file__).parent


def plan_lines(data):
    return "\n".join(reference.lines(data)) + "\n"


def listing_lines(data):
    text, stop = listing_reference.list_day(data)
    return text.decode("ascii") + (stop.line() if stop else "")


def is_listing(file):
    """The day and the files of listing/ go with listings, the others with plans."""
    return file == HERE / "day.day" or file.parent == HERE / "listing"


if __name__ == "__main__":
    wrong = 0
    # the files of text/ go with texts: .ci/text holds them
    files = sorted(file for file in HERE.glob("**/*.day") if HERE / "text" not in file.parents)
    for file in files:
        got = (listing_lines if is_listing(file) else plan_lines)(file.read_bytes())
        if got != file.with_suffix(".expected").read_text(encoding="ascii"):
            wrong += 1
            print(f"{file.relative_to(HERE)}: not as expected; the reference says:\n{got}", end="")
    if textform.pack((HERE / "day.txt").read_bytes()) != (HERE / "day.day").read_bytes():
        wrong += 1
        print("day.day: not what day.txt says")
    print(f"{len(files) + 1 - wrong} agree, {wrong} do not")
    sys.exit(1 if wrong else 0)
