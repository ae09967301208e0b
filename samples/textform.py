#!/usr/bin/env python3
"""Day files as text, and back, written apart from the program `dayform`: textform.py pack | print.

Standard input is the text or the day file; a refusal goes to standard error, with status 1.
"""

import re
import sys

# word: kind byte, and the bytes of each number
KINDS = {
    "nodes": (1, [1]),
    "edge": (2, [1, 1]),
    "tree": (3, [1, 1, 1]),
    "query": (4, [1, 2, 2]),
    "release": (5, [4]),
    "close": (6, [4]),
    "run": (7, [2]),
}


class Refused(Exception):
    pass


def number(word, size):
    value = 0
    for c in word:
        if c not in "0123456789":
            raise Refused("not a number")
        value = 10 * value + int(c)
        if value >= 256**size:
            raise Refused("number too large")
    return value.to_bytes(size, "little")


def packed_line(line):
    words = re.split("[ \t\r]+", line.split("#")[0].strip(" \t\r"))
    if words == [""]:
        return b""
    if words[0] not in KINDS:
        raise Refused("unknown word")
    kind, sizes = KINDS[words[0]]
    body = bytes([kind])
    for at, size in enumerate(sizes, 1):
        if at == len(words):
            raise Refused("missing number")
        body += number(words[at], size)
    if len(words) > len(sizes) + 1:
        raise Refused("too much on the line")
    return body


def pack(text):
    file = b""
    for at, line in enumerate(text.decode("latin-1").split("\n"), 1):
        try:
            file += packed_line(line)
        except Refused as reason:
            raise Refused(f"line {at}: {reason}")
    return within_limit(file)


def within_limit(file):
    if len(file) > 16384:
        raise Refused("the day file is longer than 16384 bytes")
    return file


def print_file(file):
    within_limit(file)
    lines = []
    at = 0
    while at < len(file):
        for word, (kind, sizes) in KINDS.items():
            if kind == file[at]:
                break
        else:
            raise Refused(f"byte {at}: no record begins with this byte")
        if at + 1 + sum(sizes) > len(file):
            raise Refused(f"byte {at}: the record is cut short")
        at += 1
        for size in sizes:
            word += f" {int.from_bytes(file[at:at + size], 'little')}"
            at += size
        lines.append(word + "\n")
    return "".join(lines).encode()


if __name__ == "__main__":
    work = {"pack": pack, "print": print_file}[sys.argv[1]]
    try:
        sys.stdout.buffer.write(work(sys.stdin.buffer.read()))
    except Refused as reason:
        sys.exit(str(reason))
