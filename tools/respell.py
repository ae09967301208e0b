#!/usr/bin/env python3
"""Turns the repository's own names in antt to today's spelling, after the kit's port.py.

    tools/respell.py [--list]        at the top of the repository; --list: prints old and new name, and changes nothing

A definition, a lemma and a field of a record are in snake case (`wordEdge`, `word-edge`: `word_edge`); a dash stays only
between two names of functions (`total-map`); a fact is in upper camel case (`Round-trip`: `RoundTrip`). What Rattle makes
names of (goals, steps, types and functions of src/) keeps its spelling. The names are those that specs/ and proofs/
declare; each is turned wherever it stands as a whole word: in specs/, proofs/, the clauses of src/, must-fail edits; in README and docs/ those in camel case.
"""

import collections
import re
import sys
from pathlib import Path

DECLARED = re.compile(r"^(?:(?:  )?| *pub )(?:(?:unfoldable|abbrev|pub|record|data) )*([^\s(){}\[\],;.:|=]+)(?: \(.*\)| \{.*\})? :(?:\s|$)")
WORD = re.compile(r"[^\s(){}\[\],;.:|`\"*]+")
# functions whose names may stand on either side of a dash
FUNCTIONS = set(
    "append all any count div drop filter first get getD length map max min mul keep replicate reverse set sum take total "
    "gather load begun claims rounds entries placed ranked apart".split()
)
# where a turned name would fall together with another name of its place
INSTEAD = {"row-at": "row_is_at", "row-of": "row_of_is"}


def snake(word):
    return re.sub(r"(?<=[a-z0-9])([A-Z])", lambda m: "_" + m.group(1).lower(), word)


def new_name(name):
    if name in INSTEAD:
        return INSTEAD[name]
    if name[0].isupper():
        return "".join(p[:1].upper() + p[1:] for p in name.split("-"))
    parts = [snake(p) for p in name.split("-")]
    out = parts[0]
    for before, part in zip(parts, parts[1:]):
        out += ("-" if before in FUNCTIONS and part in FUNCTIONS else "_") + part
    return out


def turns(name):
    return re.fullmatch(r"[A-Za-z][A-Za-z0-9'-]*", name) and ("-" in name or re.search(r"[a-z0-9][A-Z]", name) and name[0].islower())


def declared(root):
    """Names that specs/ and proofs/ declare, with their files; goals of the code are not among them."""
    names = collections.defaultdict(set)
    for path in sorted(root.glob("crates/*/specs/**/*.antt")) + sorted(root.glob("crates/*/proofs/**/*.antt")):
        for line in path.read_text(encoding="utf-8").splitlines():
            m = DECLARED.match(line)
            if m and not re.search(r": goal\.|: given\.", line):
                names[m.group(1)].add(path)
    return names


def main(argv):
    root = Path.cwd()
    names = declared(root)
    table = {n: new_name(n) for n in names if turns(n)}
    table = {old: new for old, new in table.items() if old != new}
    if argv == ["--list"]:
        for old, new in sorted(table.items()):
            print(f"{old} {new}")
        return 0
    together = collections.defaultdict(set)
    for old, new in table.items():
        together[new] |= {old} | ({new} if new in names else set())
    for new, olds in sorted(together.items()):
        if len(olds) > 1:
            print(f"fall together: {' '.join(sorted(olds))} as {new}")
    files = [p for kind in ("specs/**/*.antt", "proofs/**/*.antt", "src/**/*.rt", "must-fail/*.edit") for p in sorted(root.glob(f"crates/*/{kind}"))]
    for path in files:
        text = path.read_text(encoding="utf-8")
        goals = path.name in ("Answers.antt", "Invariants.antt", "Proof.antt")

        def turned(m):
            word = m.group(0)
            before = text[max(0, m.start() - 5) : m.start()]
            if goals and re.search(r"(?:\bc|\bl|\bw|goal|given)\.$", before):
                return word
            return table.get(word, word)

        new = WORD.sub(turned, text)
        if new != text:
            path.write_text(new, encoding="utf-8")
    # prose has words with dashes of its own, so there only names in camel case are turned
    camel = {old: new for old, new in table.items() if "-" not in old}
    for path in [root / "README.md", *sorted(root.glob("docs/**/*.md"))]:
        if path.exists():
            text = path.read_text(encoding="utf-8")
            path.write_text(re.sub(r"[A-Za-z][A-Za-z0-9']*", lambda m: camel.get(m.group(0), m.group(0)), text), encoding="utf-8")
    print(f"{len(table)} names")
    return 0


if __name__ == "__main__":
    sys.exit(main(sys.argv[1:]))
