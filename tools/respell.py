#!/usr/bin/env python3
"""Brings the repository's own definitions and lemmas to snake case: run once, at the top, after the kit's port.py.

usage: python3 tools/respell.py [--list]

A name turns where a file of specs/ or of proofs/ itself (no folder of a function) declares it and it begins with a small letter: capitals
become _ and a small letter, dashes become _. A lemma that would get its definition's name ends in _lem. Functions, fields, exported
names and text keep theirs; a name that a file imports from elsewhere keeps its spelling there. --list prints the names and writes nothing.
"""
import glob
import re
import sys

WORD = re.compile(r"[A-Za-z_][\w'\-]*")
DECLARES = re.compile(r"^\s*(?:(?:abbrev|pub|opaque|unfoldable|pattern|private)\s+)*([a-z][\w'\-]*)\s*(?:\{[^}]*\}\s*)?:(?!=)")
# names that would fall together with another of the repository in the same file
OTHERS = {
    "oneByOne": "stepped_one_by_one",
    "with-all": "with_all_lem",
    "withAll": "sums_with_all",
    "turnedBy": "turned_with",
    "lastDigits": "trailing_digits",
    "firstPiece": "first_piece_of",
    "goesOn": "has_to_go_on",
    "turn-of": "turn_of_lem",
    "cell-of": "cell_of_lem",
    "type-of": "type_of_lem",
    "field-of": "field_of_lem",
    "read-on": "read_on_lem",
}

# lemmas of a file that have the name that a definition gets: they end in _lem first
FIRST = {
    "crates/laps/proofs/Laps.antt": {"lines_left": "lines_left_lem"},
    "crates/snapshot/proofs/Demand3.antt": {"is_open": "is_open_lem"},
    "crates/unbounded/proofs/Procedures.antt": {"turn_by": "turn_by_lem"},
}


def snake(name):
    return re.sub(r"(?<=[a-z0-9'])([A-Z])", lambda m: "_" + m.group(1).lower(), name).replace("-", "_")


def lemma_files():
    return sorted(glob.glob("crates/*/specs/**/*.antt", recursive=True) + glob.glob("crates/*/proofs/*.antt"))


def all_files():
    return sorted(glob.glob("crates/*/specs/**/*.antt", recursive=True) + glob.glob("crates/*/proofs/**/*.antt", recursive=True))


def declared():
    names = set()
    for path in lemma_files():
        for line in open(path, encoding="utf-8"):
            m = DECLARES.match(line)
            if m and re.search(r"[A-Z-]", m.group(1)):
                names.add(m.group(1))
    return names


def table():
    names = declared()
    turned = {}
    for n in sorted(names, key=lambda n: ("-" in n, n)):
        new = OTHERS.get(n, snake(n))
        if new in turned.values():
            new += "_lem"
        turned[n] = new
    return turned


def plain(word, turned):
    return turned.get(word, word) if "-" not in word else word


def code_line(line, one, turned):
    m = re.search(r"(?:^|(?<=\s))--(?=\s|$)", line)
    at = m.start() if m else len(line)
    return WORD.sub(one, line[:at]) + WORD.sub(lambda m: plain(m.group(0), turned), line[at:])


def crates():
    return {line.split(":")[0].split()[0] for line in open("crates.txt") if line.strip() and not line.startswith("#")}


def imported(text, own):
    """The names that a file imports from elsewhere than this repository, and those that it imports from it."""
    foreign, home = set(), set()
    for m in re.finditer(r"^\s*use ([^\s{]+?)\.?\{(.*?)\}", text, re.M | re.S):
        parts = m.group(1).split(".")
        to = home if parts[0] == "Rattle" and len(parts) > 1 and parts[1] in own else foreign
        to.update(w for item in m.group(2).split(",") for w in item.split()[:1])
    return foreign, home


def respell(text, turned, keep, only=None):
    def one(m):
        w = m.group(0)
        if w in keep or w not in turned:
            return w
        if only is not None and w not in only:
            return w
        return turned[w]

    # in a comment a word with a dash may be English
    return "\n".join(code_line(line, one, turned) for line in text.split("\n"))


def main(argv):
    turned = table()
    if "--list" in argv:
        for a, b in sorted(turned.items()):
            print(a, b)
        return
    own = crates()
    for path in all_files():
        was = text = open(path, encoding="utf-8").read()
        text = WORD.sub(lambda m: FIRST.get(path, {}).get(m.group(0), m.group(0)), text)
        foreign, home = imported(text, own)
        if "/proofs/" in path and path.split("/proofs/")[1].count("/"):
            # a function's proof: what it imports of the repository, and what a dot leads to in a definition's record
            new = respell(text, turned, foreign, only=home)
        else:
            new = respell(text, turned, foreign)
        if new != was:
            open(path, "w", encoding="utf-8").write(new)
    for path in sorted(glob.glob("crates/*/src/**/*.rt", recursive=True)):
        text = open(path, encoding="utf-8").read()
        new = WORD.sub(lambda m: plain(m.group(0), turned), text)
        if new != text:
            open(path, "w", encoding="utf-8").write(new)


if __name__ == "__main__":
    main(sys.argv[1:])
