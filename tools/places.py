#!/usr/bin/env python3
"""Counts, in src/ of every crate, the places of the older forms that docs/DESIGN-PASS.md speaks of.

Use: tools/places.py [FOLDER] [--list]     FOLDER is the top of a checkout, here by default
It reads text and decides nothing: what it finds is looked at by a person. `--list` prints each place."""
import glob
import os
import re
import sys

NONE_OR_REFUSED = {"Full", "Nothing", "Never", "Refused", "Denied", "Faulty"}
SENTINEL = r"0 where there is none|else its number and 1|, or 0\.|; or 0\.|; 0 without one|length where none does|0 for none"


def sources(top):
    for path in sorted(glob.glob(os.path.join(top, "crates/*/src/*.rt"))):
        with open(path, encoding="utf-8") as f:
            yield os.path.relpath(path, top), f.read()


def places(text, pattern, flags=re.M | re.S):
    return [(text[: m.start()].count("\n") + 1, m) for m in re.finditer(pattern, text, flags)]


def enums(text):
    """An enum with a variant that says none or refused, or with one variant that holds nothing beside one that holds something."""
    for line, m in places(text, r"^(?:pub )?enum (\w+) \{\n(.*?)\n\}"):
        variants = re.findall(r"^    (\w+)(\()?", m.group(2), re.M)
        names = {v for v, _ in variants}
        holding = [bool(p) for _, p in variants]
        if names & NONE_OR_REFUSED or (len(variants) == 2 and sorted(holding) == [False, True]):
            yield line, m.group(1)


def signatures(text):
    for line, m in places(text, r"^ *(?:pub )?(?:extern \"C\" )?fn (\w+)[^{]*?\((.*?)\)(?: ->|\n)"):
        yield line, m.group(1), re.findall(r"(\w+):", m.group(2))


def together(*names):
    def found(text):
        return [(line, f) for line, f, given in signatures(text) if set(names) <= set(given)]
    return found


def lines(pattern):
    def found(text):
        return [(line, m.group(0).strip()) for line, m in places(text, pattern, re.M)]
    return found


COUNTS = [
    ("1a", "own enums of the shape of Option or Result", lambda t: list(enums(t))),
    ("1b", "a flag with a value beside it", lines(r"^    pub (?:typed|counted): bool,")),
    ("1c", "numbers for refusals", lines(r"^pub const [A-Z_]+: u16|\brefusal::[A-Z_]+\b")),
    ("1d", "a number that stands for none", lines(r"^ *// .*(?:" + SENTINEL + r").*$")),
    ("3", "loops other than `for` and `while let`", lines(r"^ *(?:'\w+: )?(?:while (?!let\b)|loop \{).*$")),
    ("4a", "a struct written field by field from another", lines(r"^        (\w+): (\w+)\.\1,$")),
    ("4b", "a cube's number taken apart by hand", lines(r"\(\w+ / 65536\) as u16")),
    ("4c", "equality of slices by hand", lines(r"if a\[i\] != b\[i\]")),
    ("5a", "level, low and high as parameters", together("level", "low", "high")),
    ("5b", "a room with a place in it as parameters", together("room", "at")),
    ("5c", "the halves of a cube as parameters", together("columns", "ones", "zeros")),
    ("5d", "the literals, the weight and the column as parameters", together("chosen", "weight", "k")),
    ("6a", "parts of one buffer told apart by their place", lines(r"past\[(?:512|1024) \+ i\]")),
    ("6b", "two arrays of one thing as parameters", together("last", "prev")),
    ("6c", "an array of records passed by value", lines(r"^.*table: \[Node; 4096\].*$")),
    ("7", "a switch on which step to run", lines(r"^ *match (?:what|operation|rule|op) \{")),
]


def main():
    args = [a for a in sys.argv[1:] if a != "--list"]
    top = args[0] if args else "."
    texts = list(sources(top))
    for point, name, found in COUNTS:
        all_found = [(path, line, what) for path, text in texts for line, what in found(text)]
        print(f"{point:>3}  {len(all_found):>3}  {name}")
        if "--list" in sys.argv:
            for path, line, what in all_found:
                print(f"          {path}:{line}: {what}")


if __name__ == "__main__":
    main()
