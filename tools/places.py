#!/usr/bin/env python3
"""Counts the places of docs/DESIGN-PASS.md in the code, by point: places.py [--list POINT]. A row is a pattern over the lines of crates/*/src/*.rt."""
import re
import sys
from pathlib import Path

ROWS = [
    ("1a", "a refusal as a number: a field, a parameter", r"\bnumber: u8\b"),
    ("1b", "a function that answers a number of refusal", r"\bfn \w*number\w*\(.*-> u8|^\) -> u8"),
    ("1c", "a flag with a value beside it", r"^\s+(pub(\(crate\))? )?(found|known|somebody|here|sound|good|lost|long|given|refused): (bool|u8),"),
    ("1d", "a number code: a constant for a kind", r"^(pub(\(crate\))? )?const [A-Z_]+: u8 "),
    ("1e", "a code as a parameter or field", r"\b(kind|code|letter|origin|ended|device|decider): u(8|16|size)\b"),
    ("1f", "a test of a number against 0", r"\b(number|early|named)\b (==|!=) 0\b"),
    ("3a", "for over a range", r"^\s*for \w+ in .*\.\."),
    ("3b", "while, loop", r"^\s*(while|loop)\b"),
    ("4a", "a byte picked out of a number by hand", r"(%|/) 256\b|\* (256|65536|4294967296)\b"),
    ("4b", "words written by hand: no Display", r"\b(words|counted|figure|line_at)\(out, "),
    ("4c", "the smaller or larger of two by hand", r"if (\w+) < (\w+) \{ (\1|\2) \} else \{ (\1|\2) \}"),
    ("5a", "clause: the table is not broken", r"requires.*broken(_by)? t(\.\w+)? ≡ false|requires \{ Whole t \}"),
    ("5b", "clause: a block of 512 bytes", r"requires.*length (block|start)\.now ≡ 512"),
    ("5c", "clause: a row of so many letters", r"requires \{ (21|44|36) ≤ length row\.now \}"),
    ("5d", "the lent arrays together", r"names: &(mut )?\[u32; LINES\]"),
    ("5e", "options, up card and number of hands together", r"o: Options, (up|card): u8, many|o: Options, up: u8, late: bool"),
    ("5f", "options, round, up card together", r"in_round: bool, up: u8|^    in_round: bool,"),
    ("5g", "the first cards and whether they were split", r"first: \[u8; 3\], split: bool|^    split: bool,"),
    ("6a", "a length beside an array, in a struct", r"^\s+(pub(\(crate\))? )?(count|many|length|lines|blocks|shown): (u8|usize),"),
    ("6b", "words at fixed distances in one text", r"\b(line_at|place_of|line_start)\("),
    ("7a", "a bool parameter that chooses the step", r"fn .*\b(ends|first|waiting|loaded|last|damaged): bool"),
]


def lines():
    for path in sorted(Path("crates").glob("*/src/**/*.rt")):
        for k, line in enumerate(path.read_text().splitlines(), 1):
            if not line.lstrip().startswith("//") and not line.startswith("ghost use"):
                yield path, k, line


def main():
    only = sys.argv[2] if len(sys.argv) == 3 and sys.argv[1] == "--list" else None
    found = {row[0]: [] for row in ROWS}
    for path, k, line in lines():
        for key, _, pattern in ROWS:
            if re.search(pattern, line):
                found[key].append(f"{path}:{k}: {line.strip()}")
    for key, what, _ in ROWS:
        if only is None:
            print(f"{key:3} {len(found[key]):4}  {what}")
        elif key.startswith(only):
            print("\n".join(found[key]))


main()
