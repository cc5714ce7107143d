#!/usr/bin/env python3
"""Respells this repository's own words in crates/: camel case becomes snake case in definitions, lemmas and clauses.

usage: tools/respell.py      at the top of the repository, once, after port.py

A word of a type or a module begins with a capital and stays. What stands after a digit, as in 0x0A, is no word.
"""

import glob
import re

WORD = re.compile(r"(?<![\w'◌])[a-z][\w']*(?:-[\w']+)*")
CAMEL = re.compile(r"(?<=[a-z0-9])[A-Z]")
# Names that would fall together with another once that one is respelled.
APART = {
    "step_by": "step_by_lem",
    "written_in": "written_in_lem",
    "same_bytes": "same_bytes_lem",
    "read_told": "read_told_lem",
    "by_value": "by_value_lem",
    "tooLong": "too_long_text",
}


def snake(word):
    """The word in snake case, part by part; a part that begins with a capital names a type and stays."""
    if word in APART:
        return APART[word]
    parts = word.split("-")
    return "-".join(p if p[:1].isupper() else CAMEL.sub(lambda m: "_" + m.group().lower(), p) for p in parts)


def main():
    for pattern in ("crates/*/specs/**/*.antt", "crates/*/proofs/**/*.antt", "crates/*/src/*.rt"):
        for path in sorted(glob.glob(pattern, recursive=True)):
            with open(path, encoding="utf-8") as f:
                old = f.read()
            new = WORD.sub(lambda m: snake(m.group()), old)
            if new != old:
                with open(path, "w", encoding="utf-8") as f:
                    f.write(new)


if __name__ == "__main__":
    main()
