#!/usr/bin/env python3
"""Lists the crates that a line of crates.txt has and the crate's text does not name: unnamed_crates.py [--cut].

The gate sums up the text of each crate and of all below it, once for each way that leads to a crate, and twice for each
library that it builds. So a name that a line need not have costs all crates above it. With --cut such names are taken out.
The status is 1 where there are any, and they are left.
"""

import pathlib
import re
import sys

TOP = pathlib.Path(__file__).resolve().parent.parent
WORDS = re.compile(r"[A-Za-z_][A-Za-z_0-9]*")


def named_by(crate):
    """The words of the sources, definitions and proofs of a crate."""
    files = (file for part in ("src", "specs", "proofs") for file in (TOP / "crates" / crate / part).rglob("*"))
    texts = (file.read_text() for file in files if file.suffix in (".rt", ".antt"))
    return {word for text in texts for word in WORDS.findall(text)}


def main():
    file = TOP / "crates.txt"
    lines = [line.partition(":") for line in file.read_text().splitlines()]
    ours = {head.split()[0] for head, colon, _ in lines if colon and not head.startswith("#")}
    kept, unnamed = [], 0
    for head, colon, rest in lines:
        uses = rest.split()
        if colon and not head.startswith("#"):
            named = named_by(head.split()[0])
            without = [name for name in uses if name in ours and name not in named]
            uses = [name for name in uses if name not in without]
            unnamed += len(without)
            for name in without:
                print(f"{head.split()[0]} names no {name}")
        kept.append(" ".join([head + colon, *uses]))
    if "--cut" in sys.argv[1:]:
        file.write_text("".join(line + "\n" for line in kept))
    elif unnamed:
        sys.exit(1)


main()
