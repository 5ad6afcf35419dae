#!/usr/bin/env python3
"""Writes rates.dat from the table of rates of docs/performance.md: rates.py > rates.dat.

The table is the first one whose header has the cells `plain` and `engine: 1`; the rates of two and of four workers stand
behind the latter. Of a kind of load with several sizes of batches the one of 1,000 requests is taken.
"""

import pathlib

PAGE = pathlib.Path(__file__).resolve().parent.parent / "performance.md"


def cells(line):
    return [cell.strip() for cell in line.strip().strip("|").split("|")]


def main():
    lines = PAGE.read_text(encoding="utf-8").splitlines()
    at = next(at for at, line in enumerate(lines) if line.startswith("|") and "engine: 1" in cells(line) and "plain" in cells(line))
    head = cells(lines[at])
    plain, one = head.index("plain"), head.index("engine: 1")
    print("# finished requests a second, of the table of docs/performance.md\n# load plain one two four")
    for line in lines[at + 2 :]:
        if not line.startswith("|"):
            break
        row = cells(line)
        if row[1] not in ("1,000", "50") or ("ycsb" in row[0] and row[1] == "50"):
            continue
        load = row[0].replace("`", "").replace(",000,000 rows", "M rows").replace(",000 rows", "k rows")
        load = load.replace(", ", "\\n").replace(" full", " warehouse").replace("4 warehouse", "4 warehouses")
        print(f'"{load}"', *(row[place].replace(",", "") for place in (plain, one, one + 1, one + 2)))


if __name__ == "__main__":
    main()
