#!/usr/bin/env bash
# Proves, builds and runs the benchmark of the tables.
set -euo pipefail
here=$(cd "$(dirname "$0")" && pwd)
source "$here/../workspace.sh"
lay_out "$here" none 'tables_bench: anyhow tbl_rows aria_base' aria_base tbl_rows
make_program 1 1 0
python3 - out/tables_bench <<'END'
import os, subprocess, sys

# Three runs of each, in turns; the least times, and the memory of the whole process. Of few rows it says
# nothing, since the process has some megabytes before the first. The last kind has fewer rows.
KINDS = ["tables", "hash map", "ordered map", "one hash"]
print("     rows columns        kind   put ns   get ns  bytes a row")
for rows in (1_000, 100_000, 1_000_000):
    for columns in (1, 10):
        kinds = range(4 if columns == 1 and rows < 1_000_000 else 3)
        runs = {kind: [] for kind in kinds}
        for kind in [*kinds] * 3:
            child = subprocess.Popen([sys.argv[1], str(rows), str(columns), str(kind)], stdout=subprocess.PIPE)
            words = child.stdout.read().split()
            _, status, used = os.wait4(child.pid, 0)
            assert status == 0
            runs[kind].append((int(words[2]), int(words[3]), used.ru_maxrss * 1024))
        for kind in kinds:
            put, get, memory = (min(column) for column in zip(*runs[kind]))
            each = memory // rows if rows >= 100_000 else "-"
            print(f"{rows:>9} {columns:>7} {KINDS[kind]:>11} {put:>8} {get:>8} {each:>12}", flush=True)
END
