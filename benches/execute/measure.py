# Runs each program of a folder in turns, and prints what one request costs: requests a second, the
# median of the turns, and instructions where there is valgrind.
import os
import re
import shutil
import statistics
import subprocess
import sys

KINDS = ["ycsb", "neworder"]
TURNS = 5
REQUESTS = 10_000
ROUNDS = 5
COUNTED = 1_000


def rate(program, kind):
    ran = subprocess.run([program, kind, str(REQUESTS), str(ROUNDS)], stdout=subprocess.PIPE, check=True)
    spent, done = map(int, ran.stdout.split())
    assert done == REQUESTS * ROUNDS, "each request is done"
    return done / (spent / 1e9)


def collected(program, kind, rounds):
    command = ["valgrind", "--tool=callgrind", "--callgrind-out-file=/dev/null"]
    ran = subprocess.run(command + [program, kind, str(COUNTED), str(rounds)], stderr=subprocess.PIPE, stdout=subprocess.PIPE, check=True)
    return int(re.search(rb"Collected : (\d+)", ran.stderr)[1])


# What is loaded costs the same however often the requests are run, so that the difference is theirs.
def instructions(program, kind):
    return (collected(program, kind, 3) - collected(program, kind, 1)) / (2 * COUNTED)


folder = sys.argv[1]
programs = [name for name in ("before", "after") if os.path.isfile(os.path.join(folder, name))]
rates = {(name, kind): [] for name in programs for kind in range(len(KINDS))}
for _ in range(TURNS):
    for kind in range(len(KINDS)):
        for name in programs:
            rates[name, kind].append(rate(os.path.join(folder, name), str(kind)))

print(f"{'':>9} {'':>7} requests/s instructions")
for kind, title in enumerate(KINDS):
    rows = []
    for name in programs:
        count = instructions(os.path.join(folder, name), str(kind)) if shutil.which("valgrind") else float("nan")
        rows.append((statistics.median(rates[name, kind]), count))
        print(f"{title:>9} {name if len(programs) > 1 else '':>7} {rows[-1][0]:>10,.0f} {rows[-1][1]:>12,.0f}")
    if len(rows) == 2:
        print(f"{title:>9} {'ratio':>7} {rows[1][0] / rows[0][0]:>10.2f} {rows[1][1] / rows[0][1]:>12.2f}")
