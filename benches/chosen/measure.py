# Prints what chosen keys cost beside others: the least time of three turns, and instructions where there is valgrind.
# The argument is the program.
import re
import shutil
import subprocess
import sys

# What is measured, and the functions of the program that are counted.
THINGS = {
    "rows": ["timed_puts", "timed_gets"],
    "numbers": ["timed_numbers"],
    "waves by keys": ["timed_waves"],
    "waves by numbers": ["timed_numbered"],
}
# The largest groups of one hash that the tables still keep.
GROUPS = {"rows": 8, "numbers": 16, "waves by keys": 16, "waves by numbers": 16}
TURNS = 3


def took(*words):
    ran = [subprocess.run([sys.argv[1], *map(str, words)], stdout=subprocess.PIPE, check=True) for _ in range(TURNS)]
    return min(int(one.stdout.split()[1]) for one in ran)


def collected(place, *words):
    counted = [f"--toggle-collect=*{name}*" for name in [*THINGS.values()][place]]
    tool = ["valgrind", "--tool=callgrind", "--callgrind-out-file=/dev/null", *counted]
    ran = subprocess.run([*tool, sys.argv[1], *map(str, (place, *words))], stdout=subprocess.PIPE, stderr=subprocess.PIPE, check=True)
    return int(re.search(rb"Collected : (\d+)", ran.stderr)[1])


def row(*cells):
    print(" ".join(f"{cell:>{18 if place == 0 else 12}}" for place, cell in enumerate(cells)), flush=True)


row("of one hash", "keys", "ns others", "groups", "all", "groups", "all", "instr others", "groups", "all", "groups", "all")
for place, thing in enumerate(THINGS):
    for count in (1_000, 10_000, 100_000):
        ways = (1, GROUPS[thing], count)
        cells = []
        for measure in (took, collected) if shutil.which("valgrind") else (took,):
            others, *chosen = [measure(place, way, count) / count for way in ways]
            cells += [f"{others:,.0f}", *(f"{it:,.0f}" for it in chosen), *(f"{it / others:.2f}" for it in chosen)]
        row(thing, f"{count:,}", *cells)
