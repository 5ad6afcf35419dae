#!/usr/bin/env python3
"""Measures what the pictures show, by the program: measure.py PROGRAM waits|sizes > FILE.dat.

waits: how many lines a request said that it waits, by `bench` with each rule and with a late run, over the share of
accesses that go to the hot keys. These counts are the same on every machine and in every build.
sizes: what a request takes of one processor, over the number of rows, in microseconds; loading is taken off, and of
three turns the least counts. It wants a machine that nothing else uses.
"""

import os
import resource
import subprocess
import sys

HOT = range(0, 81, 10)
WAYS = {"plain": "--rule plain", "reorder": "--rule reorder", "late": "--rule reorder --fallback 0"}
LOAD = "--keys 10000 --batches 10 --size 100 --drain"
ROWS = (100, 1_000, 10_000, 100_000, 1_000_000)
TURNS = 3
# New requests a batch, and how many batches the longer of two runs has.
SIZES = {50: 1_000, 1_000: 201}


def run(program, words):
    """The summary of a run, and the processor time that it took."""
    before = resource.getrusage(resource.RUSAGE_CHILDREN)
    ran = subprocess.run([program, "bench", *words.split()], stdin=subprocess.DEVNULL, stdout=subprocess.PIPE, check=True)
    after = resource.getrusage(resource.RUSAGE_CHILDREN)
    summary = dict(line.split() for line in ran.stdout.decode().splitlines()[1:])
    return {name: int(value) for name, value in summary.items()}, sum(after[:2]) - sum(before[:2])


def waits(program):
    print(f"# waits a request: bench {LOAD} --reads R --updates 100-R --hot H")
    print("# hot", *(f"{way}_{reads}" for reads in (50, 80) for way in WAYS))
    for hot in HOT:
        cells = []
        for reads in (50, 80):
            for way in WAYS.values():
                summary, _ = run(program, f"{LOAD} --reads {reads} --updates {100 - reads} --hot {hot} {way}")
                assert summary["left"] == 0
                cells.append(f"{summary['waits'] / summary['requests']:.3f}")
        print(hot, *cells, flush=True)


def sizes(program):
    print("# microseconds of one processor a request: bench --reads 80 --updates 20 --fallback 0 --keys ROWS --size SIZE")
    print("# rows", *(f"size_{size}" for size in SIZES))
    for rows in ROWS:
        cells = []
        for size, batches in SIZES.items():
            words = f"--reads 80 --updates 20 --fallback 0 --keys {rows} --size {size} --batches"
            short, long = (min(run(program, f"{words} {number}")[1] for _ in range(TURNS)) for number in (1, batches))
            cells.append(f"{(long - short) / (batches - 1) / size * 1e6:.1f}")
        print(rows, *cells, flush=True)


if __name__ == "__main__":
    {"waits": waits, "sizes": sizes}[sys.argv[2]](os.path.abspath(sys.argv[1]))
