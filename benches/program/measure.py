#!/usr/bin/env python3
# What the built program takes by the clock. Printed are finished requests a second of `bench` and `mix`, by 1, 2 and
# 4 workers, and the time of a script of 200,000 requests through `once`. Arguments: the program, and how
# many turns there are if not 3. Of each run the least time counts.
import os
import subprocess
import sys
import time

program = os.path.abspath(sys.argv[1])
turns = int(sys.argv[2]) if len(sys.argv) > 2 else 3

YCSB = "bench --keys 100000 --size 1000 --reads 80"
MIX = "mix --customers 3000 --items 100000 --size 50"
TPCC = "bench --kind tpcc --warehouses 4 --customers 3000 --items 100000 --size 50 --fallback 0"
WORKERS = (1, 2, 4)


# What a run prints, and how long it takes.
def timed(words, given=b""):
    start = time.perf_counter()
    ran = subprocess.run([program, *words.split()], input=given, stdout=subprocess.PIPE, check=True)
    return ran.stdout, time.perf_counter() - start


def finished(summary):
    counts = dict(line.split() for line in summary.decode().splitlines() if line.split()[0] in ("ok", "back", "trap"))
    return sum(map(int, counts.values()))


# A run of a few batches and one of many differ by batches alone: loading the rows, and the audit, are in both.
def rate(words, few, many):
    short = min((timed(f"{words} --batches {few}") for _ in range(turns)), key=lambda run: run[1])
    long = min((timed(f"{words} --batches {many}") for _ in range(turns)), key=lambda run: run[1])
    return (finished(long[0]) - finished(short[0])) / (long[1] - short[1])


print(f"{'':>6}" + "".join(f"{f'{w} workers':>12}" for w in WORKERS))
for title, words, few, many in (("ycsb", YCSB, 1, 101), ("tpcc", TPCC, 1, 801), ("mix", MIX, 1, 101)):
    rates = [rate(f"{words} --workers {w}", few, many) for w in WORKERS]
    print(f"{title:>6}" + "".join(f"{r:>12,.0f}" for r in rates), flush=True)

script, made = timed("gen --keys 100000 --batches 200 --size 1000 --reads 80")
_, ran = timed("once", script)
print(f"gen of 200,000 requests {made:.1f} s, {len(script) / 1e6:.0f} MB; once {ran:.1f} s")
