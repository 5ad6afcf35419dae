# Runs a program that measures order entry by kinds of requests, in turns, and prints for each kind what a request takes: the least of the
# turns by 1, 2 and 4 workers, how many requests wait for each one that ends, and instructions where there is valgrind.
import os
import re
import shutil
import subprocess
import sys

KINDS = ["new orders", "payments", "Order-Status", "Delivery", "Stock-Level"]
WORKERS = [1, 2, 4]
SIZE, BATCHES = 10, 21

program, turns = os.path.realpath(sys.argv[1]), int(sys.argv[2])


def ran(kind, batches, workers):
    words = [program, str(kind), str(SIZE), str(batches), str(workers)]
    return [int(word) for word in subprocess.run(words, stdout=subprocess.PIPE, check=True).stdout.split()]


def collected(kind, batches):
    words = [program, str(kind), str(SIZE), str(batches), "1"]
    command = ["valgrind", "--tool=callgrind", "--callgrind-out-file=/dev/null", "--toggle-collect=*run_batch*", *words]
    told = subprocess.run(command, stderr=subprocess.PIPE, stdout=subprocess.PIPE, check=True).stderr
    return int(re.search(rb"Collected : (\d+)", told)[1])


print(f"{'':>14}" + "".join(f"{f'{w} workers':>12}" for w in WORKERS) + f"{'waits':>8}")
for kind, name in enumerate(KINDS):
    rates, waits = [], 0
    for workers in WORKERS:
        runs = [ran(kind, BATCHES, workers) for _ in range(turns)]
        ended, waits, took = min(runs, key=lambda one: one[2])
        rates.append(ended / (took / 1e9))
    print(f"{name:>14}" + "".join(f"{rate:>12,.0f}" for rate in rates) + f"{waits / ended:>8.1f}", flush=True)

if shutil.which("valgrind"):
    print(f"\n{'':>14}{'instructions a request that ends':>34}")
    for kind, name in enumerate(KINDS):
        few, many = ran(kind, 2, 1), ran(kind, 7, 1)
        print(f"{name:>14}{(collected(kind, 7) - collected(kind, 2)) / (many[0] - few[0]):>34,.0f}", flush=True)
