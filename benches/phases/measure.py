# Runs the program and the plain loops in turns, and prints of each phase the least time of all turns, in
# microseconds. These are of the plain loop in one thread, and of the phase by 1, 2 and 4 workers.
# Arguments: both programs, and how many turns there are if not 3.
import os
import subprocess
import sys

ROUNDS = 5
PHASES = ["numbering", "marking", "deciding", "installing"]
BATCHES = [(1_000, 1_000), (1_000, 10_000), (1_000_000, 1_000), (1_000_000, 10_000)]
WORKERS = [1, 2, 4]

program, plain = (os.path.abspath(name) for name in sys.argv[1:3])
turns = int(sys.argv[3]) if len(sys.argv) > 3 else 3


def run(command, keys, requests, workers):
    words = map(str, [command, keys, requests, workers, ROUNDS])
    ran = subprocess.run(list(words), stdout=subprocess.PIPE, check=True, text=True)
    return {name: int(value) for name, value in map(str.split, ran.stdout.splitlines())}


print(f"{'keys':>9} {'requests':>8} {'':>10} {'plain':>9}" + "".join(f"{f'{w} workers':>11}" for w in WORKERS) + "  plain/1   1/4")
for keys, requests in BATCHES:
    ways = {"plain": (plain, 1)} | {w: (program, w) for w in WORKERS}
    least = {}
    for _ in range(turns):
        for way, (command, workers) in ways.items():
            for name, value in run(command, keys, requests, workers).items():
                least[way, name] = min(least.get((way, name), value), value)
    assert len({least[way, "waiting"] for way in ways}) == 1, "all decide alike"
    for phase in PHASES:
        times = [least[way, phase] / 1e3 for way in ways]
        row = f"{keys:>9,} {requests:>8,} {phase:>10} {times[0]:>9,.0f}" + "".join(f"{t:>11,.0f}" for t in times[1:])
        print(row + f" {times[0] / times[1]:>8.2f} {times[1] / times[-1]:>5.2f}", flush=True)
