# Runs the program of benches/batches by one worker, by four, and by four on threads that last, in turns, and prints a table
# of milliseconds: the turn that took the least. Arguments: the program, the library of lasting threads, how many turns.
import os
import subprocess
import sys

program, library, turns = sys.argv[1], os.path.abspath(sys.argv[2]), int(sys.argv[3])
WAYS = {"1 worker": (1, {}), "4 workers": (4, {}), "4 that last": (4, {"LD_PRELOAD": library})}
BATCHES = {50: 600, 1_000: 40, 10_000: 5}


# How long the batches took, in milliseconds.
def run(keys, reads, requests, workers, words):
    command = [program, *map(str, (0, keys, reads, 0, requests, BATCHES[requests], workers, 0, 0))]
    ran = subprocess.run(command, input=b"\n\n", capture_output=True, check=True, env=os.environ | words)
    told = dict(line.split() for line in ran.stdout.decode().splitlines() if " " in line)
    return int(told["whole"]) / 1e6


print(f"{'ycsb':<24}{'requests':>10}", *(f"{way:>12}" for way in WAYS), f"{'4 / 1':>8}", f"{'last / 1':>10}")
for keys in (100_000, 1_000_000):
    for reads in (80, 50):
        for requests in BATCHES:
            least = {way: float("inf") for way in WAYS}
            for _ in range(turns):
                for way, (workers, words) in WAYS.items():
                    least[way] = min(least[way], run(keys, reads, requests, workers, words))
            one, four, last = least.values()
            print(f"{keys:>10,} rows, {reads}%".ljust(24) + f"{requests:>10,}", *(f"{time:>12.0f}" for time in least.values()),
                  f"{one / four:>8.2f}", f"{one / last:>10.2f}", flush=True)
