# Runs batches of two sizes on one to eight nodes, in turns, and prints of a request in a batch how many messages it causes, how long all
# nodes take for it by one processor, and how many bytes are kept of it: the least of the turns.
import os
import subprocess
import sys

NODES = [1, 2, 4, 8]
# How many requests a batch has, and how many batches are measured.
SIZES = [(50, 40), (1_000, 4)]

program, turns = os.path.realpath(sys.argv[1]), int(sys.argv[2])


def ran(nodes, size, batches):
    """Nanoseconds, messages, how many times a request was in a batch, and the most memory in KB."""
    child = subprocess.Popen([program, str(nodes), str(size), str(batches)], stdout=subprocess.PIPE)
    words = child.stdout.read().split()
    _, status, usage = os.wait4(child.pid, 0)
    if status != 0:
        sys.exit(f"measure: {nodes} nodes, {size} requests: status {status}")
    return [int(word) for word in words] + [usage.ru_maxrss]


print(f"{'batch':>6} {'nodes':>6} {'messages':>9} {'microseconds':>13} {'bytes':>7}")
for size, batches in SIZES:
    for nodes in NODES:
        without = min(ran(nodes, size, 0)[3] for _ in range(turns))
        found = [ran(nodes, size, batches) for _ in range(turns)]
        took, sent, runs, held = (min(column) for column in zip(*found))
        kept = (held - without) * 1024
        print(f"{size:>6} {nodes:>6} {sent / runs:>9.1f} {took / runs / 1000:>13.1f} {kept / runs:>7.0f}", flush=True)
