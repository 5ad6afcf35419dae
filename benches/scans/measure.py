# Runs a program that measures works that scan, in turns, and prints what one work costs, and what the index takes a row: the median of the
# turns, and instructions where there is valgrind.
import os
import re
import shutil
import statistics
import subprocess
import sys

ROWS = [1_000, 10_000, 100_000, 1_000_000]
WORKERS = [1, 2, 4]
WORKS = 1_000
BATCHES = 50

program, turns = os.path.realpath(sys.argv[1]), int(sys.argv[2])


def ran(rows, batches, workers, plain):
    """Nanoseconds of the first batch, of the others and of the plain map's works, and the most memory in KB."""
    command = [program, str(rows), str(batches), str(workers), str(plain)]
    child = subprocess.Popen(command, stdout=subprocess.PIPE)
    words = child.stdout.read().split()
    _, status, usage = os.wait4(child.pid, 0)
    if status != 0:
        sys.exit(f"measure: {command} ended with {status}")
    return [int(word) for word in words] + [usage.ru_maxrss]


def collected(rows, batches):
    command = ["valgrind", "--tool=callgrind", "--callgrind-out-file=/dev/null", program, str(rows), str(batches), "1", "0"]
    told = subprocess.run(command, stderr=subprocess.PIPE, stdout=subprocess.PIPE, check=True).stderr
    return int(re.search(rb"Collected : (\d+)", told)[1])


print(f"{'rows':>9} {'workers':>7} {'us a work':>9} {'plain':>7} {'ratio':>6}")
for rows in ROWS:
    for workers in WORKERS:
        found = [ran(rows, BATCHES, workers, 1) for _ in range(turns)]
        mine = statistics.median(one[1] for one in found) / (BATCHES * WORKS) / 1000
        plain = statistics.median(one[2] for one in found) / (BATCHES * WORKS) / 1000
        print(f"{rows:>9} {workers:>7} {mine:>9.2f} {plain:>7.2f} {mine / plain:>6.1f}", flush=True)

# Memory is told beside what a batch takes on the fewest rows.
print(f"\n{'rows':>9} {'index: ns a row':>15} {'bytes a row':>11}")
least = 0
for rows in ROWS:
    without = min(ran(rows, 0, 1, 0)[3] for _ in range(turns))
    found = [ran(rows, 1, 1, 0) for _ in range(turns)]
    spent = statistics.median(one[0] - one[1] for one in found)
    held = min(one[3] for one in found) - without
    least = least or held
    print(f"{rows:>9} {spent / rows:>15.0f} {(held - least) * 1024 / rows:>11.0f}", flush=True)

if shutil.which("valgrind"):
    print(f"\n{'rows':>9} {'instructions a work':>19}")
    for rows in ROWS[:3]:
        print(f"{rows:>9} {(collected(rows, 3) - collected(rows, 1)) / (2 * WORKS):>19.0f}", flush=True)
