# Three runs of each number of rows: the least of each time, and the memory of the whole process.
import os
import subprocess
import sys

NAMES = ("make", "write", "lay", "load", "script")
print(f"{'rows':>9} {'body':>11} " + " ".join(f"{name:>9}" for name in NAMES) + f" {'load/script':>12} {'MB':>6}")
for rows in (10_000, 100_000, 1_000_000):
    runs = []
    for _ in range(3):
        child = subprocess.Popen([sys.argv[1], str(rows)], stdout=subprocess.PIPE)
        words = [int(word) for word in child.stdout.read().split()]
        _, status, used = os.wait4(child.pid, 0)
        assert status == 0 and words[0] == rows
        runs.append(words[1:] + [used.ru_maxrss // 1024])
    body, *times, memory = (min(column) for column in zip(*runs))
    cells = " ".join(f"{time / 1000:>9.1f}" for time in times)
    print(f"{rows:>9} {body:>11} {cells} {times[3] / times[4]:>12.2f} {memory:>6}")
