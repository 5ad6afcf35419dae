# Three runs of each size: the least of each time, and the memory of the whole process.
import os
import subprocess
import sys

print("warehouses customers   items      rows  load ms  audit ms     MB")
for size in ((1, 30, 100), (1, 3000, 100_000), (4, 3000, 100_000)):
    runs = []
    for _ in range(3):
        child = subprocess.Popen([sys.argv[1], *map(str, size)], stdout=subprocess.PIPE)
        words = [int(word) for word in child.stdout.read().split()]
        _, status, used = os.wait4(child.pid, 0)
        assert status == 0
        runs.append(words + [used.ru_maxrss // 1024])
    rows, load, audit, memory = (min(column) for column in zip(*runs))
    print(f"{size[0]:>10} {size[1]:>9} {size[2]:>7} {rows:>9} {load / 1000:>8.0f} {audit / 1000:>9.0f} {memory:>6}")
