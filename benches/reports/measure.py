# Three runs of each number of keys: the least of each time, in milliseconds. A batch has 1,000 requests of ten accesses.
import subprocess
import sys

print(f"{'requests':>9} {'keys':>9} {'lines':>9} {'once':>9} {'check':>9}")
for keys in (10_000, 1_000_000):
    runs = []
    for _ in range(3):
        words = [sys.argv[1], "100", "1000", str(keys)]
        runs.append([int(word) for word in subprocess.run(words, stdout=subprocess.PIPE, check=True).stdout.split()])
    lines, *times = (min(column) for column in zip(*runs))
    cells = " ".join(f"{time / 1000:>9.1f}" for time in times)
    print(f"{100_000:>9} {keys:>9} {lines:>9} {cells}")
