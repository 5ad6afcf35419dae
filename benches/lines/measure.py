# Runs both programs in turns, and prints the least times of the turns: what is done, lines a second, and
# megabytes a second.
import os
import subprocess
import sys

TURNS = 7
PIECES = ["1", "100", "65536"]

program, plain = (os.path.abspath(name) for name in sys.argv[1:3])
kinds = {f"read and fitted, pieces of {piece}": [program, "read", piece] for piece in PIECES}
kinds["replies printed"] = [program, "print"]
if os.path.isfile(plain):
    kinds["plain Rust, split at spaces"] = [plain]

least = {}
for _ in range(TURNS):
    for kind, command in kinds.items():
        words = subprocess.run(command, stdout=subprocess.PIPE, check=True).stdout.split()
        spent, lines, size = map(int, words[:3])
        assert lines == 200_000, "each line is done"
        least[kind] = min(least.get(kind, (spent, size)), (spent, size))

print(f"{'':>32} lines/s    MB/s")
for kind, (spent, size) in least.items():
    print(f"{kind:>32} {200_000 / spent * 1e9:>9,.0f} {size / spent * 1e3:>7.1f}")
