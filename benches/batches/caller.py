"""Tells where the caller's time goes within a batch: caller.py PROGRAM ARGUMENT..

PROGRAM is that of src/, built with its symbols (as run.sh builds it), and the arguments are its own. Probes of the kernel
stand at the begin and the end of the functions below, and of all that its first thread passes within `timed_batch` the
mean time is printed, piece after piece, in microseconds. A piece is named by the innermost of these functions that runs,
and by what ends it. A function that calls itself counts as one. A probe costs about a microsecond, so that functions
that are called for each request are none of them.

Wants root and /sys/kernel/tracing (`mount -t tracefs nodev /sys/kernel/tracing`).
"""
import collections
import os
import re
import subprocess
import sys

TRACING = "/sys/kernel/tracing"
WHOLE = "timed_batch"
FUNCTIONS = (
    rf"batches_bench::engines::({WHOLE})\b",
    r"work_crew::(crews::spread)\b",
    r"touch_numbers::numbering::(number_touches)\b",
    r"batch_engine::settlements::(settle)\b",
    r"install_phase::(shares::spread)\b",
    r"batch_engine::lates::(run_late)\b",
    r"batch_engine::answers::(lines_of)\b",
    r"batch_engine::answers::(order_of)\b",
)
EVENT = re.compile(r"\s*\S+-(\d+)\s+\[\d+\]\s+\S+\s+([\d.]+): ([br])(\d+):")


def write(file, text, how=os.O_TRUNC):
    place = os.open(f"{TRACING}/{file}", os.O_WRONLY | how)
    try:
        if text:
            os.write(place, text.encode())
    finally:
        os.close(place)


# The places in the program's file at which these functions begin, with their names without the type arguments.
def places(program):
    loaded = subprocess.run(["readelf", "-lW", program], capture_output=True, text=True, check=True).stdout
    parts = [[int(word, 16) for word in line.split()[1:6]] for line in loaded.splitlines() if line.split()[:1] == ["LOAD"]]
    symbols = subprocess.run(["nm", program], capture_output=True, text=True, check=True).stdout
    for line in symbols.splitlines():
        address, kind, name = (line.split(None, 2) + ["", ""])[:3]
        found = next((found for found in (re.match(one, name) for one in FUNCTIONS) if found), None)
        if kind in "tT" and found:
            at = int(address, 16)
            yield found[1], next(at - begin + offset for offset, begin, _, _, size in parts if begin <= at < begin + size)


# The events of the program's first thread: when, whether the function begins, and its name.
def events(program, arguments):
    names = []
    write("uprobe_events", "")
    for name, place in places(program):
        for kind, letter in (("p", "b"), ("r", "r")):
            write("uprobe_events", f"{kind}:{letter}{len(names)} {program}:{place:#x}\n", os.O_APPEND)
        names.append(name)
    write("buffer_size_kb", "20000")
    write("trace", "")
    write("trace_clock", "mono")
    write("events/uprobes/enable", "1")
    try:
        ran = subprocess.Popen([program, *arguments], stdin=subprocess.PIPE, stdout=subprocess.DEVNULL)
        ran.communicate(b"\n\n")
    finally:
        write("events/uprobes/enable", "0")
    with open(f"{TRACING}/trace") as trace:
        for line in trace:
            found = EVENT.match(line)
            if found and int(found[1]) == ran.pid:
                yield float(found[2]) * 1e6, found[3] == "b", names[int(found[4])]
    write("uprobe_events", "")


# Each batch as its pieces: the innermost function, what ends the piece, and how long it took.
def batches(seen):
    inside, before, pieces = [], 0, []
    for now, begins, name in seen:
        again = name in inside
        if inside and not (again and begins) and not (not begins and inside.count(name) > 1):
            pieces.append((inside[-1], f"{name} {'begins' if begins else 'ends'}", now - before))
            before = now
        if begins:
            before = before if inside else now
            inside.append(name)
        elif again:
            inside.remove(name)
        if not inside and pieces:
            yield pieces
            pieces = []


def main():
    program, arguments = os.path.abspath(sys.argv[1]), sys.argv[2:]
    alike = collections.defaultdict(list)
    for pieces in batches(events(program, arguments)):
        alike[tuple(piece[:2] for piece in pieces)].append([piece[2] for piece in pieces])
    way, times = max(alike.items(), key=lambda one: len(one[1]))
    means = [sum(column) / len(times) for column in zip(*times)]
    print(f"{len(times)} of {sum(map(len, alike.values()))} batches, {sum(means):,.0f} microseconds each")
    for (within, end), mean in zip(way, means):
        print(f"{mean:10,.0f}  {within}, until {end}")


main()
