#!/usr/bin/env python3
"""Tells what a run of the gate takes of the processors, crate after crate, in seconds.

    tools/gate_cost.py PID

PID is the process of `rt ci`. Its provers are looked at twice a second until it ends; then, or where this program is
interrupted, a table is printed: of each crate its proof, its proof with tests, the check before its first edit, and its
edits. Linking, and what tests and programs take, come last. A run that is stopped for a while counts what it took alone.
What was kept from an earlier run takes nothing.
"""

import collections
import os
import re
import signal
import sys
import time

TICK = os.sysconf("SC_CLK_TCK")
PARTS = ("proof", "tests", "check", "edits")


def stat(pid):
    """The parent of a process, the seconds that it took so far, and when it began."""
    with open(f"/proc/{pid}/stat") as file:
        fields = file.read().rpartition(")")[2].split()
    return int(fields[1]), (int(fields[11]) + int(fields[12])) / TICK, int(fields[19])


def processes():
    """Each process that there is: its parent, its seconds and when it began."""
    found = {}
    for name in filter(str.isdigit, os.listdir("/proc")):
        try:
            found[int(name)] = stat(name)
        except (OSError, ValueError):
            pass
    return found


def is_below(pid, root, found):
    """Whether a process was started by the root, or by one that was."""
    for _ in found:
        if pid not in found or found[pid][0] == root:
            return pid in found
        pid = found[pid][0]
    return False


def what_it_is(pid):
    """The crate and the folder that a prover works in, and whether it proves tests; no crate for any other process."""
    try:
        with open(f"/proc/{pid}/cmdline") as file:
            words = file.read().split("\0")
        folder = os.readlink(f"/proc/{pid}/cwd")
    except OSError:
        return None, "", False
    if not words[0].endswith("/rattle") or "--crate-name" not in words:
        return None, "", False
    return words[words.index("--crate-name") + 1], folder, "--test" in words


def watch(root, kinds, took):
    """Notes what each process below the root is and what it took, until the root ends."""
    while True:
        found = processes()
        if root not in found:
            return
        for pid, (_, seconds, began) in found.items():
            if is_below(pid, root, found):
                key = pid, began
                if key not in kinds:
                    kinds[key] = what_it_is(pid)
                took[key] = seconds
        time.sleep(0.5)


def sums(kinds, took):
    """Of each crate the seconds of its parts, and those of all other processes. Edits are tried in folders of their own, of which
    that of the check before the first one takes the most."""
    crates, folders, others = collections.defaultdict(collections.Counter), collections.Counter(), 0
    for key, seconds in took.items():
        crate, folder, is_test = kinds[key]
        if crate is None:
            others += seconds
        elif re.search(r"/crates/\w+$", folder):
            crates[crate]["tests" if is_test else "proof"] += seconds
        else:
            folders[crate, folder] += seconds
    for crate in {crate for crate, _ in folders}:
        tried = sorted(seconds for (name, _), seconds in folders.items() if name == crate)
        crates[crate]["check"], crates[crate]["edits"] = tried[-1], sum(tried[:-1])
    return crates, others


def main():
    kinds, took = {}, {}
    signal.signal(signal.SIGTERM, signal.default_int_handler)
    try:
        watch(int(sys.argv[1]), kinds, took)
    except KeyboardInterrupt:
        pass
    crates, others = sums(kinds, took)
    print("| crate | proof | with tests | check before edits | edits |\n|---|---:|---:|---:|---:|")
    for crate, parts in crates.items():
        print(f"| {crate} | " + " | ".join(f"{parts[part]:.0f}" for part in PARTS) + " |")
    print("| all | " + " | ".join(f"{sum(parts[part] for parts in crates.values()):.0f}" for part in PARTS) + " |")
    print(f"other processes: {others:.0f}")


if __name__ == "__main__":
    if len(sys.argv) != 2 or not sys.argv[1].isdigit():
        sys.exit(__doc__)
    main()
