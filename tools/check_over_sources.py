#!/usr/bin/env python3
"""Checks functions of a crate over the sources of the crates below it: check_over_sources.py CRATE PATH..

No library below the crate need be built, as behind a change in the lowest crates: whether the crates above still stand
is known in minutes, long before the gate comes to them. Each PATH is a function or a module, as for `rt check --only`.
The check trusts nothing: it checks what the functions call in the other crates, too, and keeps what it has checked in a
temporary folder of the user. It gives no verdict on the crate; the gate does.
"""

import os
import pathlib
import subprocess
import sys
import tempfile

TOP = pathlib.Path(__file__).resolve().parent.parent
KIT = pathlib.Path("/opt/rattle")


def uses():
    """Of each crate of this repository those that it may name."""
    lines = (line.split(":", 1) for line in (TOP / "crates.txt").read_text().splitlines() if ":" in line and line[0] != "#")
    return {name.split()[0]: on.split() for name, on in lines}


def below(crate, on):
    """All crates below this one, each behind those that it uses."""
    order = []

    def visit(name):
        for used in on.get(name, []):
            if used not in order:
                visit(used)
        order.append(name)

    visit(crate)
    return order[:-1]


def main():
    if len(sys.argv) < 3:
        sys.exit(__doc__)
    crate, *paths = sys.argv[1:]
    on = uses()
    if crate not in on:
        sys.exit(f"{crate} is no crate of crates.txt")
    kept = pathlib.Path(tempfile.gettempdir()) / f"check_over_sources-{os.getuid()}" / crate
    kept.mkdir(parents=True, exist_ok=True)
    command = [KIT / "bin/rattle", "check", "--crate-name", crate, "src/lib.rt", "--extern", f"std={KIT}/rlibs/std.rlib"]
    for name in below(crate, on):
        if name in on:
            command += ["--lib", f"{name}:{','.join(['std', *on[name]])}={TOP}/crates/{name}/src/lib.rt"]
        else:
            command += ["--extern", f"{name}={KIT}/rlibs/{name}.rlib"]
    command += ["-L", f"dependency={KIT}/rlibs", "--antt-project", KIT / "rattle/logic/antt-project.json"]
    command += ["--logic-built", KIT / "logic_built", "--incremental", kept, "--jobs", "2"]
    for path in paths:
        command += ["--only", path]
    sys.exit(subprocess.run(list(map(str, command)), cwd=TOP / "crates" / crate).returncode)


if __name__ == "__main__":
    main()
