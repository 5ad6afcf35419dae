#!/usr/bin/env python3
"""Gives a clone the libraries that a run of the gate has proved, so that a check there need not build them first.

    tools/take_proved.py CLONE GATE

GATE is a clone in which `rt ci` runs or has run, CLONE another one of the same repository. A library is taken where its
text, and that of each crate below it, is the same in both. What is taken speeds checks, plants and benchmarks; the gate
proves everything for itself and looks at none of it.

`rt` leaves such libraries without a stamp, so that other commands build their own. For statements fit only the libraries
that they were built over. This program writes the stamp, and is right only because it takes a library together with all
those below it. No verdict may rest on a clone that it was used on. It reads the kit's own program for how a crate's text
is summed up.
"""
import importlib.machinery
import importlib.util
import os
import shutil
import sys

RT = os.path.realpath(shutil.which("rt") or sys.exit("take_proved: the kit's rt is not on the path"))
KIT = os.path.dirname(RT)


def kit():
    """The kit's program as a module, with its sums of a crate's text."""
    sys.path.insert(0, KIT)
    loader = importlib.machinery.SourceFileLoader("rt_program", RT)
    spec = importlib.util.spec_from_loader("rt_program", loader)
    module = importlib.util.module_from_spec(spec)
    loader.exec_module(module)
    return module.rtlib


def crates_in(lib, folder):
    """The crates of a clone by name, each after those that it stands on."""
    os.chdir(folder)
    found, order = {it.name: it for it in lib.crates_below(folder)}, {}

    def visit(crate):
        if crate.name not in order:
            for below in crate.deps:
                visit(below)
            order[crate.name] = crate

    for crate in found.values():
        visit(crate)
    return order


def link(one, other):
    try:
        os.link(one, other)
    except OSError:
        shutil.copyfile(one, other)


def take(crate, proved):
    """Takes the library of a crate from the gate's clone, and answers whether it could."""
    built = f"{proved.folder}/out/rlib/{crate.name}.rlib"
    if not os.path.isdir(built) or proved.stamp() != crate.stamp():
        return False
    to = f"{crate.folder}/out/rlib"
    shutil.rmtree(to, ignore_errors=True)
    os.makedirs(f"{crate.folder}/out", exist_ok=True)
    shutil.copytree(os.path.dirname(built), to, copy_function=link)
    with open(f"{to}/stamp", "w", encoding="utf-8") as file:
        file.write(crate.stamp())
    return True


def main(clone, gate):
    sys.argv = ["rt"]
    lib = kit()
    proved, crates = crates_in(lib, gate), crates_in(lib, clone)
    there, taken, lacking = set(), [], []
    for name, crate in crates.items():
        if crate.is_program:
            continue
        if crate.is_built():
            there.add(name)
        elif name in proved and all(it.name in there for it in crate.deps) and take(crate, proved[name]):
            there.add(name)
            taken.append(name)
        else:
            lacking.append(name)
    print("taken:", *taken)
    print("not proved yet, or of another text:", *lacking)


if __name__ == "__main__":
    main(*map(os.path.realpath, sys.argv[1:3]))
