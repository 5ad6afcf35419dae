#!/usr/bin/env python3
"""Makes the cases of the gate from the folders of examples/: examples.py [--check].

A folder has the catalogue as JSON (catalog.json), its first rows (rows), its batches (batches) and what `once` prints
of the three together (answers); and, where it has answers_late, what `once --fallback 0` prints. All are written by
hand. The case of an example, crates/worked_cases/data/examples/NAME.case, runs it in memory, checks the report, makes a
store, runs the batches over it twice, and replays them. With --check nothing is written: it says which cases differ
from the examples, and ends with 1 where one does.
"""

import pathlib
import re
import sys

TOP = pathlib.Path(__file__).resolve().parent.parent
EXAMPLES, CASES = TOP / "examples", TOP / "crates" / "worked_cases" / "data" / "examples"


def lines_of(file):
    return file.read_text(encoding="ascii").splitlines()


def head_of(folder):
    """The lines of a script that give the catalogue, each line of the JSON as a piece, and the first rows."""
    return ["catalog text", *(f":{line}" for line in lines_of(folder / "catalog.json")), *lines_of(folder / "rows")]


def step(words, given, wanted):
    return "\n".join([f"$ {words}", *given, *wanted, "= 0"])


def read(lines):
    return [f"< {line}" for line in lines]


def printed(lines):
    return [f"> {line}" for line in lines]


def case_of(folder):
    head, batches, answers = head_of(folder), lines_of(folder / "batches"), lines_of(folder / "answers")
    numbers = [line.split()[1] for line in batches if line.startswith("end ")]
    listing = answers[answers.index(f"state {numbers[-1]}") :]
    kept = [f"at {numbers[-1]}", *(f"batch {number} kept" for number in numbers), *listing]
    steps = [
        step("once", read(head + batches), printed(answers)),
        step("check", [*read([*head, *batches, "report"]), "<= 1"], ["> check holds"]),
        step("init", read(head), ["> ready"]),
        step("run", read(batches), ["> at 0", ">= 1"]),
        step("run", read(batches), printed(kept)),
        step("replay", [], [">= 1"]),
    ]
    if (folder / "answers_late").exists():
        steps.append(step("once --fallback 0", read(head + batches), printed(lines_of(folder / "answers_late"))))
    first = f"# The example examples/{folder.name}. This file is made by tools/examples.py."
    return "\n\n".join([first, *steps]) + "\n"


def main(check=False):
    wanted = {CASES / f"{folder.name}.case": case_of(folder) for folder in sorted(EXAMPLES.iterdir()) if folder.is_dir()}
    differ = [file for file, text in wanted.items() if not file.exists() or file.read_text() != text]
    differ += [file for file in CASES.glob("*") if file not in wanted]
    if check:
        for file in differ:
            print(f"{file.relative_to(TOP)} is not what tools/examples.py makes of examples/{re.sub('.case$', '', file.name)}")
        sys.exit(1 if differ else 0)
    CASES.mkdir(exist_ok=True)
    for file, text in wanted.items():
        file.write_text(text)


if __name__ == "__main__":
    main("--check" in sys.argv[1:])
