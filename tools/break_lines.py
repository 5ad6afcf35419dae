#!/usr/bin/env python3
"""Breaks the lines of definitions and proofs that are longer than 160 columns.

    tools/break_lines.py FILE.antt ..

Only white space changes, so that no meaning does. A line is cut at the shallowest place that serves, before an arrow or an
operator if there is one, and goes on four columns further in. Comments and `use` lines stay. Run `rt fmt` in the crate's folder
afterwards: it has the last word on indentation.
"""
import re
import sys

MOST_COLUMNS = 160
# A cut before the 60th column looks odd, and none is made before this one.
LEAST_COLUMNS = 24
CUT_BEFORE = {"→": 5, "∙": 5, "×": 4, "⊎": 4}
STAY_BEFORE = set("≡ = : as in at with where + - * ≤ < ≢ ∷ ++ || && then else".split())
STAY_BEHIND = set("→ ∙ × ⊎ ≡ ≢ = : as at let λ + - * ≤ < ∷ ++ || && if then else elim rw | use abbrev pub module record ¬ (← ← by from".split())
CUT_BEHIND = {"=", "in", "↦"}


def weight(word, before, rest):
    """How good a cut in front of a word is, by the text before it; None where there may be none."""
    if word in CUT_BEFORE:
        return CUT_BEFORE[word]
    last = before.split(" ")[-1]
    if last in CUT_BEHIND or last.endswith(";"):
        return 4
    if last.endswith(","):
        return 3
    if word in STAY_BEFORE or last in STAY_BEHIND or re.search(r"λ( [^.\s]+)*$", before):
        return None
    return 2 if rest.startswith("(") else 1


def cuts(line, indent):
    """The places where a line may be cut: the column, how many brackets are open there, and how good it is."""
    depth, found, in_text = 0, [], False
    for at, char in enumerate(line):
        if char == '"':
            in_text = not in_text
        if in_text:
            continue
        if char in "([{":
            depth += 1
        elif char in ")]}":
            depth -= 1
        elif char == " " and at > indent:
            rest = line[at + 1 :]
            if rest.startswith("--"):
                break
            good = weight(re.match(r"[^\s()\[\]{}]*", rest)[0], line[:at], rest)
            if good is not None:
                found.append((at + 1, depth, good))
    return found


def broken(line):
    """The lines that stand in the place of one."""
    indent = len(line) - len(line.lstrip(" "))
    parts = []
    while len(line) > MOST_COLUMNS:
        own = len(line) - len(line.lstrip(" "))
        places = [it for it in cuts(line, own) if own + LEAST_COLUMNS < it[0] <= MOST_COLUMNS]
        if not places:
            break
        least = min(depth for _, depth, _ in places)
        best = max(places, key=lambda it: 3 * (least - it[1]) + it[2] + 3 * it[0] / MOST_COLUMNS - 3 * (it[0] < 60))
        parts.append(line[: best[0]].rstrip())
        line = " " * (indent + 4) + line[best[0] :]
    return [*parts, line]


def main(files):
    for name in files:
        with open(name, encoding="utf-8") as file:
            lines = file.read().split("\n")
        out = []
        for line in lines:
            stays = len(line) <= MOST_COLUMNS or line.lstrip().startswith("--") or line.startswith("use ")
            out += [line] if stays else broken(line)
        with open(name, "w", encoding="utf-8") as file:
            file.write("\n".join(out))


main(sys.argv[1:])
