#!/usr/bin/env python3
"""Goes through the tour of the README with a built program, its kill included: tour_test.py PROGRAM.

The script at its head is run by both rules, and must print the two columns and the listing; its request that waits must
finish by a further line and by a late run, as the text says. Each row of the small table must give its answers. The
catalogue of one's own must give the answers that the text below it names. Each command with a remark must print what the remark begins with, and the
last one of a block what the block below shows. Ends with 0 exactly where all is as the tour says.
"""

import os
import pathlib
import re
import subprocess
import sys
import tempfile

README = pathlib.Path(__file__).resolve().parent.parent / "README.md"


def expect(holds, what, found):
    if not holds:
        sys.exit(f"the tour: {what}; found:\n{found}")


def main(program):
    tour = re.search(r"^## A tour\n(.*?)^The pages", README.read_text(encoding="utf-8"), re.M | re.S)[1]
    script, listing, own, first, summary, second, ended = (text for _, text in re.findall(r"^```(\w+)\n(.*?)^```", tour, re.M | re.S))
    columns = re.search(r"^\| `once --rule plain` \| `once` \|\n\|[-|]+\|\n((?:\|.*\n)+)", tour, re.M)[1]
    plain, reordered = ("\n".join(column) + "\n" for column in zip(*(re.findall(r"`([^`]*)`", row) for row in columns.splitlines())))
    with tempfile.TemporaryDirectory(prefix="tour-") as folder:
        os.symlink(os.path.abspath(program), f"{folder}/aria")
        pathlib.Path(f"{folder}/stdin").write_text(script)
        path = {**os.environ, "PATH": f"{folder}:{os.environ['PATH']}"}

        def shell(command, given=""):
            ran = subprocess.run(["bash", "-c", command], input=given, stdout=subprocess.PIPE, stderr=subprocess.DEVNULL, text=True, cwd=folder, env=path, timeout=60, check=False)
            return ran.stdout

        by_plain, by_both, by_own = shell("aria once --rule plain", script), shell("aria once", script), shell("aria once", own)
        expect(by_plain.startswith(plain), "the left column is what `once --rule plain` prints", by_plain)
        expect(by_both == reordered + listing, "the right column and the listing are what `once` prints", by_both)
        behind = shell("aria once", script + "end 2\n").split("batch 2\n")[-1]
        expect(re.match(r"3 ok ", behind), "request 3 finishes in the next batch", behind)
        option, *late = re.search(r"With `(--fallback \d+)` .*?: `([^`]+)`, `([^`]+)`\.", tour).groups()
        printed = shell(f"aria once {option}", script)
        expect(all(f"\n{line}\n" in printed for line in late), f"what `{option}` prints", printed)
        for lines, given, _ in re.findall(r"^\| (`tx .*?) \| (.*?) \| (.*?) \|$", tour, re.M):
            amount = 2**63 - 1 if "greatest number" in lines else 10
            calls = "\n".join(re.findall(r"`(.*?)`", lines))
            printed = shell("aria once", f"catalog bank\nrow acct 1 = {amount}\n{calls}\nend 1\n")
            expect(all(f"\n{line}\n" in printed for line in re.findall(r"`(.*?)`", given)), f"what {lines} gives", printed)
        answers = re.search(r"request is answered `(.*?)`, the second `(.*?)`", tour)
        expect("\n".join(answers.groups()) in by_own, "the answers by the catalogue of one's own", by_own)
        for line in first.splitlines():
            command, remark = line.split("#", 1)
            printed, wanted = shell(command), remark.strip().removesuffix(", ..").replace(", ", "\n")
            wanted = summary if wanted == "the summary below" else wanted
            expect(printed.startswith(wanted), f"what `{command.strip()}` prints", printed)
        printed = shell(second)
        expect(printed.endswith(ended), "what the run behind the kill prints", printed)
    print("the tour: as the README says")


if __name__ == "__main__":
    main(sys.argv[1])
