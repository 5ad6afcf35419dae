#!/usr/bin/env python3
"""Runs the worked cases against a built program.

    tools/run_cases.py PROGRAM [NAME..]

The cases are the files of crates/worked_cases/data, which the program `worked_cases` runs in the gate; CONTRIBUTING.md says
how one is written. Here each step is a run of PROGRAM over pipes, in a folder of the case's own, whose folder `aria-store`
has the four files. A NAME is a folder or a case: `stores`, `stores/life` or the path of its file. Without one all are run.
Each case is run with its input in pieces of 1, of 7 and of 4,096 bytes, on 1 and on 3 workers, on 1 and on 2 replicas and with
`--batons` where a command has these. Every byte of the output is compared, the status, and what the case says of the files.

For each folder a line is printed with its numbers of cases and steps: where all are run, these are the lines that
crates/worked_cases/stdout has to have. The first thing that differs of a case is told on the standard error, and the status
is 1 then.
"""
import argparse
import itertools
import os
import re
import subprocess
import sys
import tempfile
import threading

DATA = os.path.join(os.path.dirname(os.path.dirname(os.path.abspath(__file__))), "crates", "worked_cases", "data")
FILES = ["ckpt0", "ckpt1", "log0", "log1"]
PIECES = [1, 7, 4096]
CREWS = [(1, 1, False), (1, 2, False), (3, 1, False), (3, 2, False), (3, 1, True)]
CREWED = ["once", "run", "replay", "bench"]
MOST_SECONDS = 120


class Wrong(Exception):
    """A line that is none of a case."""

    def __init__(self, line, why):
        super().__init__(why)
        self.line = line


class Step:
    """A run of the program: what is done to the files, the words, the input, and what has to come of it."""

    def __init__(self, line, changes, words):
        self.line, self.changes, self.words = line, changes, words
        self.input, self.output, self.status, self.left = [], [], None, []


def number(text, line):
    if not re.fullmatch(r"[0-9]+", text):
        raise Wrong(line, "a number is wanted here")
    return int(text)


def hexadecimal(text, line):
    if not re.fullmatch(r"(?: *[0-9a-f]{2})* *", text):
        raise Wrong(line, "two hexadecimal digits a byte are wanted here")
    return bytes.fromhex(text)


def content(flags, text, line):
    """The bytes that a line says whose mark has these flags behind its sign."""
    if flags == "x":
        return hexadecimal(text, line)
    found = re.fullmatch(r"(-?)(?:\*([0-9]+)(?:\.\.([0-9]+))?)?", flags)
    if not found:
        raise Wrong(line, "this mark is none of a case")
    end = b"" if found[1] else b"\n"
    text = text.encode("ascii")
    if found[3] is not None:
        return b"".join(text.replace(b"#", b"%d" % n) + end for n in range(int(found[2]), int(found[3]) + 1))
    return (text + end) * (int(found[2]) if found[2] is not None else 1)


def part(flags, text, line, number_of_step):
    """A part of an input or an output: bytes, or the number of the step that printed them."""
    if flags != "=":
        return content(flags, text, line)
    source = number(text, line)
    if not 0 < source < number_of_step:
        raise Wrong(line, "only what an earlier step printed can be taken")
    return source


def patch(text, line):
    at, _, digits = text.partition(" ")
    found = hexadecimal(digits, line)
    if not found:
        raise Wrong(line, "the bytes of this offset are wanted here")
    return number(at, line), found


def change(text, line):
    """A change of the files: its kind, the file, and what it has besides."""
    if text in ("keep", "back"):
        return [text]
    name, _, rest = text.partition(" ")
    if name not in FILES:
        raise Wrong(line, "the files are ckpt0, ckpt1, log0 and log1")
    if not rest:
        return ["write", name, b""]
    how, _, rest = rest.partition(" ")
    if how == "cut":
        return ["cut", name, number(rest, line)]
    if how == "at":
        return ["at", name, *patch(rest, line)]
    raise Wrong(line, "a file is written, cut, or changed at an offset")


def left(text, line):
    """What the files have to be behind a step."""
    if text == "same":
        return ["same"]
    name, _, rest = text.partition(" ")
    if name not in FILES:
        raise Wrong(line, "the files are ckpt0, ckpt1, log0 and log1")
    if not rest:
        return ["whole", name, b""]
    how, _, rest = rest.partition(" ")
    if how == "at":
        return ["at", name, *patch(rest, line)]
    raise Wrong(line, "a file has bytes, or some at an offset")


class Reader:
    """Reads the lines of a case."""

    def __init__(self):
        self.steps, self.changes, self.place, self.written = [], [], "between", None

    def ask_status(self, line):
        if self.place not in ("between", "changed"):
            raise Wrong(line, "the step before has no status")

    def take(self, text, line):
        if re.search(r"[^ -~]", text):
            raise Wrong(line, "a byte that is no printed one: write it in hexadecimal")
        if not text or text.startswith("#"):
            return
        if text.endswith(" "):
            raise Wrong(line, "a space that nobody sees at the end: write it in hexadecimal")
        mark, _, rest = text.partition(" ")
        sign, flags = mark[:1], mark[1:]
        if sign == "|":
            if self.written is None:
                raise Wrong(line, "bytes of a file stand behind its name")
            self.written[2] += content(flags, rest, line)
            return
        self.written = None
        if sign == "<":
            self.input(flags, rest, line)
        elif sign == ">":
            self.output(flags, rest, line)
        elif mark == "$":
            self.ask_status(line)
            self.steps.append(Step(line, self.changes, rest.split()))
            self.changes, self.place = [], "words"
        elif mark == "=":
            self.status(rest, line)
        elif mark == "!":
            self.ask_status(line)
            made = change(rest, line)
            self.changes.append(made)
            self.place, self.written = "changed", made if made[0] == "write" else None
        elif mark == "?":
            made = left(rest, line)
            if self.place != "between" or not self.steps:
                raise Wrong(line, "what is left stands behind the status of a step")
            self.steps[-1].left.append(made)
            self.written = made if made[0] == "whole" else None
        else:
            raise Wrong(line, "this mark is none of a case")

    def input(self, flags, text, line):
        if self.place not in ("words", "input"):
            raise Wrong(line, "an input stands behind the words of a step")
        self.place = "input"
        self.steps[-1].input.append(part(flags, text, line, len(self.steps)))

    def output(self, flags, text, line):
        first = self.place in ("words", "input")
        if not first and self.place != "output":
            raise Wrong(line, "an output stands behind the words and the input of a step")
        self.place = "output"
        step = self.steps[-1]
        if first and flags == "?":
            step.output = None
        elif first and flags == "~":
            numbers = text.split(" ")
            if len(numbers) != 3:
                raise Wrong(line, "the numbers of lines and bytes and the hash are wanted here")
            step.output = tuple(number(n, line) for n in numbers)
        elif isinstance(step.output, list):
            step.output.append(part(flags, text, line, len(self.steps)))
        else:
            raise Wrong(line, "this output is one line alone")

    def status(self, text, line):
        if self.place in ("between", "changed"):
            raise Wrong(line, "a status stands behind the words, the input and the output of a step")
        if not re.fullmatch(r"[0-9]{1,3}", text) or int(text) > 255:
            raise Wrong(line, "a status is a number from 0 to 255")
        self.steps[-1].status = int(text)
        self.place = "between"

    def end(self, line):
        if not self.steps:
            raise Wrong(line, "a case has a step at least")
        if self.place == "changed":
            raise Wrong(line, "a step stands behind a change")
        if self.place != "between":
            raise Wrong(self.steps[-1].line, "this step has no status")
        taken = {source for step in self.steps for source in step.input + (step.output if isinstance(step.output, list) else [])
                 if isinstance(source, int)}
        for place, step in enumerate(self.steps, 1):
            if step.output is None and place not in taken:
                raise Wrong(step.line, "no later step takes what this one prints")
        return self.steps


def read_case(text):
    """The steps of a case."""
    reader = Reader()
    lines = text.decode("latin-1").split("\n")
    if lines[-1] == "":
        lines.pop()
    for line, text in enumerate(lines, 1):
        reader.take(text, line)
    return reader.end(len(lines))


def mark(text):
    """What texts are told apart by: their lines, their bytes, and their hash FNV-1a of 64 bits."""
    made = 0xCBF29CE484222325
    for byte in text:
        made = (made ^ byte) * 0x100000001B3 % 2 ** 64
    return text.count(b"\n"), len(text), made


def shown(text, at):
    """The number of the line that has the byte at an offset, and the line."""
    start = text.rfind(b"\n", 0, at) + 1
    line = text[start:].split(b"\n")[0][:200]
    said = "the end" if start >= len(text) else "|%s|" % "".join(chr(b) if 32 <= b <= 126 else "\\x%02x" % b for b in line)
    return text.count(b"\n", 0, at) + 1, said


def difference(what, wanted, found):
    """The first line at which two texts differ, or None."""
    if wanted == found:
        return None
    at = next((i for i, (a, b) in enumerate(zip(wanted, found)) if a != b), min(len(wanted), len(found)))
    line, said = shown(wanted, at)
    return "line %d of %s: wanted %s, found %s" % (line, what, said, shown(found, at)[1])


class Folder:
    """The folder that a case runs in, with its four files."""

    def __init__(self, path):
        self.path, self.kept = path, {name: b"" for name in FILES}

    def file(self, name):
        return os.path.join(self.path, "aria-store", name)

    def files(self):
        found = {}
        for name in FILES:
            found[name] = b""
            if os.path.exists(self.file(name)):
                with open(self.file(name), "rb") as it:
                    found[name] = it.read()
        return found

    def put(self, files):
        os.makedirs(os.path.join(self.path, "aria-store"), exist_ok=True)
        for name, data in files.items():
            with open(self.file(name), "wb") as it:
                it.write(data)

    def change(self, made):
        """Makes a change, and tells whether it lies within its file."""
        files = self.files()
        if made[0] == "keep":
            self.kept = files
            return True
        if made[0] == "back":
            self.put(self.kept)
            return True
        name, data = made[1], files[made[1]]
        if made[0] == "write":
            data, fits = made[2], True
        elif made[0] == "cut":
            data, fits = data[:made[2]], made[2] < len(data)
        else:
            fits = made[2] + len(made[3]) <= len(data)
            data = data[:made[2]] + made[3] + data[made[2] + len(made[3]):]
        self.put({name: data})
        return fits


def feed(pipe, data, piece):
    """Writes the input in pieces. The program may have ended before."""
    try:
        for at in range(0, len(data), piece):
            os.write(pipe, data[at:at + piece])
    except BrokenPipeError:
        pass
    finally:
        os.close(pipe)


def run(program, words, data, piece, folder):
    """What a run printed, and its status."""
    reads, writes = os.pipe()
    started = subprocess.Popen([program, *words], stdin=reads, stdout=subprocess.PIPE, stderr=subprocess.DEVNULL, cwd=folder)
    os.close(reads)
    feeder = threading.Thread(target=feed, args=(writes, data, piece))
    feeder.start()
    try:
        printed, _ = started.communicate(timeout=MOST_SECONDS)
    except subprocess.TimeoutExpired:
        started.kill()
        printed, _ = started.communicate()
        return printed, "none after %d seconds" % MOST_SECONDS
    finally:
        feeder.join()
    return printed, started.returncode


def in_way(words, workers, replicas, batons):
    """The words, with the workers, the replicas and the flag behind a command that has them, where they are not among the words."""
    if not words or words[0] not in CREWED:
        return words
    more = []
    for option, value in (("--workers", workers), ("--replicas", replicas)):
        if not any(word.startswith(option) for word in words):
            more += [option, str(value)]
    if batons and "--batons" not in words:
        more.append("--batons")
    return words[:1] + more + words[1:]


def wanted_of(parts, printed):
    return b"".join(printed[it - 1] if isinstance(it, int) else it for it in parts)


def check_left(wanted, before, after):
    """What differs of the files, or None."""
    if wanted[0] == "same":
        return None if before == after else "the files: they are not what they were"
    if wanted[0] == "whole":
        return difference(wanted[1], wanted[2], after[wanted[1]])
    _, name, at, data = wanted
    return None if after[name][at:at + len(data)] == data else "%s: it has other bytes at %d" % (name, at)


def check_step(program, step, way, folder, printed):
    """Runs a step, and tells what differs, or None."""
    piece, crew = way
    for made in step.changes:
        if not folder.change(made):
            return "a change that does not lie within its file"
    before = folder.files()
    found, status = run(program, in_way(step.words, *crew), wanted_of(step.input, printed), piece, folder.path)
    if isinstance(step.output, list):
        what = difference("the output", wanted_of(step.output, printed), found)
    else:
        what = None if step.output in (None, mark(found)) else "the output: wanted %r, found %r" % (step.output, mark(found))
    printed.append(found)
    if what is None and status != step.status:
        what = "the status: wanted %s, found %s" % (step.status, status)
    if what is not None or not step.left:
        return what
    after = folder.files()
    return next(filter(None, (check_left(it, before, after) for it in step.left)), None)


def check_way(program, steps, way):
    """Runs a case in one way, and tells what differs, or None."""
    with tempfile.TemporaryDirectory(prefix="cases-") as path:
        folder, printed = Folder(path), []
        for place, step in enumerate(steps, 1):
            what = check_step(program, step, way, folder, printed)
            if what is not None:
                workers, replicas, batons = way[1]
                crew = "%d workers, %d replicas%s" % (workers, replicas, " and batons" if batons else "")
                return "%d: step %d with pieces of %d, %s: %s" % (step.line, place, way[0], crew, what)
    return None


def check_case(program, path):
    """Runs a case in all ways; tells how many steps it has, or what is wrong."""
    with open(path, "rb") as it:
        text = it.read()
    try:
        steps = read_case(text)
    except Wrong as wrong:
        return None, "%d: %s" % (wrong.line, wrong)
    crewed = any(step.words[:1] and step.words[0] in CREWED for step in steps)
    for way in itertools.product(PIECES, CREWS if crewed else CREWS[:1]):
        fault = check_way(program, steps, way)
        if fault is not None:
            return None, fault
    return len(steps), None


def is_meant(folder, name, names):
    """Whether a case is among those that are asked for."""
    own = {folder, folder + "/" + name, folder + "/" + name.removesuffix(".case")}
    return not names or any(it.rstrip("/") in own or os.path.abspath(it) == os.path.join(DATA, folder, name) for it in names)


def run_folder(program, folder, names):
    """Runs the cases of a folder that are asked for; tells how many were found, and whether all went as they say."""
    path = os.path.join(DATA, folder)
    if not os.path.isdir(path) or not os.listdir(path):
        print("%s: a folder has a case at least" % folder, file=sys.stderr)
        return 0, False
    count, steps, well = 0, 0, True
    for name in sorted(os.listdir(path)):
        if not is_meant(folder, name, names):
            continue
        count += 1
        if name.endswith(".case"):
            found, fault = check_case(program, os.path.join(path, name))
        else:
            found, fault = None, " this is no case: its name does not end with .case"
        if fault is not None:
            print("%s/%s:%s" % (folder, name, fault), file=sys.stderr)
            well = False
        steps += found or 0
    if count:
        print("%s: %d cases, %d steps" % (folder, count, steps), flush=True)
    return count, well


def main():
    parser = argparse.ArgumentParser(description=__doc__, formatter_class=argparse.RawDescriptionHelpFormatter)
    parser.add_argument("program")
    parser.add_argument("names", nargs="*", metavar="NAME")
    options = parser.parse_args()
    program = os.path.abspath(options.program)
    count, well = 0, True
    for folder in sorted(os.listdir(DATA)):
        found, right = run_folder(program, folder, options.names)
        count, well = count + found, well and right
    if not count:
        print("there is no such case", file=sys.stderr)
    return 0 if well and count else 1


if __name__ == "__main__":
    sys.exit(main())
