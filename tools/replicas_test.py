#!/usr/bin/env python3
"""Follows one log with three processes that are killed, and fills a disk: replicas_test.py PROGRAM [--seed N] [--seconds N].

PROGRAM is `aria`, proved or not. A writer appends a script's batches to one log file, at drawn moments and cut at any
byte. Three stores are made of one head, in a folder each. Each is followed by `run`, which is fed from the log, with
workers and checkpoints of its own; some lives are fed from the first batch on, and some from the one behind `at B`. The
processes are killed at drawn moments, some right behind the end of a batch, and some while nobody reads what they print. Before `run` is begun again, `replay` prints what the store has behind its last
checkpoint. In the end each replica has printed each batch's answer, by `run` or by `replay`, and wherever one was printed
twice, or by two of them, it is the same. It is that of `once`, the listings are equal, and whatever a killed process printed in part
begins an answer.

Then the disk is full: a store on a small file system of its own, `run` until it ends with 5, more room, and `run` again. Where none
can be mounted, that is said and skipped.

Last what docs/replication.md says beside that: a listing by `run` without input, a copy of a folder, a checkpoint's body as a
head, another log of the same numbers, a reader of answers that goes away, a log that is cut within a batch, and a file of
answers that was cut anywhere.

The seed of the draws is printed, and gives the same script and delays again, though not the same kills. Ends with 0
exactly where all is as said, and within about the seconds that are given (60).
"""

import argparse
import contextlib
import fcntl
import os
import pathlib
import random
import re
import shutil
import signal
import subprocess
import sys
import tempfile
import threading
import time

BATCHES, SIZE = 60, 300
SETTINGS = ["--rule", "reorder", "--fallback", "30"]
# Of each replica the options that have no say in what is printed.
REPLICAS = (["--checkpoint", "3"], ["--workers", "2", "--batons"], ["--replicas", "2", "--workers", "2", "--checkpoint", "20"])
LONGEST_CALL = 60


class Fault(Exception):
    pass


def call(program, words, given=b"", folder=None):
    """What a run printed, and its status."""
    ran = subprocess.run([program, *words], input=given, stdout=subprocess.PIPE, stderr=subprocess.DEVNULL, cwd=folder, timeout=LONGEST_CALL)
    return ran.stdout, ran.returncode


def expect(holds, what):
    if not holds:
        raise Fault(what)


class Printed:
    """What a process printed: where it began, whole answers, one that was cut off, batches that were kept, and a listing."""

    def __init__(self, text):
        self.at, self.answers, self.kept, self.cut, self.listing = None, {}, [], None, None
        lines = text.split(b"\n")
        lines.pop()
        begun, number = None, None
        for line in lines:
            found = re.fullmatch(rb"(at|batch|end|state) (\d+|state)( kept)?", line)
            word = found[1] if found else b""
            if begun is not None:
                begun.append(line)
                if word == b"end":
                    whole = b"\n".join(begun) + b"\n"
                    if found[2] == b"state":
                        self.listing = whole
                    else:
                        self.answers[number] = whole
                    begun = None
            elif word == b"at":
                self.at = int(found[2])
            elif word == b"batch" and found[3]:
                self.kept.append(int(found[2]))
            elif word in (b"batch", b"state"):
                begun, number = [line], int(found[2]) if word == b"batch" else None
            else:
                raise Fault(f"a line that no command prints here: {line!r}")
        if begun is not None and number is not None:
            self.cut = number, b"\n".join(begun) + b"\n" + text[text.rfind(b"\n") + 1 :]


class Log:
    """The log file, and the writer that appends to it."""

    def __init__(self, path, text, draws, seconds):
        self.path, self.text, self.draws, self.seconds, self.is_whole = path, text, draws, seconds, False
        path.touch()

    def write(self):
        """Appends pieces that end anywhere, within about the seconds that it was given."""
        pieces = 300
        ends = sorted(self.draws.sample(range(1, len(self.text)), pieces - 1)) + [len(self.text)]
        with open(self.path, "ab", buffering=0) as out:
            begin = 0
            for end in ends:
                out.write(self.text[begin:end])
                begin = end
                time.sleep(self.draws.uniform(0, 2 * self.seconds / pieces))
        self.is_whole = True

    def behind(self, batch):
        """The offset behind the line that ends a batch; 0 for batch 0."""
        found = re.search(rb"^end %d\n" % batch, self.text, re.M) if batch else None
        return found.end() if found else 0


class Replica(threading.Thread):
    def __init__(self, program, folder, log, options, seed, until):
        super().__init__()
        self.program, self.folder, self.log, self.options, self.until = program, folder, log, options, until
        self.draws = random.Random(seed)
        self.answers, self.cuts, self.kills, self.lives, self.replayed, self.listing, self.fault = {}, [], 0, 0, 0, None, None

    def run(self):
        try:
            while self.live():
                self.replay()
        except (Fault, OSError, subprocess.TimeoutExpired) as fault:
            self.fault = fault

    def note(self, printed):
        new = 0
        for number, text in printed.answers.items():
            expect(self.answers.setdefault(number, text) == text, f"two answers of batch {number} differ")
            new += 1
        if printed.cut:
            self.cuts.append(printed.cut)
        return new

    def replay(self):
        text, status = call(self.program, ["replay"], folder=self.folder)
        expect(status == 0, f"replay ends with {status}")
        before = len(self.answers)
        self.note(Printed(text))
        self.replayed += len(self.answers) - before

    def feed(self, process, offset_of, fed):
        """Gives the process what the log has and gets, until the log is whole or the process is gone. It tells of a drawn
        piece that had the end of a batch."""
        ends = self.draws.randint(1, 12)
        with contextlib.suppress(OSError, ValueError), open(self.log.path, "rb") as source:
            source.seek(offset_of())
            while True:
                is_whole = self.log.is_whole
                found = source.read(self.draws.randint(1, 20_000))
                if found:
                    process.stdin.write(found)
                    process.stdin.flush()
                    ends -= b"end" in found
                    if ends <= 0:
                        fed.set()
                elif is_whole:
                    break
                else:
                    time.sleep(0.005)
        with contextlib.suppress(OSError):
            process.stdin.close()

    def live(self):
        """One life of a process; tells whether it was killed."""
        self.lives += 1
        process = subprocess.Popen([self.program, "run", *self.options], cwd=self.folder, stdin=subprocess.PIPE, stdout=subprocess.PIPE, stderr=subprocess.DEVNULL)
        # As little as a pipe may have, so that a process that nobody reads stands still within an answer.
        fcntl.fcntl(process.stdout, fcntl.F_SETPIPE_SZ, 4096)
        is_last = time.monotonic() > self.until
        way = "last" if is_last else self.draws.choice(["any time", "behind an end", "unread"])
        from_first = way == "unread" or self.draws.random() < 0.5
        seen, first, fed, read = bytearray(), threading.Event(), threading.Event(), threading.Event()
        if way != "unread":
            read.set()

        def listen():
            read.wait()
            while found := os.read(process.stdout.fileno(), 65_536):
                seen.extend(found)
                if b"\n" in seen:
                    first.set()
            first.set()

        def offset_of():
            if from_first:
                return 0
            first.wait()
            return self.log.behind(Printed(bytes(seen[: seen.find(b"\n") + 1])).at or 0)

        helpers = [threading.Thread(target=listen), threading.Thread(target=self.feed, args=(process, offset_of, fed))]
        for it in helpers:
            it.start()
        try:
            if way == "behind an end" and fed.wait(1):
                time.sleep(self.draws.uniform(0, 0.02))
            else:
                process.wait(LONGEST_CALL if is_last else self.draws.uniform(0.01, 1.2))
        except subprocess.TimeoutExpired:
            pass
        process.send_signal(signal.SIGKILL)
        process.wait()
        read.set()
        for it in helpers:
            it.join()
        process.stdout.close()
        printed = Printed(bytes(seen))
        self.note(printed)
        expect(from_first or not printed.kept, "a batch behind `at` was kept")
        if process.returncode == -signal.SIGKILL:
            expect(not is_last, "a run does not end")
            self.kills += 1
            return True
        expect(process.returncode == 0, f"run ends with {process.returncode}")
        self.listing = printed.listing
        return False


def script_of(program, seed):
    """A head, and batches that contend for a few rows."""
    words = f"gen --keys 2000 --hot 10 --reads 60 --updates 30 --ops 3 --batches {BATCHES} --size {SIZE} --number {seed % 10_000_000}"
    text, status = call(program, words.split())
    expect(status == 0, f"gen ends with {status}")
    at = text.index(b"tx ")
    return text[:at], text[at:]


def follow(program, top, seed, seconds):
    head, batches = script_of(program, seed)
    log = Log(top / "log", batches, random.Random(seed), seconds / 3)
    replicas = []
    for number, options in enumerate(REPLICAS):
        folder = top / f"replica{number}"
        folder.mkdir()
        expect(call(program, ["init", *SETTINGS], head, folder) == (b"ready\n", 0), "init makes no store")
        replicas.append(Replica(program, folder, log, options, seed + number, time.monotonic() + seconds / 2))
    writer = threading.Thread(target=log.write)
    for it in (writer, *replicas):
        it.start()
    for it in (writer, *replicas):
        it.join()
    text, status = call(program, ["once", *SETTINGS], head + batches)
    expect(status == 0, f"once ends with {status}")
    wanted = Printed(text)
    for number, it in enumerate(replicas):
        if it.fault:
            raise Fault(f"replica {number}: {it.fault}")
        expect(len(it.answers) == BATCHES, f"replica {number} printed {len(it.answers)} of {BATCHES} answers")
        expect(it.answers == wanted.answers, f"replica {number} has other answers than once")
        expect(it.listing == wanted.listing, f"replica {number} has another listing than once")
        expect(it.kills > 0, f"replica {number} was never killed")
        for batch, part in it.cuts:
            expect(wanted.answers[batch].startswith(part), f"replica {number} printed in part what is no answer of batch {batch}")
        print(f"replica {number}: {it.kills} kills, {len(it.cuts)} answers cut off, {it.replayed} answers by replay alone")
    print(f"{BATCHES} batches: each answer on each replica, all alike; the listings are equal")


@contextlib.contextmanager
def small_disk(folder, kilobytes):
    """A file system of its own, which has so much room; None where none can be mounted."""
    words = ["mount", "-t", "tmpfs", "-o", f"size={kilobytes}k", "tmpfs", str(folder)]
    try:
        mounted = subprocess.run(words, capture_output=True, check=False).returncode == 0
    except OSError:
        mounted = False
    try:
        yield folder if mounted else None
    finally:
        if mounted:
            subprocess.run(["umount", str(folder)], check=False)


def fill(program, top, seed, options):
    """A store on a disk that has room for its first checkpoint, and for about a third of the log."""
    head, batches = script_of(program, seed)
    folder = top / "full"
    folder.mkdir(exist_ok=True)
    with small_disk(folder, 16_384) as disk:
        if disk is None:
            print("a full disk: skipped, no file system can be mounted")
            return
        expect(call(program, ["init", *SETTINGS], head, disk) == (b"ready\n", 0), "init makes no store on the small disk")
        used = sum(file.stat().st_blocks * 512 for file in (disk / "aria-store").iterdir()) // 1024
        room(disk, used + len(batches) // 3_000)
        text, status = call(program, ["run", *options], batches, disk)
        expect(status == 5, f"run on a full disk ends with {status}")
        first = Printed(text)
        expect(first.cut is None and len(first.answers) < BATCHES, "the disk was large enough")
        room(disk, 16_384)
        replayed, status = call(program, ["replay"], folder=disk)
        expect(status == 0, f"replay behind the fault ends with {status}")
        text, status = call(program, ["run", *options], batches, disk)
        expect(status == 0, f"run with more room ends with {status}")
        second = Printed(text)
        wanted = Printed(call(program, ["once", *SETTINGS], head + batches)[0])
        answers = first.answers | Printed(replayed).answers | second.answers
        expect(len(first.answers) <= second.at <= len(first.answers) + 1, "the store has other batches than were answered")
        expect(answers == wanted.answers, "the answers differ from those of once")
        expect(second.listing == wanted.listing, "the listing differs from that of once")
        how = " ".join(["run", *options])
        print(f"a full disk, {how}: status 5 behind {len(first.answers)} answers, at {second.at} with more room, nothing lost")


def room(disk, kilobytes):
    subprocess.run(["mount", "-o", f"remount,size={kilobytes}k", str(disk)], check=True)


def checkpoint_of(folder):
    """The newest checkpoint of a store: its rule and fallback, the bytes 6 and 7, and its body, which stands behind the 40 bytes
    of its head and is as long as these say."""
    slots = [(folder / "aria-store" / name).read_bytes() for name in ("ckpt0", "ckpt1")]
    text = max((slot for slot in slots if slot[:1] == b"\x01"), key=lambda slot: int.from_bytes(slot[8:16], "little"))
    return tuple(text[6:8]), text[40 : 40 + int.from_bytes(text[32:40], "little")]


def first_answers(text):
    """Of each batch N of a file of answers the first one that has its line `end N`."""
    found, begun, number = {}, [], None
    for line in text.splitlines(keepends=True):
        word, _, rest = line.rstrip(b"\n").partition(b" ")
        if word == b"batch":
            begun, number = [], rest
        begun.append(line)
        if word == b"end" and rest == number:
            found.setdefault(int(number), b"".join(begun))
    return found


def cut_anywhere(program, folder, printed):
    """A file of answers that a stop cut at any byte, and what `replay` adds to it as the page says."""
    page = (pathlib.Path(__file__).resolve().parent.parent / "docs" / "replication.md").read_text(encoding="utf-8")
    mend = re.search(r"^(\[ -z .*? >> answers) +#", page, re.M)[1]
    replayed, status = call(program, ["replay"], folder=folder)
    expect(status == 0, f"replay ends with {status}")
    answers = folder / "answers"
    for size in range(len(printed) + 1):
        answers.write_bytes(printed[:size])
        subprocess.run(["bash", "-c", mend], cwd=folder, check=True)
        expect(first_answers(answers.read_bytes() + replayed) == Printed(printed).answers, f"answers that were cut at byte {size}")


def claim(program, top):
    """A store of a bank by hand, and what the page says of it."""
    head = b"catalog bank\nrow acct 1 = 10\nrow acct 2 = 20\n"
    first, second = b"tx add 1 5\ntx add 1 7\nend 1\n", b"tx add 2 1\nend 2\n"
    one, other, third = (top / name for name in ("one", "other", "third"))
    one.mkdir()

    def run(folder, given, *options):
        text, status = call(program, ["run", *options], given, folder)
        expect(status == 0, f"run ends with {status}")
        return Printed(text)

    expect(call(program, ["init", "--rule", "plain"], head, one) == (b"ready\n", 0), "init makes no store")
    begun = run(one, first, "--checkpoint", "1")
    expect(b"2 wait waw 1\n" in begun.answers[1], "request 2 waits")
    listed = run(one, b"")
    expect((listed.at, listed.listing) == (1, begun.listing), "run without input lists the store")
    expect(checkpoint_of(one)[1].endswith(b"held 2 add 1 7\n"), "the body ends with what waits")
    third.mkdir()
    text, status = call(program, ["init"], checkpoint_of(one)[1], third)
    expect(status == 1 and text.endswith(b" word\n"), "a head takes no requests that wait")
    shutil.copytree(one, other)
    expect(run(one, first + second).answers == run(other, second).answers, "a copy gives other answers")
    expect(run(one, b"").listing == run(other, b"").listing, "a copy comes to other rows")
    kept = run(other, b"tx set 1 0\nend 1\ntx set 1 0\nend 2\n")
    expect((kept.kept, kept.listing) == ([1, 2], run(one, b"").listing), "a batch is kept by its number alone")
    ended = run(one, b"end 3\n", "--checkpoint", "1")
    (rule, fallback), body = checkpoint_of(one)
    expect((rule, fallback) == (0, 101), "the bytes of the rule and the fallback")
    settings = ["--rule", ("plain", "reorder")[rule], "--fallback", str(fallback)]
    expect(call(program, ["init", *settings], body, third) == (b"ready\n", 0), "a body is a head where nothing waits")
    expect(checkpoint_of(third) == ((rule, fallback), body), "the new store has the settings that init was told, and the body")
    begins = run(third, b"")
    expect((begins.at, begins.listing) == (0, ended.listing.replace(b"state 3", b"state 0")), "the head of a body has its rows")
    reads, writes = os.pipe()
    os.close(reads)
    with open(writes, "wb") as gone:
        ran = subprocess.run([program, "run"], input=b"end 4\n", stdout=gone, stderr=subprocess.DEVNULL, cwd=one, check=False)
    expect(ran.returncode == 4, "run ends with 4 where nobody reads")
    expect(run(one, b"").at == 3, "nothing was run behind a first line that could not be written")
    text, status = call(program, ["run"], b"tx add 1 1\nend 4\ntx add 1 1\n", one)
    expect(status == 1 and text.endswith(b"refused 4 unfinished\n"), "a log that is cut within a batch")
    again = run(one, b"tx add 1 1\nend 4\ntx add 1 1\nend 5\n")
    expect((again.kept, list(again.answers)) == ([4], [5]), "the batch that was cut is run when it is whole")
    log = first + second + b"settings plain 0\nend 3\n"
    words = ["awk", "-v", "b=2", 'n >= b; $1 == "end" { n = $2 }']
    behind = subprocess.run(words, input=log, stdout=subprocess.PIPE, check=True).stdout
    expect(behind == b"settings plain 0\nend 3\n", "awk gives what stands behind a batch")
    if shutil.which("flock"):
        guarded = ["flock", "-n", "-E", "75", "store.lock", program, "run"]
        holder = subprocess.Popen(guarded, cwd=one, stdin=subprocess.PIPE, stdout=subprocess.PIPE)
        holder.stdout.readline()
        expect(subprocess.run(guarded, cwd=one, input=b"", stdout=subprocess.PIPE, check=False).returncode == 75, "flock keeps two programs apart")
        holder.communicate()
    torn = top / "torn"
    torn.mkdir()
    expect(call(program, ["init"], head, torn) == (b"ready\n", 0), "init makes no store")
    cut_anywhere(program, torn, call(program, ["run"], first + second, torn)[0])
    print("what the page says beside it: as it says")


def main():
    parser = argparse.ArgumentParser(description=__doc__, formatter_class=argparse.RawDescriptionHelpFormatter)
    parser.add_argument("program")
    parser.add_argument("--seed", type=int, default=None)
    parser.add_argument("--seconds", type=int, default=60)
    options = parser.parse_args()
    seed = random.randrange(10_000_000) if options.seed is None else options.seed
    print(f"seed {seed}", flush=True)
    program = os.path.abspath(options.program)
    with tempfile.TemporaryDirectory(prefix="replicas-") as folder:
        try:
            follow(program, pathlib.Path(folder), seed, options.seconds)
            fill(program, pathlib.Path(folder), seed, [])
            fill(program, pathlib.Path(folder), seed, ["--checkpoint", "5"])
            claim(program, pathlib.Path(folder))
        except Fault as fault:
            print(f"fault: {fault}")
            return 1
    return 0


if __name__ == "__main__":
    sys.exit(main())
