#!/usr/bin/env python3
"""Tests what a built program tells a person at a terminal: terminal_test.py PROGRAM.

Each command is run twice, once with its standard error at a terminal and once at a pipe. The standard output and the status have
to be the same. At the terminal the standard error has to be the line that docs/commands.md names, at the pipe the one that
scripts see. Ends with 0 exactly where all of it is.
"""

import os
import pathlib
import pty
import subprocess
import sys
import tempfile

BANK = "catalog bank\nrow acct 1 = 10\n"
REST = "cannot stand there; docs/commands.md lists the commands"
# What the command is, its input, its status, what is said at a terminal, and what is said at a pipe.
ROWS = [
    ("once", BANK + "tx add 1 x\n", 1, "aria: line 3 is refused by `word`: tx add 1 x", ""),
    ("once", BANK + "tx\tadd \x01\n", 1, "aria: line 3 is refused by `byte`: tx?add ?", ""),
    ("once", BANK + "tx add 1 1\n", 1, "aria: line 4, the end of the input, is refused by `unfinished`", ""),
    ("once", BANK + "tx add 1 1", 1, "aria: line 4, the end of the input, is refused by `unfinished`", ""),
    ("once", BANK + "tx add 1 x", 1, "aria: line 3 is refused by `word`: tx add 1 x", ""),
    ("once", "catalog bank\r\nrow acct 1 = 10\r\ntx add 1 x\r\n", 1, "aria: line 3 is refused by `word`: tx add 1 x", ""),
    ("once", BANK + "tx add\r 1 x\r\n", 1, "aria: line 3 is refused by `byte`: tx add? 1 x", ""),
    ("once", BANK + "tx add 1 1\nend 1\n", 0, "", ""),
    ("", "", 2, "aria: docs/commands.md lists the commands", ""),
    ("onec", "", 2, f"aria: `onec` {REST}", ""),
    ("once --rule plan --drain", "", 2, f"aria: `--rule plan` {REST}", ""),
    ("once --drain twice", "", 2, f"aria: `twice` {REST}", ""),
    ("once --drain --workers --replicas 2", "", 2, f"aria: `--workers` {REST}", ""),
    ("once --workers=0 extra", "", 2, f"aria: `--workers=0` {REST}", ""),
    ("once --workers 0 extra", "", 2, f"aria: `--workers 0` {REST}", ""),
    ("once --drain --drain x", "", 2, f"aria: `--drain` {REST}", ""),
    ("once --drain --over x", "", 2, f"aria: `--over` {REST}", ""),
    ("replay", "", 6, "", ""),
]


def run(program, words, given, folder, error):
    """The standard output and the status, with the standard error where it is asked to be."""
    ran = subprocess.run([program, *words], input=given.encode(), stdout=subprocess.PIPE, stderr=error, cwd=folder, timeout=60, check=False)
    return ran.stdout, ran.returncode


def at_terminal(program, words, given, folder):
    ours, theirs = pty.openpty()
    try:
        printed, status = run(program, words, given, folder, theirs)
        os.close(theirs)
        said = b""
        try:
            while more := os.read(ours, 65536):
                said += more
        except OSError:
            pass
        return printed, status, said.decode().replace("\r\n", "\n")
    finally:
        os.close(ours)


def at_pipe(program, words, given, folder):
    with tempfile.TemporaryFile() as error:
        printed, status = run(program, words, given, folder, error)
        error.seek(0)
        return printed, status, error.read().decode()


def closed(program, folder, is_watched):
    """What is said, and the status, where nobody reads the output."""
    reads, writes = os.pipe()
    os.close(reads)
    ours, theirs = pty.openpty() if is_watched else os.pipe()
    status = subprocess.run([program, "gen"], stdin=subprocess.DEVNULL, stdout=writes, stderr=theirs, cwd=folder, timeout=60, check=False).returncode
    os.close(writes)
    os.close(theirs)
    try:
        said = os.read(ours, 65536)
    except OSError:
        said = b""
    os.close(ours)
    return status, said.decode()


def faulty(program, folder, words, path, what):
    """Asks that a disk fault names this path."""
    printed, ended, said = at_terminal(program, words, "", folder)
    expect((printed, ended), (b"", 5), what)
    expect(said.startswith(f"aria: disk fault: {path}: ") and said.count("\n") == 1, True, f"{what} said {said!r}, which")


def expect(found, wanted, what):
    if found != wanted:
        sys.exit(f"{what}: found {found!r}, wanted {wanted!r}")


def line(text):
    return f"{text}\n" if text else ""


def main(program):
    program = os.path.abspath(program)
    for words, given, status, watched, scripted in ROWS:
        with tempfile.TemporaryDirectory(prefix="terminal-") as folder:
            printed, ended, said = at_terminal(program, words.split(), given, folder)
            expect((ended, said), (status, line(watched)), f"`{words}` at a terminal")
            expect(at_pipe(program, words.split(), given, folder), (printed, status, line(scripted)), f"`{words}` at a pipe")
    with tempfile.TemporaryDirectory(prefix="terminal-") as folder:
        store = pathlib.Path(folder, "aria-store")
        store.write_text("a file where the folder of the store should be")
        faulty(program, folder, ["replay"], "aria-store/ckpt0", "`replay` without a folder")
        expect(at_pipe(program, ["replay"], "", folder), (b"", 5, "aria: disk fault\n"), "`replay` at a pipe")
        store.unlink()
        store.joinpath("log1").mkdir(parents=True)
        faulty(program, folder, ["replay"], "aria-store/log1", "`replay` with a folder for a file")
        faulty("/bin/sh", folder, ["-c", 'mkdir gone && cd gone && rmdir ../gone && exec "$0" replay', program], "aria-store", "`replay` in a folder that is gone")
        expect(closed(program, folder, True), (4, ""), "`gen` without a reader, at a terminal")
        expect(closed(program, folder, False), (4, "aria: write fault\n"), "`gen` without a reader, at a pipe")
    print(f"the terminal: {len(ROWS) + 5} commands say what docs/commands.md says")


if __name__ == "__main__":
    main(sys.argv[1])
