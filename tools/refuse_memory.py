#!/usr/bin/env python3
"""Refuses each request for memory of some runs of the program in turn, one number a run.

    tools/refuse_memory.py PROGRAM [--most N]

A small library is loaded before the C library, so PROGRAM has to take its memory from there. It refuses the N-th request
of the process and no other, for N from 1 to as many as a run makes. Then each run has to end in one of two ways. It ends
as with ample memory, where the program can do without (it runs a thread's part itself, say). Or it ends with status 7
and a prefix of that output. After each run over a store, a run with ample memory has to find every batch of whose answer
a byte was printed, and no damage. The gate does not run this; what was seen stands in docs/gate.md.
"""
import argparse
import os
import shutil
import subprocess
import sys
import tempfile

NO_MEMORY = 7

LIBRARY = r"""
#define _GNU_SOURCE
#include <dlfcn.h>
#include <errno.h>
#include <stdatomic.h>
#include <stddef.h>
#include <stdio.h>
#include <stdlib.h>
#include <sys/syscall.h>
#include <unistd.h>

extern void *__libc_malloc(size_t);
extern void *__libc_calloc(size_t, size_t);
extern void *__libc_realloc(void *, size_t);
extern void *__libc_memalign(size_t, size_t);

static atomic_long asked;
static long refused = -1;

static int refuses(void) {
    long number = atomic_fetch_add(&asked, 1) + 1;
    return refused > 0 && number == refused;
}

__attribute__((constructor)) static void begin(void) {
    const char *number = getenv("REFUSED_REQUEST");
    atomic_store(&asked, 0);
    refused = number ? atol(number) : -1;
}

static void tell(void) {
    const char *told = getenv("REQUESTS_TOLD");
    if (!told) return;
    long count = atomic_load(&asked);
    refused = -1;
    FILE *file = fopen(told, "w");
    if (file) { fprintf(file, "%ld", count); fclose(file); }
}

/* The program ends so, behind the back of what runs at an ordinary end. */
void _exit(int status) {
    tell();
    for (;;) syscall(SYS_exit_group, status);
}

void *malloc(size_t size) { if (refuses()) { errno = ENOMEM; return NULL; } return __libc_malloc(size); }
void *calloc(size_t count, size_t size) { if (refuses()) { errno = ENOMEM; return NULL; } return __libc_calloc(count, size); }
void *realloc(void *old, size_t size) { if (refuses()) { errno = ENOMEM; return NULL; } return __libc_realloc(old, size); }
void *memalign(size_t align, size_t size) { if (refuses()) { errno = ENOMEM; return NULL; } return __libc_memalign(align, size); }
void *aligned_alloc(size_t align, size_t size) { return memalign(align, size); }
int posix_memalign(void **to, size_t align, size_t size) {
    void *made = memalign(align, size);
    if (!made) return ENOMEM;
    *to = made;
    return 0;
}
"""

HEAD = "catalog bank\nrow acct 1 = 10\nrow acct 2 = 20\nrow acct 3 = 30\n"
WAITS = HEAD + "tx add 1 5\ntx add 1 7\nend 1\nend 2\n"
RUNS = "tx add 1 5\ntx add 1 7\nend 1\ntx copy 1 2\nend 2\n"
# what `once` prints for WAITS
REPORT = """batch 1
1 ok 15
2 wait waw 1
order 1
end 1
batch 2
2 ok 22
order 2
end 2
state 2
row acct 1 = 22
row acct 2 = 20
row acct 3 = 30
end state
"""
ENTRY = "--kind tpcc --warehouses 1 --customers 30 --items 100 --batches 2 --size 20"

# what is run: its name, the script whose store it begins over, the arguments and the input
CASES = [
    ("once", None, "once", WAITS),
    ("once, refused", None, "once", HEAD + "tx add 1 5\nend 3\n"),
    ("once, late run", None, "once --fallback 50", HEAD + "tx add 1 5\ntx add 1 7\nend 1\n"),
    ("once, workers and replicas", None, "once --fallback 50 --workers 4 --replicas 3", WAITS),
    ("init", None, "init", HEAD),
    ("run", HEAD, "run", RUNS),
    ("run, checkpoints", HEAD, "run --checkpoint 1", RUNS),
    ("replay", HEAD, "replay", ""),
    ("gen", None, "gen " + ENTRY, ""),
    ("bench", None, "bench " + ENTRY + " --fallback 0 --drain", ""),
    ("mix", None, "mix --batches 2 --size 10 --workers 2", ""),
    ("nodes", None, "nodes --nodes 3", WAITS),
    ("check", None, "check", WAITS + "report\n" + REPORT),
]


class Runner:
    def __init__(self, program, folder):
        self.program, self.folder = os.path.abspath(program), folder
        self.library, self.told = f"{folder}/refuse.so", f"{folder}/told"
        with open(f"{folder}/refuse.c", "w", encoding="ascii") as file:
            file.write(LIBRARY)
        subprocess.run(["cc", "-O2", "-shared", "-fPIC", "-o", self.library, f"{folder}/refuse.c", "-ldl"], check=True)

    def run(self, words, script, store, refused=None):
        """Runs the program over a copy of the store: its output, its status, and how often it asked for memory."""
        shutil.rmtree(f"{self.folder}/run", ignore_errors=True)
        os.makedirs(f"{self.folder}/run")
        if store:
            shutil.copytree(store, f"{self.folder}/run/aria-store")
        how = {"LD_PRELOAD": self.library, "REQUESTS_TOLD": self.told}
        if refused is not None:
            how["REFUSED_REQUEST"] = str(refused)
        done = subprocess.run([self.program, *words.split()], input=script.encode("ascii"), stdout=subprocess.PIPE,
                              stderr=subprocess.DEVNULL, cwd=f"{self.folder}/run", env=how, timeout=600, check=False)
        with open(self.told, encoding="ascii") as file:
            return done.stdout, done.returncode, int(file.read())

    def store_of(self, name, head, batches):
        """A store with these rows and batches."""
        made = f"{self.folder}/{name}"
        self.run("init", head, None)
        shutil.move(f"{self.folder}/run/aria-store", made)
        if batches:
            self.run("run", batches, made)
            shutil.rmtree(made)
            shutil.move(f"{self.folder}/run/aria-store", made)
        return made

    def kept(self):
        """How many batches the store has that the last run left; None where it does not open."""
        left = f"{self.folder}/left"
        shutil.rmtree(left, ignore_errors=True)
        if not os.path.isdir(f"{self.folder}/run/aria-store"):
            return None
        shutil.copytree(f"{self.folder}/run/aria-store", left)
        text, status, _ = self.run("run", "", left)
        first = text.split(b"\n")[0].split(b" ")
        return int(first[1]) if status == 0 and first[0] == b"at" else None


def answered(text):
    """How many batches have a byte of their answer in this output."""
    return sum(1 for line in text.split(b"\n") if line.startswith(b"batch "))


def tried(runner, name, words, script, store, most):
    wanted, status, count = runner.run(words, script, store)
    bad, ended = [], {}
    for number in range(1, min(count, most) + 1):
        text, code, _ = runner.run(words, script, store, number)
        ended[code] = ended.get(code, 0) + 1
        right = (code, text) == (status, wanted) or (code == NO_MEMORY and wanted.startswith(text))
        if right and words.startswith("run"):
            kept = runner.kept()
            right = kept is not None and answered(text) <= kept <= answered(wanted)
        if not right:
            bad.append(number)
    told = ", ".join(f"{times} with status {code}" for code, times in sorted(ended.items()))
    print(f"{name}: {count} requests, {sum(ended.values())} refused one by one: {told}", flush=True)
    if bad:
        print(f"  wrong where these were refused: {bad[:20]}", flush=True)
    return not bad


def main():
    given = argparse.ArgumentParser(description="Refuses each request for memory in turn.")
    given.add_argument("program")
    given.add_argument("--most", type=int, default=100_000, help="the most requests that are refused in one case")
    given = given.parse_args()
    with tempfile.TemporaryDirectory(prefix="refuse-") as folder:
        runner = Runner(given.program, folder)
        empty, full = runner.store_of("empty", HEAD, None), runner.store_of("full", HEAD, RUNS)
        stores = {"run": empty, "replay": full}
        right = [tried(runner, name, words, script, stores.get(words.split()[0]) if over else None, given.most)
                 for name, over, words, script in CASES]
    print(f"{sum(right)} of {len(right)} cases right")
    return 0 if all(right) else 1


if __name__ == "__main__":
    sys.exit(main())
