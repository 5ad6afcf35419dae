#!/usr/bin/env python3
"""Tells the blocks of memory of a MiB and more that a run of a program asks for and gives back.

    tools/large_blocks.py PROGRAM [ARGUMENT..] < INPUT

A small library is loaded before the C library, so PROGRAM has to take its memory from there. A line for each request:
what it is, the bytes that the block had and those that it has, and the bytes of all such blocks then. The run's own output
is dropped. The gate does not run this; what was seen stands in docs/performance.md.
"""
import os
import subprocess
import sys
import tempfile

LIBRARY = r"""
#define _GNU_SOURCE
#include <dlfcn.h>
#include <malloc.h>
#include <stdio.h>
#include <stdlib.h>
#include <unistd.h>

enum { LARGE = 1 << 20, LOG = 9 };
static void *(*next_malloc)(size_t);
static void *(*next_realloc)(void *, size_t);
static void (*next_free)(void *);
static size_t all;

static void begin(void) {
    if (next_malloc) return;
    next_malloc = dlsym(RTLD_NEXT, "malloc");
    next_realloc = dlsym(RTLD_NEXT, "realloc");
    next_free = dlsym(RTLD_NEXT, "free");
}

static void tell(const char *what, size_t had, size_t has) {
    if (had >= LARGE) all -= had;
    if (has >= LARGE) all += has;
    if (had < LARGE && has < LARGE) return;
    char line[128];
    int length = snprintf(line, sizeof line, "%-8s %12zu %12zu %12zu\n", what, had, has, all);
    if (write(LOG, line, length) != length) abort();
}

void *malloc(size_t size) {
    begin();
    void *block = next_malloc(size);
    if (block) tell("malloc", 0, malloc_usable_size(block));
    return block;
}

void *realloc(void *old, size_t size) {
    begin();
    size_t had = old ? malloc_usable_size(old) : 0;
    void *block = next_realloc(old, size);
    if (block) tell("realloc", had, malloc_usable_size(block));
    return block;
}

void free(void *block) {
    begin();
    if (!block) return;
    tell("free", malloc_usable_size(block), 0);
    next_free(block);
}
"""


def main():
    with tempfile.TemporaryDirectory() as folder:
        source, library, log = (os.path.join(folder, name) for name in ("large.c", "large.so", "log"))
        with open(source, "w") as out:
            out.write(LIBRARY)
        subprocess.run(["cc", "-O2", "-fPIC", "-shared", "-o", library, source, "-ldl"], check=True)
        with open(log, "wb") as out:
            os.dup2(out.fileno(), 9)
        ran = subprocess.run(sys.argv[1:], env={**os.environ, "LD_PRELOAD": library}, stdout=subprocess.DEVNULL, pass_fds=(9,))
        with open(log) as told:
            print(told.read(), end="")
    return ran.returncode


sys.exit(main())
