#!/usr/bin/env python3
"""Asks `spark` with one allocation refused, for each allocation of a command, one after the other.

    python3 tools/failed_allocations.py [--program PATH] [--jobs N] [--most N] [WORD...]

The words are a command of spark; without any, `check`, `leaks` and `run` are asked of an example that
makes, frees and leaks cells, and `make 3` and `selftest 3`. A library that stands before the allocator
of the C library counts the allocations of the program and refuses one of them (cc and Linux are needed).
With each refusal the status has to be 9, or all has to be as without (the C library can do without some
of its own), and each output has to hold a prefix of what it holds without the refusal. With more than
--most allocations, as many of them are tried at equal distances. How many were tried is told, and each
answer that isn't well; then the status is 1.
"""
import argparse
import collections
import os
import pathlib
import subprocess
import sys
import tempfile
from concurrent.futures import ThreadPoolExecutor

TOP = pathlib.Path(__file__).resolve().parent.parent
DATA = TOP / "crates" / "spark_examples" / "data"
REFUSING = r"""
#define _GNU_SOURCE
#include <dlfcn.h>
#include <errno.h>
#include <stdio.h>
#include <stdlib.h>
#include <unistd.h>

static unsigned long count, refused;
static void *(*next_malloc)(size_t), *(*next_realloc)(void *, size_t), *(*next_aligned)(size_t, size_t);
static void *(*next_calloc)(size_t, size_t);
static int (*next_memalign)(void **, size_t, size_t);

__attribute__((constructor)) static void begin(void) {
    const char *number = getenv("REFUSED_ALLOCATION");
    next_malloc = dlsym(RTLD_NEXT, "malloc");
    next_calloc = dlsym(RTLD_NEXT, "calloc");
    next_realloc = dlsym(RTLD_NEXT, "realloc");
    next_aligned = dlsym(RTLD_NEXT, "aligned_alloc");
    next_memalign = dlsym(RTLD_NEXT, "posix_memalign");
    refused = number ? strtoul(number, 0, 10) : 0;
    count = 0;
}

__attribute__((destructor)) static void end(void) {
    const char *name = getenv("ALLOCATIONS_TO");
    FILE *to = name ? fopen(name, "w") : 0;
    if (to) { fprintf(to, "%lu\n", count); fclose(to); }
}

static int refuses(void) { return next_malloc && ++count == refused; }

void *malloc(size_t n) {
    if (!next_malloc) next_malloc = dlsym(RTLD_NEXT, "malloc");
    if (refuses()) { errno = ENOMEM; return 0; }
    return next_malloc(n);
}

void *calloc(size_t n, size_t size) {
    static char early[4096];
    static size_t taken;
    if (!next_calloc) { void *p = early + taken; taken += (n * size + 15) & ~(size_t)15; return p; }
    if (refuses()) { errno = ENOMEM; return 0; }
    return next_calloc(n, size);
}

void *realloc(void *p, size_t n) {
    if (!next_realloc) next_realloc = dlsym(RTLD_NEXT, "realloc");
    if (refuses()) { errno = ENOMEM; return 0; }
    return next_realloc(p, n);
}

void *aligned_alloc(size_t to, size_t n) {
    if (!next_aligned) next_aligned = dlsym(RTLD_NEXT, "aligned_alloc");
    if (refuses()) { errno = ENOMEM; return 0; }
    return next_aligned(to, n);
}

int posix_memalign(void **p, size_t to, size_t n) {
    if (!next_memalign) next_memalign = dlsym(RTLD_NEXT, "posix_memalign");
    if (refuses()) return ENOMEM;
    return next_memalign(p, to, n);
}
"""


def library(folder):
    """The library that refuses."""
    source, made = folder / "refusing.c", folder / "refusing.so"
    source.write_text(REFUSING)
    subprocess.run(["cc", "-O2", "-shared", "-fPIC", "-o", made, source, "-ldl"], check=True)
    return str(made)


class Command:
    """A command of the program, and what it comes to with no allocation refused."""

    def __init__(self, program, refusing, folder, words):
        self.words = [program, *words]
        self.around = {**os.environ, "LD_PRELOAD": refusing}
        counted = folder / "count"
        self.whole = self.answer({"ALLOCATIONS_TO": str(counted)})
        self.count = int(counted.read_text())

    def answer(self, more):
        with open(os.devnull, "rb") as nothing:
            done = subprocess.run(self.words, stdin=nothing, capture_output=True, timeout=120, env={**self.around, **more})
        return done.returncode, done.stdout, done.stderr

    def refused(self, number):
        """What is wrong with the number-th allocation refused, and the status."""
        status, out, err = self.answer({"REFUSED_ALLOCATION": str(number)})
        if (status, out, err) == self.whole:
            return None, "as without"
        if status == 9 and self.whole[1].startswith(out) and self.whole[2].startswith(err):
            return None, "9"
        return "allocation %d: status %d, %r, %r" % (number, status, out[:200], err[:200]), str(status)


def tried(command, jobs, most):
    """How many were tried, the faults, and how often each answer came."""
    step = max(1, -(-command.count // most))
    numbers = range(1, command.count + 1, step)
    with ThreadPoolExecutor(jobs) as pool:
        answers = list(pool.map(command.refused, numbers))
    return len(numbers), [fault for fault, _ in answers if fault], collections.Counter(status for _, status in answers)


def commands(words):
    if words:
        return [words]
    reported, mended = ([str(DATA / "queue" / it) for it in ("queues.ads", "queues.adb", main)] for main in ("main.adb", "mended.adb"))
    leaks = str(DATA / "runs" / "leak_at_an_assignment.adb")
    return [["check", *reported], *([it, *mended] for it in ("check", "leaks", "run")), ["run", leaks], ["make", "3"], ["selftest", "3"]]


def main():
    parser = argparse.ArgumentParser(description=__doc__.splitlines()[0])
    parser.add_argument("--program", default=str(TOP / "crates" / "spark" / "out" / "spark"))
    parser.add_argument("--jobs", type=int, default=os.cpu_count())
    parser.add_argument("--most", type=int, default=20000)
    parser.add_argument("words", nargs="*")
    given = parser.parse_args()
    faults = 0
    with tempfile.TemporaryDirectory() as name:
        folder = pathlib.Path(name)
        refusing = library(folder)
        for words in commands(given.words):
            command = Command(str(pathlib.Path(given.program).resolve()), refusing, folder, words)
            number, wrong, statuses = tried(command, given.jobs, given.most)
            shown = ", ".join("%s: %d" % it for it in sorted(statuses.items()))
            print("%s: status %d, %d allocations, %d tried (%s), %d wrong" % (words[0], command.whole[0], command.count, number, shown, len(wrong)))
            for fault in wrong[:20]:
                print("  " + fault)
            faults += len(wrong)
    return 1 if faults else 0


if __name__ == "__main__":
    sys.exit(main())
