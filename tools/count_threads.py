#!/usr/bin/env python3
"""count_threads.py DRIVER

Counts the threads that calls of the library start: those that merge remembered sets, search and make a pause ready.
DRIVER, the built crates/g1_rows, runs each on an image with more cards than one thread is given, as a row whose answer
is written here, and says where the call begins and ends. The call has to start at least one thread, and no more than
there may be workers; on an image of few cards it has to start none, and none to list dirty cards, however many they are.
A search for live bytes and a pause have many roots and no cards, and four workers that draw the usual chunk: they have to
start at least three threads in the round of the roots, and none with one worker. On a machine of one processor nothing is
counted.
It needs a C compiler. The last line is 'N passed, M failed'.
"""
import argparse
import os
import pathlib
import struct
import sys
import tempfile

sys.path.insert(0, str(pathlib.Path(__file__).resolve().parent / "lib"))

import progress  # noqa: E402
from images import SHARED, SHARED_AFTER, all_dirty, numbers  # noqa: E402
from image_text import in_version_two  # noqa: E402
from programs import add_driver  # noqa: E402
from refusing import BEGIN, END, Judge, compiled, preloading, run  # noqa: E402
from rows import lists, row  # noqa: E402

LIBRARY = r"""
#define _GNU_SOURCE
#include <dlfcn.h>
#include <fcntl.h>
#include <pthread.h>
#include <stdatomic.h>
#include <stdio.h>
#include <stdlib.h>
#include <unistd.h>

extern void *__libc_malloc(size_t);

static atomic_int counts;
static atomic_long threads;

static void report(void) {
    char text[24];
    int file = open(getenv("THREADS_REPORT"), O_CREAT | O_TRUNC | O_WRONLY, 0600);
    int length = snprintf(text, sizeof text, "%ld", atomic_load(&threads));
    if (file < 0 || write(file, text, length) != length) abort();
    close(file);
}

void *malloc(size_t size) {
    if (size == BEGIN || size == END) atomic_store(&counts, size == BEGIN);
    if (size == END) report();
    return __libc_malloc(size);
}

int pthread_create(pthread_t *thread, const pthread_attr_t *how, void *(*work)(void *), void *what) {
    static int (*real)(pthread_t *, const pthread_attr_t *, void *(*)(void *), void *);
    if (!real) real = dlsym(RTLD_NEXT, "pthread_create");
    if (atomic_load(&counts)) atomic_fetch_add(&threads, 1);
    return real(thread, how, work, what);
}
"""
WORKERS = 64
FULL = 96


def cards_of_others(region, first=0):
    """The cards of the regions from the first one on, except one region's own."""
    return [card for card in range(first * 256, FULL * 256) if card // 256 != region]


def all_remembered(first=0):
    """Each of 96 regions, of one object without slots, remembers the 256 cards of each other: enough for 64 threads. The
    regions before the first one are free."""
    sets = b"".join(numbers(len(cards), *cards) for cards in (cards_of_others(region, first) for region in range(first, FULL)))
    front = numbers(1024, 4, FULL + 1, 0, 0, FULL + 1) + numbers(*[0, 0] * first, *[1, 1] * (FULL - first), 0, 0)
    return b"G1IMAGE1" + front + numbers(*[0] * first) + sets + numbers(0) + numbers(0, 1) * (FULL - first)


# Enough roots for four workers.
ROOTS = 16_384


def many_roots(first=0):
    """Each of 96 regions has one object without slots, and all roots reference that of region 1. The regions before the
    first one are free."""
    front = numbers(1024, 4, FULL + 1, ROOTS, 0, FULL + 1) + numbers(*[0, 0] * first, *[1, 1] * (FULL - first), 0, 0)
    sets = numbers(*[0] * (FULL + 1))
    return in_version_two(b"G1IMAGE1" + front + struct.pack("<Q", 1024 + 1) * ROOTS + sets + numbers(0, 1) * (FULL - first))


# By four workers or by one, with the usual chunk: the call, and what it answers.
BY_ROUNDS = {
    "live_bytes workers {} chunk 64 budget 0": lambda: lists([8 * (region == 1) for region in range(FULL + 1)]),
    "pause_bytes workers {} chunk 64 regions 0": lambda: many_roots(1),
}
# Of a pause that collects region 0 of that image: the call, and what it answers.
LARGE = {
    "refine": lambda: lists(*(cards_of_others(region) for region in range(FULL)), []),
    "new_rem": lambda: lists([], *(cards_of_others(region, 1) for region in range(1, FULL)), []),
    "prepare": lambda: in_version_two(all_remembered(1)),
    "discover": lambda: lists([]),
}
# Of one that collects region 1 of the shared objects.
SMALL = {
    "refine": lists([], [0, 1], [], []),
    "new_rem": lists([], [], [0, 1], []),
    "prepare": SHARED_AFTER,
    "discover": lists([21, 16]),
}


def count(library, report, driver, words, image, answer):
    """The threads that the call started, or nothing if it answered otherwise."""
    environment = preloading(library, THREADS_REPORT=str(report))
    report.unlink(missing_ok=True)
    out, errors, status = run([driver, "rows"], row(words, image, answer), environment)
    good = status == 0 and not errors and out.endswith(b"\n1 ok, 0 failed\n")
    return int(report.read_text()) if good and report.exists() else None


def main():
    parser = argparse.ArgumentParser(description=__doc__, formatter_class=argparse.RawDescriptionHelpFormatter)
    add_driver(parser)
    parser.add_argument("--first", action="store_true", help="end at the first failure")
    options = parser.parse_args()
    if len(os.sched_getaffinity(0)) < 2:
        print("one processor: nothing is counted")
        return 0
    judge = Judge()
    progress.show("tried", lambda: judge.passed)
    with tempfile.TemporaryDirectory() as room:
        folder = pathlib.Path(room)
        words = ["-shared", "-fPIC", f"-DBEGIN={BEGIN}", f"-DEND={END}"]
        library = compiled(folder, "count.so", LIBRARY, *words)
        counted = (library, folder / "threads", options.driver)
        large = [(f"{call} regions 0", all_remembered(), answer()) for call, answer in LARGE.items()]
        team = f"workers {WORKERS} chunk 64"
        for call, image, answer in large:
            started = count(*counted, f"{call} {team}", image, answer)
            judge.judge(f"{call} of many cards: {started} threads", started is not None and 1 <= started < WORKERS)
        for call, answer in SMALL.items():
            started = count(*counted, f"{call} regions 1 {team}", SHARED, answer)
            judge.judge(f"{call} of few cards: {started} threads", started == 0)
        started = count(*counted, f"refine regions 0 {team}", all_dirty(), lists([64 * 16_384], *[[]] * 64))
        judge.judge(f"refine of many dirty cards: {started} threads", started == 0)
        for call, answer in BY_ROUNDS.items():
            started = [count(*counted, call.format(workers), many_roots(), answer()) for workers in (4, 1)]
            judge.judge(f"{call.format(4)}: {started[0]} threads", started[0] is not None and started[0] >= 3)
            judge.judge(f"{call.format(1)}: {started[1]} threads", started[1] == 0)
    return judge.end()


if __name__ == "__main__":
    sys.exit(main())
