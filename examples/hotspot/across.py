#!/usr/bin/env python3
"""Compares a program under two collectors: across.py [--objects N] [--steps N] [--without CLASS.FIELD ..] JAVA ..

Judge.java changes its graph in N steps while it allocates and the collector works, and dumps its heap at the end. It
does the same in each run, so its last heap has to be the same under each collector. For each JAVA it runs once under
Serial, and then under each collector that this java has, Serial again among them. The script compares each heap with
the first one, by `g1heap same` and by a second judge in plain Python. This finds errors that two dumps around a pause
can't show: a barrier that loses a reference, or a slot that is updated while the program uses it.

A field that differs from run to run without an error has to be left out. One is java.lang.String.hash, since other code
of the JVM may ask a shared string for its hash. Others are tables that are ordered by identity hashes. If no --without is
given, both are left out for Judge.java. A JAVA that does not work has a line that says why, and counts as one failure. The
last line is 'N passed, M failed'.
Statuses: 0 all passed; 1 a run failed; 2 usage, or a program is not there.
"""
import argparse
import pathlib
import sys
import tempfile

import jvm

LEFT_OUT = ["java.lang.String.hash", "Judge$Root.byIdentity"]
LEFT_OUT_LATER = ["java.lang.String.hashIsZero"]  # a field from Java 13 on


def left_out_for(java, options):
    if options.without is not None:
        return options.without
    return LEFT_OUT + (LEFT_OUT_LATER if java.major >= 13 else [])


def run_once(java, flags, options, room, name):
    """One run's dump, and how often the collector had run at its end."""
    said = java.run(flags, "Judge", options.objects, options.steps, room / name, "work")
    return room / f"{name}.hprof", said.strip().partition(" | ")[2]


def compared(heap, first, dump, left_out):
    """What both judges say of a heap and the one under Serial, and whether both say the same."""
    image = jvm.convert(dump, left_out)
    line, plain = jvm.verdict(heap, first[1], image), jvm.plain_verdict(first[0], dump, left_out)
    for file in image:
        file.unlink()
    if line.startswith("same") and plain.startswith(f"{line}, "):
        return line, True
    return f"{line}\n    plain judge: {plain}", False


def work(options):
    heap, passed = jvm.heap_program(), 0
    with tempfile.TemporaryDirectory() as folder:
        room = pathlib.Path(folder)
        javas, failed = jvm.working(options.java, room)
        for java in javas:
            left_out = left_out_for(java, options)
            dump, _ = run_once(java, jvm.COLLECTORS["Serial"], options, room, f"first_{java.version}")
            first = dump, jvm.convert(dump, left_out)
            for name, flags in java.collectors():
                try:
                    other, ran = run_once(java, flags, options, room, "other")
                    line, good = compared(heap, first, other, left_out)
                except jvm.TooLarge:
                    raise
                except jvm.Problem as problem:
                    line, ran, good = str(problem), "nothing", False
                print(f"{java.version} {name}: {line}, ran {ran}", flush=True)
                passed, failed = passed + good, failed + (not good)
    print(f"{passed} passed, {failed} failed")
    return 1 if failed or not passed else 0


def main():
    parser = argparse.ArgumentParser(description=__doc__, formatter_class=argparse.RawDescriptionHelpFormatter)
    parser.add_argument("java", nargs="+", metavar="JAVA", help="a java: a command or a path")
    parser.add_argument("--objects", type=jvm.count, default=100_000, metavar="N", help="about how many objects (default: 100000)")
    parser.add_argument("--steps", type=jvm.count, default=300_000, metavar="N", help="how many steps (default: 300000)")
    parser.add_argument("--without", action="append", metavar="CLASS.FIELD", help="a field that is left out")
    options = parser.parse_args()
    return jvm.ended("across", lambda: work(options))


if __name__ == "__main__":
    sys.exit(main())
