#!/usr/bin/env python3
"""Judges the collectors of Java virtual machines: judge.py [--objects N] [--collection NAME] [--only NAME] JAVA ..

JAVA is a command, such as `java`, or a path. For each JAVA and each collector that it has, the script runs Judge.java
three times: with a full collection, with young ones, and with six rounds of both. Each run dumps its heap before and
after. Both dumps become images of what Judge.root leads to, and `g1heap same` compares them. A second judge in plain
Python, which shares nothing with these, compares the dumps themselves, and counts the objects that have moved. The
script prints a line for each run.

A run fails if one of the judges finds a difference, if their numbers of objects or words differ, or if the collector
did not run between the dumps. A run in which no object moved judges nothing, and does not count; a collector without any
other run fails. A JAVA that does not work has a line that says why, and counts as one failure. The last line is 'N passed,
M failed'.
Statuses: 0 all passed; 1 a run failed; 2 usage, or a program is not there.
"""
import argparse
import pathlib
import re
import sys
import tempfile

import jvm

HOW = ("full", "young", "mixed")
STEPS = 1_500_000  # arrays that die young


def counts(said, when):
    """How often each part of the collector had run."""
    line = next((line for line in said.splitlines() if line.startswith(when)), "")
    return {name: int(count) for name, count in re.findall(r"\| ([^|]+?) (\d+)(?= \||$)", line)}


def collections(said):
    """What ran between the dumps."""
    before, after = counts(said, "before"), counts(said, "after")
    ran = {name: after[name] - before.get(name, 0) for name in after}
    return ", ".join(f"{name} {count}" for name, count in ran.items() if count)


def judged(heap, java, options, how, objects, room):
    """The line of one run, and whether it passed. That is None if no object moved."""
    said = java.run(options, "Judge", objects, STEPS, room / "dump", how)
    if "another identity hash" in said:
        return "an object has another identity hash", False
    dumps = [room / f"dump_{when}.hprof" for when in ("before", "after")]
    before, after = (jvm.convert(dump) for dump in dumps)
    line, plain = jvm.verdict(heap, before, after), jvm.plain_verdict(*dumps)
    for file in (*dumps, *before, *after):
        file.unlink()
    ran = collections(said)
    if not ran:
        return "the collector has not run", False
    same = re.fullmatch(r"(same objects \d+ words \d+), (\d+) of them at another address", plain)
    if not same or same[1] != line:
        return f"{line}\n    plain judge: {plain}", False
    moved = int(same[2])
    return f"{line}, moved {moved}, ran {ran}" + ("" if moved else ": judged nothing"), True if moved else None


def judged_runs(heap, java, name, flags, options, room):
    """Whether each run under a collector passed. Each has its line, and so has a collector that moved nothing."""
    found = []
    for how in options.collection or HOW:
        try:
            line, good = judged(heap, java, flags, how, options.objects, room)
        except jvm.TooLarge:
            raise
        except jvm.Problem as problem:
            line, good = str(problem), False
        print(f"{java.version} {name} {how}: {line}", flush=True)
        found.append(good)
    if not any(good is not None for good in found):
        print(f"{java.version} {name}: no object moved in any run", flush=True)
        found = [False]
    return [good for good in found if good is not None]


def work(options):
    heap, passed = jvm.heap_program(), []
    with tempfile.TemporaryDirectory() as folder:
        room = pathlib.Path(folder)
        javas, failed = jvm.working(options.java, room)
        for java in javas:
            for name, flags in java.collectors():
                if options.only in (None, name):
                    passed += judged_runs(heap, java, name, flags, options, room)
    failed += passed.count(False)
    print(f"{passed.count(True)} passed, {failed} failed")
    return 1 if failed or not passed else 0


def main():
    parser = argparse.ArgumentParser(description=__doc__, formatter_class=argparse.RawDescriptionHelpFormatter)
    parser.add_argument("java", nargs="+", metavar="JAVA", help="a java: a command or a path")
    parser.add_argument("--objects", type=jvm.count, default=200_000, metavar="N", help="about how many objects (default: 200000)")
    parser.add_argument("--collection", action="append", choices=HOW, metavar="NAME", help="full, young or mixed, and no other")
    parser.add_argument("--only", choices=jvm.COLLECTORS, metavar="NAME", help="this collector alone")
    options = parser.parse_args()
    return jvm.ended("judge", lambda: work(options))


if __name__ == "__main__":
    sys.exit(main())
