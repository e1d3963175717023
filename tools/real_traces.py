#!/usr/bin/env python3
"""real_traces.py [G1PAUSE] [--seed N] [--runs 3] [--only NAME] [--power]

Runs the four programs of examples/programs (a cache, binary trees, JSON, a small Scheme) on a heap that writes a trace, runs
each trace through `G1PAUSE run`, and compares each reply with that of a plain store. The heap pauses every few hundred words,
each time with another budget; `--runs` traces are made of each program, with other pauses. A line for each trace has what it
did; the last line is 'N passed, M failed'. With `--write FOLDER` the traces are written there as NAME-SEED.trace.

With --power it measures what such a test can find. It copies the repository, lets the write barrier of the copy forget the
card of each address that leaves 3 when divided by 7, and builds this g1pause without any proof, which takes some minutes
and needs `rt`. A program passes if one of its traces notices. Three of the four have to.
Statuses: 0 all passed, or with --power three; 1 a reply is wrong, or too few have noticed; 2 usage, or nothing was built.
"""
import argparse
import importlib.util
import os
import pathlib
import subprocess
import sys
import tempfile

sys.path.insert(0, str(pathlib.Path(__file__).resolve().parent / "lib"))

from programs import add_program  # noqa: E402
import progress  # noqa: E402
import traced  # noqa: E402
import unproved  # noqa: E402
from unprivileged import let_in, unprivileged  # noqa: E402

PROGRAMS = ["lru_cache", "binary_trees", "json_lists", "scheme"]
TOP = pathlib.Path(__file__).resolve().parent.parent
SECONDS = 60  # for one trace
# A write barrier that loses one address in seven.
BROKEN = [("crates/g1_trace/src/writing.rt", "if crosses(geometry, at, value) {", "if crosses(geometry, at, value) && at % 7 != 3 {")]
NOTICING = 3  # as many programs have to notice it
FOLDER = os.path.join(os.path.dirname(os.path.abspath(__file__)), "..", "examples", "programs")


def program(name):
    spec = importlib.util.spec_from_file_location(name, os.path.join(FOLDER, f"{name}.py"))
    module = importlib.util.module_from_spec(spec)
    spec.loader.exec_module(module)
    return module


def made(name, seed):
    """The traced heap after the program has run, and whether its result is right."""
    heap = traced.Heap(words=256, card=4, regions=4096, roots=60000, pauses=traced.Pauses(every=700, seed=f"{name} {seed}"))
    module = program(name)
    result = module.run(heap)
    heap.end()
    return heap, result == module.expected()


def first_wrong(heap, told):
    """What the first wrong reply is, or None."""
    for number, (line, wanted, got) in enumerate(zip(heap.lines[1:], heap.replies, told), 2):
        if wanted != got:
            return f"line {number}: {line} -> {got}, expected {wanted}"
    if len(told) != len(heap.replies):
        return f"{len(told)} replies for {len(heap.replies)} commands"
    return None


def fault(g1pause, heap, **user):
    """What is wrong with the replies of `G1PAUSE run` to a heap's trace, or None."""
    try:
        done = subprocess.run([g1pause, "run"], input=heap.text(), capture_output=True, timeout=SECONDS, **user)
    except subprocess.TimeoutExpired:
        return f"no answer within {SECONDS} seconds"
    if done.returncode < 0:
        return f"ended by signal {-done.returncode}"
    if done.returncode:
        return f"status {done.returncode} {done.stderr.decode(errors='replace').strip()}"
    return first_wrong(heap, done.stdout.decode().splitlines())


def judged(g1pause, name, seed, folder):
    heap, is_right = made(name, seed)
    if folder:
        with open(os.path.join(folder, f"{name}-{seed}.trace"), "wb") as file:
            file.write(heap.text())
    wrong = fault(g1pause, heap) if is_right else "the program's own result is wrong"
    print(f"{name} {seed}: {len(heap.replies)} commands, {heap.objects} objects, {heap.pauses.count} pauses, "
          f"at most {heap.held} roots: {wrong or 'every reply is right'}", flush=True)
    return wrong is None


def first_noticed(broken, name, seeds):
    """What the first trace of a program is that notices the broken barrier, or None."""
    for seed in seeds:
        heap, is_right = made(name, seed)
        if not is_right:
            raise SystemExit(f"{name} {seed}: the program's own result is wrong")
        wrong = fault(broken, heap, **unprivileged())
        if wrong:
            return f"trace {seed}: {wrong}"
    return None


def power(names, seeds):
    """Whether enough programs notice a broken barrier."""
    with tempfile.TemporaryDirectory() as room:
        let_in(pathlib.Path(room))
        broken = os.path.join(room, "g1pause")
        print("building g1pause with a broken write barrier, without any proof", flush=True)
        unproved.build_changed(TOP, BROKEN, "g1pause", broken)
        noticed = 0
        for name in names:
            found = first_noticed(broken, name, seeds)
            print(f"{name}: {found or 'NOT NOTICED'}", flush=True)
            noticed += found is not None
    print(f"{noticed} passed, {len(names) - noticed} failed")
    return noticed >= min(NOTICING, len(names))


def positive(text):
    if not text.isdigit() or int(text) == 0:
        raise argparse.ArgumentTypeError(f"{text}: a number from 1 on is wanted")
    return int(text)


def main():
    parser = argparse.ArgumentParser(description=__doc__, formatter_class=argparse.RawDescriptionHelpFormatter)
    add_program(parser, "g1pause")
    parser.add_argument("--seed", type=int, default=1, metavar="N")
    parser.add_argument("--runs", type=positive, default=3, metavar="N")
    parser.add_argument("--only", choices=PROGRAMS, metavar="NAME")
    parser.add_argument("--write", metavar="FOLDER")
    parser.add_argument("--power", action="store_true", help="how many programs notice a broken write barrier")
    options = parser.parse_args()
    if options.write and not os.path.isdir(options.write):
        parser.error(f"--write: there is no folder {options.write}")
    sys.setrecursionlimit(100000)
    names = [options.only] if options.only else PROGRAMS
    if options.power:
        try:
            sys.exit(not power(names, range(options.seed, options.seed + options.runs)))
        except unproved.NotBuilt as error:
            parser.error(str(error).strip().splitlines()[-1])
    runs = [(name, seed) for name in names for seed in range(options.seed, options.seed + options.runs)]
    answers = [judged(options.g1pause, name, seed, options.write) for name, seed in progress.over(runs, "traces")]
    print(f"{sum(answers)} passed, {len(answers) - sum(answers)} failed")
    sys.exit(not all(answers))


if __name__ == "__main__":
    main()
