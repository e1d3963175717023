#!/usr/bin/env python3
"""Runs all scripts of this folder in one go: all.py [JAVA ..]

  judge    each collector of each JAVA, by dumps before and after collections (judge.py)
  across   the same program under each collector (across.py)
  plants   errors planted in dumps (plants.py)
  live     errors planted in the heap of a running JVM (plants.py --live)
  pause    pauses of G1 beside ours (pause.py), for each JAVA that is a JDK 25 or later

JAVA is a command or a path (`java`). What a part prints stands behind a line '== PART'. An earlier JDK has a line that
says that `pause` is not run with it. The last line is 'N passed, M failed' and how many were not run: it counts the parts,
`pause` once for each JAVA. It takes some minutes for each JAVA.
Statuses: 0 all passed; 1 a part failed; 2 usage, or a program is not there; 3 all passed that ran, and a part was not run.
"""
import argparse
import os
import subprocess
import sys

import jvm
import pause

PARTS = {"judge": ["judge.py"], "across": ["across.py"], "plants": ["plants.py"], "live": ["plants.py", "--live"]}


def passes(part, script, *words):
    """Runs a script below the name of the part: whether it passed."""
    print(f"== {part}", flush=True)
    return subprocess.run([sys.executable, jvm.HERE / script, *words], stdin=subprocess.DEVNULL, check=False).returncode == 0


def versions(javas):
    """Each of these javas once, with its version. One that doesn't work is left out: the other parts say why."""
    found, problems = {}, []
    for java in javas:
        try:
            path, version = jvm.version_of(java)
            found.setdefault(os.path.realpath(path), (java, version))
        except jvm.Problem as problem:
            problems.append(str(problem))
    if not found:
        raise jvm.Problem("; ".join(problems))
    return found.values()


def work(javas):
    jvm.heap_program()
    known, left = versions(javas), 0
    results = [passes(part, *words, *javas) for part, words in PARTS.items()]
    for java, version in known:
        if jvm.major_of(version) < pause.JDK:
            print(f"== pause\n{java} is a JDK {jvm.major_of(version)}, and pauses are compared with JDK {pause.JDK}: NOT RUN")
            left += 1
        else:
            results.append(passes("pause", "pause.py", java))
    print(f"{results.count(True)} passed, {results.count(False)} failed" + (f", {left} not run" if left else ""))
    return 1 if False in results else 3 if left else 0


def main():
    parser = argparse.ArgumentParser(description=__doc__, formatter_class=argparse.RawDescriptionHelpFormatter)
    parser.add_argument("java", nargs="*", metavar="JAVA", help="a java: a command or a path (default: java)")
    try:
        return work(parser.parse_args().java or ["java"])
    except jvm.Problem as problem:
        print(f"all.py: {problem}", file=sys.stderr)
        return 2


if __name__ == "__main__":
    sys.exit(main())
