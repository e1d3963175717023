#!/usr/bin/env python3
"""Builds g1pause and g1heap into out/: build.py [--unproved] [--jobs N]

  build.py             proves every crate that the programs are made of, and builds the programs
  build.py --unproved  builds the programs without any proof, at full speed, in a few minutes

The programs are then out/g1pause and out/g1heap. Beside them is out/PROVED or out/UNPROVED, which says what they are,
with the sums of the sources and of the programs. Where the programs are those of the sources, nothing is built again.
The --version of a program without a proof says so, with the commit of its crates.

While it works, a line every few seconds says what it does and for how long, in place on a terminal. While it proves, the
screen also has a line for each crate: its number of all, its name and the time that it took. What the prover says goes
to out/build.log. All crates were proved in 23 minutes on four processors. A proof takes 6 GB of room on the disk, and no
more crates are proved at once than there are 3 GB of free memory for. It may be interrupted: what is proved is kept, and
the next call goes on from there. Libraries that `rt ci` has proved on this machine, of the same files and by the same
kit, are taken from what it kept. Only the others and the programs' own crates are then proved.

It needs the Rattle kit: its command `rt` on the path. Statuses: 0 built; 1 not proved or not built; 2 usage, or no
rt; 130 interrupted.
"""
import argparse
import itertools
import os
import pathlib
import re
import shutil
import subprocess
import sys
import time
from concurrent.futures import ThreadPoolExecutor

sys.path.insert(0, str(pathlib.Path(__file__).resolve().parent / "lib"))

import progress  # noqa: E402 (it is in lib/)
import proving  # noqa: E402
import stamp  # noqa: E402
import unproved  # noqa: E402

TOP = stamp.TOP
OUT = TOP / "out"
CRATES = TOP / "crates"
LOG = OUT / proving.LOG
NOT_PROVED = "Nothing is proved of them: tools/build.py proves them."


def say(text):
    print(text, flush=True)


def took(start):
    return progress.in_words(time.monotonic() - start)


def put(program, name, word):
    """Puts a program into out/, in one step, and takes away what said what was there."""
    for old in stamp.SENTENCES:
        if old != word:
            (OUT / old).unlink(missing_ok=True)
    (OUT / word).unlink(missing_ok=True)
    new = OUT / f"{name}.new"
    shutil.copyfile(program, new)
    new.chmod(0o755)
    os.replace(new, OUT / name)


def with_tree(name):
    """The change by which a program's --version names the commit, and says that it is unproved."""
    file = next(path for path in CRATES.glob(f"{name}_*/src/usage.rt")).relative_to(TOP).as_posix()
    version = re.search(r'version: "([^"]+)"', (TOP / file).read_text(encoding="utf-8"))
    if not version:
        raise unproved.NotBuilt(f"{file}: it has no version")
    about = ", ".join(filter(None, [stamp.tree(), "unproved"]))
    return file, version[0], f'version: "{version[1]} ({about})"'


def build_unproved(jobs):
    """Builds both programs without any proof. Each is put into out/ as soon as it is built."""
    start, sums = time.monotonic(), stamp.sources()
    stages = dict.fromkeys(stamp.PROGRAMS, "waits")

    def build(name):
        program = OUT / f"{name}.unproved"
        unproved.build_changed(TOP, [with_tree(name)], name, program, lambda stage: stages.update({name: stage}))
        put(program, name, "UNPROVED")
        program.unlink()
        del stages[name]
        say(f"out/{name} is built, in {took(start)}")

    def how_far():
        return ", ".join(f"{name} {stage}" for name, stage in list(stages.items()))

    say("building g1pause and g1heap without a proof, which takes a few minutes")
    with progress.doing("without a proof", how_far), ThreadPoolExecutor(min(jobs, len(stamp.PROGRAMS))) as pool:
        list(pool.map(build, stamp.PROGRAMS))
    stamp.write(OUT, "UNPROVED", stamp.kit(), sums, stamp.PROGRAMS)
    say(f"both are built. {NOT_PROVED}")


def ask_rt(name):
    """Has rt say in the crate itself, over all that was proved, that the program is that of the sources."""
    done = subprocess.run(["rt", "run", "--", "--version"], cwd=CRATES / name, stdin=subprocess.DEVNULL,
                          stdout=subprocess.PIPE, stderr=subprocess.STDOUT, text=True, errors="replace", check=False)
    with open(LOG, "a", encoding="utf-8") as log:
        print(f"== {name}, once more\n{done.stdout}", file=log)
    if done.returncode:
        raise proving.Failed(f"{name} not proved: out/build.log says why, at its end")


def build_proved(jobs):
    """Proves all crates that the programs are made of, and builds the programs."""
    begun, sums = time.monotonic(), stamp.sources()
    names = stamp.needed(stamp.PROGRAMS, stamp.rows())
    counted = itertools.count(1)

    def proved(name, seconds):
        say(f"{next(counted):3} of {len(names)}  {name:12} {progress.in_words(seconds)}")

    say(f"proving {len(names)} crates; what the prover says is in out/build.log")
    taken = proving.take_kept(TOP, names)
    if taken:
        say(f"{taken} of them are libraries that rt ci proved on this machine, of the same files")
    proving.prove_all(TOP, names, jobs, proved)
    for name in progress.over(stamp.PROGRAMS, "asking rt whether the programs are those of the sources"):
        ask_rt(name)
    if sums != stamp.sources():
        raise proving.Failed("the sources changed while they were proved: call it again")
    for name in stamp.PROGRAMS:
        put(CRATES / name / "out" / name, name, "PROVED")
    stamp.write(OUT, "PROVED", stamp.kit(), sums, stamp.PROGRAMS)
    say(f"out/g1pause and out/g1heap are proved and built, in {took(begun)}")


def is_there(without_proof):
    """Says so, and answers whether out/ has what is asked for."""
    sums = stamp.sources()
    if stamp.is_current(OUT, "PROVED", sums):
        say("out/g1pause and out/g1heap are those of the sources, and proved")
        return True
    if without_proof and stamp.is_current(OUT, "UNPROVED", sums):
        say(f"out/g1pause and out/g1heap are those of the sources. {NOT_PROVED}")
        return True
    return False


def main():
    parser = argparse.ArgumentParser(description=__doc__, formatter_class=argparse.RawDescriptionHelpFormatter)
    parser.add_argument("--unproved", action="store_true", help="without any proof, in a few minutes")
    parser.add_argument("--jobs", metavar="N", type=int, default=os.cpu_count() or 1,
                        help="at most N at a time (default: as many as there are processors)")
    options = parser.parse_args()
    if options.jobs < 1:
        parser.error("--jobs is 1 or more")
    if not (TOP / "crates.txt").is_file():
        parser.error(f"{TOP} is no checkout of the repository: there is no crates.txt")
    if is_there(options.unproved):
        return 0
    if not shutil.which("rt"):
        print("build.py: there is no rt on the path: it comes with the Rattle kit, in its folder bin/", file=sys.stderr)
        return 2
    OUT.mkdir(exist_ok=True)
    try:
        (build_unproved if options.unproved else build_proved)(options.jobs)
    except (proving.Failed, unproved.NotBuilt) as error:
        print(f"build.py: {error}", file=sys.stderr)
        return 1
    except KeyboardInterrupt:
        print("build.py: interrupted; what is proved is kept for the next call", file=sys.stderr)
        return 130
    return 0


if __name__ == "__main__":
    sys.exit(main())
