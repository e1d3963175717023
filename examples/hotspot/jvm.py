"""What the scripts of this folder share: the collectors of a java, a run of Judge, the verdict on two dumps."""
import argparse
import os
import pathlib
import re
import shutil
import subprocess
import sys

HERE = pathlib.Path(__file__).resolve().parent
TOP = HERE.parent.parent
sys.path.insert(0, str(TOP / "tools" / "lib"))

import programs  # noqa: E402 (it is in tools/lib/)
import progress  # noqa: E402

CONVERTER, PATHS = TOP / "tools" / "hprof2image.py", TOP / "tools" / "hprof_path.py"
ROOT = "Judge.root"
MOST_HEAP = "-Xmx160m"
MOST_COUNT = 2**31 - 1
SECONDS = 900  # for one program
TOO_LARGE = 5  # the converter's status if the objects do not fit
COLLECTORS = {
    "Serial": ["-XX:+UseSerialGC"],
    "Parallel": ["-XX:+UseParallelGC"],
    "G1": ["-XX:+UseG1GC"],
    "ZGC": ["-XX:+UseZGC"],
    "ZGC generational": ["-XX:+UseZGC", "-XX:+ZGenerational"],
    "Shenandoah": ["-XX:+UseShenandoahGC"],
    "Shenandoah generational": ["-XX:+UseShenandoahGC", "-XX:+UnlockExperimentalVMOptions",
                                "-XX:ShenandoahGCMode=generational"],
}


class Problem(Exception):
    """One line that says why there is no verdict."""


class TooLarge(Problem):
    """The heap does not fit: so no other run has a verdict, either."""


def run(*words, output=None):
    """Runs a program: its status, and what it said."""
    try:
        with progress.doing(pathlib.Path(words[0]).name):
            done = subprocess.run([str(word) for word in words], stdout=output or subprocess.PIPE, stderr=subprocess.PIPE,
                                  stdin=subprocess.DEVNULL, timeout=SECONDS, check=False)
    except OSError as error:
        raise Problem(f"{words[0]}: {error.strerror}") from None
    except subprocess.TimeoutExpired:
        raise Problem(f"{words[0]}: was ended after {SECONDS} seconds") from None
    return done.returncode, (done.stdout or b"").decode(errors="replace"), done.stderr.decode(errors="replace")


def last_line(text):
    lines = text.strip().splitlines()
    return lines[-1] if lines else "it said nothing"


def failure_of(text):
    """The line of what a java said that says why it failed: below an exception are the places that it passed."""
    found = re.search(r"^.*(?:Exception|Error)\b.*$", text, re.M)
    return found[0].strip() if found else last_line(text)


def heap_program():
    """The built g1heap: that of G1HEAP, or of the checkout or the release, or on the path."""
    named = os.environ.get("G1HEAP")
    if named:
        if not shutil.which(named):
            raise Problem(f"G1HEAP={named}: there is no such program")
        return named
    found = programs.find("g1heap")
    if not os.access(found, os.X_OK):
        raise Problem("there is no g1heap: tools/build.py --unproved builds it, or name it by G1HEAP=FILE")
    return found


def version_of(command):
    """The path of a java, and its version."""
    path = shutil.which(command)
    if not path:
        raise Problem(f"there is no java '{command}'")
    status, _, errors = run(path, "-version")
    found = re.search(r'version "([^"]+)"', errors)
    if status or not found:
        raise Problem(f"{command}: no java: {last_line(errors)}")
    return path, found[1]


def major_of(version):
    """The number that a version begins with, or the one behind 1."""
    return int(re.match(r"(?:1\.)?(\d+)", version)[1])


class Java:
    """A java, with the programs compiled for it."""

    def __init__(self, command, room, sources=("Judge.java",)):
        self.command, self.version = version_of(command)
        self.major = major_of(self.version)
        self.classes = room / f"classes_{self.version}"
        beside = pathlib.Path(self.command).resolve().with_name("javac")
        javac = str(beside) if beside.exists() else shutil.which("javac")
        if not javac:
            raise Problem(f"{command}: there is no javac beside it, and none on the path")
        status, _, errors = run(javac, "-nowarn", "-d", self.classes, *(HERE / source for source in sources))
        if status:
            raise Problem(f"{javac}: status {status}: {failure_of(errors)}")

    def collectors(self):
        """The collectors that this java has, with their options."""
        for name, options in COLLECTORS.items():
            status, _, errors = run(self.command, *options, "-version")
            if status == 0 and "gnoring option" not in errors:
                yield name, options

    def run(self, options, *words):
        """Runs a class with its words, and returns what it said."""
        status, out, errors = run(self.command, *options, MOST_HEAP, "-cp", self.classes, *words)
        if "java.lang.OutOfMemoryError" in errors:
            raise TooLarge(f"so many objects do not fit into the heap of {MOST_HEAP}: give fewer by --objects")
        if status:
            raise Problem(f"java ended with status {status}: {failure_of(errors or out)}")
        return out


def working(commands, room, sources=("Judge.java",)):
    """The javas of these commands that work, each once: /usr/lib/jvm has links beside the folders that they lead to. Each
    other one has a line that says why, and they are counted. If none works, there is nothing to judge."""
    once, found, problems = {}, [], []
    for command in commands:
        once.setdefault(os.path.realpath(shutil.which(command) or command), command)
    for command in once.values():
        try:
            found.append(Java(command, room, sources))
        except Problem as problem:
            problems.append(str(problem) if command in str(problem) else f"{command}: {problem}")
    if not found:
        raise Problem("; ".join(problems))
    for problem in problems:
        print(f"{problem}: NOT JUDGED", flush=True)
    return found, len(problems)


def convert(dump, left_out=()):
    """Makes an image with its names beside a dump."""
    image, names = dump.with_suffix(".img"), dump.with_suffix(".names")
    words = [word for field in left_out for word in ("--without", field)]
    with open(image, "wb") as file:
        status, _, errors = run(CONVERTER, "--from", ROOT, *words, "--names", names, dump, output=file)
    if status:
        raise (TooLarge if status == TOO_LARGE else Problem)(last_line(errors))
    return image, names


def verdict(heap, before, after):
    """What g1heap says of two images with their names, and in a second line, if they differ, the program's names."""
    _, out, errors = run(heap, "same", before[0], after[0])
    said = last_line(out or errors)
    if not said.startswith("differ"):
        return said
    done = subprocess.run([PATHS, *before, *after], input=said, capture_output=True, text=True, check=False)
    return f"{said}\n    {last_line(done.stdout or done.stderr)}"


def plain_verdict(before, after, left_out=()):
    """What the second judge says."""
    words = [word for field in left_out for word in ("--without", field)]
    _, out, errors = run(HERE / "plain_judge.py", before, after, ROOT, *words)
    return last_line(out or errors)


def count(text):
    """A number of objects or steps, as the type of an argument."""
    if not text.isdigit() or not 1 <= int(text) <= MOST_COUNT:
        raise argparse.ArgumentTypeError(f"{text}: a number from 1 to {MOST_COUNT} is wanted")
    return int(text)


def ended(script, work):
    """Ends a script with its status. What stops it is said in one line."""
    try:
        with progress.doing("judging"):
            return work()
    except Problem as problem:
        print(f"{script}: {problem}", file=sys.stderr)
        return 2
