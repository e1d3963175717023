#!/usr/bin/env python3
"""Judges the collectors of language runtimes: judge.py [OPTION ..] [RUNTIME ..]

A RUNTIME is one of those that `judge.py --list` prints; without one, each that is installed is judged. The file of a
runtime beside this script is a program in its language. It builds a heap with a tree of N levels, writes it as lines of
objects by name before and after each kind of collection, and then with errors planted into its memory. It also writes a
map of names. docs/RUNTIMES.md says what such a program prints, and --program judges one that is not in the list.

`g1heap same --moved --names` compares each heap with the one before it. A collection passes if nothing differs. The objects
that moved are those with another name, which is their address, or those that the program reports. An error passes if it is
found at its place: the path, the type and the field of the report have to be those that the program says. A runtime fails,
too, if none of its collections moved an object: then nothing was judged. A runtime that never moves one fails if none of
its collections freed one. One whose program plants no error fails. If the program fails, it is said behind what is judged
of the steps that it printed before.
A line for each; the last line is 'N passed, M failed'.
Statuses: 0 all passed; 1 one failed; 2 usage, or a program is not there.
"""
import argparse
import dataclasses
import os
import pathlib
import re
import shlex
import shutil
import subprocess
import sys
import tempfile

HERE = pathlib.Path(__file__).resolve().parent
sys.path.insert(0, str(HERE.parent.parent / "tools" / "lib"))

import progress  # noqa: E402 (it is in tools/lib/)

SAME = re.compile(r"same objects (\d+) words (\d+)")
MOVED = re.compile(r"^moved (\d+) of \d+ by name$", re.MULTILINE)
STEP = re.compile(r"(before|again)|(collection) (\S+)(?: (\d+) (moved|freed))?|(planted) (\S+) ([a-z]+) (\S+) (\S+)(?: (\S+))?")
SECONDS = 900  # for one program


class Problem(Exception):
    """What keeps a runtime from being judged."""


@dataclasses.dataclass
class Runtime:
    """How the program of a runtime is made and run. {file} is its source, {room} a folder."""
    file: str
    package: str
    run: list
    build: list = dataclasses.field(default_factory=list)
    settings: dict = dataclasses.field(default_factory=dict)
    moves: bool = True

    def command(self, words, room):
        return [word.format(file=HERE / self.file, room=room) for word in words]

    def missing(self):
        """The programs that are not installed."""
        return [words[0] for words in (self.build, self.run) if words and "{" not in words[0] and not shutil.which(words[0])]


RUNTIMES = {
    "chez": Runtime("chez.ss", "chezscheme", ["scheme", "--script", "{file}"]),
    "chicken": Runtime("chicken.scm", "chicken-bin", ["{room}/walk"], ["csc", "-O2", "-o", "{room}/walk", "{file}"]),
    "clisp": Runtime("clisp.lisp", "clisp", ["clisp", "-q", "-q", "-norc", "{file}"]),
    "cpython": Runtime("cpython.py", "python3", ["python3", "{file}"], moves=False),
    "ghc": Runtime("ghc.hs", "ghc", ["{room}/walk"], ["ghc", "-O1", "-rtsopts", "-package", "ghc-heap", "-with-rtsopts=-A1g",
                                                      "-outputdir", "{room}", "-o", "{room}/walk", "{file}"]),
    "lua": Runtime("lua.lua", "lua5.4", ["lua5.4", "{file}"], moves=False),
    "mono": Runtime("mono.cs", "mono-runtime mono-mcs", ["mono", "{room}/walk.exe"], ["mcs", "-unsafe", "-out:{room}/walk.exe", "{file}"],
                    {"MONO_GC_PARAMS": "nursery-size=256m"}),
    "polyml": Runtime("polyml.ml", "polyml", ["poly", "-q", "--error-exit", "-H", "1000", "--script", "{file}"]),
    "racket": Runtime("racket.rkt", "racket", ["racket", "{file}"]),
    "ruby": Runtime("ruby.rb", "ruby", ["ruby", "{file}"]),
    "sbcl": Runtime("sbcl.lisp", "sbcl", ["sbcl", "--dynamic-space-size", "4GB", "--script", "{file}"]),
    "v8": Runtime("v8.js", "nodejs", ["node", "--expose-gc", "--allow-natives-syntax", "--min-semi-space-size=64", "--compact-on-every-full-gc", "{file}"]),
}


def said_by(words, room, where=None, settings=None):
    """What a command prints."""
    more = {name: value.format(room=room) for name, value in (settings or {}).items()}
    try:
        ran = subprocess.run(words, cwd=room, stdout=where or subprocess.PIPE, stderr=subprocess.PIPE, text=True, errors="replace",
                             stdin=subprocess.DEVNULL, env={**os.environ, **more}, timeout=SECONDS, check=False)
    except OSError as error:
        raise Problem(f"{words[0]}: {error.strerror}") from None
    except subprocess.TimeoutExpired:
        raise Problem(f"{words[0]}: was ended after {SECONDS} seconds") from None
    if ran.returncode:
        raise Problem(f"{pathlib.Path(words[0]).name}: status {ran.returncode}: {shortened(ran.stderr) or shortened(beside_steps(where))}")
    return ran.stdout


def beside_steps(said):
    """What a program printed, without the lines of its steps: some languages report there why they ended."""
    if said is None:
        return ""
    said.seek(0)
    return "".join(line for line in said if not STEP.fullmatch(line.rstrip("\n")))


def shortened(text):
    """A text of at most 300 characters, or its beginning and its end: some languages say first what failed, some last."""
    text = " ".join(text.split())
    return text if len(text) <= 300 else f"{text[:100]} .. {text[-200:]}"


def step_of(line):
    """The words of a line that reports a step, or None."""
    found = STEP.fullmatch(line)
    if found:
        return [word for word in found.groups() if word]
    if line.split(" ")[0] in ("collection", "planted"):
        raise Problem(f"its program's line is not one of docs/RUNTIMES.md: {line}")
    return None


def steps(runtime, room, depth):
    """What the program of a runtime did, in order: the words of each line; and the problem that ended it, or None. V8
    prints addresses into its own output, so that is a file."""
    if runtime.build:
        said_by(runtime.command(runtime.build, room), room, settings=runtime.settings)
    ended = None
    with open(room / "said", "w+", encoding="utf-8", errors="replace") as said:
        try:
            said_by([*runtime.command(runtime.run, room), str(room), str(depth)], room, said, runtime.settings)
        except Problem as problem:
            ended = problem
        said.seek(0)
        lines = said.readlines()
    if ended and lines and not lines[-1].endswith("\n"):
        lines.pop()
    found = [words for line in lines if (words := step_of(line.rstrip("\n")))]
    if not found or found[0] != ["before"]:
        raise ended or Problem("its program did not begin with a line 'before'")
    if found[-1] != ["again"] and not ended:
        raise Problem("its program did not come to its end, a line 'again'")
    for name in ["names", *(f"{words[1] if len(words) > 1 else words[0]}.txt" for words in found)]:
        if not (room / name).is_file():
            raise ended or Problem(f"its program wrote no file {name}")
    return found, ended


def compared(room, before, after):
    """What g1heap reports of two heaps, and how many objects have another name."""
    ran = subprocess.run(["g1heap", "same", "--moved", "--names", "names", f"{before}.txt", f"{after}.txt"], cwd=room,
                         capture_output=True, text=True, errors="replace", check=False)
    said = ran.stdout or ran.stderr or f"g1heap ended with status {ran.returncode}"
    moved = MOVED.search(said)
    return said.splitlines()[0], int(moved[1]) if moved else 0


def is_found(line, kind, path, type_, field=None):
    """Whether a line reports this kind of difference at this place."""
    words = f"differ {re.escape(kind)} at {re.escape(path)}: object \\S+ \\({re.escape(type_)}\\) before[,;] "
    return bool(re.match(words + (f".*; data word \\d+, {re.escape(field)}, is " if field else ""), line))


class Judged:
    """What the steps of one runtime showed: a line for each after the first, and whether it passed."""

    def __init__(self, room, moves):
        self.room, self.moves = room, moves
        self.collections = self.moved = self.freed = self.planted = 0

    def lines(self, found):
        """The line of all collections is there if the program came to its end."""
        last = "before"
        for kind, *words in found[1:]:
            name = words[0] if words else "again"
            line, moved = compared(self.room, last, name)
            if kind == "planted":
                self.planted += 1
                yield f"planted {name}: {line}", is_found(line, *words[1:])
                continue
            last, noted = name, self.noted(kind, moved, words)
            yield f"{name}: {line}, {noted}", bool(SAME.fullmatch(line))
        if found[-1] == ["again"]:
            yield self.end()

    def noted(self, kind, moved, words):
        """Counts a collection, and says what it did."""
        moved = int(words[1]) if words[2:] == ["moved"] else moved
        freed = int(words[1]) if words[2:] == ["freed"] else 0
        if kind == "collection":
            self.collections, self.moved, self.freed = self.collections + 1, self.moved + moved, self.freed + freed
        return f"{moved} moved" if self.moves or moved else f"{freed} freed"

    def end(self):
        """The line of all collections."""
        if self.moves:
            line, good = f"{self.collections} collections, {self.moved} moves", self.moved > 0
        else:
            line, good = f"{self.collections} collections, {self.freed} freed", self.freed > 0 and self.moved == 0
        if not self.moves and self.moved:
            return f"{line}: it moved {self.moved} objects, and was to move none", False
        if good and not self.planted:
            return f"{line}: no error was planted, so nobody knows whether one would be found", False
        return line + ("" if good else ": judged nothing"), good


def judge(name, runtime, options):
    """Judges one runtime, and returns how many of its steps passed and how many did not."""
    passed = failed = 0
    with tempfile.TemporaryDirectory() as folder:
        room = pathlib.Path(folder) if options.keep is None else options.keep.resolve() / name
        room.mkdir(parents=True, exist_ok=True)
        try:
            found, ended = steps(runtime, room, options.depth)
            for line, good in Judged(room, runtime.moves).lines(found):
                passed, failed = passed + good, failed + (not good)
                print(f"{name} {line}" + ("" if good else "  FAILED"), flush=True)
            if ended:
                raise ended
        except Problem as problem:
            print(f"{name}: {problem}  FAILED", flush=True)
            failed += 1
    return passed, failed


def chosen(options, parser):
    """The runtimes to be judged. Those that are named have to be there."""
    if options.program:
        words = shlex.split(options.program)
        if not words or not shutil.which(words[0]):
            parser.error(f"there is no program '{words[0] if words else ''}'")
        words[0] = shutil.which(words[0])
        words = [str(pathlib.Path(word).resolve()) if os.path.exists(word) else word for word in words]
        return {"program": Runtime("", "", [word.replace("{", "{{").replace("}", "}}") for word in words], moves=not options.unmoving)}
    for name in options.runtimes:
        if name not in RUNTIMES:
            parser.error(f"no runtime {name}; there are {', '.join(RUNTIMES)}")
        if RUNTIMES[name].missing():
            parser.error(f"{name} needs {', '.join(RUNTIMES[name].missing())}: Debian's {RUNTIMES[name].package}")
    return {name: RUNTIMES[name] for name in options.runtimes or RUNTIMES if not RUNTIMES[name].missing()}


def arguments():
    parser = argparse.ArgumentParser(description=__doc__, formatter_class=argparse.RawDescriptionHelpFormatter)
    parser.add_argument("runtimes", metavar="RUNTIME", nargs="*", help="what to judge (default: each that is installed)")
    parser.add_argument("--depth", type=int, default=12, help="the levels of the tree, 3 to 18 (default: 12)")
    parser.add_argument("--keep", type=pathlib.Path, metavar="FOLDER", help="keep the files of lines in this folder")
    parser.add_argument("--list", action="store_true", help="print the runtimes, and what is missing")
    parser.add_argument("--program", metavar="COMMAND", help="judge this command, which gets FOLDER and DEPTH as its last words")
    parser.add_argument("--unmoving", action="store_true", help="with --program: its runtime moves no object, and reports those that it freed")
    options = parser.parse_args()
    if not 3 <= options.depth <= 18:
        parser.error("DEPTH has to be from 3 to 18")
    if options.program is not None and options.runtimes:
        parser.error("--program is judged alone")
    if options.unmoving and options.program is None:
        parser.error("--unmoving goes with --program: the list says which runtimes move nothing")
    return options, parser


def main():
    options, parser = arguments()
    if options.list:
        for name, runtime in RUNTIMES.items():
            print(name, f"needs {runtime.package}" if runtime.missing() else "is installed")
        return 0
    runtimes = chosen(options, parser)
    if not shutil.which("g1heap"):
        parser.error("no g1heap on the path: tools/build.py --unproved builds out/g1heap")
    counts = []
    for name, runtime in runtimes.items():
        with progress.doing(f"judging {name}"):
            counts.append(judge(name, runtime, options))
    passed, failed = (sum(count[k] for count in counts) for k in (0, 1))
    print(f"{passed} passed, {failed} failed")
    return 1 if failed or not passed else 0


if __name__ == "__main__":
    sys.exit(main())
