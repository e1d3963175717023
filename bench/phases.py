#!/usr/bin/env python3
"""phases.py [--workers N,N] [--budget B | --regions LIST] [--rounds R] [--write PAGE] IMAGE ..

Times the phases of a pause on images, with one worker and with four. Some are phases alone, by a small program of its
own (phases.rattle), which is built without any proof when the script first needs it; that takes a minute:

  starts             the starts of objects and the refined sets, which a pause builds first
  discover, all      the search of `live`: all that the roots lead to
  discover, the set  the search for the survivors of the collection set
  evacuate           the whole pause of this set, from an image in memory to the image after

The others are commands of g1pause: `live`, and `pause --budget`. The collection set is what the budget buys. Without a
budget that is the greatest power of two for which the pause finds room. --regions gives the set in its place, and then
the pause is that of this set.

A round runs everything once with each number of workers, in turn, each time in a new process. A time is the least of
all rounds: wall and processor time in milliseconds. The last table has what `evacuate` takes for each megabyte that it
copies, and the same without the starts. Statuses: 0 done; 1 a run failed, or the program is not built; 2 usage.
"""
import argparse
import hashlib
import os
import pathlib
import re
import shlex
import shutil
import signal
import statistics
import sys
import tempfile
import time
from typing import NamedTuple

import compare
from compare import MB, MS, mean, number

HERE = pathlib.Path(__file__).resolve().parent
TOP = HERE.parent
sys.path.insert(0, str(TOP / "tools" / "lib"))

import programs  # noqa: E402 (it is in tools/lib/)
import progress  # noqa: E402
import stamp  # noqa: E402
import unproved  # noqa: E402

SOURCE = HERE / "phases.rattle"
CRATE = "g1_phases"
NEEDS = ("g1_words", "g1_image", "g1_rem", "g1_work", "g1_frontier", "g1_mark", "g1_choose", "g1_pause")
OF_KIT = ("anyhow",)
WORD = 8  # bytes
NANOS = 1_000_000  # in a millisecond
CUT = 120  # seconds that one run may take
QUIET = 1.5  # on a machine with a load below this, wall times say something
BEGIN, END = "<!-- phases begin -->", "<!-- phases end -->"
# What the program calls a phase, and what a table does.
PHASES = {"starts": "starts", "live": "`discover`, all", "discover": "`discover`, the set", "evacuate": "`evacuate`"}


class Failed(Exception):
    """One line that says why there are no figures."""


class Time(NamedTuple):
    """Milliseconds."""
    wall: float
    cpu: float


class Evacuated(NamedTuple):
    """What one run of the program took, by phase, and the bytes that `evacuate` copied."""
    times: dict
    copied: int


# The program


def built():
    """The program, which is built if it is not that of these sources."""
    unproved.need_kit()
    text = hashlib.sha256(SOURCE.read_bytes()).hexdigest() + stamp.sources(TOP, NEEDS) + stamp.kit()
    target = programs.OUT / f"phases-{hashlib.sha256(text.encode()).hexdigest()[:12]}"
    if not target.is_file():
        target.parent.mkdir(exist_ok=True)
        for old in target.parent.glob("phases-*"):
            old.unlink()
        with progress.doing("building the program without a proof"):
            build(target)
    return str(target)


def build(target):
    """Builds it as a crate of a copy of the repository: a source may stand in no other place than a crate."""
    new = target.with_suffix(".new")
    with unproved.changed(TOP, []) as copy:
        source = copy / "crates" / CRATE / "src" / "main.rt"
        source.parent.mkdir(parents=True)
        shutil.copyfile(SOURCE, source)
        with open(copy / "crates.txt", "a", encoding="utf-8") as crates:
            print(f"{CRATE}: {' '.join(NEEDS + OF_KIT)}", file=crates)
        unproved.build_unproved(source.parent.parent, new)
    os.replace(new, target)


def read_phases(text):
    """What the program printed."""
    rows = re.findall(r"^(\w+) (\d+) (\d+)$", text, re.M)
    times = {name: Time(int(wall) / NANOS, int(cpu) / NANOS) for name, wall, cpu in rows}
    copied = re.search(r"^copied (\d+)$", text, re.M)
    if set(times) != set(PHASES) or not copied:
        raise Failed(f"the program printed something else: {text[:200]!r}")
    return Evacuated(times, WORD * int(copied[1]))


# Runs


class Machine:
    """The programs, and how often they are run."""

    def __init__(self, program, rounds, workers, room):
        self.program, self.rounds, self.workers, self.driver = program, rounds, workers, built()
        options = argparse.Namespace(program=program, reference=shlex.quote(program), rounds=rounds, cut=CUT, only="")
        self.bench = compare.Bench(options, room)

    def run(self, words, image):
        """One run, and the text of its answer."""
        done = self.bench.run([str(word) for word in words], image, "run")
        said, refused = (self.bench.room / f"run.{end}" for end in ("out", "err"))
        if done.status != 0:
            how = f"status {done.status}" if done.status is not None else compare.CUT
            called = " ".join([pathlib.Path(words[0]).name, *map(str, words[1:4])])
            said = refused.read_text(errors="replace").strip().splitlines() or ["it said nothing"]
            raise Failed(f"{image.name}: {called}: {how}: {said[-1]}")
        return Time(MS * done.wall, MS * done.cpu), said

    def evacuated(self, workers, regions, image):
        return read_phases(self.run([self.driver, workers, *regions], image)[1].read_text())


class Goal(NamedTuple):
    """The collection set of an image, and the words by which a pause takes it."""
    regions: list
    words: list


def goal_of(machine, image, budget, regions):
    if regions:
        return Goal(regions, [str(region) for region in regions])
    words = ["--budget", str(budget) if budget is not None else machine.bench.budget(image)]
    said = machine.run([machine.program, "choose", *words], image)[1].read_text()
    return Goal(sorted(map(int, re.findall(r"^region (\d+) .* taken$", said, re.M))), words)


def least_wall(runs):
    return min(run.wall for run in runs)


def mean_cpu(runs):
    return statistics.mean(run.cpu for run in runs)


class Figures:
    """What was measured on an image: the times of each phase or command by workers."""

    def __init__(self, image, goal):
        self.image, self.goal, self.copied, self.times = image, goal, 0, {}

    def add(self, name, workers, took):
        self.times.setdefault(name, {}).setdefault(workers, []).append(took)

    def least(self, name, workers):
        runs = self.times[name][workers]
        return Time(least_wall(runs), min(run.cpu for run in runs))

    def ratio(self, name, workers, one):
        return self.least(name, workers).wall / self.least(name, one).wall

    def a_megabyte(self, workers, without=(), of=least_wall):
        """Milliseconds for each megabyte that `evacuate` copied; nothing if that is none."""
        less = sum(of(self.times[name][workers]) for name in without)
        return (of(self.times[PHASES["evacuate"]][workers]) - less) / (self.copied / MB) if self.copied else None


def measure(machine, image, goal, commands=True):
    """The figures of an image."""
    figures = Figures(image, goal)
    pause = "pause --budget" if goal.words[:1] == ["--budget"] else "pause"
    for _ in range(machine.rounds):
        for workers in machine.workers:
            found = machine.evacuated(workers, goal.regions, image)
            figures.copied = found.copied
            for phase, took in found.times.items():
                figures.add(PHASES[phase], workers, took)
            if commands:
                many = ["--workers", workers]
                for name, words in (("`live`", ["live", *many]), (f"`{pause}`", ["pause", *many, *goal.words])):
                    figures.add(name, workers, machine.run([machine.program, *words], image)[0])
    return figures


# Tables


def in_workers(count):
    return f"{count} worker{'s' * (count > 1)}"


def phases_table(lines, all_figures, workers):
    """Each phase and command of each image, and what more workers take of the first number's time."""
    one, *more = workers
    times = [f"{in_workers(count)}: {field} ms" for count in workers for field in ("wall", "cpu")]
    to_one = [f"{count} to {one}, wall" for count in more]
    table = compare.Table(lines, "Phases", ["image", "phase", *times, *to_one])
    ratios = {}
    for figures in all_figures:
        for name in figures.times:
            took = [value for count in workers for value in figures.least(name, count)]
            ratios.setdefault(name, []).append([figures.ratio(name, count, one) for count in more])
            cells = [*(number(value, 1) for value in took), *map(number, ratios[name][-1])]
            table.row([figures.image.stem, name, *cells])
    table = compare.Table(lines, "Phases, geometric means", ["phase", "images", *to_one])
    for name, rows in ratios.items():
        table.row([name, str(len(rows)), *(number(mean(column)) for column in zip(*rows))])


def evacuate_table(lines, all_figures, workers):
    """What `evacuate` takes for a megabyte that it copies."""
    titles = [f"{in_workers(count)}: ms a MB{what}" for what in ("", ", without starts") for count in workers]
    table = compare.Table(lines, "A megabyte copied", ["image", "collection set", "regions", "MB copied", *titles])
    rows = []
    for figures in all_figures:
        rows.append([figures.a_megabyte(count, without) for without in ((), ("starts",)) for count in workers])
        bought = f"`{' '.join(figures.goal.words)}`" if figures.goal.words[:1] == ["--budget"] else "given"
        copied = [str(len(figures.goal.regions)), number(figures.copied / MB, 1)]
        table.row([figures.image.stem, bought, *copied, *map(number, rows[-1])])
    table.row(["geometric mean", "", "", "", *(number(mean(column)) for column in zip(*rows))])


def write(page, lines, begin, end):
    """Puts lines into a page, between two marks."""
    text = pathlib.Path(page).read_text(encoding="utf-8")
    before, after = text.split(begin)[0], text.split(end)[1]
    text = f"{before}{begin}\n\n" + "\n".join(lines).strip() + f"\n\n{end}{after}"
    pathlib.Path(page).write_text(text, encoding="utf-8")


def about(begin, rounds):
    """When and where figures were made, with the load before and after."""
    day = time.strftime("%Y-%m-%d", time.gmtime())
    busy = "" if float(begin.split()[0]) < QUIET else f" The load before was not below {QUIET}: trust processor time alone."
    return (f"Seen on {day} on {compare.machine()}; load {begin} before and {compare.load()} after (1, 5, 15 minutes). "
            f"{rounds} round{'s' * (rounds > 1)}.{busy}")


# Words


def counts(text):
    """Numbers of workers, as in 1,4, as the type of an argument."""
    found = [int(count) for count in text.split(",")] if re.fullmatch(r"\d{1,2}(,\d{1,2})*", text) else [0]
    if not all(1 <= count <= 64 for count in found):
        raise argparse.ArgumentTypeError(f"{text}: numbers from 1 to 64 are wanted, as in 1,4")
    return list(dict.fromkeys(found))


def at_least_one(text):
    if not re.fullmatch(r"[1-9]\d{0,3}", text):
        raise argparse.ArgumentTypeError(f"{text}: a number from 1 to 9999 is wanted")
    return int(text)


def image_file(text):
    path = pathlib.Path(text)
    if not path.is_file() or compare.is_trace(path) is not False:
        raise argparse.ArgumentTypeError(f"{text} is no image")
    return path


def page_with(begin, end):
    """The type of an argument that is a page with these marks."""
    def page(text):
        path = pathlib.Path(text)
        if not path.is_file() or not {begin, end} <= set(path.read_text(encoding="utf-8").splitlines()):
            raise argparse.ArgumentTypeError(f"{text} has no lines '{begin}' and '{end}'")
        return text
    return page


def add_options(parser, begin, end):
    """The options that hotspot.py has, too."""
    parser.add_argument("--workers", type=counts, default=[1, 4], metavar="N,N",
                        help="the numbers of workers (default: 1,4)")
    parser.add_argument("--rounds", type=at_least_one, default=5, metavar="R",
                        help="how often each is run (default: 5)")
    parser.add_argument("--program", type=programs.program, default=programs.find("g1pause"), metavar="FILE",
                        help="the built g1pause (default: out/g1pause)")
    parser.add_argument("--write", type=page_with(begin, end), metavar="PAGE",
                        help=f"also put the figures into a page, between '{begin}' and '{end}'")


def options_of(words):
    parser = argparse.ArgumentParser(description=__doc__, formatter_class=argparse.RawDescriptionHelpFormatter)
    parser.add_argument("images", nargs="+", type=image_file, metavar="IMAGE")
    add_options(parser, BEGIN, END)
    sets = parser.add_mutually_exclusive_group()
    sets.add_argument("--budget", type=int, metavar="B", help="the budget that buys the collection set")
    sets.add_argument("--regions", type=programs.regions, metavar="LIST", help="the collection set, as in 1,2,5-9")
    return parser.parse_args(words)


def ended(script, work):
    """Ends a script with its status. What stops it is said in one line."""
    signal.signal(signal.SIGTERM, lambda *_: sys.exit("ended"))  # so that its folder goes
    try:
        return work()
    except (Failed, unproved.NotBuilt) as error:
        print(f"{script}: {error}", file=sys.stderr)
        return 1


def work(options):
    begin, lines = compare.load(), []
    with tempfile.TemporaryDirectory(dir=compare.roomy_folder()) as folder:
        machine = Machine(options.program, options.rounds, options.workers, pathlib.Path(folder))
        found = []
        for image in progress.over(options.images, "images"):
            goal = goal_of(machine, image, options.budget, options.regions)
            found.append(measure(machine, image, goal))
    phases_table(lines, found, options.workers)
    evacuate_table(lines, found, options.workers)
    said = about(begin, options.rounds)
    if options.write:
        write(options.write, [said, *lines], BEGIN, END)
    print(f"\n{said}")
    return 0


def main(words):
    options = options_of(words)
    return ended("phases.py", lambda: work(options))


if __name__ == "__main__":
    sys.exit(main(sys.argv[1:]))
