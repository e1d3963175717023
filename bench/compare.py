#!/usr/bin/env python3
"""compare.py --program FILE --reference WORDS [what to run] [how]

Runs g1pause and another program with the same commands, in turn, on the same inputs. Reports processor time, wall time,
peak memory, and whether their answers are equal. It builds nothing. The other program may be a plain one that was
written to be fast, or an older g1pause. --reference says how it is called: `--reference 'PROGRAM WORD ..'`.

What to run (by default --images without a folder):
  --images FOLDER  every image and trace of a folder. Without a folder two images and two traces are made from a seed
  --scaling        each command with 1, 2, 4 and 8 workers, on the inputs of --images that have 8 MB or more
  --hostile        inputs that were made to be hard, from a seed (hostile.py), with few and many workers
  --growth         pauses on eight images of growing size, from 0.6 to 100 MB

A time is the least of all rounds. A peak of memory is the greatest; it is not reported if it is below that of the Python
that starts the programs. An answer is the bytes on standard output, the status, and the text of a fault. The last line
counts the answers that were the same, those that were not, and the runs that were cut off. The status is 0 if all answers
were the same.
"""
import argparse
import filecmp
import hashlib
import math
import os
import pathlib
import platform
import re
import resource
import select
import shlex
import shutil
import signal
import statistics
import subprocess
import sys
import tempfile
import time
from typing import NamedTuple

from hostile import INPUTS
import plot

HERE = pathlib.Path(__file__).resolve().parent
sys.path.insert(0, str(HERE.parent / "tools" / "lib"))

import progress  # noqa: E402 (it is in tools/lib/)

MB, MS = 1_000_000, 1000
MAGIC = b"G1IMAGE"
BEGIN, END = "<!-- figures begin -->", "<!-- figures end -->"
HUGE = {"GLIBC_TUNABLES": "glibc.malloc.hugetlb=1"}
CUT = "cut off"
WITHOUT_WORKERS = ("check",)
MOST_BUDGET, LEAST_BUDGET = 1 << 25, 1 << 10
WORKERS = (1, 2, 4, 8)
GROWING = [round((1 << 24) / 186 ** (i / 7)) for i in range(7, -1, -1)]  # words of heaps whose images have 0.6 to 100 MB


class Setting(NamedTuple):
    """How our program is called: what its columns are called, and its words and environment beside a command's."""
    name: str
    words: tuple = ()
    environment: dict = {}

    def is_for(self, command):
        return not self.words or command[0] not in WITHOUT_WORKERS


class Measured(NamedTuple):
    cpu: float
    wall: float
    peak: float
    status: int  # None where the run was cut off


ONE = Setting("1 worker")
FOUR = Setting("4 workers", ("--workers", "4"))
LARGE_PAGES = Setting("huge pages", (), HUGE)
SCALED = [ONE, *(Setting(f"{workers} workers", ("--workers", str(workers))) for workers in WORKERS[1:])]
MANY = [Setting(f"{workers} x {chunk}", ("--workers", str(workers), "--chunk", str(chunk)))
        for workers, chunk in ((4, 64), (4, 1), (64, 64), (64, 1))]


def own_peak():
    """The peak of this process, and some pages more: the system reports no lower peak of a child."""
    return 1100 * resource.getrusage(resource.RUSAGE_SELF).ru_maxrss


def within(process, seconds):
    """Whether a process ends within these seconds. It is ended if it doesn't, or if this script is."""
    ended, watched = [], os.pidfd_open(process.pid)
    try:
        ended = select.select([watched], [], [], seconds)[0]
    finally:
        os.close(watched)
        if not ended:
            process.kill()
    return bool(ended)


class Bench:
    """The two programs, and where and how long they may run."""

    def __init__(self, options, room):
        self.program, self.reference = [options.program], shlex.split(options.reference)
        self.rounds, self.cut, self.only, self.room = options.rounds, options.cut, options.only, room
        self.same = self.other = self.unended = 0

    def run(self, words, source, name, environment=()):
        """One run: its answer stands in NAME.out and NAME.err after it."""
        environment = {**{key: value for key, value in os.environ.items() if key not in HUGE}, **dict(environment)}
        out, err = self.room / f"{name}.out", self.room / f"{name}.err"
        with open(source, "rb") as stdin, open(out, "wb") as stdout, open(err, "wb") as stderr:
            begin = time.perf_counter()
            process = subprocess.Popen(words, stdin=stdin, stdout=stdout, stderr=stderr, env=environment)
            ended = within(process, self.cut)
            _pid, status, usage = os.wait4(process.pid, 0)
            wall = time.perf_counter() - begin
        process.returncode = os.waitstatus_to_exitcode(status)
        peak = 1024 * usage.ru_maxrss
        return Measured(usage.ru_utime + usage.ru_stime, wall, peak, process.returncode if ended else None)

    def ours(self, setting, command, source):
        words = [*self.program, command[0], *setting.words, *command[1:]]
        return self.run(words, source, "ours", setting.environment)

    def theirs(self, command, source):
        return self.run([*self.reference, *command], source, "theirs")

    def verdict(self, ours, theirs):
        """How our last answer differs from the reference's last one; nothing if it is the same."""
        if ours.status is None or theirs.status is None:
            return CUT
        if ours.status != theirs.status:
            return f"status {ours.status}, not {theirs.status}"
        if not filecmp.cmp(self.room / "ours.out", self.room / "theirs.out", shallow=False):
            return "other bytes"
        return "" if self.fault("ours") == self.fault("theirs") else "another fault"

    def fault(self, name):
        return re.findall(rb"fault .*", (self.room / f"{name}.err").read_bytes())

    def budget(self, source):
        """The greatest power of two for which a pause finds room."""
        budget = MOST_BUDGET
        while budget > LEAST_BUDGET and self.theirs(["pause", "--budget", str(budget)], source).status != 0:
            budget //= 2
        return str(budget)


class Row:
    """What one command took on one input, by setting, and what was wrong with the answers."""

    def __init__(self, name, command):
        self.name, self.command = name, command
        self.theirs, self.ours, self.wrong = [], {}, {}

    def least(self, setting=None):
        runs = self.ours.get(setting.name, []) if setting else self.theirs
        if not runs:
            return None
        return Measured(min(run.cpu for run in runs), min(run.wall for run in runs), max(run.peak for run in runs), 0)

    def ratio(self, field, setting, base=None):
        """What a setting took as a multiple of another one, or of the reference."""
        ours, other = self.least(setting), self.least(base)
        if not ours or not other or field == "peak" and min(ours.peak, other.peak) <= own_peak():
            return None
        return getattr(ours, field) / getattr(other, field)

    def answers(self):
        status = self.theirs[-1].status
        wrong = [f"cut off ({name})" if wrong == CUT else f"DIFFERS ({name}): {wrong}" for name, wrong in self.wrong.items()]
        return "; ".join(wrong) or ("same" if status == 0 else f"same, status {status}")

    def label(self):
        words = self.command[:4]
        return " ".join(words) + (f" .. ({len(self.command) - 1} regions)" if len(self.command) > 4 else "")


def measure(bench, name, source, command, settings):
    row = Row(name, command)
    settings = [setting for setting in settings if setting.is_for(command)]
    for _ in range(bench.rounds):
        theirs = bench.theirs(command, source)
        row.theirs.append(theirs)
        compare_round(bench, row, source, theirs, [setting for setting in settings if setting.name not in row.wrong])
    unended = list(row.wrong.values()).count(CUT)
    bench.unended += unended
    bench.other += len(row.wrong) - unended
    bench.same += len(settings) - len(row.wrong)
    return row


def compare_round(bench, row, source, theirs, settings):
    for setting in settings:
        ours = bench.ours(setting, row.command, source)
        row.ours.setdefault(setting.name, []).append(ours)
        wrong = bench.verdict(ours, theirs)
        if wrong:
            row.wrong[setting.name] = wrong


# Tables


def number(value, digits=2):
    return "-" if value is None else f"{value:.{digits}f}"


def mean(values):
    """The geometric mean of those that were measured."""
    values = [value for value in values if value is not None]
    return math.exp(statistics.mean(map(math.log, values))) if values else None


class Table:
    """Rows of a page, printed as they come."""

    def __init__(self, lines, heading, columns):
        self.lines = lines
        self.text(f"\n### {heading}\n")
        self.row(columns)
        self.row(["---"] * 2 + ["---:"] * (len(columns) - 2))

    def text(self, line):
        self.lines.append(line)
        print(line, flush=True)

    def row(self, cells):
        self.text("| " + " | ".join(cells) + " |")


FIRST = ["input", "command", "MB", "reference cpu ms", "g1pause cpu ms", "g1pause peak MB"]
COLUMNS = [("x cpu", "cpu", ONE, None), ("x wall", "wall", ONE, None), ("x peak", "peak", ONE, None),
           ("4 workers: x cpu", "cpu", FOUR, None), ("x wall", "wall", FOUR, None), ("x own wall", "wall", FOUR, ONE),
           ("huge pages: x own cpu", "cpu", LARGE_PAGES, ONE), ("x own wall", "wall", LARGE_PAGES, ONE),
           ("x own peak", "peak", LARGE_PAGES, ONE)]
TITLES = [column[0] for column in COLUMNS]


def first_cells(row, source):
    ours = row.least(ONE)
    return [row.name, row.label(), number(source.stat().st_size / MB, 1), number(MS * row.least().cpu, 1), number(MS * ours.cpu, 1),
            number(ours.peak / MB if ours.peak > own_peak() else None, 0)]


def ratios(row):
    return [row.ratio(field, setting, base) for _, field, setting, base in COLUMNS]


def commands_of(bench, source):
    """The commands for an image or a trace, and what their means stand under."""
    if is_trace(source):
        return [("run", ["run"])]
    return [("show", ["show"]), ("show --repack", ["show", "--repack"]), ("check", ["check"]), ("live", ["live"]),
            ("choose", ["choose", "--budget", "5000000"]), ("pause (empty)", ["pause"]),
            ("pause by budget", ["pause", "--budget", bench.budget(source)])]


def plain_table(bench, lines, inputs):
    table = Table(lines, "Inputs of every kind", [*FIRST, *TITLES, "answers"])
    found = {}
    for name, source in inputs:
        for kind, command in wanted(bench, name, commands_of(bench, source)):
            row = measure(bench, name, source, command, [ONE, FOUR, LARGE_PAGES])
            all_ratios = ratios(row)
            found.setdefault(kind, []).append(all_ratios)
            table.row([*first_cells(row, source), *map(number, all_ratios), row.answers()])
    table = Table(lines, "Geometric means", ["command", "inputs", *TITLES])
    for kind, rows in found.items():
        table.row([kind, str(len(rows)), *(number(mean(column)) for column in zip(*rows))])


def scaling_table(bench, lines, inputs, large):
    """Each command's times with 1, 2, 4 and 8 workers. It returns their means, as multiples of the reference's."""
    counts = [f"{field} ms: {SCALED[0].name}" if i == 0 else str(count) for field in ("wall", "cpu") for i, count in enumerate(WORKERS)]
    table = Table(lines, "Scaling", ["input", "command", "MB", "reference wall ms", *counts, "8 x own wall", "answers"])
    found = {}
    for name, source in inputs:
        if source.stat().st_size < large * MB:
            continue
        for kind, command in wanted(bench, name, commands_of(bench, source)):
            if command[0] in WITHOUT_WORKERS:
                continue
            row = measure(bench, name, source, command, SCALED)
            found.setdefault(kind, []).append([row.ratio(field, each) for field in ("wall", "cpu") for each in SCALED])
            times = [number(MS * getattr(row.least(each), field), 1) for field in ("wall", "cpu") for each in SCALED]
            table.row([row.name, row.label(), number(source.stat().st_size / MB, 1), number(MS * row.least().wall, 1), *times,
                       number(row.ratio("wall", SCALED[-1], ONE)), row.answers()])
    means = {kind: [mean(column) for column in zip(*rows)] for kind, rows in found.items()}
    titles = [f"x {field}: {SCALED[0].name}" if i == 0 else str(count) for field in ("wall", "cpu") for i, count in enumerate(WORKERS)]
    table = Table(lines, "Scaling, geometric means", ["command", "inputs", *titles])
    for kind, ratios_of_kind in means.items():
        table.row([kind, str(len(found[kind])), *map(number, ratios_of_kind)])
    return means


def draw_scaling(options, lines, means):
    """The means as a picture, and a line of the page that shows it."""
    panels = [(title, {kind: values[at:at + len(WORKERS)] for kind, values in means.items()})
              for title, at in (("wall time / the reference's", 0), ("processor time / the reference's", len(WORKERS)))]
    title = "Wall time and processor time with 1, 2, 4 and 8 workers, as multiples of the reference's"
    pathlib.Path(options.plot).write_text(plot.picture(title, WORKERS, panels), encoding="utf-8")
    if options.write:
        link = os.path.relpath(options.plot, pathlib.Path(options.write).resolve().parent)
        lines += ["", f"![{title}]({link})"]


def wanted(bench, name, commands):
    return [(kind, command) for kind, command in commands if bench.only in f"{name} {kind}"]


def hostile_table(bench, lines, seed, share):
    table = Table(lines, "Hostile inputs", [*FIRST, "x cpu", "x peak", "g1pause wall ms", *(f"{setting.name}: x own wall" for setting in MANY),
                                            "answers"])
    rows = []
    for name, (_maker, _what, narrow) in INPUTS.items():
        image, commands = make_hostile(bench, name, seed, share)
        for _kind, command in wanted(bench, name, [(" ".join(words[:4]), words) for words in commands]):
            row = measure(bench, name, image, command, [ONE, *(MANY if narrow else MANY[:1])])
            rows.append((row, [row.ratio("cpu", ONE), row.ratio("peak", ONE)], [row.ratio("wall", many, ONE) for many in MANY]))
            table.row([*first_cells(row, image), *map(number, rows[-1][1]), number(MS * row.least(ONE).wall, 1),
                       *map(number, rows[-1][2]), row.answers()])
        image.unlink()
    print_hostile(table, rows)


def print_hostile(table, rows):
    if not rows:
        return
    cpus, peaks = zip(*(both for _row, both, _walls in rows))
    worst = max(rows, key=lambda row: row[1][0])
    table.text(f"\nGeometric means over these: {number(mean(cpus))} of the processor time, {number(mean(peaks))} of the peak memory. "
               f"The most processor time: {worst[1][0]:.2f}, `{worst[0].label()}` on {worst[0].name}.")
    walls = [(wall, setting.name, row) for row, _both, walls in rows for wall, setting in zip(walls, MANY) if wall]
    if walls:
        wall, setting, row = max(walls, key=lambda each: each[0])
        table.text(f"The most wall time with more workers (workers x chunk): {wall:.2f} times that with one, {setting}, `{row.label()}` on {row.name}.")


def make_hostile(bench, name, seed, share):
    """An image and its commands, made in a process of its own: peaks below that of this one can't be seen."""
    image = bench.room / f"{name}.img"
    words = [sys.executable, str(HERE / "hostile.py"), name, str(image), "--seed", seed, "--share", str(share), "--commands"]
    lines = subprocess.run(words, check=True, capture_output=True, text=True).stdout.splitlines()
    budget = bench.budget(image) if any("BUDGET" in line for line in lines) else ""
    return image, [line.replace("BUDGET", budget).split() for line in lines]


def exponent(sizes, times):
    """The power of the size by which the times grow: least squares over the logarithms."""
    xs, ys = [math.log(x) for x in sizes], [math.log(y) for y in times]
    x, y = statistics.mean(xs), statistics.mean(ys)
    return sum((a - x) * (b - y) for a, b in zip(xs, ys)) / sum((a - x) ** 2 for a in xs)


def growing(words, seed):
    """How images.py makes a heap of so many words, of which some regions stay free."""
    return ["4096", "--words", str(words), "--free", "0.22", "--seed", seed]


def growth_table(bench, lines, seed):
    table = Table(lines, "Growth", ["MB", "command", "reference cpu ms", "g1pause cpu ms", "x cpu", "x peak", "answers"])
    sizes, found = [], {}
    for words in GROWING:
        image = make(bench.room, "images.py", "growing.img", growing(words, seed))
        sizes.append(image.stat().st_size)
        commands = [("pause", ["pause"]), ("pause by budget", ["pause", "--budget", bench.budget(image)])]
        for kind, command in wanted(bench, "growing", commands):
            row = measure(bench, "growing", image, command, [ONE])
            times = [row.least(side).cpu for side in (None, ONE)]
            found.setdefault(kind, []).append(times)
            table.row([f"{sizes[-1] / MB:.1f}", row.label(), *(number(MS * cpu, 1) for cpu in times), number(row.ratio("cpu", ONE)),
                       number(row.ratio("peak", ONE)), row.answers()])
    for kind, times in found.items():
        theirs, ours = zip(*times)
        table.text(f"\n{kind}: g1pause's processor time grows by the power {exponent(sizes, ours):.2f} of the size, "
                   f"{exponent(sizes[3:], ours[3:]):.2f} over the five largest; the reference's by {exponent(sizes, theirs):.2f} "
                   f"and {exponent(sizes[3:], theirs[3:]):.2f}.")


# Inputs, the machine, the page


def make(room, script, name, words):
    """What a maker beside this script makes: it takes the kind first and the file second."""
    target = room / name
    subprocess.run([sys.executable, str(HERE / script), words[0], str(target), *words[1:]], check=True, stdout=subprocess.DEVNULL)
    return target


def made_here(room, seed):
    for kind in ("65536", "4096"):
        yield f"regions of {kind}", make(room, "images.py", f"{kind}.img", [kind, "--seed", seed])
    for kind in ("lists", "tables"):
        yield kind, make(room, "traces.py", f"{kind}.trace", [kind, "--seed", seed])


def is_trace(path):
    """Whether a file is a trace and not an image; None if it is neither."""
    with open(path, "rb") as file:
        head = file.read(8)
    return head.startswith(b"heap ") if head.startswith((b"heap ", MAGIC)) else None


def of_folder(folder):
    """The images of a folder by name, and then its traces."""
    kinds = [(is_trace(path), path) for path in pathlib.Path(folder).iterdir() if path.is_file()]
    return [(path.stem, path) for trace, path in sorted(kind for kind in kinds if kind[0] is not None)]


def field(path, pattern):
    """What a file of the system says, or `unknown`."""
    try:
        found = re.search(pattern, pathlib.Path(path).read_text(), re.MULTILINE)
    except OSError:
        found = None
    return found.group(1).strip() if found else "unknown"


def load():
    return " ".join(f"{each:.1f}" for each in os.getloadavg())


def machine():
    """The machine, without its name."""
    memory = field("/proc/meminfo", r"^MemTotal:\s*(\d+)")
    gigabytes = f"{int(memory) / (1 << 20):.0f} GiB" if memory.isdigit() else "unknown"
    processor = field("/proc/cpuinfo", r"^model name[^:]*:(.*)$")
    pages = field("/sys/kernel/mm/transparent_hugepage/enabled", r"\[(.*)\]")
    return (f"{len(os.sched_getaffinity(0))} cores of {processor}, {gigabytes} of memory, {platform.system()} {platform.release()}, "
            f"{' '.join(platform.libc_ver())}, Python {platform.python_version()}, huge pages `{pages}`")


def digest(words):
    """Which bytes a program has: it is named by them alone."""
    program = shutil.which(words[0])
    return hashlib.sha256(pathlib.Path(program).read_bytes()).hexdigest()[:12]


def write_figures(page, lines):
    text = pathlib.Path(page).read_text()
    before, after = text.split(BEGIN)[0], text.split(END)[1]
    pathlib.Path(page).write_text(before + BEGIN + "\n\n" + "\n".join(lines).strip() + "\n\n" + END + after)


def options_of(words):
    parser = argparse.ArgumentParser(description=__doc__, formatter_class=argparse.RawDescriptionHelpFormatter,
                                     usage="compare.py --program FILE --reference WORDS [--images [FOLDER]] [--scaling] [--hostile] [--growth] ..")
    parser.add_argument("--program", required=True, metavar="FILE", help="the built g1pause")
    parser.add_argument("--reference", required=True, metavar="WORDS", help="the program to compare it with, and words before its command")
    parser.add_argument("--images", nargs="?", const="", metavar="FOLDER")
    parser.add_argument("--scaling", action="store_true")
    parser.add_argument("--hostile", action="store_true")
    parser.add_argument("--growth", action="store_true")
    parser.add_argument("--rounds", type=int, default=5, metavar="R", help="how often each is run (5)")
    parser.add_argument("--only", default="", metavar="TEXT", help="only where 'INPUT COMMAND' has this text")
    parser.add_argument("--cut", type=float, default=60, metavar="S", help="a run is cut off after S seconds (default: 60)")
    parser.add_argument("--seed", default="1", metavar="S", help="for the inputs that are made (1)")
    parser.add_argument("--share", type=int, default=1, metavar="N", help="hostile inputs that are N times smaller, to try it out")
    parser.add_argument("--large", type=float, default=8, metavar="MB", help="the least input of --scaling (8 MB)")
    parser.add_argument("--plot", metavar="FILE", help="with --scaling: also draw its means, as an SVG")
    parser.add_argument("--write", metavar="PAGE", help=f"also put the figures into a page, between '{BEGIN}' and '{END}'")
    if not words:
        parser.print_help(sys.stderr)
        sys.exit(2)
    options = parser.parse_args(words)
    for name, program in (("--program", options.program), ("--reference", *shlex.split(options.reference)[:1])):
        if not shutil.which(program):
            parser.error(f"{name}: no program at {program}")
    if options.write and not {BEGIN, END} <= set(pathlib.Path(options.write).read_text().splitlines()):
        parser.error(f"{options.write} has no lines '{BEGIN}' and '{END}'")
    if options.plot and not options.scaling:
        parser.error("--plot goes with --scaling")
    if options.images is None and not (options.scaling or options.hostile or options.growth):
        options.images = ""
    return options


def roomy_folder():
    """Memory, where a gigabyte of it is free: then no disk is measured."""
    shared = pathlib.Path("/dev/shm")
    return str(shared) if shared.is_dir() and os.access(shared, os.W_OK) and shutil.disk_usage(shared).free > 1 << 30 else None


def run_tables(options, bench, room, lines):
    """The tables that are asked for."""
    if options.images is not None or options.scaling:
        inputs = of_folder(options.images) if options.images else list(made_here(room, options.seed))
    if options.images is not None:
        plain_table(bench, lines, inputs)
    if options.scaling:
        means = scaling_table(bench, lines, inputs, options.large)
        if options.plot and means:
            draw_scaling(options, lines, means)
    if options.hostile:
        hostile_table(bench, lines, options.seed, options.share)
    if options.growth:
        growth_table(bench, lines, options.seed)


def main():
    options = options_of(sys.argv[1:])
    signal.signal(signal.SIGTERM, lambda *_: sys.exit("ended"))  # so that the folder goes
    with tempfile.TemporaryDirectory(dir=roomy_folder()) as folder:
        room = pathlib.Path(folder)
        bench = Bench(options, room)
        lines = []
        begin, day = load(), time.strftime("%Y-%m-%d", time.gmtime())
        progress.show("answers", lambda: bench.same + bench.other + bench.unended)
        run_tables(options, bench, room, lines)
        about = [f"Seen on {day} on {machine()}; load {begin} before and {load()} after (1, 5, 15 minutes). {options.rounds} round{'s' * (options.rounds > 1)}. "
                 f"The program's SHA-256 begins with {digest(bench.program)}, the reference's with {digest(bench.reference)}.",
                 "", f"Answers: {bench.same} the same, {bench.other} not, {bench.unended} cut off."]
    if options.write:
        write_figures(options.write, [*about[:1], *lines, *about[1:]])
    print("\n" + "\n".join(about))
    return 1 if bench.other or bench.unended or not bench.same else 0


if __name__ == "__main__":
    sys.exit(main())
