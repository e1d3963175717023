#!/usr/bin/env python3
"""hotspot.py [--images FOLDER] [--option=OPTION] [--workers N,N] [--rounds R] [--write PAGE] JAVA

Runs three Java programs under HotSpot's G1, with one thread that collects and with four, and reports by its log how
long its young pauses took for each megabyte that they copied. With a folder of images it also has what `evacuate` of
g1pause takes for a megabyte (phases.py), on the heaps of the same programs. An image that is not in the folder is made:
the script runs the program, dumps its heap with all that is dead in it, and turns the dump into an image of 4,096
regions of 4,096 words, which takes half a minute.

The first table has wall times, which say nothing if other programs run: the last line has the load. The second table
has processor time.

  java_trees  examples/java/TreeAndIndex.java
  java_cache  examples/java/CacheAndQueue.java
  java_graph  examples/hotspot/Judge.java, which goes on changing its graph

A wall time of HotSpot is that of the phase `Evacuate Collection Set` of all young pauses of a run, and in another
column that of the whole pauses; the bytes are its `Copied Bytes`. The round that took the least time for a megabyte
counts. Processor time is that of the user and of the system in whole pauses, of all threads of the process. The log has
it in hundredths of a second for each pause, so it is the mean of all rounds, and so is ours. JAVA is a command or a
path. It has to be that of a JDK: with javac, and with jcmd for a dump.
Statuses: 0 done; 1 a run failed, or its log has no bytes that were copied; 2 usage, or there is no JDK.
"""
import argparse
import pathlib
import re
import shutil
import subprocess
import sys
import tempfile
import threading
from typing import NamedTuple

import compare
import phases
from compare import MB, MS, mean, number

HERE = pathlib.Path(__file__).resolve().parent
TOP = HERE.parent
sys.path.insert(0, str(TOP / "examples" / "hotspot"))

import jvm  # noqa: E402 (it is in examples/hotspot/)
import programs  # noqa: E402 (it is in tools/lib/)
import progress  # noqa: E402

DUMP = "DUMP"  # in a program's words: where it writes its dump itself, without the ending
PROGRAMS = {
    "java_trees": ("java/TreeAndIndex.java", ["550000"]),
    "java_cache": ("java/CacheAndQueue.java", ["140000"]),
    "java_graph": ("hotspot/Judge.java", ["800000", "200000", DUMP, "work"]),
}
HEAP = "-Xmx512m"
SIZES = ["4096", "64", "4096"]  # of an image: words of a region, words of a card, regions
BEGIN, END = "<!-- hotspot begin -->", "<!-- hotspot end -->"
SECONDS = 120  # for one program

IN_PAUSE = re.compile(r"\bGC\((\d+)\) +(.*\S)")
EVACUATED = re.compile(r"Evacuate (?:Optional )?Collection Set: ([\d.]+)ms")
COPIED = re.compile(r"Copied Bytes:? +Min: .*\bSum: (\d+), Workers: \d+")
PAUSED = re.compile(r"Pause Young .*\) .* ([\d.]+)ms")
SECONDS_OF_CPU = re.compile(r"User=([\d.]+)s Sys=([\d.]+)s Real=.*")


class Pauses(NamedTuple):
    """The young pauses of a run: their number, the milliseconds of evacuating, of all and of processor time, and the
    bytes they copied."""
    count: int
    evacuating: float
    whole: float
    cpu: float
    copied: int

    def a_megabyte(self, field):
        """Milliseconds for each megabyte; nothing if the log's clock did not move."""
        return getattr(self, field) / (self.copied / MB) or None


def read_log(text):
    """The young pauses of a log. A pause has its lines in any order; those of other pauses are left out."""
    evacuating, whole, cpu, copied = sums = {}, {}, {}, {}
    for line in text.splitlines():
        found = IN_PAUSE.search(line)
        for pattern, of in zip((EVACUATED, PAUSED, SECONDS_OF_CPU, COPIED), sums) if found else ():
            value = pattern.fullmatch(found[2])
            if value:
                of[found[1]] = of.get(found[1], 0) + sum(map(float, value.groups()))
    young = [each for each in whole if all(each in of for of in sums)]
    took = [sum(of[each] for each in young) for of in (evacuating, whole, cpu, copied)]
    return Pauses(len(young), took[0], took[1], MS * took[2], int(took[3]))


def together(runs):
    """All pauses of several runs."""
    return Pauses(*map(sum, zip(*runs)))


def best(runs):
    return min(runs, key=lambda run: run.evacuating / run.copied)


# Java


def java_with_programs(command, room):
    return jvm.Java(command, room, [TOP / "examples" / source for source, _words in PROGRAMS.values()])


def class_of(name):
    return pathlib.Path(PROGRAMS[name][0]).stem


def words_of(name, dump):
    return [str(dump) if word == DUMP else word for word in PROGRAMS[name][1]]


def paused(java, more, name, threads, room):
    """The pauses of one run of a program, by a java with some more options."""
    log, dump = room / "gc.log", room / "dump"
    options = ["-XX:+UseG1GC", f"-XX:ParallelGCThreads={threads}", HEAP, *more,
               f"-Xlog:gc,gc+cpu,gc+phases=debug:file={log}::filecount=0"]
    status, out, errors = jvm.run(java.command, *options, "-cp", java.classes, class_of(name), *words_of(name, dump))
    if status:
        raise phases.Failed(f"{name}: java ended with status {status}: {jvm.failure_of(errors or out)}")
    found = read_log(log.read_text() if log.is_file() else "")
    if not found.copied:
        raise phases.Failed(f"{name}: the log has no young pause that copied anything, or this java writes another log")
    for file in (log, dump.with_suffix(".hprof")):
        file.unlink(missing_ok=True)
    return found


def measured(java, options, room):
    """The pauses of each program in each round, by the number of threads."""
    found = {(name, threads): [] for name in PROGRAMS for threads in options.workers}
    for _ in progress.over(range(options.rounds), "rounds of java"):
        for (name, threads), runs in found.items():
            runs.append(paused(java, options.option, name, threads, room))
    return found


# Images of the programs' heaps


def dump_heap(java, name, room):
    """A dump of the program's heap, what is dead included. No thread has a buffer whose end the JVM would fill."""
    dump = room / f"{name}.hprof"
    options = ["-XX:+UseSerialGC", "-XX:-UseTLAB", "-Xmx1g", "-cp", str(java.classes)]
    process = subprocess.Popen([java.command, *options, class_of(name), *words_of(name, dump.with_suffix(""))],
                               stdin=subprocess.PIPE, stdout=subprocess.PIPE, text=True)
    late = threading.Timer(SECONDS, process.kill)
    late.start()
    try:
        for line in process.stdout:
            if line.strip() == "ready":
                jcmd = pathlib.Path(java.command).resolve().with_name("jcmd")
                jvm.run(jcmd if jcmd.exists() else "jcmd", process.pid, "GC.heap_dump", "-all", dump)
                break
        process.stdin.close()
        status = process.wait()
    finally:
        late.cancel()
        process.kill()
    if status or not dump.is_file():
        raise phases.Failed(f"{name}: there is no dump of its heap; java ended with status {status}")
    return dump


def image_of(java, name, folder, room):
    """The image of the program's heap in the folder. It is made if it is not there."""
    there = sorted(path for path in folder.glob(f"{name}.*") if compare.is_trace(path) is False)
    if there:
        return there[0]
    dump, made = dump_heap(java, name, room), room / f"{name}.img"
    with open(made, "wb") as file:
        status, _, errors = jvm.run(jvm.CONVERTER, dump, *SIZES, output=file)
    dump.unlink()
    if status:
        raise phases.Failed(f"{name}: no image: {jvm.last_line(errors)}")
    try:
        return pathlib.Path(shutil.move(made, folder / made.name))
    except OSError as error:
        raise phases.Failed(f"{folder}: {error.strerror}") from None


def evacuated(machine, images):
    """The figures of `evacuate` on each image."""
    return {name: phases.measure(machine, image, phases.goal_of(machine, image, None, None), commands=False)
            for name, image in progress.over(images.items(), "images")}


# The tables


TITLES = ["HotSpot: young pauses", "MB copied", "evacuating, ms a MB", "whole pauses, ms a MB"]
OUR_TITLES = ["g1pause: regions", "MB copied", "`evacuate`, ms a MB", "without starts", "to HotSpot's evacuating",
              "without starts"]
CPU_TITLES = ["HotSpot: whole pauses, cpu ms a MB"]
OUR_CPU_TITLES = ["g1pause: `evacuate`, cpu ms a MB", "without starts", "to HotSpot's", "without starts"]


def mixed(names, sizes, figures):
    """The cells of a row: sizes and figures of HotSpot, and then of g1pause, if there are any."""
    return [*names, *sizes[:2], *figures[:2], *sizes[2:], *figures[2:]]


def heading(java, ours):
    return f"HotSpot {java.version}, G1" + (", beside g1pause" if ours else "")


def beside(figures, threads, of, hotspot):
    """What `evacuate` takes for a megabyte, with and without starts, and what both are divided by HotSpot's."""
    both = [figures.a_megabyte(threads, without, of) for without in ((), ("starts",))]
    return [*both, *(each / hotspot if each and hotspot else None for each in both)]


def table(lines, java, hotspot, ours, workers):
    """Wall time for a megabyte: the best of all rounds."""
    made = compare.Table(lines, heading(java, ours), ["program", "threads", *TITLES, *(OUR_TITLES if ours else [])])
    for threads in workers:
        rows = []
        for name in PROGRAMS:
            pauses = best(hotspot[name, threads])
            rows.append([pauses.a_megabyte(field) for field in ("evacuating", "whole")])
            cells = [str(pauses.count), number(pauses.copied / MB, 1)]
            if ours:
                rows[-1] += beside(ours[name], threads, phases.least_wall, rows[-1][0])
                cells += [str(len(ours[name].goal.regions)), number(ours[name].copied / MB, 1)]
            made.row(mixed([name, str(threads)], cells, [number(value) for value in rows[-1]]))
        means = [number(mean(column)) for column in zip(*rows)]
        made.row(mixed(["geometric mean", str(threads)], [""] * len(cells), means))


def cpu_table(lines, java, hotspot, ours, workers):
    """Processor time for a megabyte: the means of all rounds."""
    titles = ["program", "threads", *CPU_TITLES, *(OUR_CPU_TITLES if ours else [])]
    made = compare.Table(lines, f"{heading(java, ours)}: processor time", titles)
    for threads in workers:
        rows = []
        for name in PROGRAMS:
            took = together(hotspot[name, threads]).a_megabyte("cpu")
            rows.append([took, *(beside(ours[name], threads, phases.mean_cpu, took) if ours else [])])
            made.row([name, str(threads), *map(number, rows[-1])])
        made.row(["geometric mean", str(threads), *(number(mean(column)) for column in zip(*rows))])


def options_of(words):
    parser = argparse.ArgumentParser(description=__doc__, formatter_class=argparse.RawDescriptionHelpFormatter)
    parser.add_argument("java", metavar="JAVA", help="a java, such as `java`")
    parser.add_argument("--images", type=pathlib.Path, metavar="FOLDER", help="the images of the programs' heaps")
    parser.add_argument("--option", action="append", default=[], metavar="OPTION", help="one more option of java")
    phases.add_options(parser, BEGIN, END)
    parser.set_defaults(program=None)  # it is wanted with images alone
    options = parser.parse_args(words)
    if options.images and not options.images.is_dir():
        parser.error(f"--images: there is no folder {options.images}")
    try:
        options.program = options.images and (options.program or programs.program(programs.find("g1pause")))
    except argparse.ArgumentTypeError as error:
        parser.error(str(error))
    return options


def fail(problem, status):
    print(f"hotspot.py: {problem}", file=sys.stderr)
    return status


def work(options):
    begin, lines = compare.load(), []
    with tempfile.TemporaryDirectory(dir=compare.roomy_folder()) as folder:
        room = pathlib.Path(folder)
        try:
            java = java_with_programs(options.java, room)
        except jvm.Problem as problem:
            return fail(problem, 2)
        ours = None
        if options.images:
            images = {name: image_of(java, name, options.images, room) for name in PROGRAMS}
            ours = evacuated(phases.Machine(options.program, options.rounds, options.workers, room), images)
        hotspot = measured(java, options, room)
    for made in (table, cpu_table):
        made(lines, java, hotspot, ours, options.workers)
    said = phases.about(begin, options.rounds)
    if options.write:
        phases.write(options.write, [said, *lines], BEGIN, END)
    print(f"\n{said}")
    return 0


def main(words):
    options = options_of(words)
    try:
        return phases.ended("hotspot.py", lambda: work(options))
    except jvm.Problem as problem:
        return fail(problem, 1)


if __name__ == "__main__":
    sys.exit(main(sys.argv[1:]))
