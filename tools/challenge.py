#!/usr/bin/env python3
"""Challenges a collector with heaps at random: challenge.py [options] -- COMMAND ..

It draws a heap and some of its regions, has COMMAND collect them, and has `g1heap same` judge the heap after. The first heap
whose answer is wrong is made smaller as long as the answer stays wrong. A crash, a signal, a time over --timeout and a file
that is no image are wrong answers, too.

In the words of COMMAND {before} stands for the file with the heap, {after} for the file to write, and {set} for the regions,
as in 1,2,5. With --set-words a word {set} stands for as many words as there are regions. With --stdin the heap is COMMAND's
standard input, and its standard output is the heap after. With --loop COMMAND is started once, reads a line
`BEFORE AFTER SET` for each heap, and replies with a line `ok` or `room`. If no room is left for the survivors, it ends with
status 75 (or that of --no-room), or replies `room`: then nothing is judged.

With --trace COMMAND answers a trace (docs/TRACE.md) from its standard input on its standard output, and is compared with a
plain store. Then {before}, the set and the options on images mean nothing.

The folder of --out gets the smallest heap (before.img, and its lines before.txt), the heap after (after.img), what the
judge says (verdict.txt), and what our own pause would do (explain.txt); of a trace trace.txt and replies.txt.
Statuses: 0 no answer was wrong; 1 one was; 2 usage, or a COMMAND that can't be run; 3 no answer could be judged, since there
was never room; 130 ended by a signal before an answer was wrong.
"""
import argparse
import pathlib
import re
import shlex
import shutil
import signal
import sys
import tempfile
import time

sys.path.insert(0, str(pathlib.Path(__file__).resolve().parent / "lib"))

import challenging  # noqa: E402 (it is in lib/)
import challenging_traces  # noqa: E402
import progress  # noqa: E402
import running  # noqa: E402
from heap_image import from_bytes  # noqa: E402
from image_text import fault_of  # noqa: E402
from likeness import Likeness, Unlike  # noqa: E402
from programs import BUILD, OUT, regions  # noqa: E402
from random_heaps import PROFILES  # noqa: E402

HEAPS = 1000
TRIES = 500
NO_ROOM = 75
SIGNALS = (signal.SIGINT, signal.SIGTERM, signal.SIGHUP)


class Usage(Exception):
    """What is wrong with the command line."""


def built(name):
    """The program of out/, or that on the path."""
    return str(OUT / name) if (OUT / name).is_file() else shutil.which(name) or str(OUT / name)


def whole(text):
    number = int(text)
    if number < 1:
        raise ValueError(text)
    return number


def parser_of():
    parser = argparse.ArgumentParser(usage="challenge.py [options] -- COMMAND ..", description=__doc__,
                                     formatter_class=argparse.RawDescriptionHelpFormatter)
    heaps = parser.add_argument_group("which heaps")
    heaps.add_argument("--seed", default="1", metavar="S", help="of the heaps (default: 1)")
    heaps.add_argument("--heaps", type=whole, metavar="N", help=f"at most so many (default: {HEAPS}, with --minutes no limit)")
    heaps.add_argument("--minutes", type=float, metavar="N", help="for so many minutes at most")
    heaps.add_argument("--profile", action="append", metavar="NAME", choices=[p.__name__ for p in PROFILES],
                       help="only this kind of heaps; may be given again")
    heaps.add_argument("--profiles", action="store_true", help="prints the kinds of heaps, and ends")
    heaps.add_argument("--like", metavar="IMAGE", help="heaps with the sizes, slots and sharing of this one")
    heaps.add_argument("--image", metavar="IMAGE", help="this heap alone, with --set")
    heaps.add_argument("--set", type=regions, metavar="R,R", help="the regions of --image that are collected, as in 1,2,5-9")
    heaps.add_argument("--trace", action="store_true", help="traces and not heaps")
    how = parser.add_argument_group("how COMMAND is run")
    how.add_argument("--set-words", action="store_true", help="{set} stands for a word for each region")
    how.add_argument("--stdin", action="store_true", help="the heaps before and after are its standard streams")
    how.add_argument("--loop", action="store_true", help="it is started once, and reads a line for each heap")
    how.add_argument("--no-room", type=int, default=NO_ROOM, metavar="STATUS", help=f"says that there is no room (default: {NO_ROOM})")
    how.add_argument("--timeout", type=float, default=10, metavar="SECONDS", help="for one heap (default: 10)")
    how.add_argument("--jobs", type=whole, default=1, metavar="N", help="so many at once (default: 1)")
    how.add_argument("--again", type=whole, default=1, metavar="N", help="runs each heap so often, for an error that comes and goes")
    asked = parser.add_argument_group("what is asked of the heap after (docs/COMPARE.md)")
    asked.add_argument("--covered", action="store_true", help="its references are covered, too")
    asked.add_argument("--fill", action="store_true", help="copies may be behind the tops of regions that are kept")
    asked.add_argument("--exact", action="store_true", help="the bytes of our own pause")
    asked.add_argument("--graph", action="store_true", help="only the graph, for a collector that lays out anew")
    small = parser.add_argument_group("the smallest heap")
    small.add_argument("--tries", type=int, metavar="N", help=f"runs of COMMAND to make it smaller (default: {TRIES} times --again)")
    small.add_argument("--same-kind", action="store_true", help="it has to go wrong in the same way")
    small.add_argument("--out", default="challenge", metavar="FOLDER", help="gets it (default: challenge)")
    parser.add_argument("--g1heap", default=built("g1heap"), metavar="FILE", help="the judge (default: out/g1heap)")
    parser.add_argument("--g1pause", default=built("g1pause"), metavar="FILE", help="for --exact (default: out/g1pause)")
    return parser


def options_of(words):
    parser = parser_of()
    ours, command = words, []
    if "--" in words:
        ours, command = words[:words.index("--")], words[words.index("--") + 1:]
    options = parser.parse_args(ours)
    options.words, options.command = ours, command
    options.tries = TRIES * options.again if options.tries is None else options.tries
    if options.profiles:
        return options
    try:
        check(options)
    except Usage as error:
        parser.error(str(error))
    return options


def check(options):
    command = " ".join(options.command)
    if not options.command:
        raise Usage("-- and then COMMAND is missing")
    if options.trace or options.loop or options.stdin:
        if options.loop + options.stdin + options.trace > 1:
            raise Usage("--loop, --stdin and --trace exclude each other")
        if "{before}" in command or "{after}" in command:
            raise Usage("with --loop, --stdin or --trace COMMAND gets no {before} and no {after}")
    elif "{before}" not in command or "{after}" not in command:
        raise Usage("COMMAND has no {before} or no {after}: it takes files, or else --stdin or --loop")
    if options.graph and (options.covered or options.fill or options.exact):
        raise Usage("--graph excludes --covered, --fill and --exact")
    if bool(options.image) != bool(options.set):
        raise Usage("--image and --set belong together")
    if bool(options.image) + bool(options.like) + bool(options.profile) > 1:
        raise Usage("--image, --like and --profile exclude each other")
    if not pathlib.Path(options.g1heap).is_file():
        raise Usage(f"{options.g1heap} is not there: {BUILD}")
    if options.exact and not pathlib.Path(options.g1pause).is_file():
        raise Usage(f"{options.g1pause} is not there: {BUILD}")


def image_of(path):
    """The image of a file that has one and is covered."""
    try:
        data = pathlib.Path(path).read_bytes()
    except OSError as error:
        raise Usage(f"{path}: {error.strerror}") from None
    fault = fault_of(data, True)
    if fault:
        raise Usage(f"{path}: fault {fault}")
    return from_bytes(data)


class Challenge:
    """One call of this script, with a folder for what it runs."""

    def __init__(self, options, folder):
        self.options, self.folder = options, pathlib.Path(folder)
        self.start = time.monotonic()
        self.collectors = []

    def seconds(self):
        return time.monotonic() - self.start

    def collector(self, job):
        """COMMAND in a folder of its own."""
        options, room = self.options, self.folder / str(job)
        room.mkdir()
        if options.loop:
            if len(str(room).split()) > 1:
                raise Usage(f"--loop wants a temporary folder without spaces: {room}")
            made = running.Server(options.command, room, options.timeout)
        else:
            by_streams = options.stdin or options.trace
            no_room = None if options.trace else options.no_room
            made = running.Command(options.command, room, options.timeout, no_room, by_streams, options.set_words)
        self.collectors.append(made)
        return made, room

    def close(self):
        for number in SIGNALS:
            signal.signal(number, signal.SIG_IGN)
        for collector in self.collectors:
            collector.kill()
            collector.renew()

    def run(self):
        options = self.options
        if options.trace:
            return self.traces()
        asked = challenging.Asked(options.g1heap, options.g1pause, options.covered, options.fill, options.graph, options.exact)
        jobs = 1 if options.image else options.jobs
        trials = [challenging.Trial(collector, asked, room) for collector, room in map(self.collector, range(jobs))]
        found = self.one(trials[0]) if options.image else self.hunt(trials)
        return self.wrong(trials[0], *found) if found else self.none_wrong(trials)

    def one(self, trial):
        """The heap of --image."""
        image, chosen = image_of(self.options.image), self.options.set
        for region in chosen:
            if not 0 <= region < image.regions or image.kinds[region] != 1 or image.pinned[region]:
                raise Usage(f"no pause collects region {region} of {self.options.image}")
        wrong = trial.heap(image, chosen, self.options.again, is_first_enough=False)
        return wrong and (self.options.image, image, chosen, wrong)

    def hunt(self, trials):
        options = self.options
        profiles = [p for p in PROFILES if not options.profile or p.__name__ in options.profile]
        if options.like:
            profiles = [Likeness(image_of(options.like))]
            print(f"like {options.like}: {profiles[0]}")
        heaps = options.heaps or (None if options.minutes else HEAPS)
        seconds = options.minutes and 60 * options.minutes
        hunt = challenging.Hunt(trials, options.seed, heaps, seconds, options.again, profiles)
        with progress.doing("heaps", lambda: hunt.judged, heaps):
            found = hunt.run()
        return found and (f"heap {found[0]} of seed {options.seed} ({found[4].__name__})", *found[1:4])

    def none_wrong(self, trials):
        runs, right, rooms = (sum(getattr(trial, name) for trial in trials) for name in ("runs", "right", "rooms"))
        print(f"{runs} answers, none wrong: {right} right, {rooms} without room; {self.seconds():.1f} s")
        return 0 if right else 3

    def wrong(self, trial, name, image, chosen, wrong):
        print(f"{name}: wrong after {self.seconds():.1f} s{wrong.often()}\n  {wrong.text}")
        options, wanted = self.options, challenging.kind(wrong.text) if self.options.same_kind else None
        trial.collector.renew()
        if options.tries > 0:
            again = trial.heap(image, chosen, options.again, wanted, False)
            if again:
                image, chosen, wrong = self.reduce(trial, image, chosen, again, wanted)
            else:
                print(f"  the same heap is right when it is run again{' by a new COMMAND' * options.loop}: it is not made smaller."
                      f" --again N runs each heap N times")
        self.write(trial, image, chosen, wrong)
        return 1

    def reduce(self, trial, image, chosen, wrong, wanted):
        options, runs, start = self.options, trial.runs, self.seconds()
        with progress.doing("making it smaller", lambda: trial.runs - runs):
            image, chosen, wrong, is_whole = challenging.reduce(trial, image, chosen, wrong, options.tries, options.again,
                                                                wanted, (KeyboardInterrupt,))
        tries = trial.runs - runs
        if options.again > 1 and is_whole:
            wrong = trial.heap(image, chosen, options.again, wanted, False) or wrong
        print(f"made smaller in {tries} runs, {self.seconds() - start:.1f} s{'' if is_whole else ', and not done'}: "
              f"{len(list(image.objects()))} objects, {image.regions} regions; set {','.join(map(str, chosen))}{wrong.often()}"
              f"\n  {wrong.text}")
        return image, chosen, wrong

    def again(self, chosen):
        """The command line that shows the smallest heap again."""
        options, words, at = self.options, [], 0
        while at < len(options.words):
            word = options.words[at].split("=")[0]
            is_left = word in ("--seed", "--heaps", "--minutes", "--profile", "--like", "--image", "--set", "--jobs", "--tries")
            with_value = word not in ("--set-words", "--stdin", "--loop", "--covered", "--fill", "--exact", "--graph",
                                      "--same-kind", "--trace") and "=" not in options.words[at]
            words += [] if is_left else options.words[at:at + 1 + with_value]
            at += 1 + with_value
        shown = ["--image", str(pathlib.Path(options.out) / "before.img"), "--set", ",".join(map(str, chosen)), "--tries", "0"]
        return shlex.join([sys.argv[0], *words, *shown, "--", *options.command])

    def write(self, trial, image, chosen, wrong):
        """Puts the smallest heap and what there is to say of it into the folder, and prints it."""
        out, regions = pathlib.Path(self.options.out), ",".join(map(str, chosen))
        trial.collector.renew()
        last = trial.heap(image, chosen, self.options.again)
        out.mkdir(parents=True, exist_ok=True)
        for name in ("after.img", "before.img"):
            (out / name).unlink(missing_ok=True)
        shutil.copyfile(trial.before, out / "before.img")
        if challenging.is_file(trial.after):
            shutil.copyfile(trial.after, out / "after.img")
        lines = self.heap_lines("print", str(trial.before))
        pause = self.heap_lines("explain", str(trial.before), "--set", regions)
        (out / "verdict.txt").write_text(f"{(last or wrong).text}\n")
        (out / "before.txt").write_text(lines)
        (out / "explain.txt").write_text(pause)
        steps = re.split("^set .*\n", pause, maxsplit=1, flags=re.MULTILINE)[-1]
        print("\n".join([*shown(lines), "what our own pause does:", *shown(steps, 20)]))
        if not last:
            print("  it was right when it was run once more")
        print(f"{out}/ has before.img, before.txt, verdict.txt, explain.txt{', after.img' * (out / 'after.img').exists()}\n"
              f"again: {self.again(chosen)}")

    def heap_lines(self, *words):
        done = challenging.ask([self.options.g1heap, *words])
        return done.stdout + done.stderr

    def traces(self):
        trial = challenging_traces.TraceTrial(*self.collector("trace"))
        with progress.doing("traces", whole=self.options.heaps) as step:
            trace, said = self.hunt_traces(trial, step)
        if said is not None:
            return self.wrong_trace(trial, trace, step.done - 1, said)
        print(f"{step.done} traces, no reply wrong; {trial.full} of {trial.made} objects found no place; {self.seconds():.1f} s")
        return 3 if trial.full == trial.made else 0

    def hunt_traces(self, trial, step):
        """The first trace that goes wrong, and what is wrong with it; None and None if none does."""
        options = self.options
        most = options.heaps or (sys.maxsize if options.minutes else HEAPS)
        while step.done < most and not (options.minutes and self.seconds() > 60 * options.minutes):
            trace = challenging_traces.draw(options.seed, step.done)
            said = next(filter(None, (trial.once(trace) for _ in range(options.again))), None)
            step.done += 1
            if said is not None:
                return trace, said
        return None, None

    def wrong_trace(self, trial, trace, number, said):
        options, runs = self.options, trial.runs
        print(f"trace {number} of seed {options.seed}: wrong after {self.seconds():.1f} s\n  {said}")
        with progress.doing("making it shorter", lambda: trial.runs - runs):
            trace, said, is_whole = challenging_traces.reduce(trial, trace, said, options.tries, (KeyboardInterrupt,))
        print(f"made shorter in {trial.runs - runs} runs{'' if is_whole else ', and not done'}: {len(trace.lines)} commands\n  {said}")
        out = pathlib.Path(options.out)
        out.mkdir(parents=True, exist_ok=True)
        (out / "trace.txt").write_text(trace.text())
        trial.once(trace)
        shutil.copyfile(trial.folder / "replies", out / "replies.txt")
        print("\n".join(shown(trace.text())))
        print(f"{out}/ has trace.txt, replies.txt\nagain: {shlex.join(options.command)} < {shlex.quote(str(out / 'trace.txt'))}")
        return 1


def shown(lines, most=40):
    """The first lines of a text, set in."""
    lines = [f"  {line[:200]}" for line in lines.splitlines()]
    return lines[:most] + [f"  and {len(lines) - most} lines more"] * (len(lines) > most)


def interrupted(_number, _frame):
    raise KeyboardInterrupt


def file_limit(options):
    """No file that COMMAND writes is longer than this: far more than an answer has."""
    sizes = [pathlib.Path(path).stat().st_size for path in (options.image, options.like) if path and pathlib.Path(path).is_file()]
    return running.MOST_BYTES + 2 * max(sizes, default=0)


def main():
    options = options_of(sys.argv[1:])
    if options.profiles:
        for profile in PROFILES:
            print(f"{profile.__name__}: {profile.__doc__.splitlines()[0]}")
        return 0
    for number in SIGNALS:
        signal.signal(number, interrupted)
    running.limit_files(file_limit(options))
    with tempfile.TemporaryDirectory(prefix="challenge-") as folder:
        challenge = Challenge(options, folder)
        try:
            return challenge.run()
        except (Usage, Unlike, running.NoCommand, challenging.Failed, OSError) as error:
            print(f"challenge.py: {error}", file=sys.stderr)
            return 2
        except KeyboardInterrupt:
            print("ended by a signal", file=sys.stderr)
            return 130
        finally:
            challenge.close()


if __name__ == "__main__":
    sys.exit(main())
