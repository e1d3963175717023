"""Challenges a collector: draws heaps, has it collect some regions of each, and has `g1heap same` judge what it left.

A collector is what `running` runs, or anything with a call `run(before, after, chosen)` that writes the file after, returns
False if it found no room, and raises `Ended` if it went wrong.
"""
import dataclasses
import pathlib
import random
import re
import stat
import subprocess
import threading
import time

from random_heaps import PROFILES, draw_set
from reducible import take_apart
from reducing import Enough, Reducer
from running import Ended, remove

JUDGE_SECONDS = 60
ROOM = 5  # the status of g1pause for a pause without room


class Failed(Exception):
    """The challenge itself can't go on."""


@dataclasses.dataclass
class Asked:
    """What is asked of an answer: `--covered`, `--fill`, `--graph` and `--exact` of tools/challenge.py."""
    g1heap: str
    g1pause: str = ""
    covered: bool = False
    fill: bool = False
    graph: bool = False
    exact: bool = False

    def words(self, before, after, chosen):
        if self.graph:
            return [self.g1heap, "same", str(before), str(after)]
        regions = ["--set", ",".join(map(str, chosen)), *["--fill"] * self.fill]
        return [self.g1heap, "same", *["--covered"] * self.covered, str(before), str(after), *regions]

    def judge(self, before, after, chosen):
        """What is wrong with the file after: the lines of the judge. None if it is right."""
        if not is_file(after):
            return "it wrote no file after"
        done = ask(self.words(before, after, chosen))
        if done.returncode not in (0, 1, 3, 4):
            raise Failed(f"g1heap same: status {done.returncode}: {done.stderr.strip()}")
        if done.returncode:
            return (done.stdout or done.stderr.partition(": ")[2]).replace(str(after), "after").splitlines()[0]
        return self.differs(before, after, chosen) if self.exact else None

    def has_room(self, before, chosen):
        """Whether our own pause finds room."""
        words = [self.g1heap, "explain", str(before), "--set", ",".join(map(str, chosen))]
        return ask(words).returncode == 0

    def answer(self, before, chosen):
        """The bytes of our own pause. None if it finds no room."""
        data = pathlib.Path(before).read_bytes()
        done = ask([self.g1pause, "pause", *map(str, chosen)], input=data, text=False, errors=None)
        if done.returncode not in (0, ROOM):
            raise Failed(f"g1pause pause: status {done.returncode}: {done.stderr.decode(errors='replace').strip()}")
        return None if done.returncode else done.stdout

    def differs(self, before, after, chosen):
        """Where the bytes after are not those of our own pause."""
        ours, theirs = self.answer(before, chosen), pathlib.Path(after).read_bytes()
        if ours is None:
            return "it found room, and our own pause finds none"
        if ours == theirs:
            return None
        at = next((i for i, (x, y) in enumerate(zip(ours, theirs)) if x != y), min(len(ours), len(theirs)))
        return f"differ bytes: byte {at} is not that of our own pause"


def ask(words, **options):
    """Runs a program of ours."""
    options = {"text": True, "errors": "replace", **options}
    try:
        return subprocess.run(words, capture_output=True, timeout=JUDGE_SECONDS, check=False, **options)
    except subprocess.TimeoutExpired:
        raise Failed(f"{' '.join(words[:2])} took more than {JUDGE_SECONDS} seconds") from None


def is_file(path):
    try:
        return stat.S_ISREG(path.lstat().st_mode)
    except OSError:
        return False


def kind(text):
    """In which way an answer is wrong: its text without numbers and without what follows the first colon after a path."""
    words = text.split(" at ")[0] if text.startswith("differ") else text.split(";")[0]
    return re.sub(r"\d+", "N", words)


@dataclasses.dataclass
class Wrong:
    """A wrong answer: what is said of it, and how many of how many runs gave one."""
    text: str
    times: int = 1
    runs: int = 1

    def often(self):
        return "" if self.runs == 1 else f" (wrong in {self.times} of {self.runs} runs)"


class Trial:
    """One collector in one folder. It counts the runs, and how many found no room."""

    def __init__(self, collector, asked, folder):
        self.collector, self.asked, self.folder = collector, asked, pathlib.Path(folder)
        self.before, self.after = self.folder / "before.img", self.folder / "after.img"
        self.data = b""  # the heap that is being collected
        self.runs = self.rooms = self.right = 0

    def once(self, chosen):
        """What is wrong with one answer; None if it is right, or if there is no room."""
        self.runs += 1
        self.before.write_bytes(self.data)
        remove(self.after)
        try:
            found = self.collector.run(self.before, self.after, chosen)
        except Ended as ended:
            return str(ended)
        if not is_file(self.before) or self.before.read_bytes() != self.data:
            remove(self.before)
            self.before.write_bytes(self.data)
            return "it changed the file before"
        if found:
            said = self.asked.judge(self.before, self.after, chosen)
            self.right += said is None
            return said
        self.rooms += 1
        if self.asked.exact and self.asked.answer(self.before, chosen) is not None:
            return "it found no room, and our own pause finds some"
        return None

    def heap(self, image, chosen, times=1, wanted=None, is_first_enough=True):
        """Wrong, if one of so many runs on a heap is wrong, and wrong in the wanted way. None else."""
        self.data = image.to_bytes()
        found, text = 0, None
        for run in range(1, times + 1):
            said = self.once(chosen)
            if said is not None and wanted in (None, kind(said)):
                found, text = found + 1, said
                if is_first_enough:
                    break
        return Wrong(text, found, run) if found else None


def draw(seed, number, profiles=PROFILES):
    """The heap of a number and the regions to collect, by the profile whose turn it is, and the profile."""
    rng = random.Random(f"{seed} {number}")
    profile = profiles[number % len(profiles)]
    while True:
        image = profile(rng)
        chosen = draw_set(rng, image)
        if chosen:
            return image, chosen, profile


class Hunt:
    """Looks for the first heap that goes wrong, by several trials at once. `found` is its number, image, set and Wrong."""

    def __init__(self, trials, seed, heaps, seconds, times, profiles=PROFILES):
        self.trials, self.seed, self.heaps, self.times, self.profiles = trials, seed, heaps, times, profiles
        self.end = None if seconds is None else time.monotonic() + seconds
        self.next = self.judged = 0
        self.found, self.failure, self.is_stopped = None, None, False
        self.lock = threading.Lock()

    def take(self):
        """The number of the next heap, or None."""
        with self.lock:
            is_late = self.end is not None and time.monotonic() > self.end
            if self.is_stopped or self.found or is_late or self.next == self.heaps:
                return None
            self.next += 1
            return self.next - 1

    def work(self, trial):
        try:
            while (number := self.take()) is not None:
                image, chosen, profile = draw(self.seed, number, self.profiles)
                wrong = trial.heap(image, chosen, self.times)
                with self.lock:
                    self.judged += 1
                    # Of several the one with the lowest number: so it does not depend on how many look at once.
                    if wrong and not self.is_stopped and (not self.found or number < self.found[0]):
                        self.found = number, image, chosen, wrong, profile
        except Exception as error:  # it is raised again where the hunt is waited for
            self.failure = self.failure or error
            self.is_stopped = True

    def run(self):
        """Hunts until a heap goes wrong or all are judged, and returns what was found."""
        threads = [threading.Thread(target=self.work, args=(trial,)) for trial in self.trials]
        try:
            for thread in threads:
                thread.start()
            for thread in threads:
                while thread.is_alive():
                    thread.join(1)
        finally:
            self.is_stopped = True
            if any(thread.is_alive() for thread in threads):
                for trial in self.trials:
                    trial.collector.kill()
                for thread in threads:
                    thread.join()
        if self.failure:
            raise self.failure
        return self.found


def reduce(trial, image, chosen, wrong, tries, times=1, wanted=None, ends=()):
    """The smallest heap found that goes wrong, in so many runs of the collector: its image, set and Wrong, and whether the
    tries sufficed. An exception of `ends` stops it, too, with what it has. If our own pause has room, it has room in the smallest,
    too: so there is a right answer to compare with."""
    smallest, first = [image, chosen, wrong], trial.runs
    trial.before.write_bytes(image.to_bytes())
    needs_room = trial.asked.has_room(trial.before, chosen)

    def is_wrong(tried, regions):
        if trial.runs - first >= tries:
            raise Enough()
        trial.collector.renew()
        said = trial.heap(tried, regions, times, wanted)
        if said and needs_room and not trial.asked.has_room(trial.before, regions):
            return False
        if said:
            smallest[:] = tried, regions, said
        return said is not None

    reducer = Reducer(take_apart(image, chosen), is_wrong)
    try:
        reducer.run()
    except (Enough, *ends):
        return *smallest, False
    return *smallest, True
