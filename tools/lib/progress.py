"""Signs of life: what a script does, how far it is, and for how long. A module of scripts that take more than seconds.

While a step is under way, a thread writes a line to standard error every few seconds. On a terminal it writes the line
in place, and takes it away before anything else is printed and at the end. What takes less time shows nothing. A line is

  SCRIPT: WHAT: 12 of 40, INNER: 3, 1 min 5 s

with the steps from the outermost to the innermost, and the time since the outermost began. It is no part of what a
script answers: SIGN is its form, for those that read the answers.

  for case in progress.over(cases, "cases"): ..
  with progress.doing("compiling"): ..
  progress.show("cases", lambda: tries.passed)  # up to the script's end
"""
import atexit
import contextlib
import pathlib
import re
import shutil
import sys
import threading
import time

EVERY = 4  # seconds between two lines in a file or a pipe, so that none waits for five
IN_PLACE = 0.5  # on a terminal
FIRST = 2  # what takes less shows nothing on a terminal
SIGN = re.compile(r"[\w.-]+: .+, (?:\d+ min )?\d+ s")


def in_words(seconds):
    seconds = round(seconds)
    return f"{seconds // 60} min {seconds % 60} s" if seconds >= 60 else f"{seconds} s"


class Step:
    """A part of the work: what it is, and how far it is, as a number that rises or as what a function says."""

    def __init__(self, what, count=None, whole=None):
        self.what, self.count, self.whole = what, count, whole
        self.done, self.begun = 0, time.monotonic()

    def text(self):
        how_far = self.count() if self.count else self.done
        if how_far is None or how_far == 0 and not self.whole:
            return self.what
        number = f"{how_far:,}" if isinstance(how_far, int) else how_far
        return f"{self.what}: {number} of {self.whole:,}" if self.whole else f"{self.what}: {number}"


class Cleared:
    """A stream to the terminal, which takes the sign away before it writes."""

    def __init__(self, stream, signs):
        self.stream, self.signs = stream, signs

    def write(self, text):
        self.signs.clear()
        return self.stream.write(text)

    def __getattr__(self, name):
        return getattr(self.stream, name)


class Signs:
    """The steps that are under way, and the thread that writes them."""

    def __init__(self):
        self.steps, self.lock, self.thread = [], threading.RLock(), None
        self.changed, self.shown, self.file = threading.Event(), False, sys.stderr
        self.every = EVERY
        self.name = pathlib.Path(sys.argv[0]).name or "python"

    def begin(self, step):
        with self.lock:
            self.steps.append(step)
            if self.thread is None:
                self.start()

    def end(self, step):
        with self.lock:
            self.steps.remove(step)
            if not self.steps:
                self.clear()

    def start(self):
        self.file, self.thread = sys.stderr, threading.Thread(target=self.work, daemon=True)
        if self.file.isatty():
            sys.stdout, sys.stderr = (Cleared(stream, self) if stream.isatty() else stream
                                      for stream in (sys.stdout, sys.stderr))
        atexit.register(self.clear)
        self.thread.start()

    def work(self):
        in_place = self.file.isatty()
        last = time.monotonic()
        while True:
            time.sleep(0.1)
            now = time.monotonic()
            with self.lock:
                if not self.steps:
                    last = now
                elif in_place and now - self.steps[0].begun >= FIRST and now - last >= IN_PLACE or now - last >= self.every:
                    last = now
                    with contextlib.suppress(OSError, ValueError):
                        self.write(self.line(now), in_place)

    def line(self, now):
        parts = [step.text() for step in self.steps]
        return f"{self.name}: {', '.join(parts)}, {in_words(now - self.steps[0].begun)}"

    def write(self, line, in_place):
        if in_place:
            print(f"\r\033[K{line[:shutil.get_terminal_size().columns - 1]}", end="", file=self.file, flush=True)
            self.shown = True
        else:
            print(line, file=self.file, flush=True)

    def clear(self):
        """Takes the sign away that stands on the terminal."""
        with self.lock:
            if self.shown:
                self.shown = False
                with contextlib.suppress(OSError, ValueError):
                    print("\r\033[K", end="", file=self.file, flush=True)


SIGNS = Signs()


@contextlib.contextmanager
def doing(what, count=None, whole=None):
    """Shows a step while the block runs. `count` is a function that says how far it is. Without one, the block counts in
    the step's `done`."""
    step = Step(what, count, whole)
    SIGNS.begin(step)
    try:
        yield step
    finally:
        SIGNS.end(step)


def show(what, count, whole=None):
    """Shows a step up to the script's end. `count` is a function that says how far it is."""
    SIGNS.begin(Step(what, count, whole))


def over(items, what, whole=None):
    """The items, of which it shows how many were begun."""
    if whole is None and hasattr(items, "__len__"):
        whole = len(items)
    with doing(what, whole=whole) as step:
        for item in items:
            step.done += 1
            yield item


def without_signs(lines):
    """The lines that are no signs of life."""
    return [line for line in lines if not SIGN.fullmatch(line)]
