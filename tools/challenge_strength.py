#!/usr/bin/env python3
"""Measures how soon tools/challenge.py finds an error: challenge_strength.py [--seed S] [--error NAME ..] [--write PAGE]

Each collector of tools/lib/collector_errors.py is challenged with `--covered`, with at most 2,000 heaps and for a minute at most,
and the first heap that goes wrong is made smaller. It prints a table: the error, how many heaps were drawn, by which profile the
last one, the seconds until then, the runs that made it smaller, and the objects and words of the smallest heap. With --write the
table takes the place of that in PAGE. The collectors run in this process, so what a start of a COMMAND takes is not counted.
The last line is 'N found, M not found'; the status is 1 if more than two were not found.
"""
import argparse
import pathlib
import random
import re
import statistics
import sys
import tempfile
import time
import zlib

sys.path.insert(0, str(pathlib.Path(__file__).resolve().parent / "lib"))

import progress  # noqa: E402 (it is in lib/)
from challenging import Asked, Hunt, Trial, reduce  # noqa: E402
from collector_errors import ERRORS  # noqa: E402
from heap_image import from_bytes  # noqa: E402
from opponent import NoRoom  # noqa: E402
from programs import add_program  # noqa: E402
from running import Ended  # noqa: E402

HEAPS, SECONDS, TRIES = 2000, 60, 2000
HEAD = ("| Error | Heaps | The last one | Seconds | Runs | Objects | Words |", "|---|---|---|---|---|---|---|")


class InProcess:
    """A collector of this process: it takes what is random from the heap, so it answers the same heap in the same way."""

    def __init__(self, make):
        self.make = make

    def run(self, before, after, chosen):
        data = before.read_bytes()
        try:
            image = self.make(from_bytes(data), chosen, random.Random(zlib.crc32(data))).evacuate()
        except NoRoom:
            return False
        except Exception as error:  # a collector that is wrong may fail in any way
            raise Ended(f"{type(error).__name__}: {error}") from None
        after.write_bytes(image.to_bytes())
        return True

    def renew(self):
        """Nothing of one run is left for the next."""

    kill = renew


def measured(make, g1heap, seed):
    """The cells of a row, and the objects of the smallest heap. None in their place if the error was not found."""
    with tempfile.TemporaryDirectory() as folder:
        trial = Trial(InProcess(make), Asked(g1heap, covered=True), folder)
        hunt, start = Hunt([trial], seed, HEAPS, SECONDS, 1), time.monotonic()
        found = hunt.run()
        seconds = time.monotonic() - start
        if not found:
            return [str(hunt.judged), "not found", f"{seconds:.1f}", "", "", ""], None
        number, image, chosen, wrong, profile = found
        runs = trial.runs
        image, _, _, is_whole = reduce(trial, image, chosen, wrong, TRIES)
        objects = list(image.objects())
        tries = f"{trial.runs - runs}{'' if is_whole else ' at most'}"
        words = sum(image.size(address) for address in objects)
        return [str(number + 1), f"`{profile.__name__}`", f"{seconds:.1f}", tries, str(len(objects)), str(words)], len(objects)


def table(errors, g1heap, seed):
    """The lines of the table, the sizes of the smallest heaps, and how many errors were not found."""
    lines, sizes = list(HEAD), []
    for make in progress.over(errors, "errors"):
        cells, size = measured(make, g1heap, seed)
        lines.append(f"| {' | '.join([make.__doc__.splitlines()[0], *cells])} |")
        print(lines[-1], flush=True)
        sizes += [] if size is None else [size]
    return lines, sizes


def put(page, lines):
    """Puts the table into the page, in the place of the one that it has."""
    text = page.read_text()
    old = re.search(rf"^{re.escape(HEAD[0])}\n(\|.*\n)+", text, re.M)
    if not old:
        sys.exit(f"{page} has no such table")
    page.write_text(text[:old.start()] + "\n".join(lines) + "\n" + text[old.end():])


def main():
    parser = argparse.ArgumentParser(description=__doc__, formatter_class=argparse.RawDescriptionHelpFormatter)
    add_program(parser, "g1heap")
    parser.add_argument("--seed", default="1", metavar="S")
    parser.add_argument("--error", action="append", metavar="NAME", choices=[make.__name__ for make in ERRORS])
    parser.add_argument("--write", type=pathlib.Path, metavar="PAGE")
    options = parser.parse_args()
    errors = [make for make in ERRORS if not options.error or make.__name__ in options.error]
    lines, sizes = table(errors, options.g1heap, options.seed)
    if options.write and not options.error:
        put(options.write, lines)
    missed = len(errors) - len(sizes)
    if sizes:
        print(f"the smallest heaps have {statistics.median(sizes):g} objects in the middle, and {max(sizes)} at most")
    print(f"{len(sizes)} found, {missed} not found")
    return 1 if missed > 2 else 0


if __name__ == "__main__":
    sys.exit(main())
