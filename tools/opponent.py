#!/usr/bin/env python3
"""opponent.py IMAGE OUT --set R .. [--seed S] [--threads T] [--buffer WORDS] [--fill]
opponent.py --loop [--seed S] [--threads T] [--buffer WORDS] [--fill]

Evacuates the regions of a set as a collector of another make would, and writes the image after. T threads (3)
take the survivors in a random order. Each copies into a buffer of its own of at most so many words (12), in a
random free region of its own; what it leaves of a buffer is filled with a dead object, as such collectors do. With
--fill a thread also copies behind the top of an ordinary region that is kept.
Roots and slots are updated, the set's regions are free, remembered sets are exact, and the log is empty.

So the image after is not the one that g1pause gives, and yet shows the same graph. If the free regions do not suffice, the
status is 75. With --loop it reads lines `IMAGE OUT R,R` and replies `ok` or `room` to each, as tools/challenge.py asks.
"""
import argparse
import pathlib
import random
import sys

sys.path.insert(0, str(pathlib.Path(__file__).resolve().parent / "lib"))

from heap_image import FREE, NULL, ORDINARY, from_bytes  # noqa: E402
from programs import regions  # noqa: E402

NO_ROOM = 75  # the status if the free regions do not suffice


def refused(image, region):
    """Whether no pause collects a region: it is not in the heap, not ordinary, or pinned."""
    return not 0 <= region < image.regions or image.kinds[region] != ORDINARY or image.pinned[region]


class NoRoom(Exception):
    """The free regions did not suffice."""


class Worker:
    """A thread with its region, and its buffer in that region."""

    def __init__(self, opponent):
        self.opponent, self.image, self.rng = opponent, opponent.image, opponent.rng
        self.region, self.at, self.end = None, 0, 0

    def room(self, size):
        """The address of room for an object."""
        if self.at + size > self.end:
            self.retire()
            self.take_buffer(size)
        address, self.at = self.at, self.at + size
        return address

    def retire(self):
        """Fills what is left of the buffer with a dead object."""
        if self.at < self.end:
            self.image.words[self.at] = (self.end - self.at) << 32
            self.at = self.end

    def take_buffer(self, size):
        width = self.image.region_words
        top = self.image.tops[self.region] if self.region is not None else width
        if top + size > width:
            self.region, top = self.opponent.take_region(size)
        length = max(size, min(self.rng.randint(1, self.opponent.buffer), width - top))
        self.at = self.region * width + top
        self.end = self.at + length
        self.image.tops[self.region] = top + length


class Opponent:
    def __init__(self, image, chosen, rng, threads=3, buffer=12, fill=False):
        # A filler is an ordinary object too, so a buffer is not larger than one may be.
        self.image, self.chosen, self.rng = image.copy(), set(chosen), rng
        self.buffer = min(buffer, 3 * image.region_words // 4)
        self.workers = [Worker(self) for _ in range(threads)]
        self.copies = {}
        kept = [r for r in range(image.regions) if image.kinds[r] == ORDINARY and r not in self.chosen]
        self.fillable = kept if fill else []

    def take_region(self, size):
        """A region for a thread, with its top: a free one, or one to fill that has room for so many words."""
        image = self.image
        free = [r for r in range(image.regions) if image.kinds[r] == FREE]
        filled = [r for r in self.fillable if image.tops[r] + size <= image.region_words]
        if filled and (not free or self.rng.random() < 0.7):
            region = self.rng.choice(filled)
            self.fillable.remove(region)
            return region, image.tops[region]
        if not free:
            raise NoRoom()
        region = self.rng.choice(free)
        image.kinds[region] = ORDINARY
        return region, 0

    def leads_in(self, word):
        return word != NULL and self.image.region_of(word - 1) in self.chosen

    def slots_outside(self):
        image = self.image
        for region in range(image.regions):
            if region not in self.chosen:
                for address in image.objects_in(region):
                    yield from image.slots(address)

    def evacuate(self):
        words = self.image.words
        outside = [slot for slot in self.slots_outside() if self.leads_in(words[slot])]
        self.copy_all([words[slot] - 1 for slot in outside] + [w - 1 for w in self.image.roots if self.leads_in(w)])
        for worker in self.workers:
            worker.retire()
        self.update(outside)
        self.free_set()
        self.remember()
        return self.image

    def copy_all(self, waiting):
        """Copies these objects and all of the set that they lead to, in a random order."""
        image, words = self.image, self.image.words
        while waiting:
            address = waiting.pop(self.rng.randrange(len(waiting)))
            if address not in self.copies:
                self.copies[address] = self.copy(address)
                waiting += [words[slot] - 1 for slot in image.slots(address) if self.leads_in(words[slot])]

    def copy(self, address):
        size = self.image.size(address)
        to = self.rng.choice(self.workers).room(size)
        self.image.words[to:to + size] = self.image.words[address:address + size]
        return to

    def forward(self, word):
        return self.copies[word - 1] + 1 if self.leads_in(word) else word

    def update(self, outside):
        image = self.image
        image.roots = [self.forward(word) for word in image.roots]
        for slot in outside + [slot for to in self.copies.values() for slot in image.slots(to)]:
            image.words[slot] = self.forward(image.words[slot])

    def free_set(self):
        image, width = self.image, self.image.region_words
        for region in self.chosen:
            image.kinds[region], image.tops[region] = FREE, 0
            image.words[region * width:(region + 1) * width] = [0] * width

    def remember(self):
        """The sets after: all cards that a reference into a region lies on, and no others."""
        self.image.log, self.image.current = [], None
        self.image.make_exact()


def image_of(file):
    """The image that a file has."""
    try:
        return from_bytes(pathlib.Path(file).read_bytes())
    except OSError as error:
        sys.exit(f"{file}: {error.strerror}")
    except ValueError as error:
        sys.exit(f"{file}: {error}")


def answer(image, out, chosen, options):
    """Writes the heap after. False if the free regions do not suffice."""
    before = image_of(image)
    for region in chosen:
        if refused(before, region):
            sys.exit(f"no pause collects region {region} of {image}")
    rng = random.Random(options.seed)
    opponent = Opponent(before, chosen, rng, options.threads, options.buffer, options.fill)
    try:
        after = opponent.evacuate()
    except NoRoom:
        return False
    pathlib.Path(out).write_bytes(after.to_bytes())
    return True


def loop(options):
    """Replies to each line until the input ends."""
    for line in sys.stdin:
        image, out, chosen = line.split()
        print("ok" if answer(image, out, regions(chosen), options) else "room", flush=True)


def main():
    parser = argparse.ArgumentParser(description=__doc__, formatter_class=argparse.RawDescriptionHelpFormatter)
    parser.add_argument("image", nargs="?")
    parser.add_argument("out", nargs="?")
    parser.add_argument("--set", type=regions, nargs="+", default=[], metavar="R")
    parser.add_argument("--seed", type=int, default=1, metavar="S")
    parser.add_argument("--threads", type=int, default=3, metavar="T")
    parser.add_argument("--buffer", type=int, default=12, metavar="WORDS")
    parser.add_argument("--fill", action="store_true")
    parser.add_argument("--loop", action="store_true")
    options = parser.parse_args()
    options.set = [region for some in options.set for region in some]
    if options.loop:
        return loop(options)
    if not options.out or not options.set:
        parser.error("IMAGE, OUT and --set are required")
    if not answer(options.image, options.out, options.set, options):
        print("the free regions do not suffice", file=sys.stderr)
        sys.exit(NO_ROOM)


if __name__ == "__main__":
    main()
