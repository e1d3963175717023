#!/usr/bin/env python3
"""Writes an input that is hard on a collector: hostile.py NAME FILE [--seed S] [--share N] [--commands]

NAME is one of those that `hostile.py --list` prints. All are images except the last, a trace. Each image is legal and
covered. --share N makes it about N times
smaller. With --commands it prints the commands that the image is made for, one a line. The same arguments give the same
bytes.
"""
import argparse
import array
import random
import sys

from images import CONTINUATION, FIRST, FREE, MOST_REGIONS, ORDINARY, write_image


class Hostile:
    """A heap whose first `used` regions are filled, and the commands that it is made for."""

    def __init__(self, width, card_words, used, regions):
        self.width, self.card_words, self.used = width, card_words, used
        self.regions = [(ORDINARY, width)] * used + [(FREE, 0)] * (regions - used)
        self.roots, self.log = [], []
        self.remembered = [array.array("I")] * regions
        self.words = array.array("Q", [0]) * (used * width)
        self.commands = []

    def remember(self, slots):
        """The cards of these slots, by rising address, in the sets of the regions that they name."""
        cards = [[] for _ in self.regions]
        width, card_words, words = self.width, self.card_words, self.words
        for slot in slots:
            word = words[slot]
            if word and (word - 1) // width != slot // width:
                there, card = cards[(word - 1) // width], slot // card_words
                if not there or there[-1] != card:
                    there.append(card)
        self.remembered = [array.array("I", some) for some in cards]

    def all_regions(self):
        return ["pause", *map(str, range(self.used))]

    def write(self, file):
        write_image(file, (self.width, self.card_words), self.regions, self.roots, self.log, self.remembered, self.words)


def lists(rng, share, count, length, shuffled=False):
    """So many lists of objects of two words side by side: a search finds `count` objects a round."""
    length = max(2, length // share)
    width = 4096 if share == 1 else 64
    places = list(range(count * length))
    if shuffled:
        rng.shuffle(places)
    used = -(-2 * len(places) // width)
    heap = Hostile(width, min(64, width), used, 2 * used)
    for at in range(len(places), used * width // 2):
        heap.words[2 * at] = 2 << 32
    for first in range(0, len(places), length):
        line = places[first:first + length]
        for at, after in zip(line, line[1:]):
            heap.words[2 * at], heap.words[2 * at + 1] = 2 << 32 | 1, 2 * after + 1
        heap.words[2 * line[-1]] = 2 << 32 | 1
        heap.roots.append(2 * line[0] + 1)
    heap.remember(range(1, len(heap.words), 2))
    heap.commands = [["live"], heap.all_regions()]
    return heap


def one_word_objects(rng, share, regions, used, roots):
    """Objects of one word, end to end. Nothing but the roots names one."""
    width = 4096 if share == 1 else 64
    used, regions = max(1, used // share), max(2, regions // share)
    heap = Hostile(width, 64, used, regions)
    heap.words = array.array("Q", [1 << 32]) * (used * width)
    heap.roots = [rng.randrange(used * width) + 1 for _ in range(max(1, roots // share))]
    heap.commands = [["check"], ["live"], ["choose", "--budget", "5000000"], ["pause"]]
    if used < regions:
        heap.commands.append(["pause", "--budget", "BUDGET"])
    return heap


def pairs(rng, heap, log):
    """Fills the heap with objects of two words whose slots name any of them, each slot on a card of the log."""
    objects = len(heap.words) // 2
    heap.words[::2] = array.array("Q", [2 << 32 | 1]) * objects
    draws = array.array("I", rng.randbytes(4 * objects))
    heap.words[1::2] = array.array("Q", (2 * (draw % objects) + 1 for draw in draws))
    heap.log = list(log)
    rng.shuffle(heap.log)


def dirty_cards(rng, share):
    """1,048,576 cards of 4 words, all dirty, in any order."""
    width = 4096 if share == 1 else 64
    used = max(2, (1 << 22) // width // share)
    heap = Hostile(width, 4, used, min(MOST_REGIONS, 3 * used))
    pairs(rng, heap, range(used * width // 4))
    heap.roots = [2 * rng.randrange(used * width // 2) + 1 for _ in range(1000)]
    heap.commands = [["check"], ["live"], ["choose", "--budget", "5000000"], ["pause"], ["pause", "--budget", "BUDGET"]]
    return heap


def full_sets(rng, share):
    """1,600 regions of 16 words, each of whose remembered sets holds every card of the others."""
    used = max(2, 1600 // share)
    heap = Hostile(16, 4, used, 2 * used)
    pairs(rng, heap, [])
    cards = array.array("I", range(4 * used))
    heap.remembered = [cards[:4 * r] + cards[4 * r + 4:] for r in range(used)] + [array.array("I")] * used
    heap.roots = [2 * rng.randrange(8 * used) + 1 for _ in range(used)]
    heap.commands = [["check"], ["choose", "--budget", "5000000"], ["pause"], ["pause", "--budget", "BUDGET"]]
    return heap


def small_regions(rng, share):
    """2,048 full regions of 16 words beside as many free ones, and all of them, or one many times, as the set."""
    used = max(2, 2048 // share)
    heap = Hostile(16, 4, used, 2 * used)
    pairs(rng, heap, [])
    heap.remember(range(1, len(heap.words), 2))
    heap.roots = [2 * rng.randrange(8 * used) + 1 for _ in range(used)]
    heap.commands = [["show"], ["check"], ["live"], heap.all_regions(), ["pause", *["0"] * 100_000]]
    return heap


def wide_object(rng, share):
    """One object of 8,000,000 slots over some 2,000 regions: one in three slots names an object of another region."""
    width = 4096 if share == 1 else 64
    size = 8_000_000 // share
    run = -(-size // width)
    heap = Hostile(width, 64, run + 1, run + 3)
    heap.regions[:run] = [(FIRST, width)] + [(CONTINUATION, width)] * (run - 2) + [(CONTINUATION, size - (run - 1) * width)]
    there = run * width
    heap.words[there::2] = array.array("Q", [2 << 32]) * (width // 2)
    named = array.array("Q", (there + 2 * rng.randrange(width // 2) + 1 if i % 3 == 0 else 0 for i in range(99_999)))
    heap.words[1:size] = (named * (size // len(named) + 1))[:size - 1]
    heap.words[0] = size << 32 | size - 1
    heap.roots = [1]
    heap.remember(range(1, size))
    heap.commands = [["check"], ["live"], ["pause"], ["pause", str(run)]]
    return heap


class Trace:
    """The lines of a trace, and the command that it is made for."""

    def __init__(self, lines):
        self.lines, self.commands = lines, [["run"]]

    def write(self, file):
        file.write(("\n".join(self.lines) + "\n").encode())


def humongous_objects(rng, share):
    """20,000 humongous objects of one to three regions. Each takes the place of one of 60, which reference newer ones, and
    a pause follows each fortieth."""
    held, every = 60, 40
    trace = Trace([f"heap 4096 64 512 {held}"])
    for number in range(max(2 * held, 20_000 // share)):
        at, other = rng.randrange(held) if number >= held else number, rng.randrange(min(held, number + 1))
        words = rng.randrange(3 * 1024 + 1, 3 * 4096)
        slots = rng.choice((1, words // 2))
        trace.lines += [f"new {at} {slots} {words - 1 - slots}", f"set {at} 0 {number}", f"put {other} 0 {at}",
                        f"say {other} 0"]
        if number % every == every - 1:
            trace.lines.append("pause 2000000")
    return trace


# Name, maker, what is hard about it, and whether the rounds of its searches are narrow. The last one is a trace.
INPUTS = {
    "chain100k": (lambda rng, share: lists(rng, share, 1, 100_000), "a chain of 100,000 objects: one a round", True),
    "chain1m": (lambda rng, share: lists(rng, share, 1, 1_000_000), "a chain of 1,000,000 objects", True),
    "chain1m_far": (lambda rng, share: lists(rng, share, 1, 1_000_000, True), "a chain of 1,000,000 objects in any order", True),
    "two_chains": (lambda rng, share: lists(rng, share, 2, 100_000), "two chains of 100,000 objects", True),
    "chains65": (lambda rng, share: lists(rng, share, 65, 10_000), "65 chains of 10,000 objects: a little more than a chunk a round", True),
    "roots64k": (lambda rng, share: one_word_objects(rng, share, 4096, 1600, 65536), "65,536 roots, 6.5 million objects of one word", False),
    "ones16m": (lambda rng, share: one_word_objects(rng, share, 4096, 4096, 1000), "16.7 million objects of one word", False),
    "dirty1m": (dirty_cards, "1,048,576 dirty cards of 4 words, shuffled", False),
    "full_sets": (full_sets, "1,600 remembered sets with all 6,396 cards of the others", False),
    "regions16": (small_regions, "2,048 regions of 16 words, all given; one given 100,000 times", False),
    "wide8m": (wide_object, "one object of 8,000,000 slots", False),
    "humongous20k": (humongous_objects, "a trace of 20,000 humongous objects, 60 of them live, with 500 pauses", False),
}


def made(name, seed, share=1):
    return INPUTS[name][0](random.Random(f"{seed} {name}"), share)


def main():
    if sys.argv[1:] == ["--list"]:
        for name, (_maker, what, _narrow) in INPUTS.items():
            print(f"{name:12} {what}")
        return
    parser = argparse.ArgumentParser(description=__doc__, formatter_class=argparse.RawDescriptionHelpFormatter)
    parser.add_argument("name", choices=INPUTS, metavar="NAME")
    parser.add_argument("file", metavar="FILE")
    parser.add_argument("--seed", default="1", metavar="S")
    parser.add_argument("--share", type=int, default=1, metavar="N")
    parser.add_argument("--commands", action="store_true")
    options = parser.parse_args()
    heap = made(options.name, options.seed, options.share)
    with open(options.file, "wb") as file:
        heap.write(file)
    if options.commands:
        print("\n".join(map(" ".join, heap.commands)))


if __name__ == "__main__":
    main()
