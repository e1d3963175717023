#!/usr/bin/env python3
"""Writes a large heap image without the program: images.py W FILE [--card K] [--words COUNT] [--free SHARE] [--seed S]

The heap has COUNT words (2^24 if not given) in regions of W words and cards of K words (64). A share of the regions is
free, about a third if none is given. The others hold objects mostly of 2 to 10 words, some arrays, and some humongous objects. A
slot is null, or references an object of its own region, or, more seldom, any object at all. The roots reference few
objects, so many are dead. A remembered set has exactly the cards outside its region that aren't dirty and hold a slot
that references an object of the region. The same arguments give the same bytes. Sizes that no image has are refused.
"""
import argparse, array, pathlib, random, struct, sys

sys.path.insert(0, str(pathlib.Path(__file__).resolve().parent.parent / "tools" / "lib"))

from heap_image import MOST_REGIONS, SPECIFICATION  # noqa: E402 (it is in tools/lib/)

FREE, ORDINARY, FIRST, CONTINUATION = range(4)
ROOTS = 1000  # at most; one for each 2^14 words of a small heap
DIRTY = 2000  # at most; one in 50 of the used cards of a small heap


def sizes_and_refs(rng, region_words, count):
    """Objects as they come: their sizes in words, and how many of these are reference slots."""
    most = 3 * region_words // 4
    drawn = []
    for _ in range(count):
        if rng.random() < 0.01:
            size = rng.randint(min(most, 16), min(most, 256))
            refs = rng.choice((0, size - 1))
        else:
            size = rng.randint(2, 10)
            refs = min(rng.choice((0, 1, 1, 2, 2, 3, 4)), size - 1)
        drawn.append((size, refs))
    return drawn


class Heap:
    def __init__(self, region_words, card_words, count, seed, free=0.30):
        self.rng, self.free = random.Random(seed), free
        self.region_words, self.card_words = region_words, card_words
        self.regions = count // region_words
        self.kinds = [FREE] * self.regions
        self.tops = [0] * self.regions
        self.words = array.array("Q", bytes(8 * count))
        self.objects = [[] for _ in range(self.regions)]  # (address, references), by the region that they start in
        self.sets = [set() for _ in range(self.regions)]

    def place(self):
        """Gives each region its kind and its objects."""
        drawn = sizes_and_refs(self.rng, self.region_words, 1 << 16)
        region, at_draw = 0, 0
        while region < self.regions:
            chance = self.rng.random()
            if chance < self.free:
                region += 1
            elif chance < self.free + 0.04:
                region += self.place_humongous(region)
            else:
                at_draw = self.place_ordinary(region, drawn, at_draw)
                region += 1

    def place_humongous(self, region):
        width = self.region_words
        size = self.rng.randint(3 * width // 4 + 1, 3 * width)
        run = -(-size // width)
        if region + run > self.regions:
            return 1
        for i in range(run):
            self.kinds[region + i] = CONTINUATION if i else FIRST
            self.tops[region + i] = min(width, size - i * width)
            self.fill(region + i)
        refs = self.rng.randint(0, size // 8)
        self.words[region * width] = size << 32 | refs
        self.objects[region].append((region * width, refs))
        return run

    def place_ordinary(self, region, drawn, at_draw):
        start = at = region * self.region_words
        end = start + self.rng.randint(9 * self.region_words // 10, self.region_words)
        headers = []
        objects = self.objects[region]
        while True:
            size, refs = drawn[at_draw & 0xFFFF]
            at_draw += 1
            if at + size > end and objects:
                break
            objects.append((at, refs))
            headers.append(size << 32 | refs)
            at += size
        self.kinds[region], self.tops[region] = ORDINARY, at - start
        self.fill(region)
        for (at, _refs), header in zip(objects, headers):
            self.words[at] = header
        return at_draw + self.rng.randrange(1 << 16)

    def fill(self, region):
        start, top = region * self.region_words, self.tops[region]
        self.words[start:start + top] = array.array("Q", self.rng.randbytes(8 * top))

    def link(self):
        """Fills the slots, and draws the roots and the dirty log."""
        used = [r for r in range(self.regions) if self.tops[r]]
        owners = [r for r in used if self.objects[r]]
        if not owners:
            self.log, self.dirty, self.roots = [], set(), []
            return
        cards = self.region_words // self.card_words
        held = [r * cards + c for r in used for c in range(cards)]
        self.log = self.rng.sample(held, min(DIRTY, len(held) // 50))
        self.dirty = set(self.log)
        self.roots = [self.rng.choice(self.objects[self.rng.choice(owners)])[0] + 1 for _ in range(self.root_count())]
        self.roots[::10] = [0] * len(self.roots[::10])
        for region in owners:
            self.link_from(region, owners)

    def root_count(self):
        return min(ROOTS, max(1, len(self.words) >> 14))

    def link_from(self, region, owners):
        near = [at + 1 for at, _refs in self.objects[region]]
        count = sum(refs for _at, refs in self.objects[region])
        draws = iter(array.array("Q", self.rng.randbytes(8 * count)))
        words, width, sets, objects = self.words, self.region_words, self.sets, self.objects
        for at, refs in objects[region]:
            for slot in range(at + 1, at + 1 + refs):
                draw = next(draws)
                chance, draw = draw & 0xFF, draw >> 8
                if chance < 64:
                    words[slot] = 0
                    continue
                target = region
                if chance < 230:
                    words[slot] = near[draw % len(near)]
                else:
                    target = owners[draw % len(owners)]
                    there = objects[target]
                    words[slot] = there[(draw >> 16) % len(there)][0] + 1
                if target != slot // width and slot // self.card_words not in self.dirty:
                    sets[target].add(slot // self.card_words)

    def write(self, file):
        write_image(file, (self.region_words, self.card_words), list(zip(self.kinds, self.tops)), self.roots, self.log,
                    [array.array("I", sorted(cards)) for cards in self.sets], self.words)


def write_image(file, sizes, regions, roots, log, remembered, words):
    """Sizes are the words of a region and of a card, regions have a kind and a top each, words are those of the heap."""
    width, card_words = sizes
    file.write(b"G1IMAGE2")
    file.write(struct.pack("<6I", width, card_words, len(regions), len(roots), len(log), len(regions)))
    for kind, top in regions:
        file.write(struct.pack("<3I", kind, top, 0))
    write_array(file, array.array("Q", roots))
    write_array(file, array.array("I", log))
    for cards in remembered:
        file.write(struct.pack("<I", len(cards)))
        write_array(file, cards)
    for region, (_kind, top) in enumerate(regions):
        write_array(file, words[region * width:region * width + top])


def write_array(file, numbers):
    if sys.byteorder == "big":
        numbers.byteswap()
    numbers.tofile(file)


def is_power(number, least, most):
    return least <= number <= most and number & (number - 1) == 0


def wrong_sizes(width, card_words, count):
    """Why no image has these sizes, or None."""
    if not is_power(width, 16, SPECIFICATION.region_words):
        return f"W is {width}, and not a power of two from 16 to {SPECIFICATION.region_words}"
    if not is_power(card_words, 4, min(64, width)):
        return f"K is {card_words}, and not a power of two from 4 to {min(64, width)}"
    most = min(SPECIFICATION.words, MOST_REGIONS * width)
    if not width <= count <= most:
        return f"COUNT is {count}, and with regions of {width} words it is from {width} to {most}"
    return None


def main():
    parser = argparse.ArgumentParser(description=__doc__, formatter_class=argparse.RawDescriptionHelpFormatter)
    parser.add_argument("region_words", type=int, metavar="W")
    parser.add_argument("file", metavar="FILE")
    parser.add_argument("--card", type=int, default=64, metavar="K")
    parser.add_argument("--words", type=int, default=SPECIFICATION.words, metavar="COUNT")
    parser.add_argument("--free", type=float, default=0.30, metavar="SHARE", help="the share of free regions (0.3)")
    parser.add_argument("--seed", type=int, default=1, metavar="S")
    options = parser.parse_args()
    wrong = wrong_sizes(options.region_words, options.card, options.words)
    if wrong:
        sys.exit(f"images.py: {wrong}")
    heap = Heap(options.region_words, options.card, options.words, options.seed, options.free)
    heap.place()
    heap.link()
    with open(options.file, "wb") as file:
        heap.write(file)
    objects = sum(len(objects) for objects in heap.objects)
    used = sum(1 for top in heap.tops if top)
    remembered = sum(len(cards) for cards in heap.sets)
    print(f"{options.file}: {heap.regions} regions of {heap.region_words} words, {used} used, {objects} objects, "
          f"{remembered} remembered cards, {len(heap.log)} dirty cards")


if __name__ == "__main__":
    main()
