#!/usr/bin/env python3
"""ranges.py BINARY [--count 2000] [--seed N]

Makes random images of many regions, half of them with faults in random regions, and compares `check`, `live`, `choose`,
`pause` and `show` with 2, 3, 4, 7 and 64 workers that draw 1, 64 and 65,536 items at once with what one worker answers:
standard output, standard error and status. A fault has to be the one that an independent reading of the text (image_text.py) finds.

Only large images are cut into ranges of regions, one a thread. So each fourth image has the words for two to eight
threads, and humongous objects over many regions, which ranges begin within. What no image showed counts as failed. The
last line is 'N passed, M failed'.
"""
import argparse
import collections
import itertools
import pathlib
import random
import sys

sys.path.insert(0, str(pathlib.Path(__file__).resolve().parent / "lib"))

import progress  # noqa: E402
import random_heaps  # noqa: E402
from heap_image import CONTINUATION, FIRST, FREE, ORDINARY, Image  # noqa: E402
from image_text import fault_of  # noqa: E402
from programs import add_program  # noqa: E402
from refusing import Judge, run  # noqa: E402

WORKERS = ("2", "3", "4", "7", "64")
CHUNKS = ("1", "64", "65536")
THREAD_WORDS = 131_072  # a thread starts for this many words
FAULTS = {"6": "shape", "7": "reference", "8": "card", "9": "uncovered"}


def place_long(rng, image, region):
    """A humongous object over up to a quarter of the heap, with few slots."""
    width = image.region_words
    run_length = min(rng.randint(2, image.regions // 4), image.regions - region)
    size = run_length * width - rng.randint(0, width - 1)
    if 4 * size <= 3 * width:
        return 1
    run_length = -(-size // width)
    for i in range(run_length):
        image.kinds[region + i] = CONTINUATION if i else FIRST
        image.tops[region + i] = min(width, size - i * width)
    image.words[region * width] = size << 32 | rng.randint(0, min(size - 1, 200))
    return run_length


def draw_many(rng, width, regions):
    """An image of many regions, covered, of which a random part is used."""
    image = Image(width, rng.choice([k for k in (4, 8, 16, 32, 64) if k <= width]), regions)
    used, region = rng.choice((0.02, 0.1, 0.3)), 0
    end = regions if rng.random() < 0.5 else rng.randint(1, regions)  # often the last regions are free
    while region < end:
        chance = rng.random()
        if chance < 2 / regions:
            region += place_long(rng, image, region)
        elif chance < used * 0.1:
            region += random_heaps.place_humongous(rng, image, region)
        elif chance < used:
            random_heaps.place_ordinary(rng, image, region)
            region += 1
        else:
            region += 1
    random_heaps.link(rng, image)
    random_heaps.draw_roots(rng, image)
    image.make_exact()
    return image


def draw(rng, number):
    if number % 4:
        return draw_many(rng, rng.choice((16, 32, 64)), rng.randint(24, 200))
    width = rng.choice((64, 128, 256, 1024))
    words = rng.randint(2, 8) * THREAD_WORDS
    return draw_many(rng, width, min(4096, words // width))


def break_shape(rng, image):
    region = rng.randrange(image.regions)
    if image.kinds[region] == CONTINUATION:
        image.kinds[region], image.tops[region] = FREE, 0
    else:
        image.tops[region] = 0 if image.kinds[region] == ORDINARY else 1


def break_reference(rng, image):
    slots = [slot for address in image.objects() for slot in image.slots(address)]
    if slots:
        image.words[rng.choice(slots)] = rng.randint(1, len(image.words) + 2)


def break_card(rng, image):
    region = rng.randrange(image.regions)
    image.sets[region] = sorted({*image.sets[region], rng.randrange(len(image.words) // image.card_words)})


def break_cover(rng, image):
    full = [region for region in range(image.regions) if image.sets[region]]
    if full:
        cards = image.sets[rng.choice(full)]
        cards.pop(rng.randrange(len(cards)))


BREAKS = (break_shape, break_reference, break_card, break_cover)


class Ranges(Judge):
    def __init__(self, binary):
        super().__init__()
        self.binary = binary
        self.met = collections.Counter()

    def commands(self, rng, image):
        ordinary = [r for r in range(image.regions) if image.kinds[r] == ORDINARY]
        taken = [str(r) for r in sorted(rng.sample(ordinary, min(len(ordinary), rng.randint(0, 3))))]
        budget = str(rng.choice((1000, 1_000_000, 2**64 - 1)))
        return (["live"], ["choose", "--budget", budget], ["pause", "--budget", budget], ["pause", *taken],
                ["show"], ["show", "--repack"])

    def fault(self, name, data):
        """What `check` has to answer, by an independent reading."""
        fault = fault_of(data, True)
        out, errors, status = run([self.binary, "check"], data)
        if fault is None:
            self.met["covered images"] += 1
            self.judge(f"{name}, check", (out, errors, status) == (b"covered\n", b"", 0))
            return None
        self.met[FAULTS.get(fault.split(":")[0], "other faults")] += 1
        good = not out and status != 0 and errors == f"g1pause: fault {fault}\n".encode()
        self.judge(f"{name}, check finds {fault}, and not {errors}", good)
        return fault

    def same(self, name, words, data, fault):
        one = run([self.binary, words[0], "--workers", "1", *words[1:]], data)
        if fault is not None and not fault.startswith("9:"):  # found by reading, so by each command
            good = not one[0] and one[2] != 0 and one[1] == f"g1pause: fault {fault}\n".encode()
            self.judge(f"{name}, {' '.join(words)} finds {fault}, and not {one[1]}", good)
        for workers, chunk in itertools.product(WORKERS, CHUNKS):
            many = run([self.binary, words[0], "--workers", workers, "--chunk", chunk, *words[1:]], data)
            self.judge(f"{name}, {' '.join(words)}, {workers} workers, chunk {chunk}", one == many)

    def image(self, rng, number):
        image = draw(rng, number)
        if number // 4 % 2:
            fault = rng.choice(BREAKS)
            for _ in range(rng.randint(1, 5)):
                fault(rng, image)
        data = image.to_bytes()
        self.met["large images"] += len(image.words) >= 2 * THREAD_WORDS
        self.met["long runs"] += image.kinds.count(CONTINUATION) > image.regions // 8
        fault = self.fault(f"image {number}", data)
        large = len(image.words) >= 2 * THREAD_WORDS
        self.met["stray slots of large images"] += large and fault is not None and fault.startswith("7: reference in slot")
        for words in self.commands(rng, image):
            self.same(f"image {number}", words, data, fault)

    def end(self):
        wanted = ("covered images", "large images", "stray slots of large images", "long runs", *FAULTS.values())
        print(", ".join(f"{self.met[what]} {what}" for what in wanted))
        for what in wanted:
            self.judge(f"some images show: {what}", self.met[what])
        return super().end()


def main():
    parser = argparse.ArgumentParser(description=__doc__, formatter_class=argparse.RawDescriptionHelpFormatter)
    add_program(parser, "binary", "g1pause")
    parser.add_argument("--count", type=int, default=2000, metavar="N", help="how many images (default 2000)")
    parser.add_argument("--seed", type=int, default=1, metavar="N", help="of the images (default 1)")
    parser.add_argument("--first", action="store_true", help="end at the first failure")
    options = parser.parse_args()
    ranges = Ranges(options.binary)
    for number in progress.over(range(options.count), "images"):
        ranges.image(random.Random(f"{options.seed} {number}"), number)
    return ranges.end()


if __name__ == "__main__":
    sys.exit(main())
