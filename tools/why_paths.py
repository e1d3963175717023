#!/usr/bin/env python3
"""why_paths.py G1HEAP [--random N] [--large N] [--seed S] [IMAGE ..]

Compares what `g1heap why` reports, by docs/EXPLAIN.md, with a search of this script's own: for each object of each
image (default: examples/*.img), and for some addresses of N random ones (2000), among them such where no object
starts, and of N (4) with regions of 131,072 words and more. A path has to be the first of the shortest ones; a card has to be the first that leads there. The words of an
image are looked at one by one, so that cards and cover decide nothing here but what is covered.

The last line is 'N passed, M failed'.
"""
import argparse
import bisect
import pathlib
import random
import subprocess
import sys

sys.path.insert(0, str(pathlib.Path(__file__).resolve().parent / "lib"))

import progress  # noqa: E402
from covered import draw_image  # noqa: E402
from heap_image import FIRST, FREE, NULL, from_bytes  # noqa: E402
from image_text import in_version_two  # noqa: E402
from programs import add_program  # noqa: E402
from random_heaps import large_regions  # noqa: E402

EXAMPLES = pathlib.Path(__file__).resolve().parent.parent / "examples"


class Heap:
    """An image, and the searches over it."""

    def __init__(self, image):
        self.image = image
        self.starts = list(image.objects())
        self.slots = [slot for at in image.objects() for slot in image.slots(at) if image.words[slot] != NULL]
        self.live = self.search(list(range(image.regions)), [])

    def holder(self, word):
        """The object that has a word, or None."""
        at = self.starts[bisect.bisect_right(self.starts, word) - 1] if self.starts else word + 1
        return at if at <= word < at + self.image.size(at) else None

    def search(self, window, outer):
        """Each object of the window that is found, with the step that found it: the word before it is a root, a slot
        outside, or an object and the number of its slot."""
        image, found, order = self.image, {}, []
        steps = [(word, ("root", number)) for number, word in enumerate(image.roots)]
        steps += [(image.words[slot], ("card", slot)) for slot in outer]

        def offer(word, step):
            if word != NULL and image.region_of(word - 1) in window and word - 1 not in found:
                found[word - 1] = step
                order.append(word - 1)

        for step in steps:
            offer(*step)
        for at in order:
            for number, slot in enumerate(image.slots(at)):
                offer(image.words[slot], ("object", at, number))
        return found

    def uncovered_into(self, region):
        """The lowest slot of another region that leads into this one and whose card is neither remembered there nor
        dirty."""
        image = self.image
        for slot in self.slots:
            card = slot // image.card_words
            if image.region_of(image.words[slot] - 1) == region != image.region_of(slot):
                if card not in image.sets[region] and card not in image.log:
                    return slot
        return None

    def numbers(self, at):
        return f"{at} {self.image.size(at)}/{len(self.image.slots(at))}"

    def finder(self, step):
        if step[0] == "root":
            return f"root {step[1]}"
        if step[0] == "card":
            return f"card {step[1] // self.image.card_words} slot {step[1]}"
        return f"object {step[1]} slot {step[2]}"

    def path(self, found, at):
        """The words of the path to an object, and its lines."""
        steps = []
        while at is not None:
            step = found[at]
            steps.append((at, step))
            at = step[1] if step[0] == "object" else None
        steps.reverse()
        words = [self.finder(step) if step[0] != "object" else f"slot {step[2]}" for _, step in steps]
        return " ".join(words), [f"object {self.numbers(at)} by {self.finder(step)}" for at, step in steps]

    def dead(self, at):
        """What keeps an object that no root leads to."""
        image, region = self.image, self.image.region_of(at)
        if image.kinds[region] == FIRST:
            run = range(region, region - (-image.size(at) // image.region_words))
            keeping = [slot for slot in self.slots if image.words[slot] == at + 1 and image.region_of(slot) not in run]
            found = {at: ("card", keeping[0])} if keeping else {}
        else:
            found = self.search([region], [slot for slot in self.slots if image.region_of(slot) != region])
        pinned = [f"pinned {region}"] if image.pinned[region] else []
        if at not in found:
            return [f"garbage {at}", *pinned]
        words, lines = self.path(found, at)
        slot = int(words.split()[3])
        card, holder = slot // image.card_words, self.holder(slot)
        why = f"card {card} " + (f"remembered {region}" if card in image.sets[region] else "dirty")
        return [f"kept {at} {words}", why, f"holder {self.numbers(holder)} slot {slot}", *lines, *pinned]

    def missing(self, at):
        """What is said of an address where no object starts."""
        image, region = self.image, self.image.region_of(at)
        if region >= image.regions:
            return "the heap ends before it"
        if image.kinds[region] == FREE:
            return f"region {region} is free"
        if at - region * image.region_words >= image.tops[region]:
            return f"it is above the top of region {region}"
        return f"the object at {self.holder(at)} holds that word"

    def answer(self, at):
        """The status, the lines, and what is on standard error."""
        if self.holder(at) != at:
            return 2, "", f"g1heap: -: no object starts at {at}: {self.missing(at)}\n"
        if at in self.live:
            words, lines = self.path(self.live, at)
            return 0, "".join(f"{line}\n" for line in [f"live {at} {words}", *lines]), ""
        slot = self.uncovered_into(self.image.region_of(at))
        if slot is not None:
            return 4, "", f"g1heap: -: fault 9: uncovered slot {slot}\n"
        return 0, "".join(f"{line}\n" for line in self.dead(at)), ""


class Tries:
    """The tries so far, and how many of each first word there were."""

    def __init__(self, program):
        self.program, self.passed, self.failed, self.words = program, 0, 0, {}

    def image(self, name, data, addresses):
        heap = Heap(from_bytes(data))
        for at in addresses(heap):
            done = subprocess.run([self.program, "why", "-", str(at)], input=data, capture_output=True, check=False)
            told = done.stderr.decode().splitlines(keepends=True)[:1]  # the second one says where the rule is broken
            found = done.returncode, done.stdout.decode(), "".join(told)
            expected = heap.answer(at)
            word = (expected[1] or f"status {expected[0]}").split("\n")[0].split()[0]
            self.words[word] = self.words.get(word, 0) + 1
            if found == expected:
                self.passed += 1
            else:
                self.failed += 1
                print(f"failed: {name}: why {at}: {found}, and not {expected}")


def all_objects(heap):
    return list(heap.image.objects()) + [heap.image.region_words * heap.image.regions, 1 << 40]


def main():
    parser = argparse.ArgumentParser(description=__doc__, formatter_class=argparse.RawDescriptionHelpFormatter)
    add_program(parser, "g1heap")
    parser.add_argument("--random", type=int, default=2000, metavar="N")
    parser.add_argument("--large", type=int, default=4, metavar="N")
    parser.add_argument("--seed", type=int, default=1, metavar="S")
    parser.add_argument("images", nargs="*", metavar="IMAGE")
    options = parser.parse_intermixed_args()
    rng = random.Random(options.seed)

    def some(heap):
        objects = list(heap.image.objects())
        words = heap.image.region_words * heap.image.regions
        return rng.sample(objects, min(4, len(objects))) + [rng.randrange(words + 4)]

    tries = Tries(options.g1heap)
    images = [pathlib.Path(x) for x in options.images] or sorted(EXAMPLES.glob("*.img"))
    for path in progress.over(images, "images"):
        tries.image(path.name, in_version_two(path.read_bytes()), all_objects)
    for number in progress.over(range(options.random), "random images"):
        tries.image(f"random image {number}", draw_image(rng).to_bytes(), some)
    for number in progress.over(range(options.large), "large random images"):
        tries.image(f"large random image {number}", draw_image(rng, large_regions).to_bytes(), some)
    print(", ".join(f"{count} {word}" for word, count in sorted(tries.words.items())))
    print(f"{tries.passed} passed, {tries.failed} failed")
    return 1 if tries.failed or not tries.passed else 0


if __name__ == "__main__":
    sys.exit(main())
