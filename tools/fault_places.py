#!/usr/bin/env python3
"""fault_places.py [G1HEAP] [--cases COUNT] [--seed SEED]

Plants errors that a collector makes in the structure of a heap, and asks `g1heap` of each broken image. Its second line
has to name the place where the error was planted: the address, the card or the region, and the rule. What it has to
say follows from the planting alone. The errors:

- a header that is one word too small or too large, a top that is one too large, a word that was written over a header;
- a region that was freed, and is in the log, in another region's set, the current one, or remembers cards itself;
- a reference that was not updated, in a slot and in a root, and one into the inside of an object;
- a card that was lost from a set, one that is there twice, one of the region itself, and a log that has one twice;
- a run of a humongous object that was cut; a pin that was kept; a file of which the end is missing.

Graph errors (a lost object, one that was copied twice, a wrong word) are no faults: `judge_opponent.py` plants them. The
last line is 'N passed, M failed'; an error that was never planted counts as failed.
"""
import argparse
import collections
import pathlib
import random
import subprocess
import sys
import tempfile

sys.path.insert(0, str(pathlib.Path(__file__).resolve().parent / "lib"))

import progress  # noqa: E402
from heap_image import CONTINUATION, FIRST, FREE, NULL, ORDINARY  # noqa: E402
from programs import add_program  # noqa: E402
from random_heaps import drawn  # noqa: E402

KINDS = {FREE: "free", ORDINARY: "ordinary", FIRST: "humongous", CONTINUATION: "continuation"}


def first_card(image, region):
    return region * image.region_words // image.card_words


def of_kind(image, *kinds):
    return [r for r in range(image.regions) if image.kinds[r] in kinds]


def objects(image):
    return [(r, at) for r in of_kind(image, ORDINARY) for at in image.objects_in(r)]


def free_a_region(rng, image):
    """Frees an ordinary region that nothing references, and in which nothing is remembered. Its number."""
    chosen = rng.choice(of_kind(image, ORDINARY))
    for at in list(image.objects()):
        for slot in image.slots(at):
            if image.words[slot] != NULL and image.region_of(image.words[slot] - 1) == chosen:
                image.words[slot] = NULL
    image.roots = [root if root == NULL or image.region_of(root - 1) != chosen else NULL for root in image.roots]
    start = chosen * image.region_words
    image.words[start:start + image.region_words] = [0] * image.region_words
    image.kinds[chosen], image.tops[chosen], image.pinned[chosen] = FREE, 0, False
    image.current = None if image.current == chosen else image.current
    image.log = []
    image.make_exact()
    return chosen


# The errors. Each returns the fault and what the second line has to have, or None if the heap has no place for it.


def header_too_small(rng, image):
    """The word behind the shorter object is read as a header: its last one, made 0."""
    region, at = rng.choice([(r, a) for r, a in objects(image) if image.size(a) > 1 + len(image.slots(a))] or [(0, None)])
    if at is None:
        return None
    last = at + image.size(at) - 1
    image.words[at] -= 1 << 32
    image.words[last] = 0
    return f"6: shape of region {region}", f"the word at {last} is 0x0: a header of 0 words and 0 slots, behind the object at {at}: no object has that"


def header_too_large(rng, image):
    """The last object of a region ends behind its top."""
    region = rng.choice(of_kind(image, ORDINARY))
    at = list(image.objects_in(region))[-1]
    size, end = image.size(at) + 1, region * image.region_words + image.tops[region]
    if 4 * size > 3 * image.region_words:
        return None
    image.words[at] += 1 << 32
    return f"6: shape of region {region}", f"the object at {at} ends at {end + 1}, behind {end}, where the top of region {region} is"


def top_too_large(rng, image):
    regions = [r for r in of_kind(image, ORDINARY) if image.tops[r] < image.region_words]
    if not regions:
        return None
    region = rng.choice(regions)
    end, last = region * image.region_words + image.tops[region], list(image.objects_in(region))[-1]
    image.tops[region] += 1
    return f"6: shape of region {region}", f"the word at {end} is 0x0: a header of 0 words and 0 slots, behind the object at {last}: no object has that"


def header_written_over(rng, image):
    region = rng.choice(of_kind(image, ORDINARY))
    at = region * image.region_words
    image.words[at] = 0x7F00
    return f"6: shape of region {region}", f"the word at {at} is 0x7f00: a header of 0 words and 32512 slots, at the start of region {region}: no object has that"


def freed_in_log(rng, image):
    card = first_card(image, free := free_a_region(rng, image))
    image.log.append(card)
    return "8: card in log place 0", f"card {card} lies in region {free}, which is free"


def freed_in_set(rng, image):
    free = free_a_region(rng, image)
    owners = [r for r in of_kind(image, ORDINARY, FIRST)]
    if not owners:
        return None
    owner, card = rng.choice(owners), first_card(image, free)
    image.sets[owner] = sorted([*image.sets[owner], card])
    return f"8: card of region {owner}", f"card {card} lies in region {free}, which is free"


def freed_with_set(rng, image):
    free = free_a_region(rng, image)
    others = of_kind(image, ORDINARY, FIRST)
    if not others:
        return None
    card = first_card(image, rng.choice(others))
    image.sets[free] = [card]
    return f"8: card of region {free}", f"region {free} remembers card {card}, and its kind is free: its set has to be empty"


def freed_current(rng, image):
    image.current = free = free_a_region(rng, image)
    return f"6: shape of region {free}", f"region {free} is the current one, and its kind is free: it has to be ordinary"


def slot_not_updated(rng, image):
    free = free_a_region(rng, image)
    slots = [(slot, at) for at in image.objects() for slot in image.slots(at)]
    if not slots:
        return None
    slot, at = rng.choice(slots)
    word = free * image.region_words + 1
    image.words[slot] = word
    return f"7: reference in slot {slot}", f"slot {slot - at - 1} of the object at {at} has the word {word}, which leads to {word - 1}: region {free} is free"


def root_not_updated(rng, image):
    free = free_a_region(rng, image)
    word = free * image.region_words + 1
    image.roots.append(word)
    root = len(image.roots) - 1
    return f"7: reference in root {root}", f"root {root} has the word {word}, which leads to {word - 1}: region {free} is free"


def root_into_object(rng, image):
    large = [at for at in image.objects() if image.size(at) > 1]
    if not large:
        return None
    at = rng.choice(large)
    place = rng.randrange(1, min(image.size(at), image.region_words))
    image.roots.append(at + place + 1)
    root = len(image.roots) - 1
    return f"7: reference in root {root}", f"root {root} has the word {at + place + 1}, which leads to {at + place}: that is word {place} of the object at {at}"


def card_lost(rng, image):
    """A set without one of its cards: its lowest slot on it is not covered."""
    image.log = []
    image.make_exact()
    owners = [r for r in range(image.regions) if image.sets[r]]
    if not owners:
        return None
    owner = rng.choice(owners)
    card = rng.choice(image.sets[owner])
    image.sets[owner].remove(card)
    for at in image.objects():
        for slot in image.slots(at):
            word = image.words[slot]
            if slot // image.card_words == card and word != NULL and image.region_of(word - 1) == owner:
                return f"9: uncovered slot {slot}", f"slot {slot - at - 1} of the object at {at} has the word {word}, which leads to region {owner}: card {card} is neither remembered there nor dirty"
    return None


def card_twice(rng, image):
    owners = [r for r in range(image.regions) if image.sets[r]]
    if not owners:
        return None
    owner = rng.choice(owners)
    card = image.sets[owner][-1]
    image.sets[owner].append(card)
    return f"8: card of region {owner}", f"card {card} stands behind card {card}: a set rises"


def own_card(rng, image):
    owner = rng.choice(of_kind(image, ORDINARY))
    card = first_card(image, owner)
    image.sets[owner] = sorted([*image.sets[owner], card])
    return f"8: card of region {owner}", f"card {card} lies in region {owner} itself"


def logged_twice(rng, image):
    card = first_card(image, rng.choice(of_kind(image, ORDINARY)))
    image.log = [card, card]
    return "8: card in log place 1", f"card {card} is at place 0 of the log and at place 1"


def run_cut(rng, image):
    runs = [r for r in of_kind(image, FIRST) if r + 1 < image.regions and image.kinds[r + 1] == CONTINUATION]
    if not runs:
        return None
    first = rng.choice(runs)
    at = first * image.region_words
    count = -(-image.size(at) // image.region_words)
    image.kinds[first + 1], image.tops[first + 1] = FREE, 0
    start = (first + 1) * image.region_words
    image.words[start:start + image.region_words] = [0] * image.region_words
    return f"6: shape of region {first}", f"the object at {at} takes {count} regions, and region {first + 1} is free"


def pin_kept(rng, image):
    free = free_a_region(rng, image)
    image.pinned[free] = True
    return f"16: flags of region {free}", f"region {free} is pinned, and its kind is free: only an ordinary region may be pinned"


ERRORS = [header_too_small, header_too_large, top_too_large, header_written_over, freed_in_log, freed_in_set, freed_with_set,
          freed_current, slot_not_updated, root_not_updated, root_into_object, card_lost, card_twice, own_card, logged_twice,
          run_cut, pin_kept]


class Tries:
    def __init__(self, heap, folder):
        self.heap, self.folder = heap, pathlib.Path(folder)
        self.passed = self.failed = 0
        self.planted = collections.Counter()

    def judge(self, name, wanted, found):
        self.passed, self.failed = self.passed + (wanted == found), self.failed + (wanted != found)
        if wanted != found:
            print(f"{name}: wanted {wanted}, found {found}")

    def run(self, *words):
        done = subprocess.run([self.heap, *words], cwd=self.folder, capture_output=True, text=True, timeout=60, check=False)
        return done.returncode, done.stdout, done.stderr

    def plant(self, error, name, rng, image):
        planted = error(rng, image)
        if planted is None:
            return
        self.planted[error.__name__] += 1
        fault, rule = planted
        (self.folder / "broken.img").write_bytes(image.to_bytes())
        refused = f"g1heap: broken.img: fault {fault}\ng1heap: {rule}\n"
        if fault.startswith("9:"):
            self.judge(name, (4, "", f"{refused}g1heap: the graph is the same\n"), self.run("same", "--covered", "broken.img", "broken.img"))
            return
        self.judge(name, (3, "", refused), self.run("print", "--summary", "broken.img"))
        status, lines, errors = self.run("print", "broken.img")
        marks = [line for line in lines.splitlines() if line.startswith("broken ")]
        self.judge(f"{name}, printed", (3, [f"broken {rule}"], refused), (status, marks, errors))

    def cut(self, name, rng, image):
        """The end of the words is missing."""
        data = image.to_bytes()
        words = sum(image.tops)
        missing = rng.randint(1, 8 * words)
        (self.folder / "broken.img").write_bytes(data[:-missing])
        rule = f"the list of the {words} words that the tops announce ends at byte {len(data)}, and there are {len(data) - missing} bytes"
        refused = f"g1heap: broken.img: fault 3: short\ng1heap: {rule}\n"
        self.judge(name, (3, "", refused), self.run("print", "--summary", "broken.img"))


def main():
    parser = argparse.ArgumentParser(description=__doc__, formatter_class=argparse.RawDescriptionHelpFormatter)
    add_program(parser, "g1heap")
    parser.add_argument("--cases", type=int, default=40, help="heaps for each error (default: 40)")
    parser.add_argument("--seed", type=int, default=1)
    options = parser.parse_args()
    with tempfile.TemporaryDirectory() as folder:
        tries = Tries(options.g1heap, folder)
        for number in progress.over(range(options.cases), "heaps", options.cases):
            for error in ERRORS:
                rng = random.Random(f"{options.seed} {number} {error.__name__}")
                image = drawn(rng)
                if of_kind(image, ORDINARY):
                    tries.plant(error, f"{error.__name__}, heap {number}", rng, image)
            rng = random.Random(f"{options.seed} {number}")
            image = drawn(rng)
            if sum(image.tops):
                tries.cut(f"cut, heap {number}", rng, image)
    missed = [error.__name__ for error in ERRORS if not tries.planted[error.__name__]]
    print("\n".join([*(f"{error}: {count}" for error, count in sorted(tries.planted.items())), *(f"never planted: {name}" for name in missed)]))
    failed = tries.failed + len(missed)
    print(f"{tries.passed} passed, {failed} failed")
    return 1 if failed else 0


if __name__ == "__main__":
    sys.exit(main())
