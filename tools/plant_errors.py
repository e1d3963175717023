#!/usr/bin/env python3
"""plant_errors.py G1HEAP [--image FILE --set 1,2,5-9] [--seed S] [--all]

Evacuates an image (examples/shared_targets.img, region 1) as tools/opponent.py does, then plants one error of each
kind that a collector's builder meets into the image after, and prints what `g1heap same` reports of it.
With --all it asks `same --covered --set R ..`, and also plants the errors that only these find. An image may have no
place for an error, which is printed in its place.
"""
import argparse
import pathlib
import random
import subprocess
import sys
import tempfile

sys.path.insert(0, str(pathlib.Path(__file__).resolve().parent / "lib"))

from heap_image import FREE, NULL, ORDINARY, from_bytes  # noqa: E402
from opponent import NoRoom, Opponent, refused  # noqa: E402
from programs import add_program, regions  # noqa: E402

EXAMPLES = pathlib.Path(__file__).resolve().parent.parent / "examples"


class Planter:
    """Errors planted in the image after an evacuation. A holder is a root or a slot."""

    def __init__(self, before, opponent, after, rng):
        self.before, self.chosen = before, sorted(opponent.chosen)
        self.after, self.copies, self.rng = after, opponent.copies, rng
        self.origins = {to + 1: address + 1 for address, to in opponent.copies.items()}
        self.objects = list(after.objects())

    def holders(self):
        """Each root and slot that isn't null."""
        slots = [("slot", s) for a in self.objects for s in self.after.slots(a) if self.after.words[s] != NULL]
        return [("root", i) for i, word in enumerate(self.after.roots) if word != NULL] + slots

    def word(self, image, holder):
        return (image.roots if holder[0] == "root" else image.words)[holder[1]]

    def planted(self, holder, word):
        image = self.after.copy()
        (image.roots if holder[0] == "root" else image.words)[holder[1]] = word
        return image

    def pick(self, choices):
        choices = list(choices)
        return self.rng.choice(choices) if choices else None

    def named_copies(self):
        return [h for h in self.holders() if self.word(self.after, h) in self.origins]

    def words_before(self, address):
        return tuple(self.before.words[address:address + self.before.size(address)])

    def copied_twice(self):
        """Two names of one object lead to two copies of it."""
        free = [r for r in range(self.after.regions) if self.after.kinds[r] == FREE]
        holders = self.named_copies()
        words = [self.word(self.after, h) for h in holders]
        holder = self.pick(h for h in holders if words.count(self.word(self.after, h)) > 1)
        if holder is None or not free:
            return None
        address = self.word(self.after, holder) - 1
        size, region = self.after.size(address), self.rng.choice(free)
        at = region * self.after.region_words
        image = self.planted(holder, at + 1)
        image.words[at:at + size] = image.words[address:address + size]
        image.kinds[region], image.tops[region] = ORDINARY, size
        image.make_exact()
        return image

    def slot_not_updated(self):
        """A slot still names the place that its object had before."""
        holder = self.pick(h for h in self.named_copies() if h[0] == "slot")
        return holder and self.planted(holder, self.origins[self.word(self.after, holder)])

    def root_not_updated(self):
        """A root still references the place that its object had before."""
        holder = self.pick(h for h in self.named_copies() if h[0] == "root")
        return holder and self.planted(holder, self.origins[self.word(self.after, holder)])

    def stray_word(self):
        """A slot that was null or referenced a copy has a word between two objects, or one outside the heap."""
        starts = set(self.objects)
        words = [w for w in range(1, len(self.after.words) + 9) if w - 1 not in starts]
        slots = [("slot", s) for a in self.objects for s in self.after.slots(a)]
        holder = self.pick(h for h in slots if self.word(self.after, h) in (NULL, *self.origins))
        return holder and self.planted(holder, self.rng.choice(words + [2**64 - 1]))

    def slot_to_a_wrong_copy(self):
        """A slot names the copy of another object."""
        holder = self.pick(h for h in self.named_copies() if h[0] == "slot")
        other = holder and self.pick(w for w in self.origins if w != self.word(self.after, holder))
        if other is None:
            return None
        image = self.planted(holder, other)
        image.make_exact()
        return image

    def data_torn(self):
        """The low half of a copy's data word is another's."""
        place = self.pick(p for to in self.copies.values() for p in self.after.content(to))
        return place and self.planted(("slot", place), self.after.words[place] ^ self.rng.randint(1, 2**32 - 1))

    def lost_root(self):
        """A root has become null."""
        holder = self.pick(h for h in self.holders() if h[0] == "root")
        return holder and self.planted(holder, NULL)

    def root_left_out(self):
        """The last root is not there."""
        if not self.after.roots:
            return None
        image = self.after.copy()
        image.roots.pop()
        return image

    def card_lost(self):
        """A remembered set lacks a card."""
        region = self.pick(r for r, cards in enumerate(self.after.sets) if cards)
        if region is None:
            return None
        image = self.after.copy()
        image.sets[region].remove(self.rng.choice(image.sets[region]))
        return image

    def region_not_freed(self):
        """A region of the set is still in use, with a dead object of fewer words than it held."""
        region = self.pick(r for r in self.chosen if self.before.tops[r] > 1)
        if region is None:
            return None
        width = self.after.region_words
        image, top = self.after.copy(), self.rng.randint(1, min(self.before.tops[region] - 1, 3 * width // 4))
        image.kinds[region], image.tops[region] = ORDINARY, top
        image.words[region * width] = top << 32
        return image

    def repinned(self, pinned):
        """One of the regions with this pin, of those outside the set that were in use, has the other one."""
        region = self.pick(r for r in range(self.after.regions) if self.after.pinned[r] == pinned
                           and r not in self.chosen and self.before.kinds[r] == ORDINARY)
        if region is None:
            return None
        image = self.after.copy()
        image.pinned[region] = not pinned
        return image

    def pin_lost(self):
        """A region outside the set is no longer pinned."""
        return self.repinned(True)

    def pin_new(self):
        """A region outside the set is pinned, and was not."""
        return self.repinned(False)

    def filler_behind_a_top(self):
        """A dead object of one word is behind the top of a region outside the set."""
        region = self.pick(r for r in range(self.after.regions) if r not in self.chosen and self.before.kinds[r] == ORDINARY
                           and self.after.tops[r] < self.after.region_words)
        if region is None:
            return None
        image = self.after.copy()
        image.words[region * image.region_words + image.tops[region]] = 1 << 32
        image.tops[region] += 1
        return image

    def last_object_lost(self):
        """A region outside the set lacks its last object, which nothing references."""
        named = {*self.after.roots, *(self.after.words[s] for a in self.objects for s in self.after.slots(a))}
        lasts = {self.after.region_of(at): at for at in self.objects if self.after.kinds[self.after.region_of(at)] == ORDINARY}
        width = self.after.region_words
        at = self.pick(at for r, at in lasts.items() if r not in self.chosen and self.before.kinds[r] == ORDINARY
                       and r * width < at < r * width + self.before.tops[r] and at + 1 not in named)
        if at is None:
            return None
        image, region = self.after.copy(), self.after.region_of(at)
        image.words[at:(region + 1) * width] = [0] * ((region + 1) * width - at)
        image.tops[region] = at - region * width
        image.make_exact()
        return image

    def equal_object_in_use(self):
        """Whatever referenced a copy references an equal object outside the set, which was there before."""
        equal = {}
        for at in self.before.objects():
            if self.before.region_of(at) not in self.chosen:
                equal.setdefault(self.words_before(at), []).append(at)
        twin = self.pick((to, at) for address, to in self.copies.items() for at in equal.get(self.words_before(address), []))
        if twin is None:
            return None
        copy, other = twin[0] + 1, twin[1] + 1
        image = self.after.copy()
        image.roots = [other if word == copy else word for word in image.roots]
        for kind, slot in self.holders():
            if kind == "slot" and image.words[slot] == copy:
                image.words[slot] = other
        image.make_exact()
        return image


ERRORS = ("copied_twice", "slot_not_updated", "slot_to_a_wrong_copy", "data_torn", "lost_root", "root_left_out",
          "root_not_updated", "stray_word")
# Those that `same` finds with --covered or --set alone.
MORE_ERRORS = ("card_lost", "region_not_freed", "pin_lost", "pin_new", "filler_behind_a_top", "last_object_lost",
               "equal_object_in_use")


def main():
    parser = argparse.ArgumentParser(description=__doc__, formatter_class=argparse.RawDescriptionHelpFormatter)
    add_program(parser, "g1heap")
    parser.add_argument("--image", default=str(EXAMPLES / "shared_targets.img"))
    parser.add_argument("--set", type=regions, default=[1], metavar="R", help="the regions of the set, as in 1,2,5-9 (default: 1)")
    parser.add_argument("--seed", type=int, default=1, metavar="S")
    parser.add_argument("--all", action="store_true")
    options = parser.parse_args()
    rng = random.Random(options.seed)
    path = pathlib.Path(options.image)
    before = from_bytes(path.read_bytes())
    for region in options.set:
        if refused(before, region):
            sys.exit(f"no pause collects region {region} of {options.image}")
    opponent = Opponent(before, options.set, rng)
    try:
        planter = Planter(before, opponent, opponent.evacuate(), rng)
    except NoRoom:
        sys.exit("the free regions do not suffice")
    asked = ["--covered", "--set", *(str(r) for r in options.set)] if options.all else []
    with tempfile.TemporaryDirectory() as folder:
        for error in ("no error",) + ERRORS + (MORE_ERRORS if options.all else ()):
            image = planter.after if error == "no error" else getattr(planter, error)()
            told = f"{error.replace('_', ' ')}: the image has no place for it"
            if image is not None:
                (pathlib.Path(folder) / "after.img").write_bytes(image.to_bytes())
                done = subprocess.run([options.g1heap, "same", str(path.resolve()), "after.img", *asked], cwd=folder,
                                      capture_output=True, text=True)
                line = (done.stdout + done.stderr).strip().replace("\n", "\n    ")
                told = f"{error.replace('_', ' ')}: status {done.returncode}\n    {line}"
            print(told)


if __name__ == "__main__":
    main()
