"""What a heap does not keep of an earlier one after a pause of some regions, by the rule of docs/COMPARE.md.

It is written from that rule, and shares nothing with the judge that is tested against it.
"""
import re

from heap_image import FREE, NULL, ORDINARY

# The number of each loss in include/g1judge.h, its line in `g1heap same --set`, and which number of the line is first,
# second and third in the answer.
LINES = (
    (9, r"sizes: the heaps have other regions", ()),
    (10, r"roots: the heaps have other numbers of roots", ()),
    (11, r"region (\d+): in the set, and not free after", (1,)),
    (12, r"region (\d+): outside the set, with another kind or top after", (1,)),
    (13, r"region (\d+): outside the set, pinned before and not after", (1,)),
    (14, r"region (\d+): outside the set, pinned after and not before", (1,)),
    (15, r"root (\d+): another object after, or none", (1,)),
    (16, r"object (\d+): (\d+) after is in a region that was not free", (1, 2)),
    (17, r"object (\d+): (\d+) after has another size or number of slots", (1, 2)),
    (18, r"object (\d+): data word (\d+) is another in (\d+) after", (1, 3, 2)),
    (19, r"object (\d+): slot (\d+) in (\d+) after references another object, or none", (1, 3, 2)),
)
KINDS = tuple(kind for kind, _, _ in LINES)
SIZES, ROOTS, SET, REGION, UNPINNED, PINNED, ROOT, COPY, HEADER, DATA, SLOT = KINDS


def of_line(line):
    """The kind and the three numbers of a line of `g1heap same --set`. None if it is not a line of a loss."""
    for kind, form, order in LINES:
        found = re.fullmatch("differ " + form, line)
        if found:
            numbers = [int(found[place]) for place in order]
            return kind, *numbers, *[0] * (3 - len(numbers))
    return None


def of_region(before, after, chosen, region):
    """What is lost of a region."""
    if region in chosen:
        return None if after.kinds[region] == FREE else (SET, region, 0, 0)
    if before.kinds[region] == FREE or before.kinds[region] != ORDINARY and after.kinds[region] == FREE:
        return None
    if (before.kinds[region], before.tops[region]) != (after.kinds[region], after.tops[region]):
        return REGION, region, 0, 0
    if before.pinned[region] != after.pinned[region]:
        return UNPINNED if before.pinned[region] else PINNED, region, 0, 0
    return None


def of_tables(before, after, chosen):
    """The first loss of sizes, regions and the number of roots."""
    sizes = [(image.region_words, image.card_words, image.regions) for image in (before, after)]
    if sizes[0] != sizes[1]:
        return SIZES, 0, 0, 0
    losses = (of_region(before, after, chosen, region) for region in range(before.regions))
    found = next((loss for loss in losses if loss), None)
    return found or (None if len(before.roots) == len(after.roots) else (ROOTS, 0, 0, 0))


class Copies:
    """The copies that were found, in their order."""

    def __init__(self, before, after, chosen):
        self.before, self.after, self.chosen = before, after, chosen
        self.forth, self.back = {}, {}

    def link(self, x, y, other):
        """What is lost of two words, `other` if they disagree. Two new objects are linked."""
        if x == NULL or self.before.region_of(x - 1) not in self.chosen:
            return None if x == y else other
        a, b = x - 1, y - 1
        if y == NULL or self.forth.get(a, b) != b or self.back.get(b, a) != a:
            return other
        if a not in self.forth and self.before.kinds[self.before.region_of(b)] != FREE:
            return COPY, a, b, 0
        self.forth[a], self.back[b] = b, a
        return None

    def of_object(self, a, b):
        """What is lost of an object: its header, its data words, its slots."""
        if self.before.words[a] != self.after.words[b]:
            return HEADER, a, b, 0
        for number, (p, q) in enumerate(zip(self.before.content(a), self.after.content(b))):
            if self.before.words[p] != self.after.words[q]:
                return DATA, a, b, number
        for number, (p, q) in enumerate(zip(self.before.slots(a), self.after.slots(b))):
            loss = self.link(self.before.words[p], self.after.words[q], (SLOT, a, b, number))
            if loss:
                return loss
        return None


def first(before, after, chosen):
    """The first loss, with its kind and three numbers; None if all is kept."""
    loss = of_tables(before, after, chosen)
    if loss:
        return loss
    copies = Copies(before, after, chosen)
    for number, (x, y) in enumerate(zip(before.roots, after.roots)):
        loss = copies.link(x, y, (ROOT, number, 0, 0))
        if loss:
            return loss
    for region in range(before.regions):
        if region not in chosen and FREE not in (before.kinds[region], after.kinds[region]):
            for address in before.objects_in(region):
                loss = copies.of_object(address, address)
                if loss:
                    return loss
    done = 0
    while done < len(copies.forth):
        for a, b in list(copies.forth.items())[done:]:
            done += 1
            loss = copies.of_object(a, b)
            if loss:
                return loss
    return None
