"""Pairs of small images of which the second has words that reference no object, and what the judge has to say of each:
worked out by hand from the rules in docs/COMPARE.md, and not taken from a program.

The heap has 2 regions of 16 words. Region 0 has an object at 0 with the slots 1 and 2 and the data word 7, one at 4 with the
data word 9, and one at 6 with the slot 7, to which no root leads. Root 0 references the first, and root 1 the second.
"""
import collections

from heap_image import NULL, ORDINARY, Image

# What is changed: words by address, roots by number, the log. `before` is None where the heap above is the first image. Then the
# answer of g1_same: its status and what is not 0 of its fields, and the path.
Row = collections.namedtuple("Row", "name words roots log before answer path")

INSIDE, BEHIND = 3, 40  # words that lead into an object, and behind the heap
FIRST, SECOND = 1, 5  # the words of the two objects


def row(name, answer, path=(), words=None, roots=None, log=(), before=None):
    return Row(name, words or {}, roots or {}, list(log), before, answer, list(path))


def stale(**fields):
    return dict(status=1, kind=20, **fields)


def reference(image, place, at):
    """Fault 7: place 2 is a root, and 3 a slot."""
    return dict(status=3, image=image, fault=7, place=place, at=at)


ROWS = (
    row("a slot", stale(before=SECOND, after=INSIDE), [0], words={1: INSIDE}),
    row("a slot that was null", stale(after=BEHIND), [1], words={2: BEHIND}),
    row("a root", stale(root=1, before=SECOND, after=2), roots={1: 2}),
    row("the first root", stale(before=FIRST, after=BEHIND), roots={0: BEHIND}),
    row("the largest word", stale(before=SECOND, after=2**64 - 1), [0], words={1: 2**64 - 1}),
    row("data before a root", dict(status=1, kind=8, before=FIRST, after=FIRST, second=7, third=8), words={3: 8}, roots={1: 2}),
    row("a root before data", stale(before=FIRST, after=2), words={5: 10}, roots={0: 2}),
    row("null before a slot", dict(status=1, kind=3, before=SECOND), [0], words={1: NULL, 2: BEHIND}),
    row("a slot before another", stale(before=SECOND, after=INSIDE), [0], words={1: INSIDE, 2: BEHIND}),
    row("a root before a slot", stale(root=1, before=SECOND, after=2), words={1: INSIDE}, roots={1: 2}),
    row("behind a root that is null", dict(status=1, kind=3, before=FIRST), words={1: INSIDE}, roots={0: NULL}),
    row("a dead object", reference(2, 3, 7), words={7: BEHIND}),
    row("a dead object, and data", dict(status=1, kind=8, root=1, before=SECOND, after=SECOND, second=9, third=10),
        words={5: 10, 7: BEHIND}),
    row("a dead object, and a slot", stale(before=SECOND, after=BEHIND), [0], words={1: BEHIND, 7: BEHIND}),
    row("another fault, too", reference(2, 3, 1), words={1: INSIDE}, log=[4]),
    row("another fault, too, and a root", reference(2, 2, 1), words={1: INSIDE}, roots={1: 2}, log=[4]),
    row("roots of another number", dict(status=1, kind=1, first=2, second=3), words={1: INSIDE}, roots={2: NULL}),
    row("the first image", reference(1, 3, 1), words={}, before={1: INSIDE}),
    row("both images", reference(1, 3, 7), words={1: INSIDE}, before={7: BEHIND}),
)


def heap(words, roots, log):
    """The bytes of the heap with these changes. A root behind the others is one more."""
    image = Image(16, 4, 2)
    image.kinds[0], image.tops[0] = ORDINARY, 8
    image.words[:8] = [4 << 32 | 2, SECOND, NULL, 7, 2 << 32, 9, 2 << 32 | 1, NULL]
    image.roots, image.log = [FIRST, SECOND], log
    for address, word in words.items():
        image.words[address] = word
    for root, word in roots.items():
        image.roots[root:root + 1] = [word]
    return image.to_bytes()


def pairs():
    """Each row with the bytes of its two images."""
    for each in ROWS:
        yield each, heap(each.before or {}, {}, []), heap(each.words, each.roots, each.log)
