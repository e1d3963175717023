"""Heap images in Python: read, written, laid out and walked. Python 3.9 and this one file are all that it needs.

    from heap_image import from_bytes, laid_out

    image = from_bytes(open("before.img", "rb").read())        # ValueError if these bytes are no image
    for address in image.objects():
        print(address, image.size(address), [image.words[slot] for slot in image.slots(address)])
    open("copy.img", "wb").write(image.to_bytes())

    # The objects of a program by its own names, here their addresses: the slots, which hold names or None, and the data.
    objects = {0x7f10: ([0x7f40, None], [12]), 0x7f40: ([], [3, 4])}
    image, places = laid_out([0x7f10], objects)                # KeyError if a slot holds no object's name

docs/IMAGE.md has the format, and docs/PYTHON.md a debugger's script. An address counts words. A reference is NULL, or 1
more than an address. It stands apart from the programs that the scripts here try, and checks only what it needs: `g1heap
print --summary FILE` says whether a file is an image in all. Images at random are in random_heaps.py.
"""
import collections
import struct

FREE, ORDINARY, FIRST, CONTINUATION = range(4)
MAGIC, OLD_MAGIC = b"G1IMAGE2", b"G1IMAGE1"
MOST_REGIONS, MOST_ROOTS, MOST_NUMBER = 4096, 65536, (1 << 64) - 1
NULL = 0

# The most words of a region and of a heap: those that g1pause and traces take, and those that g1heap, the judge for C and
# this file take. All else is the same for both.
Limits = collections.namedtuple("Limits", "region_words words")
SPECIFICATION, WIDE = Limits(1 << 16, 1 << 24), Limits(1 << 22, 1 << 28)


class Image:
    """A heap with its remembered sets and its log. A reference is 0, or 1 more than an address.

    kinds, tops, pinned, sets   of each region: FREE, ORDINARY, FIRST or CONTINUATION; its used words; whether it is
                                pinned; the numbers of the cards that it remembers, rising
    words                       all words of the heap. An object's first word has its size and its number of slots
                                (`header`), then come its slots, which are references, and then its data
    roots, log                  references; the numbers of the dirty cards
    current                     the region that the program fills, or None
    """

    def __init__(self, region_words, card_words, regions):
        self.region_words, self.card_words, self.regions = region_words, card_words, regions
        self.kinds, self.tops, self.pinned = [FREE] * regions, [0] * regions, [False] * regions
        self.words = [0] * (regions * region_words)
        self.roots, self.log, self.current = [], [], None
        self.sets = [[] for _ in range(regions)]

    def copy(self):
        other = Image(self.region_words, self.card_words, self.regions)
        other.kinds, other.tops, other.words = self.kinds[:], self.tops[:], self.words[:]
        other.pinned = self.pinned[:]
        other.roots, other.log, other.current = self.roots[:], self.log[:], self.current
        other.sets = [cards[:] for cards in self.sets]
        return other

    def size(self, address):
        """The words of the object, with its header."""
        return self.words[address] >> 32

    def slots(self, address):
        """The addresses of an object's slots."""
        return range(address + 1, address + 1 + (self.words[address] & 0xFFFFFFFF))

    def content(self, address):
        """The addresses of an object's data words."""
        return range(self.slots(address).stop, address + self.size(address))

    def region_of(self, address):
        return address // self.region_words

    def objects_in(self, region):
        """The addresses of the objects that begin in the region."""
        if self.kinds[region] == FIRST:
            yield region * self.region_words
        if self.kinds[region] == ORDINARY:
            at, end = region * self.region_words, region * self.region_words + self.tops[region]
            while at < end:
                yield at
                at += self.size(at)

    def objects(self):
        """The addresses of all objects, rising."""
        for region in range(self.regions):
            yield from self.objects_in(region)

    def make_exact(self):
        """Gives each region the cards of other regions that hold a slot which leads into it. A planted word may lead
        into none."""
        self.sets = [[] for _ in range(self.regions)]
        for address in self.objects():
            for slot in self.slots(address):
                region = self.region_of(self.words[slot] - 1)
                if self.words[slot] != NULL and region < self.regions and region != self.region_of(slot):
                    cards, card = self.sets[region], slot // self.card_words
                    if cards[-1:] != [card]:
                        cards.append(card)

    def reached(self):
        """The objects that the roots reach, breadth first, and the path to each."""
        found = {}
        queue = [(root, f"root {i}") for i, root in enumerate(self.roots)]
        for word, path in queue:
            if word != NULL and word - 1 not in found:
                found[word - 1] = path
                queue += [(self.words[slot], f"{path} slot {i}") for i, slot in enumerate(self.slots(word - 1))]
        return found

    def to_bytes(self):
        """The bytes of the image's file."""
        current = self.regions if self.current is None else self.current
        out = [MAGIC, struct.pack("<6I", self.region_words, self.card_words, self.regions, len(self.roots),
                                  len(self.log), current)]
        for kind, top, pinned in zip(self.kinds, self.tops, self.pinned):
            out.append(struct.pack("<3I", kind, top, pinned))
        out.append(struct.pack(f"<{len(self.roots)}Q", *self.roots))
        out.append(struct.pack(f"<{len(self.log)}I", *self.log))
        for cards in self.sets:
            out.append(struct.pack(f"<{1 + len(cards)}I", len(cards), *cards))
        for region, top in enumerate(self.tops):
            start = region * self.region_words
            out.append(struct.pack(f"<{top}Q", *self.words[start:start + top]))
        return b"".join(out)


def from_bytes(data, limits=WIDE):
    """The image of these bytes, in version 1 or 2. It is a ValueError if they are not one by their beginning, sizes or
    length."""
    if data[:len(MAGIC)] not in (MAGIC, OLD_MAGIC):
        raise ValueError(f"no image: it begins with {bytes(data[:len(MAGIC)])!r}")
    try:
        image, end = read(data, limits)
    except struct.error:
        raise ValueError("no image: it is cut short") from None
    if end != len(data):
        raise ValueError(f"no image: {len(data) - end} bytes are behind it")
    return image


def read(data, limits=WIDE):
    """The image of well-formed bytes, and where it ends."""
    at = len(MAGIC)

    def take(count, letter):
        nonlocal at
        numbers = struct.unpack_from(f"<{count}{letter}", data, at)
        at += struct.calcsize(f"<{count}{letter}")
        return list(numbers)

    region_words, card_words, regions, roots, dirty, current = take(6, "I")
    if region_words > limits.region_words or region_words * regions > limits.words:
        raise ValueError(f"no image: {regions} regions of {region_words} words")
    numbers = 3 if data.startswith(MAGIC) else 2
    table = take(numbers * regions, "I")
    image = Image(region_words, card_words, regions)
    image.kinds, image.tops = table[::numbers], table[1::numbers]
    if numbers == 3:
        image.pinned = [flags == 1 for flags in table[2::3]]
    image.roots, image.log = take(roots, "Q"), take(dirty, "I")
    image.current = None if current == regions else current
    image.sets = [take(take(1, "I")[0], "I") for _ in range(regions)]
    for region, top in enumerate(image.tops):
        start = region * region_words
        image.words[start:start + top] = take(top, "Q")
    return image, at


def header(size, slots):
    """The first word of an object."""
    return size << 32 | slots


def laid_out(roots, objects, region_words=4096, card_words=64, stale=False, limits=WIDE):
    """An image of a program's objects, and the address of each by its name.

    `objects` has the slots and the data words of each object, and `roots` and slots have names or None. The objects lie
    end to end in their order, and behind them those of more than three quarters of a region. The remembered sets are
    exact. A name that is no object's is a KeyError. With `stale` it is a word behind the heap, and `g1heap same` reports
    it with its path: so show the heap before a collection without, and that behind it with `stale`.
    """
    sizes = {name: 1 + len(slots) + len(data) for name, (slots, data) in objects.items()}
    large = dict.fromkeys(name for name in objects if 4 * sizes[name] > 3 * region_words)
    image, places = with_places(sizes, large, region_words, card_words, limits)
    strays = {}

    def reference(name):
        if name is None:
            return NULL
        if stale and name not in places:
            return len(image.words) + 1 + strays.setdefault(name, len(strays))
        return places[name] + 1

    for name, (slots, data) in objects.items():
        words = [header(sizes[name], len(slots)), *map(reference, slots), *(number & MOST_NUMBER for number in data)]
        image.words[places[name]:places[name] + sizes[name]] = words
    image.roots = [reference(name) for name in roots]
    image.make_exact()
    return image, places


def with_places(sizes, large, region_words, card_words, limits=WIDE):
    """An image with room for objects of these sizes, and the place of each."""
    places, tops = {}, []
    for name, size in sizes.items():
        if name not in large:
            if not tops or tops[-1] + size > region_words:
                tops.append(0)
            places[name] = (len(tops) - 1) * region_words + tops[-1]
            tops[-1] += size
    kinds = [ORDINARY] * len(tops)
    for name in large:
        places[name] = len(tops) * region_words
        run = [min(region_words, sizes[name] - at) for at in range(0, sizes[name], region_words)]
        kinds += [FIRST] + [CONTINUATION] * (len(run) - 1)
        tops += run
    if len(tops) > MOST_REGIONS or region_words > limits.region_words or len(tops) * region_words > limits.words:
        raise ValueError(f"the objects take {len(tops)} regions of {region_words} words, and no image has them")
    image = Image(region_words, card_words, max(1, len(tops)))
    if tops:
        image.kinds, image.tops = kinds, tops
    return image, places
