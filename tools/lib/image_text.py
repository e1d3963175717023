"""An independent reading of docs/IMAGE.md, for the scripts beside it.

`fault_of` returns what has to be said of a text, `read` its parts, `graph` what can be read from its roots.
Nothing here looks at how the program reads. Without other limits an image may be as large as g1heap takes it.
"""
import struct

from heap_image import MOST_REGIONS, MOST_ROOTS, WIDE

MAGIC = b"G1IMAGE"  # and the version's digit
FREE, ORDINARY, FIRST, NEXT = range(4)


class Refused(Exception):
    """A fault: its number and its text, as the program reports it."""


def refuse(number, text):
    raise Refused(f"{number}: {text}")


def is_power(n, low, high):
    return low <= n <= high and n & (n - 1) == 0


class Parts:
    """The parts of a text, read from its front."""

    def __init__(self, data):
        self.data, self.at = data, 0

    def take(self, count, form):
        size = struct.calcsize("<" + form)
        if len(self.data) - self.at < count * size:
            refuse(3, "short")
        part = self.data[self.at:self.at + count * size]
        self.at += count * size
        return list(struct.unpack(f"<{count}{form}", part))


def version(data):
    """1 or 2, of the bytes that are there; 2 where they end before the digit."""
    magics = {number: MAGIC + b"%d" % number for number in (1, 2)}
    for number, magic in magics.items():
        if data[:8] == magic[:len(data)]:
            return number if len(data) >= 8 else 2
    return refuse(1, "magic")


def in_version_two(data):
    """The text of version 2 of the image whose text of version 1 or 2 this is."""
    if data[7:8] == b"2":
        return data
    end = 32 + 8 * struct.unpack_from("<I", data, 16)[0]
    table = b"".join(data[at:at + 8] + bytes(4) for at in range(32, end, 8))
    return MAGIC + b"2" + data[8:32] + table + data[end:]


def read(data, limits=WIDE):
    """The image of a text: its sizes, regions (kind, top, flags), roots, log, sets and words by address."""
    numbers = 1 + version(data)
    if len(data) < 32:
        refuse(3, "short")
    w, k, n, roots, dirty, current = struct.unpack("<6I", data[8:32])
    sizes = is_power(w, 16, limits.region_words) and is_power(k, 4, 64) and k <= w and 1 <= n <= MOST_REGIONS
    if not sizes or n * w > limits.words or roots > MOST_ROOTS or current > n:
        refuse(2, "geometry")
    parts = Parts(data[32:])
    table = parts.take(numbers * n, "I")
    flags = table[2::3] if numbers == 3 else [0] * n
    regions = list(zip(table[::numbers], table[1::numbers], flags))
    named = parts.take(roots, "Q")
    log = parts.take(dirty, "I")
    sets = [parts.take(parts.take(1, "I")[0], "I") for _ in range(n)]
    used = [parts.take(top, "Q") for _, top, _ in regions]
    if parts.at != len(parts.data):
        refuse(4, "trailing")
    return w, k, n, regions, named, log, sets, used, current


def header(word):
    return word >> 32, word & 0xFFFFFFFF


def tiles(words, w):
    """The offsets of the ordinary objects that fill these words, or None where they don't."""
    offsets, at = [], 0
    while at < len(words):
        size, refs = header(words[at])
        if size < 1 or refs > size - 1 or 4 * size > 3 * w or at + size > len(words):
            return None
        offsets.append(at)
        at += size
    return offsets


def has_shape(r, w, n, regions, used):
    """Whether a region keeps the rules on tops, objects and runs."""
    kind, top, _ = regions[r]
    if kind == FREE:
        return top == 0
    if not 1 <= top <= w:
        return False
    if kind == ORDINARY:
        return tiles(used[r], w) is not None
    first = r
    while first >= 0 and regions[first][0] == NEXT:
        first -= 1
    if first < 0 or regions[first][0] != FIRST or not 1 <= regions[first][1] <= w:
        return False
    size, refs = header(used[first][0])
    run = -(-size // w)
    if kind == NEXT:
        return r < first + run and top == min(w, size - (r - first) * w)
    if size < 1 or refs > size - 1 or 4 * size <= 3 * w or top != min(size, w):
        return False
    return r + run <= n and all(regions[q][0] == NEXT for q in range(r + 1, r + run))


def objects(w, regions, used):
    """Each object's address, size and refs, by address."""
    found = []
    for r, (kind, _, _) in enumerate(regions):
        offsets = tiles(used[r], w) if kind == ORDINARY else [0] if kind == FIRST else []
        found += [(r * w + offset, *header(used[r][offset])) for offset in offsets]
    return found


def judge_cards(w, k, n, regions, log, sets):
    def stands(card):
        return card < n * w // k and regions[card * k // w][0] != FREE

    for i, card in enumerate(log):
        if not stands(card) or card in log[:i]:
            refuse(8, f"card in log place {i}")
    for r, cards in enumerate(sets):
        rises = all(a < b for a, b in zip(cards, cards[1:]))
        if not rises or not all(stands(card) and card * k // w != r for card in cards):
            refuse(8, f"card of region {r}")
        if cards and regions[r][0] in (FREE, NEXT):
            refuse(8, f"card of region {r}")


def judge_cover(w, k, log, sets, slots):
    for slot, target in slots:
        r = (target - 1) // w if target else slot // w
        if r != slot // w and slot // k not in sets[r] and slot // k not in log:
            refuse(9, f"uncovered slot {slot}")


def fault_of(data, cover, limits=WIDE):
    """None where the bytes are an image's text (and it is covered), else the fault."""
    try:
        w, k, n, regions, named, log, sets, used, current = read(data, limits)
        for r, (kind, _, _) in enumerate(regions):
            if kind > 3:
                refuse(5, f"kind of region {r}")
        for r, (kind, _, flags) in enumerate(regions):
            if flags > 1 or flags == 1 and kind != ORDINARY:
                refuse(16, f"flags of region {r}")
        for r in range(n):
            if not has_shape(r, w, n, regions, used) or (r == current and regions[r][0] != ORDINARY):
                refuse(6, f"shape of region {r}")
        held = objects(w, regions, used)
        starts = {at + 1 for at, _, _ in held} | {0}
        for i, word in enumerate(named):
            if word not in starts:
                refuse(7, f"reference in root {i}")
        slots = [(p, used[p // w][p % w]) for at, _, refs in held for p in range(at + 1, at + 1 + refs)]
        for p, word in slots:
            if word not in starts:
                refuse(7, f"reference in slot {p}")
        judge_cards(w, k, n, regions, log, sets)
        if cover:
            judge_cover(w, k, log, sets, slots)
    except Refused as fault:
        return str(fault)
    return None


def graph(data):
    """What can be read from the roots of an image's text: each root's object by its number in the order in which they
    are found, and of each such object its size, its slots as such numbers, and its data words. A null is None."""
    w, _, _, regions, named, _, _, used, _ = read(data)
    shapes = {at + 1: (size, refs) for at, size, refs in objects(w, regions, used)}
    numbers, found = {}, []

    def part(start, end):
        """The words from one address to another, of one object: in a run they lie end to end."""
        words, first = [], start // w
        for r in range(first, (end - 1) // w + 1 if end > start else first):
            words += used[r][max(start - r * w, 0):end - r * w]
        return words

    def number(word):
        if word and word not in numbers:
            numbers[word] = len(numbers)
            found.append(word)
        return numbers.get(word)

    roots, told = [number(word) for word in named], []
    for word in found:
        size, refs = shapes[word]
        slots = [number(target) for target in part(word, word + refs)]
        told.append((size, slots, part(word + refs, word - 1 + size)))
    return roots, told


def free_regions(data):
    return {r for r, (kind, top, _) in enumerate(read(data)[3]) if kind == FREE and top == 0}


def named_humongous(data, collected):
    """The first regions of the humongous objects that a root names, or a slot of another object that isn't in these
    regions or survives their collection."""
    w, _, _, regions, named, _, _, used, _ = read(data)
    held = objects(w, regions, used)
    slots = {at + 1: [used[p // w][p % w] for p in range(at + 1, at + 1 + refs)] for at, _, refs in held}
    staying = {word for word in slots if (word - 1) // w not in collected}
    found = [*named, *(target for word in staying for target in slots[word])]
    while found:
        word = found.pop()
        if word and word not in staying:
            staying.add(word)
            found += slots[word]
    names = {*named, *(target for word in staying for target in slots[word] if target != word)}
    return {(word - 1) // w for word in names if word and regions[(word - 1) // w][0] == FIRST}
