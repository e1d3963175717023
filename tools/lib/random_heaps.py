"""Heaps at random, of profiles that each draw what a collector can get wrong: for the scripts of this folder.

`drawn` gives half of its heaps by `mixed` and the others by all profiles; `PROFILES` has them all. A profile is a function
of a source of random numbers; the first line of its documentation says what it is for. Its heap is covered: each set is
exact, except that some profiles add stale cards, or leave a card to the log.
"""
from heap_image import CONTINUATION, FIRST, FREE, NULL, ORDINARY, Image

SMALL = (2, 4, 8)  # the largest sizes of objects that are small


def empty(rng, widths=(16, 16, 32, 64), regions=(4, 16)):
    """A heap of free regions."""
    width = rng.choice(widths)
    return Image(width, rng.choice([k for k in (4, 8, 16) if k <= width]), rng.randint(*regions))


def largest(image):
    """The size of the largest object that is not humongous."""
    return 3 * image.region_words // 4


def draw_object(rng, image, address, size, slots=None):
    """An object of so many words and slots, or of as many slots as it happens; its slots are null."""
    if slots is None:
        slots = size - 1 if rng.random() < 0.2 else rng.randint(0, min(size - 1, 6))
    image.words[address] = size << 32 | slots
    for place in image.content(address):
        image.words[place] = rng.choice((0, 1, rng.randint(2, 9), rng.getrandbits(64)))
    return address


def place_run(rng, image, region, size, slots=None):
    """A humongous object from this region on, if its run ends in the heap. The number of its regions."""
    width = image.region_words
    run = -(-size // width)
    if region + run > image.regions:
        return 0
    for i in range(run):
        image.kinds[region + i] = CONTINUATION if i else FIRST
        image.tops[region + i] = min(width, size - i * width)
    draw_object(rng, image, region * width, size, slots)
    return run


def place_humongous(rng, image, region, most=3):
    """A humongous object of up to so many regions, with few slots or with slots in all its regions."""
    size = rng.randint(largest(image) + 1, most * image.region_words)
    return place_run(rng, image, region, size, None if rng.random() < 0.5 else rng.randint(0, size - 1)) or 1


def add(rng, image, region, size, slots=None):
    """An object behind the others of an ordinary region. Its address, or None if it has no room there."""
    top = image.tops[region]
    if top + size > image.region_words:
        return None
    image.kinds[region], image.tops[region] = ORDINARY, top + size
    return draw_object(rng, image, region * image.region_words + top, size, slots)


def place_ordinary(rng, image, region, sizes=(4, 8, 48), stop=0.15):
    """Objects of up to one of these sizes, until one has no room, or by chance."""
    while image.tops[region] == 0 or rng.random() >= stop:
        if add(rng, image, region, rng.randint(1, min(largest(image), rng.choice(sizes)))) is None:
            break


def fill_up(rng, image, region, slots=None):
    """Objects up to the last word of a region."""
    while image.tops[region] < image.region_words:
        left = image.region_words - image.tops[region]
        size = min(left, largest(image))
        add(rng, image, region, size, None if slots is None else min(slots, size - 1))


def fill(rng, image, free=0.4, humongous=0.1, sizes=(4, 8, 48), stop=0.15):
    """Objects in all regions but some that stay free."""
    region = 0
    while region < image.regions:
        chance = rng.random()
        if chance < free:
            region += 1
        elif chance < free + humongous:
            region += place_humongous(rng, image, region)
        else:
            place_ordinary(rng, image, region, sizes, stop)
            region += 1


def refer(image, address, slot, target):
    """A slot of an object references another object."""
    image.words[address + 1 + slot] = target + 1


def link(rng, image, targets=None, null=0.3):
    """Each slot is null, or references one of the targets, which are all objects if none are given."""
    targets = list(image.objects()) if targets is None else targets
    for address in image.objects():
        for slot in image.slots(address):
            image.words[slot] = NULL if not targets or rng.random() < null else rng.choice(targets) + 1


def draw_roots(rng, image, targets=None, most=5):
    targets = list(image.objects()) if targets is None else targets
    image.roots = [rng.choice(targets) + 1 if targets and rng.random() < 0.8 else NULL for _ in range(rng.randint(0, most))]


def pin(rng, image, share=0.2):
    image.pinned = [kind == ORDINARY and rng.random() < share for kind in image.kinds]


def ordinary(image):
    return [region for region in range(image.regions) if image.kinds[region] == ORDINARY]


def cards_in_use(image):
    per = image.region_words // image.card_words
    return [card for region in range(image.regions) if image.kinds[region] != FREE
            for card in range(region * per, (region + 1) * per)]


def add_stale(rng, image, most):
    """Cards in sets, up to so many in each, whether or not a reference lies on them."""
    per, cards = image.region_words // image.card_words, cards_in_use(image)
    for region in range(image.regions):
        if image.kinds[region] in (ORDINARY, FIRST):
            others = [card for card in cards if card // per != region]
            more = rng.sample(others, rng.randint(0, min(most, len(others))))
            image.sets[region] = sorted({*image.sets[region], *more})


def finish(rng, image, pins=0.1):
    pin(rng, image, pins)
    image.make_exact()
    return image


def mixed(rng):
    """Objects of all shapes, dead ones, humongous ones, pinned regions and free ones: what a heap is like."""
    image = empty(rng, regions=(2, 24))
    fill(rng, image)
    link(rng, image)
    draw_roots(rng, image)
    return finish(rng, image, 0.2)


def chains(rng):
    """One long chain through all regions: a walk that stops early, or goes too deep, loses its end."""
    image = empty(rng, regions=(6, 20))
    for region in range(image.regions):
        while rng.random() < 0.5 + 0.4 * (image.tops[region] > 0):
            size = rng.randint(2, 5)
            if add(rng, image, region, size, rng.randint(1, size - 1)) is None:
                break
    order = list(image.objects())
    rng.shuffle(order)
    for address, target in zip(order, order[1:]):
        refer(image, address, rng.randrange(len(image.slots(address))), target)
    image.roots = [order[0] + 1] if order else []
    return finish(rng, image)


def trees(rng):
    """Trees with shared leaves: an object that many slots reference has one copy."""
    image = empty(rng, regions=(4, 12))
    fill(rng, image, 0.4, 0, SMALL, 0.05)
    order = list(image.objects())
    rng.shuffle(order)
    inner, leaves = order[:2 * len(order) // 3], order[2 * len(order) // 3:]
    below = iter(inner[1:])
    for address in inner:
        for slot in image.slots(address):
            target = next(below, None) if rng.random() < 0.6 else None
            image.words[slot] = (rng.choice(leaves or order) if target is None else target) + 1
    image.roots = [address + 1 for address in inner[:1]]
    return finish(rng, image)


def wide(rng):
    """Objects of more than 256 slots: a counter of 8 bits, a fixed array, a slot that is looked at too late."""
    image = empty(rng, (512,), (4, 7))
    for region in range(image.regions // 2):
        add(rng, image, region, rng.randint(300, 384), rng.randint(257, 299))
        place_ordinary(rng, image, region, SMALL)
    if rng.random() < 0.5:
        place_run(rng, image, image.regions // 2, rng.randint(385, 800), rng.randint(257, 384))
    link(rng, image)
    draw_roots(rng, image)
    return finish(rng, image)


def run_borders(rng):
    """Humongous objects whose slots lie in every region of the run, and at its borders, and lead into ordinary regions."""
    image, region = empty(rng, (16, 32), (8, 16)), 0
    while region + 6 < image.regions:
        size = rng.randint(largest(image) + 1, 4 * image.region_words)
        region += place_run(rng, image, region, size, rng.choice((size - 1, rng.randint(0, size - 1)))) or 1
        place_ordinary(rng, image, region, SMALL)
        region += 1 + rng.randint(0, 1)
    targets = [address for kept in ordinary(image) for address in image.objects_in(kept)]
    for address in image.objects():
        for slot in image.slots(address):
            border = slot % image.region_words in (0, image.region_words - 1)
            image.words[slot] = rng.choice(targets) + 1 if targets and rng.random() < (0.9 if border else 0.05) else NULL
    draw_roots(rng, image, most=2)
    return finish(rng, image, 0)


def full_regions(rng):
    """All regions full to the last word but one, which is free: room that is counted by a word too little or too much."""
    image = empty(rng, regions=(3, 6))
    left_free = rng.randrange(image.regions)
    for region in range(image.regions):
        if region != left_free:
            place_ordinary(rng, image, region, SMALL, 0.02)
            fill_up(rng, image, region)
    objects = list(image.objects())
    link(rng, image, rng.sample(objects, max(1, len(objects) // 3)))
    draw_roots(rng, image)
    return finish(rng, image)


def nothing_free(rng):
    """No free region: a set without survivors needs none."""
    image = empty(rng, regions=(2, 8))
    for region in range(image.regions):
        place_ordinary(rng, image, region)
    kept = [address for region in range(1, image.regions) for address in image.objects_in(region)]
    link(rng, image, kept if rng.random() < 0.5 else rng.sample(kept, min(3, len(kept))))
    draw_roots(rng, image, kept, 3)
    return finish(rng, image, 0)


def self_references(rng):
    """Objects that reference themselves, alive and dead: forwarding must find the object that is being copied."""
    image = empty(rng)
    fill(rng, image, humongous=0.15, sizes=SMALL)
    link(rng, image, null=0.6)
    for address in image.objects():
        for slot in image.slots(address):
            if rng.random() < 0.5:
                image.words[slot] = address + 1
    draw_roots(rng, image)
    return finish(rng, image)


def cycles(rng):
    """Cycles over many regions, some without a root: what is dead is dead, however much of it references the rest."""
    image = empty(rng)
    fill(rng, image, 0.4, 0.05, SMALL)
    objects = [address for address in image.objects() if len(image.slots(address))]
    rng.shuffle(objects)
    while objects:
        ring = [objects.pop() for _ in range(min(len(objects), rng.randint(2, 7)))]
        for address, target in zip(ring, ring[1:] + ring[:1]):
            refer(image, address, rng.randrange(len(image.slots(address))), target)
    draw_roots(rng, image, most=3)
    return finish(rng, image)


def dead_owners(rng):
    """No roots: slots of dead objects outside the set are updated, too."""
    image = empty(rng)
    fill(rng, image, humongous=0.15)
    link(rng, image, null=0.5)
    image.roots = [NULL] * rng.randint(0, 2)
    return finish(rng, image)


def pinned_regions(rng):
    """Pinned regions that reference all others: they stay where they are, and their slots count."""
    image = empty(rng)
    fill(rng, image, 0.3, 0, SMALL)
    link(rng, image)
    draw_roots(rng, image)
    return finish(rng, image, 0.5)


def stale_cards(rng):
    """Sets with many cards that hold no reference: a card is looked at, and not believed."""
    image = empty(rng, (32, 64), (4, 10))
    fill(rng, image)
    link(rng, image, null=0.7)
    draw_roots(rng, image)
    finish(rng, image)
    add_stale(rng, image, 12)
    return image


def dirty_log(rng):
    """References that only a dirty card covers, in a log without order."""
    image = empty(rng)
    fill(rng, image)
    link(rng, image)
    draw_roots(rng, image, most=2)
    finish(rng, image)
    cards = cards_in_use(image)
    image.log = rng.sample(cards, rng.randint(0, len(cards)))
    dirty = set(image.log)
    image.sets = [[card for card in kept if card not in dirty or rng.random() < 0.2] for kept in image.sets]
    used = ordinary(image)
    image.current = rng.choice(used) if used and rng.random() < 0.7 else None
    return image


def many_roots(rng):
    """More than 256 roots to few objects, with nulls between them: each root is updated, the last one too."""
    image = empty(rng, regions=(3, 8))
    fill(rng, image, sizes=SMALL)
    link(rng, image, null=0.6)
    objects = list(image.objects())
    few = rng.sample(objects, min(len(objects), rng.randint(1, 4)))
    image.roots = [rng.choice(few) + 1 if few and rng.random() < 0.3 else NULL for _ in range(rng.randint(1, 300))]
    image.roots += [address + 1 for address in few]
    return finish(rng, image)


def largest_objects(rng):
    """Objects at the border between ordinary and humongous: three quarters of a region, a word more, a region, a word more."""
    image, region = empty(rng, regions=(6, 16)), 0
    width = image.region_words
    while region < image.regions - 1:
        size = rng.choice((0, largest(image), largest(image), largest(image) + 1, width, width + 1, 2 * width))
        if size <= largest(image):
            region += add(rng, image, region, size, rng.randint(0, size - 1)) is not None if size else 1
            fill_last = size and rng.random() < 0.5
            if fill_last:
                fill_up(rng, image, region - 1)
        else:
            region += place_run(rng, image, region, size, rng.choice((size - 1, rng.randint(0, size - 1)))) or 1
    link(rng, image)
    draw_roots(rng, image)
    return finish(rng, image)


def smallest_objects(rng):
    """Objects of one word, between others of two: a header alone is an object, with an address of its own."""
    image = empty(rng, regions=(3, 8))
    fill(rng, image, 0.5, 0, (1, 2, 3), 0.03)
    link(rng, image, null=0.1)
    draw_roots(rng, image, most=40)
    return finish(rng, image)


def brim(rng):
    """Regions whose last word is a slot, a data word or an object of one word: the last word counts."""
    image = empty(rng)
    for region in range(image.regions):
        if rng.random() < 0.6:
            place_ordinary(rng, image, region, SMALL, 0.1)
            fill_up(rng, image, region, rng.choice((0, image.region_words)))
    link(rng, image)
    draw_roots(rng, image)
    return finish(rng, image)


def many_cards(rng):
    """A region that more than 256 cards reference: sets that are cut, or that overflow."""
    image = Image(64, 4, 26)
    if rng.random() < 0.5:
        region = place_run(rng, image, 0, rng.randint(1100, 1200), 1090)
    else:
        region = 20
        for filled in range(region):
            while add(rng, image, filled, 4, 1) is not None:
                pass
    place_ordinary(rng, image, region, SMALL, 0.02)
    link(rng, image, list(image.objects_in(region)), 0.02)
    draw_roots(rng, image, most=2)
    return finish(rng, image, 0)


def many_survivors(rng):
    """More than 256 survivors in three regions, referenced one by another: tables and queues that are too short."""
    image = Image(256, rng.choice((4, 16, 64)), rng.randint(8, 10))
    for region in range(3):
        while add(rng, image, region, rng.choice((2, 2, 2, 2, 3, 4)), 1) is not None:
            pass
    order = list(image.objects())
    rng.shuffle(order)
    for address, target in zip(order, order[1:] + order[:1]):
        refer(image, address, 0, target)
    image.roots = [address + 1 for address in rng.sample(order, rng.choice((1, 200)))]
    return finish(rng, image, 0)


def equal_objects(rng):
    """Objects with the same words: only their addresses tell them apart."""
    image = empty(rng, regions=(4, 10))
    size, slots = rng.randint(2, 4), rng.randint(0, 1)
    for region in range(image.regions):
        while rng.random() < 0.4 + 0.5 * (image.tops[region] > 0):
            address = add(rng, image, region, size, slots)
            if address is None:
                break
            for place in image.content(address):
                image.words[place] = 7
    link(rng, image, null=0.5)
    draw_roots(rng, image, most=8)
    return finish(rng, image)


def unnamed_runs(rng):
    """Humongous objects that nothing references, or only their own slots: their slots count, whether or not they are freed."""
    image, region = empty(rng, (16, 32), (8, 16)), 0
    while region < image.regions - 4:
        region += place_humongous(rng, image, region)
        place_ordinary(rng, image, region, SMALL)
        region += 1 + rng.randint(0, 1)
    runs = [address for address in image.objects() if image.kinds[image.region_of(address)] == FIRST]
    others = [address for address in image.objects() if address not in runs]
    link(rng, image, others)
    for address in runs:
        for slot in image.slots(address):
            if rng.random() < 0.2:
                image.words[slot] = rng.choice((address, rng.choice(runs))) + 1
    draw_roots(rng, image, others, 2)
    return finish(rng, image, 0)


def ends_of_the_heap(rng):
    """Objects at the first and at the last address: the reference 1, and the last word of the last region."""
    image = empty(rng, regions=(3, 6))
    for region in (0, image.regions - 1):
        place_ordinary(rng, image, region, SMALL)
        fill_up(rng, image, region, rng.choice((0, 2)))
    targets = [0, *list(image.objects_in(image.regions - 1))[-1:]]
    link(rng, image, targets if rng.random() < 0.5 else None)
    draw_roots(rng, image, targets)
    return finish(rng, image)


def crowded_cards(rng):
    """Cards whose slots lead into several regions, and objects over several cards."""
    image = empty(rng, (64,), (4, 10))
    image.card_words = rng.choice((4, 16, 64))
    fill(rng, image, 0.3, 0, (3, 20, 40))
    link(rng, image, null=0.1)
    draw_roots(rng, image, most=2)
    return finish(rng, image)


def data_like_references(rng):
    """Data words that look like references: nobody updates data."""
    image = empty(rng)
    fill(rng, image, humongous=0.15)
    link(rng, image)
    objects = list(image.objects())
    for address in objects:
        for place in image.content(address):
            image.words[place] = rng.choice(objects) + 1
    draw_roots(rng, image)
    return finish(rng, image)


PROFILES = (mixed, chains, trees, wide, run_borders, full_regions, nothing_free, self_references, cycles, dead_owners,
            pinned_regions, stale_cards, dirty_log, many_roots, largest_objects, smallest_objects, brim, many_cards,
            many_survivors, equal_objects, unnamed_runs, ends_of_the_heap, crowded_cards, data_like_references)


def draw_large(rng, image, region, size, slots):
    """An object of many words, all of them 0, behind the others of an ordinary region."""
    at = add(rng, image, region, 1, 0)
    image.tops[region] += size - 1
    image.words[at] = size << 32 | slots


def draw_large_run(rng, image, region, size, slots):
    """A humongous object, whose words are 0. The number of its regions."""
    width = image.region_words
    tops = [min(width, size - at) for at in range(0, size, width)]
    image.kinds[region:region + len(tops)] = [FIRST] + [CONTINUATION] * (len(tops) - 1)
    image.tops[region:region + len(tops)] = tops
    image.words[region * width] = size << 32 | slots
    return len(tops)


def draw_large_region(rng, image, region):
    """Large objects with small ones behind them, so that these lie behind the word 65,536, some up to the last word."""
    if rng.random() < 0.8:
        draw_large(rng, image, region, rng.choice((65_530, largest(image) - 3)), rng.choice((0, 3, 3, 65_500)))
    place_ordinary(rng, image, region, SMALL, 0.1)
    while rng.random() < 0.5 and (left := image.region_words - image.tops[region] - 20) > 0:
        draw_large(rng, image, region, min(largest(image), left), 1)
    if image.region_words - image.tops[region] < 100:
        fill_up(rng, image, region)


def large_regions(rng):
    """Regions of 131,072 words and more, which g1heap alone takes: addresses, tops, sizes and slots behind 65,536. Most are
    free or filled by one object. (It is none of PROFILES, since such a heap takes megabytes.)"""
    image, region = Image(rng.choice((1 << 17, 1 << 17, 1 << 18)), rng.choice((16, 64)), rng.randint(5, 8)), 0
    while region < image.regions - 2:
        chance = rng.random()
        size = rng.randint(largest(image) + 1, 2 * image.region_words)
        if chance < 0.25:
            region += draw_large_run(rng, image, region, size, rng.choice((2, 2, 70_000, size - 1)))
        elif chance < 0.75:
            draw_large_region(rng, image, region)
            region += 1
        else:
            region += 1
    return finish_large(rng, image)


def finish_large(rng, image):
    """References from a few slots of each object, those at both ends and those at 65,536 among them."""
    targets = list(image.objects())
    for address in targets:
        slots, data = image.slots(address), image.content(address)
        ends = {*slots[:2], *slots[-2:], *slots[65_534:65_537], *(slots[at] for at in range(0, len(slots), image.region_words))}
        for slot in sorted(ends):
            image.words[slot] = NULL if rng.random() < 0.3 else rng.choice(targets) + 1
        for place in {*data[:1], *data[-1:]}:
            image.words[place] = rng.choice((1, rng.getrandbits(64)))
    draw_roots(rng, image)
    return finish(rng, image)


def drawn(rng, covered=False, profile=None):
    """A small image, mostly by `mixed`, or one of a profile. Unless it has to be covered, cards are taken away and others are
    added."""
    image = profile(rng) if profile else (mixed if rng.random() < 0.5 else rng.choice(PROFILES))(rng)
    if not covered:
        disturb(rng, image)
    return image


def draw_set(rng, image):
    """Regions that a pause may collect: one, a few or all. None if there are none."""
    regions = [region for region in ordinary(image) if not image.pinned[region]]
    count = rng.choice((1, rng.randint(1, 4), len(regions)))
    return sorted(rng.sample(regions, min(count, len(regions)))) or None


def disturb(rng, image):
    """Takes cards away and adds stale ones, draws a log and a current region."""
    cards = cards_in_use(image)
    image.log = rng.sample(cards, rng.randint(0, min(4, len(cards))))
    image.sets = [[card for card in kept if rng.random() < 0.8] for kept in image.sets]
    add_stale(rng, image, 2)
    used = ordinary(image)
    image.current = rng.choice(used) if used and rng.random() < 0.5 else None
