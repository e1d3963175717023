"""A heap as objects that reference objects, so that parts of it can be taken away and an image be made of the rest.

Whatever is taken away, the image is one by docs/IMAGE.md, and it is covered: sets are made anew from the references, with
the stale cards that the heap had, and a card is left out of a set only while the log has it.
"""
from heap_image import FIRST, FREE, NULL, ORDINARY, CONTINUATION, Image


class Thing:
    """An object: its slots, each a thing or None, and its data words."""

    __slots__ = ("slots", "data")

    def __init__(self, slots, data):
        self.slots, self.data = slots, data

    def size(self):
        return 1 + len(self.slots) + len(self.data)


class Place:
    """A region and its objects, or the run of regions of one humongous object. Without objects it is free."""

    __slots__ = ("things", "is_pinned", "is_chosen", "is_current")

    def __init__(self, things=(), is_pinned=False, is_chosen=False, is_current=False):
        self.things = list(things)
        self.is_pinned, self.is_chosen, self.is_current = is_pinned, is_chosen, is_current

    def is_humongous(self, width):
        return len(self.things) == 1 and 4 * self.things[0].size() > 3 * width

    def regions(self, width):
        return -(-self.things[0].size() // width) if self.is_humongous(width) else 1

    def fits(self, width):
        sizes = [thing.size() for thing in self.things]
        return self.is_humongous(width) or sum(sizes) <= width and all(4 * size <= 3 * width for size in sizes)


class Heap:
    """Places in their order. A card is a pair of a place and a number in it; `stale` and `lost` have with each the place
    whose set has it although nothing references it from there, or lacks it since the log has it."""

    def __init__(self, width, card):
        self.width, self.card = width, card
        self.places, self.roots, self.log, self.stale, self.lost = [], [], [], [], []

    def things(self):
        return [thing for place in self.places for thing in place.things]

    def chosen(self):
        """The numbers of the regions to collect."""
        return [first for place, first in zip(self.places, self.firsts()) if place.is_chosen]

    def firsts(self):
        """The number of each place's first region."""
        firsts, region = [], 0
        for place in self.places:
            firsts.append(region)
            region += place.regions(self.width)
        return firsts

    def measure(self):
        """The larger, the more there is to look at."""
        things = self.things()
        parts = len(things) + sum(thing.size() for thing in things) + len(self.roots) + len(self.places)
        return parts + len(self.log) + len(self.stale) + len(self.lost) + sum(place.is_chosen for place in self.places)

    def copy(self):
        other = Heap(self.width, self.card)
        new = {id(thing): Thing([], thing.data[:]) for thing in self.things()}
        for thing in self.things():
            new[id(thing)].slots = [target and new[id(target)] for target in thing.slots]
        places = {}
        for place in self.places:
            made = Place((new[id(t)] for t in place.things), place.is_pinned, place.is_chosen, place.is_current)
            places[id(place)] = made
            other.places.append(made)
        other.roots = [root and new[id(root)] for root in self.roots]
        other.log = [(places[id(at)], number) for at, number in self.log]
        for name in ("stale", "lost"):
            cards = [(places[id(of)], places[id(at)], number) for of, at, number in getattr(self, name)]
            setattr(other, name, cards)
        return other

    def drop_things(self, gone):
        """Takes objects away; what references them becomes null."""
        gone = {id(thing) for thing in gone}

        def kept(thing):
            return None if thing is None or id(thing) in gone else thing

        for place in self.places:
            place.things = [thing for thing in place.things if id(thing) not in gone]
            for thing in place.things:
                thing.slots = [kept(target) for target in thing.slots]
        self.roots = [kept(root) for root in self.roots]

    def drop_places(self, start, stop):
        self.drop_things([thing for place in self.places[start:stop] for thing in place.things])
        del self.places[start:stop]

    def tidy(self):
        """Takes away what no image can say any more: pins of free regions, cards of places that are gone, and such."""
        cards = {}
        for place in self.places:
            is_ordinary = bool(place.things) and not place.is_humongous(self.width)
            place.is_pinned &= is_ordinary
            place.is_current &= is_ordinary
            place.is_chosen &= is_ordinary and not place.is_pinned
            cards[id(place)] = place.regions(self.width) * self.width // self.card if place.things else 0
        self.log = [(at, n) for at, n in dict.fromkeys(self.log) if n < cards.get(id(at), 0)]
        self.stale = [card for card in dict.fromkeys(self.stale) if self.is_stale(card, cards)]
        dirty = set(self.log)
        self.lost = [(of, at, n) for of, at, n in dict.fromkeys(self.lost) if cards.get(id(of)) and (at, n) in dirty]

    def is_stale(self, card, cards):
        of, at, number = card
        return cards.get(id(of), 0) and number < cards.get(id(at), 0) and (of is not at or number * self.card >= self.width)

    def image(self):
        """The image; None if no region is chosen, or if the objects of a place do not fit into it."""
        if not self.places or not any(place.is_chosen for place in self.places):
            return None
        if not all(place.fits(self.width) for place in self.places):
            return None
        firsts = self.firsts()
        image = Image(self.width, self.card, firsts[-1] + self.places[-1].regions(self.width))
        self.put_words(image, firsts)
        for place, first in zip(self.places, firsts):
            self.put_regions(image, place, first)
        self.put_cards(image, {id(place): first for place, first in zip(self.places, firsts)})
        return image

    def put_regions(self, image, place, first):
        size = sum(thing.size() for thing in place.things)
        for number in range(place.regions(self.width) if place.things else 0):
            image.kinds[first + number] = CONTINUATION if number else FIRST if place.is_humongous(self.width) else ORDINARY
            image.tops[first + number] = min(self.width, size - number * self.width)
        image.pinned[first] = place.is_pinned
        if place.is_current:
            image.current = first

    def put_words(self, image, firsts):
        addresses = {}
        for place, first in zip(self.places, firsts):
            at = first * self.width
            for thing in place.things:
                addresses[id(thing)] = at
                at += thing.size()

        def word(thing):
            return NULL if thing is None else addresses[id(thing)] + 1

        for thing in self.things():
            at = addresses[id(thing)]
            words = [thing.size() << 32 | len(thing.slots), *map(word, thing.slots), *thing.data]
            image.words[at:at + len(words)] = words
        image.roots = [word(root) for root in self.roots]

    def put_cards(self, image, firsts):
        per = self.width // self.card
        image.make_exact()
        image.log = [firsts[id(at)] * per + number for at, number in self.log]
        for of, at, number in self.lost:
            cards, card = image.sets[firsts[id(of)]], firsts[id(at)] * per + number
            if card in cards:
                cards.remove(card)
        for of, at, number in self.stale:
            region, card = firsts[id(of)], firsts[id(at)] * per + number
            image.sets[region] = sorted({*image.sets[region], card})


def take_apart(image, chosen):
    """The heap of an image that is covered, and of the regions to collect."""
    heap = Heap(image.region_words, image.card_words)
    things = {address: Thing([], [image.words[place] for place in image.content(address)]) for address in image.objects()}
    for address, thing in things.items():
        thing.slots = [things.get(image.words[slot] - 1) for slot in image.slots(address)]
    heap.roots = [things.get(word - 1) for word in image.roots]
    place_of = []
    for region in range(image.regions):
        if image.kinds[region] == CONTINUATION:
            place_of.append(place_of[-1])
            continue
        found = [things[address] for address in image.objects_in(region)] if image.kinds[region] != FREE else []
        place = Place(found, image.pinned[region], region in chosen, region == image.current)
        place_of.append((place, region))
        heap.places.append(place)
    take_cards(heap, image, place_of)
    return heap


def take_cards(heap, image, place_of):
    per = image.region_words // image.card_words

    def card_of(card):
        place, first = place_of[card // per]
        return place, card - first * per

    heap.log = [card_of(card) for card in image.log]
    exact = image.copy()
    exact.make_exact()
    for region, (place, _) in enumerate(place_of):
        heap.stale += [(place, *card_of(card)) for card in set(image.sets[region]) - set(exact.sets[region])]
        heap.lost += [(place, *card_of(card)) for card in set(exact.sets[region]) - set(image.sets[region])]
