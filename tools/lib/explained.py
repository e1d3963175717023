"""A pause of a heap from the definitions of docs/PAUSE.md, and its lines as docs/EXPLAIN.md has them.

It stands apart from the programs. Each slot of the heap is looked at, so that cards decide nothing but what is covered.
"""
from fractions import Fraction

from heap_image import CONTINUATION, FIRST, FREE, NULL, ORDINARY

REASONS = {FREE: "free", FIRST: "humongous", CONTINUATION: "continuation"}


def numbers(values):
    return " ".join(map(str, values)) or "-"


class Links:
    """Which slots reference an object, and what each region's refined remembered set is."""

    def __init__(self, image):
        self.image = image
        self.slots = [slot for at in image.objects() for slot in image.slots(at) if image.words[slot] != NULL]
        self.refined, log = [set(cards) for cards in image.sets], set(image.log)
        self.added = {card: set() for card in image.log}
        for slot in self.slots:
            card, region = slot // image.card_words, image.region_of(image.words[slot] - 1)
            if region != image.region_of(slot) and card in log and card not in image.sets[region]:
                self.added[card].add(region)
                self.refined[region].add(card)


class Pause:
    """The pause that collects these regions, which have room for their survivors."""

    def __init__(self, image, chosen):
        self.image, self.set, self.links = image, set(chosen), Links(image)
        self.outer = [slot for slot in self.links.slots if image.region_of(slot) not in self.set]
        self.into = [slot for slot in self.outer if self.is_collected(image.words[slot])]
        refined = {card for region in self.set for card in self.links.refined[region]}
        self.cards = sorted(card for card in refined if card * image.card_words // image.region_words not in self.set)
        self.found = self.search()
        self.lay()
        self.runs = {r * image.region_words: [r + i for i in range(-(-image.size(r * image.region_words) // image.region_words))]
                     for r in range(image.regions) if image.kinds[r] == FIRST}
        self.keepers = {at: self.keeper(at) for at in self.runs}
        self.freed = {r for at, run in self.runs.items() if self.keepers[at] is None for r in run}

    def is_collected(self, word):
        return word != NULL and self.image.region_of(word - 1) in self.set

    def card_of(self, slot):
        return slot // self.image.card_words

    def references(self, survivors):
        """Each reference in the order of the search: its word, its name and its slot."""
        image = self.image
        for number, word in enumerate(image.roots):
            yield word, f"root {number}", None
        for slot in self.outer:
            yield image.words[slot], f"card {self.card_of(slot)} slot {slot}", slot
        for at in survivors:
            for number, slot in enumerate(image.slots(at)):
                yield image.words[slot], f"object {at} slot {number}", slot

    def search(self):
        """Each survivor with what references it first, in order."""
        found, order = {}, []
        for word, finder, _ in self.references(order):
            if self.is_collected(word) and word - 1 not in found:
                found[word - 1] = finder
                order.append(word - 1)
        return found

    def lay(self):
        """The survivors' places, and the gaps behind them."""
        image, width = self.image, self.image.region_words
        self.free = [r for r in range(image.regions) if image.kinds[r] == FREE]
        self.place, self.gaps, self.to, end = {}, {}, [], 0
        last = None
        for at in self.found:
            if not self.to or end + image.size(at) > width:
                if self.to and end < width:
                    self.gaps[last] = self.to[-1], self.to[-1] * width + end, width - end
                self.to.append(self.free[len(self.to)])
                end = 0
            self.place[at] = self.to[-1] * width + end
            end += image.size(at)
            last = at

    def keeper(self, at):
        """What keeps a humongous object, or None."""
        own = self.runs[at]
        return next((finder for word, finder, slot in self.references(self.found)
                     if word == at + 1 and (slot is None or self.image.region_of(slot) not in own)), None)

    def moved(self, word):
        return self.place[word - 1] + 1 if word != NULL and word - 1 in self.place else word

    def after(self):
        """The image after the pause."""
        image, width = self.image.copy(), self.image.region_words
        image.roots = [self.moved(word) for word in image.roots]
        for slot in self.into:
            image.words[slot] = self.moved(image.words[slot])
        for region in self.set | self.freed:
            image.words[region * width:(region + 1) * width] = [0] * width
            image.kinds[region], image.tops[region], image.pinned[region] = FREE, 0, False
        for at, to in self.place.items():
            size, slots = self.image.size(at), len(self.image.slots(at))
            words = self.image.words[at:at + size]
            image.words[to:to + size] = [words[0], *map(self.moved, words[1:slots + 1]), *words[slots + 1:]]
            region = image.region_of(to)
            image.kinds[region], image.tops[region] = ORDINARY, max(image.tops[region], to % width + size)
        image.sets, image.log, image.current = self.sets_after(image), [], None
        return image

    def sets_after(self, after):
        """The remembered sets of an image after: to-space has the cards that lead in, other regions keep what they had."""
        per = after.region_words // after.card_words
        gone, exact = self.set | self.freed, after.copy()
        exact.make_exact()
        sets = []
        for region, cards in enumerate(exact.sets):
            if region not in self.to:
                cards = [card for card in cards if card // per in self.to]
                cards += [card for card in self.links.refined[region] if card // per not in gone]
            sets.append([] if region in gone else sorted(set(cards)))
        return sets


class Choice:
    """What a budget buys: each ordinary region with its live bytes, and the candidates in order."""

    def __init__(self, image, budget, fixed=0, dirty=1, card=1, byte=1):
        self.budget, self.base, refined = budget, fixed + dirty * len(image.log), Links(image).refined
        self.live = [0] * image.regions
        for at in image.reached():
            self.live[image.region_of(at)] += 8 * image.size(at)
        self.ordinary = [r for r in range(image.regions) if image.kinds[r] == ORDINARY]
        self.garbage = {r: 8 * image.tops[r] - self.live[r] for r in self.ordinary}
        self.count = {r: len(refined[r]) for r in self.ordinary}
        costs = {r: card * self.count[r] + byte * self.live[r] for r in self.ordinary}
        takeable = [r for r in self.ordinary if self.garbage[r] and not image.pinned[r]]
        takeable.sort(key=lambda r: (Fraction(costs[r], self.garbage[r]), r))
        self.candidates, self.set, total = [], [], self.base
        for region in takeable:
            total += costs[region]
            is_taken = total <= budget and len(self.set) == len(self.candidates)
            self.candidates.append((region, costs[region], total, is_taken))
            self.set += [region] * is_taken
        self.excluded = [(r, REASONS.get(kind) or ("pinned" if image.pinned[r] else "no-garbage"))
                         for r, kind in enumerate(image.kinds) if r not in takeable]

    def lines(self):
        yield f"budget {self.budget} base {self.base}"
        for region in self.ordinary:
            yield f"live {region} {self.live[region]} garbage {self.garbage[region]} cards {self.count[region]}"
        for region, reason in self.excluded:
            yield f"excluded {region} {reason}"
        for region, cost, total, is_taken in self.candidates:
            yield f"candidate {region} garbage {self.garbage[region]} cost {cost} total {total} {'taken' if is_taken else 'left'}"


def moves(pause):
    """The lines of what is found, where it goes and what references it."""
    image, on_card = pause.image, {}
    for slot in pause.into:
        on_card.setdefault(pause.card_of(slot), []).append(slot)
    for card in pause.cards:
        yield f"card {card} slots {numbers(on_card.get(card, []))}"
    for at, finder in pause.found.items():
        yield f"survivor {at} {image.size(at)}/{len(image.slots(at))} by {finder}"
    yield f"room need {len(pause.to)} free {len(pause.free)}"
    for at, to in pause.place.items():
        yield f"place {at} at {to}"
        if at in pause.gaps:
            yield "gap {} at {} words {}".format(*pause.gaps[at])
    for number, word in enumerate(image.roots):
        if word - 1 in pause.place:
            yield f"root {number} from {word - 1} to {pause.place[word - 1]}"
    for slot in patched(pause):
        yield f"slot {slot} from {image.words[slot] - 1} to {pause.place[image.words[slot] - 1]}"
    for at, run in pause.runs.items():
        yield f"humongous {at} " + (f"kept by {pause.keepers[at]}" if pause.keepers[at] else f"freed {numbers(run)}")


def patched(pause):
    return [slot for slot in pause.into if pause.image.region_of(slot) not in pause.freed]


def changes(pause):
    """The lines of sets, regions, log and current region."""
    image, after = pause.image, pause.after()
    for region, (was, now) in enumerate(zip(pause.links.refined, map(set, after.sets))):
        for word, cards in (("gains", now - was), ("loses", was - now)):
            if cards:
                yield f"remembered {region} {word} {numbers(sorted(cards))}"
    for region in range(image.regions):
        if (image.kinds[region], image.tops[region]) != (after.kinds[region], after.tops[region]):
            yield f"region {region} {'free' if after.kinds[region] == FREE else 'ordinary'} top {after.tops[region]}"
    if image.log:
        yield "log empty"
    if image.current is not None:
        yield "current none"


def explained(image, choice, chosen=()):
    """The lines of a pause, of which a choice buys the regions, or that collects those that are given."""
    pause = Pause(image, choice.set if choice else chosen)
    freed = [at for at in pause.runs if pause.keepers[at] is None]
    free_after = len(pause.free) - len(pause.to) + len(pause.set) + len(pause.freed)
    current = "none" if image.current is None else image.current
    return [
        f"heap {image.region_words} {image.card_words} {image.regions} roots {len(image.roots)} dirty {len(image.log)} "
        f"current {current}",
        "covered",
        *(f"dirty {card} adds {numbers(sorted(regions))}" for card, regions in pause.links.added.items()),
        *(choice.lines() if choice else ()),
        f"set {numbers(sorted(pause.set))}",
        *moves(pause),
        *changes(pause),
        f"pause regions {len(pause.set)} humongous {len(freed)} objects {len(pause.found)} "
        f"bytes {8 * sum(map(image.size, pause.found))} cards {len(pause.cards)} slots {len(patched(pause))} "
        f"free {len(pause.free)} {free_after}",
    ]
