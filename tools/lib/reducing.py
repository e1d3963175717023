"""Makes a heap that goes wrong smaller, as long as it goes wrong: by halves first, then one by one.

What is taken away: places with all that is in them, roots, objects, regions of the set, references, slots, data words,
pins, dirty and stale cards, and the sizes of regions and cards. An object may also be left out of a path: what references
it then references what its first slot references.
"""


class Enough(Exception):
    """No more tries are allowed."""


class Reducer:
    """`is_wrong(image, chosen)` says whether a heap still goes wrong, and may raise Enough. `heap` is the smallest yet."""

    def __init__(self, heap, is_wrong):
        self.heap, self.is_wrong = heap, is_wrong
        self.seen = set()

    def attempt(self, change):
        """Does a change to a copy, and keeps it if the heap still goes wrong. A change may say that it changes nothing."""
        heap = self.heap.copy()
        if change(heap) is False:
            return False
        heap.tidy()
        image = heap.image()
        if image is None:
            return False
        chosen = heap.chosen()
        key = hash((image.to_bytes(), tuple(chosen)))
        if key in self.seen:
            return False
        self.seen.add(key)
        if not self.is_wrong(image, chosen):
            return False
        self.heap = heap
        return True

    def halves(self, parts, change, least=1):
        """Tries to change some of what `parts(heap)` lists: all of it, halves, quarters, and so on."""
        step = len(parts(self.heap))
        while step >= least:
            at = 0
            while at < len(parts(self.heap)):
                start, stop = at, at + step
                if not self.attempt(lambda heap: change(heap, parts(heap)[start:stop])):
                    at += step
            step //= 2

    def run(self):
        """Goes through all passes until none makes it smaller. The seen heaps are not tried again."""
        size = None
        while size != (size := (self.heap.measure(), self.heap.width, -self.heap.card, self.weight())):
            for one in (self.places, self.roots, self.things, self.sizes, self.references, self.data, self.runs,
                        self.chosen, self.marks, self.paths, self.cards):
                one()
        return self.heap

    def weight(self):
        """What is neither null nor 0, and what is pinned or current."""
        things = self.heap.things()
        parts = sum(target is not None for thing in things for target in thing.slots) + sum(map(bool, self.heap.roots))
        parts += sum(word != 0 for thing in things for word in thing.data)
        return parts + sum(place.is_pinned + place.is_current for place in self.heap.places)

    def places(self):
        def drop(heap, places):
            start = heap.places.index(places[0])
            heap.drop_places(start, start + len(places))

        self.halves(lambda heap: heap.places, drop)

    def roots(self):
        def drop(heap, numbers):
            del heap.roots[numbers[0]:numbers[-1] + 1]

        self.halves(lambda heap: range(len(heap.roots)), drop)

    def things(self):
        self.halves(lambda heap: heap.things(), lambda heap, things: heap.drop_things(things))

    def chosen(self):
        def leave(_heap, places):
            for place in places:
                place.is_chosen = False

        self.halves(lambda heap: [place for place in heap.places if place.is_chosen], leave)

    def references(self):
        """References become null, in slots and in roots."""
        def null(_heap, slots):
            for thing, number in slots:
                thing.slots[number] = None

        def null_roots(heap, numbers):
            for number in numbers:
                heap.roots[number] = None

        self.halves(lambda heap: [(thing, number) for thing in heap.things()
                                  for number, target in enumerate(thing.slots) if target is not None], null)
        self.halves(lambda heap: [number for number, root in enumerate(heap.roots) if root is not None], null_roots)

    def data(self):
        """Data words become 0."""
        def zero(_heap, words):
            for thing, number in words:
                thing.data[number] = 0

        self.halves(lambda heap: [(thing, number) for thing in heap.things()
                                  for number, word in enumerate(thing.data) if word], zero)

    def runs(self):
        """Takes slots and data words away: from each row of equal ones half, a quarter, and so on."""
        for part in ("slots", "data"):
            number = 0
            while number < len(self.heap.things()):
                at = 0
                while at < len(self.part(self.heap, number, part)):
                    at += self.run_from(number, part, at)
                number += 1

    @staticmethod
    def part(heap, number, part):
        return getattr(heap.things()[number], part)

    def run_from(self, number, part, at):
        """Makes the row of equal words from there on shorter. Its length then."""
        def length():
            row = self.part(self.heap, number, part)[at:]
            return next((n for n, item in enumerate(row) if item is not row[0] and item != row[0]), len(row))

        step = length()
        while step:
            cut = step
            if step > length() or not self.attempt(lambda heap: self.cut(heap, number, part, at, cut)):
                step //= 2
        return length()

    def cut(self, heap, number, part, at, count):
        del self.part(heap, number, part)[at:at + count]

    def sizes(self):
        """Regions of half as many words."""
        def halve(heap):
            if heap.width == 16:
                return False
            heap.width //= 2
            heap.card = min(heap.card, heap.width)
            return True

        while self.attempt(halve):
            pass

    def cards(self):
        """Cards of twice as many words."""
        def double(heap):
            if heap.card == min(64, heap.width):
                return False
            heap.card *= 2
            for name in ("stale", "lost"):
                setattr(heap, name, [(of, at, number // 2) for of, at, number in getattr(heap, name)])
            heap.log = [(at, number // 2) for at, number in heap.log]
            return True

        while self.attempt(double):
            pass

    def marks(self):
        """Takes away pins, the current region, dirty cards, stale ones, and what only the log covers."""
        def clear(heap, marks):
            for name, item in marks:
                if name in ("is_pinned", "is_current"):
                    setattr(item, name, False)
                else:
                    getattr(heap, name).remove(item)

        def marks(heap):
            found = [(name, place) for name in ("is_pinned", "is_current") for place in heap.places if getattr(place, name)]
            return found + [(name, card) for name in ("stale", "lost", "log") for card in getattr(heap, name)]

        self.halves(marks, clear)

    def paths(self):
        """Leaves an object out, and has what references it reference what its first slot does that is not null."""
        number = 0
        while number < len(self.heap.things()):
            at = number
            number += not self.attempt(lambda heap: self.leave_out(heap, at))

    @staticmethod
    def leave_out(heap, number):
        gone = heap.things()[number]
        target = next((other for other in gone.slots if other is not None and other is not gone), None)
        if target is None:
            return False
        for thing in heap.things():
            thing.slots = [target if other is gone else other for other in thing.slots]
        heap.roots = [target if other is gone else other for other in heap.roots]
        heap.drop_things([gone])
        return True
