"""Heaps at random that are like a real one: objects of its sizes, with as many slots, as much shared, as often null."""
from heap_image import FIRST, NULL, ORDINARY
from random_heaps import add, draw_roots, empty, finish, largest, place_run

WIDEST = 256  # words of a region: a heap that is drawn is small, however large the real one is
LARGEST_RUN = 4  # regions of the largest object


class Unlike(Exception):
    """Nothing is like this heap."""


class Likeness:
    """A profile that is made from an image."""

    __name__ = "like"

    def __init__(self, image):
        self.width = min(image.region_words, WIDEST)
        self.card = min(image.card_words, self.width)
        shapes = [(image.size(address), len(image.slots(address))) for address in image.objects()]
        self.shapes = [shape for shape in shapes if shape[0] <= LARGEST_RUN * self.width]
        if not self.shapes:
            raise Unlike(f"it has no object of up to {LARGEST_RUN * self.width} words")
        references = [image.words[slot] for address in image.objects() for slot in image.slots(address)]
        named = [word for word in references if word != NULL]
        self.null = 1 - len(named) / len(references) if references else 0
        self.shared = 1 - len(set(named)) / len(named) if named else 0
        self.roots = max(1, len(image.roots) * len(self.shapes) // max(1, len(shapes)))
        self.left_out = len(shapes) - len(self.shapes)

    def __str__(self):
        sizes = sorted(size for size, _ in self.shapes)
        return (f"objects of {sizes[0]} to {sizes[-1]} words, {sizes[len(sizes) // 2]} in the middle; "
                f"{100 * self.null:.0f} of 100 references are null, and {100 * self.shared:.0f} of 100 of the others lead to an "
                f"object that another leads to; {self.left_out} objects are too large")

    def __call__(self, rng):
        """A heap like the image."""
        image = empty(rng, (self.width,), (4, 12))
        image.card_words = self.card
        region = 0
        while region < image.regions:
            if rng.random() < 0.4:
                region += 1
            else:
                region = self.fill(rng, image, region)
        self.link(rng, image)
        draw_roots(rng, image, most=min(self.roots, 40))
        return finish(rng, image)

    def fill(self, rng, image, region):
        """Objects in a region, or a humongous one from there on. The region behind them."""
        size, slots = rng.choice(self.shapes)
        if size > largest(image):
            return region + (place_run(rng, image, region, size, slots) or 1)
        while size > largest(image) or add(rng, image, region, size, slots) is not None:
            if rng.random() < 0.02:
                break
            size, slots = rng.choice(self.shapes)
        return region + 1

    def link(self, rng, image):
        objects = [address for address in image.objects() if image.kinds[image.region_of(address)] in (ORDINARY, FIRST)]
        fresh, used = rng.sample(objects, len(objects)), []
        for address in objects:
            for slot in image.slots(address):
                if rng.random() < self.null:
                    continue
                is_shared = used and (not fresh or rng.random() < self.shared)
                used.append(rng.choice(used) if is_shared else fresh.pop() if fresh else rng.choice(objects))
                image.words[slot] = used[-1] + 1
