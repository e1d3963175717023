"""Random images for the scripts on explanations: covered by remembered sets and the log together, and choices of a pause.

Cards move from the sets into the log, some stay in both, and stale ones are added. Of some images a card is lost.
"""
from heap_image import FIRST, ORDINARY
from random_heaps import cards_in_use, drawn


def draw_cover(rng, image):
    """Covers each reference by a remembered card or by a dirty one."""
    image.make_exact()
    cards, log = cards_in_use(image), set()
    per = image.region_words // image.card_words
    for region in range(image.regions):
        if image.kinds[region] in (ORDINARY, FIRST):
            moved = {card for card in image.sets[region] if rng.random() < 0.3}
            log |= moved
            kept = set(image.sets[region]) - {card for card in moved if rng.random() < 0.8}
            others = [card for card in cards if card // per != region]
            image.sets[region] = sorted(kept | set(rng.sample(others, rng.randint(0, min(2, len(others))))))
    log |= set(rng.sample(cards, rng.randint(0, min(2, len(cards)))))
    image.log = rng.sample(sorted(log), len(log))


def draw_image(rng, profile=None):
    """An image that is covered, mostly; with a current region, sometimes."""
    image = drawn(rng, True, profile)
    draw_cover(rng, image)
    if rng.random() < 0.05:
        image.log = image.log[1:]
    ordinary = [r for r in range(image.regions) if image.kinds[r] == ORDINARY]
    image.current = rng.choice(ordinary) if ordinary and rng.random() < 0.4 else None
    return image


def draw_choice(rng, image):
    """A choice of a pause: its words for g1heap and for g1pause."""
    costs = []
    if rng.random() < 0.5:
        for name in ("fixed", "dirty", "card", "byte"):
            if rng.random() < 0.5:
                costs += [f"--{name}", str(rng.choice((0, 1, 2, 7, 4294967295)))]
    chance = rng.random()
    if chance < 0.4:
        budget = str(rng.choice((0, 10, 60, 200, 1000, 10000, 18446744073709551615)))
        return [*costs, "--budget", budget], [*costs, "--budget", budget]
    takeable = [r for r in range(image.regions) if image.kinds[r] == ORDINARY and not image.pinned[r]]
    if chance < 0.5 or not takeable:
        regions = [rng.randrange(image.regions + 1) for _ in range(rng.randint(0, 3))]
    else:
        regions = rng.sample(takeable, rng.randint(1, min(4, len(takeable))))
    words = [str(region) for region in regions]
    return [*costs, *(["--set", ",".join(words)] if words else [])], [*costs, *words]
