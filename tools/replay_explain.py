#!/usr/bin/env python3
"""replay_explain.py G1HEAP G1PAUSE [--random N] [--large N] [--seed S] [IMAGE ..]

Replays what `g1heap explain` reports, by docs/EXPLAIN.md alone, on each image (default: examples/*.img) and on N
random ones (2000), under random choices: budgets with random costs, sets, and sets that can't be collected. Of each
it is asked that

- each line has one of the forms of the page, and the lines are in its order;
- the lines, done one after another on the image before, give the bytes that `g1pause pause` writes with the same
  choice. Where it refuses, the last line is its refusal, and the status is its status;
- each line that changes nothing is true: what finds a survivor, which slots of a card lead into the set, what keeps a
  humongous object, gaps, live bytes, candidates and totals are computed again here, from the image and from what
  `g1pause choose` prints;
- `--map` prints the survivors' old and new addresses and sizes; with `-o` the same lines are in the file.

So it is with N (4) images that have regions of 131,072 words and more, except that `g1heap` pauses and chooses there, too.

The last line is 'N passed, M failed'.
"""
import argparse
import pathlib
import random
import re
import subprocess
import sys
import tempfile

sys.path.insert(0, str(pathlib.Path(__file__).resolve().parent / "lib"))

import progress  # noqa: E402
from covered import draw_choice, draw_image  # noqa: E402
from heap_image import CONTINUATION, FIRST, FREE, NULL, ORDINARY, from_bytes  # noqa: E402
from image_text import in_version_two  # noqa: E402
from programs import add_program  # noqa: E402
from random_heaps import large_regions  # noqa: E402

EXAMPLES = pathlib.Path(__file__).resolve().parent.parent / "examples"
N, LIST = r"(\d+)", r"(-|\d+(?: \d+)*)"
FINDER = r"(root \d+|card \d+ slot \d+|object \d+ slot \d+)"

# Each form, in the order of the lines. `gap` is among the `place` lines, `loses` among the `gains` lines, and what is
# kept among what is freed.
FORMS = [(name, order, re.compile(form)) for name, order, form in (
    ("heap", 0, rf"heap {N} {N} {N} roots {N} dirty {N} current (none|\d+)"),
    ("covered", 1, r"covered"),
    ("dirty", 2, rf"dirty {N} adds {LIST}"),
    ("budget", 3, rf"budget {N} base {N}"),
    ("live", 4, rf"live {N} {N} garbage {N} cards {N}"),
    ("excluded", 5, rf"excluded {N} (free|humongous|continuation|pinned|no-garbage)"),
    ("candidate", 6, rf"candidate {N} garbage {N} cost {N} total {N} (taken|left)"),
    ("set", 7, rf"set {LIST}"),
    ("card", 8, rf"card {N} slots {LIST}"),
    ("survivor", 9, rf"survivor {N} {N}/{N} by {FINDER}"),
    ("room", 10, rf"room need {N} free {N}"),
    ("place", 11, rf"place {N} at {N}"),
    ("gap", 11, rf"gap {N} at {N} words {N}"),
    ("root", 12, rf"root {N} from {N} to {N}"),
    ("slot", 13, rf"slot {N} from {N} to {N}"),
    ("kept", 14, rf"humongous {N} kept by {FINDER}"),
    ("freed", 14, rf"humongous {N} freed {LIST}"),
    ("gains", 15, rf"remembered {N} gains {LIST}"),
    ("loses", 15, rf"remembered {N} loses {LIST}"),
    ("region", 16, rf"region {N} (free|ordinary) top {N}"),
    ("log", 17, r"log empty"),
    ("current", 18, r"current none"),
    ("pause", 19, rf"pause regions {N} humongous {N} objects {N} bytes {N} cards {N} slots {N} free {N} {N}"),
    ("refused", 20, r"refused (fault .*)"),
)]


class Wrong(Exception):
    """What is wrong with an explanation."""


def demand(good, text):
    if not good:
        raise Wrong(text)


def numbers(text):
    return [] if text == "-" else [int(x) for x in text.split()]


def value(text):
    return int(text) if text.isdigit() else numbers(text) if re.fullmatch(LIST, text) else text


def parse(text):
    """The lines: the name of each one's form, and its values."""
    facts, last = [], -1
    demand(text.endswith("\n"), "the last line has no end")
    for line in text[:-1].split("\n"):
        for name, order, form in FORMS:
            match = form.fullmatch(line)
            if match:
                demand(order >= last, f"out of order: {line}")
                lists = name in ("dirty", "set", "card", "freed", "gains", "loses")
                values = [value(x) for x in match.groups()]
                if lists:
                    values[-1] = numbers(match.groups()[-1])
                facts.append((name, *values))
                last = order
                break
        else:
            raise Wrong(f"no form: {line}")
    return facts


def replay(before, facts):
    """The image after: what each line says, done on the image before."""
    image, source = before.copy(), before.words
    moved = {at: new for name, at, new in (fact for fact in facts if fact[0] == "place")}
    for name, *values in facts:
        if name == "dirty":
            for region in values[1]:
                image.sets[region] = sorted({*image.sets[region], values[0]})
        elif name == "gains":
            image.sets[values[0]] = sorted({*image.sets[values[0]], *values[1]})
        elif name == "loses":
            demand(set(values[1]) <= set(image.sets[values[0]]), f"region {values[0]} loses what it has not")
            image.sets[values[0]] = [card for card in image.sets[values[0]] if card not in values[1]]
        elif name == "root":
            demand(image.roots[values[0]] == values[1] + 1, f"root {values[0]} was another")
            image.roots[values[0]] = values[2] + 1
        elif name == "slot":
            demand(source[values[0]] == values[1] + 1, f"slot {values[0]} was another")
            image.words[values[0]] = values[2] + 1
        elif name == "region":
            replay_region(image, *values)
        elif name == "log":
            image.log = []
        elif name == "current":
            image.current = None
    for at, new in moved.items():
        size = before.size(at)
        image.words[new:new + size] = source[at:at + size]
        for old, slot in zip(before.slots(at), range(new + 1, new + size)):
            if source[old] != NULL and source[old] - 1 in moved:
                image.words[slot] = moved[source[old] - 1] + 1
    return image


def replay_region(image, region, kind, top):
    start = region * image.region_words
    image.words[start:start + image.region_words] = [0] * image.region_words
    image.kinds[region], image.tops[region] = (FREE, 0) if kind == "free" else (ORDINARY, top)
    image.pinned[region] = False


class Truth:
    """What the lines that change nothing have to say, computed from the image by a search of this script's own."""

    def __init__(self, image, chosen):
        self.image, self.set = image, set(chosen)
        self.refined = [set(cards) for cards in image.sets]
        self.led = [[] for _ in range(image.regions)]
        for at in image.objects():
            for slot in image.slots(at):
                if image.words[slot] != NULL:
                    region = image.region_of(image.words[slot] - 1)
                    if region != image.region_of(slot):
                        self.led[region].append(slot)
        for region, slots in enumerate(self.led):
            self.refined[region] |= {slot // image.card_words for slot in slots} & set(image.log)

    def collected(self, address):
        return self.image.region_of(address) in self.set

    def outer(self):
        """The slots outside the set, by address."""
        return [slot for at in self.image.objects() for slot in self.image.slots(at) if not self.collected(slot)]

    def offers(self, survivors):
        """Each reference in the order of the search: its word, and its name as a finder."""
        image = self.image
        for number, word in enumerate(image.roots):
            yield word, f"root {number}"
        for slot in self.outer():
            yield image.words[slot], f"card {slot // image.card_words} slot {slot}"
        for at in survivors:
            for number, slot in enumerate(image.slots(at)):
                yield image.words[slot], f"object {at} slot {number}"

    def survivors(self):
        """Each survivor with its finder, in order."""
        found, order = {}, []
        for word, finder in self.offers(order):
            if word != NULL and self.collected(word - 1) and word - 1 not in found:
                found[word - 1] = finder
                order.append(word - 1)
        return found

    def keepers(self, survivors):
        """What keeps each humongous object, or None."""
        image, kept = self.image, {}
        runs = {r * image.region_words: -(-image.size(r * image.region_words) // image.region_words)
                for r in range(image.regions) if image.kinds[r] == FIRST}
        for at, run in runs.items():
            own = range(image.region_of(at), image.region_of(at) + run)
            finders = (finder for word, finder in self.offers(survivors) if word == at + 1
                       and not (finder.startswith("card") and image.region_of(int(finder.split()[3])) in own))
            kept[at] = next(finders, None)
        return kept, runs


def demand_same(what, found, expected):
    demand(found == expected, f"{what}: {found}, and not {expected}")


def check_choice(program, data, image, facts, truth, words):
    """The lines of a choice by a budget."""
    by = {name: [fact[1:] for fact in facts if fact[0] == name] for name in ("budget", "live", "excluded", "candidate")}
    if "--budget" not in words:
        demand(not any(by.values()), "a choice without a budget")
        return
    costs = {"fixed": 0, "dirty": 1, "card": 1, "byte": 1}
    for name, number in zip(words[::2], words[1::2]):
        if name[2:] in costs:
            costs[name[2:]] = int(number)
    base = costs["fixed"] + costs["dirty"] * len(image.log)
    demand_same("budget", by["budget"], [(int(words[words.index("--budget") + 1]), base)])
    live = [0] * image.regions
    for at in image.reached():
        live[image.region_of(at)] += 8 * image.size(at)
    ordinary = [r for r in range(image.regions) if image.kinds[r] == ORDINARY]
    rows = [(r, live[r], 8 * image.tops[r] - live[r], len(truth.refined[r])) for r in ordinary]
    demand_same("live", by["live"], rows)
    reasons = {FREE: "free", FIRST: "humongous", CONTINUATION: "continuation"}
    excluded = []
    for region, kind in enumerate(image.kinds):
        reason = reasons.get(kind) or ("pinned" if image.pinned[region] else "no-garbage")
        if kind != ORDINARY or image.pinned[region] or 8 * image.tops[region] == live[region]:
            excluded.append((region, reason))
    demand_same("excluded", by["excluded"], excluded)
    chosen = subprocess.run([program, "choose", *words], input=data, capture_output=True, check=True)
    expected, total = [], base
    for line in chosen.stdout.decode().splitlines()[:-1]:
        _, region, _, cost, _, garbage, word = line.split()
        total += int(cost)
        expected.append((int(region), int(garbage), int(cost), total, word))
    demand_same("candidates", by["candidate"], expected)


def check_facts(image, facts, truth, refused):
    """The lines from the cards on that change nothing."""
    def rows(*names):
        return [fact if len(names) > 1 else fact[1:] for fact in facts if fact[0] in names]

    survivors = truth.survivors()
    cards = sorted({card for region in truth.set for card in truth.refined[region]
                    if card * image.card_words // image.region_words not in truth.set})
    into = [slot for slot in truth.outer() if image.words[slot] != NULL and truth.collected(image.words[slot] - 1)]
    demand_same("cards", rows("card"), [(c, [slot for slot in into if slot // image.card_words == c]) for c in cards])
    found = [(at, image.size(at), len(image.slots(at)), finder) for at, finder in survivors.items()]
    demand_same("survivors", rows("survivor"), found)
    free = image.kinds.count(FREE)
    demand_same("free", rows("room")[0][1], free)
    if refused:
        demand_same("placed", rows("place", "gap"), [])
        return
    demand_same("places", [at for at, _ in rows("place")], list(survivors))
    gaps, places = [], rows("place")
    for (at, new), (_, after) in zip(places, places[1:]):
        end = new + image.size(at)
        if image.region_of(new) != image.region_of(after) and end % image.region_words:
            gaps.append((image.region_of(new), end, image.region_words - end % image.region_words))
    demand_same("gaps", rows("gap"), gaps)
    kept, runs = truth.keepers(survivors)
    expected = [("kept", at, by) if by else ("freed", at, [image.region_of(at) + i for i in range(runs[at])])
                for at, by in kept.items()]
    demand_same("humongous", rows("kept", "freed"), expected)
    need = rows("room")[0][0]
    gone = {region for _, regions in rows("freed") for region in regions}
    patched = [slot for slot in into if image.region_of(slot) not in gone]
    demand_same("slots", [slot for slot, _, _ in rows("slot")], patched)
    totals = (len(truth.set), len(rows("freed")), len(survivors), 8 * sum(map(image.size, survivors)), len(cards),
              len(patched), free, free - need + len(truth.set) + len(gone))
    demand_same("totals", rows("pause"), [totals])
    demand_same("log empty", bool(rows("log")), bool(image.log))
    demand_same("current none", bool(rows("current")), image.current is not None)


def has_twice(words):
    """Whether a set has a region twice: g1heap refuses it with the words, and g1pause with the image."""
    regions = words[words.index("--set") + 1].split(",") if "--set" in words else []
    return len(set(regions)) < len(regions)


class Tries:
    """The tries so far."""

    def __init__(self, options, folder):
        self.options, self.folder, self.passed, self.failed = options, folder, 0, 0

    def run(self, program, words, data):
        return subprocess.run([program, *words], input=data, capture_output=True, check=False)

    def one(self, name, data, words, pause_words):
        """An image, by the words of a choice for g1heap and for g1pause; g1heap pauses it if there are none for g1pause."""
        try:
            self.explanation(data, words, pause_words)
            self.passed += 1
        except Wrong as wrong:
            self.failed += 1
            print(f"failed: {name}: explain {' '.join(words)}: {wrong}")

    def explanation(self, data, words, pause_words):
        done = self.run(self.options.g1heap, ["explain", "-", *words], data)
        if has_twice(words):
            demand_same("status", done.returncode, 2)
            demand(b"a region is given twice" in done.stderr and not done.stdout, done.stderr.decode())
            return
        program = self.options.g1heap if pause_words is None else self.options.g1pause
        pause = self.run(program, ["pause", *(words if pause_words is None else pause_words)], data)
        demand_same("status", done.returncode, pause.returncode)
        demand(not done.stderr, done.stderr.decode())
        facts = parse(done.stdout.decode())
        self.other_outputs(data, words, done, facts)
        image = from_bytes(data)
        refused = [fact[1] for fact in facts if fact[0] == "refused"]
        if pause.returncode:
            told = pause.stderr.decode().splitlines(keepends=True)[:1]  # the second one of g1heap says where the rule is broken
            name = "g1heap: -:" if pause_words is None else "g1pause:"
            demand_same("refusal", [f"{name} {text}\n" for text in refused], told)
        else:
            demand(not refused, "refused, and g1pause does not")
            demand(replay(image, facts).to_bytes() == pause.stdout, "the replay gives other bytes than g1pause pause")
        chosen = [fact[1] for fact in facts if fact[0] == "set"]
        if chosen:
            truth = Truth(image, chosen[0])
            check_choice(program, data, image, facts, truth, words if pause_words is None else pause_words)
            check_facts(image, facts, truth, bool(refused))

    def other_outputs(self, data, words, done, facts):
        target = self.folder / "lines"
        target.unlink(missing_ok=True)
        written = self.run(self.options.g1heap, ["explain", *words, "-o", str(target)], data)
        demand_same("with -o", (written.returncode, written.stdout), (done.returncode, b""))
        demand(target.read_bytes() == done.stdout, "other lines with -o")
        map_only = self.run(self.options.g1heap, ["explain", "--map", *words], data)
        demand_same("status with --map", map_only.returncode, done.returncode)
        if done.returncode:
            text = facts[-1][1]
            first = map_only.stderr.decode().partition("\n")[0]  # the second one says where the rule is broken
            demand_same("map", (map_only.stdout, first), (b"", f"g1heap: -: {text}"))
        else:
            sizes = {fact[1]: fact[2] for fact in facts if fact[0] == "survivor"}
            lines = "".join(f"{at} {new} {sizes[at]}\n" for name, at, new in
                            (fact for fact in facts if fact[0] == "place"))
            demand_same("map", map_only.stdout.decode(), lines)


def main():
    parser = argparse.ArgumentParser(description=__doc__, formatter_class=argparse.RawDescriptionHelpFormatter)
    add_program(parser, "g1heap")
    add_program(parser, "g1pause")
    parser.add_argument("--random", type=int, default=2000, metavar="N")
    parser.add_argument("--large", type=int, default=4, metavar="N")
    parser.add_argument("--seed", type=int, default=1, metavar="S")
    parser.add_argument("images", nargs="*", metavar="IMAGE")
    options = parser.parse_intermixed_args()
    rng = random.Random(options.seed)
    with tempfile.TemporaryDirectory() as folder:
        tries = Tries(options, pathlib.Path(folder))
        images = [pathlib.Path(x) for x in options.images] or sorted(EXAMPLES.glob("*.img"))
        for path in progress.over(images, "images"):
            data = in_version_two(path.read_bytes())
            tries.one(path.name, data, [], [])
            for number in range(4):
                tries.one(path.name, data, *draw_choice(rng, from_bytes(data)))
        for number in progress.over(range(options.random), "random images"):
            image = draw_image(rng)
            tries.one(f"random image {number}", image.to_bytes(), *draw_choice(rng, image))
        for number in progress.over(range(options.large), "large random images"):
            image = draw_image(rng, large_regions)
            for _ in range(4):
                tries.one(f"large random image {number}", image.to_bytes(), draw_choice(rng, image)[0], None)
    print(f"{tries.passed} passed, {tries.failed} failed")
    return 1 if tries.failed or not tries.passed else 0


if __name__ == "__main__":
    sys.exit(main())
