#!/usr/bin/env python3
"""limits.py [--archive FILE] [--only narrow | wide] G1PAUSE G1HEAP

Asks both programs of images in which a number is at its limit, or one more than what 16 bits hold: roots, dirty cards,
cards of a set, objects and words of a region, regions, and candidates. What they have to print is written here by hand
or by the rules of docs/COMMANDS.md and docs/HEAP_TEXT.md. `explain` of a pause with 2^18 dirty cards has a line for each,
and takes at most 20 times the processor time of the pause.

One heap has much of everything at once: 5,000 survivors in a chain, 300 cards that lead into the set, a humongous object of
ten regions that is freed, one that the last survivor keeps, 1,100 candidates, an object of 1,500 slots, a set of 70,000 cards. The lines of `explain`, the
paths of `why`, the summary, the image after, and what `same` reports of an error planted in it, are those that this script
computes from the heap.

With --only wide it does what follows alone, and with --only narrow all else. At the limits of g1heap are an object of 2^22
words in a region, heaps of 2^28 words in regions of 2^22 and of 2^16, 2^26 objects, and 65,536 roots. Each number is refused if
it is one more, and by g1pause and by `--limits specification` if it is one more than theirs. The judge for C and the writer of
g1image.h are asked, too, if the archive is there (judge/out/libg1judge.a) and a C compiler. Each case says how much memory it
takes, and is left out if less is free. The last line is 'N passed, M failed'.
"""
import argparse
import pathlib
import resource
import subprocess
import sys
import tempfile

sys.path.insert(0, str(pathlib.Path(__file__).resolve().parent / "lib"))

import progress  # noqa: E402
from explained import Choice, Pause, explained  # noqa: E402
from heap_image import CONTINUATION, FIRST, FREE, NULL, ORDINARY, Image  # noqa: E402
from judge_opponent import judged  # noqa: E402
from print_make import lines_of  # noqa: E402
from programs import TOP, add_program  # noqa: E402
from refusing import Judge  # noqa: E402
from why_paths import Heap  # noqa: E402
from wide_limits import Wide  # noqa: E402

MANY = 1 << 16


def in_use(image, region, sizes):
    """Puts objects of these sizes, which have no slots, into a region."""
    at = region * image.region_words
    for size in sizes:
        image.words[at] = size << 32
        at += size
    image.kinds[region], image.tops[region] = ORDINARY, at - region * image.region_words


def many_roots():
    image = Image(16, 4, 2)
    in_use(image, 1, [1])
    image.roots = [NULL] * (MANY - 1) + [17]
    return image


def many_objects():
    """A full region of the largest size with as many objects as words. It is pinned."""
    image = Image(MANY, 64, 2)
    in_use(image, 0, [1] * MANY)
    image.pinned[0] = True
    image.roots = [MANY]
    return image


def many_cards():
    """Five regions of the largest size and cards of the smallest, and a card for each of the last 2^16."""
    image = Image(MANY, 4, 5)
    in_use(image, 0, [1])
    for region in range(1, 5):
        in_use(image, region, [3 * MANY // 4, MANY // 4])
    return image, list(range(MANY // 4, MANY // 4 + MANY))


def many_remembered():
    image, cards = many_cards()
    image.sets[0] = cards
    return image


def many_dirty():
    image, cards = many_cards()
    image.log = cards
    return image


def many_regions():
    """In each region two objects of a word, of which the very last one is live."""
    image = Image(16, 4, 4096)
    for region in range(image.regions):
        in_use(image, region, [1, 1])
    image.roots = [4095 * 16 + 2]
    return image


def current_last():
    image = many_regions()
    image.current = 4095
    return image


def many_entering():
    """A slot on each of 2^18 dirty cards references the one object of region 0."""
    image = Image(MANY, 4, 18)
    in_use(image, 0, [1])
    for region in range(1, 17):
        in_use(image, region, [4] * (MANY // 4))
        for at in range(region * MANY, (region + 1) * MANY, 4):
            image.words[at], image.words[at + 1] = 4 << 32 | 1, 1
    image.log = list(range(MANY // 4, 17 * MANY // 4))
    return image


class Large:
    """One heap with much of everything, by the numbers of its regions. Cards have 4 words, and regions 256 of them."""
    WIDTH = 1024
    CHAIN, SURVIVORS = range(15), 5000  # 341 objects of three words in a region: each references the next one
    ENTERED = 15  # 300 objects of two words: a slot on a card of its own references each
    SET = [*CHAIN, ENTERED]
    ENTERING = range(16, 18)  # the 300 slots, in objects of four words
    FREED = range(18, 28)  # the humongous object that nothing references
    MANY_SLOTS, SLOTS, STALE = range(28, 30), 1500, 1400  # a root references it
    KEPT = range(30, 31)  # the last object of the chain alone references it
    CANDIDATES = range(31, 1131)
    REMEMBERING, CARDS = 31, 70_000  # a candidate whose set has as many cards
    REGIONS = 1160
    WHY = 300  # so many slots lead from a root to an object of the chain

    def __init__(self):
        image = self.image = Image(self.WIDTH, 4, self.REGIONS)
        self.chain = [region * self.WIDTH + at for region in self.CHAIN for at in range(0, 3 * 341, 3)][:self.SURVIVORS]
        self.roots = [self.chain[0] + 1, NULL, self.MANY_SLOTS[0] * self.WIDTH + 1]
        self.lay_chain()
        self.lay_entered()
        self.lay_humongous(self.FREED, 10 * self.WIDTH - 3, 1)
        self.lay_humongous(self.MANY_SLOTS, self.SLOTS + 20, self.SLOTS)
        self.lay_humongous(self.KEPT, self.WIDTH, 0)
        # All are null but some near powers of two, which reference the first object of the chain.
        slots = list(image.slots(self.MANY_SLOTS[0] * self.WIDTH))
        for number in (0, 63, 64, 255, 256, 1023, 1024, self.STALE, self.SLOTS - 1):
            image.words[slots[number]] = self.chain[0] + 1
        self.lay_candidates()
        image.roots = self.roots
        image.make_exact()
        self.remember()
        # Of the cards that lead into the set two are dirty and not remembered.
        image.log = [image.sets[self.ENTERED].pop(7), image.sets[self.ENTERED].pop(250), self.REMEMBERING * 256]
        image.current = self.ENTERED

    def object(self, at, size, *slots, data=0):
        self.image.words[at:at + size] = [size << 32 | len(slots), *slots, *[data] * (size - 1 - len(slots))]

    def use(self, region, top):
        self.image.kinds[region], self.image.tops[region] = ORDINARY, top

    def lay_chain(self):
        for number, (at, after) in enumerate(zip(self.chain, [*self.chain[1:], self.KEPT[0] * self.WIDTH])):
            self.object(at, 3, after + 1, data=number)
            self.use(at // self.WIDTH, at % self.WIDTH + 3)

    def lay_entered(self):
        for number in range(300):
            self.object(self.ENTERED * self.WIDTH + 2 * number, 2, data=1 << 40 | number)
            self.object(self.ENTERING[0] * self.WIDTH + 4 * number, 4, self.ENTERED * self.WIDTH + 2 * number + 1)
        self.use(self.ENTERED, 600)
        self.use(self.ENTERING[0], self.WIDTH)
        self.use(self.ENTERING[1], 1200 - self.WIDTH)

    def lay_humongous(self, run, size, slots):
        self.object(run[0] * self.WIDTH, size, *[NULL] * slots)
        for region in run:
            self.image.kinds[region] = CONTINUATION if region > run[0] else FIRST
            self.image.tops[region] = min(self.WIDTH, size - (region - run[0]) * self.WIDTH)

    def lay_candidates(self):
        """Each has a dead object, and each tenth one a live one before it. They cost more and more for what they give."""
        for number, region in enumerate(self.CANDIDATES):
            start, live = region * self.WIDTH, 3 if number % 10 == 9 else 0
            if live:
                self.object(start, live, data=number)
                self.roots.append(start + 1)
            self.object(start + live, 20 + number % 7)
            self.use(region, live + 20 + number % 7)

    def remember(self):
        """Stale cards: of each candidate some more than of the one before it, and of one very many."""
        for number, region in enumerate(self.CANDIDATES):
            first = 256 * self.CANDIDATES[number - 1]
            self.image.sets[region] = list(range(first, first + 1 + number // 5))
        self.image.sets[self.REMEMBERING] = [card for card in range(self.CARDS + 256) if card // 256 != self.REMEMBERING]


def summary(image):
    """The lines of `print --summary`."""
    kinds = [image.kinds.count(kind) for kind in (FREE, ORDINARY, FIRST, CONTINUATION)]
    used, live = sum(image.tops), sum(map(image.size, image.reached()))
    return [f"heap {image.region_words} {image.card_words} {image.regions}",
            "regions free {} ordinary {} humongous {} continuation {} pinned {}".format(*kinds, sum(image.pinned)),
            f"used {used} words", f"live {live} words", f"garbage {used - live} words",
            f"cards remembered {sum(map(len, image.sets))} dirty {len(image.log)}", f"roots {len(image.roots)}"]


def text_of(lines):
    return "".join(f"{line}\n" for line in lines).encode()


def choice(rows, total):
    """The lines of `choose`: regions with their cost and garbage, and whether they are taken."""
    lines = [f"region {region} cost {cost} garbage {garbage} {word}" for region, cost, garbage, word in rows]
    return lines + [f"total {total}"]


LARGE = [(region, 0, 8 * MANY, "taken") for region in range(1, 5)]
LEFT = [(region, 0, 8 * MANY, "left") for region in range(1, 5)]
SMALL = [(region, 0, 16, "taken") for region in range(4095)]
LIVE = [f"region {region} live 0" for region in range(4095)] + ["region 4095 live 8"]
# Each image, and what lines both programs answer to it.
ROWS = (
    (many_roots, {"live": ["region 0 live 0", "region 1 live 8"], "choose --budget 0": ["total 0"], "check": ["covered"]}),
    (many_objects, {"live": ["region 0 live 8", "region 1 live 0"], "choose --budget 0": ["total 0"]}),
    (many_remembered, {"choose --budget 65536": choice([*LARGE, (0, 65536, 8, "taken")], 65536),
                       "choose --budget 65535": choice([*LARGE, (0, 65536, 8, "left")], 0)}),
    (many_dirty, {"choose --budget 65536": choice([(0, 0, 8, "taken"), *LARGE], 65536),
                  "choose --budget 196607 --dirty 3": choice([(0, 0, 8, "left"), *LEFT], 196608)}),
    (many_regions, {"live": LIVE, "choose --budget 8": choice([*SMALL, (4095, 8, 8, "taken")], 8),
                    "choose --budget 7": choice([*SMALL, (4095, 8, 8, "left")], 0)}),
    (current_last, {"live": LIVE}),
)


class Limits(Judge):
    def __init__(self, g1pause, g1heap):
        super().__init__()
        self.g1pause, self.g1heap = g1pause, g1heap

    def run(self, program, words, data):
        done = subprocess.run([program, *words], input=data, capture_output=True, timeout=120)
        return done.stdout, done.stderr, done.returncode

    def answers(self, name, program, words, data, answer):
        self.judge(f"{name}: {' '.join(words)}", self.run(program, words, data) == (answer, b"", 0))

    def image(self, name, image, rows, folder):
        data, lines = image.to_bytes(), lines_of(image)
        text = "".join(f"{line}\n" for line in lines).encode()
        table = "".join(f"{line}\n" for line in lines if line.startswith(("heap", "region"))).encode()
        self.answers(name, self.g1heap, ["print", "-"], data, text)
        self.answers(name, self.g1heap, ["make"], text, data)
        for program in (self.g1pause, self.g1heap):
            self.answers(name, program, ["show"], data, table)
            self.answers(name, program, ["show", "--repack"], data, data)
        path = folder / "image"
        path.write_bytes(data)
        reached = image.reached()
        same = f"same objects {len(reached)} words {sum(map(image.size, reached))}\n".encode()
        self.answers(name, self.g1heap, ["same", str(path), "-"], data, same)
        for words, lines in rows.items():
            answer = "".join(f"{line}\n" for line in lines).encode()
            for program in (self.g1pause, self.g1heap):
                self.answers(name, program, words.split(), data, answer)

    def timed(self, program, words, data):
        """The answer, and the processor time that it took."""
        before = resource.getrusage(resource.RUSAGE_CHILDREN)
        answer = self.run(program, words, data)
        after = resource.getrusage(resource.RUSAGE_CHILDREN)
        return answer, after.ru_utime + after.ru_stime - before.ru_utime - before.ru_stime

    def explained(self):
        """Steps that look at each dirty card."""
        image = many_entering()
        data = image.to_bytes()
        _, pause = self.timed(self.g1pause, ["pause", "0"], data)
        (text, errors, status), seconds = self.timed(self.g1heap, ["explain", "--set", "0"], data)
        adds = [f"dirty {card} adds 0".encode() for card in image.log]
        lines = [line for line in text.splitlines() if line.startswith(b"dirty")]
        self.judge("explain of dirty cards", (lines, errors, status) == (adds, b"", 0))
        self.judge(f"explain of dirty cards took {seconds:.2f} s, the pause {pause:.2f} s", seconds < 20 * pause)

    def large(self, folder):
        """The heap with much of everything."""
        heap = Large()
        image, data = heap.image, heap.image.to_bytes()
        path = folder / "before"
        path.write_bytes(data)
        self.counted(heap)
        self.answers("large heap", self.g1heap, ["print", "--summary", "-"], data, text_of(summary(image)))
        self.answers("large heap", self.g1pause, ["check"], data, b"covered\n")
        self.answers("large heap", self.g1heap, ["check", str(path)], b"", b"covered\n")
        self.explained_large(image, data, None, heap.SET)
        candidates = Choice(image, 0).candidates
        for taken in (0, 900, 1099, 1100):
            budget = candidates[taken - 1][2] if taken else len(image.log)
            self.explained_large(image, data, Choice(image, budget), [])
        paths = Heap(image)
        late = heap.MANY_SLOTS[0] * heap.WIDTH
        for at in (heap.chain[heap.WHY], heap.chain[-1], heap.KEPT[0] * heap.WIDTH, late, heap.ENTERED * heap.WIDTH, heap.FREED[0] * heap.WIDTH,
                   heap.roots[-1] - 1, heap.chain[1] + 1, (heap.FREED[-1] + 1) * heap.WIDTH - 1):
            status, out, errors = paths.answer(at)
            told = self.run(self.g1heap, ["why", "-", str(at)], data)
            self.judge(f"large heap: why {at}", told == (out.encode(), errors.encode(), status))
        self.compared(heap, path)

    def counted(self, heap):
        """It is as large as this script says. Three regions more have garbage: nothing live references what 300 slots do."""
        image, pause = heap.image, Pause(heap.image, heap.SET)
        freed = [len(run) for at, run in pause.runs.items() if pause.keepers[at] is None]
        found = (len(pause.found), freed, len(pause.cards) >= 300, len(Choice(image, 0).candidates),
                 len(image.slots(heap.MANY_SLOTS[0] * heap.WIDTH)), len(image.sets[heap.REMEMBERING]))
        self.judge(f"large heap: {found}", found == (5300, [10], True, 1100 + 3, 1500, heap.CARDS))

    def explained_large(self, image, data, bought, chosen):
        """The lines of a pause, and its image after."""
        words = ["--set", ",".join(map(str, chosen))] if chosen else ["--budget", str(bought.budget)]
        name = f"large heap, {len(bought.set if bought else chosen)} regions"
        self.answers(name, self.g1heap, ["explain", "-", *words], data, text_of(explained(image, bought, chosen)))
        pause = Pause(image, bought.set if bought else chosen)
        places = [f"{at} {to} {image.size(at)}" for at, to in pause.place.items()]
        self.answers(name, self.g1heap, ["explain", "--map", "-", *words], data, text_of(places))
        self.answers(name, self.g1heap, ["pause", "-", *words], data, pause.after().to_bytes())
        words = [str(region) for region in chosen] or words
        self.answers(name, self.g1pause, ["pause", *words], data, pause.after().to_bytes())

    def compared(self, heap, path):
        """What `same` reports of the image after, and of an error planted in it."""
        before, pause = heap.image, Pause(heap.image, heap.SET)
        after = pause.after()
        regions = ["--set", *map(str, heap.SET)]
        whole = judged(before, after).encode()
        self.answers("large heap", self.g1heap, ["same", str(path), "-", "--covered", *regions], after.to_bytes(),
                     whole + b"kept\ncovered\n")
        slots = before.slots(heap.MANY_SLOTS[0] * heap.WIDTH)
        for number in (0, 255, 256, 1023, 1024, heap.STALE, heap.SLOTS - 1):
            stale = after.copy()
            stale.words[slots[number]] = before.words[slots[number]]
            line = judged(before, stale).encode()
            self.judge(f"large heap: slot {number} is not stale: {line}", line.startswith(b"differ stale at root 2 slot %d:" % number))
            self.reports(f"stale slot {number}", path, stale, line)
        deep = after.copy()
        deep.words[pause.place[heap.chain[heap.WHY]] + 2] += 1
        line = judged(before, deep).encode()
        self.judge("large heap: a path of 300 slots", line.count(b" slot ") == heap.WHY)
        self.reports("a difference behind 300 slots", path, deep, line)
        self.named(heap, path, after)

    def reports(self, name, path, after, line, *words):
        told = self.run(self.g1heap, ["same", *words, str(path), "-"], after.to_bytes())
        self.judge(f"large heap: {name}: {told}, and not {line}", told == (line, b"", 1))

    def named(self, heap, path, after):
        """An object far behind the start of the heap has a type."""
        number, at = len(after.roots) - 1, heap.image.roots[-1] - 1
        changed = after.copy()
        changed.words[at + 2] = 77
        names = path.parent / "names"
        names.write_text(f"type Late slots data count last\nobject {at} Late\nroot {number} last.root\n")
        was = heap.image.words[at + 2]
        line = f"differ data at last.root: object {at} (Late) before, object {at} after; data word 1, last, is {was} (0x{was:x}) " \
               "before, 77 (0x4d) after\n"
        self.reports("an object with a name", path, changed, line.encode(), "--names", str(names))

    def beyond(self):
        """A number more than there may be."""
        lines = b"heap 16 4 4\n" + b"root -\n" * (MANY + 1)
        told = f"g1heap: -: line {MANY + 2}: expected at most {MANY} roots\n".encode()
        self.judge("a root too many", self.run(self.g1heap, ["make"], lines) == (b"", told, 3))
        data = many_roots().to_bytes()
        more = data[:20] + (MANY + 1).to_bytes(4, "little") + data[24:]
        told = b"g1pause: fault 2: geometry\n"
        self.judge("a root too many, in bytes", self.run(self.g1pause, ["show"], more) == (b"", told, 3))


def main():
    parser = argparse.ArgumentParser(description=__doc__, formatter_class=argparse.RawDescriptionHelpFormatter)
    add_program(parser, "g1pause")
    add_program(parser, "g1heap")
    parser.add_argument("--archive", type=pathlib.Path, default=TOP / "judge/out/libg1judge.a", help="the judge for C")
    parser.add_argument("--only", choices=("narrow", "wide"), help="a part alone")
    options = parser.parse_args()
    limits = Limits(options.g1pause, options.g1heap)
    progress.show("tried", lambda: limits.passed)
    with tempfile.TemporaryDirectory() as room:
        if options.only != "wide":
            for made, rows in ROWS:
                limits.image(made.__name__, made(), rows, pathlib.Path(room))
            limits.large(pathlib.Path(room))
            limits.explained()
            limits.beyond()
        if options.only != "narrow":
            Wide(limits, room, options.archive.resolve()).all()
    return limits.end()


if __name__ == "__main__":
    sys.exit(main())
