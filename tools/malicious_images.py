#!/usr/bin/env python3
"""malicious_images.py BINARY [COUNT [SEED]] [--heap G1HEAP]

Makes COUNT images (default 50,000) from a seed (default 1), most of them broken on purpose, and asks the built program
for each: `show --repack`, or `check` for one in three. What has to come follows from image_text.py, an independent
reading of docs/IMAGE.md: for an image its text of version 2, else the fault of the first stage that finds one. Every
tenth broken image is also given to `g1heap print --limits specification`: it has to report the same fault, with a second
line that says what breaks which rule, and to mark that in the lines that it prints, if it prints any. So it is without
that option, except that the wider limits of g1heap hold.

A good image is made first, of ordinary regions, runs of humongous objects, references, roots, remembered cards and
dirty cards. Then none, one, two or three of the wrongs below are done to it, each at a random place: a number of the
heading at each of its limits, kinds, tops and flags that lie, headers that end in the wrong place, runs that overlap or are
cut, references into headers, data, slots, continuations and free regions, cards of every wrong kind, counts whose
bytes aren't there, bytes cut off, added or changed. Two wrongs at once show the order of the stages. At the end it
reports how often an image and each fault was met, and what was never met counts as failed. The last line is
'N passed, M failed'.
"""
import argparse
import collections
import pathlib
import random
import struct
import subprocess
import sys
from concurrent.futures import ThreadPoolExecutor

sys.path.insert(0, str(pathlib.Path(__file__).resolve().parent / "lib"))

import progress  # noqa: E402
from heap_image import SPECIFICATION, WIDE  # noqa: E402
from image_text import FIRST, FREE, MAGIC, NEXT, ORDINARY, fault_of, header, in_version_two  # noqa: E402
from programs import add_program, find, program  # noqa: E402


# The images. An `Image` may be wrong in any way; `text` writes down what it holds.


class Image:
    def __init__(self, chance):
        self.chance = chance
        self.version = chance.choice([1, 2])
        self.magic = MAGIC + b"%d" % self.version
        self.w = chance.choice([16, 16, 16, 16, 32, 64])
        self.k = chance.choice([k for k in (4, 8, 16, 32, 64) if k <= self.w])
        self.n = chance.randint(1, 7)
        self.kinds, self.tops = [FREE] * self.n, [0] * self.n
        self.words = [[] for _ in range(self.n)]
        self.objects = []
        self.fill()
        self.flags = [int(kind == ORDINARY and chance.random() < 0.3) for kind in self.kinds]
        self.roots = [self.target() for _ in range(chance.randint(0, 4))]
        self.link()
        ordinary = [r for r in range(self.n) if self.kinds[r] == ORDINARY]
        self.current = chance.choice(ordinary) if ordinary and chance.random() < 0.5 else self.n
        self.counts = None
        self.numbers = {}

    def target(self):
        return self.chance.choice(self.objects)[0] + 1 if self.objects and self.chance.random() < 0.8 else 0

    def fill(self):
        r = 0
        while r < self.n:
            form = self.chance.random()
            most = (self.n - r) * self.w
            if form < 0.2 and 3 * self.w // 4 + 1 <= most:
                r += self.humongous(r, self.chance.randint(3 * self.w // 4 + 1, min(most, 3 * self.w)))
                continue
            if form < 0.75:
                self.ordinary(r)
            r += 1

    def body(self, size):
        refs = self.chance.choice([0, size - 1, self.chance.randint(0, size - 1)])
        data = [self.chance.choice([0, 1, 17, 1 << 63, (1 << 64) - 1, self.chance.getrandbits(64)]) for _ in range(size - 1 - refs)]
        return refs, [size << 32 | refs] + [0] * refs + data

    def ordinary(self, r):
        words, largest = [], 3 * self.w // 4
        while len(words) < self.w and self.chance.random() < 0.8 or not words:
            size = self.chance.randint(1, min(largest, self.w - len(words)))
            if self.chance.random() < 0.6:
                size = min(size, 5)
            refs, body = self.body(size)
            self.objects.append((r * self.w + len(words), refs))
            words += body
        self.kinds[r], self.tops[r], self.words[r] = ORDINARY, len(words), words

    def humongous(self, r, size):
        refs, body = self.body(size)
        self.objects.append((r * self.w, refs))
        run = -(-size // self.w)
        for q in range(run):
            part = body[q * self.w:(q + 1) * self.w]
            self.kinds[r + q], self.tops[r + q], self.words[r + q] = NEXT if q else FIRST, len(part), part
        return run

    def cards(self):
        """All cards of used regions."""
        each = self.w // self.k
        return [r * each + c for r in range(self.n) if self.kinds[r] != FREE for c in range(each)]

    def link(self):
        """References, the cards that cover them, and some that cover nothing."""
        sets, log, possible = [set() for _ in range(self.n)], [], self.cards()
        for at, refs in self.objects:
            for p in range(at + 1, at + 1 + refs):
                word = self.target() if self.chance.random() < 0.5 else 0
                self.words[p // self.w][p % self.w] = word
                if word and (word - 1) // self.w != p // self.w and p // self.k not in log:
                    if self.chance.random() < 0.8:
                        sets[(word - 1) // self.w].add(p // self.k)
                    else:
                        log.append(p // self.k)
        for r in range(self.n):
            if self.kinds[r] in (ORDINARY, FIRST):
                sets[r] |= {c for c in possible if self.chance.random() < 0.05 and c * self.k // self.w != r}
        log += [c for c in possible if self.chance.random() < 0.05 and c not in log]
        self.chance.shuffle(log)
        self.sets, self.log = [sorted(s) for s in sets], log

    def text(self):
        heading = [self.w, self.k, self.n, len(self.roots), len(self.log), self.current]
        for place, number in self.numbers.items():
            heading[place] = number
        out = [self.magic, struct.pack("<6I", *heading)]
        table = zip(self.kinds, self.tops, self.flags)
        out += [struct.pack(f"<{1 + self.version}I", *entry[:1 + self.version]) for entry in table]
        out += [struct.pack(f"<{len(self.roots)}Q", *self.roots), struct.pack(f"<{len(self.log)}I", *self.log)]
        for r, cards in enumerate(self.sets):
            count = (self.counts or {}).get(r, len(cards))
            out.append(struct.pack(f"<{1 + len(cards)}I", count, *cards))
        out += [struct.pack(f"<{len(words)}Q", *words) for words in self.words]
        return b"".join(out)


# The wrongs. Each changes an image, or says by None that it can't be done to this one.


def some_region(image, *kinds):
    regions = [r for r in range(image.n) if image.kinds[r] in kinds]
    return image.chance.choice(regions) if regions else None


def wrong_heading(image):
    place, limits = image.chance.choice([
        (0, [0, 1, 8, 15, 17, 24, 32, 48, 65535, 65536, 65537, 131072, 1 << 31, (1 << 32) - 1]),
        (1, [0, 1, 2, 3, 5, 8, 12, 16, 32, 63, 64, 65, 128, (1 << 32) - 1]),
        (2, [0, 1, 4095, 4096, 4097, (1 << 32) - 1]),
        (3, [0, 1, 65535, 65536, 65537, (1 << 32) - 1]),
        (4, [0, 1, 65536, 1 << 31, (1 << 32) - 1]),
        (5, [0, image.n - 1, image.n, image.n + 1, (1 << 32) - 1]),
    ])
    image.numbers[place] = image.chance.choice(limits)


def wrong_size_limits(image):
    image.numbers.update(image.chance.choice([
        {0: 65536, 1: 64, 2: 256}, {0: 65536, 1: 64, 2: 257}, {0: 16, 1: 32}, {0: 4096, 1: 64, 2: 4096}, {0: 8192, 1: 4, 2: 4096},
    ]))


def wrong_magic(image):
    at, magic = image.chance.randrange(8), MAGIC + b"%d" % image.version
    image.magic = image.chance.choice([
        magic[:at] + bytes([magic[at] ^ 1 << image.chance.randrange(8)]) + magic[at + 1:], magic[:at], b"G1IMAGE3", b"", magic.lower(),
        MAGIC + b"%d" % (3 - image.version),
    ])


def wrong_kind(image):
    r = image.chance.randrange(image.n)
    image.kinds[r] = image.chance.choice([0, 1, 2, 3, 4, 5, 255, 256, 1 << 31, (1 << 32) - 1])


def wrong_flags(image):
    r = image.chance.randrange(image.n)
    image.flags[r] = image.chance.choice([0, 1, 1, 2, 3, 256, 1 << 31, (1 << 32) - 1])


def wrong_top(image):
    r = image.chance.randrange(image.n)
    top = image.tops[r]
    image.tops[r] = image.chance.choice([0, 1, top - 1 if top else 1, top + 1, image.w, image.w + 1, 2 * image.w, (1 << 32) - 1])


def top_with_words(image):
    # A top that lies, with as many words as it says.
    r = image.chance.randrange(image.n)
    top = image.chance.choice([0, 1, image.w - 1, image.w, image.w + 1, 2 * image.w])
    image.tops[r] = top
    image.words[r] = (image.words[r] + [0] * top)[:top]


def wrong_header(image):
    if not image.objects:
        return
    at, _ = image.chance.choice(image.objects)
    r, offset = at // image.w, at % image.w
    if offset >= len(image.words[r]):
        return
    size, refs = header(image.words[r][offset])
    w = image.w
    size = image.chance.choice([0, 1, size, size, size - 1, size + 1, 3 * w // 4, 3 * w // 4 + 1, w, w + 1, 2 * w, 2 * w + 1, (1 << 32) - 1]) % (1 << 32)
    refs = image.chance.choice([0, refs, refs, refs + 1, size - 1, size, (1 << 32) - 1]) % (1 << 32)
    image.words[r][offset] = size << 32 | refs


def overlapping_runs(image):
    r = some_region(image, FIRST)
    if r is None or r + 1 >= image.n:
        return
    image.kinds[r + 1] = FIRST
    image.words[r + 1] = (image.words[r][:1] + image.words[r + 1][1:] + [0] * image.w)[:max(1, image.tops[r + 1])]
    image.tops[r + 1] = len(image.words[r + 1])


def cut_run(image):
    r = some_region(image, NEXT)
    if r is not None:
        image.kinds[r] = image.chance.choice([FREE, ORDINARY, FIRST])


def free_with_words(image):
    r = some_region(image, FREE)
    if r is not None:
        image.tops[r], image.words[r] = 1, [image.chance.choice([0, 1 << 32])]


def loose_continuation(image):
    r = some_region(image, FREE, ORDINARY)
    if r is not None:
        image.kinds[r] = NEXT
        if not image.tops[r]:
            image.tops[r], image.words[r] = 4, [0] * 4


def wrong_reference(image):
    """Into the inside of an object, past the heap, into a free region or a continuation."""
    kinds = [r * image.w + image.chance.randrange(image.w) for r in range(image.n)]
    word = image.chance.choice([*kinds, image.n * image.w, image.n * image.w + 1, 1 << 32, 1 << 63, (1 << 64) - 1])
    if image.objects and image.chance.random() < 0.4:
        word = image.chance.choice(image.objects)[0] + image.chance.choice([0, 2, 3])
    slots = [p for at, refs in image.objects for p in range(at + 1, at + 1 + refs) if p % image.w < len(image.words[p // image.w])]
    if image.roots and image.chance.random() < 0.4 or not slots:
        if image.roots:
            image.roots[image.chance.randrange(len(image.roots))] = word
    else:
        p = image.chance.choice(slots)
        image.words[p // image.w][p % image.w] = word


def wrong_card(image):
    cards, each = image.n * image.w // image.k, image.w // image.k
    free = [r * each for r in range(image.n) if image.kinds[r] == FREE]
    card = image.chance.choice([cards - 1, cards, cards + 1, (1 << 32) - 1, image.chance.randrange(cards), *free])
    if image.chance.random() < 0.4:
        image.log.insert(image.chance.randint(0, len(image.log)), image.chance.choice(image.log) if image.log and image.chance.random() < 0.5 else card)
        return
    r = image.chance.randrange(image.n)
    own = r * each + image.chance.randrange(each)
    image.sets[r].insert(image.chance.randint(0, len(image.sets[r])), image.chance.choice([card, own]))
    if image.chance.random() < 0.4:
        image.sets[r].sort()


def turned_set(image):
    r = max(range(image.n), key=lambda r: len(image.sets[r]))
    image.sets[r].reverse()


def wrong_count(image):
    r = image.chance.randrange(image.n)
    image.counts = {r: image.chance.choice([0, len(image.sets[r]) + 1, 1 << 31, (1 << 32) - 1])}


def dropped_card(image):
    r = max(range(image.n), key=lambda r: len(image.sets[r]))
    if image.sets[r]:
        image.sets[r].pop(image.chance.randrange(len(image.sets[r])))
    elif image.log:
        image.log.pop()


WRONGS = [wrong_heading, wrong_size_limits, wrong_magic, wrong_kind, wrong_flags, wrong_flags, wrong_top, top_with_words, wrong_header, overlapping_runs, cut_run,
          free_with_words, loose_continuation, wrong_reference, wrong_reference, wrong_card, wrong_card, turned_set, wrong_count,
          dropped_card, dropped_card]


def wrong_bytes(chance, data):
    form = chance.random()
    if form < 0.5:
        return data[:chance.randint(0, len(data))]
    if form < 0.7:
        return data + bytes(chance.randint(1, 9))
    at = chance.randrange(max(1, len(data)))
    return data[:at] + bytes([chance.randrange(256)]) + data[at + 1:]


def made(seed):
    chance = random.Random(seed)
    image = Image(chance)
    for _ in range(chance.choice([0, 1, 1, 1, 2, 2, 2, 3])):
        chance.choice(WRONGS)(image)
    data = image.text()
    return wrong_bytes(chance, data) if chance.random() < 0.12 else data


# The program's answers.

KINDS = ("an image", "1: magic", "2: geometry", "3: short", "4: trailing", "5: kind of region", "6: shape of region",
         "7: reference in root", "7: reference in slot", "8: card in log place", "8: card of region", "9: uncovered slot",
         "16: flags of region")


def answer(binary, data, cover):
    words = [binary, "check"] if cover else [binary, "show", "--repack"]
    done = subprocess.run(words, input=data, capture_output=True, timeout=60)
    return done.stdout, done.stderr, done.returncode


def wanted(data, cover, limits=SPECIFICATION):
    fault = fault_of(data, cover, limits)
    if fault is None:
        return (b"covered\n" if cover else in_version_two(data)), b"", 0
    status = 4 if fault.startswith("9:") else 3
    return b"", f"g1pause: fault {fault}\n".encode(), status


def is_marked(heap, data, wanted, words=()):
    """Whether g1heap prints a broken image, and marks the place that it reports."""
    done = subprocess.run([heap, "print", *words], input=data, capture_output=True, timeout=60)
    first, rule, *more = done.stderr.split(b"\n")
    marks = [line for line in done.stdout.split(b"\n") if line.startswith(b"broken ")]
    is_told = first + b"\n" == wanted[1].replace(b"g1pause: ", b"g1heap: -: ") and rule.startswith(b"g1heap: ") and more == [b""]
    lines = done.stdout[:5] == b"heap " and marks == [b"broken " + rule.removeprefix(b"g1heap: ")]
    return done.returncode == 3 and is_told and (lines or not done.stdout)


def kind_of(wanted):
    return " ".join(w for w in wanted[1].decode().removeprefix("g1pause: fault ").split() if not w.isdigit()) or "an image"


def report(met):
    """Prints how often each kind was met, and returns how many of KINDS never were."""
    missed = [kind for kind in KINDS if kind not in met]
    print("\n".join([*(f"{times:8} {kind}" for kind, times in met.most_common()), *(f"never met: {kind}" for kind in missed)]))
    return len(missed)


def main():
    parser = argparse.ArgumentParser(description=__doc__, formatter_class=argparse.RawDescriptionHelpFormatter)
    add_program(parser, "binary", "g1pause")
    parser.add_argument("count", nargs="?", type=int, default=50_000, metavar="COUNT")
    parser.add_argument("seed", nargs="?", type=int, default=1, metavar="SEED")
    parser.add_argument("--heap", type=program, default=find("g1heap"), help="the built program g1heap (default: out/g1heap)")
    options = parser.parse_args()
    binary, count, seed = options.binary, options.count, options.seed
    met, passed, failed = collections.Counter(), 0, 0

    def one(number):
        data, cover = made(f"{seed} {number}"), number % 3 == 0
        want = wanted(data, cover)
        good = answer(binary, data, cover) == want
        if number % 10 == 0 and want[2] == 3:
            wide = wanted(data, False, WIDE)
            good = good and is_marked(options.heap, data, want, ["--limits", "specification"])
            good = good and (wide[2] != 3 or is_marked(options.heap, data, wide))
        return number, cover, want, good

    with ThreadPoolExecutor(4) as pool:
        for number, cover, want, good in progress.over(pool.map(one, range(count)), "images", count):
            met[kind_of(want)] += 1
            passed, failed = passed + good, failed + (not good)
            if not good:
                print(f"image {number} of seed {seed}: wanted {want[1] or 'the image'}, with check" if cover else
                      f"image {number} of seed {seed}: wanted {want[1] or 'the image'}")
    failed += report(met)
    print(f"{passed} passed, {failed} failed")
    return 1 if failed else 0


if __name__ == "__main__":
    sys.exit(main())
