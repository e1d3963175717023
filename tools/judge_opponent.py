#!/usr/bin/env python3
"""judge_opponent.py G1HEAP [--g1pause FILE] [--cases N] [--seed S] [--large]

Draws N small heaps (1000) and sets, evacuates each set as tools/opponent.py does, and asks of the image after that
`same --covered --set R ..` finds it the same, kept and covered, with the numbers of objects and words that are
reached; with --g1pause also that `check` finds it covered, and that the answer of `g1pause pause R ..` to the heap
with exact remembered sets is found the same, kept and covered too. Then the same set is evacuated again by threads
that also copy behind the tops of regions that are kept: `same --set --fill` has to find it kept, and `same --set` has to
report the first region that was filled. In both answers an error of each kind of tools/plant_errors.py is
planted, and in a quarter of the cases words that reference no object beside it. What `same` reports of it, line by line,
and `same --all`, is compared with a judge of this script's own, which walks both heaps from the definition; some of the
heaps are compared as lines of objects by name, too. `same --set` has to find it wherever roots or objects outside the set
lead to it, or a region is not as a pause of the set leaves it, with `--fill` and without, and `same --covered` wherever
a slot is not covered. Some heaps have more than 256 roots, and some have an object outside the set that is equal to one
of the set. Before all, `same --all` lists a chain of which all data words differ. With --large all heaps have regions
of 131,072 words and more, and not every error finds a place.
The last line is 'N passed, M failed', after a count for each kind of error. With 20 cases or more each kind has to be
planted: one that never was counts as failed.
"""
import argparse
import collections
import pathlib
import random
import struct
import subprocess
import sys
import tempfile

sys.path.insert(0, str(pathlib.Path(__file__).resolve().parent / "lib"))

import progress  # noqa: E402
from heap_image import FREE, NULL, ORDINARY, from_bytes  # noqa: E402
from opponent import NoRoom, Opponent  # noqa: E402
from plant_errors import ERRORS, MORE_ERRORS, Planter  # noqa: E402
from programs import add_program, program  # noqa: E402
from random_heaps import drawn, large_regions  # noqa: E402

KINDS = ("free", "ordinary", "humongous", "continuation")
ENOUGH = 20  # so many cases plant each kind of error, whatever the seed
DIFFERENCES = ("roots", "stale", "null", "split", "joined", "size", "slots", "data")


def difference(before, after, x, y, forth, back, called=(str, str)):
    """How two reference words differ: the kind and the detail of the line. None where they don't. `called` are what the
    files before and after call an object."""
    old, new = called
    a, b = x - 1, y - 1
    if NULL in (x, y):
        return ("null", "") if x != y else None
    if a in forth or b in back:
        if forth.get(a) == b:
            return None
        if a in forth:
            return "split", f"; {old(a)} before is {new(forth[a])} after on an earlier path"
        return "joined", f"; {new(b)} after is {old(back[b])} before on an earlier path"
    for kind, length in (("size", lambda i, o: i.size(o)), ("slots", lambda i, o: len(i.slots(o)))):
        was, now = length(before, a), length(after, b)
        if was != now:
            return kind, f"; {kind} {was} before, {now} after"
    was, now = (image.words[place.start:place.stop] for image, place in ((before, before.content(a)), (after, after.content(b))))
    if was != now:
        number = next(number for number, (p, q) in enumerate(zip(was, now)) if p != q)
        return "data", f"; data word {number} is {was[number]} before, {now[number]} after"
    return None


def stale_detail(before, after, x, y, by_name=False):
    """The detail of a word after that is not null and references no object."""
    if by_name:
        still = "still is" if x == y else "is"
        return "stale", f" before; the word {still} {stray_name(before, y)}, which no object after has"
    region = after.region_of(y - 1)
    where = "outside the heap"
    if region < after.regions:
        found = "the" if x == y else "another"
        found = f"{found} object was before" if y - 1 in set(before.objects()) else "no object starts"
        where = f"in region {region}, {KINDS[after.kinds[region]]} after, where {found}"
    return "stale", f" before; the word {'still is' if x == y else 'is'} {y}, {where}"


def stray_name(before, word):
    """The name of a word that references no object after: that of the object which was there before, if one was."""
    return f"b{word - 1}" if word - 1 in set(before.objects()) else f"x{word}"


def walked(before, after, more=(), called=None):
    """Both heaps walked at once from their roots, and from words that are to agree too: the lines of what differs, and
    the pairs of objects. The walk goes on behind objects whose data alone differ."""
    lines, forth, back, starts = [], {}, {}, set(after.objects())
    names = called or (str, str)
    if len(before.roots) != len(after.roots):
        lines.append(f"differ roots: {len(before.roots)} before, {len(after.roots)} after\n")
    queue = [(f"root {i}", x, y) for i, (x, y) in enumerate(zip(before.roots, after.roots))] + list(more)
    for path, x, y in queue:
        old, new = (f"object {name(word - 1)}" if word != NULL else "null" for name, word in zip(names, (x, y)))
        how = None
        if y != NULL and y - 1 not in starts:
            how, detail = stale_detail(before, after, x, y, called is not None)
            lines.append(f"differ {how} at {path}: {old}{detail}\n")
        elif difference(before, after, x, y, forth, back, names):
            how, detail = difference(before, after, x, y, forth, back, names)
            lines.append(f"differ {how} at {path}: {old} before, {new} after{detail}\n")
        if x != NULL and x - 1 not in forth and how in (None, "data"):
            forth[x - 1], back[y - 1] = y - 1, x - 1
            queue += [(f"{path} slot {i}", before.words[p], after.words[q])
                      for i, (p, q) in enumerate(zip(before.slots(x - 1), after.slots(y - 1)))]
    return lines, forth


def judged(before, after, more=(), called=None):
    """The line of `same`."""
    lines, forth = walked(before, after, more, called)
    return lines[0] if lines else f"same objects {len(forth)} words {sum(before.size(a) for a in forth)}\n"


def judged_all(before, after, most):
    """The lines of `same --all`, where something differs."""
    lines, _ = walked(before, after)
    kinds = [line.split()[1].rstrip(":") for line in lines]
    counts = "".join(f" {kind} {kinds.count(kind)}" for kind in DIFFERENCES if kind in kinds)
    return "".join(lines[:most]) + f"differences {len(lines)}:{counts}\n"


def graph_lines(rng, image, letter, stray):
    """The objects by name, in a random order: a letter and the address. `stray` names a word that references no object."""
    starts = set(image.objects())

    def name(word):
        return "-" if word == NULL else f"{letter}{word - 1}" if word - 1 in starts else stray(word)

    lines = []
    for address in starts:
        slots = image.slots(address)
        content = [name(image.words[slot]) for slot in slots] + [str(image.words[place]) for place in image.content(address)]
        lines.append(" ".join(["object", name(address + 1), f"{image.size(address)}/{len(slots)}", *content]))
    rng.shuffle(lines)
    for word in reversed(image.roots):  # the roots keep their order
        lines.insert(0, f"root {name(word)}")
    return "\n".join(["graph", *lines, ""])


LONG_CHAIN = 400


def long_chain(first):
    """A chain of objects in two regions, each with a data word: these rise from `first`. The longest line of a difference
    that `same --all` has of two such heaps is some 3 KB, and all together are more than half a megabyte."""
    head = struct.pack("<6I", 1024, 64, 2, 1, 0, 2)
    tops, table = (1023, 177), b""
    for top in tops:
        table += struct.pack("<3I", ORDINARY, top, 0)
    addresses = [1024 * region + place for region, top in enumerate(tops) for place in range(0, top, 3)]
    words = b""
    for number, address in enumerate(addresses):
        following = addresses[number + 1] + 1 if number + 1 < len(addresses) else NULL
        words += struct.pack("<2I2Q", 1, 3, following, first + number)
    return from_bytes(b"G1IMAGE2" + head + table + struct.pack("<Q", 1) + bytes(4 * 2) + words)


def region_line(before, after, chosen, fill):
    """The line of `same --set` for the first region that is not as a pause of the set leaves it, which with `fill` may have
    copied behind the top of an ordinary region. None where all are."""
    for region in range(before.regions):
        if region in chosen:
            if after.kinds[region] != FREE:
                return f"differ region {region}: in the set, and not free after\n"
        elif before.kinds[region] == FREE or before.kinds[region] != ORDINARY and after.kinds[region] == FREE:
            continue
        elif before.kinds[region] != after.kinds[region] or has_other_top(before, after, region, fill):
            return f"differ region {region}: outside the set, with another kind or top after\n"
        elif before.pinned[region] != after.pinned[region]:
            how = "before and not after" if before.pinned[region] else "after and not before"
            return f"differ region {region}: outside the set, pinned {how}\n"
    return None


def has_other_top(before, after, region, fill):
    """Whether a region that is kept ends where it must not."""
    was, now = before.tops[region], after.tops[region]
    return now < was if fill and before.kinds[region] == ORDINARY else now != was


def stray(image):
    """The first root, else the lowest slot, that references no object, as a fault has it. None where there is none."""
    starts = {NULL, *(address + 1 for address in image.objects())}
    for number, word in enumerate(image.roots):
        if word not in starts:
            return f"root {number}"
    slots = (slot for address in image.objects() for slot in image.slots(address))
    return next((f"slot {slot}" for slot in slots if image.words[slot] not in starts), None)


def make_stale(rng, before, after):
    """Gives one to three roots and slots a word that references no object: mostly one of an object before."""
    starts = set(after.objects())
    words = [a + 1 for a in before.objects() if a not in starts] or [len(after.words) + 1]
    holders = [(after.roots, i) for i in range(len(after.roots))]
    holders += [(after.words, slot) for address in starts for slot in after.slots(address)]
    for words_of, place in rng.sample(holders, min(len(holders), rng.randint(1, 3))):
        words_of[place] = rng.choice(words) if rng.random() < 0.9 else len(after.words) + rng.randint(1, 9)


def uncovered(image):
    """The lowest slot that references an object of another region and whose card is in neither its set nor the log."""
    for address in image.objects():
        for slot in image.slots(address):
            region = image.region_of(image.words[slot] - 1)
            told = (*image.sets[region], *image.log) if image.words[slot] != NULL else ()
            if image.words[slot] != NULL and region != image.region_of(slot) and slot // image.card_words not in told:
                return slot
    return None


def add_twin(rng, image, chosen):
    """Puts an equal of an object of the set behind the last object of a region outside it, where there is room."""
    width = image.region_words
    objects = [address for region in chosen for address in image.objects_in(region)]
    others = [r for r in range(image.regions) if r not in chosen and image.kinds[r] == ORDINARY]
    rooms = [(a, r) for a in objects for r in others if image.tops[r] + image.size(a) <= width]
    if rooms:
        address, region = rng.choice(rooms)
        at, size = region * width + image.tops[region], image.size(address)
        image.words[at:at + size] = image.words[address:address + size]
        image.tops[region] += size


class Judge:
    def __init__(self, options, folder):
        self.options, self.folder = options, folder
        self.rng = random.Random(options.seed + 1)
        self.passed = self.failed = 0
        self.counts = collections.Counter({error: 0 for error in ERRORS + MORE_ERRORS})

    def judge(self, name, good):
        self.passed += bool(good)
        self.failed += not good
        if not good:
            print(f"failed: {name}")

    def same(self, after, *words):
        (self.folder / "after").write_bytes(after.to_bytes())
        command = [self.options.g1heap, "same", "before", "after", *words]
        done = subprocess.run(command, cwd=self.folder, capture_output=True, text=True, timeout=60)
        return done.returncode, done.stdout, done.stderr

    def case(self, name, rng):
        """One heap and one set. False if there is no set, or no room."""
        before = drawn(rng, profile=large_regions if self.options.large else None)
        ordinary = [r for r in range(before.regions) if before.kinds[r] == ORDINARY and not before.pinned[r]]
        if not ordinary:
            return False
        chosen = rng.sample(ordinary, rng.randint(1, min(4, len(ordinary))))
        if rng.random() < 0.3:
            add_twin(rng, before, chosen)
        if rng.random() < 0.1:
            before.roots = [NULL] * 256 + before.roots
        threads, buffer = rng.randint(1, 4), rng.choice((4, 12, 48))
        opponent = Opponent(before, chosen, rng, threads, buffer)
        try:
            after = opponent.evacuate()
        except NoRoom:
            return False
        (self.folder / "before").write_bytes(before.to_bytes())
        words = ["--set", *(str(r) for r in chosen)]
        expected = judged(before, after) + "kept\ncovered\n"
        good = (0, expected, "")
        self.judge(name, expected.startswith("same") and self.same(after, "--covered", *words) == good)
        self.judge(f"{name}, --fill", self.same(after, "--covered", *words, "--fill") == good)
        if self.options.g1pause:
            done = subprocess.run([self.options.g1pause, "check"], input=after.to_bytes(), capture_output=True)
            self.judge(f"{name}: check", done.stdout == b"covered\n")
            self.paused(f"{name}: g1pause", before, chosen, expected)
        self.plant_all(name, before, opponent, after, chosen, rng)
        self.filled(f"{name}, filled", before, Opponent(before, chosen, rng, threads, buffer, True), chosen, rng)
        return True

    def filled(self, name, before, opponent, chosen, rng):
        """The same set, evacuated by threads that also fill regions which are kept."""
        try:
            after = opponent.evacuate()
        except NoRoom:
            return
        words = ["--set", *(str(r) for r in chosen)]
        expected = judged(before, after) + "kept\ncovered\n"
        self.judge(name, expected.startswith("same") and self.same(after, "--covered", *words, "--fill") == (0, expected, ""))
        line = region_line(before, after, chosen, False)
        self.counts["copies behind old tops"] += line is not None
        told = (1, line, "") if line else (0, expected, "")
        self.judge(f"{name}, --set: {told}", self.same(after, "--covered", *words) == told)
        self.plant_all(name, before, opponent, after, chosen, rng)

    def long_lines(self):
        """Many lines that together are long, each with its whole path."""
        before, after = long_chain(0), long_chain(1)
        (self.folder / "before").write_bytes(before.to_bytes())
        for most in (1, LONG_CHAIN // 2, LONG_CHAIN, 10 * LONG_CHAIN):
            wanted = 1, judged_all(before, after, most), ""
            self.judge(f"a chain of which all data differ, --all {most}", self.same(after, "--all", str(most)) == wanted)

    def plant_all(self, name, before, opponent, after, chosen, rng):
        """Plants an error of each kind."""
        planter = Planter(before, opponent, after, rng)
        for error in ERRORS + MORE_ERRORS:
            image = getattr(planter, error)()
            self.planted(f"{name}: {error}", error, before, image, chosen)
            if image is not None and rng.random() < 0.25:
                make_stale(rng, before, image)
                self.planted(f"{name}: stale words beside {error}", "stale words beside another error", before, image, chosen)

    def paused(self, name, before, chosen, expected):
        """The answer of g1pause, where there is room for it. It has no fillers, but shows the same."""
        exact = before.copy()
        exact.make_exact()
        regions = [str(r) for r in chosen]
        done = subprocess.run([self.options.g1pause, "pause", *regions], input=exact.to_bytes(), capture_output=True)
        if done.returncode == 0:
            self.counts["pauses of g1pause"] += 1
            answer = self.same(from_bytes(done.stdout), "--covered", "--set", *regions)
            self.judge(name, answer == (0, expected, ""))

    def planted(self, name, error, before, after, chosen):
        if after is None:
            return
        self.counts[error] += 1
        expected, fault = judged(before, after), stray(after)
        if expected[:4] != "same":
            most = self.rng.randint(1, 4)
            wanted = 1, judged_all(before, after, most), ""
            self.judge(f"{name}, all: {wanted}", self.same(after, "--all", str(most)) == wanted)
            self.counts[f"{error}, and --all counts it"] += 1
        if self.rng.random() < 0.3:
            self.graphs(name, before, after, fault)
        if fault is not None:
            self.stale(name, error, after, fault, expected)
            return
        status, out, err = self.same(after)
        self.judge(f"{name}: {expected}", (status, out, err) == (int(expected[:4] != "same"), expected, ""))
        self.counts[f"{error}, and a root leads to it"] += expected[:4] != "same"
        for fill in (False, True):
            self.with_set(name, error, before, after, chosen, expected, fill)
        if expected[:4] == "same":
            self.with_cover(name, error, after, expected)

    def graphs(self, name, before, after, fault):
        """The same heaps as lines of objects by name."""
        for file, image, letter in (("before.txt", before, "b"), ("after.txt", after, "a")):
            (self.folder / file).write_text(graph_lines(self.rng, image, letter, lambda word: stray_name(before, word)))
        command = [self.options.g1heap, "same", "before.txt", "after.txt"]
        done = subprocess.run(command, cwd=self.folder, capture_output=True, text=True, timeout=60)
        expected = judged(before, after, (), ("b{}".format, "a{}".format))
        if fault is not None and expected[:4] == "same":
            good = done.returncode == 3 and not done.stdout and "expected '-' or the name of an object" in done.stderr
        else:
            good = (done.returncode, done.stdout, done.stderr) == (int(expected[:4] != "same"), expected, "")
        self.counts["heaps as lines by name"] += 1
        self.judge(f"{name}, by name: {expected}", good)

    def stale(self, name, error, after, fault, expected):
        """A word that references no object is reported where a root leads to it, and else the fault of the file."""
        refused = (3, "", f"g1heap: after: fault 7: reference in {fault}\n")
        wanted = refused if expected[:4] == "same" else (1, expected, "")
        status, out, err = self.same(after)
        self.judge(f"{name}: {wanted}", (status, out, "".join(err.splitlines(True)[:1])) == wanted)
        self.counts[f"{error}, and a root leads to it"] += expected[:4] != "same"
        self.counts[f"{error}, reported as stale"] += expected.startswith("differ stale")

    def with_set(self, name, error, before, after, chosen, expected, fill):
        status, out, err = self.same(after, "--set", *(str(r) for r in chosen), *["--fill"] * fill)
        region = region_line(before, after, chosen, fill) if expected[:4] == "same" else None
        outside = [a + 1 for a in before.objects() if before.region_of(a) not in chosen]
        whole = region or judged(before, after, [(f"object {word - 1}", word, word) for word in outside])
        found = (status, out[:6]) == (1, "differ")
        self.judge(f"{name}, with the set{', filled' * fill}: {whole}", found == (whole[:4] != "same") and not err and region in (None, out))
        self.counts[f"{error}, and --set{' --fill' * fill} finds it"] += found

    def with_cover(self, name, error, after, expected):
        slot = uncovered(after)
        covered = (0, f"{expected}covered\n", "")
        told = covered if slot is None else (4, "", f"g1heap: after: fault 9: uncovered slot {slot}\n")
        status, out, err = self.same(after, "--covered")
        first = "".join(err.splitlines(True)[:1])
        self.judge(f"{name}, with cover: {told}", (status, out, first) == told and ("remembered there nor dirty" in err) == (slot is not None))
        self.counts[f"{error}, and --covered finds it"] += slot is not None

    def end(self):
        """Prints the counts and what was never planted, and returns the status."""
        enough = self.options.cases >= ENOUGH and not self.options.large
        missed = [error for error in ERRORS + MORE_ERRORS if enough and not self.counts[error]]
        lines = [f"{kind}: {count}" for kind, count in sorted(self.counts.items())]
        print("\n".join([*lines, *(f"never planted: {error}" for error in missed)]))
        failed = self.failed + len(missed)
        print(f"{self.passed} passed, {failed} failed")
        return 1 if failed or not self.passed else 0


def main():
    parser = argparse.ArgumentParser(description=__doc__, formatter_class=argparse.RawDescriptionHelpFormatter)
    add_program(parser, "g1heap")
    parser.add_argument("--g1pause", type=program)
    parser.add_argument("--large", action="store_true", help="heaps with regions of 131,072 words and more")
    parser.add_argument("--cases", type=int, default=1000, metavar="N")
    parser.add_argument("--seed", type=int, default=1, metavar="S")
    options = parser.parse_args()
    if options.large and options.g1pause:
        parser.error("g1pause takes no regions of more than 65,536 words: --large excludes --g1pause")
    rng = random.Random(options.seed)
    cases = 0
    progress.show("cases", lambda: cases, options.cases)
    with tempfile.TemporaryDirectory() as folder:
        judge = Judge(options, pathlib.Path(folder))
        judge.long_lines()
        while cases < options.cases:
            cases += judge.case(f"case {cases}", rng)
    return judge.end()


if __name__ == "__main__":
    sys.exit(main())
