#!/usr/bin/env python3
"""Sets pauses of HotSpot's G1 beside ours: pause.py [--region MIB] [--objects N] [--only NAME] JAVA

PausePoint.java makes G1 pause once between two dumps of its heap: for a young pause, for a mixed one, and for a young
one after large arrays have died. The first dump becomes an image in which each object has its own size, region and
address. `g1heap pause` then evacuates the collection set that G1 chose. G1's figures come from its log. The regions are G1's
own: of 1 MiB, or of as many as --region says (1, 2, 4, 8, 16 or 32). The program is that of out/, or G1HEAP in the
environment.

JAVA is a JDK 25. Later ones may have other options; earlier ones write another log. The last line is 'N passed, M
failed': a pause passes if each object fits into its place, and cards and bytes are within 5 percent of G1's.
Statuses: 0 all passed; 1 a pause failed; 2 usage, or a program is not there.
"""
import argparse
import bisect
import pathlib
import re
import struct
import subprocess
import sys
import tempfile
import types

import jvm

sys.path[:0] = [str(jvm.TOP / "tools"), str(jvm.TOP / "tools" / "lib")]

from hprof import CLASS, INSTANCE, Dump, Refusal, instance_shape  # noqa: E402
from hprof2image import CONTINUATION, FIRST, FREE, ORDINARY, Image, Index  # noqa: E402

JDK = 25
HOW = ("young", "mixed", "humongous")
MEGABYTE, CARD, MEGABYTES = 1 << 17, 64, 120  # the first two count words
MOST_APART = 0.05
SOURCES = ("Judge.java", "PausePoint.java", "jdk/test/whitebox/WhiteBox.java")
# With neither compressed references nor compressed classes a slot is a word, and a header is two.
FLAGS = ["-XX:+UseG1GC", "-XX:+UnlockDiagnosticVMOptions", "-XX:+UnlockExperimentalVMOptions", "-XX:+WhiteBoxAPI",
         f"-Xms{MEGABYTES}m", "-XX:-UseCompressedOops", "-XX:-UseCompressedClassPointers",
         "-XX:-UseCompactObjectHeaders", "-Xshare:off", "-XX:ParallelGCThreads=2"]
# No pause but those that are asked for, and as many old regions in the mixed one as G1 may take.
CHOICE = ["-XX:+ExplicitGCInvokesConcurrent", "-XX:G1NewSizePercent=40", "-XX:MaxGCPauseMillis=5000",
          "-XX:G1HeapWastePercent=0", "-XX:G1MixedGCLiveThresholdPercent=100"]
LOG = "gc*=debug,gc+heap+region=trace,gc+region=trace,gc+phases=trace,gc+ergo+cset=trace"
# A weak reference that a collector may clear holds nothing.
WEAK = ("java.lang.ref.WeakReference", "java.lang.ref.PhantomReference")
WEAK_FIELDS = ("java.lang.ref.Reference.referent", "java.lang.ref.Reference.discovered")
ROW = re.compile(r"\|\s*(\d+)\|0x(\w+), 0x(\w+), 0x\w+\|\s*\d+%\|\s*(\w+)\|")


class Pause:
    """What G1's log says of the last pause: the regions before and after it, its collection set, and its figures."""

    def __init__(self, log):
        lines = log.read_text(encoding="utf-8", errors="replace").splitlines()
        ends = [line for line in lines if re.search(r"GC\(\d+\) Pause Young.*->", line)]
        if not ends:
            raise jvm.Problem("the log has no pause: this java writes another one")
        self.kind = re.search(r"Pause Young \((.*?)\)", ends[-1])[1]
        number = re.search(r"GC\(\d+\)", ends[-1])[0]
        self.lines = [line for line in lines if f"{number} " in line]
        heads = [at for at, line in enumerate(self.lines) if "Heap Regions:" in line]
        if len(heads) != 2:
            raise jvm.Problem("the log has no table of regions before and after the pause")
        self.before, self.after = self.regions(heads[0]), self.regions(heads[1])
        self.set = sorted({int(found) for found in self.all(r"G1HR\s+(\d+) CSET\(")})
        self.filled = len(set(self.all(r"G1HR\s+(\d+) (?:ALLOC|REUSE)\((?:OLD|SURV)\)")))
        self.cards, self.copied = self.sum_of("Scanned Cards"), self.sum_of("Copied Bytes")
        self.groups = self.predicted()

    def regions(self, head):
        """Each region's bottom, top and kind."""
        found = {}
        for line in self.lines[head + 1:]:
            row = ROW.search(line)
            if not row:
                break
            found[int(row[1])] = int(row[2], 16), int(row[3], 16), row[4]
        return found

    def predicted(self):
        """The groups of old regions from which G1 chose: how many regions, and the bytes that it expected to copy."""
        found = {}
        for line in self.lines:
            group = re.search(r"Prediction for group (\d+) \((\d+) regions\):.*bytes_to_copy (\d+)", line)
            if group:
                found.setdefault(int(group[1]), (int(group[2]), int(group[3])))
        return [found[number] for number in sorted(found)]

    def all(self, pattern):
        return [found[1] for line in self.lines if (found := re.search(pattern, line))]

    def sum_of(self, name):
        return sum(int(found) for found in self.all(rf"{name}:.*Sum: (\d+)"))

    def of_kind(self, *kinds):
        return [region for region in self.set if self.before[region][2] in kinds]

    def humongous_freed(self):
        return [region for region, (_, _, kind) in self.before.items()
                if kind in ("HS", "HC") and self.after[region][2] == "F"]


class OwnPlaces(Index):
    """A dump's objects in the order of their addresses."""

    def shape_of(self, tag, kind, count):
        if tag == INSTANCE and self.is_weak(kind):
            return instance_shape(self.dump, kind, count, kind, WEAK_FIELDS)
        return super().shape_of(tag, kind, count)

    def is_weak(self, kind):
        while kind in self.dump.classes:
            if self.dump.class_name(kind) in WEAK:
                return True
            kind = self.dump.classes[kind].above
        return False

    def by_address(self):
        return sorted(zip(self.names, self.shapes, self.places), key=lambda found: found[0])


def size_of(shape, tag, room):
    """How many words HotSpot gives an object that has `room` words up to the next one, or up to the top of its region. A
    class has fields that a dump does not show, an array a word for its length or a part of one, and an instance gaps
    between its fields."""
    more = {CLASS: 40, INSTANCE: 6}.get(tag, 1)
    return room if shape.size <= room <= shape.size + more else shape.size


class OwnImage:
    """The image of a dump with each object in its own place: word (address - bottom of the heap) / 8."""

    def __init__(self, index, pause, width):
        self.index, self.regions, self.width = index, pause.before, width
        self.base = min(bottom for bottom, _, _ in self.regions.values())
        count = len(self.regions)
        self.layout = types.SimpleNamespace(kinds=[FREE] * count, tops=[0] * count)
        self.image = Image(self.layout, self.width, CARD, count)
        self.image.kinds, self.image.tops = self.layout.kinds, self.layout.tops
        self.objects = [found for found in index.by_address() if self.is_used(found[0])]
        self.words = {name: self.word(name) + 1 for name, _, _ in self.objects}
        self.dead = self.too_long = 0
        self.put_objects()
        known = (self.words.get(name) for name in index.roots)
        self.image.roots.extend(word for word in known if word)

    def word(self, address):
        return (address - self.base) >> 3

    def is_used(self, address):
        region = self.word(address) // self.width
        return address >= self.base and region < len(self.regions) and self.regions[region][2] != "F"

    def put_objects(self):
        """Region by region, so that what lies between two objects is seen."""
        names = [name for name, _, _ in self.objects]
        for region, (bottom, top, kind) in sorted(self.regions.items()):
            first, end = (bisect.bisect_left(names, address) for address in (bottom, bottom + 8 * self.width))
            if kind == "HS":
                self.put_humongous(region, self.objects[first])
            elif kind not in ("F", "HC"):
                self.put_region(region, self.objects[first:end], self.word(top))

    def put_humongous(self, region, found):
        size = found[1].size + 1
        self.put(found, region * self.width, size)
        if 4 * size <= 3 * self.width:  # HotSpot's humongous objects begin at half a region, ours at three quarters
            self.layout.kinds[region], self.layout.tops[region] = ORDINARY, size
            return
        for at, left in enumerate(range(size, 0, -self.width)):
            self.layout.kinds[region + at] = CONTINUATION if at else FIRST
            self.layout.tops[region + at] = min(left, self.width)

    def put_region(self, region, found, top):
        end = region * self.width
        starts = [self.word(name) for name, _, _ in found]
        for one, start, after in zip(found, starts, [*starts[1:], top]):
            if start > end:
                self.put_dead(end, start - end)
            size = size_of(one[1], self.index.dump.data[one[2]], after - start)
            self.too_long += size > after - start
            size = min(size, after - start)
            self.put(one, start, size)
            end = start + size
        self.layout.kinds[region] = ORDINARY if found else FREE
        self.layout.tops[region] = end - region * self.width

    def put_dead(self, at, size):
        """A dead object where the dump has none."""
        self.dead += 1
        self.image.put(at, [], bytes(8 * (size - 1)))

    def put(self, found, at, size):
        _, shape, place = found
        names, data = shape.open(place)
        if self.index.dump.data[place] == CLASS:
            names = names[1:]  # the class above is no reference of the mirror
        slots = [self.words.get(name, 0) for name in names][:size - 1]
        room = 8 * (size - 1 - len(slots))
        data = (shape.label.to_bytes(8, "little") + data)[:room]
        self.image.put(at, slots, data + bytes(room - len(data)))

    def cards_into(self, chosen):
        """The cards outside the regions that have a slot into them."""
        cards = set().union(*(self.image.cards[region] for region in chosen))
        return {card for card in cards if card * CARD // self.width not in chosen}


def own_pause(program, image, chosen, room):
    """Live bytes of each region, our order of the candidates, and each region's kind and top after our pause of the
    same set."""
    before = room / "before.img"
    with open(before, "wb") as file:
        image.write(file)
    said = []
    collected = ["--set", ",".join(map(str, chosen))] if chosen else []
    for words in (["live"], ["choose", "--budget", "0"], ["pause", *collected]):
        done = subprocess.run([program, *words, before], capture_output=True, check=False)
        if done.returncode:
            raise jvm.Problem(f"g1heap {words[0]}: {jvm.last_line(done.stderr.decode(errors='replace'))}")
        said.append(done.stdout)
    live = [int(line.split()[-1]) for line in said[0].decode().splitlines()]
    order = [int(number) for number in re.findall(r"^region (\d+) ", said[1].decode(), re.M)]
    return live, order, [struct.unpack_from("<2I", said[2], 32 + 12 * region) for region in range(image.regions)]


def near(ours, theirs):
    return abs(ours - theirs) <= MOST_APART * max(ours, theirs)


def compared(options, program, java, how, room):
    """The lines of one pause, and whether it passed."""
    log = room / "gc.log"
    log.unlink(missing_ok=True)
    boot = f"-Xbootclasspath/a:{java.classes}"
    java.run([boot, *FLAGS, f"-XX:G1HeapRegionSize={options.region}m", *CHOICE, f"-Xlog:{LOG}:file={log}:uptime,tags"],
             "PausePoint", options.objects, 100_000, room / "pause", how)
    pause = Pause(log)
    if (pause.kind == "Mixed") != (how == "mixed"):
        raise jvm.Problem(f"G1 made a pause '{pause.kind}'")
    with open(room / "pause_before.hprof", "rb") as file:
        own = OwnImage(OwnPlaces(Dump(file)), pause, options.region * MEGABYTE)
    chosen = [region for region in pause.set if own.layout.kinds[region] == ORDINARY]
    live, order, after = own_pause(program, own.image, chosen, room)
    kinds = own.layout.kinds
    into = [top for kind, (now, top) in zip(kinds, after) if kind == FREE and now == ORDINARY]
    freed = [region for region, kind in enumerate(kinds) if kind in (FIRST, CONTINUATION) and after[region][0] == FREE]
    cards, copied = len(own.cards_into(set(chosen))), 8 * sum(into)
    in_set = sum(own.layout.tops[region] for region in chosen)
    facts = [f"{len(own.objects)} objects, {own.dead} gaps between them, {own.too_long} too long for their place",
             f"{len(pause.of_kind('E', 'S'))} young and {len(pause.of_kind('O'))} old regions in the set, with "
             f"{8 * in_set} bytes, of which {sum(live[region] for region in chosen)} are live"]
    rows = [("cards scanned", pause.cards, cards),
            ("bytes copied", pause.copied, copied),
            ("regions filled", pause.filled, len(into)),
            ("humongous regions freed", len(pause.humongous_freed()), len(freed)),
            *groups_of(pause, order, live)]
    good = not own.too_long and near(cards, pause.cards) and near(copied, pause.copied)
    facts += [f"{text}: G1 {theirs}, ours {mine}" for text, theirs, mine in rows]
    return [f"{how}: {fact}" for fact in facts], good


def groups_of(pause, order, live):
    """The groups of old regions that G1 took, in its order, beside as many regions of its set in ours."""
    chosen = set(pause.of_kind("O"))
    old, rows, at = [live[region] for region in order if region in chosen], [], 0
    for number, (regions, size) in enumerate(pause.groups, 1):
        mine, at = old[at:at + regions], at + regions
        if len(mine) == regions:
            rows.append((f"live bytes of candidates, group {number} of {regions} regions", size, sum(mine)))
    return rows


def work(options):
    with tempfile.TemporaryDirectory() as folder:
        room = pathlib.Path(folder)
        java = jvm.Java(options.java, room, SOURCES)
        if java.major < JDK:
            raise jvm.Problem(f"{options.java} is a JDK {java.major}: this needs JDK {JDK}")
        program, passed, failed = jvm.heap_program(), 0, 0
        for how in [options.only] if options.only else HOW:
            try:
                lines, good = compared(options, program, java, how, room)
            except jvm.TooLarge:
                raise
            except (jvm.Problem, Refusal) as problem:
                lines, good = [f"{how}: {problem}"], False
            print("\n".join(lines), flush=True)
            passed, failed = passed + good, failed + (not good)
    print(f"{passed} passed, {failed} failed")
    return 1 if failed else 0


def main():
    parser = argparse.ArgumentParser(description=__doc__, formatter_class=argparse.RawDescriptionHelpFormatter)
    parser.add_argument("java", metavar="JAVA", help="a java of JDK 25: a command or a path")
    parser.add_argument("--region", type=int, default=1, choices=(1, 2, 4, 8, 16, 32), metavar="MIB",
                        help="the size of G1's regions in MiB (default: 1)")
    parser.add_argument("--objects", type=jvm.count, default=200_000, metavar="N", help="about how many objects (default: 200000)")
    parser.add_argument("--only", choices=HOW, metavar="NAME", help="this pause alone")
    options = parser.parse_args()
    return jvm.ended("pause", lambda: work(options))


if __name__ == "__main__":
    sys.exit(main())
