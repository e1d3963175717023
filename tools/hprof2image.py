#!/usr/bin/env python3
"""Turns the heap dump of a Java virtual machine into a heap image: hprof2image.py [OPTION ..] DUMP [W K N] > IMAGE

DUMP is a binary heap dump, HPROF 1.0.2 or 1.0.1, as `jcmd PID GC.heap_dump -all FILE` or `jmap
-dump:format=b,file=FILE PID` writes it. W is the words of a region, K the words of a card, N the number of regions
(docs/IMAGE.md has their ranges, those of g1heap). Without them the script chooses them: K is 64, W is the least from
4,096 on at which half of the regions stay free, or else the one that leaves most words free; and all of it is such that
g1pause takes the image, if the objects fit into what that takes. The image has the objects of the dump in the
dump's order, each behind the one before: if an object does not fit into the rest of its region, it begins the next one,
and a humongous one takes regions of its own. The remembered sets are exact, no card is dirty, no region is current.

An object of the image is a header, its reference slots, a label, and its primitive data.

  instance          slots: its reference fields, those of its own class first, then those of the class above, and so
                    on, as they stand in the dump. Label: the identifier of its class.
  array of objects  slots: its elements. Label: the identifier of its class.
  primitive array   no slots. Label: 2^32 * the type of its elements (as HPROF numbers types) + their number.
  class             slots: the class above it, its loader, signers, protection domain, then the references of its
                    constants and of its static fields. Label: its own identifier.

Primitive data are the values of the dump, packed without gaps, eight bytes to a word: the first value is lowest, and so is
the lowest byte of each value. The last word is filled with zeros. So an int alone in its word is this word's number.
A label is data, so no slot of an object references its class. Instead each class is a root, as in a pause that unloads
no class. Each root of the dump, of whatever kind, is a root, in the dump's order; then come
the classes that are none. A heap has at most 65,536 roots: if there are more, the last ones are slots of arrays
made for them, which are roots. A reference to what the dump does not have is null, and counted.
What the virtual machine alone holds, by roots that a dump does not list (its table of strings, for one), is garbage.

With --from CLASS.FIELD, which may be given several times, the image has only what hangs from these static fields, which
are its roots, so that `g1heap same` can compare two dumps of one program:

  label             the first 8 bytes of the SHA-256 of the type's name (--names lists them), for a collector moves the
                    address by which a dump knows a class. That of a primitive array is as above.
  class             an object without slots, so that the walk ends there.
  weak references   `referent`, `next`, `discovered` and `queue` of java.lang.ref.Reference are null, unless --weak.
  --without         leaves out a field: null or zeros. A cached hash differs from run to run (java.lang.String.hash),
                    and so does a table ordered by identity hashes.
  no such object    a reference to what the dump does not have is an error with its path in Java's names, unless
                    --dangling-null.

--from thread:NAME has a root for each thing that the frames of a thread hold, from the innermost frame on. Two dumps of a
thread compare only if it stands at the same place in both. What the thread's own object holds is not among it.

--fields lists the static fields instead, and makes no image: a line 'COUNT CLASS.FIELD' for each that is not null, with
the number of objects that hang from it, the largest first. It walks as --from does.

--names FILE writes what each object is, for whoever has to read a path: lines

  root INDEX NAME
  type TYPE slots NAME .. data NAME ..     a name for each slot and each data word; one that ends with [] is that of its
                                           word and of all behind it; fields that share a word are joined by a comma,
                                           and each has its type, as in count:int
  label NUMBER TYPE                        what stands in data word 0 of such objects (of arrays: also their length)
  object ADDRESS TYPE @IDENTIFIER          the identifier is the one of the dump: in HotSpot the address of the object

With --blank all primitive data are zeros, in the same number of words. A dump holds all strings of its program, names
and secrets too: an image that others are to see should have none of them.

Standard error has what was counted in the dump and what in the finished image; they have to agree. If the work takes
longer than a few seconds, it also says how far it is: in place on a terminal, else a line every four seconds, or with
--progress every two.
Statuses: 0 done; 1 the counts do not agree; 2 usage, a field that is not there, or W, K or N out of its range; 3 the
file is no such dump; 4 a reference leads to nothing; 5 the objects do not fit; 6 a file can't be read or written, or
there is too little memory; 141 the reader of --fields went away. If the status is not 0, no image is written, except for a
beginning of it if the writing failed.
Objects of more than 2^28 words are refused: without --from while the dump is read, with --from once so many are found.
"""
import argparse
import contextlib
import gc
import os
import pathlib
import struct
import sys
from array import array
from itertools import chain, groupby, islice
from zlib import crc32

sys.path.insert(0, str(pathlib.Path(__file__).resolve().parent / "lib"))

from heap_image import MOST_REGIONS, MOST_ROOTS, SPECIFICATION, WIDE  # noqa: E402
from hprof import (CLASS, INSTANCE, OBJECTS, ClassShape, Dump, Progress, Refusal, bad, check_words,  # noqa: E402
                   instance_shape, main_of, objects_shape, primitives_shape, quiet, words_of)
from hprof_fields import field_lines  # noqa: E402
from hprof_graph import Graph  # noqa: E402
from hprof_write import Writer  # noqa: E402

FREE, ORDINARY, FIRST, CONTINUATION = range(4)
LEAST_WIDTH, CARD = 4096, 64  # what is chosen if nobody says W, K and N
BATCH = 4096  # objects between two reports of progress


class Index:
    """All objects of a dump in its order, with their shapes, and the roots. A label is the identifier of a class."""

    def __init__(self, dump, progress=quiet):
        self.dump, self.progress, self.roots = dump, progress, dump.roots[:]
        # Each class is a root, as in a pause that unloads no class.
        known = set(self.roots)
        self.roots.extend(name for name in dump.classes if name not in known)
        shapes = [(self.shape_of(*key), group) for key, group in dump.groups.items()]
        check_words(sum(shape.size * len(group.names) for shape, group in shapes))
        parts = sorted(chain.from_iterable(zip(group.places, group.names, [i] * len(group.names))
                                           for i, (_shape, group) in enumerate(shapes)))
        self.names = array("Q", (name for _place, name, _i in parts))
        self.places = array("Q", (place for place, _name, _i in parts))
        self.shapes = [shapes[i][0] for _place, _name, i in parts]
        if len(set(self.names)) != len(self.names) or 0 in self.names:
            raise bad("two objects have the same identifier, or one has the identifier 0")

    def shape_of(self, tag, kind, count):
        if tag == CLASS:
            return ClassShape(self.dump, kind)
        if tag == INSTANCE:
            return instance_shape(self.dump, kind, count, kind)
        if tag == OBJECTS:
            return objects_shape(self.dump, kind, count, kind)
        return primitives_shape(self.dump, kind, count)

    def sizes(self):
        """The sizes of the objects in their order, each with how many objects behind each other have it."""
        return [(size, len(list(run))) for size, run in groupby(shape.size for shape in self.shapes)]

    def runs(self):
        """Objects of one shape behind each other in the image's order: the shape, and their identifiers."""
        names = iter(self.names)
        return ((shape, list(islice(names, len(list(run))))) for shape, run in groupby(self.shapes))

    def root_names(self):
        return [f"root{i}" for i in range(len(self.roots))]


# From objects to regions.


class Layout:
    """Where the objects lie: each behind the one before, a humongous one in regions of its own."""

    def __init__(self, sizes, region_words):
        self.kinds, self.tops, self.starts = [], [], array("I")
        self.region_words = region_words
        self.filled = self.room = 0  # the region that is filled at present, and the words left in it
        for size, count in sizes:
            if 4 * size > 3 * region_words:
                for _ in range(count):
                    self.add_run(size)
            else:
                self.add_small(size, count)

    def add_small(self, size, count):
        while count:
            if size > self.room:
                self.filled, self.room = len(self.tops), self.region_words
                self.kinds.append(ORDINARY)
                self.tops.append(0)
            fitting = min(count, self.room // size)
            at = self.filled * self.region_words + self.tops[self.filled]
            self.starts.extend(range(at, at + fitting * size, size))
            self.tops[self.filled] += fitting * size
            self.room -= fitting * size
            count -= fitting

    def add_run(self, size):
        self.starts.append(len(self.tops) * self.region_words)
        for left in range(size, 0, -self.region_words):
            self.kinds.append(FIRST if left == size else CONTINUATION)
            self.tops.append(min(left, self.region_words))


def most_regions(region_words, limits=WIDE):
    return min(MOST_REGIONS, limits.words // region_words)


def too_many(sizes, region_words, regions, needed):
    """What would fit, where N regions of W words are too few."""
    total = sum(size * count for size, count in sizes)
    words = f"the objects take {total} words, {needed} regions of {region_words}, and N is {regions}"
    if needed <= most_regions(region_words):
        return Refusal(5, f"{words}: N from {needed} to {most_regions(region_words)} holds them "
                          f"(a pause needs some regions more)")
    for power in range(4, WIDE.region_words.bit_length()):
        width = 1 << power
        if total <= width * most_regions(width):
            other = len(Layout(sizes, width).tops)
            if other <= most_regions(width):
                return Refusal(5, f"{words}, at most {most_regions(region_words)}: W {width} with N from {other} to "
                                  f"{most_regions(width)} holds them")
    return Refusal(5, f"{words}: no heap holds them, since N*W is at most {WIDE.words} words and N at most "
                      f"{MOST_REGIONS}")


def fitting_layout(sizes, region_words, regions):
    layout = Layout(sizes, region_words)
    if len(layout.tops) > regions:
        raise too_many(sizes, region_words, regions, len(layout.tops))
    return layout


def root_arrays(roots, region_words):
    """How many slots the arrays have that hold the roots which are too many."""
    if roots <= MOST_ROOTS:
        return []
    most = 3 * region_words // 4 - 1  # of an array that is not humongous
    count = -(-(roots - MOST_ROOTS) // (most - 1))
    held = roots - MOST_ROOTS + count
    return [min(most, held - i * most) for i in range(count)]


# Writing.


class Image:
    """The heap that is made: its words as they stand in the file, its roots and its remembered sets."""

    def __init__(self, layout, region_words, card_words, regions):
        self.region_words, self.card_words, self.regions = region_words, card_words, regions
        spare = regions - len(layout.tops)
        self.kinds, self.tops = layout.kinds + [FREE] * spare, layout.tops + [0] * spare
        self.words = bytearray(8 * region_words * len(layout.tops))
        self.region_shift, self.card_shift = region_words.bit_length() - 1, card_words.bit_length() - 1
        self.cards = [array("I") for _ in range(regions)]
        self.roots = array("Q")

    def put(self, at, slots, data):
        """An object at its address: the words in its slots, and its data from the label on."""
        count = len(slots)
        size = 1 + count + words_of(len(data))
        struct.pack_into(f"<{1 + count}Q", self.words, 8 * at, size << 32 | count, *slots)
        start = 8 * (at + 1 + count)
        self.words[start:start + len(data)] = data
        if count:
            self.remember(at + 1, slots)

    def remember(self, slot, words):
        """Adds the card of each slot that names an object of another region to that region's set."""
        region_shift, card_shift, cards = self.region_shift, self.card_shift, self.cards
        for word in words:
            if word and (word - 1) >> region_shift != slot >> region_shift:
                held, card = cards[(word - 1) >> region_shift], slot >> card_shift
                if not held or held[-1] != card:
                    held.append(card)
            slot += 1

    def write(self, file):
        file.write(b"G1IMAGE2")
        file.write(struct.pack("<6I", self.region_words, self.card_words, self.regions, len(self.roots), 0,
                               self.regions))
        for kind, top in zip(self.kinds, self.tops):
            file.write(struct.pack("<3I", kind, top, 0))
        file.write(struct.pack(f"<{len(self.roots)}Q", *self.roots))
        for held in self.cards:
            rising = sorted(set(held))  # a humongous object stands above some that come after it
            file.write(struct.pack(f"<{1 + len(rising)}I", len(rising), *rising))
        words = memoryview(self.words)
        for region, top in enumerate(self.tops):
            start = 8 * region * self.region_words
            file.write(words[start:start + 8 * top])


class Counts:
    """What is counted on both sides. Data are whole words, labels and padding included; their sum is that of the
    objects' CRC-32, so that it does not depend on the order."""

    def __init__(self):
        self.objects = self.references = self.data_bytes = self.data_sum = self.roots = 0

    def add(self, references, data, padding=0):
        self.objects += 1
        self.references += references
        self.data_bytes += len(data) + padding
        self.data_sum += crc32(data + bytes(padding) if padding else data)

    def __str__(self):
        return (f"{self.objects} objects, {self.references} references, {self.data_bytes} bytes of data with the sum "
                f"{self.data_sum & 0xFFFFFFFF}, {self.roots} roots")


class Conversion:
    """Each object of the index goes to its place in the image."""

    def __init__(self, dump, index, region_words, card_words, regions, blank=False):
        self.dump, self.index, self.blank = dump, index, blank
        self.arrays = root_arrays(len(index.roots), region_words)
        sizes = index.sizes() + [(1 + slots, 1) for slots in self.arrays]
        layout = fitting_layout(sizes, region_words, regions)
        self.starts = layout.starts
        self.words = dict(zip(index.names, (start + 1 for start in layout.starts)))
        self.words[0] = 0
        self.image = Image(layout, region_words, card_words, regions)
        self.counts, self.primitive_bytes, self.missing = Counts(), 0, 0
        self.put_objects()
        self.put_roots(index)

    def put_objects(self):
        index, count = self.index, len(self.index.names)
        for first in range(0, count, BATCH):
            index.progress("writing, objects", first, count)
            part = slice(first, first + BATCH)
            for shape, at, start in zip(index.shapes[part], index.places[part], self.starts[part]):
                self.put_object(shape, at, start)

    def put_object(self, shape, at, start):
        names, data = shape.open(at)
        self.primitive_bytes += len(data)
        data = shape.label.to_bytes(8, "little") + (bytes(len(data)) if self.blank else data)
        words = self.referenced(names)
        self.counts.add(len(words) - words.count(0), data, -len(data) % 8)
        self.image.put(start, words, data)

    def referenced(self, names):
        """The reference words of identifiers."""
        words = list(map(self.words.get, names))
        if None in words:
            self.missing += words.count(None)
            words = [word or 0 for word in words]
        return words

    def put_roots(self, index):
        words = self.referenced(index.roots)
        self.counts.roots = len(words)
        direct = len(words) - sum(self.arrays)
        held = iter(words[direct:])
        tables = []
        for at, count in zip(islice(self.starts, len(index.names), None), self.arrays):
            self.image.put(at, list(islice(held, count)), b"")
            tables.append(at + 1)
        self.image.roots.extend(words[:direct])
        self.image.roots.extend(tables)


def counted(image, arrays):
    """The counts of the finished image, by its headers alone. An object without data is an array that holds roots."""
    counts, held = Counts(), 0
    words = memoryview(image.words)
    for region, (kind, top) in enumerate(zip(image.kinds, image.tops)):
        if kind not in (ORDINARY, FIRST):
            continue
        at = region * image.region_words
        end = at + top
        while at < end:
            refs, size = struct.unpack_from("<2I", words, 8 * at)
            slots = struct.unpack_from(f"<{refs}Q", words, 8 * at + 8)
            if size > refs + 1:
                counts.add(refs - slots.count(0), words[8 * (at + 1 + refs):8 * (at + size)])
            else:  # every object of the dump has a label
                held += refs
            at += size
    counts.roots = len(image.roots) - len(arrays) + held
    return counts


def told(conversion, index, errors):
    """Prints what was counted, and returns whether both sides agree."""
    image, inside = conversion.image, conversion.counts
    outside = counted(image, conversion.arrays)
    print(f"dump:  {inside}", file=errors)
    print(f"image: {outside}", file=errors)
    print(f"{len(index.dump.classes)} classes, {conversion.primitive_bytes} bytes of primitive values, "
          f"{conversion.missing} references to what is not in the dump", file=errors)
    if conversion.arrays:
        print(f"{sum(conversion.arrays)} roots are slots of {len(conversion.arrays)} arrays made for them", file=errors)
    print(used_regions(image), file=errors)
    return str(inside) == str(outside)


def used_regions(image):
    used = sum(1 for top in image.tops if top)
    return f"{sum(image.tops)} words in {used} of {image.regions} regions of {image.region_words} words"


# The command line.


def is_power(value, least, most):
    return least <= value <= most and value & (value - 1) == 0


def check_limits(region_words, card_words, regions):
    if not is_power(region_words, 16, WIDE.region_words):
        raise Refusal(2, f"W is {region_words}: a power of two from 16 to {WIDE.region_words} is wanted")
    if not is_power(card_words, 4, min(64, region_words)):
        raise Refusal(2, f"K is {card_words}: a power of two from 4 to 64, and at most W, is wanted")
    if not 1 <= regions <= most_regions(region_words):
        raise Refusal(2, f"N is {regions}: from 1 to {most_regions(region_words)} is wanted where W is {region_words}")


def chosen(sizes):
    """W, K and N for a heap of objects of these sizes: such as g1pause takes, if they fit."""
    total = sum(size * count for size, count in sizes)
    check_words(total)
    for limits in (SPECIFICATION, WIDE):
        found = chosen_within(sizes, limits) if total <= limits.words else None
        if found:
            return found
    raise Refusal(5, f"the objects take {total:,} words, and do not fit into regions of {WIDE.region_words} words or fewer")


def chosen_within(sizes, limits):
    """W, K and N within these limits, or None."""
    best, width = None, LEAST_WIDTH
    while width <= limits.region_words:
        needed, most = len(Layout(sizes, width).tops), most_regions(width, limits)
        if 2 * needed <= most:
            return width, CARD, max(2 * needed, 2)
        if needed <= most and (best is None or width * (most - needed) > best[0]):
            best = width * (most - needed), width, most
        width *= 2
    return best and (best[1], CARD, best[2])


class TypeNames:
    """The names of types, each with its lines in the names file. Two types of one name get a number."""

    def __init__(self, file):
        self.file, self.names, self.texts = file, {}, {}

    def of(self, shape):
        if id(shape) not in self.names:
            self.names[id(shape)] = self.added(shape)
        return self.names[id(shape)]

    def added(self, shape):
        label = None if shape.array_of == "values" else shape.label
        text = " ".join(["slots", *shape.slot_names(), "data", *shape.data_names()]), label
        name, number = shape.name, 1
        while name in self.texts and self.texts[name] != text:
            number += 1
            name = f"{shape.name}#{number}"
        if name not in self.texts:
            self.texts[name] = text
            self.file.write(f"type {name} {text[0]}\n")
            if label is not None:
                self.file.write(f"label {label} {name}\n")
        return name


def write_names(file, index, starts):
    """What each object is, for a reader of paths."""
    file.write("".join(f"root {i} {name}\n" for i, name in enumerate(index.root_names())))
    types, at = TypeNames(file), 0
    for shape, names in index.runs():
        # A line each. Formatting many at once, as bytes, takes a third of the time.
        line = f"object %d {types.of(shape).replace('%', '%%')} @0x%x\n".encode()
        for first in range(0, len(names), BATCH):
            part = names[first:first + BATCH]
            numbers = chain.from_iterable(zip(starts[at:at + len(part)], part))
            file.write((line * len(part) % tuple(numbers)).decode())
            at += len(part)


def converted_whole(options, dump, progress):
    index = Index(dump, progress)
    return index, Conversion(dump, index, *(options.sizes or chosen(index.sizes())), options.blank)


def converted_graph(options, dump, progress):
    """The image of what hangs from static fields."""
    graph = Graph(dump, options.start, options.without, options.weak, progress)
    dump.groups.clear()  # the graph has what is left of them
    sizes = graph.sizes()
    region_words, card_words, regions = options.sizes or chosen(sizes)
    layout = fitting_layout(sizes, region_words, regions)
    image = Image(layout, region_words, card_words, regions)
    return graph, Writer(image, graph, layout.starts, options.blank, options.dangling_null)


def graph_told(writer, graph, errors):
    """Says what was written."""
    roots = ", ".join(graph.starts) if len(graph.starts) < 9 else f"{graph.starts[0]} and {len(graph.starts) - 1} more roots"
    print(f"{graph.objects_in_dump} objects in the dump, {len(graph)} hang from {roots}", file=errors)
    if writer.missing:
        print(f"{writer.missing} references to what is not in the dump are null", file=errors)
    print(used_regions(writer.image), file=errors)
    return True


def made(options, progress):
    """The index and the conversion of a dump. Names are written beside."""
    with open(options.dump, "rb") as file, contextlib.ExitStack() as files:
        converted = converted_graph if options.start else converted_whole
        index, conversion = converted(options, Dump(file, progress, not options.start), progress)
        if options.names:
            names = files.enter_context(open(options.names, "w", encoding="utf-8"))
            write_names(names, index, conversion.starts)
    return index, conversion


def convert(options, output, errors):
    if options.sizes:
        check_limits(*options.sizes)
    if output.isatty():
        raise Refusal(2, "standard output is a terminal: add > IMAGE")
    progress = Progress(options.progress)
    try:
        index, conversion = made(options, progress)
    finally:
        progress.end()
    if not (graph_told if options.start else told)(conversion, index, errors):
        raise Refusal(1, "the counts do not agree: this is a bug of the tool")
    conversion.image.write(output)
    output.flush()


def list_fields(options, output):
    """Prints the static fields, those first from which most objects hang."""
    progress = Progress(options.progress)
    try:
        with open(options.dump, "rb") as file:
            lines = field_lines(Dump(file, progress), options.without, options.weak, progress)
    finally:
        progress.end()
    try:
        output.write("".join(f"{line}\n" for line in lines))
        output.flush()
    except BrokenPipeError:  # as by `| head`
        os.dup2(os.open(os.devnull, os.O_WRONLY), output.fileno())
        return 141
    return 0


def arguments():
    parser = argparse.ArgumentParser(description=__doc__, formatter_class=argparse.RawDescriptionHelpFormatter)
    parser.add_argument("dump", metavar="DUMP", help="the file of the dump")
    parser.add_argument("sizes", nargs="*", type=int, metavar="W K N",
                        help="words of a region, words of a card, number of regions (default: chosen)")
    parser.add_argument("--from", dest="start", action="append", metavar="CLASS.FIELD",
                        help="only what hangs from this static field, or from the stack of a thread, as in thread:main (several "
                             "times: from these, in this order)")
    parser.add_argument("--fields", action="store_true", help="list the static fields by the number of objects that hang from them")
    parser.add_argument("--without", action="append", default=[], metavar="CLASS.FIELD",
                        help="a field that is null or zero in the image")
    parser.add_argument("--weak", action="store_true", help="weak references keep what they refer to")
    parser.add_argument("--dangling-null", action="store_true",
                        help="take a reference to what the dump does not have as null")
    parser.add_argument("--names", metavar="FILE", help="write the names of roots, types and objects")
    parser.add_argument("--blank", action="store_true", help="zeros in place of primitive data")
    parser.add_argument("--progress", action="store_true", help="say how far the work is every two seconds, and not every four")
    options = parser.parse_args()
    if len(options.sizes) not in (0, 3):
        parser.error("W, K and N are given together, or none of them")
    if options.fields and (options.start or options.sizes or options.names or options.blank or options.dangling_null):
        parser.error("--fields makes no image: only --without, --weak and --progress go with it")
    if not options.start and not options.fields and (options.without or options.weak or options.dangling_null):
        parser.error("--without, --weak and --dangling-null go with --from")
    return options


def main():
    options = arguments()
    gc.disable()  # millions of tuples live to the end, and a search among them for cycles takes half of the time
    if options.fields:
        return main_of("hprof2image", lambda: list_fields(options, sys.stdout))
    return main_of("hprof2image", lambda: convert(options, sys.stdout.buffer, sys.stderr))


if __name__ == "__main__":
    sys.exit(main())
