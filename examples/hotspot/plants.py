#!/usr/bin/env python3
"""Plants errors that a broken collector could leave, and checks that each is reported: plants.py [--live] [--seeds N] JAVA ..

For each JAVA it runs Judge.java under Serial with a full collection. In the second dump it plants one error at a time,
in what Judge.root leads to. Then the converter and `g1heap same` compare this dump with the first one:

  null, wrong, swapped   a slot is null, or references another object of its type, or two slots of one object are swapped
  twice                  a slot references a second copy of its object
  torn, class, length    one byte of data differs, an object has another class, an array is one element short
  stale                  a slot references a place where nothing is
  lost                   an object is not there
  root                   the static field itself references another object

With --live the error is in the heap of a running JVM instead. After a full collection LiveBug.java writes it there: a
stale, a wrong or a null slot, or torn data. This is tried for each JAVA under Serial and Parallel.

A report is right if its path leads to the planted slot or object. There are two exceptions. A second copy may be reported
at another slot that references the first one. And a wrong slot may have the shorter path to its object: then `joined` is
reported at the other slot that references this object, and the line has to end with the object that the planted slot
references in the first dump. A JAVA that does not work has a line that says why, and counts as one failure. The last line
is 'N passed, M failed'.
Statuses: 0 all passed; 1 an error was not reported, or with a wrong path; 2 usage, or a program is not there.
"""
import argparse
import pathlib
import random
import re
import struct
import sys
import tempfile
import types

import jvm

sys.path.insert(0, str(jvm.TOP / "tools" / "lib"))

from hprof import INSTANCE, OBJECTS, PRIMITIVES, Dump  # noqa: E402
from hprof_graph import Graph, path_to  # noqa: E402

SLOTS = ("null", "wrong", "swapped", "twice", "stale")
KINDS = (*SLOTS, "torn", "class", "length", "lost", "root")
LIVE = ("stale", "wrong", "null", "torn")
END = 9  # bytes of the record that ends a dump


class Planter:
    """A dump in which one error is planted. `object` and `slot` say where, `others` what else may be reported,
    and `target` what a wrong slot references."""

    def __init__(self, path, seed):
        with open(path, "rb") as file:
            self.dump = Dump(file)
            self.graph = Graph(self.dump, [jvm.ROOT])
        self.data, self.random = bytearray(self.dump.data[:]), random.Random(seed)
        self.at = {name: (group.shape, place) for group in self.graph.groups
                   for name, place in zip(group.names, group.places)}
        self.names = sorted(self.at)
        self.unused = max(self.names) + 4096
        self.object = self.slot = self.target = None
        self.others = set()

    def slot_places(self, name):
        """Where the slots of an object are in the file."""
        shape, place = self.at[name]
        if shape.array_of == "objects":
            return [place + self.dump.objects.size + 8 * slot for slot in range(len(shape.slots))]
        at, places = place, []
        for piece in shape.pieces:
            if piece.endswith(self.dump.id_code):
                places.append(at)
            at += struct.calcsize(">" + piece)
        return places

    def read(self, place):
        return struct.unpack_from(">Q", self.data, place)[0]

    def write(self, place, name):
        struct.pack_into(">Q", self.data, place, name)

    def choose_slot(self, wanted):
        """A slot that is not null, of an object for which `wanted` holds."""
        while True:
            name = self.random.choice(self.names)
            slots = self.at[name][0].open(self.at[name][1])[0]
            full = [slot for slot, value in enumerate(slots) if value]
            if full and wanted(slots, full):
                self.object, self.slot = name, self.random.choice(full)
                return self.slot_places(name)

    def choose_object(self, wanted):
        while True:
            name = self.random.choice(self.names)
            if wanted(self.at[name][0], self.dump.data[self.at[name][1]]):
                self.object = name
                return self.at[name]

    def append(self, record):
        """A part of the heap more, before the dump's end."""
        segment = struct.pack(">BII", 0x1C, 0, len(record)) + record
        self.data[-END:-END] = segment

    def record_of(self, name):
        shape, place = self.at[name]
        return bytearray(self.dump.data[place:place + shape.place]) if shape.array_of != "objects" else bytearray(
            self.dump.data[place:place + self.dump.objects.size + 8 * len(shape.slots)])

    def plant(self, kind):
        getattr(self, f"plant_{kind}")()
        return self

    def plant_null(self):
        places = self.choose_slot(lambda slots, full: True)
        self.write(places[self.slot], 0)

    def plant_stale(self):
        places = self.choose_slot(lambda slots, full: True)
        self.write(places[self.slot], self.unused)

    def plant_wrong(self):
        places = self.choose_slot(lambda slots, full: True)
        old = self.read(places[self.slot])
        others = [name for name in self.names if name != old]
        alike = [name for name in others if self.at[name][0] is self.at[old][0]]
        self.target = self.random.choice(alike or others)
        self.write(places[self.slot], self.target)

    def plant_swapped(self):
        places = self.choose_slot(lambda slots, full: len(slots) < 8 and len({slots[i] for i in full}) > 1)
        values = [self.read(place) for place in places]
        other = next(i for i, value in enumerate(values) if value not in (0, values[self.slot]))
        self.write(places[self.slot], values[other])
        self.write(places[other], values[self.slot])
        self.others.add((self.object, other))

    def plant_twice(self):
        places = self.choose_slot(lambda slots, full: self.dump.data[self.at[slots[full[0]]][1]] == INSTANCE
                                  and len(full) == 1)
        old = self.read(places[self.slot])
        record = self.record_of(old)
        struct.pack_into(">Q", record, 1, self.unused)
        self.append(record)
        self.write(places[self.slot], self.unused)
        self.others |= {old, self.unused}

    def plant_torn(self):
        shape, place = self.choose_object(lambda shape, tag: shape.data_bytes and tag in (INSTANCE, PRIMITIVES))
        start, count = self.random.choice(shape.runs)
        self.data[place + start + self.random.randrange(count)] ^= 0x10

    def plant_class(self):
        _, place = self.choose_object(lambda shape, tag: shape.name == "java.lang.Integer")
        other = next(kind for kind in self.dump.classes if self.dump.class_name(kind) == "java.lang.Float")
        self.write(place + 13, other)

    def plant_length(self):
        """The whole record is made anew, since a shorter one does not fill its place."""
        self.choose_object(lambda shape, tag: tag == PRIMITIVES and shape.name == "byte[]" and shape.data_bytes > 1)
        record = self.record_of(self.object)
        struct.pack_into(">I", record, 13, self.at[self.object][0].data_bytes - 1)
        self.write(self.at[self.object][1] + 1, self.unused)
        self.append(record[:-1])

    def plant_lost(self):
        _, place = self.choose_object(lambda shape, tag: tag in (INSTANCE, OBJECTS, PRIMITIVES))
        self.write(place + 1, self.unused)

    def path(self):
        """The shortest path to the slot that was planted."""
        start = self.graph.root_values[0]
        way, queue = {start: (None, jvm.ROOT)}, [start]
        for name in queue:
            shape, place = self.at[name]
            if name == self.object:
                return path_to(name, way, self.at) + shape.step(self.slot)
            for slot, value in enumerate(shape.open(place)[0]):
                if value and value not in way:
                    way[value] = name, slot
                    queue.append(value)
        raise KeyError(self.object)

    def plant_root(self):
        """The value of a static field is in the record of its class, and nowhere else in it."""
        value = self.graph.root_values[0]
        kind = next(kind for kind in self.dump.classes if self.dump.class_name(kind) == "Judge")
        place = self.dump.groups[0x20, kind, 0].places[0]
        at = self.data.index(struct.pack(">Q", value), place)
        self.write(at, self.random.choice([name for name in self.names if name != value]))
        self.object, self.slot = None, jvm.ROOT


def resolved(path, graph):
    """The object and the slot that a path in a program's names ends with, and what is there. The dump is the planted one,
    so that nothing may be there."""
    at = {name: (group.shape, place) for group in graph.groups for name, place in zip(group.names, group.places)}
    before, slot, name = None, jvm.ROOT, graph.root_values[0]
    for field, number in re.findall(r"\.([^.\[]+)|\[(\d+)\]", path[len(jvm.ROOT):]):
        shape, place = at[name]
        before, slot = name, int(number) if number else list(shape.slots).index(field)
        name = shape.open(place)[0][slot]
    return before, slot, name


def graph_of(path):
    with open(path, "rb") as file:
        return Graph(Dump(file), [jvm.ROOT])


def reported(heap, before, dump):
    """What the converter or g1heap says of a dump, and the path in it."""
    try:
        line = jvm.verdict(heap, before, jvm.convert(dump)).splitlines()[-1].strip()
    except jvm.Problem as problem:
        line = str(problem)
    found = re.search(rf"({re.escape(jvm.ROOT)}\S*?):? (?:references )?", line)
    return line, found and found[1].rstrip(":")


def is_joined_with(line, planter, before):
    """Whether the line says that the wrong object is also the one that the planted slot references in the first dump."""
    earlier = re.fullmatch(r"differ joined at .* after is [^;]* @0x([0-9a-f]+) before on an earlier path", line)
    return bool(earlier) and int(earlier[1], 16) == resolved(planter.path(), before)[2]


def is_right(line, path, planter, before, after):
    """Whether a report leads to what was planted. `before` and `after` are the graphs of the first dump and of the planted one."""
    owner, slot, name = resolved(path, after)
    wanted = {(planter.object, planter.slot), *planter.others} if planter.slot is not None else {planter.object}
    if wanted & {(owner, slot), name}:
        return True
    return planter.target is not None and name == planter.target and is_joined_with(line, planter, before)


def judged_plant(heap, before, after, kind, seed, room):
    """The line of one planted error, and whether it was reported rightly."""
    planter = Planter(after, f"{kind} {seed}").plant(kind)
    bad = room / "bad.hprof"
    bad.write_bytes(planter.data)
    line, path = reported(heap, before.image, bad)
    if path is None:
        return f"{kind} {seed}: NOT REPORTED: {line}", False
    right = is_right(line, path, planter, before.graph, graph_of(bad))
    return f"{kind} {seed}: {line}" + ("" if right else "  WRONG PATH"), right


def dumped_plants(heap, java, options, room):
    java.run(jvm.COLLECTORS["Serial"], "Judge", options.objects, 1, room / "dump", "full")
    first = room / "dump_before.hprof"
    before = types.SimpleNamespace(image=jvm.convert(first), graph=graph_of(first))
    for kind in KINDS:
        for seed in range(1, options.seeds + 1):
            yield judged_plant(heap, before, room / "dump_after.hprof", kind, seed, room)


def live_plants(heap, java, options, room):
    """The node in which LiveBug has planted is known by its place in the index."""
    for collector in ("Serial", "Parallel"):
        for kind in LIVE:
            flags = [*jvm.COLLECTORS[collector], "-XX:-UseCompressedOops"]
            said = java.run(flags, "LiveBug", options.objects, room / "live", kind)
            planted = re.search(r"planted in (\S+)", said)[1]
            line, path = reported(heap, jvm.convert(room / "live_before.hprof"), room / "live_after.hprof")
            graph = graph_of(room / "live_after.hprof")
            wanted = resolved(f"{planted}.left" if kind != "torn" else planted, graph)
            found = path and resolved(path, graph)
            right = bool(found) and (found[2] == wanted[2] if kind == "torn" else found[:2] == wanted[:2])
            yield f"{collector} {kind}: {line}" + ("" if right else f"  WRONG, planted in {planted}"), right


def work(options):
    heap, passed = jvm.heap_program(), 0
    with tempfile.TemporaryDirectory() as folder:
        room = pathlib.Path(folder)
        javas, failed = jvm.working(options.java, room, ("Judge.java", "LiveBug.java") if options.live else ("Judge.java",))
        for java in javas:
            for line, good in (live_plants if options.live else dumped_plants)(heap, java, options, room):
                print(f"{java.version} {line}", flush=True)
                passed, failed = passed + good, failed + (not good)
    print(f"{passed} passed, {failed} failed")
    return 1 if failed or not passed else 0


def main():
    parser = argparse.ArgumentParser(description=__doc__, formatter_class=argparse.RawDescriptionHelpFormatter)
    parser.add_argument("java", nargs="+", metavar="JAVA", help="a java: a command or a path")
    parser.add_argument("--live", action="store_true", help="in the heap of a running JVM")
    parser.add_argument("--objects", type=jvm.count, default=20_000, metavar="N", help="about how many objects (default: 20000)")
    parser.add_argument("--seeds", type=jvm.count, default=2, metavar="N", help="how many places for each kind (default: 2)")
    options = parser.parse_args()
    return jvm.ended("plants", lambda: work(options))


if __name__ == "__main__":
    sys.exit(main())
