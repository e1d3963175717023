"""What hangs from static fields of a Java program, and from its threads' stacks, in a heap dump: the walk from them, for
the scripts beside it.

The rest of a dump differs from one dump to the next, whatever the collector does: threads' stacks, handles, what the
dump itself loads. What hangs from a field that the program owns has to be the same after a collection.

- A label is a hash of the class's name: a dump knows a class by the address of its mirror, which a collector moves.
- The walk ends at a class, which is an object without slots. Behind it are its loader and so the whole machine.
- `referent`, `next`, `discovered` and `queue` of a java.lang.ref.Reference are null, since a collector may clear them.
- A reference to what the dump does not have is an error, since a slot that was not updated looks like that.

A loop of Python for each object takes minutes for a large dump. So objects of one type and length are one group, and
what has to be done for each of them is done by map, zip and the like for a whole group.
"""
import difflib
from array import array
from itertools import chain, compress, repeat
from operator import getitem, itemgetter

from hprof import (CLASS, INSTANCE, OBJECTS, REFERENCE, Refusal, Shape, bad, check_words, instance_shape, name_label,
                   objects_shape, primitives_shape, quiet)
from hprof_threads import frame_roots

WEAK_FIELDS = tuple(f"java.lang.ref.Reference.{field}" for field in ("referent", "next", "discovered", "queue"))
MIRROR, THREAD = "java.lang.Class", "thread:"
BATCH = 1 << 16  # objects between two reports of progress
OBJECT_BYTES = 220  # of memory that an object of the dump takes, on average
OTHER = b"\1\0" + bytes(254)  # turns 0 into 1, and 1 into 0
USAGE, DANGLING, MEMORY = 2, 4, 6


def like(name, names):
    """What to say of a name that is not there."""
    close = difflib.get_close_matches(name, sorted(names), 3, 0.6)
    return f": is it {' or '.join(close)}?" if close else ""


def classes_named(dump, text):
    """The classes of CLASS.FIELD, and FIELD."""
    owner, _, field = text.rpartition(".")
    kinds = [kind for kind in dump.classes if dump.class_name(kind) == owner]
    if not kinds:
        names = {dump.class_name(kind) for kind in dump.classes}
        raise Refusal(USAGE, f"{text}: the dump has no class '{owner}'{like(owner, names)}")
    return owner, kinds, field


def check_field(dump, text):
    """Refuses a field to be left out that no class of the dump has."""
    owner, kinds, field = classes_named(dump, text)
    fields = {dump.text(name) for kind in kinds for name, _type in dump.classes[kind].fields}
    if field not in fields:
        raise Refusal(USAGE, f"{text}: {owner} has no field '{field}'{like(field, fields)}")


def static_field(dump, text):
    """The identifier that a static field holds."""
    owner, kinds, field = classes_named(dump, text)
    if len(kinds) > 1:
        raise Refusal(USAGE, f"{text}: the dump has {len(kinds)} classes '{owner}', of as many loaders")
    statics = {dump.text(name): (type_, value) for name, type_, value in dump.classes[kinds[0]].statics}
    if field not in statics:
        raise Refusal(USAGE, f"{text}: {owner} has no static field '{field}'{like(field, statics)}")
    type_, value = statics[field]
    if type_ != REFERENCE:
        raise Refusal(USAGE, f"{text}: this field is no reference")
    return value


def free_memory():
    """How many bytes of memory are free, or None where the system does not say."""
    try:
        with open("/proc/meminfo", encoding="ascii") as file:
            found = next((line for line in file if line.startswith("MemAvailable:")), None)
    except OSError:
        found = None
    return found and 1024 * int(found.split()[1])


def check_memory(count):
    """Refuses a dump of so many objects that they would fill the memory."""
    needed, free = count * OBJECT_BYTES, free_memory()
    if free is not None and needed > free:
        raise Refusal(MEMORY, f"the dump has {count:,} objects, which take about {needed / 1e9:.1f} GB of memory here, and "
                              f"{free / 1e9:.1f} GB are free")


def at_all(items, places):
    """The items at these places. For an array `itemgetter` takes half of the time of a map over its `__getitem__`."""
    return itemgetter(*places)(items) if len(places) > 1 else [items[place] for place in places]


class Members:
    """The objects of one group: their shape, their identifiers, their places in the dump, and the number of each; and, of
    those that were reached, the numbers of what their slots reference, object by object."""

    __slots__ = ("shape", "names", "places", "numbers", "targets")

    def __init__(self, shape, names, places, numbers=range(0), targets=None):
        self.shape, self.names, self.places, self.numbers, self.targets = shape, names, places, numbers, targets

    def references(self, part):
        """The identifiers in the slots of a part of the objects, object by object."""
        if not self.shape.slots:
            return repeat((), 0)
        found = map(self.shape.references.unpack_from, repeat(self.shape.dump.data), self.places[part])
        if self.shape.null_slots:
            found = (tuple(0 if i in self.shape.null_slots else name for i, name in enumerate(names)) for names in found)
        return chain.from_iterable(found)


def start_roots(dump, text):
    """The roots of a word of --from, each with its name: one for a field, and one for each thing that a stack holds."""
    if not text.startswith(THREAD):
        return [(text, static_field(dump, text))]
    names, found = frame_roots(dump, text[len(THREAD):])
    if found is None:
        name = text[len(THREAD):].replace(" ", "_")
        several = f"{names.count(name)} threads" if name in names else "no thread"
        raise Refusal(USAGE, f"{text}: the dump has {several} '{name}'{'' if name in names else like(name, set(names))}")
    return [(f"{text.replace(' ', '_')}[{i}]", value) for i, value in enumerate(found)]


class Objects:
    """All objects of a dump, by type and length; and, by numbers, what each references and which the roots are."""

    def __init__(self, dump, root_values, left_out=(), weak=False, progress=quiet):
        self.dump, self.root_values, self.progress = dump, root_values, progress
        for text in left_out:
            check_field(dump, text)
        self.left_out = {*left_out, *(() if weak else WEAK_FIELDS)}
        self.mirrors = {kind for kind in dump.classes if dump.class_name(kind) == MIRROR}
        check_memory(sum(len(group.names) for group in dump.groups.values()))
        self.groups = [Members(self.shape_of(*key), group.names, group.places) for key, group in dump.groups.items()]
        self.number_objects()
        self.nowhere = 1 + self.objects_in_dump  # the number of what the dump does not have; that of null is 0
        self.targets, self.firsts = array("I"), array("Q", [0])  # of all objects, and where those of each number begin
        self.read_references(self.numbers())

    def shape_of(self, tag, kind, count):
        dump, name = self.dump, self.dump.class_name(kind)
        if tag == CLASS:
            return Shape(dump, f"{name}.class", name_label(f"{name}.class"), 0).end()
        if tag == INSTANCE and kind in self.mirrors:  # those of int, void and so on: any other is a part of its own
            return Shape(dump, "primitive.class", name_label("primitive.class"), 0).end()
        if tag == INSTANCE:
            return instance_shape(dump, kind, count, name_label(name), self.left_out)
        if tag == OBJECTS:
            return objects_shape(dump, kind, count, name_label(name))
        return primitives_shape(dump, kind, count)

    def number_objects(self):
        """Gives each object a number from 1 on. Those with slots come first."""
        self.objects_in_dump = self.objects_with_slots = 0
        self.by_number = sorted(self.groups, key=lambda group: not group.shape.slots)
        for group in self.by_number:
            first, self.objects_in_dump = 1 + self.objects_in_dump, self.objects_in_dump + len(group.names)
            group.numbers = range(first, 1 + self.objects_in_dump)
            if group.shape.slots:
                self.objects_with_slots = self.objects_in_dump

    def numbers(self):
        """The number of each object by its identifier."""
        names = chain.from_iterable(group.names for group in self.by_number)
        found = dict(zip(names, range(1, self.nowhere)))
        if len(found) != self.objects_in_dump or 0 in found:
            raise bad("two objects have the same identifier, or one has the identifier 0")
        found[0] = 0
        return found

    def read_references(self, numbers):
        """Finds what each slot of the dump references."""
        for group in self.by_number:
            slots, count = len(group.shape.slots), len(group.names)
            for first in range(0, count if slots else 0, BATCH):
                self.progress("reading references, objects", group.numbers.start + first, self.objects_in_dump)
                names = group.references(slice(first, first + BATCH))
                self.targets.extend(array("I", list(map(numbers.get, names, repeat(self.nowhere)))))
            end = len(self.targets)
            self.firsts.extend(range(end - slots * count, end, slots) if slots else repeat(end, count))
        self.firsts.extend([len(self.targets)] * 2)
        self.root_numbers = [numbers.get(value, self.nowhere) for value in self.root_values]

    def references(self):
        """The numbers of what each object references, by its own number."""
        found = dict.fromkeys(range(1, self.nowhere), ())
        parts = map(slice, self.firsts[1:], self.firsts[2:])
        found.update(zip(range(1, 1 + self.objects_with_slots), map(getitem, repeat(self.targets), parts)))
        return found


class Graph(Objects):
    """The objects that hang from static fields and threads."""

    def __init__(self, dump, starts, left_out=(), weak=False, progress=quiet):
        roots = [root for text in starts for root in start_roots(dump, text)]
        self.starts = [name for name, _value in roots]
        super().__init__(dump, [value for _name, value in roots], left_out, weak, progress)
        self.left = bytearray(1) + b"\1" * self.nowhere  # 1 for each number that was not reached
        self.walk()
        self.is_dangling = not self.left[self.nowhere]
        self.keep_reached()

    def walk(self):
        """Marks what the roots reach, breadth first."""
        left, firsts, ends = self.left, self.firsts, self.firsts[1:]
        reached, words, last = 0, 0, self.objects_with_slots
        found = set(self.root_numbers) - {0}
        while found:
            for number in found:
                left[number] = 0
            reached += len(found)
            todo = list(filter(last.__ge__, found))
            parts = map(slice, at_all(firsts, todo), at_all(ends, todo))
            targets = list(chain.from_iterable(map(getitem, repeat(self.targets), parts)))
            words += 2 * len(found) + len(targets)  # of headers, labels and slots
            check_words(words, "what hangs from the fields takes at least", False)
            self.progress("walking, objects", reached, self.objects_in_dump)
            found = set(compress(targets, at_all(left, targets)))

    def keep_reached(self):
        """Leaves out all other objects."""
        kept = []
        for group in self.groups:
            numbers, slots = group.numbers, len(group.shape.slots)
            targets = self.targets[self.firsts[numbers.start]:self.firsts[numbers.stop]]
            reached = self.left[numbers.start:numbers.stop].translate(OTHER)
            if 0 in reached:
                chosen = chain.from_iterable(map(repeat, reached, repeat(slots)))
                targets = array("I", list(compress(targets, chosen)))
                numbers = array("I", list(compress(numbers, reached)))
                group.names, group.places = (array("Q", list(compress(part, reached))) for part in (group.names, group.places))
            if group.names:
                kept.append(Members(group.shape, group.names, group.places, numbers, targets))
        self.groups = kept
        del self.by_number, self.targets, self.firsts, self.left

    def __len__(self):
        return sum(len(group.names) for group in self.groups)

    def sizes(self):
        """The size of the objects of each group, and how many they are."""
        return [(group.shape.size, len(group.names)) for group in self.groups]

    def runs(self):
        """Objects of one shape behind each other in the image's order: the shape, and their identifiers."""
        return ((group.shape, group.names) for group in self.groups)

    def root_names(self):
        return self.starts

    def first_dangling(self):
        """The shortest path to a reference that leads to nothing, and that reference. The walk is done again, with the
        way to each object."""
        at = {name: (group.shape, place) for group in self.groups for name, place in zip(group.names, group.places)}
        way, queue = {}, []
        for text, value in zip(self.starts, self.root_values):
            if value and value not in way:
                way[value] = None, text
                queue.append(value)
        for name in queue:
            if name not in at:
                return path_to(name, way, at), name
            shape, place = at[name]
            for slot, value in enumerate(shape.open(place)[0]):
                if value and value not in way:
                    way[value] = name, slot
                    queue.append(value)
        return None

    def refuse_dangling(self):
        path, value = self.first_dangling()
        raise Refusal(DANGLING, f"{path} references {value:#x}, but the dump has no object there (--dangling-null "
                                f"takes it as null)")


def path_to(name, way, at):
    """A path in Java's names, as Judge.root.cache.table[21288].value."""
    steps = []
    before, slot = way[name]
    while before is not None:
        steps.append(at[before][0].step(slot))
        before, slot = way[before]
    return slot + "".join(reversed(steps))
