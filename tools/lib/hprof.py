"""Heap dumps of Java virtual machines, for the scripts beside it: where each part lies, and what each object is.

A dump is a file in the form HPROF 1.0.2, or 1.0.1 as HotSpot 8 writes it. It is mapped and not read into memory: an
object is opened at its place in the file when its turn comes. The file is foreign, so each length in it is checked.
"""
import hashlib
import mmap
import struct
import sys
from array import array

import progress
from heap_image import WIDE

VERSIONS = (b"JAVA PROFILE 1.0.1\0", b"JAVA PROFILE 1.0.2\0")
TEXT, LOAD_CLASS, HEAP_DUMP, HEAP_DUMP_SEGMENT, HEAP_DUMP_END = 0x01, 0x02, 0x0C, 0x1C, 0x2C
CLASS, INSTANCE, OBJECTS, PRIMITIVES = 0x20, 0x21, 0x22, 0x23
REFERENCE = 2
TYPES = {4: ("boolean", 1), 5: ("char", 2), 6: ("float", 4), 7: ("double", 8), 8: ("byte", 1), 9: ("short", 2),
         10: ("int", 4), 11: ("long", 8)}
LETTERS = {"Z": "boolean", "C": "char", "F": "float", "D": "double", "B": "byte", "S": "short", "I": "int",
           "J": "long"}
MOST_WORDS = WIDE.words
STEP = 1 << 22  # bytes that are read between two reports of progress
BOUND_STEP = 16  # steps between two looks at whether any heap holds what was read
FRAME_ROOTS, THREAD_ROOT = (0x02, 0x03), 0x08  # what a frame of a thread holds, and the thread itself
CODES = {1: "B", 2: "H", 4: "I", 8: "Q"}  # of numbers without a sign, by their bytes


class Refusal(Exception):
    """One line for the user, and the status to end with."""

    def __init__(self, status, text):
        super().__init__(text)
        self.status = status


def bad(text):
    return Refusal(3, text)


def check_words(total, known="the objects take", is_whole=True):
    """Refuses objects that no heap holds. If they are not all counted, nobody knows how many would fit."""
    if total > MOST_WORDS:
        share = f": {100 * MOST_WORDS // total} of 100 would fit" if is_whole else ""
        raise Refusal(5, f"{known} {total:,} words, and a heap has at most {MOST_WORDS:,}{share}. Dump live objects alone, take "
                         f"what hangs from few fields by --from, or give the program less to do")


class Progress:
    """Says how far a long work is, more often if that is wanted."""

    def __init__(self, wanted):
        if wanted:
            progress.SIGNS.every = 2
        self.step = progress.Step("begins")
        progress.SIGNS.begin(self.step)

    def __call__(self, text, done, whole=None):
        self.step.what, self.step.done, self.step.whole = text, done, whole

    def end(self):
        progress.SIGNS.end(self.step)


def quiet(_text, _done, _whole=None):
    """The progress that nobody asked for."""


class Group:
    """The objects of one type and one length: where they lie in the dump, in its order, and their identifiers."""

    __slots__ = ("names", "places")

    def __init__(self):
        self.names, self.places = array("Q"), array("Q")


class Groups(dict):
    """The group of each tag, class or type, and length, made when it is first asked for."""

    def __missing__(self, key):
        self[key] = Group()
        return self[key]


class ClassDump:
    """What the dump says of one class. Fields and statics are pairs of the identifier of a name and a type."""

    def __init__(self, above, references, constants, statics, data, fields):
        self.above = above  # the class above, 0 for none
        self.references = references  # the identifiers in its slots
        self.constants = constants  # how many of these stand in its pool of constants
        self.statics = statics  # its static fields, with the identifier that each holds, or 0
        self.data = data  # the bytes of its static fields and constants that are no references
        self.fields = fields  # the fields of its instances


def mapped(file):
    try:
        return mmap.mmap(file.fileno(), 0, access=mmap.ACCESS_READ)
    except (OSError, ValueError):  # a pipe, an empty file, or bytes in memory
        return file.read()


def check_version(data):
    head = data[:len(VERSIONS[0]) + 12]
    if head.startswith(VERSIONS) and len(head) == len(VERSIONS[0]) + 12:
        return
    if head.startswith(b"\x1f\x8b"):
        raise bad("a compressed file: unpack it with gunzip first")
    text, _, _ = head.partition(b"\0")
    if text.startswith(b"JAVA PROFILE ") and len(text) < len(head) and text + b"\0" not in VERSIONS:
        raise bad(f"version '{text.decode('latin-1')}': only JAVA PROFILE 1.0.1 and 1.0.2 are known")
    if head and any(version.startswith(head[:len(version)]) for version in VERSIONS):
        raise bad("cut short: the file ends within its first line")
    raise bad("not a heap dump: it does not begin with JAVA PROFILE 1.0.2")


def type_bytes(kind):
    if kind not in TYPES:
        raise bad(f"a value has the unknown type {kind}")
    return TYPES[kind][1]


def java_name(text):
    """A class's name as Java writes it: [[Ljava/lang/String; is java.lang.String[][]."""
    depth = len(text) - len(text.lstrip("["))
    inner = text[depth:]
    if depth and inner.startswith("L") and inner.endswith(";"):
        inner = inner[1:-1]
    elif depth:
        inner = LETTERS.get(inner, inner)
    return inner.replace("/", ".").replace(" ", "_") + "[]" * depth


class Dump:
    """A dump: its objects by type and length, its classes, its roots and its texts."""

    def __init__(self, file, progress=quiet, is_whole=False):
        """With `is_whole` all objects go into one image, so that too many of them are refused as soon as they are read."""
        self.data, self.is_whole = mapped(file), is_whole
        check_version(self.data)
        self.id_bytes, = struct.unpack_from(">I", self.data, len(VERSIONS[0]))
        if self.id_bytes not in (4, 8):
            raise bad(f"identifiers of {self.id_bytes} bytes: only 4 and 8 are known")
        self.id_code = "I" if self.id_bytes == 4 else "Q"
        self.shape_parts()
        self.groups, self.roots = Groups(), array("Q")
        self.steps, self.least_words = 0, []  # the identifiers of a group, and the fewest words of such an object
        self.frames, self.threads = [], {}  # (thread, frame, identifier) of each root in a frame; each thread's object
        self.texts, self.class_names, self.classes = {}, {}, {}
        try:
            self.read_records(progress)
        except (struct.error, IndexError):
            raise bad(f"cut short: the file ends at byte {len(self.data)}, within the heap") from None

    def shape_parts(self):
        """How the parts of the heap begin: what stands behind the tag, and how long it is."""
        code, size = self.id_code, self.id_bytes
        self.instance = struct.Struct(f">x{code}4x{code}I")
        self.objects = struct.Struct(f">x{code}4xI{code}")
        self.primitives = struct.Struct(f">x{code}4xIB")
        # How many bytes stand behind the identifier of each kind of root.
        self.root_bytes = {0xFF: 0, 0x01: size, 0x02: 8, 0x03: 8, 0x04: 4, 0x05: 0, 0x06: 4, 0x07: 0, 0x08: 8}
        # The identifier of an object and the bytes that say its type and length; and what such bytes mean.
        head = struct.Struct(f">x{code}4x{4 + size}s").unpack_from
        self.kinds = {INSTANCE: (head, {}), OBJECTS: (head, {}), PRIMITIVES: (struct.Struct(f">x{code}4x5s").unpack_from, {})}

    def read_records(self, progress):
        data, size, last = self.data, self.id_bytes, None
        at, end = len(VERSIONS[0]) + 12, len(self.data)
        while at < end:
            tag, _time, length = struct.unpack_from(">BII", data, at)
            at += 9
            if at + length > end:
                raise bad(f"cut short: the file ends at byte {end}, within a record")
            if tag == TEXT:
                self.texts[self.ids(at, 1)[0]] = (at + size, at + length)
            elif tag == LOAD_CLASS:
                self.class_names[self.ids(at + 4, 1)[0]], = self.ids(at + 8 + size, 1)
            elif tag in (HEAP_DUMP, HEAP_DUMP_SEGMENT):
                self.read_parts(at, at + length, progress)
            if tag in (HEAP_DUMP, HEAP_DUMP_SEGMENT, HEAP_DUMP_END):
                last = tag
            at += length
        self.kinds.clear()  # so that a group that is given up gives back its memory
        self.least_words.clear()
        if last in (None, HEAP_DUMP_SEGMENT):
            raise bad("cut short: the file ends before the end of the heap dump")

    def read_parts(self, at, end, progress):
        """Finds the parts of the heap between two places."""
        while at < end:
            progress("reading the dump, bytes", at, len(self.data))
            at = self.read_some(at, min(end, at + STEP))
            self.steps += 1
            if self.is_whole and self.steps % BOUND_STEP == 0:
                words = sum(words * len(names) for names, words in self.least_words)
                check_words(words, "the objects take at least", False)
        if at > end:
            raise bad(f"a part of the heap passes the end of its record, at byte {end}")

    def read_some(self, at, end):
        """Finds the parts that begin before `end`, and returns where the next one begins."""
        data, kinds_of = self.data, self.kinds.get
        while at < end:
            tag = data[at]
            found = kinds_of(tag)
            if found is None:
                at = self.read_other(tag, at)
                continue
            name, key = found[0](data, at)
            kind = found[1].get(key) or self.new_kind(tag, key, found[1])
            kind[0](name)
            kind[1](at)
            at += kind[2]
        return at

    def new_kind(self, tag, key, kinds):
        """What notes an object's identifier and place, and its length, by the bytes that say its type and length."""
        if tag == INSTANCE:
            kind, count = struct.unpack(f">{self.id_code}I", key)
            length, words = self.instance.size + count, 2 + words_of(count)
        elif tag == OBJECTS:
            count, kind = struct.unpack(f">I{self.id_code}", key)
            length, words = self.objects.size + count * self.id_bytes, 2 + count
        else:
            count, kind = struct.unpack(">IB", key)
            length, words = self.primitives.size + count * type_bytes(kind), 2 + words_of(count * type_bytes(kind))
        group = self.groups[tag, kind, count]
        self.least_words.append((group.names, words))
        kinds[key] = group.names.append, group.places.append, length
        return kinds[key]

    def read_other(self, tag, at):
        """Reads a class or a root, and returns where it ends."""
        if tag == CLASS:
            name, end = self.read_class(at + 1)
            group = self.groups[CLASS, name, 0]
            group.names.append(name)
            group.places.append(at)
            return end
        if tag not in self.root_bytes:
            raise bad(f"a part of the heap has the unknown tag {tag:#04x}, at byte {at}")
        self.read_root(tag, at + 1)
        return at + 1 + self.id_bytes + self.root_bytes[tag]

    def read_root(self, tag, at):
        name, = self.ids(at, 1)
        self.roots.append(name)
        if tag in FRAME_ROOTS:
            thread, frame = struct.unpack_from(">II", self.data, at + self.id_bytes)
            self.frames.append((thread, frame, name))
        elif tag == THREAD_ROOT:
            self.threads[struct.unpack_from(">I", self.data, at + self.id_bytes)[0]] = name

    def ids(self, at, count):
        return struct.unpack_from(f">{count}{self.id_code}", self.data, at)

    def short(self, at):
        return struct.unpack_from(">H", self.data, at)[0]

    def read_class(self, at):
        """Reads what stands of a class behind the tag, and returns its identifier and where it ends."""
        size = self.id_bytes
        name, = self.ids(at, 1)
        above, *others = self.ids(at + size + 4, 6)
        references, statics, data = [above, *others[:3]], [], []
        at, _ = self.read_values(at + 7 * size + 8, 2, references, data)
        constants = len(references) - 4
        at, found = self.read_values(at, size, references, data)
        statics += found
        count = self.short(at)
        at += 2
        fields = [struct.unpack_from(f">{self.id_code}B", self.data, at + i * (size + 1)) for i in range(count)]
        self.classes[name] = ClassDump(above, references, constants, statics, b"".join(data), fields)
        return name, at + count * (size + 1)

    def read_values(self, at, head, references, data):
        """Reads constants or static fields: behind a number or a name of `head` bytes a type, then the value."""
        found, count = [], self.short(at)
        at += 2
        for _ in range(count):
            name, kind, value = int.from_bytes(self.data[at:at + head], "big"), self.data[at + head], 0
            at += head + 1
            if kind == REFERENCE:
                value, = self.ids(at, 1)
                references.append(value)
                at += self.id_bytes
            else:
                data.append(self.data[at:at + type_bytes(kind)][::-1])
                at += type_bytes(kind)
            found.append((name, kind, value))
        return at, found

    def text(self, name):
        """A text of the dump, as the name of a field."""
        start, end = self.texts.get(name, (0, 0))
        return self.data[start:end].decode("utf-8", "replace").replace(" ", "_") or f"name@{name:x}"

    def class_name(self, kind):
        name = self.class_names.get(kind)
        return java_name(self.text(name)) if name in self.texts else f"class@{kind:x}"

    def fields_of(self, kind):
        """The fields of an instance, those of its own class first: the class, the field's name, and its type."""
        found, seen = [], set()
        while kind:
            if kind not in self.classes or kind in seen:
                raise bad(f"the class {kind:#x} of an instance is not in the dump")
            seen.add(kind)
            owner = self.class_name(kind)
            found += [(owner, self.text(name), type_) for name, type_ in self.classes[kind].fields]
            kind = self.classes[kind].above
        return found


# From a dump to objects of words.


def words_of(count):
    """How many words so many bytes take."""
    return (count + 7) // 8


def lowest_first(data, width):
    """Values of so many bytes with the lowest byte first, as a word has it. A dump has the highest byte first."""
    if width == 1:
        return data
    values = array(CODES[width], data)
    values.byteswap()
    return values.tobytes()


def name_label(name):
    """What stands for a class in an image whose labels have to outlast a collection."""
    return int.from_bytes(hashlib.sha256(name.encode()).digest()[:8], "little")


class Shape:
    """How the objects of one type and length are cut into references and data, from where they begin in the dump."""

    def __init__(self, dump, name, label, head, array_of=None):
        self.dump, self.name, self.label, self.array_of = dump, name, label, array_of
        self.pieces, self.place = [f"{head}x"], head
        self.slots, self.fields, self.runs = [], [], []  # runs: of data that lie together, and are copied together
        self.width = None  # of the elements of an array of values
        self.null_slots, self.zeros, self.data_bytes = [], [], 0

    def add_slots(self, names, left_out=False):
        if left_out:
            self.null_slots += range(len(self.slots), len(self.slots) + len(names))
        self.slots += names
        self.pieces.append(f"{len(names)}{self.dump.id_code}")
        self.place += len(names) * self.dump.id_bytes

    def add_data(self, name, count, left_out=False):
        if left_out:
            self.zeros.append((self.data_bytes, self.data_bytes + count))
        if self.runs and sum(self.runs[-1]) == self.place:
            self.runs[-1][1] += count
        else:
            self.runs.append([self.place, count])
        self.fields.append((name, self.data_bytes, count))
        self.pieces.append(f"{count}x")
        self.data_bytes += count
        self.place += count

    def end(self):
        """All fields are there."""
        self.references = struct.Struct(">" + "".join(self.pieces))
        pads = [place - end for (place, _), end in zip(self.runs, [0, *map(sum, self.runs)])]
        self.content = struct.Struct(">" + "".join(f"{pad}x{count}s" for pad, (_, count) in zip(pads, self.runs)))
        codes = "" if self.width else "".join(CODES[count] for _name, _start, count in self.fields)
        self.highest_first, self.lowest_first = struct.Struct(f">{codes}"), struct.Struct(f"<{codes}")
        self.data_words = words_of(self.data_bytes)
        self.size = 2 + len(self.slots) + self.data_words
        return self

    def open(self, at):
        """The identifiers in the slots, and the bytes of data."""
        data = self.dump.data
        names = self.references.unpack_from(data, at) if self.slots else ()
        content = b"".join(self.content.unpack_from(data, at)) if self.runs else b""
        if self.width:
            content = lowest_first(content, self.width)
        elif content:
            content = self.lowest_first.pack(*self.highest_first.unpack(content))
        if self.null_slots:
            names = [0 if i in self.null_slots else name for i, name in enumerate(names)]
        for start, end in self.zeros:
            content = content[:start] + bytes(end - start) + content[end:]
        return names, content

    def step(self, slot):
        """The slot in a path."""
        return f"[{slot}]" if self.array_of == "objects" else f".{self.slots[slot]}"

    def slot_names(self):
        return ["[]"] if self.array_of == "objects" else self.slots

    def data_names(self):
        """A name for each data word: the fields in it with their types, joined by a comma if it has several."""
        if self.array_of:
            return ["class"] if self.array_of == "objects" else ["length", self.name]
        words = [[] for _ in range(self.data_words)]
        for field, start, count in self.fields:
            for word in range(start // 8, (start + count - 1) // 8 + 1):
                words[word].append(field)
        return ["class", *[",".join(word) for word in words]]


def instance_shape(dump, kind, count, label, left_out=()):
    shape = Shape(dump, dump.class_name(kind), label, dump.instance.size)
    for owner, field, type_ in dump.fields_of(kind):
        left = f"{owner}.{field}" in left_out
        if type_ == REFERENCE:
            shape.add_slots([field], left)
        else:
            width = type_bytes(type_)
            shape.add_data(f"{field}:{TYPES[type_][0]}", width, left)
    expected = shape.place - dump.instance.size
    if count != expected:
        raise bad(f"an instance has {count} bytes of fields, and its class says {expected}")
    return shape.end()


def objects_shape(dump, kind, count, label):
    shape = Shape(dump, dump.class_name(kind), label, dump.objects.size, "objects")
    shape.slots = range(count)
    shape.pieces.append(f"{count}{dump.id_code}")
    return shape.end()


def primitives_shape(dump, kind, count):
    name, width = TYPES[kind]
    shape = Shape(dump, f"{name}[]", kind << 32 | count, dump.primitives.size, "values")
    shape.width = width
    if count:
        shape.add_data(name, count * width)
    return shape.end()


class ClassShape(Shape):
    """A class with its constants and static fields. They stand in no order of their own, so they are read before."""

    def __init__(self, dump, kind):
        super().__init__(dump, f"{dump.class_name(kind)}.class", kind, 0)
        self.found = dump.classes[kind]
        self.slots = ["super", "loader", "signers", "domain", *["constant"] * self.found.constants]
        self.slots += [dump.text(name) for name, type_, _value in self.found.statics if type_ == REFERENCE]
        self.data_words = words_of(len(self.found.data))
        self.size = 2 + len(self.slots) + self.data_words

    def open(self, _at):
        return self.found.references, self.found.data

    def data_names(self):
        return ["class", "static[]"]


def main_of(script, run):
    """Runs a script's work, and turns what stops it into one line and a status."""
    try:
        return run() or 0
    except Refusal as refusal:
        print(f"{script}: {refusal}", file=sys.stderr)
        return refusal.status
    except OSError as error:
        print(f"{script}: {error.filename or 'input or output'}: {error.strerror or error}", file=sys.stderr)
        return 6
    except MemoryError:
        print(f"{script}: out of memory", file=sys.stderr)
        return 6
