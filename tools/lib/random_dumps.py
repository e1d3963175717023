"""Random heap dumps of no machine, for tools/both_converters.py: classes with fields of all types, classes above them,
constants, static fields, arrays of all types, roots of all kinds, and references to what is not there."""
import random
import struct

REFERENCE = 2
CODES = {4: "B", 5: "H", 6: "I", 7: "Q", 8: "B", 9: "H", 10: "I", 11: "Q"}
OBJECT, MIRROR, WEAK, WEAKER, MAIN, FIRST = range(0x10, 0x16)
NAMES = {OBJECT: "java/lang/Object", MIRROR: "java/lang/Class", WEAK: "java/lang/ref/Reference",
         WEAKER: "java/lang/ref/WeakReference", MAIN: "pack/Main"}
OTHER_NAMES = ("pack/K", "pack/Same", "[[Lpack/K;", "[I", "[[Z", "with space/K", "[Lx", "")
FIELDS = ("a", "b", "c d", "next", "é", "")
# The kinds of roots, and how many bytes stand behind the identifier; None: as many as it has.
ROOTS = {0xFF: 0, 1: None, 2: 8, 3: 8, 4: 4, 5: 0, 6: 4, 7: 0, 8: 8}


class RandomDump:
    """A dump. Its `bytes` are those of the file, its `starts` static fields of references."""

    def __init__(self, seed):
        self.chance = chance = random.Random(seed)
        self.id_bytes, self.texts = chance.choice((4, 8)), {}
        self.names = dict(NAMES)
        self.objects = self.identifiers()
        self.kinds = list(range(FIRST, FIRST + chance.randrange(1, 8)))
        self.pool = [*self.objects, *self.kinds, 0, 0]
        if chance.random() < 0.5:
            self.pool += [1, 0x7FFFFFFF]  # are not there
        self.types = {OBJECT: []}  # of the fields of an instance, those above it included
        classes = self.classes()
        parts = [self.object(name) for name in self.objects] + self.roots()
        if chance.random() < 0.3:
            chance.shuffle(parts)
        self.starts = ["pack.Main.root", "pack.Main.other", "pack.Main.empty"]
        self.bytes = self.file(classes, parts)

    def identifiers(self):
        chance = self.chance
        wide = (0x7F0000000000, 0xFFFF << 48) if self.id_bytes == 8 else ()
        first = chance.choice((0x800, 0x10000, 0xF0000000, *wide))
        step = chance.choice((1, 8, 16, 0x1000))
        names = [first + step * i for i in range(chance.choice((0, 1, 5, 30, 200)))]
        if chance.random() < 0.5:
            chance.shuffle(names)
        return names

    def ids(self, *names):
        return b"".join(name.to_bytes(self.id_bytes, "big") for name in names)

    def text(self, text):
        return self.texts.setdefault(text, 0x1000 + len(self.texts))

    def value(self, kind):
        if kind == REFERENCE:
            return self.ids(self.chance.choice(self.pool))
        width = struct.calcsize(CODES[kind])
        return self.chance.getrandbits(8 * width).to_bytes(width, "big")

    def type(self):
        return self.chance.choice((REFERENCE, REFERENCE, *CODES))

    def kind(self, name, above, fields, statics=(), constants=()):
        """A class. Of a static field the value is here."""
        loader = [self.chance.choice(self.pool) for _ in range(3)]
        body = self.ids(name) + bytes(4) + self.ids(above, *loader, 0, 0) + bytes(4) + struct.pack(">H", len(constants))
        for type_ in constants:
            body += struct.pack(">HB", 1, type_) + self.value(type_)
        body += struct.pack(">H", len(statics))
        for field, type_, value in statics:
            body += self.ids(self.text(field)) + bytes([type_]) + value
        body += struct.pack(">H", len(fields))
        self.types[name] = [type_ for _, type_ in fields] + self.types.get(above, [])
        return b"\x20" + body + b"".join(self.ids(self.text(field)) + bytes([type_]) for field, type_ in fields)

    def classes(self):
        chance = self.chance
        found = [self.kind(OBJECT, 0, ()), self.kind(MIRROR, OBJECT, [("loader", REFERENCE), ("hash", 10)])]
        weak = [(field, REFERENCE) for field in ("referent", "queue", "next", "discovered")]
        found += [self.kind(WEAK, OBJECT, weak), self.kind(WEAKER, WEAK, ())]
        for name in self.kinds:
            fields = [(chance.choice(FIELDS), self.type()) for _ in range(chance.randrange(5))]
            types = [self.type() for _ in range(chance.randrange(4))]
            statics = [(chance.choice(FIELDS), type_, self.value(type_)) for type_ in types]
            constants = [self.type() for _ in range(chance.randrange(3))]
            found.append(self.kind(name, chance.choice((OBJECT, *range(FIRST, name))), fields, statics, constants))
            if chance.random() < 0.8:
                self.names[name] = chance.choice(OTHER_NAMES)
        held = [("root", REFERENCE, self.value(REFERENCE)), ("other", REFERENCE, self.value(REFERENCE)),
                ("count", 10, bytes(4)), ("empty", REFERENCE, self.ids(0))]
        return [*found, self.kind(MAIN, OBJECT, (), held)]

    def object(self, name):
        """An instance or an array of this identifier."""
        chance, shape = self.chance, self.chance.random()
        if shape < 0.5:
            kind = chance.choice((*self.kinds, WEAKER, WEAK, MIRROR))
            fields = b"".join(map(self.value, self.types[kind]))
            return b"\x21" + self.ids(name) + bytes(4) + self.ids(kind) + struct.pack(">I", len(fields)) + fields
        if shape < 0.75:
            elements = [chance.choice(self.pool) for _ in range(chance.choice((0, 1, 2, 3, 12, 13, 40)))]
            kind = chance.choice((*self.kinds, 0x999))
            return b"\x22" + self.ids(name) + struct.pack(">II", 0, len(elements)) + self.ids(kind, *elements)
        type_, count = chance.choice(tuple(CODES)), chance.choice((0, 1, 3, 7, 8, 9, 50, 97))
        head = b"\x23" + self.ids(name) + struct.pack(">IIB", 0, count, type_)
        return head + b"".join(self.value(type_) for _ in range(count))

    def roots(self):
        found = []
        for tag, more in ROOTS.items():
            if self.chance.random() < 0.3:
                behind = bytes(self.id_bytes if more is None else more)
                found.append(bytes([tag]) + self.ids(self.chance.choice(self.pool)) + behind)
        return found

    def file(self, classes, parts):
        loads = [struct.pack(">I", 1) + self.ids(kind) + bytes(4) + self.ids(self.text(name))
                 for kind, name in self.names.items()]
        records = [(0x01, self.ids(number) + text.encode()) for text, number in self.texts.items()]
        records += [(0x02, load) for load in loads] + [(0x07, b"of another kind")]
        version = self.chance.choice((b"1", b"2"))
        cut = self.chance.randrange(len(parts) + 1)
        if version == b"1":
            records.append((0x0C, b"".join(classes + parts)))
        else:
            records += [(0x1C, b"".join(classes + parts[:cut])), (0x1C, b"".join(parts[cut:])), (0x2C, b"")]
        body = b"".join(struct.pack(">BII", tag, 0, len(data)) + data for tag, data in records)
        return b"JAVA PROFILE 1.0." + version + b"\0" + struct.pack(">IQ", self.id_bytes, 0) + body
