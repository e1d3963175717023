#!/usr/bin/env python3
"""A second and plain judge of two heap dumps: plain_judge.py BEFORE AFTER CLASS.FIELD [--without CLASS.FIELD]

It shares nothing with the converter and g1heap. It reads both dumps and walks both graphs side by side from the static
field. It prints

  same objects O words W, M of them at another address

or the first difference that it meets, with its path. Words are counted as in an image. Classes are compared by name, and
the walk ends at them. Weak references are not followed.
Statuses: 0 same; 1 they differ; 2 usage; 3 no such dump.
"""
import struct
import sys

SIZES = {4: 1, 5: 2, 6: 4, 7: 8, 8: 1, 9: 2, 10: 4, 11: 8}
ROOTS = {0xFF: 8, 1: 16, 2: 16, 3: 16, 4: 12, 5: 8, 6: 12, 7: 8, 8: 16}  # what stands behind the tag
WEAK = {("java/lang/ref/Reference", name) for name in ("referent", "next", "discovered", "queue")}


class NoDump(Exception):
    """One line that says why there is no verdict."""


class Dump:
    """Each object as (tag, type, bytes), each class as (above, statics, fields)."""

    def __init__(self, path):
        with open(path, "rb") as file:
            self.data = data = file.read()
        if data[:19] not in (b"JAVA PROFILE 1.0.1\0", b"JAVA PROFILE 1.0.2\0") or data[19:23] != b"\0\0\0\x08":
            raise NoDump(f"{path}: no dump HPROF 1.0.1 or 1.0.2 with identifiers of 8 bytes")
        self.texts, self.loaded, self.classes, self.objects = {}, {}, {}, {}
        at, last = 31, None
        while at < len(data):
            tag, _, length = struct.unpack_from(">BII", data, at)
            at += 9
            if at + length > len(data):
                raise IndexError
            last = tag if tag in (0x0C, 0x1C, 0x2C) else last
            if tag == 0x01:
                self.texts[data[at:at + 8]] = data[at + 8:at + length].decode("utf-8", "replace")
            elif tag == 0x02:
                self.loaded[data[at + 4:at + 12]] = data[at + 16:at + 24]
            elif tag in (0x0C, 0x1C):
                self.heap(at, at + length)
            at += length
        if last not in (0x0C, 0x2C):  # segments of a heap have an end behind them
            raise IndexError

    def number(self, at, count):
        return int.from_bytes(self.data[at:at + count], "big")

    def heap(self, at, end):
        data, number = self.data, self.number
        while at < end:
            tag, name = data[at], data[at + 1:at + 9]
            if tag == 0x21:
                kind, count = data[at + 13:at + 21], number(at + 21, 4)
                self.objects[name] = tag, kind, data[at + 25:at + 25 + count]
                at += 25 + count
            elif tag == 0x22:
                count, kind = number(at + 13, 4), data[at + 17:at + 25]
                self.objects[name] = tag, kind, data[at + 25:at + 25 + 8 * count]
                at += 25 + 8 * count
            elif tag == 0x23:
                count, kind = number(at + 13, 4), data[at + 17]
                self.objects[name] = tag, kind, data[at + 18:at + 18 + SIZES[kind] * count]
                at += 18 + SIZES[kind] * count
            elif tag == 0x20:
                at = self.class_part(at + 1)
            else:
                at += 1 + ROOTS[tag]
        if at != end:
            raise IndexError

    def class_part(self, at):
        data, number = self.data, self.number
        name, above = data[at:at + 8], data[at + 12:at + 20]
        at += 64
        count, at = number(at, 2), at + 2
        for _ in range(count):  # constants
            at += 3 + SIZES.get(data[at + 2], 8)
        statics, fields = {}, []
        count, at = number(at, 2), at + 2
        for _ in range(count):
            kind = data[at + 8]
            size = SIZES.get(kind, 8)
            statics[self.texts.get(data[at:at + 8])] = data[at + 9:at + 9 + size]
            at += 9 + size
        count, at = number(at, 2), at + 2
        for _ in range(count):
            fields.append((self.texts.get(data[at:at + 8]), data[at + 8]))
            at += 9
        self.classes[name] = above, statics, fields
        return at

    def class_name(self, kind):
        return self.texts.get(self.loaded.get(kind), "?")

    def opened(self, name, left_out):
        """What an object is, its references with their names, and its data."""
        if name in self.classes:
            return f"class {self.class_name(name)}", [], b""
        tag, kind, data = self.objects[name]
        if tag == 0x23:
            return f"array of type {kind}, {len(data)} bytes", [], data
        if tag == 0x22:
            return self.class_name(kind), [(f"[{i // 8}]", data[i:i + 8]) for i in range(0, len(data), 8)], b""
        what, slots, plain = self.class_name(kind), [], b""
        if what == "java/lang/Class":
            return "class of a primitive type", [], b""
        at, passed = 0, set()
        while kind in self.classes:
            if kind in passed:  # a class above itself
                raise IndexError
            passed.add(kind)
            above, _, fields = self.classes[kind]
            for field, type_ in fields:
                size = SIZES.get(type_, 8)
                value = bytes(size) if (self.class_name(kind), field) in left_out else data[at:at + size]
                if type_ == 2:
                    slots.append((f".{field}", value))
                else:
                    plain += value
                at += size
            kind = above
        return what, slots, plain


def start(dump, text):
    owner, _, field = text.replace(".", "/").rpartition("/")
    found = [statics[field] for kind, (_, statics, _) in dump.classes.items()
             if dump.class_name(kind) == owner and field in statics]
    if len(found) != 1:
        raise NoDump(f"{len(found)} static fields {text}")
    return found[0]


def judge(before, after, text, left_out):
    """The line that is printed, and the status."""
    null, here, there = bytes(8), {}, {}
    words = moved = 0
    queue = [(start(before, text), start(after, text), text)]
    for a, b, path in queue:
        if a == null and b == null:
            continue
        if a in here or b in there:
            if here.get(a) != b or there.get(b) != a:
                return f"differ at {path}: another object than on an earlier path", 1
            continue
        here[a], there[b] = b, a
        for dump, name, side in ((before, a, "before"), (after, b, "after")):
            if name not in dump.objects and name not in dump.classes:
                return f"differ at {path}: {'null' if name == null else 'no object at 0x' + name.hex()} {side}", 1
        what, slots, data = before.opened(a, left_out)
        other, others, other_data = after.opened(b, left_out)
        if (what, len(slots), data) != (other, len(others), other_data):
            return f"differ at {path}: {what} before, {other} after, with other data", 1
        words += 2 + len(slots) + (len(data) + 7) // 8
        moved += a != b
        queue += [(x, y, path + field) for (field, x), (_, y) in zip(slots, others)]
    return f"same objects {len(here)} words {words}, {moved} of them at another address", 0


def answer(before, after, text, left_out):
    """The line that is printed, and the status, whatever the files are."""
    try:
        return judge(Dump(before), Dump(after), text, left_out)
    except NoDump as problem:
        return f"plain_judge: {problem}", 3
    except OSError as error:
        return f"plain_judge: {error.filename}: {error.strerror}", 3
    except (IndexError, KeyError, struct.error):
        return "plain_judge: a dump is cut short or of another form", 3


def main():
    words = sys.argv[1:]
    left_out = set(WEAK)
    while "--without" in words[:-1]:
        at = words.index("--without")
        owner, _, field = words[at + 1].rpartition(".")
        left_out.add((owner.replace(".", "/"), field))
        del words[at:at + 2]
    if words == ["--help"]:
        print(__doc__)
        return 0
    if len(words) != 3:
        print("usage: plain_judge.py BEFORE AFTER CLASS.FIELD [--without CLASS.FIELD ..]", file=sys.stderr)
        return 2
    text, status = answer(*words, left_out)
    print(text)
    return status


if __name__ == "__main__":
    sys.exit(main())
