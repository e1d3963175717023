#!/usr/bin/env python3
"""Says in a program's names where two heaps differ: hprof_path.py BEFORE BEFORE.names AFTER AFTER.names < LINES

BEFORE and AFTER are the images that `g1heap same` compared, and the .names are the files that `hprof2image.py --names`
wrote beside them. LINES are what `g1heap same` said. A line

  differ data at root 0 slot 10 slot 3: object 278336 before, object 278336 after; data word 10 is 5 before, 7 after

is printed with the path in the program's names, as Judge.root.cache.table, with what both objects are, and with each
field or element in the data word that differs and its values. Any other line is printed as it is.
Statuses: 0 done; 2 usage; 3 a file is no image or has no names, or the path is not in it; 6 a file can't be read.
"""
import argparse
import mmap
import pathlib
import re
import struct
import sys

sys.path.insert(0, str(pathlib.Path(__file__).resolve().parent / "lib"))

from hprof import Refusal, TYPES, main_of  # noqa: E402 (it is in lib/)

WIDTHS = {f"{name}[]": width for name, width in TYPES.values()}
CODES = {"boolean": "?", "char": "H", "float": "f", "double": "d", "byte": "b", "short": "h", "int": "i", "long": "q"}
LINE = re.compile(r"differ (\w+) at root (\d+)((?: slot \d+)*): ")
DATA = re.compile(r"; data word (\d+) is \d+(?: \(0x\w+\))? before, \d+(?: \(0x\w+\))? after")
EARLIER = re.compile(r"; (\d+) (before|after) is (\d+) (before|after) on an earlier path")
MOST_TEXT = 40  # letters of a string that are shown


class Names:
    """A names file: the roots, the types, and what each object is."""

    def __init__(self, path):
        self.roots, self.types, self.objects = {}, {}, {}
        with open(path, encoding="utf-8") as file:
            for line in file:
                self.read(path, line.rstrip("\n"))

    def read(self, path, line):
        word, *rest = line.split(" ")
        if word == "object" and len(rest) >= 2:
            self.objects[int(rest[0])] = rest[1:]
        elif word == "type" and "slots" in rest and "data" in rest:
            self.types[rest[0]] = rest[2:]
        elif word == "root" and len(rest) == 2:
            self.roots[int(rest[0])] = rest[1]
        elif word != "label":
            raise Refusal(3, f"{path}: not a line of names: {line}")


def numbered(names, index):
    """A name of a list, and the number in it: a last name that ends with [] stands for all that follow."""
    if index < len(names) - 1 or names and index < len(names) and not names[-1].endswith("[]"):
        return names[index], None
    if names and names[-1].endswith("[]"):
        return names[-1][:-2], index - len(names) + 1
    return str(index), None


def parted(words, slots):
    """The names of slots and those of data. A field may be called `data`, too: so the word between them is the one behind
    as many names as the object has slots, if it is `data`, and else the first `data`."""
    border = slots if words[slots:slots + 1] == ["data"] else words.index("data")
    return words[:border], words[border + 1:]


def laid_out(words):
    """The name, the code and the first byte of each field, of the names of an object's data words behind the label, as in
    value:int,flag:byte. A field that begins in one word and ends in the next has its name in both."""
    found, end = [], 0
    for number, word in enumerate(words):
        for field in word.split(",")[end > 8 * number:]:
            name, _, kind = field.rpartition(":")
            if kind not in CODES:
                raise Refusal(3, f"the names have no type of the field {field}: make them anew")
            found.append((name, CODES[kind], end))
            end += struct.calcsize(CODES[kind])
    return found


class Heap:
    """An image with its names."""

    def __init__(self, image, names):
        self.path, self.names = image, Names(names)
        with open(image, "rb") as file:
            try:
                self.data = mmap.mmap(file.fileno(), 0, access=mmap.ACCESS_READ)
                self.read_head()
            except (ValueError, struct.error):
                raise Refusal(3, f"{image}: not an image of version 2") from None

    def read_head(self):
        data = self.data
        if data[:8] != b"G1IMAGE2":
            raise ValueError
        self.region_words, _, regions, roots, dirty, _ = struct.unpack_from("<6I", data, 8)
        tops = [top for _kind, top, _flags in struct.iter_unpack("<3I", data[32:32 + 12 * regions])]
        at = 32 + 12 * regions
        self.roots = struct.unpack_from(f"<{roots}Q", data, at)
        at += 8 * roots + 4 * dirty
        for _ in range(regions):
            at += 4 + 4 * struct.unpack_from("<I", data, at)[0]
        self.starts = []
        for top in tops:
            self.starts.append(at)
            at += 8 * top

    def words(self, address, count):
        """Words of one object: those of a humongous one lie end to end in the file, too."""
        region, place = divmod(address, self.region_words)
        return struct.unpack_from(f"<{count}Q", self.data, self.starts[region] + 8 * place)

    def slots(self, address):
        return self.words(address + 1, self.words(address, 1)[0] & 0xFFFFFFFF)

    def type_of(self, address):
        if address not in self.names.objects:
            raise Refusal(3, f"{self.path}: its names have no object {address}")
        return self.names.objects[address][0]

    def parts(self, address):
        """The names of an object's slots, and those of its data words."""
        return parted(self.names.types[self.type_of(address)], len(self.slots(address)))

    def step(self, address, slot):
        name, number = numbered(self.parts(address)[0], slot)
        return (f".{name}" if name else "") + (f"[{number}]" if number is not None else "")

    def follow(self, root, path):
        """The path in the program's names, and the reference word at its end."""
        text, word = self.names.roots.get(root, f"root {root}"), self.roots[root]
        for slot in path:
            text += self.step(word - 1, slot)
            word = self.slots(word - 1)[slot]
        return text, word

    def described(self, word):
        """What a reference leads to."""
        if word == 0:
            return "null"
        address = word - 1
        kind, *note = [self.type_of(address), *self.names.objects[address][1:]]
        slots = self.slots(address)
        if kind in WIDTHS:
            kind += f" of {self.length(address)}"
        elif self.parts(address)[0] == ["[]"]:
            kind += f" of {len(slots)}"
        elif kind == "java.lang.String":
            kind += self.string(slots)
        return " ".join([kind, *note])

    def length(self, address):
        return self.words(address + 1, 1)[0] & 0xFFFFFFFF

    def string(self, slots):
        """The text of a string of one byte a letter."""
        if not slots or not slots[0] or self.type_of(slots[0] - 1) != "byte[]":
            return ""
        address = slots[0] - 1
        count = min(self.length(address), MOST_TEXT)
        words = self.words(address + 2, (count + 7) // 8)
        return " " + repr(struct.pack(f"<{len(words)}Q", *words)[:count].decode("latin-1"))

    def content(self, address):
        """The data words of an object."""
        header, = self.words(address, 1)
        return self.words(address, header >> 32)[1 + (header & 0xFFFFFFFF):]

    def values(self, address, word):
        """The fields or the elements in a data word: the bytes of each, and what it is."""
        names, words, kind = self.parts(address)[1], self.content(address), self.type_of(address)
        if word and kind in WIDTHS:
            first, end = (min(8 // WIDTHS[kind] * i, self.length(address)) for i in (word - 1, word))
            fields = [(f"element {i}", CODES[kind[:-2]], WIDTHS[kind] * i) for i in range(first, end)]
        elif word and not names[-1].endswith("[]"):
            fields = [(name, code, at) for name, code, at in laid_out(names[1:])
                      if 8 * (word - 1) < at + struct.calcsize(code) and at < 8 * word]
        else:
            name, number = numbered(names, word)
            return {name if number is None else f"{name}[{number}]": (words[word], f"{words[word]:#x}")}
        data = struct.pack(f"<{len(words) - 1}Q", *words[1:])
        return {name: (data[at:at + struct.calcsize(code)], struct.unpack_from(f"<{code}", data, at)[0]) for name, code, at in fields}


def differences(before, after):
    """What differs of the fields of two objects. Objects of two types need not have the same ones."""
    return "".join(f"; {name}: {before[name][1]} before, {after[name][1]} after" for name in before
                   if name in after and before[name][0] != after[name][0])


def translated(before, after, line):
    found = LINE.match(line)
    if not found:
        return line
    kind, root, slots = found[1], int(found[2]), [int(slot) for slot in found[3].split()[1::2]]
    try:
        path, word = before.follow(root, slots)
        _, other = after.follow(root, slots)
    except (IndexError, struct.error):
        raise Refusal(3, f"the path is not in {before.path} and {after.path}: {line}") from None
    text = f"differ {kind} at {path}: {before.described(word)} before, {after.described(other)} after"
    data = DATA.search(line)
    if data:
        text += differences(before.values(word - 1, int(data[1])), after.values(other - 1, int(data[1])))
    earlier = EARLIER.search(line)
    if earlier:
        sides = {"before": before, "after": after}
        first, second = (sides[earlier[i + 1]].described(int(earlier[i]) + 1) for i in (1, 3))
        text += f"; {first} {earlier[2]} is {second} {earlier[4]} on an earlier path"
    return text


def run(options):
    before, after = Heap(*options.files[:2]), Heap(*options.files[2:])
    for line in sys.stdin:
        print(translated(before, after, line.rstrip("\n")))


def main():
    parser = argparse.ArgumentParser(description=__doc__, formatter_class=argparse.RawDescriptionHelpFormatter)
    parser.add_argument("files", nargs=4, metavar="FILE", help="BEFORE BEFORE.names AFTER AFTER.names")
    options = parser.parse_args()
    return main_of("hprof_path", lambda: run(options))


if __name__ == "__main__":
    sys.exit(main())
