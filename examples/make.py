#!/usr/bin/env python3
"""Makes the images of this folder that show a refusal or a state: make.py FOLDER

Writes dirty_card.img, current.img, no_room.img, pinned.img, version_one.img and three with humongous objects into FOLDER, and
the images that are refused into FOLDER/refused.
examples/README.md says what each one shows. The images here were made by `examples/make.py examples`.
"""
import argparse
import pathlib
import struct

FREE, ORDINARY, FIRST, CONTINUATION = range(4)


class Heap:
    """A small heap as its parts, in the order of the file. Regions have 16 words and cards 4 words."""

    def __init__(self, regions, tables=None, roots=(), log=(), sets=None, words=(), current=None):
        self.regions, self.tables = regions, tables or {}  # a region's kind, top, and flags where they are not 0
        self.roots, self.log, self.sets, self.words = roots, log, sets or {}, words
        self.current = regions if current is None else current

    def data(self, magic=b"G1IMAGE2", region_words=16, card_words=4):
        parts = [magic, struct.pack("<6I", region_words, card_words, self.regions, len(self.roots), len(self.log),
                                    self.current)]
        numbers = 2 if magic == b"G1IMAGE1" else 3
        for region in range(self.regions):
            entry = (*self.tables.get(region, (FREE, 0)), 0)[:numbers]
            parts.append(struct.pack(f"<{numbers}I", *entry))
        parts.append(struct.pack(f"<{len(self.roots)}Q", *self.roots))
        parts.append(struct.pack(f"<{len(self.log)}I", *self.log))
        for region in range(self.regions):
            cards = self.sets.get(region, ())
            parts.append(struct.pack(f"<{1 + len(cards)}I", len(cards), *cards))
        parts.append(struct.pack(f"<{len(self.words)}Q", *self.words))
        return b"".join(parts)


def header(size, slots):
    return size << 32 | slots


def one_object(root=17, kind_of_two=FREE):
    """16 = 4/1 (-) 7 9, named by a root."""
    return Heap(4, {1: (ORDINARY, 4), 2: (kind_of_two, 0)}, roots=[root], words=[header(4, 1), 0, 7, 9])


def two_regions(slot=17, flags=(0, 0), **others):
    """0 = 2/1 (16), which nothing names, and 16 = 3/0 1 2."""
    return Heap(4, {0: (ORDINARY, 2, flags[0]), 1: (ORDINARY, 3, flags[1])}, words=[header(2, 1), slot, header(3, 0), 1, 2], **others)


def humongous_chain():
    """0 = 20/1 (32), which nothing names, 32 = 20/0, and 64 = 2/1 (-), which a root names."""
    tables = {0: (FIRST, 16), 1: (CONTINUATION, 4), 2: (FIRST, 16), 3: (CONTINUATION, 4), 4: (ORDINARY, 2)}
    return Heap(6, tables, roots=[65], sets={2: [0]}, words=[header(20, 1), 33, *[0] * 18, header(20, 0), *[0] * 19, header(2, 1), 0])


def humongous_owner(slot, others=None, sets=None, words=(), regions=3):
    """0 = 40/20, whose slot at word 17 names the slot's target; all other slots name nothing."""
    tables = {0: (FIRST, 16), 1: (CONTINUATION, 16), 2: (CONTINUATION, 8), **(others or {})}
    return Heap(regions, tables, sets=sets, words=[header(40, 20), *[0] * 16, slot, *[0] * 22, *words])


def accepted():
    yield "dirty_card.img", two_regions(log=[0]).data()
    yield "current.img", Heap(4, {0: (ORDINARY, 2)}, roots=[1], log=[0], words=[header(2, 1), 0], current=0).data()
    full = Heap(3, {0: (ORDINARY, 12), 1: (ORDINARY, 5)}, roots=[1, 17], log=[0],
                words=[header(12, 0), *[0] * 11, header(5, 0), *[0] * 4])
    yield "no_room.img", full.data()
    yield "pinned.img", two_regions(flags=(1, 0), sets={1: [0]}).data()
    yield "version_one.img", one_object().data(magic=b"G1IMAGE1")
    yield "humongous_chain.img", humongous_chain().data()
    yield "own_slot.img", humongous_owner(1, sets={0: [4]}).data()
    unnamed = humongous_owner(49, {3: (ORDINARY, 2)}, {3: [4]}, [header(2, 0), 4], regions=6)
    yield "unnamed_owner.img", unnamed.data()


def refused():
    yield "magic.img", one_object().data(magic=b"G1IMAGE9")
    yield "geometry.img", one_object().data(region_words=24)
    yield "short.img", one_object().data()[:-1]
    yield "trailing.img", one_object().data() + b"\0"
    yield "kind.img", one_object(kind_of_two=4).data()
    yield "flags.img", two_regions(flags=(0, 2), sets={1: [0]}).data()
    yield "shape.img", Heap(4, {0: (ORDINARY, 13)}, words=[header(13, 0), *[0] * 12]).data()
    yield "root.img", one_object(root=18).data()
    yield "slot.img", two_regions(slot=18, sets={1: [0]}).data()
    yield "log_card.img", two_regions(log=[0, 0]).data()
    yield "set_card.img", two_regions(sets={1: [0, 4]}).data()
    yield "uncovered.img", two_regions().data()


def main():
    parser = argparse.ArgumentParser(description=__doc__, formatter_class=argparse.RawDescriptionHelpFormatter)
    parser.add_argument("folder", type=pathlib.Path, metavar="FOLDER")
    folder = parser.parse_args().folder
    (folder / "refused").mkdir(parents=True, exist_ok=True)
    for name, data in accepted():
        (folder / name).write_bytes(data)
    for name, data in refused():
        (folder / "refused" / name).write_bytes(data)


if __name__ == "__main__":
    main()
