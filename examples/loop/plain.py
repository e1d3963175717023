#!/usr/bin/env python3
"""A plain collector that tools/challenge.py can challenge: plain.py BEFORE AFTER R,R

It copies what survives of the regions into free ones, in the order in which it finds it, and writes the heap after. If the
free regions do not suffice, the status is 75.
"""
import argparse
import pathlib
import sys

sys.path.insert(0, str(pathlib.Path(__file__).resolve().parent.parent.parent / "tools" / "lib"))

from heap_image import FREE, NULL, ORDINARY, from_bytes  # noqa: E402

NO_ROOM = 75


class Collector:
    def __init__(self, heap, chosen):
        self.heap, self.chosen = heap, chosen
        self.region = None  # the region that copies go to
        self.copies = {}

    def room(self, size):
        """The address of room for a copy."""
        heap = self.heap
        if self.region is None or heap.tops[self.region] + size > heap.region_words:
            if FREE not in heap.kinds:
                sys.exit(NO_ROOM)
            self.region = heap.kinds.index(FREE)
            heap.kinds[self.region] = ORDINARY
        address = self.region * heap.region_words + heap.tops[self.region]
        heap.tops[self.region] += size
        return address

    def forward(self, word):
        """The reference to a copy, which is made now if there is none yet."""
        if word == NULL or self.heap.region_of(word - 1) not in self.chosen:
            return word
        address = word - 1
        if address not in self.copies:
            size = self.heap.size(address)
            to = self.copies[address] = self.room(size)
            self.heap.words[to:to + size] = self.heap.words[address:address + size]
        return self.copies[address] + 1

    def update(self, address):
        for slot in self.heap.slots(address):
            self.heap.words[slot] = self.forward(self.heap.words[slot])

    def collect(self):
        heap, width = self.heap, self.heap.region_words
        kept = [a for region in range(heap.regions) if region not in self.chosen for a in heap.objects_in(region)]
        heap.roots = [self.forward(word) for word in heap.roots]
        for address in kept:
            self.update(address)
        done = 0
        while done < len(self.copies):  # what is copied meanwhile comes behind the others
            copies = list(self.copies.values())[done:]
            for address in copies:
                self.update(address)
            done += len(copies)
        for region in self.chosen:
            heap.kinds[region], heap.tops[region] = FREE, 0
            heap.words[region * width:(region + 1) * width] = [0] * width
        heap.log, heap.current = [], None
        heap.make_exact()


def main():
    parser = argparse.ArgumentParser(description=__doc__, formatter_class=argparse.RawDescriptionHelpFormatter)
    parser.add_argument("before", metavar="BEFORE", type=pathlib.Path)
    parser.add_argument("after", metavar="AFTER", type=pathlib.Path)
    parser.add_argument("set", metavar="R,R", type=lambda text: [int(word) for word in text.split(",")])
    options = parser.parse_args()
    heap = from_bytes(options.before.read_bytes())
    Collector(heap, options.set).collect()
    options.after.write_bytes(heap.to_bytes())


if __name__ == "__main__":
    main()
