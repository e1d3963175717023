"""Writes what hangs from static fields into an image, for tools/hprof2image.py: a column of words at a time.

The objects of a group have the same shape. So the first slots of those that lie end to end in a region are every so
many words, and go to the image by one assignment, as do the second ones, and so on.
"""
import sys
from array import array
from itertools import chain, compress, repeat
from operator import and_, or_, rshift

from hprof import Refusal, lowest_first
from hprof_graph import at_all


class Writer:
    """Each object of a graph goes to its place in the image."""

    def __init__(self, image, graph, starts, blank=False, dangling_null=False):
        if sys.byteorder != "little":
            raise Refusal(6, "--from needs a machine whose first byte of a word is the lowest")
        self.image, self.graph, self.starts, self.blank = image, graph, starts, blank
        self.cards, self.cards_of = [], None  # of the slots of the last block, and which one it was
        self.view = memoryview(image.words).cast("Q")
        if graph.is_dangling and not dangling_null:
            graph.refuse_dangling()
        self.words = self.words_by_number()
        image.roots.extend(map(self.words.__getitem__, graph.root_numbers))
        self.missing = graph.root_numbers.count(graph.nowhere)
        self.put_groups()
        self.view.release()

    def words_by_number(self):
        """The reference word of each object, by its number. That of what the dump does not have is null."""
        words, at = array("I", bytes(4 * (2 + self.graph.objects_in_dump))), 0
        for group in self.graph.groups:
            numbers, found = group.numbers, array("I", map((1).__add__, self.starts[at:at + len(group.names)]))
            if isinstance(numbers, range):
                words[numbers.start:numbers.stop] = found
            else:
                for number, word in zip(numbers, found):
                    words[number] = word
            at += len(found)
        return words

    def put_groups(self):
        done = 0
        for group in self.graph.groups:
            self.graph.progress("writing, objects", done, len(self.starts))
            self.put_group(group, done)
            done += len(group.names)
            if self.graph.is_dangling:
                self.missing += group.targets.count(self.graph.nowhere)

    def put_group(self, group, before):
        """Puts the objects that lie end to end in a region at once."""
        region_words, size, first = self.image.region_words, group.shape.size, 0
        while first < len(group.names):
            at = self.starts[before + first]
            count = min(max(1, (region_words - at % region_words) // size), len(group.names) - first)
            self.put_block(group, slice(first, first + count), at, count)
            first += count

    def put_block(self, group, part, at, count):
        shape = group.shape
        slots, size = len(shape.slots), shape.size
        end = at + count * size
        self.view[at:end:size] = array("Q", [size << 32 | slots]) * count
        self.view[at + 1 + slots:end:size] = array("Q", [shape.label]) * count
        if slots:
            targets = group.targets[slots * part.start:slots * part.stop]
            words = array("Q", at_all(self.words, targets))
            self.put_columns(at + 1, size, count, slots, words)
            self.remember(words, at, count, size, slots)
        if shape.data_words and not self.blank:
            self.put_columns(at + 2 + slots, size, count, shape.data_words, self.content(group, part, count))

    def put_columns(self, at, size, count, width, words):
        """Words of `count` objects, `width` for each of them. The first word of the first object goes to `at`."""
        if count < width:
            for i in range(count):
                self.view[at + i * size:at + i * size + width] = words[i * width:(i + 1) * width]
        else:
            for i in range(width):
                self.view[at + i:at + i + (count - 1) * size + 1:size] = words[i::width]

    def content(self, group, part, count):
        """The words of data behind the labels."""
        shape = group.shape
        pieces = map(shape.content.unpack_from, repeat(shape.dump.data), group.places[part])
        padding = bytes(8 * shape.data_words - shape.data_bytes)
        if len(shape.runs) == 1 or not padding:
            pieces = chain.from_iterable(pieces)
        else:
            pieces = map(b"".join, pieces)
        data = bytearray(padding.join(pieces) + padding)
        for start, end in shape.zeros:
            for byte in range(start, end):
                data[byte::8 * shape.data_words] = bytes(count)
        words = array("Q")
        words.frombytes(self.turned(shape, data))
        return words

    def turned(self, shape, data):
        """The same data with the lowest byte of each value first. A value of an array is in one word, and so is the padding."""
        if shape.width:
            return lowest_first(bytes(data), shape.width)
        for _name, start, count in shape.fields:
            columns = [data[start + byte::8 * shape.data_words] for byte in range(count)]
            for byte, column in enumerate(reversed(columns)):
                data[start + byte::8 * shape.data_words] = column
        return data

    def remember(self, words, at, count, size, slots):
        """Adds the card of each slot that references an object of another region to that region's set, part by part of a
        large object: slots of one region have their cards in it. (An object has two words or more, so that a reference,
        one more than an address, is in the object's own region.)"""
        region_words = self.image.region_words
        if count > 1 or at % region_words + size <= region_words:
            self.remember_in(at // region_words, words, self.slot_cards(at % region_words, count, size, slots))
            return
        done, start = 0, at + 1
        while done < slots:
            part = min(slots - done, region_words - start % region_words)
            cards = self.slot_cards(start % region_words - 1, 1, part, part)
            self.remember_in(start // region_words, words[done:done + part], cards)
            done, start = done + part, start + part

    def slot_cards(self, at, count, size, slots):
        """The card of each slot of `count` objects that begin at a word of a region, counted from the region's start."""
        if (at, count, size, slots) != self.cards_of:
            ranges = map(range, range(at + 1, at + count * size + 1, size), range(at + 1 + slots, at + count * size + 1 + slots, size))
            self.cards = list(map(rshift, chain.from_iterable(ranges), repeat(self.image.card_shift)))
            self.cards_of = at, count, size, slots
        return self.cards

    def remember_in(self, region, words, cards):
        """Adds the cards of slots of one region. A card and the region's number of the object are one number, which takes
        less time than a pair."""
        image, low = self.image, self.image.region_words - 1
        pairs = map(or_, map(and_, words, repeat(~low)), cards)
        first = region << image.region_shift - image.card_shift
        for pair in set(compress(pairs, words)):
            if pair >> image.region_shift != region:
                image.cards[pair >> image.region_shift].append(first + (pair & low))
