"""Images at the limits of g1heap, written straight into files: a list of their words in Python would fill the memory.

Words that are 0 are left out of the file as holes, where they make up whole regions.
"""
import struct
from array import array

from heap_image import CONTINUATION, FIRST, FREE, ORDINARY, WIDE

REGION, HEAP = WIDE.region_words, WIDE.words


def heading(region_words, regions, roots=0, card_words=64):
    return b"G1IMAGE2" + struct.pack("<6I", region_words, card_words, regions, roots, 0, regions)


def write_front(file, region_words, table, roots, sets):
    """What comes before the words. A region of the table is its kind and its top; `sets` has the cards of some regions."""
    file.write(heading(region_words, len(table), len(roots)))
    for kind, top in table:
        file.write(struct.pack("<3I", kind, top, 0))
    file.write(array("Q", roots).tobytes())
    for region in range(len(table)):
        cards = sets.get(region, [])
        file.write(struct.pack(f"<{1 + len(cards)}I", len(cards), *cards))


def write_one_object(path, region_words, size, more=0, data=0):
    """An object that fills its regions, and behind them some free ones. A root references it; its one slot references it,
    too, and its last word is `data`."""
    run = -(-size // region_words)
    tops = [min(region_words, size - at) for at in range(0, size, region_words)]
    kinds = [FIRST] + [CONTINUATION] * (run - 1)
    with open(path, "wb") as file:
        write_front(file, region_words, [*zip(kinds, tops), *[(FREE, 0)] * more], [1], {})
        file.write(struct.pack("<2Q", size << 32 | 1, 1))
        file.seek(8 * (size - 3), 1)
        file.write(struct.pack("<Q", data))


def write_chain(path, region_words, regions, roots=(1,)):
    """Objects of four words that fill all regions: each references the next one, and the last none."""
    end = region_words * regions
    cards = {region: [(region * region_words - 3) // 64] for region in range(1, regions)}
    with open(path, "wb") as file:
        write_front(file, region_words, [(ORDINARY, region_words)] * regions, roots, cards)
        words = array("Q", [4 << 32 | 1, 0, 0, 7]) * (region_words // 4)
        for start in range(0, end, region_words):
            words[1::4] = array("Q", range(start + 5, start + region_words + 5, 4))
            if start + region_words == end:
                words[-3] = 0
            file.write(words)


def write_small(path, region_words, regions, at, roots=1):
    """One object of two words, at the start of a region. All others are free. The last root references it."""
    table = [(FREE, 0)] * regions
    table[at] = ORDINARY, 2
    with open(path, "wb") as file:
        write_front(file, region_words, table, [0] * (roots - 1) + [at * region_words + 1], {})
        file.write(struct.pack("<2Q", 2 << 32, 9))
