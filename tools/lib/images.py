"""Small image texts, written as tokens: N is a number of 4 bytes, =N a word, S/R the header of an object of S words
with R references, C*T stands C times for T. The magic stands before them. Their values are written by hand, without
flags, as in version 1; the texts are of version 2, except those of long_chain, many_slots and all_dirty, which are of
version 1."""
import struct

from image_text import in_version_two


def packed(token):
    if "*" in token:
        count, rest = token.split("*")
        return int(count) * packed(rest)
    if "/" in token:
        size, refs = token.split("/")
        return struct.pack("<2I", int(refs), int(size))
    return struct.pack("<Q", int(token[1:])) if token[0] == "=" else struct.pack("<I", int(token))


def image(tokens):
    return in_version_two(b"G1IMAGE1" + b"".join(packed(token) for token in tokens.split()))


ONE_OBJECT = image("16 4 4 1 0 4  0 0 1 4 0 0 0 0  =17  4*0  4/1 =0 =7 =9")
ONE_OBJECT_AFTER = image("16 4 4 1 0 4  1 4 0 0 0 0 0 0  =1  4*0  4/1 =0 =7 =9")
OUTSIDE_SLOT = image("16 4 4 0 0 4  1 2 1 3 0 0 0 0  0 1 0 0 0  2/1 =17 3/0 =1 =2")
OUTSIDE_SLOT_AFTER = image("16 4 4 0 0 4  1 2 0 0 1 3 0 0  0 0 1 0 0  2/1 =33 3/0 =1 =2")
UNCOVERED = image("16 4 4 0 0 4  1 2 1 3 0 0 0 0  4*0  2/1 =17 3/0 =1 =2")
LOGGED = image("16 4 4 0 1 4  1 2 1 3 0 0 0 0  0  4*0  2/1 =17 3/0 =1 =2")
DIRTY = image("16 4 4 1 1 0  1 2 0 0 0 0 0 0  =1  0  4*0  2/1 =0")
SHARED = image("16 4 4 2 0 4  1 6 1 7 0 0 0 0  =22 =17  0 2 0 1 0 0  4/1 =22 =1 =2 2/1 =22 5/3 3*=22 =1 2/0 =8")
SHARED_AFTER = image("16 4 4 2 0 4  1 6 0 0 1 7 0 0  =33 =35  0 0 2 0 1 0  4/1 =33 =1 =2 2/1 =33 2/0 =8 5/3 3*=33 =1")
SHARED_BUT_CARD_1 = image("16 4 4 2 0 4  1 6 1 7 0 0 0 0  =22 =17  0 1 0 0 0  4/1 =22 =1 =2 2/1 =22 5/3 3*=22 =1 2/0 =8")
SHARED_BUT_CARD_0 = image("16 4 4 2 0 4  1 6 1 7 0 0 0 0  =22 =17  0 1 1 0 0  4/1 =22 =1 =2 2/1 =22 5/3 3*=22 =1 2/0 =8")
SHARED_WITHOUT_CARDS = image("16 4 4 2 0 4  1 6 1 7 0 0 0 0  =22 =17  4*0  4/1 =22 =1 =2 2/1 =22 5/3 3*=22 =1 2/0 =8")
GAP = image("16 4 4 3 0 4  1 12 1 9 0 0 0 0  =1 =17 =22  4*0  12/0 11*=0 5/0 4*=0 4/0 3*=0")
GAP_AFTER = image("16 4 4 3 0 4  0 0 0 0 1 12 1 9  =33 =49 =54  4*0  12/0 11*=0 5/0 4*=0 4/0 3*=0")
THREE = image("16 4 6 3 0 6  1 4 1 4 1 2 6*0  =1 =17 =33  0 0 1 0 0 0 0  2/0 =1 2/0 =1 2/0 =1 2/0 =1 1/0 1/0")
THREE_AFTER = image("16 4 6 3 0 6  4*0 1 2 1 4 4*0  =49 =51 =33  6*0  1/0 1/0 2/0 =1 2/0 =1")
NO_ROOM = image("16 4 3 2 1 3  1 12 1 5 0 0  =1 =17  0  3*0  12/0 11*=0 5/0 4*=0")
HUMONGOUS = image("16 4 6 1 0 6  2 16 3 16 3 8 1 2 4*0  =1  3*0 1 4 0 0  40/20 16*=0 =49 22*=0 2/0 =4")
HUMONGOUS_WITHOUT_CARDS = image("16 4 6 1 0 6  2 16 3 16 3 8 1 2 4*0  =1  6*0  40/20 16*=0 =49 22*=0 2/0 =4")
HUMONGOUS_AFTER = image("16 4 6 1 0 6  2 16 3 16 3 8 2*0 1 2 2*0  =1  4*0 1 4 0  40/20 16*=0 =65 22*=0 2/0 =4")
NAMED_BY_UNNAMED = image("16 4 6 1 0 6  2 16 3 4 2 16 3 4 1 2 0 0  =65  2*0 1 0 3*0  20/1 =33 18*=0 20/0 19*=0 2/1 =0")
NAMED_BY_UNNAMED_AFTER = image("16 4 6 1 0 6  4*0 2 16 3 4 1 2 0 0  =65  6*0  20/0 19*=0 2/1 =0")
NAMED_BY_UNNAMED_END = image("16 4 6 1 0 6  8*0 1 2 0 0  =65  6*0  2/1 =0")
OWN_SLOT = image("16 4 3 0 0 3  2 16 3 16 3 8  1 4 2*0  40/20 16*=0 =1 22*=0")
OWN_SLOT_AFTER = image("16 4 3 0 0 3  6*0  3*0")
HELD = image("16 4 5 0 0 5  1 2 2 16 3 4 4*0  0 1 0 3*0  2/1 =17 20/0 19*=0")
HELD_AFTER = image("16 4 5 0 0 5  10*0  5*0")
UNNAMED_OWNER = image("16 4 6 0 0 6  2 16 3 16 3 8 1 2 4*0  3*0 1 4 0 0  40/20 16*=0 =49 22*=0 2/0 =4")
UNNAMED_OWNER_AFTER = image("16 4 6 0 0 6  8*0 1 2 2*0  6*0  2/0 =4")


def numbers(*values):
    return struct.pack(f"<{len(values)}I", *values)


def long_chain():
    """100,000 objects of two words from address 0 on: each names the one before it, and the root the last."""
    pairs = b"".join(struct.pack("<2IQ", 1, 2, max(0, 2 * number - 1)) for number in range(100_000))
    regions = numbers(*[1, 4096] * 48, 1, 3392, *[0, 0] * 79)
    remembered = numbers(*(number for region in range(48) for number in (1, 64 * (region + 1))), *[0] * 80)
    return b"G1IMAGE1" + numbers(4096, 64, 128, 1, 0, 128) + regions + struct.pack("<Q", 199_999) + remembered + pairs


def many_slots():
    """49,152 objects of two words over regions 0 to 23: the slot of each names the one object of region 24."""
    pairs = struct.pack("<2IQ", 1, 2, 24 * 4096 + 1) * (24 * 2048)
    regions = numbers(*[1, 4096] * 24, 1, 2, *[0, 0] * 7)
    remembered = numbers(*[0] * 24, 24 * 1024, *range(24 * 1024), *[0] * 7)
    return b"G1IMAGE1" + numbers(4096, 4, 32, 0, 0, 32) + regions + remembered + pairs + struct.pack("<2IQ", 0, 2, 7)


def all_dirty():
    """65 regions, all of whose 1,064,960 cards are dirty: the slot of the one object of region 64 names that of region 0."""
    cards = 65 * 16_384
    front = numbers(65_536, 4, 65, 0, cards, 65) + numbers(*[1, 2] * 65) + numbers(*range(cards - 1, -1, -1))
    return b"G1IMAGE1" + front + numbers(*[0] * 65) + struct.pack("<2IQ", 0, 2, 0) * 64 + struct.pack("<2IQ", 1, 2, 1)
