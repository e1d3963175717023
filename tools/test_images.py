#!/usr/bin/env python3
"""Tests of what the tools read and make of heaps, without a program of ours: test_images.py [-v]

Heap dumps are made here by hand, with identifiers of 4 and of 8 bytes, and the images expected of them were laid out by
hand. Each image that is made of one is read and judged by tools/lib/image_text.py, and that by texts that are laid here. A
picture is made of what a stand-in for g1pause says, and looked at box by box. The collector of tools/opponent.py is tried
on heaps laid by hand, and the walk of examples/ocaml on values of OCaml, if a compiler is there.
"""
import argparse
import contextlib
import io
import pathlib
import random
import re
import shutil
import struct
import subprocess
import sys
import tempfile
import unittest

TOP = pathlib.Path(__file__).resolve().parent.parent
sys.dont_write_bytecode = True
sys.path[:0] = [str(TOP / "tools"), str(TOP / "tools" / "lib")]

import heap_image  # noqa: E402
import hprof2image  # noqa: E402
import image_text  # noqa: E402
import random_heaps  # noqa: E402
import opponent  # noqa: E402
import programs  # noqa: E402
import stepping  # noqa: E402

OBJECT, A, ARRAY = 0x10, 0x20, 0x30  # classes
INT, BYTE, LONG, REFERENCE = 10, 8, 11, 2
ROOTS = {0xFF: 0, 1: None, 2: 8, 3: 8, 4: 4, 5: 0, 6: 4, 7: 0, 8: 8}


class Maker:
    """Makes a dump with identifiers of this many bytes."""

    def __init__(self, id_bytes):
        self.id_bytes = id_bytes

    def ids(self, *names):
        return b"".join(name.to_bytes(self.id_bytes, "big") for name in names)

    def kind(self, name, above, statics=b"", count=0, fields=()):
        body = self.ids(name) + bytes(4) + self.ids(above, 0, 0, 0, 0, 0) + bytes(4) + struct.pack(">H", 0)
        body += struct.pack(">H", count) + statics + struct.pack(">H", len(fields))
        return b"\x20" + body + b"".join(self.ids(1) + bytes([kind]) for kind in fields)

    def instance(self, name, kind, reference, number):
        fields = self.ids(reference) + struct.pack(">i", number)
        return b"\x21" + self.ids(name) + bytes(4) + self.ids(kind) + struct.pack(">I", len(fields)) + fields

    def objects(self, name, kind, *elements):
        return b"\x22" + self.ids(name) + struct.pack(">II", 0, len(elements)) + self.ids(kind, *elements)

    def primitives(self, name, kind, count, data):
        return b"\x23" + self.ids(name) + struct.pack(">IIB", 0, count, kind) + data

    def root(self, tag, name):
        tail = self.id_bytes if ROOTS[tag] is None else ROOTS[tag]
        return bytes([tag]) + self.ids(name) + bytes(tail)

    def dump(self, *segments):
        records = [(0x01, self.ids(1) + b"a name"), *((0x1C, segment) for segment in segments), (0x2C, b"")]
        body = b"".join(struct.pack(">BII", tag, 0, len(data)) + data for tag, data in records)
        return b"JAVA PROFILE 1.0.2\0" + struct.pack(">IQ", self.id_bytes, 0) + body

    def heap(self):
        """Three classes, two instances, three arrays; the last array is humongous where a region has 16 words."""
        statics = self.ids(1) + bytes([REFERENCE]) + self.ids(0x100) + self.ids(1) + bytes([INT]) + struct.pack(">i", 5)
        classes = [self.kind(OBJECT, 0), self.kind(A, OBJECT, statics, 2, [REFERENCE, INT]), self.kind(ARRAY, OBJECT)]
        longs = b"".join(struct.pack(">q", i) for i in range(12))
        objects = [self.instance(0x100, A, 0x200, 7), self.objects(0x200, ARRAY, 0x100, 0, 0x999),
                   self.primitives(0x300, BYTE, 3, b"\1\2\3"), self.primitives(0x400, LONG, 12, longs),
                   self.instance(0x500, A, 0x400, -1)]
        roots = [self.root(tag, A if tag == 5 else 0x100) for tag in ROOTS]
        return self.dump(b"".join(classes + objects[:2]), b"".join(objects[2:] + roots))


def header(size, slots):
    return size << 32 | slots


# The image of Maker.heap with W 16, K 4, N 6, by hand.
WORDS = [
    [header(6, 4), 0, 0, 0, 0, OBJECT, header(8, 5), 1, 0, 0, 0, 23, A, 5],
    [header(6, 4), 1, 0, 0, 0, ARRAY, header(4, 1), 27, A, 7, header(5, 3), 23, 0, 0, ARRAY],
    [header(3, 0), BYTE << 32 | 3, 0x030201, header(4, 1), 49, A, 0xFFFFFFFF],
    [header(14, 0), LONG << 32 | 12, *range(12)],
]
TABLE = [(1, 14), (1, 15), (1, 7), (2, 14), (0, 0), (0, 0)]
ROOT_WORDS = [7 if tag == 5 else 23 for tag in ROOTS] + [1, 17]
SETS = [[4], [2], [], [9], [], []]


def by_hand():
    parts = [b"G1IMAGE2", struct.pack("<6I", 16, 4, 6, len(ROOT_WORDS), 0, 6)]
    parts += [struct.pack("<3I", *row, 0) for row in TABLE] + [struct.pack("<Q", word) for word in ROOT_WORDS]
    parts += [struct.pack(f"<{1 + len(cards)}I", len(cards), *cards) for cards in SETS]
    parts += [struct.pack("<Q", word) for words in WORDS for word in words]
    return b"".join(parts)


def converted(data, region_words=16, card_words=4, regions=6, blank=False):
    """The image of a dump, which has no fault, and what is reported."""
    dump = hprof2image.Dump(io.BytesIO(data))
    index = hprof2image.Index(dump)
    conversion = hprof2image.Conversion(dump, index, region_words, card_words, regions, blank)
    errors, image = io.StringIO(), io.BytesIO()
    agree = hprof2image.told(conversion, index, errors)
    conversion.image.write(image)
    fault = image_text.fault_of(image.getvalue(), True)
    if fault is not None:
        raise AssertionError(f"the image has fault {fault}")
    return image.getvalue(), errors.getvalue(), agree


class Dumps(unittest.TestCase):
    def test_the_image_is_the_one_laid_out_by_hand(self):
        for id_bytes in (4, 8):
            image, told, agree = converted(Maker(id_bytes).heap())
            self.assertEqual(image, by_hand())
            self.assertTrue(agree)
            self.assertIn("8 objects, 6 references, 192 bytes of data with the sum", told)
            self.assertIn("1 references to what is not in the dump", told)

    def made_of(self, *objects):
        """The regions and the remembered sets of an image, which begins with three classes of six words: at 0, 6 and 16."""
        make = Maker(8)
        classes = make.kind(OBJECT, 0), make.kind(A, OBJECT, fields=[REFERENCE, INT]), make.kind(ARRAY, OBJECT)
        image, _told, agree = converted(make.dump(b"".join([*classes, *objects])), regions=6)
        self.assertTrue(agree)
        _w, _k, _n, regions, _roots, _log, sets, _used, _current = image_text.read(image)
        return [region[:2] for region in regions], sets

    def test_a_set_has_each_card_of_the_slots_that_lead_in(self):
        """By hand: objects of four words at 22, 26 and 32. The slots at 23 and 27, on the cards 5 and 6, reference the last
        one; the slot at 17, of the third class, references the first class."""
        make = Maker(8)
        regions, sets = self.made_of(make.instance(0x100, A, 0x300, 7), make.instance(0x200, A, 0x300, 7), make.instance(0x300, A, 0, 7))
        self.assertEqual((regions[:4], sets), ([(1, 12), (1, 14), (1, 4), (0, 0)], [[4], [], [5, 6], [], [], []]))

    def test_a_set_rises_where_a_humongous_object_stands_above_a_later_one(self):
        """By hand: an array of 13 words has region 2, and the object of four words behind it in the dump is at 22. The slots at
        33 and 23, on the cards 8 and 5, reference the first class."""
        make = Maker(8)
        regions, sets = self.made_of(make.objects(0x100, ARRAY, OBJECT, *[0] * 10), make.instance(0x200, A, OBJECT, 7))
        self.assertEqual((regions[:4], sets), ([(1, 12), (1, 10), (2, 13), (0, 0)], [[4, 5, 8], [], [], [], [], []]))

    def test_an_object_of_three_quarters_of_a_region_is_not_humongous(self):
        make = Maker(8)
        self.assertEqual(self.made_of(make.objects(0x100, ARRAY, *[0] * 10))[0][:4], [(1, 12), (1, 6), (1, 12), (0, 0)])
        self.assertEqual(self.made_of(make.objects(0x100, ARRAY, *[0] * 11))[0][:4], [(1, 12), (1, 6), (2, 13), (0, 0)])

    def test_a_blank_image_has_labels_and_no_data(self):
        words = [part[:] for part in WORDS]
        for region, place in ((0, 13), (1, 9), (2, 2), (2, 6), *((3, 2 + i) for i in range(12))):
            words[region][place] = 0
        blank = b"".join(struct.pack("<Q", word) for part in words for word in part)
        self.assertEqual(converted(Maker(8).heap(), blank=True)[0], by_hand()[:-len(blank)] + blank)

    def test_every_cut_is_refused(self):
        for id_bytes in (4, 8):
            data = Maker(id_bytes).heap()
            for length in range(len(data)):
                with self.assertRaises(hprof2image.Refusal) as caught:
                    converted(data[:length])
                self.assertEqual(caught.exception.status, 3, length)

    def test_a_changed_byte_gives_an_image_or_one_line(self):
        data = Maker(8).heap()
        for at in range(len(data)):
            for flip in (0x01, 0x80, 0xFF):
                with contextlib.suppress(hprof2image.Refusal):
                    _image, _told, agree = converted(data[:at] + bytes([data[at] ^ flip]) + data[at + 1:])
                    self.assertTrue(agree, at)

    def test_other_files_are_told_by_what_they_are(self):
        data = Maker(8).heap()
        for other, text in ((data.replace(b"1.0.2", b"1.0.3"), "version 'JAVA PROFILE 1.0.3'"),
                            (b"\x1f\x8b" + data, "gunzip"), (b"not a dump at all, but long enough", "not a heap dump"),
                            (b"", "not a heap dump"), (data[:19] + struct.pack(">I", 6) + data[23:], "of 6 bytes")):
            with self.assertRaisesRegex(hprof2image.Refusal, text):
                converted(other)

    def test_what_would_fit_is_told(self):
        with self.assertRaisesRegex(hprof2image.Refusal, "N from 4 to 4096 holds them") as caught:
            converted(Maker(8).heap(), regions=3)
        self.assertEqual(caught.exception.status, 5)
        self.assertEqual(converted(Maker(8).heap(), regions=4)[0][16:20], struct.pack("<I", 4))

    def test_no_heap_at_all_is_told(self):
        self.assertIn("W 4096 with N from 4096 to 4096", str(hprof2image.too_many([(8192, 2048)], 16, 9, 512 * 2048)))
        self.assertIn("no heap holds them", str(hprof2image.too_many([(1 << 23, 33)], 4096, 9, 33 * 2048)))

    def test_a_dump_in_one_record_needs_no_end(self):
        make = Maker(8)
        whole = make.dump(make.kind(OBJECT, 0)).replace(b"\x1c" + bytes(7), b"\x0c" + bytes(7))
        self.assertEqual(converted(whole)[0], converted(whole[:-9])[0])

    def test_an_image_that_lost_something_is_told(self):
        dump = hprof2image.Dump(io.BytesIO(Maker(8).heap()))
        index = hprof2image.Index(dump)
        for at in (8 * 1, 8 * 5, 8 * 7, 8 * 13 + 3, 8 * 48):  # two slots, a label, a byte of data, a header
            conversion = hprof2image.Conversion(dump, index, 16, 4, 6)
            self.assertTrue(hprof2image.told(conversion, index, io.StringIO()))
            conversion.image.words[at] ^= 1
            if hprof2image.told(conversion, index, io.StringIO()):
                self.fail(f"a change of byte {at} is not reported")

    def test_too_many_roots_are_held_by_arrays(self):
        make = Maker(8)
        roots = make.root(0xFF, OBJECT) * 65600
        image, told, agree = converted(make.dump(make.kind(OBJECT, 0) + roots), regions=8)
        count, = struct.unpack_from("<I", image, 20)
        self.assertEqual(count, 65536)
        self.assertIn("65600 roots", told)
        self.assertTrue(agree)
        self.assertEqual(image.count(struct.pack("<Q", 1)), 65600)


SAYS = """#!{python}
import sys
print({{"show": "heap 16 4 4 roots 1 dirty 0 current none\\n"
  "region 0 humongous top 16 objects 1 cards 1\\nregion 1 continuation top 4 objects 0 cards 0\\n"
  "region 2 ordinary top 8 objects 2 cards 4 pinned\\nregion 3 free top 0 objects 0 cards 0",
  "live": "region 0 live 160\\nregion 1 live 0\\nregion 2 live 16\\nregion 3 live 0",
  "choose": "region 2 cost 1 garbage 48 taken\\ntotal 1"}}[sys.argv[1]])
"""


# The second heap that is shown: the humongous object is gone, and region 3 has what survived.
AFTER = """#!{python}
import sys
new = open(0, "rb").read(1) != b""
print({{"show": "heap 16 4 4 roots 1 dirty 0 current none\\nregion 0 " + ("free top 0 objects 0 cards 0" if new else
  "humongous top 16 objects 1 cards 0") + "\\nregion 1 " + ("free top 0 objects 0 cards 0" if new else
  "continuation top 4 objects 0 cards 0") + "\\nregion 2 ordinary top 8 objects 2 cards 0\\nregion 3 " + (
  "ordinary top 2 objects 1 cards 0" if new else "free top 0 objects 0 cards 0"),
  "live": "region 0 live 0\\nregion 1 live 0\\nregion 2 live 16\\nregion 3 live 0"}}[sys.argv[1]])
"""

# A dead humongous object of 20 words, and one of 20 words of which nothing is said to be dead.
HUMONGOUS = """#!{python}
import sys
print({{"show": "heap 16 4 5 roots 1 dirty 0 current none\\nregion 0 humongous top 16 objects 1 cards 0\\n"
  "region 1 continuation top 4 objects 0 cards 0\\nregion 2 humongous top 16 objects 1 cards 0\\n"
  "region 3 continuation top 4 objects 0 cards 0\\nregion 4 free top 0 objects 0 cards 0",
  "live": "region 0 live 0\\nregion 1 live 0\\nregion 2 live 160\\nregion 3 live 0\\nregion 4 live 0"}}[sys.argv[1]])
"""

# Region 0 receives what survives of region 1.
FILLED = """#!{python}
import sys
new = open(0, "rb").read(1) != b""
free, used = "free top 0 objects 0 cards 0", "ordinary top 2 objects 1 cards 0"
print({{"show": "heap 16 4 2 roots 1 dirty 0 current none\\nregion 0 " + (used if new else free) + "\\nregion 1 " + (free if new else used),
  "live": "region 0 live 0\\nregion 1 live 0"}}[sys.argv[1]])
"""

LARGE = """#!{python}
print("heap 16 4 65 roots 0 dirty 0 current none")
"""

STEPS = """#!{python}
import sys
print("heap 16 4 1 roots 0 dirty 0 current none")
print({{"print": "region 0 free top 0 objects 0 cards 0", "explain": "set -"}}[sys.argv[1]])
"""

# What explain is asked stands in its line.
ASKED = STEPS.replace('"set -"', '" ".join(sys.argv[3:])')


class Pictures(unittest.TestCase):
    def run_picture(self, *options, says=SAYS, check=False):
        with tempfile.TemporaryDirectory() as room:
            program = pathlib.Path(room) / "says"
            program.write_text(says.format(python=sys.executable))
            program.chmod(0o755)
            (pathlib.Path(room) / "after").write_bytes(b"x")
            options = [option.format(program=program, room=room) for option in options]
            words = [sys.executable, str(TOP / "tools/picture.py"), "--program", str(program), "/dev/null", *options]
            return subprocess.run(words, capture_output=True, text=True, check=check)

    def picture(self, *options):
        return self.run_picture(*options, check=True).stdout

    def test_the_numbers_are_those_of_the_program(self):
        text = self.picture()
        self.assertIn("live 22 words, garbage 6, free 36", text)  # 20 of the humongous object and 2 of region 2
        self.assertEqual(text.count('class="pin"'), 2)  # in the cell and in the legend
        self.assertNotIn('class="set"', text)

    def test_the_collection_set_is_framed(self):
        self.assertEqual(self.picture("--budget", "5").count('class="set"'), 2)
        self.assertEqual(self.picture("--set", "0,2").count('class="set"'), 3)

    def test_the_pointer_reads_a_regions_numbers(self):
        text = self.picture("--budget", "5")
        self.assertIn("<title>region 2 ordinary, top 8, live 25%, 4 cards, pinned, cost 1, taken</title>", text)
        self.assertIn("<title>region 3 free</title>", text)
        self.assertIn("<title>region 1 continuation, top 4, live 100%, 0 cards</title>", text)

    def boxes(self, text, name):
        """The rectangles of a class in the picture, without the legend: left, top, width and height of each."""
        path = re.search(rf'<path class="{name}" d="([^"]+)"', text)
        found = re.findall(r"M([\d.]+) ([\d.]+)h([\d.]+)v([\d.]+)h-", path[1]) if path else []
        return [tuple(map(float, box)) for box in found if box[2:] != ("13", "13")]

    def assert_near(self, found, expected):
        self.assertEqual(len(found), len(expected))
        for number, other in zip(found, expected):
            self.assertAlmostEqual(number, other, delta=0.03)

    def test_words_stand_on_the_floor_as_high_as_they_are_many(self):
        """Of region 2, of 16 words, two are live and six are garbage."""
        text = self.picture()
        (left, top, width, side), = self.boxes(text, "ordinary")
        (live,), (garbage,) = self.boxes(text, "live-ordinary"), self.boxes(text, "garbage-ordinary")
        self.assert_near(live, (left, top + side - side * 2 / 16, width, side * 2 / 16))
        self.assert_near(garbage, (left, top + side - side * 8 / 16, width, side * 6 / 16))

    def test_bars_compare_the_sets_of_regions(self):
        """Region 0 remembers one card and region 2 four, which is the most."""
        text = self.picture()
        (_, top, _, side), = self.boxes(text, "ordinary")
        bars = self.boxes(text, "cards")
        self.assert_near([height for *_, height in bars], [side / 4, side])
        self.assert_near([bar[1] + bar[3] for bar in bars], [top + side, top + side])

    def test_each_region_of_a_humongous_object_is_live_or_garbage(self):
        text = self.run_picture(says=HUMONGOUS, check=True).stdout
        self.assertIn("live 20 words, garbage 20, free 40", text)
        cells = self.boxes(text, "humongous")
        garbage, live = self.boxes(text, "garbage-humongous"), self.boxes(text, "live-humongous")
        side = cells[0][3]
        self.assertEqual([box[0] for box in garbage + live], [box[0] for box in cells])
        self.assert_near([height for *_, height in garbage + live], [side, side / 4] * 2)
        self.assertIn("<title>region 1 continuation, top 4, live 0%, 0 cards</title>", text)
        self.assertIn("<title>region 3 continuation, top 4, live 100%, 0 cards</title>", text)

    def test_region_0_may_be_filled(self):
        text = self.run_picture("{room}/after", says=FILLED, check=True).stdout
        self.assertEqual([text.count(f'class="{name}"') for name in ("filled", "freed")], [2, 2])  # and in the legend
        _before, (left, top, _, _) = self.boxes(text, "ordinary")
        x, y, line = map(float, re.search(r'class="filled" x="([\d.]+)" y="([\d.]+)"[^>]*stroke-width="([\d.]+)"', text).groups())
        self.assert_near((x, y), (left + line / 2, top + line / 2))

    def test_the_steps_are_those_of_the_choice(self):
        for words, asked in (("--budget 5", "--budget 5"), ("--set 0", "--set 0"), ("--budget 70 --card 7 --byte 0", "--card 7 --byte 0 --budget 70"),
                             ("", "")):
            text = self.run_picture("--steps", "--g1heap", "{program}", *words.split(), says=ASKED, check=True).stdout
            self.assertIn(f'"explain":["heap 16 4 1 roots 0 dirty 0 current none","{asked}"]', text)

    def test_frames_of_neighbours_do_not_touch(self):
        frames = re.findall(r'class="set" x="([0-9.]+)" y="[0-9.]+" width="([0-9.]+)"[^>]*stroke-width="([0-9.]+)"', self.picture("--set", "0,1"))
        (left, width, line), (right, *_) = [tuple(map(float, frame)) for frame in frames[:2]]
        self.assertLess(left + width + line, right)

    def test_a_bar_is_beside_the_words_and_not_on_them(self):
        text = self.picture()
        x, width = map(float, re.search(r'<path class="ordinary" d="M([0-9.]+) [0-9.]+h([0-9.]+)v', text).groups())
        bars = re.search(r'<path class="cards" d="([^"]+)"', text).group(1)
        self.assertIn(True, [x + width < float(bar) < x + 72 for bar in re.findall(r"M([0-9.]+) ", bars)])

    def test_what_a_pause_freed_and_filled_is_framed(self):
        text = self.run_picture("{room}/after", says=AFTER, check=True).stdout
        self.assertEqual(text.count('class="freed"'), 3)  # both regions of the humongous object, and the legend
        self.assertEqual(text.count('class="filled"'), 2)

    def test_a_region_of_the_set_that_is_not_there_is_refused(self):
        done = self.run_picture("--set", "2,4")
        self.assertEqual((done.returncode, done.stdout), (2, ""))
        self.assertEqual(done.stderr, "picture: /dev/null: region 4 is not there: the heap has 4\n")

    def test_a_large_heap_of_which_no_region_is_collected_has_no_steps(self):
        done = self.run_picture("--steps", "--g1heap", "{program}", says=LARGE)
        self.assertEqual(done.returncode, 2)
        self.assertIn("65 regions of 16 words: of a heap of more than 64 regions of 64 words the stepping page shows what a pause collects "
                      "and fills, and this pause collects no region: choose some by --set", done.stderr)

    def test_the_window_of_a_large_heap_is_what_a_pause_collects_and_fills(self):
        printed = ["heap 128 64 100 roots 3 dirty 1 current none", "root 0 256", "root 1 -", "root 2 512", "dirty cards 9",
                   "region 2 ordinary top 4 objects 1 cards 1", "remembered 2 cards 9", "object 256 4/1 512 7 8",
                   "region 4 ordinary top 2 objects 1 cards 0", "object 512 2/0 3", "region 7 free top 0 objects 0 cards 0"]
        explained = ["heap 128 64 100 roots 3 dirty 1 current none", "covered", "dirty 9 adds 2", "dirty 8 adds 4", "dirty 7 adds -", "set 2",
                     "card 9 slots 600", "card 8 slots -", "survivor 256 4/1 by root 0", "room need 1 free 95", "place 256 at 896",
                     "root 0 from 256 to 896", "slot 600 from 256 to 896", "slot 897 from 1 to 2", "remembered 2 loses 9",
                     "remembered 4 gains 14", "region 2 free top 0", "region 7 ordinary top 4", "log empty"]
        window = stepping.Window(printed[0], explained)
        self.assertEqual(window.regions, {2, 7})
        self.assertEqual(list(window.heap(printed)), [*printed[:2], *printed[4:8], printed[10]])
        left_out = {"dirty 8 adds 4", "dirty 7 adds -", "card 8 slots -", "slot 600 from 256 to 896", "remembered 4 gains 14"}
        self.assertEqual(list(window.pause(explained)), [line for line in explained if line not in left_out])

    def test_a_window_that_is_too_large_is_refused(self):
        many = ["heap 1024 64 100 roots 0 dirty 0 current none", "set " + " ".join(map(str, range(17)))]
        with self.assertRaisesRegex(stepping.TooLarge, "the pause collects and fills 17 of them, and the stepping page shows at most 16"):
            stepping.page([many[0]], many, "title")
        lines = [*many[:1], "set 3", *["place 3072 at 4096"] * 20000]
        with self.assertRaisesRegex(stepping.TooLarge, "the pause has 20002 lines on these regions"):
            stepping.page([many[0]], lines, "title")

    def test_a_set_is_written_in_one_way(self):
        self.assertEqual(programs.regions("1,2,5-9,3-3"), [1, 2, 5, 6, 7, 8, 9, 3])
        for text in ("", "1,", "1-", "-1", "x", "1 2", "9-5", "0-4096", "1234567890"):
            with self.assertRaises(argparse.ArgumentTypeError):
                programs.regions(text)
        self.assertEqual(programs.regions("0-4095"), list(range(4096)))

    def test_a_set_that_is_not_what_was_freed_is_noted(self):
        done = self.run_picture("--set", "0,2", "{room}/after", says=AFTER, check=True)
        self.assertRegex(done.stderr, r"^picture: the set that is drawn is 0, 2, and the ordinary regions that were freed are [a-z0-9, ]+\n$")

    def test_the_steps_are_the_lines_of_explain(self):
        text = self.run_picture("--steps", "--g1heap", "{program}", says=STEPS).stdout
        self.assertIn('"explain":["heap 16 4 1 roots 0 dirty 0 current none","set -"]', text)
        self.assertNotIn("@", re.sub(r"@media", "", text))

    def test_a_page_holds_everything(self):
        text = self.picture("/dev/null", "--html", "--set", "2")
        self.assertIn("<th>before</th><th>after</th>", text)
        self.assertIn("<tr><td>garbage words</td><td>6</td><td>6</td></tr>", text)
        self.assertNotIn("http", text.replace("http://www.w3.org/2000/svg", ""))


@unittest.skipUnless(shutil.which("ocamlopt") and shutil.which("cc"), "no ocamlopt")
class OcamlWalk(unittest.TestCase):
    """The walk of examples/ocaml, compiled, on values of which it is known by hand what they reference."""

    VALUES = """
external walk : string -> 'a -> int = "g1_walk"
type two = First of int | Second of int
let rec even n = n = 0 || odd (n - one)
and odd n = n <> 0 && even (n - one)
and one = 1
let closures k = let rec f x = if x = 0 then k else g (x - 1) and g x = if x = 0 then k else f (x - 1) in (f, g)
let () =
  ignore (even 2);
  let f, g = closures (Array.length Sys.argv) in
  Printf.printf "%d %d %d\n" (walk "pair.txt" (f, g)) (walk "first.txt" (First Sys.word_size)) (walk "second.txt" (Second Sys.word_size))
"""

    def setUp(self):
        room = tempfile.TemporaryDirectory()
        self.addCleanup(room.cleanup)
        self.folder = pathlib.Path(room.name)
        version = subprocess.run(["ocamlopt", "-version"], capture_output=True, text=True, check=True).stdout
        if not re.match(r"4\.1[3-9]\.", version):
            self.skipTest(f"the walk is for OCaml 4.13 and later 4.x, and ocamlopt is {version.strip()}")

    def compiled(self, *files):
        for file in files:
            shutil.copy(TOP / "examples/ocaml" / file, self.folder)
        ml = [file for file in ("values.ml", "judge.ml") if (self.folder / file).exists()]
        subprocess.run(["ocamlopt", "-o", "program", "walk_stubs.c", *ml], cwd=self.folder, capture_output=True, check=True)

    def run_program(self, *words):
        return subprocess.run([self.folder / "program", *words], cwd=self.folder, capture_output=True, text=True, check=True, timeout=60).stdout

    def objects(self, name):
        """Each object of a file: its sizes and words, with names by the order of the objects."""
        lines = [line.split() for line in (self.folder / name).read_text().splitlines()]
        numbers = {line[1]: f"o{at}" for at, line in enumerate(line for line in lines if line[0] == "object")}
        found = []
        for line in (line for line in lines if line[0] == "object"):
            slots = int(line[2].split("/")[1])
            found.append([line[2], *(numbers.get(word, word) for word in line[3:3 + slots]), *line[3 + slots:]])
        return found

    def test_closures_in_one_block_are_one_object_and_tags_are_compared(self):
        (self.folder / "values.ml").write_text(self.VALUES)
        self.compiled("walk_stubs.c")
        self.assertEqual(self.run_program(), "2 1 1\n")
        pair, closure = self.objects("pair.txt")
        self.assertEqual(pair, ["6/2", "o1", "o1", "0", "0", "0"])  # both functions are in the one block, whose tag is 247
        sizes, *words = closure
        self.assertEqual(words[int(sizes.split("/")[1])], "247")
        # The field is the immediate 64, which is written as 129; tags count constructors.
        self.assertEqual(self.objects("first.txt"), [["4/1", "-", "0", "129"]])
        self.assertEqual(self.objects("second.txt"), [["4/1", "-", "1", "129"]])

    def test_the_change_of_the_example_is_one_slot(self):
        self.compiled("walk_stubs.c", "judge.ml")
        self.run_program("3")
        before, *same, changed = [self.objects(f"{name}.txt") for name in ("before", "minor", "major", "compact", "changed")]
        for objects in same:
            self.assertEqual(objects, before)
        differ = [(old, new) for old, new in zip(before, changed) if old != new]
        self.assertTrue(differ)
        old, new = differ[0]
        slots = int(old[0].split("/")[1])
        self.assertEqual(old[0], new[0])
        self.assertNotEqual(old[1:1 + slots], new[1:1 + slots])


class Texts(unittest.TestCase):
    """What tools/lib/image_text.py says of texts that are laid here by numbers. Regions have 16 words and cards have 4."""

    # Region 0 has an object whose slots reference the object of region 1 and the humongous one of regions 2 and 3, and one
    # whose slot references the first of these, too. The heading: sizes, roots, dirty cards, current.
    GOOD = {"heading": [16, 4, 5, 1, 1, 0], "table": [[1, 11, 0], [1, 2, 1], [2, 16, 0], [3, 4, 0], [0, 0, 0]], "roots": [17],
            "log": [8], "sets": [[], [0, 1], [0], [], []],
            "words": [[header(4, 2), 17, 33, 5, header(7, 1), 17, *[0] * 5], [header(2, 0), 9], [header(20, 1), *[0] * 15], [0] * 4, []]}

    def fault(self, cover=True, magic=b"G1IMAGE2", **changed):
        parts = {**self.GOOD, **changed}
        out = [magic, struct.pack("<6I", *parts["heading"]), *(struct.pack("<3I", *row) for row in parts["table"])]
        out += [struct.pack("<Q", word) for word in parts["roots"]] + [struct.pack("<I", card) for card in parts["log"]]
        out += [struct.pack(f"<{1 + len(cards)}I", len(cards), *cards) for cards in parts["sets"]]
        out += [struct.pack("<Q", word) for words in parts["words"] for word in words]
        return image_text.fault_of(b"".join(out), cover)

    def with_row(self, number, *row):
        return {"table": [list(row) if at == number else other for at, other in enumerate(self.GOOD["table"])]}

    def with_set(self, number, *cards):
        return {"sets": [list(cards) if at == number else other for at, other in enumerate(self.GOOD["sets"])]}

    def with_word(self, address, word):
        words = [part[:] for part in self.GOOD["words"]]
        words[address // 16][address % 16] = word
        return {"words": words}

    def test_a_good_text_is_an_images(self):
        self.assertIsNone(self.fault())
        self.assertIsNone(self.fault(log=[4], **self.with_set(1, 0, 1, 8)))  # stale cards
        self.assertIsNone(self.fault(log=[1], **self.with_set(1, 0)))  # a dirty card covers

    def test_each_rule_on_cards_is_kept(self):
        for number, cards in ((1, (0, 0, 1)), (1, (1, 0)), (1, (0, 1, 4)), (1, (0, 1, 16)), (1, (0, 1, 20)), (3, (0,)), (4, (0,)), (0, (1,))):
            self.assertEqual(self.fault(**self.with_set(number, *cards)), f"8: card of region {number}", cards)
        for log, place in (([16], 0), ([20], 0), ([8, 8], 1), ([8, 0, 8], 2)):
            self.assertEqual(self.fault(log=log, heading=[16, 4, 5, 1, len(log), 0]), f"8: card in log place {place}", log)

    def test_only_a_card_of_the_slot_covers_it(self):
        for cards, slot in (((), 1), ((0,), 5), ((1,), 1)):
            changed = self.with_set(1, *cards)
            self.assertEqual(self.fault(**changed), f"9: uncovered slot {slot}", cards)
            self.assertIsNone(self.fault(False, **changed), cards)
        self.assertEqual(self.fault(**self.with_set(2)), "9: uncovered slot 2")

    def test_only_ordinary_regions_are_pinned(self):
        for number, row in ((2, (2, 16, 1)), (3, (3, 4, 1)), (4, (0, 0, 1)), (0, (1, 11, 2))):
            self.assertEqual(self.fault(**self.with_row(number, *row)), f"16: flags of region {number}")

    def test_kinds_tops_and_current_are_judged(self):
        for number, row in ((0, (4, 11, 0)), (4, (5, 0, 0))):
            self.assertEqual(self.fault(**self.with_row(number, *row)), f"5: kind of region {number}")
        self.assertEqual(self.fault(heading=[16, 4, 5, 1, 1, 2]), "6: shape of region 2")
        self.assertEqual(self.fault(heading=[16, 4, 5, 1, 1, 4]), "6: shape of region 4")
        self.assertIsNone(self.fault(heading=[16, 4, 5, 1, 1, 5]))
        for address, word, number in ((0, header(5, 2), 0), (4, header(8, 1), 0), (16, header(13, 0), 1), (32, header(33, 1), 2), (32, header(12, 1), 2),
                                      (32, header(20, 20), 2), (0, header(4, 4), 0), (0, 0, 0)):
            self.assertEqual(self.fault(**self.with_word(address, word)), f"6: shape of region {number}", (address, word))

    def test_references_lead_to_objects(self):
        for root in (1 + 1, 6 + 1, 64 + 1, 2**64 - 1):
            self.assertEqual(self.fault(roots=[root]), "7: reference in root 0", root)
        for word in (18, 49, 65, 2**64 - 1):
            self.assertEqual(self.fault(**self.with_word(5, word)), "7: reference in slot 5", word)
        self.assertIsNone(self.fault(roots=[0]))

    def test_sizes_and_lengths_are_judged(self):
        self.assertEqual(self.fault(magic=b"G1IMAGE3"), "1: magic")
        for at, number in ((0, 24), (1, 32), (1, 2), (2, 0), (2, 4097), (3, 65537), (5, 6)):
            heading = self.GOOD["heading"][:]
            heading[at] = number
            self.assertEqual(self.fault(heading=heading), "2: geometry", (at, number))
        self.assertEqual(self.fault(heading=[16, 4, 5, 1, 2**32 - 1, 0]), "3: short")
        self.assertEqual(self.fault(words=self.GOOD["words"][:3]), "3: short")
        self.assertEqual(self.fault(words=[*self.GOOD["words"], [0]]), "4: trailing")


class Heaps(unittest.TestCase):
    """tools/lib/heap_image.py and the collector of tools/opponent.py, on a heap that is laid here."""

    def setUp(self):
        """Two slots of region 0, on the cards 0 and 2, reference the object of region 1, which a root references, too. Region
        2 is pinned."""
        image = self.image = heap_image.Image(16, 4, 5)
        image.words[0:4] = [header(4, 2), 17, 0, 5]
        image.words[4:10] = [header(6, 4), 0, 0, 0, 17, 6]
        image.words[16:18] = [header(2, 0), 9]
        image.words[32:34] = [header(2, 1), 33]
        image.kinds[:3], image.tops[:3] = [1, 1, 1], [10, 2, 2]
        image.roots, image.sets[1], image.log, image.current, image.pinned[2] = [17, 33], [0, 2], [9, 4], 0, True

    def test_an_image_comes_back_from_its_bytes(self):
        self.assertIsNone(image_text.fault_of(self.image.to_bytes(), True))
        for current in (0, 1, 2, None):
            self.image.current = current
            again = heap_image.from_bytes(self.image.to_bytes())
            self.assertEqual(vars(again), vars(self.image))

    def test_an_image_of_version_1_has_no_pins(self):
        self.image.pinned[2] = False
        data = self.image.to_bytes()
        table = b"".join(data[32 + 12 * region:40 + 12 * region] for region in range(5))
        again = heap_image.from_bytes(b"G1IMAGE1" + data[8:32] + table + data[92:])
        self.assertEqual(vars(again), vars(self.image))

    def test_exact_sets_have_each_card_of_the_slots_that_lead_in(self):
        self.image.sets = [[9], [], [0], [], []]
        self.image.make_exact()
        self.assertEqual(self.image.sets, [[], [0, 2], [], [], []])

    def test_objects_by_name_are_laid_out_end_to_end(self):
        objects = {"a": (["b", "c", None], [-1]), "b": (["a"], []), "c": ([], [7] * 20), "d": ([], [1] * 9)}
        image, places = heap_image.laid_out(["b", None], objects, 16, 4)
        # a has 5 words and b 2; d's 10 do not fit behind them; c has 21, more than 12, and so a run of two regions
        self.assertEqual(places, {"a": 0, "b": 5, "c": 32, "d": 16})
        self.assertEqual((image.kinds, image.tops), ([1, 1, 2, 3], [7, 10, 16, 5]))
        self.assertEqual(image.words[:7], [5 << 32 | 3, 6, 33, 0, (1 << 64) - 1, 2 << 32 | 1, 1])
        self.assertEqual(image.words[16:26], [10 << 32] + [1] * 9)
        self.assertEqual((image.words[32], image.words[33:53], image.roots), (21 << 32, [7] * 20, [6, 0]))
        self.assertEqual(image.sets, [[], [], [0], []])
        self.assertIsNone(image_text.fault_of(image.to_bytes(), True))

    def test_a_name_of_no_object_is_refused_or_behind_the_heap(self):
        objects = {"a": (["x", "y", "x"], [])}
        with self.assertRaises(KeyError):
            heap_image.laid_out(["a"], objects)
        image, _ = heap_image.laid_out(["a", "y"], objects, 16, 4, stale=True)
        self.assertEqual((image.words[1:4], image.roots), ([17, 18, 17], [1, 18]))

    def test_objects_that_no_image_holds_are_refused(self):
        with self.assertRaisesRegex(ValueError, "the objects take 4097 regions of 16 words"):
            heap_image.laid_out([], {number: ([], [0] * 11) for number in range(4097)}, 16, 4)

    def test_bytes_that_are_no_image_are_refused(self):
        whole = heap_image.Image(16, 4, 2).to_bytes()
        self.assertEqual(heap_image.from_bytes(whole).to_bytes(), whole)
        for data, text in ((b"", "it begins with"), (b"G1IMAGE3" + whole[8:], "it begins with"), (whole + b"\0", "1 bytes are behind it"),
                           (whole[:8] + struct.pack("<I", 16_777_216) + whole[12:], "2 regions of 16777216 words"),
                           *((whole[:end], "it is cut short") for end in range(8, len(whole)))):
            with self.assertRaisesRegex(ValueError, text):
                heap_image.from_bytes(data)

    def test_both_limits_are_those_of_the_page(self):
        """By hand: W and N*W at their limits, and one step beyond. No bytes are wanted but those of the heading."""
        for limits, width, words in ((heap_image.SPECIFICATION, 1 << 16, 1 << 24), (heap_image.WIDE, 1 << 22, 1 << 28)):
            for w, n, fault in ((width, 1, "3: short"), (2 * width, 1, "2: geometry"), (width, words // width, "3: short"),
                                (width, words // width + 1, "2: geometry"), (words // 4096, 4096, "3: short"), (16, 4097, "2: geometry")):
                data = b"G1IMAGE2" + struct.pack("<6I", w, 64 if w > 32 else 16, n, 0, 0, n)
                self.assertEqual(image_text.fault_of(data, True, limits), fault, (w, n))
        data = heap_image.Image(1 << 17, 64, 2).to_bytes()
        self.assertEqual(heap_image.from_bytes(data).region_words, 1 << 17)
        with self.assertRaisesRegex(ValueError, "no image: 2 regions of 131072 words"):
            heap_image.from_bytes(data, heap_image.SPECIFICATION)
        with self.assertRaisesRegex(ValueError, "the objects take 1 regions of 131072 words"):
            heap_image.laid_out([], {0: ([], [])}, 1 << 17, limits=heap_image.SPECIFICATION)

    def test_heaps_with_large_regions_are_images_with_much_behind_65536(self):
        tops, sizes, slots = [], [], []
        for seed in range(12):
            image = random_heaps.large_regions(random.Random(seed))
            self.assertIsNone(image_text.fault_of(image.to_bytes(), True))
            self.assertEqual(image.kinds[-1], heap_image.FREE)
            tops += image.tops
            sizes += [image.size(at) for at in image.objects()]
            slots += [slot % image.region_words for at in image.objects() for slot in image.slots(at) if image.words[slot]]
        self.assertTrue(max(tops) > 1 << 16 and max(sizes) > 1 << 16 and max(slots) > 1 << 16)

    def test_what_no_pause_collects_is_refused(self):
        self.image.kinds[3:], self.image.tops[3:] = [2, 3], [16, 4]
        self.image.words[48] = header(20, 0)
        self.assertEqual([opponent.refused(self.image, region) for region in range(-1, 6)], [True, False, False, True, True, True, True])
        self.image.kinds[1] = 0
        self.assertTrue(opponent.refused(self.image, 1))

    def test_the_opponent_leaves_an_image_after_a_pause(self):
        for seed in range(20):
            collector = opponent.Opponent(self.image, [1], random.Random(seed))
            after = collector.evacuate()
            self.assertIsNone(image_text.fault_of(after.to_bytes(), True))
            to = collector.copies[16]
            self.assertIn(to // 16, (3, 4))
            self.assertEqual((after.roots, after.words[1], after.words[8], after.words[to:to + 2]), ([to + 1, 33], to + 1, to + 1, [header(2, 0), 9]))
            self.assertEqual((after.kinds[1], after.tops[1], after.words[16:32]), (0, 0, [0] * 16))
            self.assertEqual((after.log, after.current, after.pinned), ([], None, [False, False, True, False, False]))
            self.assertEqual(after.sets[to // 16], [0, 2])
            self.assertEqual(after.words[32:34], [header(2, 1), 33])
        self.assertEqual(self.image.current, 0)  # the image before is as it was

    def test_the_script_refuses_a_pinned_region(self):
        with tempfile.TemporaryDirectory() as room:
            (pathlib.Path(room) / "image").write_bytes(self.image.to_bytes())
            words = [sys.executable, str(TOP / "tools/opponent.py"), "image", "after", "--set"]
            for region, status in (("2", 1), ("3", 1), ("1", 0)):
                done = subprocess.run([*words, region], cwd=room, capture_output=True, text=True, check=False)
                self.assertEqual((done.returncode, (pathlib.Path(room) / "after").exists()), (status, status == 0), done.stderr)


if __name__ == "__main__":
    unittest.main()
