#!/usr/bin/env python3
"""Tests of tools/hprof2image.py --from and of tools/hprof_path.py without a Java virtual machine: test_hprof.py [-v]

Heap dumps are made here by hand, with identifiers of 4 and of 8 bytes. The image and the names expected of them were
laid out by hand, too. Each image that a test makes is read and judged by tools/lib/image_text.py. The judges of
examples/hotspot are tried on what stand-ins for a JVM and for g1heap say.
"""
import argparse
import contextlib
import gzip
import hashlib
import io
import os
import pathlib
import random
import re
import shlex
import shutil
import struct
import subprocess
import sys
import tempfile
import unittest
import unittest.mock

sys.dont_write_bytecode = True
TOOLS = pathlib.Path(__file__).resolve().parent
HOTSPOT = TOOLS.parent / "examples" / "hotspot"
sys.path[:0] = [str(TOOLS), str(TOOLS / "lib"), str(HOTSPOT)]

import across  # noqa: E402
import hprof  # noqa: E402
import hprof2image  # noqa: E402
import hprof_fields  # noqa: E402
import hprof_graph  # noqa: E402
import image_text  # noqa: E402
import judge  # noqa: E402
import jvm  # noqa: E402
import plain_judge  # noqa: E402
import plants  # noqa: E402

REFERENCE, BYTE, INT = 2, 8, 10
OBJECT, NODE, MAIN, REF, WEAK, CLASS, NODES = range(0x10, 0x17)  # classes
FIRST, ARRAY, BYTES, WEAKLY, FAR, DEAD, NOWHERE = 0x100, 0x200, 0x300, 0x400, 0x500, 0x700, 0x600


class Maker:
    """Makes a dump with identifiers of so many bytes."""

    def __init__(self, id_bytes=8):
        self.id_bytes, self.texts = id_bytes, {}

    def ids(self, *names):
        return b"".join(name.to_bytes(self.id_bytes, "big") for name in names)

    def text(self, text):
        return self.texts.setdefault(text, 0x1000 + len(self.texts))

    def kind(self, name, above=OBJECT, fields=(), statics=()):
        body = self.ids(name) + bytes(4) + self.ids(above, 0, 0, 0, 0, 0) + bytes(4) + struct.pack(">H", 0)
        body += struct.pack(">H", len(statics))
        for field, kind, value in statics:
            body += self.ids(self.text(field)) + bytes([kind]) + value
        body += struct.pack(">H", len(fields))
        return b"\x20" + body + b"".join(self.ids(self.text(field)) + bytes([kind]) for field, kind in fields)

    def instance(self, name, kind, fields):
        return b"\x21" + self.ids(name) + bytes(4) + self.ids(kind) + struct.pack(">I", len(fields)) + fields

    def node(self, name, following, value, other, flag):
        fields = self.ids(following) + struct.pack(">i", value) + self.ids(other) + bytes([flag])
        return self.instance(name, NODE, fields)

    def objects(self, name, kind, *elements):
        return b"\x22" + self.ids(name) + struct.pack(">II", 0, len(elements)) + self.ids(kind, *elements)

    def heap(self, version=b"2", flag=1, array=None, more=b""):
        """A node with an array and bytes, and a weak reference to another node; the queue is not in the dump."""
        array = array or self.objects(ARRAY, NODES, FIRST, 0, NODE, WEAKLY)
        root = [("root", REFERENCE, self.ids(FIRST)), ("count", INT, bytes(4))]
        weak = [(field, REFERENCE) for field in ("referent", "queue", "next", "discovered")]
        node = [("next", REFERENCE), ("value", INT), ("other", REFERENCE), ("flag", BYTE)]
        classes = [self.kind(OBJECT, 0), self.kind(NODE, fields=node), self.kind(MAIN, statics=root),
                   self.kind(REF, fields=weak), self.kind(WEAK, REF), self.kind(CLASS), self.kind(NODES)]
        parts = [self.node(DEAD, FIRST, 1, FIRST, 1), self.node(FIRST, ARRAY, 7, BYTES, flag),
                 array, b"\x23" + self.ids(BYTES) + struct.pack(">IIB", 0, 3, BYTE) + b"\1\2\3",
                 self.instance(WEAKLY, WEAK, self.ids(FAR, NOWHERE, 0, 0)), self.node(FAR, 0, 9, 0, 0)]
        return self.dump(classes, [*parts, more], version)

    def dump(self, classes, objects, version=b"2", more=()):
        """The file of these parts. `more` has the names of further classes."""
        names = {OBJECT: "java/lang/Object", NODE: "pack/Node", MAIN: "pack/Main", REF: "java/lang/ref/Reference",
                 WEAK: "java/lang/ref/WeakReference", CLASS: "java/lang/Class", NODES: "[Lpack/Node;", **dict(more)}
        loads = [struct.pack(">I", 1) + self.ids(kind) + bytes(4) + self.ids(self.text(name))
                 for kind, name in names.items()]
        records = [(0x01, self.ids(number) + text.encode()) for text, number in self.texts.items()]
        records += [(0x02, load) for load in loads]
        parts = b"".join(classes + objects)
        records += [(0x1C, parts), (0x2C, b"")] if version == b"2" else [(0x0C, parts)]
        body = b"".join(struct.pack(">BII", tag, 0, len(data)) + data for tag, data in records)
        return b"JAVA PROFILE 1.0." + version + b"\0" + struct.pack(">IQ", self.id_bytes, 0) + body


def header(size, slots):
    return size << 32 | slots


def label(name):
    return int.from_bytes(hashlib.sha256(name.encode()).digest()[:8], "little")


# What hangs from pack.Main.root with W 16, K 4, N 4, by hand: the class at 0, the node at 2, the array at 7, the bytes
# at 13, the weak reference at 16. The array's slot at 11, on card 2, references region 1.
WORDS = [
    [header(2, 0), label("pack.Node.class"),
     header(5, 2), 8, 14, label("pack.Node"), 0x01_00000007,
     header(6, 4), 3, 0, 1, 17, label("pack.Node[]"),
     header(3, 0), BYTE << 32 | 3, 0x030201],
    [header(6, 4), 0, 0, 0, 0, label("java.lang.ref.WeakReference")],
]
NAMES = f"""\
root 0 pack.Main.root
type pack.Node.class slots data class
label {label("pack.Node.class")} pack.Node.class
object 0 pack.Node.class @0x11
type pack.Node slots next other data class value:int,flag:byte
label {label("pack.Node")} pack.Node
object 2 pack.Node @0x100
type pack.Node[] slots [] data class
label {label("pack.Node[]")} pack.Node[]
object 7 pack.Node[] @0x200
type byte[] slots data length byte[]
object 13 byte[] @0x300
type java.lang.ref.WeakReference slots referent queue next discovered data class
label {label("java.lang.ref.WeakReference")} java.lang.ref.WeakReference
object 16 java.lang.ref.WeakReference @0x400
"""


def image_of(words, sets, root=3):
    tops = [len(part) for part in words] + [0] * (4 - len(words))
    parts = [b"G1IMAGE2", struct.pack("<6I", 16, 4, 4, 1, 0, 4)]
    parts += [struct.pack("<3I", top > 0, top, 0) for top in tops] + [struct.pack("<Q", root)]
    parts += [struct.pack(f"<{1 + len(cards)}I", len(cards), *cards) for cards in sets]
    return b"".join(parts + [struct.pack("<Q", word) for part in words for word in part])


def judged(image):
    """The bytes of an image, which is one by an independent reading, and covered."""
    fault = image_text.fault_of(image, True)
    if fault is not None:
        raise AssertionError(f"the image has fault {fault}")
    return image


def converted(data, start="pack.Main.root", **changed):
    """The image, which has no fault, and the names of what hangs from a static field."""
    options = argparse.Namespace(start=[start], without=[], weak=False, dangling_null=False, blank=False,
                                 sizes=[16, 4, 4])
    vars(options).update(changed)
    graph, writer = hprof2image.converted_graph(options, hprof.Dump(io.BytesIO(data)), hprof.quiet)
    image, names = io.BytesIO(), io.StringIO()
    writer.image.write(image)
    hprof2image.write_names(names, graph, writer.starts)
    return judged(image.getvalue()), names.getvalue()


class Graphs(unittest.TestCase):
    def refused(self, status, text, data, *words, **changed):
        with self.assertRaisesRegex(hprof.Refusal, text) as caught:
            converted(data, *words, **changed)
        self.assertEqual(caught.exception.status, status)

    def test_the_image_is_the_one_laid_out_by_hand(self):
        for id_bytes in (4, 8):
            for version in (b"1", b"2"):
                image, names = converted(Maker(id_bytes).heap(version))
                self.assertEqual(image, image_of(WORDS, [[], [2], [], []]))
                self.assertEqual(names, NAMES)

    def test_each_value_has_its_lowest_byte_first(self):
        """By hand: a byte, a char, a long over two words and a double in an instance of 19 bytes, and arrays of each width. The
        converter of a whole dump and the one of a part of it write the same data words."""
        make, numbers = Maker(), {5: (2, "H"), 6: (4, "f"), 10: (4, "i"), 11: (8, "q"), 7: (8, "d")}
        more = make.kind(0x30, fields=[("small", BYTE), ("letter", 5), ("long", 11), ("double", 7)])
        more += make.instance(0x900, 0x30, b"\x85" + struct.pack(">Hqd", 0x1234, 0x0102030405060708, 1.5))
        arrays = {0xA00 + kind: (kind, [1, 2, 3]) for kind in numbers}
        for name, (kind, values) in arrays.items():
            more += b"\x23" + make.ids(name) + struct.pack(f">IIB3{numbers[kind][1]}", 0, 3, kind, *values)
        data = make.heap(array=make.objects(ARRAY, NODES, 0x900, *arrays), more=more)
        expected = [struct.pack("<BHqd5x", 0x85, 0x1234, 0x0102030405060708, 1.5)]
        for kind, (width, code) in numbers.items():
            expected.append(struct.pack("<2Q", header(2 + -(-3 * width // 8), 0), kind << 32 | 3) + struct.pack(f"<3{code}", 1, 2, 3))
        part, names = converted(data, sizes=None)
        dump = hprof.Dump(io.BytesIO(data))
        index = hprof2image.Index(dump)
        whole = io.BytesIO()
        hprof2image.Conversion(dump, index, 4096, 64, 2).image.write(whole)
        for words in expected:
            self.assertEqual((part.count(words), judged(whole.getvalue()).count(words)), (1, 1))
        self.assertIn(" data class small:byte,letter:char,long:long long:long,double:double double:double\n", names)

    def test_fields_are_listed_by_what_hangs_from_them(self):
        """By hand: five objects hang from the root, as in the image. The node that is far behind a weak reference hangs from a
        field alone, and two fields lead into a circle of three nodes, from which a fourth one hangs."""
        make = Maker()
        fields = [("far", FAR), ("circle", 0x900), ("way", 0x903), ("nothing", 0), ("nowhere", NOWHERE)]
        more = make.kind(0x31, statics=[(name, REFERENCE, make.ids(value)) for name, value in fields])
        more += b"".join(make.node(name, following, 0, other, 0) for name, following, other in
                         ((0x900, 0x901, 0), (0x901, 0x902, 0), (0x902, 0x900, 0x904), (0x903, 0x901, 0), (0x904, 0, 0)))
        dump = hprof.Dump(io.BytesIO(make.heap(more=more)))
        lines = hprof_fields.field_lines(dump)
        self.assertEqual(lines, ["5 class@31.way", "5 pack.Main.root", "4 class@31.circle", "1 class@31.far"])
        lines = hprof_fields.field_lines(dump, weak=True)
        self.assertEqual(lines[0], "6 pack.Main.root")

    def test_what_hangs_is_counted_as_one_walk_after_the_other_counts_it(self):
        chance = random.Random(1)
        for size in [*range(1, 12)] * 40:
            references = {i: tuple(chance.randrange(-1, size + 2) for _ in range(chance.randrange(3))) for i in range(size)}
            expected = {}
            for start in references:
                found = [start]
                for name in found:
                    found += dict.fromkeys(target for target in references[name] if target in references and target not in found)
                expected[start] = len(found)
            self.assertEqual(hprof_fields.counted(references, range(-1, size + 2)), expected, references)

    def threads(self, *frames, coder=0, text=b"main", old=False):
        """A dump with a thread, and what its frames hold. An old string has chars."""
        make, thread, string, letters = Maker(), 0x40, 0x41, 0x42
        kind, count, fields = (5, len(text) // 2, [("hash", INT)]) if old else (BYTE, len(text), [("coder", BYTE)])
        more = {thread: "java/lang/Thread", string: "java/lang/String"}
        classes = [make.kind(OBJECT, 0), make.kind(MAIN), make.kind(thread, fields=[("name", REFERENCE)]),
                   make.kind(0x43, thread, [("own", REFERENCE)]), make.kind(string, fields=[("value", REFERENCE), *fields]), make.kind(NODE, fields=[("next", REFERENCE)])]
        parts = [make.instance(0x900, 0x43, make.ids(0, 0x901)),
                 make.instance(0x901, string, make.ids(letters) + (bytes(4) if old else bytes([coder]))),
                 b"\x23" + make.ids(letters) + struct.pack(">IIB", 0, count, kind) + text,
                 *(make.instance(name, NODE, make.ids(following)) for name, following in ((0x100, 0x101), (0x101, 0), (0x102, 0)))]
        parts += [b"\x08" + make.ids(0x900) + struct.pack(">II", 7, 0)]
        parts += [bytes([tag]) + make.ids(name) + struct.pack(">II", number, frame) for tag, name, number, frame in frames]
        return make.dump(classes, parts, more=more)

    def test_what_a_thread_holds_is_there_frame_by_frame(self):
        """By hand: two frames of thread 7, and one of another thread. A frame holds an object twice."""
        frames = ((3, 0x102, 8, 0), (3, 0x101, 7, 2), (3, 0x100, 7, 1), (2, 0x100, 7, 1))
        _, names = converted(self.threads(*frames), "thread:main")
        self.assertEqual([line for line in names.splitlines() if line.startswith("root")],
                         ["root 0 thread:main[0]", "root 1 thread:main[1]", "root 2 thread:main[2]"])
        self.assertEqual(re.findall(r"@(\w+)$", names, re.M), ["0x100", "0x101"])
        _, names = converted(self.threads(*frames, coder=1, text="a б".encode("utf-16-le")), "thread:a б")
        self.assertIn("root 2 thread:a_б[2]", names)
        _, names = converted(self.threads(*frames, old=True, text="main".encode("utf-16-be")), "thread:main")
        self.assertIn("root 2 thread:main[2]", names)
        self.refused(2, "^thread:man: the dump has no thread 'man': is it main", self.threads(), "thread:man")
        self.assertEqual(converted(self.threads(), "thread:main")[1], "")

    def test_a_blank_image_has_labels_alone(self):
        words = [[0 if word in (0x01_00000007, 0x030201) else word for word in part] for part in WORDS]
        self.assertEqual(converted(Maker().heap(), blank=True)[0], image_of(words, [[], [2], [], []]))

    def test_a_field_can_be_left_out(self):
        image, names = converted(Maker().heap(), without=["pack.Node.other", "pack.Node.value"])
        self.assertNotIn("byte[]", names)  # it hangs from `other` alone
        node = struct.pack("<5Q", header(5, 2), 8, 0, label("pack.Node"), 0x01_00000000)
        self.assertIn(node, image)

    def test_a_reference_to_nothing_is_refused_with_its_path(self):
        self.refused(4, r"^pack.Main.root.next\[3\].queue references 0x600, but", Maker().heap(), weak=True)
        image, names = converted(Maker().heap(), weak=True, dangling_null=True)
        self.assertIn("@0x500", names)
        self.assertIn(struct.pack("<5Q", header(6, 4), 8, 0, 0, 0), image)

    def test_a_field_that_is_not_there_is_refused_with_those_that_are_like_it(self):
        data = Maker().heap()
        self.refused(2, "no class 'pack.Mian': is it pack.Main", data, "pack.Mian.root")
        self.refused(2, "pack.Main has no static field 'rot': is it root", data, "pack.Main.rot")
        self.refused(2, "this field is no reference", data, "pack.Main.count")
        self.refused(2, "pack.Node has no field 'nxt': is it next", data, without=["pack.Node.nxt"])

    def test_every_cut_is_refused(self):
        data = Maker().heap()
        for length in range(len(data)):
            with self.assertRaises(hprof.Refusal) as caught:
                converted(data[:length])
            self.assertEqual(caught.exception.status, 3, length)

    def test_a_changed_byte_gives_an_image_or_one_line(self):
        data = Maker().heap()
        for at in range(len(data)):
            for flip in (0x01, 0x80, 0xFF):
                with contextlib.suppress(hprof.Refusal):
                    converted(data[:at] + bytes([data[at] ^ flip]) + data[at + 1:])

    def test_objects_of_one_type_lie_end_to_end_over_regions(self):
        """Forty objects of three words. The node and the bytes leave room for two in region 0, the array of 42 words has
        the regions 1 to 3, and from region 4 on there are five to a region."""
        make, numbers = Maker(), range(0x900, 0x900 + 40)
        more = make.kind(0x30, fields=[("value", INT)])
        more += b"".join(make.instance(name, 0x30, struct.pack(">i", name)) for name in numbers)
        image, names = converted(make.heap(array=make.objects(ARRAY, NODES, *numbers), more=more), sizes=[16, 4, 64])
        starts = [int(line.split(" ")[1]) for line in names.splitlines() if " class@30 @" in line]
        self.assertEqual(starts, [8, 11, *(16 * (4 + i // 5) + 3 * (i % 5) for i in range(38))])
        for name in numbers:
            self.assertEqual(image.count(struct.pack("<3Q", header(3, 0), label("class@30"), name)), 1)

    def nodes(self, *nodes, more=b"", fields=(), root=0x100):
        """A dump whose field `root` leads to the first of these nodes: each has a name and what its two slots reference."""
        make = Maker()
        node = [("next", REFERENCE), ("value", INT), ("other", REFERENCE), ("flag", BYTE)]
        statics = [("root", REFERENCE, make.ids(root))]
        parts = [make.node(name, following, 7, other, 1) for name, following, other in nodes]
        return make.dump([make.kind(OBJECT, 0), make.kind(NODE, fields=node), make.kind(MAIN, statics=statics),
                          make.kind(CLASS, fields=fields), make.kind(NODES)], [*parts, more])

    def test_a_set_has_each_card_of_the_slots_that_lead_in(self):
        """By hand: nodes of five words at 0, 5, 10 and 16. The slots at 2, 7 and 12, on the cards 0, 1 and 3, reference the
        last one. That references the first and the second, by slots on card 4."""
        image, _ = converted(self.nodes((0x100, 0x200, 0x400), (0x200, 0x300, 0x400), (0x300, 0, 0x400), (0x400, 0x100, 0x200)))
        head, data = [header(5, 2)], [label("pack.Node"), 0x01_00000007]
        words = [[*head, 6, 17, *data, *head, 11, 17, *data, *head, 0, 17, *data], [*head, 1, 6, *data]]
        self.assertEqual(image, image_of(words, [[4], [0, 1, 3], [], []], root=1))

    def test_an_object_of_three_quarters_of_a_region_is_not_humongous(self):
        """By hand: arrays of 10 and of 11 elements have 12 and 13 words. Arrays of one length lie together, in the order of the
        dump: the longer one takes region 1, behind the node and the other one in region 0."""
        make, long, longer = Maker(), 0x800, 0x900
        more = make.objects(long, NODES, *[0x100] * 10) + make.objects(longer, NODES, *[long] * 11)
        image, names = converted(self.nodes((0x100, longer, 0), more=more))
        starts = {line.split(" ")[3]: int(line.split(" ")[1]) for line in names.splitlines() if line.startswith("object ")}
        self.assertEqual(starts, {"@0x100": 0, "@0x800": 16, "@0x900": 32})
        _w, _k, _n, regions, *_ = image_text.read(image)
        self.assertEqual(regions, [(1, 5, 0), (1, 12, 0), (2, 13, 0), (0, 0, 0)])

    def test_a_mirror_of_a_primitive_type_has_no_fields(self):
        """The node at 0 references it, and nothing references the node that its field does."""
        more = Maker().instance(0x900, CLASS, Maker().ids(0x200) + bytes(4))
        fields = [("loader", REFERENCE), ("hash", INT)]
        image, names = converted(self.nodes((0x100, 0x900, 0), (0x200, 0, 0), more=more, fields=fields))
        words = [[header(5, 2), 6, 0, label("pack.Node"), 0x01_00000007, header(2, 0), label("primitive.class")]]
        self.assertEqual(image, image_of(words, [[], [], [], []], root=1))
        self.assertIn("type primitive.class slots data class\n", names)
        self.assertNotIn("@0x200", names)

    def test_two_types_of_one_name_have_lines_of_their_own(self):
        make = Maker()
        classes = [make.kind(OBJECT, 0), make.kind(MAIN, statics=[("root", REFERENCE, make.ids(ARRAY))]), make.kind(NODES),
                   make.kind(0x30, fields=[("first", INT)]), make.kind(0x31, fields=[("second", REFERENCE)])]
        parts = [make.objects(ARRAY, NODES, 0x900, 0x901), make.instance(0x900, 0x30, bytes(4)),
                 make.instance(0x901, 0x31, make.ids(ARRAY))]
        _, names = converted(make.dump(classes, parts, more={0x30: "pack/Pair", 0x31: "pack/Pair"}))
        found = [line for line in names.splitlines() if "pack.Pair" in line]
        number = label("pack.Pair")
        self.assertEqual(found, ["type pack.Pair slots data class first:int", f"label {number} pack.Pair", "object 4 pack.Pair @0x900",
                                 "type pack.Pair#2 slots second data class", f"label {number} pack.Pair#2",
                                 "object 7 pack.Pair#2 @0x901"])

    def test_a_width_at_which_exactly_half_stays_free_is_chosen(self):
        """Of objects of 2,049 words a region of 4,096 holds one: 2,048 of 4,096 regions."""
        self.assertEqual(hprof2image.chosen([(2049, 2048)]), (4096, 64, 4096))
        self.assertEqual(hprof2image.chosen([(2049, 2049)]), (8192, 64, 1366))

    def test_what_is_chosen_leaves_half_of_the_regions_free(self):
        self.assertEqual(hprof2image.chosen([(5, 1)]), (4096, 64, 2))
        self.assertEqual(hprof2image.chosen([(8, 1 << 17)]), (4096, 64, 512))
        self.assertEqual(hprof2image.chosen([(8, 3 << 19)]), (4096, 64, 4096))

    def test_a_heap_that_is_too_large_is_refused_with_what_would_fit(self):
        text = "536,870,912 words, and a heap has at most 268,435,456: 50 of 100"
        with self.assertRaisesRegex(hprof.Refusal, text) as caught:
            hprof2image.chosen([(8, 1 << 26)])
        self.assertEqual(caught.exception.status, 5)

    def test_what_g1pause_takes_is_chosen_if_the_objects_fit(self):
        """Two objects fill a region of 4,096 words, and 4,096 such regions are the most that g1pause takes. One object more takes
        2,049 regions of 8,192 words, or 1,025 of 16,384: then as many stay free. All 2^28 words of a heap leave none."""
        self.assertEqual(hprof2image.chosen([(2048, 8192)]), (4096, 64, 4096))
        self.assertEqual(hprof2image.chosen([(2048, 8193)]), (16384, 64, 2050))
        self.assertEqual(hprof2image.chosen([(1 << 22, 64)]), (65536, 64, 4096))

    def test_a_dump_that_is_too_large_is_refused_before_it_is_sorted_or_written(self):
        """By hand: the dump's six objects have 5 + 5 + 6 + 3 + 6 + 5 words, and its classes 6 * 6 + 8. Of what hangs from
        the field, the headers, labels and slots have 4 + 6 + 6 words if there are slots."""
        with unittest.mock.patch.object(hprof, "MOST_WORDS", 73), self.assertRaisesRegex(hprof.Refusal, "take 74 words") as caught:
            hprof2image.Index(hprof.Dump(io.BytesIO(Maker().heap())))
        self.assertEqual(caught.exception.status, 5)
        with unittest.mock.patch.object(hprof, "MOST_WORDS", 74):
            hprof2image.Index(hprof.Dump(io.BytesIO(Maker().heap())))
        with unittest.mock.patch.object(hprof, "MOST_WORDS", 19):
            self.refused(5, "^what hangs from the fields takes at least 20 words, and a heap has at most 19. Dump", Maker().heap())

    def test_a_dump_that_is_too_large_is_refused_while_it_is_read(self):
        """By hand: at least 2 + 3 words for each of the three nodes, whose fields have 21 bytes (of identifiers of 8 bytes), 6
        for the array, 3 for the bytes, and 6 for the weak reference. What was read is looked at behind each step."""
        with unittest.mock.patch.object(hprof, "STEP", 1), unittest.mock.patch.object(hprof, "BOUND_STEP", 1):
            with unittest.mock.patch.object(hprof, "MOST_WORDS", 29), self.assertRaises(hprof.Refusal) as caught:
                hprof.Dump(io.BytesIO(Maker().heap()), is_whole=True)
            with unittest.mock.patch.object(hprof, "MOST_WORDS", 30):
                hprof.Dump(io.BytesIO(Maker().heap()), is_whole=True)
            with unittest.mock.patch.object(hprof, "MOST_WORDS", 0):
                hprof.Dump(io.BytesIO(Maker().heap()))
        self.assertEqual(caught.exception.status, 5)
        self.assertRegex(str(caught.exception), "^the objects take at least 30 words, and a heap has at most 29. Dump")

    def test_a_dump_that_would_fill_the_memory_is_refused(self):
        with unittest.mock.patch.object(hprof_graph, "free_memory", lambda: 13 * hprof_graph.OBJECT_BYTES - 1):
            self.refused(6, "^the dump has 13 objects, which take about 0.0 GB of memory here, and 0.0 GB are free", Maker().heap())
        with unittest.mock.patch.object(hprof_graph, "free_memory", lambda: 13 * hprof_graph.OBJECT_BYTES):
            converted(Maker().heap())
        self.assertGreater(hprof_graph.free_memory(), 1 << 20)


class PlainJudge(unittest.TestCase):
    """The second judge, on good dumps and on bad ones."""

    def setUp(self):
        room = tempfile.TemporaryDirectory()
        self.addCleanup(room.cleanup)
        self.good, self.other = (pathlib.Path(room.name) / name for name in ("good", "other"))
        self.good.write_bytes(Maker().heap())

    def answer(self, data, start="pack.Main.root"):
        self.other.write_bytes(data)
        return plain_judge.answer(self.good, self.other, start, plain_judge.WEAK)

    def test_it_counts_as_the_image_does(self):
        for version in (b"1", b"2"):
            self.assertEqual(self.answer(Maker().heap(version)), ("same objects 5 words 22, 0 of them at another address", 0))

    def test_differences_are_told_with_their_paths(self):
        self.assertEqual(self.answer(Maker().heap(flag=3)),
                         ("differ at pack.Main.root: pack/Node before, pack/Node after, with other data", 1))
        array = Maker().objects(ARRAY, NODES, FIRST, 0, NODE, 0)
        self.assertEqual(self.answer(Maker().heap(array=array)), ("differ at pack.Main.root.next[3]: null after", 1))
        array = Maker().objects(ARRAY, NODES, FIRST, 0, NODE, NOWHERE)
        self.assertEqual(self.answer(Maker().heap(array=array)),
                         ("differ at pack.Main.root.next[3]: no object at 0x0000000000000600 after", 1))

    def test_one_object_is_not_two(self):
        """Two equal nodes before are one after, and the other way round."""
        make = Maker()
        more = make.node(0x800, 0, 3, 0, 0) + make.node(0x900, 0, 3, 0, 0)
        two, one = (make.heap(array=make.objects(ARRAY, NODES, 0x800, name), more=more) for name in (0x900, 0x800))
        for before, after in ((two, one), (one, two)):
            self.good.write_bytes(before)
            self.assertEqual(self.answer(after), ("differ at pack.Main.root.next[1]: another object than on an earlier path", 1))
            self.assertEqual(self.answer(before)[1], 0)

    def test_no_cut_dump_has_a_verdict(self):
        for version in (b"1", b"2"):
            data = Maker().heap(version)
            for length in range(len(data)):
                line, status = self.answer(data[:length])
                self.assertEqual((status, line.count("\n")), (3, 0), length)

    def test_a_changed_byte_gives_one_line(self):
        data = Maker().heap()
        for at in range(len(data)):
            for flip in (0x01, 0x80, 0xFF):
                line, status = self.answer(data[:at] + bytes([data[at] ^ flip]) + data[at + 1:])
                self.assertEqual(line.count("\n"), 0, at)
                self.assertIn(status, (0, 1, 3))

    def test_foreign_files_and_unknown_fields_have_no_verdict(self):
        for data in (b"", b"text\n", Maker(4).heap(), Maker().heap().replace(b"1.0.2", b"1.0.3", 1), gzip.compress(Maker().heap())):
            line, status = self.answer(data)
            self.assertEqual((status, line.startswith("plain_judge: ")), (3, True), line)
        self.assertEqual(self.answer(Maker().heap(), "pack.Main.rot"), ("plain_judge: 0 static fields pack.Main.rot", 3))
        missing = plain_judge.answer(self.good, "no-such-dump", "pack.Main.root", plain_judge.WEAK)
        self.assertEqual(missing, ("plain_judge: no-such-dump: No such file or directory", 3))


class TwoJudges(unittest.TestCase):
    """What judge.py and across.py make of two judges, of which stand-ins say what they found."""

    SAME, MOVED = "same objects 5 words 22", "same objects 5 words 22, 3 of them at another address"
    RAN = "before | Young 3 | Old 1\nafter | Young 5 | Old 1\n"

    def asked(self, call, line, plain):
        """What a call makes of a line of g1heap and one of the plain judge."""
        with tempfile.TemporaryDirectory() as room:
            folder = pathlib.Path(room)

            def convert(dump, *_):
                files = [folder / f"{dump.name}.{end}" for end in ("img", "names")]
                for file in (dump, *files):
                    file.write_text("")
                return files

            with unittest.mock.patch.multiple(jvm, convert=convert, verdict=lambda *_: line, plain_verdict=lambda *_: plain):
                return call(folder)

    def judged(self, line, plain, said=RAN):
        java = argparse.Namespace(run=lambda *_: said)
        return self.asked(lambda folder: judge.judged("g1heap", java, [], "full", 9, folder), line, plain)

    def compared(self, line, plain):
        first = pathlib.Path("first.hprof"), []
        return self.asked(lambda folder: across.compared("g1heap", first, folder / "other.hprof", []), line, plain)

    def test_both_say_the_same_of_a_run_in_which_the_collector_ran(self):
        self.assertEqual(self.judged(self.SAME, self.MOVED), (f"{self.SAME}, moved 3, ran Young 2", True))
        self.assertEqual(self.compared(self.SAME, self.MOVED), (self.SAME, True))

    def test_a_run_in_which_nothing_moved_judges_nothing(self):
        still = self.MOVED.replace("3 of", "0 of")
        self.assertEqual(self.judged(self.SAME, still), (f"{self.SAME}, moved 0, ran Young 2: judged nothing", None))
        self.assertEqual(self.compared(self.SAME, still), (self.SAME, True))  # of two runs no object is the same one

    def test_a_collector_that_moved_nothing_in_any_run_fails(self):
        java = argparse.Namespace(version="17")
        options = argparse.Namespace(collection=None, objects=9)
        for found, expected in (([True, None, True], [True, True]), ([None, None, None], [False]), ([None, False, None], [False]),
                                ([None, True, False], [True, False])):
            with unittest.mock.patch.object(judge, "judged", side_effect=[("a line", good) for good in found]), \
                    contextlib.redirect_stdout(io.StringIO()) as out:
                self.assertEqual(judge.judged_runs("g1heap", java, "Serial", [], options, None), expected)
            end = ["17 Serial: no object moved in any run"] if found == [None] * 3 else []
            self.assertEqual(out.getvalue().splitlines(), [f"17 Serial {how}: a line" for how in judge.HOW] + end)

    def test_a_collector_that_has_not_run_fails(self):
        said = "before | Young 3 | Old 1\nafter | Young 3 | Old 1\n"
        self.assertEqual(self.judged(self.SAME, self.MOVED, said), ("the collector has not run", False))
        self.assertEqual(self.judged(self.SAME, self.MOVED, ""), ("the collector has not run", False))

    def test_another_identity_hash_fails(self):
        self.assertEqual(self.judged(self.SAME, self.MOVED, f"{self.RAN}another identity hash\n"),
                         ("an object has another identity hash", False))

    def test_what_the_judges_say_otherwise_fails(self):
        other, differ = self.MOVED.replace("22", "23"), "differ at Judge.root: null after"
        for line, plain in ((self.SAME, other), (self.SAME, self.MOVED.replace("5", "6")), (self.SAME, differ),
                            (differ, self.MOVED), (differ, differ), (self.SAME, "plain_judge: no such file"),
                            ("same objects 5 words 2", self.MOVED)):
            expected = f"{line}\n    plain judge: {plain}", False
            self.assertEqual(self.judged(line, plain), expected)
            self.assertEqual(self.compared(line, plain), expected)


class Plants(unittest.TestCase):
    """What plants.py takes as a right report. Node A's slots reference B and C, and the planted error lets the first one
    reference C, too."""

    A, B, C = 0x100, 0x200, 0x300
    LINE = "differ joined at pack.Main.root.other: pack.Node @0x300 before, pack.Node @0x300 after; pack.Node @0x300 after is " \
           "pack.Node @0x{:x} before on an earlier path"

    def graph(self, following):
        make = Maker()
        root = [("root", REFERENCE, make.ids(self.A)), ("count", INT, bytes(4))]
        node = [("next", REFERENCE), ("value", INT), ("other", REFERENCE), ("flag", BYTE)]
        data = make.dump([make.kind(OBJECT, 0), make.kind(NODE, fields=node), make.kind(MAIN, statics=root)],
                         [make.node(self.A, following, 1, self.C, 0), make.node(self.B, 0, 2, 0, 0), make.node(self.C, 0, 2, 0, 0)])
        return hprof_graph.Graph(hprof.Dump(io.BytesIO(data)), ["pack.Main.root"])

    def right(self, line, path):
        good, bad = self.graph(self.B), self.graph(self.C)
        at = {name: (group.shape, place) for group in good.groups for name, place in zip(group.names, group.places)}
        planter = argparse.Namespace(object=self.A, slot=0, target=self.C, others=set())
        planter.path = lambda: plants.Planter.path(argparse.Namespace(graph=good, at=at, object=self.A, slot=0))
        with unittest.mock.patch.object(jvm, "ROOT", "pack.Main.root"):
            return plants.is_right(line, path, planter, good, bad)

    def test_the_planted_slot_is_right(self):
        self.assertTrue(self.right("differ split at pack.Main.root.next: x", "pack.Main.root.next"))

    def test_another_slot_is_wrong(self):
        self.assertFalse(self.right("differ split at pack.Main.root.other: x", "pack.Main.root.other"))
        self.assertFalse(self.right("differ data at pack.Main.root: x", "pack.Main.root"))

    def test_joined_at_another_slot_is_right_only_with_the_object_that_was_there(self):
        self.assertTrue(self.right(self.LINE.format(self.B), "pack.Main.root.other"))
        for other in (self.A, self.C, 0x999):
            self.assertFalse(self.right(self.LINE.format(other), "pack.Main.root.other"))


class Commands(unittest.TestCase):
    """The scripts as they are called."""

    def setUp(self):
        self.room = tempfile.TemporaryDirectory()
        self.folder = pathlib.Path(self.room.name)
        self.addCleanup(self.room.cleanup)

    def call(self, script, *words, given=b""):
        command = [sys.executable, str(TOOLS / script), *map(str, words)]
        done = subprocess.run(command, input=given, capture_output=True, cwd=self.folder, timeout=60, check=False)
        return done.returncode, done.stdout, done.stderr.decode()

    def made(self, name, data):
        (self.folder / f"{name}.hprof").write_bytes(data)
        status, image, _ = self.call("hprof2image.py", "--from", "pack.Main.root", "--names", f"{name}.names",
                                     f"{name}.hprof", 16, 4, 4)
        self.assertEqual(status, 0)
        (self.folder / f"{name}.img").write_bytes(judged(image))

    def test_a_difference_is_said_in_the_programs_names(self):
        self.made("before", Maker().heap())
        self.made("after", Maker().heap(flag=3))
        lines = ["differ data at root 0 slot 0 slot 0: object 2 before, object 2 after; data word 1 is 4294967303 before, "
                 "12884901895 after",
                 "differ null at root 0 slot 0 slot 3 slot 1: null before, null after",
                 "differ split at root 0 slot 1: object 13 before, object 13 after; 13 before is 7 after on an earlier path",
                 "differ roots: 1 before, 2 after", "same objects 5 words 22"]
        expected = ["differ data at pack.Main.root.next[0]: pack.Node @0x100 before, pack.Node @0x100 after; flag: 1 before, 3 after",
                    "differ null at pack.Main.root.next[3].queue: null before, null after",
                    "differ split at pack.Main.root.other: byte[] of 3 @0x300 before, byte[] of 3 @0x300 after; byte[] of 3 "
                    "@0x300 before is pack.Node[] of 4 @0x200 after on an earlier path", *lines[3:]]
        files = ["before.img", "before.names", "after.img", "after.names"]
        status, out, errors = self.call("hprof_path.py", *files, given="\n".join(lines).encode())
        self.assertEqual((status, errors), (0, ""))
        self.assertEqual(out.decode().splitlines(), expected)
        status, out, errors = self.call("hprof_path.py", *files, given=b"differ null at root 7 slot 1: x")
        self.assertEqual((status, out, errors.count("\n")), (3, b"", 1))
        status, out, errors = self.call("hprof_path.py", "before.names", *files[1:], given=b"")
        self.assertEqual((status, out, errors.count("\n")), (3, b"", 1))

    def test_values_are_said_by_field_and_element(self):
        """By hand: a long over two words, a float, chars and doubles; in word 1 two of three fields differ."""
        def heap(small, long, number, letters, doubles):
            make = Maker()
            kind = make.kind(0x30, fields=[("small", BYTE), ("same", 5), ("long", 11), ("number", 6)])
            more = kind + make.instance(0x900, 0x30, struct.pack(">bHqf", small, 7, long, number))
            for name, code, type_, values in ((0xA00, "H", 5, letters), (0xB00, "d", 7, doubles)):
                more += b"\x23" + make.ids(name) + struct.pack(f">IIB{len(values)}{code}", 0, len(values), type_, *values)
            return make.heap(array=make.objects(ARRAY, NODES, 0x900, 0xA00, 0xB00), more=more)
        before, after = heap(-1, 5, 1.5, [1, 2, 3, 4, 5], [0.0, 2.5]), heap(-2, 2711, 2.5, [1, 2, 3, 9, 6], [-0.0, 2.5])
        for name, data in (("before", before), ("after", after)):
            (self.folder / f"{name}.hprof").write_bytes(data)
            words = ["--from", "pack.Main.root", "--names", f"{name}.names", f"{name}.hprof"]
            (self.folder / f"{name}.img").write_bytes(self.call("hprof2image.py", *words)[1])
        files = ["before.img", "before.names", "after.img", "after.names"]
        start = "differ data at root 0 slot 0 slot {}: object 9 before, object 9 after; data word {} is 1 (0x1) before, 2 (0x2) after"
        for slot, word, expected in ((0, 1, "small: -1 before, -2 after; long: 5 before, 2711 after"),
                                     (0, 2, "long: 5 before, 2711 after; number: 1.5 before, 2.5 after"),
                                     (1, 1, "element 3: 4 before, 9 after"), (1, 2, "element 4: 5 before, 6 after"),
                                     (2, 1, "element 0: 0.0 before, -0.0 after")):
            status, out, errors = self.call("hprof_path.py", *files, given=start.format(slot, word).encode())
            self.assertEqual((status, errors, out.decode().partition("; ")[2]), (0, "", f"{expected}\n"))
        old = (self.folder / "before.names").read_text().replace("small:byte", "small")
        (self.folder / "before.names").write_text(old)
        status, out, errors = self.call("hprof_path.py", *files, given=start.format(0, 1).encode())
        self.assertEqual((status, out, errors), (3, b"", "hprof_path: the names have no type of the field small: make them anew\n"))

    def test_fields_are_listed_on_standard_output(self):
        (self.folder / "dump").write_bytes(Maker().heap())
        self.assertEqual(self.call("hprof2image.py", "--fields", "dump"), (0, b"5 pack.Main.root\n", ""))
        self.assertEqual(self.call("hprof2image.py", "--fields", "--without", "pack.Node.other", "dump"), (0, b"4 pack.Main.root\n", ""))
        for words in (["--from", "pack.Main.root"], ["16", "4", "4"], ["--names", "names"], ["--blank"]):
            status, out, errors = self.call("hprof2image.py", "--fields", "dump", *words)
            self.assertEqual((status, out), (2, b""))
            self.assertIn("--fields makes no image", errors)
        self.assertEqual(self.call("hprof2image.py", "--fields", "nothing")[0], 6)
        reader, writer = os.pipe()
        os.close(reader)
        done = subprocess.run([sys.executable, str(TOOLS / "hprof2image.py"), "--fields", "dump"], stdout=writer, stderr=subprocess.PIPE,
                              cwd=self.folder, timeout=60, check=False)
        os.close(writer)
        self.assertEqual((done.returncode, done.stderr), (141, b""))

    def test_bad_input_is_one_line_and_a_status(self):
        (self.folder / "text").write_text("no dump at all, and long enough to be one\n")
        (self.folder / "dump").write_bytes(Maker().heap())
        for status, words, text in ((6, ["nothing"], "nothing: No such file"), (3, ["text"], "not a heap dump"),
                                    (2, ["dump", "16", "4", "4", "--from", "pack.Main.rot"], "is it root"),
                                    (2, ["dump", "15", "4", "4"], "W is 15"), (5, ["dump", "16", "4", "1"], "holds them")):
            found, out, errors = self.call("hprof2image.py", *words)
            self.assertEqual((found, out, errors.count("\n")), (status, b"", 1), errors)
            self.assertIn(text, errors)

    def stopped(self, script, java, text, heap=sys.executable):
        """The script ends with one line and status 2, before it builds or runs anything."""
        done = subprocess.run([sys.executable, str(HOTSPOT / script), java], capture_output=True, cwd=self.folder,
                              env=dict(os.environ, G1HEAP=heap), timeout=60, check=False)
        errors = done.stderr.decode()
        self.assertEqual((done.returncode, done.stdout, errors.count("\n")), (2, b"", 1), errors)
        self.assertIn(text, errors)

    def test_a_missing_virtual_machine_is_one_line_and_a_status(self):
        for script in ("judge.py", "across.py", "plants.py", "pause.py", "all.py"):
            self.stopped(script, "no-such-java", "there is no java 'no-such-java'")
            self.stopped(script, shutil.which("true"), "no java: ")

    def test_a_missing_judge_is_one_line_and_a_status(self):
        for script in ("judge.py", "across.py", "plants.py", "all.py"):
            self.stopped(script, "no-such-java", "G1HEAP=no-such-judge: there is no such program", "no-such-judge")

    def with_java(self, body, script, *words):
        """What a script says of a java that does this where it is to run Judge."""
        version = 'case "$*" in *-version*) echo version \'"17.0.1"\' >&2; exit;; esac'
        for name, text in (("java", f"{version}\n{body}"), ("javac", "true")):
            (self.folder / name).write_text(f"#!/bin/sh\n{text}\n")
            (self.folder / name).chmod(0o755)
        done = subprocess.run([sys.executable, str(HOTSPOT / script), *words, str(self.folder / "java")], capture_output=True,
                              cwd=self.folder, env=dict(os.environ, G1HEAP=sys.executable), timeout=60, check=False)
        return done.returncode, done.stdout.decode(), done.stderr.decode()

    def test_a_heap_that_is_too_large_ends_all_runs_with_one_line(self):
        body = "echo 'Exception in thread \"main\" java.lang.OutOfMemoryError: Java heap space' >&2; exit 1"
        for script in ("judge.py", "across.py", "plants.py"):
            status, out, errors = self.with_java(body, script, "--objects", "9000000")
            self.assertEqual((status, out, errors), (2, "", f"{script[:-3]}: so many objects do not fit into the heap of -Xmx160m: "
                                                            "give fewer by --objects\n"))

    def test_a_run_without_a_verdict_fails_with_its_reason(self):
        failed = "echo 'Exception in thread \"main\" java.lang.Bad: why' >&2; echo '\tat Judge.main(Judge.java)' >&2; exit 1"
        # the words are: -cp CLASSES Judge N STEPS OUT HOW
        dumps = 'while [ "$1" != Judge ]; do shift; done; for when in before after; do {} > "$4_$when.hprof"; done'
        dump = shlex.quote(str(self.folder / "dump"))
        for body, reason in ((failed, "java ended with status 1: Exception in thread \"main\" java.lang.Bad: why"),
                             ("true", "hprof2image: .*dump_before.hprof: No such file or directory"),
                             (dumps.format("echo no dump"), "hprof2image: not a heap dump: .*"),
                             (dumps.format(f"head -c 1000 {dump}"), "hprof2image: cut short: .*"),
                             (dumps.format(f"cat {dump}"), "hprof2image: Judge.root: the dump has no class 'Judge'.*")):
            (self.folder / "dump").write_bytes(Maker().heap())
            status, out, errors = self.with_java(body, "judge.py", "--only", "Serial", "--collection", "full")
            self.assertEqual((status, errors), (1, ""))
            self.assertRegex(out, rf"^17.0.1 Serial full: {reason}\n0 passed, 1 failed\n$")

    def test_a_java_that_is_named_twice_is_judged_once(self):
        for name in ("link", "folder"):
            (self.folder / name).symlink_to("." if name == "folder" else "java")
        words = ["--only", "Serial", "--collection", "full", str(self.folder / "link"), str(self.folder / "folder/java")]
        _status, out, _errors = self.with_java("exit 7", "judge.py", *words)
        self.assertEqual(out, "17.0.1 Serial full: java ended with status 7: it said nothing\n0 passed, 1 failed\n")

    def test_a_java_that_does_not_work_does_not_keep_the_others_from_being_judged(self):
        """A javac ends with an exception and a stack of calls below it; another java is not there."""
        (self.folder / "bad").mkdir()
        text = 'case "$*" in *-version*) echo version \'"21.0.1"\' >&2; exit;; esac'
        javac = "echo 'Exception in thread \"main\" java.lang.Bad: why' >&2; echo '\tat Main.main(Main.java:50)' >&2; exit 4"
        for name, body in (("java", text), ("javac", javac)):
            (self.folder / "bad" / name).write_text(f"#!/bin/sh\n{body}\n")
            (self.folder / "bad" / name).chmod(0o755)
        bad = [f"{self.folder}/bad/javac: status 4: Exception in thread \"main\" java.lang.Bad: why: NOT JUDGED",
               "there is no java 'no-such-java': NOT JUDGED"]
        words = [f"{self.folder}/bad/java", "no-such-java"]
        for script in ("across.py", "plants.py"):
            self.assertEqual(self.with_java("exit 7", script, *words)[1].splitlines()[:2], bad)
        status, out, errors = self.with_java("exit 7", "judge.py", "--only", "Serial", "--collection", "full", *words)
        lines = [*bad, "17.0.1 Serial full: java ended with status 7: it said nothing", "0 passed, 3 failed"]
        self.assertEqual((status, out.splitlines(), errors), (1, lines, ""))
        done = subprocess.run([sys.executable, str(HOTSPOT / "judge.py"), *words], capture_output=True, text=True, check=False,
                              env=dict(os.environ, G1HEAP=sys.executable), timeout=60)
        said = "; ".join(line.removesuffix(": NOT JUDGED") for line in bad)
        self.assertEqual((done.returncode, done.stdout, done.stderr), (2, "", f"judge: {said}\n"))

    def all_parts(self, major, fails="no.py"):
        """What all.py says of a java of this version if its parts are scripts of two lines. The one that is named fails."""
        shutil.copytree(HOTSPOT, self.folder / "examples/hotspot", dirs_exist_ok=True)
        shutil.copytree(TOOLS / "lib", self.folder / "tools/lib", dirs_exist_ok=True)
        for name in ("hprof2image.py", "hprof_path.py"):
            shutil.copy(TOOLS / name, self.folder / "tools")
        for name in ("judge.py", "across.py", "plants.py"):
            text = f"import sys\nprint('{name}', *sys.argv[1:])\nsys.exit({int(name == fails)})\n"
            (self.folder / "examples/hotspot" / name).write_text(text)
        pause = self.folder / "examples/hotspot/pause.py"
        pause.write_text(pause.read_text().replace("def main():\n", f"def main():\n    print('pause.py', *sys.argv[1:])\n    return {int(fails == 'pause.py')}\n"))
        (self.folder / "java").write_text(f"#!/bin/sh\necho version '\"{major}.0.1\"' >&2\n")
        (self.folder / "java").chmod(0o755)
        done = subprocess.run([sys.executable, "examples/hotspot/all.py", "./java"], capture_output=True, text=True, cwd=self.folder,
                              env=dict(os.environ, G1HEAP=sys.executable), timeout=60, check=False)
        self.assertEqual(done.stderr, "")
        return done.returncode, done.stdout.splitlines()

    def test_one_run_has_all_parts(self):
        parts = ["== judge", "judge.py ./java", "== across", "across.py ./java", "== plants", "plants.py ./java",
                 "== live", "plants.py --live ./java", "== pause"]
        self.assertEqual(self.all_parts(25), (0, [*parts, "pause.py ./java", "5 passed, 0 failed"]))
        self.assertEqual(self.all_parts(26, "plants.py"), (1, [*parts, "pause.py ./java", "3 passed, 2 failed"]))
        self.assertEqual(self.all_parts(25, "pause.py"), (1, [*parts, "pause.py ./java", "4 passed, 1 failed"]))
        left = "./java is a JDK 17, and pauses are compared with JDK 25: NOT RUN"
        self.assertEqual(self.all_parts(17), (3, [*parts, left, "4 passed, 0 failed, 1 not run"]))
        self.assertEqual(self.all_parts(17, "across.py"), (1, [*parts, left, "3 passed, 1 failed, 1 not run"]))

    def test_numbers_that_are_none_are_refused(self):
        for script, option in (("judge.py", "--objects"), ("across.py", "--steps"), ("plants.py", "--seeds"), ("pause.py", "--objects")):
            for number in ("0", "-1", "many", str(2**31)):
                status, out, errors = self.with_java("true", script, f"{option}={number}")
                self.assertEqual((status, out), (2, ""))
                self.assertIn(f"argument {option}: {number}: a number from 1 to 2147483647 is wanted", errors)

    def test_a_dump_alone_is_enough(self):
        (self.folder / "dump").write_bytes(Maker().heap())
        status, image, errors = self.call("hprof2image.py", "--progress", "--names", "names", "dump")
        self.assertEqual((status, struct.unpack_from("<3I", judged(image), 8)), (0, (4096, 64, 2)))
        self.assertIn("13 objects", errors)
        names = (self.folder / "names").read_text()
        self.assertIn("type pack.Main.class slots super loader signers domain root data class static[]\n", names)


if __name__ == "__main__":
    unittest.main()
