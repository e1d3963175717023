#!/usr/bin/env python3
"""Tests of bench/ that need no program of ours: test_bench.py [-v]

Programs of a few lines of shell stand in for the two that are compared: one that gives back its input is the reference,
and each that differs from it in one way has to be reported. The hostile images are judged by image_text.py, an independent
reading of docs/IMAGE.md.
"""
import contextlib
import io
import os
import pathlib
import re
import shlex
import socket
import subprocess
import sys
import tempfile
import unittest
import unittest.mock
import xml.etree.ElementTree

TOP = pathlib.Path(__file__).resolve().parent.parent
sys.dont_write_bytecode = True
sys.path[:0] = [str(TOP / "bench"), str(TOP / "tools"), str(TOP / "tools" / "lib")]

import compare  # noqa: E402
import hostile  # noqa: E402
import hotspot  # noqa: E402
import phases  # noqa: E402
import plot  # noqa: E402
import progress  # noqa: E402
from image_text import fault_of, graph, read  # noqa: E402

ECHO = "cat"
# What a program does in the place of `cat`, and what has to be said of it.
BROKEN = {
    "cat; echo": "other bytes",
    "head -c -1": "other bytes",
    "tr A-Z B-ZA": "other bytes",
    "true": "other bytes",
    "cat; exit 5": "status 5, not 0",
    "cat; kill -9 $$": "status -9, not 0",
    "cat; echo 'g1pause: fault 3: short' >&2": "another fault",
    "cat; exec sleep 20": "cut off",
}
TRACE = "humongous20k"  # the hostile input that is no image
BOTH_FAIL = "echo 'g1pause: fault {}' >&2; exit 5"


class Folder(unittest.TestCase):
    """A folder with programs, and one with an image and a trace."""

    def setUp(self):
        room = tempfile.TemporaryDirectory()
        self.addCleanup(room.cleanup)
        self.room = pathlib.Path(room.name)
        self.inputs = self.room / "inputs"
        self.inputs.mkdir()
        (self.inputs / "small.img").write_bytes((TOP / "examples/one_object.img").read_bytes())
        (self.inputs / "small.trace").write_text("heap 16 4 4 3\nnew 0 1 1\n")
        (self.inputs / "other.txt").write_text("neither an image nor a trace\n")

    def program(self, name, body):
        path = self.room / name
        path.write_text(f"#!/bin/sh\n{body}\n")
        path.chmod(0o755)
        return str(path)

    def reference(self, body):
        """The words of a reference, which are split as a shell splits them."""
        return shlex.quote(self.program("theirs", body))

    def compared(self, ours, *words, theirs=ECHO):
        """The status, and what is reported."""
        words = words or ("--images", str(self.inputs))
        command = [sys.executable, str(TOP / "bench/compare.py"), "--program", self.program("ours", ours), "--reference",
                   self.reference(theirs), "--rounds", "1", *words]
        done = subprocess.run(command, capture_output=True, text=True)
        self.assertEqual(progress.without_signs(done.stderr.splitlines()), [])
        return done.returncode, done.stdout


class Answers(Folder):
    def test_a_program_that_answers_the_same_is_told_so(self):
        status, text = self.compared(ECHO)
        self.assertEqual(status, 0)
        self.assertNotIn("DIFFERS", text)
        self.assertIn("Answers: 23 the same, 0 not, 0 cut off.", text)  # three settings of eight commands, but for check, which has no workers

    def test_every_difference_is_told(self):
        for body, told in BROKEN.items():
            status, text = self.compared(body, "--images", str(self.inputs), "--only", "small live", "--cut", "2")
            self.assertEqual(status, 1, body)
            unended = told == compare.CUT
            self.assertIn("cut off (1 worker)" if unended else f"DIFFERS (1 worker): {told}", text, body)
            self.assertIn("Answers: 0 the same, 0 not, 3 cut off." if unended else "Answers: 0 the same, 3 not, 0 cut off.", text, body)

    def test_a_difference_in_one_setting_is_told_of_it_alone(self):
        for body, setting in (('cat; case "$*" in *workers*) echo;; esac', "4 workers"),
                              ('cat; case "$GLIBC_TUNABLES" in glibc.malloc.hugetlb=1) echo;; esac', "huge pages")):
            status, text = self.compared(body, "--images", str(self.inputs), "--only", "small live")
            self.assertEqual(status, 1)
            self.assertIn(f"| DIFFERS ({setting}): other bytes |", text)
            self.assertIn("Answers: 2 the same, 1 not, 0 cut off.", text)

    def test_a_difference_in_one_round_is_told(self):
        seen = shlex.quote(str(self.room / "seen"))
        body = f"cat; test -e {seen} && echo; touch {seen}; true"
        status, text = self.compared(body, "--images", str(self.inputs), "--only", "small check", "--rounds", "2")
        self.assertEqual(status, 1)
        self.assertIn("DIFFERS", text)

    def test_equal_faults_are_the_same_and_others_are_not(self):
        for fault, wanted in (("11: room need 2 free 1", 0), ("11: room need 3 free 1", 1), ("10: set region 1", 1)):
            theirs = BOTH_FAIL.format("11: room need 2 free 1")
            status, _text = self.compared(BOTH_FAIL.format(fault), "--images", str(self.inputs), "--only", "pause", theirs=theirs)
            self.assertEqual(status, wanted, fault)

    def test_a_status_that_both_answer_is_told(self):
        fault = BOTH_FAIL.format("11: room need 2 free 1")
        status, text = self.compared(fault, "--images", str(self.inputs), "--only", "pause by", theirs=fault)
        self.assertEqual(status, 0)
        self.assertIn("| same, status 5 |", text)

    def test_an_environment_with_huge_pages_is_not_handed_on(self):
        body = 'cat; test -n "$GLIBC_TUNABLES" && echo; true'
        with unittest.mock.patch.dict(os.environ, compare.HUGE):
            _status, text = self.compared(body, "--images", str(self.inputs), "--only", "small live")
        self.assertIn("| DIFFERS (huge pages): other bytes |", text)

    def test_the_words_of_a_reference_stand_before_its_command(self):
        theirs = 'test "$1 $2" = "--stage two" && shift 2; case $1 in --*) exit 9;; esac; cat'
        words = ["--program", self.program("ours", ECHO), "--reference", self.reference(theirs) + " --stage two"]
        done = subprocess.run([sys.executable, str(TOP / "bench/compare.py"), *words, "--images", str(self.inputs), "--rounds", "1"],
                              capture_output=True, text=True)
        self.assertEqual((done.returncode, done.stderr), (0, ""))

    def test_nothing_compared_is_a_failure(self):
        self.assertEqual(self.compared(ECHO, "--images", str(self.inputs), "--only", "nothing of this name")[0], 1)

    def test_a_broken_program_is_told_on_hostile_inputs_too(self):
        for body, wanted in ((ECHO, 0), ('cat; case "$*" in *"--chunk 1") echo;; esac', 1)):
            status, text = self.compared(body, "--hostile", "--share", "1000", "--only", "two_chains live")
            self.assertEqual(status, wanted)
            self.assertEqual("DIFFERS (4 x 1): other bytes; DIFFERS (64 x 1): other bytes" in text, wanted == 1)


class Words(Folder):
    def test_no_words_and_help_tell_what_is_wanted(self):
        for words, status in (([], 2), (["--help"], 0)):
            done = subprocess.run([sys.executable, str(TOP / "bench/compare.py"), *words], capture_output=True, text=True)
            self.assertEqual(done.returncode, status)
            for option in ("--program FILE", "--reference WORDS", "--images FOLDER", "--hostile", "--write PAGE"):
                self.assertIn(option, done.stderr if status else done.stdout)

    def test_a_program_that_is_not_there_is_told(self):
        done = subprocess.run([sys.executable, str(TOP / "bench/compare.py"), "--program", "./nothing", "--reference", "cat"],
                              capture_output=True, text=True)
        self.assertEqual(done.returncode, 2)
        self.assertIn("--program: no program at ./nothing", done.stderr)

    def test_figures_are_written_between_the_marks_alone(self):
        page = self.room / "page.md"
        page.write_text(f"Before\n{compare.BEGIN}\nold\n{compare.END}\nAfter\n")
        _status, text = self.compared(ECHO, "--images", str(self.inputs), "--write", str(page))
        written = page.read_text()
        self.assertTrue(written.startswith(f"Before\n{compare.BEGIN}\n\nSeen on "))
        self.assertTrue(written.endswith(f"Answers: 23 the same, 0 not, 0 cut off.\n\n{compare.END}\nAfter\n"))
        self.assertNotIn("old", written)
        self.assertIn("### Geometric means", written)
        for secret in (socket.gethostname(), str(self.room), str(TOP), "/dev/shm"):
            self.assertNotIn(secret, written)
            self.assertNotIn(secret, text)

    def test_a_page_without_marks_is_refused_first(self):
        page = self.room / "page.md"
        page.write_text("Before\n")
        done = subprocess.run([sys.executable, str(TOP / "bench/compare.py"), "--program", self.program("ours", ECHO), "--reference",
                               "cat", "--write", str(page)], capture_output=True, text=True)
        self.assertEqual(done.returncode, 2)
        self.assertEqual(page.read_text(), "Before\n")


class Numbers(unittest.TestCase):
    def row(self, theirs, ours):
        row = compare.Row("input", ["live"])
        row.theirs = [compare.Measured(*each, 0) for each in theirs]
        row.ours[compare.ONE.name] = [compare.Measured(*each, 0) for each in ours]
        return row

    def test_ratios_are_of_the_least_times_and_the_greatest_peaks(self):
        row = self.row([(2.0, 5.0, 1e12), (4.0, 3.0, 2e12)], [(9.0, 6.0, 8e12), (8.0, 7.0, 1e12)])
        self.assertEqual([row.ratio(field, compare.ONE) for field in ("cpu", "wall", "peak")], [4.0, 2.0, 4.0])

    def test_a_peak_below_that_of_this_process_is_not_told(self):
        self.assertIsNone(self.row([(1.0, 1.0, 4096)], [(1.0, 1.0, 1e12)]).ratio("peak", compare.ONE))

    def test_the_mean_is_geometric(self):
        self.assertAlmostEqual(compare.mean([1.0, None, 2.0, 4.0]), 2.0)
        self.assertIsNone(compare.mean([None]))

    def test_growth_is_told_as_a_power(self):
        self.assertAlmostEqual(compare.exponent([1, 2, 4, 8], [3, 12, 48, 192]), 2.0)

    def test_processor_time_wall_time_and_memory_are_those_of_the_run(self):
        with tempfile.TemporaryDirectory() as room:
            bench = compare.Bench.__new__(compare.Bench)
            bench.room, bench.cut = pathlib.Path(room), 60
            slept = bench.run(["sleep", "0.5"], "/dev/null", "one")
            took = bench.run([sys.executable, "-c", "x = bytearray(200_000_000)\nfor _ in range(5_000_000): pass"], "/dev/null", "one")
        self.assertGreater(slept.wall, 0.5)
        self.assertLess(slept.cpu, 0.3)
        self.assertGreater(took.cpu, 0.05)
        self.assertGreater(took.peak, 200_000_000)


class Images(unittest.TestCase):
    def text(self, heap):
        file = io.BytesIO()
        heap.write(file)
        return file.getvalue()

    def setUp(self):
        self.texts = {name: self.text(hostile.made(name, "1", 1000)) for name in hostile.INPUTS if name != TRACE}

    def test_each_is_legal_and_covered(self):
        for name, text in self.texts.items():
            self.assertIsNone(fault_of(text, True), name)

    def test_the_same_seed_gives_the_same_bytes(self):
        for name, text in self.texts.items():
            self.assertEqual(self.text(hostile.made(name, "1", 1000)), text)

    def test_a_chain_is_one_object_a_round(self):
        for name, length in (("chain100k", 100), ("chain1m", 1000), ("chain1m_far", 1000)):
            roots, found = graph(self.texts[name])
            self.assertEqual((len(roots), len(found)), (1, length))
            self.assertEqual([slots for _size, slots, _data in found], [[i + 1] for i in range(length - 1)] + [[None]])

    def test_chains_side_by_side_are_of_one_length(self):
        for name, count, length in (("two_chains", 2, 100), ("chains65", 65, 10)):
            roots, found = graph(self.texts[name])
            self.assertEqual((len(roots), len(found)), (count, count * length))

    def test_dirty_cards_are_all_and_shuffled(self):
        w, k, _n, regions, _roots, log, remembered, _used, _current = read(self.texts["dirty1m"])
        used = sum(1 for kind, _top, _flags in regions if kind)
        self.assertEqual(sorted(log), list(range(used * w // k)))
        self.assertNotEqual(log, sorted(log))
        self.assertEqual(sum(map(len, remembered)), 0)

    def test_full_sets_hold_every_card_of_the_others(self):
        heap = hostile.made("full_sets", "1", 100)
        _w, _k, _n, _regions, _roots, _log, remembered, _used, _current = read(self.text(heap))
        self.assertEqual(heap.used, 16)
        for region, cards in enumerate(remembered[:16]):
            self.assertEqual(cards, [card for card in range(64) if card // 4 != region])

    def test_objects_of_one_word_fill_their_regions(self):
        for name in ("ones16m", "roots64k"):
            _w, _k, _n, regions, _roots, _log, _remembered, used, _current = read(self.texts[name])
            self.assertEqual({word for words in used for word in words}, {1 << 32})
            self.assertEqual({top for kind, top, _flags in regions if kind}, {64})

    def test_the_whole_images_have_the_sizes_that_are_told(self):
        told = {name: [int(number.replace(",", "")) for number in re.findall(r"\d[\d,]*", what)]
                for name, (_maker, what, _narrow) in hostile.INPUTS.items()}
        heap = hostile.made("full_sets", "1")
        self.assertEqual([heap.used, len(heap.remembered[5])], [told["full_sets"][0], told["full_sets"][1]])
        heap = hostile.made("regions16", "1")
        self.assertEqual([heap.used, heap.width, len(heap.commands[-1]) - 1], told["regions16"])
        heap = hostile.made("roots64k", "1")
        self.assertEqual(len(heap.roots), told["roots64k"][0])
        self.assertEqual(len(heap.words), 6_553_600)
        heap = hostile.made("two_chains", "1")
        self.assertEqual([len(heap.roots), len(heap.words) // 4 // 1000], [2, 100])


    def test_what_is_hardest_for_a_command_is_run_by_it(self):
        for name, command in (("roots64k", ["pause", "--budget", "BUDGET"]), ("dirty1m", ["live"]), (TRACE, ["run"])):
            self.assertIn(command, hostile.made(name, "1", 1000).commands, name)


class Traces(unittest.TestCase):
    """The hostile trace, by a reading of its own."""

    def live(self, roots, slots):
        """The objects that roots lead to."""
        found, todo = set(), [each for each in roots if each is not None]
        while todo:
            each = todo.pop()
            if each not in found:
                found.add(each)
                todo += [slots[each]] if slots[each] is not None else []
        return found

    def test_the_trace_has_the_humongous_objects_and_pauses_that_it_says(self):
        lines = hostile.made(TRACE, "1").lines
        width, _card, regions, held = map(int, lines[0].split()[1:])
        roots, slots, size, used = [None] * held, [], [], 0
        pauses = most_live = 0
        for words in map(str.split, lines[1:]):
            if words[0] == "new":
                root, count, data = map(int, words[1:])
                self.assertTrue(count and data)
                self.assertGreater(4 * (1 + count + data), 3 * width)
                roots[root] = len(slots)
                slots.append(None)  # of the slots, slot 0 alone is put
                size.append(-(-(1 + count + data) // width))
                used += size[-1]
                self.assertLess(used, regions)  # there is room for it
            elif words[0] == "put":
                self.assertEqual(words[2], "0")
                slots[roots[int(words[1])]] = roots[int(words[3])]
            elif words[0] == "pause":
                pauses += 1
                live = self.live(roots, slots)
                used, most_live = sum(size[each] for each in live), max(most_live, len(live))
            else:
                self.assertIn(words[0], ("set", "say"))
        self.assertEqual((len(slots), pauses), (20_000, 500))
        self.assertLess(most_live, 120)

    def test_the_same_seed_gives_the_same_lines(self):
        self.assertEqual(hostile.made(TRACE, "7", 100).lines, hostile.made(TRACE, "7", 100).lines)


class Scaling(Folder):
    """The table of workers, and its picture."""

    WORDS = ("--scaling", "--large", "0", "--only", "small")

    def test_each_command_is_run_with_each_number_of_workers(self):
        status, text = self.compared(ECHO, "--images", str(self.inputs), *self.WORDS)
        self.assertEqual(status, 0)
        # as above, and four settings of seven commands
        self.assertIn(f"Answers: {23 + 28} the same, 0 not, 0 cut off.", text)
        self.assertIn("| wall ms: 1 worker | 2 | 4 | 8 | cpu ms: 1 worker | 2 | 4 | 8 |", text)

    def test_an_answer_that_eight_workers_spoil_is_told(self):
        body = 'cat; case "$*" in *"--workers 8"*) echo;; esac'
        status, text = self.compared(body, "--images", str(self.inputs), *self.WORDS, "--only", "small live")
        self.assertEqual(status, 1)
        self.assertIn("| DIFFERS (8 workers): other bytes |", text)

    def test_more_time_with_more_workers_is_in_the_columns(self):
        """With 2 workers it sleeps, with 4 it works."""
        body = 'cat; case "$*" in *"workers 2"*) sleep 0.5;; *"workers 4"*) i=0; while [ $i -lt 100000 ]; do i=$((i+1)); done;; esac'
        _status, text = self.compared(body, "--images", str(self.inputs), *self.WORDS, "--only", "small live")
        row = next(line for line in text.splitlines() if line.startswith("| small | live") and line.count("|") == 15)
        cells = [cell.strip() for cell in row.split("|")[5:13]]
        wall, cpu = [float(cell) for cell in cells[:4]], [float(cell) for cell in cells[4:]]
        self.assertEqual(max(wall[:2] + wall[3:]), wall[1], row)
        self.assertGreater(wall[1], 500)
        self.assertLess(cpu[1], 300)
        self.assertEqual(max(cpu), cpu[2])

    def test_small_inputs_are_left_out(self):
        _status, text = self.compared(ECHO, "--images", str(self.inputs), "--scaling", "--only", "small")
        self.assertEqual(text.count("| small |"), 8)

    def test_the_picture_is_beside_the_page_that_shows_it(self):
        page, picture = self.room / "page.md", self.room / "pictures" / "scaling.svg"
        picture.parent.mkdir()
        page.write_text(f"Before\n{compare.BEGIN}\n{compare.END}\nAfter\n")
        self.compared(ECHO, "--images", str(self.inputs), *self.WORDS, "--plot", str(picture), "--write", str(page))
        link = re.search(r"^!\[.+\]\((.+)\)$", page.read_text(), re.M)
        self.assertEqual(link[1], "pictures/scaling.svg")
        names = [each.text for each in xml.etree.ElementTree.parse(picture).iter(f"{SVG}text")]
        for name in ("show", "live", "choose", "pause (empty)", "pause by budget", "run", "the reference"):
            self.assertIn(name, names)


SVG = "{http://www.w3.org/2000/svg}"
ROWS = {"show": [1.5, 1.0, 0.75, 0.7], "live": [3.2, 1.7, None, 1.1], "run <a>": [0.5, 0.5, 0.5, 0.5]}


class Pictures(unittest.TestCase):
    """A picture of known numbers, measured by its own ticks."""

    def setUp(self):
        self.text = plot.picture("Times", (1, 2, 4, 8), [("wall", ROWS), ("cpu", {name: values[::-1] for name, values in ROWS.items()})])
        self.svg = xml.etree.ElementTree.fromstring(self.text)

    def texts(self, kind):
        """The words of a class, with where they are."""
        return [(each.text, float(each.get("x")), float(each.get("y"))) for each in self.svg.iter(f"{SVG}text") if each.get("class") == kind]

    def test_each_point_is_where_the_ticks_say(self):
        ticks, counts = self.texts("tick"), self.texts("count")
        low, high = (next(y for text, _x, y in ticks if text == wanted) for wanted in ("0", "1"))
        lines = list(self.svg.iter(f"{SVG}polyline"))
        wanted = [*ROWS.values(), *(values[::-1] for values in ROWS.values())]
        self.assertEqual(len(lines), len(wanted))
        for at, (line, values) in enumerate(zip(lines, wanted)):
            points = [tuple(map(float, point.split(","))) for point in line.get("points").split()]
            places = [x for _text, x, _y in counts[4 * (at // 3):4 * (at // 3) + 4]]
            known = [(x, value) for x, value in zip(places, values) if value is not None]
            self.assertEqual(len(points), len(known))
            for (x, y), (place, value) in zip(points, known):
                self.assertAlmostEqual(x, place, delta=0.2)
                self.assertAlmostEqual((low - 4 - y) / (low - high), value, delta=0.01)

    def test_each_line_has_a_colour_and_a_mark_of_its_own(self):
        self.assertEqual(len(set(plot.MARKS)), len(plot.LINES))
        self.assertEqual(self.text.count('class="mark0"'), 4 + 4 + 1)  # eight points and the legend's
        self.assertEqual(self.text.count('class="mark1"'), 3 + 3 + 1)

    def test_all_is_within_the_picture_and_no_text_is_over_another(self):
        width, height = float(self.svg.get("width")), float(self.svg.get("height"))
        boxes = []
        for each in self.svg.iter(f"{SVG}text"):
            size, x, y = 7.5 * len(each.text), float(each.get("x")), float(each.get("y"))
            left = x - {None: 0, "middle": size / 2, "end": size}[each.get("text-anchor")]
            boxes.append((left, y - 11, left + size, y + 4, each.text))
        for left, top, right, bottom, text in boxes:
            self.assertTrue(left >= 0 and top >= 0 and right <= width and bottom <= height, text)
            for other in boxes:
                self.assertTrue(other[4] == text and other[0] == left or right <= other[0] or other[2] <= left or bottom <= other[1]
                                or other[3] <= top, (text, other[4]))

    def test_light_and_dark_can_be_read(self):
        def brightness(colour):
            parts = [int(colour[at:at + 2], 16) / 255 for at in (1, 3, 5)]
            red, green, blue = (part / 12.92 if part <= 0.04045 else ((part + 0.055) / 1.055) ** 2.4 for part in parts)
            return 0.2126 * red + 0.7152 * green + 0.0722 * blue
        light, dark = self.text.split("@media(prefers-color-scheme:dark)")
        for rules in (light, dark.split("</style>")[0]):
            found = dict(re.findall(r"\.?(\w+)\{(?:fill|stroke):(#\w{6})\}", rules))
            ground = brightness(found.pop("page"))
            self.assertEqual(len(found), 2 + 2 * len(plot.LINES))
            for name, colour in found.items():
                low, high = sorted((brightness(colour), ground))
                self.assertGreaterEqual((high + 0.05) / (low + 0.05), 4.5 if name in ("text", "axis") else 3, name)

    def test_what_would_need_more_colours_is_refused(self):
        with self.assertRaises(ValueError):
            plot.picture("Times", (1, 2), [("wall", {str(i): [1, 1] for i in range(len(plot.LINES) + 1)})])


class Drawn(Folder):
    """bench/images.py at the ends of its sizes."""

    def drawn(self, *words):
        """The status, what is said of a refusal, and the image."""
        path = self.room / "drawn.img"
        path.unlink(missing_ok=True)
        done = subprocess.run([sys.executable, str(TOP / "bench/images.py"), words[0], str(path), *words[1:]],
                              capture_output=True, text=True)
        return done.returncode, done.stderr, path.read_bytes() if path.exists() else None

    def test_sizes_that_no_image_has_are_refused(self):
        for words in (["100"], ["8"], ["131072"], ["32"], ["16", "--card", "16"], ["64", "--card", "128"],
                      ["64", "--card", "3"], ["64", "--words", "32"], ["64", "--words", "262145"],
                      ["65536", "--words", str((1 << 24) + 1)]):
            status, told, image = self.drawn(*words)
            self.assertEqual((status, told.count("\n"), image), (1, 1, None), words)
            self.assertTrue(told.startswith("images.py: "), told)

    def test_the_smallest_sizes_are_those_of_images(self):
        for words in (["16", "--card", "16", "--words", "65536"], ["16", "--card", "4", "--words", "16"],
                      ["32", "--card", "4", "--words", "4096"], ["64", "--words", "100000"]):
            for seed in ("1", "2", "3"):
                status, told, image = self.drawn(*words, "--seed", seed)
                self.assertEqual((status, told), (0, ""), words)
                self.assertIsNone(fault_of(image, True), words)

    def test_growing_images_have_the_sizes_that_are_told(self):
        """The smallest and the largest one are made."""
        told = [float(size) for size in re.search(r"growing size, from ([\d.]+) to (\d+) MB", compare.__doc__).groups()]
        self.assertEqual((len(compare.GROWING), compare.GROWING), (8, sorted(compare.GROWING)))
        for words, size in zip((compare.GROWING[0], compare.GROWING[-1]), told):
            image = self.drawn(*compare.growing(words, "1"))[2]
            self.assertAlmostEqual(len(image) / compare.MB / size, 1, delta=0.06)

    def test_a_share_of_the_regions_is_free(self):
        for share in ("0", "0.5", "0.9"):
            image = self.drawn("64", "--words", "262144", "--free", share)[2]
            regions = read(image)[3]
            self.assertAlmostEqual(sum(1 for kind, _top, _flags in regions if not kind) / len(regions), float(share), delta=0.06)


# What HotSpot logs of its pauses, in the format of JDK 17 with fewer columns: two young pauses, the second in two
# steps, a full collection between them, and a pause that marks.
LOG = """\
[0.101s][info ][gc,phases] GC(0)   Pre Evacuate Collection Set: 0.1ms
[0.101s][debug][gc,phases] GC(0)     Prepare TLABs: 0.0ms
[0.101s][info ][gc,phases] GC(0)   Merge Heap Roots: 0.5ms
[0.101s][info ][gc,phases] GC(0)   Evacuate Collection Set: 8.0ms
[0.101s][debug][gc,phases] GC(0)     Object Copy (ms):   Min:  7.4, Avg:  7.4, Max:  7.4, Sum:  7.4, Workers: 1
[0.101s][info ][gc,phases] GC(0)   Post Evacuate Collection Set: 0.3ms
[0.101s][debug][gc,phases] GC(0)       Merge Per-Thread State (ms):   Min:  0.0, Avg:  0.0, Max:  0.0, Workers: 1
[0.101s][debug][gc,phases] GC(0)         Copied Bytes     Min: 2000000, Max: 2000000, Sum: 2000000, Workers: 1
[0.101s][debug][gc,phases] GC(0)         LAB Waste        Min: 1696, Max: 1696, Diff: 0, Sum: 1696, Workers: 1
[0.101s][info ][gc       ] GC(0) Pause Young (Normal) (G1 Evacuation Pause) 24M->19M(209M) 9.000ms
[0.101s][info ][gc,cpu   ] GC(0) User=0.01s Sys=0.00s Real=0.01s
[0.350s][info ][gc,phases] GC(1) Phase 1: Mark live objects 20.000ms
[0.400s][info ][gc       ] GC(1) Pause Full (System.gc()) 21M->10M(44M) 73.190ms
[0.400s][info ][gc,cpu   ] GC(1) User=0.08s Sys=0.01s Real=0.07s
[0.501s][info ][gc,phases] GC(2)   Evacuate Collection Set: 3.5ms
[0.501s][info ][gc,phases] GC(2)   Evacuate Optional Collection Set: 1.5ms
[0.501s][debug][gc,phases] GC(2)         Copied Bytes     Min: 250000, Max: 750000, Sum: 1000000, Workers: 2
[0.501s][info ][gc       ] GC(2) Pause Young (Mixed) (G1 Evacuation Pause) 30M->12M(209M) 6.500ms
[0.501s][info ][gc,cpu   ] GC(2) User=0.02s Sys=0.01s Real=0.01s
[0.600s][info ][gc       ] GC(3) Pause Remark 13M->13M(209M) 2.000ms
"""


class Logs(unittest.TestCase):
    def test_the_young_pauses_of_a_log_are_added_up(self):
        pauses = hotspot.read_log(LOG)
        wanted = hotspot.Pauses(count=2, evacuating=8.0 + 3.5 + 1.5, whole=9.0 + 6.5, cpu=40.0, copied=3_000_000)
        self.assertEqual(pauses, wanted)
        self.assertAlmostEqual(pauses.a_megabyte("evacuating"), 13 / 3)
        self.assertAlmostEqual(pauses.a_megabyte("whole"), 15.5 / 3)
        self.assertAlmostEqual(pauses.a_megabyte("cpu"), 40 / 3)

    def test_rounds_are_taken_together_and_the_best_is_found(self):
        runs = [hotspot.Pauses(2, 13.0, 15.5, 40.0, 3_000_000), hotspot.Pauses(1, 8.0, 9.0, 60.0, 1_000_000)]
        self.assertEqual(hotspot.together(runs), hotspot.Pauses(3, 21.0, 24.5, 100.0, 4_000_000))
        self.assertEqual(hotspot.best(runs), runs[0])

    def test_a_clock_that_did_not_move_is_no_time(self):
        log = LOG.replace("User=0.01s", "User=0.00s").replace("User=0.02s Sys=0.01s", "User=0.00s Sys=0.00s")
        self.assertIsNone(hotspot.read_log(log).a_megabyte("cpu"))

    def test_a_later_jdk_writes_a_colon_and_another_digit(self):
        log = LOG.replace("Copied Bytes ", "Copied Bytes:").replace("8.0ms", "8.00ms")
        self.assertEqual(hotspot.read_log(log), hotspot.read_log(LOG))

    def test_the_lines_of_two_pauses_may_be_mixed(self):
        lines = LOG.splitlines()
        self.assertEqual(hotspot.read_log("\n".join(lines[::2] + lines[1::2])), hotspot.read_log(LOG))

    def test_a_pause_that_the_log_has_in_part_does_not_count(self):
        for part in ("Pause Young (Mixed)", "GC(2)         Copied", "GC(2)   Evacuate", "GC(2) User"):
            log = "\n".join(line for line in LOG.splitlines() if part not in line)
            self.assertEqual(hotspot.read_log(log), hotspot.Pauses(1, 8.0, 9.0, 10.0, 2_000_000), part)


# What the program of the phases prints: by it `evacuate` copied 250,000 words, which are 2 MB.
PHASES = """\
starts 1000000 2000000
live 30000000 31000000
discover 20000000 21000000
evacuate 9000000 9500000
copied 250000
"""
CHOICE = """\
region 3 cost 10 garbage 400 taken
region 1 cost 10 garbage 300 taken
region 2 cost 50 garbage 10
total 20
"""


class Phases(Folder):
    """phases.py and hotspot.py, with programs of a few lines in the place of ours and of java."""

    def setUp(self):
        super().setUp()
        self.calls, choice, printed = (self.room / name for name in ("calls", "choice", "printed"))
        choice.write_text(CHOICE)
        printed.write_text(PHASES)
        # A pause has room for a budget of 8,192, and a choice is that of this budget.
        self.ours = self.program("ours", f"""cat >/dev/null; echo "$@" >>{shlex.quote(str(self.calls))}
case "$*" in
"choose --budget 8192") cat {shlex.quote(str(choice))} ;;
pause*--budget*) test "${{*##* }}" -le 8192 || exit 5 ;;
esac""")
        self.driver = self.program("driver", f"cat >/dev/null; cat {shlex.quote(str(printed))}")

    def run_script(self, script, *words):
        """The status, and what it says, with a driver that is not built."""
        with unittest.mock.patch.object(phases, "built", lambda: self.driver), \
                contextlib.redirect_stdout(io.StringIO()) as out, contextlib.redirect_stderr(io.StringIO()) as errors:
            try:
                status = script.main([str(word) for word in words])
            except SystemExit as ended:
                status = ended.code
        return status, out.getvalue(), "\n".join(progress.without_signs(errors.getvalue().splitlines()))

    def timed(self, *words, name="small.img"):
        return self.run_script(phases, *words, "--program", self.ours, self.inputs / name)

    def rows(self, text, first):
        """The cells of the rows whose first cell is this."""
        lines = [line.strip("|").split("|") for line in text.splitlines() if line.startswith("|")]
        return [[cell.strip() for cell in cells[1:]] for cells in lines if cells[0].strip() == first]

    def test_what_the_program_prints_is_read(self):
        found = phases.read_phases(PHASES)
        self.assertEqual(found.copied, 2_000_000)
        self.assertEqual(found.times["discover"], phases.Time(20.0, 21.0))

    def test_a_phase_that_is_missing_is_a_failure(self):
        without = PHASES.partition("\n")[2]
        for text in ("", without, PHASES.replace("copied", "moved"), PHASES + "another 1 1\n"):
            with self.assertRaises(phases.Failed):
                phases.read_phases(text)

    def test_the_least_of_all_rounds_counts(self):
        figures = phases.Figures(pathlib.Path("a.img"), phases.Goal([1], ["1"]))
        for workers, wall, cpu in ((1, 9.0, 7.0), (1, 8.0, 9.0), (4, 6.0, 20.0), (4, 7.0, 18.0)):
            figures.add("`evacuate`", workers, phases.Time(wall, cpu))
            figures.add("starts", workers, phases.Time(wall / 4, cpu))
        figures.copied = 2_000_000
        self.assertEqual(figures.least("`evacuate`", 1), phases.Time(8.0, 7.0))
        self.assertEqual(figures.ratio("`evacuate`", 4, 1), 0.75)
        self.assertEqual([figures.a_megabyte(1), figures.a_megabyte(4)], [4.0, 3.0])
        self.assertEqual(figures.a_megabyte(1, ("starts",)), 3.0)
        figures.copied = 0
        self.assertIsNone(figures.a_megabyte(1))

    def test_processor_time_may_be_the_mean_of_all_rounds(self):
        figures = phases.Figures(pathlib.Path("a.img"), phases.Goal([1], ["1"]))
        for cpu in (7.0, 9.0):
            figures.add("`evacuate`", 1, phases.Time(50.0, cpu))
            figures.add("starts", 1, phases.Time(50.0, cpu - 5))
        figures.copied = 2_000_000
        self.assertEqual(figures.a_megabyte(1, of=phases.mean_cpu), 4.0)
        self.assertEqual(figures.a_megabyte(1, ("starts",), phases.mean_cpu), 2.5)

    def test_a_busy_machine_is_told(self):
        for load, busy in (("1.4 9.0 9.0", False), ("1.5 0.1 0.1", True), ("12.0 0.1 0.1", True)):
            said = phases.about(load, 1)
            self.assertEqual("trust processor time alone" in said, busy, load)
            self.assertIn(f"load {load} before", said)

    def test_the_set_is_what_the_greatest_budget_with_room_buys(self):
        status, text, errors = self.timed("--rounds", "1")
        self.assertEqual((status, errors), (0, ""))
        self.assertEqual(self.rows(text, "small")[-1], ["`--budget 8192`", "2", "2.0", "4.50", "4.50", "4.00", "4.00"])
        calls = self.calls.read_text().splitlines()
        self.assertEqual([f"pause --budget {1 << power}" for power in range(25, 12, -1)], calls[:13])
        counts = [f"{command} --workers {count}{budget}" for count in (1, 4)
                  for command, budget in (("live", ""), ("pause", " --budget 8192"))]
        self.assertEqual(calls[13:], ["choose --budget 8192", *counts])

    def test_each_phase_has_a_row_and_a_mean(self):
        _status, text, _errors = self.timed("--rounds", "2", "--workers", "1,2,4", "--budget", "8192")
        rows = {row[0]: row[1:] for row in self.rows(text, "small")[:-1]}
        self.assertEqual(list(rows), ["starts", "`discover`, all", "`discover`, the set", "`evacuate`", "`live`",
                                      "`pause --budget`"])
        self.assertEqual(rows["`discover`, all"], ["30.0", "31.0"] * 3 + ["1.00", "1.00"])
        self.assertEqual(self.rows(text, "`discover`, all"), [["1", "1.00", "1.00"]])

    def test_a_set_may_be_given(self):
        status, text, _errors = self.timed("--rounds", "1", "--regions", "1,3-4")
        self.assertEqual(status, 0)
        self.assertEqual(self.rows(text, "small")[-1][:3], ["given", "3", "2.0"])
        self.assertIn("pause --workers 4 1 3 4", self.calls.read_text().splitlines())

    def test_a_program_that_fails_is_told_with_what_it_says(self):
        self.driver = self.program("driver", "echo 'phases: set region 9' >&2; exit 1")
        status, text, errors = self.timed("--budget", "8192")
        self.assertEqual((status, text), (1, ""))
        self.assertEqual(errors, "phases.py: small.img: driver 1 1 3: status 1: phases: set region 9")

    def test_without_the_kit_there_is_one_line(self):
        with unittest.mock.patch.object(phases.unproved.shutil, "which", lambda _name: None), \
                self.assertRaisesRegex(phases.unproved.NotBuilt, "^there is no rt on the path"):
            phases.built()

    def test_what_is_no_image_is_refused(self):
        for name in ("small.trace", "other.txt", "nothing"):
            status, _text, errors = self.timed(name=name)
            self.assertEqual(status, 2)
            self.assertIn(f"{name} is no image", errors)

    def test_figures_are_written_between_the_marks_alone(self):
        page = self.room / "page.md"
        page.write_text(f"Before\n{phases.BEGIN}\nold\n{phases.END}\nAfter\n")
        self.timed("--rounds", "1", "--budget", "8192", "--write", page)
        written = page.read_text()
        self.assertTrue(written.startswith(f"Before\n{phases.BEGIN}\n\nSeen on "))
        self.assertTrue(written.endswith(f"\n\n{phases.END}\nAfter\n"))
        self.assertNotIn("old", written)
        for secret in (socket.gethostname(), str(self.room), str(TOP), "/dev/shm"):
            self.assertNotIn(secret, written)

    # HotSpot

    def java(self, body='cat "$LOG_OF_TEST" >"$log"'):
        """A folder with a java and a javac."""
        (self.room / "log").write_text(LOG)
        self.program("javac", "exit 0")
        return self.program("java", f"""case "$1" in -version) echo 'openjdk version "17.0.1"' >&2; exit 0;; esac
for word; do case "$word" in -Xlog:*) log=${{word#*file=}}; log=${{log%%:*}};; esac; done
LOG_OF_TEST={shlex.quote(str(self.room / 'log'))}
{body}""")

    def images(self):
        folder = self.room / "images"
        folder.mkdir()
        for name in hotspot.PROGRAMS:
            (folder / f"{name}.g1").write_bytes((TOP / "examples/one_object.img").read_bytes())
        return folder

    def test_a_jdk_that_is_not_there_is_one_line(self):
        status, text, errors = self.run_script(hotspot, self.room / "no" / "java")
        self.assertEqual((status, text), (2, ""))
        self.assertEqual(errors, f"hotspot.py: there is no java '{self.room}/no/java'")

    def test_hotspot_stands_beside_evacuate(self):
        words = ("--rounds", "1", "--images", self.images(), "--program", self.ours)
        status, text, errors = self.run_script(hotspot, *words, self.java())
        self.assertEqual((status, errors), (0, ""))
        # 13/3 and 15.5/3; 9/2 and 8/2; these two divided by 13/3
        wanted = ["2", "3.0", "4.33", "5.17", "2", "2.0", "4.50", "4.00", "1.04", "0.92"]
        # 40/3; 9.5/2 and 7.5/2; these two divided by 40/3
        cpu = ["13.33", "4.75", "3.75", "0.36", "0.28"]
        for name in hotspot.PROGRAMS:
            self.assertEqual(self.rows(text, name), [["1", *wanted], ["4", *wanted], ["1", *cpu], ["4", *cpu]])
        self.assertIn("### HotSpot 17.0.1, G1, beside g1pause\n", text)
        self.assertIn("### HotSpot 17.0.1, G1, beside g1pause: processor time\n", text)

    def test_without_images_hotspot_stands_alone(self):
        status, text, _errors = self.run_script(hotspot, "--rounds", "1", self.java())
        self.assertEqual(status, 0)
        wanted = ["2", "3.0", "4.33", "5.17"]
        self.assertEqual(self.rows(text, "java_graph"), [["1", *wanted], ["4", *wanted], ["1", "13.33"], ["4", "13.33"]])

    def test_the_threads_and_more_options_are_handed_on(self):
        seen = self.room / "seen"
        java = self.java(f'echo "$*" >>{shlex.quote(str(seen))}; cat "$LOG_OF_TEST" >"$log"')
        self.run_script(hotspot, "--rounds", "1", "--workers", "2", "--option=-XX:-UseCompressedOops", java)
        calls = seen.read_text().splitlines()
        wanted = "-XX:+UseG1GC -XX:ParallelGCThreads=2 -Xmx512m -XX:-UseCompressedOops "
        self.assertEqual(len(calls), len(hotspot.PROGRAMS))
        for call in calls:
            self.assertTrue(call.startswith(f"{wanted}-Xlog:gc,gc+cpu,gc+phases=debug:"), call)

    def test_the_best_round_counts_and_the_mean_of_processor_time(self):
        body = ('test -e "$LOG_OF_TEST.2" && sed "s/8.0ms/2.0ms/; s/User=0.02s/User=0.05s/" "$LOG_OF_TEST" >"$log" || cat "$LOG_OF_TEST" >"$log"\n'
                'touch "$LOG_OF_TEST.2"')
        _status, text, _errors = self.run_script(hotspot, "--rounds", "2", "--workers", "1", self.java(body))
        wanted = [["1", "2", "3.0", "2.33", "5.17"], ["1", "18.33"]]  # 7/3; (40 + 70)/6
        self.assertEqual(self.rows(text, "java_trees"), wanted)

    def test_a_java_that_fails_is_told(self):
        for where in (">&2", ""):
            status, text, errors = self.run_script(hotspot, self.java(f"echo 'Error: no such class' {where}; exit 1"))
            self.assertEqual((status, text), (1, ""))
            self.assertEqual(errors, "hotspot.py: java_trees: java ended with status 1: Error: no such class")

    def test_a_java_that_is_too_slow_is_one_line(self):
        with unittest.mock.patch.object(hotspot.jvm, "SECONDS", 1):
            java = self.java("exec sleep 30")
            status, text, errors = self.run_script(hotspot, java)
        self.assertEqual((status, text, errors), (1, "", f"hotspot.py: {java}: was ended after 1 seconds"))

    def test_a_log_without_a_copy_is_one_line(self):
        nothing = 'sed "s/Sum: [0-9]*/Sum: 0/" "$LOG_OF_TEST" >"$log"'
        for body in (':', ': >"$log"', nothing, 'sed "s/Pause Young/Pause Old/" "$LOG_OF_TEST" >"$log"'):
            status, text, errors = self.run_script(hotspot, self.java(body))
            self.assertEqual((status, text), (1, ""), body)
            self.assertEqual(errors, "hotspot.py: java_trees: the log has no young pause that copied anything, or this java "
                                     "writes another log", body)


if __name__ == "__main__":
    unittest.main()
