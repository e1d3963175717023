#!/usr/bin/env python3
"""Tests tools/challenge.py: test_challenge.py [G1HEAP [G1PAUSE]] [-v] [-k PATTERN]

It challenges collectors that are right, that are wrong in one way or on one heap, and commands that fail in every other way:
they are not there, can't be run, never end, fill the disk, flood their streams, crash. After each call no process and no
temporary file may be left. The reducer may not lose the error, wherever it is stopped. Each kind of heaps at random has to give
images that are covered, by the reading of tools/lib/image_text.py. Those for examples/loop need a C compiler.
"""
import argparse
import hashlib
import os
import pathlib
import random
import shutil
import signal
import subprocess
import sys
import tempfile
import time
import unittest

TOOLS = pathlib.Path(__file__).resolve().parent
TOP = TOOLS.parent
sys.dont_write_bytecode = True
sys.path[:0] = [str(TOOLS), str(TOOLS / "lib")]

import challenging  # noqa: E402
import challenging_traces  # noqa: E402
import collector_errors  # noqa: E402
import opponent  # noqa: E402
import random_heaps  # noqa: E402
import release  # noqa: E402
from challenge_strength import InProcess  # noqa: E402
from heap_image import FIRST, NULL, ORDINARY, Image, from_bytes  # noqa: E402
from image_text import fault_of  # noqa: E402
from likeness import Likeness  # noqa: E402
from programs import OUT, add_program  # noqa: E402
from progress import without_signs  # noqa: E402
from reducible import take_apart  # noqa: E402
from reducing import Reducer  # noqa: E402

CHALLENGE, PLAIN, OPPONENT = TOOLS / "challenge.py", TOP / "examples" / "loop" / "plain.py", TOOLS / "opponent.py"
G1HEAP, G1PAUSE = OUT / "g1heap", OUT / "g1pause"
FILES = ["{before}", "{after}", "{set}"]
MARK = "CHALLENGE_TEST"
WRONG_ON_ONE = """
import hashlib, pathlib, shutil, subprocess, sys
before, after, regions = sys.argv[2:]
if hashlib.sha256(pathlib.Path(before).read_bytes()).hexdigest() == sys.argv[1]:
    shutil.copy(before, after)
else:
    sys.exit(subprocess.call([%r, before, after, regions]))
""" % str(PLAIN)
# A machine that answers traces as a plain store does, with an error where ERROR stands.
MACHINE = """
import sys
sys.path[:0] = [%r, %r]
from random_traces import Store
head, *lines = sys.stdin.read().splitlines()
store = Store(int(head.split()[4]))
for number, line in enumerate(lines):
    reply = store.reply(line.split(), "ok")
    ERROR
    print(reply)
""" % (str(TOOLS), str(TOOLS / "lib"))


def left_over():
    """The processes that were started by a call with this mark, and still are."""
    found = []
    for folder in pathlib.Path("/proc").glob("[0-9]*"):
        try:
            if f"{MARK}={os.getpid()}".encode() in (folder / "environ").read_bytes().split(b"\0") \
                    and (folder / "stat").read_text().rsplit(")", 1)[1].split()[0] != "Z":
                found.append((folder / "cmdline").read_bytes())
        except OSError:
            pass
    return found


def left_over_in_the_end(seconds=5):
    """What is left after this time at most: a process that was killed may need a moment to end."""
    end = time.monotonic() + seconds
    while left_over() and time.monotonic() < end:
        time.sleep(0.05)
    return left_over()


class Case(unittest.TestCase):
    def setUp(self):
        self.room = pathlib.Path(self.enterContext_(tempfile.TemporaryDirectory()))
        self.temporary = self.room / "temporary"
        self.temporary.mkdir()

    def enterContext_(self, context):
        self.addCleanup(context.cleanup)
        return context.name

    def start(self, *words):
        """Starts a challenge of the words behind --."""
        environment = {**os.environ, MARK: str(os.getpid()), "TMPDIR": str(self.temporary)}
        programs = ["--g1heap", str(G1HEAP), "--g1pause", str(G1PAUSE)]
        return subprocess.Popen([CHALLENGE, *programs, "--out", "out", *map(str, words)], cwd=self.room, env=environment, text=True,
                                stdin=subprocess.DEVNULL, stdout=subprocess.PIPE, stderr=subprocess.PIPE)

    def end(self, process):
        out, errors = process.communicate(timeout=900)
        self.assertEqual([*self.temporary.iterdir()], [], "temporary files are left")
        self.assertEqual(left_over_in_the_end(), [], "processes are left")
        self.assertNotIn("Traceback", errors)
        return process.returncode, out, "".join(f"{line}\n" for line in without_signs(errors.splitlines()))

    def challenge(self, *words):
        return self.end(self.start(*words))

    def script(self, text, name="command"):
        """A program of shell, or of Python if it imports something."""
        path = self.room / name
        path.write_text(f"#!{sys.executable}\n{text}" if "import" in text else f"#!/bin/sh\n{text}\n")
        path.chmod(0o755)
        return path

    def is_wrong(self, said, *words):
        """A challenge with few heaps says this of the first wrong answer."""
        status, out, errors = self.challenge("--heaps", 3, "--tries", 0, *words)
        self.assertEqual((status, errors), (1, ""), out)
        self.assertIn(said, out)
        return out


class Right(Case):
    """Collectors without an error."""

    def none_wrong(self, *words):
        status, out, errors = self.challenge(*words)
        self.assertEqual((status, errors), (0, ""), out)
        self.assertRegex(out, r"(?m)^\d+ answers, none wrong: \d+ right, \d+ without room")

    def test_plain(self):
        self.none_wrong("--heaps", 24, "--covered", "--", PLAIN, *FILES)

    def test_opponent(self):
        self.none_wrong("--heaps", 200, "--covered", "--loop", "--", OPPONENT, "--loop")
        self.none_wrong("--heaps", 24, "--covered", "--set-words", "--", OPPONENT, "{before}", "{after}", "--set", "{set}")

    def test_filling(self):
        self.none_wrong("--heaps", 200, "--fill", "--loop", "--", OPPONENT, "--loop", "--fill")
        self.is_wrong("outside the set, with another kind or top after", "--heaps", 50, "--loop", "--", OPPONENT, "--loop", "--fill")

    def test_ours(self):
        words = ["--stdin", "--set-words", "--no-room", 5, "--exact", "--covered", "--", G1PAUSE, "pause", "{set}"]
        self.none_wrong("--heaps", 100, *words)
        self.none_wrong("--heaps", 100, "--jobs", 4, *words)
        self.none_wrong("--heaps", 40, "--like", TOP / "examples" / "humongous.img", *words)
        self.none_wrong("--image", TOP / "examples" / "shared_targets.img", "--set", "1", *words)

    def test_by_cards(self):
        for make in (opponent.Opponent, collector_errors.ByCards):
            trial = challenging.Trial(InProcess(make), challenging.Asked(str(G1HEAP), covered=True), self.room)
            hunt = challenging.Hunt([trial], 7, 300, None, 1)
            self.assertIsNone(hunt.run())
            self.assertGreater(trial.right, 150)

    def test_never_room(self):
        status, out, errors = self.challenge("--heaps", 5, "--", self.script("exit 75"), *FILES)
        self.assertEqual((status, errors), (3, ""))
        self.assertIn("0 right, 5 without room", out)


class Wrong(Case):
    """Collectors with an error."""

    def test_one_heap(self):
        """A collector that is wrong on one heap alone: that heap is found, and nothing smaller."""
        image, chosen, _ = challenging.draw("1", 5)
        digest = hashlib.sha256(image.to_bytes()).hexdigest()
        command = self.script(WRONG_ON_ONE)
        status, out, _ = self.challenge("--tries", 60, "--", command, digest, *FILES)
        self.assertEqual(status, 1)
        self.assertIn("heap 5 of seed 1", out)
        self.assertEqual((self.room / "out" / "before.img").read_bytes(), image.to_bytes())
        self.assertIn(f"--set {','.join(map(str, chosen))} ", out)
        again = out.split("\nagain: ")[1].splitlines()[0]
        done = subprocess.run(["sh", "-c", again], cwd=self.room, capture_output=True, text=True, check=False)
        self.assertEqual((done.returncode, done.stderr), (1, ""))

    def test_no_copy(self):
        """Nothing is collected: the smallest heap is a region of one object."""
        status, out, _ = self.challenge("--", "cp", "{before}", "{after}")
        self.assertEqual(status, 1)
        self.assertIn("1 objects, 1 regions; set 0\n  differ region 0: in the set, and not free after\n", out)
        folder = self.room / "out"
        self.assertEqual((folder / "verdict.txt").read_text(), "differ region 0: in the set, and not free after\n")
        self.assertEqual((folder / "before.img").read_bytes(), (folder / "after.img").read_bytes())
        self.assertIn("object 0 1/0", (folder / "before.txt").read_text())
        self.assertIn("region 0 free top 0", (folder / "explain.txt").read_text())

    def test_kinds(self):
        """What is asked finds what it asks for: the graph alone does not look at regions, and --exact wants our own bytes."""
        copies = ["--", "cp", "{before}", "{after}"]
        self.assertEqual(self.challenge("--heaps", 5, "--graph", *copies)[0], 0)
        self.is_wrong("in the set, and not free after", *copies)
        exact = ["--heaps", 50, "--exact", "--loop", "--", OPPONENT, "--loop"]
        self.assertRegex(self.is_wrong("our own pause", *exact), "differ bytes: byte \\d+ is not|room")
        room = self.script("exit 75")
        self.is_wrong("it found no room, and our own pause finds some", "--exact", "--", room, *FILES)

    def test_same_kind(self):
        """An error that is made smaller in one way stays of that way."""
        text = f"import sys, subprocess\nfrom pathlib import Path\nfrom heap_image import from_bytes\nimage = from_bytes(Path(sys.argv[1]).read_bytes())\n" \
               f"sys.exit(9 if len(list(image.objects())) > 9 else subprocess.call(['cp', *sys.argv[1:3]]))\n"
        command = self.script(text.replace("import sys, subprocess\n", f"import sys, subprocess\nsys.path.insert(0, {str(TOOLS / 'lib')!r})\n"))
        for words, said in (([], "not free after"), (["--same-kind"], "status 9")):
            out = self.challenge("--profile", "chains", *words, "--", command, *FILES)[1]
            self.assertIn("wrong after", out)
            self.assertIn("\n  status 9\nmade smaller", out)
            self.assertIn(said, (self.room / "out" / "verdict.txt").read_text())
        self.assertIn(": 10 objects", out)

    def test_again(self):
        """Wrong at each third run."""
        count = self.room / "count"
        command = self.script(f'echo >> {count}\n[ $(($(wc -l < {count}) % 3)) -ne 0 ] || exit 7\nexec {PLAIN} "$@"')
        status, out, _ = self.challenge("--profile", "smallest_objects", "--again", 3, "--tries", 30, "--", command, *FILES)
        self.assertEqual(status, 1)
        self.assertRegex(out, r"wrong in 1 of \d runs")
        self.assertIn("status 7", (self.room / "out" / "verdict.txt").read_text())

    def test_jobs(self):
        """The first wrong heap is the same, however many look for it."""
        command = self.script(f"import subprocess, sys\nfrom pathlib import Path\nis_wrong = len(Path(sys.argv[1]).read_bytes()) > 6000\n"
                              f"sys.exit(subprocess.call(['cp', *sys.argv[1:3]] if is_wrong else [{str(PLAIN)!r}, *sys.argv[1:]]))")
        heads = [self.challenge("--tries", 0, "--jobs", jobs, "--", command, *FILES)[1].split(": ")[0] for jobs in (1, 3)]
        self.assertEqual(*heads)
        self.assertTrue(heads[0].startswith("heap "))


class Bad(Case):
    """Commands that fail in another way."""

    def test_not_there(self):
        for command, said in (("/nofile", "No such file"), (self.room, "ermission denied"), (self.temporary / "x", "No such file")):
            for words in (FILES, ["--loop"]):
                options = ["--loop"] if words == ["--loop"] else []
                status, out, errors = self.challenge(*options, "--", command, *(FILES if not options else []))
                self.assertEqual((status, out), (2, ""))
                self.assertIn(said, errors)
                self.assertEqual(errors.count("\n"), 1)

    def test_no_program(self):
        path = self.script("exit 0")
        path.chmod(0o644)
        self.assertEqual(self.challenge("--", path, *FILES)[:2], (2, ""))
        path.write_bytes(b"\x7fELF and nothing else")
        path.chmod(0o755)
        self.assertEqual(self.challenge("--", path, *FILES)[:2], (2, ""))

    def test_never_ends(self):
        self.is_wrong("no answer in 0.5 seconds", "--timeout", 0.5, "--", self.script("sleep 1000 & sleep 1000"), *FILES)
        self.is_wrong("no answer in 0.5 seconds", "--timeout", 0.5, "--", self.script("trap '' TERM INT; while :; do :; done"), *FILES)
        self.is_wrong("no answer in 0.5 seconds", "--timeout", 0.5, "--loop", "--", self.script("sleep 1000"))

    def test_leaves_a_process(self):
        self.is_wrong("it wrote no file after", "--", self.script("sleep 1000 & exit 0"), *FILES)

    def test_leaves_files(self):
        self.is_wrong("it wrote no file after", "--", self.script("mktemp > /dev/null; mktemp -d > /dev/null"), *FILES)

    def test_fills_the_disk(self):
        said = "killed by SIGXFSZ, since it wrote a file of more than 64 MiB"
        self.is_wrong(said, "--", self.script('exec yes > "$2"'), *FILES)
        self.is_wrong(said, "--", self.script("exec yes"), *FILES)
        self.is_wrong(said, "--", self.script("exec yes >&2"), *FILES)
        self.is_wrong(said, "--stdin", "--", self.script("exec yes"))
        self.is_wrong(said, "--loop", "--", self.script("read line; exec yes >&2"))

    def test_crashes(self):
        self.is_wrong("killed by SIGSEGV", "--", self.script("kill -SEGV $$"), *FILES)
        self.is_wrong("status 3: not so", "--", self.script("echo first >&2; echo not so >&2; exit 3"), *FILES)
        self.is_wrong("killed by SIGSEGV", "--loop", "--", self.script("read line; kill -SEGV $$"))
        self.is_wrong("it ended before it replied: bye", "--loop", "--", self.script("read line; echo bye >&2"))
        self.is_wrong("status 4", "--loop", "--", self.script("exit 4"))

    def test_wrong_files(self):
        self.is_wrong("fault 3: short", "--", self.script(': > "$2"'), *FILES)
        self.is_wrong("fault 1: magic", "--", self.script('echo something longer > "$2"'), *FILES)
        for text in ('mkfifo "$2"', 'mkdir "$2"', 'ln -s "$1" "$2"', "exit 0"):
            self.is_wrong("it wrote no file after", "--heaps", 1, "--", self.script(text), *FILES)

    def test_changes_the_heap_before(self):
        for text in (': > "$1"', 'rm "$1"', 'cp "$1" "$2"; printf x >> "$1"', 'rm "$1"; mkdir "$1"', 'rm "$1"; mkfifo "$1"'):
            self.is_wrong("it changed the file before", "--", self.script(text), *FILES)

    def test_wrong_replies(self):
        for text, said in (("while read line; do echo well; done", "the reply 'well', which is neither ok nor room"),
                           (r"while read line; do printf 'ok\nok\n'; sleep 1; done", "a reply of more than one line"),
                           ("read line; head -c 9999 /dev/zero; sleep 999", "a reply without an end"),
                           ("while read line; do echo ok; done", "it wrote no file after")):
            self.is_wrong(said, "--timeout", 60, "--loop", "--", self.script(text))
        self.is_wrong("no answer in 0.5 seconds", "--timeout", 0.5, "--loop", "--", self.script("read line; printf ok; sleep 9"))

    def test_usage(self):
        image = TOP / "examples" / "shared_targets.img"
        for words in ([], ["--"], ["--", "cp"], ["--", "cp", "{before}"], ["--loop", "--stdin", "--", "cp"], ["--loop", "--", "cp", *FILES],
                      ["--graph", "--covered", "--", "cp", *FILES], ["--image", image, "--", "cp", *FILES],
                      ["--image", image, "--set", "x", "--", "cp", *FILES], ["--image", image, "--set", "2", "--", "cp", *FILES],
                      ["--image", CHALLENGE, "--set", "1", "--", "cp", *FILES], ["--image", "/nofile", "--set", "1", "--", "cp", *FILES],
                      ["--heaps", "0", "--", "cp", *FILES], ["--g1heap", "/nofile", "--", "cp", *FILES],
                      ["--like", TOP / "examples" / "refused" / "uncovered.img", "--", "cp", *FILES], ["--profile", "none", "--", "cp", *FILES]):
            status, out, errors = self.challenge(*words)
            self.assertEqual((status, out), (2, ""), words)
            self.assertIn("challenge.py", errors)


class Released(Case):
    """The program of a release: a release has it and all that it needs, below another folder, and the programs on the path."""

    def test_called_by_a_link(self):
        for name, content in release.named().items():
            program = self.room / name
            program.parent.mkdir(exist_ok=True)
            program.write_bytes(content)
            program.chmod(0o755)
            (self.room / program.name).symlink_to(program)
        for name in [*release.scripts(["docs/CHALLENGE.md"]), "examples/shared_targets.img"]:
            path = self.room / release.DOC / name
            path.parent.mkdir(parents=True, exist_ok=True)
            shutil.copy2(TOP / name, path)
        for path in (G1HEAP, G1PAUSE):
            shutil.copy2(path, self.room / "bin")
        words = ["--heaps", "10", "--exact", "--stdin", "--set-words", "--no-room", "5", "--", "g1pause", "pause", "{set}"]
        path = {**os.environ, "PATH": f"{self.room / 'bin'}:{os.environ['PATH']}", "PYTHONDONTWRITEBYTECODE": "1"}
        done = subprocess.run([self.room / "g1challenge", *words], env=path, cwd=self.room, capture_output=True, text=True, check=False)
        self.assertEqual(without_signs(done.stderr.splitlines()), [])
        self.assertEqual(done.returncode, 0, done.stdout)
        self.assertIn("10 answers, none wrong", done.stdout)


class Signals(Case):
    """A challenge that is ended from outside."""

    def signalled(self, number, *words):
        """How a challenge ends that gets the signal once its command has begun to sleep."""
        process, end = self.start("--timeout", 600, *words), time.monotonic() + 300
        while not (self.room / "sleeps").exists() and process.poll() is None and time.monotonic() < end:
            time.sleep(0.1)
        process.send_signal(number)
        return self.end(process)

    def test_hunt(self):
        for number in (signal.SIGTERM, signal.SIGINT):
            command = self.script(f"touch {self.room / 'sleeps'}; sleep 1000")
            self.assertEqual(self.signalled(number, "--jobs", 2, "--", command, *FILES), (130, "", "ended by a signal\n"))
            (self.room / "sleeps").unlink()

    def test_reducer(self):
        """What was found until then is written."""
        text = f'n=$(stat -c %s "$1"); [ $n -gt 3000 ] || {{ [ -e {self.room / "sleeps"} ] || {{ touch {self.room / "sleeps"}; sleep 1000; }}; }}\nexit 7'
        status, out, errors = self.signalled(signal.SIGTERM, "--profile", "many_survivors", "--", self.script(text), *FILES)
        self.assertEqual((status, errors), (1, ""))
        self.assertIn("and not done", out)
        self.assertEqual((self.room / "out" / "verdict.txt").read_text(), "status 7\n")


class Machine(Case):
    """The machine of examples/vm as a server of heaps, with each of its errors."""

    def setUp(self):
        super().setUp()
        if shutil.which("cc") is None:
            self.skipTest("no C compiler")
        sources = [TOP / "examples" / "loop" / "loop.c", TOP / "examples" / "vm" / "collector.c"]
        subprocess.run(["cc", "-std=c11", "-O2", "-Wall", "-Wextra", "-Werror", "-pthread", "-I", TOP / "include", "-I",
                        TOP / "examples" / "vm", *sources, "-o", self.room / "loop"], check=True)

    def test_right(self):
        status, out, errors = self.challenge("--loop", "--graph", "--heaps", 300, "--", "./loop")
        self.assertEqual((status, errors), (0, ""), out)

    def test_errors(self):
        for error, said in (("slot", "differ stale"), ("twice", "differ split"), ("torn", "differ data")):
            command = self.script(f"VM_BUG={error} exec ./loop")
            status, out, _ = self.challenge("--loop", "--graph", "--heaps", 5000, "--tries", 50, "--", command)
            self.assertEqual(status, 1, error)
            self.assertIn(said, out.splitlines()[1])


class Reducing(unittest.TestCase):
    """The reducer, over predicates and over collectors of this process."""

    def test_to_two_objects(self):
        """Of all that a heap has only an object outside the set with a slot into it matters."""
        def is_wrong(image, chosen):
            return any(image.region_of(address) not in chosen and image.words[slot] != NULL
                       and image.region_of(image.words[slot] - 1) in chosen for address in image.objects() for slot in image.slots(address))

        done = 0
        for number in range(100):
            image, chosen, _ = challenging.draw("2", number)
            if is_wrong(image, chosen):
                heap = Reducer(take_apart(image, chosen), is_wrong).run()
                smallest = heap.image()
                self.assertEqual(len(list(smallest.objects())), 2)
                self.assertEqual([smallest.size(address) for address in smallest.objects()].count(1), 1)
                self.assertEqual((smallest.regions, smallest.roots, smallest.log), (2, [], []))
                done += 1
        self.assertGreater(done, 50)

    def test_stopped(self):
        """Wherever it is stopped, what it has goes wrong, is valid and covered, and is not larger than before."""
        asked = challenging.Asked(str(G1HEAP), covered=True)
        for make in (collector_errors.HumongousTails, collector_errors.LogForgotten, collector_errors.TornCopies,
                     collector_errors.SecondCopy, collector_errors.StaleCards, collector_errors.PinsLost, collector_errors.CardsOfTails):
            with tempfile.TemporaryDirectory() as folder:
                trial = challenging.Trial(InProcess(make), asked, folder)
                _, image, chosen, wrong, _ = challenging.Hunt([trial], 3, 2000, None, 1).run()
                size = len(take_apart(image, chosen).things())
                for tries in (0, 1, 2, 3, 5, 8, 13, 21, 34, 55, 2000):
                    small, regions, _, is_whole = challenging.reduce(trial, image, chosen, wrong, tries)
                    self.assertIsNone(fault_of(small.to_bytes(), True))
                    self.assertIsNotNone(trial.heap(small, regions), (make, tries))
                    self.assertLessEqual(len(list(small.objects())), size)
                    size = len(list(small.objects()))
                self.assertTrue(is_whole)
                self.assertLessEqual(size, 4)

    def test_each_part(self):
        """Taking a heap apart and putting it together gives the same bytes, whatever the profile."""
        for profile in random_heaps.PROFILES:
            for number in range(20):
                rng = random.Random(f"{profile.__name__} {number}")
                image = profile(rng)
                chosen = random_heaps.draw_set(rng, image)
                if chosen:
                    heap = take_apart(image, chosen).copy()
                    heap.tidy()
                    self.assertEqual(heap.image().to_bytes(), image.to_bytes(), profile)
                    self.assertEqual(heap.chosen(), chosen)


class Heaps(unittest.TestCase):
    """What the profiles draw, and the collector of another make."""

    def all_of(self, name, count=60):
        return [getattr(random_heaps, name)(random.Random(number)) for number in range(count)]

    def test_covered(self):
        for profile in random_heaps.PROFILES:
            for image in self.all_of(profile.__name__):
                self.assertIsNone(fault_of(image.to_bytes(), True), profile)
                self.assertEqual(vars(from_bytes(image.to_bytes())), vars(image))

    def test_what_they_are_for(self):
        tails = [image for image in self.all_of("run_borders") for slot in (s for a in image.objects() for s in image.slots(a))
                 if image.kinds[image.region_of(slot)] == 3 and image.words[slot] != NULL]
        self.assertTrue(tails)
        self.assertTrue(all(max(len(image.slots(a)) for a in image.objects()) > 256 for image in self.all_of("wide")))
        self.assertTrue(all(max(map(len, image.sets)) > 256 for image in self.all_of("many_cards", 20)))
        self.assertTrue(all(len(image.reached()) > 256 for image in self.all_of("many_survivors", 20)))
        self.assertTrue(all(image.kinds.count(0) == 1 for image in self.all_of("full_regions")))
        self.assertTrue(all(0 not in image.kinds for image in self.all_of("nothing_free")))
        self.assertTrue(any(len(image.roots) > 256 for image in self.all_of("many_roots")))
        self.assertTrue(any(image.current == 0 for image in self.all_of("dirty_log", 200)))
        chains = [max(path.count("slot") for path in image.reached().values()) for image in self.all_of("chains") if image.roots]
        self.assertGreater(max(chains), 50)

    def test_pinned(self):
        """The opponent refuses a region that no pause collects."""
        image = Image(16, 4, 3)
        for region in (0, 1):
            random_heaps.add(random.Random(1), image, region, 2, 0)
        image.pinned[0] = True
        self.assertEqual([opponent.refused(image, region) for region in (-1, 0, 1, 2, 3)], [True, True, False, True, True])
        with tempfile.TemporaryDirectory() as folder:
            path = pathlib.Path(folder) / "before.img"
            path.write_bytes(image.to_bytes())
            for region, status in (("0", 1), ("1", 0), ("2", 1)):
                done = subprocess.run([OPPONENT, path, path.with_name("after"), "--set", region], capture_output=True, check=False)
                self.assertEqual(done.returncode, status)

    def test_like(self):
        """A heap like another one has objects of its shapes alone."""
        rng, image = random.Random(1), random_heaps.empty(random.Random(1), (64,), (4, 4))
        shapes = {(3, 1), (5, 4), (60, 2)}
        for region, (size, slots) in enumerate(sorted(shapes)):
            if size > 48:
                random_heaps.place_run(rng, image, region, size, slots)
            while size <= 48 and random_heaps.add(rng, image, region, size, slots) is not None:
                pass
        random_heaps.link(rng, image, null=0.5)
        like = Likeness(image)
        drawn = [like(random.Random(number)) for number in range(50)]
        found = {(one.size(a), len(one.slots(a))) for one in drawn for a in one.objects()}
        self.assertEqual(found, shapes)
        self.assertTrue(any(FIRST in one.kinds and ORDINARY in one.kinds for one in drawn))


class Traces(Case):
    """Machines that answer traces."""

    def machine(self, error):
        return self.script(MACHINE.replace("ERROR", error), "machine")

    def test_right(self):
        self.assertEqual(self.challenge("--trace", "--heaps", 20, "--", self.machine("pass"))[0], 0)
        status, out, _ = self.challenge("--trace", "--heaps", 50, "--", G1PAUSE, "run")
        self.assertEqual(status, 0)
        self.assertRegex(out, r"50 traces, no reply wrong; \d+ of \d+ objects found no place")

    def test_wrong(self):
        """A data word that is forgotten at a pause: the shortest trace makes an object, sets, pauses and asks."""
        error = "\n    ".join(["if line.startswith('pause'):", "    for thing in filter(None, store.roots):",
                               "        thing[1][:] = [0] * len(thing[1])"])
        status, out, _ = self.challenge("--trace", "--", self.machine(error))
        self.assertEqual(status, 1)
        lines = (self.room / "out" / "trace.txt").read_text().splitlines()
        self.assertEqual([line.split()[0] for line in lines], ["heap", "new", "set", "pause", "say"])
        self.assertIn("expected 1, and the reply is '0'", out)
        self.assertEqual((self.room / "out" / "replies.txt").read_text(), "ok\nok\nok\n0\n")

    def test_bad(self):
        for error, said in (("if number == 3: sys.exit(4)", "status 4"), ("if number == 3: break", "3 replies to"),
                            ("reply += '\\n0'", "expected"), ("if number == 3: reply = 'word'", "and the reply is 'word'")):
            status, out, _ = self.challenge("--trace", "--tries", 5, "--", self.machine(error))
            self.assertEqual(status, 1)
            self.assertIn(said, out)
        self.assertEqual(self.challenge("--trace", "--", "/nofile")[:2], (2, ""))

    def test_shortest(self):
        """What is left of a trace still goes wrong: here because of one command alone."""
        class Trial:
            runs = 0

            def once(self, trace):
                self.runs += 1
                return "wrong" if any(line[0] == "same" for line in trace.lines) else None

        found = 0
        for number in range(20):
            trial, trace = Trial(), challenging_traces.draw("1", number)
            if trial.once(trace):
                trace, _, is_whole = challenging_traces.reduce(trial, trace, "wrong", 2000)
                self.assertTrue(is_whole)
                self.assertEqual([line[0] for line in trace.lines], ["same"])
                found += 1
        self.assertGreater(found, 10)


def main():
    global G1HEAP, G1PAUSE
    parser = argparse.ArgumentParser(description=__doc__, formatter_class=argparse.RawDescriptionHelpFormatter)
    add_program(parser, "g1heap")
    add_program(parser, "g1pause")
    parser.add_argument("-v", "--verbose", action="store_const", const=2, default=1)
    parser.add_argument("-k", metavar="PATTERN", action="append", help="only tests with this in their name")
    options = parser.parse_args()
    G1HEAP, G1PAUSE = options.g1heap, options.g1pause
    patterns = [word for pattern in options.k or () for word in ("-k", pattern)]
    unittest.main(argv=[sys.argv[0], *patterns], verbosity=options.verbose)


if __name__ == "__main__":
    main()
