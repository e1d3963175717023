#!/usr/bin/env python3
"""Tests of what tools/build.py takes from `rt ci`, without a kit: test_build.py [-v]

Of a checkout with two libraries and a program, a library is taken only if a stand-in for the kit's `rt` kept it for these
very files and over these very libraries. Otherwise the checkout stays as it was.
"""
import argparse
import pathlib
import sys
import tempfile
import unittest

TOP = pathlib.Path(__file__).resolve().parent.parent
sys.dont_write_bytecode = True
sys.path[:0] = [str(TOP / "tools" / "lib")]

import kept  # noqa: E402
import stamp  # noqa: E402

# A kit's rt in a few lines. What it kept is in the folder store: the name of a file is that of the crate and its sources.
RT = '''
import pathlib
STORE = pathlib.Path(__file__).resolve().parent.parent / "store"

class Crate:
    allowed = ()

    def __init__(self, folder):
        self.folder, self.name = str(folder), folder.name
        self.rlib = f"{folder}/out/rlib/{folder.name}.rlib"

    def makes_rlib(self):
        return not pathlib.Path(self.folder, "src/main.rt").exists()

    def stamp(self):
        return " ".join(path.read_text() for path in sorted(pathlib.Path(self.folder, "src").iterdir()))

def handles_of(root):
    return pathlib.Path(root, "HANDLES").read_text()

def crates_of(root):
    assert pathlib.Path(root, ".git").is_dir()
    lines = pathlib.Path(root, "crates.txt").read_text().splitlines()
    return [Crate(pathlib.Path(root, "crates", line.partition(":")[0])) for line in lines]

class Kept:
    def __init__(self, crates):
        self.built = []

    def key(self, crate):
        return " ".join([crate.name, Crate.allowed, *self.built, crate.stamp()])

    def give(self, crate, tests, key):
        if not (STORE / key).is_file():
            return False
        pathlib.Path(crate.rlib).mkdir(parents=True)
        pathlib.Path(crate.rlib, "format").write_text((STORE / key).read_text())
        return True

    def is_built(self, crate):
        self.built.append(pathlib.Path(crate.rlib, "format").read_text())
'''
CRATES = "low:\nhigh: low\nprogram: high\nother: low\n"
NAMES = ["low", "high", "program"]
LOW, HIGH = "low none text of low", "high none low1 text of high"


class Taking(unittest.TestCase):
    def setUp(self):
        folder = tempfile.TemporaryDirectory()
        self.addCleanup(folder.cleanup)
        self.room = pathlib.Path(folder.name)
        self.top, self.kit = self.room / "checkout", self.room / "kit"
        self.write("kit/bin/rt", RT)
        self.write("checkout/crates.txt", CRATES)
        self.write("checkout/HANDLES", "none")
        for name in ("low", "high", "other"):
            self.write(f"checkout/crates/{name}/src/lib.rt", f"text of {name}")
        self.write("checkout/crates/program/src/main.rt", "text of program")
        self.write(f"kit/store/{LOW}", "low1")
        self.write(f"kit/store/{HIGH}", "high1")

    def write(self, name, text):
        path = self.room / name
        path.parent.mkdir(parents=True, exist_ok=True)
        path.write_text(text)

    def files(self):
        """All files of the checkout, by name."""
        return {str(path.relative_to(self.top)): path.read_text() for path in self.top.rglob("*") if path.is_file()}

    def taken(self):
        """How many libraries are taken, and the files that are new or changed."""
        before = self.files()
        number = kept.take(self.top, NAMES, self.kit)
        after = self.files()
        self.assertLessEqual(set(before), set(after))
        return number, {name: text for name, text in after.items() if before.get(name) != text}

    OF_LOW = {"crates/low/out/rlib/low.rlib/format": "low1", "crates/low/out/rlib/stamp": "text of low"}

    def test_all_that_was_kept_is_taken_with_stamps(self):
        self.assertEqual(self.taken(), (2, {
            **self.OF_LOW, "crates/high/out/rlib/high.rlib/format": "high1", "crates/high/out/rlib/stamp": "text of high"}))
        self.assertEqual(self.taken(), (0, {}))  # they are proved now

    def test_a_library_above_one_that_was_not_kept_is_not_taken(self):
        (self.kit / "store" / LOW).unlink()
        self.assertEqual(self.taken(), (0, {}))

    def test_a_library_below_one_that_was_not_kept_is_taken(self):
        (self.kit / "store" / HIGH).unlink()
        self.assertEqual(self.taken(), (1, self.OF_LOW))
        self.assertEqual(self.taken(), (0, {}))

    def test_nothing_is_taken_for_other_files(self):
        for name, text, number in (("checkout/crates/low/src/lib.rt", "another", 0), ("checkout/crates/high/src/lib.rt", "another", 1),
                                   ("checkout/crates/high/src/more.rt", "more", 1), ("checkout/HANDLES", "Threads", 0)):
            with self.subTest(name=name):
                self.setUp()
                self.write(name, text)
                self.assertEqual(self.taken(), (number, self.OF_LOW if number else {}))

    def test_a_library_of_another_build_below_is_not_what_one_was_built_over(self):
        self.write(f"kit/store/{LOW}", "low2")
        self.assertEqual(self.taken()[0], 1)
        self.assertFalse((self.top / "crates/high/out/rlib").exists())

    def prove_here(self, name):
        """A library as a proof in this checkout leaves it."""
        self.write(f"checkout/crates/{name}/out/rlib/{name}.rlib/format", f"{name} here")
        self.write(f"checkout/crates/{name}/out/rlib/stamp", f"text of {name}")

    def test_what_was_proved_here_goes_if_all_that_is_proved_was_kept(self):
        self.prove_here("low")
        self.assertEqual(self.taken()[0], 2)
        self.assertEqual(self.files()["crates/low/out/rlib/low.rlib/format"], "low1")

    def test_what_was_proved_here_stays_if_one_above_it_was_not_kept(self):
        self.prove_here("low")
        self.prove_here("high")
        self.assertEqual(self.taken(), (0, {}))
        (self.kit / "store" / HIGH).unlink()
        (self.top / "crates/low/out/rlib/stamp").unlink()
        self.assertEqual(self.taken(), (0, {}))

    def test_another_kit_gives_nothing(self):
        for text in ("", "raise SystemExit(2)", "class Crate:\n    pass\n", RT.replace("def give", "def grant"),
                     RT.replace("return False", "raise OSError")):
            self.write("kit/bin/rt", text)
            (self.kit / "store" / LOW).unlink(missing_ok=True)
            self.assertEqual(self.taken(), (0, {}))

    def test_lines_of_crates_are_those_of_their_names(self):
        self.assertEqual(stamp.lines_of(["low", "program"], self.top), "low:\nprogram: high\n")
        self.write("checkout/crates.txt", "# high: a comment\nlow staticlib: # low\n\nlower: low\n")
        self.assertEqual(stamp.lines_of(["low", "high"], self.top), "low staticlib: # low\n")


def main():
    parser = argparse.ArgumentParser(description=__doc__, formatter_class=argparse.RawDescriptionHelpFormatter)
    parser.add_argument("-v", action="store_true", help="name each test")
    options = parser.parse_args()
    unittest.main(argv=sys.argv[:1], verbosity=2 if options.v else 1)


if __name__ == "__main__":
    main()
