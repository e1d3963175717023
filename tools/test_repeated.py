#!/usr/bin/env python3
"""Tests tools/repeated_lemmas.py on proofs that were written for it: python3 tools/test_repeated.py"""
import pathlib
import subprocess
import sys
import tempfile
import unittest

SCRIPT = pathlib.Path(__file__).resolve().parent / "repeated_lemmas.py"
FIRST = """-- Two lemmas.
use Rattle.std.proofs.Common.{◌≡◌, ℕ}

pub two : (a b : Bool)
    → a ≡ true → a ≡ b
two a b e = refl

module _ (n : ℕ) where
  pub small : (m : ℕ) → m < n → (k : ℕ) × (k ≡ m)
  small m lt = where_not
    where
      hidden : (a b : Bool) → a ≡ true → a ≡ b
      hidden a b e = refl
"""
SECOND = """pub same : (x y : Bool) → x ≡ true → x ≡ y
same x y e = refl

other : (x y : Bool) → x ≡ true → y ≡ x
other x y e = refl

abbrev pub Same : (x y : Bool) → x ≡ true → x ≡ y
Same x y = refl

tiny : (b c : ℕ) → c < b → (d : ℕ) × (d ≡ c)
tiny b c lt = (c, refl)

answer : goal.two
answer c = refl
"""
HAND = """use Rattle.{crate}.specs.declared.rule.Hand.{{Hand}}
use Rattle.g1_words.specs.Heap.{{Heap}}

kept : (h : Hand) → h ≡ h
kept h = refl

valid : (h : Heap) → h ≡ h
valid h = refl

count : (h : Heap) → List ℕ
count h = []
"""


class Repeated(unittest.TestCase):
    def said(self, files, *words):
        with tempfile.TemporaryDirectory() as room:
            for name, text in files.items():
                file = pathlib.Path(room, "crates", name)
                file.parent.mkdir(parents=True, exist_ok=True)
                file.write_text(text)
            ran = subprocess.run([sys.executable, SCRIPT, *words, room], capture_output=True, text=True, check=False)
            self.assertEqual(ran.stderr, "")
            return ran.returncode, ran.stdout.splitlines()

    def test_statements_that_differ_in_names_of_variables_alone(self):
        files = {"one/proofs/First.antt": FIRST, "two/proofs/call/Answers.antt": SECOND}
        self.assertEqual(self.said(files), (1, [
            "2 times: ( v0 : Bool ) ( v1 : Bool ) → v0 ≡ true → v0 ≡ v1",
            "    crates/one/proofs/First.antt:4 two",
            "    crates/two/proofs/call/Answers.antt:1 same",
            "2 times: ( v0 : ℕ ) ( v1 : ℕ ) → v1 < v0 → ( v2 : ℕ ) × ( v2 ≡ v1 )",
            "    crates/one/proofs/First.antt:9 small",
            "    crates/two/proofs/call/Answers.antt:10 tiny",
            "2 statements stand 4 times"]))

    def test_types_of_two_crates_are_two_types(self):
        files = {f"{crate}/proofs/Kept.antt": HAND.format(crate=crate) for crate in ("g1_claim", "g1_deal")}
        self.assertEqual(self.said(files), (1, [
            "2 times: ( v0 : g1_words.Heap ) → v0 ≡ v0",
            "    crates/g1_claim/proofs/Kept.antt:7 valid",
            "    crates/g1_deal/proofs/Kept.antt:7 valid",
            "1 statements stand 2 times"]))

    def test_a_crate_alone(self):
        files = {"one/proofs/First.antt": FIRST, "two/proofs/Second.antt": SECOND, "two/src/third.rt": FIRST}
        self.assertEqual(self.said(files, "--crate", "two"), (0, ["0 statements stand 0 times"]))


if __name__ == "__main__":
    unittest.main()
