#!/usr/bin/env python3
"""Tests of the tools of the gate, which need neither a prover nor a program: test_planted.py [-v]

Planted rows are tried by a stand-in for the prover, of which what each function says is known: one that is proved, unread or
refused only for another has to fail. Of the libraries below, those that `rt ci` keeps as they are have to stay, and all
others to be built. The time of processes that name a crate has to be that crate's, by what they do for it, and no other's.
"""
import contextlib
import io
import json
import os
import pathlib
import re
import shlex
import shutil
import subprocess
import sys
import tempfile
import time
import unittest
from concurrent.futures import ThreadPoolExecutor
from unittest import mock

TOP = pathlib.Path(__file__).resolve().parent.parent
sys.dont_write_bytecode = True
sys.path.insert(0, str(TOP / "tools"))

import planted  # noqa: E402

TOY = """\
fn first() -> u64
{
    1
}

fn second() -> u64
{
    2
}

fn third() -> u64
{
    second() + 1
}
"""
PROVER = """\
import pathlib, re, sys
text = pathlib.Path("src/lib.rt").read_text()
bodies = {name: body for name, body in re.findall(r"fn (\\w+)[^{]*{(.*?)\\n}", text, re.S)}
asked = [word for flag, word in zip(sys.argv, sys.argv[1:]) if flag == "--only"]
lines = text.split("\\n")
if "garbled" in text:
    print(f"src/lib.rt:{1 + next(at for at, line in enumerate(lines) if 'garbled' in line)}:5: error: expected the end of the file")
    sys.exit(1)
if ("fn main(" in text or "The program" in text) and not any(it.startswith("main") for it in asked):
    sys.exit("a program is checked with all that it links")
for name in asked:
    kept = pathlib.Path("proofs", name, "Proof.antt").exists()
    is_open = "wrong" in bodies[name]
    called = [it for it in bodies if it != name and f"{it}(" in bodies[name] and "wrong" in bodies[it]]
    calls = f"; it calls `toy::{called[0]}`, which is not proved" if called else ""
    if "parted" in bodies[name]:
        print(f"./proofs/{name}/Answers.antt:1:2: error: `returns`: record `Lts.View.In-After-call`")
        print("  has no field `x`")
        print(f"fn toy::{name}: not proved")
    elif "gone" in bodies[name]:
        print(f"./proofs/{name}/Answers.antt:1:2: error: `c` has no field `x`")
        print(f"fn toy::{name}: not proved")
    elif is_open:
        print(f"fn toy::{name}: no proof: expected answers; `search` did not prove `returns`{calls}")
    else:
        print(f"fn toy::{name}: not proved{calls}" if calls else f"fn toy::{name}: no holes")
print(f"only={len(asked)} holes=0")
"""

OTHER_RT = """\
echo "must-fail toy/$1: refused, as it must be"
shift
for edit; do echo "must-fail toy/$edit: NOT REFUSED"; done
"""


class StandIn:
    """What planted.py takes of rt, over a crate of three functions."""

    def __init__(self, folder):
        self.folder, self.name, self.checks = str(folder / "crates/toy"), "toy", 0
        folder.joinpath("prover.py").write_text(PROVER)
        self.RATTLE, self.prover = sys.executable, str(folder / "prover.py")
        self.rtlib, self.PARTS, self.STALE = self, ("src", "specs", "proofs"), re.compile("Run the lower steps again")

    def crates_below(self, _root):
        return [self]

    def guarded(self):
        return ["env", "--", self.RATTLE, self.prover]

    def below(self):
        return []

    def count(self, _pattern):
        return 1

    def need(self, _crate):
        return 1

    def words(self, flags, keeps):
        self.checks += 1
        return flags

    def unread(self, line, _changed):
        return "expected the end" in line

    def in_lanes(self, tasks):
        """As many at once as RT_JOBS says, or all."""
        with ThreadPoolExecutor(int(os.environ.get("RT_JOBS", len(tasks)))) as pool:
            calls = {key: pool.submit(call, {}, 1) for key, (_, _, _, call) in tasks.items()}
        return {key: call.result() for key, call in calls.items()}

    def read_edit(self, edit, folder):
        old, new = re.search(r"^old: (.*)\nnew: (.*)$", pathlib.Path(edit).read_text(), re.M).groups()
        text = pathlib.Path(folder, "src/lib.rt").read_text()
        return ({"src/lib.rt": text.replace(old, new)}, None) if text.count(old) == 1 else (None, "an 'old:' text is not there once")


class Store:
    """What planted.py takes of rt to see what it keeps: three libraries, each above the one before."""

    def __init__(self, folder, kept):
        self.folder, self.rtlib, self.Crate, self.Kept = folder, self, self, lambda _crates: self
        self.crates = [Library(folder, name, below) for name, below in (("low", 0), ("mid", 1), ("top", 2))]
        for library in self.crates:
            library.below = lambda library=library: self.crates[: library.count]
            entry = folder / f"{library.name}.kept"
            entry.mkdir()
            entry.joinpath("made.json").write_text(json.dumps({"files": [["rlib", kept[library.name]]]}))

    def handles_of(self, _root):
        return ()

    def crates_of(self, _root):
        return self.crates

    def sum_of(self, file):
        return pathlib.Path(file).read_text()

    def key(self, crate):
        return crate.name

    def place(self, _crate, _tests, key):
        return self.folder / f"{key}.kept"

    def is_built(self, _crate):
        pass


class Library:
    def __init__(self, folder, name, count):
        self.folder, self.name, self.count = folder / name, name, count
        (self.folder / "out").mkdir(parents=True)
        (self.folder / "out/rlib").write_text(f"{name} as built")

    def makes_rlib(self):
        return True


class Libraries(unittest.TestCase):
    def kept(self, **kept):
        with tempfile.TemporaryDirectory() as room:
            return planted.kept_libraries(Store(pathlib.Path(room), kept))

    def test_what_stands_as_it_was_kept_is_not_built_again(self):
        self.assertEqual(self.kept(low="low as built", mid="mid as built", top="top as built"), {"low", "mid", "top"})

    def test_another_library_is_built_again_and_all_above_it(self):
        self.assertEqual(self.kept(low="low as built", mid="another", top="top as built"), {"low"})

    def test_an_rt_that_keeps_nothing_has_all_built(self):
        self.assertEqual(planted.kept_libraries(object()), set())


class Twins(unittest.TestCase):
    def calls_itself(self, name, line, impl=()):
        return planted.calls_itself(planted.Function(name, "src/lib.rt", 0, 2, 1, True, list(impl)), [line])

    def test_a_method_that_calls_that_of_another_value_does_not_call_itself(self):
        impl = ["impl Ahead {"]
        self.assertFalse(self.calls_itself("ahead::Ahead::reach", "buffer.reach(source)", impl))
        for line in ("self.reach(source)", "Self::reach(source)", "Ahead::reach(self)"):
            self.assertTrue(self.calls_itself("ahead::Ahead::reach", line, impl), line)

    def test_a_function_calls_itself_by_its_name_or_its_modules(self):
        for line in ("walk(tree)", "crate::trees::walk(tree)"):
            self.assertTrue(self.calls_itself("trees::walk", line), line)
        for line in ("tree.walk()", "Tree::walk(tree)", "sleepwalk(tree)"):
            self.assertFalse(self.calls_itself("trees::walk", line), line)


class Names(unittest.TestCase):
    def test_a_method_is_of_the_type_in_its_own_file(self):
        with tempfile.TemporaryDirectory() as room:
            folder = pathlib.Path(room, "src")
            folder.mkdir()
            for name, method in (("boxes", "add_line"), ("filling", "fill")):
                folder.joinpath(f"{name}.rt").write_text(f"struct Found {{}}\n\nimpl Found {{\n    fn {method}() {{\n    }}\n}}\n")
            self.assertEqual(set(planted.functions_of(room)), {"boxes::Found::add_line", "filling::Found::fill"})


class Planted(unittest.TestCase):
    def setUp(self):
        self.room = tempfile.TemporaryDirectory()
        self.folder = pathlib.Path(self.room.name)
        for name in ("src", "planted/beside"):
            self.folder.joinpath("crates/toy", name).mkdir(parents=True)
        self.folder.joinpath("crates/toy/src/lib.rt").write_text(TOY)
        self.row("control", "first", "    1", "    1 + 0", expect="expect: proves\n")

    def tearDown(self):
        self.room.cleanup()

    def row(self, name, function, old, new, expect=""):
        text = f"turns: {function}: what it does\n{expect}file: src/lib.rt\nold: {old}\nnew: {new}\n"
        self.folder.joinpath(f"crates/toy/planted/{name}.edit").write_text(text)

    def run_planted(self, *words, is_known=True):
        """The status, and what is printed, with a kit that is known or another."""
        was, rt = (planted.ROOT, planted.load_rt, planted.is_known_kit), StandIn(self.folder)
        self.rt = rt
        planted.ROOT, planted.load_rt, planted.is_known_kit = self.folder, lambda: rt, lambda: is_known
        here, own = os.getcwd(), sys.argv
        sys.argv = ["planted.py", *words]
        try:
            with contextlib.redirect_stdout(io.StringIO()) as out, contextlib.redirect_stderr(io.StringIO()) as errors:
                status = planted.main()
        finally:
            (planted.ROOT, planted.load_rt, planted.is_known_kit), sys.argv = was, own
            os.chdir(here)
        return status, out.getvalue(), errors.getvalue()

    def tried(self, *flags, is_known=True):
        """What each row came to, by its name, and the last line and status."""
        status, out, _errors = self.run_planted(*flags, "toy", is_known=is_known)
        lines = out.splitlines()
        return dict(line[len("planted toy/"):].split(": ", 1) for line in lines if line.startswith("planted toy/")), lines[-1], status

    def test_a_row_that_is_refused_passes(self):
        self.row("turned", "second", "    2", "    2 + wrong")
        rows, last, status = self.tried()
        self.assertEqual((last, status), ("1 refused, 0 failed", 0))
        self.assertEqual(rows["turned"], "refused: second: not proved: `returns`")
        self.assertIn("proved, as it must be", rows["control"])

    def test_a_row_that_is_proved_fails(self):
        self.row("turned", "second", "    2", "    1 + 1")
        rows, last, status = self.tried()
        self.assertEqual((last, status), ("0 refused, 1 failed", 1))
        self.assertIn("NOT REFUSED", rows["turned"])

    def test_a_control_that_is_refused_fails(self):
        self.row("control", "first", "    1", "    1 + wrong", expect="expect: proves\n")
        self.assertEqual(self.tried()[1:], ("0 refused, 1 failed", 1))

    def test_a_crate_without_a_control_fails(self):
        self.folder.joinpath("crates/toy/planted/control.edit").unlink()
        self.row("turned", "second", "    2", "    2 + wrong")
        self.assertEqual(self.tried()[1:], ("1 refused, 1 failed", 1))

    def test_a_caller_is_tried_beside_what_it_calls(self):
        self.row("turned", "second", "    2", "    2 + wrong")
        self.row("unturned", "third", "    second() + 1", "    second() + 1 + 0")
        rows, last, status = self.tried()
        self.assertEqual((last, status, self.rt.checks), ("1 refused, 1 failed", 1, 1))
        self.assertIn("NOT REFUSED", rows["unturned"])

    def test_a_caller_is_tried_again_without_what_is_refused_in_place(self):
        self.folder.joinpath("crates/toy/src/lib.rt").write_text(TOY + "\nfn fourth(n: u64) -> u64\n{\n    fourth(n / 2)\n}\n")
        self.row("turned", "fourth", "    fourth(n / 2)", "    fourth(n / 2) + wrong")
        self.row("unturned", "third", "    second() + 1", "    fourth(1)")
        rows, last, status = self.tried()
        self.assertEqual((last, status, self.rt.checks), ("1 refused, 1 failed", 1, 2))
        self.assertIn("NOT REFUSED", rows["unturned"])

    def test_rows_of_one_function_are_tried_in_one_check(self):
        self.row("turned", "second", "    2", "    2 + wrong")
        self.row("unturned", "second", "    2", "    2 + 0")
        rows, last, status = self.tried()
        self.assertEqual((last, status, self.rt.checks), ("1 refused, 1 failed", 1, 1))
        self.assertEqual(rows["turned"], "refused: second: not proved: `returns`")
        self.assertIn("NOT REFUSED", rows["unturned"])

    def test_a_row_without_its_change_is_proved(self):
        self.row("turned", "second", "    2", "    2 + wrong")
        rows, last, status = self.tried("--unchanged")
        self.assertEqual((last, status), ("0 refused, 0 failed", 0))
        self.assertIn("proved, as it must be", rows["turned"])
        self.folder.joinpath("crates/toy/src/lib.rt").write_text(TOY.replace("    2", "    2 + wrong"))
        self.row("turned", "second", "    2", "    2 + 1")
        self.assertEqual(self.tried("--unchanged")[1:], ("0 refused, 1 failed", 1))

    def test_a_row_that_cannot_be_read_is_bad_alone(self):
        self.row("turned", "second", "    2", "    2 + wrong")
        self.row("unread", "third", "    second() + 1", "    garbled")
        rows, last, status = self.tried()
        self.assertEqual((last, status), ("1 refused, 1 failed", 1))
        self.assertIn("BAD: src/lib.rt:13:5: error", rows["unread"])

    def test_a_row_that_only_takes_a_name_away_is_bad(self):
        self.row("turned", "second", "    2", "    gone")
        self.assertIn("BAD: only its proof refuses it", self.tried()[0]["turned"])

    def test_a_name_that_the_next_line_misses_is_taken_away(self):
        self.row("turned", "second", "    2", "    parted")
        self.assertIn("BAD: only its proof refuses it", self.tried()[0]["turned"])

    def test_the_copy_of_a_program_has_no_main(self):
        self.folder.joinpath("crates/toy/src/lib.rt").write_text(f"/// The program.\nfn main()\n{{\n    first();\n}}\n\n{TOY}")
        self.row("turned", "second", "    2", "    2 + wrong")
        rows, last, status = self.tried()
        self.assertEqual((last, status), ("1 refused, 0 failed", 0))
        self.row("turned", "main", "    first();", "    wrong();")
        rows, last, status = self.tried()
        self.assertEqual(rows["turned"], "refused: main: not proved: `returns`")

    def test_a_row_that_names_no_function_or_another_is_bad(self):
        self.row("nobody", "fourth", "    2", "    2 + wrong")
        self.row("another", "second", "    1", "    1 + wrong")
        rows, last, status = self.tried()
        self.assertEqual((last, status), ("0 refused, 2 failed", 1))
        self.assertIn("BAD: it changes no line of fourth", rows["nobody"])
        self.assertIn("BAD: it changes no line of second", rows["another"])


    def test_what_has_no_rows_is_refused(self):
        for is_known in (True, False):
            status, out, errors = self.run_planted("nowhere", "toy", is_known=is_known)
            self.assertEqual((status, out, errors), (2, "", "planted.py: no rows: nowhere\n"))
        shutil.rmtree(self.folder / "crates/toy/planted")
        for is_known in (True, False):
            status, out, errors = self.run_planted("--all", is_known=is_known)
            self.assertEqual((status, out, errors), (2, "", "planted.py: no rows: crates/*/planted\n"))

    def test_a_row_beside_the_gate_is_tried_if_every_one_is(self):
        self.row("turned", "second", "    2", "    2 + wrong")
        self.row("beside/proved", "second", "    2", "    1 + 1")
        rows, last, status = self.tried()
        self.assertEqual((rows.keys(), last, status), ({"control", "turned"}, "1 refused, 0 failed", 0))
        rows, last, status = self.tried("--every")
        self.assertEqual((rows.keys(), last, status), ({"control", "proved", "turned"}, "1 refused, 1 failed", 1))
        self.assertIn("NOT REFUSED", rows["proved"])

    def test_two_rows_of_one_name_are_refused(self):
        self.row("turned", "second", "    2", "    2 + wrong")
        self.row("beside/turned", "third", "    second() + 1", "    wrong")
        self.assertEqual(self.tried()[1:], ("1 refused, 0 failed", 0))
        self.assertEqual(self.run_planted("--every", "toy"), (2, "", "planted.py: toy: two rows have the name turned.edit\n"))

    def test_another_kit_tries_no_row_without_its_change(self):
        status, out, errors = self.run_planted("--unchanged", "toy", is_known=False)
        self.assertEqual((status, out), (2, ""))
        self.assertIn("--unchanged is for", errors)

    def test_another_kit_tries_the_rows_as_must_fail_edits(self):
        """Its rt refuses the first edit and no other. The crate's own edits are back afterwards."""
        self.row("turned", "second", "    2", "    2 + wrong")
        self.row("unturned", "third", "    second() + 1", "    second() + 1 + 0")
        own = self.folder / "crates/toy/must-fail/own.edit"
        own.parent.mkdir()
        own.write_text("its own")
        rt = self.folder / "rt"
        rt.write_text(f"#!/bin/sh\ncd crates/$2/must-fail\nset -- *\n{OTHER_RT}")
        rt.chmod(0o755)
        with mock.patch.dict(os.environ, PATH=f"{self.folder}:{os.environ['PATH']}"):
            rows, last, status = self.tried(is_known=False)
        self.assertEqual((rows.keys(), last, status), ({"turned", "unturned"}, "1 refused, 1 failed", 1))
        self.assertEqual(rows["turned"], "refused: refused, as it must be")
        self.assertEqual(own.read_text(), "its own")


class Crates(unittest.TestCase):
    """How many of three crates are tried at the same time."""

    def setUp(self):
        self.room = tempfile.TemporaryDirectory()
        self.folder = pathlib.Path(self.room.name)
        for name in ("one", "three", "two"):
            planted_folder = self.folder / "crates" / name / "planted"
            planted_folder.mkdir(parents=True)
            planted_folder.joinpath("a.edit").write_text("turns: f: it\nfile: src/lib.rt\nold: 1\nnew: 2\n")
        self.inside, self.most, self.asked = 0, 0, []

    def tearDown(self):
        self.room.cleanup()

    def tried(self, name, rows):
        """Is inside for a while."""
        self.inside += 1
        self.most = max(self.most, self.inside)
        time.sleep(0.3)
        self.inside -= 1
        self.asked.append((name, os.environ.get("RT_JOBS")))
        return rows

    def crate(self, name):
        crate = StandIn(self.folder)
        crate.name, crate.folder = name, str(self.folder / "crates" / name)
        return crate

    def run_planted(self, *words, is_known):
        """What it says to these words, and how many crates were tried at the same time."""
        self.most, self.asked = 0, []
        rt = StandIn(self.folder)
        rt.crates_below = lambda _root: [self.crate(name) for name in ("one", "three", "two")]
        row = planted.Row("it", "f", verdict=planted.REFUSED)
        known = mock.patch.multiple(planted, ROOT=self.folder, load_rt=lambda: rt, is_known_kit=lambda: is_known,
                                    try_crate=lambda _rt, crate, _every, _is: self.tried(crate.name, [row]),
                                    tried_by_rt=lambda name, _every, lanes: self.tried(name, [row]) if lanes in ({}, {"RT_JOBS": "1"}) else [])
        here, said, errors = os.getcwd(), io.StringIO(), io.StringIO()
        with known, mock.patch.dict(os.environ), mock.patch.object(sys, "argv", ["planted.py", *words]):
            os.environ.pop("RT_JOBS", None)
            with contextlib.redirect_stdout(said), contextlib.redirect_stderr(errors):
                try:
                    status = planted.main()
                except SystemExit as ended:
                    status = ended.code
        os.chdir(here)
        return status, (said.getvalue().splitlines() or [""])[-1], errors.getvalue()

    def test_as_many_crates_are_checked_at_once_as_are_asked_for(self):
        for is_known in (True, False):
            for jobs in (1, 2, 3):
                said = self.run_planted("--jobs", str(jobs), "--all", is_known=is_known)
                self.assertEqual(said, (0, "3 refused, 0 failed", ""))
                self.assertEqual((is_known, jobs, self.most), (is_known, jobs, jobs))
                self.assertEqual(sorted(name for name, _ in self.asked), ["one", "three", "two"])

    def test_without_a_number_the_kit_decides(self):
        self.assertEqual(self.run_planted("--all", is_known=True)[0], 0)
        self.assertEqual((self.most, {jobs for _, jobs in self.asked}), (3, {None}))

    def test_only_a_number_from_1_on_is_taken(self):
        for word in ("0", "-1", "x", "1.5", ""):
            status, _, errors = self.run_planted(f"--jobs={word}", "--all", is_known=True)
            self.assertEqual((status, self.asked), (2, []), word)
            self.assertIn(f"'{word}' is no number from 1 on", errors)


class Minutes(unittest.TestCase):
    BUSY = "import time\nwhile time.process_time() < 2: pass"

    def report(self, script):
        """What gate_minutes.py says of a shell's script, in which "$0" BUSY is a process that is busy for two seconds."""
        words = [sys.executable, str(TOP / "tools" / "gate_minutes.py"), "sh", "-c", script, sys.executable, self.BUSY]
        return subprocess.run(words, stdout=subprocess.PIPE, text=True)

    def test_the_time_of_a_crate_is_its_own(self):
        script = """"$0" -c "$1" --crate-name one & "$0" -c "$1" --crate-name two --test; wait; "$0" -c "$1" """
        lines = [line.split() for line in self.report(script).stdout.splitlines()]
        rows = {line[0]: [int(it) for it in line[1:]] for line in lines if line[0] in ("one", "two")}
        self.assertIn(rows["one"], ([1, 0, 0, 0], [2, 0, 0, 0]))
        self.assertIn(rows["two"], ([0, 1, 0, 0], [0, 2, 0, 0]))

    def test_edits_and_planted_rows_are_told_by_their_folders(self):
        with tempfile.TemporaryDirectory() as room:
            rows = []
            for folder, at in (("rt-edit-1", 2), ("planted-1", 3)):
                os.mkdir(f"{room}/{folder}")
                told = self.report(f"""cd {shlex.quote(room)}/{folder} && "$0" -c "$1" --crate-name one""").stdout
                rows.append([int(it) for it in re.search(r"^one +(.*)$", told, re.M)[1].split()])
                self.assertIn(rows[-1][at], (1, 2), told)
                self.assertEqual(sum(rows[-1]), rows[-1][at], told)

    def test_the_status_is_the_commands(self):
        ran = self.report("exit 3")
        self.assertEqual(ran.returncode, 3)
        self.assertRegex(ran.stdout.splitlines()[-1], r"^0\.\d processor minutes, 0\.\d by the clock, status 3$")


if __name__ == "__main__":
    unittest.main()
