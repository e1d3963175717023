#!/usr/bin/env python3
"""Tests of the tools that need no program of ours: test_tools.py [-v]

Pages with a wrong output, a command that fails, a file left behind or a picture that changed have to fail. The examples
have to be those that examples/make.py makes.
Examples of doc comments are found with their functions, and no other block is.
Tables of definitions and of the map that leave something out, or name what is not there, have to fail, and so does a definition
that no clause cites; those of the repository have to pass.
A script that takes long has to say how far it is, in place on a terminal.
Each script has to answer --help, and to say what it wants where it is called without arguments.
"""
import argparse
import contextlib
import io
import os
import pathlib
import pty
import re
import shutil
import subprocess
import sys
import tempfile
import unittest
import unittest.mock

TOP = pathlib.Path(__file__).resolve().parent.parent
sys.dont_write_bytecode = True
sys.path[:0] = [str(TOP / "tools"), str(TOP / "tools" / "lib")]

import check_pages  # noqa: E402
import check_tables  # noqa: E402
import doc_examples  # noqa: E402
import judge_opponent  # noqa: E402
import progress  # noqa: E402
import real_traces  # noqa: E402
import test_scripts  # noqa: E402
import unprivileged  # noqa: E402


class Pages(unittest.TestCase):
    def wrong(self, page):
        with tempfile.TemporaryDirectory() as room:
            checkout = pathlib.Path(room)
            (checkout / "kept.txt").write_text("kept\n")
            return check_pages.check_page("page", page, checkout, {})[1]

    def test_a_right_page_passes(self):
        self.assertEqual(self.wrong("Text\n\n    echo one; echo two\n\n    one\n    two\n\nText\n"), [])

    def test_fences_are_read_too(self):
        self.assertEqual(self.wrong("```sh\necho one\n```\n\n```\none\n```\n"), [])
        self.assertEqual(len(self.wrong("```sh\necho one\n```\n\n```\ntwo\n```\n")), 1)

    def test_a_wrong_output_fails(self):
        for output in ("    two\n", "    one\n    more\n", "    one \n    \n    x\n"):
            self.assertEqual(len(self.wrong(f"    echo one\n\n{output}")), 1, output)

    def test_an_output_may_have_empty_lines(self):
        self.assertEqual(self.wrong("    printf 'one\\n\\ntwo\\n'\n\n    one\n\n    two\n"), [])
        self.assertEqual(len(self.wrong("    printf 'one\\n\\ntwo\\n'\n\n    one\n\n    three\n")), 1)

    def test_a_command_may_have_several_lines(self):
        self.assertEqual(self.wrong("    echo one \\\n        two\n\n    one two\n"), [])
        self.assertEqual(self.wrong("```\ncat <<END\none\nEND\necho two\n```\n\n```\ntwo\n```\n"), [])

    def test_a_command_that_fails_fails(self):
        self.assertEqual(len(self.wrong("    ls nothing-here\n")), 1)
        self.assertEqual(len(self.wrong("    cat kept.txt; false\n\ntext\n")), 1)

    def test_figures_may_vary_only_where_it_is_said(self):
        page = "    echo took 5 s\n\n{}    took 7 s\n"
        self.assertEqual(len(self.wrong(page.format(""))), 1)
        self.assertEqual(self.wrong(page.format("<!-- figures vary -->\n\n")), [])

    def test_what_is_left_behind_changed_or_gone_fails(self):
        for command in ("echo > new.txt", "echo other > kept.txt", "rm kept.txt"):
            self.assertEqual(len(self.wrong(f"    {command}\n")), 1, command)

    def test_a_folder_may_have_a_space(self):
        with tempfile.TemporaryDirectory(prefix="a b") as room, unittest.mock.patch.object(tempfile, "tempdir", room):
            self.assertEqual(self.wrong("    echo one\n\n    one\n"), [])

    def test_the_shell_goes_on_from_line_to_line(self):
        self.assertEqual(self.wrong("    cd /\n    printf '%s\\n' $PWD\n\n    /\n"), [])

    def test_a_page_whose_program_is_missing_is_left_out_and_named(self):
        with tempfile.TemporaryDirectory() as room:
            page, said = pathlib.Path(room) / "page.md", io.StringIO()
            for needed, count in (("sh", 1), ("sh no-such-program", 0)):
                page.write_text(f"<!-- needs: {needed} -->\n\n    cat nothing-here\n")
                with contextlib.redirect_stdout(said):
                    _ran, wrong = check_pages.check_all([page], {})
                self.assertEqual(len(wrong), count, needed)
        self.assertIn(f"{page}: not run, there is no no-such-program\n", said.getvalue())

    def test_a_block_that_is_left_out_is_not_run(self):
        self.assertEqual(self.wrong("<!-- not run: it fails -->\n\n    cat nothing-here\n"), [])


TREE = {
    "docs/HEADLINE.md": "It is `g1_a/specs/Top.antt`.\n",
    "docs/DEFINITIONS.md": "Read 2 files, 3 lines.\n\n| Read | File | It defines |\n|---|---|---|\n| 1 | `g1_a/specs/Low.antt` | a |\n"
                           "| 2 | `g1_a/specs/Top.antt` | b |\n\n| File | It defines |\n|---|---|\n| `g1_b/specs/One.antt`, `Two.antt` | c |\n"
                           "| `g1_b/specs/Cited.antt`, `Used.antt` | g |\n"
                           "\n## The laws\n\n| Function | It says |\n|---|---|\n| `g1_a::laws::first`, `second` | d |\n",
    "docs/MAP.md": "## The crates, lowest first\n\n| Crate | Room for |\n|---|---|\n| `g1_a`, `g1_b` | e |\n\n## Where to change what\n\n"
                   "| Change | Begin with | Then |\n|---|---|---|\n| f | `g1_a/src/{laws,lib}.rt` | `main.rt` of g1_b |\n"
                   "\n## What a change touches\n\n| Change | Patterns | Files |\n|---|---|---|\n"
                   "| h | sources: `\\bf\\w+t\\b`; definitions: `IsLow\\|IsHigh` | `g1_a/src/laws.rt`, `g1_b/specs/{Cited,Used}.antt` |\n",
    "crates/g1_a/specs/Lib.antt": "pub mod Low\n",
    "crates/g1_a/specs/Low.antt": "use Rattle.std.specs.Prelude.{List}\n",
    "crates/g1_a/specs/Top.antt": "use Rattle.g1_a.specs.Low.{low}\nuse Rattle.g1_a.specs.declared.fault.Fault.{Fault}\n",
    "crates/g1_a/src/laws.rt": "pub fn first()\n{}\npub fn second()\n{}\n",
    "crates/g1_a/src/lib.rt": "#[test]\nfn it_is_so(rt: HostRuntime) {}\n\nfn others() {}\n",
    "docs/PROMISED.md": "| Promised | Kind | File | Name |\n|---|---|---|---|\n"
                        "| h | row | `crates/g1_rows/data/a.rows` | `It is so.` `count 2 => 4` `.. six ..` |\n"
                        "| i | test | `crates/g1_a/src/lib.rt` | `it_is_so` |\n| j | test | `tools/test_a.py` | `test_it` |\n"
                        "| k | script | `tools/a.py` | `LIST` |\n| l | wrong body | `crates/g1_a/must-fail/` | `does_nothing` |\n"
                        "| m | wrong body | `docs/PROVED.md` | `always_none` |\n| n | run | `crates/g1_a/stdout` | `a line` |\n",
    "crates/g1_a/stdout": "one line\na line\n",
    "docs/PROVED.md": "| Body | What it does |\n|---|---|\n| `always_none` | returns none |\n",
    "crates/g1_a/must-fail/does_nothing.edit": "file: src/lib.rt\n",
    "crates/g1_rows/args": "rows\na.rows\n",
    "crates/g1_rows/stdout": "ok: Another one.\nok: It is so.\n2 ok, 0 failed\n",
    "crates/g1_rows/data/a.rows": "# Rows.\n\n# Another one.\nadd\n----\n0\n\n# It is so.\nadd\n----\ncount 1 => 2\ncount 2 => 4\n"
                                  "| two six four\n",
    "tools/test_a.py": "class All:\n    def test_it(self):\n        pass\n",
    "tools/a.py": "LIST = [1]\n",
    "crates/g1_b/specs/One.antt": "",
    "crates/g1_b/specs/Two.antt": "use Rattle.g1_a.specs.Top\n",
    "crates/g1_b/specs/Used.antt": "-- the next one\nabbrev pub next : ℕ → ℕ\nnext n = suc n\n\nmodule _ (k : Kind next) where\n"
                                   "  -- no number\n  pub record IsLow (n : ℕ) : Type 0 where\n    pub none : n ≡ 0\n",
    "crates/g1_b/specs/Cited.antt": "pub use Rattle.g1_a.specs.Low.{low}\nuse Rattle.g1_b.specs.Used.{IsLow as IsSmall}\n\n"
                                    "-- they are small\nabbrev pub AreSmall : List ℕ → Type 0\nAreSmall xs = All IsSmall xs\n",
    "crates/g1_b/src/main.rt": "ghost use Rattle.g1_b.specs.Cited.{AreSmall, low};\n\nfn small()\n    ensures AreSmall result\n{}\n",
}


class Tables(unittest.TestCase):
    """Tables of a small tree, with one thing changed."""

    def wrong(self, name=None, old="", new="", gone=None):
        """What is wrong after a file has other words, or is gone."""
        with tempfile.TemporaryDirectory() as room:
            for path, text in TREE.items():
                if path == name:
                    self.assertEqual(text.count(old) if old else 1, 1, path)
                    text = text.replace(old, new) if old else text + new
                if path != gone:
                    target = pathlib.Path(room) / path
                    target.parent.mkdir(parents=True, exist_ok=True)
                    target.write_text(text)
            return check_tables.check(pathlib.Path(room))[1]

    def test_right_tables_pass(self):
        self.assertEqual(self.wrong(), [])

    def test_the_tables_of_the_repository_pass(self):
        looked, wrong = check_tables.check(TOP)
        self.assertGreater(looked, 300)
        self.assertEqual(wrong, [])

    def test_a_file_that_the_headline_needs_has_a_number(self):
        page = "docs/DEFINITIONS.md"
        self.assertEqual(self.wrong(page, "| 1 | `g1_a/specs/Low.antt` | a |\n| 2 |", "| `g1_a/specs/Low.antt` | a |\n| 1 |"),
                         ["DEFINITIONS: g1_a/specs/Low.antt has no number, and the headline depends on it"])
        self.assertIn("DEFINITIONS: g1_b/specs/Two.antt has no number, and the headline depends on it",
                      self.wrong("crates/g1_a/specs/Low.antt", "", "use Rattle.g1_b.specs.Two.{two}\n"))

    def test_a_file_that_it_does_not_need_has_none(self):
        self.assertIn("DEFINITIONS: g1_a/specs/Low.antt has a number, and the headline does not depend on it",
                      self.wrong("crates/g1_a/specs/Top.antt", "use Rattle.g1_a.specs.Low.{low}\n", "\n"))

    def test_numbers_and_counts_are_right(self):
        page = "docs/DEFINITIONS.md"
        for old, new in (("| 2 |", "| 3 |"), ("2 files", "3 files"), ("3 lines", "4 lines"), ("Read 2 files, 3 lines.", "Read.")):
            self.assertEqual(len(self.wrong(page, old, new)), 1, new)

    def test_each_file_is_in_one_row(self):
        page = "docs/DEFINITIONS.md"
        self.assertEqual(self.wrong(page, ", `Two.antt`", ""), ["DEFINITIONS: g1_b/specs/Two.antt is in no row"])
        self.assertEqual(self.wrong(page, ", `Two.antt`", ", `Two.antt`, `One.antt`"), ["DEFINITIONS: g1_b/specs/One.antt is in 2 rows"])
        self.assertEqual(self.wrong(page, ", `Two.antt`", ", `Two.antt`, `Three.antt`"), ["DEFINITIONS: there is no g1_b/specs/Three.antt"])
        self.assertEqual(self.wrong(gone="crates/g1_b/specs/Two.antt"), ["DEFINITIONS: there is no g1_b/specs/Two.antt"])

    def test_each_law_is_in_one_row(self):
        page = "docs/DEFINITIONS.md"
        self.assertEqual(self.wrong(page, ", `second`", ""), ["DEFINITIONS: g1_a::laws::second is in no row"])
        self.assertEqual(self.wrong(page, ", `second`", ", `second`, `third`"), ["DEFINITIONS: there is no g1_a::laws::third"])

    def uncited(self, name, old="", new=""):
        """The definitions that no clause cites then."""
        found = [re.fullmatch(r"DEFINITIONS: no clause cites (\S+) of g1_\S+/specs/(\w+).antt", line) for line in self.wrong(name, old, new)]
        return [".".join(match.group(2, 1)) for match in found]

    def test_a_clause_cites_each_definition(self):
        used, cited, source = "crates/g1_b/specs/Used.antt", "crates/g1_b/specs/Cited.antt", "crates/g1_b/src/main.rt"
        self.assertEqual(self.uncited(source), [])
        self.assertEqual(self.uncited(used, new="\nabbrev pub lone : ℕ → ℕ\nlone n = lone (next n)\n"), ["Used.lone"])
        self.assertEqual(self.uncited(used, "module _ (k : Kind next) where", "module _ (k : Kind) where"), ["Used.next"])
        self.assertEqual(self.uncited(cited, "All IsSmall xs", "xs.IsSmall"), ["Used.next", "Used.IsLow"])
        for old, new in (("ensures AreSmall", "// AreSmall"), ("ensures AreSmall", "ensures All"), ("Cited.{AreSmall", "Other.{AreSmall")):
            self.assertEqual(self.uncited(source, old, new), ["Cited.AreSmall", "Used.next", "Used.IsLow"], new)

    def test_a_name_that_a_file_hands_on_is_cited(self):
        lone = "crates/g1_b/specs/Used.antt", "    pub none : n ≡ 0\n", "    pub none : n ≡ 0\n\npub data Lone : Type 0 where\n"
        self.assertEqual(self.uncited(*lone), ["Used.Lone"])
        with unittest.mock.patch.dict(TREE, {
                "crates/g1_b/specs/Cited.antt": TREE["crates/g1_b/specs/Cited.antt"].replace("g1_a.specs.Low.{low}", "g1_b.specs.Used.{Lone as low}"),
                "crates/g1_b/src/main.rt": TREE["crates/g1_b/src/main.rt"].replace("AreSmall result", "AreSmall low")}):
            self.assertEqual(self.uncited(*lone), [])

    def lost(self, name, old="", new="", gone=None):
        """The one promise that is broken then, and why."""
        (line,) = self.wrong(name, old, new, gone)
        self.assertEqual(line[:10], "PROMISED: ")
        return line[10:]

    def test_what_is_promised_by_name_is_there(self):
        rows, test = "crates/g1_rows/data/a.rows", "crates/g1_a/src/lib.rt"
        self.assertEqual(self.lost(rows, "# It is so.", "# It is not so."), f"h: {rows} has no row 'It is so.'")
        for old, new in (("count 2 => 4\n", ""), ("count 2 => 4", "count 2 => 44"), ("count 2 => 4", "0 count 2 => 4")):
            self.assertEqual(self.lost(rows, old, new), f"h: the row 'It is so.' of {rows} has no line 'count 2 => 4'", new)
        self.assertEqual(self.lost(rows, "two six four", "two"), f"h: the row 'It is so.' of {rows} has no line '.. six ..'")
        self.assertEqual(self.lost("crates/g1_rows/stdout", "ok: It is so.\n", ""), "h: the driver does not write that 'It is so.' is so")
        self.assertEqual(self.lost("crates/g1_rows/args", "a.rows", "b.rows"), f"h: the driver does not try {rows}")
        for old, new in (("it_is_so", "it_is"), ("it_is_so", "it_is_so_too"), ("#[test]\n", "")):
            self.assertEqual(self.lost(test, old, new), f"i: {test} has no it_is_so", new)
        self.assertEqual(self.lost("tools/test_a.py", "test_it", "try_it"), "j: tools/test_a.py has no test_it")
        self.assertEqual(self.lost("tools/a.py", "LIST =", "LISTS ="), "k: tools/a.py has no LIST")
        edit = "crates/g1_a/must-fail/does_nothing.edit"
        self.assertEqual(self.lost(None, gone=edit), f"l: there is no {edit}")
        self.assertEqual(self.lost("docs/PROVED.md", "`always_none`", "`never_none`"), "m: docs/PROVED.md has no always_none")
        self.assertEqual(self.lost("crates/g1_a/stdout", "a line", "a line more"), "n: crates/g1_a/stdout has no a line")
        self.assertEqual(self.lost(None, gone="tools/a.py"), "k: there is no tools/a.py")

    def test_each_promise_has_a_kind_and_a_name(self):
        page = "docs/PROMISED.md"
        self.assertEqual(self.lost(page, "| k | script |", "| k | scripts |"), "k: tools/a.py has nothing of the kind 'scripts'")
        self.assertEqual(self.lost(page, "| `LIST` |", "| LIST |"), "k: it has no name")

    def test_each_promise_of_the_repository_is_looked_at(self):
        text = (TOP / "docs/PROMISED.md").read_text()
        kinds = [line.split(" | ")[1] for line in text.splitlines() if line.startswith("| ") and line.count(" | ") == 3]
        found = {kind: kinds.count(kind) for kind in ("row", "test", "script", "run", "wrong body")}
        self.assertEqual(check_tables.check_promised(text, TOP)[0], sum(found.values()))
        self.assertGreaterEqual(found["wrong body"], 50)

    def test_each_crate_is_in_one_row(self):
        page = "docs/MAP.md"
        self.assertEqual(self.wrong(page, ", `g1_b`", ""), ["MAP: g1_b is in no row"])
        self.assertEqual(self.wrong(page, ", `g1_b`", ", `g1_b`, `g1_c`"), ["MAP: there is no crate g1_c"])
        self.assertEqual(self.wrong(page, ", `g1_b`", ", `g1_b`, `g1_a`"), ["MAP: g1_a is in 2 rows"])

    def test_a_row_of_changes_names_what_is_there(self):
        page = "docs/MAP.md"
        for old, new in (("{laws,lib}", "{laws,libs}"), ("`main.rt`", "`mains.rt`"), ("`main.rt` of g1_b", "`main.rt` of g1_a")):
            self.assertEqual(len(self.wrong(page, old, new)), 1, new)

    def test_a_row_with_patterns_has_the_files_that_they_find(self):
        page = "docs/MAP.md"
        self.assertEqual(self.wrong(page, "{Cited,Used}", "{Used}"), ["MAP: h: g1_b/specs/Cited.antt is left out"])
        self.assertEqual(self.wrong("crates/g1_b/src/main.rt", "", "// first\n"), ["MAP: h: g1_b/src/main.rt is left out"])
        self.assertEqual(self.wrong(page, "`g1_a/src/laws.rt`, `g1_b", "`g1_a/src/{laws,lib}.rt`, `g1_b"),
                         ["MAP: h: g1_a/src/lib.rt has none of the patterns"])
        self.assertEqual(self.wrong(page, "IsLow\\|IsHigh`", "IsLow\\|IsHigh`, `IsNone`"), ["MAP: h: no file of definitions has IsNone"])

    def test_the_files_that_patterns_find_are_printed_as_a_row_has_them(self):
        with tempfile.TemporaryDirectory() as room:
            for path, text in TREE.items():
                target = pathlib.Path(room) / path
                target.parent.mkdir(parents=True, exist_ok=True)
                target.write_text(text)
            with contextlib.redirect_stdout(io.StringIO()) as out:
                check_tables.print_touched(TREE["docs/MAP.md"], pathlib.Path(room))
        self.assertEqual(out.getvalue(), TREE["docs/MAP.md"].splitlines(keepends=True)[-1])


class Examples(unittest.TestCase):
    def test_the_images_are_those_of_the_script(self):
        with tempfile.TemporaryDirectory() as room:
            subprocess.run([sys.executable, str(TOP / "examples/make.py"), room], check=True)
            made = [path for path in pathlib.Path(room).rglob("*.img")]
            self.assertEqual(len(made), 20)
            for path in made:
                kept = TOP / "examples" / path.relative_to(room)
                self.assertEqual(path.read_bytes(), kept.read_bytes(), kept)


class JavaHeaps(unittest.TestCase):
    """examples/java/run.sh, before it runs a JVM."""

    def test_words_that_no_heap_has_are_one_line(self):
        for words, line in (("many 4096 64 9", "SIZE is 'many', and has to be a number of entries, at most 999999"),
                            ("1000000 4096 64 9", "SIZE is '1000000', and has to be a number of entries, at most 999999"),
                            ("10 4000 64 9", "hprof2image: W is 4000: a power of two from 16 to 4194304 is wanted"),
                            ("10 4096 3 9", "hprof2image: K is 3: a power of two from 4 to 64, and at most W, is wanted"),
                            ("10 4096 64 9999", "hprof2image: N is 9999: from 1 to 4096 is wanted where W is 4096")):
            done = subprocess.run([TOP / "examples/java/run.sh", "TreeAndIndex", *words.split()], capture_output=True, text=True,
                                  check=False, env=dict(os.environ, G1PAUSE=shutil.which("true")), timeout=60)
            self.assertEqual((done.returncode, done.stdout, done.stderr), (2, "", f"run.sh: {line}\n"))


class Ocaml(unittest.TestCase):
    """examples/ocaml/judge.sh, with a compiler of a few lines of shell."""

    COMPILER = """\
[ "$1" != -version ] || { echo 4.14.1; exit; }
cat >judge <<'END'
#!/bin/sh
for name in before minor major compact changed; do echo object at_$name >$name.txt; done
END
chmod +x judge
"""

    def run_judge(self, programs, path, *words):
        """Runs it with these programs before the path. They stand in for ocamlopt and g1heap."""
        with tempfile.TemporaryDirectory() as room:
            for name, text in programs.items():
                (pathlib.Path(room) / name).write_text(f"#!/bin/sh\n{text}\n")
                (pathlib.Path(room) / name).chmod(0o755)
            return subprocess.run([TOP / "examples/ocaml/judge.sh", *words], capture_output=True, text=True, check=False,
                                  env={"PATH": f"{room}:{path}"}, timeout=60)

    def judged(self, programs, *words):
        """The status and the line of standard error, without an ocamlopt or a g1heap of the machine."""
        with tempfile.TemporaryDirectory() as tools:
            for name in ("dirname", "sh"):
                (pathlib.Path(tools) / name).symlink_to(shutil.which(name))
            done = self.run_judge(programs, tools, *words)
        self.assertEqual((done.stdout, done.stderr.count("\n")), ("", 1), done.stderr)
        return done.returncode, done.stderr.strip()

    def test_what_is_missing_is_one_line(self):
        compiler, judge = "echo 4.14.1", "true"
        for programs, line in (({"g1heap": judge}, "no ocamlopt on the path"), ({"ocamlopt": compiler}, "no g1heap on the path: tools/build.py --unproved builds out/g1heap")):
            self.assertEqual(self.judged(programs), (2, f"judge.sh: {line}"))

    def test_an_ocaml_of_another_kind_is_one_line(self):
        for version in ("4.02.3", "5.1.0", "4.1"):
            programs = {"ocamlopt": f"echo {version}", "g1heap": "true"}
            self.assertEqual(self.judged(programs), (2, f"judge.sh: ocamlopt is {version}, and the walk is for 4.13 and later 4.x"))

    def test_a_depth_that_is_too_small_or_too_large_is_one_line(self):
        programs = {"ocamlopt": "echo 4.14.1", "g1heap": "true"}
        for depth in ("2", "19", "60", "-3", "many", "3 4", "03"):
            self.assertEqual(self.judged(programs, depth), (2, f"judge.sh: DEPTH is '{depth}', and has to be from 3 to 18"))

    def test_a_change_is_found_only_by_status_1(self):
        for found, status in ((0, 1), (1, 0), (3, 1), (6, 1)):
            programs = {"ocamlopt": self.COMPILER, "g1heap": f"[ $3 != changed.txt ] || exit {found}"}
            done = self.run_judge(programs, os.environ["PATH"])
            self.assertEqual((done.returncode, done.stderr), (status, ""), found)

    def test_collections_that_move_nothing_judge_nothing(self):
        programs = {"ocamlopt": self.COMPILER.replace("at_$name", "at_one_place"), "g1heap": "[ $3 != changed.txt ]"}
        done = self.run_judge(programs, os.environ["PATH"])
        self.assertEqual((done.returncode, done.stdout.splitlines()[3]), (1, "judged nothing: no collection moved an object"))

    def test_a_collection_is_compared_with_the_heap_before_it(self):
        moved = self.COMPILER.replace("echo object at_$name", "{ echo object $name | sed 's/minor/before/; s/compact/major/'; }")
        done = self.run_judge({"ocamlopt": moved, "g1heap": "[ $3 != changed.txt ] || exit 1; echo $2"}, os.environ["PATH"])
        self.assertEqual(done.stdout.splitlines()[:3], ["minor: 0 objects moved: before.txt", "major: 1 objects moved: minor.txt",
                                                        "compact: 0 objects moved: major.txt"])


class Runtimes(unittest.TestCase):
    """examples/runtimes/judge.py, with a ruby and a g1heap of a few lines."""

    RUBY = """#!{python}
import sys
room = sys.argv[-2]
for step, names in {steps}:
    open(f"{{room}}/{{step}}.txt", "w").write("graph\\n" + "".join(f"object {{name}} 1/0\\n" for name in names))
for step in {maps}:
    open(f"{{room}}/{{step}}", "w").close()
print(*{lines}, sep="\\n", end={end})
sys.exit({problem})
"""
    HEAP = """#!{python}
import sys
before, after = sys.argv[-2:]
names = [[line.split()[1] for line in open(file) if line.startswith("object")] for file in (before, after)]
verdict = {verdicts}.get(after.removesuffix(".txt"), "same objects 2 words 2")
print(verdict, file=sys.stderr if verdict.startswith("g1heap") else sys.stdout)
if verdict.startswith("same"):
    print("moved", sum(map(str.__ne__, *names)), "of 2 by name")
sys.exit(0 if verdict.startswith("same") else 1 if verdict.startswith("differ") else 3)
"""
    STEPS = [("before", "ab"), ("minor", "ac"), ("wrong", "ac"), ("again", "ac")]
    LINES = ["before", "collection minor", "planted wrong split judged.left Node", "again"]
    FOUND = "differ split at judged.left: object c (Node) before, object a (Leaf) after; c before is d after on an earlier path"
    TORN = "differ data at judged.left: object c (Node) before, object c (Node) after; data word 1, key, is 2 (0x2) before, 3 (0x3) after"

    def judged(self, steps=STEPS, lines=LINES, verdicts=None, words=("ruby",), maps=("names",), problem=None, end="\n"):
        """The status and what is printed."""
        with tempfile.TemporaryDirectory() as room:
            texts = {"ruby": self.RUBY.format(python=sys.executable, steps=steps, lines=lines, maps=maps, problem=repr(problem),
                                              end=repr(end)),
                     "g1heap": self.HEAP.format(python=sys.executable, verdicts={"wrong": self.FOUND} if verdicts is None else verdicts)}
            for name, text in texts.items():
                (pathlib.Path(room) / name).write_text(text)
                (pathlib.Path(room) / name).chmod(0o755)
            done = subprocess.run([TOP / "examples/runtimes/judge.py", *words], capture_output=True, text=True, check=False, timeout=60,
                                  env={**os.environ, "PATH": f"{room}:{os.environ['PATH']}"})
        self.assertEqual(progress.without_signs(done.stderr.splitlines()), [])
        return done.returncode, done.stdout.splitlines()

    def test_a_good_collector_passes(self):
        self.assertEqual(self.judged(), (0, ["ruby minor: same objects 2 words 2, 1 moved", f"ruby planted wrong: {self.FOUND}",
                                             "ruby again: same objects 2 words 2, 0 moved", "ruby 1 collections, 1 moves", "4 passed, 0 failed"]))

    def test_a_collection_that_changes_the_heap_fails(self):
        for verdict in ("differ null at judged: null before, object a after", "g1heap: minor.txt: line 3: expected a name", "g1heap: no memory"):
            status, lines = self.judged(verdicts={"minor": verdict, "wrong": self.FOUND})
            self.assertEqual((status, lines[0], lines[-1]), (1, f"ruby minor: {verdict}, 0 moved  FAILED", "2 passed, 2 failed"))

    def test_an_error_that_is_not_found_or_is_found_elsewhere_fails(self):
        found = self.FOUND
        for verdict in ("same objects 2 words 2", found.replace("split at", "data at"), found.replace("judged.left", "judged.right"),
                        found.replace("judged.left", "judged.left.left"), found.replace("(Node)", "(Leaf)"), found.replace(" (Node)", ""),
                        "g1heap: wrong.txt: line 3: expected a name"):
            status, lines = self.judged(verdicts={"wrong": verdict})
            self.assertEqual((status, lines[1], lines[-1]), (1, f"ruby planted wrong: {verdict}  FAILED", "3 passed, 1 failed"))

    def test_a_field_is_asked_for_by_its_name(self):
        lines = [self.LINES[0], self.LINES[1], "planted wrong data judged.left Node key", "again"]
        self.assertEqual(self.judged(lines=lines, verdicts={"wrong": self.TORN})[0], 0)
        for verdict in (self.TORN.replace(", key,", ", name,"), self.TORN.replace(", key,", ""), self.TORN.partition(";")[0]):
            self.assertEqual(self.judged(lines=lines, verdicts={"wrong": verdict})[0], 1)

    def test_collections_without_a_move_judge_nothing(self):
        still = [(step, "ab") for step, _ in self.STEPS]
        status, lines = self.judged(steps=still)
        self.assertEqual((status, lines[-2:]), (1, ["ruby 1 collections, 0 moves: judged nothing  FAILED", "3 passed, 1 failed"]))
        lines = [self.LINES[0], "collection minor 7 freed", *self.LINES[2:]]
        self.assertEqual(self.judged(steps=still, lines=lines)[0], 1)  # nobody said that it moves nothing

    def test_a_program_may_count_its_moves_itself(self):
        for moved, status in ((7, 0), (0, 1)):
            lines = [self.LINES[0], f"collection minor {moved} moved", *self.LINES[2:]]
            found, said = self.judged(steps=[(step, "ab") for step, _ in self.STEPS], lines=lines)
            self.assertEqual((found, said[0]), (status, f"ruby minor: same objects 2 words 2, {moved} moved"))

    def test_a_runtime_that_moves_nothing_has_to_free_something(self):
        words = ["--unmoving", "--program", "ruby -w"]
        still = [(step, "ab") for step, _ in self.STEPS]
        for collected, status, end in (("minor 7 freed", 0, "7 freed"), ("minor 0 freed", 1, "0 freed: judged nothing  FAILED"),
                                       ("minor", 1, "0 freed: judged nothing  FAILED")):
            lines = [self.LINES[0], f"collection {collected}", *self.LINES[2:]]
            found, said = self.judged(steps=still, lines=lines, words=words)
            self.assertEqual((found, said[-2]), (status, f"program 1 collections, {end}"))
        found, said = self.judged(lines=["before", "collection minor 7 freed", *self.LINES[2:]], words=words)
        self.assertEqual((found, said[-2]), (1, "program 1 collections, 7 freed: it moved 1 objects, and was to move none  FAILED"))

    def test_a_program_that_ends_early_fails(self):
        for lines, missing in ((self.LINES[:-1], "come to its end, a line 'again'"), (self.LINES[1:], "begin with a line 'before'"),
                               ([], "begin with a line 'before'")):
            self.assertEqual(self.judged(lines=lines), (1, [f"ruby: its program did not {missing}  FAILED", "0 passed, 1 failed"]))
        status, lines = self.judged(lines=["a", "b"], steps=3)
        self.assertEqual((status, lines[-1]), (1, "0 passed, 1 failed"))
        self.assertTrue(lines[0].startswith("ruby: ruby: status 1: "), lines)

    def test_what_a_program_did_before_it_failed_is_judged(self):
        minor, wrong = "ruby minor: same objects 2 words 2, 1 moved", f"ruby planted wrong: {self.FOUND}"
        end = "ruby: ruby: status 1: no memory  FAILED"
        for lines, before in ((self.LINES[:2], [minor]), (self.LINES[:3], [minor, wrong]), (self.LINES[:1], []), ([], [])):
            expected = (1, [*before, end, f"{len(before)} passed, 1 failed"])
            self.assertEqual(self.judged(lines=lines, problem="no memory"), expected)
            self.assertEqual(self.judged(lines=[*lines, "planted wr"], problem="no memory", end=""), expected)  # a line that broke off
        self.assertEqual(self.judged(problem="at the end")[1][-2:], ["ruby: ruby: status 1: at the end  FAILED", "4 passed, 1 failed"])
        verdict = "differ null at judged: null before, object a after"
        status, said = self.judged(lines=self.LINES[:2], verdicts={"minor": verdict}, problem="no memory")
        self.assertEqual((status, said), (1, [f"ruby minor: {verdict}, 0 moved  FAILED", end, "0 passed, 2 failed"]))
        self.assertEqual(self.judged(lines=self.LINES, steps=self.STEPS[:2], problem="no memory")[1], [end, "0 passed, 1 failed"])

    def test_a_program_may_report_on_standard_output_why_it_failed(self):
        lines = [*self.LINES[:2], "Exception- Fail", "no memory"]
        expected = ["ruby minor: same objects 2 words 2, 1 moved", "ruby: ruby: status 1: Exception- Fail no memory  FAILED", "1 passed, 1 failed"]
        self.assertEqual(self.judged(lines=lines, problem=1), (1, expected))

    def test_a_long_report_keeps_its_beginning_and_its_end(self):
        line = self.judged(lines=[], problem="a" * 150 + " " + "b" * 250)[1][0]
        self.assertEqual(line, f"ruby: ruby: status 1: {'a' * 100} .. {'b' * 200}  FAILED")

    def test_a_program_that_plants_no_error_fails(self):
        status, said = self.judged(lines=[*self.LINES[:2], "again"])
        self.assertEqual((status, said[-2:]), (1, ["ruby 1 collections, 1 moves: no error was planted, so nobody knows whether one would "
                                                   "be found  FAILED", "2 passed, 1 failed"]))

    def test_a_file_that_is_not_there_fails(self):
        self.assertEqual(self.judged(maps=())[1][0], "ruby: its program wrote no file names  FAILED")
        self.assertEqual(self.judged(steps=self.STEPS[:2])[1][0], "ruby: its program wrote no file wrong.txt  FAILED")

    def test_a_line_with_other_words_fails(self):
        for line in ("planted wrong split judged.left", "planted wrong split judged.left my Node key", "collection minor 7", "collection my minor"):
            status, lines = self.judged(lines=["before", line, "again"])
            self.assertEqual((status, lines), (1, [f"ruby: its program's line is not one of docs/RUNTIMES.md: {line}  FAILED", "0 passed, 1 failed"]))

    def test_wrong_words_are_usage(self):
        for words in (["perl"], ["--depth", "2"], ["--depth", "many"], ["--unmoving", "ruby"], ["--program", "no-such-program"],
                      ["--program", ""], ["--program", "true", "ruby"]):
            done = subprocess.run([TOP / "examples/runtimes/judge.py", *words], capture_output=True, text=True, check=False, timeout=60)
            self.assertEqual((done.returncode, done.stdout), (2, ""), words)

    def test_a_runtime_that_is_not_there_is_one_line(self):
        with tempfile.TemporaryDirectory() as room:
            for name in ("env", "python3"):
                (pathlib.Path(room) / name).symlink_to(shutil.which(name) if name == "env" else sys.executable)
            done = subprocess.run([TOP / "examples/runtimes/judge.py", "ghc"], capture_output=True, text=True, check=False, timeout=60,
                                  env={"PATH": room})
        self.assertEqual((done.returncode, done.stdout, done.stderr.splitlines()[-1]), (2, "", "judge.py: error: ghc needs ghc: Debian's ghc"))


class Opponents(unittest.TestCase):
    """The end of tools/judge_opponent.py, of which only the counts are known."""

    def ended(self, cases, never):
        judge = judge_opponent.Judge(argparse.Namespace(seed=1, cases=cases, large=False), None)
        judge.passed = 1
        judge.counts.update({error: 1 for error in judge.counts if error not in never})
        with contextlib.redirect_stdout(io.StringIO()) as out:
            status = judge.end()
        return status, out.getvalue().splitlines()[-1 - len(never):]

    def test_an_error_that_was_never_planted_fails(self):
        self.assertEqual(self.ended(20, []), (0, ["1 passed, 0 failed"]))
        self.assertEqual(self.ended(20, ["pin_new"]), (1, ["never planted: pin_new", "1 passed, 1 failed"]))
        self.assertEqual(self.ended(19, ["pin_new"])[0], 0)


class Planted(unittest.TestCase):
    """No program in which an error is planted is run as the super-user."""

    ASKS = "import os, sys, tempfile; tempfile.mkstemp(); sys.exit(7 if os.geteuid() == 0 else {})"

    def run_in(self, call):
        """What a call gives in a folder that the programs' user is let into."""
        with tempfile.TemporaryDirectory() as room:
            folder = pathlib.Path(room)
            unprivileged.let_in(folder)
            return call(folder)

    def test_the_super_user_runs_them_as_nobody_and_others_as_they_are(self):
        for user, expected in ((0, {"user": 65534, "group": 65534, "extra_groups": ()}), (1000, {})):
            with unittest.mock.patch("os.geteuid", return_value=user):
                self.assertEqual(unprivileged.unprivileged(), expected)

    def test_they_write_in_their_own_folder_alone(self):
        def written(folder):
            ours = folder / "ours"
            ours.write_text("as it was")
            said = [unprivileged.can("sh", "-c", f"echo > '{folder}/{name}'") for name in ("nobody/new", "ours", "new")]
            return said, ours.read_text()
        may = os.geteuid() != 0
        self.assertEqual(self.run_in(written), ([True, may, may], "\n" if may else "as it was"))

    def test_what_that_user_cannot_read_is_reported(self):
        with tempfile.TemporaryDirectory() as room, self.assertRaisesRegex(unprivileged.Unreadable, "^nobody cannot read .*gone"):
            unprivileged.require_readable(pathlib.Path(room) / "gone")

    def test_scripts_are_tried_on_broken_programs_so(self):
        def passes(folder, status):
            script = folder / "script.py"
            script.write_text(self.ASKS.format(status))
            return test_scripts.passes(folder, str(script), "program")
        self.assertEqual([self.run_in(lambda folder: passes(folder, status)) for status in (0, 1)], [True, False])

    def test_a_broken_barrier_is_tried_so(self):
        def noticed(folder):
            program = folder / "g1pause"
            program.write_text(f"#!/bin/sh\nexec '{unprivileged.python()}' -c '{self.ASKS.format(8)}'\n")
            program.chmod(0o755)
            return real_traces.first_noticed(str(program), "lru_cache", [1])
        self.assertEqual(self.run_in(noticed), "trace 1: status 8 ")


class DocExamples(unittest.TestCase):
    """The examples in the doc comments of a small file."""

    SOURCE = """//! ```
//! of_the_file();
//! ```

/// Adds.
///
/// ```
/// assert_eq!(rt; add(1, 2), 3);
///
/// assert_eq!(rt; add(2, 2), 4);
/// ```
#[inline]
pub fn add(a: u64, b: u64) -> u64 {
    a + b
}

impl<'a, T: Iterator<Item = &'a u64>> Sum<T> {
    /// ```text
    /// no example
    /// ```
    pub const fn new(items: T) -> Sum<T> {
    }

    /// ```
    /// let sum = Sum::of(&[1, 2]);
    /// ```
    ///
    /// ```
    /// let sum = Sum::of(&[]);
    /// ```
    pub fn of(items: T) -> Sum<T> {
    }
}

/// ```
/// of_a_private_one();
/// ```
fn other() {}
"""

    def setUp(self):
        self.calls = list(doc_examples.calls("crates/g1_a/src/sums.rt", self.SOURCE))

    def test_each_example_has_its_place_and_its_lines(self):
        found = [example for call in self.calls for example in doc_examples.examples(call)]
        self.assertEqual([example.place() for example in found], [
            "crates/g1_a/src/sums.rt:7: g1_a::add", "crates/g1_a/src/sums.rt:24: g1_a::Sum::of",
            "crates/g1_a/src/sums.rt:28: g1_a::Sum::of"])
        self.assertEqual(found[0].text, ["assert_eq!(rt; add(1, 2), 3);", "", "assert_eq!(rt; add(2, 2), 4);"])
        self.assertIn("fn g1_a_sum_of(rt: HostRuntime)", found[1].test())

    def test_a_block_without_an_end_is_refused(self):
        with self.assertRaises(doc_examples.unproved.NotBuilt):
            list(doc_examples.examples(self.calls[0]._replace(comment=[(1, "```"), (2, "let a = 1;")])))

    def test_a_place_in_a_test_is_that_in_the_source(self):
        shown = list(doc_examples.examples(self.calls[0]))
        line = shown[0].test().splitlines().index("    assert_eq!(rt; add(2, 2), 4);") + 1
        self.assertEqual(doc_examples.in_place(shown, f"src/e0.rt:{line}:5: no"), "crates/g1_a/src/sums.rt:10:5: no")

    def test_a_public_call_is_named_or_of_a_type_that_is(self):
        root = "mod sums;\npub use sums::{\n    Sum, less,\n};\npub use others::add;\n"
        public = [call.title() for call in self.calls if doc_examples.is_public(call, root)]
        self.assertEqual(public, ["g1_a::Sum::new", "g1_a::Sum::of"])
        self.assertTrue(doc_examples.is_public(self.calls[0], "pub use sums::add;\n"))


class SignsOfLife(unittest.TestCase):
    """What a script of two cases and of four requests each says while it works, a line each tenth of a second."""

    SCRIPT = """
import sys, time
sys.path.insert(0, sys.argv[1])
import progress
progress.SIGNS.every = progress.IN_PLACE = 0.1
progress.FIRST = 0
for case in progress.over([1, 2], "cases"):
    for request in progress.over(range(4), "requests"):
        time.sleep(0.2)
    print("case", case, "is done", flush=True)
time.sleep(0.4)
print("the end")
"""

    def words(self, room):
        (pathlib.Path(room) / "slow.py").write_text(self.SCRIPT)
        return [sys.executable, f"{room}/slow.py", str(TOP / "tools" / "lib")]

    def test_a_pipe_has_a_line_for_each_sign(self):
        with tempfile.TemporaryDirectory() as room:
            done = subprocess.run(self.words(room), capture_output=True, text=True, check=True)
        self.assertEqual(done.stdout, "case 1 is done\ncase 2 is done\nthe end\n")
        lines = done.stderr.splitlines()
        self.assertGreater(len(lines), 4)
        for line in lines:
            self.assertRegex(line, r"^slow\.py: cases: [12] of 2(, requests: [1-4] of 4)?, [0-3] s$")
        self.assertEqual(progress.without_signs([*lines, "the end", "slow.py: 12 s", ""]), ["the end", "slow.py: 12 s", ""])

    def test_a_terminal_keeps_no_sign(self):
        ours, theirs = pty.openpty()
        with tempfile.TemporaryDirectory() as room, subprocess.Popen(self.words(room), stdout=theirs, stderr=theirs) as process:
            os.close(theirs)
            said = b""
            with contextlib.suppress(OSError), open(ours, "rb", buffering=0) as file:  # a closed terminal is an error of Linux
                while data := file.read(4096):
                    said += data
            process.wait()
        text = said.decode()
        self.assertGreater(text.count("requests:"), 4)
        left = [line.rpartition("\x1b[K")[2] for line in text.replace("\r\n", "\n").split("\n")]
        self.assertEqual(left, ["case 1 is done", "case 2 is done", "the end", ""])

    def test_no_silence_is_longer_than_five_seconds(self):
        self.assertLess(progress.EVERY, 5)
        self.assertEqual([progress.in_words(seconds) for seconds in (4, 59.4, 60, 131)], ["4 s", "59 s", "1 min 0 s", "2 min 11 s"])


class Scripts(unittest.TestCase):
    """All scripts, in a copy where no program is built, so that none has all that it wants."""

    WANT_NOTHING = ("build_judge.py", "doc_examples.py", "repeated_lemmas.py", "test_bench.py", "test_build.py", "test_hprof.py",
                    "test_images.py", "test_planted.py", "test_release.py", "test_repeated.py", "test_tools.py")

    @classmethod
    def setUpClass(cls):
        cls.room = tempfile.TemporaryDirectory()
        cls.folder = pathlib.Path(cls.room.name)
        cls.scripts = []
        for path in sorted([*TOP.glob("tools/**/*.py"), *TOP.glob("bench/*.py"), *TOP.glob("examples/**/*.py"), *TOP.glob("examples/**/*.sh")]):
            copy = cls.folder / path.relative_to(TOP)
            copy.parent.mkdir(parents=True, exist_ok=True)
            copy.write_bytes(path.read_bytes())
            if copy.read_bytes().startswith(b"#!"):
                cls.scripts.append(copy)

    @classmethod
    def tearDownClass(cls):
        cls.room.cleanup()

    def run_script(self, path, *words):
        command = ["sh"] if path.suffix == ".sh" else [sys.executable]
        bare = {**os.environ, "PATH": os.defpath} if path.suffix == ".sh" else None  # a g1heap on the path would be run
        done = subprocess.run([*command, str(path), *words], cwd=self.folder, env=bare, stdin=subprocess.DEVNULL, capture_output=True, timeout=60)
        return done.returncode, done.stdout.decode(), done.stderr.decode()

    def test_each_answers_help(self):
        self.assertGreater(len(self.scripts), 15)
        for path in self.scripts:
            with self.subTest(path.name):
                status, out, errors = self.run_script(path, "--help")
                self.assertEqual((status, errors), (0, ""))
                self.assertIn(path.name, out)
                self.assertGreater(len(out.splitlines()), 4)

    def test_each_says_what_it_wants(self):
        for path in self.scripts:
            if path.name in self.WANT_NOTHING:
                continue
            with self.subTest(path.name):
                status, out, errors = self.run_script(path)
                self.assertEqual((status, out), (2, ""))
                self.assertIn(path.name, errors)
                self.assertNotIn("Traceback", errors)

    def test_a_program_that_is_not_built_comes_with_what_builds_it(self):
        (self.folder / "text").write_text("no program")
        for path in self.scripts:
            wanted = len(re.findall(r"^    add_program\(", path.read_text(encoding="utf-8"), re.M))
            for words in (), ("nowhere",) * wanted, ("text",) * wanted:
                if wanted:
                    with self.subTest(f"{path.name} {' '.join(words)}"):
                        status, out, errors = self.run_script(path, *words)
                        self.assertEqual((status, out), (2, ""))
                        self.assertIn("tools/build.py --unproved builds", errors)

    def test_a_driver_that_is_not_built_comes_with_what_builds_it(self):
        for name in ("count_threads.py", "refuse_calls.py"):
            status, out, errors = self.run_script(self.folder / "tools" / name, "nowhere")
            self.assertEqual((status, out), (2, ""))
            self.assertIn("rt run in crates/g1_rows builds", errors)

    def test_a_picture_without_programs_says_what_builds_them(self):
        for words in [], ["--objects"], ["--steps"]:
            with self.subTest(words):
                status, out, errors = self.run_script(self.folder / "tools/picture.py", *words, "/dev/null")
                self.assertEqual((status, out), (2, ""))
                self.assertIn("tools/build.py --unproved builds", errors)


if __name__ == "__main__":
    unittest.main()
