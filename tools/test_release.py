#!/usr/bin/env python3
"""Tests of what makes, packs and installs a release: test_release.py [-v]

A release of lines of shell and a checkout are installed, each over the other, and uninstalled: nothing of them may stay.
What --help says makes manual pages, and completion that bash, zsh and fish understand, as far as they are there. The
examples of the pages are done by the programs of out/, if they are built.
A library of the judge without a proof is in no release.
"""
import os
import pathlib
import shlex
import shutil
import stat
import subprocess
import sys
import tempfile
import textwrap
import unittest

TOP = pathlib.Path(__file__).resolve().parent.parent
sys.dont_write_bytecode = True
sys.path[:0] = [str(TOP / "tools"), str(TOP / "tools" / "lib")]

import build_judge  # noqa: E402
import completion  # noqa: E402
import manual  # noqa: E402
import programs  # noqa: E402
import release  # noqa: E402
import stamp  # noqa: E402
from random_dumps import RandomDump  # noqa: E402


class Manual(unittest.TestCase):
    """Manual pages and completion of a program that is a line of shell for each of its helps."""

    HELPS = {"": """does things

Usage: g1heap <COMMAND>

Commands:
  same  Tells: two
  help  Print this

Options:
  -h, --help     Print help
  -V, --version  Print version

Statuses:
  0  done
  1  they differ

Example: g1heap same A B
""", "same": """Tells: two

Usage: g1heap same [OPTIONS] <BEFORE>

Arguments:
  <BEFORE>  An image

Options:
      --set <REGION>...   Of regions, it's a list [default: none]
      --image <N> <FILE>  A number and a file
  -o, --output <FILE>     Writes this file
  -h, --help              Print help

Statuses:
  0    the same
  141  the reader went away

Example: g1heap same B
"""}

    def setUp(self):
        room = tempfile.TemporaryDirectory(prefix="a b")
        self.addCleanup(room.cleanup)
        self.room = pathlib.Path(room.name)
        self.program = self.room / "g1heap"
        cases = "".join(f"{command}--help) cat <<'END'\n{text}END\n;;\n" for command, text in self.HELPS.items())
        self.program.write_text(f'#!/bin/sh\ncase "$1$2" in\n{cases}esac\n')
        self.program.chmod(0o755)

    def test_each_command_has_a_page(self):
        pages = manual.pages(self.program, "1.0", 0)
        self.assertEqual(set(pages), {"g1heap.1", "g1heap-same.1"})
        lines = pages["g1heap-same.1"].splitlines()
        self.assertEqual(lines[0], '.TH "G1HEAP\\-SAME" 1 "1970-01-01" "g1heap 1.0" "User Commands"')
        self.assertEqual(lines[lines.index(".SH NAME") + 1], "g1heap\\-same \\- Tells: two")
        at = lines.index(".SH EXIT STATUS")
        self.assertEqual(lines[at + 1:at + 7], [".TP", "\\fB0\\fR", "the same", ".TP", "\\fB141\\fR", "the reader went away"])
        self.assertIn(".BR g1heap (1)", lines[lines.index(".SH SEE ALSO"):])
        self.assertIn(".BR g1heap\\-same (1),", pages["g1heap.1"].splitlines())
        at = lines.index(".SH EXAMPLES")
        self.assertEqual(lines[at + 1:at + 5], [".PP", ".nf", "    g1heap same B", ".fi"])
        self.assertIn("    g1heap same \\-\\-all 10 BEFORE AFTER", lines[at:])

    def test_the_pages_that_are_named_are_there(self):
        for page in {*manual.PAGES.values(), "COMMANDS.md"}:
            self.assertTrue((TOP / "docs" / page).is_file(), page)

    def completed(self, shell, script):
        """What a shell prints, if it is there."""
        if not shutil.which(shell):
            self.skipTest(f"there is no {shell}")
        for name, text in completion.files(self.program).items():
            path = self.room / pathlib.Path(name).parent.parent.name  # bash-completion, zsh or fish
            path.write_text(text)
        (self.room / "word").touch()
        done = subprocess.run([shell, "-c", script], cwd=self.room, capture_output=True, text=True, check=False)
        self.assertEqual((done.returncode, done.stderr), (0, ""))
        return done.stdout

    def test_bash_offers_commands_options_and_files(self):
        script = """. ./bash-completion; compopt() { printf 'no file '; }
            for line in 'g1heap x' 'g1heap s' 'g1heap same w' 'g1heap same -' 'g1heap same --set w' 'g1heap same -o w' \\
                    'g1heap same --image 3' 'g1heap same --image 3 w' 'g1heap same --set 3 w'; do
                COMP_WORDS=($line) COMP_CWORD=$((${#COMP_WORDS[@]} - 1)); _g1heap; echo "$line: ${COMPREPLY[*]}"
            done"""
        self.assertEqual(self.completed("bash", textwrap.dedent(script)).splitlines(), [
            "no file g1heap x: ", "no file g1heap s: same", "g1heap same w: ",
            "g1heap same -: --set --image -o --output -h --help", "no file g1heap same --set w: ", "g1heap same -o w: ",
            "no file g1heap same --image 3: ", "g1heap same --image 3 w: ", "g1heap same --set 3 w: "])

    def test_fish_offers_commands_options_and_files(self):
        offers = {"g1heap s": ["same\tTells: two"], "g1heap w": [], "g1heap same w": ["word"], "g1heap same --set w": [],
                  "g1heap same -o w": ["word"], "g1heap same --se": ["--set\tOf regions, it’s a list [default: none]"]}
        for line, wanted in offers.items():
            self.assertEqual(self.completed("fish", f"source fish; complete -C '{line}'").splitlines(), wanted, line)

    def test_zsh_reads_its_file(self):
        self.completed("zsh", "zsh -n zsh")
        text = completion.files(self.program)["share/zsh/site-functions/_g1heap"]
        self.assertTrue(text.startswith("#compdef g1heap\n"))
        for part in ("'same:Tells\\: two'", "'--set[Of regions, it’s a list \\[default: none\\]]:REGION: '",
                     "'--image[A number and a file]:N: :FILE:_files'", "'(-o --output)'{-o,--output}'[Writes this file]:FILE:_files'",
                     "'*:file:_files' ;;"):
            self.assertIn(part, text)


@unittest.skipUnless(all(pathlib.Path(programs.find(name)).is_file() for name in stamp.PROGRAMS), programs.BUILD)
class Examples(unittest.TestCase):
    """The examples of the manual pages, done by the built programs."""

    LINES = """heap 16 4 4
covered
root 16
region 1 ordinary
object 16 3/1 32 7
region 2 ordinary
object 32 2/1 16
"""

    def room(self):
        """A folder with the files that the examples name."""
        room = tempfile.TemporaryDirectory()
        self.addCleanup(room.cleanup)
        folder = pathlib.Path(room.name)
        self.called(folder, "g1heap make -o IMAGE", self.LINES)
        shutil.copy(folder / "IMAGE", folder / "BEFORE")
        self.called(folder, "g1heap pause --set 1,2 -o AFTER BEFORE")
        (folder / "MAP").write_text("object 16 Pair\n")
        (folder / "TRACE").write_text("heap 16 4 4 1\nnew 0 0 1\nsay 0 0\n")
        (folder / "DUMP").write_bytes(RandomDump(1).bytes)
        return folder

    def called(self, folder, command, given=""):
        path = ":".join([*(str(pathlib.Path(programs.find(name)).parent) for name in stamp.PROGRAMS), os.environ["PATH"]])
        done = subprocess.run(["sh", "-c", command], cwd=folder, input=given, env=dict(os.environ, PATH=path), capture_output=True,
                              text=True, check=False)
        self.assertEqual((done.returncode, done.stderr), (0, ""), command)

    def test_each_example_does_what_it_says(self):
        for name, commands in manual.EXAMPLES.items():
            for command, found in commands.items():
                with self.subTest(name=name, command=command):
                    room = self.room()
                    for line in [line for _, lines in found for line in lines]:
                        self.called(room, line)


class Packing(unittest.TestCase):
    """What goes into a release."""

    def test_an_archive_without_a_proof_is_refused(self):
        with tempfile.TemporaryDirectory() as room:
            archive = pathlib.Path(room) / "libg1judge.a"
            archive.write_bytes(b"proved")
            self.assertEqual(release.proved_archive(archive), b"proved")
            archive.write_bytes(b"code, " + build_judge.MARK.encode() + b"\0")
            with self.assertRaisesRegex(release.Refused, "libg1judge.a has no proof"):
                release.proved_archive(archive)

    def test_a_script_comes_with_all_that_it_is_made_of(self):
        packed = set(release.scripts(["docs/LESSONS.md", "docs/COMPARE.md"]))
        self.assertLessEqual({"tools/picture.py", "tools/lib/objects.py", "tools/lib/stepping.py", "tools/lib/stepping.js",
                              "tools/lib/stepping.html", "tools/lib/programs.py", "tools/opponent.py", "tools/plant_errors.py",
                              "tools/lib/heap_image.py"}, packed)
        self.assertEqual(packed & {*release.OF_SOURCES, "tools/check_pages.py", "tools/hprof2image.py"}, set())


class Installing(unittest.TestCase):
    """install.sh and uninstall.sh, of a release and of a checkout whose programs are a line of shell."""

    PROGRAM = b"#!/bin/sh\necho g1pause 1.0\n"
    YEAR_2001 = 1_000_000_000

    def setUp(self):
        room = tempfile.TemporaryDirectory()
        self.addCleanup(room.cleanup)
        self.room = pathlib.Path(room.name)
        self.prefix = self.room / "a prefix"
        self.make_checkout()
        self.make_release()

    def make_checkout(self):
        out = self.room / "checkout/out"
        out.mkdir(parents=True)
        for name in stamp.PROGRAMS:
            (out / name).write_bytes(self.PROGRAM)
            (out / name).chmod(0o755)
        stamp.write(out, "PROVED", "a kit", "a sum", stamp.PROGRAMS)
        for name in ("install.sh", "uninstall.sh"):
            shutil.copy2(TOP / name, out.parent / name)

    def make_release(self):
        texts = ("include/g1judge.h", "lib/libg1judge.a", "lib/debug/g1pause.debug", "share/doc/g1pause/docs/USE.md",
                 "share/man/man1/g1pause.1", "lib/pkgconfig/g1judge.pc", "RELEASE")
        files = {**{f"bin/{name}": self.PROGRAM for name in stamp.PROGRAMS}, **{name: b"a text\n" for name in texts}}
        files.update({name: (TOP / name).read_bytes() for name in ("install.sh", "uninstall.sh")})
        packed = release.packed(release.with_lists(files), "release", self.YEAR_2001)
        subprocess.run(["tar", "xzf", "-", "-C", self.room], input=packed, check=True)

    def run_shell(self, *words):
        done = subprocess.run(["sh", *map(str, words)], env=dict(os.environ, PREFIX=str(self.prefix)), capture_output=True,
                              text=True, check=False)
        self.assertEqual((done.returncode, done.stderr), (0, ""))

    def installed(self):
        return {str(path.relative_to(self.prefix)) for path in self.prefix.rglob("*") if path.is_file()}

    def test_a_second_install_has_all_files_in_its_list(self):
        for first, second in (("release", "checkout"), ("checkout", "release"), ("release", "release")):
            with self.subTest(f"{first}, {second}"):
                self.run_shell(self.room / first / "install.sh")
                self.run_shell(self.room / second / "install.sh")
                listed = (self.prefix / "share/g1pause/files").read_text().split()
                self.assertEqual(self.installed(), {*listed, "share/g1pause/folders"})
                self.assertEqual("share/g1pause/RELEASE" in listed, second == "release")
                self.run_shell(self.prefix / "share/g1pause/uninstall.sh")
                self.assertFalse(self.prefix.exists())

    def test_a_folder_that_was_there_stays(self):
        self.prefix.mkdir()
        self.run_shell(self.room / "release/install.sh")
        self.run_shell(self.prefix / "share/g1pause/uninstall.sh")
        self.assertEqual(list(self.prefix.rglob("*")), [])
        self.assertTrue(self.prefix.is_dir())

    def test_programs_without_a_proof_are_installed_only_if_that_is_asked_for(self):
        install = self.room / "checkout/install.sh"
        (install.parent / "out/PROVED").rename(install.parent / "out/UNPROVED")
        refused = subprocess.run(["sh", install], env=dict(os.environ, PREFIX=str(self.prefix)), capture_output=True, text=True,
                                 check=False)
        self.assertEqual((refused.returncode, refused.stdout), (1, ""))
        self.assertIn("out/ has no proved programs: call tools/build.py", refused.stderr)
        self.assertFalse(self.prefix.exists())
        self.run_shell(install, "--unproved")
        self.assertEqual(self.installed() & {"bin/g1pause", "bin/g1heap"}, {"bin/g1pause", "bin/g1heap"})
        (install.parent / "out/g1pause").write_bytes(b"changed")
        changed = subprocess.run(["sh", install, "--unproved"], env=dict(os.environ, PREFIX=str(self.prefix)), capture_output=True,
                                 text=True, check=False)
        self.assertEqual(changed.returncode, 1)

    def test_files_keep_their_modes_and_times_and_belong_to_who_installs(self):
        unpacked = self.room / "release"
        if os.geteuid() == 0:
            subprocess.run(["chown", "-R", "12345:12345", unpacked], check=True)
        self.run_shell("-c", f"umask 077; exec sh {shlex.quote(str(unpacked / 'install.sh'))}")
        for name, mode in (("bin/g1pause", 0o755), ("include/g1judge.h", 0o644)):
            was = (self.prefix / name).stat()
            self.assertEqual((stat.S_IMODE(was.st_mode), was.st_mtime, was.st_uid), (mode, self.YEAR_2001, os.geteuid()))

    def test_what_others_installed_stays(self):
        (self.prefix / "bin").mkdir(parents=True)
        (self.prefix / "bin/other").write_bytes(self.PROGRAM)
        for name in ("release", "checkout"):
            self.run_shell(self.room / name / "install.sh")
        self.run_shell(self.prefix / "share/g1pause/uninstall.sh")
        self.assertEqual(self.installed(), {"bin/other"})


if __name__ == "__main__":
    unittest.main()
