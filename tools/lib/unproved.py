"""Builds a program or a library without any proof, at the speed of a proved one: a module of tools/build.py and of
tools/build_judge.py.

The kit builds nothing that isn't proved, but `rt try` compiles a program or a crate's tests to run them once, with
run-time checks. Here `rt try` runs over a folder of links to the kit, in which the compiler is a script that keeps the
LLVM module and fails. The checks of that module, which nothing proved has, are taken out; then the kit's own compiler
makes the object of it, with the flags that `rt try` asked for, but optimized. A program is linked by the kit's linker.

A library's module is that of a test which calls each call of the library, since calls that nothing calls are not in
it. The calls then get the names that C knows them by, and all else is taken away that they don't need.
"""
import contextlib
import os
import pathlib
import re
import shutil
import subprocess
import sys
import tempfile

TARGET = "x86_64-unknown-linux-gnu"
# The checks of `rt try`, each a call that ends the program, and the bytes with which it fills what isn't yet written.
CHECKS = re.compile(r'^  call void @"rattle-(?:llvm-checks::[A-Za-z]+|try::site-\d+)"\(.*\)\n', re.M)
FILLING = re.compile(r"^  call void @llvm\.memset\.p0\.i64\(ptr %[\w.]+, i8 -86, i64 \d+, i1 false\)\n", re.M)
LEFT = re.compile(r'call [^@\n]*@"rattle-(?:llvm-checks|try)::[^\n]*')
PROCESSOR = ('"target-cpu"="x86-64"', '"target-cpu"="x86-64-v2"')  # that of the kit's proved builds
# Keeps the module that is to be compiled with checks, and the flags. All else goes to the kit's compiler.
COMPILER = """#!/bin/sh
case "$*" in
*-fsanitize=address*) mv module.bc '{room}/module.bc' && printf '%s\\n' "$@" > '{room}/flags'; exit 1 ;;
esac
exec '{kit}/toolchain/bin/clang' "$@"
"""


class NotBuilt(Exception):
    """Why a program could not be built."""


def kit_folder():
    """The folder of the kit, from the page that `rt doc` names."""
    done = subprocess.run(["rt", "doc"], capture_output=True, text=True, check=True)
    return pathlib.Path(done.stdout.strip()).parent


def link_all(folder, target, but):
    """Links to everything in the folder except these names."""
    target.mkdir(parents=True)
    for path in folder.iterdir():
        if path.name not in but:
            (target / path.name).symlink_to(path.resolve())


def keeping_kit(kit, room):
    """A folder like the kit's, whose compiler keeps a program's module. It returns its `rt`."""
    copy = room / "kit"
    link_all(kit, copy, ("bin", "toolchain"))
    link_all(kit / "toolchain", copy / "toolchain", ("bin",))
    link_all(kit / "bin", copy / "bin", ("rt", "rtlib.py", "rattle"))
    (copy / "toolchain" / "bin").mkdir()
    for name in ("ld.lld", "llvm-ar", "rattle-x64"):
        (copy / "toolchain" / "bin" / name).symlink_to(kit / "toolchain" / "bin" / name)
    compiler = copy / "toolchain" / "bin" / "clang"
    compiler.write_text(COMPILER.format(room=room, kit=kit))
    compiler.chmod(0o755)
    for name in ("rt", "rtlib.py"):  # they look for their kit where they are themselves
        shutil.copy2(kit / "bin" / name, copy / "bin" / name)
    # `rt try` has the prover give hints beside it. None are needed here.
    (copy / "bin" / "rattle").symlink_to(shutil.which("true"))
    return copy / "bin" / "rt"


def kept_module(kit, crate, room, *words):
    """Has `rt try` compile the crate. The module is in the room then, and the flags are returned."""
    words = [sys.executable, str(keeping_kit(kit, room)), "try", *words]
    done = subprocess.run(words, cwd=crate, stdin=subprocess.DEVNULL, capture_output=True, text=True, errors="replace",
                          check=False, env=dict(os.environ, TMPDIR=str(room)))
    if not (room / "flags").exists():
        raise NotBuilt("rt try refused it:\n" + (done.stdout + done.stderr).strip()[-3000:])
    return (room / "flags").read_text().splitlines()


def without_checks(text):
    text = FILLING.sub("", CHECKS.sub("", text))
    left = LEFT.search(text)
    if left:
        raise NotBuilt(f"this kit's rt try has a check of another form: {left.group()}")
    return text.replace(" sanitize_address", "").replace(*PROCESSOR)


def optimized(flags, module, made):
    """The flags of `rt try`, for a program without checks."""
    instead = {"-O0": "-O3", "-march=x86-64": "-march=x86-64-v2", "module.bc": str(module), "module.o": str(made)}
    return [instead.get(flag, flag) for flag in flags if flag not in ("-fsanitize=address", "-Werror")]


def need_kit():
    if not shutil.which("rt"):
        raise NotBuilt("there is no rt on the path: it comes with the Rattle kit")


@contextlib.contextmanager
def changed(top, changes):
    """A changed copy of the repository. A change is a file, a text that is in it once, and the text in its place."""
    need_kit()
    with tempfile.TemporaryDirectory(prefix="changed-") as folder:
        copy = pathlib.Path(folder) / "copy"
        shutil.copytree(top, copy, ignore=shutil.ignore_patterns("out", ".git", "__pycache__"))
        for name, old, new in changes:
            text = (copy / name).read_text(encoding="utf-8")
            if text.count(old) != 1:
                raise NotBuilt(f"{name}: '{old}' is not in it once")
            (copy / name).write_text(text.replace(old, new), encoding="utf-8")
        yield copy


def build_changed(top, changes, crate, program, say=lambda stage: None):
    """Builds a crate's program in a changed copy of the repository, without any proof."""
    with changed(top, changes) as copy:
        build_unproved(copy / "crates" / crate, program, say)


def run(words):
    done = subprocess.run([str(word) for word in words], capture_output=True, text=True, errors="replace", check=False)
    if done.returncode:
        how = f"status {done.returncode}" if done.returncode > 0 else f"ended by signal {-done.returncode}"
        said = (done.stdout + done.stderr).strip()[-3000:] or "it said nothing. Is there memory and room on the disk?"
        raise NotBuilt(f"{words[0]} failed, {how}:\n{said}\nCall it again: nothing is left half built")


def plain_text(compiler, room):
    """The kept module as text, without its checks."""
    text = room / "module.ll"
    run([compiler, f"--target={TARGET}", "--no-default-config", "-x", "ir", room / "module.bc", "-S", "-emit-llvm", "-O0",
         "-Xclang", "-disable-llvm-passes", "-o", text])
    return without_checks(text.read_text())


def build_unproved(crate, program, say=lambda stage: None):
    """Builds the program of the crate's folder without any proof. It says each stage as it begins."""
    kit = kit_folder()
    with tempfile.TemporaryDirectory(prefix="unproved-") as folder:
        room = pathlib.Path(folder)
        say("is compiled by rt try")
        flags = kept_module(kit, crate, room, "--", "--version")
        compiler, text, plain = kit / "toolchain" / "bin" / "clang", room / "plain.ll", room / "plain.o"
        say("loses its run-time checks")
        text.write_text(plain_text(compiler, room))
        say("is optimized")
        run([compiler, *optimized(flags, text, plain)])
        say("is linked")
        run([kit / "bin" / "rattle-link", "--target", TARGET, "--toolchain", kit / "toolchain", "-o", program, plain,
             kit / "c" / "libos_c.a", kit / "c" / "liblibc_c.a"])


class Library:
    """A library of a crate: its calls for C, the file that they are in, and a test that calls each."""

    def __init__(self, crate, file, test, needs, mark):
        self.crate, self.file, self.test = crate, file, test
        self.needs = needs  # the names that the library may ask of others
        self.mark = mark  # a text that every program with the library has

    def calls(self, top):
        return re.findall(r'extern "C" fn (\w+)', (top / self.file).read_text(encoding="utf-8"))


def with_calls(text, library, calls):
    """The module in which the calls have their names for C, nothing else has a name, and the mark is."""
    module = library.file.removeprefix("crates/").removesuffix(".rt").replace("/src/", "::").replace("/", "::")
    for name in calls:
        here = f'@"{module}::{name}"'
        text, found = re.subn(rf"^define internal ([^@\n]*){re.escape(here)}", rf"define \1@{name}", text, flags=re.M)
        if found != 1:
            raise NotBuilt(f"rt try compiled {name} in a form that is not known here")
        text = text.replace(here, f"@{name}")
    text = re.sub(r"^define (?:dso_local )?((?:noundef )?i32 @)main\(", r"define internal \1unused_main(", text, flags=re.M)
    size, mark = len(library.mark) + 1, library.mark
    return text + (f'\n@g1_unproved = constant [{size} x i8] c"{mark}\\00"\n'
                   "@llvm.used = appending global [1 x ptr] [ptr @g1_unproved]\n")


def names_in(kit, made, which):
    """The names that an object has for others, or asks of them."""
    done = subprocess.run(["llvm-nm", "--extern-only", "--just-symbol-name", which, made], executable=kit / "toolchain/bin/clang",
                          capture_output=True, text=True, check=True)
    return set(done.stdout.split())


def build_library(top, library, made, say=lambda stage: None):
    """Builds the object of a library without any proof."""
    kit, calls = kit_folder(), library.calls(top)
    source = (top / library.file).read_text(encoding="utf-8")
    missing = [name for name in calls if f"{name}(" not in library.test]
    if missing:
        raise NotBuilt(f"its test does not call {', '.join(missing)}")
    with tempfile.TemporaryDirectory(prefix="unproved-") as folder, \
            changed(top, [(library.file, source, source + library.test)]) as copy:
        room = pathlib.Path(folder)
        say("is compiled by rt try")
        flags = kept_module(kit, copy / "crates" / library.crate, room, "--test")
        compiler, text = kit / "toolchain" / "bin" / "clang", room / "plain.ll"
        say("loses its run-time checks")
        text.write_text(with_calls(plain_text(compiler, room), library, calls))
        say("is optimized")
        run([compiler, *optimized(flags, text, made)])
    for what, names, wanted in (("has", names_in(kit, made, "--defined-only"), {*calls, "g1_unproved"}),
                                ("asks for", names_in(kit, made, "--undefined-only"), library.needs)):
        if not names <= wanted:
            raise NotBuilt(f"the library {what} {', '.join(sorted(names - wanted))}")
