#!/usr/bin/env python3
"""Makes libg1judge.a, the judge as a static library: build_judge.py [--unproved] [--jobs N] [FOLDER]

  build_judge.py             proves the crate g1judge and all crates below it, and compiles them
  build_judge.py --unproved  compiles them without any proof, at full speed, in two minutes

Beside the compiled calls it puts judge/memory.c into the archive, the three functions by which they get their memory.
The archive goes to FOLDER (judge/out), with g1judge.pc, which says to pkg-config where it and the headers are. $CC, $CFLAGS and $AR are the C compiler, its flags and the archiver (cc, -O2, ar).
The last line says how many bytes the archive has.

In an archive without a proof, and in each program that is linked with it, `strings` finds
'libg1judge: nothing is proved of it'. tools/release.py refuses it. Its calls are the same, and so is g1_version().

While it works, a line every few seconds says what it does and for how long, in place on a terminal. While it proves, the
screen also has a line for each crate, and what the prover says goes to out/build.log. It may be interrupted: what is
proved is kept, and the next call goes on from there. Libraries that `rt ci` has proved on this machine, of the same files
and by the same kit, are taken from what it kept.
With --no-rt it takes the archive that was last proved, from crates/g1judge/out.

It needs the Rattle kit: its command `rt` on the path. Statuses: 0 made; 1 not proved or not made; 2 usage, or no rt;
130 interrupted.
"""
import argparse
import itertools
import os
import pathlib
import re
import shlex
import shutil
import subprocess
import sys
import tempfile
import time

sys.path.insert(0, str(pathlib.Path(__file__).resolve().parent / "lib"))

import progress  # noqa: E402 (it is in lib/)
import proving  # noqa: E402
import stamp  # noqa: E402
import unproved  # noqa: E402

TOP = stamp.TOP
CRATE = TOP / "crates/g1judge"
LOG = TOP / "out" / proving.LOG
ARCHIVE, PC_FILE = "libg1judge.a", "g1judge.pc"
# Each call is called once, so that rt try compiles it. What it is called with does not matter.
TEST = """
#[test]
fn calls_each(rt: HostRuntime) {
    let mut answer = Answer { image: 0, fault: 0, place: 0, kind: 0, at: 0, root: 0, slots: 0, before: 0, after: 0, first: 0, second: 0, third: 0, objects: 0, words: 0 };
    let mut path = [0u64; 4];
    let bytes = [0u8; 4];
    let set = [0u32; 1];
    let (mut rule, mut length) = ([0u8; 4], 0u64);
    let _ = g1_version();
    let _ = g1_same(rt.alloc(), &bytes, &bytes, &mut path, &mut answer);
    let _ = g1_image(rt.alloc(), &bytes, &mut answer);
    let _ = g1_covered(rt.alloc(), &bytes, &mut answer);
    let _ = g1_broken(rt.alloc(), &bytes, &mut rule, &mut length, &mut answer);
    let _ = g1_kept(rt.alloc(), &bytes, &bytes, &set, &mut answer);
}
"""
MARK = "libg1judge: nothing is proved of it"
NEEDS = {"memcpy", "memmove", "memset", "rattle_alloc", "rattle_realloc", "rattle_dealloc"}
JUDGE = unproved.Library("g1judge", "crates/g1judge/src/exports.rt", TEST, NEEDS, MARK)


class Failed(Exception):
    """Why there is no archive."""


def say(text):
    print(text, flush=True)


def run(words):
    """Runs a command; if it fails, its own lines say why, and one more says which it was."""
    try:
        status = subprocess.run(words, cwd=TOP, check=False).returncode
    except OSError as error:
        raise Failed(f"{words[0]}: {error.strerror}") from None
    if status:
        raise Failed(f"{shlex.join(map(str, words))}: status {status}")


def memory_object(room):
    """The object of judge/memory.c."""
    made = room / "memory.o"
    flags = shlex.split(os.environ.get("CFLAGS", "-O2"))
    run([*shlex.split(os.environ.get("CC", "cc")), "-std=c11", "-fPIC", *flags, "-I", TOP / "include", "-c",
         TOP / "judge/memory.c", "-o", made])
    return made


def archive(room, *objects):
    run([*shlex.split(os.environ.get("AR", "ar")), "rcs", room / ARCHIVE, *objects])


def pkg_config(libraries, headers):
    """What pkg-config reads: where the library and the headers are. ${pcfiledir} is the folder of the file itself."""
    version = re.search(r"#define G1_VERSION (\d+)u", (TOP / "include/g1judge.h").read_text(encoding="utf-8"))
    return (f"libdir={libraries}\nincludedir={headers}\n\nName: g1judge\nDescription: the judge of heap images\n"
            f"Version: {version[1]}\nCflags: -I${{includedir}}\nLibs: -L${{libdir}} -lg1judge\n")


def proved_archive():
    """The archive that rt left, if there is one."""
    found = CRATE / "out" / ARCHIVE
    if not found.is_file():
        raise Failed(f"{found.relative_to(TOP)} is missing: call without --no-rt")
    return found


def prove(jobs):
    """Proves all crates of the judge. Then rt says in the crate itself that its archive is that of the sources."""
    names, counted = stamp.needed(["g1judge"], stamp.rows()), itertools.count(1)

    def proved(name, seconds):
        say(f"{next(counted):3} of {len(names)}  {name:12} {progress.in_words(seconds)}")

    LOG.parent.mkdir(exist_ok=True)
    say(f"proving {len(names)} crates; what the prover says is in out/build.log")
    taken = proving.take_kept(TOP, names)
    if taken:
        say(f"{taken} of them are libraries that rt ci proved on this machine, of the same files")
    proving.prove_all(TOP, names, jobs, proved)
    with open(LOG, "a", encoding="utf-8") as log, progress.doing("asking rt whether the archive is that of the sources"):
        done = subprocess.run(["rt", "lib"], cwd=CRATE, stdin=subprocess.DEVNULL, stdout=log, stderr=log, check=False)
    if done.returncode:
        raise Failed("g1judge is not proved: out/build.log says why, at its end")


def build(options, room):
    """Makes the archive in the room."""
    if options.unproved:
        say("building the judge without a proof, which takes two minutes")
        stage = ["begins"]
        with progress.doing("without a proof", lambda: f"g1judge {stage[0]}"):
            unproved.build_library(TOP, JUDGE, room / "judge.o", lambda text: stage.__setitem__(0, text))
        archive(room, room / "judge.o", memory_object(room))
        return
    if not options.no_rt:
        prove(options.jobs)
    shutil.copyfile(proved_archive(), room / ARCHIVE)
    archive(room, memory_object(room))


def arguments():
    parser = argparse.ArgumentParser(description=__doc__, formatter_class=argparse.RawDescriptionHelpFormatter)
    parser.add_argument("folder", metavar="FOLDER", nargs="?", type=pathlib.Path, default=TOP / "judge/out")
    parser.add_argument("--unproved", action="store_true", help="without any proof, in two minutes")
    parser.add_argument("--no-rt", action="store_true", help="take the archive that was last proved")
    parser.add_argument("--jobs", metavar="N", type=int, default=os.cpu_count() or 1,
                        help="at most N at a time (default: as many as there are processors)")
    options = parser.parse_args()
    if options.jobs < 1:
        parser.error("--jobs is 1 or more")
    if options.unproved and options.no_rt:
        parser.error("--no-rt takes a proved archive, so it does not go with --unproved")
    if not options.no_rt and not shutil.which("rt"):
        parser.error("there is no rt on the path: it comes with the Rattle kit, in its folder bin/")
    return options


def main():
    options, begun = arguments(), time.monotonic()
    try:
        with tempfile.TemporaryDirectory() as folder:
            build(options, pathlib.Path(folder))
            options.folder.mkdir(parents=True, exist_ok=True)
            made = options.folder / ARCHIVE
            new = made.with_name(f"{ARCHIVE}.new")
            shutil.copyfile(pathlib.Path(folder, ARCHIVE), new)
            os.replace(new, made)
            (options.folder / PC_FILE).write_text(pkg_config("${pcfiledir}", TOP / "include"), encoding="utf-8")
    except (Failed, proving.Failed, unproved.NotBuilt) as error:
        print(f"build_judge.py: {error}", file=sys.stderr)
        return 1
    except KeyboardInterrupt:
        print("build_judge.py: interrupted; what is proved is kept for the next call", file=sys.stderr)
        return 130
    took = progress.in_words(time.monotonic() - begun)
    proof = ", and nothing is proved of it: tools/build_judge.py proves it" if options.unproved else ""
    print(f"{made}: {made.stat().st_size} bytes, in {took}{proof}")
    return 0


if __name__ == "__main__":
    sys.exit(main())
