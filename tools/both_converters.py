#!/usr/bin/env python3
"""both_converters.py [G1HEAP] [--random N] [--seed S] [DUMP ..]

Compares `g1heap convert` with tools/hprof2image.py: image, names and status, byte by byte. N random dumps (200) have
all types of fields and arrays, and are converted with random options. Of the first of them each beginning is refused,
too, and each byte of its first thousand is changed. Of each DUMP that is named the whole is compared.

The last line is 'N passed, M failed'.
"""
import argparse
import io
import pathlib
import random
import subprocess
import sys
import tempfile
import unittest.mock

sys.path[:0] = [str(pathlib.Path(__file__).resolve().parent), str(pathlib.Path(__file__).resolve().parent / "lib")]

import hprof2image  # noqa: E402
import progress  # noqa: E402
from hprof import Refusal  # noqa: E402
from programs import add_program  # noqa: E402
from random_dumps import RandomDump  # noqa: E402

SIZES = ((), (), (16, 4, 4096), (64, 8, 512), (16, 16, 40), (4096, 64, 8))


class Room:
    """A folder in which both converters work on one dump."""

    def __init__(self, program, folder):
        self.program, self.folder = program, pathlib.Path(folder)
        self.passed = self.failed = 0

    def path(self, name):
        return self.folder / name

    def script(self, dump, words, sizes):
        """The status, the image and the names of the script."""
        names = self.path("script.names")
        line = ["hprof2image", *words, "--names", str(names), str(dump), *map(str, sizes)]
        with unittest.mock.patch.object(sys, "argv", line):
            options = hprof2image.arguments()
        image = io.BytesIO()
        try:
            hprof2image.convert(options, image, io.StringIO())
        except Refusal as refusal:
            return refusal.status, b"", b""
        return 0, image.getvalue(), names.read_bytes()

    def built(self, dump, words, sizes):
        """The same of the program. A refusal is one line, and no file is there then."""
        names, image = self.path("built.names"), self.path("built.img")
        for path in (names, image):
            path.unlink(missing_ok=True)
        wanted = ["--sizes", ",".join(map(str, sizes))] if sizes else []
        line = [self.program, "convert", *words, *wanted, "--names", names, "-o", image, dump]
        done = subprocess.run([str(word) for word in line], capture_output=True, timeout=600, check=False)
        if done.returncode == 0:
            return 0, image.read_bytes(), names.read_bytes()
        is_good = done.stdout == b"" and done.stderr.count(b"\n") == 1 and not names.exists() and not image.exists()
        return (done.returncode if is_good else -1), b"", b""

    def compare(self, what, dump, words=(), sizes=(), is_like=None):
        """Counts whether both say the same."""
        expected, found = self.script(dump, words, sizes), self.built(dump, words, sizes)
        if found == expected or is_like is not None and is_like(expected, found):
            self.passed += 1
            return
        self.failed += 1
        parts = ("status", "image", "names")
        other = ", ".join(part for part, wanted, is_there in zip(parts, expected, found) if wanted != is_there)
        print(f"{what} {' '.join(words)} {sizes}: other {other}: status {expected[0]} of hprof2image.py, {found[0]} of "
              f"g1heap convert")


def random_words(chance, starts):
    words = ["--blank"] if chance.random() < 0.2 else []
    if chance.random() < 0.3:
        return words
    for start in chance.sample(starts, chance.randrange(1, len(starts) + 1)):
        words += ["--from", start]
    words += ["--weak"] if chance.random() < 0.4 else []
    words += ["--dangling-null"] if chance.random() < 0.8 else []
    words += ["--without", "java.lang.ref.Reference.queue"] if chance.random() < 0.3 else []
    return words


def both_refuse(expected, found):
    return expected[0] > 0 and found[0] > 0


def compare_random(room, count, seed):
    for i in range(seed, seed + count):
        dump, chance = RandomDump(i), random.Random(i)
        room.path("dump").write_bytes(dump.bytes)
        room.compare(f"random dump {i}:", room.path("dump"), random_words(chance, dump.starts), chance.choice(SIZES))


def compare_broken(room, seed):
    """Each beginning of a dump, and each change of a byte. If that breaks two rules, each may report another."""
    dump = next(dump for dump in map(RandomDump, range(seed, seed + 100)) if 1 < len(dump.objects) < 10)
    words = ["--dangling-null", "--from", dump.starts[0]]
    for length in range(len(dump.bytes)):
        room.path("dump").write_bytes(dump.bytes[:length])
        room.compare(f"the first {length} bytes:", room.path("dump"), words)
    for at in range(min(1000, len(dump.bytes))):
        other = bytearray(dump.bytes)
        other[at] ^= random.Random(at).choice((1, 0x80, 0xFF))
        room.path("dump").write_bytes(other)
        room.compare(f"byte {at} changed:", room.path("dump"), words, is_like=both_refuse)


def main():
    parser = argparse.ArgumentParser(description=__doc__, formatter_class=argparse.RawDescriptionHelpFormatter)
    add_program(parser, "g1heap")
    parser.add_argument("dumps", metavar="DUMP", nargs="*", help="a dump, which is compared as a whole")
    parser.add_argument("--from", dest="start", metavar="CLASS.FIELD", help="of a DUMP, what hangs from this field")
    parser.add_argument("--random", metavar="N", type=int, default=200, help="random dumps (default: 200)")
    parser.add_argument("--seed", metavar="S", type=int, default=1, help="the first of the random dumps (default: 1)")
    options = parser.parse_args()
    with tempfile.TemporaryDirectory(prefix="converters-") as folder:
        room = Room(options.g1heap, folder)
        progress.show("compared", lambda: room.passed)
        for dump in options.dumps:
            room.compare(dump, dump, ["--from", options.start] if options.start else [])
        compare_random(room, options.random, options.seed)
        if options.random:
            compare_broken(room, options.seed)
    print(f"{room.passed} passed, {room.failed} failed")
    return 1 if room.failed else 0


if __name__ == "__main__":
    sys.exit(main())
