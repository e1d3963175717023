#!/usr/bin/env python3
"""live_traces.py G1PAUSE G1HEAP [--seed N] [--count 300]

Makes random traces with pauses at random places, and compares three replies to each: those of `G1PAUSE run`, those of
`G1HEAP trace`, and those of `G1HEAP trace --live` over a pipe, where each line is written only when the reply to the line
before has been read. Comments and empty lines between the lines change nothing, numbers of commands are right, and the image
after a random command is covered and is the one that the shorter trace ends in. A spoiled line is refused by its number, no
image is written then, and what a live trace replied before it stays. A live trace whose reader goes away ends at its next
reply, and says nothing.

The last line is 'N passed, M failed'.
"""
import argparse
import pathlib
import random
import subprocess
import sys
import tempfile

sys.path.insert(0, str(pathlib.Path(__file__).resolve().parent / "lib"))

import progress  # noqa: E402
from programs import add_program  # noqa: E402
from random_traces import Maker  # noqa: E402

SECONDS = 60
SPOILED = ("new 0 01 1", "new 0 1", "get 0 0 0 0", "frob 1", " drop 0", "drop 0 ", "pause 18446744073709551616", "heap 16 4 4 1")


def run(words, text):
    done = subprocess.run(words, input=text, capture_output=True, timeout=SECONDS, check=False)
    return done.returncode, done.stdout.decode().splitlines(), done.stderr.decode(errors="replace")


def live(g1heap, costs, lines):
    """The replies, each read before the next line is written."""
    with subprocess.Popen([g1heap, "trace", "--live", *costs], stdin=subprocess.PIPE, stdout=subprocess.PIPE) as child:
        replies = []
        for number, line in enumerate(lines):
            child.stdin.write(line.encode() + b"\n")
            child.stdin.flush()
            if number:
                replies.append(child.stdout.readline().decode().rstrip("\n"))
        child.stdin.close()
        rest = child.stdout.read()
        return child.wait(SECONDS), replies, rest


def left_alone(g1heap):
    """The status and the standard error of a live trace whose reader goes away after a reply. It never has the input's end."""
    with subprocess.Popen([g1heap, "trace", "--live"], stdin=subprocess.PIPE, stdout=subprocess.PIPE, stderr=subprocess.PIPE) as child:
        child.stdin.write(b"heap 16 4 4 1\nnew 0 0 1\n")
        child.stdin.flush()
        child.stdout.readline()
        child.stdout.close()
        child.stdin.write(b"drop 0\n")
        child.stdin.flush()
        try:
            return child.wait(SECONDS), child.stderr.read()
        except subprocess.TimeoutExpired:
            child.kill()
            return None, b""


def with_comments(lines, dice):
    for line in lines:
        while dice.random() < 0.2:
            yield dice.choice(["", "#", "# a comment", "#new 0 0 1"])
        yield line


class Tries:
    def __init__(self, g1pause, g1heap):
        self.g1pause, self.g1heap = g1pause, g1heap
        self.passed = self.failed = 0

    def judge(self, what, good, lines):
        self.passed += good
        self.failed += not good
        if not good:
            print(f"failed: {what}\n" + "\n".join(lines))

    def image(self, lines, costs, replies, dice):
        """The image after a command, against that of the trace which ends there."""
        number = dice.randrange(1, len(lines))
        with tempfile.TemporaryDirectory() as room:
            one, other = pathlib.Path(room) / "one.img", pathlib.Path(room) / "other.img"
            text = ("\n".join(lines) + "\n").encode()
            whole = run([self.g1heap, "trace", *costs, "--image", str(number), str(one)], text)
            short = ("\n".join(lines[:number + 1]) + "\n").encode()
            cut = run([self.g1heap, "trace", *costs, "--image", str(number), str(other)], short)
            if whole != (0, replies, "") or cut != (0, replies[:number], "") or one.read_bytes() != other.read_bytes():
                return False
            return run([self.g1pause, "check"], one.read_bytes()) == (0, ["covered"], "")

    def spoiled(self, lines, costs, replies, dice):
        at = dice.randrange(1, len(lines))
        text = ("\n".join([*lines[:at], dice.choice(SPOILED), *lines[at:]]) + "\n").encode()
        with tempfile.TemporaryDirectory() as room:
            status, out, errors = run([self.g1heap, "trace", *costs, "--image", "1", str(pathlib.Path(room) / "image")], text)
            if list(pathlib.Path(room).iterdir()):
                return False
        if (status, out) != (3, []) or not errors.startswith(f"g1heap: -: line {at + 1}: expected "):
            return False
        status, out, again = run([self.g1heap, "trace", "--live", *costs], text)
        return (status, out, again) == (3, replies[:at - 1], errors)

    def trace(self, dice):
        head, commands = Maker(dice).trace()
        lines = [head, *(" ".join(line) for line in commands)]
        costs = dice.choice([[], ["--fixed", "3", "--dirty", "0", "--card", "7", "--byte", "2"], ["--byte", "0"]])
        text = ("\n".join(lines) + "\n").encode()
        status, replies, errors = run([self.g1pause, "run", *costs], text)
        self.judge("g1pause run", (status, errors, len(replies)) == (0, "", len(commands)), lines)
        self.judge("trace", run([self.g1heap, "trace", *costs], text) == (0, replies, ""), lines)
        self.judge("live", live(self.g1heap, costs, lines) == (0, replies, b""), lines)
        commented = ("\n".join(with_comments(lines, dice)) + "\n").encode()
        numbered = [f"{number} {reply}" for number, reply in enumerate(replies, 1)]
        self.judge("numbered", run([self.g1heap, "trace", "--numbered", *costs], commented) == (0, numbered, ""), lines)
        self.judge("image", self.image(lines, costs, replies, dice), lines)
        self.judge("spoiled", self.spoiled(lines, costs, replies, dice), lines)


def main():
    parser = argparse.ArgumentParser(description=__doc__, formatter_class=argparse.RawDescriptionHelpFormatter)
    add_program(parser, "g1pause")
    add_program(parser, "g1heap")
    parser.add_argument("--seed", type=int, default=1)
    parser.add_argument("--count", type=int, default=300, help="how many traces (default: 300)")
    options = parser.parse_args()
    tries = Tries(options.g1pause, options.g1heap)
    tries.judge("a reader that goes away", left_alone(options.g1heap) == (141, b""), [])
    for number in progress.over(range(options.count), "traces"):
        tries.trace(random.Random(f"{options.seed} {number}"))
    print(f"{tries.passed} passed, {tries.failed} failed")
    return 1 if tries.failed or not tries.passed else 0


if __name__ == "__main__":
    sys.exit(main())
