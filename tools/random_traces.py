#!/usr/bin/env python3
"""random_traces.py PROGRAM [--seed N] [--count 2000]

Makes random traces with pauses at random places, and compares what `PROGRAM run` replies with a plain store that never
moves or frees an object. Each trace is run with 1 and with 8 workers, and once more without its pauses: if that meets
no `full`, all other replies have to be the same. `full` and `room` are the program's to say; the store takes them as
they are. The last line is 'N passed, M failed'; the line before says what the traces met, and what they never met counts
as failed.
"""
import argparse
import collections
import pathlib
import random
import subprocess
import sys

sys.path.insert(0, str(pathlib.Path(__file__).resolve().parent / "lib"))

import progress  # noqa: E402
from programs import add_program  # noqa: E402

EVERYTHING = 2**64 - 1


class Store:
    """Objects with slots and data words, and the roots that name them."""

    def __init__(self, roots):
        self.roots = [None] * roots

    def reply(self, words, told):
        name, numbers = words[0], [int(word) for word in words[1:]]
        if name == "pause":
            return told if told in ("ok", "room") else "ok"
        named = {"new": 1, "get": 2, "put": 1, "set": 1, "say": 1, "same": 2, "copy": 2, "drop": 1}[name]
        others = numbers[:named] + (numbers[2:] if name == "put" else [])
        if any(root >= len(self.roots) for root in others):
            return "range"
        return getattr(self, name)(told, *numbers)

    def new(self, told, root, refs, data):
        if told == "full":
            return told
        self.roots[root] = ([None] * refs, [0] * data)
        return "ok"

    def place(self, root, part, number):
        """Why there is no such slot (part 0) or data word (part 1), or None."""
        if self.roots[root] is None:
            return "null"
        return None if number < len(self.roots[root][part]) else "range"

    def get(self, _told, root, other, slot):
        fault = self.place(other, 0, slot)
        if not fault:
            self.roots[root] = self.roots[other][0][slot]
        return fault or "ok"

    def put(self, _told, root, slot, other):
        fault = self.place(root, 0, slot)
        if not fault:
            self.roots[root][0][slot] = self.roots[other]
        return fault or "ok"

    def set(self, _told, root, word, value):
        fault = self.place(root, 1, word)
        if not fault:
            self.roots[root][1][word] = value
        return fault or "ok"

    def say(self, _told, root, word):
        return self.place(root, 1, word) or str(self.roots[root][1][word])

    def same(self, _told, root, other):
        return "1" if self.roots[root] is self.roots[other] else "0"

    def copy(self, _told, root, other):
        self.roots[root] = self.roots[other]
        return "ok"

    def drop(self, _told, root):
        self.roots[root] = None
        return "ok"

    def has_cycle(self):
        """Whether an object that the roots lead to leads to itself."""
        state, stack = {}, [(root, False) for root in self.roots if root]
        while stack:
            item, left = stack.pop()
            if left:
                state[id(item)] = "left"
            elif id(item) not in state:
                state[id(item)] = "open"
                stack.append((item, True))
                for target in filter(None, item[0]):
                    if state.get(id(target)) == "open":
                        return True
                    stack.append((target, False))
        return False


class Maker:
    """Makes a trace, with a store beside it that meets no `full`, so that most commands find an object."""

    def __init__(self, dice):
        self.dice = dice
        self.w = 2 ** dice.randrange(4, 8)
        self.k = 2 ** dice.randrange(2, 5)
        self.n = dice.randrange(2, 14)
        self.count = dice.randrange(1, 9)
        self.store = Store(self.count)
        self.heavy = dice.random() < 0.3  # more memory is asked for than kept

    def root(self):
        return self.count + self.dice.randrange(2) if self.dice.random() < 0.01 else self.dice.randrange(self.count)

    def full_root(self):
        named = [root for root, item in enumerate(self.store.roots) if item]
        return self.dice.choice(named) if named and self.dice.random() < 0.95 else self.root()

    def place(self, root, part):
        item = self.store.roots[root] if root < self.count else None
        length = len(item[part]) if item else 0
        return self.dice.randrange(length) if length and self.dice.random() < 0.97 else length + self.dice.randrange(2)

    def new(self):
        refs = self.dice.randrange(5)
        data = self.dice.randrange(self.w // 3)
        if self.dice.random() < 0.06:
            data = self.dice.randrange(self.w // 2, 3 * self.w)
        if self.dice.random() < 0.002:
            refs, data = self.dice.choice([(EVERYTHING, EVERYTHING), (0, self.n * self.w), (2**32, 1)])
        return ["new", self.root(), refs, data]

    def line(self):
        name = self.dice.choices(
            ["new", "get", "put", "set", "say", "same", "copy", "drop", "pause"],
            [14 if self.heavy else 7, 10, 12, 8, 8, 5, 5, 9 if self.heavy else 5, 4])[0]
        root = self.full_root()
        if name == "new":
            return self.new()
        if name == "get":
            return [name, self.root(), root, self.place(root, 0)]
        if name == "put":
            return [name, root, self.place(root, 0), self.root()]
        if name == "set":
            return [name, root, self.place(root, 1), self.dice.choice([0, 1, self.dice.randrange(2**64), EVERYTHING])]
        if name == "say":
            return [name, root, self.place(root, 1)]
        if name in ("same", "copy"):
            return [name, self.root(), self.root()]
        if name == "drop":
            return [name, root]
        return [name, self.dice.choice([0, self.dice.randrange(400), 4000, EVERYTHING])]

    def trace(self):
        lines = []
        for _ in range(self.dice.randrange(20, 250)):
            line = [str(word) for word in self.line()]
            huge = line[0] == "new" and int(line[2]) + int(line[3]) >= self.n * self.w
            self.store.reply(line, "full" if huge else "ok")
            lines.append(line)
        return f"heap {self.w} {self.k} {self.n} {self.count}", lines


class Tries:
    def __init__(self, program):
        self.program = program
        self.passed = self.failed = 0
        self.met = collections.Counter()

    def run(self, head, lines, options):
        text = "\n".join([head, *(" ".join(line) for line in lines)]) + "\n"
        done = subprocess.run([self.program, "run", *options], input=text.encode(), capture_output=True, timeout=60)
        if done.returncode != 0 or done.stderr:
            return [f"status {done.returncode}", done.stderr.decode(errors="replace")]
        return done.stdout.decode().split("\n")[:-1]

    def count(self, head, lines, told, store, cycles):
        w, _k, n, _roots = (int(word) for word in head.split()[1:])
        words = 0
        for line, reply in zip(lines, told):
            self.met[line[0]] += 1
            self.met["number" if reply.isdigit() else reply] += 1
            if line[0] == "new" and reply == "ok":
                size = 1 + int(line[2]) + int(line[3])
                words += size
                self.met["humongous"] += 4 * size > 3 * w
        self.met["trace that reuses a region"] += words > n * w
        self.met["trace with a cycle"] += cycles or store.has_cycle()

    def follows(self, head, lines, told):
        """Whether the replies are those of a plain store that takes each `full` and `room` as it is."""
        if len(told) != len(lines):
            return False
        store, cycles = Store(int(head.split()[4])), False
        for line, reply in zip(lines, told):
            if store.reply(line, reply) != reply:
                return False
            cycles = cycles or (line[0] == "pause" and store.has_cycle())
        self.count(head, lines, told, store, cycles)
        return True

    def judge(self, number, dice):
        head, lines = Maker(dice).trace()
        costs = dice.choice([[], ["--fixed", "3", "--dirty", "0", "--card", "7", "--byte", "2"], ["--byte", "0"]])
        told = self.run(head, lines, costs)
        good = self.follows(head, lines, told)
        good = good and self.run(head, lines, [*costs, "--workers", "8", "--chunk", dice.choice(["1", "3", "64"])]) == told
        later = [line for line in lines if line[0] != "pause"]
        without = self.run(head, later, costs)
        if good and "full" not in without and "full" not in told:
            self.met["trace run again without its pauses"] += 1
            good = without == [reply for line, reply in zip(lines, told) if line[0] != "pause"]
        self.passed += good
        self.failed += not good
        if not good:
            print(f"failed: trace {number}\n{head}")
            print("\n".join(" ".join(line) for line in lines))


WANTED = ["new", "get", "put", "set", "say", "same", "copy", "drop", "pause", "ok", "range", "null", "full", "room", "number",
          "humongous", "trace that reuses a region", "trace with a cycle", "trace run again without its pauses"]


def main():
    parser = argparse.ArgumentParser(description=__doc__, formatter_class=argparse.RawDescriptionHelpFormatter)
    add_program(parser, "program", "g1pause")
    parser.add_argument("--seed", type=int, default=1, metavar="N")
    parser.add_argument("--count", type=int, default=2000, metavar="N")
    options = parser.parse_args()
    tries = Tries(options.program)
    for number in progress.over(range(options.count), "traces"):
        tries.judge(number, random.Random(f"{options.seed} {number}"))
    print("met: " + ", ".join(f"{what} {tries.met[what]}" for what in WANTED))
    missed = [what for what in WANTED if tries.met[what] == 0]
    for what in missed:
        print(f"never met: {what}")
    failed = tries.failed + len(missed)
    print(f"{tries.passed} passed, {failed} failed")
    sys.exit(failed > 0)


if __name__ == "__main__":
    main()
