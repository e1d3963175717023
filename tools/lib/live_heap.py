"""A heap for Python programs that lives in `g1heap trace --live`: a module of examples/programs/live.py.

It has the calls of traced.Heap, but no store of its own: each object, slot and data word is in the heap at the other end of
a pipe. A `Ref` has a root there. The heap pauses when a part of it was allocated, as long as regions are free into which
survivors can go; and if the reply to `new` is `full`, it pauses and asks again.
"""
import subprocess

MASK = 2**64 - 1
ALL = 2**64 - 1  # a budget for all regions that have garbage
NULL = 0  # this root is always null: `same` with it says whether another one is


class Full(Exception):
    """The heap has no place for an object, not even after a pause."""


class Ref:
    """An object that the program holds by a root of its own."""

    __slots__ = ("heap", "root")

    def __init__(self, heap, root):
        self.heap, self.root = heap, root

    def __del__(self):
        self.heap.drop(self.root)


class Heap:
    def __init__(self, g1heap, words, card, regions, roots):
        self.every = words * regions // 4  # so many words are allocated between two pauses
        self.words = 0
        self.free = list(range(roots - 1, NULL, -1))
        self.commands = self.objects = self.pauses = 0
        self.is_open = True
        self.child = subprocess.Popen([g1heap, "trace", "--live"], stdin=subprocess.PIPE, stdout=subprocess.PIPE)
        self.write(f"heap {words} {card} {regions} {roots}")

    def write(self, line):
        self.child.stdin.write(line.encode() + b"\n")
        self.child.stdin.flush()

    def ask(self, line):
        """Writes a command and reads its reply."""
        self.write(line)
        self.commands += 1
        reply = self.child.stdout.readline()
        if not reply.endswith(b"\n"):
            raise SystemExit(f"live_heap.py: no reply to {line}")
        return reply[:-1].decode()

    def do(self, line):
        reply = self.ask(line)
        if reply != "ok":
            raise SystemExit(f"live_heap.py: {line} -> {reply}")

    def end(self):
        """No root is dropped from here on, and the heap goes away."""
        self.is_open = False
        self.child.stdin.close()
        self.child.stdout.close()
        return self.child.wait()

    def drop(self, root):
        if self.is_open:
            self.do(f"drop {root}")
            self.free.append(root)

    def pause(self):
        """Collects all that has garbage, or as much of it as finds room for its survivors."""
        self.words, budget = 0, ALL
        self.pauses += 1
        while self.ask(f"pause {budget}") == "room" and budget:
            budget = min(budget // 2, 8 * 2**24)

    def new(self, slots, data):
        self.words += 1 + slots + data
        if self.words > self.every:
            self.pause()
        line = f"new {self.free[-1]} {slots} {data}"
        reply = self.ask(line)
        if reply == "full":
            self.pause()
            reply = self.ask(line)
        if reply != "ok":
            raise Full(f"{line} -> {reply}")
        self.objects += 1
        return Ref(self, self.free.pop())

    def get(self, ref, slot):
        root = self.free.pop()
        self.do(f"get {root} {ref.root} {slot}")
        if self.ask(f"same {root} {NULL}") == "1":
            self.free.append(root)
            return None
        return Ref(self, root)

    def put(self, ref, slot, value):
        self.do(f"put {ref.root} {slot} {NULL if value is None else value.root}")

    def set(self, ref, word, value):
        self.do(f"set {ref.root} {word} {value & MASK}")

    def say(self, ref, word):
        return int(self.ask(f"say {ref.root} {word}"))

    def same(self, ref, other):
        return self.ask(f"same {ref.root} {other.root}") == "1"
