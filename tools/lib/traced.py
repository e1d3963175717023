"""A heap for Python programs that writes a trace beside what it does. A module: tools/real_traces.py uses it.

A program makes objects by `Heap.new` and holds them as `Ref`s. Each `Ref` has a root of its own in the trace. When Python
lets go of the last reference to a `Ref`, the trace drops its root. So the roots are exactly what the program's locals, lists
and stacks hold, at each moment. A plain store beside the trace knows each reply.

    heap = Heap(words=256, card=64, regions=4096, roots=60000, pauses=Pauses(every=1000, seed=1))
    pair = heap.new(slots=2, data=1)
    heap.put(pair, 0, other)        # slot 0 references other, or nothing if other is None
    heap.get(pair, 0)               # what slot 0 references: a Ref or None
    heap.set(pair, 0, 7)            # data word 0 is 7
    heap.say(pair, 0)               # 7
    heap.same(pair, other)          # False
    heap.end()                      # roots that are let go from here on are no part of the trace
    heap.text(), heap.replies       # the trace as bytes; the reply to each line after the first
"""
import random

MASK = 2**64 - 1


class Ref:
    """An object that the program holds by a root of its own."""

    __slots__ = ("heap", "root", "cell")

    def __init__(self, heap, root, cell):
        self.heap, self.root, self.cell = heap, root, cell

    def __del__(self):
        self.heap.drop(self.root)


class Pauses:
    """When a heap pauses, and with which budget.

    A pause comes before the object with which `every` words are allocated since the last one. Its budget is drawn anew each
    time, from 2^6 to 2^top: a large one evacuates nearly all regions and reads no remembered set, and a small one moves no
    object, so that only budgets between them show whether remembered sets are right.
    """

    def __init__(self, every, seed, top=18):
        self.every, self.dice, self.top = every, random.Random(seed), top
        self.words = self.count = 0

    def due(self, words):
        self.words += words
        if self.words <= self.every:
            return False
        self.words = words
        self.count += 1
        return True

    def budget(self):
        return int(2 ** self.dice.uniform(6, self.top))


class Heap:
    def __init__(self, words, card, regions, roots, pauses):
        self.pauses = pauses
        self.lines = [f"heap {words} {card} {regions} {roots}"]
        self.replies = []
        self.free = list(range(roots - 1, -1, -1))
        self.roots = roots
        self.held = 0       # the most roots at one time
        self.objects = 0
        self.is_open = True

    def text(self):
        return ("\n".join(self.lines) + "\n").encode()

    def end(self):
        self.is_open = False

    def line(self, text, reply):
        self.lines.append(text)
        self.replies.append(reply)

    def take(self):
        if not self.free:
            raise SystemExit(f"traced.py: the program holds more than {self.roots} objects at one time")
        root = self.free.pop()
        self.held = max(self.held, self.roots - len(self.free))
        return root

    def drop(self, root):
        if self.is_open:
            self.line(f"drop {root}", "ok")
            self.free.append(root)

    def new(self, slots, data):
        if self.pauses.due(1 + slots + data):
            self.line(f"pause {self.pauses.budget()}", "ok")
        self.objects += 1
        root = self.take()
        self.line(f"new {root} {slots} {data}", "ok")
        return Ref(self, root, ([None] * slots, [0] * data))

    def get(self, ref, slot):
        cell = ref.cell[0][slot]
        root = self.take()
        self.line(f"get {root} {ref.root} {slot}", "ok")
        if cell is None:
            self.drop(root)
            return None
        return Ref(self, root, cell)

    def put(self, ref, slot, value):
        if value is None:
            root = self.take()      # a root that is null
            self.line(f"put {ref.root} {slot} {root}", "ok")
            self.free.append(root)
            ref.cell[0][slot] = None
        else:
            self.line(f"put {ref.root} {slot} {value.root}", "ok")
            ref.cell[0][slot] = value.cell

    def set(self, ref, word, value):
        self.line(f"set {ref.root} {word} {value & MASK}", "ok")
        ref.cell[1][word] = value & MASK

    def say(self, ref, word):
        value = ref.cell[1][word]
        self.line(f"say {ref.root} {word}", str(value))
        return value

    def same(self, ref, other):
        is_same = ref.cell is other.cell
        self.line(f"same {ref.root} {other.root}", "1" if is_same else "0")
        return is_same
