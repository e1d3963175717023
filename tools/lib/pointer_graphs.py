"""Graphs whose objects have pointers of their own: drawn, moved, with an error, as the lines that judge/test.c and g1heap
read, and laid out as images. For tools/test_judge.py."""
import re

from heap_image import CONTINUATION, FIRST, NULL, ORDINARY, Image


class Graph:
    """Objects by their pointers: slots, which are pointers or 0, and data words; and roots."""

    def __init__(self, rng, count, most_words=12):
        self.pointers = rng.sample(range(1, 1 << 48), count)
        count_of = lambda *usual: range(rng.choice((*usual, rng.randint(0, most_words))))
        self.slots = {p: [self.any(rng) for _ in count_of(0, 1, 2, 3)] for p in self.pointers}
        self.data = {p: [rng.choice((0, 1, rng.getrandbits(64))) for _ in count_of(0, 1)] for p in self.pointers}
        self.bytes = {p: self.cut(rng, p) for p in self.pointers}
        self.roots = [self.any(rng) for _ in range(rng.randint(0, 6))]

    def cut(self, rng, pointer):
        """How many bytes of data an object has: what is left of its last word is 0."""
        data, cut = self.data[pointer], rng.choice((0, rng.randrange(8)))
        if not data:
            return 0
        data[-1] &= (1 << 64 - 8 * cut) - 1
        return 8 * len(data) - cut

    def any(self, rng):
        return rng.choice(self.pointers) if self.pointers and rng.random() < 0.8 else NULL

    def size(self, pointer):
        return 1 + len(self.slots[pointer]) + len(self.data[pointer])

    def lines(self, rng, width, name, stale=False):
        """What judge/test.c reads, the objects in any order."""
        out = [f"image {width}", *(["stale"] if stale else []), *(f"root {p}" for p in self.roots)]
        for p in rng.sample(self.pointers, len(self.pointers)):
            words = [p, len(self.slots[p]), self.bytes[p], *self.slots[p], *self.data[p]]
            out.append(" ".join(map(str, ["object", *words])))
        return "\n".join([*out, f"end {name}\n"])

    def image(self, rng, width):
        """The same heap laid out by this script, in another order, with gaps and free regions: docs/IMAGE.md."""
        places, at, tops = {}, 0, {}
        for p in rng.sample(self.pointers, len(self.pointers)):
            size = self.size(p)
            if 4 * size > 3 * width:
                at += -at % width
                places[p] = at
                for r in range(-(-size // width)):
                    tops[at // width + r] = (CONTINUATION if r else FIRST, min(width, size - r * width))
                at += -(-size // width) * width
                continue
            if at % width + size > width or (at % width and rng.random() < 0.05):
                at += -at % width + width * (rng.random() < 0.1)
            places[p] = at
            at += size
            tops[places[p] // width] = (ORDINARY, (at - 1) % width + 1)
        image = Image(width, min(width, 16), at // width + 2)
        for r, (kind, top) in tops.items():
            image.kinds[r], image.tops[r] = kind, top
        word = lambda p: places[p] + 1 if p else 0
        for p, place in places.items():
            body = [self.size(p) << 32 | len(self.slots[p]), *map(word, self.slots[p]), *self.data[p]]
            image.words[place:place + len(body)] = body
        image.roots = [word(p) for p in self.roots]
        return image


ERRORS = ("none", "roots", "null before", "null after", "split", "joined", "size", "slots", "data", "stale root", "stale slot")

def plant(rng, graph, p, error):
    """What has to be so before an error at object p, and a change that makes it."""
    slots, data, copy = graph.slots[p], graph.data[p], max(graph.pointers) + 1
    if error in ("null before", "null after", "split", "joined"):
        slots += [p, p]

    def twin():
        graph.pointers.append(copy)
        graph.slots[copy], graph.data[copy] = slots[:], data[:]

    def change():
        if error == "roots":
            graph.roots.append(p)
        elif error in ("null before", "null after"):
            slots[-1] = p if error == "null before" else NULL
        elif error == "split":
            twin()
            slots[-1] = copy
        elif error == "joined":
            graph.pointers.remove(copy)
            slots[-1] = p
        elif error == "size":
            data.append(rng.getrandbits(64))
        elif error == "slots":
            slots.append(data.pop() and NULL)
        elif error == "data":
            data[rng.randrange(len(data))] ^= 1 << rng.randrange(64)

    if error == "null before":
        slots[-1] = NULL
    if error == "joined":
        twin()
        slots[-1] = copy
    if error in ("slots", "data"):
        data.append(rng.getrandbits(64))
    return change


def pair(rng, count, error):
    """Two images of one graph, or with an error of the second at an object that its roots reach, deep in it if it can be."""
    graph = Graph(rng, count, most_words=6)
    chain = rng.sample(graph.pointers, rng.randint(1, len(graph.pointers)))
    for p, q in zip(chain, chain[1:]):
        graph.slots[p].insert(rng.randint(0, len(graph.slots[p])), q)
    graph.roots.insert(rng.randint(0, len(graph.roots)), chain[0])
    change = plant(rng, graph, chain[-1], error)
    before = graph.image(rng, 64)
    change()
    after = graph.image(rng, 64)
    if error == "stale root":
        after.roots[-1] = len(after.words) + 1
    if error == "stale slot":
        slots = [slot for address in after.objects() for slot in after.slots(address)]
        if slots:
            after.words[rng.choice(slots)] = len(after.words) + 1
    return before.to_bytes(), after.to_bytes()


def live(graph):
    """How many objects and words the roots reach."""
    found = list(dict.fromkeys(p for p in graph.roots if p))
    seen = set(found)
    for p in found:
        for q in graph.slots[p]:
            if q and q not in seen:
                seen.add(q)
                found.append(q)
    return len(found), sum(graph.size(p) for p in found)


def moved(rng, graph, stay):
    """The graph with other pointers for its objects, except for some."""
    new = {p: p if rng.random() < stay else rng.randrange(1 << 48, 1 << 49) for p in graph.pointers}
    graph.pointers = [new[p] for p in graph.pointers]
    graph.slots = {new[p]: [new.get(q, q) for q in slots] for p, slots in graph.slots.items() if p in new}
    graph.data = {new[p]: data for p, data in graph.data.items() if p in new}
    graph.roots = [new.get(p, p) for p in graph.roots]


def graph_lines(graph):
    """The graph as lines of objects by name, which are its pointers."""
    name = lambda p: f"{p:#x}" if p else "-"
    out = ["graph", *(f"root {name(p)}" for p in graph.roots)]
    for p in graph.pointers:
        out.append(" ".join(["object", name(p), f"{graph.size(p)}/{len(graph.slots[p])}", *map(name, graph.slots[p]), *map(str, graph.data[p])]))
    return "\n".join(out) + "\n"


def told_pair(rng, error):
    """Two graphs, each as lines of the writer and as lines by name, the second moved and with an error."""
    graph = Graph(rng, rng.choice((3, 10, 40)), most_words=6)
    chain = rng.sample(graph.pointers, rng.randint(1, len(graph.pointers)))
    for p, q in zip(chain, chain[1:]):
        graph.slots[p].insert(rng.randint(0, len(graph.slots[p])), q)
    graph.roots.insert(rng.randint(0, len(graph.roots)), chain[0])
    change = plant(rng, graph, chain[-1], error)
    texts = []
    for is_after in (False, True):
        if is_after:
            change()
            old = {p: list(slots) for p, slots in graph.slots.items()}, list(graph.roots), list(graph.pointers)
            moved(rng, graph, 0.3)
            make_stale(rng, graph, error, *old)
        graph.bytes = {p: 8 * len(graph.data[p]) for p in graph.pointers}
        texts.append((graph.lines(rng, 64, "-", stale=is_after), graph_lines(graph)))
    return texts


def make_stale(rng, graph, error, slots, roots, pointers):
    """Leaves a root or a slot as it was before all moved, or writes a pointer that never was one."""
    if error == "stale root":
        graph.roots[-1] = rng.choice((roots[-1], 3))
    if error == "stale slot":
        p, now = rng.choice([pair_ for pair_ in zip(pointers, graph.pointers)])
        if slots[p]:
            at = rng.randrange(len(slots[p]))
            graph.slots[now][at] = rng.choice((slots[p][at], 3))


def is_map(graph, image, line):
    """Whether the pointers at the addresses of an image are those of its objects, word for word."""
    found = re.fullmatch(r"length \d+ stale 0 at((?: \d+ \d+)*)", line)
    if not found:
        return False
    told = [int(number) for number in found[1].split()]
    pointers = dict(zip(told[::2], told[1::2]))
    back = {p: at for at, p in pointers.items()}
    if set(pointers) != set(image.objects()) or set(back) != set(graph.pointers):
        return False
    word = lambda p: back[p] + 1 if p else 0
    return image.roots == [word(p) for p in graph.roots] and all(
        [image.words[q] for q in image.slots(at)] == [word(q) for q in graph.slots[p]]
        and [image.words[q] for q in image.content(at)] == graph.data[p] for at, p in pointers.items())
