"""python3 cpython.py FOLDER DEPTH: writes the heap below `judged` before and after collections of CPython, and with errors
in it.

A file has lines of objects by name, and a name is the object's address (id). Slots are elements, pairs, attributes and
cells. CPython counts references, and its collector only frees cycles: nothing moves. So the program reports how many
objects were freed, and allocates as many before it walks: an object that was freed wrongly is overwritten then.
"""
import ctypes
import gc
import sys

FOLDER, DEPTH = sys.argv[1], int(sys.argv[2])
LEAVES = (int, float, complex, str, bytes, bytearray, type(None), type(gc.collect))
ROUNDS = 20_000


def text(value):
    """A value as one quoted word."""
    return '"' + "".join(c if "!" <= c <= "~" and c != "\\" else f"\\u{ord(c):x};" for c in str(value)) + '"'


def parts(value):
    """The names of the slots, the values in them, and more data by its name."""
    if isinstance(value, type):
        return [], [], {"name": text(value.__qualname__)}
    if isinstance(value, LEAVES):
        return [], [], {"value": text(repr(value))}
    if isinstance(value, (list, tuple, set, frozenset)):
        return ["[]"], list(value), {}
    if isinstance(value, dict):
        return ["pairs[]"], [each for pair in value.items() for each in pair], {}
    if hasattr(value, "__slots__"):
        return list(value.__slots__), [getattr(value, name) for name in value.__slots__], {}
    if hasattr(value, "__closure__"):
        return ["cells[]"], list(value.__closure__ or ()), {"code": text(value.__qualname__)}
    if hasattr(value, "cell_contents"):
        return ["content"], [value.cell_contents], {}
    return ["variables"], [vars(value)], {}


def write(step):
    """Writes the heap, and the map of its names."""
    lines, types, queue, known = ["graph", f"root {id(judged)} as judged"], {}, [judged], {id(judged)}
    for value in queue:
        kind = type(value).__name__
        names, values, data = parts(value)
        types[kind] = " ".join(["type", kind, "slots", *names, "data class", *data]) + f"\nlabel {text(kind)} {kind}\n"
        words = [*map(str, map(id, values)), text(kind), *data.values()]
        lines.append(f"object {id(value)} {1 + len(words)}/{len(values)} {' '.join(words)}")
        queue += {id(target): target for target in values if id(target) not in known}.values()
        known.update(map(id, values))
    with open(f"{FOLDER}/{step}.txt", "w", encoding="ascii") as file:
        file.write("\n".join(lines) + "\n")
    with open(f"{FOLDER}/names", "w", encoding="ascii") as file:
        file.writelines(types.values())


class Node:
    __slots__ = ("key", "left", "right", "name", "weight")

    def __init__(self, key):
        self.key, self.left, self.right, self.name, self.weight = key, None, None, f"node {key}", key / 3


class Judged:
    __slots__ = ("root", "by_name", "big", "next", "self")

    def __init__(self, root, nodes):
        count = 41
        self.root, self.by_name, self.big = root, {node.name: node for node in nodes}, 3**200
        self.next, self.self = lambda: count + 1, self


def tree(depth, key, nodes):
    node = Node(key)
    nodes.append(node)
    if depth > 1:
        node.left, node.right = tree(depth - 1, 2 * key, nodes), tree(depth - 1, 2 * key + 1, nodes)
    return node


def cycles():
    """Objects that only reference themselves."""
    for node in map(Node, range(ROUNDS)):
        node.left = node


nodes = []
judged = Judged(tree(DEPTH, 1, nodes), nodes)
gc.disable()
gc.collect()
write("before")
print("before", flush=True)
for step, generation in (("young", 0), ("middle", 1), ("full", 2)):
    cycles()
    freed = gc.collect(generation)
    again = [Node(-i) for i in range(ROUNDS)]
    write(step)
    print(f"collection {step} {freed} freed", flush=True)


def plant(step, address, wrong, where):
    """Writes a word into memory, and the heap with it."""
    place = ctypes.c_uint64.from_address(address)
    right, place.value = place.value, wrong
    write(step)
    place.value = right
    print(f"planted {step} {where}", flush=True)


# Errors in memory. Behind its count and its type an object has its slots in the order of their names, a float its bits.
node, other = judged.root.left, judged.root.right
right = id(node) + 16 + 8 * sorted(Node.__slots__).index("right")
bits = id(node.weight) + 16
if ctypes.c_uint64.from_address(right).value != id(node.right):
    sys.exit("cpython.py: this CPython lays out its objects otherwise")
plant("wrong", right, id(other.left), "split judged.root.left.right Node")
plant("torn", bits, ctypes.c_uint64.from_address(bits).value ^ 1, "data judged.root.left.weight float value")
write("again")
print("again")
