"""Binary trees that come and go beside one that stays, in a traced heap.

`run(heap)` returns how many nodes were counted in all trees. `expected()` adds up the powers of two.
"""
DEPTH, SHORT, ROUNDS = 12, 7, 30


def make(heap, depth):
    node = heap.new(2, 1)
    heap.set(node, 0, depth)
    if depth:
        heap.put(node, 0, make(heap, depth - 1))
        heap.put(node, 1, make(heap, depth - 1))
    return node


def count(heap, node):
    left = heap.get(node, 0)
    if left is None:
        return 1 if heap.say(node, 0) == 0 else 0
    return 1 + count(heap, left) + count(heap, heap.get(node, 1))


def renew(heap, tree, path):
    """Replaces the subtree at the end of a path by a new one, so that old nodes reference young ones."""
    for bit in path[:-1]:
        tree = heap.get(tree, bit)
    heap.put(tree, path[-1], make(heap, DEPTH - len(path)))


def run(heap):
    tree, total = make(heap, DEPTH), 0
    for turn in range(ROUNDS):
        total += count(heap, make(heap, SHORT))
        renew(heap, tree, [turn >> bit & 1 for bit in range(5)])
    return total + count(heap, tree)


def expected():
    return ROUNDS * (2 ** (SHORT + 1) - 1) + 2 ** (DEPTH + 1) - 1
