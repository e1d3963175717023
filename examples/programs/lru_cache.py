"""A cache that forgets what was used longest ago, in a traced heap.

`run(heap)` returns the number of hits. `expected()` counts them with an ordered dictionary.
"""
import collections
import random

STEPS, CAPACITY, BUCKETS = 30000, 2000, 1024
CHAIN, OLDER, NEWER, VALUE = range(4)   # slots of a node; its one data word is the key
OLDEST, NEWEST = range(2)               # slots of the ends of the list


def requests():
    dice = random.Random(3)
    for step in range(STEPS):
        yield step, int(dice.paretovariate(0.4)) % 10000, 1 + dice.randrange(39)


class Cache:
    def __init__(self, heap):
        self.heap = heap
        self.table, self.ends = heap.new(BUCKETS, 0), heap.new(2, 0)
        self.count = 0

    def find(self, key):
        node = self.heap.get(self.table, key % BUCKETS)
        while node is not None and self.heap.say(node, 0) != key:
            node = self.heap.get(node, CHAIN)
        return node

    def unlink(self, node):
        older, newer = self.heap.get(node, OLDER), self.heap.get(node, NEWER)
        if older is None:
            self.heap.put(self.ends, OLDEST, newer)
        else:
            self.heap.put(older, NEWER, newer)
        if newer is None:
            self.heap.put(self.ends, NEWEST, older)
        else:
            self.heap.put(newer, OLDER, older)

    def append(self, node):
        last = self.heap.get(self.ends, NEWEST)
        self.heap.put(node, OLDER, last)
        self.heap.put(node, NEWER, None)
        if last is None:
            self.heap.put(self.ends, OLDEST, node)
        else:
            self.heap.put(last, NEWER, node)
        self.heap.put(self.ends, NEWEST, node)

    def add(self, step, key, words):
        node, value = self.heap.new(4, 1), self.heap.new(0, words)
        self.heap.set(node, 0, key)
        self.heap.set(value, 0, step)
        self.heap.put(node, VALUE, value)
        self.heap.put(node, CHAIN, self.heap.get(self.table, key % BUCKETS))
        self.heap.put(self.table, key % BUCKETS, node)
        self.append(node)
        self.count += 1

    def forget(self):
        old = self.heap.get(self.ends, OLDEST)
        self.unlink(old)
        bucket = self.heap.say(old, 0) % BUCKETS
        node = self.heap.get(self.table, bucket)
        if self.heap.same(node, old):
            self.heap.put(self.table, bucket, self.heap.get(old, CHAIN))
        else:
            while not self.heap.same(self.heap.get(node, CHAIN), old):
                node = self.heap.get(node, CHAIN)
            self.heap.put(node, CHAIN, self.heap.get(old, CHAIN))
        self.count -= 1


def run(heap):
    cache, hits = Cache(heap), 0
    for step, key, words in requests():
        node = cache.find(key)
        if node is not None:
            hits += 1
            heap.say(heap.get(node, VALUE), 0)
            cache.unlink(node)
            cache.append(node)
            continue
        cache.add(step, key, words)
        if cache.count > CAPACITY:
            cache.forget()
    return hits


def expected():
    cache, hits = collections.OrderedDict(), 0
    for _step, key, _words in requests():
        if key in cache:
            hits += 1
            cache.move_to_end(key)
            continue
        cache[key] = None
        if len(cache) > CAPACITY:
            cache.popitem(last=False)
    return hits
