"""Documents of JSON built as lists of pairs and strings, in a traced heap. Some are kept and read again at the end.

`run(heap)` returns how many values the kept documents have. `expected()` counts them with Python's own reader.
"""
import json
import random

DOCUMENTS, KEPT_EACH = 300, 7
KEY, VALUE, NEXT = range(3)     # slots of a pair; a string's data words are its length and its bytes


def documents():
    dice = random.Random(5)

    def value(depth):
        if depth and dice.random() < 0.7:
            return {f"key{number}": value(depth - 1) for number in range(dice.randrange(1, 6))}
        return dice.choice([dice.randrange(10**6), "text" * dice.randrange(1, 9), None, [1, 2, 3]])

    return [json.dumps(value(4)) for _ in range(DOCUMENTS)]


def items(value):
    return list(value.items()) if isinstance(value, dict) else list(enumerate(value))


def string(heap, text):
    raw = text.encode()
    made = heap.new(0, 1 + (len(raw) + 7) // 8)
    heap.set(made, 0, len(raw))
    for at in range(0, len(raw), 8):
        heap.set(made, 1 + at // 8, int.from_bytes(raw[at:at + 8], "little"))
    return made


def build(heap, value):
    if not isinstance(value, (dict, list)):
        return string(heap, str(value))
    first = None
    for key, inner in reversed(items(value)):
        pair = heap.new(3, 0)
        heap.put(pair, KEY, string(heap, str(key)))
        heap.put(pair, VALUE, build(heap, inner))
        heap.put(pair, NEXT, first)
        first = pair
    return first


def read(heap, made):
    """Reads a string word by word."""
    length = heap.say(made, 0)
    words = [heap.say(made, 1 + at).to_bytes(8, "little") for at in range((length + 7) // 8)]
    return b"".join(words)[:length].decode()


def agrees(heap, made, value):
    """Reads a built value beside the one that it was built of, and returns how many values agree."""
    if not isinstance(value, (dict, list)):
        return int(read(heap, made) == str(value))
    total = 1
    for key, inner in items(value):
        total += read(heap, heap.get(made, KEY)) == str(key) and agrees(heap, heap.get(made, VALUE), inner)
        made = heap.get(made, NEXT)
    return total


def run(heap):
    last, kept = None, []
    for number, text in enumerate(documents()):
        value = json.loads(text)
        built = build(heap, value)
        if number % KEPT_EACH == 0:
            link = heap.new(2, 0)
            heap.put(link, 0, built)
            heap.put(link, 1, last)
            last = link
            kept.append(value)
    total = 0
    while last is not None:
        total += agrees(heap, heap.get(last, 0), kept.pop())
        last = heap.get(last, 1)
    return total


def count(value):
    if not isinstance(value, (dict, list)):
        return 1
    return 1 + sum(count(inner) for _key, inner in items(value))


def expected():
    return sum(count(json.loads(text)) for text in documents()[::KEPT_EACH])
