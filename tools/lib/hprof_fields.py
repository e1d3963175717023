"""Which static fields of a Java program much hangs from, in a heap dump: for those who have to name one.

Many fields lead into one large part of the heap in which each object leads to each other one, as nodes that reference
their parents. What hangs from that part is walked once, and counted for each field that leads into it.
"""
from itertools import chain, filterfalse

from hprof import REFERENCE, quiet
from hprof_graph import Objects


def static_fields(dump):
    """The name of each static field that references something, and what it references."""
    for kind, found in dump.classes.items():
        for name, type_, value in found.statics:
            if type_ == REFERENCE and value:
                yield f"{dump.class_name(kind)}.{dump.text(name)}", value


def largest_part(references):
    """The largest set of objects in which each leads to each other one. It is Tarjan's search, without recursion."""
    numbers, lows, stack, waiting, largest = {}, {}, [], set(), []
    for start in references:
        way = [] if start in numbers else [start]
        rests = {start: iter(references[start])}
        while way:
            name = way[-1]
            if name not in numbers:
                numbers[name] = lows[name] = len(numbers)
                stack.append(name)
                waiting.add(name)
            following = next((target for target in rests[name] if target in references
                              and (target not in numbers or target in waiting)), None)
            if following is None:
                way.pop()
                del rests[name]
                largest = max(largest, taken(name, numbers, lows, stack, waiting), key=len)
                if way:
                    lows[way[-1]] = min(lows[way[-1]], lows[name])
            elif following in waiting:
                lows[name] = min(lows[name], numbers[following])
            else:
                way.append(following)
                rests[following] = iter(references[following])
    return set(largest)


def taken(name, numbers, lows, stack, waiting):
    """Takes the part that begins at this object off the stack, if one does."""
    if lows[name] != numbers[name]:
        return []
    part = []
    while not part or part[-1] != name:
        part.append(stack.pop())
    waiting.difference_update(part)
    return part


def reached(start, references, part=frozenset(), below=frozenset()):
    """What hangs from an object, itself included. Who meets `part` has all of `below`, too, which is not returned then."""
    found, todo, is_met = {start}, [start], start in part
    while todo:
        todo = set(chain.from_iterable(map(references.__getitem__, todo)))
        todo = list(filterfalse(found.__contains__, filter(references.__contains__, todo)))
        is_met = is_met or not part.isdisjoint(todo)
        if is_met:
            todo = list(filterfalse(below.__contains__, todo))
        found.update(todo)
    return (found - below if is_met else found), is_met


def counted(references, starts, progress=quiet):
    """How many objects hang from each start."""
    progress("looking for the largest part", 0)
    part = largest_part(references)
    below = reached(next(iter(part)), references)[0] if part else set()
    counts = {}
    for number, start in enumerate(starts):
        progress("walking, fields", number, len(starts))
        if start in references and start not in counts:
            found, is_met = reached(start, references, part, below)
            counts[start] = len(found) + (len(below) if is_met else 0)
    return counts


def field_lines(dump, left_out=(), weak=False, progress=quiet):
    """A line for each static field, those first from which most objects hang."""
    fields = list(static_fields(dump))
    objects = Objects(dump, [value for _name, value in fields], left_out, weak, progress)
    counts = counted(objects.references(), objects.root_numbers, progress)
    found = sorted((-counts[number], name) for (name, _value), number in zip(fields, objects.root_numbers) if number in counts)
    return [f"{-count} {name}" for count, name in found]
