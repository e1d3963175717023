"""The threads of a heap dump of a Java virtual machine: their names, and what their stacks hold."""
from hprof import INSTANCE, PRIMITIVES, REFERENCE, TYPES, instance_shape

THREAD, STRING = "java.lang.Thread", "java.lang.String"
LATIN1 = 0  # what `coder` of a string says of its bytes


def place_of(dump, name, is_wanted):
    """Where an object is in the dump, with the key of its group, or None. Its group is one that is wanted."""
    for key, group in dump.groups.items():
        if is_wanted(key) and name in group.names:
            return key, group.places[group.names.index(name)]
    return None


def field_of(dump, key, place, owner, field):
    """The identifier in a field of an instance, or 0."""
    _tag, kind, count = key
    names = [(owner_, field_) for owner_, field_, type_ in dump.fields_of(kind) if type_ == REFERENCE]
    values = instance_shape(dump, kind, count, 0).open(place)[0]
    return dict(zip(names, values)).get((owner, field), 0)


def text_of(dump, name):
    """The text of a string, or None."""
    found = place_of(dump, name, lambda key: key[0] == INSTANCE and dump.class_name(key[1]) == STRING)
    letters = found and field_of(dump, *found, STRING, "value")
    array = letters and place_of(dump, letters, lambda key: key[0] == PRIMITIVES)
    if not array:
        return None
    (_tag, kind, count), place = array
    start = place + dump.primitives.size
    data = bytes(dump.data[start:start + count * TYPES[kind][1]])
    if TYPES[kind][0] == "char":
        return data.decode("utf-16-be", "replace")
    return data.decode("latin-1" if coder_of(dump, *found) == LATIN1 else "utf-16-le", "replace")


def coder_of(dump, key, place):
    """What a string says of its bytes."""
    shape = instance_shape(dump, key[1], key[2], 0)
    content = shape.open(place)[1]
    return next((content[start] for field, start, _count in shape.fields if field == "coder:byte"), LATIN1)


def is_thread(dump, kind):
    while kind in dump.classes:
        if dump.class_name(kind) == THREAD:
            return True
        kind = dump.classes[kind].above
    return False


def thread_names(dump):
    """The number of each thread, and its name without white space."""
    found = []
    for number, name in dump.threads.items():
        place = place_of(dump, name, lambda key: key[0] == INSTANCE and is_thread(dump, key[1]))
        text = place and text_of(dump, field_of(dump, *place, THREAD, "name"))
        if text is not None:
            found.append((number, "_".join(text.split(" "))))
    return found


def frame_roots(dump, name):
    """The names of all threads, and what the frames of the thread of this name hold: from the innermost frame on, in the
    dump's order. It is None if there is no such thread, or if there are several."""
    threads = thread_names(dump)
    numbers = [number for number, text in threads if text == "_".join(name.split(" "))]
    names = [text for _number, text in threads]
    if len(numbers) != 1:
        return names, None
    frames = sorted((root for root in dump.frames if root[0] == numbers[0]), key=lambda root: root[1])
    return names, [value for _thread, _frame, value in frames]
