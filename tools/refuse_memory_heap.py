#!/usr/bin/env python3
"""refuse_memory_heap.py G1HEAP [IMAGE ..]

Runs the commands of g1heap on each image (default: examples/*.img), and `trace` on small traces, while requests for
memory are refused, as tools/refuse_memory.py does for g1pause: every request from the Nth on, and the Nth alone. Each
run has to answer what the program answers with ample memory, or `fault 13: memory`, of a file or of none, with status 6
and nothing on standard output; and each command has to meet a refusal, and to report Memory for one. So does a command
whose file the machine has no memory to open. A file that is asked for is what it is with ample memory, or not there,
and nothing else is in its folder; it is not there if Memory was reported, except by `trace --live`. What that has on
standard output then are whole replies, the first of those with ample memory.

It needs a C compiler. The last line is 'N passed, M failed'.
"""
import argparse
import pathlib
import re
import sys
import tempfile

sys.path.insert(0, str(pathlib.Path(__file__).resolve().parent / "lib"))

import progress  # noqa: E402
from programs import add_program  # noqa: E402
from refusing import Judge, Refusing, compiled, preloading, run  # noqa: E402

# The system has no memory to open a file.
UNOPENED = r"""
#include <errno.h>

int open(const char *path, int flags, ...) {
    (void)path, (void)flags;
    errno = ENOMEM;
    return -1;
}
"""
MEMORY = re.compile(rb"g1heap: (.*: )?fault 13: memory\n")
# Replies, and with --explain the replies of --numbered, which no line of an explanation looks like.
REPLIES = {False: re.compile(rb"((ok|null|range|full|room|\d+)\n)*"), True: re.compile(rb"(([a-z].*\n)*\d+ \w+\n)*")}
TRACES = {
    "all commands": b"# sizes\nheap 16 4 4 3\n\nnew 0 1 1\nset 0 0 7\nnew 1 1 9\nput 1 0 0\nget 2 1 0\nsay 2 0\nsame 0 2\n"
                    b"copy 2 1\ndrop 0\npause 1000\nget 0 1 0\nsay 0 0\nsay 0 9\nnew 0 0 39\n",
    "humongous": b"heap 16 4 6 2\nnew 0 20 19\nnew 1 0 1\nput 0 16 1\ndrop 1\npause 1000\ndrop 0\npause 1000\nget 1 0 0\n",
    "no room": b"heap 16 4 2 2\nnew 0 0 8\nnew 1 0 4\nnew 1 0 11\npause 1000\nsay 1 0\n",
    "a bad line": b"heap 16 4 4 1\nnew 0 0 1\nnew 0 0\n",
    "an image": b"G1IMAGE2" + bytes(72),
    "nothing": b"",
}


def is_memory(answer):
    out, errors, status = answer
    return out == b"" and is_reported(errors, status)


def is_reported(errors, status):
    return status == 6 and MEMORY.fullmatch(errors) is not None


class Sweep(Judge):
    def __init__(self, folder):
        super().__init__()
        self.refusing = Refusing(folder)

    def sweep(self, name, command, data):
        ample = run(command, data)
        some = memory = False
        for what, answer, met in self.refusing.sweep(command, data):
            # With no refusal only the ample answer will do.
            self.judge(f"{name}, {what}: {answer}", answer == ample or (met and is_memory(answer)))
            some, memory = some or met, memory or is_memory(answer)
        self.judge(f"{name}: requests were refused, and it was reported", some and memory)

    def sweep_file(self, name, command, data, folder):
        """The same of a command that writes a file into the folder, which is empty, or one that is live."""
        ample = run(command, data)
        files = taken(folder)
        live, replies = "--live" in command, REPLIES["--explain" in command]
        some = memory = False
        for what, answer, met in self.refusing.sweep(command, data):
            (out, errors, status), there = answer, taken(folder)
            begun = live and ample[0].startswith(out) and replies.fullmatch(out) is not None
            refused = met and is_reported(errors, status) and (begun or (out, there) == (b"", {})) and there in (files, {})
            self.judge(f"{name}, {what}: {answer}, {sorted(there)}", (answer, there) == (ample, files) or refused)
            some, memory = some or met, memory or refused
        self.judge(f"{name}: requests were refused, and it was reported", some and memory)


def taken(folder):
    """The files of a folder, which are then no longer there."""
    found = {path.name: path.read_bytes() for path in folder.iterdir()}
    for name in found:
        (folder / name).unlink()
    return found


def sweep_files(sweep, folder, binary, image, lines):
    """Commands whose answer goes to a file."""
    target = str(folder / "answer")
    for words, data in ((["print"], image), (["make"], lines), (["explain", "--set", "1"], image), (["show"], image),
                        (["live"], image), (["choose", "--budget", "9"], image), (["pause", "--set", "1"], image),
                        (["show", "--repack"], image)):
        sweep.sweep_file(f"{' '.join(words)} to a file", [binary, *words, "-o", target], data, folder)


def sweep_traces(sweep, folder, binary):
    for name, trace in TRACES.items():
        source = folder.parent / "trace"
        source.write_bytes(trace)
        for words in (["-"], [str(source)], ["--numbered"], ["--explain", "--fixed", "3"], ["--image", "2", str(folder / "image")],
                      ["--live"], ["--live", "--numbered", "--explain", "--image", "1", str(folder / "image")]):
            sweep.sweep_file(f"trace of {name}: {' '.join(words)}", [binary, "trace", *words], trace, folder)


def unopened(judge, folder, binary, path):
    environment = preloading(compiled(folder, "unopened.so", UNOPENED, "-shared", "-fPIC"))
    for words in (["print", path], ["make", path], ["same", path, path], ["explain", path], ["why", path, "16"], ["trace", path],
                  ["show", path], ["check", path], ["live", path], ["choose", path, "--budget", "1"], ["pause", path]):
        answer = run([binary, *words], b"", environment)
        judge.judge(f"no memory to open a file, {words[0]}: {answer}", is_memory(answer))


def shortened(lines):
    """The lines without what follows from the others."""
    kept = b"\n".join(line for line in lines.splitlines() if not line.startswith(b"remembered"))
    return re.sub(rb"( roots| top).*", b"", kept).replace(b"\n", b"\ncovered\n", 1)


NAMES = """root 1 main.table
type Table slots first rest[] data count
label 8 Name
object 16 Table
object 21 Name here
text "keep" what is kept
"""
GRAPH = b"graph\nroot a\nroot b\nobject a 2/0 8\nobject b 5/3 a a a 1\n"
TEXTS = b'graph\nroot a as main.first\nobject a 4/0 "keep" -1 1.5\n'


def differing(sweep, room, binary, path):
    """Heaps that differ, words that reference no object, young regions, lines of objects by name, and a program's names."""
    data, names, graph = path.read_bytes(), room / "names", room / "graph.txt"
    names.write_text(NAMES)
    graph.write_bytes(GRAPH)
    texts = room / "texts.txt"
    texts.write_bytes(TEXTS)
    torn, stale = data[:-1] + b"\1", data[:80] + b"\x63" + data[81:]  # the last data word, and the first root
    for words, source in (
        (["same", path, "-", "--names", names, "--all", "2"], torn),
        (["same", path, "-", "--all", "2"], stale),
        (["same", path, "-", "--covered", "--young", "1"], data),
        (["same", graph, "-"], data),
        (["same", graph, "-"], GRAPH.replace(b"a a a", b"a c a")),
        (["make"], GRAPH),
        (["same", texts, "-", "--names", names, "--all", "2"], TEXTS.replace(b"keep", b"kept")),
        (["same", texts, "-", "--moved"], TEXTS),
        (["same", path, "-", "--moved", "--names", names, "--names-after", names], data),
        (["why", path, "16", "--names", names], b""),
        (["explain", path, "--set", "1", "--names", names], b""),
    ):
        words = [str(word) for word in words]
        sweep.sweep(f"{path.name}: {' '.join(words)}", [binary, *words], source)


def main():
    parser = argparse.ArgumentParser(description=__doc__, formatter_class=argparse.RawDescriptionHelpFormatter)
    add_program(parser, "g1heap")
    parser.add_argument("images", metavar="IMAGE", nargs="*", type=pathlib.Path, default=[])
    parser.add_argument("--first", action="store_true", help="end at the first failure")
    options = parser.parse_args()
    binary = options.g1heap
    examples = pathlib.Path(__file__).resolve().parent.parent / "examples"
    with tempfile.TemporaryDirectory() as room:
        sweep = Sweep(pathlib.Path(room))
        progress.show("runs", lambda: sweep.passed)
        unopened(sweep, pathlib.Path(room), binary, str(examples / "one_object.img"))
        folder = pathlib.Path(room) / "answers"
        folder.mkdir()
        gap = (examples / "gap.img").read_bytes()
        sweep_files(sweep, folder, binary, gap, run([binary, "print"], gap)[0])
        sweep_traces(sweep, folder, binary)
        differing(sweep, pathlib.Path(room), binary, examples / "shared_targets.img")
        for image in options.images or sorted(examples.glob("*.img")):
            data, path = image.read_bytes(), str(image.resolve())
            lines = run([binary, "print", "-"], data)[0]
            for words, source in (
                (["print", "-"], data),
                (["print", path, "--region", "1"], b""),
                (["same", path, "-", "--covered"], data),
                (["same", path, "-", "--set", "1"], data),
                (["explain", path, "--set", "1"], b""),
                (["explain", "-", "--budget", "1000"], data),
                (["explain", path, "--set", "0", "--map"], b""),
                (["why", path, "16"], b""),
                (["why", "-", "0"], data),
                (["make"], lines),
                (["make"], shortened(lines)),
                (["make"], lines[:-4]),
                (["print", "-"], data[:-1]),
                (["show", path], b""),
                (["show", "-", "--repack"], data),
                (["check", "-"], data),
                (["live", path], b""),
                (["choose", "-", "--budget", "1000"], data),
                (["pause", path, "--set", "1"], b""),
                (["pause", "-", "--budget", "1000"], data),
            ):
                sweep.sweep(f"{image.name}: {' '.join(words)}", [binary, *words], source)
        return sweep.end()


if __name__ == "__main__":
    sys.exit(main())
