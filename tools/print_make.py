#!/usr/bin/env python3
"""print_make.py G1HEAP [--g1pause FILE] [--random N] [--seed S] [IMAGE ..]

Shows that `print` and `make` go there and back, on each image (default: examples/*.img) and on N random small
ones (1000). Of each it is asked that

- `print` gives the lines that this script writes of the image, by docs/HEAP_TEXT.md;
- `print` and then `make` gives the image's bytes, of version 2;
- lines in which all is left out that may be (addresses, tops, counts, numbers of roots, free regions that others
  follow, continuations, the last words of objects, and remembered sets where they are what the references say), and
  data words have other forms, make the same bytes, and `print` then gives the lines in their full form. In every second
  image a CR ends each line;
- with --g1pause, the heading and the lines of regions are what `g1pause show` prints;
- each region and each object printed alone is its lines of the whole.

The last line is 'N passed, M failed'.
"""
import argparse
import pathlib
import random
import struct
import subprocess
import sys
import tempfile

sys.path.insert(0, str(pathlib.Path(__file__).resolve().parent / "lib"))

import progress  # noqa: E402
from heap_image import CONTINUATION, FIRST, FREE, NULL, ORDINARY, from_bytes  # noqa: E402
from image_text import in_version_two  # noqa: E402
from programs import add_program, program  # noqa: E402
from random_heaps import drawn  # noqa: E402

EXAMPLES = pathlib.Path(__file__).resolve().parent.parent / "examples"


KINDS = {FREE: "free", ORDINARY: "ordinary", FIRST: "humongous", CONTINUATION: "continuation"}


def reference(word):
    return "-" if word == NULL else str(word - 1)


def object_line(image, at):
    words = [reference(image.words[slot]) for slot in image.slots(at)] + [str(image.words[p]) for p in image.content(at)]
    return " ".join([f"object {at} {image.size(at)}/{len(image.slots(at))}", *words])


def lines_of(image):
    """The lines of an image in their full form."""
    current = "none" if image.current is None else image.current
    sizes = f"{image.region_words} {image.card_words} {image.regions}"
    lines = [f"heap {sizes} roots {len(image.roots)} dirty {len(image.log)} current {current}"]
    lines += [f"root {number} {reference(word)}" for number, word in enumerate(image.roots)]
    lines += [" ".join(["dirty cards", *map(str, image.log)])] if image.log else []
    for region, (kind, top, cards) in enumerate(zip(image.kinds, image.tops, image.sets)):
        objects, pinned = list(image.objects_in(region)), " pinned" if image.pinned[region] else ""
        lines.append(f"region {region} {KINDS[kind]} top {top} objects {len(objects)} cards {len(cards)}{pinned}")
        lines += [" ".join([f"remembered {region} cards", *map(str, cards)])] if cards else []
        lines += [object_line(image, at) for at in objects]
    return lines


def written(word):
    """A data word in one of the forms that it has: hexadecimal, with a minus, as a number with a point, or as it is."""
    number = int(word)
    if number % 4 == 1:
        return hex(number)
    if number % 4 == 2 and number >> 63:
        return str(number - (1 << 64))
    double = repr(struct.unpack("<d", number.to_bytes(8, "little"))[0])
    return double if number % 4 == 3 and "." in double else word


def cut(words):
    """The words of an object's line without its address, with two dots for the nulls and zeros at its end, and with data
    words in all their forms."""
    size, *content = words[2:]
    slots, left = int(size.split("/")[1]), len(content)
    while left and content[left - 1] == ("-" if left <= slots else "0"):
        left -= 1
    values = [written(word) for word in content[slots:left]]
    return " ".join(["object", size, *content[:min(slots, left)], *values, *([] if left == len(content) else [".."])])


def shortened(lines, exact):
    """The lines with all left out that follows from the others."""
    out = []
    for line in lines:
        words = line.split()
        if words[0] == "heap":
            at = words.index("current")
            out.append(" ".join(words[:4] + ([] if words[at + 1] == "none" else words[at:])))
            out += ["#remembered sets follow", "covered"] if exact else []
        elif words[0] == "root":
            out.append(f"root {words[2]}")
        elif words[0] == "region" and words[2] in ("ordinary", "humongous"):
            out.append(f"\tregion {words[1]}  {words[2]} {'pinned' if words[-1] == 'pinned' else ''}")
        elif words[0] == "object":
            out.append(cut(words))
        elif words[0] == "dirty" or words[0] == "remembered" and not exact:
            out.append(line)
    return out


class Tries:
    def __init__(self, options, folder):
        self.options, self.folder = options, folder
        self.passed = self.failed = 0

    def run(self, program, words, data=b""):
        done = subprocess.run([program, *words], input=data, capture_output=True, timeout=120)
        return done.stdout if done.returncode == 0 else (done.returncode, done.stderr)

    def judge(self, name, good):
        self.passed += bool(good)
        self.failed += not good
        if not good:
            print(f"failed: {name}")

    def image(self, name, data, parts, end="\n"):
        g1heap = self.options.g1heap
        text = self.run(g1heap, ["print", "-"], data)
        if not isinstance(text, bytes):
            self.judge(f"{name}: print: {text}", False)
            return
        self.judge(f"{name}: print and make", self.run(g1heap, ["make"], text) == data)
        image = from_bytes(data)
        self.judge(f"{name}: print", text == "".join(f"{line}\n" for line in lines_of(image)).encode())
        exact = image.copy()
        exact.make_exact()
        lines = text.decode().splitlines()
        short = end.join(shortened(lines, exact.sets == image.sets)).encode()
        made = self.run(g1heap, ["make", "-"], short)
        self.judge(f"{name}: make of short lines", made == data)
        if made == data:
            self.judge(f"{name}: make and print", self.run(g1heap, ["print", "-"], made) == text)
        if self.options.g1pause:
            heads = "".join(f"{line}\n" for line in lines if line.startswith(("heap", "region"))).encode()
            self.judge(f"{name}: show", self.run(self.options.g1pause, ["show"], data) == heads)
        if parts:
            self.parts(name, data, image, lines)

    def parts(self, name, data, image, lines):
        path = self.folder / "image"
        path.write_bytes(data)
        begins = [i for i, line in enumerate(lines) if line.startswith("region ")] + [len(lines)]
        for region, (begin, end) in enumerate(zip(begins, begins[1:])):
            part = "".join(f"{line}\n" for line in lines[begin:end]).encode()
            alone = self.run(self.options.g1heap, ["print", str(path), "--region", str(region)])
            self.judge(f"{name}: region {region}", alone == part)
        of_object = {line.split()[1]: line for line in lines if line.startswith("object ")}
        self.judge(f"{name}: objects", [int(at) for at in of_object] == list(image.objects()))
        for at, line in of_object.items():
            alone = self.run(self.options.g1heap, ["print", str(path), "--object", at])
            self.judge(f"{name}: object {at}", alone == f"{line}\n".encode())


def main():
    parser = argparse.ArgumentParser(description=__doc__, formatter_class=argparse.RawDescriptionHelpFormatter)
    add_program(parser, "g1heap")
    parser.add_argument("--g1pause", type=program)
    parser.add_argument("--random", type=int, default=1000, metavar="N")
    parser.add_argument("--seed", type=int, default=1, metavar="S")
    parser.add_argument("images", nargs="*", metavar="IMAGE")
    options = parser.parse_intermixed_args()
    rng = random.Random(options.seed)
    with tempfile.TemporaryDirectory() as folder:
        tries = Tries(options, pathlib.Path(folder))
        images = [pathlib.Path(x) for x in options.images] or sorted(EXAMPLES.glob("*.img"))
        for path in progress.over(images, "images"):
            tries.image(path.name, in_version_two(path.read_bytes()), True)
        for number in progress.over(range(options.random), "random images"):
            tries.image(f"random image {number}", drawn(rng).to_bytes(), number % 50 == 0, ("\n", "\r\n")[number % 2])
    print(f"{tries.passed} passed, {tries.failed} failed")
    return 1 if tries.failed or not tries.passed else 0


if __name__ == "__main__":
    sys.exit(main())
