#!/usr/bin/env python3
"""second_pause.py BINARY [IMAGE ..]
second_pause.py --large N [--seed S] G1HEAP

Runs `pause` on each image (default: examples/*.img) and then `pause` again on each answer, with several choices
the first and the second time: no region, budgets from nothing to everything, and up to four ordinary regions that are
not pinned, each alone. A pause has to end with status 0, or with Room. Of an answer it is asked, by an independent
reading of the text (image_text.py):

- that it is an image, covered, with no dirty card and no current region, and that packing it again gives it back;
- that a region that was named is free, and what was free and no longer is, is ordinary;
- that the humongous objects are those that a root or a slot of another object that is left names;
- that the roots lead to the same graph, with the same sizes, data and references;
- that as many live bytes are counted as before;
- that 4 workers at other chunk sizes give the same answer.

With --large G1HEAP is asked the same of N random images with regions of 131,072 words and more.

And some pauses have to move something, some to free something, and some to free a humongous object. The last line is
'N passed, M failed'.
"""
import argparse
import pathlib
import random
import sys

sys.path.insert(0, str(pathlib.Path(__file__).resolve().parent / "lib"))

import progress  # noqa: E402
from image_text import FIRST, ORDINARY, fault_of, free_regions, graph, named_humongous, read  # noqa: E402
from heap_image import SPECIFICATION, WIDE  # noqa: E402
from programs import add_program  # noqa: E402
from random_heaps import large_regions  # noqa: E402
from refusing import Judge, run  # noqa: E402

BUDGETS = ["0", "1000", "1000000", "18446744073709551615"]
REGIONS = 4  # at most so many ordinary regions are tried alone


class Tries(Judge):
    def __init__(self, binary, is_g1heap=False):
        super().__init__()
        self.binary, self.is_g1heap, self.limits = binary, is_g1heap, WIDE if is_g1heap else SPECIFICATION
        self.moved = self.freed = self.humongous = 0

    def run(self, words, data):
        """The answer to words of g1pause. What g1heap reports is told as g1pause would."""
        if not self.is_g1heap:
            return run([self.binary, *words], data)
        command, *regions = words
        if command == "pause" and regions[-1:] and regions[-1].isdigit() and regions[-2:-1] not in (["--budget"], ["--chunk"]):
            words = [command, *regions[:-1], "--set", regions[-1]]
        out, errors, status = run([self.binary, *words], data)
        return out, errors.replace(b"g1heap: -: ", b"g1pause: "), status

    def choices(self, data):
        ordinary = [str(r) for r, (kind, _, flags) in enumerate(read(data)[3]) if kind == ORDINARY and not flags]
        return [[], *(["--budget", budget] for budget in BUDGETS), *([region] for region in ordinary[:REGIONS])]

    def live(self, data):
        out, errors, status = self.run(["live"], data)
        lines = [line.split() for line in out.decode().splitlines()]
        return None if errors or status else sum(int(line[-1]) for line in lines)

    def pause(self, name, words, data):
        """The answer, where the pause gives one."""
        out, errors, status = self.run(["pause", *words], data)
        room = status == 5 and errors.startswith(b"g1pause: fault 11: room") and not out
        if not self.judge(name, room or (status == 0 and not errors)) or room:
            return None
        if not self.judge(f"{name}, an image that is covered", fault_of(out, True, self.limits) is None):
            return None
        self.judge(f"{name}, checked", self.run(["check"], out) == (b"covered\n", b"", 0))
        self.judge(f"{name}, packed again", self.run(["show", "--repack"], out) == (out, b"", 0))
        self.follows(name, words, data, out)
        for chunk in ("1", "1000"):
            same = self.run(["pause", "--workers", "4", "--chunk", chunk, *words], data) == (out, b"", 0)
            self.judge(f"{name}, 4 workers, chunk {chunk}", same)
        return out

    def follows(self, name, words, data, out):
        was, regions, log, current = read(data)[3], read(out)[3], read(out)[5], read(out)[8]
        self.judge(f"{name}, no dirty card, none current", not log and current == len(regions))
        before, after = free_regions(data), free_regions(out)
        if words and words[0] != "--budget":
            self.judge(f"{name}, free after", int(words[0]) in after)
        taken = before - after
        self.judge(f"{name}, to-space is ordinary", all(regions[r][0] == ORDINARY for r in taken))
        large, left = ({r for r, (kind, _, _) in enumerate(table) if kind == FIRST} for table in (was, regions))
        collected = {r for r in after if was[r][0] == ORDINARY}
        self.judge(f"{name}, humongous objects", left == named_humongous(data, collected))
        pins = [(old, new) for old, new in zip(was, regions) if old[2]]
        self.judge(f"{name}, pinned regions stay", all(old == new for old, new in pins))
        self.judge(f"{name}, the same graph", graph(data) == graph(out))
        live = self.live(data)
        self.judge(f"{name}, live bytes", live is not None and live == self.live(out))
        self.moved += bool(taken)
        self.freed += bool(after - before)
        self.humongous += bool(large - left)

    def pauses(self, name, data):
        for words in self.choices(data):
            first = f"{name}: pause {' '.join(words)}"
            after = self.pause(first, words, data)
            for again in self.choices(after) if after is not None else []:
                self.pause(f"{first}, then pause {' '.join(again)}", again, after)

    def end(self):
        told = "some pauses move something, some free something, and some free a humongous object"
        self.judge(told, self.moved and self.freed and self.humongous)
        return super().end()


def main():
    parser = argparse.ArgumentParser(description=__doc__, formatter_class=argparse.RawDescriptionHelpFormatter)
    parser.add_argument("--large", type=int, default=0, metavar="N", help="random images with large regions, for g1heap")
    parser.add_argument("--seed", type=int, default=1, metavar="S")
    add_program(parser, "binary", "g1pause")
    parser.add_argument("images", metavar="IMAGE", nargs="*", type=pathlib.Path, default=[])
    parser.add_argument("--first", action="store_true", help="end at the first failure")
    options = parser.parse_args()
    binary = options.binary
    examples = pathlib.Path(__file__).resolve().parent.parent / "examples"
    images = options.images or sorted(examples.glob("*.img"))
    tries = Tries(binary, bool(options.large))
    if options.large:
        rng = random.Random(options.seed)
        for number in progress.over(range(options.large), "large random images"):
            tries.pauses(f"large random image {number}", large_regions(rng).to_bytes())
        return tries.end()
    for image in progress.over(images, "images"):
        tries.pauses(image.name, image.read_bytes())
    return tries.end()


if __name__ == "__main__":
    sys.exit(main())
