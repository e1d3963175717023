#!/usr/bin/env python3
"""Runs a small Scheme whose whole heap is in `g1heap trace --live`: live.py [--regions N] [--all] G1HEAP

Each pair, number, closure and environment of the interpreter is an object of a heap at the other end of a pipe, whose pauses
are proved. The interpreter keeps only roots. It asks for a pause when a quarter of the heap was allocated, and whenever an
object finds no place. The program counts the ways to place five queens; with --all two more programs follow, on trees and on
a ring, which takes minutes. It prints how many commands, objects and pauses that took, and what came out.
Statuses: 0 the result is right; 1 it is not, or the heap is too small; 2 usage.
"""
import argparse
import os
import pathlib
import sys

HERE = pathlib.Path(__file__).resolve().parent
sys.path[:0] = [str(HERE), str(HERE.parent.parent / "tools/lib")]

import live_heap  # noqa: E402 (it is in tools/lib/)
import progress  # noqa: E402
import scheme  # noqa: E402


def main():
    parser = argparse.ArgumentParser(description=__doc__, formatter_class=argparse.RawDescriptionHelpFormatter)
    parser.add_argument("g1heap", metavar="G1HEAP", help="the program g1heap")
    parser.add_argument("--regions", metavar="N", type=int, default=200, help="regions of 256 words (default: 200)")
    parser.add_argument("--all", action="store_true", help="three programs, which takes minutes (default: the queens alone)")
    options = parser.parse_args()
    wanted = scheme.expected() if options.all else scheme.expected()[:1]
    if not os.access(options.g1heap, os.X_OK):
        parser.error(f"there is no program {options.g1heap}: tools/build.py --unproved builds out/g1heap")
    heap = live_heap.Heap(options.g1heap, words=256, card=16, regions=options.regions, roots=60000)
    progress.show("commands", lambda: heap.commands)
    try:
        result = scheme.run(heap) if options.all else [scheme.run_text(heap, scheme.QUEENS)]
    except live_heap.Full as error:
        heap.end()
        print(f"live.py: the heap is too small: {error}", file=sys.stderr)
        return 1
    status = heap.end()
    print(f"{heap.commands} commands, {heap.objects} objects, {heap.pauses} pauses: {result}")
    return 0 if result == wanted and status == 0 else 1


if __name__ == "__main__":
    sys.exit(main())
