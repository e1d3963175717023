#!/usr/bin/env python3
"""Writes a large trace from a seed: traces.py KIND FILE [--commands N] [--every N] [--seed S]

A heap of 512 regions of 4,096 words (2^21 words), cards of 64 words, and a pause after so many other commands.

`tables`: 16 tables of 3,000 slots. Entries of two objects are put at random places of them, and others are read, so
what is replaced is garbage all over the heap, and old regions refer to new ones.
`lists`: lists of 100 items are grown, walked, and dropped, so most of what a pause finds is dead.
"""
import argparse
import random

TABLES, SLOTS = 16, 3000


def tables(dice, lines):
    first = 8  # the roots below are for work
    for table in range(TABLES):
        lines.append(f"new {first + table} {SLOTS} 1")
    while True:
        table, other = first + dice.randrange(TABLES), first + dice.randrange(TABLES)
        place = dice.randrange(SLOTS)
        lines.append("new 0 1 3")
        lines.append(f"set 0 1 {dice.getrandbits(dice.choice((8, 32, 64)))}")
        lines.append("new 1 0 6")
        lines.append(f"set 1 {dice.randrange(6)} {place}")
        lines.append("put 0 0 1")
        lines.append(f"get 2 {other} {dice.randrange(SLOTS)}")
        lines.append("say 2 1")
        lines.append("same 0 2")
        lines.append(f"put {table} {place} 0")
        yield


def lists(dice, lines):
    while True:
        lines.append("new 0 1 2")
        lines.append("copy 1 0")
        for item in range(99):
            lines.append("new 2 1 2")
            lines.append(f"set 2 0 {item}")
            lines.append("put 1 0 2")
            lines.append("copy 1 2")
        lines.append("copy 1 0")
        for _ in range(dice.randrange(100)):
            lines.append("get 1 1 0")
            lines.append("say 1 0")
        lines.append(f"drop {dice.randrange(3)}")
        yield


def main():
    parser = argparse.ArgumentParser(description=__doc__, formatter_class=argparse.RawDescriptionHelpFormatter)
    parser.add_argument("kind", choices=["tables", "lists"], metavar="KIND")
    parser.add_argument("file", metavar="FILE")
    parser.add_argument("--commands", type=int, default=5_000_000, metavar="N")
    parser.add_argument("--every", type=int, default=100_000, metavar="N")
    parser.add_argument("--seed", default="1", metavar="S")
    options = parser.parse_args()
    lines, written = ["heap 4096 64 512 64"], 0
    more = {"tables": tables, "lists": lists}[options.kind](random.Random(options.seed), lines)
    with open(options.file, "w", encoding="ascii", newline="\n") as file:
        while written < options.commands:
            while len(lines) < options.every:
                next(more)
            lines.append("pause 2000000")
            file.write("\n".join(lines) + "\n")
            written += len(lines)
            lines.clear()


main()
