#!/usr/bin/env python3
"""refuse_memory.py BINARY

Runs the built program's commands while requests for memory are refused: every request, all from the Nth on, and the Nth
alone, for N from 1 until a run meets no refusal. Each run has to answer what the program answers with ample memory, or
`g1pause: fault 13: memory` with status 6 and nothing on standard output; a text of a usage fault may also end with
status 2 and no text, where there was no memory for it.

What it answers with ample memory is judged first: it is written here, from the definitions and by hand. And each
command that succeeds has to meet refusals, and to report Memory for one. Images of all kinds are tried: remembered cards,
a dirty log, humongous objects that stay and that are freed, with one worker and with several, and what is refused for
want of room, of cover, or for its set. It needs a C compiler for the small library that stands before the allocator.
The last line is 'N passed, M failed'.
"""
import argparse
import pathlib
import sys
import tempfile

sys.path.insert(0, str(pathlib.Path(__file__).resolve().parent / "lib"))

from images import (DIRTY, GAP, GAP_AFTER, HELD, HELD_AFTER, HUMONGOUS, HUMONGOUS_AFTER, HUMONGOUS_WITHOUT_CARDS,
                    LOGGED, NAMED_BY_UNNAMED, NAMED_BY_UNNAMED_AFTER, NAMED_BY_UNNAMED_END, NO_ROOM, ONE_OBJECT,
                    ONE_OBJECT_AFTER, OUTSIDE_SLOT, OUTSIDE_SLOT_AFTER, OWN_SLOT, OWN_SLOT_AFTER, SHARED, SHARED_AFTER,
                    SHARED_BUT_CARD_0, SHARED_BUT_CARD_1, SHARED_WITHOUT_CARDS, THREE, THREE_AFTER, UNCOVERED,
                    UNNAMED_OWNER, UNNAMED_OWNER_AFTER)
import progress  # noqa: E402
from programs import add_program  # noqa: E402
from refusing import Judge, Refusing, run  # noqa: E402

MEMORY = (b"", b"g1pause: fault 13: memory\n", 6)
USAGE = (b"", b"", 2)
TABLE = b"""heap 16 4 4 roots 1 dirty 1 current 0
region 0 ordinary top 2 objects 1 cards 0
region 1 free top 0 objects 0 cards 0
region 2 free top 0 objects 0 cards 0
region 3 free top 0 objects 0 cards 0
"""
LIVE = b"region 0 live 0\nregion 1 live 56\nregion 2 live 0\nregion 3 live 0\n"
PRICES = b"""region 0 cost 16 garbage 16 taken
region 1 cost 16 garbage 16 left
region 2 cost 9 garbage 8 left
total 26
"""
SHARING = ["", "--workers 4 --chunk 1"]
# The words, whether workers share them, the image, and what is answered with ample memory.
ANSWERS = [
    ("show", True, DIRTY, TABLE),
    ("show --repack", False, HUMONGOUS, HUMONGOUS),
    ("check", False, OUTSIDE_SLOT, b"covered\n"),
    ("check", False, LOGGED, b"covered\n"),
    ("live", True, SHARED, LIVE),
    ("choose --fixed 10 --budget 35", True, THREE, PRICES),
    ("pause 1", True, ONE_OBJECT, ONE_OBJECT_AFTER),
    ("pause 1", True, OUTSIDE_SLOT, OUTSIDE_SLOT_AFTER),
    ("pause 1", True, LOGGED, OUTSIDE_SLOT_AFTER),
    ("pause 1", True, SHARED, SHARED_AFTER),
    ("pause 1 0", True, GAP, GAP_AFTER),
    ("pause 3", True, HUMONGOUS, HUMONGOUS_AFTER),
    ("pause", True, NAMED_BY_UNNAMED, NAMED_BY_UNNAMED_AFTER),
    ("pause", False, NAMED_BY_UNNAMED_AFTER, NAMED_BY_UNNAMED_END),
    ("pause", True, OWN_SLOT, OWN_SLOT_AFTER),
    ("pause", False, HELD, HELD),
    ("pause 0", True, HELD, HELD_AFTER),
    ("pause 3", True, UNNAMED_OWNER, UNNAMED_OWNER_AFTER),
    ("pause --fixed 10 --budget 42", True, THREE, THREE_AFTER),
]
FAULTS = [
    ("show", ONE_OBJECT[:-1], "3: short", 3),
    ("check", UNCOVERED, "9: uncovered slot 1", 4),
    ("check", SHARED_BUT_CARD_1, "9: uncovered slot 5", 4),
    ("check", SHARED_BUT_CARD_0, "9: uncovered slot 1", 4),
    ("check", SHARED_WITHOUT_CARDS, "9: uncovered slot 1", 4),
    ("check", HUMONGOUS_WITHOUT_CARDS, "9: uncovered slot 17", 4),
    ("pause 1", UNCOVERED, "9: uncovered slot 1", 4),
    ("pause 1 1", SHARED, "10: set region 1", 5),
    ("pause 0 1", NO_ROOM, "11: room need 2 free 1", 5),
    ("pause --workers 65 1", SHARED, "12: setting 1", 2),
]
USAGES = ["", "frob", "choose", "pause +1", "show --workers x", "pause --budget 18446744073709551616"]


class Sweep(Judge):
    def __init__(self, binary, folder):
        super().__init__()
        self.binary, self.refusing = binary, Refusing(folder)

    def sweep(self, name, words, data, good, others=(MEMORY,)):
        """`good` judges the answer with ample memory. A refusal has to be met, and Memory to be reported."""
        command = [self.binary, *words.split()]
        ample = run(command, data)
        self.judge(f"{name}, ample: {ample}", good(ample))
        some = memory = False
        for what, answer, met in self.refusing.sweep(command, data):
            # With no refusal only the ample answer will do.
            self.judge(f"{name}, {what}: {answer}", good(answer) or (met and answer in others))
            some, memory = some or met, memory or answer in others
        self.judge(f"{name}: requests were refused, and it was reported", some and memory)

    def all(self):
        for words, shared, data, answer in ANSWERS:
            for sharing in SHARING if shared else [""]:
                line = f"{words} {sharing}".strip()
                self.sweep(f"{line} of {len(data)} bytes", line, data, lambda told: told == (answer, b"", 0))
        for words, data, fault, status in FAULTS:
            told = (b"", f"g1pause: fault {fault}\n".encode(), status)
            self.sweep(f"{words} of {len(data)} bytes", words, data, lambda answer: answer == told)
        for words in USAGES:
            self.sweep(f"usage {words}", words, b"", is_usage, (MEMORY, USAGE))


def is_usage(answer):
    out, errors, status = answer
    return not out and errors.startswith(b"error: ") and status == 2


def main():
    parser = argparse.ArgumentParser(description=__doc__, formatter_class=argparse.RawDescriptionHelpFormatter)
    add_program(parser, "binary", "g1pause")
    parser.add_argument("--first", action="store_true", help="end at the first failure")
    options = parser.parse_args()
    with tempfile.TemporaryDirectory() as room:
        sweep = Sweep(options.binary, pathlib.Path(room))
        progress.show("runs", lambda: sweep.passed)
        sweep.all()
        return sweep.end()


if __name__ == "__main__":
    sys.exit(main())
