#!/usr/bin/env python3
"""refuse_calls.py DRIVER

Has DRIVER, the built crates/g1_rows, try its rows of the library's calls while requests for memory are refused: of each
call all from the Nth on, and then the Nth alone, for N from 1 until a run meets no refusal. Only the requests of the
call itself count. Each run has to answer what the row says, or Memory; after Memory `verify` and `evacuate` have to hand
back the image as it was, and after Memory from a command of a trace the same command is given again: the replies have
to be those of the row. Every call has to return Memory for some refusal, except those that take no memory: they have to
answer. On images of some size calls run with ample memory alone, and none may return Memory.
It needs a C compiler. The last line is 'N passed, M failed'.
"""
import argparse
import collections
import pathlib
import re
import sys
import tempfile

sys.path.insert(0, str(pathlib.Path(__file__).resolve().parent / "lib"))

import progress  # noqa: E402
from images import all_dirty, long_chain, many_slots  # noqa: E402
from programs import add_driver  # noqa: E402
from refusing import Judge, Refusing, run  # noqa: E402
from rows import lists, row  # noqa: E402

DATA = pathlib.Path(__file__).resolve().parent.parent / "crates/g1_rows/data"
PROGRAM = re.compile(rb"^g1(pause|heap)", re.M)
COUNT = re.compile(rb"^(\w+): (\d+) runs were refused memory, (\d+) returned Memory$", re.M)
# Calls that never return Memory.
FREE = {"laid", "first", "slots_on", "leads_into", "pinned", "forward", "commit", "cost", "total", "each_region_mut"}
CALLS = FREE | {
    "settings", "decode", "read", "read_stale", "copy", "with_dirty", "encode", "write", "objects_in", "verify",
    "merged", "starts", "refine", "given", "cards_into", "claim_round", "discover", "discover_seen", "place", "place_sized",
    "plan", "patches", "gather", "new_rem", "prepare", "prepare_on", "prepare_by_leads", "live_bytes", "order", "choose", "deal", "claim", "each_chunk",
    "evacuate", "report", "pause_bytes", "pause_run", "compare", "parse_trace", "mutator_new", "step", "run_trace",
    "run_text",
}
# A count whose bytes aren't there: nothing is asked for, so no refusal is met.
NOTHING_THERE = b"# Nothing is asked for.\ndecode\nraw G1IMAGE2 16 4 4 0 4294967295 4\n----\nfault 3: short\n"
# On images of some size, with ample memory alone: the call, the regions, the image, and what it answers.
CHAIN = "regions " + " ".join(str(region) for region in range(49))
LARGE = [
    ("discover", CHAIN, long_chain, lambda: lists(range(199_998, -2, -2))),
    ("place", CHAIN, long_chain, lambda: lists(range(49 * 4096, 49 * 4096 + 200_000, 2))),
    ("refine", "regions 24", many_slots, lambda: lists(*[[]] * 24, range(24 * 1024), *[[]] * 7)),
    ("cards_into", "regions 24", many_slots, lambda: lists(range(24 * 1024))),
    ("patches", "regions 24", many_slots, lambda: lists(*([slot, 25 * 4096 + 1] for slot in range(1, 24 * 4096, 2)))),
    ("refine", "regions 64", all_dirty, lambda: lists([64 * 16_384], *[[]] * 64)),
    ("new_rem", "regions 24", many_slots, lambda: lists(*[[]] * 25, range(24 * 1024), *[[]] * 6)),
]


def library_files():
    """The files of rows in which no program is called, except the first, which has the images of all."""
    first, *names = (DATA.parent / "args").read_text().split()[1:]
    return [[str(DATA / first), str(DATA / name)] for name in names if not PROGRAM.search((DATA / name).read_bytes())]


class Sweep(Judge):
    def __init__(self, driver, folder):
        super().__init__()
        self.driver, self.refusing = driver, Refusing(folder)

    def counts(self, name, words, data):
        """Of each call how many runs were refused memory, and how many returned Memory, if each row is so."""
        out, errors, status = self.refusing.run_in_runs([self.driver, "refused", *words], data)
        bad = out[out.find(b"FAILED"):][:2_000] if b"FAILED" in out else out[-200:]
        self.judge(f"{name}: {bad}, {errors}, {status}", status == 0 and errors == b"" and out.endswith(b" ok, 0 failed\n"))
        self.passed += out.count(b"ok: ")
        return {call.decode(): (int(refused), int(memory)) for call, refused, memory in COUNT.findall(out)}

    def rows(self):
        counts = collections.defaultdict(lambda: (0, 0))
        for files in library_files():
            for call, (refused, memory) in self.counts(files[-1], files, b"").items():
                counts[call] = (counts[call][0] + refused, counts[call][1] + memory)
        self.judge(f"calls without a row: {CALLS - counts.keys()}; calls of rows alone: {counts.keys() - CALLS}", counts.keys() == CALLS)
        for call, (refused, memory) in sorted(counts.items()):
            print(f"{call}: {refused} runs were refused memory, {memory} returned Memory")
            self.passed += refused
            self.judge(f"{call} returned Memory {memory} times", (memory == 0) == (call in FREE))
        again = counts["step"][1]
        # Each pause takes memory.
        self.judge(f"commands that were given again: {again}", again >= 3)
        counts = self.counts("a count whose bytes are not there", [], NOTHING_THERE)
        self.judge(f"what isn't there is asked for: {counts}", counts == {"decode": (0, 0)})

    def sizes(self):
        for call, words, image, answer in LARGE:
            for team in ("workers 1 chunk 64", "workers 8 chunk 1"):
                data = row(f"{call} {team} {words}", image(), answer())
                out, errors, status = run([self.driver, "rows"], data)
                good = out.endswith(b"\n1 ok, 0 failed\n") and errors == b"" and status == 0
                self.judge(f"{call} of some size, {team}: {out[:100]} .., {errors}, {status}", good)


def main():
    parser = argparse.ArgumentParser(description=__doc__, formatter_class=argparse.RawDescriptionHelpFormatter)
    add_driver(parser)
    parser.add_argument("--first", action="store_true", help="end at the first failure")
    options = parser.parse_args()
    with tempfile.TemporaryDirectory() as room:
        sweep = Sweep(options.driver, pathlib.Path(room))
        progress.show("tried", lambda: sweep.passed)
        sweep.rows()
        sweep.sizes()
        return sweep.end()


if __name__ == "__main__":
    sys.exit(main())
