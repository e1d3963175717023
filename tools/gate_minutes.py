#!/usr/bin/env python3
"""gate_minutes.py [COMMAND ..]

Runs the gate, or another command, and reports the processor time that it takes, by crate: seconds of its own proof, of its
tests, of its must-fail edits, and of its planted rows. What the command prints is shown as it comes.

`rt ci` takes what an earlier run on this machine passed. So this is the time of a whole gate only in a clean clone where
nothing is kept, and if nothing else runs on the machine, which would slow each check.

The time of a crate is read from /proc, twice a second, of all processes that the command starts and that name a crate. So
up to half a second of each is missing there; the total has it, and counts it as of no crate. It needs Linux. The last line
is 'N processor minutes, M by the clock, status S', with the command's status, which is that of this script, too.
"""
import argparse
import collections
import os
import pathlib
import sys
import threading
import time

TOP = pathlib.Path(__file__).resolve().parent.parent
TICKS = os.sysconf("SC_CLK_TCK")
# Whose time it is, by the folder that a check runs in.
FOLDERS = {"/rt-edit-": "edits", "/planted-": "planted"}
KINDS = ("proof", "tests", "edits", "planted")


def read_process(pid):
    """A process: its parent, when it began, its processor seconds, its words and its folder; None if it has ended."""
    try:
        numbers = pathlib.Path(f"/proc/{pid}/stat").read_text().rpartition(")")[2].split()
        words = pathlib.Path(f"/proc/{pid}/cmdline").read_bytes().decode(errors="replace").split("\0")
        folder = os.readlink(f"/proc/{pid}/cwd")
    except OSError:
        return None
    return int(numbers[1]), numbers[19], (int(numbers[11]) + int(numbers[12])) / TICKS, words, folder


def label_of(words, folder):
    """The crate that a process checks or builds, and whose time that is; None if its words name no crate."""
    if "--crate-name" not in words[:-1]:
        return None
    kind = next((kind for part, kind in FOLDERS.items() if part in folder), "tests" if "--test" in words else "proof")
    return words[words.index("--crate-name") + 1], kind


class Sampler(threading.Thread):
    """Reads the processes below one, until it is told to end."""

    def __init__(self, root):
        super().__init__(daemon=True)
        self.root, self.seconds, self.ended = root, {}, threading.Event()

    def run(self):
        while not self.ended.wait(0.5):
            self.look()

    def look(self):
        found = {int(pid): read_process(pid) for pid in os.listdir("/proc") if pid.isdigit()}
        found = {pid: it for pid, it in found.items() if it}
        for pid, (_, began, seconds, words, folder) in found.items():
            label = label_of(words, folder)
            if label and self.is_below(pid, found):
                self.seconds[pid, began] = label, seconds

    def is_below(self, pid, found):
        while pid in found and pid != self.root:
            pid = found[pid][0]
        return pid == self.root

    def by_crate(self):
        crates = collections.defaultdict(collections.Counter)
        for (crate, kind), seconds in self.seconds.values():
            crates[crate][kind] += seconds
        return crates


def table(crates, total):
    """The lines of the table: a crate a line, the longest first, and what is of no crate."""
    rows = [(name, [crates[name][kind] for kind in KINDS]) for name in sorted(crates, key=lambda it: -sum(crates[it].values()))]
    sums = [sum(row[at] for _, row in rows) for at in range(len(KINDS))]
    lines = [f"{'seconds':<16}" + "".join(f"{kind:>9}" for kind in KINDS)]
    for name, row in [*rows, ("all crates", sums)]:
        lines.append(f"{name:<16}" + "".join(f"{seconds:9.0f}" for seconds in row))
    return [*lines, f"{'of no crate':<16}{max(total - sum(sums), 0):9.0f}"]


def main():
    parser = argparse.ArgumentParser(description=__doc__, formatter_class=argparse.RawDescriptionHelpFormatter)
    parser.add_argument("command", metavar="COMMAND", nargs=argparse.REMAINDER, help="what to run; .ci/run if it is left out")
    words = parser.parse_args().command or [str(TOP / ".ci" / "run")]
    began = time.monotonic()
    try:
        pid = os.posix_spawnp(words[0], words, os.environ)
    except OSError as error:
        print(f"gate_minutes.py: {words[0]}: {error.strerror}", file=sys.stderr)
        return 2
    sampler = Sampler(pid)
    sampler.start()
    _, ended, used = os.wait4(pid, 0)
    sampler.ended.set()
    sampler.join()
    total = used.ru_utime + used.ru_stime
    status = os.waitstatus_to_exitcode(ended)
    print("\n".join(table(sampler.by_crate(), total)))
    print(f"{total / 60:.1f} processor minutes, {(time.monotonic() - began) / 60:.1f} by the clock, status {status}")
    return status if status >= 0 else 128 - status


if __name__ == "__main__":
    sys.exit(main())
