"""Proves crates side by side: a module of tools/build.py.

`rt` keeps every other `rt` out of a crate and of all below it while it works. So each crate is proved in a room of
its own: a folder with crates.txt, links to the sources of the crate and of those below it, and to what was built of
those. What `rt` made there then goes to the crate's own out/, where a later `rt` finds it: it judges by the sources'
sums whether that may stay. A crate is begun once all that it uses are proved, and the one with the longest chain of
others behind it first.
"""
import fcntl
import os
import pathlib
import shutil
import subprocess
import time
from concurrent.futures import FIRST_COMPLETED, ThreadPoolExecutor, wait

import kept
import progress
import stamp

MOST_JOBS = 4  # of one crate
MEMORY = 3 << 30  # what a crate's check takes, and seldom more
LOG = "build.log"


class Failed(Exception):
    """What was not proved, and where it says why."""


def free_memory():
    """The free memory in bytes."""
    try:
        lines = pathlib.Path("/proc/meminfo").read_text().splitlines()
    except OSError:
        return MEMORY
    return next((1024 * int(line.split()[1]) for line in lines if line.startswith("MemAvailable:")), MEMORY)


def most_jobs(asked):
    """How many jobs are run at once: no more than there are processors, or than memory holds."""
    return max(1, min(asked, len(os.sched_getaffinity(0)), free_memory() // MEMORY))


def weights(names, uses, crates):
    """How long the chain of crates that begins with each is, in bytes of their sources."""
    size = {name: sum(path.stat().st_size for part in stamp.PARTS for path in (crates / name / part).rglob("*"))
            for name in names}
    chain = {}
    for name in reversed(names):  # those above a crate come after it
        chain[name] = size[name] + max((chain[above] for above in names if name in uses[above]), default=0)
    return chain


class Room:
    """A folder in which one crate is proved, while no other `rt` works on that crate."""

    def __init__(self, top, name, uses):
        self.top, self.name = top, name
        self.below = [below for below in stamp.needed([name], uses) if below != name]
        self.folder = top / "out" / "rooms" / name
        self.crate = self.folder / "crates" / name
        self.real = top / "crates" / name

    def __enter__(self):
        self.lock = os.open(self.real, os.O_RDONLY)
        fcntl.flock(self.lock, fcntl.LOCK_EX)
        shutil.rmtree(self.folder, ignore_errors=True)
        for name in [*self.below, self.name]:
            for part in stamp.PARTS:
                self.link(name, part)
        for name in self.below:
            self.link(name, "out/rlib")
        (self.folder / "crates.txt").write_text(stamp.lines_of([*self.below, self.name], self.top))
        self.move(self.real / "out", self.crate / "out")
        return self

    def link(self, name, part):
        source = self.top / "crates" / name / part
        if source.is_dir():
            shutil.copytree(source, self.folder / "crates" / name / part, copy_function=os.link)

    @staticmethod
    def move(source, target):
        """Moves all that `rt` keeps of a crate."""
        if not source.is_dir():
            return
        target.mkdir(parents=True, exist_ok=True)
        for path in source.iterdir():
            to = target / path.name
            shutil.rmtree(to, ignore_errors=True)
            os.replace(path, to)

    def __exit__(self, *_):
        self.move(self.crate / "out", self.real / "out")
        shutil.rmtree(self.folder, ignore_errors=True)
        os.close(self.lock)


def words_for(crate, jobs):
    """The words that have `rt` prove a crate, and build it."""
    if (crate / "src" / "main.rt").exists():
        return ["rt", "run", "--jobs", str(jobs), "--", "--version"]
    return ["rt", "lib", "--jobs", str(jobs)]


def put_back(top):
    """Gives the crates back what a build that was killed kept in its rooms."""
    rooms = top / "out" / "rooms"
    for room in rooms.iterdir() if rooms.is_dir() else ():
        crate = room / "crates" / room.name
        if (top / "crates" / room.name).is_dir():
            Room.move(crate / "out", top / "crates" / room.name / "out")
    shutil.rmtree(rooms, ignore_errors=True)


def take_kept(top, names):
    """Takes from `rt ci` the libraries that it proved of these crates, and returns how many."""
    put_back(top)
    with progress.doing("looking for what rt ci proved"):
        return kept.take(top, names)


class Lanes:
    """Which crates are being proved, with how many jobs each, and which are left."""

    def __init__(self, top, names, jobs):
        self.top, self.jobs, self.uses = top, jobs, stamp.rows(top)
        chain = weights(names, self.uses, top / "crates")
        self.names, self.left = names, sorted(names, key=lambda name: -chain[name])
        self.proved, self.running, self.processes = set(), {}, set()

    def prove(self, name, jobs):
        """Proves a crate whose libraries are proved. What the prover says, the seconds, and whether it is proved."""
        start = time.monotonic()
        with Room(self.top, name, self.uses) as room:
            process = subprocess.Popen(words_for(room.crate, jobs), cwd=room.crate, stdin=subprocess.DEVNULL,
                                       stdout=subprocess.PIPE, stderr=subprocess.STDOUT, text=True, errors="replace")
            self.processes.add(process)
            said, _ = process.communicate()
            self.processes.remove(process)
        return said, time.monotonic() - start, process.returncode == 0

    def begin(self, pool):
        """Begins what can be begun. Of several crates the first gets half of the jobs that are free."""
        ready = [name for name in self.left if self.proved.issuperset(self.uses[name])]
        for at, name in enumerate(ready):
            free = self.jobs - sum(jobs for _, jobs in self.running.values())
            if free < 1:
                return
            jobs = min(MOST_JOBS, free if at + 1 == len(ready) else (free + 1) // 2 if at == 0 else 1)
            self.left.remove(name)
            self.running[pool.submit(self.prove, name, jobs)] = name, jobs

    def ended(self, log, say):
        """Waits until a crate's proof ended, and gives the names of those that are not proved."""
        failed = []
        for done in wait(self.running, return_when=FIRST_COMPLETED).done:
            name, _ = self.running.pop(done)
            said, seconds, is_proved = done.result()
            print(f"== {name}\n{said}", file=log, flush=True)
            if is_proved:
                self.proved.add(name)
                say(name, seconds)
            else:
                failed.append(name)
        return failed

    def how_far(self):
        """The crates that are being proved, and how many are proved."""
        names = [name for name, _ in list(self.running.values())]
        return f"{', '.join(names)}; {len(self.proved)} of {len(self.names)} proved"

    def work(self, log, say):
        """Proves all crates, up to the first that is not proved."""
        failed = []
        with progress.doing("proving", self.how_far), ThreadPoolExecutor(self.jobs) as pool:
            self.begin(pool)
            try:
                while self.running:
                    failed += self.ended(log, say)
                    if not failed:
                        self.begin(pool)
            except KeyboardInterrupt:
                for process in list(self.processes):
                    process.terminate()
                raise
        return failed


def prove_all(top, names, jobs, say):
    """Proves all these crates, and calls `say` with each one's name and seconds."""
    put_back(top)
    try:
        with open(top / "out" / LOG, "w", encoding="utf-8") as log:
            failed = Lanes(top, names, most_jobs(jobs)).work(log, say)
    finally:
        put_back(top)
    if failed:
        raise Failed(f"{' and '.join(failed)} not proved: out/{LOG} says why, after the line '== {failed[0]}'")
