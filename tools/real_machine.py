#!/usr/bin/env python3
"""real_machine.py BINARY [--heap HEAP]

Runs the built program against what a real machine does: streams that are closed, full or broken, limits on files, on
memory and on threads, a process that is stopped and goes on, calls that a signal interrupts, and reads that give few
bytes. What the program has to do in each case stands in docs/HOSTILE.md. It needs Linux and a C compiler. HEAP is the
built g1heap: its commands that read images get the short images, too, and it writes files: into a full disk, to a pipe,
over a link, beside a file that has the name of its part, and on a machine that has no memory to make one. No case writes
to a device by its name, except that standard output is the full one. The last line is 'N passed, M failed'.
"""
import argparse
import ctypes
import errno
import os
import pathlib
import resource
import signal
import struct
import subprocess
import sys
import tempfile
import time

sys.path.insert(0, str(pathlib.Path(__file__).resolve().parent / "lib"))

import progress  # noqa: E402
from images import ONE_OBJECT, ONE_OBJECT_AFTER, SHARED, SHARED_AFTER  # noqa: E402
from programs import add_program, program  # noqa: E402
from refusing import Judge, compiled, preloading  # noqa: E402

INPUT = (b"", b"g1pause: fault 14: input\n", 6)
OUTPUT = (b"", b"g1pause: fault 14: output\n", 6)
MEMORY = (b"", b"g1pause: fault 13: memory\n", 6)
STEPS = 40
FREE, ORDINARY = 0, 1
# The commands that read an image: of g1pause all from standard input, of g1heap also from a file. The file is the second word.
READERS = (["show"], ["check"], ["live"], ["choose", "--budget", "1"], ["pause", "0"], ["show", "--repack"])
HEAP_READERS = (["print", "-"], ["same", "-", "FILE"], ["same", "FILE", "-"], ["show", "FILE"], ["show", "-", "--repack"],
                ["check", "-"], ["live", "FILE"], ["choose", "-", "--budget", "1"], ["pause", "FILE", "--set", "0"], ["pause", "-"])


def short(tops, words):
    """An image of 256 regions of 65,536 words, 128 MB in all, whose regions have these tops. Of the words that they
    announce it has only the first."""
    table = b"".join(struct.pack("<3I", ORDINARY if top else FREE, top, 0) for top in tops)
    objects = struct.pack("<2I", 0, 1) * words
    return b"G1IMAGE2" + struct.pack("<6I", 65_536, 64, 256, 0, 0, 256) + table + bytes(4 * 256) + objects


# Each announces many words: all regions full, and no word; a word in each region but the last, which is full;
# the same with a half of the last region's words; and a word behind free regions, with a full region behind it.
SHORT_IMAGES = {
    "no word": short([65_536] * 256, 0),
    "a word a region": short([1] * 255 + [65_536], 255),
    "a word a region and half of the last": short([1] * 255 + [65_536], 255 + 32_768),
    "a word behind free regions": short([0] * 254 + [1, 65_536], 1),
}


def chain(before):
    """An image of 2 MB, whose answer is as long: 256 full regions of pairs, each of which names the next. Nothing but
    where they stand differs: the pause of all of them moves them into the 256 free regions, in the same order."""
    used, free, empty = struct.pack("<3I", 1, 1024, 0) * 256, bytes(12 * 256), bytes(4 * 256)
    shift = 0 if before else 256
    # The last pair of a region names the first of the next: one card a region, its last.
    cards = empty[:4] + b"".join(struct.pack("<2I", 1, 16 * (shift + r) + 15) for r in range(255))
    pairs = b"".join(struct.pack("<2IQ", 1, 2, shift * 1024 + 2 * (i + 1) + 1) for i in range(256 * 512 - 1))
    heading = b"G1IMAGE2" + struct.pack("<6I", 1024, 64, 512, 1, 0, 512)
    table, sets = (used + free, cards + empty) if before else (free + used, empty + cards)
    return heading + table + struct.pack("<Q", shift * 1024 + 1) + sets + pairs + struct.pack("<2IQ", 1, 2, 0)


# Each second read and write, from the first on, is reported as interrupted by a signal.
INTERRUPTS = r"""
#define _GNU_SOURCE
#include <dlfcn.h>
#include <errno.h>
#include <unistd.h>

ssize_t read(int file, void *into, size_t size) {
    static ssize_t (*real)(int, void *, size_t);
    static int calls;
    if (!real) real = dlsym(RTLD_NEXT, "read");
    if (file == 0 && ++calls % 2) { errno = EINTR; return -1; }
    return real(file, into, size > 100 ? 100 : size);
}

ssize_t write(int file, const void *from, size_t size) {
    static ssize_t (*real)(int, const void *, size_t);
    static int calls;
    if (!real) real = dlsym(RTLD_NEXT, "write");
    if (file == 1 && ++calls % 2) { errno = EINTR; return -1; }
    return real(file, from, size > 100 ? 100 : size);
}
"""

# Standard input gives no more bytes a call than READ_MOST, and a file has the count of the requests for memory.
REQUESTS = r"""
#define _GNU_SOURCE
#include <dlfcn.h>
#include <fcntl.h>
#include <stdlib.h>
#include <unistd.h>

extern void *__libc_malloc(size_t);
extern void *__libc_calloc(size_t, size_t);
extern void *__libc_realloc(void *, size_t);
extern void *__libc_memalign(size_t, size_t);

static long requests;
static int report = -1;

__attribute__((constructor)) static void begin(void) {
    report = open(getenv("REQUESTS_REPORT"), O_CREAT | O_TRUNC | O_WRONLY, 0600);
    requests = 0;
}

static void count(void) {
    requests++;
    if (report >= 0 && pwrite(report, &requests, sizeof requests, 0) != sizeof requests) abort();
}

void *malloc(size_t size) { count(); return __libc_malloc(size); }
void *calloc(size_t number, size_t size) { count(); return __libc_calloc(number, size); }
void *realloc(void *old, size_t size) { count(); return __libc_realloc(old, size); }
void *aligned_alloc(size_t align, size_t size) { count(); return __libc_memalign(align, size); }
void *memalign(size_t align, size_t size) { count(); return __libc_memalign(align, size); }
int posix_memalign(void **place, size_t align, size_t size) { count(); *place = __libc_memalign(align, size); return *place ? 0 : 12; }

ssize_t read(int file, void *into, size_t size) {
    static ssize_t (*real)(int, void *, size_t);
    if (!real) real = dlsym(RTLD_NEXT, "read");
    size_t most = atol(getenv("READ_MOST"));
    return real(file, into, file == 0 && size > most ? most : size);
}
"""


# The system has no memory to make or to open a file to be written.
UNMADE = r"""
#define _GNU_SOURCE
#include <dlfcn.h>
#include <errno.h>
#include <fcntl.h>

int open(const char *path, int flags, ...) {
    static int (*real)(const char *, int, ...);
    if (!real) real = dlsym(RTLD_NEXT, "open");
    if (flags & (O_WRONLY | O_RDWR)) { errno = ENOMEM; return -1; }
    return real(path, flags);
}
"""


def many_roots():
    """An image without words. What comes before them is 160 KB, more than twice what is read at once."""
    return b"G1IMAGE2" + struct.pack("<6I", 16, 4, 2, 20_000, 0, 2) + bytes(12 * 2) + bytes(8 * 20_000) + bytes(4 * 2)


class Machine(Judge):
    def __init__(self, binary):
        super().__init__()
        self.binary = binary
        self.large, self.large_after = chain(True), chain(False)
        self.all = [str(r) for r in range(256)]

    def run(self, words, data=b"", before=None, **streams):
        streams.setdefault("stdout", subprocess.PIPE)
        if "stdin" not in streams:
            streams["input"] = data
        done = subprocess.run([self.binary, *words], stderr=subprocess.PIPE, timeout=120, preexec_fn=before, **streams)
        return done.stdout or b"", done.stderr, done.returncode

    def streams(self):
        self.judge("closed standard input", self.run(["pause", "1"], before=lambda: os.close(0)) == INPUT)
        with open(os.devnull, "wb") as sink:
            self.judge("an input that can't be read", self.run(["pause", "1"], stdin=sink) == INPUT)
        folder = os.open("/", os.O_RDONLY)
        self.judge("a folder as input", self.run(["pause", "1"], stdin=folder) == INPUT)
        os.close(folder)
        with open(os.devnull, "rb") as nothing:
            self.judge("an empty input", self.run(["pause", "1"], stdin=nothing) == (b"", b"g1pause: fault 3: short\n", 3))
        for words in (["pause", "1"], ["show"], ["show", "--repack"], ["check"], ["live"], ["--help"]):
            name = " ".join(words)
            self.judge(f"closed standard output, {name}", self.run(words, ONE_OBJECT, before=lambda: os.close(1)) == OUTPUT)
            with open("/dev/full", "wb") as full:
                self.judge(f"full standard output, {name}", self.run(words, ONE_OBJECT, stdout=full) == OUTPUT)
        self.judge("closed standard error", self.run(["pause", "9"], ONE_OBJECT, before=lambda: os.close(2)) == (b"", b"", 5))
        self.judge("all closed", self.run(["pause", "1"], before=lambda: os.closerange(0, 3)) == (b"", b"", 6))

    def broken_pipe(self, ignored):
        """The reader of a pipe goes away after a few bytes. The program ignores SIGPIPE, whatever it was started with."""
        def before():
            signal.signal(signal.SIGPIPE, signal.SIG_IGN if ignored else signal.SIG_DFL)

        child = subprocess.Popen([self.binary, "pause", *self.all], stdin=subprocess.PIPE, stdout=subprocess.PIPE,
                                 stderr=subprocess.PIPE, preexec_fn=before, bufsize=0)
        child.stdin.write(self.large)
        child.stdin.close()
        begun = child.stdout.read(10)
        child.stdout.close()
        errors = child.stderr.read()
        status = child.wait(60)
        told = (errors, status)
        self.judge(f"a pipe that closes, SIGPIPE {'ignored' if ignored else 'not ignored'}: {told}",
                   self.large_after.startswith(begun) and told == OUTPUT[1:])

    def file_size(self):
        path = pathlib.Path(tempfile.gettempdir()) / f"real_machine_{os.getpid()}"

        def before():
            signal.signal(signal.SIGXFSZ, signal.SIG_IGN)
            resource.setrlimit(resource.RLIMIT_FSIZE, (50, 50))

        with open(path, "wb") as file:
            _, errors, status = self.run(["pause", "1"], ONE_OBJECT, before=before, stdout=file)
        self.judge("a file-size limit of 50 bytes", (errors, status) == OUTPUT[1:] and path.read_bytes() == ONE_OBJECT_AFTER[:50])
        path.unlink()

    def memory(self):
        """An address-space limit, from too little to enough: the answer or Memory, never a crash or a hang."""
        low, high, told = 4 << 20, 96 << 20, []
        for step in range(STEPS):
            limit = low + (high - low) * step // (STEPS - 1)
            answer = self.run(["pause", *self.all], self.large, before=lambda: resource.setrlimit(resource.RLIMIT_AS, (limit, limit)))
            good = answer == (self.large_after, b"", 0)
            self.judge(f"{limit} bytes of address space: {answer[1:]}", good or answer == MEMORY)
            told.append(good)
        self.judge(f"too little at first, enough at last: {told.count(True)} answers", not told[0] and told[-1])

    def short_images(self, heap):
        """Under a limit that the announced words wouldn't fit into, the fault is that they aren't there."""
        for megabytes in (60, 120):
            for kind, image in SHORT_IMAGES.items():
                for words in READERS:
                    name = f"{' '.join(words)}, {kind}, {megabytes} MB"
                    self.judge(name, self.limited(self.binary, words, image, megabytes) == (b"", b"g1pause: fault 3: short\n", 3))
                if heap:
                    self.short_heaps(heap, kind, image, megabytes)

    def short_heaps(self, heap, kind, image, megabytes):
        with tempfile.NamedTemporaryFile() as file:
            file.write(image)
            file.flush()
            for words in HEAP_READERS:
                paths = [file.name if word == "FILE" else word for word in words]
                told = f"g1heap: {paths[1]}: fault 3: short\n".encode()
                name = f"g1heap {' '.join(words)}, {kind}, {megabytes} MB"
                lines, errors, status = self.limited(heap, paths, image, megabytes)
                is_begun = not lines or words[0] == "print" and lines.startswith(b"heap ")
                self.judge(name, is_begun and (errors.splitlines(True)[:1], status) == ([told], 3))

    def limited(self, program, words, data, megabytes):
        limit = megabytes * 1_000_000
        done = subprocess.run([program, *words], input=data, capture_output=True, timeout=120,
                              preexec_fn=lambda: resource.setrlimit(resource.RLIMIT_AS, (limit, limit)))
        return done.stdout, done.stderr, done.returncode

    def threads(self):
        wanted = (self.large_after, b"", 0)
        words = ["pause", "--workers", "64", "--chunk", "1", *self.all]
        self.judge("64 workers", self.run(words, self.large) == wanted)
        self.judge("64 workers, no thread to be had", self.run(words, self.large, before=no_threads) == wanted)
        self.judge("64 workers, no thread, small", self.run(["pause", "--workers", "64", "1"], SHARED, before=no_threads) == (SHARED_AFTER, b"", 0))

    def signals(self):
        child = subprocess.Popen([self.binary, "pause", "1"], stdin=subprocess.PIPE, stdout=subprocess.PIPE, stderr=subprocess.PIPE, bufsize=0)
        child.stdin.write(SHARED[:40])
        time.sleep(0.1)
        child.send_signal(signal.SIGSTOP)
        time.sleep(0.1)
        child.stdin.write(SHARED[40:])
        child.stdin.close()
        child.send_signal(signal.SIGCONT)
        out, errors = child.stdout.read(), child.stderr.read()
        self.judge("stopped and continued", (out, errors, child.wait(60)) == (SHARED_AFTER, b"", 0))

    def interrupted(self, folder):
        environment = preloading(compiled(folder, "interrupts.so", INTERRUPTS, "-shared", "-fPIC", "-ldl"))
        for words, answer in ((["pause", "1"], SHARED_AFTER), (["show", "--repack"], SHARED), (["check"], b"covered\n")):
            self.judge(f"interrupted calls, {' '.join(words)}", self.run(words, SHARED, env=environment) == (answer, b"", 0))
        # A read that was interrupted is none that failed: what is wanting then is memory.
        trace = b"heap 16 4 4 1\n" + b"same 0 0\n" * (1 << 22)
        low = self.run(["run"], trace, before=lambda: resource.setrlimit(resource.RLIMIT_AS, (32 << 20, 32 << 20)), env=environment)
        self.judge(f"interrupted calls and too little memory: {low}", low == MEMORY)

    def few_bytes(self, folder):
        """However few bytes a read gives, the front of an image is tried as often, and so the requests for memory are as many."""
        library, report = compiled(folder, "requests.so", REQUESTS, "-shared", "-fPIC", "-ldl"), folder / "requests"
        image, counts = folder / "image", {}
        image.write_bytes(many_roots())
        for most in (1 << 30, 100, 1):
            environment = preloading(library, REQUESTS_REPORT=str(report), READ_MOST=str(most))
            with open(image, "rb") as stream:
                out, errors, status = self.run(["show"], stdin=stream, env=environment)
            told = out.startswith(b"heap 16 4 2 roots 20000 dirty 0 current none\n") and errors == b"" and status == 0
            counts[most] = int.from_bytes(report.read_bytes(), "little") if told else None
        self.judge(f"requests for memory, by the bytes that a read gives: {counts}",
                   counts[1] is not None and len(set(counts.values())) == 1)


class HeapFiles(Judge):
    """What g1heap writes, and where."""

    def __init__(self, heap, folder):
        super().__init__()
        self.heap, self.folder = heap, folder
        self.image, self.answer = folder / "image", folder / "answer"
        self.image.write_bytes(ONE_OBJECT)
        self.lines = subprocess.run([heap, "print", str(self.image)], capture_output=True, timeout=120, check=True).stdout

    def run(self, words, data=b"", before=None, **streams):
        streams.setdefault("stdout", subprocess.PIPE)
        done = subprocess.run([self.heap, *map(str, words)], input=data, stderr=subprocess.PIPE, timeout=120, preexec_fn=before, **streams)
        return done.stdout or b"", done.stderr, done.returncode

    def device(self, file, which, reason):
        """The answer if a read or a write of this file failed, or of standard output, with the system's reason."""
        name = f"{file}: " if file else ""
        return b"", f"g1heap: {name}fault 14: {which}\ng1heap: {os.strerror(reason)} (os error {reason})\n".encode(), 6

    def judge_files(self, name, good, names):
        """Also these files are beside the image, and no others. They are taken away."""
        found = {path.name for path in self.folder.iterdir()} - {"image"}
        for path in found:
            (self.folder / path).unlink()
        self.judge(name, good and found == set(names))

    def streams(self):
        with open("/dev/full", "wb") as full:
            for words in (["print"], ["explain"], ["why", "-", "16"], ["make", "-o", "-"], ["same", self.image, "-"], ["--help"],
                          ["show"], ["show", "--repack"], ["check"], ["live"], ["choose", "--budget", "1"], ["pause", "--set", "1"]):
                data = self.lines if words[0] == "make" else ONE_OBJECT
                answer = self.run(words, data, stdout=full)
                self.judge(f"g1heap {words[0]}, full standard output: {answer}", answer == self.device(None, "output", errno.ENOSPC))
        for command in ("print", "make", "explain", "trace", "show", "check", "live", "pause"):
            answer = self.run([command, self.folder])
            self.judge(f"g1heap {command} of a folder: {answer}", answer == self.device(self.folder, "input", errno.EISDIR))

    def files(self):
        limit = 100

        def before():
            signal.signal(signal.SIGXFSZ, signal.SIG_IGN)
            resource.setrlimit(resource.RLIMIT_FSIZE, (limit, limit))

        self.answer.write_bytes(b"as it was")
        answer = self.run(["print", "-o", self.answer], ONE_OBJECT, before=before)
        kept = self.answer.read_bytes() == b"as it was"
        self.judge_files(f"a file-size limit, -o: {answer}", answer == self.device(self.answer, "output", errno.EFBIG) and kept, ["answer"])
        self.answer.write_bytes(b"as it was")
        answer = self.run(["pause", self.image, "-o", self.answer], before=before)
        kept = self.answer.read_bytes() == b"as it was"
        self.judge_files(f"a file-size limit, pause -o: {answer}", answer == self.device(self.answer, "output", errno.EFBIG) and kept, ["answer"])
        self.answer.write_bytes(b"as it was")
        (self.folder / "answer.part1").write_bytes(b"somebody's")
        good = self.run(["print", "-o", self.answer], ONE_OBJECT) == (b"", b"", 0) and self.answer.read_bytes() == self.lines
        kept = (self.folder / "answer.part1").read_bytes() == b"somebody's"
        self.judge_files("-o beside a file that has the name of its part", good and kept, ["answer", "answer.part1"])
        (self.folder / "target").write_bytes(b"as it was")
        self.answer.symlink_to(self.folder / "target")
        good = self.run(["print", "-o", self.answer], ONE_OBJECT) == (b"", b"", 0) and not self.answer.is_symlink()
        kept = (self.folder / "target").read_bytes() == b"as it was" and self.answer.read_bytes() == self.lines
        self.judge_files("-o over a link", good and kept, ["answer", "target"])

    def pipes(self):
        os.mkfifo(self.answer)
        reader = os.open(self.answer, os.O_RDONLY | os.O_NONBLOCK)
        answer = self.run(["make", "-o", self.answer], self.lines)
        out = os.read(reader, 1 << 16)
        os.close(reader)
        self.judge_files(f"-o to a pipe: {answer}", (answer, out) == ((b"", b"", 0), ONE_OBJECT) and self.answer.is_fifo(), ["answer"])

    def memory(self):
        environment = preloading(compiled(self.folder, "unmade.so", UNMADE, "-shared", "-fPIC", "-ldl"))
        for words, data in ((["make"], self.lines), (["print"], ONE_OBJECT), (["explain"], ONE_OBJECT), (["show"], ONE_OBJECT),
                            (["live"], ONE_OBJECT), (["pause"], ONE_OBJECT)):
            answer = self.run([*words, "-o", self.answer], data, env=environment)
            self.judge(f"no memory to make a file, {words[0]}: {answer}", answer == (b"", b"g1heap: fault 13: memory\n", 6))
        trace = b"heap 16 4 4 1\nnew 0 0 1\n"
        answer = self.run(["trace", "--image", "1", self.answer], trace, env=environment)
        self.judge(f"no memory to make a file, trace: {answer}", answer == (b"", b"g1heap: fault 13: memory\n", 6))


def no_threads():
    """From here on `clone` and `clone3` fail, as where the right to start threads is gone. Root is not held by a limit on
    processes, so a filter of system calls does it."""
    libc = ctypes.CDLL(None, use_errno=True)
    refuse = 0x00050000 | 11  # EAGAIN
    code = [(0x20, 0, 0, 0), (0x15, 2, 0, 56), (0x15, 1, 0, 435), (0x06, 0, 0, 0x7FFF0000), (0x06, 0, 0, refuse)]
    filter_ = b"".join(struct.pack("<HBBI", *line) for line in code)
    held = ctypes.create_string_buffer(filter_, len(filter_))
    program = struct.pack("<HxxxxxxQ", len(code), ctypes.addressof(held))
    if libc.prctl(38, 1, 0, 0, 0) or libc.prctl(22, 2, program, 0, 0):
        os._exit(90)


def main():
    parser = argparse.ArgumentParser(description=__doc__, formatter_class=argparse.RawDescriptionHelpFormatter)
    add_program(parser, "binary", "g1pause")
    parser.add_argument("--heap", metavar="HEAP", type=program, help="the built program g1heap")
    options = parser.parse_args()
    machine = Machine(options.binary)
    progress.show("tried", lambda: machine.passed)
    machine.streams()
    for ignored in (False, True):
        machine.broken_pipe(ignored)
    machine.file_size()
    machine.memory()
    machine.short_images(options.heap)
    machine.threads()
    machine.signals()
    with tempfile.TemporaryDirectory() as room:
        machine.interrupted(pathlib.Path(room))
        machine.few_bytes(pathlib.Path(room))
    if options.heap:
        with tempfile.TemporaryDirectory() as room:
            files = HeapFiles(options.heap, pathlib.Path(room))
            files.streams()
            files.files()
            files.pipes()
            files.memory()
        machine.passed, machine.failed = machine.passed + files.passed, machine.failed + files.failed
    return machine.end()


if __name__ == "__main__":
    sys.exit(main())
