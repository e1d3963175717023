"""g1heap and the judge for C at the limits of wide images: a part of tools/limits.py.

A case says how many GB of memory it takes, and is left out if fewer are free. One runs at a time.
"""
import pathlib
import resource
import subprocess

import wide_images
from heap_image import MOST_REGIONS, MOST_ROOTS, SPECIFICATION
from hprof_graph import free_memory
from wide_images import HEAP, REGION

GIGABYTE = 1 << 30
OBJECTS = HEAP // 4  # of a chain of objects of four words: 2^26
# The judge of two files, which are mapped; and the writer of g1image.h up to its limit, and one object beyond it.
CALLER = r"""
#include <fcntl.h>
#include <stdio.h>
#include <sys/mman.h>
#include <sys/stat.h>
#include "g1image.h"
#include "g1judge.h"

static const uint8_t *mapped(const char *name, size_t *length) {
  struct stat found;
  int file = open(name, O_RDONLY);
  if (file < 0 || fstat(file, &found)) return NULL;
  *length = (size_t)found.st_size;
  return (const uint8_t *)mmap(NULL, *length, PROT_READ, MAP_PRIVATE, file, 0);
}

static int write(void) {
  static uint8_t data[8 * ((1 << 22) - 1)];
  const uint8_t *image;
  size_t length, n;
  uint64_t most;
  int fault;
  g1_writer w;
  g1w_begin(&w, 1 << 22);
  for (most = 1; g1w_object(&w, most, NULL, 0, data, sizeof data) == G1W_GOOD; most++) {}
  printf("%d objects, then: %s\n", (int)most - 1, g1w_text(w.fault));
  g1w_free(&w);
  g1w_begin(&w, 1 << 22);
  for (n = 1; n < most; n++) g1w_object(&w, n, NULL, 0, data, sizeof data);
  g1w_root(&w, 1);
  fault = g1w_end(&w, &image, &length);
  printf("%d %zu\n", fault, length);
  g1w_free(&w);
  return 0;
}

int main(int count, char **names) {
  g1_answer answer;
  size_t n, m;
  const uint8_t *before, *after;
  uint32_t status;
  if (count < 3) return write();
  before = mapped(names[1], &n);
  after = mapped(names[2], &m);
  status = g1_same(before, n, after, m, NULL, 0, &answer);
  printf("status %u fault %u objects %llu words %llu kind %u first %llu\n", status, answer.fault,
         (unsigned long long)answer.objects, (unsigned long long)answer.words, answer.kind, (unsigned long long)answer.first);
  return 0;
}
"""


def text_of(*lines):
    return "".join(f"{line}\n" for line in lines).encode()


class Wide:
    """Images in files of a folder, by the judge of tools/limits.py."""

    def __init__(self, limits, folder, archive):
        self.limits, self.folder, self.g1heap = limits, pathlib.Path(folder), limits.g1heap
        self.caller = self.built(archive) if archive.is_file() else None
        if not self.caller:
            print(f"left out: the judge for C at its limits: {archive} is not there (tools/build_judge.py makes it)")

    def built(self, archive):
        source, program = self.folder / "caller.c", self.folder / "caller"
        source.write_text(CALLER)
        include = pathlib.Path(__file__).resolve().parents[2] / "include"
        subprocess.run(["cc", "-std=gnu11", "-O2", "-I", include, source, archive, "-o", program], check=True)
        return program

    def run(self, words, most=None, stdin=None):
        """The answer of a program, which may have so many bytes of memory at most."""
        def limit():
            if most is not None:
                resource.setrlimit(resource.RLIMIT_AS, (most, most))
        done = subprocess.run([str(word) for word in words], cwd=self.folder, capture_output=True, timeout=1800, preexec_fn=limit,
                              stdin=stdin)
        return done.stdout, done.stderr, done.returncode

    def answers(self, name, words, answer, status=0):
        found = self.run([self.g1heap, *words])
        self.limits.judge(f"{name}: {' '.join(words)}: {found}"[:400], found == (answer, b"", status))

    def calls(self, name, before, after, answer, most=None):
        """What the judge for C answers."""
        if self.caller:
            out, errors, status = self.run([self.caller, before, after], most)
            self.limits.judge(f"{name}, in C: {out}", (out, errors, status) == (text_of(answer), b"", 0))

    def case(self, gigabytes, what):
        free = free_memory()
        if free is not None and free < gigabytes * GIGABYTE:
            name = what.__doc__.partition(".")[0]
            print(f"left out: it takes {gigabytes} GB of memory, and {free / GIGABYTE:.1f} are free: {name}")
        else:
            what()

    def all(self):
        for gigabytes, what in ((1, self.refusals), (1, self.one_region), (1, self.roots), (5, self.survivors), (1, self.memory),
                                (2, self.named), (8, self.one_object), (6, self.writer), (12, self.chain)):
            self.case(gigabytes, what)

    def free_regions(self, region_words, regions, roots=0):
        """An image of free regions."""
        path = self.folder / "free"
        with open(path, "wb") as file:
            wide_images.write_front(file, region_words, [(0, 0)] * regions, [0] * roots, {})
        return path

    def refusals(self):
        """A number more than there may be, of the wider limits and of the specification's."""
        few, many = 2 * SPECIFICATION.region_words, SPECIFICATION.words // SPECIFICATION.region_words + 1
        for sizes in ((2 * REGION, 1), (REGION, HEAP // REGION + 1), (65536, MOST_REGIONS + 1), (16, 1, MOST_ROOTS + 1)):
            path = self.free_regions(*sizes)
            for words in (("show",), ("print", "--summary"), ("check",), ("live",), ("pause",), ("explain",), ("why", None, "0")):
                self.refused(path, [words[0], *words[1:]] if None not in words else ["why", "free", "0"])
        for sizes in ((few, 1), (SPECIFICATION.region_words, many)):
            path = self.free_regions(*sizes)
            with open(path, "rb") as file:
                found = self.run([self.limits.g1pause, "show"], stdin=file)
            self.limits.judge(f"{sizes}: g1pause {found}", found == (b"", b"g1pause: fault 2: geometry\n", 3))
            self.refused(path, ["show", "--limits", "specification"])
            width, regions = sizes
            table = [f"region {r} free top 0 objects 0 cards 0" for r in range(regions)]
            answer = text_of(f"heap {width} 64 {regions} roots 0 dirty 0 current none", *table)
            self.answers(f"{sizes}", ["show", "free"], answer)
            self.answers(f"{sizes}", ["show", "--limits", "wide", "free"], answer)

    def refused(self, path, words):
        words = words if path.name in words else [*words, path.name]
        out, errors, status = self.run([self.g1heap, *words])
        first, rule, *more = errors.decode().split("\n")
        good = (out, status, first, more) == (b"", 3, f"g1heap: {path.name}: fault 2: geometry", [""]) and rule.startswith("g1heap: ")
        self.limits.judge(f"{words}: {out[:100]} {errors} {status}", good)

    def one_region(self):
        """One object of 2^22 words in one region."""
        for name, data in (("one", 0), ("other", 7)):
            wide_images.write_one_object(self.folder / name, REGION, REGION, 1, data)
        name = "an object of 2^22 words"
        self.answers(name, ["check", "one"], b"covered\n")
        self.answers(name, ["live", "one"], text_of(f"region 0 live {8 * REGION}", "region 1 live 0"))
        self.answers(name, ["choose", "--budget", "9", "one"], text_of("total 0"))
        self.answers(name, ["same", "one", "one"], text_of(f"same objects 1 words {REGION}"))
        line = f"differ data at root 0: object 0 before, object 0 after; data word {REGION - 3} is 0 before, 7 after"
        self.answers(name, ["same", "one", "other"], text_of(line), 1)
        self.answers(name, ["why", "one", "0"], text_of("live 0 root 0", f"object 0 {REGION}/1 by root 0"))
        self.limits.judge(f"{name}: pause", self.run([self.g1heap, "pause", "one", "-o", "after"]) == (b"", b"", 0)
                          and (self.folder / "after").read_bytes() == (self.folder / "one").read_bytes())
        self.calls(name, "one", "one", f"status 0 fault 0 objects 1 words {REGION} kind 0 first 0")
        self.calls(name, "one", "other", f"status 1 fault 0 objects 0 words 0 kind 8 first {REGION - 3}")

    def roots(self):
        """65,536 roots of a region of 2^22 words."""
        wide_images.write_small(self.folder / "roots", REGION, 1, 0, MOST_ROOTS)
        self.answers("65,536 roots", ["live", "roots"], text_of("region 0 live 16"))
        self.answers("65,536 roots", ["same", "roots", "roots"], text_of("same objects 1 words 2"))
        self.answers("65,536 roots", ["why", "roots", "0"], text_of(f"live 0 root {MOST_ROOTS - 1}",
                                                                    f"object 0 2/0 by root {MOST_ROOTS - 1}"))
        self.calls("65,536 roots", "roots", "roots", "status 0 fault 0 objects 1 words 2 kind 0 first 0")

    def survivors(self):
        """2^28 words, of which one object in the last region survives a pause of this region."""
        for width in (REGION, SPECIFICATION.region_words):
            regions = HEAP // width
            name = f"a heap of {regions} regions of {width} words"
            for file, at in (("before", regions - 1), ("expected", 0)):
                wide_images.write_small(self.folder / file, width, regions, at)
            chosen = ["--set", str(regions - 1)]
            self.answers(name, ["pause", *chosen, "before", "-o", "after"], b"")
            self.limits.judge(f"{name}: the image after", (self.folder / "after").read_bytes() == (self.folder / "expected").read_bytes())
            self.answers(name, ["explain", "--map", *chosen, "before"], text_of(f"{HEAP - width} 0 2"))
            self.answers(name, ["same", "--covered", "before", "after", *chosen],
                         text_of("same objects 1 words 2", "kept", "covered"))
            self.calls(name, "before", "after", "status 0 fault 0 objects 1 words 2 kind 0 first 0")
            text, errors, status = self.run([self.g1heap, "print", "before"])
            (self.folder / "lines").write_bytes(text)
            self.answers(name, ["make", "lines", "-o", "made"], b"")
            self.limits.judge(f"{name}: make of print", (errors, status) == (b"", 0)
                              and (self.folder / "made").read_bytes() == (self.folder / "before").read_bytes())

    def memory(self):
        """Memory refused."""
        wide_images.write_small(self.folder / "before", REGION, HEAP // REGION, 5)
        for words in (["check"], ["live"], ["show", "--repack"], ["pause", "--set", "5"], ["explain"], ["same", "before"]):
            found = self.run([self.g1heap, *words, "before"], GIGABYTE)
            self.limits.judge(f"memory refused: {words}: {found}", found == (b"", b"g1heap: fault 13: memory\n", 6))
        self.calls("memory refused", "before", "before", "status 6 fault 13 objects 0 words 0 kind 0 first 0", GIGABYTE)

    def named(self):
        """Objects by name that have more words than the specification's heap."""
        count, size = 70, 1 << 18
        body = f" {size}/0" + " 0" * (size - 1) + "\n"
        with open(self.folder / "graph.txt", "w", encoding="ascii") as file:
            file.write("graph\n")
            file.writelines(f"root o{i}\n" for i in range(count))
            for i in range(count):
                file.write(f"object o{i}{body}")
        told = f"same objects {count} words {count * size}"
        self.answers("objects by name", ["same", "graph.txt", "graph.txt"], text_of(told))

    def one_object(self):
        """One object of 2^28 words, in regions of 2^22 and of 2^16."""
        for width in (REGION, SPECIFICATION.region_words):
            name = f"an object of 2^28 words in regions of {width}"
            wide_images.write_one_object(self.folder / "full", width, HEAP)
            self.answers(name, ["check", "full"], b"covered\n")
            live = [f"region {r} live {0 if r else 8 * HEAP}" for r in range(HEAP // width)]
            self.answers(name, ["live", "full"], text_of(*live))
            self.answers(name, ["same", "full", "full"], text_of(f"same objects 1 words {HEAP}"))
            self.calls(name, "full", "full", f"status 0 fault 0 objects 1 words {HEAP} kind 0 first 0")
            (self.folder / "full").unlink()

    def writer(self):
        """Objects of 2^22 words, written by g1image.h: 64 of them, and none more."""
        if self.caller:
            found = self.run([self.caller])
            length = 32 + 16 * 64 + 8 + 8 * HEAP
            expected = text_of("64 objects, then: more words or regions than an image has", f"0 {length}")
            self.limits.judge(f"the writer of g1image.h: {found}", found == (expected, b"", 0))

    def chain(self):
        """2^26 objects, in regions of 2^22 words."""
        name, width = "2^26 objects", REGION
        wide_images.write_chain(self.folder / "chain", width, HEAP // width)
        self.answers(name, ["check", "chain"], b"covered\n")
        live = [f"region {r} live {8 * width}" for r in range(HEAP // width)]
        self.answers(name, ["live", "chain"], text_of(*live))
        self.answers(name, ["same", "chain", "chain"], text_of(f"same objects {OBJECTS} words {HEAP}"))
        self.calls(name, "chain", "chain", f"status 0 fault 0 objects {OBJECTS} words {HEAP} kind 0 first 0")
        (self.folder / "chain").unlink()
