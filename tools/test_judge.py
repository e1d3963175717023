#!/usr/bin/env python3
"""test_judge.py [--heap FILE] [--archive FILE] [--graphs N] [--runs N] [--only WORD]

Builds the callers of judge/test.c and of examples/vm with the C compiler ($CC, cc) and links them with libg1judge.a, as
tools/build_judge.py makes it; a second time with the sanitizers for addresses and undefined behaviour. Then it tries

  headers  all three, alone and in either order, as C and as C++
  pc       examples/vm, compiled and linked with what `pkg-config --cflags --libs g1judge` prints, beside the archive and in
           the folders of a release
  mark     that nothing is proved of the archive, in each program linked with it if it is in the archive, and else in none
  calls    all pairs of the example images, with room for the path, with none, with too little: status, fault, path and
           numbers are compared with what `g1heap same` prints; each image, and N damaged ones, with image_text.py
  stale    pairs of which the second image has words that reference no object: the answers in lib/stale_pairs.py, which are
           worked out by hand, and those of `g1heap same`; that g1_kept, g1_image and g1_covered refuse them
  broken   the same images with g1_broken: the rule is the second line of `g1heap print`, or of `g1heap same --covered`
  kept     all pairs of the example images, with no region, each region, one that is not there, one twice, and two: status,
           fault, loss and numbers are compared with what `g1heap same --set` prints, and with losses.py; and N / 20 heaps that
           tools/opponent.py collects, each with an error of each kind of tools/plant_errors.py
  lines    include/g1report.h: of all pairs and sets of `calls` and `kept` the line that `g1heap same` prints, byte for byte,
           also in the names of a program and with too little room; of N / 4 graphs of its own pointers, written by
           g1image.h, the line of `g1heap same` for lines of objects by name
  null     no bytes, no path and no set, by a null pointer
  threads  four threads at once, each on images of its own
  refuse   each request for memory of each call refused, one alone and all from one on
  writer   N random graphs (2000) written by include/g1image.h and laid out by heap_image.py, in another order of objects
           and other regions: `g1heap same` finds them the same, and an error in one of them; the writer's refusals; each of
           its requests for memory refused; a million objects, with their time and memory
  vm       the virtual machine without an error, and with each of its three errors until it happened in N runs (20)
  rust     examples/judge-rust, if cargo is there
  page     the commands of docs/LINK.md, in a fresh copy of the checkout

It needs a C compiler. --heap is out/g1heap, which tools/build.py --unproved builds, and --archive is
judge/out/libg1judge.a, which tools/build_judge.py [--unproved] makes, if they are not given. The last line is 'N passed, M failed', and
the status is 0 only if none failed and one passed.
"""
import argparse
import os
import pathlib
import random
import re
import shlex
import shutil
import subprocess
import sys
import tempfile

sys.path.insert(0, str(pathlib.Path(__file__).resolve().parent / "lib"))

import build_judge  # noqa: E402
import check_pages  # noqa: E402
import image_text  # noqa: E402
import losses  # noqa: E402
import progress  # noqa: E402
import release  # noqa: E402
import stale_pairs  # noqa: E402
from heap_image import FREE, NULL, ORDINARY, Image, from_bytes  # noqa: E402
from judge_answers import FIELDS, STALE, agrees, answer, by_heap, by_rule, by_text, of_fault  # noqa: E402
from opponent import NoRoom, Opponent, refused  # noqa: E402
from plant_errors import ERRORS as COLLECTOR_ERRORS, MORE_ERRORS, Planter  # noqa: E402
from pointer_graphs import ERRORS, Graph, is_map, live, pair, told_pair  # noqa: E402
from programs import OUT, program  # noqa: E402
from random_heaps import drawn  # noqa: E402

TOP = pathlib.Path(__file__).resolve().parent.parent
ERRORS_SAY = {"roots": 1, "null before": 2, "null after": 3, "split": 4, "joined": 5, "size": 6, "slots": 7, "data": 8,
              "stale root": STALE, "stale slot": STALE}  # the kind
SANITIZERS = ["-g", "-O1", "-fsanitize=address,undefined", "-fno-sanitize-recover=all"]


class Tally:
    """How much passed, and what did not."""

    def __init__(self):
        self.passed, self.failed = 0, 0

    def expect(self, what, found, expected):
        if found == expected:
            self.passed += 1
        else:
            self.failed += 1
            print(f"FAILED {what}: {found!r}, expected {expected!r}")

    def count(self, what, tried, wrong, said=""):
        """Many cases at once, of which so many are wrong."""
        self.passed += tried - wrong
        self.failed += wrong
        if wrong or said:
            print(f"FAILED {what}: {wrong} of {tried} {said}")


class Programs:
    """The callers in C, plain and with the sanitizers."""

    def __init__(self, room, archive):
        self.room, self.archive = pathlib.Path(room), archive
        (self.room / "examples").symlink_to(TOP / "examples")
        cc = shlex.split(os.environ.get("CC", "cc"))
        common = ["-std=c11", "-Wall", "-Wextra", "-Wpedantic", "-Werror", "-pthread", "-I", TOP / "include"]
        machine = [TOP / "examples/vm" / name for name in ("vm.c", "collector.c", "judge.c")]
        for name, flags in (("", ["-O2"]), ("_checked", SANITIZERS)):
            for what, sources in (("test", [TOP / "judge/test.c"]), ("vm", machine)):
                subprocess.run([*cc, *common, *flags, *sources, archive, "-o", self.room / (what + name)], check=True)

    def run(self, name, *words, text=None, env=None):
        return subprocess.run([self.room / name, *map(str, words)], cwd=self.room, input=text, capture_output=True, text=True,
                              env={**os.environ, **(env or {})})

    def name(self, file):
        """An example, or a file of the room, as the callers find it: their lines end a name at a space."""
        return str(file.relative_to(self.room if self.room in file.parents else TOP))

    def lines(self, tally, name, *words, text=None):
        """What a command prints, line by line; an end by anything but 0 is a failure."""
        ran = self.run(name, *words, text=text)
        tally.expect(f"{name} {words[0]}: its end", (ran.returncode, ran.stderr[-2000:]), (0, ""))
        return ran.stdout.splitlines()


def check_headers(tally, programs, options):
    """The headers alone, in either order, as C99 to C17 and C++11 to C++20, with all warnings."""
    compilers = [(shlex.split(os.environ.get("CC", "cc")), "c", ("c99", "c11", "c17")),
                 (shlex.split(os.environ.get("CXX", "c++")), "c++", ("c++11", "c++14", "c++17", "c++20"))]
    for compiler, language, standards in compilers:
        if not shutil.which(compiler[0]):
            print(f"headers: no {compiler[0]}, left out")
            continue
        for standard in standards:
            for names in (("g1judge.h",), ("g1image.h",), ("g1report.h",), ("g1judge.h", "g1image.h"), ("g1image.h", "g1judge.h")):
                text = "".join(f'#include "{name}"\n' for name in (*names, *names))
                words = [*compiler, "-x", language, f"-std={standard}", "-Wall", "-Wextra", "-Wpedantic", "-Wshadow",
                         "-Werror", "-fsyntax-only", "-I", TOP / "include", "-"]
                ran = subprocess.run(words, input=text, capture_output=True, text=True)
                tally.expect(f"headers: {language} {standard} {names}", (ran.returncode, ran.stderr[:2000]), (0, ""))


def check_pc(tally, programs, options):
    """What pkg-config says of the archive as build_judge.py leaves it, and as a release has it, wherever that is unpacked."""
    if not shutil.which("pkg-config"):
        return print("pc: no pkg-config, left out")
    built, installed = programs.room / "built", programs.room / "installed"
    shutil.copytree(TOP / "include", installed / "include")
    texts = {built: build_judge.pkg_config("${pcfiledir}", TOP / "include").encode(), installed / "lib/pkgconfig": release.installed_pc()}
    for folder, text in texts.items():
        folder.mkdir(parents=True)
        (folder / build_judge.PC_FILE).write_bytes(text)
    for folder in (built, installed / "lib"):
        shutil.copyfile(options.archive, folder / build_judge.ARCHIVE)
    for folder in texts:
        env = {**os.environ, "PKG_CONFIG_PATH": str(folder)}
        said = subprocess.run(["pkg-config", "--cflags", "--libs", "g1judge"], capture_output=True, text=True, env=env)
        tally.expect(f"pc: {folder.name}", (said.returncode, said.stderr), (0, ""))
        made = programs.room / "by_pc"
        subprocess.run([*shlex.split(os.environ.get("CC", "cc")), "-std=c11", "-pthread", *sorted((TOP / "examples/vm").glob("*.c")),
                        *shlex.split(said.stdout), "-o", made], check=True)
        ran = subprocess.run([made, "3"], capture_output=True, text=True, env={**os.environ, "VM_DEBUG": "1"})
        tally.expect(f"pc: vm of {folder.name}", (ran.returncode, ran.stdout), (0, "vm: 3 collections, error taken 0 times, no difference\n"))
    print("pc: 2 places")


def check_mark(tally, programs, options):
    """A program can't lose the line that says that nothing is proved, and a proved archive doesn't have it."""
    mark, made = build_judge.MARK.encode(), programs.room / "sections"
    subprocess.run([*shlex.split(os.environ.get("CC", "cc")), "-std=c11", "-O2", "-Wl,--gc-sections", "-s", "-pthread", "-I",
                    TOP / "include", TOP / "judge/test.c", options.archive, "-o", made], check=True)
    marked = mark in options.archive.read_bytes()
    for program in (made, *(programs.room / name for name in ("test", "test_checked", "vm", "vm_checked"))):
        tally.expect(f"mark: {program.name}", mark in program.read_bytes(), marked)
    print(f"mark: {'there' if marked else 'not there'}")


def numbers(line):
    """The numbers of a line; another line is itself, and so equals no answer."""
    words = line.split()
    return [int(word) for word in words] if all(word.isdigit() for word in words) else words


def differing(lines, expected):
    """How many of the expected answers are not there, each at its line."""
    return sum(i >= len(lines) or numbers(lines[i]) != wanted for i, wanted in enumerate(expected))


def examples():
    return sorted(TOP.glob("examples/*.img")) + sorted(TOP.glob("examples/refused/*.img"))


def damaged(rng, count):
    """Texts of small images, each with some bytes changed, cut off or added."""
    for _ in range(count):
        data = bytearray(drawn(rng, covered=rng.random() < 0.5).to_bytes())
        how = rng.random()
        if how < 0.1:
            del data[rng.randrange(len(data)):]
        elif how < 0.2:
            data += bytes(rng.randint(1, 9))
        elif how < 0.9:
            for _ in range(rng.randint(1, 3)):
                data[rng.randrange(len(data))] = rng.choice((0, 1, 2, 3, 4, 0x10, 0x20, 0xff, rng.randrange(256)))
        yield bytes(data)


def check_pairs(tally, programs, options):
    """Random graphs, the second with an error of each kind in turn: what g1heap prints, and what is planted."""
    rng = random.Random(options.seed + 4)
    listed, expected, planted = [], [], []
    room = programs.room / "pairs"
    room.mkdir()
    for i in range(options.graphs // 2):
        error = ERRORS[i % len(ERRORS)]
        files = room / f"{i}a", room / f"{i}b"
        for file, data in zip(files, pair(rng, rng.choice((3, 10, 40, 150)), error)):
            file.write_bytes(data)
        listed.append("{} {}\n".format(*map(programs.name, files)))
        expected.append(by_heap(options.heap, *files))
        planted.append(error)
    for name in ("test", "test_checked"):
        lines = programs.lines(tally, name, "pairs", text="".join(listed))
        wrong = differing(lines, expected)
        tally.count(f"{name}: planted pairs", len(expected), wrong)
    kinds = {error: {wanted[4] for wanted, e in zip(expected, planted) if e == error} for error in ERRORS}
    for error, wanted in ERRORS_SAY.items():
        tally.expect(f"planted {error}", kinds[error] - {0} >= {wanted}, True)
    lengths = [wanted[7] for wanted in expected]
    print(f"calls: {len(expected)} pairs of random graphs, paths of up to {max(lengths)} slots, {sum(n > 1 for n in lengths)} longer than 1")
    shutil.rmtree(room)


def check_calls(tally, programs, options):
    files = examples()
    expected = [by_heap(options.heap, a, b) for a in files for b in files]
    for name in ("test", "test_checked"):
        lines = programs.lines(tally, name, "all", *files)
        wrong = differing(lines, expected)
        tally.count(f"{name}: all pairs", len(expected), wrong)
    print(f"calls: {len(expected)} pairs of examples, by status", {s: sum(e[0] == s for e in expected) for s in (0, 1, 3)})
    check_pairs(tally, programs, options)
    check_each(tally, programs, options)


def check_each(tally, programs, options):
    rng = random.Random(options.seed)
    texts = [file.read_bytes() for file in examples()] + list(damaged(rng, options.graphs))
    each = programs.room / "each"
    each.mkdir()
    for i, text in enumerate(texts):
        (each / str(i)).write_bytes(text)
    lines = programs.lines(tally, "test_checked", "each", *(each / str(i) for i in range(len(texts))))
    expected = [by_text(text, cover) for text in texts for cover in (False, True)]
    tally.count("each image", len(expected), differing(lines, expected))
    faults = sorted({wanted[2] for wanted in expected})
    print(f"calls: {len(texts)} images, with the faults {faults}")
    shutil.rmtree(each)


def check_stale(tally, programs, options):
    """Words of the second image that reference no object."""
    room = programs.room / "stale_pairs"
    room.mkdir()
    listed, seconds = [], []
    expected, refusals, agreed = [], [], 0
    for number, (row, before, after) in enumerate(stale_pairs.pairs()):
        files = room / f"{number}a", room / f"{number}b"
        for file, data in zip(files, (before, after)):
            file.write_bytes(data)
        said = dict(row.answer)
        expected.append([said.pop("status")] + answer(slots=len(row.path), **said) + row.path)
        agreed += by_heap(options.heap, *files) == expected[-1]
        faults = [image_text.fault_of(data, False) for data in (before, after)]
        whose = 0 if faults[0] else 1
        refusals.append([3] + of_fault(whose + 1, faults[whose]))
        listed.append("{} {}\n".format(*map(programs.name, files)))
        seconds.append(files[whose])
    tally.count("stale: g1heap same", len(expected), len(expected) - agreed)
    for name in ("test", "test_checked"):
        for i, line in enumerate(programs.lines(tally, name, "pairs", text="".join(listed))):
            tally.expect(f"{name}: stale: {stale_pairs.ROWS[i].name}", numbers(line), expected[i])
        tally.count(f"{name}: stale: g1_kept", len(refusals), differing(programs.lines(tally, name, "kept", text="".join(listed)), refusals))
        alone = [[3, 1] + refusal[2:] for refusal in refusals for _ in range(2)]
        tally.count(f"{name}: stale: g1_image and g1_covered", len(alone), differing(programs.lines(tally, name, "each", *seconds), alone))
    print(f"stale: {len(expected)} pairs, {sum(wanted[4] == STALE for wanted in expected)} of them reported as stale")
    shutil.rmtree(room)


def rule_by_heap(heap, file):
    """The line that g1heap writes behind a fault of a file, or nothing."""
    for words in (("print", file), ("same", "--covered", file, file)):
        ran = subprocess.run([heap, *words], capture_output=True, text=True)
        lines = ran.stderr.splitlines()
        if lines:
            return lines[1].removeprefix("g1heap: ") if len(lines) > 1 else ""
    return ""


def check_broken(tally, programs, options):
    """Which rule an image breaks, in the words of g1heap."""
    rng = random.Random(options.seed + 8)
    room = programs.room / "broken"
    room.mkdir()
    texts = [file.read_bytes() for file in examples()] + list(damaged(rng, options.graphs // 2))
    files = [room / str(i) for i in range(len(texts))]
    for file, text in zip(files, texts):
        file.write_bytes(text)
    rules = [rule_by_heap(options.heap, file) for file in files]
    for name in ("test", "test_checked"):
        lines = programs.lines(tally, name, "broken", *files)
        tally.count(f"{name}: answers of g1_broken", len(texts), differing(lines[::2], [by_text(text, True) for text in texts]))
        wrong = [pair_ for pair_ in zip(lines[1::2], rules) if pair_[0] != pair_[1]]
        tally.count(f"{name}: rules", len(rules), len(wrong) + abs(len(lines) - 2 * len(rules)), "".join(f"\n  {case}" for case in wrong[:3]))
    tally.expect("rules", len(set(rules)) > 20, True)
    print(f"broken: {len(texts)} images, {sum(map(bool, rules))} with a rule that they break")
    shutil.rmtree(room)


def sets_of(image, rng):
    """No region, each one, one that is not there, one twice, and some twos."""
    regions = range(image.regions)
    twos = [tuple(rng.sample(regions, 2)) for _ in range(3)] if image.regions > 1 else []
    one = rng.choice(regions)
    return [(), *((region,) for region in regions), (image.regions,), (2**32 - 1,), (one, one), *twos]


def collection(rng, most_regions=4):
    """A heap, the collector that has taken a set of its regions, and the heap after."""
    while True:
        before = drawn(rng)
        ordinary = [r for r in range(before.regions) if not refused(before, r)]
        if not ordinary:
            continue
        chosen = rng.sample(ordinary, rng.randint(1, min(most_regions, len(ordinary))))
        opponent = Opponent(before, chosen, rng, rng.randint(1, 4), rng.choice((4, 12, 48)))
        try:
            return before, opponent, opponent.evacuate()
        except NoRoom:
            continue


def collected(rng, room, count):
    """Pairs of files with a set: heaps before and after a collection, with one error planted in it, and with two."""
    for made in range(count):
        before, opponent, after = collection(rng)
        planter = Planter(before, opponent, after, rng)
        planted = [planter.after, *(getattr(planter, error)() for error in COLLECTOR_ERRORS + MORE_ERRORS)]
        twice = [image and getattr(Planter(before, opponent, image, rng), rng.choice(COLLECTOR_ERRORS))() for image in planted]
        first = room / f"{made}before"
        first.write_bytes(before.to_bytes())
        for number, image in enumerate(planted + twice):
            if image is not None:
                second = room / f"{made}after{number}"
                second.write_bytes(image.to_bytes())
                yield first, second, opponent.chosen


def check_kept(tally, programs, options):
    rng = random.Random(options.seed + 5)
    room = programs.room / "kept"
    room.mkdir()
    good = {file: from_bytes(file.read_bytes()) for file in examples() if image_text.fault_of(file.read_bytes(), False) is None}
    cases = [(a, b, set_) for a in examples() for b in examples() for set_ in (sets_of(good[a], rng) if a in good else [(0,)])]
    from_examples = len(cases)
    cases += collected(rng, room, options.graphs // 20)
    listed, expected, disagreeing = [], [], []
    for a, b, chosen in cases:
        texts = [file.read_bytes() for file in (a, b)]
        faults = [image_text.fault_of(text, False) for text in texts]
        whose = next((which for which, fault in enumerate(faults) if fault), None)
        wanted = by_rule(*map(from_bytes, texts), chosen) if whose is None else [3] + of_fault(whose + 1, faults[whose])
        by_heap_too = wanted
        if whose is None and len(set(chosen)) == len(chosen):  # g1heap leaves out regions that were free
            kinds = good[a].kinds if a in good else from_bytes(texts[0]).kinds
            by_heap_too = by_rule(*map(from_bytes, texts), [r for r in chosen if r >= len(kinds) or kinds[r] != FREE])
        if chosen and not agrees(options.heap, a, b, chosen, by_heap_too):
            disagreeing.append((a.name, b.name, chosen, wanted))
        listed.append(" ".join(map(str, (programs.name(a), programs.name(b), *chosen))) + "\n")
        expected.append(wanted)
    tally.count("g1heap same --set", sum(bool(chosen) for _, _, chosen in cases), len(disagreeing), "".join(f"\n  {case}" for case in disagreeing[:5]))
    for name in ("test", "test_checked"):
        lines = programs.lines(tally, name, "kept", text="".join(listed))
        tally.expect(f"{name}: lines of g1_kept", len(lines), len(expected))
        tally.count(f"{name}: g1_kept", len(expected), differing(lines, expected))
    kinds = {wanted[4] for wanted in expected}
    tally.expect("kinds of losses", kinds, {0, *losses.KINDS})
    statuses = {s: sum(e[0] == s for e in expected) for s in (0, 1, 3, 5)}
    print(f"kept: {from_examples} pairs and sets of examples, {len(cases) - from_examples} of collections, by status {statuses}")
    shutil.rmtree(room)


# ---- lines of answers


def line_by_heap(heap, before, after, *words):
    """The line that g1heap prints of two files: on standard output, or a fault, with the image that has it in the place of its
    file. Where g1_kept refuses a second text that `g1heap same --set` compares, its fault."""
    ran = subprocess.run([heap, "same", before, after, *words], capture_output=True, text=True)
    refusal = ran.stderr
    if "--set" in words and ran.returncode == 1 and ran.stdout.startswith("differ"):
        refusal = subprocess.run([heap, "print", "--summary", after], capture_output=True, text=True).stderr
    found = re.match(r"g1heap: (.*): (fault .*)\n", refusal)
    if found:
        return f"{'before' if ran.stderr and found[1] == str(before) else 'after'}: {found[2]}"
    return ran.stdout.rstrip("\n").split("\n")[-1]


def map_of(image):
    """The names that judge/test.c has for an image, as a map for `g1heap same --names`."""
    out = [f"root {root} r{root}\n" for root in range(0, len(image.roots), 2)]
    out += ["type T slots s0 s1 a[] data d0\n"]
    out += [f"object {at} T{'' if at % 4 else ' note'}\n" for at in image.objects() if at % 2 == 0]
    return "".join(out)


def cut_path(line, room):
    """The line of a path of which the caller has only so many slots."""
    found = re.fullmatch(r"(differ \w+ at root \d+)((?: slot \d+)+)(: .*)", line)
    slots = re.findall(r" slot \d+", found[2]) if found else []
    if len(slots) <= room:
        return line
    return f"{found[1]}{''.join(slots[:room])} and {len(slots) - room} slots more{found[3]}"


def list_pair(rng, steps):
    """Two images of a list whose steps go by one slot several times, and then by another, with an error at its end."""
    graph = Graph(rng, 0)
    graph.pointers, words = list(range(1, steps + 2)), rng.choice((1, 1, 2))
    path = [slot for _ in range(steps) for slot in [rng.randrange(3)] * rng.choice((1, 2, 3, 4, 9))][:steps]
    graph.slots = {p: [p + 1 if slot == step else NULL for slot in range(3)] for p, step in zip(graph.pointers, path)}
    graph.slots[steps + 1] = [NULL] * 3
    graph.data = {p: [0] * (4 * words) for p in graph.pointers}
    graph.roots = [NULL] * rng.randrange(2) + [1]
    before = graph.image(rng, 64)
    graph.data[steps + 1][-1] = 7
    return before.to_bytes(), graph.image(rng, 64).to_bytes()


def sets_of_examples(options):
    """The pairs of examples that show one graph, with each region that is not free."""
    for a in examples():
        for b in examples():
            if subprocess.run([options.heap, "same", a, b], stdout=subprocess.DEVNULL, stderr=subprocess.DEVNULL).returncode == 0:
                kinds = from_bytes(a.read_bytes()).kinds
                yield from ((a, b, (region,)) for region, kind in enumerate(kinds) if kind != FREE)


def other_root():
    """A heap with two equal objects and a region that is freed, and the same with the root at the other object."""
    before, after = Image(16, 16, 2), Image(16, 16, 2)
    for image, root in ((before, 1), (after, 3)):
        image.kinds[0], image.tops[0], image.roots = ORDINARY, 4, [root]
        image.words[:4] = [2 << 32, 7] * 2
    before.kinds[1], before.tops[1] = ORDINARY, 2
    before.words[16:18] = [2 << 32, 9]
    return before.to_bytes(), after.to_bytes()


def line_cases(options, room, rng):
    """Pairs of files, each with a set or none: examples, graphs with an error, collections with one."""
    for i, steps in enumerate((1, 2, 3, 4, 5, 30, 100, 200, 300, 400, 1000)):
        files = room / f"{i}list", room / f"{i}list_after"
        for file, data in zip(files, list_pair(rng, steps)):
            file.write_bytes(data)
        yield *files, ()
    yield from ((a, b, ()) for a in examples() for b in examples())
    yield from sets_of_examples(options)
    files = room / "root", room / "root_after"
    for file, data in zip(files, other_root()):
        file.write_bytes(data)
    yield *files, (1,)
    for i in range(options.graphs // 2):
        files = room / f"{i}a", room / f"{i}b"
        for file, data in zip(files, pair(rng, rng.choice((3, 10, 40, 150)), ERRORS[i % len(ERRORS)])):
            file.write_bytes(data)
        yield *files, ()
    for i, (_, *texts) in enumerate(stale_pairs.pairs()):
        files = room / f"{i}stale", room / f"{i}stale_after"
        for file, data in zip(files, texts):
            file.write_bytes(data)
        yield *files, ()
    for before, after, chosen in collected(rng, room, max(3, options.graphs // 100)):
        yield before, after, tuple(chosen)
        yield before, after, ()


def expected_lines(options, room, cases):
    """For each case the line of addresses, and the one in names."""
    for a, b, chosen in cases:
        sets = ["--set", ",".join(map(str, chosen))] if chosen else []
        plain = line_by_heap(options.heap, a, b, *sets)
        if chosen and not losses.of_line(plain) and plain != "kept" and "fault" not in plain:
            continue  # g1heap compares graphs first, and g1_kept does not
        named = plain
        if not chosen and "fault" not in plain:
            (room / "map").write_text(map_of(from_bytes(a.read_bytes())))
            named = line_by_heap(options.heap, a, b, "--names", room / "map")
        yield (a, b, chosen), plain, named


def check_lines(tally, programs, options):
    rng = random.Random(options.seed + 6)
    room = programs.room / "lines"
    room.mkdir()
    found = list(expected_lines(options, room, line_cases(options, room, rng)))
    listed = "".join(" ".join(map(str, (programs.name(a), programs.name(b), *chosen))) + "\n" for (a, b, chosen), _, _ in found)
    plain = ["same objects 0 words 0" if line == "kept" else line for _, line, _ in found]
    named = ["same objects 0 words 0" if line == "kept" else line for _, _, line in found]
    for name in ("test", "test_checked"):
        for how, most, wanted in (("plain", 4096, plain), ("plain", 2, [cut_path(line, 2) for line in plain]), ("named", 4096, named)):
            said = programs.lines(tally, name, "lines", how, most, text=listed)
            wrong = [(*pair_, case[0]) for *pair_, case in zip(said, wanted, found) if pair_[0] != pair_[1]]
            tally.count(f"{name}: lines {how} {most}", len(wanted), len(wrong) + abs(len(said) - len(wanted)),
                        "".join(f"\n  {case}" for case in wrong[:3]))
    kinds = {" ".join(line.split()[:2]) for line in plain}
    for word in ("roots:", "stale", "null", "split", "joined", "size", "slots", "data", "sizes:", "region", "root", "object"):
        tally.expect(f"lines of {word}", f"differ {word}" in kinds, True)
    ends = {re.sub(".*; the word ([a-z ]+) .*?(outside|where [a-z]+).*", r"\1 \2", line) for line in plain if line.startswith("differ stale")}
    tally.expect("ends of stale lines", sorted({"is outside", "is where no", "still is where the"} - ends), [])
    long = sum(" steps .." in line for line in named)
    tally.expect("lines with many steps, and with steps that repeat", long > 2 and sum(" x " in line for line in named) > 4, True)
    print(f"lines: {len(found)} pairs and sets, {sum(' x ' in line for line in named)} with a step that repeats, {long} with steps left out")
    shutil.rmtree(room)
    check_told(tally, programs, options)


def check_told(tally, programs, options):
    """Lines in pointers: those of g1heap for the same objects by name. A word that references no object is a fault if no path
    leads to it and nothing else differs; the line of g1heap has the place in the text, and that of the call in the image."""
    rng = random.Random(options.seed + 7)
    texts, expected = [], []
    for i in range(options.graphs // 4):
        two = told_pair(rng, ERRORS[i % len(ERRORS)])
        texts += [lines for lines, _ in two]
        files = programs.room / "told_a", programs.room / "told_b"
        for file, (_, lines) in zip(files, two):
            file.write_text(lines)
        ran = subprocess.run([options.heap, "same", *files], capture_output=True, text=True)
        expected.append("after: fault 7" if ran.returncode == 3 else ran.stdout.rstrip("\n"))
    for name in ("test", "test_checked"):
        said = programs.lines(tally, name, "told", text="".join(texts))
        wrong = [(line, wanted) for line, wanted in zip(said, expected)
                 if line != wanted and not (wanted == "after: fault 7" and line.startswith("after: fault 7: reference in "))]
        tally.count(f"{name}: lines in pointers", len(expected), len(wrong) + abs(len(said) - len(expected)),
                    "".join(f"\n  {case}" for case in wrong[:3]))
    kinds = {" ".join(line.split()[:2]) for line in expected}
    print(f"lines: {len(expected)} pairs in pointers: {', '.join(sorted(kinds))}")


def check_null(tally, programs, options):
    file = TOP / "examples/one_object.img"
    short = answer(image=1, fault=3)
    second = answer(image=2, fault=3)
    wanted = [[3] + short, [3] + second, [3] + short, by_heap(options.heap, file, file), [3] + short, [3] + short,
              [3] + short, [0] + answer()]
    for name in ("test", "test_checked"):
        tally.expect(f"{name}: null", [numbers(line) for line in programs.lines(tally, name, "null", file)], wanted)


def check_threads(tally, programs, options):
    rng = random.Random(options.seed + 1)
    pairs, expected = [], []
    for i in range(4):
        before, after = pair(rng, 4000, error=("none", "data", "split", "stale root")[i])
        for end, data in (("a", before), ("b", after)):
            pairs.append(programs.room / f"thread{i}{end}")
            pairs[-1].write_bytes(data)
        expected.append(by_heap(options.heap, *pairs[-2:]))
    for name, calls in (("test", 400), ("test_checked", 50)):
        lines = programs.lines(tally, name, "threads", calls, *pairs)
        tally.expect(f"{name}: threads", lines[-1:], ["wrong 0"])
        found = sorted(numbers(line)[:15] for line in lines[:-1])
        tally.expect(f"{name}: answers of threads", found, sorted(wanted[:15] for wanted in expected))
    print(f"threads: 4 at once, {4 * 450} calls, statuses {[wanted[0] for wanted in expected]}")


def check_refuse(tally, programs, options):
    rng = random.Random(options.seed + 2)
    cases = [(*pair(rng, 300, error), 0) for error in ("none", "data", "stale root")]
    copies = {}
    while len(copies) < 3:
        before, opponent, after = collection(rng, most_regions=1)
        copies = opponent.copies
    cases.append((before.to_bytes(), after.to_bytes(), *opponent.chosen))
    for before, after, region in cases:
        a, b = programs.room / "refuse_a", programs.room / "refuse_b"
        a.write_bytes(before)
        b.write_bytes(after)
        lines = programs.lines(tally, "test_checked", "refuse", a, b, region)
        tried, wrong = numbers(lines[-1].split("tried ")[1].replace("wrong", ""))
        tally.count("refused memory", tried, wrong, "".join(lines[:-1]))
        print("refuse:", lines[-1])


def check_graphs(tally, programs, options):
    rng = random.Random(options.seed + 3)
    wrong, wrong_maps, texts, made = 0, 0, [], []
    for i in range(options.graphs):
        graph = Graph(rng, rng.choice((0, 1, 2, 5, rng.randint(0, 60))), rng.choice((3, 12, 70)))
        width = rng.choice((16, 32, 64, 256, 1 << 17)) if i % 50 else 1 << 22
        texts.append(graph.lines(rng, width, f"w{i}"))
        made.append((graph, width))
    lines = programs.lines(tally, "test_checked", "write", text="".join(texts))
    for i, ((graph, width), line) in enumerate(zip(made, lines)):
        laid, written = programs.room / "laid", programs.room / f"w{i}"
        laid.write_bytes(graph.image(rng, rng.choice((16, 64, 256))).to_bytes())
        objects, words = live(graph)
        for files in ((laid, written), (written, laid)):
            wrong += by_heap(options.heap, *files) != [0] + answer(objects=objects, words=words)
        wrong_maps += not is_map(graph, from_bytes(written.read_bytes()), line)
        written.unlink()
    tally.count("graphs: g1heap same", 2 * len(made), wrong + 2 * (len(made) - len(lines)))
    tally.count("graphs: maps", len(made), wrong_maps)
    objects = sum(len(graph.pointers) for graph, _ in made)
    print(f"writer: {len(made)} graphs, {objects} objects, the same as laid out by heap_image.py, both ways")


REFUSALS = (  # the lines of an image, and what its end says: fault, pointer, holder, slot
    ("image 0\nroot 0\n", (2, 0, 0, 0)), ("image 8\n", (2, 0, 0, 0)), ("image 48\n", (2, 0, 0, 0)),
    ("image 8388608\n", (2, 0, 0, 0)), ("image 4194304\nobject 0 0 0\n", (5, 0, 0, 0)),
    ("image 16\n" + "root 0\n" * 65537, (3, 0, 0, 0)),
    ("image 16\nobject 0 0 0\n", (5, 0, 0, 0)),
    ("image 16\nobject 7 0 0\nobject 9 0 0\nobject 7 0 0\n", (6, 7, 0, 0)),
    ("image 16\nroot 0\nroot 3\nobject 4 0 0\n", (7, 3, 0, 1)),
    ("image 16\nobject 4 3 0 4 0 11\n", (7, 11, 4, 2)),
    ("image 16\nobject 4 1 0 5\nobject 6 1 0 5\n", (7, 5, 4, 0)),
)


def check_refusals(tally, programs):
    for text, wanted in REFUSALS:
        lines = programs.lines(tally, "test_checked", "write", text=f"{text}end refused\n")
        tally.expect(f"writer: {text[:40]!r}", lines, ["fault {} pointer {} holder {} slot {}".format(*wanted)])
    # 4,096 regions of 16 words, and one more (tools/limits.py has 2^28 words, and one more)
    object_of = lambda p, words: f"object {p} 0 {8 * (words - 1)} " + "0 " * (words - 1) + "\n"
    full = "image 16\n" + "".join(object_of(p, 9) for p in range(1, 4097))
    for words in (0, 1, 7, 8, 13):
        more = object_of(5000, words) if words else ""
        lines = programs.lines(tally, "test", "write", text=f"{full}{more}end refused\n")
        found = [line.split(" pointer")[0] for line in lines if line.startswith("fault")]
        tally.expect(f"writer: 4096 regions and {words} words", found, ["fault 4"] if words > 7 else [])
    text = "".join(f"image 16\nstale\nroot {root}\nobject 4 2 0 4 11\nend {name}\n"
                   for root, name in ((99, "stale"), (4, "stale_slot")))
    lines = [re.sub("length [0-9]+ ", "", line) for line in programs.lines(tally, "test_checked", "write", text=text)]
    tally.expect("writer: stale", lines, ["stale 2 at 0 4", "stale 1 at 0 4"])
    for name, place, at in (("stale", 2, 0), ("stale_slot", 3, 2)):
        found = numbers(programs.lines(tally, "test_checked", "each", programs.room / name)[0])
        tally.expect(f"writer: {name}", found, [3] + answer(image=1, fault=7, place=place, at=at))


def check_writer(tally, programs, options):
    check_graphs(tally, programs, options)
    check_refusals(tally, programs)
    for name, objects in (("test_checked", 3000), ("test", 100000)):
        line = programs.lines(tally, name, "scarce", objects)[-1]
        tried, wrong = numbers(line.split("tried ")[1].replace("wrong", ""))
        tally.count("writer: refused memory", tried, wrong)
        print(f"writer: {objects} objects, {line}")
    programs.lines(tally, "test_checked", "many", 100000, 4)
    for words in (1, 2, 4, 8):
        best = None
        for _ in range(5):
            said, cost = programs.lines(tally, "test", "many", 1000000, words)
            reached = 1000000 if words > 1 else 1
            slots = 2 if words > 2 else words - 1
            tally.expect("a million objects", numbers(said)[0], 0)
            if slots == 2:
                tally.expect("a million objects", numbers(said)[-2:], [reached, reached * words])
            length, memory, written, judged = re.findall(r"[\d.]+", cost)
            best = min(best or 9, float(written))
        tally.expect(f"memory for a million objects of {words} words", int(memory) <= 3 * int(length), True)
        tally.expect(f"seconds for a million objects of {words} words: {best}", best <= 0.3, True)
        print(f"writer: 1000000 objects of {words} words: {best:.3f} s, {int(memory) / int(length):.2f} times the image; judge {judged} s")


VM_LINES = {  # by error
    "slot": r"differ stale at root \d+( slot \d+| x \d+)*: object (0x[0-9a-f]+) before; "
            r"the word still is \2, which no object after has",
    "twice": r"differ split at root \d+( slot \d+| x \d+)*: object (0x[0-9a-f]+) before, object 0x[0-9a-f]+ after; "
             r"\2 before is 0x[0-9a-f]+ after on an earlier path",
    "torn": r"differ data at root \d+( slot \d+| x \d+)*: object 0x[0-9a-f]+ before, object 0x[0-9a-f]+ after; "
            r"data word \d+ is \d+ \(0x[0-9a-f]+\) before, \d+ \(0x[0-9a-f]+\) after",
}


def check_vm(tally, programs, options):
    for name, collections in (("vm", 60), ("vm_checked", 10)):
        for seed in range(options.runs):
            ran = programs.run(name, collections, seed, env={"VM_DEBUG": "1"})
            tally.expect(f"{name} {seed}: no error", (ran.returncode, ran.stderr), (0, ""))
    for bug, form in VM_LINES.items():
        happened = found = seed = 0
        while happened < options.runs and seed < 20 * options.runs:
            seed += 1
            ran = programs.run("vm" if seed % 4 else "vm_checked", 40, seed, env={"VM_DEBUG": "1", "VM_BUG": bug})
            times = int(re.search(r"error taken (\d+) times", ran.stdout)[1])
            happened += times > 0
            if times:
                said = re.match(rf"vm: collection \d+: {form}\n", ran.stdout)
                found += ran.returncode == 1 and bool(said)
                if ran.returncode != 1 or not said:
                    print(f"not found: VM_BUG={bug} seed {seed}: status {ran.returncode}\n{ran.stdout}{ran.stderr[-1500:]}")
            else:
                tally.expect(f"vm {bug} {seed}: the error did not happen", ran.returncode, 0)
        tally.count(f"vm: {bug}", options.runs, options.runs - found)
        print(f"vm: {bug}: found in {found} of {happened} runs where it happened, of {seed} in all")


def check_rust(tally, programs, options):
    if not shutil.which("cargo"):
        return print("rust: no cargo, left out")
    folder = programs.room / "lib"
    folder.mkdir()
    shutil.copyfile(options.archive, folder / "libg1judge.a")
    env = {**os.environ, "G1JUDGE": str(folder), "CARGO_TARGET_DIR": str(programs.room / "target")}
    made = subprocess.run(["cargo", "build", "--offline", "--release", "--quiet"], cwd=TOP / "examples/judge-rust", env=env)
    tally.expect("rust: cargo build", made.returncode, 0)
    files = examples()[:6] + [TOP / "examples/refused" / name for name in ("flags.img", "root.img", "slot.img")]
    wrong = 0
    for a in files:
        for b in files:
            wanted = by_heap(options.heap, a, b)
            ran = subprocess.run([programs.room / "target/release/judge-rust", a, b], capture_output=True, text=True)
            said = dict(zip(("", *FIELDS), wanted))
            line = {0: "same objects {objects} words {words}", 1: f"differ kind {{kind}}: root {{root}}, {{slots}} slots {wanted[15:]}: "
                    "{before} before, {after} after; {first} {second} {third}", 3: "image {image} fault {fault} at {at}"}[wanted[0]]
            wrong += (ran.returncode, ran.stdout) != (wanted[0], line.format(**said) + "\n")
    tally.count("rust", len(files) ** 2, wrong)
    lost, sets = 0, 0
    for file in files[:6]:
        image = from_bytes(file.read_bytes())
        for region in range(image.regions + 1):
            wanted = by_rule(image, image, (region,))
            ran = subprocess.run([programs.room / "target/release/judge-rust", file, file, str(region)], capture_output=True, text=True)
            said = dict(zip(("", *FIELDS), wanted))
            line = {0: "kept", 1: "lost {kind}: {first} {second} {third}", 5: "image {image} fault {fault} at {at}"}[wanted[0]]
            lost += (ran.returncode, ran.stdout.splitlines()[1:]) != (wanted[0], [line.format(**said)])
            sets += 1
    tally.count("rust, kept", sets, lost)
    print(f"rust: {len(files) ** 2} pairs, {sets} sets")


def check_page(tally, programs, options):
    """docs/LINK.md with the commands that need the archive, in a fresh copy of the checkout."""
    missing = [name for name in ("cargo", "pkg-config") if not shutil.which(name)]
    if missing:
        return print(f"page: no {missing[0]}, left out")
    plain = check_pages.copy_of

    def with_archive(checkout, target, built):
        plain(checkout, target, built)
        (target / "judge/out").mkdir(parents=True)
        shutil.copyfile(options.archive, target / "judge/out/libg1judge.a")
        (target / "judge/out/g1judge.pc").write_text(build_judge.pkg_config("${pcfiledir}", target / "include"))

    check_pages.copy_of = with_archive
    text = re.sub(r"<!-- not run: it needs the archive.*? -->\n", "\n", (TOP / "docs/LINK.md").read_text())
    steps, wrong = check_pages.check_page("docs/LINK.md", text, TOP, {})
    tally.count("docs/LINK.md", steps, len(wrong), "\n".join(wrong))
    print(f"page: {steps} commands")


CHECKS = {"headers": check_headers, "pc": check_pc, "mark": check_mark, "calls": check_calls, "stale": check_stale, "broken": check_broken, "kept": check_kept, "lines": check_lines, "null": check_null, "threads": check_threads,
          "refuse": check_refuse, "writer": check_writer, "vm": check_vm, "rust": check_rust, "page": check_page}


def main():
    parser = argparse.ArgumentParser(description=__doc__, formatter_class=argparse.RawDescriptionHelpFormatter)
    parser.add_argument("--heap", metavar="FILE", default=str(OUT / "g1heap"), type=program)
    parser.add_argument("--archive", metavar="FILE", default=TOP / "judge/out/libg1judge.a", type=pathlib.Path)
    parser.add_argument("--graphs", default=2000, type=int)
    parser.add_argument("--runs", default=20, type=int)
    parser.add_argument("--seed", default=1, type=int)
    parser.add_argument("--only", choices=CHECKS)
    options = parser.parse_args()
    if not options.archive.is_file():
        parser.error(f"{options.archive} is not there: tools/build_judge.py --unproved makes judge/out/libg1judge.a")
    options.archive = options.archive.resolve()
    tally = Tally()
    progress.show("tried", lambda: tally.passed)
    with tempfile.TemporaryDirectory() as room:
        try:
            programs = Programs(room, options.archive)
        except (OSError, subprocess.CalledProcessError) as error:
            sys.exit(f"test_judge.py: {error}")
        for name, check in CHECKS.items():
            if options.only in (None, name):
                check(tally, programs, options)
    print(f"{tally.passed} passed, {tally.failed} failed")
    sys.exit(0 if tally.passed and not tally.failed else 1)


if __name__ == "__main__":
    main()
