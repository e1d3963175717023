#!/usr/bin/env python3
"""planted.py [--every] [--jobs N] --all | CRATE ..

Tries the wrong bodies crates/CRATE/planted/*.edit, of all crates or of those that are named: the prover has to refuse
each function in which one is planted. With --every it also tries those in planted/beside/, which the
gate leaves out. It takes the libraries that `rt ci` left in crates/*/out, or builds those that are not there, or are
older than their sources and not what `rt ci` keeps for them.

A row is a must-fail edit (`rt help`) whose first line says what it turns:

  turns: FUNCTION: WHAT IT DOES WRONG     FUNCTION is the one that has to be refused, as a check prints it below its crate
  expect: proves                          in a row that changes nothing but the words: the check has to prove it
  file: src/FILE.rt
  old: TEXT
  new: TEXT

The rows of a crate are tried in one check of a copy. There each row has a function of its own, which is written behind
the others of its file: the function that it turns, under another name, with its contract and its proof. All functions
of the crate count by their contracts, which `rt ci` has just proved: in the copy their bodies are cut off, and a hole
is their proof. The copy of a program has no `main`, unless a row turns it: so it is checked as a library, for which the
prover reads no code of the libraries below. A method of a trait, a function that calls itself and a row that changes
more than its function are tried in place. If a function calls one that is tried in place and was refused, its row is
tried again without the other. Each crate with rows has one that proves, so that a check which refuses everything is
seen.

Of several crates as many are checked at once as there are processors, and as memory holds; with --jobs N as many as N,
like RT_JOBS=N. A check takes one process and up to some GB: give --jobs 1 if others work on the machine.

No row is ever run: the prover alone reads it. A program in which something was planted is run as an unprivileged user, since
it can write over any file that its user may write (CONTRIBUTING says how).

With --unchanged each row is tried without its change, and has to be proved: so a refusal is of the row and not of the
other name.

A row is bad if its text is not found, if it changes no line of its function, if it does not compile, if the prover
cannot read it, or if it is refused only because a proof names what the row took away.

The batches read what one kit prints. With another kit the rows are tried one by one by `rt must-fail`, which takes about
an hour. The rows that prove are not tried then, so a check which refuses everything is not seen, and --unchanged is
refused.

The last line is 'N refused, M failed'. Statuses: 0 if none failed, 1 if one did, 2 if nothing could be tried.
"""
import argparse
import collections
import importlib.machinery
import importlib.util
import json
import os
import pathlib
import re
import shutil
import subprocess
import sys
import tempfile
from concurrent.futures import ThreadPoolExecutor
from dataclasses import dataclass, field

sys.path.insert(0, str(pathlib.Path(__file__).resolve().parent / "lib"))

import progress  # noqa: E402 (it is in lib/)

ROOT = pathlib.Path(__file__).resolve().parent.parent
HEAD = re.compile(r"( *)(?:pub(?:\([^)]*\))? )?(?:const |unsafe |extern \"C\" )*fn (\w+)")
IMPL = re.compile(r"impl(<.*?>)? (?:([\w:]+)(<.*>)? for )?([\w:]+)")
OPENS = re.compile(r" *\{$|(?! *(?:requires|ensures|ghost)\b).* \{$")
TYPE = re.compile(r"^(?:pub(?:\(.*\))? )?(?:struct|enum) (\w+)", re.M)
# What a proof says of a name that a row took away.
NAMES = re.compile(r"has no field|is not in scope|has no `|was not admitted|is no name")
FAULT = re.compile(r"^(?:\./)?(src/\S+?):(\d+):\d+: error", re.M)
# The kits whose checks the batches can read: the logic is one, but what a check prints is a kit's own.
KITS = ("rattle-kit-13b", "rattle-kit-13f")
# What is said of a hole that is no proof of its function.
BAD_HOLE = re.compile(r"^(?:\./)?proofs/\S+/Proof\.antt:\S+ error|^error.*Proof\.antt", re.M)
REFUSED, PROVES, BAD, UNSETTLED = "refused", "NOT REFUSED", "BAD", "NOT SETTLED"


class Stop(Exception):
    """Nothing can be tried, and why."""


@dataclass
class Function:
    """Where a function is written: its file below the crate, its first line and its last, from 0."""
    name: str
    path: str
    first: int
    last: int
    opens: int  # the line that opens its body, or its last
    is_plain: bool  # its proof is its own: it shares no cycle of calls
    impl: list  # the lines that begin its impl block, if it has one


@dataclass
class Row:
    """A planted row: what it changes, by file and line, and what came of it."""
    label: str
    function: str = ""
    proves: bool = False
    lines: dict = field(default_factory=dict)
    touched: set = field(default_factory=set)
    is_alone: bool = False
    twin: str = ""  # the function of its own that it is tried in, if it isn't tried in place
    behind: int = 0  # how many lines lie between a line of the function and that of its twin
    verdict: str = ""
    why: str = ""

    def settle(self, verdict, why):
        self.verdict, self.why = verdict, why

    def is_well(self):
        return self.verdict == (PROVES if self.proves else REFUSED)

    def said(self):
        return f"proved, as it must be: {self.function}" if self.proves and self.is_well() else f"{self.verdict}: {self.why}"

    def asked(self):
        """The function that the check is asked for."""
        return self.twin or self.function

    def in_place(self, functions):
        """The lines that the row changes where they stand, by file: those of its function only if it has no twin."""
        own = functions[self.function]
        inside = lambda path, at: self.twin and path == own.path and own.first <= at <= own.last
        return {path: {at: new for at, new in lines.items() if not inside(path, at)} for path, lines in self.lines.items()}


def load_rt():
    """The kit's rt as a module, whose reading of edits and of crates.txt is used."""
    found = shutil.which("rt")
    if not found:
        raise Stop("rt is not on the path")
    sys.dont_write_bytecode = True
    loader = importlib.machinery.SourceFileLoader("kit_rt", os.path.realpath(found))
    module = importlib.util.module_from_spec(importlib.util.spec_from_loader("kit_rt", loader))
    loader.exec_module(module)
    return module


def module_of(path):
    parts = pathlib.PurePath(path).with_suffix("").parts[1:]
    return [part for part in parts if part not in ("lib", "main", "mod")]


def trait_of(impl):
    """How a check spells the trait of an impl in a method's name: with the types that it is given, if they are no parameters."""
    words = re.findall(r"\w+", impl[3] or "")
    return (impl[2] or "").rpartition("::")[2] + "".join(it for it in words if it not in re.findall(r"\w+", impl[1] or ""))


def functions_of(folder):
    """The functions of a crate, as `rt fmt` lays them out: each head on a line, and its end at the same column."""
    files = sorted(pathlib.Path(folder, "src").rglob("*.rt"))
    texts = {str(file.relative_to(folder)): file.read_text() for file in files}
    homes = {it: module_of(path) for path, text in texts.items() for it in TYPE.findall(text)}
    found = {}
    for path, text in texts.items():
        holder, begin, lines = [], [], text.split("\n")
        for number, line in enumerate(lines):
            head, impl = HEAD.match(line), IMPL.match(line)
            if impl:
                of = impl[4].rpartition("::")[2]
                # (another file may have a type of the same name)
                home = module_of(path) if of in TYPE.findall(text) else homes.get(of, module_of(path))
                holder = [*home, of + trait_of(impl)]
                begin = lines[number:1 + next((at for at in range(number, len(lines)) if lines[at].endswith("{")), number)]
            elif line.startswith("}"):
                holder, begin = [], []
            elif begin and line.startswith("    ghost use "):
                begin = [*begin, line]
            if head and len(head[1]) == 4 * bool(holder):
                last = next((at for at in range(number, len(lines)) if lines[at] == head[1] + "}"), number)
                name = "::".join([*(holder or module_of(path)), head[2]])
                above = lines[max(number - 3, 0):number]
                opens = next((at for at in range(number, last) if OPENS.match(lines[at])), last)
                found[name] = Function(name, path, number, last, opens, not any("#[cycle" in it for it in above), begin)
    return found


def changed(crate, texts):
    """The lines that differ from the crate's own, by file and number."""
    lines = {}
    for path, text in texts.items():
        before = pathlib.Path(crate.folder, path).read_text().split("\n")
        lines[path] = {at: new for at, (old, new) in enumerate(zip(before, text.split("\n"))) if old != new}
    return lines


def read_row(rt, crate, functions, file):
    """A row, settled as bad if it cannot be tried."""
    row = Row(f"{crate.name}/{file.stem}")
    text = file.read_text(errors="replace")
    texts, why = rt.read_edit(str(file), crate.folder)
    if why:
        row.settle(BAD, why)
        return row
    row.lines = changed(crate, texts)
    for path, lines in row.lines.items():
        before = pathlib.Path(crate.folder, path).read_text().split("\n")
        for at in lines:
            own = {it.name for it in functions.values() if it.path == path and it.first <= at <= it.last}
            row.touched |= own
            row.is_alone |= not own and not before[at].startswith("use ")
    turns = re.match(r"turns: (\S+): \S", text)
    row.function, row.proves = turns[1] if turns else "", bool(re.search(r"^expect: proves$", text, re.M))
    if not turns:
        row.settle(BAD, f"its first line is not 'turns: FUNCTION: WHAT'; it changes {' '.join(sorted(row.touched)) or 'no function'}")
    elif row.function not in row.touched:
        row.settle(BAD, f"it changes no line of {row.function}")
    elif not all(path.startswith("src/") for path in texts):
        row.settle(BAD, "a row changes src/ alone")
    elif may_have_twin(crate, functions[row.function], row):
        row.twin = f"{row.function}_turned_{file.stem}"
    return row


def may_have_twin(crate, function, row):
    """Whether a row can be tried in a function of its own, which nothing calls. The proof of one that calls itself, and of
    a method of a trait, is not its own."""
    lines = pathlib.Path(crate.folder, function.path).read_text().split("\n")
    body = [*lines[function.opens + 1:function.last], *(new for of in row.lines.values() for new in of.values())]
    of_a_trait = " for " in function.impl[0] if function.impl else False
    is_exported = any("no_mangle" in it for it in head_of(lines, function))
    return function.is_plain and not (row.is_alone or len(row.touched) > 1 or calls_itself(function, body) or of_a_trait or is_exported)


def calls_itself(function, body):
    """Whether a function calls itself, by its name: a method by its type or on `self`, for what another value's method of
    that name does is another's; any other function by its modules, if by anything."""
    *_, holder, name = ["", *function.name.split("::")]
    by = rf"\b(?:self\.|Self::|{holder}::)" if function.impl else r"(?<![\w.:])(?:[a-z_]\w*::)*"
    return any(re.search(rf"{by}{name}\(", it) for it in body)


def head_of(lines, function):
    """The attributes above a function."""
    first = function.first
    while first and re.match(r" *(#\[|//)", lines[first - 1]):
        first -= 1
    return lines[first:function.first]


def fits(row, batch, calls, functions):
    """Whether a row can be tried in one check with these: no line and no function in common, and no call between them. In
    functions of their own, rows share no more than lines that stand outside."""
    if row.is_alone or any(it.is_alone for it in batch):
        return not batch
    own = row.in_place(functions)
    for it in batch:
        shares = any(line in own.get(path, {}) for path, lines in it.in_place(functions).items() for line in lines)
        called = not it.twin and it.function in calls.get(row.function, ())
        calls_it = not row.twin and row.function in calls.get(it.function, ())
        meets = not (row.twin or it.twin) and (row.function in it.touched or it.function in row.touched)
        if shares or called or calls_it or meets:
            return False
    return True


def next_batch(rows, calls, functions):
    batch = []
    for row in rows:
        if fits(row, batch, calls, functions):
            batch.append(row)
    return batch


class Trial:
    """The trial of a crate's rows, over a folder of its own in which the prover keeps what it has read."""

    def __init__(self, rt, crate, functions, kept, is_unchanged):
        self.rt, self.crate, self.functions, self.kept, self.is_unchanged = rt, crate, functions, kept, is_unchanged
        self.calls, self.with_holes = {}, True

    def run(self, rows):
        """Tries the rows that are not settled, in as few checks as there have to be."""
        while left := [row for row in rows if not row.verdict]:
            batch = next_batch(left, self.calls, self.functions)
            said = self.check(batch)
            if self.with_holes and self.is_of_a_hole(batch, said):
                self.with_holes = False
                continue
            self.read(batch, said)
            if not any(row.verdict for row in batch):
                self.part(batch, said)

    def part(self, batch, said):
        """Has each row of a batch of which nothing was said be tried by itself, in place; a single one is not settled by more."""
        is_last = len(batch) == 1 and not batch[0].twin
        for row in batch:
            row.is_alone, row.twin, row.behind = True, "", 0
        if is_last:
            batch[0].settle(UNSETTLED, next((it for it in said.split("\n") if "error" in it), said[-200:]).strip()[:200])

    def is_of_a_hole(self, batch, said):
        """Whether the check refuses what leave_open wrote: then the crate's functions are checked as they are."""
        touched = {name for row in batch if not row.twin for name in row.touched}
        others = [it for it in self.functions.values() if it.name not in touched]
        faults = [(path, int(line) - 1) for path, line in FAULT.findall(said)]
        in_others = any(it.path == path and it.first <= line <= it.last for it in others for path, line in faults)
        return in_others or bool(BAD_HOLE.search(said))

    def check(self, batch):
        """Checks the functions of a batch in a copy of the crate that has its rows, and returns what the prover says."""
        with tempfile.TemporaryDirectory(prefix="planted-") as room:
            for part in self.rt.rtlib.PARTS:
                if os.path.isdir(f"{self.crate.folder}/{part}"):
                    shutil.copytree(f"{self.crate.folder}/{part}", f"{room}/{part}")
            for path in {path for row in batch for path in row.lines}:
                lines = pathlib.Path(room, path).read_text().split("\n")
                for row in batch:
                    for at, new in row.in_place(self.functions).get(path, {}).items():
                        lines[at] = lines[at] if self.is_unchanged else new
                pathlib.Path(room, path).write_text("\n".join(lines))
            for row in batch:
                if row.twin:
                    self.add_twin(room, row)
            if "main" in self.functions and not any("main" in row.touched for row in batch):
                self.take_main(room)
            asked = {row.asked() for row in batch}
            if self.with_holes:
                for function in self.functions.values():
                    if function.is_plain and function.opens < function.last - 1 and function.name not in {*asked, "main"}:
                        self.leave_open(room, function)
            flags = ["--jobs", "1", "--allow-holes", *(word for name in sorted(asked) for word in ("--only", name))]
            lib = self.rt.rtlib
            words = [lib.RATTLE, "check", *self.crate.words(flags, keeps=False), "--incremental", self.kept]
            how = {"cwd": room, "stdin": subprocess.DEVNULL, "stdout": subprocess.PIPE, "stderr": subprocess.STDOUT}
            return subprocess.run([*lib.guarded(), *words], **how, errors="replace").stdout

    def take_main(self, room):
        """Takes `main` from a copied program, which is then checked as a library."""
        function = self.functions["main"]
        file = pathlib.Path(room, function.path)
        lines = file.read_text().split("\n")
        first = function.first - len(head_of(lines, function))
        lines[first:function.last + 1] = [""] * (function.last + 1 - first)
        file.write_text("\n".join(lines))

    def add_twin(self, room, row):
        """Writes a row's function, as the row turns it, behind the others of its file, and its proof beside theirs."""
        function, name = self.functions[row.function], row.twin.rpartition("::")[2]
        own = pathlib.Path(self.crate.folder, function.path).read_text().split("\n")
        file = pathlib.Path(room, function.path)
        lines = file.read_text().split("\n")
        begin = [*function.impl, *head_of(own, function)]
        row.behind = len(lines) + len(begin) - function.first
        turned = {} if self.is_unchanged else row.lines.get(function.path, {})
        body = [turned.get(at, own[at]) for at in range(function.first, function.last + 1)]
        was = function.name.rpartition("::")[2]
        body[0] = re.sub(rf"\bfn {was}\b", f"fn {name}", body[0])
        file.write_text("\n".join([*lines, *begin, *body, *(["}"] if function.impl else []), ""]))
        folder = pathlib.Path(self.crate.folder, "proofs", *function.name.split("::"))
        for of in (folder, folder.parent / "fn" / was):
            if of.is_dir():
                shutil.copytree(of, pathlib.Path(room, of.relative_to(self.crate.folder)).with_name(name))
        place = f"proofs.{'.'.join(function.name.split('::'))}"
        for proof in pathlib.Path(room, "proofs", *row.twin.split("::")).rglob("*.antt"):
            proof.write_text(re.sub(rf"\b{re.escape(place)}(?=[.\s])", f"{place[:-len(was)]}{name}", proof.read_text()))

    def leave_open(self, room, function):
        """Has the check take a function by its contract: its body is cut off, and its proof is a hole."""
        file = pathlib.Path(room, function.path)
        lines = file.read_text().split("\n")
        body = range(function.opens + 1, function.last)
        lines[body.start:body.stop] = ["unreachable!()", *[""] * (len(body) - 1)]
        file.write_text("\n".join(lines))
        path = function.name.split("::")
        folder = pathlib.Path(room, "proofs", *path)
        folder.mkdir(parents=True, exist_ok=True)
        for old in ("Invariants.antt", "Answers.antt"):
            folder.joinpath(old).unlink(missing_ok=True)
        shutil.rmtree(folder.parent / "fn" / path[-1], ignore_errors=True)
        statement = f"Rattle.{self.crate.name}.proofs.{'.'.join(path)}.Statement.{{statement}}"
        proof = f"pub {path[-1]}_spec : {{M : Type 1}} → statement M\n{path[-1]}_spec = ?\n"
        folder.joinpath("Proof.antt").write_text(f"use {statement}\n\n{proof}")

    def read(self, batch, said):
        """Settles those rows of a batch of which the check says enough."""
        if self.rt.rtlib.STALE.search(said):
            raise Stop(f"{self.crate.name}: a library below cannot be used: remove crates/*/out")
        lines = said.split("\n")
        faults = [FAULT.match(it) for it in lines]
        is_read = any(it.startswith("only=") for it in lines)
        for row in batch:
            own = [it for it in faults if it and self.is_of(row, it[1], int(it[2]) - 1)]
            if own and (not is_read or any(self.rt.unread(it.string, row.lines) for it in own)):
                row.settle(BAD, self.as_written(row, own[0])[:200])
        if is_read:
            asked = {row.asked() for row in batch}
            for row in batch:
                if not row.verdict:
                    self.read_function(row, asked - {row.asked()}, lines)

    def is_of(self, row, path, line):
        return self.is_inside(row, path, line) or line in row.in_place(self.functions).get(path, {})

    def is_inside(self, row, path, line):
        """Whether a line is one of the function in which a row is tried."""
        function = self.functions[row.function]
        return path == function.path and function.first <= line - row.behind <= function.last

    def as_written(self, row, fault):
        """What a fault says, with the line that the function has in the crate."""
        path, line = fault[1], int(fault[2])
        told = line - row.behind if self.is_inside(row, path, line - 1) else line
        return fault.string.replace(f"{path}:{line}:", f"{path}:{told}:", 1)

    def read_function(self, row, others, lines):
        """Settles a row by the line of its function, unless that calls another of the batch which was refused."""
        head = f"fn {self.crate.name}::{row.asked()}: "
        told = next((it[len(head):] for it in lines if it.startswith(head)), "")
        called = {it.partition("::")[2] for it in re.findall(r"`([\w:]+)`", told.partition("it calls ")[2])}
        # (what a hole is the proof of is not proved either, and is no reason)
        called = called & others if self.with_holes else called
        if called:
            self.calls.setdefault(row.function, set()).update(called)
        elif told.startswith(("proved", "no holes", "depends on a hole in")):
            row.settle(PROVES, f"{row.function} is proved with it")
        elif told.startswith(("no proof", "not proved")):
            self.settle_refused(row, told, lines)
        elif told:
            row.settle(UNSETTLED, told[:200])

    def settle_refused(self, row, told, lines):
        goals = re.search(r"`search` did not prove (.*?)(?:;|$)", told)
        folder = "proofs/" + row.asked().replace("::", "/") + "/"
        is_fault = re.compile(rf"(?:\./)?{re.escape(folder)}\S+ error").match
        # (a long one goes on in the line behind it)
        faults = [f"{it} {more.strip()}" if more.startswith("  ") else it for it, more in zip(lines, [*lines[1:], ""]) if is_fault(it)]
        reasons = [it for it in faults if not NAMES.search(it)]
        function = self.functions[row.function]
        notes = [re.match(r"note: (\S+?):(\d+):\d+: (.*)", it) for it in lines]
        own = [it[3] for it in notes if it and self.is_of(row, it[1], int(it[2]) - 1)]
        if goals:
            row.settle(REFUSED, f"{function.name}: not proved: {goals[1]}")
        elif reasons:
            row.settle(REFUSED, f"{function.name}: its proof no longer fits: {reasons[0].partition(' error: ')[2]}")
        elif own:
            row.settle(REFUSED, f"{function.name}: {own[0]}")
        elif faults:
            row.settle(BAD, f"only its proof refuses it, which names what the row took away: {faults[0][:160]}")
        else:
            row.settle(REFUSED, f"{function.name}: {told}")


def is_fresh(dep):
    """Whether rt ci built this library after all that it is made from was written; it leaves no stamp."""
    made = pathlib.Path(dep.rlib, "format")
    if not made.is_file() or os.path.exists(f"{dep.folder}/out/rlib/stamp"):
        return False
    parts = [pathlib.Path(it.folder, part) for it in [dep, *dep.below()] for part in ("src", "specs", "proofs")]
    newest = max((file.stat().st_mtime for part in parts for file in part.rglob("*")), default=0)
    return newest <= made.stat().st_mtime


def is_kept(rt, kept, crate):
    """Whether the library that stands there is, by its sums, the one that rt ci keeps for the crate's files."""
    entry = pathlib.Path(kept.place(crate, False, kept.key(crate)), "made.json")
    made = json.loads(entry.read_text())["files"] if entry.is_file() else []
    return bool(made) and all(rt.rtlib.sum_of(f"{crate.folder}/out/{path}") == kept_sum for path, kept_sum in made)


def kept_libraries(rt):
    """The names of the libraries that rt ci took from an earlier run: in a new checkout they are older than their sources."""
    names = set()
    try:
        rt.Crate.allowed = rt.handles_of(str(ROOT))
        crates = [it for it in rt.crates_of(str(ROOT)) if it.makes_rlib()]
        kept = rt.Kept(crates)
        for crate in crates:
            if all(it.name in names for it in crate.below()) and is_kept(rt, kept, crate):
                names.add(crate.name)
            kept.is_built(crate)
    except (AttributeError, KeyError, OSError, SystemExit, TypeError, ValueError):
        return set()  # this rt keeps them in another way
    return names


def files_of(folder, every):
    """The rows of a crate that are tried: those of planted/, and if every one is asked for those of planted/beside/, too."""
    files = sorted(pathlib.Path(folder, "planted").glob("*.edit")) + sorted(pathlib.Path(folder, "planted/beside").glob("*.edit")) * every
    twice = [name for name, count in collections.Counter(it.name for it in files).items() if count > 1]
    if twice:
        raise Stop(f"{pathlib.Path(folder).name}: two rows have the name {twice[0]}")
    return files


def build_libraries(crate, kept):
    """Has the libraries below a crate built: as rt ci left them, or as rt must-fail builds them."""
    if not all(dep.name in kept or is_fresh(dep) for dep in crate.below()):
        for dep in crate.below():
            if dep.build_rlib(["--jobs", "1"], anew=False):
                raise Stop(f"{crate.name}: its library {dep.name} is not proved")


def try_crate(rt, crate, every, is_unchanged):
    functions = functions_of(crate.folder)
    rows = [read_row(rt, crate, functions, file) for file in files_of(crate.folder, every)]
    if not any(row.proves for row in rows):
        rows.append(Row(f"{crate.name}/planted", verdict=BAD, why="no row of this crate is one that proves"))
    if is_unchanged:
        rows = [row for row in rows if row.twin]
        for row in rows:
            row.proves = True
    with tempfile.TemporaryDirectory(prefix="planted-kept-") as kept:
        Trial(rt, crate, functions, kept, is_unchanged).run(rows)
    print("\n".join(f"planted {row.label}: {row.said()}" for row in rows), flush=True)
    return rows


def require_rows(names, crates):
    """Stops if a crate that is named has no rows, or if no crate has any."""
    unknown = set(names) - set(crates)
    if unknown or not crates:
        raise Stop(f"no rows: {', '.join(sorted(unknown)) or 'crates/*/planted'}")


def try_all(names, every, is_unchanged):
    """Tries the rows of these crates, or of all, side by side as rt ci tries edits."""
    os.chdir(ROOT)
    rt = load_rt()
    rt.rtlib.guarded()
    crates = [it for it in rt.rtlib.crates_below(str(ROOT)) if os.path.isdir(f"{it.folder}/planted")]
    require_rows(names, [it.name for it in crates])
    crates = [it for it in crates if not names or it.name in names]
    kept = set() if all(is_fresh(dep) for crate in crates for dep in crate.below()) else kept_libraries(rt)
    for crate in crates:
        build_libraries(crate, kept)
    work = {(it.name, "edits"): ([], it.count(rb"\n"), rt.need(it), lambda given, jobs, it=it: try_crate(rt, it, every, is_unchanged)) for it in crates}
    return [row for rows in rt.in_lanes(work).values() for row in rows]


def tried_by_rt(name, every, lanes):
    """Has `rt must-fail` try a crate's rows in the place of its must-fail edits, as many at once, and returns what it says of each."""
    folder = ROOT / "crates" / name / "must-fail"
    rows = {file.name: file.read_text() for file in files_of(folder.parent, every)}
    with tempfile.TemporaryDirectory(prefix="planted-aside-") as aside:
        if folder.is_dir():
            shutil.move(folder, aside)
        try:
            folder.mkdir()
            for file, text in rows.items():
                if not re.search(r"^expect: proves$", text, re.M):
                    folder.joinpath(file).write_text(re.sub(r"^turns: .*\n", "", text))
            said = subprocess.run(["rt", "must-fail", name], cwd=ROOT, stdout=subprocess.PIPE, stderr=subprocess.STDOUT, text=True,
                                  env={**os.environ, **lanes}).stdout
        finally:
            shutil.rmtree(folder)
            if pathlib.Path(aside, "must-fail").is_dir():
                shutil.move(pathlib.Path(aside, "must-fail"), folder)
    wanted = [file for file, text in rows.items() if not re.search(r"^expect: proves$", text, re.M)]
    return [row_by_rt(name, file, said) for file in wanted]


def row_by_rt(name, file, said):
    row = Row(f"{name}/{pathlib.Path(file).stem}")
    told = re.search(rf"must-fail {name}/{re.escape(file)}: (.*)", said)
    is_refused = told and told[1].startswith("refused, as it must be")
    row.settle(REFUSED if is_refused else UNSETTLED, told[1][:200] if told else said[-200:].strip())
    return row


def try_all_by_rt(names, every, jobs):
    """Tries the rows of these crates, or of all, one by one: a crate a processor, or as many crates at once as are asked for."""
    crates = sorted(it.parent.name for it in ROOT.glob("crates/*/planted"))
    require_rows(names, crates)
    lanes = {"RT_JOBS": "1"} if jobs else {}
    with ThreadPoolExecutor(jobs or os.cpu_count() or 1) as pool:
        tried = list(pool.map(lambda name: tried_by_rt(name, every, lanes), [it for it in crates if not names or it in names]))
    rows = [row for rows in tried for row in rows]
    print("\n".join(f"planted {row.label}: {row.said()}" for row in rows), flush=True)
    return rows


def is_known_kit():
    if not shutil.which("rt"):
        raise Stop("rt is not on the path")
    version = subprocess.run(["rt", "version"], stdout=subprocess.PIPE, text=True).stdout
    return version.startswith(tuple(f"{it} " for it in KITS))


def try_with_this_kit(names, every, is_unchanged, jobs):
    """Tries the rows of these crates, or of all: of as many crates at once, if a number is given."""
    if is_known_kit():
        if jobs:
            os.environ["RT_JOBS"] = str(jobs)  # that is where rt looks
        return try_all(names, every, is_unchanged)
    if is_unchanged:
        raise Stop(f"--unchanged is for {' and '.join(KITS)}, and rt is of another kit")
    return try_all_by_rt(names, every, jobs)


def count(text):
    """A number from 1 on, as the type of an argument."""
    if not (text.isascii() and text.isdigit() and int(text)):
        raise argparse.ArgumentTypeError(f"'{text}' is no number from 1 on")
    return int(text)


def main():
    parser = argparse.ArgumentParser(description=__doc__, formatter_class=argparse.RawDescriptionHelpFormatter)
    parser.add_argument("crates", metavar="CRATE", nargs="*", help="a crate with rows")
    parser.add_argument("--all", action="store_true", help="all crates with rows")
    parser.add_argument("--every", action="store_true", help="try the rows in planted/beside/, too")
    parser.add_argument("--unchanged", action="store_true", help="try the rows that have a function of their own without their changes")
    parser.add_argument("--jobs", type=count, metavar="N", help="how many crates are checked at once (default: as many as there are "
                        "processors and memory for, or RT_JOBS)")
    options = parser.parse_args()
    if options.all == bool(options.crates):
        parser.error("either --all or crates")
    try:
        progress.show("trying the wrong bodies", lambda: None)
        rows = try_with_this_kit(options.crates, options.every, options.unchanged, options.jobs)
    except (Stop, OSError, AttributeError) as error:
        print(f"planted.py: {error}", file=sys.stderr)
        return 2
    failed = [row for row in rows if not row.is_well()]
    for row in failed:
        print(f"planted: FAILED: {row.label}: {row.said()}")
    print(f"{sum(row.is_well() and not row.proves for row in rows)} refused, {len(failed)} failed")
    return 1 if failed else 0


if __name__ == "__main__":
    sys.exit(main())
