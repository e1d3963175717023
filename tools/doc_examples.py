#!/usr/bin/env python3
"""doc_examples.py [--list] [CRATE ..]

Runs the examples in the doc comments of all crates, or of these, as tests and without any proof. An example is a block
between two lines ``` in the doc comment of a `pub fn`. A block that is marked, as ```text, is none. The block is the body of a
test: `rt` is its HostRuntime, `alloc` its allocator, and `?` takes any error that has Debug. The examples are one crate of tests
in a copy of the repository, which `rt try` compiles and runs in a minute or two. It needs `rt`, the kit's command.

For each example that fails there is a line 'FILE:LINE: FUNCTION failed', and below it what the test said. The last line is
'N passed, M failed'.

With --list it builds nothing, and prints the place and the function of each example. The last line is then 'N examples of M
public calls'. The public calls are those of g1_pause and of the crates below it: each `pub fn` that its crate's lib.rt names in a
`pub use`, and each `pub fn` of a type that it names so. A trait's methods are none, and neither is what laws.rt has.
Statuses: 0 all passed, or they are listed; 1 some failed; 2 usage, or nothing was built.
"""
import argparse
import pathlib
import re
import subprocess
import sys
from typing import NamedTuple

sys.path.insert(0, str(pathlib.Path(__file__).resolve().parent / "lib"))

import progress  # noqa: E402
import unproved  # noqa: E402

TOP = pathlib.Path(__file__).resolve().parent.parent
TESTS = "g1_doc_examples"  # the crate of the tests
FENCE = "```"
OWNER = re.compile(r"impl(?:<.*>)? (\w+)")
FUNCTION = re.compile(r"pub (?:const |unsafe )*fn (\w+)")
EXPORT = re.compile(r"^pub use ([\w:]+)(?:::\{([^}]*)\})?;", re.M)
# What stands before an example, in as many lines.
HEAD = """use std::test::Fail;

#[test]
fn {name}(rt: HostRuntime) -> Result<(), Fail> {{ let alloc = rt.alloc();
"""
TAIL = "    Ok(())\n}\n"
TOLD = re.compile(r"^test e(\d+)::\w+ \.\.\. (\w+)\n((?:    .*\n)*)", re.M)
PLACE = re.compile(r"\bsrc/e(\d+)\.rt:(\d+)")


class Call(NamedTuple):
    """A `pub fn`, its type if it is a method, and the lines of its doc comment by their numbers."""
    file: str
    owner: str
    name: str
    comment: list

    def crate(self):
        return self.file.split("/")[1]

    def title(self):
        return "::".join(filter(None, [self.crate(), self.owner, self.name]))


class Example(NamedTuple):
    """A block of a doc comment, and the number of the line before its first."""
    call: Call
    line: int
    text: list

    def place(self):
        return f"{self.call.file}:{self.line}: {self.call.title()}"

    def test(self):
        name = self.call.title().replace("::", "_").lower()
        return HEAD.format(name=name) + "".join(f"    {line}".rstrip() + "\n" for line in self.text) + TAIL


def calls(file, text):
    """Each `pub fn` of a file."""
    owner, comment = "", []
    for number, line in enumerate(text.splitlines(), 1):
        said = line.strip()
        if line.startswith("impl"):
            owner = (OWNER.match(line) or [None, ""])[1]
        elif line == "}":
            owner = ""
        if said.startswith("///"):
            comment.append((number, said[3:].removeprefix(" ")))
        elif not said.startswith("#["):
            found = FUNCTION.match(said)
            if found:
                yield Call(file, owner, found[1], comment)
            comment = []


def examples(call):
    """Each example in the doc comment of a call."""
    mark = None
    for number, line in call.comment:
        if mark is None and line.startswith(FENCE):
            mark, begin, text = line, number, []
        elif line == FENCE:
            if mark == FENCE:
                yield Example(call, begin, text)
            mark = None
        elif mark is not None:
            text.append(line)
    if mark is not None:
        raise unproved.NotBuilt(f"{call.file}:{begin}: the block has no end")


def dependencies(top):
    """The crates of crates.txt, each with those that its line names."""
    lines = [line.split("#")[0].partition(":") for line in (top / "crates.txt").read_text().splitlines()]
    return {crate.split()[0]: rest.split() for crate, _, rest in lines if crate.split()}


def below(needs, crates):
    """These crates and all below them."""
    found, left = set(), list(crates)
    while left:
        crate = left.pop()
        if crate not in found:
            found.add(crate)
            left += needs.get(crate, [])
    return found


def exported(root):
    """What the text of a lib.rt makes public: names with the modules that they come from."""
    found = set()
    for path, names in EXPORT.findall(root):
        module, _, last = path.rpartition("::")
        found |= {(path, name.strip()) for name in names.split(",") if name.strip()} if names else {(module, last)}
    return found


def is_public(call, root):
    """Whether a crate with this text of lib.rt lets its users make the call."""
    names = exported(root)
    if call.owner:
        return call.owner in {name for _, name in names}
    return (pathlib.PurePath(call.file).stem, call.name) in names


def found_in(top, crates):
    """Each `pub fn` of these crates."""
    for crate in crates:
        for path in sorted((top / "crates" / crate / "src").rglob("*.rt")):
            yield from calls(str(path.relative_to(top)), path.read_text(encoding="utf-8"))


def count_public(top, found):
    """How many of the calls are public ones of the pause."""
    ours, roots = below(dependencies(top), ["g1_pause"]), {}
    for crate in ours & {call.crate() for call in found}:
        roots[crate] = (top / "crates" / crate / "src" / "lib.rt").read_text(encoding="utf-8")
    return sum(call.crate() in roots and is_public(call, roots[call.crate()]) for call in found)


def in_place(shown, said):
    """What `rt try` said of the tests, with the places of the examples."""
    head = HEAD.count("\n")
    return PLACE.sub(lambda found: f"{shown[int(found[1])].call.file}:{shown[int(found[1])].line + int(found[2]) - head}", said)


def run(top, shown):
    """What became of each example: whether it passed, and what its test said."""
    needs = dependencies(top)
    with unproved.changed(top, []) as copy:
        source = copy / "crates" / TESTS / "src"
        source.mkdir(parents=True)
        for number, example in enumerate(shown):
            (source / f"e{number}.rt").write_text(example.test(), encoding="utf-8")
        modules = "".join(f"#[cfg(test)]\nmod e{number};\n" for number in range(len(shown)))
        (source / "lib.rt").write_text(f"//! The examples.\n#![tactic(auto)]\n\n{modules}", encoding="utf-8")
        named = set(re.findall(r"\bg1_\w+", "\n".join(line for example in shown for line in example.text))) & set(needs)
        with open(copy / "crates.txt", "a", encoding="utf-8") as file:
            file.write(f"{TESTS}: {' '.join(sorted(named))}\n")
        done = subprocess.run(["rt", "try", "--test"], cwd=source.parent, stdin=subprocess.DEVNULL, capture_output=True,
                              text=True, errors="replace", check=False)
    told = {int(number): (became == "ok", in_place(shown, said)) for number, became, said in TOLD.findall(done.stdout)}
    if len(told) != len(shown):
        raise unproved.NotBuilt("rt try refused them:\n" + in_place(shown, done.stdout + done.stderr).strip()[-5000:])
    return [told[number] for number in range(len(shown))]


def main():
    parser = argparse.ArgumentParser(description=__doc__, formatter_class=argparse.RawDescriptionHelpFormatter)
    parser.add_argument("--list", action="store_true", help="print each example's place and function, and build nothing")
    parser.add_argument("crates", metavar="CRATE", nargs="*", help="the crates whose examples are run (default: all)")
    options = parser.parse_args()
    known = list(dependencies(TOP))
    for crate in options.crates:
        if crate not in known:
            parser.error(f"crates.txt has no crate {crate}")
    found = list(found_in(TOP, options.crates or known))
    try:
        shown = [example for call in found for example in examples(call)]
        if options.list:
            print("".join(f"{example.place()}\n" for example in shown), end="")
            print(f"{len(shown)} examples of {count_public(TOP, found)} public calls")
            return 0
        if not shown:
            parser.error("there is no example")
        with progress.doing("running the examples"):
            became = run(TOP, shown)
    except unproved.NotBuilt as error:
        print(f"{parser.prog}: {error}", file=sys.stderr)
        return 2
    for example, (is_right, said) in zip(shown, became):
        if not is_right:
            print(f"{example.place()} failed\n{said}", end="")
    failed = sum(not is_right for is_right, _ in became)
    print(f"{len(became) - failed} passed, {failed} failed")
    return 1 if failed else 0


if __name__ == "__main__":
    sys.exit(main())
