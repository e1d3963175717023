#!/usr/bin/env python3
"""repeated_lemmas.py [--crate NAME ..] [CHECKOUT]

Lists the statements that the proofs have more than once, up to the names of bound variables: those of crates/*/proofs.
The parameters of a module belong to the statements in it. Answers to the checker's goals are left out, and so are the
statements behind a `where`, and what is a number or a list and states nothing. Types of one name that two crates declare
are two types. A statement that is said twice in other words is not found.

For each there is a line 'N times: STATEMENT' with variables numbered, and behind it a line for each place: file, line,
name. The last line is 'N statements stand M times'. Statuses: 0 none; 1 some; 2 usage.
"""
import argparse
import collections
import pathlib
import re
import sys
from typing import NamedTuple

TOP = pathlib.Path(__file__).resolve().parent.parent
TOKEN = re.compile(r"[(){},;.]|[^\s(){},;.]+(?:\.[^\s(){},;.]+)*")
NAMED = re.compile(r"(?:pub )?([^\s:(){}=.]+) : (.+)")
MODULE = re.compile(r"module _ (.+) where")
IMPORT = re.compile(r"(?:pub )?use (Rattle\.(g1\w*)\.\S+)\.\{(.+)\}")
DEFINED = re.compile(r"\s*(?:pub )?(?:abbrev|record|data) (?:pub )?(\S+)")
# What has values, which are no proofs.
VALUES = re.compile(r"(?:.* → )?(?:ℕ|Bool|List .*)")
# What begins a declaration that states nothing.
OTHERS = ("abbrev ", "data ", "record ", "use ", "module ", "pub use ", "pub data ", "pub record ", "abbrev pub ", "--")


class Statement(NamedTuple):
    file: pathlib.Path
    line: int
    name: str
    text: str


def indent_of(line):
    return len(line) - len(line.lstrip())


def whole(lines, at):
    """A declaration that begins at a line: that line and those behind it that stand further right."""
    text, indent = [lines[at].strip()], indent_of(lines[at])
    for line in lines[at + 1:]:
        if not line.strip() or indent_of(line) <= indent:
            break
        text.append(line.strip())
    return " ".join(text)


def owners(lines, crate):
    """The crate that each name is of which a file imports from one, or defines. What the checker makes of a call is that
    call's own."""
    found = {}
    for line in lines:
        if at := IMPORT.fullmatch(line.strip()):
            for name in at[3].split(","):
                found[name.split(" as ")[-1].strip()] = at[1] if at[1].endswith(".Goals") else at[2]
        elif at := DEFINED.match(line):
            found[at[1]] = crate
    return found


def statements(file):
    """The statements of a file, each with the parameters of the modules that it is in."""
    lines, modules = file.read_text().splitlines(), []
    crate = file.parts[len(file.parts) - 1 - file.parts[::-1].index("proofs") - 1]
    of = owners(lines, crate)
    for at, line in enumerate(lines):
        if not line.strip():
            continue
        indent = indent_of(line)
        while modules and indent < modules[-1][0]:
            modules.pop()
        if indent != (modules[-1][0] if modules else 0):
            continue
        module = MODULE.fullmatch(whole(lines, at)) or MODULE.match(line.strip())
        if module:
            modules.append((indent + 2, module[1]))
            continue
        named = NAMED.fullmatch(whole(lines, at))
        if named and not line.strip().startswith(OTHERS) and not named[2].startswith("goal.") and not VALUES.fullmatch(named[2]):
            yield Statement(file, at + 1, named[1], numbered(" → ".join([*(said for _, said in modules), named[2]]), of))


def binders(tokens, at):
    """The variables that are bound behind an opening bracket or a λ, and where they end; none if it binds nothing."""
    end = at + 1
    while end < len(tokens) and tokens[end] not in "(){},;.:=" and tokens[end] not in ("→", "λ"):
        end += 1
    closes = "." if tokens[at] == "λ" else ":"
    return tokens[at + 1:end] if end < len(tokens) and tokens[end] == closes else []


def closing(tokens, at):
    """Where the bracket closes that opens at a token."""
    depth = 0
    for end in range(at, len(tokens)):
        depth += (tokens[end] in ("(", "{")) - (tokens[end] in (")", "}"))
        if depth == 0:
            return end
    return len(tokens) - 1


def spread(tokens):
    """The tokens with brackets of their own for each variable: (x y : T) is (x : T) (y : T)."""
    at = 0
    while at < len(tokens):
        names = binders(tokens, at) if tokens[at] in ("(", "{") else []
        if len(names) > 1:
            end = closing(tokens, at)
            behind = tokens[at + 1 + len(names):end + 1]
            tokens[at:end + 1] = [token for name in names for token in (tokens[at], name, *behind)]
        at += 1
    return tokens


def numbered(text, of):
    """The statement with a number in place of each bound variable, and the crate before each name that is of one."""
    # `λ x. y` has its dot behind the name
    tokens = spread(TOKEN.findall(re.sub(r"(λ [^.]*)\.", r"\1 . ", text)))
    known, out, count = {}, [], 0
    for at, token in enumerate(tokens):
        if token in ("(", "{", "λ"):
            for name in binders(tokens, at):
                known[name] = f"v{count}"
                count += 1
        first, dot, rest = token.partition(".")
        out.append((known[first] if first in known else f"{of[first]}.{first}" if first in of else first) + dot + rest)
    # (A : T) (B : U) and (A : T) → (B : U) bind the same
    return re.sub(r"([)}]) → (?=[({]\s*v)", r"\1 ", " ".join(out))


def repeated(top, crates):
    """What stands more than once, the most often first."""
    found = collections.defaultdict(list)
    for file in sorted(top.glob("crates/*/proofs/**/*.antt")):
        if crates and file.relative_to(top).parts[1] not in crates:
            continue
        for said in statements(file):
            found[said.text].append(said)
    return sorted(((text, places) for text, places in found.items() if len(places) > 1), key=lambda it: -len(it[1]))


def main():
    parser = argparse.ArgumentParser(description=__doc__, formatter_class=argparse.RawDescriptionHelpFormatter)
    parser.add_argument("--crate", action="append", default=[], metavar="NAME", help="only the proofs of this crate")
    parser.add_argument("checkout", nargs="?", type=pathlib.Path, default=TOP, metavar="CHECKOUT")
    options = parser.parse_args()
    groups = repeated(options.checkout, options.crate)
    for text, places in groups:
        print(f"{len(places)} times: {text}")
        for place in places:
            print(f"    {place.file.relative_to(options.checkout)}:{place.line} {place.name}")
    print(f"{len(groups)} statements stand {sum(len(places) for _, places in groups)} times")
    return 1 if groups else 0


if __name__ == "__main__":
    sys.exit(main())
