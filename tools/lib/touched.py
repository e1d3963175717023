"""Which files a change touches, by patterns: a module of tools/check_tables.py.

A row of docs/MAP.md, "What a change touches", has patterns, and all files that have one of them in a line. A pattern is a
regular expression of Python's, for files of the groups before it:

    sources, definitions: `a pattern`, `another`; scripts: `a third`

A bar in a pattern is written as `\\|`, since the row is one of a table.
"""
import collections
import re

TESTS = ("g1_examples", "g1_rows", "g1_testing", "g1_tests")
CODE = re.compile(r"`([^`\n]+)`")


def crate_files(tree, pattern):
    """The files of the library and of the programs."""
    return [path for path in tree.glob(f"crates/*/{pattern}") if path.relative_to(tree).parts[1] not in TESTS and path.name != "Lib.antt"]


GROUPS = {
    "sources": lambda tree: crate_files(tree, "src/**/*.rt"),
    "definitions": lambda tree: crate_files(tree, "specs/**/*.antt"),
    "headers": lambda tree: tree.glob("include/*.h"),
    "scripts": lambda tree: [path for folder in ("tools", "bench", "examples") for suffix in ("py", "js")
                             for path in tree.glob(f"{folder}/**/*.{suffix}")],
}


def patterns(cell):
    """The patterns of a cell, each with its group."""
    found = []
    for part in cell.split("; "):
        groups, _, codes = part.partition(": ")
        found += [(group.strip(), code.replace("\\|", "|")) for group in groups.split(",") for code in CODE.findall(codes)]
    return found


def having(tree, group, pattern):
    """The files of a group that have a pattern, by their paths below the tree or below crates/."""
    found = re.compile(pattern, re.M)
    paths = [path.relative_to(tree) for path in GROUPS[group](tree) if found.search(path.read_text())]
    return {str(path).removeprefix("crates/") for path in paths}


def files(tree, cell):
    """The files that the patterns of a cell find, and the patterns that find none."""
    found, empty = set(), []
    for group, pattern in patterns(cell):
        here = having(tree, group, pattern)
        found |= here
        empty += [] if here else [f"no file of {group} has {pattern}"]
    return found, empty


def compact(names):
    """Names as a row has them: those of a folder with one ending together."""
    folders = collections.defaultdict(list)
    for name in sorted(names):
        folder, _, file = name.rpartition("/")
        stem, _, ending = file.rpartition(".")
        folders[folder, ending].append(stem)
    return ", ".join(f"`{folder}/{{{','.join(stems)}}}.{ending}`" if len(stems) > 1 else f"`{folder}/{stems[0]}.{ending}`"
                     for (folder, ending), stems in folders.items())
