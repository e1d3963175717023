#!/usr/bin/env python3
"""Checks the tables of docs/DEFINITIONS.md, MAP.md and PROMISED.md against the tree: check_tables.py [--touched] [CHECKOUT]

Of DEFINITIONS:
  - the numbered rows are the files that the headline depends on: those that docs/HEADLINE.md names, and what they import,
    as far as it is in a specs/ folder of ours; the page's count of these files and of their lines is right;
  - each file of specs/ is in one row, and each file of a row exists (Lib.antt, which only lists a crate's files, is
    in none);
  - each function of the laws exists, and each function of a laws.rt is in one row;
  - a clause cites each definition of specs/, itself or through definitions that it cites.
Of MAP:
  - the tables of crates have each crate of crates/ once;
  - each file that a row of changes names exists, in the folder that the row names or in a crate of that row;
  - a row with patterns has exactly the files that these find. `--touched` prints those rows with the files that they
    should have.
Of PROMISED, that each thing is there which it names:
  - a row of g1_rows with its lines, in a file that the driver tries, and in what the driver has to write;
  - a test; a function, a class or a constant of a script; a line of a program's stored run;
  - the edit of a wrong body, or its row in docs/PROVED.md.
A line for each problem; the last line is 'N passed, M failed'. Statuses: 0 none failed; 1 some did; 2 usage.
"""
import argparse
import collections
import pathlib
import re
import sys

sys.path.insert(0, str(pathlib.Path(__file__).resolve().parent / "lib"))

import definitions  # noqa: E402
import touched  # noqa: E402

TOP = pathlib.Path(__file__).resolve().parent.parent
CODE = re.compile(r"`([^`\n]+)`")
ROW = re.compile(r"^\| (?!-)(.*) \|$", re.M)
COUNTS = re.compile(r"(\d+) files, ([\d,]+) lines")
LAW = re.compile(r"^pub fn (\w+)", re.M)
FILE = re.compile(r"(?:[\w.-]+/)*[\w-]+\.(?:rt|antt|md|py|h)")


def rows(text):
    """The cells of each row of a page's tables."""
    return [row.split(" | ") for row in ROW.findall(text)]


def section(text, heading):
    """The lines below a heading, up to the next one."""
    return f"\n{text}".partition(f"\n## {heading}\n")[2].partition("\n## ")[0]


def expanded(name):
    """The names that `a/{b,c}.rt` stands for."""
    before, brace, rest = name.partition("{")
    if not brace:
        return [name]
    inner, _, after = rest.partition("}")
    return [before + part.strip() + after for part in inner.split(",")]


def codes(cell):
    """The names in a cell, written out."""
    return [name for code in CODE.findall(cell) for name in expanded(code)]


def in_folder_of_last(names, separator):
    """Names of which one without a folder is in that of the name before it."""
    folder, found = "", []
    for name in names:
        folder, last = name.rpartition(separator)[::2] if separator in name else (folder, name)
        found.append(f"{folder}{separator}{last}")
    return found


def twice(names):
    return [f"{name} is in {count} rows" for name, count in collections.Counter(names).items() if count > 1]


def specs_of(tree):
    """The text of each file of definitions, by its path below crates/."""
    crates = tree / "crates"
    return {str(path.relative_to(crates)): path.read_text() for path in sorted(crates.glob("*/specs/**/*.antt"))
            if path.name != "Lib.antt"}


def reached(names, specs):
    """These files, and all that they import."""
    found, left = set(), [name for name in names if name in specs]
    while left:
        name = left.pop()
        if name not in found:
            found.add(name)
            left += [file for file, _, _ in definitions.used(specs[name]) if file in specs]
    return found


def check_headline(text, headline, specs):
    """What is wrong with the numbered rows."""
    cells = [row for row in rows(text) if row[0].isdigit()]
    listed = [name for row in cells for name in codes(row[1])]
    needed = reached([name for name in codes(headline) if "/specs/" in name], specs)
    wrong = [f"{name} has a number, and the headline does not depend on it" for name in listed if name not in needed]
    wrong += [f"{name} has no number, and the headline depends on it" for name in sorted(needed - set(listed))]
    if [int(row[0]) for row in cells] != list(range(1, len(cells) + 1)):
        wrong.append("the numbers of the first table do not go up by one")
    lines = sum(len(specs[name].splitlines()) for name in needed)
    said, is_so = COUNTS.search(text), (str(len(needed)), f"{lines:,}")
    if not said or said.groups() != is_so:
        wrong.append(f"the headline's files are {is_so[0]} files, {is_so[1]} lines")
    return len(needed) + 1, wrong


def check_files(text, specs):
    """What is wrong with the files that rows name."""
    cells = [row[1] if row[0].isdigit() else row[0] for row in rows(text)]
    listed = [name for cell in cells if ".antt`" in cell for name in in_folder_of_last(codes(cell), "/")]
    wrong = [f"there is no {name}" for name in listed if name not in specs]
    wrong += [f"{name} is in no row" for name in sorted(specs) if name not in listed]
    return len(specs), wrong + twice(listed)


def check_laws(text, tree):
    """What is wrong with the rows of laws."""
    listed = [name for row in rows(section(text, "The laws")) for name in in_folder_of_last(codes(row[0]), "::")]
    laws = {f"{path.parts[-3]}::laws::{name}" for path in tree.glob("crates/*/src/laws.rt")
            for name in LAW.findall(path.read_text())}
    wrong = [f"there is no {name}" for name in listed if name not in laws]
    wrong += [f"{name} is in no row" for name in sorted(laws - set(listed))]
    return len(laws), wrong + twice(listed)


def check_cited(specs, tree):
    """Which definitions no clause cites."""
    sources = [path.read_text() for path in tree.glob("crates/*/src/**/*.rt")]
    count, left = definitions.uncited(specs, sources)
    return count, [f"no clause cites {name} of {file}" for file, name in left]


def check_crates(text, tree):
    """What is wrong with the tables of crates."""
    crates = {path.name for path in tree.glob("crates/*") if (path / "src").is_dir()}
    listed = [name for row in rows(section(text, "The crates, lowest first")) for name in codes(row[0])]
    wrong = [f"there is no crate {name}" for name in listed if name not in crates]
    wrong += [f"{name} is in no row" for name in sorted(crates - set(listed))]
    return len(crates), wrong + twice(listed)


def exists(name, crates, tree):
    """Whether a row that speaks of these crates can mean a file of this name."""
    if "/" in name:
        return (tree / "crates" / name).is_file() or (tree / name).is_file()
    return any(path.is_file() for crate in crates for folder in ("src", "specs")
               for path in [tree / "crates" / crate / folder / name])


def check_changes(text, tree):
    """What is wrong with the files that rows of changes name."""
    found, wrong = 0, []
    known = {path.name for path in tree.glob("crates/*")}
    for row in rows(section(text, "Where to change what")):
        line = " | ".join(row)
        crates = [word for word in re.findall(r"\bg1\w+", line) if word in known]
        for name in [name for name in codes(line) if FILE.fullmatch(name)]:
            found += 1
            if not exists(name, crates, tree):
                wrong.append(f"{row[0]}: there is no {name} in {', '.join(sorted(set(crates))) or 'the tree'}")
    return found, wrong


def rows_of(text):
    """The rows of a file of g1_rows, by their titles: what they show, and their lines."""
    blocks = [block.splitlines() for block in re.split(r"\n\n+", text.strip("\n"))]
    return [(block[0][2:], block[1:]) for block in blocks
            if block[0].startswith("# ") and not all(line.startswith("# ") for line in block)]


def is_line(name, line):
    """Whether a line of a row is the one that a name says. `..` stands for what the name leaves out, at an end of the line."""
    line = line[2:] if line.startswith(("| ", "! ")) else line
    words = re.escape(name).replace(r"\.\.\ ", ".*", 1) if name.startswith(".. ") else re.escape(name)
    words = f"{words[:-6]}.*" if name.endswith(" ..") and not line.endswith(" ..") else words
    return re.fullmatch(words, line) is not None


def has_row(tree, file, title, lines):
    """What is missing of a row of g1_rows."""
    driver, path = tree / "crates/g1_rows", tree / file
    found = [row for name, row in rows_of(path.read_text()) if name == title]
    if not found:
        return f"{file} has no row '{title}'"
    if path.name not in (driver / "args").read_text().split():
        return f"the driver does not try {file}"
    if f"ok: {title}" not in (driver / "stdout").read_text().splitlines():
        return f"the driver does not write that '{title}' is so"
    left = [name for name in lines if not any(is_line(name, line) for row in found for line in row)]
    return f"the row '{title}' of {file} has no line '{left[0]}'" if left else None


def has_named(tree, file, name, forms):
    """What is missing of a name that a file has in one of these forms."""
    text = (tree / file).read_text()
    if any(re.search(form.format(re.escape(name)), text, re.M) for form in forms):
        return None
    return f"{file} has no {name}"


# How a file has a name, by the kind of what is promised and the end of the file's name.
FORMS = {
    ("test", ".rt"): [r"^#\[test\]\nfn {}\("],
    ("test", ".py"): [r"^    def {}\(self\)"],
    ("script", ".py"): [r"^(?:def|class) {}\b", r"^{} ="],
    ("run", ""): [r"^{}$"],
    ("wrong body", ".md"): [r"^\| `{}` \| \S"],
}


def missing(tree, kind, file, names):
    """Why a thing that is promised is not there, or None."""
    if not names:
        return "it has no name"
    if kind == "wrong body" and file.endswith("/"):
        edit = f"{file}{names[0]}.edit"
        return None if (tree / edit).is_file() else f"there is no {edit}"
    if not (tree / file).is_file():
        return f"there is no {file}"
    if kind == "row":
        return has_row(tree, file, names[0], names[1:])
    forms = FORMS.get((kind, pathlib.PurePath(file).suffix))
    return has_named(tree, file, names[0], forms) if forms else f"{file} has nothing of the kind '{kind}'"


def check_promised(text, tree):
    """What is wrong with the things that are promised by name."""
    cells = [row for row in rows(text) if len(row) == 4 and row[1] != "Kind"]
    said = [(row[0], missing(tree, row[1], "".join(CODE.findall(row[2])), CODE.findall(row[3]))) for row in cells]
    return len(cells), [f"{promise}: {reason}" for promise, reason in said if reason]


def check_touched(text, tree):
    """What is wrong with the files of rows that have patterns."""
    found, wrong = 0, []
    for change, cell, listed in rows(section(text, "What a change touches"))[1:]:
        needed, empty = touched.files(tree, cell)
        named = set(codes(listed))
        found += len(needed | named) + len(touched.patterns(cell))
        wrong += [f"{change}: {problem}" for problem in empty]
        wrong += [f"{change}: {name} is left out" for name in sorted(needed - named)]
        wrong += [f"{change}: {name} has none of the patterns" for name in sorted(named - needed)]
    return found, wrong


def print_touched(text, tree):
    """Prints the rows that have patterns, with the files that these find."""
    for change, cell, _ in rows(section(text, "What a change touches"))[1:]:
        print(f"| {change} | {cell} | {touched.compact(touched.files(tree, cell)[0])} |")


def check(tree):
    """How many things were looked at, and what is wrong, with the page before it."""
    page = (tree / "docs/DEFINITIONS.md").read_text()
    headline, table = (tree / "docs/HEADLINE.md").read_text(), (tree / "docs/MAP.md").read_text()
    specs = specs_of(tree)
    found = [("DEFINITIONS", *check_headline(page, headline, specs)),
             ("DEFINITIONS", *check_files(page, specs)), ("DEFINITIONS", *check_laws(page, tree)),
             ("DEFINITIONS", *check_cited(specs, tree)),
             ("MAP", *check_crates(table, tree)), ("MAP", *check_changes(table, tree)),
             ("MAP", *check_touched(table, tree)),
             ("PROMISED", *check_promised((tree / "docs/PROMISED.md").read_text(), tree))]
    return sum(count for _, count, _ in found), [f"{name}: {text}" for name, _, wrong in found for text in wrong]


def main():
    parser = argparse.ArgumentParser(description=__doc__, formatter_class=argparse.RawDescriptionHelpFormatter)
    parser.add_argument("checkout", metavar="CHECKOUT", nargs="?", type=pathlib.Path, default=TOP,
                        help="the repository (default: the one that this script is in)")
    parser.add_argument("--touched", action="store_true", help="print the rows of MAP that have patterns, with the files that these find")
    given = parser.parse_args()
    tree = given.checkout
    for name in ("docs/DEFINITIONS.md", "docs/HEADLINE.md", "docs/MAP.md", "docs/PROMISED.md"):
        if not (tree / name).is_file():
            parser.error(f"{tree} is no checkout of the repository: there is no {name}")
    if given.touched:
        print_touched((tree / "docs/MAP.md").read_text(), tree)
        return 0
    looked, wrong = check(tree)
    for problem in wrong:
        print(problem)
    print(f"{max(0, looked - len(wrong))} passed, {len(wrong)} failed")
    return 1 if wrong or not looked else 0


if __name__ == "__main__":
    sys.exit(main())
