"""What a page of the repository has: commands with what they print, links, and names of files. A module of
tools/check_pages.py, which says how a page is written.
"""
import re

COMMANDS = {"g1pause", "g1heap", "bash", "cat", "cd", "cmp", "cp", "diff", "echo", "exec", "export", "for", "gunzip",
            "head", "java", "javac", "jcmd", "ls", "mkdir", "mkfifo", "mktemp", "printf", "python3", "rm", "rt", "sed",
            "sh", "sleep", "tar", "time", "ulimit", "until", "wc"}
FOLDERS = ("tools/", "bench/", "examples/", "crates/", "out/", ".ci/", "./", "(", "PATH=", "PREFIX=")
LEFT_OUT = re.compile(r"<!-- not run: (.*) -->")
NEEDS = re.compile(r"<!-- needs: (.*) -->")
VARY = "<!-- figures vary -->"
HERE = re.compile(r"<<['\"]?(\w+)")
LINK = re.compile(r"\]\(([^()\s]+)\)")
CODE = re.compile(r"`([^`\n]+)`")
OURS = re.compile(r"(?:tools|bench|examples|docs|crates|\.ci)/[\w./-]+")
CALLED = re.compile(r"(?:^|[ (;|$])((?:tools|bench|examples|\.ci)/[\w./-]*\w)")
PROGRAM = re.compile(r"(?<![\w/.-])(?:g1pause|g1heap) |out/g1(?:pause|heap)\b")


class Block:
    """Lines of code, the number of the first one, and the line of text right above them."""

    def __init__(self, number, lines, above):
        self.number, self.lines, self.above = number, lines, above

    def is_command(self):
        first = self.lines[0].split(" ")[0]
        return first in COMMANDS or first.startswith(FOLDERS) and not first.endswith(":")


def blocks(text):
    """The blocks of code of a page. Two follow each other directly with empty lines and comments alone between."""
    found, lines, above, fence, blank = [], [], "", None, True
    for number, line in enumerate(text.splitlines() + [""], 1):
        if fence is not None:
            if line.strip() == fence:
                fence = None
                found.append(Block(number - len(lines), lines, above))
                lines, above = [], "directly"
            else:
                lines.append(line)
        elif line.startswith("    ") and line.strip() and (blank or lines):
            lines.append(line[4:])
        else:
            if lines:
                found.append(Block(number - len(lines), lines, above))
                lines, above = [], "directly"
            if line.startswith("```"):
                fence = "```"
            elif line.strip():
                above = line.strip() if not line.startswith("<!--") or above != "directly" else "directly " + line
        blank = not line.strip()
    return found


def prose(text):
    """The lines of a page that are in no block of code, with their numbers."""
    inside = {number for block in blocks(text) for number in range(block.number, block.number + len(block.lines))}
    return [(number, line) for number, line in enumerate(text.splitlines(), 1) if number not in inside]


class Step:
    """One command, and what it is to print, if the page says so."""

    def __init__(self, number, command):
        self.number, self.command = number, command
        self.expected, self.vary = None, False


def commands_of(block):
    """The commands of a block: a line each, unless it goes on."""
    steps, command, number, last = [], [], block.number, None
    for at, line in enumerate(block.lines, block.number):
        number = number if command else at
        command.append(line)
        begun = HERE.search(line) if last is None else None
        last = begun.group(1) if begun else (None if line == last else last)
        if last is None and not line.endswith("\\"):
            steps.append(Step(number, "\n".join(command)))
            command = []
    return steps


def steps_of(text):
    """The commands of a page, and those that are left out with the reason."""
    steps, left_out, before = [], [], None
    for block in blocks(text):
        if block.is_command():
            reason = LEFT_OUT.search(block.above)
            if reason:
                left_out += [(step, reason.group(1)) for step in commands_of(block)]
                before = None
            else:
                steps += commands_of(block)
                before = steps[-1]
        elif before is None or not block.above.startswith("directly"):
            before = None
        elif before.expected is None:
            before.expected, before.vary = block.lines, VARY in block.above
        else:  # an empty line within the output
            before.expected = before.expected + ["", *block.lines]
    return steps, left_out


def all_steps(text):
    """The commands of a page, with those that are left out."""
    steps, left_out = steps_of(text)
    return [*steps, *(step for step, _ in left_out)]


def called(command):
    """The scripts that a command calls."""
    return [script for line in command.splitlines() for script in CALLED.findall(line)]


def anchors(text):
    """What a link can lead to in a page: its headings, written as in a link."""
    found = set()
    for _, line in prose(text):
        if line.startswith("#"):
            heading = re.sub(r"\[([^\]]*)\]\([^)]*\)", r"\1", line.lstrip("#").strip()).lower()
            found.add(re.sub(r"[^\w\- ]", "", heading).replace(" ", "-"))
    return found


def links(text):
    """The links of a page, with the numbers of their lines."""
    return [(number, target) for number, line in prose(text) for target in LINK.findall(line)]


def words_in(text):
    """The commands and names in a page's sentences, with the numbers of their lines."""
    return [(number, code) for number, line in prose(text) for code in CODE.findall(line)]


def scripts_in(text):
    """The scripts that a page calls, in blocks or in sentences, with the numbers of their lines."""
    found = [(step.number, script) for step in all_steps(text) for script in called(step.command)]
    return found + [(number, code.split(" ")[0]) for number, code in words_in(text) if OURS.match(code)]


def needed(text):
    """The programs that a page asks for."""
    return [name for match in NEEDS.finditer(text) for name in match.group(1).split()]


def calls_programs(text):
    """Whether a command of the page calls one of the repository's programs."""
    return any(PROGRAM.search(step.command) for step in all_steps(text))
