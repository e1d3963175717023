"""What a program's --help says, by its parts, and as manual pages: a module of tools/release.py and of completion.py."""
import datetime
import re
import subprocess

ENTRY = re.compile(r"^ +(\S.*?)(?:  +(\S.*))?$")
FOLDER = "share/doc/g1pause/docs"
# The page on each command, in that folder. Those that are not named here are in COMMANDS.md.
PAGES = {"same": "COMPARE.md", "print": "HEAP_TEXT.md", "make": "HEAP_TEXT.md", "convert": "JVM.md", "explain": "EXPLAIN.md",
         "why": "EXPLAIN.md", "trace": "TRACE.md", "pause": "PAUSE.md", "run": "TRACE.md"}
# Examples behind that of the help: what they do, and the command lines. "" is the program's own page.
EXAMPLES = {
    "g1heap": {
        "": [("Collects regions 1 and 2, and asks whether a program could notice:",
              ["g1heap pause --set 1,2 -o AFTER BEFORE", "g1heap same --set 1,2 --covered BEFORE AFTER"])],
        "show": [("Writes the image in version 2 of its format:", ["g1heap show --repack -o NEW IMAGE"])],
        "check": [("Goes on only if every reference is covered:", ["g1heap check IMAGE > /dev/null && g1heap live IMAGE"])],
        "live": [("Adds up by four threads:", ["g1heap live --workers 4 IMAGE"])],
        "choose": [("What a budget buys if a card costs 10 and a byte 1:",
                    ["g1heap choose --budget 1000 --card 10 --byte 1 IMAGE"])],
        "pause": [("Collects regions 1 and 2, and compares both images:",
                   ["g1heap pause --set 1,2 -o AFTER BEFORE", "g1heap same --set 1,2 BEFORE AFTER"])],
        "same": [("Judges a collection of regions 1 and 2, with the cards:",
                  ["g1heap same --set 1,2 --covered BEFORE AFTER"]),
                 ("Lists ten differences, and counts all:", ["g1heap same --all 10 BEFORE AFTER"])],
        "print": [("The lines of region 1 alone:", ["g1heap print --region 1 IMAGE"]),
                  ("Data words in hexadecimal:", ["g1heap print --hex IMAGE"])],
        "make": [("Makes an image of its own lines:", ["g1heap print IMAGE | g1heap make -o NEW"])],
        "convert": [("Makes an image, with the names for 'same --names MAP':", ["g1heap convert --names MAP -o IMAGE DUMP"])],
        "explain": [("Where each survivor of region 1 goes:", ["g1heap explain --set 1 --map IMAGE"])],
        "why": [("The same with the names of a program:", ["g1heap why --names MAP IMAGE 16"])],
        "trace": [("Also writes the image after the second command:", ["g1heap trace --image 2 AFTER TRACE"])],
    },
    "g1pause": {
        "pause": [("Collects regions 1 and 2:", ["g1pause pause 1 2 < IMAGE > AFTER"])],
    },
}


def said(words):
    done = subprocess.run([str(word) for word in words], stdin=subprocess.DEVNULL, capture_output=True, text=True,
                          check=True)
    return done.stdout


class Help:
    """A help text: what the program or the command does, how it is called, its lists and its example. A list has pairs of
    what stands there and what it means."""

    def __init__(self, text):
        self.about = text.splitlines()[0]
        self.usage = self.line(text, "Usage")
        self.example = self.line(text, "Example")
        self.commands, self.arguments, self.options, self.statuses = (
            self.entries(text, name) for name in ("Commands", "Arguments", "Options", "Statuses"))

    @staticmethod
    def line(text, name):
        found = re.search(rf"^{name}: (.*)$", text, re.M)
        return found[1] if found else ""

    @staticmethod
    def entries(text, name):
        lines = text.partition(f"\n{name}:\n")[2].partition("\n\n")[0].splitlines()
        return [(match[1], match[2] or "") for match in map(ENTRY.match, lines) if match]


def helps(program):
    """The help of a program, and that of each of its commands by its name, except `help`."""
    whole = Help(said([program, "--help"]))
    names = [name for name, _ in whole.commands if name != "help"]
    return whole, {name: Help(said([program, name, "--help"])) for name in names}


def roff(text):
    """A text as a line of a manual page."""
    text = text.replace("\\", "\\e").replace("-", "\\-")
    return f"\\&{text}" if text.startswith((".", "'")) else text


def listed(heading, entries):
    """The lines of a section that is a list, if there is anything in it."""
    lines = [f".SH {heading}"] if entries else []
    for word, meaning in entries:
        lines += [".TP", f"\\fB{roff(word)}\\fR", roff(meaning)]
    return lines


def examples(first, others):
    """The lines of the section of examples: that of the help, and those behind it."""
    if not first and not others:
        return []
    lines = [".SH EXAMPLES"]
    for meaning, commands in [("", [first] if first else []), *others]:
        if meaning:
            lines += [".PP", roff(meaning)]
        lines += [".PP", ".nf", *(f"    {roff(command)}" for command in commands), ".fi"]
    return lines


def see_also(program, command, others):
    """Where to read on: the pages of the commands or of the program, the other program, and a page of the release."""
    if command:
        named = [program, *(f"{program}-{name}" for name in others if name != command)]
    else:
        named = [f"{program}-{name}" for name in others] + [name for name in ("g1heap", "g1pause") if name != program]
    page = PAGES.get(command or program, "COMMANDS.md")
    return [".SH SEE ALSO", ",\n".join(f".BR {roff(name)} (1)" for name in named),
            ".PP", f"{roff(FOLDER)}/{roff(page)}, below the folder that the programs were installed in."]


def page(name, help_text, command, others, version, seconds):
    """The manual page of a program or of one of its commands. Its date is that of the seconds."""
    title = f"{name}-{command}" if command else name
    day = datetime.datetime.fromtimestamp(seconds, datetime.timezone.utc).strftime("%Y-%m-%d")
    lines = [f'.TH "{roff(title.upper())}" 1 "{day}" "{name} {version}" "User Commands"',
             ".SH NAME", f"{roff(title)} \\- {roff(help_text.about)}",
             ".SH SYNOPSIS", f"\\fB{roff(help_text.usage)}\\fR"]
    lines += listed("COMMANDS", help_text.commands) + listed("ARGUMENTS", help_text.arguments)
    lines += listed("OPTIONS", help_text.options) + listed("EXIT STATUS", help_text.statuses)
    lines += examples(help_text.example, EXAMPLES.get(name, {}).get(command or "", []))
    return "\n".join(lines + see_also(name, command, others)) + "\n"


def pages(program, version, seconds):
    """The manual pages of a program and of its commands, by the names of their files."""
    whole, commands = helps(program)
    made = {f"{program.name}.1": page(program.name, whole, None, commands, version, seconds)}
    for name, help_text in commands.items():
        made[f"{program.name}-{name}.1"] = page(program.name, help_text, name, commands, version, seconds)
    return made
