"""A page that steps through a pause: a module of tools/picture.py.

The page has the lines of `g1heap print` for the heap before, and those of `g1heap explain`. Its script replays them:
one line is one step. It is one file, and needs no network. Of a large heap it has the regions that the pause collects and
those that it fills, the roots that lead into them, and the lines on them.
"""
import html
import json
import pathlib

HERE = pathlib.Path(__file__).resolve().parent
MOST_REGIONS, MOST_REGION_WORDS = 64, 64  # of a heap that is shown as a whole
MOST_WORDS, MOST_LINES = 16384, 20000  # of what is shown


class TooLarge(Exception):
    """Why a heap can't be shown word by word."""


class Window:
    """The regions of a heap that are drawn, in order, and what of its lines is about them."""

    def __init__(self, heading, explained):
        words = heading.split()
        self.region_words, self.card_words, self.of = int(words[1]), int(words[2]), int(words[3])
        self.is_whole = self.of <= MOST_REGIONS and self.region_words <= MOST_REGION_WORDS
        self.regions = set(range(self.of)) if self.is_whole else self.chosen(explained)

    def chosen(self, explained):
        """The regions that the pause collects, and those that receive survivors."""
        lines = [line.split() for line in explained]
        collected = {int(word) for line in lines if line[0] == "set" for word in line[1:] if word != "-"}
        return collected | {int(line[3]) // self.region_words for line in lines if line[0] == "place"}

    def check(self):
        """The words of a heap are drawn up to so many."""
        size = f"{self.of} regions of {self.region_words} words"
        if not self.regions:
            raise TooLarge(f"{size}: of a heap of more than {MOST_REGIONS} regions of {MOST_REGION_WORDS} words the stepping page "
                           "shows what a pause collects and fills, and this pause collects no region: choose some by --set")
        if not self.is_whole and (len(self.regions) > MOST_REGIONS or len(self.regions) * self.region_words > MOST_WORDS):
            raise TooLarge(f"{size}: the pause collects and fills {len(self.regions)} of them, and the stepping page shows at most "
                           f"{min(MOST_REGIONS, MOST_WORDS // self.region_words)} of this size: choose fewer by --set")

    def has(self, address):
        return int(address) // self.region_words in self.regions

    def heap(self, printed):
        """The lines of the heap that are about the window."""
        for line in printed:
            words = line.split()
            about = {"region": lambda: int(words[1]) in self.regions, "remembered": lambda: int(words[1]) in self.regions,
                     "object": lambda: self.has(words[1]), "root": lambda: words[2] != "-" and self.has(words[2])}
            if self.is_whole or words[0] not in about or about[words[0]]():
                yield line

    def pause(self, explained):
        """The lines of the pause that are about the window."""
        for line in explained:
            words = line.split()
            numbers = [int(word) for word in words[1:] if word.isdecimal()]
            about = {**dict.fromkeys(("live", "excluded", "candidate", "remembered", "region"), lambda: numbers[0] in self.regions),
                     "dirty": lambda: not self.regions.isdisjoint(numbers[1:]), "card": lambda: words[3] != "-",
                     "slot": lambda: self.has(numbers[0]),
                     "humongous": lambda: not self.regions.isdisjoint([numbers[0] // self.region_words, *numbers[1:]])}
            if self.is_whole or words[0] not in about or about[words[0]]():
                yield line


def page(printed, explained, title):
    """The page, from the lines of both commands."""
    window = Window(printed[0], explained)
    window.check()
    lines = list(window.pause(explained))
    if len(lines) > MOST_LINES:
        raise TooLarge(f"the pause has {len(lines)} lines on these regions, and the stepping page shows at most {MOST_LINES}: choose "
                       "fewer by --set")
    data = json.dumps({"print": list(window.heap(printed)), "explain": lines}, separators=(",", ":")).replace("<", "\\u003c")
    text = (HERE / "stepping.html").read_text(encoding="utf-8")
    script = (HERE / "stepping.js").read_text(encoding="utf-8").rstrip("\n")
    return text.replace("@TITLE@", html.escape(title)).replace("@DATA@", data).replace("@SCRIPT@", script)
