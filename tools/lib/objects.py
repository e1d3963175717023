"""Heaps drawn word by word, with their objects and references: a module of tools/picture.py.

It draws from the lines of `g1heap print`. A region is a block of cells, a cell is a word, a row of cells has one card or
a part of one. An arrow leads from a slot or a root to the header of the object that it references.
"""
import html
import math

CELL, BETWEEN, LABEL, FOOT, CARDS, ROOT, HEAD = 26, 20, 36, 22, 24, 78, 22
MOST_REGIONS, MOST_REGION_WORDS = 64, 64
MOST_COLUMNS = 4

# Each class of shapes: its colour where the screen is light, and where it is dark.
COLOURS = {
    "page": ("#ffffff", "#0d1117"),
    "text": ("#1f2328", "#e6edf3"),
    "quiet": ("#57606a", "#9aa4af"),
    "free": ("#eef0f2", "#1b2129"),
    "header": ("#2f6fb7", "#5aa2f0"),
    "slot": ("#cfe2f7", "#1d3a5c"),
    "data": ("#e6e8eb", "#30363d"),
    "line": ("#b3bac2", "#4a525b"),
    "arrow": ("#6e7781", "#8b949e"),
    "set": ("#c2185b", "#ff7ac6"),
}


class TooLarge(Exception):
    """Why a heap can't be drawn word by word."""


class Words:
    """A heap by its words, from the lines of `g1heap print`."""

    def __init__(self, lines):
        heading = lines[0].split()
        self.region_words, self.card_words, self.regions = (int(word) for word in heading[1:4])
        if self.regions > MOST_REGIONS or self.region_words > MOST_REGION_WORDS:
            raise TooLarge(f"{self.regions} regions of {self.region_words} words: words are drawn in heaps of at most "
                           f"{MOST_REGIONS} regions of {MOST_REGION_WORDS} words")
        self.roots, self.table, self.sets, self.words = [], {}, {}, {}
        for line in lines[1:]:
            words = line.split()
            if words[0] == "root":
                self.roots.append(words[2])
            elif words[0] == "region":
                used = f", top {words[4]}" if words[2] != "free" else ""
                self.table[int(words[1])] = words[2] + used + (", pinned" if words[-1] == "pinned" else "")
            elif words[0] == "remembered":
                self.sets[int(words[1])] = words[3:]
            elif words[0] == "object":
                self.take_object(words)

    def take_object(self, words):
        at, (size, slots) = int(words[1]), words[2].split("/")
        self.words[at] = ("header", words[2])
        for number, word in enumerate(words[3:], 1):
            self.words[at + number] = ("slot" if number <= int(slots) else "data", word)
        assert len(words) == int(size) + 2


class Layout:
    """Where regions, words and roots are."""

    def __init__(self, heap, top):
        self.heap, self.top = heap, top
        self.in_row = min(heap.card_words, 8)
        self.rows = heap.region_words // self.in_row
        self.box = (CARDS + self.in_row * CELL, LABEL + self.rows * CELL + FOOT)
        self.columns = min(MOST_COLUMNS, heap.regions)
        self.width = self.columns * (self.box[0] + BETWEEN) - BETWEEN
        self.roots_in_row = max(1, self.width // ROOT)
        self.head = HEAD + 12 + 30 * math.ceil(len(heap.roots) / self.roots_in_row)
        self.height = self.head + math.ceil(heap.regions / self.columns) * (self.box[1] + 6)

    def region(self, number):
        row, column = divmod(number, self.columns)
        return column * (self.box[0] + BETWEEN), self.top + self.head + row * (self.box[1] + 6)

    def word(self, address):
        region, offset = divmod(address, self.heap.region_words)
        x, y = self.region(region)
        return x + CARDS + offset % self.in_row * CELL, y + LABEL + offset // self.in_row * CELL

    def root(self, number):
        row, column = divmod(number, self.roots_in_row)
        return column * ROOT, self.top + HEAD + row * 30


def text(x, y, words, size=12, name="", anchor="start"):
    kind = f' class="{name}"' if name else ""
    return f'<text{kind} x="{x:g}" y="{y:g}" font-size="{size}" text-anchor="{anchor}">{html.escape(words)}</text>'


def rectangle(name, x, y, width, height, more=""):
    return f'<rect class="{name}" x="{x:g}" y="{y:g}" width="{width:g}" height="{height:g}"{more}/>'


def draw_word(layout, address):
    kind, words = layout.heap.words.get(address, ("free", ""))
    x, y = layout.word(address)
    yield rectangle(kind, x, y, CELL, CELL)
    if kind == "slot" and words == "-":
        words = "–"
    if words:
        shown = words if len(words) < 5 else words[:3] + "…"
        yield text(x + CELL / 2, y + CELL / 2 + 4, shown, 11 if len(shown) < 4 else 9, "on-header" if kind == "header" else "", "middle")


def draw_region(layout, number, chosen):
    heap, (x, y) = layout.heap, layout.region(number)
    first = number * heap.region_words
    yield text(x, y + 13, f"region {number}" + (" · set" if number in chosen else ""), 13, "strong")
    yield text(x, y + 28, heap.table[number], 12, "quiet")
    for address in range(first, first + heap.region_words):
        yield from draw_word(layout, address)
    high = max(1, heap.card_words // layout.in_row) * CELL
    for card in range(heap.region_words // heap.card_words):
        yield rectangle("card", x + CARDS, y + LABEL + card * high, layout.in_row * CELL, high)
        yield text(x + CARDS - 5, y + LABEL + card * high + high / 2 + 3, str(first // heap.card_words + card), 9, "quiet", "end")
    if number in chosen:
        yield rectangle("set", x + CARDS - 2, y + LABEL - 2, layout.in_row * CELL + 4, layout.rows * CELL + 4)
    cards = heap.sets.get(number, [])
    if cards:
        most = max(3, (layout.box[0] - 66) // 20)
        yield text(x, y + LABEL + layout.rows * CELL + 15, "remembers " + " ".join(cards[:most]) + (" …" if len(cards) > most else ""), 11)


def draw_arrow(x, y, target):
    """An arrow that begins below the figures of a cell and ends at the edge of a header."""
    tx, ty = target[0] + CELL / 2, target[1] + CELL / 2
    dx, dy = tx - x, ty - y
    length = math.hypot(dx, dy) or 1
    bend = min(40, length / 4)
    ex, ey = tx - dx / length * 11, ty - dy / length * 11
    mx, my = (x + ex) / 2 - dy / length * bend, (y + ey) / 2 + dx / length * bend
    return (f'<circle class="start" cx="{x:.1f}" cy="{y:.1f}" r="1.8"/>'
            f'<path class="arrow" marker-end="url(#tip)" d="M{x:.1f} {y:.1f}Q{mx:.1f} {my:.1f} {ex:.1f} {ey:.1f}"/>')


def draw_arrows(layout):
    for number, word in enumerate(layout.heap.roots):
        if word != "-":
            x, y = layout.root(number)
            yield draw_arrow(x + (ROOT - 6) / 2, y + 20, layout.word(int(word)))
    for address, (kind, word) in sorted(layout.heap.words.items()):
        if kind == "slot" and word != "-":
            x, y = layout.word(address)
            yield draw_arrow(x + CELL / 2, y + CELL - 2, layout.word(int(word)))


def draw_heap(layout, title, chosen):
    yield text(0, layout.top + 14, title, 15, "strong")
    for number, word in enumerate(layout.heap.roots):
        x, y = layout.root(number)
        yield rectangle("slot", x, y, ROOT - 6, 22, ' rx="4"')
        yield text(x + (ROOT - 6) / 2, y + 15, f"root {number}: {'–' if word == '-' else word}", 11, "", "middle")
    for number in range(layout.heap.regions):
        yield from draw_region(layout, number, chosen)
    yield from draw_arrows(layout)


def style():
    rules = ["text{{font-family:sans-serif;fill:{text}}}.quiet{{fill:{quiet}}}.strong{{font-weight:bold}}"
             ".on-header{{fill:{page};font-weight:bold}}.page{{fill:{page}}}",
             *(f".{name}{{{{fill:{{{name}}};stroke:{{line}};stroke-width:0.5}}}}" for name in ("free", "header", "slot", "data")),
             ".card{{fill:none;stroke:{line};stroke-width:1.4}}.set{{fill:none;stroke:{set};stroke-width:2.5;stroke-dasharray:7 3}}"
             ".arrow{{fill:none;stroke:{arrow};stroke-width:1.1}}.start,.tip{{fill:{arrow}}}"]
    light, dark = ("".join(rules).format(**{name: colours[which] for name, colours in COLOURS.items()}) for which in (0, 1))
    return f"<style>{light}@media(prefers-color-scheme:dark){{{dark}}}</style>"


def picture(heaps, chosen):
    """The drawing of one heap, or of two: before and after, one below the other."""
    margin, top, layouts = 14, 0, []
    for heap in heaps:
        layouts.append(Layout(heap, top))
        top += layouts[-1].height + 14
    titles = ("before", "after") if len(heaps) > 1 else ("heap",)
    width, height = max(layout.width for layout in layouts) + 2 * margin, top + margin
    shapes = [shape for layout, title in zip(layouts, titles)
              for shape in draw_heap(layout, title, chosen if layout is layouts[0] else set())]
    head = (f'<svg xmlns="http://www.w3.org/2000/svg" width="{width}" height="{height}" '
            f'viewBox="{-margin} {-margin} {width} {height}" role="img" aria-label="objects of a heap, {" and ".join(titles)}">')
    tip = ('<defs><marker id="tip" viewBox="0 0 10 10" refX="9" refY="5" markerWidth="8" markerHeight="8" '
           'markerUnits="userSpaceOnUse" orient="auto"><path class="tip" d="M0 0L10 5L0 10z"/></marker></defs>')
    ground = rectangle("page", -margin, -margin, width, height)
    return "\n".join([head, style(), tip, ground, *shapes, "</svg>", ""])
