#!/usr/bin/env python3
"""Draws a heap image, and the heap after a pause beside it: picture.py [options] IMAGE [AFTER] > picture.svg

One cell is one region, in rows from the lowest number on, coloured by its kind. A cell is filled from below by its
live words, then by its garbage; what is left are free words. The thin bar beside it is its remembered set, as a
part of the largest one in the picture. A dot marks a pinned region. The regions of the collection set have a frame
in the heap before: with --budget those that g1pause choose takes, with --set those that are given. In the heap after,
regions that were freed and regions that received survivors have frames of their own. Rest the pointer on a region to
read its numbers.

  --html     a page with the picture, its numbers and its legend
  --objects  words, objects and references instead of regions, for at most 64 regions of 64 words
  --steps    a page that steps through the pause of IMAGE. Of a heap that is larger it shows the regions that the pause
             collects and those that it fills, if they are at most 64 with at most 16384 words

All numbers come from g1pause: show, live and choose; with --objects and --steps from g1heap: print and explain. The
same images give the same bytes. The colours follow what the reader's screen asks for, light or dark.
Statuses: 0 done; 2 usage; else the status with which g1pause or g1heap refused an image.
"""
import argparse
import html
import pathlib
import subprocess
import sys

sys.path.insert(0, str(pathlib.Path(__file__).resolve().parent / "lib"))

import objects  # noqa: E402 (it is in lib/)
import programs  # noqa: E402
import stepping  # noqa: E402

COSTS = ("fixed", "dirty", "card", "byte")
# Up to so many regions: columns, and the pixels from one cell to the next.
GRIDS = ((8, 4, 72), (32, 8, 56), (256, 16, 32), (1024, 32, 20), (4096, 64, 13))
MARGIN, LABEL, HEAD, BETWEEN = 16, 40, 58, 40
LEAST_WIDTH = 380  # of a heap: its heading needs that much

# Each class of shapes: its colour where the screen is light, and where it is dark.
COLOURS = {
    "page": ("#ffffff", "#0d1117"),
    "text": ("#1f2328", "#e6edf3"),
    "free": ("#eef0f2", "#1b2129"),
    "ordinary": ("#cfe2f7", "#1d3a5c"),
    "humongous": ("#e4d8f7", "#3b2a63"),
    "live-ordinary": ("#2f6fb7", "#5aa2f0"),
    "live-humongous": ("#7446b8", "#b093f2"),
    "garbage-ordinary": ("#e0922a", "#d99a2b"),
    "garbage-humongous": ("#a5551e", "#a8653a"),
    "cards": ("#0b7a6b", "#41cdb9"),
    "set": ("#c2185b", "#ff7ac6"),
    "freed": ("#57606a", "#9aa4af"),
    "filled": ("#1a7f37", "#3fb950"),
    "pin": ("#111111", "#ffffff"),
}


FRAMES = ("set", "freed", "filled")


class Refusal(Exception):
    """What a program said on standard error, and its status."""

    def __init__(self, text, status):
        super().__init__(text)
        self.status = status


def answer(program, words, image):
    """The lines that the program prints about an image."""
    with open(image, "rb") as stdin:
        done = subprocess.run([program, *words], stdin=stdin, capture_output=True, check=False)
    if done.returncode != 0:
        raise Refusal(f"{image}: {done.stderr.decode(errors='replace').strip()}", done.returncode)
    return done.stdout.decode().splitlines()


class Region:
    """One region: its kind and its numbers, in words and cards."""

    def __init__(self, line):
        words = line.split()
        self.number, self.kind = int(words[1]), words[2]
        self.top, self.objects, self.cards = int(words[4]), int(words[6]), int(words[8])
        self.pinned = "pinned" in words[9:]
        self.live = 0

    @property
    def garbage(self):
        return self.top - self.live

    def title(self, costs):
        """What the pointer reads."""
        if self.kind == "free":
            return f"region {self.number} free"
        words = [f"region {self.number} {self.kind}", f"top {self.top}", f"live {100 * self.live // self.top}%"]
        words += [f"{self.cards} card{'s' * (self.cards != 1)}"] + (["pinned"] if self.pinned else [])
        return ", ".join(words + costs.get(self.number, []))

    @property
    def colour(self):
        return "humongous" if self.kind == "continuation" else self.kind


class Heap:
    """A heap as the program reports it."""

    def __init__(self, program, image):
        heading, *lines = answer(program, ["show"], image)
        words = heading.split()
        self.region_words, self.card_words = int(words[1]), int(words[2])
        self.roots, self.dirty, self.current = int(words[5]), int(words[7]), words[9]
        self.regions = [Region(line) for line in lines]
        self.take_live([int(line.split()[3]) for line in answer(program, ["live"], image)])

    def take_live(self, live):
        """Live bytes of a humongous object are reported for its first region: its run shares them."""
        whole = False
        for region, count in zip(self.regions, live):
            if region.kind == "continuation":
                region.live = region.top if whole else 0
            else:
                whole = count > 0
                region.live = min(count // 8, region.top)

    def total(self, name):
        return sum(getattr(region, name) for region in self.regions)

    def free_words(self):
        return len(self.regions) * self.region_words - self.total("top")


def cost_words(options):
    """The options of the costs, as both programs take them."""
    return [word for name in COSTS if getattr(options, name) is not None for word in (f"--{name}", getattr(options, name))]


def choice(program, image, options):
    """The numbers of the collection set, as far as one is asked for, and what a budget says of each candidate."""
    if options.budget is None:
        return set(options.set or []), {}
    candidates = {}
    for line in answer(program, ["choose", "--budget", options.budget, *cost_words(options)], image):
        words = line.split()
        if words[0] == "region":
            candidates[int(words[1])] = [f"cost {words[3]}", words[-1]]
    return {number for number, words in candidates.items() if words[-1] == "taken"}, candidates


class NotThere(Exception):
    """A region of the set that the heap doesn't have."""


def check_set(regions, chosen):
    for number in sorted(chosen):
        if number >= regions:
            raise NotThere(f"region {number} is not there: the heap has {regions}")


# The heap by its words.


def explained(program, image, options):
    """The lines of g1heap explain. A refused pause has its lines, too."""
    words = [program, "explain", image, *cost_words(options)]
    if options.budget is not None:
        words += ["--budget", options.budget]
    elif options.set:
        words += ["--set", ",".join(map(str, options.set))]
    done = subprocess.run(words, stdin=subprocess.DEVNULL, capture_output=True, check=False)
    lines = done.stdout.decode().splitlines()
    if done.returncode != 0 and not (lines and lines[-1].startswith("refused ")):
        raise Refusal(f"{image}: {done.stderr.decode(errors='replace').strip()}", done.returncode)
    return lines


def stepping_page(options):
    printed = answer(options.g1heap, ["print"], options.image)
    check_set(int(printed[0].split()[3]), options.set or [])
    title = options.title or f"A pause of {pathlib.Path(options.image).name}"
    return stepping.page(printed, explained(options.g1heap, options.image, options), title)


def objects_picture(options, images):
    heaps = [objects.Words(answer(options.g1heap, ["print"], image)) for image in images]
    chosen, _ = choice(options.program, options.image, options)
    check_set(heaps[0].regions, chosen)
    return objects.picture(heaps, chosen)


# Drawing.


def short(value):
    """A number of pixels, without digits that say nothing."""
    return f"{value:.2f}".rstrip("0").rstrip(".")


class Shapes:
    """Rectangles by class, one path each, so that thousands of regions make a small file."""

    def __init__(self):
        self.paths, self.others = {}, []

    def box(self, name, x, y, width, height):
        if width > 0 and height > 0:
            self.paths.setdefault(name, []).append(
                f"M{short(x)} {short(y)}h{short(width)}v{short(height)}h{short(-width)}z")

    def frame(self, name, x, y, side, line):
        dashes = f' stroke-dasharray="{short(2 * line)} {short(line)}"' if name == "freed" else ""
        self.others.append(f'<rect class="{name}" x="{short(x)}" y="{short(y)}" width="{short(side)}" '
                           f'height="{short(side)}" stroke-width="{short(line)}"{dashes}/>')

    def title(self, x, y, side, text):
        """What the pointer reads on a square that nobody sees."""
        self.others.append(f'<path class="title" d="M{short(x)} {short(y)}h{short(side)}v{short(side)}h-{short(side)}z">'
                           f"<title>{html.escape(text)}</title></path>")

    def dot(self, x, y, radius):
        self.others.append(f'<circle class="pin" cx="{short(x)}" cy="{short(y)}" r="{short(radius)}"/>')

    def text(self, x, y, text, size=13, anchor="start"):
        self.others.append(f'<text x="{short(x)}" y="{short(y)}" font-size="{size}" text-anchor="{anchor}">'
                           f"{html.escape(text)}</text>")

    def lines(self):
        for name in COLOURS:
            if name in self.paths:
                yield f'<path class="{name}" d="{"".join(self.paths[name])}"/>'
        yield from self.others


class Grid:
    """Where the cells stand."""

    def __init__(self, regions):
        self.columns, self.pitch = next((columns, pitch) for most, columns, pitch in GRIDS if regions <= most)
        self.columns = min(self.columns, regions)
        self.rows = -(-regions // self.columns)
        self.side = self.pitch - max(1, self.pitch // 12)
        self.width = max(LEAST_WIDTH, LABEL + self.columns * self.pitch)
        self.height = HEAD + self.rows * self.pitch


def draw_cell(shapes, region, x, y, side, region_words, most_cards):
    """The colours of one region, from its floor up, and its remembered set at the right, on no ground."""
    bar = max(2, side / 10)
    width = side - bar - max(0.5, side / 36)
    shapes.box(region.colour, x, y, width, side)
    live, garbage = side * region.live / region_words, side * region.garbage / region_words
    if region.kind != "free":
        shapes.box(f"live-{region.colour}", x, y + side - live, width, live)
        shapes.box(f"garbage-{region.colour}", x, y + side - live - garbage, width, garbage)
    if region.cards:
        height = max(1, side * region.cards / most_cards)
        shapes.box("cards", x + side - bar, y + side - height, bar, height)


def draw_heap(shapes, heap, title, left, frames, costs, most_cards):
    """The heap at some place. `frames` has the class of a region's frame, by its number."""
    grid = Grid(len(heap.regions))
    draw_heading(shapes, heap, title, left + LABEL)
    for region in heap.regions:
        row, column = divmod(region.number, grid.columns)
        x, y = left + LABEL + column * grid.pitch, MARGIN + HEAD + row * grid.pitch
        draw_cell(shapes, region, x, y, grid.side, heap.region_words, most_cards)
        if column == 0 and row % (1 if grid.pitch >= 18 else 4) == 0:
            shapes.text(x - 8, y + min(grid.side, 11), str(region.number), 10, "end")
        if region.number in frames:
            line = max(1.2, grid.side / 18)
            shapes.frame(frames[region.number], x + line / 2, y + line / 2, grid.side - line, line)
        if region.pinned:
            radius = max(1.5, grid.side / 12)
            shapes.dot(x + 2 * radius, y + 2 * radius, radius)
        shapes.title(x, y, grid.side, region.title(costs))


def changed(before, after):
    """The frames of the heap after: what was freed, and what received survivors."""
    frames = {}
    for old, new in zip(before.regions, after.regions):
        if old.kind != "free" and new.kind == "free":
            frames[new.number] = "freed"
        elif old.kind == "free" and new.kind != "free":
            frames[new.number] = "filled"
    return frames


def draw_heading(shapes, heap, title, left):
    shapes.text(left, MARGIN + 14, f"{title}: {len(heap.regions)} regions of {heap.region_words} words", 15)
    shapes.text(left, MARGIN + 31, f"live {heap.total('live')} words, garbage {heap.total('garbage')}, "
                                   f"free {heap.free_words()}", 12)
    shapes.text(left, MARGIN + 47, f"{heap.roots} roots, {heap.total('cards')} remembered cards, {heap.dirty} dirty, "
                                   f"current {heap.current}", 12)


def draw_legend(shapes, left, top, width, most_cards, seen):
    """What the colours mean, of what is in the picture. It returns the height that it takes."""
    entries = [("free", "free region"), ("ordinary", "free words of an ordinary region"),
               ("humongous", "free words of a humongous region"), ("live-ordinary", "live words, ordinary"),
               ("live-humongous", "live words, humongous"),
               ("garbage-ordinary", "garbage, ordinary"), ("garbage-humongous", "garbage, humongous"),
               ("cards", f"remembered set (full: {most_cards} card{'s' * (most_cards != 1)})"),
               ("set", "collection set"), ("freed", "freed by the pause"), ("filled", "received survivors"),
               ("pin", "pinned")]
    x = y = 0
    for name, text in entries:
        if name not in seen:
            continue
        room = 26 + 7 * len(text)
        if x and x + room > width:
            x, y = 0, y + 22
        swatch(shapes, name, left + x, top + y)
        shapes.text(left + x + 19, top + y + 11, text, 12)
        x += room + 8
    return y + 22


def swatch(shapes, name, x, y):
    if name in FRAMES:
        shapes.frame(name, x + 1, y + 1, 11, 2)
    elif name == "pin":
        shapes.dot(x + 6, y + 6, 3)
    else:
        shapes.box(name, x, y, 13, 13)


def style():
    light, dark = ["text{font-family:sans-serif}.title{fill:none;pointer-events:all}"], []
    for name, colours in COLOURS.items():
        for rules, colour in zip((light, dark), colours):
            if name == "text":
                rules.append(f"text{{fill:{colour}}}")
            elif name in FRAMES:
                rules.append(f".{name}{{fill:none;stroke:{colour}}}")
            else:
                rules.append(f".{name}{{fill:{colour}}}")
    return f'<style>{"".join(light)}@media(prefers-color-scheme:dark){{{"".join(dark)}}}</style>'


def largest_set(heaps):
    """The cards of the largest remembered set, which fill a bar."""
    return max(1, max(region.cards for heap in heaps for region in heap.regions))


def titled(heaps, chosen, costs):
    """Each heap with its title, the frames of its regions, and what a budget says of them."""
    yield heaps[0], "before" if len(heaps) > 1 else "heap", {number: "set" for number in chosen}, costs
    for heap in heaps[1:]:
        yield heap, "after", changed(heaps[0], heap), {}


def seen_in(shapes):
    """What of the legend is in the picture."""
    return set(shapes.paths) | {name for name in (*FRAMES, "pin") if any(f'"{name}"' in line for line in shapes.others)}


def svg(shapes, width, height, label="regions of a heap"):
    head = (f'<svg xmlns="http://www.w3.org/2000/svg" width="{width}" height="{height}" '
            f'viewBox="0 0 {width} {height}" role="img" aria-label="{label}">')
    ground = f'<rect class="page" width="{width}" height="{height}"/>'
    return "\n".join([head, style(), ground, *shapes.lines(), "</svg>", ""])


def picture(heaps, chosen, costs):
    """The text of the drawing."""
    shapes, most_cards = Shapes(), largest_set(heaps)
    left, height = MARGIN, 0
    for heap, title, frames, prices in titled(heaps, chosen, costs):
        draw_heap(shapes, heap, title, left, frames, prices, most_cards)
        grid = Grid(len(heap.regions))
        left += grid.width + BETWEEN
        height = max(height, grid.height)
    width, top = left - BETWEEN + MARGIN, MARGIN + height + 16
    height = top + draw_legend(shapes, MARGIN + LABEL, top, width - 2 * MARGIN - LABEL, most_cards, seen_in(shapes)) + MARGIN
    return svg(shapes, width, height)


def pictures(heaps, chosen, costs):
    """The same in parts, which a narrow screen shows one below the other: each heap, and the legend."""
    seen, most_cards, parts = set(), largest_set(heaps), []
    for heap, title, frames, prices in titled(heaps, chosen, costs):
        shapes, grid = Shapes(), Grid(len(heap.regions))
        draw_heap(shapes, heap, title, 0, frames, prices, most_cards)
        seen |= seen_in(shapes)
        parts.append(svg(shapes, grid.width + MARGIN, MARGIN + grid.height + MARGIN, f"regions of the heap: {title}"))
    shapes, width = Shapes(), LEAST_WIDTH + 2 * MARGIN
    height = draw_legend(shapes, MARGIN, MARGIN, width - 2 * MARGIN, most_cards, seen) + MARGIN
    return "".join([*parts, svg(shapes, width, height, "legend")])


# The page.

PAGE = """<!DOCTYPE html>
<html lang="en">
<head>
<meta charset="utf-8">
<meta name="color-scheme" content="light dark">
<title>{title}</title>
<style>
body {{ font-family: sans-serif; margin: 1.5em; color: #1f2328; background: #ffffff }}
.heaps {{ display: flex; flex-wrap: wrap; align-items: flex-start; gap: 0 1em }}
svg {{ max-width: 100%; height: auto }}
table {{ max-width: 100% }}
@media (max-width: 600px) {{ body {{ margin: 0.7em }} }}
td, th {{ padding: 0.2em 1em 0.2em 0; text-align: right }}
td:first-child {{ text-align: left }}
@media (prefers-color-scheme: dark) {{ body {{ color: #e6edf3; background: #0d1117 }} }}
</style>
</head>
<body>
<h1>{title}</h1>
<div class="heaps">
{svg}</div>
<table>
<tr><th></th>{heads}</tr>
{rows}
</table>
<p>{chosen}</p>
<p>A cell is a region, in rows from the lowest number on. It is filled from below by live words, then by garbage; what
is left are free words. The bar beside it is its remembered set, as a part of the largest one in the picture. Frames
mark the collection set, and in the heap after what was freed and what received survivors. A dot marks a pinned
region. Rest the pointer on a region to read its numbers.</p>
</body>
</html>
"""


def page(heaps, chosen, costs, title):
    """The drawing with its numbers in one file."""
    kinds = ("free", "ordinary", "humongous", "continuation")
    table = [(f"{kind} regions", [sum(1 for region in heap.regions if region.kind == kind) for heap in heaps])
             for kind in kinds]
    table += [(f"{name} words", [heap.total(name) for heap in heaps]) for name in ("live", "garbage")]
    table.append(("free words", [heap.free_words() for heap in heaps]))
    table += [(name, [heap.total(name) for heap in heaps]) for name in ("objects", "cards")]
    table += [(name, [getattr(heap, name) for heap in heaps]) for name in ("roots", "dirty")]
    names = {"cards": "remembered cards", "dirty": "dirty cards"}
    rows = "\n".join(f"<tr><td>{names.get(name, name)}</td>{''.join(f'<td>{value}</td>' for value in values)}</tr>"
                     for name, values in table)
    heads = "".join(f"<th>{head}</th>" for head in (("before", "after") if len(heaps) > 1 else ("heap",)))
    numbers = ", ".join(str(number) for number in sorted(chosen))
    sentence = f"Collection set: {numbers}." if chosen else "No collection set is drawn."
    return PAGE.format(title=html.escape(title), svg=pictures(heaps, chosen, costs), heads=heads, rows=rows, chosen=sentence)


def listed(numbers):
    return ", ".join(map(str, sorted(numbers))) or "none"


def note_set(before, after, chosen):
    """Says so if a set is drawn beside a heap after in which other ordinary regions were freed."""
    freed = {number for number, name in changed(before, after).items() if name == "freed" and before.regions[number].kind == "ordinary"}
    if chosen and freed != set(chosen):
        print(f"picture: the set that is drawn is {listed(chosen)}, and the ordinary regions that were freed are {listed(freed)}",
              file=sys.stderr)


def regions_picture(options, images):
    heaps = [Heap(options.program, image) for image in images]
    chosen, costs = choice(options.program, options.image, options)
    check_set(len(heaps[0].regions), chosen)
    for heap in heaps[1:]:
        note_set(heaps[0], heap, chosen)
    title = options.title or ("A heap before and after a pause" if options.after else "A heap")
    return page(heaps, chosen, costs, title) if options.html else picture(heaps, chosen, costs)


def drawn(options):
    """What the options ask for."""
    images = [options.image] + ([options.after] if options.after else [])
    if options.steps:
        return stepping_page(options)
    return objects_picture(options, images) if options.objects else regions_picture(options, images)


def options_of(words):
    parser = argparse.ArgumentParser(description=__doc__, formatter_class=argparse.RawDescriptionHelpFormatter)
    parser.add_argument("image", metavar="IMAGE", help="the heap before")
    parser.add_argument("after", metavar="AFTER", nargs="?", help="the heap after, drawn beside it")
    form = parser.add_mutually_exclusive_group()
    form.add_argument("--html", action="store_true", help="a page with the picture, its numbers and its legend")
    form.add_argument("--objects", action="store_true", help="draws words, objects and references")
    form.add_argument("--steps", action="store_true", help="a page that steps through the pause")
    parser.add_argument("--title", metavar="TEXT", help="the title of a page")
    parser.add_argument("--set", metavar="R", type=programs.regions, help="the regions of the collection set, as in 1,2,5-9")
    parser.add_argument("--budget", metavar="N", help="frames what g1pause choose takes for this budget")
    for name in COSTS:
        parser.add_argument(f"--{name}", metavar="N", help="handed to g1pause choose, or to g1heap explain")
    parser.add_argument("--program", metavar="FILE", default=programs.find("g1pause"), help="g1pause (default: out/g1pause)")
    parser.add_argument("--g1heap", metavar="FILE", default=programs.find("g1heap"), help="g1heap (default: out/g1heap)")
    options = parser.parse_intermixed_args(words)
    if options.set is not None and options.budget is not None:
        parser.error("--set and --budget exclude each other")
    if options.steps and options.after:
        parser.error("--steps takes one image: it makes the pause itself")
    return options


def main():
    options = options_of(sys.argv[1:])
    try:
        text = drawn(options)
    except Refusal as refusal:
        print(f"picture: {refusal}", file=sys.stderr)
        return refusal.status
    except (NotThere, objects.TooLarge, stepping.TooLarge) as error:
        print(f"picture: {options.image}: {error}", file=sys.stderr)
        return 2
    except OSError as error:
        hint = f": {programs.BUILD}" if error.filename in (options.program, options.g1heap) else ""
        print(f"picture: {error.filename or 'input or output'}: {error.strerror or error}{hint}", file=sys.stderr)
        return 2
    sys.stdout.write(text)
    return 0


if __name__ == "__main__":
    sys.exit(main())
