"""Draws how times change with the number of workers, as an SVG: a module of compare.py.

The picture has its own ground and two sets of colours, so that it can be read on a light and on a dark page. Each line has
a colour and a mark of its own, so that nobody has to tell colours apart.
"""
import math
from html import escape

WIDTH, HEIGHT, TOP, LEFT, BETWEEN = 250, 190, 34, 46, 70  # of a panel, and what is around it
LEGEND_ROW, LEGEND_COLUMN = 20, 190
# Each name's colour on a light ground and on a dark one.
GROUND = {"page": ("#ffffff", "#0d1117"), "text": ("#1f2328", "#e6edf3"), "axis": ("#57606a", "#9aa4af")}
LINES = (("#0b62b0", "#5aa2f0"), ("#b45309", "#e0922a"), ("#1a7f37", "#3fb950"), ("#7446b8", "#b093f2"),
         ("#c2185b", "#ff7ac6"), ("#0b7a6b", "#41cdb9"), ("#57606a", "#9aa4af"))
# A mark of each line, around (0, 0).
MARKS = ("M-4 0a4 4 0 1 0 8 0a4 4 0 1 0 -8 0z", "M-4 -4h8v8h-8z", "M0 -5L5 4H-5z", "M0 -5L5 0L0 5L-5 0z",
         "M0 5L5 -4H-5z", "M-5 -2h3v-3h4v3h3v4h-3v3h-4v-3h-3z", "M-5 0L-2 -5H2L5 0L2 5H-2z")


def style():
    """Rules for a light ground, and others for a dark one."""
    rules = []
    for dark in (0, 1):
        texts = [f".page{{fill:{GROUND['page'][dark]}}}", f"text{{fill:{GROUND['text'][dark]}}}",
                 f".axis{{stroke:{GROUND['axis'][dark]}}}"]
        texts += [f".line{i}{{stroke:{both[dark]}}}.mark{i}{{fill:{both[dark]}}}" for i, both in enumerate(LINES)]
        rules.append("".join(texts))
    fixed = "text{font:12px sans-serif}.title{font-weight:bold}.axis,.line{fill:none;stroke-width:1}.line{stroke-width:2}.dashed{stroke-dasharray:5 4}"
    return f"<style>{fixed}{rules[0]}@media(prefers-color-scheme:dark){{{rules[1]}}}</style>"


def step_for(highest):
    """A distance of ticks that makes four to ten of them."""
    power = 10 ** math.floor(math.log10(highest / 4))
    return next(power * factor for factor in (1, 2, 2.5, 5, 10) if highest / (power * factor) <= 6)


class Panel:
    """One diagram: workers to the right by doublings, times upwards from 0."""

    def __init__(self, left, counts, highest):
        self.left, self.counts = left, counts
        self.step = step_for(highest)
        self.highest = self.step * math.ceil(highest / self.step)

    def x(self, count):
        span = math.log2(self.counts[-1] / self.counts[0]) or 1
        return self.left + 14 + (WIDTH - 28) * math.log2(count / self.counts[0]) / span

    def y(self, value):
        return TOP + HEIGHT * (1 - value / self.highest)

    def axes(self, title):
        yield f'<text class="title" x="{self.left}" y="{TOP - 14}">{escape(title)}</text>'
        for tick in range(round(self.highest / self.step) + 1):
            value = tick * self.step
            yield f'<path class="axis" d="M{self.left - 4} {self.y(value):.1f}h4"/>'
            yield f'<text class="tick" x="{self.left - 8}" y="{self.y(value) + 4:.1f}" text-anchor="end">{value:g}</text>'
        yield f'<path class="axis" d="M{self.left} {TOP}v{HEIGHT}h{WIDTH}"/>'
        for count in self.counts:
            yield f'<path class="axis" d="M{self.x(count):.1f} {TOP + HEIGHT}v4"/>'
            yield f'<text class="count" x="{self.x(count):.1f}" y="{TOP + HEIGHT + 18}" text-anchor="middle">{count}</text>'
        yield f'<text x="{self.left + WIDTH / 2}" y="{TOP + HEIGHT + 36}" text-anchor="middle">workers</text>'
        yield f'<path class="axis dashed" d="M{self.left} {self.y(1):.1f}h{WIDTH}"/>'

    def lines(self, rows):
        """A line with its marks for each row; a value that was not measured is left out."""
        for i, (name, values) in enumerate(rows.items()):
            points = [(self.x(count), self.y(value)) for count, value in zip(self.counts, values) if value is not None]
            text = " ".join(f"{x:.1f},{y:.1f}" for x, y in points)
            yield f'<polyline class="line line{i}" points="{text}"><title>{escape(name)}</title></polyline>'
            for x, y in points:
                yield f'<path class="mark{i}" transform="translate({x:.1f} {y:.1f})" d="{MARKS[i]}"/>'


def legend(names, top, columns):
    for i, name in enumerate(names):
        x, y = LEFT + LEGEND_COLUMN * (i % columns), top + LEGEND_ROW * (i // columns)
        yield f'<path class="line line{i}" d="M{x} {y}h24"/><path class="mark{i}" transform="translate({x + 12} {y})" d="{MARKS[i]}"/>'
        yield f'<text x="{x + 32}" y="{y + 4}">{escape(name)}</text>'
    i = len(names)
    x, y = LEFT + LEGEND_COLUMN * (i % columns), top + LEGEND_ROW * (i // columns)
    yield f'<path class="axis dashed" d="M{x} {y}h24"/><text x="{x + 32}" y="{y + 4}">the reference</text>'


def picture(title, counts, panels):
    """The text of the drawing. Each panel is a title with its rows: for each name a value for each count, or None. All panels
    have the same scale."""
    names = list(panels[0][1])
    if len(names) > len(LINES):
        raise ValueError(f"{len(names)} lines, and there are {len(LINES)} colours")
    width = LEFT + len(panels) * (WIDTH + BETWEEN) - BETWEEN + 16
    columns, top = max(1, (width - LEFT) // LEGEND_COLUMN), TOP + HEIGHT + 62
    height = top + LEGEND_ROW * (len(names) // columns) + 18
    parts = []
    known = [value for _heading, rows in panels for values in rows.values() for value in values if value is not None]
    for at, (heading, rows) in enumerate(panels):
        panel = Panel(LEFT + at * (WIDTH + BETWEEN), counts, max([1, *known]))
        parts += [*panel.axes(heading), *panel.lines(rows)]
    head = f'<svg xmlns="http://www.w3.org/2000/svg" width="{width}" height="{height}" viewBox="0 0 {width} {height}" role="img">'
    ground = f'<title>{escape(title)}</title><rect class="page" width="{width}" height="{height}"/>'
    return "\n".join([head, style(), ground, *parts, *legend(names, top, columns), "</svg>", ""])
