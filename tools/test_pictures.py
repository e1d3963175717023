#!/usr/bin/env python3
"""Steps through pauses in a real browser: test_pictures.py [--pictures FOLDER] G1PAUSE G1HEAP

tools/picture.py --steps makes a page of each example below. In headless Chromium, at a screen's and at a phone's width, in
light and dark, the keyboard alone goes forward through all steps and back. At each step the page has to show the line of
`g1heap explain` that belongs there, and at the end its heap has to be that of the image that `g1pause pause` writes, by
the lines of `g1heap print`. What a step looks at has to be on the screen. Nothing may be wider than the screen, no two
texts may run into each other, and none may leave its cell. The buttons, the slider and the list go to their steps.

Two heaps are made here: one of 64 regions of 64 words, which is many screens high, and one of 128 regions of 256 words, of
which the page shows the regions that the pause collects and fills.

With --pictures it also writes the first, a middle and the last step of each page as PNG files, to be looked at.
Statuses: 0 all passed; 1 something failed; 2 usage, or no Chromium (Debian's package chromium).
"""
import argparse
import pathlib
import subprocess
import sys
import tempfile

TOP = pathlib.Path(__file__).resolve().parent.parent
sys.path.insert(0, str(TOP / "tools/lib"))

import browser  # noqa: E402 (it is in lib/)
import progress  # noqa: E402
from heap_image import ORDINARY, Image, header  # noqa: E402
from programs import add_program  # noqa: E402

# An example and its set; the last one is refused.
PAUSES = (("shared_targets.img", "1"), ("gap.img", "0"), ("humongous_chain.img", None), ("dirty_card.img", "1"), ("no_room.img", "0"))
SCREENS = ((1400, 900, False), (390, 844, True))
# Heaps that are made here: words of a region and of a card, regions, used regions, and the set.
MADE = {"high": (64, 8, 64, 50, "48"), "window": (256, 64, 128, 60, "2,40")}
# What of a step is not on the screen below the bar, as far as it is drawn. A frame that is larger than the screen is seen by its top.
SIGHT = """(() => {
    const box = document.querySelector('#frames .main') || document.querySelector('#frames .lit-box');
    if (!box) return null;
    const { top, bottom } = box.getBoundingClientRect(), bar = document.getElementById('bar').getBoundingClientRect().bottom;
    return top >= bar && Math.min(bottom, top + 30) <= window.innerHeight ? null : `${top} to ${bottom}, below ${bar}`;
})()"""
# Texts of headings, roots and the head that run into another one, and figures that are wider than their cells.
CLASHES = """(() => {
    const boxes = (query) => [...document.querySelectorAll(query)].map((one) => [one.textContent, one.getBoundingClientRect()]);
    const texts = boxes('#figures text.strong, #figures text.quiet, #frames text.quiet, #frames text.in-slot').filter(([text]) => text);
    const wrong = [];
    texts.forEach(([a, one], i) => texts.slice(i + 1).forEach(([b, two]) => {
        const apart = one.right < two.left || two.right < one.left || one.bottom - 2 < two.top || two.bottom - 2 < one.top;
        if (!apart) wrong.push(`${a} / ${b}`);
    }));
    const cell = document.querySelector('#ground .word').getBoundingClientRect().width;
    for (const [text, box] of boxes('#figures text[text-anchor=middle]')) if (box.width > cell) wrong.push(`${text} in its cell`);
    const item = document.querySelector('#list li:last-child'), room = parseFloat(getComputedStyle(document.getElementById('list')).paddingLeft);
    const pen = document.createElement('canvas').getContext('2d');
    pen.font = getComputedStyle(item).font;
    if (pen.measureText(`${lines.length}. `).width > room) wrong.push('the numbers of the list');
    return wrong.slice(0, 5).join('; ');
})()"""


class Wrong(Exception):
    """What the page shows and should not."""


def lines_of(words, stdin=subprocess.DEVNULL):
    """The lines that a program prints, and its status."""
    done = subprocess.run(words, stdin=stdin, capture_output=True, check=False)
    return done.stdout.decode().splitlines(), done.returncode


def expect(what, shown, wanted):
    if shown != wanted:
        raise Wrong(f"{what}: {shown!r} in place of {wanted!r}")


def heap_after(options, image, chosen, room):
    """The lines of the image that the pause writes, or of the image itself if the pause is refused."""
    after = pathlib.Path(room) / "after.img"
    with open(image, "rb") as stdin, open(after, "wb") as stdout:
        status = subprocess.run([options.g1pause, "pause", *(chosen.split(",") if chosen else [])], stdin=stdin, stdout=stdout,
                                stderr=subprocess.DEVNULL, check=False).returncode
    return lines_of([options.g1heap, "print", str(image if status else after)])[0]


def make_page(options, image, chosen, room):
    page = pathlib.Path(room) / "page.html"
    words = [sys.executable, str(TOP / "tools/picture.py"), "--steps", "--g1heap", options.g1heap, str(image)]
    page.write_text(subprocess.run(words + (["--set", chosen] if chosen else []), capture_output=True, text=True, check=True).stdout)
    return page


def shown_line(page):
    return page.run("document.getElementById('line').textContent")


def go_through(page, explained):
    """Forward by the right arrow key, and back by the left one."""
    for number, line in enumerate(["the heap before", *explained]):
        expect(f"step {number}", shown_line(page), line)
        expect(f"count at step {number}", page.run("document.getElementById('count').textContent"), f"step {number} of {len(explained)}")
        if number and not page.run("document.getElementById('meaning').textContent"):
            raise Wrong(f"step {number} has no sentence: {line}")
        expect(f"what is out of sight at step {number}", page.run(SIGHT), None)
        if number % 20 == 0:
            expect(f"texts at step {number}", page.run(CLASHES), "")
        page.press("ArrowRight")
    expect("behind the last step", shown_line(page), explained[-1])
    for line in reversed(["the heap before", *explained[:-1]]):
        page.press("ArrowLeft")
        expect("a step back", shown_line(page), line)


def use_the_rest(page, explained):
    """End and Home, each button, the slider and the list. Buttons are reached and pressed by the keyboard."""
    page.press("End")
    expect("End", shown_line(page), explained[-1])
    page.press("Home")
    expect("Home", shown_line(page), "the heap before")
    for button, line in (("next", explained[0]), ("last", explained[-1]), ("back", explained[-2]), ("first", "the heap before")):
        page.run(f"document.getElementById('{button}').click()")
        expect(f"button {button}", shown_line(page), line)
    names = page.run("[...document.querySelectorAll('button, input')].every((one) => one.getAttribute('aria-label') && one.tabIndex >= 0)")
    expect("names of the controls", names, True)
    page.run("{ const slider = document.getElementById('where'); slider.value = 2; slider.dispatchEvent(new Event('input')); }")
    expect("the slider", shown_line(page), explained[1])
    page.run("document.getElementById('list').children[2].click()")
    expect("the list", shown_line(page), explained[2])


def check_width(page, width):
    wide = page.run("document.documentElement.scrollWidth")
    if wide > width:
        raise Wrong(f"the page is {wide} pixels wide on a screen of {width}")


def take_pictures(page, folder, name, steps, screen):
    for step in (0, steps // 2, steps):
        page.run(f"show({step})")
        page.picture(folder / f"{name}-{screen[0]}-{'dark' if screen[2] else 'light'}-{step}.png")


def made_image(name, room):
    """An image of full regions, in which each object references the next and one further on. Roots lead to each tenth."""
    words, card, regions, used, _ = MADE[name]
    image, starts = Image(words, card, regions), []
    for region in range(used):
        image.kinds[region], image.tops[region] = ORDINARY, words
        starts += range(region * words, (region + 1) * words, words // 8)
    for number, start in enumerate(starts):
        image.words[start:start + words // 8] = [header(words // 8, 2), *(starts[(number + far) % len(starts)] + 1 for far in (1, 77)),
                                                 *range(words // 8 - 3)]
    image.roots = [start + 1 for start in starts[::10]]
    image.make_exact()
    image.log = list(range(0, used * words // card, 9))
    file = pathlib.Path(room) / f"{name}.img"
    file.write_bytes(image.to_bytes())
    return file


def shown_part(page, heap):
    """The lines of a heap that are about the regions and the roots that the page shows."""
    regions, roots = (set(page.run(f"[...before.{part}.keys()]")) for part in ("regions", "roots"))
    words = int(heap[0].split()[1])
    keeps = {"region": lambda number: number in regions, "remembered": lambda number: number in regions,
             "root": lambda number: number in roots, "object": lambda number: number // words in regions}
    return [line for line in heap if line.split()[0] not in keeps or keeps[line.split()[0]](int(line.split()[1]))]


def check_pause(options, page, name, chosen):
    with tempfile.TemporaryDirectory() as room:
        image = made_image(name, room) if name in MADE else TOP / "examples" / name
        return check_image(options, page, image, chosen)


def check_image(options, page, image, chosen):
    name = image.stem
    words = [options.g1heap, "explain", str(image), *(["--set", chosen] if chosen else [])]
    explained, _ = lines_of(words)
    with tempfile.TemporaryDirectory() as room:
        path, after = make_page(options, image, chosen, room), heap_after(options, image, chosen, room)
        for screen in SCREENS:
            page.screen(*screen)
            page.open(path)
            shown = page.run("lines")
            if name not in MADE or MADE[name][0] <= 64:
                expect("the lines", shown, explained)
            elif any(line not in explained for line in shown) or [line for line in explained if line.startswith("place")] != [
                    line for line in shown if line.startswith("place")]:
                raise Wrong("the lines of the window are not those of the pause")
            go_through(page, shown)
            use_the_rest(page, shown)
            expect("the heap at the end", page.run("printHeap(replay.at(lines.length))"), shown_part(page, after))
            check_width(page, screen[0])
            if options.pictures:
                take_pictures(page, options.pictures, name, len(shown), screen)
    return len(explained)


def main():
    parser = argparse.ArgumentParser(description=__doc__, formatter_class=argparse.RawDescriptionHelpFormatter)
    add_program(parser, "g1pause")
    add_program(parser, "g1heap")
    parser.add_argument("--pictures", metavar="FOLDER", type=pathlib.Path, help="also writes PNG files there")
    options = parser.parse_args()
    if options.pictures:
        options.pictures.mkdir(parents=True, exist_ok=True)
    program = browser.find()
    if program is None:
        print("test_pictures: there is no Chromium on the path: install Debian's package chromium", file=sys.stderr)
        return 2
    passed = failed = 0
    with browser.Browser(program) as page:
        for name, chosen in progress.over([*PAUSES, *((name, MADE[name][-1]) for name in MADE)], "pauses"):
            try:
                print(f"{name}: {check_pause(options, page, name, chosen)} steps")
                passed += 1
            except (Wrong, browser.Failed, subprocess.CalledProcessError) as error:
                print(f"{name}: {error}")
                failed += 1
    print(f"{passed} passed, {failed} failed")
    return 1 if failed else 0


if __name__ == "__main__":
    sys.exit(main())
