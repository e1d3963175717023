#!/usr/bin/env python3
"""same.py [--g1heap FILE] [--g1pause FILE] [--rounds R] [--seed S]
same.py --lines OBJECTS [--g1heap FILE] [--rounds R]

`g1heap same` on two images of about 94 MB (bench/images.py), the second being the answer of a pause to the first,
beside `g1pause live` on the first: processor time and peak memory, in turn, R rounds (5). Twice the time of `live`
is what reading and walking both images would take.

With --lines it measures lines of objects by name, and images of the same heaps, in turn: a tree of so many objects with
two slots and a data word. 4194304 of them have 2^24 words. In the second file each object has another name.
"""
import argparse
import os
import pathlib
import statistics
import subprocess
import sys
import tempfile

HERE = pathlib.Path(__file__).resolve().parent
sys.path.insert(0, str(HERE.parent / "tools" / "lib"))

import progress  # noqa: E402 (it is in tools/lib/)

OUT = HERE.parent / "out"
MB = 1_000_000


def run(command, source=None):
    """Processor time in seconds, peak memory in bytes, and what was printed."""
    with open(source or os.devnull, "rb") as data:
        process = subprocess.Popen(command, stdin=data, stdout=subprocess.PIPE)
        out = process.stdout.read()
        _, status, usage = os.wait4(process.pid, 0)
        process.returncode = os.waitstatus_to_exitcode(status)
    if process.returncode != 0:
        sys.exit(f"{command}: status {process.returncode}")
    return usage.ru_utime + usage.ru_stime, usage.ru_maxrss * 1024, out


def paused(program, image, after):
    """Writes the answer of the pause with the greatest budget that finds room."""
    budget = 1 << 28
    while budget:
        with open(image, "rb") as source, open(after, "wb") as out:
            command = [program, "pause", "--budget", str(budget)]
            if subprocess.run(command, stdin=source, stdout=out, stderr=subprocess.DEVNULL).returncode == 0:
                return budget
        budget //= 2
    sys.exit("no pause finds room")


def write_lines(path, count, first):
    """A tree of objects by name: the names are numbers from the first on."""
    with open(path, "w") as out:
        out.write(f"graph\nroot {first}\n")
        for number in range(count):
            below = (2 * number + 1, 2 * number + 2)
            slots = " ".join(str(first + child) if child < count else "-" for child in below)
            out.write(f"object {first + number} 4/2 {slots} {number % 1000}\n")


def compare_lines(options, folder):
    """Measures `same` on lines of objects by name, and on images of them."""
    lines = [pathlib.Path(folder) / name for name in ("before.txt", "after.txt")]
    images = [path.with_suffix(".img") for path in lines]
    for path, image, first in zip(lines, images, (0, 1_000_000)):
        write_lines(path, options.lines, first)
        subprocess.run([options.g1heap, "make", str(path), "-o", str(image)], check=True)
    found = {"lines": (lines, []), "images": (images, [])}
    for _ in progress.over(range(options.rounds), "rounds"):
        for files, runs in found.values():
            runs.append(run([options.g1heap, "same", *map(str, files)]))
    for kind, (files, runs) in found.items():
        took, peak = statistics.median(cpu for cpu, _, _ in runs), max(peak for _, peak, _ in runs)
        sizes = " and ".join(f"{path.stat().st_size / MB:.1f}" for path in files)
        print(f"{kind}, {sizes} MB: {runs[0][2].decode().strip()}: {took:.2f} s, {peak / MB:.0f} MB")


def main():
    parser = argparse.ArgumentParser(description=__doc__, formatter_class=argparse.RawDescriptionHelpFormatter)
    parser.add_argument("--g1heap", default=str(OUT / "g1heap"), metavar="FILE")
    parser.add_argument("--g1pause", default=str(OUT / "g1pause"), metavar="FILE")
    parser.add_argument("--rounds", type=int, default=5, metavar="R")
    parser.add_argument("--seed", default="1", metavar="S")
    parser.add_argument("--lines", type=int, metavar="OBJECTS")
    options = parser.parse_args()
    for program in [options.g1heap] if options.lines else [options.g1heap, options.g1pause]:
        if not pathlib.Path(program).is_file():
            parser.error(f"{program} is not there: tools/build.py --unproved builds it, or name it by --g1heap or --g1pause")
    with tempfile.TemporaryDirectory() as folder:
        if options.lines:
            compare_lines(options, folder)
            return
        image, after = pathlib.Path(folder) / "before.img", pathlib.Path(folder) / "after.img"
        for width in progress.over((65536, 4096), "heaps"):
            subprocess.run([sys.executable, str(HERE / "images.py"), str(width), str(image), "--seed", options.seed],
                           check=True, stdout=subprocess.DEVNULL)
            budget = paused(options.g1pause, image, after)
            live, same = [], []
            for _ in progress.over(range(options.rounds), "rounds"):
                live.append(run([options.g1pause, "live"], image))
                same.append(run([options.g1heap, "same", str(image), str(after)]))
            once, both = (statistics.median(cpu for cpu, _, _ in runs) for runs in (live, same))
            low, high = (max(peak for _, peak, _ in runs) for runs in (live, same))
            print(f"Regions of {width} words, {image.stat().st_size / MB:.1f} and {after.stat().st_size / MB:.1f} MB, "
                  f"pause --budget {budget}: {same[0][2].decode().strip()}")
            print(f"live {once:.2f} s, {low / MB:.0f} MB; same {both:.2f} s, {high / MB:.0f} MB; "
                  f"{both / (2 * once):.2f} of twice the time, {high / low:.2f} of the memory")


if __name__ == "__main__":
    main()
