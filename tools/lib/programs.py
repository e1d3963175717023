"""The built programs on a script's command line: a module of the scripts beside this folder."""
import argparse
import os
import pathlib
import re
import shutil

from heap_image import MOST_REGIONS

TOP = pathlib.Path(__file__).resolve().parent.parent.parent
OUT = TOP / "out"
IN_RELEASE = ("share", "doc", "g1pause")  # where a release has these scripts
BUILD = "tools/build.py --unproved builds out/g1pause and out/g1heap"
BUILD_DRIVER = "rt run in crates/g1_rows builds crates/g1_rows/out/g1_rows, and so does .ci/run"


def find(name):
    """The path of a built program: in a checkout that of out/, in a release that of bin/, else that on the path."""
    places = [OUT / name]
    if TOP.parts[-3:] == IN_RELEASE:
        places.append(TOP.parents[2] / "bin" / name)
    return str(next((place for place in places if place.is_file()), shutil.which(name) or OUT / name))


def program(path, build=BUILD):
    """The whole path of a program that is there, as the type of an argument."""
    if not pathlib.Path(path).is_file():
        raise argparse.ArgumentTypeError(f"{path} is not there: {build}")
    if not os.access(path, os.X_OK):
        raise argparse.ArgumentTypeError(f"{path} is no program: {build}")
    return str(pathlib.Path(path).resolve())


def regions(text):
    """The numbers of a set of regions, as in 1,2,5-9, as the type of an argument."""
    numbers = []
    for part in text.split(","):
        found = re.fullmatch(r"([0-9]{1,9})(?:-([0-9]{1,9}))?", part)
        if not found:
            raise argparse.ArgumentTypeError(f"{text!r} is no set of regions, as in 1,2,5-9")
        first, last = int(found[1]), int(found[2] or found[1])
        if not first <= last < first + MOST_REGIONS:
            raise argparse.ArgumentTypeError(f"{part}: a range goes up, and a heap has at most {MOST_REGIONS} regions")
        numbers += range(first, last + 1)
    return numbers


def driver(path):
    return program(path, BUILD_DRIVER)


def add_driver(parser, **options):
    """An argument for the driver of the library's calls."""
    parser.add_argument("driver", metavar="DRIVER", type=driver, help=f"the built driver: {BUILD_DRIVER}", **options)


def add_program(parser, name, built=None):
    """An argument of this name for a built program. Without it the program is that of out/, or of the release."""
    built = built or name
    parser.add_argument(name, metavar=name.upper(), nargs="?", type=program, default=find(built),
                        help=f"the built program {built} (default: out/{built})")
