"""Libraries that `rt ci` proved on this machine of the same files: a module of tools/build.py and tools/build_judge.py.

`rt ci` keeps each library that it proved beside the kit, under a sum of all that the proof read: the kit, HANDLES, the
crate's line and files, and the libraries below it as they were built. Other commands do not look there, and prove anew.
Here the kit's own `rt` looks each library up as `rt ci` does, in a folder of links to the sources, and compares the sums
of its files. Those that it has go to the crates' own out/, with the stamp by which `rt` knows a library that is proved.
A library fits only those that it was built over. So nothing is taken if one that was not kept is proved in this checkout.
"""
import contextlib
import fcntl
import importlib.machinery
import importlib.util
import os
import pathlib
import shutil
import sys

import stamp
import unproved


def load_rt(kit):
    """The kit's `rt`, as a module."""
    loader = importlib.machinery.SourceFileLoader("rt", str(kit / "bin" / "rt"))
    made = importlib.util.module_from_spec(importlib.util.spec_from_loader("rt", loader))
    sys.modules["rt"] = made
    loader.exec_module(made)
    return made


def link_sources(top, names, room):
    """Lays the crates' sources into the room, which is the top of a repository for `rt`."""
    (room / ".git").mkdir(parents=True)
    for name in names:
        for part in stamp.PARTS:
            if (top / "crates" / name / part).is_dir():
                shutil.copytree(top / "crates" / name / part, room / "crates" / name / part, copy_function=os.link)
    (room / "crates.txt").write_text(stamp.lines_of(names, top))
    shutil.copyfile(top / "HANDLES", room / "HANDLES")


def libraries(rt, room):
    """The crates of the room that are libraries of others, lowest first."""
    rt.Crate.allowed = rt.handles_of(str(room))
    return [crate for crate in rt.crates_of(str(room)) if crate.makes_rlib()]


def is_proved(top, crate):
    """Whether a library is proved in the checkout."""
    found = top / "crates" / crate.name / "out" / "rlib" / "stamp"
    return found.is_file() and found.read_text() == crate.stamp()


def lay(rt, crates):
    """Has `rt` lay the libraries that it kept into their crates, and returns these crates."""
    kept, laid = rt.Kept(crates), []
    for crate in crates:
        if kept.give(crate, False, kept.key(crate)):  # the key has the libraries below as they were laid
            kept.is_built(crate)
            pathlib.Path(crate.rlib).with_name("stamp").write_text(crate.stamp())
            laid.append(crate)
    return laid


def move(room, top, names):
    """Moves libraries to the crates' own folders, while no other `rt` works there."""
    folders = [top / "crates" / name for name in names]
    locks = [os.open(folder, os.O_RDONLY) for folder in folders]
    for lock in locks:
        fcntl.flock(lock, fcntl.LOCK_EX)
    for folder in folders:  # the old ones go first, so that never one stands over another than its own
        (folder / "out").mkdir(exist_ok=True)
        shutil.rmtree(folder / "out" / "rlib", ignore_errors=True)
    for name, folder in zip(names, folders):
        os.replace(room / "crates" / name / "out" / "rlib", folder / "out" / "rlib")
    for lock in locks:
        os.close(lock)


def take(top, names, kit=None):
    """Takes the libraries among these crates that `rt ci` kept, and returns how many."""
    room = top / "out" / "kept"
    shutil.rmtree(room, ignore_errors=True)
    try:
        with open(os.devnull, "w", encoding="utf-8") as no, contextlib.redirect_stdout(no), contextlib.redirect_stderr(no):
            rt = load_rt(kit or unproved.kit_folder())
            link_sources(top, names, room)
            crates = libraries(rt, room)
            proved = [crate for crate in crates if is_proved(top, crate)]
            laid = [] if len(proved) == len(crates) else lay(rt, crates)
        if all(crate in proved for crate in laid) or not all(crate in laid for crate in proved):
            return 0
        move(room, top, [crate.name for crate in laid])
        return len(laid)
    except (Exception, SystemExit):  # a kit whose `rt` is another: what it kept cannot be looked up, and all is proved
        return 0
    finally:
        shutil.rmtree(room, ignore_errors=True)
