"""Programs in which an error is planted, run as a user who may write nothing of ours: a module of the scripts beside this
folder.

A planted error can have a program write over any file that its user may write, a device of the machine too. So the
super-user runs such a program as nobody, and everyone else as they are.
"""
import os
import shutil
import subprocess
import sys

NOBODY = 65534
PLACES = "/usr/local/bin:/usr/bin:/bin"


class Unreadable(Exception):
    """What nobody cannot read, and has to."""


def unprivileged():
    """What `subprocess.run` is given, beside the words of a planted program."""
    return {} if os.geteuid() else {"user": NOBODY, "group": NOBODY, "extra_groups": ()}


def can(*words):
    """Whether that user can run this command."""
    try:
        done = subprocess.run(words, stdout=subprocess.DEVNULL, stderr=subprocess.DEVNULL, check=False, **unprivileged())
    except OSError:
        return False
    return done.returncode == 0


def python():
    """A Python for that user: this one, or the system's."""
    for program in (sys.executable, shutil.which("python3", path=PLACES)):
        if program and can(program, "-c", "import sys; sys.exit(sys.version_info < (3, 9))"):
            return program
    raise Unreadable("nobody can run no Python of 3.9 or later: put one into /usr/local/bin")


def require_readable(*files):
    """Stops unless that user may read these files."""
    for file in files:
        if not can("test", "-r", str(file)):
            raise Unreadable(f"nobody cannot read {file}: put the checkout where every user may read it")


def let_in(folder):
    """Lets that user read what is in a folder of ours, and makes a folder in it that the user may write."""
    folder.chmod(0o755)
    own = folder / "nobody"
    own.mkdir()
    if not os.geteuid():
        os.chown(own, NOBODY, NOBODY)
    return own
