"""Runs a command that may go wrong in any way: it ends, it is killed, it never ends, it writes too much. Nothing stays of it.

Each run is a process group of its own, which is killed as soon as its first process has ended, or after a time. What it
writes goes to files, which `limit_files` bounds.
"""
import os
import pathlib
import resource
import select
import shlex
import shutil
import signal
import subprocess
import threading
import time

MOST_BYTES = 1 << 26  # of a file that is written: an image may be far larger, and ours are far smaller
LONGEST_REPLY = 4096


class NoCommand(Exception):
    """The command can't be started at all."""


class Ended(Exception):
    """How a command went wrong."""


def limit_files(most=MOST_BYTES):
    """No file that this process or one that it starts writes is longer, and none leaves a core."""
    _, hard = resource.getrlimit(resource.RLIMIT_FSIZE)
    resource.setrlimit(resource.RLIMIT_FSIZE, (most if hard < 0 else min(most, hard), hard))
    resource.setrlimit(resource.RLIMIT_CORE, (0, resource.getrlimit(resource.RLIMIT_CORE)[1]))


def how_it_ended(status, errors=""):
    """What to say of a status that is not 0; `errors` is the last line that the command wrote to standard error."""
    if status < 0:
        try:
            name = signal.Signals(-status).name
        except ValueError:
            name = f"signal {-status}"
        most = resource.getrlimit(resource.RLIMIT_FSIZE)[0] >> 20
        more = f", since it wrote a file of more than {most} MiB" if name == "SIGXFSZ" else ""
        return f"killed by {name}{more}"
    return f"status {status}" + (f": {errors}" if errors else "")


def last_line(path):
    """The last line of a file that may be long, or have anything in it."""
    with open(path, "rb") as file:
        file.seek(max(0, os.fstat(file.fileno()).st_size - 400))
        lines = file.read().decode(errors="replace").split("\n")
    kept = [line.strip() for line in lines if line.strip()]
    return "".join(c if c.isprintable() else "?" for c in kept[-1][-200:]) if kept else ""


def remove(path):
    """Removes a file or a folder, if it is there."""
    if path.is_dir() and not path.is_symlink():
        shutil.rmtree(path)
    else:
        path.unlink(missing_ok=True)


class Group:
    """A process that was started, and all that it starts, as long as they stay in its process group."""

    def __init__(self, words, folder, **streams):
        """`folder` is where its temporary files are to go."""
        environment = {**os.environ, "TMPDIR": str(folder)}
        try:
            self.process = subprocess.Popen(words, start_new_session=True, env=environment, **streams)
        except (OSError, ValueError) as error:
            reason = getattr(error, "strerror", None) or error
            raise NoCommand(f"{shlex.quote(words[0])} can't be run: {reason}") from None

    def kill(self):
        if self.process.returncode is None:
            try:
                os.killpg(self.process.pid, signal.SIGKILL)
            except ProcessLookupError:
                pass

    def wait(self, seconds):
        """The status, or Ended after this time. Then the group is gone."""
        is_late = threading.Event()

        def end():
            is_late.set()
            self.kill()

        timer = threading.Timer(seconds, end)
        timer.start()
        try:
            # The process is not waited for until its group is killed: so its number is nobody else's.
            os.waitid(os.P_PID, self.process.pid, os.WEXITED | os.WNOWAIT)
        finally:
            timer.cancel()
            self.kill()
            status = self.process.wait()
        if is_late.is_set():
            raise Ended(f"no answer in {seconds:g} seconds")
        return status


class Command:
    """A command that is run once for each heap. In its words {before}, {after} and {set} stand for the files and the
    regions. With `by_streams` the image before is its standard input, and that after its standard output."""

    def __init__(self, words, folder, seconds, no_room, by_streams=False, set_words=False):
        self.words, self.folder, self.seconds = words, pathlib.Path(folder), seconds
        self.no_room, self.by_streams, self.set_words = no_room, by_streams, set_words
        self.group = None

    def words_of(self, before, after, chosen):
        found = {"{before}": str(before), "{after}": str(after), "{set}": ",".join(map(str, chosen))}
        words = []
        for word in self.words:
            if word == "{set}" and self.set_words:
                words += map(str, chosen)
                continue
            for name, text in found.items():
                word = word.replace(name, text)
            words.append(word)
        return words

    def run(self, before, after, chosen):
        """Has it answer. False if it found no room; Ended if it went wrong."""
        errors = self.folder / "errors"
        with open(before if self.by_streams else os.devnull, "rb") as stdin, open(errors, "wb") as stderr, \
                open(after if self.by_streams else self.folder / "printed", "wb") as stdout:
            self.group = Group(self.words_of(before, after, chosen), self.folder, stdin=stdin, stdout=stdout, stderr=stderr)
            status = self.wait({"errors", "printed", before.name, after.name})
        if status == self.no_room:
            return False
        if status:
            raise Ended(how_it_ended(status, last_line(errors)))
        return True

    def wait(self, ours):
        """The status. What it left in its folder is removed."""
        try:
            return self.group.wait(self.seconds)
        finally:
            for path in self.folder.iterdir():
                if path.name not in ours:
                    remove(path)

    def renew(self):
        """Nothing of one run is left for the next."""

    def kill(self):
        if self.group:
            self.group.kill()


class Server:
    """A command that is started once. A line `BEFORE AFTER SET` asks it, and it replies with a line: `ok` or `room`."""

    def __init__(self, words, folder, seconds):
        self.words, self.folder, self.seconds = words, pathlib.Path(folder), seconds
        self.group = None

    def start(self):
        with open(self.folder / "errors", "ab") as stderr:
            self.group = Group(self.words, self.folder, stdin=subprocess.PIPE, stdout=subprocess.PIPE, stderr=stderr, bufsize=0)

    def run(self, before, after, chosen):
        os.truncate(self.folder / "errors", 0) if self.group else self.start()
        try:
            if select.select([self.group.process.stdout], [], [], 0)[0]:
                self.reply_unasked()
            try:
                self.group.process.stdin.write(f"{before} {after} {','.join(map(str, chosen))}\n".encode())
            except OSError:
                raise Ended(self.end_of(self.group)) from None
            return self.reply() == b"ok"
        except Ended:
            self.renew()
            raise

    def reply(self):
        """The line that it replies with."""
        stream, line, end = self.group.process.stdout, b"", time.monotonic() + self.seconds
        while not line.endswith(b"\n"):
            if not select.select([stream], [], [], max(0, end - time.monotonic()))[0]:
                raise Ended(f"no answer in {self.seconds:g} seconds")
            part = os.read(stream.fileno(), LONGEST_REPLY)
            if not part:
                raise Ended(self.end_of(self.group))
            line += part
            if len(line) > LONGEST_REPLY or line.count(b"\n") > 1:
                raise Ended("a reply of more than one line" if b"\n" in line else "a reply without an end")
        if line.strip() not in (b"ok", b"room"):
            raise Ended(f"the reply {line.decode(errors='replace').strip()[:60]!r}, which is neither ok nor room")
        return line.strip()

    def reply_unasked(self):
        """What it wrote, or that it ended, since the heap before."""
        part = os.read(self.group.process.stdout.fileno(), LONGEST_REPLY)
        raise Ended("a reply of more than one line, to the heap before" if part else self.end_of(self.group))

    def end_of(self, group):
        """How it ended, if it closed its streams and ended."""
        status = group.wait(1)
        errors = last_line(self.folder / "errors")
        return how_it_ended(status, errors) if status else "it ended before it replied" + (f": {errors}" if errors else "")

    def renew(self):
        """The next heap is that of a new process."""
        if self.group:
            self.group.kill()
            self.group.process.wait()
            self.group.process.stdin.close()
            self.group.process.stdout.close()
        self.group = None

    def kill(self):
        if self.group:
            self.group.kill()
