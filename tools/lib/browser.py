"""A browser without a window, for tests: headless Chromium, asked over its DevTools pipe.

`find` looks for Chromium. A `Browser` is a context: `open` a file, `run` JavaScript in it, `picture` it.
"""
import base64
import json
import os
import pathlib
import shutil
import subprocess
import tempfile

NAMES = ("chromium", "chromium-browser", "google-chrome", "chrome")
SECONDS = 60


class Failed(Exception):
    """What the browser refused."""


def find():
    """The path of a Chromium, or None."""
    return next((path for path in map(shutil.which, NAMES) if path), None)


class Browser:
    """One page in one browser."""

    def __init__(self, program):
        self.room = tempfile.mkdtemp(prefix="browser")
        to_child, self.writer = os.pipe()
        self.reader, from_child = os.pipe()
        words = [program, "--headless=new", "--no-sandbox", "--disable-gpu", "--hide-scrollbars", "--disable-dev-shm-usage",
                 "--remote-debugging-pipe", f"--user-data-dir={self.room}", "about:blank"]

        def take_pipes():
            # The browser reads on 3 and writes on 4, and both pipes may have these numbers here.
            reader, writer = os.dup(to_child), os.dup(from_child)
            os.dup2(reader, 3, inheritable=True)
            os.dup2(writer, 4, inheritable=True)

        self.child = subprocess.Popen(words, stdin=subprocess.DEVNULL, stdout=subprocess.DEVNULL, stderr=subprocess.DEVNULL,
                                      close_fds=False, preexec_fn=take_pipes)
        os.close(to_child)
        os.close(from_child)
        self.number, self.session, self.buffer = 0, None, b""

    def __enter__(self):
        targets = self.ask("Target.getTargets")["targetInfos"]
        page = next(target["targetId"] for target in targets if target["type"] == "page")
        self.session = self.ask("Target.attachToTarget", targetId=page, flatten=True)["sessionId"]
        self.ask("Page.enable")
        return self

    def __exit__(self, *_):
        self.child.kill()
        self.child.wait(SECONDS)
        for end in (self.reader, self.writer):
            os.close(end)
        shutil.rmtree(self.room, ignore_errors=True)

    def answer(self):
        """The next message of the browser."""
        while b"\0" not in self.buffer:
            part = os.read(self.reader, 1 << 16)
            if not part:
                raise Failed("the browser went away")
            self.buffer += part
        message, self.buffer = self.buffer.split(b"\0", 1)
        return json.loads(message)

    def ask(self, method, **parameters):
        self.number += 1
        request = {"id": self.number, "method": method, "params": parameters}
        if self.session:
            request["sessionId"] = self.session
        os.write(self.writer, json.dumps(request).encode() + b"\0")
        while True:
            message = self.answer()
            if message.get("id") == self.number:
                if "error" in message:
                    raise Failed(f"{method}: {message['error']['message']}")
                return message["result"]

    def screen(self, width, height, dark=False):
        """Sets the size of the screen in pixels, and whether it is dark."""
        self.ask("Emulation.setDeviceMetricsOverride", width=width, height=height, deviceScaleFactor=1, mobile=False)
        scheme = "dark" if dark else "light"
        self.ask("Emulation.setEmulatedMedia", features=[{"name": "prefers-color-scheme", "value": scheme},
                                                         {"name": "prefers-reduced-motion", "value": "reduce"}])

    def open(self, path):
        self.ask("Page.navigate", url=pathlib.Path(path).resolve().as_uri())
        while self.answer().get("method") != "Page.loadEventFired":
            pass

    def run(self, expression):
        """The value of a JavaScript expression in the page."""
        done = self.ask("Runtime.evaluate", expression=expression, returnByValue=True, awaitPromise=True)
        if "exceptionDetails" in done:
            details = done["exceptionDetails"]
            raise Failed(details.get("exception", {}).get("description", details["text"]))
        return done["result"].get("value")

    def press(self, key):
        """Presses a key, as a reader does."""
        for kind in ("rawKeyDown", "keyUp"):
            self.ask("Input.dispatchKeyEvent", type=kind, key=key, code=key)

    def picture(self, path):
        """Writes what the screen shows as a PNG file."""
        shot = self.ask("Page.captureScreenshot", format="png", captureBeyondViewport=False)
        pathlib.Path(path).write_bytes(base64.b64decode(shot["data"]))
