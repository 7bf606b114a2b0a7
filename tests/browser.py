"""A headless Chromium, driven through a pipe by its DevTools protocol: pages, keys, texts and pictures."""
import base64
import json
import os
import select
import shutil
import signal
import subprocess
import tempfile
import time

# how long it may say nothing, and take for one call
SECONDS = 90


class Fault(Exception):
    """What the browser or the page did that it must not."""


def program():
    """The browser's program, or nothing where it is not there."""
    names = ("chromium", "chromium-browser", "google-chrome")
    return next((found for it in names if (found := shutil.which(it))), None)


class Browser:
    """One window of a browser, without a network. To be used by `with`."""

    def __init__(self, width=1500, height=900):
        self.room = tempfile.mkdtemp(prefix="explore_")
        asks, self.ask = os.pipe()
        self.told, tells = os.pipe()
        words = [program(), "--headless=new", "--no-sandbox", "--disable-gpu", "--disable-dev-shm-usage"]
        words += ["--no-first-run", "--disable-background-networking", "--host-resolver-rules=MAP * ~NOTFOUND"]
        words += [f"--user-data-dir={self.room}"]
        words += [f"--window-size={width},{height}", "--hide-scrollbars", "--remote-debugging-pipe", "about:blank"]

        def pipes():
            # the browser takes asks from 3 and tells to 4; both are copied first, so that neither is closed over
            one, other = os.dup(asks), os.dup(tells)
            os.dup2(one, 3)
            os.dup2(other, 4)

        self.process = subprocess.Popen(
            words,
            preexec_fn=pipes,
            close_fds=False,
            stdout=subprocess.DEVNULL,
            stderr=subprocess.DEVNULL,
            start_new_session=True,
        )
        os.close(asks)
        os.close(tells)
        self.number, self.left, self.events = 0, b"", []
        self.session = None
        target = self.call("Target.createTarget", url="about:blank")["targetId"]
        self.session = self.call("Target.attachToTarget", targetId=target, flatten=True)["sessionId"]
        self.call("Page.enable")
        self.call("Runtime.enable")
        self.size(width, height)

    def __enter__(self):
        return self

    def __exit__(self, *_):
        try:
            self.session = None
            self.call("Browser.close")
            self.process.wait(10)
        except (Fault, OSError, subprocess.TimeoutExpired):
            os.killpg(self.process.pid, signal.SIGKILL)
            self.process.wait()
        os.close(self.ask)
        os.close(self.told)
        shutil.rmtree(self.room, ignore_errors=True)

    def message(self):
        """The next message of the browser."""
        while b"\0" not in self.left:
            is_there, _, _ = select.select([self.told], [], [], SECONDS)
            got = os.read(self.told, 1 << 20) if is_there else b""
            if not got:
                raise Fault("the browser ended" if is_there else f"the browser said nothing for {SECONDS} seconds")
            self.left += got
        text, _, self.left = self.left.partition(b"\0")
        return json.loads(text)

    def call(self, method, **what):
        self.number += 1
        ask = {"id": self.number, "method": method, "params": what}
        if self.session:
            ask["sessionId"] = self.session
        text = json.dumps(ask).encode() + b"\0"
        while text:
            text = text[os.write(self.ask, text) :]
        begun = time.monotonic()
        while True:
            got = self.message()
            if time.monotonic() - begun > SECONDS:
                raise Fault(f"{method} took more than {SECONDS} seconds")
            if got.get("id") == self.number:
                if "error" in got:
                    raise Fault(f"{method}: {got['error']['message']}")
                return got["result"]
            if got.get("method") == "Runtime.exceptionThrown":
                self.events.append(got["params"]["exceptionDetails"])

    def size(self, width, height):
        self.call("Emulation.setDeviceMetricsOverride", width=width, height=height, deviceScaleFactor=1, mobile=False)

    def open(self, path, words=""):
        """Opens a file, and waits until all of it is read. Answers the seconds until it was first shown, and until all
        was."""
        self.events = []
        self.call("Page.navigate", url="about:blank")
        begun = time.monotonic()
        self.call("Page.navigate", url=f"file://{path}" + (f"#{words}" if words else ""))
        taken = []
        is_there = "document.readyState === 'complete' && typeof page !== 'undefined' && page !== null"
        for is_so in (is_there, "page.run.isDone"):
            while self.value(is_so) is not True:
                self.refuse_faults()
                if time.monotonic() - begun > 60:
                    raise Fault("the page does not open")
                time.sleep(0.02)
            self.refuse_faults()
            self.settle()
            taken.append(time.monotonic() - begun)
        return taken

    def settle(self):
        """Waits until what was asked to be drawn is drawn."""
        self.value("new Promise((done) => requestAnimationFrame(() => requestAnimationFrame(() => done(1))))")

    def refuse_faults(self):
        if self.events:
            it = self.events[0]
            raise Fault(f"the page met {it.get('exception', {}).get('description', it['text'])}")

    def value(self, text):
        """The value of an expression in the page."""
        got = self.call("Runtime.evaluate", expression=text, returnByValue=True, awaitPromise=True)
        if "exceptionDetails" in got:
            it = got["exceptionDetails"]
            raise Fault(f"{text[:80]}: {it.get('exception', {}).get('description', it['text'])}")
        return got["result"].get("value")

    def text(self, name):
        """The text of an element by its id."""
        return self.value(f"document.getElementById({json.dumps(name)}).innerText")

    def key(self, key, shift=False):
        """Presses a key, as a person does."""
        what = {"key": key, "modifiers": 8 if shift else 0}
        if len(key) == 1:
            what["text"] = key
        self.call("Input.dispatchKeyEvent", type="keyDown", **what)
        self.call("Input.dispatchKeyEvent", type="keyUp", key=key)
        self.refuse_faults()

    def type(self, text):
        self.call("Input.insertText", text=text)

    def click(self, x, y):
        for kind in ("mousePressed", "mouseReleased"):
            self.call("Input.dispatchMouseEvent", type=kind, x=x, y=y, button="left", clickCount=1)
        self.refuse_faults()

    def picture(self, path):
        self.settle()
        with open(path, "wb") as it:
            it.write(base64.b64decode(self.call("Page.captureScreenshot", format="png")["data"]))
