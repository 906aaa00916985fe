"""A browser without a window, driven over two pipes: no port, no socket, no library."""

import base64
import fcntl
import json
import os
import shutil
import subprocess
import tempfile
import time

# How long a page may take to answer.
SECONDS = 60
FLAGS = """--headless=new --no-sandbox --disable-gpu --hide-scrollbars --remote-debugging-pipe --no-first-run
--disable-background-networking --disable-dev-shm-usage --force-prefers-reduced-motion --font-render-hinting=none""".split()
# The codes of keys that are no letters, and what they type.
KEY_CODES = {
    **{"ArrowRight": 39, "ArrowLeft": 37, "Home": 36, "End": 35, "PageDown": 34, "PageUp": 33, "ArrowDown": 40, "ArrowUp": 38},
    **{"Enter": 13, "Escape": 27, " ": 32},
}
TYPED = {"Enter": "\r"}
SHIFT = 8


class Fault(Exception):
    """What the browser says of a command or a script."""


class Browser:
    """Chromium, for as long as the `with` lasts."""

    def __enter__(self):
        path = shutil.which("chromium") or shutil.which("chromium-browser") or shutil.which("google-chrome")
        if path is None:
            raise Fault("there is no chromium on the PATH: apt-get install chromium")
        self._room = tempfile.mkdtemp(prefix="test-page-")
        from_us, self._to, self._from, to_us = *os.pipe(), *os.pipe()
        high = [fcntl.fcntl(it, fcntl.F_DUPFD, 20) for it in (from_us, to_us)]

        def take():
            os.dup2(high[0], 3)
            os.dup2(high[1], 4)

        words = [path, *FLAGS, "--host-resolver-rules=MAP * ~NOTFOUND", f"--user-data-dir={self._room}", "about:blank"]
        null = subprocess.DEVNULL
        self._process = subprocess.Popen(words, stdin=null, stdout=null, stderr=null, preexec_fn=take, pass_fds=(3, 4, *high))
        for it in (from_us, to_us, *high):
            os.close(it)
        self._count, self._left, self._pages = 0, b"", {}
        return self

    def __exit__(self, *_):
        try:
            self.call("Browser.close")
        except (Fault, OSError):
            pass
        try:
            self._process.wait(5)
        except subprocess.TimeoutExpired:
            self._process.kill()
        os.close(self._to)
        os.close(self._from)
        shutil.rmtree(self._room, ignore_errors=True)

    def call(self, method, session=None, **given):
        """Calls a method of the browser and returns what it answers. What it tells before goes to the pages."""
        self._count += 1
        said = {"id": self._count, "method": method, "params": given, **({"sessionId": session} if session else {})}
        os.write(self._to, json.dumps(said).encode() + b"\0")
        while True:
            told = self._next()
            if told.get("id") == self._count:
                if "error" in told:
                    raise Fault(f"{method}: {told['error']['message']}")
                return told["result"]

    def _next(self):
        """The next message. One that tells of a page is noted there."""
        while b"\0" not in self._left:
            piece = os.read(self._from, 1 << 20)
            if not piece:
                raise Fault("the browser has ended")
            self._left += piece
        text, self._left = self._left.split(b"\0", 1)
        told = json.loads(text)
        page = self._pages.get(told.get("sessionId"))
        if page is not None and "method" in told:
            page.note(told["method"], told["params"])
        return told

    def page(self, **how):
        """A new page."""
        return Page(self, **how)

    def wait_for(self, is_done):
        """Goes on reading until something is so."""
        end = time.monotonic() + SECONDS
        while not is_done():
            if time.monotonic() > end:
                raise Fault(f"no answer within {SECONDS} seconds")
            self._next()


class Page:
    """A page, its errors, and what it asked for."""

    def __init__(self, browser, width=1440, height=900, is_dark=False):
        self.browser, self.errors, self.requests, self.is_loaded = browser, [], {}, False
        self.blocked = set()
        self._target = browser.call("Target.createTarget", url="about:blank")["targetId"]
        self._session = browser.call("Target.attachToTarget", targetId=self._target, flatten=True)["sessionId"]
        browser._pages[self._session] = self
        for name in ("Page", "Runtime", "Log", "Network"):
            self.call(f"{name}.enable")
        self.resize(width, height)
        scheme = {"name": "prefers-color-scheme", "value": "dark" if is_dark else "light"}
        motion = {"name": "prefers-reduced-motion", "value": "reduce"}
        self.call("Emulation.setEmulatedMedia", features=[scheme, motion])

    def call(self, method, **given):
        return self.browser.call(method, self._session, **given)

    def resize(self, width, height):
        """Makes the screen as large as this."""
        self.call("Emulation.setDeviceMetricsOverride", width=width, height=height, deviceScaleFactor=1, mobile=False)

    def put_on_paper(self):
        """Looks as it would be printed."""
        self.call("Emulation.setEmulatedMedia", media="print")

    def note(self, method, told):
        """Notes what the browser tells of the page."""
        if method == "Runtime.exceptionThrown":
            details = told["exceptionDetails"]
            self.errors.append(details.get("exception", {}).get("description") or details["text"])
        elif method == "Log.entryAdded" and told["entry"]["level"] == "error":
            self.errors.append(told["entry"]["text"])
        elif method == "Network.requestWillBeSent":
            self.requests[told["requestId"]] = told["request"]["url"][:200]
        elif method == "Network.loadingFailed" and told.get("blockedReason") == "csp":
            self.blocked.add(told["requestId"])
        elif method == "Page.loadEventFired":
            self.is_loaded = True

    def let_through(self):
        """The requests for something else than a file that the content policy didn't stop."""
        return [url for it, url in self.requests.items() if it not in self.blocked and not url.startswith("file:")]

    def open(self, path, link=""):
        """Opens a file and waits until it is loaded."""
        self.is_loaded = False
        self.call("Page.navigate", url=f"file://{os.path.abspath(path)}{link}")
        self.browser.wait_for(lambda: self.is_loaded)
        return self

    def do(self, script):
        """Runs a script in the page and returns its value."""
        said = self.call("Runtime.evaluate", expression=script, returnByValue=True, awaitPromise=True)
        if "exceptionDetails" in said:
            details = said["exceptionDetails"]
            raise Fault(details.get("exception", {}).get("description") or details["text"])
        return said["result"].get("value")

    def until(self, script, wanted, seconds=5):
        """Waits until a script has the wanted value; returns the last one."""
        end = time.monotonic() + seconds
        while (found := self.do(script)) != wanted and time.monotonic() < end:
            time.sleep(0.02)
        return found

    def key(self, *keys, shift=False):
        """Presses keys, one after another."""
        for key in keys:
            text = TYPED.get(key, key if len(key) == 1 else "")
            code = KEY_CODES.get(key, ord(key.upper()[0]))
            said = {"key": key, "code": "Space" if key == " " else key, "modifiers": SHIFT if shift else 0}
            said["windowsVirtualKeyCode"] = code
            self.call("Input.dispatchKeyEvent", type="keyDown", **said, **({"text": text} if text else {}))
            self.call("Input.dispatchKeyEvent", type="keyUp", **said)

    def type(self, text):
        """Types a text where the cursor is."""
        self.call("Input.insertText", text=text)

    def mouse(self, kind, x, y, **how):
        self.call("Input.dispatchMouseEvent", type=kind, x=x, y=y, **how)

    def click(self, x, y):
        """Clicks at a point of the screen."""
        self.mouse("mouseMoved", x, y)
        for kind in ("mousePressed", "mouseReleased"):
            self.mouse(kind, x, y, button="left", clickCount=1)

    def choose(self, selector, path):
        """Chooses a file in a field for files."""
        root = self.call("DOM.getDocument")["root"]["nodeId"]
        field = self.call("DOM.querySelector", nodeId=root, selector=selector)["nodeId"]
        self.call("DOM.setFileInputFiles", nodeId=field, files=[os.path.abspath(path)])

    def picture(self):
        """What is seen, as PNG."""
        return base64.b64decode(self.call("Page.captureScreenshot", format="png")["data"])

    def close(self):
        self.browser.call("Target.closeTarget", targetId=self._target)
