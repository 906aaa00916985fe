"""Firefox without a window, with the calls of `browser`. It is driven by Marionette, its own protocol: JSON over a local socket."""

import base64
import json
import os
import shutil
import socket
import subprocess
import tempfile
import time

from .browser import SECONDS, Fault

# The keys that are no letters, as WebDriver has them.
KEYS = {
    **{"ArrowRight": "\ue014", "ArrowLeft": "\ue012", "Home": "\ue011", "End": "\ue010", "PageDown": "\ue00f", "PageUp": "\ue00e"},
    **{"ArrowDown": "\ue015", "ArrowUp": "\ue013", "Enter": "\ue007", "Escape": "\ue00c"},
}
SHIFT = "\ue008"
# Nobody is asked anything, nothing moves by itself, and a proxy that isn't there keeps all but files from being fetched.
SETTINGS = {
    **{"ui.prefersReducedMotion": 1, "browser.shell.checkDefaultBrowser": False, "app.update.enabled": False},
    **{"datareporting.policy.dataSubmissionEnabled": False, "network.proxy.type": 1},
    **{"network.proxy.http": "127.0.0.1", "network.proxy.http_port": 9, "network.proxy.ssl": "127.0.0.1", "network.proxy.ssl_port": 9},
}
FLAGS = ["--headless", "--marionette", "--no-remote", "-remote-allow-system-access"]
# The errors of scripts that files had since they were asked for last.
ERRORS = """const told = Services.console.getMessageArray().filter(it => it instanceof Ci.nsIScriptError
    && !(it.flags & Ci.nsIScriptError.warningFlag) && it.sourceName.startsWith('file:')).map(it => it.errorMessage);
Services.console.reset();
return told;"""


class Firefox:
    """Firefox, for as long as the `with` lasts."""

    def __enter__(self):
        path = shutil.which("firefox-esr") or shutil.which("firefox")
        if path is None:
            raise Fault("there is no firefox on the PATH: apt-get install firefox-esr")
        self._room, self._count, self._left = tempfile.mkdtemp(prefix="test-page-"), 0, b""
        with socket.create_server(("127.0.0.1", 0)) as free:
            port = free.getsockname()[1]
        settings = {**SETTINGS, "marionette.port": port}
        with open(f"{self._room}/user.js", "w", encoding="utf-8") as file:
            file.writelines(f"user_pref({json.dumps(name)}, {json.dumps(value)});\n" for name, value in settings.items())
        null = subprocess.DEVNULL
        words = [path, *FLAGS, "--profile", self._room]
        self._process = subprocess.Popen(words, stdin=null, stdout=null, stderr=null, env={**os.environ, "HOME": self._room})
        self._socket = self._connect(port)
        self._next()
        self.call("WebDriver:NewSession")
        return self

    def __exit__(self, *_):
        try:
            self.call("Marionette:Quit", flags=["eForceQuit"])
            self._process.wait(10)
        except (Fault, OSError, subprocess.TimeoutExpired):
            self._process.kill()
        self._socket.close()
        shutil.rmtree(self._room, ignore_errors=True)

    @staticmethod
    def _connect(port):
        end = time.monotonic() + SECONDS
        while True:
            try:
                return socket.create_connection(("127.0.0.1", port), timeout=2 * SECONDS)
            except OSError:
                if time.monotonic() > end:
                    raise
                time.sleep(0.2)

    def _next(self):
        """The next message: its length, a colon, and JSON."""
        while b":" not in self._left:
            self._left += self._receive()
        size, rest = self._left.split(b":", 1)
        while len(rest) < int(size):
            rest += self._receive()
        self._left = rest[int(size) :]
        return json.loads(rest[: int(size)])

    def _receive(self):
        piece = self._socket.recv(1 << 20)
        if not piece:
            raise Fault("the browser has ended")
        return piece

    def call(self, method, **given):
        """Calls a method of the browser and returns what it answers."""
        self._count += 1
        said = json.dumps([0, self._count, method, given]).encode()
        self._socket.sendall(b"%d:%s" % (len(said), said))
        told = self._next()
        if told[2]:
            raise Fault(f"{method}: {told[2]['message']}")
        return told[3]

    def of_browser(self, script, *given):
        """Runs a script of the browser itself."""
        self.call("Marionette:SetContext", value="chrome")
        try:
            return self.call("WebDriver:ExecuteScript", script=script, args=given)["value"]
        finally:
            self.call("Marionette:SetContext", value="content")

    def page(self, **how):
        """A new page."""
        return Page(self, **how)


class Page:
    """A page in a window of its own, and its errors."""

    def __init__(self, browser, width=1440, height=900, is_dark=False):
        self.browser = browser
        self._window = browser.call("WebDriver:NewWindow", type="window")["handle"]
        self._switch()
        scheme = "Services.prefs.setIntPref('layout.css.prefers-color-scheme.content-override', arguments[0])"
        browser.of_browser(scheme, 0 if is_dark else 1)
        browser.of_browser(ERRORS)
        self.resize(width, height)

    def _switch(self):
        self.browser.call("WebDriver:SwitchToWindow", handle=self._window)

    def _act(self, kind, *steps):
        self._switch()
        self.browser.call("WebDriver:PerformActions", actions=[{"type": kind, "id": kind, "actions": list(steps)}])

    @property
    def errors(self):
        return self.browser.of_browser(ERRORS)

    def resize(self, width, height):
        """Makes the screen as large as this: a window is by its frame larger."""
        self._switch()
        frame_width, frame_height = self.do("[outerWidth - innerWidth, outerHeight - innerHeight]")
        self.browser.call("WebDriver:SetWindowRect", width=width + frame_width, height=height + frame_height)

    def put_on_paper(self):
        """Looks as it would be printed."""
        self.browser.of_browser("gBrowser.selectedBrowser.browsingContext.mediumOverride = 'print'")

    def let_through(self):
        """Firefox tells of no requests."""
        return []

    def open(self, path, link=""):
        """Opens a file and waits until it is loaded."""
        self._switch()
        self.browser.call("WebDriver:Navigate", url=f"file://{os.path.abspath(path)}{link}")
        return self

    def do(self, script):
        """Runs a script in the page and returns its value."""
        self._switch()
        script = script.strip().removesuffix(";")
        return self.browser.call("WebDriver:ExecuteScript", script=f"return (\n{script}\n)", args=[], sandbox=None)["value"]

    def until(self, script, wanted, seconds=5):
        """Waits until a script has the wanted value; returns the last one."""
        end = time.monotonic() + seconds
        while (found := self.do(script)) != wanted and time.monotonic() < end:
            time.sleep(0.02)
        return found

    def key(self, *keys, shift=False):
        """Presses keys, one after another."""
        for key in keys:
            pressed = [SHIFT] * shift + [KEYS.get(key, key)]
            down = [{"type": "keyDown", "value": it} for it in pressed]
            self._act("key", *down, *({"type": "keyUp", "value": it} for it in reversed(pressed)))

    def type(self, text):
        """Types a text where the cursor is."""
        self.key(*text)

    def mouse(self, kind, x, y, **how):
        x, y = int(x), int(y)
        if kind == "mouseWheel":
            self._act("wheel", {"type": "scroll", "x": x, "y": y, "deltaX": how["deltaX"], "deltaY": how["deltaY"]})
            return
        move = {"type": "pointerMove", "x": x, "y": y}
        buttons = {"mousePressed": [{"type": "pointerDown", "button": 0}], "mouseReleased": [{"type": "pointerUp", "button": 0}]}
        self._act("pointer", move, *buttons.get(kind, []))

    def click(self, x, y):
        """Clicks at a point of the screen."""
        for kind in ("mouseMoved", "mousePressed", "mouseReleased"):
            self.mouse(kind, x, y)

    def choose(self, selector, path):
        """Chooses a file in a field for files."""
        self._switch()
        found = self.browser.call("WebDriver:FindElement", using="css selector", value=selector)["value"]
        self.browser.call("WebDriver:ElementSendKeys", id=next(iter(found.values())), text=os.path.abspath(path))

    def picture(self):
        """What is seen, as PNG."""
        self._switch()
        return base64.b64decode(self.browser.call("WebDriver:TakeScreenshot", full=False)["value"])

    def close(self):
        self._switch()
        self.browser.call("WebDriver:CloseWindow")
        for window in self.browser.call("WebDriver:GetWindowHandles")[:1]:
            self.browser.call("WebDriver:SwitchToWindow", handle=window)
