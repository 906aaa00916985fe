"""Node in place of a browser, with the calls of `browser`: a page's script runs, and nothing is drawn."""

import json
import os
import subprocess
import time

from .browser import Fault

SCRIPT = f"{os.path.dirname(os.path.realpath(__file__))}/pretend.mjs"


class Pretended:
    """A browser that is Node, for as long as the `with` lasts."""

    def __enter__(self):
        return self

    def __exit__(self, *_):
        pass

    def page(self, **_):
        """A new page."""
        return Page()


class Page:
    """A page in a process of its own, and its errors."""

    def __init__(self):
        self._node = None

    def open(self, path, link=""):
        """Opens a file."""
        if self._node:
            self.close()
        words = ["node", SCRIPT, os.path.abspath(path), *([link] if link else [])]
        self._node = subprocess.Popen(words, stdin=subprocess.PIPE, stdout=subprocess.PIPE)
        return self

    def _ask(self, act, **given):
        self._node.stdin.write(f"{json.dumps({'act': act, **given})}\n".encode())
        self._node.stdin.flush()
        said = json.loads(self._node.stdout.readline() or b'{"fault": "the page has ended"}')
        if "fault" in said:
            raise Fault(said["fault"])
        return said.get("value")

    @property
    def errors(self):
        return self._ask("errors")

    def let_through(self):
        """Nothing can be asked for there."""
        return []

    def do(self, script):
        """Runs a script in the page and returns its value."""
        return self._ask("do", script=script)

    def until(self, script, wanted, seconds=5):
        """Waits until a script has the wanted value; returns the last one."""
        end = time.monotonic() + seconds
        while (found := self.do(script)) != wanted and time.monotonic() < end:
            time.sleep(0.02)
        return found

    def key(self, *keys, shift=False):
        """Presses keys, one after another."""
        for key in keys:
            self._ask("key", key=key, shift=shift)

    def type(self, text):
        """Types a text where the cursor is."""
        self._ask("type", text=text)

    def click(self, x, _):
        """Clicks at the point of an element."""
        self._ask("click", x=x)

    def choose(self, selector, path):
        """Chooses a file in a field for files."""
        self._ask("choose", selector=selector, file=os.path.abspath(path))

    def close(self):
        self._node.stdin.close()
        self._node.wait()
