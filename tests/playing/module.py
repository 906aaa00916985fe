"""The program as a WebAssembly module, called in a process of Node that stays, or where its streams matter in one of its own."""

import base64
import json
import os
import subprocess

TOP = os.path.dirname(os.path.dirname(os.path.dirname(os.path.realpath(__file__))))
# Where the host of the module stands. (Wrong ones stand elsewhere.)
ENGINE = os.environ.get("ENGINE") or f"{TOP}/engine"
# What needs threads, which a module hasn't.
THREADS = "pool"
# How long a call in a process of its own may take.
SECONDS = 120


class LeftOut(Exception):
    """A call that can't be made of a module."""


def _base64(data):
    return base64.b64encode(os.fsencode(data)).decode()


class Module:
    """The module at a path. Each process that calls it has a process of Node for that."""

    def __init__(self, path):
        self.path, self._owner, self._node = path, None, None

    def call(self, words, given, how):
        """What a call gives: its status, its output and its errors."""
        if next((it for it in words if os.fsdecode(it)[:1] != "-"), None) == THREADS:
            raise LeftOut("it has no threads")
        if "preexec_fn" in how:
            raise LeftOut("Node can't run within such limits, or without standard streams")
        if not isinstance(given, bytes) or set(how) - {"cwd"}:
            return self._called_alone(words, given, how)
        said = {"words": [_base64(it) for it in words], "given": _base64(given), "folder": os.path.abspath(how.get("cwd") or ".")}
        node = self._started()
        node.stdin.write(f"{json.dumps(said)}\n".encode())
        node.stdin.flush()
        ran = json.loads(node.stdout.readline())
        return ran["status"], base64.b64decode(ran["output"]), base64.b64decode(ran["errors"])

    def _called_alone(self, words, given, how):
        """A call that has its own streams."""
        how = {"stdout": subprocess.PIPE, "stderr": subprocess.PIPE, "timeout": SECONDS, "close_fds": False, **how}
        how["input" if isinstance(given, bytes) else "stdin"] = given
        script = f"{os.path.dirname(os.path.realpath(__file__))}/alone.mjs"
        ran = subprocess.run(["node", script, ENGINE, self.path, *words], check=False, **how)
        return ran.returncode, ran.stdout or b"", ran.stderr or b""

    def _started(self):
        if self._owner != os.getpid():
            words = ["node", f"{ENGINE}/calls.mjs", self.path]
            self._node = subprocess.Popen(words, stdin=subprocess.PIPE, stdout=subprocess.PIPE)
            self._owner = os.getpid()
        return self._node
