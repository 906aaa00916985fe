"""The built program, and what a call of it gives."""

import os
import re
import subprocess
from dataclasses import dataclass

from .module import LeftOut, Module

# How long a call may take. (The longest takes two seconds.)
SECONDS = 60


@dataclass(frozen=True)
class Ran:
    """What a call gave: its status, standard output and standard error."""

    status: int
    output: bytes
    errors: bytes


class Program:
    """The program at a path: a program of this machine, or a WebAssembly module (`.wasm`)."""

    def __init__(self, path):
        self.path = os.path.abspath(path)
        self._module = Module(self.path) if path.endswith(".wasm") else None

    @property
    def is_module(self):
        return self._module is not None

    def run_as(self, name):
        """Calls it by this name, with no words."""
        if self._module:
            raise LeftOut("only a process has a name")
        how = {"executable": self.path, "stdin": subprocess.DEVNULL, "capture_output": True, "close_fds": False}
        ran = subprocess.run([name], check=False, **how)
        return Ran(ran.returncode, ran.stdout, ran.stderr)

    def run(self, words, given=b"", **how):
        """Calls it with these words. `given` is its standard input: bytes that come through a pipe, or an open file."""
        if self._module:
            return Ran(*self._module.call(words, given, how))
        if isinstance(given, bytes):
            how["input"] = given
        else:
            how["stdin"] = given
        how = {"stdout": subprocess.PIPE, "stderr": subprocess.PIPE, "timeout": SECONDS, "close_fds": False, **how}
        ran = subprocess.run([self.path, *words], check=False, **how)
        return Ran(ran.returncode, ran.stdout or b"", ran.stderr or b"")


def fault_line(fault):
    """What stands on standard error where a command ends so. What has no code is told by the chart and by main alone."""
    if not fault:
        return b""
    front = "breezesim" if re.match(r"[A-Z][0-9]+ ", fault) else "error"
    return f"{front}: {fault}\n".encode()


def part_words(part):
    """The words that name a part. A word of the command line has no byte 0, and a name form has."""
    if b"\0" in part:
        return ["--part-form", "".join(f"%{byte:02x}" for byte in part)]
    return ["--part", part]


def verdict_of(ran):
    """What `check` tells, in short: `r` is a run, `n7` none because of line 7, `b3` no trace because of line 3."""
    told = ran.output.decode("utf-8", "backslashreplace")
    if not ran.errors and ran.status == 0 and told.startswith("run: "):
        return "r"
    found = re.fullmatch(r"not a (run|trace): line ([0-9]+)\n", told)
    if not ran.errors and ran.status == 1 and found:
        return ("n" if found[1] == "run" else "b") + found[2]
    return f"{told}{ran.status} {ran.errors!r}"


def spoilt(lines):
    """Each way to spoil a trace, with the traces that it makes of its lines, one after another: each line left out, doubled, and
    exchanged with the next."""
    places = range(len(lines))
    return {
        "left-out": [lines[:at] + lines[at + 1 :] for at in places],
        "doubled": [lines[:at] + [lines[at]] + lines[at:] for at in places],
        "exchanged": [lines[:at] + [lines[at + 1], lines[at]] + lines[at + 2 :] for at in places[:-1]],
    }
