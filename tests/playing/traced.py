"""Traces in files of their own (`--trace`): what `check`, `chart` and `page` say of them, and what they hold of a long one."""

import os
import resource
from functools import partial

from .netlists import CELL, CELL_TRACE
from .program import Ran
from .tests import differ

# The longest text that is held.
LIMIT = 67_108_864
# The most memory for a trace of any length, in bytes.
MEMORY = 50 << 20
PART = ["-p", "cell"]
FILES = {
    "cell.trace": CELL_TRACE,
    "spoilt.trace": CELL_TRACE.replace(b"take 1 1", b"take 1 2"),
    "cr.trace": CELL_TRACE.replace(b"trace 2\n", b"trace 2\r\n"),
    "endless.trace": b"trace 2\n" + b"w" * (LIMIT + 1),
    "ending.trace": b"trace 2\n" + b"w" * 60_000_000 + b"\n" + b"w" * 8_000_000,
}
CHECK = ["check", *PART, "--netlist", "cell.breeze", "--trace"]
RUN = b"run: 2 fired, 1 host, 1 rest\n"
READ = b"breezesim: F1 Read\n"
WANTING = b"breezesim: F3 Memory\n"
SHARED = b"error: standard input cannot have both the netlist and the trace\n"
NOTES = b"""breezesim: note: the trace is that of spoilt.trace
breezesim: note: at line 3, column 18 of the trace
breezesim: note: 3 | w1 fire 1 take 1 2
breezesim: note:   |                  ^ Variable 1 v at cell 1 line 3
breezesim: note: found: take on channel 1, which is asked 1, and the value 2
breezesim: note: expected: what Variable 1 can do: fire 1 take 1 1
"""
BEGUN = b"""breezesim: note: the trace is that of %s
breezesim: note: at line 1, column 1 of the trace
breezesim: note: 1 | %s
breezesim: note:   | ^ %s
"""
RETURN = BEGUN % (b"cr.trace", b"trace 2?", b"this line almost begins one") + (
    b"breezesim: note: help: a carriage return (CR) stands before its end\n"
)
ALONE = BEGUN % (b"both", CELL.split(b"\n")[0], b"the first line") + (
    b"breezesim: note: expected: a line that is exactly trace 1 or trace 2\n"
    b"breezesim: note: help: the file of --trace has the trace alone\n"
)
ENDED = (
    b"breezesim: note: idle Variable 1 v         for the host: collect:w\n"
    b"breezesim: note: at rest with 1 handshake under way: 0 wait, 0 can move, 1 idle\n"
)
INPUT = BEGUN % (b"standard input", b"x", b"the first line") + (
    b"breezesim: note: expected: a line that is exactly trace 1 or trace 2\n"
    b"breezesim: note: help: the file of --trace has the trace alone\n"
)


def add_traced(cases):
    """The trace comes from a file or from standard input, and the netlist from the other."""
    for name, text in FILES.items():
        with open(f"{cases.room}/{name}", "wb") as file:
            file.write(text)
    for name, words, given, wanted in [
        ("of a file", [*CHECK, "cell.trace"], b"", Ran(0, RUN, b"")),
        ("of standard input", [*CHECK, "-"], CELL_TRACE, Ran(0, RUN, b"")),
        ("and a netlist on standard input", ["check", *PART, "--trace", "cell.trace"], CELL, Ran(0, RUN, b"")),
        ("of no run", [*CHECK, "spoilt.trace"], b"", Ran(1, b"not a run: line 3\n", b"")),
        ("of nothing", [*CHECK, "-"], b"", Ran(1, b"not a trace: line 1\n", b"")),
        ("of half a first line", [*CHECK, "-"], b"trac", Ran(1, b"not a trace: line 1\n", b"")),
        ("of no entry", [*CHECK, "-"], b"trace 1\n", Ran(0, b"run: 0 fired, 0 host, 0 rest\n", b"")),
        ("of a last line without its end", [*CHECK, "-"], CELL_TRACE[:-1], Ran(1, b"not a trace: line 5\n", b"")),
        ("with a netlist in front", [*CHECK, "both"], b"", Ran(1, b"not a trace: line 1\n", b"")),
        ("of a line that is too long", [*CHECK, "endless.trace"], b"", Ran(3, b"", READ)),
        ("of a long line that ends", [*CHECK, "ending.trace"], b"", Ran(1, b"not a trace: line 2\n", b"")),
        ("that is not there", [*CHECK, "gone"], b"", Ran(2, b"", b"error: cannot read gone: there is no such file\n")),
        ("that is a folder", [*CHECK, "."], b"", Ran(2, b"", b"error: cannot read .: it is a folder\n")),
        ("beside a netlist, both from one", ["check", *PART, "--trace", "-"], CELL, Ran(2, b"", SHARED)),
        ("of a net that is refused", ["check", "-p", "q", "--trace", "spoilt.trace"], CELL, Ran(1, b"", b"breezesim: E1 NoPart q\n")),
        ("with --explain", [*CHECK, "spoilt.trace", "--explain"], b"", Ran(1, b"not a run: line 3\n", NOTES)),
        ("with --explain, of a run", [*CHECK, "cell.trace", "--explain"], b"", Ran(0, RUN, ENDED)),
        ("with --explain, a CR", [*CHECK, "cr.trace", "--explain"], b"", Ran(1, b"not a trace: line 1\n", RETURN)),
        ("with --explain, a netlist", [*CHECK, "both", "--explain"], b"", Ran(1, b"not a trace: line 1\n", ALONE)),
        ("with --explain, not a file", [*CHECK, "-", "--explain"], b"x", Ran(1, b"not a trace: line 1\n", INPUT)),
        (
            "of a chart of no run", ["chart", *CHECK[1:], "spoilt.trace", "--explain"], b"",
            Ran(1, b"", b"error: not a run: line 3\n" + NOTES),
        ),
        ("of a chart that is too long", ["chart", *CHECK[1:], "endless.trace"], b"", Ran(3, b"", READ)),
        ("of a page that is too long", ["page", *CHECK[1:], "endless.trace"], b"", Ran(3, b"", READ)),
    ]:  # fmt: skip
        cases.gives(f"--trace {name}", words, given, wanted)
    for name in ["chart", "page"]:
        cases.add(f"--trace, the same {name}", partial(apart_differs, cases, name))
    cases.add("--trace, in pieces of any size", partial(pieces_differ, cases))
    cases.add("--trace, longer than memory", partial(long_differs, cases))
    cases.add("--trace, a line longer than memory", partial(wanting_differs, cases))


def apart_differs(cases, name):
    """What a command writes is the same where the trace stands behind the netlist."""
    behind = cases.run([name, *PART], CELL + b"\n" + CELL_TRACE)
    return differ(behind, cases.run([name, *CHECK[1:], "cell.trace"]))


def pieces_differ(cases):
    """The verdict of a trace is the same where it stands behind the netlist, wherever a piece of it ends."""
    longer = CELL_TRACE + b"h1 watch w idle\n" * 8200
    for text in [longer[:end] for end in [*range(65_500, 65_580), *range(131_040, 131_110)]] + [
        longer + b"clash 1\n", longer + b"clash 1\nw1 rest\n", longer.replace(b"trace 2", b"trace 1") + b"clash 1\n",
        longer[:65_600] + b"\n" + longer[65_600:], longer + b"x" * 70_000, longer + b"clash 1\n" * 9000,
    ]:  # fmt: skip
        behind, alone = cases.run(["check", *PART], CELL + b"\n" + text), cases.run([*CHECK, "-"], text)
        if behind != alone:
            return differ(behind, alone)
    return None


def wanting_differs(cases):
    """Where memory is refused for a trace, that is what is told."""
    limit = partial(resource.setrlimit, resource.RLIMIT_AS, (MEMORY, MEMORY))
    return differ(Ran(3, b"", WANTING), cases.run([*CHECK, "endless.trace"], preexec_fn=limit))


def long_differs(cases):
    """A trace of more than twice the input's limit takes little memory, and a bad line in it is told."""
    play = ["run", "-p", "spin", "--journal", "9000000", "offer:a", "run:8999990"]
    path, words = f"{cases.room}/spin.trace", ["check", "-p", "spin", "--netlist", "spin.breeze", "--trace"]
    with open(path, "wb") as file:
        cases.run([*play, "--netlist", "spin.breeze"], stdout=file)
    size = os.path.getsize(path)
    limit = partial(resource.setrlimit, resource.RLIMIT_AS, (MEMORY, MEMORY))
    ran = cases.run([*words, "spin.trace"], preexec_fn=limit)
    with open(path, "r+b") as file:
        file.seek(-2, os.SEEK_END)
        file.write(b"9")
    with open(path, "rb") as file:
        last = cases.run([*words, "-", "--explain"], file, preexec_fn=limit)
    with open(path, "r+b") as file:
        file.seek(1000)
        file.write(b"\n")
    spoilt = cases.run([*words, "spin.trace"], preexec_fn=limit)
    os.remove(path)
    wanted = (True, Ran(0, b"run: 8999990 fired, 1 host, 0 rest\n", b""), (1, b"not a run: line 8999992\n", True), (1, True, b""))
    why = b"breezesim: note: at line 8999992, column " in last.errors
    return differ(wanted, (size > 2 * LIMIT, ran, (last.status, last.output, why), (spoilt.status, spoilt.output.startswith(b"not a trace: line "), spoilt.errors)))
