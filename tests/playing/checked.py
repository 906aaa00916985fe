"""What `check` is asked beside one trace: of its end, of its first line that no run allows, of several traces, and as JSON."""

import json
import os
import subprocess
import threading
import time
from functools import partial

from .netlists import CELL, CELL_TRACE
from .program import Ran
from .tests import EXAMPLES, differ

PART = ["-p", "cell"]
NET = [*PART, "-n", "cell.breeze"]
CHECK = ["check", *NET, "--trace"]
BEGUN = b"trace 2\nh1 offer w 1 done\n"
TAKEN = BEGUN + b"w1 fire 1 take 1 1\n"
WRONG = BEGUN + b"w1 fire 1 take 1 2\n"
FILES = {
    "good.trace": CELL_TRACE,
    "front.trace": BEGUN,
    "wrong.trace": WRONG,
    "twice.trace": WRONG + b"w1 fire 1 take\n",
    "bad.trace": b"trace 2\nh1 offer w 1 don\n",
    "clash.trace": CELL_TRACE + b"clash 1\n",
    "names": b"good.trace\nwrong.trace\n\nfront.trace\n",
    "nul": b"good.trace\0odd\nname\0",
    "odd\nname": CELL_TRACE,
    "next.trace": b"trace 2\n" + CELL_TRACE.removeprefix(BEGUN),
    "old.trace": b"trace 1\n" + CELL_TRACE.removeprefix(BEGUN),
    "none.trace": b"trace 2\n",
    "other.trace": b"trace 2\nw1 fire 1 take 1 2\n",
    "odder.trace": b"trace 2\nw1 fire 1 take 1 2\nw1 fire 1 take\n",
    "pieces": b"front.trace\nnext.trace\n",
    "a.trace": b"trace 2\nh1 offer a done\n",
    "b.trace": b"trace 2\nh1 offer b done\nw1 fire 1 take 1\nclash 1\n",
    "b-.trace": b"trace 2\nh1 offer b done\nw1 fire 1 take 1\n",
}
RUN = b"run: 2 fired, 1 host, 1 rest\n"
STARTED = b"0 fired, 1 host, 0 rest\n"
UNRESTED = b"run, and not at rest: " + STARTED
EARLY = b", and the rest was not looked at\n"
NO_TRACE = b"error: there is no trace after the netlist: --trace FILE takes it from a file, --trace - from standard input\n"
NO_TRACE_NOTES = (
    b"breezesim: note: found: no line that is exactly trace 1 or trace 2\n"
    b"breezesim: note: expected: such a line behind the netlist, and then the trace\n"
    b"breezesim: note: help: --trace FILE takes the trace from a file; or cat makes one text of a netlist and a trace\n"
)
MOVES = (
    b"breezesim: note: the end of the trace\n"
    b"breezesim: note: found: what can move: fire 1 take 1 1\n"
    b"breezesim: note: expected: a run that ends at rest\n"
)
WHY = b"""breezesim: note: the trace is that of %s
breezesim: note: at line 3, column 18 of the trace
breezesim: note: 3 | w1 fire 1 take 1 2
breezesim: note:   |                  ^ Variable 1 v at cell 1 line 3
breezesim: note: found: take on channel 1, which is asked 1, and the value 2
breezesim: note: expected: what Variable 1 can do: fire 1 take 1 1
"""
GONE = b"error: cannot read gone: there is no such file\n"
UNNAMED = b"error: --joined takes traces that are named, as words or in the file of --traces-from\n"
CLASH_BEFORE = (
    b"breezesim: note: the trace is that of b.trace, and a trace comes after it: clash lines stand in the last one alone\n"
)
OWN = b"error: --first takes a trace with a text of its own: --trace FILE, --trace -, or traces that are named\n"


def add_checked(cases):
    """What is asked of a trace."""
    for name, text in FILES.items():
        with open(f"{cases.room}/{name}", "wb") as file:
            file.write(text)
    add_ends(cases)
    add_first(cases)
    add_several(cases)
    add_joined(cases)
    add_objects(cases)


def add_ends(cases):
    """A netlist without a trace, and runs that end at rest or not."""
    behind = lambda trace: CELL + b"\n" + trace
    for name, words, given, wanted in [
        ("without a trace", ["check", *NET], b"", Ran(2, b"", NO_TRACE)),
        ("without a trace, though there is one", ["check", *NET], CELL_TRACE, Ran(2, b"", NO_TRACE)),
        ("without a trace, with notes", ["check", *NET, "--explain"], b"", Ran(2, b"", NO_TRACE + NO_TRACE_NOTES)),
        ("of a file with a trace", ["check", *PART, "-n", "both"], b"", Ran(0, RUN, b"")),
        ("of an input without a trace", ["check", *PART], CELL, Ran(1, b"not a trace: line 1\n", b"")),
        ("of a front of a run", [*CHECK, "front.trace"], b"", Ran(0, b"run: " + STARTED, b"")),
        ("--to-rest", [*CHECK, "good.trace", "--to-rest"], b"", Ran(0, RUN, b"")),
        ("--to-rest of a front", [*CHECK, "front.trace", "--to-rest"], b"", Ran(1, UNRESTED, b"")),
        ("--to-rest behind the netlist", ["check", *PART, "--to-rest"], behind(CELL_TRACE), Ran(0, RUN, b"")),
        ("--to-rest of a front behind it", ["check", *PART, "--to-rest"], behind(BEGUN), Ran(1, UNRESTED, b"")),
        ("--to-rest with notes", [*CHECK, "front.trace", "--to-rest", "--explain"], b"", Ran(1, UNRESTED, MOVES)),
        ("--to-rest of no run", [*CHECK, "wrong.trace", "--to-rest"], b"", Ran(1, b"not a run: line 3\n", b"")),
        ("of a run with notes, which goes on", [*CHECK, "front.trace", "--explain"], b"", Ran(0, b"run: " + STARTED, b"")),
        ("of what is not read twice", [*CHECK, "-", "--explain"], WRONG, Ran(1, b"not a run: line 3\n", WHY % b"standard input")),
    ]:
        cases.gives(f"check {name}", words, given, wanted)
    cases.add("check with notes, of a deadlock", partial(deadlock_differs, cases))


def deadlock_differs(cases):
    """The notes at the end of a run are those of `run`."""
    net = ["-p", "cross", "-n", f"{EXAMPLES}/cross.breeze"]
    run = cases.run(["run", *net, "--explain", "offer:go", "run:100"])
    ran = cases.run(["check", *net, "--trace", "-", "--explain"], run.output)
    found = (ran.status, ran.output.startswith(b"run: "), ran.errors)
    return differ((0, True, run.errors), found) if b"cycle:" in run.errors else f"{run.errors!r} tells no cycle"


def add_first(cases):
    """`--first`: no more is read once a line is that of no run."""
    for name, words, given, wanted in [
        ("of a run", [*CHECK, "good.trace", "--first"], b"", Ran(0, RUN, b"")),
        ("of no run", [*CHECK, "wrong.trace", "--first"], b"", Ran(1, b"not a run: line 3" + EARLY, b"")),
        ("in front of a bad line", [*CHECK, "twice.trace", "--first"], b"", Ran(1, b"not a run: line 3" + EARLY, b"")),
        ("and without it", [*CHECK, "twice.trace"], b"", Ran(1, b"not a trace: line 4\n", b"")),
        ("of a bad line", [*CHECK, "bad.trace", "--first"], b"", Ran(1, b"not a trace: line 2\n", b"")),
        ("of a clash line", [*CHECK, "clash.trace", "--first"], b"", Ran(1, b"not a run: line 6\n", b"")),
        ("with notes", [*CHECK, "twice.trace", "--first", "--explain"], b"", Ran(1, b"not a run: line 3" + EARLY, WHY % b"twice.trace")),
        ("behind a netlist", ["check", *PART, "--first"], CELL + b"\n" + WRONG, Ran(2, b"", OWN)),
    ]:  # fmt: skip
        cases.gives(f"--first {name}", words, given, wanted)
    for pieces in [[WRONG], [WRONG[:-7], WRONG[-7:]], [WRONG[:3], WRONG[3:-1], WRONG[-1:]], [WRONG + b"w1 fire"]]:
        cases.add(f"--first of a pipe that stays open, {len(pieces)} pieces", partial(open_differs, cases, pieces))


def open_differs(cases, pieces):
    """The answer comes while the pipe is open, once the line has come."""
    reader, writer = os.pipe()
    call = ["check", *NET, "--trace", f"/dev/fd/{reader}", "--first"]

    def write():
        for piece in pieces:
            os.write(writer, piece)
            time.sleep(0.1)

    thread = threading.Thread(target=write)
    thread.start()
    try:
        wanted = Ran(1, b"not a run: line 3" + EARLY, b"")
        return differ(wanted, cases.run(call, pass_fds=(reader,), close_fds=True))
    except subprocess.TimeoutExpired:
        return "it reads on"
    finally:
        thread.join()
        os.close(reader)
        os.close(writer)


def add_several(cases):
    """Several traces, named by words or by a text."""
    check = ["check", *NET]
    good, wrong, begun = b"good.trace: " + RUN, b"wrong.trace: not a run: line 3\n", b"front.trace: run: " + STARTED
    count = b"%d traces: %d passed, %d failed, %d not read\n"
    three = good + wrong + begun + count % (3, 2, 1, 0)
    for name, words, given, wanted in [
        ("of one", [*check, "good.trace"], b"", Ran(0, good + count % (1, 1, 0, 0), b"")),
        ("in their order", [*check, "good.trace", "wrong.trace", "front.trace"], b"", Ran(1, three, b"")),
        ("from a file", [*check, "--traces-from", "names"], b"", Ran(1, three, b"")),
        ("from standard input", [*check, "--traces-from", "-"], FILES["names"], Ran(1, three, b"")),
        ("whose names end in NUL", [*check, "--traces-from", "nul"], b"",
         Ran(0, good + b"odd?name: " + RUN + count % (2, 2, 0, 0), b"")),
        ("of no names", [*check, "--traces-from", "-"], b"", Ran(0, count % (0, 0, 0, 0), b"")),
        ("one of standard input", [*check, "front.trace", "-"], CELL_TRACE,
         Ran(0, begun + b"-: " + RUN + count % (2, 2, 0, 0), b"")),
        ("of a netlist on standard input", ["check", *PART, "good.trace"], CELL, Ran(0, good + count % (1, 1, 0, 0), b"")),
        ("one that is not there", [*check, "gone", "good.trace"], b"",
         Ran(2, b"gone: not read\n" + good + count % (2, 1, 0, 1), GONE)),
        ("to rest", [*check, "--to-rest", "good.trace", "front.trace"], b"",
         Ran(1, good + b"front.trace: " + UNRESTED + count % (2, 1, 1, 0), b"")),
        ("to the first line", [*check, "--first", "twice.trace", "bad.trace"], b"",
         Ran(1, b"twice.trace: not a run: line 3" + EARLY + b"bad.trace: not a trace: line 2\n" + count % (2, 0, 2, 0), b"")),
        ("with notes", [*check, "good.trace", "wrong.trace", "--explain"], b"",
         Ran(1, good + wrong + count % (2, 1, 1, 0), WHY % b"wrong.trace")),
        ("of a net that is refused", ["check", "-p", "q", "-n", "cell.breeze", "good.trace"], b"",
         Ran(1, b"", b"breezesim: E1 NoPart q\n")),
        ("of names that aren't there", [*check, "--traces-from", "gone"], b"", Ran(2, b"", GONE)),
    ]:  # fmt: skip
        cases.gives(f"several traces {name}", words, given, wanted)
    for name, words, line in [
        ("beside --trace", [*check, "--trace", "good.trace", "good.trace"], b"error: the argument '--trace <FILE>' cannot be used with"),
        ("by words and a file", [*check, "--traces-from", "names", "good.trace"],
         b"error: the argument '--traces-from <FILE>' cannot be used with"),
        ("from one input with the netlist", ["check", *PART, "--traces-from", "-"],
         b"error: standard input cannot have both the netlist and the names of the traces\n"),
    ]:  # fmt: skip
        cases.add(f"several traces {name}", partial(refused_differs, cases, words, line))


def add_joined(cases):
    """Traces that are pieces of one run."""
    check = ["check", *NET, "--joined"]
    pair = ["check", "-p", "careless", "-n", f"{EXAMPLES}/careless.breeze", "--joined"]
    why = (WHY % b"other.trace").replace(b"at line 3", b"at line 2").replace(b"3 | w1", b"2 | w1")
    for name, words, given, wanted in [
        ("of two", [*check, "front.trace", "next.trace"], b"", Ran(0, RUN, b"")),
        ("of one", [*check, "good.trace"], b"", Ran(0, RUN, b"")),
        ("with one that has no entries", [*check, "none.trace", "front.trace", "none.trace", "next.trace"], b"", Ran(0, RUN, b"")),
        ("of two versions", [*check, "front.trace", "old.trace"], b"", Ran(0, RUN, b"")),
        ("in another order", [*check, "next.trace", "front.trace"], b"", Ran(1, b"next.trace: not a run: line 2\n", b"")),
        ("that begins twice", [*check, "front.trace", "front.trace"], b"", Ran(1, b"front.trace: not a run: line 2\n", b"")),
        ("with a bad one", [*check, "front.trace", "odder.trace"], b"", Ran(1, b"odder.trace: not a trace: line 3\n", b"")),
        ("to its first line", [*check, "--first", "front.trace", "odder.trace"], b"",
         Ran(1, b"odder.trace: not a run: line 2" + EARLY, b"")),
        ("and what is behind a stop", [*check, "front.trace", "other.trace", "gone"], b"",
         Ran(1, b"other.trace: not a run: line 2\n", b"")),
        ("with one that is not there", [*check, "front.trace", "gone", "next.trace"], b"", Ran(2, b"gone: not read\n", GONE)),
        ("from a file", [*check, "--traces-from", "pieces"], b"", Ran(0, RUN, b"")),
        ("of standard input", [*check, "front.trace", "-"], FILES["next.trace"], Ran(0, RUN, b"")),
        ("of no names", [*check, "--traces-from", "-"], b"", Ran(2, b"", b"error: --joined: no trace is named\n")),
        ("without names", check, b"", Ran(2, b"", UNNAMED)),
        ("that ends early", [*check, "none.trace", "front.trace"], b"", Ran(0, b"run: " + STARTED, b"")),
        ("to rest", [*check, "--to-rest", "front.trace", "next.trace"], b"", Ran(0, RUN, b"")),
        ("to rest, which ends early", [*check, "--to-rest", "--explain", "none.trace", "front.trace"], b"", Ran(1, UNRESTED, MOVES)),
        ("with notes", [*check, "--explain", "front.trace", "other.trace"], b"", Ran(1, b"other.trace: not a run: line 2\n", why)),
        ("with clashes", [*pair, "a.trace", "b.trace"], b"", Ran(0, b"run: 1 fired, 2 host, 0 rest\n", b"")),
        ("without its clashes", [*pair, "a.trace", "b-.trace"], b"", Ran(1, b"b-.trace: not a run: line 4\n", b"")),
        ("with clashes too early", [*pair, "a.trace", "b.trace", "none.trace", "--explain"], b"",
         Ran(1, b"b.trace: not a run: line 4\n", CLASH_BEFORE)),
        ("and clashes behind an empty piece", [*pair, "a.trace", "b-.trace", "none.trace"], b"",
         Ran(1, b"none.trace: not a run: line 2\n", b"")),
    ]:  # fmt: skip
        cases.gives(f"joined traces {name}", words, given, wanted)


def add_objects(cases):
    """Objects of JSON, one for each trace."""
    take = {"component": 1, "kind": "Variable", "port": 1, "move": "take", "channel": 1, "value": "1"}
    waits = ["idle Variable 1 v         for the host: collect:w", "at rest with 1 handshake under way: 0 wait, 0 can move, 1 idle"]
    offer = {"word": "offer", "port": "r", "needs_value": False}
    collect = {"word": "collect", "port": "w", "needs_value": False}
    old = {"expected": [take], "host_words": ["offer:r"]}
    state = {"at_rest": False, "moves": [take], "words": [offer], **old, "waits": []}
    begun = {"verdict": "run", "fired": 0, "host": 1, "rests": 0, **state}
    good = {
        "verdict": "run", "fired": 2, "host": 1, "rests": 1, "at_rest": True, "moves": [], "words": [collect, offer],
        "expected": [], "host_words": ["collect:w", "offer:r"], "waits": waits,
    }  # fmt: skip
    wrong = {"verdict": "not-a-run", "line": 3, "text": "w1 fire 1 take 1 2", "early": False, **state}
    bad = {"verdict": "not-a-trace", "line": 2, "text": "h1 offer w 1 don"}
    short = {"verdict": "not-a-run", "line": 6, "text": "clash 1", "early": False, **{name: good[name] for name in state}}
    check = ["check", *NET, "--format", "json"]
    for name, words, given, status, wanted in [
        ("of a run", [*check, "--trace", "good.trace"], b"", 0, [("good.trace", good)]),
        ("of a front", [*check, "--trace", "front.trace", "--to-rest"], b"", 1, [("front.trace", begun)]),
        ("of standard input", [*check, "--trace", "-"], WRONG, 1, [("-", wrong)]),
        ("of a first line", [*check, "--trace", "twice.trace", "--first"], b"", 1, [("twice.trace", {**wrong, "early": True})]),
        ("of no trace", [*check, "--trace", "bad.trace"], b"", 1, [("bad.trace", bad)]),
        ("of a clash line", [*check, "--trace", "clash.trace"], b"", 1, [("clash.trace", short)]),
        ("behind a netlist", ["check", *PART, "--format", "json"], CELL + b"\n" + WRONG, 1, [(None, wrong)]),
        ("of several", [*check, "good.trace", "wrong.trace"], b"", 1, [("good.trace", good), ("wrong.trace", wrong)]),
        ("with notes", [*check, "--trace", "wrong.trace", "--explain"], b"", 1, [("wrong.trace", wrong)]),
        ("of pieces", [*check, "--joined", "front.trace", "next.trace"], b"", 0, [("next.trace", good)]),
        ("of a piece", [*check, "--joined", "front.trace", "other.trace"], b"", 1, [("other.trace", {**wrong, "line": 2})]),
    ]:  # fmt: skip
        cases.add(f"check --format json {name}", partial(object_differs, cases, words, given, (status, wanted)))


def object_differs(cases, words, given, wanted):
    """The status, and the objects, each on a line of its own."""
    ran = cases.run(words, given)
    found = [json.loads(line) for line in ran.output.decode().splitlines()]
    told = [{"version": 2, "trace": trace, **rest} for trace, rest in wanted[1]]
    return differ((wanted[0], told, b""), (ran.status, found, ran.errors))


def refused_differs(cases, words, line):
    ran = cases.run(words)
    return differ((2, b"", True), (ran.status, ran.output, ran.errors.startswith(line)))
