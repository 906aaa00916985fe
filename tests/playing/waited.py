"""`waits` of a trace, `waits since` and `--trace` of `explore`: beside what `explore` says line by line."""

import os
from functools import partial

from .netlists import CELL, CELL_TRACE
from .program import Ran
from .tests import EXAMPLES, differ

PART = ["-p", "cell"]
WAITS = ["waits", *PART, "--netlist", "cell.breeze", "--trace"]
CROSS = ["-p", "cross", "--netlist", f"{EXAMPLES}/cross.breeze"]
IDLE = b"0 wait, 0 can move, 1 idle\n"
# The cell at the end of its trace: the host has not got the reply.
DONE = b"idle Variable 1 v         for the host: collect:w\n" + IDLE
HUNG = b"idle Variable 1 v         for the host: collect:w\n  or                      for the host: offer:r\n"
READ = b"breezesim: F1 Read\n"
SHARED = b"error: standard input cannot have both the netlist and the trace\n"
LINES = b"error: standard input cannot have both the lines and the trace\n"
STUCK = b"stuck since line 11 of 12: w1 fire 5 take 6\nstuck: 5 of 5 components can never move again, whatever the host does\n"
# Two components each of which begins the other.
ROUND = b'''(breeze-part "round" (ports) (channels (sync) (sync))
 (components (component "$BrzLoop" () (1 2)) (component "$BrzLoop" () (2 1))))
'''
# Behind line 9 the net waits for the host, at a Fetch of line 7 of its source.
TWO_PLACE = ["-p", "two_place", "--netlist", f"{EXAMPLES}/two_place.breeze", "--trace", f"{EXAMPLES}/two_place.trace", "--line", "9"]
ASKED = b"wait Fetch 5 (two_place.balsa:7:7%s)  for the host: accept:i\n3 wait, 0 can move, 4 idle\n"
UNNAMED = b"breezesim: note: no place of the net is in the source %s\n"
# Files of a source, by their names: what stands in line 7, and whether a line feed ends it.
SOURCES = {
    "two_place.balsa": "    i -> x ;\n",
    "lib/two_place.balsa": "\t i -> x ; \r\n",
    "other/two_place.balsa": "    o <- y\n",
    "other.balsa": "    o <- y\n",
    "blank/two_place.balsa": " \t\n",
    "short/two_place.balsa": "",
    "last/two_place.balsa": "i -> x",
    "odd/two_place.balsa": "i\t-> x ; (\u00e9)\n",
    "most/two_place.balsa": "x" * 100 + "\n",
    "more/two_place.balsa": "x" * 101 + "\n",
}
# The cell's trace, as `session` of `explore` writes it, and what its lines are answered.
FULL = b"# a session of explore\noffer:w:1\nexpect done\nfire 1 1\nfire 1 1\nrun 1\n"


def cross_trace():
    with open(f"{EXAMPLES}/cross.trace", "rb") as file:
        return file.read()


def add_waited(cases):
    """What is refused and in which order, each status, and each line of a trace that ends stuck."""
    for name, words, given, wanted in [
        ("of a run", [*WAITS, "cell.trace"], b"", Ran(0, DONE, b"")),
        ("behind the netlist", ["waits", *PART], CELL + b"\n" + CELL_TRACE, Ran(0, DONE, b"")),
        ("of standard input", [*WAITS, "-"], CELL_TRACE, Ran(0, DONE, b"")),
        ("of a component", [*WAITS, "cell.trace", "1"], b"", Ran(0, HUNG, b"")),
        ("behind a line", [*WAITS, "cell.trace", "--line", "2", "1"], b"", Ran(0, b"Variable 1 v can move\n", b"")),
        ("behind the first line", [*WAITS, "cell.trace", "--line", "1"], b"", Ran(0, IDLE, b"")),
        ("strict, where nothing is stuck", [*WAITS, "cell.trace", "--strict"], b"", Ran(0, DONE, b"")),
        ("of no run", [*WAITS, "spoilt.trace"], b"", Ran(1, b"", b"error: not a run: line 3\n")),
        ("of no run, before its line", [*WAITS, "spoilt.trace", "--line", "90"], b"", Ran(1, b"", b"error: not a run: line 3\n")),
        ("of no trace", [*WAITS, "-"], b"", Ran(1, b"", b"error: not a trace: line 1\n")),
        ("of a netlist alone", ["waits", *PART], CELL, Ran(1, b"", b"error: not a trace: line 1\n")),
        ("of a net that is refused", ["waits", "-p", "q", "--trace", "spoilt.trace"], CELL, Ran(1, b"", b"breezesim: E1 NoPart q\n")),
        ("of no such line", [*WAITS, "cell.trace", "--line", "90"], b"", Ran(2, b"", b"error: --line 90: the trace has 5 lines\n")),
        ("of line 0", [*WAITS, "cell.trace", "--line", "0"], b"", Ran(2, b"", b"error: --line 0: the trace has 5 lines\n")),
        (
            "of no such line, before its component", [*WAITS, "cell.trace", "--line", "6", "9"], b"",
            Ran(2, b"", b"error: --line 6: the trace has 5 lines\n"),
        ),
        ("of no such component", [*WAITS, "cell.trace", "2"], b"", Ran(2, b"", b"error: there is no component 2: the last is 1\n")),
        ("of component 0", [*WAITS, "cell.trace", "0"], b"", Ran(2, b"", b"error: there is no component 0: the last is 1\n")),
        ("that is too long", [*WAITS, "endless.trace"], b"", Ran(3, b"", READ)),
        ("and a netlist, both from one", ["waits", *PART, "--trace", "-"], CELL, Ran(2, b"", SHARED)),
    ]:  # fmt: skip
        cases.gives(f"waits, {name}", words, given, wanted)
    for line in range(1, cross_trace().count(b"\n") + 1):
        cases.add(f"waits, line {line} of cross", partial(line_differs, cases, line))
    for net in ("pipeline", "arbiter_tree", "two_place", "tee"):
        cases.add(f"waits, the names of {net}", partial(names_differ, cases, net))
    cases.add("waits, what explore told of cross", partial(since_differs, cases))
    cases.add("waits, strict", partial(strict_differs, cases))
    cases.add("waits, at the opening", partial(opening_differs, cases))
    add_sourced(cases)
    add_begun(cases)


def add_sourced(cases):
    """The text of the source behind a place, and files that can't be taken."""
    for name, text in SOURCES.items():
        path = f"{cases.room}/source/{name}"
        os.makedirs(os.path.dirname(path), exist_ok=True)
        with open(path, "w", encoding="utf-8", newline="") as file:
            file.write("\n" * 6 + text)
    for name, files, text, unnamed in [
        ("by its name", ["two_place.balsa"], b": i -> x ;", []),
        ("by the last part of its name", ["lib/two_place.balsa"], b": i -> x ;", []),
        ("that two files may be", ["lib/two_place.balsa", "other/two_place.balsa"], b"", ["lib/two_place.balsa", "other/two_place.balsa"]),
        ("that no place names", ["other.balsa"], b"", ["other.balsa"]),
        ("and one that no place names", ["other.balsa", "two_place.balsa"], b": i -> x ;", ["other.balsa"]),
        ("of blanks", ["blank/two_place.balsa"], b"", []),
        ("that is too short", ["short/two_place.balsa"], b"", []),
        ("without a last line feed", ["last/two_place.balsa"], b": i -> x", []),
        ("with other bytes", ["odd/two_place.balsa"], b": i?-> x ; (??)", []),
        ("of a hundred bytes", ["most/two_place.balsa"], b": " + b"x" * 100, []),
        ("of more", ["more/two_place.balsa"], b": " + b"x" * 100 + b"..", []),
    ]:
        words = [word for file in files for word in ("--source", f"{cases.room}/source/{file}")]
        told = b"".join(UNNAMED % f"{cases.room}/source/{file}".encode() for file in unnamed)
        cases.gives(f"waits --source, a file {name}", ["waits", *TWO_PLACE, *words], b"", Ran(0, ASKED % text, told))
    file = f"{cases.room}/source/two_place.balsa"
    for name, words, wanted in [
        ("of no such line", [*WAITS, "cell.trace", "--line", "90"], Ran(2, b"", b"error: --line 90: the trace has 5 lines\n")),
        ("of a net without places", [*WAITS, "cell.trace"], Ran(0, DONE, UNNAMED % file.encode())),
    ]:
        cases.gives(f"waits --source, {name}", [*words, "--source", file], b"", wanted)
    told = b"error: --source names more than 100 files\n"
    cases.gives("waits of 101 sources", [*WAITS, "cell.trace", *["--source", "gone"] * 101], b"", Ran(2, b"", told))
    cases.add("waits --source, each place", partial(sourced_differs, cases))


def sourced_differs(cases):
    """At each line of a trace, of each component and of all: each place has its line's text behind it, and nothing else changes."""
    lines = ["", "", "", "procedure", "x, y : byte", "loop", "i -> x ;", "x -> y ;", "o <- y"]
    path = f"{cases.room}/source/each/two_place.balsa"
    os.makedirs(os.path.dirname(path), exist_ok=True)
    with open(path, "w", encoding="utf-8") as file:
        file.write("\n".join(lines))
    for line in range(1, 40, 3):
        for comp in ([], ["2"], ["4"], ["7"]):
            words = ["waits", *TWO_PLACE[:-1], str(line), *comp]
            plain, told = cases.run(words), cases.run([*words, "--source", path])
            wanted = plain.output.decode()
            for number, text in enumerate(lines, 1):
                for column in range(1, 40):
                    wanted = wanted.replace(f"two_place.balsa:{number}:{column})", f"two_place.balsa:{number}:{column}: {text})")
            if fault := differ(Ran(0, wanted.encode(), b""), told):
                return f"line {line} {comp}: {fault}"
    return None


def add_begun(cases):
    """`explore` behind a trace."""
    begun = ["explore", *PART, "--netlist", "cell.breeze", "--trace"]
    for name, words, given, wanted in [
        ("of no run", [*begun, "spoilt.trace"], b"moves\n", Ran(1, b"", b"error: not a run: line 3\n")),
        ("of no trace", [*begun, "both"], b"moves\n", Ran(1, b"", b"error: not a trace: line 1\n")),
        ("of standard input", [*begun, "-"], b"moves\n", Ran(2, b"", LINES)),
        ("that is not there", [*begun, "gone"], b"", Ran(2, b"", b"error: cannot read gone: there is no such file\n")),
        ("undone", [*begun, "cell.trace"], b"undo\nundo\n", Ran(2, b"undone: --trace (4 lines)\nerror: line 2: there are 0 commands to undo\n", b"")),
        ("played on", [*begun, "cell.trace"], b"offer:w:2\nundo\n", Ran(0, b"h1 offer w 2 busy replied\nundone: offer:w:2 (1 line)\n", b"")),
        ("with nothing stuck", [*begun, "cell.trace"], b"waits since\n", Ran(0, b"nothing is stuck\n", b"")),
    ]:  # fmt: skip
        cases.gives(f"explore --trace, {name}", words, given, wanted)
    cases.add("explore --trace, kept in full", partial(begun_differs, cases, begun))


def line_differs(cases, line):
    """What is told behind a line is what `explore` tells there, with the line since which something is stuck in front of it."""
    trace = b"".join(cross_trace().splitlines(True)[:line])
    told = cases.run(["waits", *CROSS, "--trace", f"{EXAMPLES}/cross.trace", "--line", str(line)])
    with open(f"{cases.room}/cross-{line}.trace", "wb") as file:
        file.write(trace)
    explored = cases.run(["explore", *CROSS, "--trace", f"cross-{line}.trace"], b"waits\n")
    front = STUCK.splitlines(True)[0] if line > 10 else b""
    return differ(Ran(0, front + explored.output, b""), told)


def names_differ(cases, net):
    """Of copies and of things with names and sources `waits` tells what `explore` does, which has a survey of the whole net."""
    netlist = ["-p", net, "--netlist", f"{EXAMPLES}/{net}.breeze"]
    with open(f"{EXAMPLES}/{net}.trace", "rb") as file:
        lines = file.read().splitlines(True)
    count = cases.run(["list", *netlist]).output.count(b"\ncomponent ")
    for line in range(1, len(lines) + 1, max(1, len(lines) // 8)):
        with open(f"{cases.room}/{net}-{line}.trace", "wb") as file:
            file.write(b"".join(lines[:line]))
        for comp in ([], [str(1 + line % count)]):
            told = cases.run(["waits", *netlist, "--trace", f"{EXAMPLES}/{net}.trace", "--line", str(line), *comp])
            asked = " ".join(["waits", *comp]).encode() + b"\n"
            explored = cases.run(["explore", *netlist, "--trace", f"{net}-{line}.trace"], asked)
            if fault := differ(explored, told):
                return f"line {line} {comp}: {fault}"
    return None


def since_differs(cases):
    """The first line is told by `waits since` too, with what is stuck there."""
    told = cases.run(["waits", *CROSS, "--trace", f"{EXAMPLES}/cross.trace"])
    explored = cases.run(["explore", *CROSS], b"offer:go\nrun\nwaits since\n").output
    begun = cases.run(["explore", *CROSS, "--trace", f"{EXAMPLES}/cross.trace"], b"waits since\n").output
    ring = b"".join(told.output.splitlines(True)[:7])
    return differ((True, True, ring), (ring.startswith(STUCK), explored.endswith(begun), begun))


def strict_differs(cases):
    """Only where something is stuck, and that is asked for, the status is 4. What is told is the same."""
    words = ["waits", *CROSS, "--trace", f"{EXAMPLES}/cross.trace"]
    plain, strict = cases.run(words), cases.run([*words, "--strict"])
    before = [cases.run([*words, "--strict", "--line", str(line)]).status for line in (1, 10, 11, 12)]
    return differ((0, 4, plain.output, [0, 0, 4, 4]), (plain.status, strict.status, strict.output, before))


def opening_differs(cases):
    """What is stuck from the opening on is so since line 1."""
    told = b"stuck since line 1 of 1: the opening\nstuck: 2 of 2 components can never move again, whatever the host does\n"
    ran = cases.run(["waits", "-p", "round", "--strict"], ROUND + b"trace 2\n")
    return differ((4, told, b"0 wait, 0 can move, 2 idle, 2 stuck"), (ran.status, ran.output[: len(told)], ran.output.splitlines()[-1]))


def begun_differs(cases, begun):
    """The trace stands as it was, and a session that is read again gives the same."""
    ran = cases.run([*begun, "cell.trace"], b"trace begun.trace\nsession begun.session\n")
    kept = [open(f"{cases.room}/begun.{kind}", "rb").read() for kind in ("trace", "session")]
    again = cases.run(["explore", *PART, "--netlist", "cell.breeze"], kept[1] + b"trace again.trace\n")
    with open(f"{cases.room}/again.trace", "rb") as file:
        return differ((0, 0, CELL_TRACE, FULL, CELL_TRACE), (ran.status, again.status, *kept, file.read()))
