"""`draw` of a net behind a line of a trace, and which edges have labels."""

import re
from functools import partial

from .netlists import CELL, CELL_TRACE
from .program import Ran
from .tests import EXAMPLES, differ

PART = ["-p", "cell"]
DRAW = ["draw", *PART, "--netlist", "cell.breeze", "--trace"]
SHARED = b"error: standard input cannot have both the netlist and the trace\n"
# The colours of the phases, as the help and docs/COMMANDS.md name them: orange, blue, green.
LOOKS = {
    "idle": "",
    "asked": ', color="#c25e00", fontcolor="#c25e00", penwidth=3, style=dashed',
    "taken": ', color="#3c78c8", fontcolor="#3c78c8", penwidth=3',
    "replied": ', color="#00866a", fontcolor="#00866a", penwidth=3, style=dotted',
}
ENDS = {"sync": "arrowtail=dot, arrowhead=odot", "push": "arrowtail=dot, arrowhead=odotnormal", "pull": "arrowtail=dotnormal, arrowhead=odot"}
HOLDS = '", fillcolor="#dcebf7", color="#3c78c8", penwidth=2];'
EDGE = re.compile(r'^ +\S+ -> \S+ \[id=k(\d+), tooltip="([^"]*)", (?:(tail|head|)label="([^"]*)", )?(.*)\];$', re.M)
NODE = re.compile(r'^ +c(\d+) \[tooltip=.*$', re.M)
# What `state` of `explore` says of a channel: its number, its kind, its width, its phase and its value.
STATE = re.compile(r"^channel (\d+)(?: \S+)? (sync|push|pull) ?(\d*), (idle|asked|taken|replied)(?: (\d+))?: ", re.M)
# Of the greatest common divisor the two inputs of each BinaryFunc read two variables, of which each has more than four ports.
COVERED = [15, 16, 19, 20, 25, 26, 29, 30]


def add_drawn(cases):
    """What is refused and in which order, what each channel looks like, and which labels would lie over others."""
    for name, words, given, wanted in [
        ("of no run", [*DRAW, "spoilt.trace"], b"", Ran(1, b"", b"error: not a run: line 3\n")),
        ("of no run, before its line", [*DRAW, "spoilt.trace", "--line", "90"], b"", Ran(1, b"", b"error: not a run: line 3\n")),
        ("of no trace", [*DRAW, "-"], b"", Ran(1, b"", b"error: not a trace: line 1\n")),
        ("of a net that is refused", ["draw", "-p", "q", "--trace", "cell.trace"], CELL, Ran(1, b"", b"breezesim: E1 NoPart q\n")),
        ("of no such line", [*DRAW, "cell.trace", "--line", "90"], b"", Ran(2, b"", b"error: --line 90: the trace has 5 lines\n")),
        ("of line 0", [*DRAW, "cell.trace", "--line", "0"], b"", Ran(2, b"", b"error: --line 0: the trace has 5 lines\n")),
        (
            "of no such line, before its component", [*DRAW, "cell.trace", "--line", "6", "--around", "2"], b"",
            Ran(2, b"", b"error: --line 6: the trace has 5 lines\n"),
        ),
        ("around no component", [*DRAW, "cell.trace", "--around", "2"], b"", Ran(2, b"", b"error: --around 2: the net has 1 components\n")),
        ("that is not there", [*DRAW, "gone"], b"", Ran(2, b"", b"error: cannot read gone: there is no such file\n")),
        ("that is too long", [*DRAW, "endless.trace"], b"", Ran(3, b"", b"breezesim: F1 Read\n")),
        ("and a netlist, both from one", ["draw", *PART, "--trace", "-"], CELL, Ran(2, b"", SHARED)),
    ]:  # fmt: skip
        cases.gives(f"draw --trace, {name}", words, given, wanted)
    cases.add("draw --line without a trace", partial(unwanted_differs, cases))
    cases.add("draw --trace, notes", partial(notes_differ, cases))
    for line, pieces in [
        (None, ['5 of 5', 'taillabel="1 /8"', "replied"]),
        ("5", ['5 of 5', 'taillabel="1 /8"', "replied"]),
        ("4", ['4 of 5', 'taillabel="1 /8"', "replied"]),
        ("3", ['3 of 5', 'taillabel="1 /8"', "taken"]),
        ("2", ['2 of 5', 'taillabel="1 /8 = 1"', "asked"]),
        ("1", ['1 of 5', 'taillabel="1 /8"', "idle"]),
    ]:
        cases.add(f"draw --trace, line {line}", partial(cell_differs, cases, line, *pieces))
    for name in ("buffer", "pipeline", "arbiter_tree", "two_place", "tee", "countdown", "gcd", "cross"):
        cases.add(f"draw --trace, each channel of {name}", partial(channels_differ, cases, name))
    cases.add("draw, labels that would lie over others", partial(covered_differ, cases))


def unwanted_differs(cases):
    ran = cases.run(["draw", *PART, "--netlist", "cell.breeze", "--line", "2"])
    return differ((2, b"", True), (ran.status, ran.output, b"--trace" in ran.errors))


def notes_differ(cases):
    """Of what is no run the notes are those of `chart`."""
    told = [cases.run([name, *DRAW[1:], "spoilt.trace", "--explain"]) for name in ("draw", "chart")]
    return differ((True, told[1]), (b"note: " in told[0].errors, told[0]))


def cell_differs(cases, line, title, label, phase):
    ran = cases.run([*DRAW, "cell.trace", *(["--line", line] if line else [])])
    text = ran.output.decode()
    wanted = f'{label}, {ENDS["push"]}{LOOKS[phase]}, labeldistance=2.3, labelangle=24];'
    read = f'{ENDS["pull"]}, labeldistance=2.3, labelangle=24];'
    found = (ran.status, f", line {title}\\n" in text, wanted in text, read in text, HOLDS in text, ran.errors)
    return differ((0, True, True, True, phase == "taken", b""), found)


def looks_of(state):
    """How each edge looks by what `state` of `explore` says of the channels: its label, and how it is drawn."""
    looks = {}
    for number, kind, width, phase, value in STATE.findall(state):
        label = number + (f" /{width}" if width else "") + (f" = {value}" if value else "")
        place = ", labeldistance=2.3, labelangle=24" if width else ""
        looks[int(number)] = (label, f"{ENDS[kind]}{LOOKS[phase]}{place}")
    return looks


def channels_differ(cases, name):
    """Behind some lines of a trace each channel looks as `explore` says that it is, and the components that hold a request too."""
    netlist = ["-p", name, "--netlist", f"{EXAMPLES}/{name}.breeze"]
    with open(f"{EXAMPLES}/{name}.trace", "rb") as file:
        lines = file.read().splitlines(True)
    listed = cases.run(["list", *netlist]).output.decode()
    count = int(re.search(r"^channels (\d+)$", listed, re.M)[1])
    comps = [int(it) for it in re.findall(r"^component (\d+) ", listed, re.M)]
    asked = [*(f"state k{it}" for it in range(1, count + 1)), *(f"state {it}" for it in comps)]
    for line in range(1, len(lines) + 1, max(1, len(lines) // 6)):
        with open(f"{cases.room}/{name}-drawn.trace", "wb") as file:
            file.write(b"".join(lines[:line]))
        told = cases.run(["explore", *netlist, "--trace", f"{name}-drawn.trace"], "".join(f"{it}\n" for it in asked).encode())
        ran = cases.run(["draw", *netlist, "--trace", f"{EXAMPLES}/{name}.trace", "--line", str(line)])
        state, drawn = told.output.decode(), ran.output.decode()
        looks, edges = looks_of(state), {int(k): (label or tooltip.split()[-1], look) for k, tooltip, _, label, look in EDGE.findall(drawn)}
        for number, (label, look) in edges.items():
            wanted = looks[number]
            if (label not in (wanted[0], wanted[0].split()[-1])) or look != wanted[1]:
                return f"line {line}, channel {number}: {(label, look)} in place of {wanted}"
        if fault := differ((0, b"", holders_of(state)), (ran.status, ran.errors, holders_in(drawn))):
            return f"line {line}: {fault}"
    return None


def holders_of(state):
    """The components that hold a request, by what `state` says of their ports: `4.1 activate      channel 4 sync        taken`."""
    # (a passive port whose channel is taken; at an active one it is said who asked)
    held, called = set(), dict(re.findall(r"^channel (\d+).*, taken.*: .* asks \S+ (\d+)", state, re.M))
    for comp in called.values():
        held.add(int(comp))
    return sorted(held)


def holders_in(drawn):
    return sorted(int(found[1]) for found in NODE.finditer(drawn) if found[0].endswith(HOLDS))


def covered_differ(cases):
    """Side by side at one component two edges to variables with many readers have no labels; the tooltip has the width."""
    ran = cases.run(["draw", "-p", "gcd", "--netlist", f"{EXAMPLES}/gcd.breeze"])
    found = EDGE.findall(ran.output.decode())
    none = [int(number) for number, _, _, label, _ in found if not label]
    widths = [tooltip[-3:] for number, tooltip, _, label, _ in found if not label]
    return differ((0, 36, COVERED, [" /8"] * len(COVERED)), (ran.status, len(found), none, widths))
