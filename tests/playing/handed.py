"""`explore` for the hand and for programs: things by their numbers, hosts that stand by, what passed, `redo`, objects of JSON."""

import json
import os
import re
import subprocess
from functools import partial

from .module import LeftOut
from .program import Ran
from .terminal import silence
from .tests import EXAMPLES, differ

CELL = ["explore", "-p", "cell", "--netlist", "cell.breeze"]
GCD = ["explore", "-p", "gcd", "--netlist", f"{EXAMPLES}/gcd.breeze"]
SPIN = ["explore", "-p", "spin", "--netlist", "spin.breeze"]
# Lines that can't be followed on the cell, each with what is said of it.
BAD_LINES = [
    ("state Fetch 1", "Variable 1 v is no Fetch"),
    ("waits Loop 1", "Variable 1 v is no Loop"),
    ("fire Fetch 1 1", "Variable 1 v is no Fetch"),
    ("fire Fetch 7", "there is no component 7: the last is 1"),
    ("fire Fech 1", "fire C [P]: `Fech` is no number"),
    ("fire Fetch x", "fire C [P]: `Fetch` is no number"),
    ("fire Variable 1 1 1", "fire C [P]: `1` is too much"),
    ("fire Variable 1 x", "fire C [P]: `x` is no number"),
    ("state k3", "there is no channel 3: the last is 2"),
    ("waits k0", "there is no channel 0: the last is 2"),
    ("state kx", "state [C]: `kx` is no number, name or place"),
    ("fire k1", "no component can move on channel 1, which is idle"),
    ("fire k3", "there is no channel 3: the last is 2"),
    ("fire k1 1", "fire C [P]: `1` is too much"),
    ("run to", "run to THING [N]: THING is missing"),
    ("run to x", "run to THING [N]: `x` is no number, name or place"),
    ("run to Fetch 1", "Variable 1 v is no Fetch"),
    ("run to 2", "there is no component 2: the last is 1"),
    ("run to k3", "there is no channel 3: the last is 2"),
    ("run to w x", "run to THING [N]: `x` is no number"),
    ("run to w 1 2", "run to THING [N]: `2` is too much"),
    ("run:", "`run:` is no command; the nearest is `run`"),
    ("run:x", "`run:x` is no command; the nearest is `run`"),
    ("run:1 2", "run [N]: `2` is too much"),
    ("feed", "feed P [V..]: P is missing"),
    ("feed q 1", "feed P [V..]: no port is called q; the ports are w r"),
    ("feed % 1", "feed P [V..]: no port is called %; the ports are w r"),
    ("feed %zz 1", "feed P [V..]: `%zz` is no name"),
    ("feed r 1", "feed P [V..]: no value goes into the net at r"),
    ("feed w x", "feed P [V..]: `x` is no value"),
    ("feed w ?", "feed P [V..]: `?` is no value"),
    ("feed w .", "feed P [V..]: `.` is no value"),
    ("feed w 1*", "feed P [V..]: `1*` is no value"),
    ("feed w +1", "feed P [V..]: `+1` is no value"),
    ("feed w 3..1", "feed P [V..]: `3..1` is no value"),
    ("feed w 1..", "feed P [V..]: `1..` is no value"),
    ("feed w 5 256", "feed P [V..]: 256 is too large: port w has 8 bits, and the greatest value is 255"),
    ("feed w 250..256", "feed P [V..]: 256 is too large: port w has 8 bits, and the greatest value is 255"),
    ("feed w 1 1*1000000", "feed P [V..]: `1*1000000` is too much: a line has 1000000 values at most"),
    ("feed w 0..18446744073709551615", "feed P [V..]: `0..18446744073709551615` is too much: a line has 1000000 values at most"),
    ("drain", "drain P [N]: P is missing"),
    ("drain w", "drain P [N]: the net wants a value at w"),
    ("drain r x", "drain P [N]: `x` is no number"),
    ("drain r 1 2", "drain P [N]: `2` is too much"),
    ("hosts 1", "hosts: `1` is too much"),
    ("passed q", "passed [P]: no port is called q; the ports are w r"),
    ("passed w r", "passed [P]: `r` is too much"),
    ("expect passed", "expect passed P [V..]: P is missing"),
    ("expect passed q 1", "expect passed P [V..]: no port is called q; the ports are w r"),
    ("expect passed w x", "expect passed P [V..]: `x` is no value"),
    ("say", "say TEXT: TEXT is missing"),
    ("names", "names on|off: on|off is missing"),
    ("names of", "names on|off: `of` is neither on nor off"),
    ("values 1", "values: `1` is too much"),
    ("counts x", "counts [N]: `x` is no number"),
    ("counts never 1", "counts never: `1` is too much"),
    ("redo", "there is nothing to redo"),
    ("redo 1", "redo: `1` is too much"),
    ("1", "`1` is no command; `help` tells them"),
]
HOSTS = "feed w 5 7\ndrain r 2\n"
ROUND = "the state behind line %d is that behind line %d: with this order it goes on so for ever"
# A loop that adds 1 to a variable of so many bits, in 16 moves.
COUNTING = """(breeze-part "counting" (ports (sync-port "a" passive))
 (channels (sync) (sync) (pull {0}) (push {0}) (pull {0}))
 (components
  (component "$BrzLoop" () (1 2))
  (component "$BrzFetch" ({0}) (2 3 4))
  (component "$BrzBinaryFuncConstR" ({0} {0} {0} 1 "Add" "false" "false" "false") (3 5))
  (component "$BrzVariable" ({0} 1 "n" "") (4 (5)))))
"""
# Lines of which each is answered by an object, and what is in them.
OBJECTS = [
    ("offer:w:5", {"entries": [{"by": "h1", "word": "offer", "port": "w", "value": "5", "reply": "done"}], "reply": "done"}),
    (
        "moves",
        {
            "moves": [{"component": 1, "kind": "Variable", "port": 1, "move": "take", "channel": 1, "value": "5"}],
            "words": [{"word": "offer", "port": "r", "needs_value": False}],
        },
    ),
    ("# a remark", {}),
    (
        "run",
        {
            "entries": [
                {"by": "w1", "component": 1, "kind": "Variable", "port": 1, "move": "take", "channel": 1, "value": "5"},
                {"by": "w1", "component": 1, "kind": "Variable", "port": 1, "move": "reply", "channel": 1},
                {"by": "w1", "rest": True},
            ],
            "fired": 2,
            "at_rest": True,
        },
    ),
    (
        "offer:w:6",
        {
            "entries": [{"by": "h1", "word": "offer", "port": "w", "value": "6", "reply": "busy", "phase": "replied"}],
            "reply": "busy",
            "phase": "replied",
        },
    ),
    ("expect busy replied", {"text": "as expected", "as_expected": True}),
    ("expect done", {"text": "differs: expected done, had busy replied", "as_expected": False, "status": 1}),
    ("passed", {"passed": [{"port": "w", "values": ["5"]}, {"port": "r", "values": []}]}),
    ("passed r", {"passed": [{"port": "r", "values": []}]}),
    ("mvoes", {"error": "`mvoes` is no command; the nearest is `moves`", "status": 2}),
    ("offer:r", {"entries": [{"by": "h1", "word": "offer", "port": "r", "reply": "done"}], "reply": "done"}),
    (
        "run to r",
        {
            "entries": [{"by": "w1", "component": 1, "kind": "Variable", "port": 2, "move": "take", "channel": 2}],
            "fired": 1,
            "at_rest": False,
            "stopped_at": {"channel": 2},
        },
    ),
    ("say that is \"all\"", {"text": 'that is "all"'}),
    ("quit", {}),
]


def add_handed(cases):
    """Each new line with its answer or its error, and what a hand and a program do with them."""
    for line, told in BAD_LINES:
        cases.gives(f"explore, {line}", CELL, f"{line}\n".encode(), Ran(2, f"error: line 1: {told}\n".encode(), b""))
    answers = b"as expected\ndiffers: handshake 1 at w: expected 5, had none\n"
    cases.gives("explore, nothing has passed", CELL, b"expect passed w\nexpect passed w 5\n", Ran(1, answers, b""))
    for name, play in [
        ("ten pairs through gcd", gcd_differs),
        ("a session of hosts", served_session_differs),
        ("redo after looks, seeds and a trace", redo_differs),
        ("what moves forgets what was undone", forgotten_differs),
        ("objects of JSON", objects_differ),
        ("objects are written at once", pipes_differ),
        ("numbers at a terminal", numbers_differ),
        ("a run that goes round", rounds_differ),
        ("a run that counts up", counting_differs),
        ("hosts go round once they have nothing to give", served_rounds_differ),
    ]:
        cases.add(f"explore, {name}", partial(play, cases))


def gcd_differs(cases):
    """All values pass, and no handshake is left open but that of `activate`; a value that is wrong is told, with status 1."""
    with open(f"{EXAMPLES}/gcd.session", "rb") as file:
        lines = file.read()
    ran = cases.run(GCD, lines + b"watch:a\nwatch:b\nwatch:g\nhosts\n")
    told = ran.output.splitlines()[-7:]
    wanted = [b"as expected", b"h1 watch a asked", b"h1 watch b asked", b"h1 watch g idle", b"feed a            10 given, 0 left",
              b"feed b            10 given, 0 left", b"drain g           10 taken"]  # fmt: skip
    spoilt = cases.run(GCD, lines.replace(b"passed g 7 6 35", b"passed g 7 6 36"))
    differs = b"differs: handshake 3 at g: expected 36, had 35"
    return differ((0, wanted, 1, differs), (ran.status, told, spoilt.status, spoilt.output.splitlines()[-1]))


def kept(cases, name):
    with open(f"{cases.room}/{name}", "rb") as file:
        return file.read()


def served_session_differs(cases):
    """The words of hosts are written with their replies, and runs between them: without a host the same moves are made."""
    lines = HOSTS + "run\noffer:w:9\nrun to w 1\nsession! served.session\ntrace! served.trace\n"
    ran = cases.run(CELL, lines.encode())
    again = cases.run(CELL, kept(cases, "served.session") + b"trace! served.again.trace\n")
    front = kept(cases, "served.session").splitlines()[1:7]
    begins = [b"run", b"offer:w:5", b"expect done", b"run", b"collect:w", b"expect done"]
    found = (ran.status, again.status, b"differs" in again.output, front, kept(cases, "served.trace"))
    return differ((0, 0, False, begins, kept(cases, "served.again.trace")), found)


def redo_differs(cases):
    """Each command is made again as it was, by whom it was, and the picking goes on as it did."""
    lines = ["offer:a", "random 5", "seed 7", "random 4", "run 3", "random 2"]
    undone = ["undo 2", "state", "undo", "moves", "undo 2", "undo", "redo", "state", "redo", "redo", "redo"]
    goes_on = ["random 9", "run 4", "trace! {}"]
    first = cases.run(SPIN, "\n".join([*lines, *goes_on, ""]).format("made.first.trace").encode())
    again = cases.run(SPIN, "\n".join([*lines, *undone[:5], *undone[6:], *goes_on, ""]).format("made.again.trace").encode())
    begun = ["explore", "-p", "cell", "--netlist", "cell.breeze", "--trace", "pooled.trace"]
    pooled = b"trace 2\nh3 offer w 1 done\nw2 fire 1 take 1 1\nw5 fire 1 reply 1\nw2 rest\n"
    with open(f"{cases.room}/pooled.trace", "wb") as file:
        file.write(pooled)
    ran = cases.run(begun, b"undo\nstate\nredo\ntrace! pooled.again.trace\n")
    found = (first.status, again.status, kept(cases, "made.again.trace"), ran.status, kept(cases, "pooled.again.trace"))
    return differ((0, 2, kept(cases, "made.first.trace"), 0, pooled), found)


def forgotten_differs(cases):
    ran = cases.run(CELL, b"offer:w:1\nundo\noffer:w:2\nredo\nundo\nredo\npassed w\n")
    wanted = (
        b"h1 offer w 1 done\nundone: offer:w:1 (1 line)\nh1 offer w 2 done\nerror: line 4: there is nothing to redo\n"
        b"undone: offer:w:2 (1 line)\nredone: offer:w:2 (1 line)\nw: 2\n"
    )
    return differ(Ran(2, wanted, b""), ran)


def objects_differ(cases):
    """One for each line that is read, each as it is to be; the status at the end is as without."""
    ran = cases.run([*CELL, "--format", "json"], "".join(f"{line}\n" for line, _ in OBJECTS).encode())
    told = [json.loads(line) for line in ran.output.splitlines()]
    wanted = [{"line": place, **members} for place, (_, members) in enumerate(OBJECTS, 1)]
    return differ((2, wanted, b""), (ran.status, told, ran.errors))


def rounds_differ(cases):
    """It stops, and its moves are those that are made again. A number of firings, or something that moves, stops a run as ever."""
    # (a Loop round a Continue makes four moves in turn, and the moments behind 1, 2, 4, 8 .. moves are kept)
    lines = ["offer:a", "run", "trace! round.trace", "run 4", "trace! round.again.trace", "run to 2", "run to k1", "undo 3", "run 9"]
    ran = cases.run(SPIN, "\n".join([*lines, ""]).encode())
    told = [line for line in ran.output.decode().splitlines() if not line.startswith(("h1", "w1", "wrote", "undone"))]
    wanted = ["8 fired, not at rest", ROUND % (10, 6), "4 fired, not at rest", "3 fired, stopped at Continue 2",
              "8 fired, not at rest", ROUND % (25, 21), "9 fired, not at rest"]  # fmt: skip
    round_, again = kept(cases, "round.trace").splitlines(), kept(cases, "round.again.trace").splitlines()
    objects = cases.run([*SPIN, "--format", "json"], b"offer:a\nrun\n").output.splitlines()
    last = {name: it for name, it in json.loads(objects[1]).items() if name != "entries"}
    object_ = {"line": 2, "fired": 8, "at_rest": False, "goes_round": {"from": 6, "to": 10}}
    found = (ran.status, told, len(round_), round_[6:], last)
    return differ((0, wanted, 10, again[10:], object_), found)


def counting_differs(cases):
    """Its phases come back each time it goes round, and its state once the variable holds what it held. Else it fills the journal."""
    def lines_of(bits):
        with open(f"{cases.room}/counting{bits}.breeze", "w", encoding="utf-8") as file:
            file.write(COUNTING.format(bits))
        ran = cases.run(["explore", "--netlist", f"counting{bits}.breeze"], b"offer:a\nrun\n")
        return ran.status, ran.output.decode().splitlines()[-2:]

    full = "error: line 2: N7 JournalFull: the trace holds 1000000 lines; `undo` makes room"
    status, (_, last) = lines_of(16)
    wanted = [(0, ["958 fired, not at rest", ROUND % (960, 832)]), (0, ["36665 fired, not at rest", ROUND % (36667, 32571)]), (2, full)]
    return differ(wanted, [lines_of(3), lines_of(8), (status, last)])


def served_rounds_differ(cases):
    """A host with values left is no round, though the state comes back with each; one that takes always is one."""
    ran = cases.run(CELL, b"feed w 5*100\nrun\ndrain r 50\nrun\ndrain r\nrun\nhosts\nfeed w 5*9\nrun\nhosts\n")
    told = [line for line in ran.output.decode().splitlines() if not line.startswith(("h1", "w1", ".."))]
    forms = [re.sub("line [0-9]+", "line %d", line) for line in told]
    # (a read of the cell is two firings and two words, so each fourth moment is the same; a write takes two firings)
    wanted = [
        "feed w            0 given, 100 left",
        "200 fired, at rest",
        "drain r           0 taken, 50 left",
        "100 fired, at rest",
        "drain r           50 taken",
        "4 fired, at rest",
        ROUND,
        "feed w            100 given, 0 left",
        "drain r           52 taken",
        "feed w            100 given, 9 left",
        "34 fired, at rest",
        ROUND,
        "feed w            109 given, 0 left",
        "drain r           60 taken",
    ]
    return differ((0, wanted), (ran.status, forms))


def pipes_differ(cases):
    """A line is answered before the next one is written."""
    if cases.program.path.endswith(".wasm"):
        raise LeftOut("a module reads all its lines at once")
    words = [cases.program.path, *CELL, "--format", "json"]
    told = []
    with subprocess.Popen(words, stdin=subprocess.PIPE, stdout=subprocess.PIPE, cwd=cases.room) as played:
        for line in [b"offer:w:5\n", b"run\n", b"collect:w\n"]:
            played.stdin.write(line)
            played.stdin.flush()
            told.append(json.loads(played.stdout.readline())["line"])
        played.stdin.close()
        status = played.wait(timeout=60)
    return differ(([1, 2, 3], 0), (told, status))


def numbers_differ(cases):
    """The lines of `moves` are made by their numbers, with a value where one belongs there, until something has moved."""
    lines = b"1\nmoves\n1 5\n2\nmoves\n1\nmoves\n7\n1 9\n1\nsession! typed\n\x04"
    reader, end = os.openpty()
    silence(end)
    os.write(reader, lines)
    ran = cases.run(CELL, end, stdout=end)
    found = b""
    while not found.endswith(b"\n> \r\n"):
        found += os.read(reader, 4096)
    os.close(end)
    os.close(reader)
    stale = "error: a number is that of a line of `moves`, as long as nothing has moved since"
    wanted = [
        f"> {stale}",
        "> 1    offer:w:V                   port 1 push 8, idle",
        "2    offer:r                     port 2 pull 8, idle",
        "no component can move",
        "> h1 offer w 5 done",
        f"> {stale}",
        "> 1    fire 1 1    take 1 5        Variable write            v",
        "2    offer:r                     port 2 pull 8, idle",
        "1 move",
        "> w1 fire 1 take 1 5              Variable 1 v takes 5 from the host at w",
        "> 1    fire 1 1    reply 1         Variable write            v",
        "2    offer:r                     port 2 pull 8, idle",
        "1 move",
        "> error: `moves` has no line 7",
        "> error: `9` is too much: a move has its value",
        "> w1 fire 1 reply 1               Variable 1 v replies to the host at w",
        "> wrote typed: 5 lines",
        "> ",
    ]
    told = found.decode().splitlines()[1:]
    return differ((2, wanted, b"# a session of explore\noffer:w:5\nexpect done\nfire 1 1\nfire 1 1\n"), (ran.status, told, kept(cases, "typed")))
