"""All that is wrong with a netlist at once: what `lint` says, as lines and as JSON, and when it says nothing."""

import json
from functools import partial

from .netlists import CELL, OPEN, OPEN_NOTES
from .program import Ran
from .tests import differ

# A name that JSON can't have as it is.
ODD = 'a "b"\\c\té.breeze'
NOTE = b"breezesim: note: "
LOST = b"""(breeze-part "lost"
 (ports (sync-port "go" passive) (sync-port "idle" passive))
 (channels (sync) (sync) (sync) (sync) (sync))
 (components
  (component "$BrzContinue" () (1))
  (component "$BrzLoop" () (3 4))
  (component "$BrzSequence" () (4 (3)))))
(breeze-part "spare" (ports (sync-port "go" passive)) (channels (sync)) (components (component "$BrzHalt" () (1))))
"""
CHANNEL_2 = b"""lost.breeze:3:19: W2 UnusedChannel lost 2
breezesim: note: at lost.breeze:3:19
breezesim: note: 3 |  (channels (sync) (sync) (sync) (sync) (sync))
breezesim: note:   |                   ^ channel 2 of part lost
breezesim: note: found: port idle, which no component of the part is at
"""
CHANNEL_5 = b"""lost.breeze:3:40: W2 UnusedChannel lost 5
breezesim: note: at lost.breeze:3:40
breezesim: note: 3 |  (channels (sync) (sync) (sync) (sync) (sync))
breezesim: note:   |                                        ^ channel 5 of part lost
breezesim: note: found: a channel that no component of the part is at
"""
UNREACHED = b"""lost.breeze:6:3: W3 Unreached lost 2
breezesim: note: at lost.breeze:6:3
breezesim: note: 6 |   (component "$BrzLoop" () (3 4))
breezesim: note:   |   ^ component 2 of part lost
breezesim: note: found: $BrzLoop, which no request can reach: none that a host makes at a port leads to it
lost.breeze:7:3: W3 Unreached lost 3
breezesim: note: at lost.breeze:7:3
breezesim: note: 7 |   (component "$BrzSequence" () (4 (3)))))
breezesim: note:   |   ^ component 3 of part lost
breezesim: note: found: $BrzSequence, which no request can reach: none that a host makes at a port leads to it
"""
UNUSED = b"""lost.breeze:8:1: W1 UnusedPart spare
breezesim: note: at lost.breeze:8:1
breezesim: note: 8 | (breeze-part "spare" (ports (sync-port "go" passive)) (channels (sync)) (components (component "$Brz..
breezesim: note:   | ^ part spare
breezesim: note: found: no instance of it in part lost, nor in any part that this one uses
"""
# Functions with one truth value, with none and with two.
FLAGS = b"""(breeze-part "flags"
 (ports (port "r" passive) (port "a" active) (port "b" active))
 (channels (pull 8) (pull 4) (pull 4) (pull 8) (pull 8) (pull 4))
 (components
  (component "$BrzAdapt" (8 8 "true") (1 4))
  (component "$BrzBinaryFunc" (8 8 4 "Add" "true") (4 5 6))
  (component "$BrzBinaryFuncConstR" (8 4 3 5 "Add") (5 2))
  (component "$BrzAdapt" (4 4 "false" "true") (6 3))))
"""
UNUSED_FLAGS = b"""-:5:3: W4 UnusedFlag flags 1
breezesim: note: at line 5, column 3
breezesim: note: 5 |   (component "$BrzAdapt" (8 8 "true") (1 4))
breezesim: note:   |   ^ component 1 of part flags
breezesim: note: found: $BrzAdapt with one truth value, which has no meaning: its signs are those from the second on
-:6:3: W4 UnusedFlag flags 2
breezesim: note: at line 6, column 3
breezesim: note: 6 |   (component "$BrzBinaryFunc" (8 8 4 "Add" "true") (4 5 6))
breezesim: note:   |   ^ component 2 of part flags
breezesim: note: found: $BrzBinaryFunc with one truth value, which has no meaning: its signs are those from the second on
"""
# Parameters that are skipped: a symbol in place of a truth value, of a number and of a text, and a list; but not at an instance.
SKIPPED = b"""(breeze-part "less"
 (ports (port "r" passive) (port "a" active) (port "b" active) (port "c" passive))
 (channels (pull 1) (pull 8) (pull 8) (pull 8))
 (components
  (component "$BrzBinaryFunc" (1 8 8 "LessThan" "false" True "true") (1 2 3))
  (component "$BrzConstant" (8 5 -1 (7) word) (4))))
(breeze-part "twice"
 (ports (port "r" passive) (port "a" active) (port "b" active) (port "c" passive))
 (channels (pull 1) (pull 8) (pull 8) (pull 8))
 (components (component "less" (True) (1 2 3 4))))
"""
TRUE = b"""-:5:57: W6 SkippedParameter less 1
breezesim: note: at line 5, column 57
breezesim: note: 5 |   (component "$BrzBinaryFunc" (1 8 8 "LessThan" "false" True "true") (1 2 3))
breezesim: note:   |                                                         ^ a parameter of component 1 of part less
breezesim: note: found: the symbol True, which is skipped
breezesim: note: expected: a number in decimal digits, or a text in quotes
breezesim: note: help: a truth value is written "true"
"""
OTHERS = b"""-:6:34: W6 SkippedParameter less 2
breezesim: note: at line 6, column 34
breezesim: note: 6 |   (component "$BrzConstant" (8 5 -1 (7) word) (4))))
breezesim: note:   |                                  ^ a parameter of component 2 of part less
breezesim: note: found: the symbol -1, which is skipped
breezesim: note: expected: a number in decimal digits, or a text in quotes
breezesim: note: help: a number has digits alone, no sign and no point
-:6:37: W6 SkippedParameter less 2
breezesim: note: at line 6, column 37
breezesim: note: 6 |   (component "$BrzConstant" (8 5 -1 (7) word) (4))))
breezesim: note:   |                                     ^ a parameter of component 2 of part less
breezesim: note: found: a list, which is skipped
breezesim: note: expected: a number in decimal digits, or a text in quotes
-:6:41: W6 SkippedParameter less 2
breezesim: note: at line 6, column 41
breezesim: note: 6 |   (component "$BrzConstant" (8 5 -1 (7) word) (4))))
breezesim: note:   |                                         ^ a parameter of component 2 of part less
breezesim: note: found: the symbol word, which is skipped
breezesim: note: expected: a number in decimal digits, or a text in quotes
breezesim: note: help: a text is written "word"
"""
# Of a number that is none the fault has a note too.
POINT = b'(breeze-part "p" (ports (port "r" passive)) (channels (pull 8)) (components (component "$BrzConstant" (8.0 5) (1))))'
# A list of no channels.
HOLLOW = b'(breeze-part "p" (ports (sync-port "go" passive)) (channels (sync)) (components (component "$BrzConcur" () (1 ()))))'
# Names that are almost known: of a kind, and of an operation.
NEAR = b"""(breeze-part "p" (ports (port "r" passive) (port "s" passive) (port "a" active) (port "b" active))
 (channels (pull 8) (pull 8) (pull 8) (pull 8))
 (components (component "$BrzConstent" (8 5) (1)) (component "$BrzBinaryFunc" (8 8 8 "Addd") (2 3 4))))
"""
NO_PART_NOTES = b"expected: at least one part, (breeze-part \"NAME\" (ports ..) (channels ..) (components ..))"
# Texts without a part: what is at the place, its column, what is found and what helps.
PARTLESS = [
    ("an empty text", b"", b"", 1, b"an empty text", b"what was to write it may have failed"),
    ("a comment", b"; no", b"; no", 1, b"a text of white space and comments", b"what was to write it may have failed"),
    ("a trace", b"trace 2\nw1 rest\n", b"trace 2", 1, b"trace, and no part", b"this looks like a trace, which check takes by --trace"),
    ("UTF-16", '(breeze-part "p")'.encode("utf-16"), None, 1, None, b"this looks like UTF-16, where one byte is wanted for each letter"),
    ("a head that is near", b' (breeze-prt "p")', b' (breeze-prt "p")', 2, b"a list headed breeze-prt, and no part", b"the nearest name is breeze-part"),
    ("another list", b'(import "x")', b'(import "x")', 1, b"a list headed import, and no part", None),
    ("a list without a head", b"()", b"()", 1, b"(), and no part", None),
]
# A part that reaches itself, with none on top.
ROUND = b"""(breeze-part "one" (components (component "other" () ())))
(breeze-part "other" (components (component "one" () ())))
"""
# Parts within one another, the first of which reaches the last by 65 instances.
DEEP = b"".join(b'(breeze-part "p%d" (components (component "p%d" () ())))\n' % (k, k + 1) for k in range(65)) + b'(breeze-part "p65")\n'
# 21 components of a wrong kind, and a channel that is loose beside them.
MANY = (
    b'(breeze-part "p" (channels (sync)) (components\n'
    + b'(component "$BrzNo" () ())\n' * 21
    + b'(component "$BrzContinue" () (1))))\n'
)
# Two copies of a part with a channel that is loose.
COPIES = b"""(breeze-part "top" (components (component "in" () ()) (component "in" () ())))
(breeze-part "in" (channels (sync))
 (components (component "$BrzContinue" () (1))))
"""


def add_linted(cases):
    for name, text in (("lost.breeze", LOST), ("round.breeze", ROUND), ("deep.breeze", DEEP), ("many.breeze", MANY), (ODD, COPIES)):
        with open(f"{cases.room}/{name}", "wb") as file:
            file.write(text)
    nothing = Ran(0, b"", b"")
    cases.gives("lint of what is right", ["lint"], CELL, nothing)
    cases.gives("lint of a file that is right", ["lint", "-n", "cell.breeze"], b"", nothing)
    cases.gives("lint of the only part", ["lint", "-p", "cell"], CELL, nothing)
    cases.gives("lint as json of what is right", ["lint", "--format", "json"], CELL, Ran(0, object_of(b"-"), b""))
    cases.gives("lint -p of no part", ["lint", "-p", "q"], CELL, Ran(1, b"", b"breezesim: E1 NoPart q\n"))
    error = object_of(b"-", b"E1 NoPart q")
    cases.gives("lint -p of no part, as json", ["lint", "-p", "q", "--format", "json"], CELL, Ran(1, error, b"breezesim: E1 NoPart q\n"))
    add_partless(cases)
    cases.gives("lint of skipped parameters", ["lint"], SKIPPED, Ran(0, TRUE + OTHERS, b""))
    cases.add("lint of a point", partial(notes_differ, cases, POINT, b"found: the parameters (5), and 8.0 is skipped"))
    rule = b"expected: for a Concur 1 single entry and 1 list: (activate (out1 ..)), and 1 to 4096 channels in each list"
    cases.add("lint of a list of no channels", partial(notes_differ, cases, HOLLOW, rule))
    add_several(cases)
    add_details(cases)
    fault = OPEN_NOTES.removeprefix(b"breezesim: ")
    cases.gives("lint of a list that is open", ["lint"], OPEN, Ran(1, b"-:1:1: " + fault, b""))
    placed = b"open.breeze:1:1: " + fault.replace(b"at line 1, column 1\n", b"at open.breeze:1:1\n")
    cases.gives("lint of a file that is open", ["lint", "--netlist", "open.breeze"], b"", Ran(1, placed, b""))
    cases.gives("lint --explain", ["lint", "--explain", "--netlist", "open.breeze"], b"", Ran(1, placed, b""))
    warnings = CHANNEL_2 + CHANNEL_5 + UNREACHED
    cases.gives("lint with warnings", ["lint", "-n", "lost.breeze"], b"", Ran(0, warnings, b""))
    cases.gives("lint -p with warnings", ["lint", "-p", "lost", "-n", "lost.breeze"], b"", Ran(0, UNUSED + warnings, b""))
    cases.gives("lint of flags", ["lint"], FLAGS, Ran(0, UNUSED_FLAGS, b""))
    for name, words, given, wanted in [
        ("of a circle", ["-n", "round.breeze"], b"", [b"round.breeze:1:1: E2 Recursive one"]),
        ("of 65 instances", ["-n", "deep.breeze"], b"", [b"deep.breeze:1:1: E3 TooDeep"]),
        ("of a shape", [], b'(breeze-part "p" (channels (sunc)))', [b"-:1:28: B1 BadForm p 27"]),
        ("of two copies", ["-n", ODD], b"", [b"%s:2:29: E12 LooseEnd %d" % (ODD.replace("\t", "?").encode(), k) for k in (1, 2)]),
        ("of 21 components", [], MANY, [b"-:%d:1: E4 UnknownComponent p %d" % (k + 1, k) for k in range(1, 21)] + [NOTE + b"and 1 more"]),
    ]:
        cases.add(f"lint {name}", partial(lines_differ, cases, words, given, wanted))
    cases.add("lint as json of an odd name", partial(json_differs, cases))
    cases.add("lint as json of warnings", partial(json_of_warnings_differs, cases))
    for words in (["--format", "xml"], ["--format"], ["some"]):
        cases.add(f"lint {' '.join(words)}", partial(status_differs, cases, ["lint", *words], 2))
    for name, words in (("lines", []), ("json", ["--format", "json"])):
        cases.add(f"lint, {name} onto a full device", partial(full_differs, cases, ["lint", *words]))
    cases.gives("lint of a file that is gone", ["lint", "-n", "gone"], b"", Ran(2, b"", b"error: cannot read gone: there is no such file\n"))


def object_of(file, error=None):
    """The object of a netlist without findings."""
    why = b"" if error is None else b', "error": "%s"' % error
    return b'{"version": 1, "file": "%s"%s, "findings": [], "more": 0, "unopened": 0}\n' % (file, why)


def add_partless(cases):
    """Texts without a part, which are warned of."""
    for name, text, line, column, found, help in PARTLESS:
        notes = [b"at line 1, column %d" % column]
        if line is not None:
            notes += [b"1 | " + line, b"  | " + b" " * (column - 1) + b"^ the text begins here", b"found: " + found]
        notes += [NO_PART_NOTES] + ([b"help: " + help] if help else [])
        cases.add(f"lint of {name}", partial(partless_differs, cases, text, column, notes))
    cases.gives("list of no part still", ["list", "-p", "p"], b"", Ran(1, b"", b"breezesim: E1 NoPart p\n"))


def partless_differs(cases, text, column, notes):
    ran = cases.run(["lint"], text)
    lines = ran.output.splitlines()
    found = [line.removeprefix(NOTE) for line in lines[1:] if line.startswith(NOTE)]
    wanting = [note for note in notes if note not in found]
    return differ((0, [b"-:1:%d: W5 NoPart" % column], [], b""), (ran.status, lines[:1], wanting, ran.errors))


def notes_differ(cases, text, note):
    """The fault of a text has this note."""
    ran = cases.run(["lint"], text)
    return differ((1, True), (ran.status, NOTE + note in ran.output.splitlines()))


def add_several(cases):
    """Several netlists in one call, and the most that is told of each."""
    right, wrong, gone = ["cell.breeze"], ["open.breeze"], ["gone"]
    placed = OPEN_NOTES.removeprefix(b"breezesim: ").replace(b"at line 1, column 1\n", b"at open.breeze:1:1\n")
    fault, cause = b"open.breeze:1:1: " + placed, b"error: cannot read gone: there is no such file\n"
    cases.gives("lint of one file by its place", ["lint", *wrong], b"", Ran(1, fault, b""))
    cases.gives("lint of two files", ["lint", *wrong, *right], b"", Ran(1, fault, b""))
    cases.gives("lint of a file twice", ["lint", *wrong, *wrong], b"", Ran(1, fault * 2, b""))
    cases.gives("lint of a file that is gone and another", ["lint", *gone, *wrong], b"", Ran(2, fault, cause))
    cases.gives("lint of standard input and a file", ["lint", "-", *right], CELL, Ran(0, b"", b""))
    cases.gives("lint of two files with a fault of one", ["lint", "-p", "cell", *right, "lost.breeze"], b"", Ran(1, b"", b"breezesim: E1 NoPart cell\n"))
    json_words = ["lint", "--format", "json"]
    gone_too = object_of(b"cell.breeze") + object_of(b"gone", b"cannot read gone: there is no such file")
    cases.gives("lint as json of two files", [*json_words, *right, *right], b"", Ran(0, object_of(b"cell.breeze") * 2, b""))
    cases.gives("lint as json of a file that is gone", [*json_words, *right, *gone], b"", Ran(2, gone_too, cause))
    for count in (1, 5, 1000):
        cases.add(f"lint --most {count}", partial(most_differs, cases, count))


def most_differs(cases, count):
    ran = cases.run(["lint", "--most", str(count), "many.breeze"])
    lines = [line for line in ran.output.splitlines() if b" E4 " in line]
    told = findings(cases, ["--most", str(count), "many.breeze"])
    wanted = min(count, 21)
    more = ran.output.endswith(NOTE + b"and %d more\n" % (21 - wanted)) if wanted < 21 else b" more" not in ran.output
    return differ((1, wanted, True, wanted, 21 - wanted), (ran.status, len(lines), more, len(told["findings"]), told["more"]))


def add_details(cases):
    """What an object says of a finding beside its place: the members that are there."""
    own = ("byte", "part", "position", "component", "channel", "port", "replace")
    for name, text, wanted in [
        ("a name and an operation", NEAR, [
            {"byte": 160, "part": "p", "position": 1, "component": "$BrzConstent", "replace": {"byte": 171, "length": 14, "text": '"$BrzConstant"'}},
            {"byte": 197, "part": "p", "position": 2, "component": "$BrzBinaryFunc", "replace": {"byte": 232, "length": 6, "text": '"Add"'}},
        ]),
        ("an open list", OPEN, [{"byte": 0}]),
        ("a shape", b'(breeze-part "p" (channels (sunc)))', [{"byte": 27, "part": "p"}]),
        ("two copies", COPIES, [{"byte": 107, "part": "in", "position": 1, "channel": k} for k in (1, 2)]),
        ("a truth value", SKIPPED, [
            {"byte": 220, "part": "less", "position": 1, "component": "$BrzBinaryFunc", "replace": {"byte": 220, "length": 4, "text": '"true"'}},
            *({"byte": byte, "part": "less", "position": 2, "component": "$BrzConstant"} for byte in (275, 278, 282)),
        ]),
        ("a circle", ROUND, [{"byte": 0, "part": "one"}]),
        ("no part", b"", [{"byte": 0}]),
    ]:
        cases.add(f"lint as json of {name}", partial(details_differ, cases, own, text, wanted))


def details_differ(cases, own, text, wanted):
    told = findings(cases, [], text)
    found = [{key: it[key] for key in own if key in it} for it in told["findings"]]
    for it in told["findings"]:
        # (a place is told twice)
        front = text[: it["byte"]]
        if (it["line"], it["column"]) != (front.count(b"\n") + 1, len(front) - front.rfind(b"\n")):
            return f"{it!r}"
    return differ(wanted, found)


def lines_differ(cases, words, given, wanted):
    """The findings, without their notes but the last."""
    ran = cases.run(["lint", *words], given)
    lines = [line for line in ran.output.splitlines() if not line.startswith(NOTE) or line.endswith(b" more")]
    return differ((1, wanted, b""), (ran.status, lines, ran.errors))


def findings(cases, words, given=b""):
    return json.loads(cases.run(["lint", "--format", "json", *words], given).output)


def json_differs(cases):
    """The name of the file is as it was given."""
    told = findings(cases, ["-n", ODD])
    wanted = [(ODD, 2, 29, "fault", "E12", "LooseEnd", f"E12 LooseEnd {k}", f"at {ODD}:2:29".encode()) for k in (1, 2)]
    keys = ("file", "line", "column", "severity", "code", "name", "text")
    # (a note has a question mark for each byte that is no printable letter)
    shown = [bytes(byte if 32 <= byte <= 126 else 63 for byte in it[-1]).decode() for it in wanted]
    found = [(*(it[key] for key in keys), it["notes"][0]) for it in told["findings"]]
    return differ([(*it[:-1], note) for it, note in zip(wanted, shown)], found)


def json_of_warnings_differs(cases):
    told = findings(cases, ["-n", "lost.breeze", "-p", "lost"])
    found = [(it["severity"], it["code"], it["name"]) for it in told["findings"]]
    names = [("W1", "UnusedPart"), ("W2", "UnusedChannel"), ("W2", "UnusedChannel"), ("W3", "Unreached"), ("W3", "Unreached")]
    return differ(([("warning", *it) for it in names], 0), (found, told["more"]))


def status_differs(cases, words, status):
    return differ(status, cases.run(words).status)


def full_differs(cases, words):
    with open("/dev/full", "wb") as full:
        ran = cases.run(words, OPEN, stdout=full)
    return differ((3, b"breezesim: F2 Write\n"), (ran.status, ran.errors))
