"""Netlists of `tests/program`, and what is told of them, worked out by hand."""

# A variable of 8 bits: its list, with places too, its parts, and the trace of a write.
CELL = b"""(breeze-part "cell" (ports (port "w" passive input) (port "r" passive output))
 (channels (push 8) (pull 8))
 (components (component "$BrzVariable" (8 1 "v" "") (1 (2)))))
"""
CELL_LIST = b"""part cell
port 1 w passive push 8
port 2 r passive pull 8
channels 2
components 1
component 1 Variable 1 2
"""
CELL_PATHS = b"""part cell
port 1 w passive push 8
port 2 r passive pull 8
channels 2
channel 1 push 8 host 1.1 at cell 1 line 2
channel 2 pull 8 host 1.2 at cell 2 line 2
instances 0
components 1
component 1 Variable 1 2 at cell 1 line 3 name v
"""
CELL_PARTS = b"""part cell line 1 top
port 1 w passive push 8
port 2 r passive pull 8
channels 2
components 1
instances 0
"""
CELL_TRACE = b"""trace 2
h1 offer w 1 done
w1 fire 1 take 1 1
w1 fire 1 reply 1
w1 rest
"""

# A list that is open, and what is told of it with --explain.
OPEN = b'(breeze-part "cell"\n'
OPEN_NOTES = b"""breezesim: S3 UnclosedList 0
breezesim: note: at line 1, column 1
breezesim: note: 1 | (breeze-part "cell"
breezesim: note:   | ^ this parenthesis opens a list
breezesim: note: found: the netlist ends before the list does
breezesim: note: expected: a closing parenthesis for each opening one
"""

# A loop round a Continue, which never rests.
SPIN = b"""(breeze-part "spin" (ports (sync-port "a" passive)) (channels (sync) (sync))
 (components (component "$BrzLoop" () (1 2)) (component "$BrzContinue" () (2))))
"""

# A part with an instance of a part.
NESTED = b"""(breeze-part "top" (ports (sync-port "a" passive)) (channels (sync)) (components (component "inner" () (1))))
(breeze-part "inner" (ports (sync-port "a" passive)) (channels (sync)) (components (component "$BrzContinue" () (1))))
"""

# A part with 3,000 Continues on ports of their own, and another part for each of them.
COUNT = 3000


def repeated(form):
    """The texts with each number from 1 on."""
    return "".join(form.replace("#", str(number)) for number in range(1, COUNT + 1))


BIG = "".join(
    [
        '(breeze-part "big" (ports',
        repeated(' (sync-port "p#" passive)'),
        ") (channels",
        repeated(" (sync)"),
        ") (components",
        repeated(' (component "$BrzContinue" () (#))'),
        "))\n",
        repeated('(breeze-part "q#")\n'),
    ]
).encode()


def big_trace(count):
    """So many requests at the ports of the big part."""
    return b"trace 2\n" + b"".join(b"h1 offer p%d done\n" % number for number in range(1, count + 1))

# Ports of one letter each: all 256.
LETTERS = [bytes([byte]) for byte in range(256)]
NAMES = b"".join(
    [
        b'(breeze-part "names" (ports',
        *[b' (sync-port "' + (b"\\" if letter in b'"\\' else b"") + letter + b'" passive)' for letter in LETTERS],
        b") (channels" + b" (sync)" * 256 + b") (components",
        *[b' (component "$BrzContinue" () (%d))' % (at + 1) for at in range(256)],
        b"))\n",
    ]
)

# Sixty Loops, each of which calls the host.
CALLS = "".join(
    [
        '(breeze-part "calls" (ports (sync-port "a" passive)',
        *[f' (sync-port "o{at}" active)' for at in range(1, 61)],
        ") (channels" + " (sync)" * 121 + ") (components",
        f' (component "$BrzConcur" (60) (1 ({" ".join(str(at) for at in range(62, 122))})))',
        *[f' (component "$BrzLoop" () ({at + 61} {at + 1}))' for at in range(1, 61)],
        "))\n",
    ]
).encode()
# Two Sequences that wait for each other within an instance, and a Halt, with what a compiler has of the source.
NAMED = b"""(breeze-part "inner" (ports (sync-port "go" passive) (sync-port "stop" passive))
 (channels (sync) (sync) (sync (name "left")) (sync) (sync (name "a b")) (sync) (sync (at 3 9 "cross.balsa" 0) (name "a#b")) (sync))
 (components
  (component "$BrzConcur" (2) (1 (3 4)))
  (component "$BrzSequence" (2 "S") (3 (5 6)) (at 2 3 "cross.balsa" 0))
  (component "$BrzSequence" (2 "S") (4 (7 8)) (at 3 3 "cross.balsa" 0))
  (component "$BrzPassivator" (2) ((5 8)))
  (component "$BrzPassivator" (2) ((6 7)))
  (component "$BrzHalt" () (2) (at 4 1 "cross.balsa" 0))))
(breeze-part "named" (ports (sync-port "go" passive) (sync-port "stop" passive))
 (channels (sync (name "g")) (sync (name "s")))
 (components (component "inner" () (1 2))))
"""

# A part with 250 copies of a part with 400 components: one component more than a page holds.
LARGE = "".join(
    [
        '(breeze-part "large" (ports (sync-port "a" passive)) (channels (sync)',
        " (sync)" * 250,
        ') (components (component "$BrzConcur" (250) (1 (',
        " ".join(str(chan) for chan in range(2, 252)),
        ")))",
        "".join(f' (component "fan" () ({chan}))' for chan in range(2, 252)),
        '))\n(breeze-part "fan" (ports (sync-port "a" passive)) (channels (sync)',
        " (sync)" * 399,
        ') (components (component "$BrzConcur" (399) (1 (',
        " ".join(str(chan) for chan in range(2, 401)),
        ")))",
        "".join(f' (component "$BrzContinue" () ({chan}))' for chan in range(2, 401)),
        "))\n",
    ]
).encode()
