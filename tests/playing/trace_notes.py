"""What `check --explain` tells of traces that are none of a run, worked out by hand."""

from .netlists import CELL, CELL_TRACE, NESTED

# A Call, at which requests meet.
CALL = b"""(breeze-part "m" (ports (sync-port "a" passive) (sync-port "b" passive) (sync-port "o" active))
 (channels (sync) (sync) (sync))
 (components (component "$BrzCall" () ((1 2) 3))))
"""
MET = b"trace 2\nh1 offer a done\nh1 offer b done\nw1 fire 1 take 1\n"

# A Concur that calls two Continues, each in an instance of its own.
TWICE = (
    b"""(breeze-part "twice" (ports (sync-port "a" passive)) (channels (sync) (sync) (sync))
 (components (component "$BrzConcur" (2) (1 (2 3)))
  (component "inner" () (2))
  (component "inner" () (3))))
"""
    + NESTED.split(b"\n", 1)[1]
)
CALLED = b"trace 2\nh1 offer a done\nw1 fire 1 take 1\nw1 fire 1 ask 3\n"



def edited(before, after):
    """The trace of the cell with a piece of it changed."""
    assert CELL_TRACE.count(before) == 1
    return CELL, "cell", CELL_TRACE.replace(before, after)


# What a case is about; the netlist, the part and the trace; the verdict, and the notes behind it.
ROWS = [
    (
        "no such component", edited(b"fire 1 take", b"fire 2 take"), "not a run: line 3",
        """at line 3, column 9 of the trace
3 | w1 fire 2 take 1 1
  |         ^ component 2
found: component 2, and the net has 1 component
expected: what others can do: fire 1 take 1 1""",
    ),
    (
        "no such channel", edited(b"take 1 1", b"take 3"), "not a run: line 3",
        """at line 3, column 16 of the trace
3 | w1 fire 1 take 3
  |                ^ Variable 1 v at cell 1 line 3
found: channel 3, and the net has 2 channels
expected: what Variable 1 can do: fire 1 take 1 1""",
    ),
    (
        "the end of another", (TWICE, "twice", CALLED + b"w1 fire 2 take 3\n"), "not a run: line 5",
        """at line 5, column 16 of the trace
5 | w1 fire 2 take 3
  |                ^ Continue 2 at inner 1 line 5 in 2
found: take on channel 3, whose passive end is that of Continue 3
expected: what others can do: fire 1 ask 2, fire 3 take 3""",
    ),
    (
        "the host's end", (TWICE, "twice", b"trace 2\nw1 fire 1 ask 1\n"), "not a run: line 2",
        """at line 2, column 15 of the trace
2 | w1 fire 1 ask 1
  |               ^ Concur 1 at twice 1 line 2
found: ask on channel 1, whose active end is that of the host, at port a
expected: no firing: nothing can move""",
    ),
    (
        "not asked yet", (TWICE, "twice", CALLED + b"w1 fire 2 take 2\n"), "not a run: line 5",
        """at line 5, column 11 of the trace
5 | w1 fire 2 take 2
  |           ^ Continue 2 at inner 1 line 5 in 2
found: take on channel 2, which is idle
expected: what others can do: fire 1 ask 2, fire 3 take 3""",
    ),
    (
        "asked once more", (TWICE, "twice", CALLED + b"w1 fire 1 ask 3\n"), "not a run: line 5",
        """at line 5, column 11 of the trace
5 | w1 fire 1 ask 3
  |           ^ Concur 1 at twice 1 line 2
found: ask on channel 3, which is asked
expected: what Concur 1 can do: fire 1 ask 2""",
    ),
    (
        "nothing can move", edited(b"w1 rest", b"w1 fire 1 take 1 1"), "not a run: line 5",
        """at line 5, column 11 of the trace
5 | w1 fire 1 take 1 1
  |           ^ Variable 1 v at cell 1 line 3
found: take on channel 1, which is replied
expected: no firing: nothing can move""",
    ),
    (
        "another value", edited(b"take 1 1", b"take 1 2"), "not a run: line 3",
        """at line 3, column 18 of the trace
3 | w1 fire 1 take 1 2
  |                  ^ Variable 1 v at cell 1 line 3
found: take on channel 1, which is asked 1, and the value 2
expected: what Variable 1 can do: fire 1 take 1 1""",
    ),
    (
        "a firing too early", edited(b"w1 fire 1 take 1 1\n", b""), "not a run: line 3",
        """at line 3, column 11 of the trace
3 | w1 fire 1 reply 1
  |           ^ Variable 1 v at cell 1 line 3
found: reply on channel 1, which is asked 1
expected: what Variable 1 can do: fire 1 take 1 1""",
    ),
    (
        "no rest", edited(b"w1 fire 1 reply 1\n", b""), "not a run: line 4",
        """at line 4, column 4 of the trace
4 | w1 rest
  |    ^ Variable 1 v at cell 1 line 3 can move
found: a rest where a component can move
expected: fire 1 reply 1""",
    ),
    (
        "another reply", edited(b"w 1 done", b"w 1 busy taken"), "not a run: line 2",
        """at line 2, column 14 of the trace
2 | h1 offer w 1 busy taken
  |              ^ port w
found: offer at port w, whose channel is idle, and the reply busy taken
expected: the reply done""",
    ),
    (
        "a busy port", edited(b"w1 rest", b"h1 offer w 2 done"), "not a run: line 5",
        """at line 5, column 14 of the trace
5 | h1 offer w 2 done
  |              ^ port w
found: offer at port w, whose channel is replied, and the reply done
expected: the reply busy replied""",
    ),
    (
        "a reply that hasn't come", edited(b"w1 rest", b"h1 collect r value 7"), "not a run: line 5",
        """at line 5, column 14 of the trace
5 | h1 collect r value 7
  |              ^ port r
found: collect at port r, whose channel is idle, and the reply value 7
expected: the reply not-yet""",
    ),
    (
        "another phase", edited(b"w1 rest", b"h1 watch w taken"), "not a run: line 5",
        """at line 5, column 12 of the trace
5 | h1 watch w taken
  |            ^ port w
found: watch at port w, whose channel is replied, and the reply taken
expected: the reply replied""",
    ),
    (
        "the wrong side", edited(b"w1 rest", b"h1 answer w 1 done"), "not a run: line 5",
        """at line 5, column 4 of the trace
5 | h1 answer w 1 done
  |    ^ port w
found: answer at port w, which is passive: there the host asks and the net answers
expected: offer or collect""",
    ),
    (
        "the wrong side of an active port", (CALL, "m", b"trace 2\nh1 offer o done\n"), "not a run: line 2",
        """at line 2, column 4 of the trace
2 | h1 offer o done
  |    ^ port o
found: offer at port o, which is active: there the net asks and the host answers
expected: accept or answer""",
    ),
    (
        "no value", edited(b"w1 rest", b"h1 offer w done"), "not a run: line 5",
        """at line 5, column 12 of the trace
5 | h1 offer w done
  |            ^ port w
found: offer at port w, and no value
expected: a value up to 255""",
    ),
    (
        "a value at a pull port", edited(b"w1 rest", b"h1 offer r 1 done"), "not a run: line 5",
        """at line 5, column 12 of the trace
5 | h1 offer r 1 done
  |            ^ port r
found: offer at port r, which is a pull port, and the value 1
expected: no value""",
    ),
    (
        "too large a value", edited(b"w1 rest", b"h1 offer w 256 done"), "not a run: line 5",
        """at line 5, column 12 of the trace
5 | h1 offer w 256 done
  |            ^ port w
found: offer at port w, which has 8 bits, and the value 256
expected: a value up to 255""",
    ),
    (
        "another clash", (CALL, "m", MET + b"clash 2\n"), "not a run: line 5",
        """at line 5, column 7 of the trace
5 | clash 2
  |       ^ component 2
found: clash 2
expected: clash 1, since requests met at Call 1 at m 1 line 3""",
    ),
    (
        "a clash wanting", (CALL, "m", MET), "not a run: line 5",
        """at line 5, column 1 of the trace
5 |\x20
  | ^ the end of the trace
found: no clash line more
expected: clash 1, since requests met at Call 1 at m 1 line 3""",
    ),
    (
        "a clash too many", (CALL, "m", MET + b"clash 1\nclash 1\n"), "not a run: line 6",
        """at line 6, column 7 of the trace
6 | clash 1
  |       ^ Call 1 at m 1 line 3
found: clash 1
expected: the end of the trace: requests met nowhere else""",
    ),
    (
        "no trace", (CELL, "cell", b""), "not a trace: line 1",
        """found: no line that is exactly trace 1 or trace 2
expected: such a line behind the netlist, and then the trace
help: --trace FILE takes the trace from a file; or cat makes one text of a netlist and a trace""",
    ),
    (
        "no end of line before it", (CELL.rstrip(b"\n"), "cell", CELL_TRACE), "not a trace: line 1",
        """found: no line that is exactly trace 1 or trace 2
expected: such a line behind the netlist, and then the trace
at line 3, column 63
3 |  (components (component "$BrzVariable" (8 1 "v" "") (1 (2)))))trace 2
  |                                                               ^ this line almost begins one
help: an end of line is missing in front of it: the netlist's last line has none""",
    ),
    (
        "carriage returns", (CELL, "cell", CELL_TRACE.replace(b"\n", b"\r\n")), "not a trace: line 1",
        """found: no line that is exactly trace 1 or trace 2
expected: such a line behind the netlist, and then the trace
at line 4, column 1
4 | trace 2?
  | ^ this line almost begins one
help: a carriage return (CR) stands before its end""",
    ),
    (
        "blanks beside it", edited(b"trace 2", b" trace 2"), "not a trace: line 1",
        """found: no line that is exactly trace 1 or trace 2
expected: such a line behind the netlist, and then the trace
at line 4, column 2
4 |  trace 2
  |  ^ this line almost begins one
help: blanks stand beside it""",
    ),
    (
        "another version", edited(b"trace 2", b"trace 3"), "not a trace: line 1",
        """found: no line that is exactly trace 1 or trace 2
expected: such a line behind the netlist, and then the trace
at line 4, column 1
4 | trace 3
  | ^ this line almost begins one
help: the versions of traces are 1 and 2""",
    ),
    (
        "a first line without an end", (CELL, "cell", b"trace 2"), "not a trace: line 1",
        """at line 1, column 8 of the trace
1 | trace 2
  |        ^ the end of the text
found: a last line without an end
expected: a line feed (LF) at the end of each line""",
    ),
    (
        "a last line without an end", (CELL, "cell", CELL_TRACE.rstrip(b"\n")), "not a trace: line 5",
        """at line 5, column 8 of the trace
5 | w1 rest
  |        ^ the end of the text
found: a last line without an end
expected: a line feed (LF) at the end of each line""",
    ),
    (
        "a carriage return", edited(b"reply 1\n", b"reply 1\r\n"), "not a trace: line 4",
        """at line 4, column 17 of the trace
4 | w1 fire 1 reply 1?
  |                 ^ the last item
found: a carriage return (CR) at the end of the line
expected: a line feed (LF) alone""",
    ),
    (
        "nobody", edited(b"w1 rest", b"w9 rest"), "not a trace: line 5",
        """at line 5, column 1 of the trace
5 | w9 rest
  | ^ item 1
found: w9
expected: h1 to h16 for a host, w1 to w8 for a worker, or clash""",
    ),
    (
        "no event of a worker", edited(b"w1 rest", b"w1 rests"), "not a trace: line 5",
        """at line 5, column 4 of the trace
5 | w1 rests
  |    ^ item 2
found: rests
expected: fire or rest""",
    ),
    (
        "no event of a host", edited(b"w1 rest", b"h16 offers"), "not a trace: line 5",
        """at line 5, column 5 of the trace
5 | h16 offers
  |     ^ item 2
found: offers
expected: offer, collect, accept, answer, watch, fire or rest""",
    ),
    (
        "no component", edited(b"fire 1 take", b"fire 01 take"), "not a trace: line 3",
        """at line 3, column 9 of the trace
3 | w1 fire 01 take 1 1
  |         ^ item 3
found: 01
expected: the number of a component, without leading zeros""",
    ),
    (
        "no move", edited(b"fire 1 take", b"fire 1 takes"), "not a trace: line 3",
        """at line 3, column 11 of the trace
3 | w1 fire 1 takes 1 1
  |           ^ item 4
found: takes
expected: ask, take, reply or got""",
    ),
    (
        "no channel", edited(b"take 1 1", b"take 4294967296"), "not a trace: line 3",
        """at line 3, column 16 of the trace
3 | w1 fire 1 take 4294967296
  |                ^ item 5
found: 4294967296
expected: the number of a channel, without leading zeros""",
    ),
    (
        "two blanks", edited(b"take 1 1", b"take  1 1"), "not a trace: line 3",
        """at line 3, column 16 of the trace
3 | w1 fire 1 take  1 1
  |                ^ item 5
found: no item: items are one space apart
expected: the number of a channel, without leading zeros""",
    ),
    (
        "no value of a move", edited(b"take 1 1", b"take 1"), "not a trace: line 3",
        """at line 3, column 17 of the trace
3 | w1 fire 1 take 1
  |                 ^ item 6
found: the end of the line
expected: a value below 2^128: on channel 1 this move carries one""",
    ),
    (
        "a value of a move", edited(b"reply 1", b"reply 1 1"), "not a trace: line 4",
        """at line 4, column 19 of the trace
4 | w1 fire 1 reply 1 1
  |                   ^ item 6
found: 1
expected: the end of the line: on channel 1 this move carries no value""",
    ),
    (
        "no port", edited(b"offer w 1", b"offer v 1"), "not a trace: line 2",
        """at line 2, column 10 of the trace
2 | h1 offer v 1 done
  |          ^ item 3
found: v
expected: one of 2 ports: w r""",
    ),
    (
        "no such value", edited(b"offer w 1", b"offer w 1x"), "not a trace: line 2",
        """at line 2, column 12 of the trace
2 | h1 offer w 1x done
  |            ^ item 4
found: 1x
expected: a value below 2^128, without leading zeros""",
    ),
    (
        "no reply", edited(b"w 1 done", b"w 1"), "not a trace: line 2",
        """at line 2, column 13 of the trace
2 | h1 offer w 1
  |             ^ item 5
found: the end of the line
expected: done, value V, not-yet, busy PHASE, not-taken PHASE or a phase""",
    ),
    (
        "no phase", edited(b"w 1 done", b"w 1 busy"), "not a trace: line 2",
        """at line 2, column 18 of the trace
2 | h1 offer w 1 busy
  |                  ^ item 6
found: the end of the line
expected: idle, asked, taken, replied or broken""",
    ),
    (
        "an item too many", edited(b"w1 rest", b"w1 rest now"), "not a trace: line 5",
        """at line 5, column 9 of the trace
5 | w1 rest now
  |         ^ item 3
found: now
expected: the end of the line""",
    ),
    (
        "an entry behind a clash line", (CALL, "m", MET + b"clash 1\nw1 rest\n"), "not a trace: line 6",
        """at line 6, column 1 of the trace
6 | w1 rest
  | ^ this line
found: an entry behind a clash line
expected: clash lines to the end of the trace""",
    ),
    (
        "a clash line in version 1", (CALL, "m", MET.replace(b"trace 2", b"trace 1") + b"clash 1\n"), "not a trace: line 5",
        """at line 5, column 1 of the trace
5 | clash 1
  | ^ this line
found: a clash line in a trace of version 1
expected: clash lines in version 2 alone""",
    ),
    (
        "a long item", edited(b"w1 rest", b"x" * 200), "not a trace: line 5",
        f"""at line 5, column 1 of the trace
5 | {'x' * 100}..
  | ^ item 1
found: {'x' * 100}..
expected: h1 to h16 for a host, w1 to w8 for a worker, or clash""",
    ),
]  # fmt: skip


def noted(notes):
    """Notes as they stand on standard error."""
    return "".join(f"breezesim: note: {note}\n" for note in notes.split("\n")).encode()
