"""Items with traces that are checked. Each maker yields the cases of an item: functions that answer what differs."""

from functools import partial

from .cases import Want
from .plays import checked, played
from .program import spoilt, verdict_of
from .tests import differ

# What is told of a trace of `spoilt`, by the word that stands in front.
KEYS = ("words", "left-out", "doubled", "exchanged")


def is_told(case, program, verdict, trace):
    """This verdict is told of a trace, of each part."""
    for part in case.parts:
        yield partial(verdict_differs, case, program, part, verdict, trace)


def verdict_differs(case, program, part, verdict, trace):
    ran = checked(case, program, part, trace)
    if not verdict.startswith(("not ", "run: ", "exit ")):
        return differ(verdict, verdict_of(ran))
    want = Want()
    want.tell(case.item, verdict)
    if verdict.startswith("not "):
        want.status = 1
    return want.differs(ran)


def verdicts(case, program):
    """A verdict, a `|`, and a trace, which stands behind that of the case, if it has one."""
    for line in case.item.body:
        verdict, trace = case.item.halves(line)
        yield from is_told(case, program, verdict, case.other + case.item.bytes_of(trace))


def lines(case, program):
    """A verdict, a `|`, and a line that stands alone behind `trace 1`."""
    for row in case.item.body:
        verdict, line = case.item.halves(row)
        yield from is_told(case, program, verdict, b"trace 1\n" + case.item.bytes_of(line) + b"\n")


def changed(case, program):
    """A verdict, a `|`, the number of a line of the trace, a `|`, and another line in its place, or behind the last."""
    whole = case.other.splitlines(True)
    for row in case.item.body:
        verdict, change = case.item.halves(row)
        number, line = case.item.halves(change)
        at = case.item.number_of(number)
        if not 0 < at <= len(whole) + 1:
            case.item.fail(f"no line {number}")
        trace = [*whole[: at - 1], case.item.bytes_of(line) + b"\n", *whole[at:]]
        yield from is_told(case, program, verdict, b"".join(trace))


def fronts(case, program):
    """Each front of the trace is that of a run where it ends with a line, and else is no trace because of its last line."""
    line, verdict = 1, "b1"
    for end in range(len(case.other) + 1):
        yield from is_told(case, program, verdict, case.other[:end])
        is_end = case.other[end : end + 1] == b"\n"
        line += is_end
        verdict = "r" if is_end else f"b{line}"


def spoilt_walks(case, program):
    """Words, and what is told of their trace with each line in turn spoilt."""
    told, key = {key: [] for key in KEYS}, ""
    for line in case.item.body:
        first, _, rest = line.partition(" ")
        key = first or key
        if key not in told:
            case.item.fail("no such way to spoil a trace")
        told[key] += rest.split()
    for part in case.parts:
        yield partial(walk_differs, case, program, part, told["words"])
        for way in KEYS[1:]:
            yield partial(spoilt_differs, case, program, part, told["words"], way, told[way])


def walk_differs(case, program, part, words):
    ran = played(case, program, words, part)
    if ran.status or ran.errors:
        return f"the words are refused: {ran.errors!r}"
    return differ("r", verdict_of(checked(case, program, part, ran.output)))


def spoilt_differs(case, program, part, words, way, told):
    trace = played(case, program, words, part).output.splitlines(True)
    found = [verdict_of(checked(case, program, part, b"".join(lines))) for lines in spoilt(trace)[way]]
    return differ(" ".join(told), " ".join(found))
