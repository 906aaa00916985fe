"""Items that look at a netlist, or are refused. Each maker yields the cases of an item: functions that answer what differs."""

import re
from functools import cache, partial

from .cases import Want
from .plays import played
from .program import fault_line, part_words
from .tests import differ

LOOKS = {"list": ["list"], "paths": ["list", "--paths"], "parts": ["parts"], "drawing": ["draw"]}


def looks(case, program):
    """The lines are what is written of each part, or of the netlist."""
    want = Want()
    for line in case.item.body:
        want.tell(case.item, line)
    words = LOOKS[case.command]
    if case.command == "drawing":
        want.lines += case.other.decode().splitlines()
        for key in ("depth", "around", "hops"):
            value = getattr(case, key)
            words = [*words, *([] if value is None else [f"--{key}", str(value)])]
    for part in case.parts if case.command != "parts" else [None]:
        yield partial(look_differs, case, program, words, part, want)


def look_differs(case, program, words, part, want):
    more = [] if part is None else part_words(part)
    return want.differs(program.run([*words, *more], case.netlist))


def charts(case, program):
    """`FROM..TO`, further options, a `|`, and the size of the chart of these lines of the trace, its signs or its lines, or how the
    command ends."""
    for line in case.item.body:
        asked, told = case.item.halves(line)
        lines, *more = asked.split()
        start, dots, to = lines.partition("..")
        if not dots:
            case.item.fail("a range of lines is wanted")
        words = ["chart", *(["--from", start] if start else []), *(["--to", to] if to else []), *more]
        for part in case.parts:
            yield partial(chart_differs, case, program, words, part, told)


def chart_differs(case, program, words, part, told):
    ran = program.run([*words, *part_words(part)], case.netlist + b"\n" + case.other)
    if told.startswith("exit "):
        want = Want()
        want.tell(case.item, told)
        return want.differs(ran)
    if told.startswith("lines "):
        return differ((0, told, b""), (ran.status, " ".join(["lines", *lines_shown(ran.output)]), ran.errors))
    size = re.search(rb' viewBox="0 0 (\S+) ([^"]+)"', ran.output.partition(b"\n")[2].partition(b"\n")[0])
    found = b" by ".join(size.groups()).decode() if size else "no picture"
    return differ((0, told, b""), (ran.status, found, ran.errors))


def lines_shown(chart):
    """The numbers of the lines of a trace that a chart has on rows, and behind them the lifelines by their names."""
    numbers = re.findall(rb'text-anchor="end" fill="#666666">(\d+)</text>', chart)
    heads = re.findall(rb"<g>\n<title>(component|port) (\d+)", chart)
    return [it.decode() for it in numbers] + ["of", *(f"{kind.decode()[0]}{number.decode()}" for kind, number in heads)]


def refused(case, program):
    """A fault and the netlist that is refused so: behind a `|`, or below it."""
    fault, netlist = "", b""
    for line in case.item.body:
        if line.startswith("  "):
            netlist += line[2:].encode() + b"\n"
            continue
        if fault:
            yield from refusals(case, program, fault, netlist)
        fault, _, text = line.partition("|")
        fault, netlist = fault.strip(), case.item.bytes_of(text.strip())
    yield from refusals(case, program, fault, netlist)


def refusals(case, program, fault, netlist):
    """Each part of the netlist is refused with this fault: by `list`, or by `run` where there are words."""
    if not fault:
        case.item.fail("a fault is wanted")
    for part in case.parts:
        yield partial(refusal_differs, case, program, part, fault, netlist)


def refusal_differs(case, program, part, fault, netlist):
    if case.words:
        ran = played(case, program, case.words, part, netlist, 10)
    else:
        ran = program.run(["list", *part_words(part)], netlist)
    return differ((1, b"", fault_line(fault)), (ran.status, ran.output, ran.errors))


def marked(case, program):
    """A fault without its byte, a `|`, and a netlist with a `^` at that byte."""
    rows = []
    for line in case.item.body:
        fault, netlist = case.item.halves(line)
        before, mark, behind = netlist.partition("^")
        rows.append((fault, before, behind) if mark else case.item.fail("no byte is marked"))
    other = case.other.decode()
    for fault, before, behind in rows:
        between = [("", ""), *([(other, ""), ("", other)] if other else [])]
        if case.is_each:
            between += [("", f" {front}{back}") for _, front, back in rows]
        for front, back in between:
            at = len((front + before).encode())
            yield from refusals(case, program, f"{fault} {at}", f"{front}{before}{behind}{back}".encode())


def fronts(case, program):
    """Each front of the netlist is refused for the text or the list that is open at its end, or is listed as the whole is."""
    for part in case.parts:
        for end in range(len(case.netlist) + 1):
            yield partial(front_differs, case, program, part, end)


@cache
def whole_of(program, part, netlist):
    """What is listed of the whole netlist."""
    return program.run(["list", *part_words(part)], netlist).output


def front_differs(case, program, part, end):
    front = case.netlist[:end]
    want = Want()
    want.fault = open_at(front, part.decode())
    want.status = 1 if want.fault else 0
    want.lines = [] if want.fault else whole_of(program, part, case.netlist).decode().splitlines()
    return want.differs(program.run(["list", *part_words(part)], front))


def open_at(front, part):
    """The fault for what is open at the end of a front, or none."""
    lists, quote = [], None
    for at, byte in enumerate(front):
        if byte == ord('"'):
            quote = at if quote is None else None
        elif quote is None and byte == ord("("):
            lists.append(at)
        elif quote is None and byte == ord(")") and lists:
            lists.pop()
    if quote is not None:
        return f"S2 UnclosedText {quote}"
    if lists:
        return f"S3 UnclosedList {lists[-1]}"
    return "" if front else f"E1 NoPart {part}"
