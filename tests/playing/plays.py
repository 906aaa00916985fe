"""Items whose words are played by `run` or `pool`. Each maker yields an item's cases: functions that answer what differs."""

import re
import tempfile
from functools import partial

from .cases import Want
from .program import part_words
from .tests import differ


def plays(case, program):
    """Scripts, each behind a line `--` but for the first: words, a `|`, and the line of the trace that they add."""
    for words, want in scripts_of(case):
        for part in case.parts:
            yield partial(play_differs, case, program, part, words, want)
            if want.verdict is not None:
                yield partial(check_differs, case, program, part, words, want)


def scripts_of(case):
    """The scripts of an item, each its words and what they are to give."""
    words, want = [], Want(["trace 2"])
    for line in case.item.body:
        if line.strip() == "--":
            yield words, want
            words, want = [], Want(["trace 2"])
            continue
        added, told = case.item.halves(line)
        words += case.item.expanded(added).split()
        for told_line in told_lines(case.item, told):
            want.tell(case.item, told_line)
    yield words, want


def told_lines(item, told):
    """The lines behind a `|`: one, but for braces."""
    if "{" in told:
        return item.bytes_of(told).decode().splitlines()
    return [told] if told else []


def played(case, program, words, part, netlist=None, journal=None):
    """What `run` gives of these words."""
    command = ["run", "--journal", str(journal or case.journal), *part_words(part), "--", *words]
    return program.run(command, case.netlist if netlist is None else netlist)


def play_differs(case, program, part, words, want):
    return want.differs(played(case, program, words, part))


def check_differs(case, program, part, words, want):
    """What differs in what `check` tells of the trace of these words."""
    trace = played(case, program, words, part).output
    return Want([want.verdict]).text_differs(checked(case, program, part, trace).output)


def checked(case, program, part, trace):
    """What `check` gives of a trace behind the netlist."""
    return program.run(["check", *part_words(part)], case.netlist + b"\n" + trace)


def replies(case, program):
    """A table of operations. In the netlist `{COLUMN}`, `{op}` and `{sign}` stand for what a row says. Port `out` replies with
    the result, once each port that is named is answered with the value of its column."""
    head, *rows = case.other.decode().splitlines()
    names, operations = (half.split() for half in case.item.halves(head))
    for line in rows:
        values, results = (half.split() for half in case.item.halves(line))
        if len(values) != len(names) or len(results) != len(operations):
            case.item.fail(f"a row of another length: {line}")
        for operation, result in zip(operations, results):
            op, _, sign = operation.partition("/")
            row = {**dict(zip(names, values)), "op": op, "sign": sign}
            yield partial(reply_differs, case, program, row, result)


def reply_differs(case, program, row, result):
    netlist = re.sub(r"\{([^}]*)\}", lambda found: row[found[1]], case.netlist.decode()).encode()
    words = ["offer:out", "run:9"]
    for port in case.words:
        words += [f"accept:{port}", f"answer:{port}:{row[port]}"]
    words += ["run:9", "collect:out"]
    want = Want([f"h1 collect out value {result}"])
    want.is_end = True
    return want.differs(played(case, program, words, b"p", netlist, 100))


def pools(case, program):
    """Words of sessions, a `|`, and what the pool is to give."""
    words, want = [], Want()
    for line in case.item.body:
        added, told = case.item.halves(line)
        words += added.split()
        if told:
            want.tell(case.item, told)
    for workers in case.workers or [2]:
        for part in case.parts:
            for _ in range(case.rounds):
                yield partial(pool_differs, case, program, part, words, want, workers)


def pool_differs(case, program, part, words, want, workers):
    options = ["--workers", str(workers), "--fuel", str(case.fuel), "--journal", str(case.journal)]
    ran = program.run(["pool", *options, *part_words(part), "--", *words], case.netlist)
    text = ran.output if want.is_end else records_of(ran.output)
    differs = want.end_differs(ran) or want.text_differs(text)
    if differs is None and want.verdict is not None:
        verdict = checked(case, program, part, ran.output).output.decode()
        differs = None if verdict.startswith(want.verdict) else f"the check tells {verdict!r}"
    return differs


def records_of(trace):
    """The lines of each session, those of the first session first."""
    lines = trace.splitlines(True)
    return b"".join(line for session in range(1, 17) for line in lines if line.startswith(b"h%d " % session))


def explored(case, program):
    """Lines of `explore`, each with a `|` and the first line of its answer, and below it the others; of an answer that is left
    out nothing is compared."""
    lines, answers = [], []
    for line in case.item.body:
        # (blanks count behind the `|` and one more)
        typed, _, told = line.partition("|")
        if typed.strip():
            lines.append(typed.strip())
            answers.append([])
        if told:
            answers[-1].append(told[1:])
    for part in case.parts:
        yield partial(explored_differs, case, program, part, lines, answers)


def explored_differs(case, program, part, lines, answers):
    # (a line behind each tells where its answer ends)
    typed = "".join(f"{line}\nseed 0\n" for line in lines)
    with tempfile.NamedTemporaryFile(suffix=".breeze") as file:
        file.write(case.netlist)
        file.flush()
        ran = program.run(["explore", *part_words(part), "--netlist", file.name], typed.encode())
    told = [answer.splitlines() for answer in ran.output.decode().split("seed 0\n")]
    wanted = [answer or had for answer, had in zip(answers, told)]
    return differ((0, b"", [*wanted, []]), (ran.status, ran.errors, told))
