"""A toy language of processes: its programs, what they mean, and a compiler that makes netlists of them.

    S = x := E | x <- a | b ! E | S ; S | S || S | while E { S } | if E { S } else { S } | skip
    E = E op E | x | NUMBER

Values have the width of what they go to; a comparison compares in the width of its wider side. A variable begins with 0. The
processes of one program must not share ports, nor ends of channels, so that what they give does not depend on who comes first.
"""

import os
import sys
from dataclasses import dataclass, field, replace

from .tests import EXAMPLES

sys.path.insert(0, os.path.join(EXAMPLES, "gallery"))
from netlist import Part  # noqa: E402

OPERATIONS = {"+": "Add", "-": "Subtract", "&": "And", "|": "Or", "^": "Xor"}
COMPARISONS = {"==": "Equals", "!=": "NotEquals", "<": "LessThan", ">": "GreaterThan", "<=": "LessOrEquals", ">=": "GreaterOrEquals"}


@dataclass(frozen=True)
class Number:
    value: int

    def __str__(self):
        return str(self.value)


@dataclass(frozen=True)
class Variable:
    name: str

    def __str__(self):
        return self.name


@dataclass(frozen=True)
class Operation:
    sign: str
    left: object
    right: object

    def __str__(self):
        return f"({self.left} {self.sign} {self.right})"


@dataclass(frozen=True)
class Skip:
    def __str__(self):
        return "skip"


@dataclass(frozen=True)
class Assign:
    name: str
    value: object

    def __str__(self):
        return f"{self.name} := {self.value}"


@dataclass(frozen=True)
class Receive:
    name: str
    source: str

    def __str__(self):
        return f"{self.name} <- {self.source}"


@dataclass(frozen=True)
class Send:
    target: str
    value: object

    def __str__(self):
        return f"{self.target} ! {self.value}"


@dataclass(frozen=True)
class InOrder:
    parts: tuple

    def __str__(self):
        return " ; ".join(map(str, self.parts))


@dataclass(frozen=True)
class AtOnce:
    parts: tuple

    def __str__(self):
        return " || ".join(f"{{ {it} }}" for it in self.parts)


@dataclass(frozen=True)
class If:
    guard: object
    yes: object
    no: object

    def __str__(self):
        return f"if {self.guard} {{ {self.yes} }} else {{ {self.no} }}"


@dataclass(frozen=True)
class While:
    guard: object
    body: object

    def __str__(self):
        return f"while {self.guard} {{ {self.body} }}"


@dataclass(frozen=True)
class Program:
    """A program: the widths of its inputs, outputs, variables and channels, by name, and what it does."""

    inputs: dict
    outputs: dict
    variables: dict
    channels: dict
    body: object

    def __str__(self):
        heads = {"in": self.inputs, "out": self.outputs, "var": self.variables, "chan": self.channels}
        return "".join(f"{head} {it}:{width}\n" for head, them in heads.items() for it, width in them.items()) + f"{self.body}\n"

    def width(self, e):
        match e:
            case Number(value):
                return max(1, value.bit_length())
            case Variable(name):
                return self.variables[name]
            case Operation(sign, left, right):
                return 1 if sign in COMPARISONS else max(self.width(left), self.width(right))


# ---- what a program means ----------------------------------------------------------------------------------------------------


class Play:
    """A program that is played with values of its inputs, up to its end or until all of it waits: what it took and gave."""

    def __init__(self, program, given):
        self.program, self.left = program, {port: list(values) for port, values in given.items()}
        self.took, self.gave = {port: [] for port in given}, {port: [] for port in program.outputs}
        self.held, self.values = {}, dict.fromkeys(program.variables, 0)
        process = self.played(program.body)
        # (each turn tells whether something was done in it)
        while (went := next(process, None)) is True:
            pass
        self.is_done = went is None

    def value(self, e, width):
        most = (1 << width) - 1
        match e:
            case Number(value):
                return value & most
            case Variable(name):
                return self.values[name] & most
            case Operation(sign, left, right) if sign in COMPARISONS:
                wide = max(self.program.width(left), self.program.width(right))
                return int(compared(sign, self.value(left, wide), self.value(right, wide)))
            case Operation(sign, left, right):
                return combined(sign, self.value(left, width), self.value(right, width)) & most

    def played(self, s):
        match s:
            case Assign(name, value):
                self.values[name] = self.value(value, self.program.variables[name])
            case Receive(name, source):
                yield from self.received(name, source)
            case Send(target, value):
                yield from self.sent(target, value)
            case InOrder(parts):
                for it in parts:
                    yield from self.played(it)
            case AtOnce(parts):
                yield from side_by_side([self.played(it) for it in parts])
            case If(guard, yes, no):
                yield from self.played(yes if self.value(guard, 1) else no)
            case While(guard, body):
                while self.value(guard, 1):
                    yield from self.played(body)
        yield True

    def received(self, name, source):
        most = (1 << self.program.variables[name]) - 1
        if source in self.program.channels:
            while source not in self.held:
                yield False
            self.values[name] = self.held.pop(source) & most
        else:
            while not self.left[source]:
                yield False
            self.took[source].append(self.left[source].pop(0))
            self.values[name] = self.took[source][-1] & most

    def sent(self, target, value):
        if target in self.program.channels:
            self.held[target] = self.value(value, self.program.channels[target])
            yield True
            while target in self.held:
                yield False
        else:
            self.gave[target].append(self.value(value, self.program.outputs[target]))


def side_by_side(processes):
    while processes:
        went = {process: next(process, None) for process in processes}
        processes = [process for process in processes if went[process] is not None]
        if processes:
            yield any(it is not False for it in went.values())


def compared(sign, left, right):
    return {
        "==": left == right, "!=": left != right, "<": left < right, ">": left > right, "<=": left <= right, ">=": left >= right,
    }[sign]  # fmt: skip


def combined(sign, left, right):
    return {"+": left + right, "-": left - right, "&": left & right, "|": left | right, "^": left ^ right}[sign]


# ---- the compiler ------------------------------------------------------------------------------------------------------------


@dataclass(frozen=True)
class Meaning:
    """What a compiler takes each construct for."""

    in_order: str = "Sequence"
    at_once: str = "Concur"
    operations: dict = field(default_factory=lambda: OPERATIONS | COMPARISONS)
    # which values choose the arms of an `if`
    arms: str = "1;0"
    exchanges_operands: bool = False
    is_signed: bool = False
    extends_sign: bool = False
    beginning: int = 0


RIGHT = Meaning()
WRONG = {
    "what is in order is done at once": replace(RIGHT, in_order="Concur"),
    "what is at once is done in order": replace(RIGHT, at_once="Sequence"),
    "the arms of an if are exchanged": replace(RIGHT, arms="0;1"),
    "operands are exchanged": replace(RIGHT, exchanges_operands=True),
    "below is at most": replace(RIGHT, operations=RIGHT.operations | {"<": "LessOrEquals"}),
    "an or is exclusive": replace(RIGHT, operations=RIGHT.operations | {"|": "Xor"}),
    "values are compared as signed ones": replace(RIGHT, is_signed=True),
    "a value is extended by its sign": replace(RIGHT, extends_sign=True),
    "a variable that nothing writes is 1": replace(RIGHT, beginning=1),
}


class Compiler:
    """The netlist of a program in the making. What uses a port, a variable or an end of a channel is gathered, and joined last."""

    def __init__(self, program, name, meaning=RIGHT):
        self.program, self.meaning, self.net = program, meaning, Part(name, "Made of a program of the toy language.")
        self.reads, self.writes = {}, {}
        activate = self.net.port("activate", "passive", "sync")
        inputs = {it: self.net.port(it, "active", "pull", width) for it, width in program.inputs.items()}
        outputs = {it: self.net.port(it, "active", "push", width) for it, width in program.outputs.items()}
        self.statement(program.body, activate)
        for it, width in program.inputs.items():
            self.net.add("CallDemux", [width, len(self.reads[it])], self.reads[it], inputs[it])
        for it, width in program.outputs.items():
            self.net.add("CallMux", [width, len(self.writes[it])], self.writes[it], outputs[it])
        for it, width in program.channels.items():
            self.join_channel(it, width)
        for it, width in program.variables.items():
            self.join_variable(it, width)

    def text(self):
        return self.net.text()

    def read(self, name, width):
        """A new channel on which a variable, an input or a channel is read."""
        self.reads.setdefault(name, []).append(self.net.channel("pull", width))
        return self.reads[name][-1]

    def write(self, name, width):
        self.writes.setdefault(name, []).append(self.net.channel("push", width))
        return self.writes[name][-1]

    def statement(self, s, go):
        """Adds what does it where `go` is requested."""
        match s:
            case Skip():
                self.net.add("Continue", [], go)
            case Assign(name, value):
                width = self.program.variables[name]
                self.fetch(go, width, self.expression(value, width), self.write(name, width))
            case Receive(name, source):
                width = (self.program.inputs | self.program.channels)[source]
                own = self.program.variables[name]
                self.fetch(go, own, self.fitted(self.read(source, width), width, own), self.write(name, own))
            case Send(target, value):
                width = (self.program.outputs | self.program.channels)[target]
                self.fetch(go, width, self.expression(value, width), self.write(target, width))
            case InOrder(parts):
                self.parts(self.meaning.in_order, parts, go)
            case AtOnce(parts):
                self.parts(self.meaning.at_once, parts, go)
            case If(guard, yes, no):
                chosen, arms = self.net.channel("push", 1), [self.net.channel("sync"), self.net.channel("sync")]
                self.fetch(go, 1, self.expression(guard, 1), chosen)
                self.net.add("Case", [1, 2, self.meaning.arms], chosen, arms)
                self.statement(yes, arms[0])
                self.statement(no, arms[1])
            case While(guard, body):
                once = self.net.channel("sync")
                self.net.add("While", [], go, self.expression(guard, 1), once)
                self.statement(body, once)

    def parts(self, kind, parts, go):
        each = [self.net.channel("sync") for _ in parts]
        self.net.add(kind, [len(each)], go, each)
        for it, channel in zip(parts, each):
            self.statement(it, channel)

    def fetch(self, go, width, source, target):
        self.net.add("Fetch", [width], go, source, target)

    def expression(self, e, width):
        """A channel on which its value comes, of this width."""
        match e:
            case Number(value):
                return self.constant(value & ((1 << width) - 1), width)
            case Variable(name):
                own = self.program.variables[name]
                return self.fitted(self.read(name, own), own, width)
            case Operation(sign, left, right) if sign in COMPARISONS:
                wide = max(self.program.width(left), self.program.width(right))
                return self.fitted(self.operation(sign, left, right, wide, 1), 1, width)
            case Operation(sign, left, right):
                return self.operation(sign, left, right, width, width)

    def operation(self, sign, left, right, wide, width):
        sides = [self.expression(left, wide), self.expression(right, wide)]
        if self.meaning.exchanges_operands:
            sides.reverse()
        result, is_signed = self.net.channel("pull", width), flag(self.meaning.is_signed and sign in COMPARISONS)
        self.net.add("BinaryFunc", [width, wide, wide, self.meaning.operations[sign], "false", is_signed, is_signed], result, *sides)
        return result

    def constant(self, value, width):
        result = self.net.channel("pull", width)
        self.net.add("Constant", [width, value], result)
        return result

    def fitted(self, channel, own, width):
        """What comes on a channel of this width of its own, in another."""
        if own == width:
            return channel
        result = self.net.channel("pull", width)
        self.net.add("Adapt", [width, own, "false", flag(self.meaning.extends_sign)], result, channel)
        return result

    def join_channel(self, name, width):
        reads, writes = self.reads[name], self.writes[name]
        ends = self.net.channel("pull", width), self.net.channel("push", width)
        self.net.add("CallDemux", [width, len(reads)], reads, ends[0])
        self.net.add("CallMux", [width, len(writes)], writes, ends[1])
        self.net.add("PassivatorPush", [width, 1], [ends[0]], ends[1])

    def join_variable(self, name, width):
        reads, writes = self.reads.get(name, []), self.writes.get(name, [])
        if not writes:
            for it in reads:
                self.net.add("Constant", [width, self.meaning.beginning], it)
        elif not reads:
            for it in writes:
                self.net.add("ContinuePush", [], it)
        else:
            one = self.net.channel("push", width)
            self.net.add("CallMux", [width, len(writes)], writes, one)
            self.net.add("Variable", [width, len(reads), name, ""], one, reads)


def flag(is_so):
    return "true" if is_so else "false"
