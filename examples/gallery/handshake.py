"""A compiler: programs in a language like Balsa, given as Python values, to netlists. docs/COMPILERS.md has its table.

Each construct becomes one component, and each use of a variable, a port or a shared procedure a channel. What has several users
gets a mixer in the end. Widths are not adapted by themselves, and two commands side by side that go through one mixer are not
refused: the program finds either.
"""
from netlist import Part

OPERATIONS = {
    "Add": "+",
    "Subtract": "-",
    "And": "and",
    "Or": "or",
    "Xor": "xor",
    "LessThan": "<",
    "GreaterThan": ">",
    "LessOrEquals": "<=",
    "GreaterOrEquals": ">=",
    "Equals": "=",
    "NotEquals": "/=",
}
COMPARISONS = {"LessThan", "GreaterThan", "LessOrEquals", "GreaterOrEquals", "Equals", "NotEquals"}


def bits(value):
    return max(value.bit_length(), 1)


def flag(sign):
    return "true" if sign else "false"


def indented(lines, blanks=2):
    return [(" " * blanks + text, node) for text, node in lines]


# ---- expressions -------------------------------------------------------------------------------------------------------------


class Expression:
    """What has a value of so many bits (`width`). It shows its source, and is built as a channel from which the value comes."""

    def __add__(self, b):
        return Binary("Add", self, b)

    def __sub__(self, b):
        return Binary("Subtract", self, b)

    def __and__(self, b):
        return Binary("And", self, b)

    def __or__(self, b):
        return Binary("Or", self, b)

    def __xor__(self, b):
        return Binary("Xor", self, b)

    def __lt__(self, b):
        return Binary("LessThan", self, b)

    def __gt__(self, b):
        return Binary("GreaterThan", self, b)

    def __le__(self, b):
        return Binary("LessOrEquals", self, b)

    def __ge__(self, b):
        return Binary("GreaterOrEquals", self, b)

    def equals(self, b):
        return Binary("Equals", self, b)

    def differs(self, b):
        return Binary("NotEquals", self, b)

    def cut(self, low, width):
        return Slice(self, low, width)

    def to(self, width, signed=False):
        return Adapt(self, width, signed)

    def parts(self):
        """The expressions within this one."""
        return []

    def build(self, made, line):
        """Adds the component that has this value at its first port."""
        out = made.part.channel("pull", self.width, line=line)
        kind, parameters, entries = self.component(made, line)
        made.part.add(kind, parameters, out, *entries, line=line)
        return out


class Const(Expression):
    def __init__(self, value, width):
        self.value, self.width = value, width

    def show(self):
        return str(self.value)

    def component(self, made, line):
        return "Constant", [self.width, self.value], []


class Var(Expression):
    """A variable; as an expression, a read of it."""

    def __init__(self, name, width):
        self.name, self.width = name, width

    def show(self):
        return self.name

    def build(self, made, line):
        return made.read(self, line)


class In(Expression):
    """What a pull port brings; each evaluation is a handshake."""

    def __init__(self, name, width):
        self.name, self.width = name, width

    def show(self):
        return self.name

    def build(self, made, line):
        out = made.part.channel("pull", self.width, self.name, line)
        made.users.setdefault(self.name, []).append(out)
        return out


class Binary(Expression):
    """An operation. A whole number at the right is a constant. `is_signed` says how both operands are read."""

    def __init__(self, operation, a, b):
        self.operation, self.a, self.b, self.is_signed = operation, a, b, False
        widest = max(a.width, b.width) if isinstance(b, Expression) else a.width
        self.width = 1 if operation in COMPARISONS else widest

    def show(self):
        right = self.b.show() if isinstance(self.b, Expression) else self.b
        return f"({self.a.show()} {OPERATIONS[self.operation]} {right})"

    def parts(self):
        return [it for it in (self.a, self.b) if isinstance(it, Expression)]

    def component(self, made, line):
        sign = flag(self.is_signed)
        ending = [self.operation, "false", sign, sign]
        if isinstance(self.b, Expression):
            entries = [self.a.build(made, line), self.b.build(made, line)]
            return "BinaryFunc", [self.width, self.a.width, self.b.width, *ending], entries
        width = bits(self.b) + self.is_signed
        return "BinaryFuncConstR", [self.width, self.a.width, width, self.b % (1 << width), *ending], [self.a.build(made, line)]


def signed(operation):
    """The operation on signed operands."""
    operation.is_signed = True
    return operation


class Unary(Expression):
    """Negate or Invert."""

    def __init__(self, operation, a):
        self.operation, self.a, self.width = operation, a, a.width

    def show(self):
        return f"{'-' if self.operation == 'Negate' else 'not '}{self.a.show()}"

    def parts(self):
        return [self.a]

    def component(self, made, line):
        return "UnaryFunc", [self.width, self.a.width, self.operation, "false"], [self.a.build(made, line)]


class Slice(Expression):
    def __init__(self, a, low, width):
        self.a, self.low, self.width = a, low, width

    def show(self):
        return f"{self.a.show()}[{self.low}..{self.low + self.width - 1}]"

    def parts(self):
        return [self.a]

    def component(self, made, line):
        return "Slice", [self.width, self.a.width, self.low], [self.a.build(made, line)]


class Adapt(Expression):
    def __init__(self, a, width, is_signed):
        self.a, self.width, self.is_signed = a, width, is_signed

    def show(self):
        return f"({self.a.show()} as {self.width} {'signed ' if self.is_signed else ''}bits)"

    def parts(self):
        return [self.a]

    def component(self, made, line):
        return "Adapt", [self.width, self.a.width, "false", flag(self.is_signed)], [self.a.build(made, line)]


class Join(Expression):
    """Several side by side, the low part first. More than two of one width make one CombineEqual."""

    def __init__(self, *several):
        self.several, self.width = several, sum(it.width for it in several)

    def show(self):
        return "{" + ", ".join(it.show() for it in self.several) + "}"

    def parts(self):
        return list(self.several)

    def component(self, made, line):
        first, *rest = self.several
        if len(rest) > 1 and len({it.width for it in self.several}) == 1:
            entries = [[it.build(made, line) for it in self.several]]
            return "CombineEqual", [self.width, first.width, len(self.several)], entries
        high = rest[0] if len(rest) == 1 else Join(*rest)
        return "Combine", [self.width, first.width, high.width], [first.build(made, line), high.build(made, line)]


class Pick(Expression):
    """One of several by the value of `index`: [(set, expression), ..]. `shown` is its source, where that is another."""

    def __init__(self, index, arms, shown=None):
        self.index, self.arms, self.shown, self.width = index, arms, shown, arms[0][1].width

    def show(self):
        first = ", ".join(it.show() for _, it in self.arms[:3])
        return self.shown or f"[{first}{', ..' if len(self.arms) > 3 else ''}]({self.index.show()})"

    def parts(self):
        return [self.index, *(it for _, it in self.arms)]

    def component(self, made, line):
        sets = ";".join(it for it, _ in self.arms)
        entries = [self.index.build(made, line), [it.build(made, line) for _, it in self.arms]]
        return "CaseFetch", [self.width, self.index.width, len(self.arms), sets], entries


class Array:
    """Variables of one width, read and written by an index."""

    def __init__(self, name, count, width):
        self.name, self.width = name, width
        self.cells = [Var(f"{name}[{at}]", width) for at in range(count)]

    def at(self, index):
        return Pick(index, [(str(at), it) for at, it in enumerate(self.cells)], f"{self.name}[{index.show()}]")


# ---- commands ----------------------------------------------------------------------------------------------------------------


class Command:
    """What is done. `lines` has its source: texts, each with the command that begins there. `line` is where it stands."""

    line = 0

    def parts(self):
        """The commands and expressions within this one."""
        return []

    def build(self, made, go=None):
        """Adds what does this when it is asked on the channel `go`, or on a new one. Answers that channel."""
        go = go or made.part.channel("sync", line=self.line)
        self.add(made, go)
        return go


class Skip(Command):
    def lines(self):
        return [("continue", self)]

    def add(self, made, go):
        made.add(self, "Continue", [], go)


class Stop(Command):
    def lines(self):
        return [("halt", self)]

    def add(self, made, go):
        made.add(self, "Halt", [], go)


class Trap(Command):
    """Sends a value to where nothing comes back from."""

    def __init__(self, e):
        self.e = e

    def lines(self):
        return [(f"trap {self.e.show()}", self)]

    def parts(self):
        return [self.e]

    def add(self, made, go):
        value = made.push(self, self.e.width)
        made.fetch(self, go, self.e, value)
        made.add(self, "HaltPush", [self.e.width], value)


class Seq(Command):
    mark = ";"

    def __init__(self, *commands):
        self.commands = commands

    def parts(self):
        return self.commands

    def lines(self):
        found = []
        for it in self.commands:
            if found:
                found[-1] = (f"{found[-1][0]} {self.mark}", found[-1][1])
            found += [("[", None), *indented(it.lines()), ("]", None)] if isinstance(it, Seq) else it.lines()
        found[0] = (found[0][0], found[0][1] or self)
        self.first = found[0][1]
        return found

    def build(self, made, go=None):
        # (it begins where its first command does)
        self.line = self.line or self.first.line
        return super().build(made, go)

    def add(self, made, go):
        kind, text = ("SequenceOptimised", ["S"]) if made.is_optimised else ("Sequence", [])
        made.add(self, kind, [len(self.commands), *text], go, [it.build(made) for it in self.commands])


class Par(Seq):
    mark = "||"

    def add(self, made, go):
        made.add(self, "Concur", [len(self.commands)], go, [it.build(made) for it in self.commands])


class Loop(Command):
    def __init__(self, body):
        self.body = body

    def lines(self):
        return [("loop", self), *indented(self.body.lines()), ("end", None)]

    def parts(self):
        return [self.body]

    def add(self, made, go):
        made.add(self, "Loop", [], go, self.body.build(made))


class While(Command):
    def __init__(self, guard, body):
        self.guard, self.body = guard, body

    def lines(self):
        return [(f"while {self.guard.show()} then", self), *indented(self.body.lines()), ("end", None)]

    def parts(self):
        return [self.guard, self.body]

    def add(self, made, go):
        made.add(self, "While", [], go, self.guard.build(made, self.line), self.body.build(made))


class Case(Command):
    """One of several by the value of `e`: [(set, command), ..]."""

    def __init__(self, e, arms):
        self.e, self.arms = e, arms

    def lines(self):
        found = [(f"case {self.e.show()} of", self)]
        for sign, (sets, it) in zip(["  "] + ["| "] * len(self.arms), self.arms):
            found += [(f"{sign}{sets} then", None), *indented(it.lines(), 4)]
        return [*found, ("end", None)]

    def parts(self):
        return [self.e, *(it for _, it in self.arms)]

    def add(self, made, go):
        value = made.push(self, self.e.width)
        made.fetch(self, go, self.e, value)
        sets = ";".join(it for it, _ in self.arms)
        arms = [it.build(made) for _, it in self.arms]
        made.add(self, "Case", [self.e.width, len(arms), sets], value, arms)


class If(Case):
    def __init__(self, e, yes, no=None):
        super().__init__(e, [("1", yes)] + [("0", it) for it in [no] if it])

    def lines(self):
        found = [(f"if {self.e.show()} then", self), *indented(self.arms[0][1].lines())]
        for _, it in self.arms[1:]:
            found += [("else", None), *indented(it.lines())]
        return [*found, ("end", None)]


class Guarded(Command):
    """(guard, command), ..: does the first whose guard is 1, and nothing where none is."""

    word = "if"

    def __init__(self, *arms):
        self.arms = arms

    def lines(self):
        found = []
        for head, node, (guard, it) in zip([self.word] + ["|"] * len(self.arms), [self] + [None] * len(self.arms), self.arms):
            found += [(f"{head} {guard.show()} then", node), *indented(it.lines(), 4)]
        return [*found, ("end", None)]

    def parts(self):
        return [one for arm in self.arms for one in arm]

    def add(self, made, go):
        guard, chosen = made.part.channel("pull", 1, line=self.line), made.part.channel("sync", line=self.line)
        self.add_driver(made, go, guard, chosen)
        guards = [it.build(made, self.line) for it, _ in self.arms]
        made.add(self, "Bar", [len(guards)], guard, chosen, guards, [it.build(made) for _, it in self.arms])

    def add_driver(self, made, go, guard, chosen):
        """The guard is pulled first, by which the Bar looks at all guards; what it brings is of no use."""
        probe, first = made.push(self, 1), made.part.channel("sync", line=self.line)
        made.add(self, "SequenceOptimised", [2, "S"], go, [first, chosen])
        made.add(self, "Fetch", [1, "false"], first, guard, probe)
        made.add(self, "ContinuePush", [1], probe)


class Repeat(Guarded):
    """The same again and again, until no guard is 1."""

    word = "loop while"

    def add_driver(self, made, go, guard, chosen):
        made.add(self, "While", [], go, guard, chosen)


class Set(Command):
    """x := e, or i -> x where e is a port."""

    def __init__(self, x, e):
        self.x, self.e = x, e

    def lines(self):
        is_input = isinstance(self.e, In)
        return [(f"{self.e.show()} -> {self.x.show()}" if is_input else f"{self.x.show()} := {self.e.show()}", self)]

    def parts(self):
        return [self.x, self.e]

    def add(self, made, go):
        value = self.e.build(made, self.line)
        made.add(self, "Fetch", [self.x.width, "false"], go, value, made.write(self, self.x))


class SetAt(Command):
    """m[i] := e"""

    def __init__(self, m, i, e):
        self.m, self.i, self.e = m, i, e

    def lines(self):
        return [(f"{self.m.name}[{self.i.show()}] := {self.e.show()}", self)]

    def parts(self):
        return [*self.m.cells, self.i, self.e]

    def add(self, made, go):
        width, cells = self.m.width, self.m.cells
        chosen, arms = made.push(self, self.i.width), []
        values = [made.part.channel("pull", width, line=self.line) for _ in cells]
        for cell, value in zip(cells, values):
            arms.append(made.part.channel("sync", line=self.line))
            made.add(self, "Fetch", [width, "false"], arms[-1], value, made.write(self, cell))
        made.fetch(self, go, self.i, chosen)
        made.add(self, "Case", [self.i.width, len(cells), ";".join(map(str, range(len(cells))))], chosen, arms)
        made.add(self, "CallDemux", [width, len(cells)], values, self.e.build(made, self.line))


class Send(Command):
    """o <- e"""

    def __init__(self, port, e):
        self.port, self.e = port, e

    def lines(self):
        return [(f"{self.port} <- {self.e.show()}", self)]

    def parts(self):
        return [self.e]

    def add(self, made, go):
        value = self.e.build(made, self.line)
        made.add(self, "Fetch", [self.e.width, "false"], go, value, made.send(self, self.port))


class Meeting(Command):
    """A command that is a channel itself: it needs no component but where it stands alone."""

    def build(self, made, go=None):
        one = made.use(self)
        if not go:
            return one
        made.add(self, "Sequence", [1], go, [one])
        return go


class Sync(Meeting):
    """A handshake at a sync port."""

    def __init__(self, name):
        self.name = name

    def lines(self):
        return [(f"sync {self.name}", self)]


class Call(Meeting):
    """A call of a shared procedure: one body, with several callers, which never come at once."""

    def __init__(self, name, body):
        self.name, self.body = name, body

    def parts(self):
        return [self.body]

    def lines(self):
        return [(f"{self.name} ()", self)]


class Select(Command):
    """Waits for one of several passive ports: (port, command), .. The command runs within the port's handshake, where a Var of
    that name reads the value that a push port brings. With `arbitrate` two ports may ask at once."""

    def __init__(self, *arms, arbitrate=False):
        self.arms, self.arbitrate = arms, arbitrate

    def lines(self):
        found = [("arbitrate" if self.arbitrate else "select", self)]
        for sign, (port, it) in zip(["  "] + ["| "] * len(self.arms), self.arms):
            found += [(f"{sign}{port} then", None), *indented(it.lines(), 4)]
        return [*found, ("end", None)]

    def parts(self):
        return [it for _, it in self.arms]

    def add(self, made, go):
        asked, arms = [], []
        for port, it in self.arms:
            asked.append(made.signal(self, port))
            arms.append(it.build(made))
        if self.arbitrate:
            through = [made.part.channel("sync", line=self.line) for _ in asked]
            made.add(self, "Arbiter", [], *asked, *through)
            asked = through
        made.add(self, "DecisionWait", [len(arms)], go, asked, arms)


# ---- the translation ---------------------------------------------------------------------------------------------------------


class Procedure:
    """A part that is made of a program. A port is "NAME sync", "NAME in WIDTH" or "NAME out WIDTH", with "passive" at the end
    where the caller begins."""

    def __init__(self, name, ports, body, about, is_optimised=True):
        self.part, self.is_optimised = Part(name, about), is_optimised
        # the variables, and by their names the channels that read and write them; a port that is written stands there too
        self.variables, self.reads, self.writes = {}, {}, {}
        # the channels that use a port or a shared procedure, and the bodies of these
        self.users, self.shared = {}, {}
        # the push ports of a Select: the port's channel, the signal that a value is there, and the line
        self.offered = {}
        self.ports, heads = {}, []
        for words in (it.split() for it in ["activate sync passive", *ports]):
            self.ports[words[0]] = self.port(words)
            heads.append(head_of(words))
        self.part.comment += Listing(name, heads[1:], set(self.ports), body).lines
        body.build(self, self.ports["activate"])
        self.finish()

    def text(self):
        return self.part.text()

    def port(self, words):
        name, way, *more = words
        is_passive = "passive" in more
        if way == "sync":
            return self.part.port(name, "passive" if is_passive else "active", "sync")
        kind = "pull" if (way == "in") != is_passive else "push"
        return self.part.port(name, "passive" if is_passive else "active", kind, int(more[0]))

    def add(self, command, kind, parameters, *entries):
        self.part.add(kind, parameters, *entries, line=command.line)

    def push(self, command, width):
        return self.part.channel("push", width, line=command.line)

    def fetch(self, command, go, e, out):
        self.add(command, "Fetch", [e.width, "false"], go, e.build(self, command.line), out)

    def read(self, variable, line):
        """A channel from which a variable is read."""
        self.variables.setdefault(variable.name, variable)
        out = self.part.channel("pull", variable.width, variable.name, line)
        self.reads.setdefault(variable.name, []).append(out)
        return out

    def write(self, command, variable):
        """A channel by which a variable is written."""
        self.variables.setdefault(variable.name, variable)
        return self.written(variable.name, variable.width, command.line)

    def send(self, command, port):
        """A channel by which a value goes to a port."""
        return self.written(port, self.ports[port].width, command.line)

    def written(self, name, width, line):
        out = self.part.channel("push", width, name, line)
        self.writes.setdefault(name, []).append(out)
        return out

    def use(self, command):
        """A channel by which a sync port or a shared procedure is used."""
        name = command.name
        out = self.part.channel("sync", line=command.line, name=name)
        self.users.setdefault(name, []).append(out)
        if isinstance(command, Call) and name not in self.shared:
            self.shared[name] = None
            self.shared[name] = command.body.build(self)
        return out

    def signal(self, command, port):
        """A channel that is asked where a passive port is."""
        channel = self.ports[port]
        if channel.kind == "sync":
            return channel
        signal = self.part.channel("sync", line=command.line, name=port)
        self.offered[port] = (channel, signal, command.line)
        return signal

    def join(self, kind, users, one):
        """Brings the users of a channel together to it."""
        if len(users) == 1:
            users[0].joined = one
        else:
            width = [one.width] if one.width else []
            self.part.add(kind, [*width, len(users)], users, one)

    def finish(self):
        """Adds the variables, and a mixer where several use one thing."""
        for name, variable in self.variables.items():
            if name not in self.offered:
                self.keep(variable)
        for name, (channel, signal, line) in self.offered.items():
            reads = self.reads[name]
            self.part.add("FalseVariable", [channel.width, len(reads), ""], channel, signal, reads, line=line)
        for name, users in self.writes.items():
            self.join("CallMux", users, self.ports[name])
        for name, users in self.users.items():
            one = self.ports[name] if name in self.ports else self.shared[name]
            self.join("CallDemux" if one.kind == "pull" else "Call", users, one)

    def keep(self, variable):
        name, width = variable.name, variable.width
        writes, reads = self.writes.pop(name, []), self.reads.get(name, [])
        if not writes or not reads:
            raise ValueError(f"{self.part.name}: {name} is never {'read' if writes else 'written'}")
        one = writes[0]
        if len(writes) > 1:
            one = self.part.channel("push", width, name)
            self.join("CallMux", writes, one)
        self.part.add("Variable", [width, len(reads), name, ""], one, reads)


class Listing:
    """The source of a procedure, line by line. It gives each command its line."""

    def __init__(self, name, heads, ports, body):
        self.ports, self.variables, self.arrays, self.shared = ports, {}, {}, {}
        inner = indented(body.lines())
        self.collect(body)
        lines = [(f"procedure {name} ({'; '.join(heads)}) is", None), *self.declarations()]
        lines += [("begin", None), *inner, ("end", None)]
        for at, (_, command) in enumerate(lines, 1):
            if command and not command.line:
                command.line = at
        self.lines = ["", *(f"{at:3}  {text}" for at, (text, _) in enumerate(lines, 1))]

    def collect(self, it):
        """Finds what a command or an expression names."""
        if isinstance(it, Var) and it.name not in self.ports:
            base, bracket, _ = it.name.partition("[")
            if bracket:
                self.arrays.setdefault(base, {})[it.name] = it
            else:
                self.variables.setdefault(it.name, it)
        if isinstance(it, Call):
            self.shared.setdefault(it.name, it.body)
        for one in it.parts():
            self.collect(one)

    def declarations(self):
        found = [(f"  variable {name} : {it.width} bits", None) for name, it in self.variables.items()]
        for base, cells in self.arrays.items():
            width = next(iter(cells.values())).width
            found.append((f"  variable {base} : array {len(cells)} of {width} bits", None))
        for name, body in self.shared.items():
            found += [(f"  shared {name} is begin", None), *indented(body.lines(), 4), ("  end", None)]
        return found


def head_of(words):
    """How the source declares a port."""
    name, way, *more = words
    mode = {"sync": "sync", "in": "input", "out": "output"}[way]
    width = f" : {more[0]} bits" if way != "sync" else ""
    return f"{mode} {name}{width}{' passive' if 'passive' in more else ''}"


# ---- structure: procedures side by side --------------------------------------------------------------------------------------


class Network(Part):
    """A part of instances side by side, all of them started by `activate`."""

    def __init__(self, name, about, start="Concur"):
        super().__init__(name, about)
        self.started = []
        self.add(start, [0], self.port("activate", "passive", "sync"), self.started)

    def run(self, procedure, *channels):
        """An instance of a procedure, and what its ports but for `activate` are joined with."""
        self.started.append(self.channel("sync"))
        self.components[0].parameters = [len(self.started)]
        self.place(procedure, self.started[-1], *channels)

    def link(self, width):
        """A channel between a sender and a receiver, both of which begin: where the one pushes, and where the other pulls."""
        push, pull = self.channel("push", width), self.channel("pull", width)
        self.add("PassivatorPush", [width, 1], [pull], push)
        return push, pull

    def meet(self, count=2):
        """A sync channel between several, all of which begin: an end for each."""
        ends = [self.channel("sync") for _ in range(count)]
        self.add("Passivator", [count], ends)
        return ends
