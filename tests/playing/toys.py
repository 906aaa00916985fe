"""Programs of the toy language, made at random: one process, or two that meet at a channel."""

from .toy import COMPARISONS, OPERATIONS, Assign, AtOnce, If, InOrder, Number, Operation, Program, Receive, Send, Skip, Variable, While

WIDTHS = [4, 8, 16]
# How deep expressions and statements are nested at most.
DEEPEST = 2


class Maker:
    """Makes what one process does, with variables and ports of its own. The last variable counts the turns of loops."""

    def __init__(self, random, variables, inputs, outputs):
        self.random, self.variables, self.inputs, self.outputs = random, variables, inputs, outputs

    def expression(self, depth=0):
        kind = self.random.random()
        if depth > DEEPEST or kind < 0.3:
            return Variable(self.random.choice(self.variables))
        if kind < 0.5:
            return Number(self.random.randrange(20))
        return Operation(self.random.choice(list(OPERATIONS)), self.expression(depth + 1), self.expression(depth + 1))

    def guard(self):
        return Operation(self.random.choice(list(COMPARISONS)), self.expression(DEEPEST), self.expression(DEEPEST))

    def block(self, depth=0, written=None):
        written = written or self.variables
        return InOrder(tuple(self.statement(depth, written) for _ in range(self.random.randrange(2, 5))))

    def statement(self, depth, written):
        """One that writes these variables alone."""
        kind, pick = self.random.random(), self.random.choice
        if kind < 0.35:
            return Assign(pick(written), self.expression())
        if kind < 0.5:
            return Receive(pick(written), pick(self.inputs))
        if kind < 0.7:
            return Send(pick(self.outputs), self.expression())
        if kind < 0.85 and depth < DEEPEST:
            return If(self.guard(), self.block(depth + 1, written), self.block(depth + 1, written))
        if kind < 0.92 and depth < DEEPEST and len(written) > 1:
            return self.loop(depth, written)
        return Skip()

    def loop(self, depth, written):
        """A few turns, which the last of these variables counts."""
        count = written[-1]
        less = Assign(count, Operation("-", Variable(count), Number(1)))
        turn = InOrder((*self.block(depth + 1, written[:-1]).parts, less))
        begin = Assign(count, Number(self.random.randrange(1, 5)))
        return InOrder((begin, While(Operation(">", Variable(count), Number(0)), turn)))


def program(random):
    width = random.choice(WIDTHS)
    # (the counts of loops have a width of their own)
    names = {it: width for it in "xyuv"} | {it: random.choice(WIDTHS) for it in "nm"}
    inputs, outputs = dict.fromkeys("ab", width), dict.fromkeys("gh", width)
    if random.random() < 0.5:
        body = alone(random)
        return Program(inputs, outputs, {it: names[it] for it in "xyn"}, {}, body)
    return Program(inputs, outputs, names, {"c": width}, two(random))


def alone(random):
    block = Maker(random, ["x", "y", "n"], ["a", "b"], ["g", "h"]).block()
    last = Operation("^", Operation("+", Variable("x"), Variable("y")), Variable("n"))
    return InOrder((Receive("x", "a"), Receive("y", "b"), *block.parts, Send("g", last), Send("h", Variable("y"))))


def two(random):
    first = Maker(random, ["x", "y", "n"], ["a"], ["g", "c"]).block()
    second = Maker(random, ["u", "v", "m"], ["b", "c"], ["h"]).block()
    left = Operation("+", Operation("^", Variable("x"), Variable("y")), Variable("n"))
    right = Operation("^", Operation("+", Variable("u"), Variable("v")), Variable("m"))
    sends = InOrder((Receive("x", "a"), Send("c", Variable("x")), *first.parts, Send("g", left), Assign("y", Variable("x"))))
    receives = InOrder((Receive("u", "c"), Send("h", Variable("u")), *second.parts, Receive("v", "b"), Send("h", right)))
    return AtOnce((sends, receives))
