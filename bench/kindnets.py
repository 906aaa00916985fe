#!/usr/bin/env python3
"""Small endless netlists, each about one family of kinds, written to standard output.

    kindnets.py KIND      of those that `kindnets.py` lists, where no kind is given

Each is of the part `bench`, which has one port, `go`.
"""
import sys

sys.dont_write_bytecode = True
from netlists import Netlist

NETS = {}


def net(made):
    """Lists a net by its name."""
    NETS[made.__name__] = made
    return made


class Looped(Netlist):
    """A part in which a Loop asks again and again on the channel `again`."""

    def __init__(self):
        super().__init__()
        self.again = self.channel()
        self.component("Loop", [1, self.again])

    def constant(self, value, width=8):
        out = self.channel(f"(pull {width})")
        self.component("Constant", [out], f"{width} {value}")
        return out

    def fetch(self, activate, source, width=8):
        """A Fetch from a channel; and the channel into which it puts."""
        out = self.channel(f"(push {width})")
        self.component("Fetch", [activate, source, out], str(width))
        return out

    def fetch_away(self, source, width=8):
        """The part, in which the Loop fetches from a channel, and what comes is let go."""
        return self.let_go(self.fetch(self.again, source, width), width)

    def let_go(self, chan, width=8):
        self.component("ContinuePush", [chan], str(width))
        return self

    def ended(self, chans):
        for chan in chans:
            self.component("Continue", [chan])
        return self

    def driven(self, kind, count=2):
        """The outputs of a component that the Loop drives."""
        outs = [self.channel() for _ in range(count)]
        self.component(kind, [self.again, outs], str(count))
        return outs

    def function(self, kind, parameters, inputs, width=8):
        """The part, in which the Loop fetches from a function of inputs."""
        out = self.channel(f"(pull {width})")
        self.component(kind, [out, *inputs], parameters)
        return self.fetch_away(out, width)


@net
def binaryfunc():
    part = Looped()
    inputs = [part.constant(200), part.constant(100)]
    return part.function("BinaryFunc", '8 8 8 "Add" "false" "false" "false"', inputs)


@net
def constr():
    part = Looped()
    return part.function("BinaryFuncConstR", '8 8 8 3 "Subtract" "false" "false" "false"', [part.constant(200)])


@net
def unary():
    part = Looped()
    return part.function("UnaryFunc", '8 8 "Negate" "false"', [part.constant(200)])


@net
def adapt():
    part = Looped()
    return part.function("Adapt", '16 8 "true" "true"', [part.constant(200)], 16)


@net
def combine():
    part = Looped()
    return part.function("Combine", "8 4 4", [part.constant(5, 4), part.constant(10, 4)])


@net
def whiles():
    part = Looped()
    guard, body = part.constant(1, 1), part.channel()
    part.component("While", [part.again, guard, body])
    return part.ended([body])


@net
def case2():
    part = Looped()
    chosen = part.fetch(part.again, part.constant(1, 1), 1)
    outs = [part.channel() for _ in range(2)]
    part.component("Case", [chosen, outs], '1 2 "0;1"')
    return part.ended(outs)


@net
def call2():
    part = Looped()
    ins, out = part.driven("Sequence"), part.channel()
    part.component("Call", [ins, out], "2")
    return part.ended([out])


@net
def callmux2():
    part = Looped()
    ins = [part.fetch(activate, part.constant(place + 1)) for place, activate in enumerate(part.driven("Sequence"))]
    out = part.channel("(push 8)")
    part.component("CallMux", [ins, out], "8 2")
    return part.let_go(out)


@net
def passivator():
    part = Looped()
    part.component("Passivator", [part.driven("Concur")], "2")
    return part


@net
def synch():
    part = Looped()
    ins, out = part.driven("Concur"), part.channel()
    part.component("Synch", [ins, out], "2")
    return part.ended([out])


def two_loops():
    """A part with two Loops side by side, and the channels on which they ask."""
    part = Netlist()
    starts, asks = ([part.channel() for _ in range(2)] for _ in range(2))
    part.component("Concur", [1, starts], "2")
    for activate, ask in zip(starts, asks):
        part.component("Loop", [activate, ask])
    return part, asks


@net
def arbiter():
    part, asks = two_loops()
    outs = [part.channel() for _ in range(2)]
    part.component("Arbiter", [*asks, *outs])
    for out in outs:
        part.component("Continue", [out])
    return part


@net
def decisionwait():
    part, (activate, ask) = two_loops()
    out = part.channel()
    part.component("DecisionWait", [activate, [ask], [out]], "1")
    part.component("Continue", [out])
    return part


@net
def falsevariable():
    part = Looped()
    written, signal, read = part.fetch(part.again, part.constant(7)), part.channel(), part.channel("(pull 8)")
    part.component("FalseVariable", [written, signal, [read]], '8 1 "x" ""')
    return part.let_go(part.fetch(signal, read))


@net
def split():
    part = Looped()
    whole = part.fetch(part.again, part.constant(165))
    low, high = part.channel("(push 4)"), part.channel("(push 4)")
    part.component("Split", [whole, low, high], "8 4 4")
    return part.let_go(low, 4).let_go(high, 4)


@net
def concur2():
    part = Looped()
    return part.ended(part.driven("Concur"))


@net
def sequence2():
    part = Looped()
    return part.ended(part.driven("Sequence"))


def main():
    if len(sys.argv) == 1:
        print("\n".join(NETS))
    elif len(sys.argv) == 2 and sys.argv[1] in NETS:
        sys.stdout.write(NETS[sys.argv[1]]().text())
    else:
        sys.exit(__doc__)


if __name__ == "__main__":
    main()
