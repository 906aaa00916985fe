#!/usr/bin/env python3
"""Netlists to measure on, written to standard output.

    netlists.py loops N       N Loops, each driving a Continue, started side by side by Concurs
    netlists.py pipeline N    N one-place buffers in a row, from a Constant to a ContinuePush
    netlists.py array N       a Loop that drives a Concur with N outputs, at most 4096, each to a Continue
    netlists.py large N       a part of N components or a few less, most of them Continues under Sequences
    netlists.py tree N        some 20 small parts, most of them with two instances of the next, N components in all

Each is of the part `bench`, which has one port, `go`.
"""
import sys

MOST_MEMBERS = 4096

# how many outputs a Sequence of a large netlist has
LARGE_MEMBERS = 8


class Netlist:
    """A part as it grows: a channel is known by its number, the first being the port's."""

    def __init__(self):
        self.channels = ["(sync)"]
        self.components = []

    def channel(self, form="(sync)"):
        self.channels.append(form)
        return len(self.channels)

    def component(self, kind, entries, parameters=""):
        written = " ".join(
            "(" + " ".join(map(str, entry)) + ")" if isinstance(entry, list) else str(entry)
            for entry in entries
        )
        self.components.append(f'  (component "$Brz{kind}" ({parameters}) ({written}))')

    def text(self):
        lines = ['(breeze-part "bench"', ' (ports (sync-port "go" passive))', " (channels"]
        lines += ["  " + form for form in self.channels]
        lines += [" )", " (components", *self.components, " ))"]
        return "\n".join(lines) + "\n"


def start(net, activate, count):
    """Channels that are all activated by one, through as few layers of Concurs as do."""
    if count <= MOST_MEMBERS:
        outs = [net.channel() for _ in range(count)]
        net.component("Concur", [activate, outs], str(count))
        return outs
    layers = -(-count // MOST_MEMBERS)
    share, more = divmod(count, layers)
    outs = []
    for place, above in enumerate(start(net, activate, layers)):
        outs += start(net, above, share + (place < more))
    return outs


def loops(count):
    net = Netlist()
    for activate in start(net, 1, count):
        out = net.channel()
        net.component("Loop", [activate, out])
        net.component("Continue", [out])
    return net


def pipeline(count):
    net = Netlist()
    starts = start(net, 1, count)
    source = net.channel("(pull 8)")
    net.component("Constant", [source], "8 165")
    for place, activate in enumerate(starts):
        again, first, second = (net.channel() for _ in range(3))
        write, read, out = (net.channel(form) for form in ("(push 8)", "(pull 8)", "(push 8)"))
        net.component("Loop", [activate, again])
        net.component("Sequence", [again, [first, second]], "2")
        net.component("Fetch", [first, source, write], "8")
        net.component("Variable", [write, [read]], '8 1 "x" ""')
        net.component("Fetch", [second, read, out], "8")
        if place + 1 == count:
            net.component("ContinuePush", [out], "8")
        else:
            source = net.channel("(pull 8)")
            net.component("PassivatorPush", [[source], out], "1 8")
    return net


def array(count):
    net = Netlist()
    again = net.channel()
    net.component("Loop", [1, again])
    for out in start(net, again, count):
        net.component("Continue", [out])
    return net


def large(count):
    net = Netlist()
    waiting = [1]
    while len(net.components) + len(waiting) + LARGE_MEMBERS <= count:
        activate = waiting.pop(0)
        outs = [net.channel() for _ in range(LARGE_MEMBERS)]
        net.component("Sequence", [activate, outs], str(LARGE_MEMBERS))
        waiting += outs
    for activate in waiting:
        net.component("Continue", [activate])
    return net


class Tree:
    """A part `bench` with a Continue at its port, and below it parts with two instances of the next, down to one component."""

    def __init__(self, count):
        self.parts = [part("bench", "(sync-port \"go\" passive)", ["(component \"$BrzContinue\" () (1))", instance(0)])]
        left = count - 1
        while left > 1:
            inner = [instance(len(self.parts))] * 2 + [KNOT] * (left % 2)
            self.parts.append(part(f"p{len(self.parts) - 1}", "", inner))
            left //= 2
        self.parts.append(part(f"p{len(self.parts) - 1}", "", [KNOT]))

    def text(self):
        return "".join(self.parts)


# a component with both ends of the one channel
KNOT = '(component "$BrzSequence" () (1 (1)))'


def instance(place):
    return f'(component "p{place}" () ())'


def part(name, ports, components):
    return f'(breeze-part "{name}" (ports {ports}) (channels (sync)) (components {" ".join(components)}))\n'


def main():
    shapes = {"loops": loops, "pipeline": pipeline, "array": array, "large": large, "tree": Tree}
    if len(sys.argv) != 3 or sys.argv[1] not in shapes:
        sys.exit(__doc__)
    sys.stdout.write(shapes[sys.argv[1]](int(sys.argv[2])).text())


if __name__ == "__main__":
    main()
