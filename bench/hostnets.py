#!/usr/bin/env python3
"""Netlists of one large component that is asked again and again, written to standard output.

    hostnets.py call N          a Loop drives a Sequence, whose N outputs are the N inputs of one Call, before a Continue
    hostnets.py case N          a Loop fetches N - 1 into a Case of N sets, each before a Continue
    hostnets.py concur N        a Loop drives a Concur with N outputs, each before a Continue
    hostnets.py sequence N      the same with a Sequence
    hostnets.py passivator N    a Loop drives a Concur, whose N outputs are the inputs of one Passivator
    hostnets.py clashes N       N Calls of two inputs, both asked at once, the last in the text first

Each is of the part `bench`, which has one port, `go`. N is at most 4096, but for clashes.
"""
import sys

sys.dont_write_bytecode = True
from netlists import Netlist, start


def looped(kind, count):
    """A Loop that drives a component with so many outputs; and these outputs."""
    net = Netlist()
    again = net.channel()
    outs = [net.channel() for _ in range(count)]
    net.component("Loop", [1, again])
    net.component(kind, [again, outs], str(count))
    return net, outs


def ended(net, outs):
    """The net with a Continue at each of these channels."""
    for out in outs:
        net.component("Continue", [out])
    return net


def call(count):
    net, outs = looped("Sequence", count)
    last = net.channel()
    net.component("Call", [outs, last], str(count))
    return ended(net, [last])


def case(count):
    net = Netlist()
    width = max(1, (count - 1).bit_length())
    again = net.channel()
    source, chosen = net.channel(f"(pull {width})"), net.channel(f"(push {width})")
    outs = [net.channel() for _ in range(count)]
    net.component("Loop", [1, again])
    net.component("Constant", [source], f"{width} {count - 1}")
    net.component("Fetch", [again, source, chosen], str(width))
    sets = ";".join(map(str, range(count)))
    net.component("Case", [chosen, outs], f'{width} {count} "{sets}"')
    return ended(net, outs)


def concur(count):
    return ended(*looped("Concur", count))


def sequence(count):
    return ended(*looped("Sequence", count))


def passivator(count):
    net, outs = looped("Concur", count)
    net.component("Passivator", [outs], str(count))
    return net


def clashes(count):
    net = Netlist()
    outs = start(net, 1, 2 * count)
    lasts = [net.channel() for _ in range(count)]
    for place in reversed(range(count)):
        net.component("Call", [outs[2 * place:2 * place + 2], lasts[place]], "2")
    return ended(net, lasts)


SHAPES = {it.__name__: it for it in (call, case, concur, sequence, passivator, clashes)}


def main():
    if len(sys.argv) != 3 or sys.argv[1] not in SHAPES or not sys.argv[2].isdigit() or int(sys.argv[2]) < 1:
        sys.exit(__doc__)
    sys.stdout.write(SHAPES[sys.argv[1]](int(sys.argv[2])).text())


if __name__ == "__main__":
    main()
