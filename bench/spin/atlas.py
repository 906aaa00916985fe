#!/usr/bin/env python3
"""atlas.py PROGRAM [KIND ..]: writes tests/data/atlas anew, with the graph of each kind alone and a host at every port.

Each kind has its arrays with one and with two members. Each operation is there with every sign on all values of two bits, and so
are Adapt and Slice. The program tells which kinds there are. It needs Spin and a C compiler, and takes some minutes.
"""
import itertools
import random
import sys

from netlist import Net
from spin import edges_of

# (spin has put tests/ on the path)
from playing.graphs import Graph
from playing.program import Program
from playing.tests import TOP
from random_netlists import SMALL, Netlist, Scale, kinds_of

ATLAS = f"{TOP}/tests/data/atlas"
MOST_STATES = 20000
SIGNS = ["false", "true"]


def alone(kinds, kind, members, variant):
    """A net of one component, and the values that its host has."""
    pick = random.Random(f"{kind} {members} {variant}")
    netlist = Netlist(pick, kinds, Scale(SMALL.widths, [members], [1], joined=0), kind)
    return netlist.part(), pick.choice([(0, 1), (0, 7), (1, 2), (0, 3)])


def kinds_alone(kinds):
    for kind, told in kinds.items():
        for members in (1, 2) if any(port["array"] for port in told["ports"]) else (1,):
            for variant in (1, 2) if told["parameters"] or told["widths"] else (1,):
                yield f"{kind} of {members}, {variant}", *alone(kinds, kind, members, variant)


def function(kind, widths, parameters):
    """A net of a function alone, with its result at port c1."""
    ports = " ".join(f'(port "c{at}" {"passive" if at == 1 else "active"})' for at in range(1, len(widths) + 1))
    channels, entries = " ".join(f"(pull {it})" for it in widths), " ".join(map(str, range(1, len(widths) + 1)))
    component = f'(component "$Brz{kind}" ({parameters}) ({entries}))'
    return f'(breeze-part "p" (ports {ports})\n (channels {channels})\n (components\n  {component}))\n'


def operations(kinds):
    binary, unary = (kinds[kind]["parameters"][0]["of"] for kind in ("BinaryFunc", "UnaryFunc"))
    for operation, a, b in itertools.product(binary, SIGNS, SIGNS):
        name, ending = f"{operation} {a} {b}", f'"{operation}" "false" "{a}" "{b}"'
        yield f"BinaryFunc {name}", function("BinaryFunc", (3, 2, 2), f"3 2 2 {ending}")
        for width, value in ((2, 2), (3, 13)):
            text = function("BinaryFuncConstR", (4, 2), f"4 2 {width} {value} {ending}")
            yield f"BinaryFuncConstR {name} with {value} of {width} bits", text
    for operation, a, out in itertools.product(unary, SIGNS, (1, 2, 4)):
        yield f"UnaryFunc {operation} {a} to {out} bits", function("UnaryFunc", (out, 2), f'{out} 2 "{operation}" "{a}"')
    for a, out in itertools.product(SIGNS, (1, 2, 4)):
        yield f"Adapt {a} to {out} bits", function("Adapt", (out, 2), f'{out} 2 "true" "{a}"')
    for low, out in ((0, 1), (1, 1), (1, 2), (2, 1), (0, 3)):
        yield f"Slice {low} to {out} bits", function("Slice", (out, 3), f"{out} 3 {low}")


def nets(kinds):
    """All nets: the name, which begins with the kind, the netlist and the values."""
    yield from kinds_alone(kinds)
    for name, netlist in operations(kinds):
        yield name, netlist, range(8)


def main(path, *asked):
    kinds = kinds_of(Program(path))
    for kind in asked or kinds:
        found = []
        for name, netlist, values in nets(kinds):
            if name.split(" ")[0] == kind:
                edges = edges_of(Net(netlist.encode(), "p"), values, MOST_STATES)
                found.append(Graph(name, netlist, edges).text())
        with open(f"{ATLAS}/{kind}", "w", encoding="utf-8") as file:
            file.write("".join(found))
        print(kind, len(found), "nets", flush=True)


if __name__ == "__main__":
    main(*sys.argv[1:])
