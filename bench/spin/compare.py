#!/usr/bin/env python3
"""Compares nets in Spin and in a program: compare.py PROGRAM (NETLIST PART [VALUES] | random FIRST LAST)

`explore` goes along each edge of Spin's graph, as tests/atlas does. `random` makes a small net for each number, round a
component of each kind in turn, and leaves out those that have more than 3,000 states. It needs Spin and a C compiler.
"""
import os
import random
import sys

from netlist import Net
from spin import TooLarge, edges_of

# (spin has put tests/ on the path)
from playing.graphs import Graph, walk_differs
from playing.program import Program
from random_netlists import SMALL, Netlist, kinds_of

MOST_STATES = 20000
FEW_STATES = 3000


def compared(program, name, text, part, values, most):
    """What differs, if anything does, and how many states and edges there are."""
    net = Net(text.encode(), part)
    edges = edges_of(net, values, most)
    graph = Graph(name, text, edges, part, len(net.components) - 1)
    return walk_differs(program, graph), len(edges), sum(map(len, edges.values()))


def random_net(kinds, number):
    """A small net round a component of a kind, and the values of its host."""
    pick = random.Random(number)
    netlist = Netlist(pick, kinds, SMALL, list(kinds)[number % len(kinds)]).part()
    return netlist, pick.choice([(0, 1), (0, 1), (0, 7), (1, 2), (3,)])


def compare_random(program, numbers):
    kinds, nets, large, states, edges, faults = kinds_of(program), 0, 0, 0, 0, 0
    for number in numbers:
        netlist, values = random_net(kinds, number)
        try:
            fault, more, steps = compared(program, str(number), netlist, "p", values, FEW_STATES)
        except TooLarge:
            large += 1
            continue
        nets, states, edges, faults = nets + 1, states + more, edges + steps, faults + (fault is not None)
        if fault:
            print(f"{number}: {fault}\n{netlist}", flush=True)
    print(f"{nets} nets, {large} too large, {states} states, {edges} transitions, {faults} differ")
    return not faults


def main(path, first, second, *more):
    program = Program(path)
    if first == "random":
        return compare_random(program, range(int(second), int(more[0])))
    with open(first, encoding="latin-1") as file:
        text = file.read()
    values = [int(it) for it in (more[0] if more else "0,1").split(",")]
    fault, states, edges = compared(program, os.path.basename(first), text, second, values, MOST_STATES)
    print(fault or f"{states} states, {edges} transitions, nothing differs")
    return not fault


if __name__ == "__main__":
    sys.exit(0 if main(*sys.argv[1:]) else 1)
