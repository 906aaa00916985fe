"""Calls Spin and the C compiler: the whole graph of states of a net, and searches."""
import os
import re
import subprocess
import sys
import tempfile

from promela import model

sys.dont_write_bytecode = True
sys.path.insert(0, os.path.join(os.path.dirname(os.path.realpath(__file__)), "../../tests"))

# How the verifier is made to print each state that it comes to. (-o2: else variables that are only written are left out.)
WHOLE = ["-O0", "-DNOREDUCE", "-DPRINTF", "-DVERBOSE", "-DSAFETY", "-DVECTORSZ=4096"]
PRINTED = re.compile(r"@(.*)|\t(New|Old|Stack) state (\d+)|\d+: (Up) - program|\s*(\d+) (states, stored|transitions)")


class TooLarge(Exception):
    pass


def make_verifier(text, room, options):
    """Makes the verifier of a model in a folder."""
    with open(f"{room}/model", "w", encoding="utf-8") as file:
        file.write(text)
    for call in (["spin", "-o1", "-o2", "-o3", "-a", "model"], ["cc", "-w", *options, "-o", "pan", "pan.c"]):
        subprocess.run(call, cwd=room, stdout=subprocess.PIPE, stderr=subprocess.STDOUT, check=True)


def edges_of(net, values, most):
    """The graph of a net: of each state where each label leads. States count from 0."""
    with tempfile.TemporaryDirectory() as room:
        make_verifier(model(net, values), room, WHOLE)
        call = ["./pan", "-c0", "-m100000", "-n"]
        with subprocess.Popen(call, cwd=room, stdout=subprocess.PIPE, text=True, errors="replace") as run:
            try:
                return read_graph(run.stdout, net, most)
            finally:
                run.kill()


def read_graph(lines, net, most):
    """The graph by what the verifier prints. Its own counts have to be those of the graph."""
    edges, way, label, counts = {}, [], None, {}
    for line in lines:
        found = PRINTED.match(line)
        if line.startswith("error: max search depth"):
            raise TooLarge("depth")
        if not found:
            continue
        said, _, state, up, count, what = found.groups()
        if said:
            label = label_of(net, said)
        elif state:
            to = int(state)
            edges.setdefault(to, {})
            # (one label leads to one state)
            if way and edges[way[-1]].setdefault(label, to) != to:
                raise ValueError(f"{label} leads from {way[-1]} to {to} and {edges[way[-1]][label]}")
            way.append(to)
            if len(edges) > most:
                raise TooLarge(f"more than {most} states")
        elif up:
            way.pop()
        elif count:
            counts[what] = int(count)
    # (Spin counts the opening as a transition)
    if counts != {"states, stored": len(edges), "transitions": sum(map(len, edges.values())) + 1}:
        raise ValueError(f"Spin counts {counts}, and {len(edges)} states were read")
    return edges


def label_of(net, said):
    """A label by what a step printed: with names of ports in place of their channels."""
    head, *items = said.split()
    if head != "fire":
        items[0] = net.ports[int(items[0]) - 1][0]
    return " ".join([head, *items])
