"""Graphs of states of small nets, as a model checker found them, and the walk of `explore` through all edges of one.

A file of graphs has for each a line `net NAME`, the netlist two blanks in, and its edges: the state from which, what happens,
the state to which. States count from 0. What happens is a move, as `fire COMPONENT PORT MOVE CHANNEL VALUE`, or a word of the
host, as `offer PORT VALUE`.
"""

import collections
import re
import tempfile

# What tells where the answers to one step end: a line to type, and how its answer begins.
MARK, MARKED = "help quit", "quit "
MOVE = re.compile(r"^(fire \d+ \d+) +((?:take|got|ask|reply) \d+(?: \d+)?)(?= )")
WORD = re.compile(r"^(offer|collect|accept|answer):([^:\s]+)(?::V)?\s")


class Graph:
    """A graph: its name, the netlist and the part, and of each state where each label leads."""

    def __init__(self, name, netlist, edges, part="p", components=1):
        self.name, self.netlist, self.edges, self.part, self.components = name, netlist, edges, part, components

    def text(self):
        lines = [f"net {self.name}", *(f"  {line}" for line in self.netlist.splitlines())]
        lines += [f"{state} {label} {to}" for state in sorted(self.edges) for label, to in self.edges[state].items()]
        return "\n".join(lines) + "\n"


def graphs_of(text):
    """The graphs of a file."""
    found = []
    for line in text.splitlines():
        if line.startswith("net "):
            found.append(Graph(line.removeprefix("net "), "", {0: {}}))
        elif line.startswith("  "):
            found[-1].netlist += f"{line[2:]}\n"
        else:
            state, _, rest = line.partition(" ")
            label, _, to = rest.rpartition(" ")
            found[-1].edges.setdefault(int(state), {})[label] = int(to)
            found[-1].edges.setdefault(int(to), {})
    return found


def command(label):
    """The line of `explore` that does what a label says."""
    head, *items = label.split(" ")
    if head == "fire":
        return " ".join(["fire", *items[:2]])
    return ":".join([head, *(items if head in ("offer", "answer") else items[:1])])


def entry(label):
    """The line of a trace that has what a label says."""
    head, *items = label.split(" ")
    if head == "fire":
        return " ".join(["w1 fire", items[0], *items[2:]])
    is_value = len(items) > 1 and head in ("collect", "accept")
    return " ".join(["h1", head, items[0], *(["value", items[1]] if is_value else [*items[1:], "done"])])


def first_edges(edges):
    """The edge by which each state is first reached on a shortest way."""
    found, queue = {0: None}, collections.deque([0])
    while queue:
        state = queue.popleft()
        for label, to in edges[state].items():
            if to not in found:
                found[to] = (state, label)
                queue.append(to)
    return found


def walk(edges):
    """Goes along each edge once. Yields how many commands are to be taken back, the label, and the state that it leads to."""
    first, back, way = first_edges(edges), 0, [(0, iter(edges[0].items()))]
    while way:
        state, rest = way[-1]
        label, to = next(rest, (None, None))
        if label is None:
            way.pop()
            back += 1
            continue
        yield back, label, to
        back = 0 if first[to] == (state, label) else 1
        if not back:
            way.append((to, iter(edges[to].items())))


def session(graph):
    """The lines that go through the graph."""
    look = ["moves", *(f"state {it}" for it in range(1, graph.components + 1)), MARK]
    lines = list(look)
    for back, label, _ in walk(graph.edges):
        lines += [f"undo {back}"] * (back > 0) + [command(label), *look]
    return lines


def chunks(lines):
    """The answers to each step."""
    found = []
    for line in lines:
        if line.startswith(MARKED):
            yield found
            found = []
        else:
            found.append(line)


def moves_of(lines):
    """The moves and the words of the host in these lines, without the values of words."""
    found = set()
    for line in lines:
        move, word = MOVE.match(line), WORD.match(line)
        if move:
            found.add(f"{move[1]} {move[2]}")
        if word:
            found.add(f"{word[1]} {word[2]}")
    return found


def moves_from(labels):
    """The same of the labels that leave a state."""
    return {label if label.startswith("fire ") else " ".join(label.split(" ")[:2]) for label in labels}


class Walk:
    """What `explore` answered along the way, compared with the graph."""

    def __init__(self, graph):
        self.graph, self.views = graph, {}

    def fault(self, label, state, lines):
        """What is wrong with the answers to a label that leads to a state, or None. The opening has no label."""
        lines = [it for it in lines if not it.startswith("undone: ")]
        if label is not None:
            if lines[:1] != [entry(label)]:
                return f"{lines[:1]} in place of {entry(label)!r}"
            lines = lines[1:]
        found, wanted = moves_of(lines), moves_from(self.graph.edges[state])
        if found != wanted:
            return f"the moves {sorted(found - wanted)} in place of {sorted(wanted - found)}"
        if self.views.setdefault(state, lines) != lines:
            return f"{lines} in place of what another way to this state leads to, {self.views[state]}"
        return None


def walk_differs(program, graph):
    """What `explore` answers otherwise than the graph has it, the first of it, or None."""
    with tempfile.NamedTemporaryFile("w", suffix=".breeze") as file:
        file.write(graph.netlist)
        file.flush()
        words = ["explore", "--part", graph.part, "--netlist", file.name]
        ran = program.run(words, "".join(f"{it}\n" for it in session(graph)).encode())
    if ran.status or ran.errors:
        return f"status {ran.status} {ran.errors!r} {ran.output[-200:]!r}"
    compared, answers = Walk(graph), list(chunks(ran.output.decode().splitlines()))
    steps = [(None, 0), *((label, to) for _, label, to in walk(graph.edges))]
    for (label, state), lines in zip(steps, answers):
        fault = compared.fault(label, state, lines)
        if fault:
            return f"state {state}, after {label or 'the opening'}: {fault}"
    return None if len(steps) == len(answers) else f"{len(answers)} answers in place of {len(steps)}"
