"""Nets that play by the terms of bench/spin, which are read from the table of kinds in docs/LANGUAGE.md: no look at the program.

Values are small: an expression of a term is one of Promela, whose numbers have 32 bits.
"""

import re
import sys
from functools import cache

from .tests import TOP

sys.path.append(f"{TOP}/bench/spin")
import netlist  # noqa: E402
import terms  # noqa: E402

NOTHING = ("seq",)
# The phase that a move wants, and the one that it leaves.
PHASES = {"ask": ("idle", "asked"), "take": ("asked", "taken"), "reply": ("taken", "replied"), "got": ("replied", "idle")}
WORDS = {"offer": "ask", "collect": "got", "accept": "take", "answer": "reply"}


@cache
def expression(text):
    """An expression of Promela as one of Python."""
    text = text.replace("-> 1 : 0", "and 1 or 0").replace("&&", " and ").replace("||", " or ").replace("false", "False")
    return compile(re.sub(r"\s+", " ", text), "term", "eval")


def extended(value, width):
    return value - (1 << width) if value >> (width - 1) & 1 else value


def carries(kind, move):
    """Whether a move on a channel of this kind has a value."""
    return kind == "push" and move in ("ask", "take") or kind == "pull" and move in ("reply", "got")


def in_turn(*parts):
    left = [it for it in parts if it != NOTHING]
    return left[0] if len(left) == 1 else ("seq", *left)


class Process:
    """A component. Its states are numbered as they are met: each is what is left of its term, and the values of its slots."""

    def __init__(self, net, number):
        kind, parameters, entries = net.components[number]
        self.slots = []
        site = terms.Component(kind, parameters, entries, net.channels, self.slot)
        self.channels = list(site.ports.values())
        self.ports = {name: at for at, name in enumerate(site.ports)}
        self.states, self.numbers, self.met = [], {}, {}
        term = terms.term(site)
        slots = dict.fromkeys(self.slots, 0)
        self.start = self.number(self.reached(term, slots), slots)

    def slot(self, name):
        name = name.replace(".", "_")
        if name not in self.slots:
            self.slots.append(name)
        return name

    def number(self, term, slots):
        state = term, tuple(slots.values())
        if state not in self.numbers:
            self.numbers[state] = len(self.states)
            self.states.append(state)
        return self.numbers[state]

    @staticmethod
    def value(text, slots):
        return None if text is None else int(eval(expression(text), {"SX": extended}, slots))

    def reached(self, term, slots):
        """What is left of a term once all is done that is no move."""
        head, *rest = term
        if head == "seq":
            for at, part in enumerate(rest):
                left = self.reached(part, slots)
                if left != NOTHING:
                    return in_turn(left, *rest[at + 1 :])
            return NOTHING
        if head == "par":
            left = [it for it in (self.reached(part, slots) for part in rest) if it != NOTHING]
            return ("par", *left) if left else NOTHING
        if head == "set":
            slots[rest[0]] = self.value(rest[1], slots)
            return NOTHING
        if head == "if":
            return self.reached(rest[1] if self.value(rest[0], slots) else rest[2], slots)
        if head == "while":
            return in_turn(terms.pull(rest[0], rest[1]), ("again", term))
        if head == "again":
            _, guard, slot, body = rest[0]
            holds, slots[slot] = slots[slot], 0
            return self.reached(in_turn(body, rest[0]), slots) if holds else NOTHING
        return term

    def heads(self, term):
        """The moves that can be next, each with what is left then."""
        head, *rest = term
        if head in PHASES:
            yield term, NOTHING
        elif head == "seq" and rest:
            for move, left in self.heads(rest[0]):
                yield move, in_turn(left, *rest[1:])
        elif head == "par":
            for at, part in enumerate(rest):
                for move, left in self.heads(part):
                    yield move, ("par", *rest[:at], left, *rest[at + 1 :])
        elif head == "choice":
            for part in rest:
                yield from self.heads(part)
        elif head == "forever":
            for move, left in self.heads(rest[0]):
                yield move, in_turn(left, term)
        elif head == "while":
            yield from self.heads(in_turn(terms.pull(rest[0], rest[1]), ("again", term)))

    def moves(self, state):
        """The moves that are due, by port: the move, the channel, and what it sends."""
        if state not in self.met:
            term, values = self.states[state]
            slots = dict(zip(self.slots, values))
            found = {}
            for (move, port, value, *_), _left in self.heads(term):
                sent = self.value(value, slots) if move in ("ask", "reply") else None
                found[self.ports[port]] = move, self.channels[self.ports[port]], sent
            self.met[state] = sorted(found.items())
        return self.met[state]

    def after(self, state, port, came):
        """The state after a move at a port, with the value that came."""
        key = state, port, came
        if key not in self.met:
            term, values = self.states[state]
            slots = dict(zip(self.slots, values))
            (move, _, slot, *cleared), left = next(it for it in self.heads(term) if self.ports[it[0][1]] == port)
            if move in ("take", "got") and slot:
                slots[slot] = came
            slots |= dict.fromkeys(cleared, 0)
            self.met[key] = self.number(self.reached(left, slots), slots)
        return self.met[key]


class Net:
    """A net. A state has the numbers of its components' states, and the phase and the value of each channel."""

    def __init__(self, text, part):
        made = netlist.Net(text, part)
        self.ports, self.channels = made.ports, made.channels
        self.processes = [Process(made, number) for number in range(1, len(made.components))]
        self.start = tuple(it.start for it in self.processes), (("idle", None),) * len(self.channels)

    def moves(self, state, comp):
        """The moves of a component that can be made: port, move, channel and value. Components and ports count from 0."""
        comps, phases = state
        for port, (move, channel, value) in self.processes[comp].moves(comps[comp]):
            phase, came = phases[channel]
            if move in ("ask", "reply") or phase == PHASES[move][0]:
                has_value = carries(self.channels[channel][0], move)
                sent = value if move in ("ask", "reply") else came
                yield port, move, channel, sent if has_value else None

    def next_move(self, state, first):
        """The first move of the first component from `first` on that can move, or None."""
        count = len(self.processes)
        for at in range(count):
            comp = (first + at) % count
            for move in self.moves(state, comp):
                return comp, move
        return None

    def moved(self, state, comp, move):
        comps, phases = state
        port, name, channel, value = move
        after = self.processes[comp].after(comps[comp], port, value if name in ("take", "got") else None)
        return (*comps[:comp], after, *comps[comp + 1 :]), self.phases_after(phases, channel, name, value)

    @staticmethod
    def phases_after(phases, channel, name, value):
        left = (PHASES[name][1], value if name in ("ask", "reply") else None)
        return (*phases[:channel], left, *phases[channel + 1 :])

    @staticmethod
    def state_at(state, port):
        """The phase and the value at a port."""
        return state[1][port + 1]

    def would(self, state, verb, port):
        """Whether a word would be done. Ports count from 0, and port 0 is channel 1."""
        return state[1][port + 1][0] == PHASES[WORDS[verb]][0]

    def said(self, state, verb, port, value):
        """The state after a word, and the value that comes."""
        came = state[1][port + 1][1] if carries(self.channels[port + 1][0], WORDS[verb]) and verb in ("collect", "accept") else None
        return (state[0], self.phases_after(state[1], port + 1, WORDS[verb], value)), came

    @staticmethod
    def firing(comp, move):
        """The line of a move in a trace."""
        _, name, channel, value = move
        return " ".join(["w1 fire", str(comp + 1), name, str(channel), *([str(value)] if value is not None else [])])

    def word(self, verb, port, value, came):
        """The line of a word that was done."""
        given = [] if value is None else [str(value)]
        return " ".join(["h1", verb, self.ports[port][0], *given, *(["done"] if came is None else ["value", str(came)])])
