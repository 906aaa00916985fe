"""Which lines of a short trace some run of a small net shows, by a search of all its states.

The processes are those that bench/spin reads from the table of kinds, so none of this is made by the program. A state is a
phase for each channel, and of each component its term and what it keeps. Takes and gots, a host's too, are made in every
order.
"""
import os
import sys

sys.path.insert(0, os.path.join(os.path.dirname(os.path.abspath(__file__)), "../../bench/spin"))
from netlist import Net  # noqa: E402
from terms import Component, term  # noqa: E402

DONE = ("seq",)
PENDING = {"take": "asked", "got": "replied"}


class TooMany(Exception):
    """There are more states than are looked at."""


def sign_extended(value, width):
    return value - (1 << width) if value >> (width - 1) else value


def worth(text, slots):
    """The value of a text of Promela."""
    text = text.replace("-> 1 : 0", "and 1 or 0").replace("&&", " and ").replace("||", " or ").replace("false", "False")
    return int(eval(text, {"SX": sign_extended}, dict(slots)))  # (the texts are those of terms.py)


def settled(it, slots):
    """A term of which all is done that comes without a move."""
    what = it[0]
    if what == "seq":
        for at, one in enumerate(it[1:], 1):
            one = settled(one, slots)
            if one != DONE:
                return ("seq", one, *it[at + 1 :]) if it[at + 1 :] else one
        return DONE
    if what == "par":
        left = tuple(settled(one, slots) for one in it[1:])
        return DONE if all(one == DONE for one in left) else ("par", *left)
    if what == "if":
        return settled(it[2] if worth(it[1], slots) else it[3], slots)
    if what == "while":
        _, guard, slot, body = it
        return ("seq", ("ask", guard, None), ("got", guard, slot), ("if", f"({slot} == 1)", ("seq", body, it), DONE))
    if what == "set":
        slots[it[1]] = worth(it[2], slots)
        return DONE
    return it


def heads(it):
    """The moves that a term can make next, each with what is left."""
    what = it[0]
    if what == "seq":
        for move, left in heads(it[1]) if it[1:] else ():
            yield move, ("seq", left, *it[2:])
    elif what == "par":
        for at, one in enumerate(it[1:], 1):
            for move, left in heads(one):
                yield move, (*it[:at], left, *it[at + 1 :])
    elif what == "choice":
        for one in it[1:]:
            yield from heads(one)
    elif what == "forever":
        for move, left in heads(it[1]):
            yield move, ("seq", left, it)
    else:
        yield it, DONE


def made(state, move, left, value):
    """A component's state after a move with this value."""
    slots = dict(state[1])
    if move[0] in ("take", "got"):
        if move[2] and value is not None:
            slots[move[2]] = value
    elif move[3:]:
        slots[move[3]] = 0
    left = settled(left, slots)
    return left, tuple(sorted(slots.items()))


class Search:
    """The states of a net in which all takes and gots are made in any order, line by line of a short trace."""

    def __init__(self, text, part, most):
        self.net, self.most = Net(text, part), most
        self.comps, opening = [None], []
        for kind, parameters, entries in self.net.components[1:]:
            slots = {}

            def slot(name, slots=slots):
                slots[name] = 0
                return name

            comp = Component(kind, parameters, entries, self.net.channels, slot)
            process = term(comp)
            left = settled(process, slots)
            opening.append((left, tuple(sorted(slots.items()))))
            self.comps.append(comp)
        phases = (None, *(("idle", None) for _ in self.net.channels[1:]))
        self.states = self.closed({(phases, tuple(opening))})

    def closed(self, states):
        """These states, and those that takes and gots lead to."""
        found, todo = set(states), list(states)
        while todo:
            for state in self.noticed(todo.pop()):
                if state not in found:
                    found.add(state)
                    todo.append(state)
                    if len(found) > self.most:
                        raise TooMany
        return found

    def noticed(self, state):
        """The states that a take or a got leads to."""
        phases, comps = state
        for at, comp in enumerate(self.comps[1:]):
            for move, left in heads(comps[at][0]):
                if move[0] in PENDING:
                    chan = comp.ports[move[1]]
                    phase, value = phases[chan]
                    if phase == PENDING[move[0]]:
                        after = ("taken" if move[0] == "take" else "idle", None)
                        yield moved(phases, chan, after), moved(comps, at, made(comps[at], move, left, value))
        for chan, (_, sense) in enumerate(self.net.ports, 1):
            if sense == "active" and phases[chan][0] == "asked":
                yield moved(phases, chan, ("taken", None)), comps
            if sense == "passive" and phases[chan][0] == "replied":
                yield moved(phases, chan, ("idle", None)), comps

    def follow(self, line):
        """Goes on by a line. Whether a run shows it behind those before."""
        words = line.split(" ")
        sent, chan, value = words[0], int(words[1]), int(words[2]) if len(words) > 2 else None
        self.states = self.closed({it for state in self.states for it in self.sent(state, sent, chan, value)})
        return bool(self.states)

    def sent(self, state, sent, chan, value):
        """The states that a request or a reply leads to."""
        phases, comps = state
        if not 0 < chan < len(phases):
            return
        after = moved(phases, chan, ("asked" if sent == "ask" else "replied", value))
        in_turn = phases[chan][0] == ("idle" if sent == "ask" else "taken")
        for at, comp in enumerate(self.comps[1:]):
            for move, left in heads(comps[at][0]):
                if move[0] == sent and comp.ports[move[1]] == chan and self.brings(sent, chan, move, comps[at]) == value:
                    assert in_turn
                    yield after, moved(comps, at, made(comps[at], move, left, value))
        if chan <= len(self.net.ports) and in_turn:
            sense, (form, width) = self.net.ports[chan - 1][1], self.net.channels[chan]
            carries = (sent, form) in (("ask", "push"), ("reply", "pull"))
            if sense == ("passive" if sent == "ask" else "active") and (value is not None) == carries:
                if value is None or value < 1 << width:
                    yield after, comps

    def brings(self, sent, chan, move, comp):
        """The value that a component sends."""
        form, width = self.net.channels[chan]
        if (sent, form) not in (("ask", "push"), ("reply", "pull")):
            return None
        return worth(move[2], comp[1]) & ((1 << width) - 1)


def moved(items, at, one):
    return (*items[:at], one, *items[at + 1 :])


def first_unshown(text, part, short, most):
    """The first line, from 1, up to which no run of the net shows the lines, or None where one shows all."""
    search = Search(text, part, most)
    for number, line in enumerate(short, 1):
        if not search.follow(line):
            return number
    return None
