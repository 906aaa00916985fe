#!/usr/bin/env python3
"""A net as a Promela model: a proctype for each component, which offers the moves of its process as atomic guarded steps.

    promela.py NETLIST PART [--values 0,1] > MODEL

Each channel has a phase ph[c] and a value va[c]. Each place in a component's term where it waits has a number, and the `pc` of
the thread says where it is. What a move reaches is decided in that move, so no step is silent. Each step prints what it was, as
`@fire COMPONENT PORT MOVE CHANNEL VALUE` or `@offer CHANNEL VALUE`. The host is free: at each port it does what the phase
allows, with each of the values.
"""
import argparse

import terms
from netlist import Net

PHASES = "IDLE ASKED TAKEN REPLIED BROKEN".split()


class Process:
    """A component as a proctype. Effects are what a step does: ("set", name, value), ("if", condition, effects, effects),
    ("again", macro) and ("say", port, move, channel, value)."""

    def __init__(self, net, number):
        self.net, self.number = net, number
        kind, parameters, entries = net.components[number]
        self.slots, self.counters, self.lefts, self.moves, self.macros = [], [], [], [], []
        site = terms.Component(kind, parameters, entries, net.channels, self.slot)
        self.kind, self.ports = kind, site.ports
        self.at = {name: at for at, name in enumerate(self.ports, 1)}
        self.start = self.reached(terms.term(site), self.thread(), [])

    def slot(self, name):
        full = f"s{self.number}_{name}"
        if full not in self.slots:
            self.slots.append(full)
        return full

    def thread(self):
        """A thread: the name of its counter, and how many places it has so far."""
        self.counters.append(f"pc{self.number}_{len(self.counters)}")
        return [self.counters[-1], 0]

    def reached(self, term, thread, then, place=None):
        """The effects of reaching a term, whose end has the effects `then`. Its moves are added. `place` is where the thread
        waits for its first move, if that has a number."""
        return getattr(self, f"reach_{term[0]}", self.reach_move)(term, thread, then, place)

    def reach_move(self, term, thread, then, place):
        if place is None:
            thread[1] += 1
            place = thread[1]
        self.move(term, thread[0], place, then)
        return [("set", thread[0], str(place))]

    def reach_seq(self, term, thread, then, place):
        for at in range(len(term) - 1, 0, -1):
            then = self.reached(term[at], thread, then, place if at == 1 else None)
        return then

    def reach_par(self, term, thread, then, _place):
        if len(term) == 2:
            return self.reached(term[1], thread, then)
        left = f"left{self.number}_{len(self.lefts)}"
        self.lefts.append(left)
        ends = [("set", left, f"{left} - 1"), ("if", f"{left} == 0", then, [])]
        return [("set", left, str(len(term) - 1))] + [it for one in term[1:] for it in self.reached(one, self.thread(), ends)]

    def reach_choice(self, term, thread, then, _place):
        thread[1] += 1
        here = thread[1]
        for one in term[1:]:
            self.reached(one, thread, then, here)
        return [("set", thread[0], str(here))]

    def macro(self):
        """A name for effects that reach themselves, with the effects, which are still to come."""
        self.macros.append([f"AGAIN{self.number}_{len(self.macros)}", None])
        return self.macros[-1]

    def reach_forever(self, term, thread, _then, _place):
        macro = self.macro()
        macro[1] = self.reached(term[1], thread, [("again", macro[0])])
        return macro[1]

    def reach_while(self, term, thread, then, _place):
        _, guard, slot, body = term
        macro = self.macro()
        again = self.reached(body, thread, [("again", macro[0])])
        ends = [("if", f"{slot} == 1", [("set", slot, "0"), *again], [("set", slot, "0"), *then])]
        macro[1] = self.reached(terms.pull(guard, slot), thread, ends)
        return macro[1]

    def reach_if(self, term, thread, then, _place):
        return [("if", term[1], self.reached(term[2], thread, then), self.reached(term[3], thread, then))]

    def reach_set(self, term, _thread, then, _place):
        return [term, *then]

    def move(self, term, counter, place, then):
        """Adds a move, which the thread waits for at a place."""
        move, port, slot, *cleared = term
        channel = self.ports[port]
        kind = self.net.channels[channel][0]
        carries = (move in ("ask", "take") and kind == "push") or (move in ("reply", "got") and kind == "pull")
        said = ("say", self.at[port], move, channel, f"va[{channel}]" if carries else None)
        guards, effects = [f"{counter} == {place}"], [("set", counter, "0")]
        if move in ("take", "got"):
            before, after = ("ASKED", "TAKEN") if move == "take" else ("REPLIED", "IDLE")
            guards.append(f"ph[{channel}] == {before}")
            effects += [said, ("set", f"ph[{channel}]", after)]
            if carries:
                effects += [("set", it, f"va[{channel}]") for it in [slot] if it] + [("set", f"va[{channel}]", "0")]
        else:
            before, after = ("IDLE", "ASKED") if move == "ask" else ("TAKEN", "REPLIED")
            effects.append(("set", f"ph[{channel}]", f"(ph[{channel}] == {before} -> {after} : BROKEN)"))
            effects += [("set", f"va[{channel}]", slot)] * carries + [said]
        self.moves.append((guards, [*effects, *(("set", it, "0") for it in cleared), *then]))

    def text_of(self, effects):
        return "; ".join(map(self.effect_text, effects))

    def effect_text(self, effect):
        head, *rest = effect
        if head == "set":
            return f"{rest[0]} = {rest[1]}"
        if head == "again":
            return rest[0]
        if head == "if":
            yes, no = (self.text_of(it) or "skip" for it in rest[1:])
            return f"if :: {rest[0]} -> {yes} :: else -> {no} fi"
        port, move, channel, value = rest
        ending = f' %d\\n", {value}' if value else '\\n"'
        return f'printf("@fire {self.number} {port} {move} {channel}{ending})'

    def lines(self):
        lines = [f"#define {name} {self.text_of(effects) or 'skip'}" for name, effects in self.macros]
        lines += [f"active proctype C{self.number}_{self.kind}() {{", "  do"]
        for guards, effects in self.moves:
            lines.append(f"  :: d_step {{ ({' && '.join(guards)}) -> {self.text_of(effects)} }}")
        return [*lines, "  od }"]

    def declarations(self):
        """The variables, each with what it is at first. A start decides nothing, so its effects are values."""
        values = {name: value for _, name, value in self.start}
        body = "\n".join(self.lines())
        lines = [f"byte {it} = {values.get(it, '0')};" for it in self.counters + self.lefts]
        return lines + [f"int {it};" for it in self.slots if it in body]


def host_steps(net, values):
    """What a host may do at each port."""
    steps = []
    for channel, (_, sense) in enumerate(net.ports, 1):
        kind, width = net.channels[channel]
        given = sorted({it & ((1 << width) - 1) for it in values})
        first, last = ("offer", "collect") if sense == "passive" else ("accept", "answer")
        gives, gets = (first, last) if sense == "passive" else (last, first)
        carried = given if kind == ("push" if sense == "passive" else "pull") else [None]
        gives_phases, gets_phases = (("IDLE", "ASKED"), ("REPLIED", "IDLE"))
        if sense == "active":
            gives_phases, gets_phases = (("TAKEN", "REPLIED"), ("ASKED", "TAKEN"))
        for value in carried:
            steps.append(give_step(channel, gives, *gives_phases, value))
        steps.append(get_step(channel, gets, *gets_phases, kind == ("pull" if sense == "passive" else "push")))
    return steps


def give_step(channel, verb, before, after, value):
    word, stored = f"@{verb} {channel}", ""
    if value is not None:
        word, stored = f"{word} {value}", f"va[{channel}] = {value}; "
    return f'd_step {{ (ph[{channel}] == {before}) -> ph[{channel}] = {after}; {stored}printf("{word}\\n") }}'


def get_step(channel, verb, before, after, carries):
    said = f'printf("@{verb} {channel}\\n")'
    if carries:
        said = f'printf("@{verb} {channel} %d\\n", va[{channel}]); va[{channel}] = 0'
    return f"d_step {{ (ph[{channel}] == {before}) -> {said}; ph[{channel}] = {after} }}"


def watcher(net):
    """A proctype that fails where two callers are at a mixer at once."""
    steps = []
    for number, (kind, _, entries) in enumerate(net.components[1:], 1):
        callers = next((it for it in entries if isinstance(it, list)), []) if kind in terms.MIXERS else []
        for at, a in enumerate(callers):
            for b in callers[at + 1 :]:
                both = f"ph[{a}] != IDLE && ph[{b}] != IDLE"
                steps.append(f'  :: d_step {{ ({both}) -> printf("@clash {number}\\n"); assert(false) }}')
    return ["active proctype Watch() {", "  do", *steps, "  od }"] if steps else []


def model(net, values=(0, 1), has_watch=False):
    processes = [Process(net, number) for number in range(1, len(net.components))]
    lines = [f"#define {name} {at}" for at, name in enumerate(PHASES)]
    lines += ["#define SX(v,w) (((v) >> ((w)-1)) & 1 -> (v) - (1 << (w)) : (v))", "#define UX(v,w) (v)"]
    size = max(len(net.channels), 2)
    lines += [f"byte ph[{size}];", f"int va[{size}];"]
    for it in processes:
        lines += it.declarations()
    for it in processes:
        lines += ["", *it.lines()]
    steps = [f"  :: {it}" for it in host_steps(net, values)]
    lines += ["", "active proctype Host() {", *(["  do", *steps, "  od"] if steps else ["  (false)"]), "}"]
    return "\n".join(lines + (watcher(net) if has_watch else [])) + "\n"


def numbers(text):
    return [int(it) for it in text.split(",")]


if __name__ == "__main__":
    words = argparse.ArgumentParser()
    words.add_argument("netlist")
    words.add_argument("part")
    words.add_argument("--values", type=numbers, default=[0, 1])
    asked = words.parse_args()
    with open(asked.netlist, "rb") as file:
        print(model(Net(file.read(), asked.part), asked.values), end="")
