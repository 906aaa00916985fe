"""Benches, interpreted: written from docs/BENCHES.md alone, over nets that play by the table of kinds (processes.py)."""

from dataclasses import dataclass, field
from itertools import islice


@dataclass(frozen=True)
class Item:
    """A value, `?` as "any", or `.` as None; and whether the handshake is begun and need not end."""

    value: object
    is_open: bool = False

    def text(self):
        return ">" if self.is_open else {None: ".", "any": "?"}.get(self.value, str(self.value))

    def is_as_due(self, came):
        return self.value in (came, "any")


@dataclass
class Line:
    """The items of a port in a group, and what passes after them as often as it is asked for."""

    items: list = field(default_factory=list)
    forever: Item = None

    def words(self):
        return [it.text() for it in self.items] + ([f"{self.forever.text()}*"] if self.forever else [])


@dataclass
class Bench:
    """Groups of lines by port, from 0, and whether the net may go round for ever once all has passed."""

    groups: list
    spins: bool = False

    def text(self, net, netlist):
        blocks = ["".join(f"{net.ports[port][0]} {' '.join(it.words())}\n" for port, it in group.items()) for group in self.groups]
        return f":netlist {netlist}\n" + (":spins\n" if self.spins else "") + ":then\n".join(blocks)


class Play:
    """A play that is under way."""

    def __init__(self, net, bench):
        self.net, self.bench = net, bench
        ports = range(len(net.ports))
        self.items = [[(it, at) for at, group in enumerate(bench.groups) for it in group.get(port, Line()).items] for port in ports]
        forever = [[(group[port].forever, at) for at, group in enumerate(bench.groups) if port in group and group[port].forever] for port in ports]
        self.forever = [it[0] if it else None for it in forever]
        self.begun, self.ended, self.group = [0 for _ in ports], [0 for _ in ports], 0
        self.state, self.next, self.lines, self.words = net.start, 0, [], []
        self.wrong, self.is_over = None, False

    def item(self, port, place):
        """The item at a place and its group, or None."""
        return self.items[port][place] if place < len(self.items[port]) else self.forever[port]

    def gives(self, port):
        """Whether the net gives the values of a port."""
        kind, sense = self.net.channels[port + 1][0], self.net.ports[port][1]
        return (kind, sense) in (("push", "active"), ("pull", "passive"))

    def word(self, port):
        """The word of a port that would be done, or None."""
        first, second = ("offer", "collect") if self.net.ports[port][1] == "passive" else ("accept", "answer")
        due = self.item(port, self.begun[port])
        if due and due[1] <= self.group and self.net.would(self.state, first, port):
            return first
        due = self.item(port, self.ended[port])
        if self.begun[port] > self.ended[port] and not due[0].is_open and self.net.would(self.state, second, port):
            return second
        return None

    def has_ended(self, port, group):
        """Whether what is due at a port in the groups up to one has passed."""
        items = [it for it, at in self.items[port] if at <= group]
        ends = [it for it in items if not it.is_open]
        return self.begun[port] >= len(items) and self.ended[port] >= len(ends)

    def begin_groups(self):
        ports = range(len(self.net.ports))
        while self.group + 1 < len(self.bench.groups) and all(self.has_ended(port, self.group) for port in ports):
            self.group += 1

    def give(self, port):
        """Gives the word of a port."""
        verb = self.word(port)
        begins = verb in ("offer", "accept")
        item, _ = self.item(port, self.begun[port] if begins else self.ended[port])
        kind = self.net.channels[port + 1][0]
        given = item.value if (verb, kind) in (("offer", "push"), ("answer", "pull")) else None
        self.state, came = self.net.said(self.state, verb, port, given)
        place = self.begun[port] if begins else self.ended[port]
        (self.begun if begins else self.ended)[port] += 1
        self.lines.append(self.net.word(verb, port, given, came))
        self.words.append((len(self.lines), port))
        if came is not None and not item.is_as_due(came):
            self.wrong = {"verdict": "differs", "port": self.net.ports[port][0], "item": place + 1}
            self.wrong |= {"due": item.text(), "came": str(came), "line": len(self.lines) + 1}

    def step(self, comp, move):
        self.state = self.net.moved(self.state, comp, move)
        self.next = (comp + 1) % len(self.net.processes)
        self.lines.append(self.net.firing(comp, move))

    def in_order(self):
        """The play without a seed, move by move and word by word, up to its end."""
        ports = range(len(self.net.ports))
        while not self.wrong:
            found = self.net.next_move(self.state, self.next)
            if found:
                self.step(*found)
            else:
                self.lines.append("w1 rest")
                self.begin_groups()
                port = next((it for it in ports if self.word(it)), None)
                if port is None:
                    break
                self.give(port)
            yield
        self.is_over = True

    def moment(self):
        """All on which hangs how the play goes on."""
        counted = [(min(begun, len(it)), min(ended, len(it))) for begun, ended, it in zip(self.begun, self.ended, self.items)]
        return self.state, self.next, tuple(counted)

    def to_end(self, most):
        """Plays in order to the end: after how many lines all was as it is now, after all of them where the play is over, or None
        where neither is found within so many moves and words."""
        moments = {self.moment(): 0}
        for _ in islice(self.in_order(), most):
            before = moments.setdefault(self.moment(), len(self.lines))
            if before < len(self.lines) and not self.wrong:
                return before
        return len(self.lines) if self.is_over else None

    def follow(self, lines):
        """Plays the lines of a trace, in any order that the bench allows. What is wrong with them, or None."""
        ports = {name: at for at, (name, _) in enumerate(self.net.ports)}
        for line in lines:
            self.begin_groups()
            _, kind, *rest = line.split(" ")
            if kind == "rest":
                if self.net.next_move(self.state, 0):
                    return f"no rest: {line}"
                self.lines.append(line)
            elif kind == "fire":
                comp = int(rest[0]) - 1
                found = next((it for it in self.net.moves(self.state, comp) if self.net.firing(comp, it) == line), None)
                if not found:
                    return f"no move: {line}"
                self.step(comp, found)
            else:
                if self.word(ports[rest[0]]) != kind:
                    return f"no word of the bench: {line}"
                self.give(ports[rest[0]])
                if self.lines[-1] != line:
                    return f"{self.lines[-1]} in place of {line}"
        self.begin_groups()
        return None

    def is_at_rest(self):
        return not self.net.next_move(self.state, 0) and not any(self.word(port) for port in range(len(self.net.ports)))

    def extra(self):
        """The first port at which a value waits and none is due."""
        for port, (name, sense) in enumerate(self.net.ports):
            phase, came = self.net.state_at(self.state, port)
            if sense == "active" and phase == "asked" and came is not None and not self.item(port, self.begun[port]):
                return {"verdict": "extra", "port": name, "came": str(came)}
        return None

    def verdict(self, before):
        """The verdict at the end, where all was as it is now after so many lines: after all of them where the play is over."""
        ports, last = range(len(self.net.ports)), len(self.bench.groups) - 1
        fault = self.wrong or self.extra()
        if fault:
            return fault
        is_whole = all(self.has_ended(port, last) for port in ports)
        if before is None:
            return {"verdict": "spent"}
        goes_round = before < len(self.lines)
        since = {port for line, port in self.words if line > before}
        if is_whole:
            any_comes = [bool(self.forever[port]) and self.forever[port][0].value == "any" for port in ports]
            takes_any = any(any_comes) and all(any_comes[port] for port in ports if self.gives(port))
            is_served = all(port in since or not self.word(port) for port in ports)
            if takes_any or not goes_round or self.bench.spins or (since and is_served):
                return {"verdict": "ok"}
        return {"verdict": "spins" if goes_round else "stuck"}
