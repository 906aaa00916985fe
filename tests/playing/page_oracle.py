"""What a page has to show, by the answers of `explore` and by the lines of the trace."""

import re
from dataclasses import dataclass, field

from .processes import terms

VARIABLES = ("Variable", "FalseVariable")
CALLS = tuple(terms.MIXERS)
PHASE = re.compile(r"channel (\d+)(?: \S+)? +(asked|taken|replied)(?: (\d+))? ")
END = re.compile(r"\d+ waits?, \d+ can move, \d+ idle")


@dataclass
class Wanted:
    """A net and its trace: ends and kinds of channels, names of ports, kinds of components, and behind each line (from 1) the phase
    and value of each channel that is not idle."""

    ends: dict = field(default_factory=dict)
    channels: dict = field(default_factory=dict)
    names: dict = field(default_factory=dict)
    kinds: dict = field(default_factory=dict)
    lines: list = field(default_factory=list)
    states: list = field(default_factory=list)

    def callee(self, channel):
        """The component at the passive end of a channel, or None."""
        end = self.ends[channel][1]
        return end.split(".")[0] if "." in end else None

    def phases(self, line):
        """The phases behind a line, by channel."""
        return {channel: phase for channel, (phase, _) in self.states[line].items()}

    def busy(self, line):
        """The components that hold a request that they took."""
        return {self.callee(channel) for channel, phase in self.phases(line).items() if phase == "taken"} - {None}

    def clashing(self, line):
        """The components where requests meet, and that of a clash line."""
        open_at = [self.callee(channel) for channel in self.states[line]]
        met = {it for it in open_at if it and self.kinds[it] in CALLS and open_at.count(it) > 1}
        words = self.lines[line].split()
        return met | ({words[1]} if words[0] == "clash" else set())

    def mover(self, line):
        """The component that a line moves."""
        words = self.lines[line].split()
        return {words[2]} if words[1:2] == ["fire"] else set()

    def callers(self, line):
        """The component that a line moves, and those that called it, as far as requests are taken."""
        found, left = set(), list(self.mover(line))
        while left:
            component = left.pop()
            if component not in found:
                found.add(component)
                taken = [channel for channel, phase in self.phases(line).items() if phase == "taken"]
                ends = [self.ends[channel][0] for channel in taken if self.callee(channel) == component]
                left += [end.split(".")[0] for end in ends if "." in end][:1]
        return found

    def held(self, line):
        """What each variable holds: what it took last with its first port."""
        held = {component: "0" for component, kind in self.kinds.items() if kind in VARIABLES}
        for words in map(str.split, self.lines[2 : line + 1]):
            if words[1] == "fire" and words[2] in held and words[3] == "take" and self.ends[words[4]][1] == f"{words[2]}.1":
                held[words[2]] = words[5]
        return held


def command(words, ends):
    """What brings about a line in `explore`; None where nothing does."""
    if words[0] == "clash" or words[1] == "rest":
        return None
    if words[1] == "fire":
        end = ends[words[4]][0 if words[3] in ("ask", "got") else 1]
        return f"fire {words[2]} {end.split('.')[1]}"
    has_value = words[1] in ("offer", "answer") and words[3].isdigit()
    return ":".join([words[1], words[2].replace("#", "%23")] + [words[3]] * has_value)


def lines_of(program, part, netlist, trace):
    """The ends of the channels, the kinds of the components, and the lines of a trace, from 1."""
    wanted = Wanted()
    for words in map(str.split, program.run(["list", *part, "--paths", "--netlist", netlist]).output.decode().splitlines()):
        if words[0] == "channel":
            at = 3 if words[2] == "sync" else 4
            wanted.ends[words[1]], wanted.channels[words[1]] = words[at : at + 2], words[2]
        elif words[0] == "port":
            wanted.names[words[1]] = words[2]
        elif words[0] == "component":
            wanted.kinds[words[1]] = words[2]
    with open(trace, encoding="ascii") as file:
        wanted.lines = ["", *file.read().splitlines()]
    return wanted


def explored(program, part, netlist, lines):
    """What `explore` answers to these lines."""
    given = "".join(f"{line}\n" for line in lines)
    return program.run(["explore", *part, "--netlist", netlist], given.encode()).output.decode().splitlines()


def end_lines(program, part, netlist, trace):
    """The lines of a page's rows that say who waits for whom at the end of its trace, by `waits all` there: the cycles first."""
    wanted = lines_of(program, part, netlist, trace)
    moves = filter(None, (command(line.split(), wanted.ends) for line in wanted.lines[2:]))
    answers = explored(program, part, netlist, [*moves, "waits all"])
    waits = [line for line in answers if re.match(r"wait |  or| *\w+ \d+.* has halted ", line)]
    ended = ["ended " * (" has halted " in line) + line for line in waits]
    counts = re.sub(r", \d+ stuck$", "", answers[-1])
    return [f"end {line}" for line in [*filter(re.compile("cycle: ").match, answers), *ended, counts]] if waits else []


def wanted_of(program, part, netlist, trace):
    """What the page of a trace has to show. Each line is played in `explore`, which answers with it and tells where all stand."""
    wanted = lines_of(program, part, netlist, trace)
    commands = [[], *([command(line.split(), wanted.ends)] for line in wanted.lines[2:])]
    answers = explored(program, part, netlist, [line for lines in commands for line in [*filter(None, lines), "waits all"]])
    wanted.states, state, played = [{}], {}, []
    for answer in answers:
        found = PHASE.match(answer)
        if found:
            state[found[1]] = (found[2], found[3] or "")
        elif END.match(answer):
            wanted.states.append(state)
            state = {}
        elif re.match(r"[hw]\d+ ", answer):
            played.append(answer)
    # (`fire` and the host's words answer with the line of the trace; rests and clashes are told by the trace alone)
    moves = [line for line in wanted.lines[2:] if not re.match(r"clash |\w+ rest", line)]
    if played != [re.sub(r"^w\d+", "w1", re.sub(r"^h\d+", "h1", line)) for line in moves]:
        raise ValueError(f"explore plays another trace than {trace}")
    if len(wanted.states) != len(wanted.lines):
        raise ValueError(f"explore tells {len(wanted.states)} states of {len(wanted.lines)} lines")
    return wanted
