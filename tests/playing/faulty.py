"""Netlists made at random in which nothing is wrong, and what is wrong with them once something in them was broken."""

from dataclasses import dataclass, field

# The order of the faults of components.
CODES = ["E4 UnknownComponent", "E5 BadParameter", "E6 PortCount", "E7 BadChannel", "E9 KindMismatch", "E10 WidthMismatch"]
# The senses of the ports of each kind, in the order of its entries: passive and active; an array is a list.
SENSES = {
    "Sequence": ["p", ["a"]],
    "Concur": ["p", ["a"]],
    "Loop": ["p", "a"],
    "Fetch": ["p", "a", "a"],
    "Variable": ["p", ["p"]],
    "BinaryFunc": ["p", "a", "a"],
    "Constant": ["p"],
    "ContinuePush": ["p"],
    "Continue": ["p"],
    "Call": [["p"], "a"],
}
EXTRA = {"Variable": '8 1 "v" ""', "BinaryFunc": '8 8 8 "Add" "false" "false" "false"', "Constant": "8 5"}


@dataclass
class Component:
    """A component of a part: its kind or its part, its parameters, its entries, and what was broken in it."""

    kind: str
    entries: list
    params: str = ""
    of_part: bool = False
    code: str = ""

    def named(self):
        """All channels that it names, in order."""
        return [chan for entry in self.entries for chan in (entry if isinstance(entry, list) else [entry])]

    def senses(self):
        """The senses of its ports, as many as it has channels."""
        pairs = zip(SENSES[self.kind], self.entries)
        return [s for sense, entry in pairs for s in ([sense[0]] * len(entry) if isinstance(entry, list) else [sense])]

    def text(self):
        name = self.kind if self.of_part or self.kind == "$BrzNo" else f"$Brz{self.kind}"
        entries = " ".join(f"({' '.join(map(str, e))})" if isinstance(e, list) else str(e) for e in self.entries)
        return f'(component "{name}" ({self.params}) ({entries}))'


@dataclass
class Part:
    """A part: its ports by name and whether they are passive, its channels, its components."""

    name: str
    ports: list = field(default_factory=list)
    channels: list = field(default_factory=list)
    components: list = field(default_factory=list)
    # the lines at which its channels, ports and components begin in the text, by their positions
    lines: dict = field(default_factory=dict)

    def channel(self, form):
        self.channels.append(form)
        return len(self.channels)

    def add(self, kind, entries, **how):
        self.components.append(Component(kind, entries, EXTRA.get(kind, ""), **how))


class Netlist:
    """Parts in the order of the text; `top` uses all of them but `spare`."""

    def __init__(self, pick):
        self.pick = pick
        # (each part uses those before it alone)
        parts = self.parts = []
        for name in ["leaf", "twig", "top"]:
            parts.append(self.part(name, [part.name for part in parts]))
        parts.append(self.part("spare", []))
        pick.shuffle(parts)

    def named(self, name):
        return next(part for part in self.parts if part.name == name)

    def part(self, name, inner):
        """A part that asks each of its units once, as its port `go` is asked."""
        pick, part = self.pick, Part(name, [("go", True)], ["(sync)"])
        out = pick.random() < 0.5
        if out:
            part.ports.append(("out", False))
            part.channel("(push 8)")
        units = []
        for kind in [*(f"copy {it}" for it in inner), *pick.choices(["store", "sum", "rest", "constant", "loop"], k=pick.randint(2, 5))]:
            units.append(part.channel("(sync)"))
            self.unit(part, kind, units[-1])
        if out:
            units.append(part.channel("(sync)"))
            constant = part.channel("(pull 8)")
            part.add("Fetch", [units[-1], constant, 2])
            part.add("Constant", [constant])
        part.add(pick.choice(["Sequence", "Concur"]), [1, units])
        pick.shuffle(part.components)
        return part

    def unit(self, part, kind, start):
        """A few components with channels of their own, that begin at a channel."""
        if kind.startswith("copy "):
            return self.copy(part, kind[5:], start)
        if kind == "rest":
            return part.add("Continue", [start])
        if kind == "loop":
            body, one, other = part.channel("(sync)"), part.channel("(sync)"), part.channel("(sync)")
            part.add("Loop", [start, body])
            part.add("Sequence", [body, [one, other]])
            part.add("Continue", [one])
            return part.add("Continue", [other])
        source, sink = part.channel("(pull 8)"), part.channel("(push 8)")
        part.add("Fetch", [start, source, sink])
        if kind == "store":
            part.add("Variable", [sink, [source]])
        elif kind == "sum":
            reads = [part.channel("(pull 8)"), part.channel("(pull 8)")]
            part.add("BinaryFunc", [source, *reads])
            part.add("Variable", [sink, reads])
        else:
            part.add("Constant", [source])
            part.add("ContinuePush", [sink])

    def copy(self, part, name, start):
        """An instance of an earlier part."""
        entries = [start]
        if len(self.named(name).ports) == 2:
            entries.append(part.channel("(push 8)"))
            part.add("ContinuePush", [entries[1]])
        part.add(name, entries, of_part=True)

    def text(self):
        """The text, each record on a line of its own behind two blanks; notes the lines."""
        lines = []
        for part in self.parts:
            part.lines["part", 1] = len(lines) + 1
            lines.append(f'(breeze-part "{part.name}"')
            lines.append(" (ports")
            for k, (port, passive) in enumerate(part.ports, 1):
                form = part.channels[k - 1].strip("()").split()
                head = "sync-port" if form[0] == "sync" else "port"
                part.lines["port", k] = len(lines) + 1
                lines.append(f'  ({head} "{port}" {"passive" if passive else "active"})')
            lines += [" )", " (channels"]
            for k, channel in enumerate(part.channels, 1):
                part.lines["channel", k] = len(lines) + 1
                lines.append(f"  {channel}")
            lines += [" )", " (components"]
            for k, component in enumerate(part.components, 1):
                part.lines["component", k] = len(lines) + 1
                lines.append(f"  {component.text()}")
            lines.append(" ))")
        return "".join(f"{line}\n" for line in lines).encode()

    # What is broken.

    def break_some(self, count):
        """Breaks so many things. Whether as many could be broken."""
        ways = ["name", "params", "count", "channel", "kind", "width", "same", "left out", "sense"]
        done = 0
        for _ in range(100):
            part, way = self.pick.choice(self.parts), self.pick.choice(ways)
            done += bool(self.break_one(part, way))
            if done == count:
                return True
        return False

    def break_one(self, part, way):
        pick = self.pick
        if way == "sense":
            k = pick.randrange(len(part.ports))
            name, passive = part.ports[k]
            # (an instance's ports are not looked at)
            if part.name not in ("top", "spare") or passive != (name != "out"):
                return False
            part.ports[k] = (name, not passive)
            return True
        sound = [it for it in part.components if not it.code and (not it.of_part or way == "count")]
        component = pick.choice(sound) if sound else None
        if not component or getattr(component, "touched", False):
            return False
        return self.break_component(part, component, way)

    def break_component(self, part, component, way):
        pick, singles = self.pick, [k for k, e in enumerate(component.entries) if not isinstance(e, list)]
        if way == "name":
            component.code, component.kind = CODES[0], "$BrzNo"
        elif way == "params":
            if component.kind not in ("BinaryFunc", "Constant"):
                return False
            component.code, component.params = CODES[1], '8 8 8 "Nope"' if component.kind == "BinaryFunc" else "8"
        elif way == "count":
            component.code = CODES[2]
            component.entries = [*component.entries, 1]
        elif way == "channel":
            component.code = CODES[3]
            component.entries[pick.choice(singles)] = pick.choice([0, len(part.channels) + 100])
        elif way in ("kind", "width"):
            return self.rejoin(part, component, pick.choice(singles), way)
        elif component.kind != "Continue":
            return False
        elif way == "left out":
            part.components.remove(component)
        else:
            others = [it for it in part.components if it.kind == "Continue" and it is not component and not it.code]
            if not others:
                return False
            component.entries = list(pick.choice(others).entries)
            component.touched = True
        return True

    def rejoin(self, part, component, at, way):
        """Another channel at an entry: one of another kind, or one that is wider."""
        form = part.channels[component.entries[at] - 1]
        if way == "kind":
            others = [k for k, it in enumerate(part.channels, 1) if it.split()[0] != form.split()[0]]
            if not others:
                return False
            component.code, component.entries[at] = CODES[4], self.pick.choice(others)
        else:
            if component.kind != "Fetch" or "sync" in form:
                return False
            component.code, component.entries[at] = CODES[5], part.channel(form.replace("8", "9"))
        return True

    # What is wrong then.

    def faults(self, tops, parts):
        """The faults of these parts' components in the order of the text, then those of the nets of these parts: each as its line and
        the line of the text at which it stands."""
        found = []
        for part in self.parts:
            for k, component in enumerate(part.components, 1):
                if component.code and part.name in parts:
                    found.append((f"{component.code} {part.name} {k}", part.lines["component", k]))
        for top in tops:
            found += self.end_faults(top)
        return found

    def reached(self, name):
        """The names of a part and of all that it has instances of."""
        names = {name}
        for component in self.named(name).components:
            if component.of_part and component.kind in {part.name for part in self.parts}:
                names |= self.reached(component.kind)
        return names

    def end_faults(self, top):
        """What is wrong with the ends of channels in the net of a part, whatever the components at fault are."""
        net = Flat(self, top)
        if net.is_refused:
            return []
        ports = self.named(top).ports
        twos = [k for k in net.chans if any(len(net.ends[k, s]) > 1 for s in "ap")]
        loose = [k for k in net.chans if k > len(ports) and k not in net.doubtful and bool(net.ends[k, "a"]) != bool(net.ends[k, "p"])]
        misused = [k for k, (_, passive) in enumerate(ports, 1) if net.ends[k, "a" if passive else "p"]]
        lines = self.named(top).lines
        return [
            *((f"E11 TwoEnds {k}", net.lines[k]) for k in twos),
            *((f"E12 LooseEnd {k}", net.lines[k]) for k in loose),
            *((f"E13 PortSense {k}", lines["port", k]) for k in misused),
        ]


class Flat:
    """The net of a part: its channels, what of its components that are not at fault holds which end, and the channels that others
    name."""

    def __init__(self, netlist, top):
        self.netlist, self.chans, self.lines, self.ends, self.doubtful = netlist, [], {}, {}, set()
        self.is_refused = False
        part = netlist.named(top)
        self.walk(part, [self.number(part, k) for k in range(1, len(part.channels) + 1)])

    def number(self, part, k):
        """One channel more, channel k of a part."""
        number = len(self.chans) + 1
        self.chans.append(number)
        self.lines[number] = part.lines["channel", k]
        for sense in "ap":
            self.ends[number, sense] = []
        return number

    def walk(self, part, numbers):
        for component in part.components:
            if component.of_part and component.code:
                self.is_refused = True
            elif component.of_part:
                inner = self.netlist.named(component.kind)
                own = range(len(inner.ports) + 1, len(inner.channels) + 1)
                joined = [numbers[chan - 1] for chan in component.entries]
                self.walk(inner, [*joined, *(self.number(inner, k) for k in own)])
            elif component.code:
                self.doubtful |= {numbers[k - 1] for k in component.named() if 0 < k <= len(numbers)}
            else:
                for chan, sense in zip(component.named(), component.senses()):
                    self.ends[numbers[chan - 1], sense].append(component)
