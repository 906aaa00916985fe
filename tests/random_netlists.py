"""Netlists made at random, of components of all kinds, which a program tells. Requests of a host reach each component.

Of tests/hostile, tests/same-answers, tests/spoilt, and of bench/spin, which makes small ones.
"""
import json
from dataclasses import dataclass


def kinds_of(program):
    """What a program tells of each kind, by its word."""
    told = json.loads(program.run(["kinds", "--format", "json"]).output)["kinds"]
    return {kind["name"].removeprefix("$Brz"): kind for kind in told}


@dataclass(frozen=True)
class Scale:
    """How large netlists are: the widths, the members of arrays and the numbers of components from which one is picked, how
    often an end is joined to one that lacks another, and how many ends are left to ports at most."""

    widths: list
    members: list
    components: list
    joined: float = 0.8
    most_ports: int = 2**32


ANY = Scale([1, 2, 8, 8, 32, 64, 128], [1, 2, 2, 3, 7], [1, 2, 3, 6, 20, 60])
# Nets whose whole graph of states a model checker finds.
SMALL = Scale([1, 1, 2, 3], [1, 2, 2, 2, 3], [1, 2, 2, 3, 3, 4, 5, 7], 0.6, 5)


def number(pick):
    """A number as it may stand in a netlist or a word, most often at some bound."""
    bounds = [0, 1, 2, 3, 5, 7, 8, 15, 16, 127, 128, 255, 256, 2**16, 2**32 - 1, 2**32, 2**64 - 1, 2**64, 2**128 - 1, 2**128]
    return pick.choice(bounds) if pick.random() < 0.7 else pick.randrange(2**20)


def cut(width, members):
    """A width cut into widths, one for each of these numbers of members, in order; and all of them together."""
    widths, left = [], width
    for at, count in enumerate(members):
        widths.append(max(left // (count * (len(members) - at)), 1))
        left -= widths[-1] * count
    return widths, sum(width * count for width, count in zip(widths, members))


def widths_of(pick, kind, members, widths):
    """The widths of ports by their names, as the rules of their kind ask; without one any of these."""
    found = {port["name"]: pick.choice(widths) for port in kind["ports"]}
    for rule in kind["widths"]:
        if rule["rule"] in ("equal", "one"):
            found |= dict.fromkeys(rule["ports"], widths[0] if rule["rule"] == "equal" else 1)
        if rule["rule"] == "sum":
            each, found[rule["port"]] = cut(widths[0], [members[name] for name in rule["of"]])
            found |= dict(zip(rule["of"], each))
        if rule["rule"] == "within":
            (_, found[rule["port"]]), found[rule["in"]] = cut(widths[0], [1, 1])
    return found


class Netlist:
    """A part `p` of components of any of these kinds, each end joined to one that meets it or to a port. `kind` is that of the
    first component, where one is named."""

    def __init__(self, pick, kinds, scale=ANY, kind=None):
        # the channels as (form, width); of each the components at its passive and active ends; and the components
        self.pick, self.scale, self.channels, self.ends, self.components = pick, scale, [], [], []
        width = pick.choice(scale.widths)
        words = [kind or pick.choice(list(kinds))]
        words += [pick.choice(list(kinds)) for _ in range(pick.choice(scale.components) - 1)]
        for word in words:
            self.add(width, kinds[word])
        self.reach_all()
        self.close()

    def add(self, width, kind):
        size, at = self.pick.choice(self.scale.members), len(self.components)
        members = {port["name"]: size if port["array"] else 1 for port in kind["ports"]}
        widths = widths_of(self.pick, kind, members, [width, self.pick.choice(self.scale.widths)])
        entries = []
        for port in kind["ports"]:
            wanted = (port["carries"], 0 if port["carries"] == "sync" else widths[port["name"]])
            numbers = [self.channel(at, port["sense"], wanted) for _ in range(members[port["name"]])]
            entries.append(numbers if port["array"] else numbers[0])
        senses = [port["sense"] for port in kind["ports"]]
        self.components.append((kind["name"], senses, self.parameters(kind, size, widths), entries))

    def channel(self, at, sense, wanted):
        """The number of a channel for this end of component `at`: one that lacks it, or a new one."""
        lacking = [n for n, ends in enumerate(self.ends) if sense not in ends and self.channels[n] == wanted]
        if lacking and self.pick.random() < self.scale.joined:
            found = self.pick.choice(lacking)
            self.ends[found][sense] = at
            return found
        self.channels.append(wanted)
        self.ends.append({sense: at})
        return len(self.channels) - 1

    def reached(self):
        """The components that requests of a host reach."""
        found, before = set(), None
        while found != before:
            before = found
            reached = [ends for ends in self.ends if "active" not in ends or ends["active"] in before]
            found = {ends["passive"] for ends in reached if "passive" in ends}
        return found

    def reach_all(self):
        """Gives each component that no request reaches a port of its own, in place of what it is joined to."""
        for at, (name, senses, parameters, entries) in enumerate(self.components):
            if at not in self.reached():
                left = next(n for n, ends in enumerate(self.ends) if ends.get("passive") == at)
                del self.ends[left]["passive"]
                self.channels.append(self.channels[left])
                self.ends.append({"passive": at})
                number = {left: len(self.channels) - 1}
                # (its active end may be on that channel too)
                entries = [renumbered(it, number) if sense == "passive" else it for sense, it in zip(senses, entries)]
                self.components[at] = (name, senses, parameters, entries)

    def close(self):
        """Closes ends that would be ports where these are too many, those of the first component last."""
        loose = [n for n, ends in enumerate(self.ends) if "passive" not in ends]
        self.pick.shuffle(loose)
        loose.sort(key=lambda n: self.ends[n]["active"] != 0)
        while loose and sum(len(ends) == 1 for ends in self.ends) > self.scale.most_ports:
            found = loose.pop()
            words = {"sync": ["Continue"] * 3 + ["Halt"], "push": ["ContinuePush"] * 3 + ["HaltPush"], "pull": ["Constant"]}
            self.ends[found]["passive"] = len(self.components)
            name = "$Brz" + self.pick.choice(words[self.channels[found][0]])
            self.components.append((name, ["passive"], f"8 {self.pick.randrange(16)}", [found]))

    def parameters(self, kind, size, widths):
        """Parameters at the places that the kind tells, and others before these."""
        told = {it["place"]: self.parameter(kind, it, size, widths) for it in kind["parameters"]}

        def up_to_last(form, other):
            last = max((int(place[1:]) for place in told if place[0] == form and place != "x-last"), default=0)
            return [told[place] if place in told else other() for place in (f"{form}{at}" for at in range(1, last + 1))]

        numbers, flags, texts = up_to_last("n", lambda: 8), up_to_last("t", self.flag), up_to_last("x", lambda: "x")
        if "x-last" in told:
            texts += ["x", told["x-last"]]
        return " ".join([*map(str, numbers), *(f'"{it}"' for it in texts + flags)])

    def parameter(self, kind, it, size, widths):
        pick = self.pick
        room = next((widths[rule["in"]] - widths[rule["port"]] for rule in kind["widths"] if rule["rule"] == "within"), 0)
        sets = [pick.choice([f"{n}", f"{n}..{n + 2}", f"{n},9", f"{n + 1}", "300,7"]) for n in range(size)]
        return {
            "specification": lambda: ";".join(sets),
            "operation": lambda: pick.choice(it["of"]),
            "sign": self.flag,
            "width": lambda: pick.choice([1, 2, 3, 8, 64, 128]),
            "value": lambda: number(pick) % 2**128,
            "low": lambda: pick.randint(0, room),
            "empty": lambda: "",
        }[it["is"]]()

    def flag(self):
        return self.pick.choice(["true", "false"])

    def text(self):
        """The part `p`, and sometimes a part `twice` with two instances of it."""
        ports, forms, components = self.pieces()
        text = part_text("p", ports, forms, components)
        if self.pick.random() < 0.3:
            text += twice(ports, forms[: len(ports)])
        return text

    def part(self):
        """The part `p` alone."""
        return part_text("p", *self.pieces())

    def pieces(self):
        """The senses of the ports, the channels and the components, as they are written."""
        # the channels with one end are the ports, which come first
        order = sorted(range(len(self.channels)), key=lambda n: len(self.ends[n]) == 2)
        place = {n: at + 1 for at, n in enumerate(order)}
        # (a port is declared by the end that it has inside)
        senses = ["active" if "active" in self.ends[n] else "passive" for n in order if len(self.ends[n]) == 1]
        components = []
        for name, _, parameters, entries in self.components:
            written = [f"({' '.join(map(str, it))})" if isinstance(it, list) else str(it) for it in renumbered(entries, place)]
            components.append(f'(component "{name}" ({parameters}) ({" ".join(written)}))')
        return senses, [channel_text(*self.channels[n]) for n in order], components


def renumbered(it, number):
    """A channel's number, or a list of such, with others in their places."""
    return [renumbered(one, number) for one in it] if isinstance(it, list) else number.get(it, it)


def channel_text(form, width):
    return f"({form} {width})" if width else f"({form})"


def part_text(name, senses, channels, components):
    ports = " ".join(f'(port "c{at + 1}" {sense})' for at, sense in enumerate(senses))
    lines = [f'(breeze-part "{name}" (ports {ports}) (channels {" ".join(channels)})', " (components"]
    return "\n".join([*lines, *(f"  {it}" for it in components), "))\n"])


def twice(senses, channels):
    """A part with two instances of `p`, the ports of both being its own."""
    lists = [" ".join(map(str, range(before + 1, before + len(channels) + 1))) for before in (0, len(channels))]
    return part_text("twice", senses * 2, channels * 2, [f'(component "p" () ({one}))' for one in lists])
