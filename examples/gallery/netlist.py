"""Netlists in the making: parts with their ports, channels and components, and their text."""


class Channel:
    """A channel of a part: `sync`, `push` or `pull`. `line` is where the source has it, 0 where that isn't known."""

    def __init__(self, kind, width=0, name=None, line=0):
        self.kind, self.width, self.name, self.line = kind, width, name, line
        # the channel that this one was joined with, if it was
        self.joined = None

    def real(self):
        return self.joined.real() if self.joined else self


class Component:
    """A component: the name of its kind or of a part, parameters, and entries, which are channels and lists of channels."""

    def __init__(self, name, parameters, entries, line):
        self.name, self.parameters, self.entries, self.line = name, parameters, entries, line


class Part:
    """A part. Its ports are its first channels, so they come before all others."""

    def __init__(self, name, about):
        self.name, self.comment = name, about.split("\n")
        self.ports, self.channels, self.components = [], [], []

    def port(self, name, sense, kind, width=0):
        self.ports.append((name, sense))
        return self.channel(kind, width, name)

    def channel(self, kind, width=0, name=None, line=0):
        self.channels.append(Channel(kind, width, name, line))
        return self.channels[-1]

    def add(self, kind, parameters, *entries, line=0):
        """Adds a component of a kind."""
        self.components.append(Component(f"$Brz{kind}", parameters, entries, line))

    def place(self, part, *channels):
        """Adds an instance of a part, by its name."""
        self.components.append(Component(part, [], channels, 0))

    def text(self):
        kept = [it for it in self.channels if not it.joined]
        number = {it: at for at, it in enumerate(kept, 1)}
        lines = [f"; {it}".rstrip() for it in self.comment] + [f'(breeze-part "{self.name}"', " (ports"]
        lines += [f"  {port_text(name, sense, it)}" for (name, sense), it in zip(self.ports, kept)]
        lines += [" )", " (channels"]
        lines += [f"  {self.channel_text(it)} ; {at}" for at, it in enumerate(kept, 1)]
        lines += [" )", " (components"]
        lines += [f"  {self.component_text(it, number)} ; {at}" for at, it in enumerate(self.components, 1)]
        return "\n".join(lines) + "\n ))\n"

    def place_text(self, line):
        return f' (at {line} 1 "{self.name}.balsa" 0)' if line else ""

    def channel_text(self, it):
        width = f" {it.width}" if it.width else ""
        name = f' (name "{it.name}")' if it.name else ""
        return f"({it.kind}{width}{self.place_text(it.line)}{name})"

    def component_text(self, it, number):
        def entry(one):
            return f"({' '.join(map(entry, one))})" if isinstance(one, list) else str(number[one.real()])

        parameters = " ".join(f'"{one}"' if isinstance(one, str) else str(one) for one in it.parameters)
        entries = " ".join(map(entry, it.entries))
        return f'(component "{it.name}" ({parameters}) ({entries}){self.place_text(it.line)})'


def port_text(name, sense, channel):
    if channel.kind == "sync":
        return f'(sync-port "{name}" {sense})'
    way = "input" if (channel.kind == "pull") == (sense == "active") else "output"
    return f'(port "{name}" {sense} {way} (numeric-type #f {channel.width}))'
