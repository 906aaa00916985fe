"""Reads a netlist and makes one flat net of a part. Written from docs/LANGUAGE.md alone, with no look at the program."""
import re

TOKEN = re.compile(rb'\s+|;[^\n]*|(\()|(\))|"((?:[^"\\]|\\.)*)"|([^\s()";]+)', re.S)
ESCAPED = {b"n": b"\n", b"t": b"\t"}


class Quoted(str):
    """A quoted text."""


def read(text):
    """The data of a text."""
    lists = [[]]
    for token in TOKEN.finditer(text):
        opened, closed, quoted, run = token.groups()
        if opened:
            lists.append([])
        elif closed:
            done = lists.pop()
            lists[-1].append(done)
        elif quoted is not None:
            plain = re.sub(rb"\\(.)", lambda it: ESCAPED.get(it[1], it[1]), quoted, flags=re.S)
            lists[-1].append(Quoted(plain.decode("latin-1")))
        elif run:
            lists[-1].append(atom(run.decode("latin-1")))
    if len(lists) != 1:
        raise ValueError("a list is open at the end")
    return lists[0]


def atom(word):
    if word in ("#t", "#f"):
        return word == "#t"
    return int(word) if word.isdigit() else word


class Part:
    """A part of a netlist: ports as (name, sense), channels as (kind, width), components as (name, parameters, entries)."""

    def __init__(self, items):
        self.name = items[1]
        forms = {it[0]: it[1:] for it in items[2:] if isinstance(it, list) and it and isinstance(it[0], str)}
        self.ports = [(it[1], it[2]) for it in forms.get("ports", [])]
        self.channels = [(it[0], 0 if it[0] == "sync" else it[1]) for it in forms.get("channels", [])]
        self.components = [(it[1], it[2], it[3]) for it in forms.get("components", [])]


class Net:
    """The flat net of a part. Channels as (kind, width) and components as (kind, parameters, entries) count from 1. Ports as
    (name, sense) count from 0: the first one is channel 1."""

    def __init__(self, text, top):
        made = [Part(it) for it in read(text) if isinstance(it, list) and it[:1] == ["breeze-part"]]
        self.parts, self.found, self.leaves = {it.name: it for it in made}, {}, []
        self.ports = self.parts[top].ports
        self.walk((), top, [])
        order = sorted(self.found)
        number = {place: at for at, place in enumerate(order, 1)}
        self.channels = [None, *(self.found[place] for place in order)]
        self.components = [None]
        for _, kind, parameters, entries in sorted(self.leaves, key=lambda it: it[0]):
            named = [[number[one] for one in it] if isinstance(it, list) else number[it] for it in entries]
            self.components.append((kind, parameters, named))

    def walk(self, path, name, outer):
        """Finds the channels and components of an instance at a path. `outer` has the channels that its ports are."""
        part = self.parts[name]

        def place(channel):
            return outer[channel - 1] if channel <= len(outer) else (path, channel)

        for at, channel in enumerate(part.channels, 1):
            if at > len(outer):
                self.found[path, at] = channel
        for at, (kind, parameters, entries) in enumerate(part.components, 1):
            named = [[place(one) for one in it] if isinstance(it, list) else place(it) for it in entries]
            if kind in self.parts:
                flat = [one for it in named for one in (it if isinstance(it, list) else [it])]
                self.walk((*path, at), kind, flat)
            else:
                self.leaves.append(((*path, at), kind.removeprefix("$Brz"), parameters, named))


def sorted_parameters(items):
    """The numbers, the truth values and the other texts among parameters, each in their own order."""
    numbers, flags, texts = [], [], []
    for it in items:
        if isinstance(it, bool):
            flags.append(it)
        elif isinstance(it, int):
            numbers.append(it)
        elif isinstance(it, Quoted) and it in ("true", "false"):
            flags.append(it == "true")
        elif isinstance(it, Quoted):
            texts.append(str(it))
    return numbers, flags, texts
