"""Nets for pages that are larger than the examples: a chain of buffers, each a copy of one part, and a flat program."""

import random
from dataclasses import dataclass
from typing import Callable

from .tests import EXAMPLES


@dataclass(frozen=True)
class Net:
    """A netlist, its part, and the words that are played on it; and whether all looks are taken at its page."""

    part: str
    text: Callable
    words: tuple
    is_looked_at: bool = True


def chain(length):
    """So many buffers of the pipeline's, with a PassivatorPush between two, all started by a Concur."""
    with open(f"{EXAMPLES}/pipeline.breeze", encoding="ascii") as file:
        text = file.read()
    buffer = text[text.index('(breeze-part "buffer"') : text.index('(breeze-part "pipeline"')]
    starts, links = range(4, 4 + length), 4 + length
    channels = ["(sync)", "(pull 8)", "(push 8)", *["(sync)"] * length, *["(push 8)", "(pull 8)"] * (length - 1)]
    components = [f'(component "$BrzConcur" ({length}) (1 ({" ".join(map(str, starts))})))']
    for i in range(length):
        came, goes = (2 if i == 0 else links + 2 * i - 1), (3 if i == length - 1 else links + 2 * i)
        components.append(f'(component "buffer" () ({starts[i]} {came} {goes}))')
        if i < length - 1:
            components.append(f'(component "$BrzPassivatorPush" (8) (({links + 2 * i + 1}) {links + 2 * i}))')
    ports = '(sync-port "activate" passive) (port "i" active) (port "o" active)'
    inner = "\n  ".join(components)
    head = f'{buffer}(breeze-part "chain"\n (ports {ports})'
    return f"{head}\n (channels {' '.join(channels)})\n (components\n  {inner}))\n".encode()


class Flat:
    """A program at random, as a flat net without copies that runs for ever: assignments in sequences, side by side, chosen."""

    def __init__(self, size, seed):
        self.random, self.channels, self.components = random.Random(seed), [], []
        self.variables = [{"writes": [], "reads": []} for _ in range(max(2, size // 22))]
        start, body, tops = self.channel("(sync)"), self.channel("(sync)"), []
        self.component("Loop", "", f"{start} {body}")
        while len(self.components) < size:
            tops.append(self.channel("(sync)"))
            self.statement(tops[-1], 4)
        for number, variable in enumerate(self.variables):
            self.keep(number, variable, tops)
        self.component("SequenceOptimised", f'{len(tops)} "S"', f"{body} ({' '.join(map(str, tops))})")

    def channel(self, text):
        self.channels.append(text)
        return len(self.channels)

    def component(self, kind, parameters, channels):
        self.components.append(f'(component "$Brz{kind}" ({parameters}) ({channels}))')

    def value(self, depth):
        """A channel on which a value can be pulled: of a variable, a constant, or an operation."""
        out, chance, flags = self.channel("(pull 8)"), self.random.random(), '"false" "false" "false"'
        if depth == 0 or chance < 0.35:
            self.random.choice(self.variables)["reads"].append(out)
        elif chance < 0.5:
            self.component("Constant", f"8 {self.random.randrange(256)}", f"{out}")
        elif chance < 0.75:
            name = self.random.choice(["Add", "Subtract", "And", "Xor"])
            constant = self.random.randrange(1, 9)
            self.component("BinaryFuncConstR", f'8 8 8 {constant} "{name}" {flags}', f"{out} {self.value(depth - 1)}")
        else:
            name = self.random.choice(["Add", "Subtract", "And", "Or"])
            self.component("BinaryFunc", f'8 8 8 "{name}" {flags}', f"{out} {self.value(depth - 1)} {self.value(depth - 1)}")
        return out

    def assignment(self, start):
        out = self.channel("(push 8)")
        self.component("Fetch", '8 "false"', f"{start} {self.value(2)} {out}")
        self.random.choice(self.variables)["writes"].append(out)

    def statement(self, start, depth):
        """What is begun on a channel."""
        chance = self.random.random()
        if depth == 0 or chance >= 0.8:
            self.assignment(start)
            return
        outs = [self.channel("(sync)") for _ in range(2 if chance >= 0.66 else self.random.randrange(2, 5))]
        listed = " ".join(map(str, outs))
        if chance < 0.5:
            self.component("SequenceOptimised", f'{len(outs)} "S"', f"{start} ({listed})")
        elif chance < 0.66:
            self.component("Concur", f"{len(outs)}", f"{start} ({listed})")
        else:
            pushed = self.channel("(push 8)")
            self.component("Fetch", '8 "false"', f"{start} {self.value(1)} {pushed}")
            self.component("Case", '8 2 "0..127;128..255"', f"{pushed} ({listed})")
        for out in outs:
            self.statement(out, depth - 1)

    def keep(self, number, variable, tops):
        """A variable, with at least one writer and one reader, and a mixer before it where it has several writers."""
        if not variable["writes"]:
            tops.append(self.channel("(sync)"))
            pulled = self.channel("(pull 8)")
            variable["writes"].append(self.channel("(push 8)"))
            self.component("Fetch", "8", f"{tops[-1]} {pulled} {variable['writes'][0]}")
            self.component("Constant", "8 1", f"{pulled}")
        if not variable["reads"]:
            tops.append(self.channel("(sync)"))
            pushed = self.channel("(push 8)")
            variable["reads"].append(self.channel("(pull 8)"))
            self.component("Fetch", "8", f"{tops[-1]} {variable['reads'][0]} {pushed}")
            self.component("ContinuePush", "8", f"{pushed}")
        write = variable["writes"][0]
        if len(variable["writes"]) > 1:
            write = self.channel("(push 8)")
            self.component("CallMux", f"8 {len(variable['writes'])}", f"({' '.join(map(str, variable['writes']))}) {write}")
        reads = variable["reads"]
        self.component("Variable", f'8 {len(reads)} "v{number}" ""', f"{write} ({' '.join(map(str, reads))})")

    def text(self):
        channels, components = "\n  ".join(self.channels), "\n  ".join(self.components)
        head = '(breeze-part "flat"\n (ports (sync-port "go" passive))'
        return f"{head}\n (channels\n  {channels})\n (components\n  {components}))\n".encode()


LATE = b"""(breeze-part "late"
 (ports (sync-port "go" passive))
 (channels (sync) (sync) (sync) (sync) (sync) (sync) (sync) (sync) (sync) (sync) (sync))
 (components
  (component "$BrzConcur" (3) (1 (2 3 4)))
  (component "$BrzSequence" (3) (2 (5 6 7)))
  (component "$BrzSequence" (2) (3 (8 9)))
  (component "$BrzPassivator" (2) ((5 9)))
  (component "$BrzPassivator" (2) ((6 8)))
  (component "$BrzSequence" (2) (4 (10 11)))
  (component "$BrzContinue" () (10))
  (component "$BrzPassivator" (2) ((7 11)))))
"""


def late():
    """Two Sequences each wait at a Passivator for the other. A third one goes on for some lines, and then waits for the first."""
    return LATE


RUN = "run:100000"
FEED = ("offer:activate", RUN, "accept:i", "answer:i:7", RUN, "accept:i", "answer:i:8", RUN, "accept:o", "answer:o", RUN)
NETS = {
    "chain": Net("chain", lambda: chain(8), FEED),
    "long": Net("chain", lambda: chain(50), (*FEED[:4], "run:300"), False),
    "late": Net("late", late, ("offer:go", RUN)),
    "flat": Net("flat", lambda: Flat(60, 7).text(), ("offer:go", "run:1200")),
    "large": Net("flat", lambda: Flat(400, 3).text(), ("offer:go", "run:1500"), False),
}
