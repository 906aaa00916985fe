"""What there is to prove in a library, counted as the toolchain's own record of it has it.

The record, NAME.rlib/toolchain/mir.json, has each function that the prover is given, also those that macros write and the drops
of what is owned, with its steps. It is the same on every machine. A call is a point, a function one, and a crate 50: of 12 crates
that were proved side by side that foretells the seconds of a processor to within a tenth, where lines of code are off by a fifth.
"""
import json

PER_CRATE = 50


class Points:
    """The points of a crate, by its library as it stands in out/rlib."""

    def __init__(self, functions):
        self.functions = functions
        self.calls = sum(calls for _, calls in functions)
        self.whole = PER_CRATE + len(functions) + self.calls

    def __str__(self):
        return f"{self.whole:,} points: {len(self.functions):,} functions, {self.calls:,} calls"


def points_of(top, name):
    """Returns the points of a crate, or None where its library does not stand there."""
    try:
        with open(f"{top}/crates/{name}/out/rlib/{name}.rlib/toolchain/mir.json", encoding="utf-8") as file:
            record = json.load(file)
    except OSError:
        return None
    return Points([(name, sum(isinstance(step, dict) and "Call" in step for step in body["body"])) for name, body in record])
