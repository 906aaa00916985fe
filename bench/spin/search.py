#!/usr/bin/env python3
"""Is a deadlock reachable, or a clash? Spin looks for one: search.py NETLIST PART [--clash] [--shortest] [--values 0,1]

A deadlock is a state in which nothing can move, and no word of the host would be done. It needs Spin and a C compiler.
"""
import argparse
import re
import subprocess
import sys
import tempfile

from netlist import Net
from promela import model, numbers
from spin import make_verifier

FIGURES = re.compile(r"error:|states, stored|out of memory|max search depth")
# How many steps of a way are shown whole; of more the first and the last ten.
SHOWN = 60


def options():
    words = argparse.ArgumentParser(description=__doc__)
    words.add_argument("netlist")
    words.add_argument("part")
    words.add_argument("--clash", action="store_true", help="look for a clash: two callers at a mixer at once")
    words.add_argument("--shortest", action="store_true", help="look for the shortest way")
    words.add_argument("--values", type=numbers, default=[0, 1], help="the values that the host has")
    words.add_argument("--memory", type=int, default=4000, help="the most memory, in MB")
    return words.parse_args()


def search(net, asked, room):
    """What the verifier says, and the steps of the way to what it found."""
    flags = ["-O2", "-DSAFETY", "-DCOLLAPSE", f"-DMEMLIM={asked.memory}", "-DVECTORSZ=8192"]
    # (a clash is no end, and steps that commute may not be left out before it)
    flags += ["-DREACH"] * asked.shortest + ["-DNOREDUCE"] * asked.clash
    make_verifier(model(net, asked.values, asked.clash), room, flags)
    call = ["./pan", "-m1000000", *["-E"] * asked.clash, *["-i"] * asked.shortest]
    said = subprocess.run(call, cwd=room, stdout=subprocess.PIPE, text=True, check=False).stdout
    if "errors: 0" in said:
        return said, None
    way = subprocess.run(["spin", "-t", "model"], cwd=room, stdout=subprocess.PIPE, text=True, check=False).stdout
    return said, [line.strip().removeprefix("@") for line in way.splitlines() if "@" in line]


def main():
    asked = options()
    with open(asked.netlist, "rb") as file:
        net = Net(file.read(), asked.part)
    what = "a clash" if asked.clash else "a deadlock"
    with tempfile.TemporaryDirectory() as room:
        said, steps = search(net, asked, room)
    print("\n".join(line.strip() for line in said.splitlines() if FIGURES.search(line)))
    if steps is None:
        print(f"{what} is not reachable")
        return 0
    print(f"{what} after {len(steps)} steps:")
    print("\n".join(steps if len(steps) <= SHOWN else [*steps[:10], "..", *steps[-10:]]))
    return 1


if __name__ == "__main__":
    sys.exit(main())
