#!/usr/bin/env python3
"""Counts what goes by ports, groups and picks, at two sizes of which the second is four times the first.

    growth.py PROGRAM [SMALLER]

Each row is a call, the millions of instructions that callgrind (a part of valgrind) counts at SMALLER, else 4,000, and at four times
as many, and how many times as much the second takes: about 4 where a word and a pick take as long however many there are.

- A net has so many ports, each with a Continue, and a bench a line for each of them: `test`, from a seed as well, and `drain` at each
  of them, two runs, and `random`.
- A bench of the buffer has so many groups, of one value each.
- A tree of Concurs has as many components that can move as it has leaves, and is played from a seed: `test` and `random`.
"""
import os
import sys
import tempfile

HERE = os.path.dirname(os.path.abspath(__file__))
sys.path.insert(0, HERE)
sys.dont_write_bytecode = True
from measure import counted

SMALLER = 4096
BUFFER = f"{HERE}/../examples/buffer.breeze"


def part(name, ports, chans, comps):
    return f'(breeze-part "{name}" (ports {ports}) (channels {chans}) (components {comps}))\n'


def ports(count):
    """So many ports, each with a Continue."""
    each = range(1, count + 1)
    made = "".join(f'(sync-port "p{it}" passive)' for it in each)
    return part("m", made, "(sync)" * count, "".join(f'(component "$BrzContinue" () ({it}))' for it in each))


def tree(count):
    """A tree of Concurs of two with so many leaves, a power of two."""
    text = part("t1", '(sync-port "a" passive)', "(sync)", '(component "$BrzContinue" () (1))')
    leaves = 1
    while leaves < count:
        leaves *= 2
        below = "".join(f'(component "t{leaves // 2}" () ({it}))' for it in (2, 3))
        text += part(f"t{leaves}", '(sync-port "a" passive)', "(sync)(sync)(sync)", f'(component "$BrzConcur" (2) (1 (2 3))){below}')
    return text


def lay_out(folder, count):
    """The nets and benches of a size."""
    files = {
        "ports": ports(count),
        "tree": tree(count),
        "ports.bench": "".join(f"p{it} .\n" for it in range(1, count + 1)),
        "tree.bench": "a .\n",
        "groups.bench": "activate >\n" + ":then\n".join(f"i {it % 256}\no {it % 256}\n" for it in range(count)),
        "drains": "".join(f"drain p{it} 1\n" for it in range(1, count + 1)) + "run\nrun\n",
        "offers": "".join(f"offer:p{it}\n" for it in range(1, count + 1)) + "random 100000000\n",
        "random": "offer:a\nrandom 100000000\n",
        "nothing": "",
    }
    for name, text in files.items():
        with open(f"{folder}/{name}", "w", encoding="utf-8") as file:
            file.write(text)


def calls(folder, count):
    """What is called: its label, its words, and what it reads."""
    of_ports, of_tree = ["-p", "m", "-n", f"{folder}/ports"], ["-p", f"t{count}", "-n", f"{folder}/tree"]
    return [
        ("test, a line for each port", ["test", *of_ports, f"{folder}/ports.bench"], "nothing"),
        ("the same, from a seed", ["test", "--seed", "1", *of_ports, f"{folder}/ports.bench"], "nothing"),
        ("explore, drain at each port, and run", ["explore", *of_ports], "drains"),
        ("explore, offers at each, and random", ["explore", *of_ports], "offers"),
        ("test, so many groups", ["test", "-n", BUFFER, f"{folder}/groups.bench"], "nothing"),
        ("test, a tree, from a seed", ["test", "--seed", "1", *of_tree, f"{folder}/tree.bench"], "nothing"),
        ("explore, random in a tree", ["explore", *of_tree], "random"),
    ]


def main(program, smaller=SMALLER):
    smaller = int(smaller)
    sizes = (smaller, 4 * smaller)
    print(f"{'Millions of instructions':40}" + "".join(f"{it:>12,}" for it in sizes) + f"{'ratio':>8}")
    with tempfile.TemporaryDirectory() as folder:
        counts = {}
        for size in sizes:
            lay_out(folder, size)
            for label, words, given in calls(folder, size):
                counts.setdefault(label, []).append(counted(program, words, f"{folder}/{given}"))
    for label, (first, second) in counts.items():
        print(f"{label:40}{first / 1e6:12.1f}{second / 1e6:12.1f}{second / first:8.2f}")


if __name__ == "__main__":
    if not 2 <= len(sys.argv) <= 3:
        sys.exit(__doc__)
    main(*sys.argv[1:])
