#!/usr/bin/env python3
"""Is a wrong process seen? wrong.py PROGRAM [--random N]

Wrong processes stand in the model of one kind in turn, and nets are compared with the program until one differs: those of the
atlas, or N random ones round a component of that kind. A model that Spin or the graph's reader refuses is seen too. With the
true process that net may not differ. It needs Spin and a C compiler.
"""
import argparse
import random
import subprocess
import sys

import atlas
import terms
from compare import compared
from spin import TooLarge

# (spin has put tests/ on the path)
from playing.program import Program
from random_netlists import SMALL, Netlist, kinds_of

FEW_STATES = 600


def changed(term, change):
    """The term with `change` made at each subterm, the outermost first. Where it answers None the subterm stays."""
    if not isinstance(term, tuple):
        return term
    found = change(term)
    return found if found is not None else tuple(changed(it, change) for it in term)


def is_enclosed(term):
    return term[0] == "seq" and len(term) > 2 and term[1][0] == "take" and term[-1][0] == "reply"


def one_by_one(term):
    return changed(term, lambda it: ("seq", *it[1:]) if it[0] == "par" else None)


def at_once(term):
    return changed(term, lambda it: ("seq", it[1], ("par", *it[2:-1]), it[-1]) if is_enclosed(it) and len(it) > 3 else None)


def early_reply(term):
    return changed(term, lambda it: ("seq", it[1], it[-1], *it[2:-1]) if is_enclosed(it) else None)


def last_choice(term):
    return changed(term, lambda it: it[-1] if it[0] == "choice" else None)


def once(term):
    return changed(term, lambda it: it[1] if it[0] == "forever" else None)


def other_arm(term):
    return changed(term, lambda it: ("if", it[1], it[3], it[2]) if it[0] == "if" else None)


def replying(term):
    return ("forever", ("seq", term, ("reply", "inp", None)))


def with_text(old, new):
    """A change of all texts within a term."""

    def change(term):
        if isinstance(term, str):
            return term.replace(old, new)
        return tuple(map(change, term)) if isinstance(term, tuple) else term

    change.__name__ = f"{old.strip()} for {new.strip()}"
    return change


UNSIGNED = with_text("SX(", "UX(")
WRONG = [
    ("Concur", one_by_one), ("Sequence", at_once), ("Fetch", early_reply), ("Concur", early_reply), ("Call", last_choice),
    ("Arbiter", last_choice), ("DecisionWait", one_by_one), ("Passivator", one_by_one), ("Synch", one_by_one),
    ("SynchPull", one_by_one), ("PassivatorPush", one_by_one), ("Case", other_arm), ("CaseFetch", other_arm), ("Bar", other_arm),
    ("Split", one_by_one), ("ForkPush", one_by_one), ("BinaryFunc", one_by_one), ("CombineEqual", one_by_one),
    ("Combine", one_by_one), ("FalseVariable", one_by_one), ("FalseVariable", early_reply), ("Variable", one_by_one),
    ("Loop", once), ("Continue", once), ("Constant", once), ("WireFork", one_by_one), ("Fork", early_reply), ("Adapt", UNSIGNED),
    ("BinaryFunc", UNSIGNED), ("BinaryFuncConstR", UNSIGNED), ("BinaryFunc", with_text("<", "<=")),
    ("Slice", with_text(">> ", ">> 1+")), ("Combine", with_text("<< ", "<< 1+")), ("CallMux", early_reply),
    ("CallDemux", last_choice), ("While", early_reply), ("Halt", replying), ("HaltPush", replying),
    ("UnaryFunc", with_text("- 1", "- 2")), ("ContinuePush", once), ("SequenceOptimised", at_once),
]


def nets_of(kinds, kind, count):
    """So many random nets round a component of a kind, or those of the atlas, each with the values of the host."""
    for number in range(1, count + 1):
        yield Netlist(random.Random(1000 + number), kinds, SMALL, kind).part(), (0, 7)
    for name, netlist, values in [] if count else atlas.nets(kinds):
        if name.split(" ")[0] == kind:
            yield netlist, values


def fault_of(program, kind, process, netlist, values):
    """What differs in a net where components of a kind have this process, or None."""
    true, terms.PROCESSES[kind] = terms.PROCESSES[kind], process
    try:
        return compared(program, kind, netlist, "p", values, FEW_STATES)[0]
    except subprocess.TimeoutExpired as late:
        raise TooLarge("the walk takes too long") from late
    except (ValueError, subprocess.CalledProcessError) as refused:
        return str(refused)
    finally:
        terms.PROCESSES[kind] = true


def first_seen(program, kind, change, nets):
    """Which net differs with the wrong process, if one does, and how many were compared."""
    true, tried = terms.PROCESSES[kind], 0
    for number, (netlist, values) in enumerate(nets, 1):
        try:
            fault = fault_of(program, kind, lambda it: change(true(it)), netlist, values)
            if fault and fault_of(program, kind, true, netlist, values):
                sys.exit(f"with the true process it differs too:\n{netlist}")
        except TooLarge:
            continue
        tried += 1
        if fault:
            return number, tried
    return None, tried


def main():
    words = argparse.ArgumentParser(description=__doc__)
    words.add_argument("program")
    words.add_argument("--random", type=int, default=0)
    asked = words.parse_args()
    program, missed = Program(asked.program), 0
    kinds = kinds_of(program)
    for kind, change in WRONG:
        seen, tried = first_seen(program, kind, change, nets_of(kinds, kind, asked.random))
        missed += not seen
        print(f"{kind} {change.__name__}: {f'seen in net {seen}' if seen else f'NOT SEEN in {tried} nets'}", flush=True)
    print(f"{len(WRONG)} wrong processes, {missed} not seen")


if __name__ == "__main__":
    sys.exit(main())
