"""Tests: how they are run, side by side, and how they are told."""

import multiprocessing
import os
import subprocess
import sys
from collections import Counter
from dataclasses import dataclass
from typing import Callable

from .module import LeftOut
from .program import SECONDS

TOP = os.path.dirname(os.path.dirname(os.path.dirname(os.path.realpath(__file__))))
EXAMPLES = f"{TOP}/examples"
# How many cases each group of tests has, so that none is lost unseen: with a `+`, at least so many.
COUNTS = f"{TOP}/tests/data/counts"


@dataclass(frozen=True)
class Test:
    """A case of a group. `play` answers what differs from what is wanted, or None."""

    group: str
    name: str
    play: Callable


def differ(wanted, found):
    """What is told where these two are not the same."""
    return None if wanted == found else f"{found!r} in place of {wanted!r}"


def jobs():
    """How many tests run at a time."""
    return int(os.environ.get("JOBS") or os.cpu_count() or 1)


_tests = []


def _play(place):
    try:
        return place, _tests[place].play()
    except LeftOut as why:
        return place, why
    except subprocess.TimeoutExpired:
        return place, f"no end within {SECONDS} seconds"
    except Exception as fault:  # (whatever goes wrong with a test, it has failed)
        return place, f"{type(fault).__name__}: {fault}"


def counts():
    """The numbers of cases that each group may have, as they are written down."""
    with open(COUNTS, encoding="utf-8") as it:
        words = [line.split() for line in it if line.strip() and not line.startswith("#")]
    return {group: range(least := int(count.rstrip("+")), sys.maxsize if "+" in count else least + 1) for group, count in words}


def run_all(groups, tests, faults=(), in_turn=8):
    """Runs the tests, so many in turn beside others, and tells of each that fails, then of each group how many it has. `faults`
    are groups that can't be tested, each with why. The last line is `N passed, M failed`; answers whether all passed."""
    global _tests
    _tests = tests
    failed, left_out = Counter(), Counter()
    with multiprocessing.get_context("fork").Pool(jobs()) as pool:
        for place, differs in pool.imap(_play, range(len(tests)), in_turn):
            if isinstance(differs, LeftOut):
                left_out[tests[place].group, str(differs)] += 1
            elif differs is not None:
                failed[tests[place].group] += 1
                print(f"{tests[place].group}: {tests[place].name}: {differs}")
    for group, why in faults:
        failed[group] += 1
        print(f"{group}: {why}")
    found, wanted = Counter(test.group for test in tests), counts()
    for group in groups:
        if found[group] not in wanted.get(group, ()) and group not in dict(faults):
            failed[group] += 1
            told = wanted[group].start if group in wanted else "none"
            print(f"{group}: {found[group]} cases in place of {told}, which tests/data/counts tells")
    for group in groups:
        how = f"{failed[group]} NOT as written" if failed[group] else "all as written"
        print(f"{group}: {found[group]} cases, {how}")
    for (group, why), count in left_out.items():
        print(f"{group}: {count} cases are left out: {why}")
    wrong = sum(failed.values())
    print(f"{max(len(tests) - wrong - sum(left_out.values()), 0)} passed, {wrong} failed")
    sys.stdout.flush()
    return not wrong
