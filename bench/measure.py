#!/usr/bin/env python3
"""Measures programs with the command line of breezesim side by side.

    measure.py [--counts | --times] [PROGRAM [OTHER]]    MOVES=1000000, ROUNDS=3 and TURNS=20 may be set in the environment

With no PROGRAM it is the one that ./breezesim runs, which is what is shipped; the first line says which that is.

Each row is one workload, and where there are two programs, how many times as much the first takes. First come the instructions
that callgrind counts (a part of valgrind): those of a move and of a line that is checked, from the 20,000th to the 220,000th, in
millions those of opening and listing a netlist, and those of a call of a command; last with the part named, with none named, and
so as at a terminal. They are the same each time. What a program refuses, as one that knows fewer commands, has no figure. Then
come nanoseconds of a processor that a move takes, with the system's: the best of TURNS short runs of each program, in turn. Then
times by the clock: the best of each program in seconds, its memory at its greatest in MB, and its page faults. A row of moves
leaves out the time of the same command without any. No figure of memory is below that of Python itself, some 15 MB, out of which
the programs are started. The largest netlists are opened a second time with what the launcher tells the C library of memory, as
./breezesim opens them. --counts shows the instructions alone, --times the times alone. The netlists are made by netlists.py,
hostnets.py (one large component) and kindnets.py (one family of kinds), in a folder that goes away.
"""
import os
import re
import shutil
import subprocess
import sys
import tempfile
import time
from typing import NamedTuple

sys.dont_write_bytecode = True
import kindnets

HERE = os.path.dirname(os.path.abspath(__file__))
MOVES = int(os.environ.get("MOVES", "1000000"))
ROUNDS = int(os.environ.get("ROUNDS", "3"))
TURNS = int(os.environ.get("TURNS", "20"))
FIRST, COUNTED = 20_000, 200_000
MOVING = [("pipeline", 10), ("pipeline", 1000), ("loops", 64), ("loops", 4096), ("array", 16), ("array", 4096)]
# Nets of bench/hostnets.py, one large component each.
MEMBERS = [(shape, size) for shape in ("call", "case", "concur", "sequence", "passivator") for size in (8, 64, 512, 4096)]
OPENED = [("large", 100000), ("pipeline", 10000), ("tree", 100000)]
# Calls: a command, the netlist, and of how many moves the trace is, where it reads one.
CALLS = [("list", "large", 20000, 0), ("draw", "pipeline", 800, 0), ("lint", "pipeline", 1000, 0)]
CALLS += [(command, "pipeline", 10, 1000) for command in ("check", "chart", "page")]
# How a call says which part it opens: by name; not at all, so that it is the one on top; and so with notes, as the launcher calls
# at a terminal.
WAYS = [("named", ["--part", "bench"]), ("on top", []), ("at a terminal", ["--explain"])]


def run(words, way=WAYS[0][1]):
    return ["run", *way, "--journal", "16777216", *words]


def moving(moves):
    return run(["offer:go", f"run:{moves}"])


class Netlists:
    """The netlists that were made so far."""

    def __init__(self, folder):
        self.folder = folder

    def path(self, shape, size):
        return self.made("netlists.py", shape, str(size))

    def made(self, script, *words):
        """A netlist that a script of this folder writes."""
        path = os.path.join(self.folder, "".join(words))
        if not os.path.exists(path):
            with open(path, "wb") as text:
                subprocess.run([sys.executable, os.path.join(HERE, script), *words], stdout=text, check=True)
        return path

    def with_trace(self, program, shape, size, moves):
        """A netlist with the trace of so many moves behind it."""
        netlist, path = self.path(shape, size), os.path.join(self.folder, f"{shape}{size}-{moves}")
        if not os.path.exists(path):
            with open(netlist, "rb") as text, open(path, "wb") as both:
                both.write(text.read())
                both.flush()
                text.seek(0)
                subprocess.run([program, *moving(moves)], stdin=text, stdout=both, check=True)
        return path


def nets_of_moves(netlists):
    """Each net whose moves are measured, with its name."""
    for shape, size in MOVING:
        yield f"{shape} {size}", netlists.path(shape, size)
    for shape, size in MEMBERS:
        yield f"{shape} of {size}", netlists.made("hostnets.py", shape, str(size))
    for kind in kindnets.NETS:
        yield kind, netlists.made("kindnets.py", kind)


# Instructions.


def counted(program, arguments, text):
    """The instructions of a program on a text."""
    words = ["valgrind", "--tool=callgrind", "--callgrind-out-file=/dev/null", program, *arguments]
    with open(text, "rb") as given:
        ended = subprocess.run(words, stdin=given, stdout=subprocess.DEVNULL, stderr=subprocess.PIPE)
    found = re.search(rb"Collected : (\d+)", ended.stderr)
    if ended.returncode != 0 or found is None:
        said = ended.stderr.decode(errors="replace").splitlines()
        print(f"    {program}:", *(it for it in said if not it.startswith("==")))
        return None
    return int(found[1])


def show_counts(label, counts, form):
    cells = ["refused" if it is None else form(it) for it in counts]
    if len(counts) == 2 and None not in counts and counts[1] > 0:
        cells.append(f"{counts[0] / counts[1]:6.2f} times")
    print(f"{label:40}" + "  ".join(cells), flush=True)


def each(count):
    return f"{count:10.1f}"


def millions(count):
    return f"{count / 1e6:8.2f} M"


def show_each(label, programs, count_of):
    """The instructions of one move or line: `count_of` tells those of a program for so many."""
    def one(program):
        few, many = count_of(program, FIRST), count_of(program, FIRST + COUNTED)
        return None if few is None or many is None else (many - few) / COUNTED

    show_counts(label, [one(p) for p in programs], each)


def counts(programs, netlists):
    for name, netlist in nets_of_moves(netlists):
        show_each(f"{name}: a move", programs, lambda p, n: counted(p, moving(n), netlist))
    for shape, size in [("pipeline", 1000), ("loops", 64)]:
        show_each(f"{shape} {size}: a line checked", programs, lambda p, n: counted(
            p, ["check", "--part", "bench"], netlists.with_trace(programs[0], shape, size, n)))
    for shape, size in OPENED:
        netlist = netlists.path(shape, size)
        show_counts(f"{shape} {size}: listed", [counted(p, ["list", "--part", "bench"], netlist) for p in programs], millions)
        show_counts(f"{shape} {size}: opened", [counted(p, run(["run:0"]), netlist) for p in programs], millions)
    for command, shape, size, moves in CALLS:
        text = netlists.with_trace(programs[0], shape, size, moves) if moves else netlists.path(shape, size)
        words = [command] if command == "lint" else [command, "--part", "bench"]
        label = f"{shape} {size}: {command}" + (f" of {moves} moves" if moves else "")
        show_counts(label, [counted(p, words, text) for p in programs], millions)
    counts_by_way(programs, netlists)


def counts_by_way(programs, netlists):
    large, loops = netlists.path("large", 10000), netlists.path("loops", 64)
    for name, way in WAYS:
        show_counts(f"large 10000: listed, {name}", [counted(p, ["list", *way], large) for p in programs], millions)
        show_counts(f"large 10000: opened, {name}", [counted(p, run(["run:0"], way), large) for p in programs], millions)
        words = run(["offer:go", f"run:{COUNTED}"], way)
        show_counts(f"loops 64: {COUNTED} moves, {name}", [counted(p, words, loops) for p in programs], millions)


# A processor's time.


def processor_time(program, arguments, netlist):
    """The seconds that a call takes of a processor, with the system's; None where the program refuses."""
    with open(netlist, "rb") as text:
        child = subprocess.Popen([program, *arguments], stdin=text, stdout=subprocess.DEVNULL, stderr=subprocess.DEVNULL)
        _, status, used = os.wait4(child.pid, 0)
    child.returncode = os.waitstatus_to_exitcode(status)
    return used.ru_utime + used.ru_stime if child.returncode == 0 else None


def best_in_turn(programs, netlist):
    """The nanoseconds of a processor that a move takes: the best of short runs of each program in turn."""
    full, empty = [[] for _ in programs], [[] for _ in programs]
    for _ in range(TURNS):
        for place, program in enumerate(programs):
            full[place].append(processor_time(program, moving(MOVES), netlist))
            empty[place].append(processor_time(program, run(["run:0"]), netlist))
    refused = [None in moved or None in opened for moved, opened in zip(full, empty)]
    return [None if no else (min(f) - min(e)) * 1e9 / MOVES for no, f, e in zip(refused, full, empty)]


def processor_times(programs, netlists):
    for name, netlist in nets_of_moves(netlists):
        show_counts(f"{name}: a move, ns of a processor", best_in_turn(programs, netlist), each)


# Times and memory.


class Measured(NamedTuple):
    """The best time of some rounds, the greatest memory in MB, and the fewest page faults that no disk served."""

    seconds: float
    memory: float
    faults: int


def launcher_settings():
    """The environment in which the launcher runs a program."""
    with open(os.path.join(HERE, os.pardir, "breezesim")) as launcher:
        settings = re.search(r"^settings=(\S+)$", launcher.read(), re.MULTILINE)[1]
    return {**os.environ, "GLIBC_TUNABLES": settings}


def measured(program, arguments, netlist, settings=None):
    """What a call takes; None where the program refuses."""
    rounds = []
    for _ in range(ROUNDS):
        with open(netlist, "rb") as text, tempfile.TemporaryFile() as said:
            begin = time.monotonic()
            child = subprocess.Popen([program, *arguments], stdin=text, stdout=subprocess.DEVNULL, stderr=said, env=settings)
            _, status, used = os.wait4(child.pid, 0)
            took = time.monotonic() - begin
            child.returncode = os.waitstatus_to_exitcode(status)
            if child.returncode != 0:
                said.seek(0)
                print(f"    {program}: {said.read().decode(errors='replace').strip()}")
                return None
        rounds.append(Measured(took, used.ru_maxrss / 1024, used.ru_minflt))
    return Measured(min(it.seconds for it in rounds), max(it.memory for it in rounds), min(it.faults for it in rounds))


def show(label, all_measured):
    cells = ["refused" if it is None else f"{it.seconds:8.3f} s {it.memory:6.0f} MB {it.faults:7} faults" for it in all_measured]
    if len(all_measured) == 2 and None not in all_measured and all_measured[1].seconds > 0:
        cells.append(f"{all_measured[0].seconds / all_measured[1].seconds:6.1f} times")
    print(f"{label:40}" + "  ".join(cells), flush=True)


def without(all_measured, empty):
    """The same without the times of an empty run."""
    return [
        None if it is None or e is None else it._replace(seconds=max(it.seconds - e.seconds, 0.0))
        for it, e in zip(all_measured, empty)
    ]


def moves(programs, shape, size, netlist):
    empty = [measured(p, run(["run:0"]), netlist) for p in programs]
    show(f"{shape} {size}: opened", empty)
    full = [measured(p, moving(MOVES), netlist) for p in programs]
    show(f"{shape} {size}: {MOVES} moves", without(full, empty))


def pools(programs, shape, size, netlist):
    """The same moves by workers on threads, with what opening takes."""
    for workers in (1, 2, 4, 8):
        words = ["pool", "--part", "bench", "--journal", "16777216", "--workers", str(workers), "--fuel", str(MOVES), "offer:go"]
        show(f"{shape} {size}: {MOVES} moves by {workers}", [measured(p, words, netlist) for p in programs])


def times(programs, netlists):
    for shape, size in [*MOVING, ("pipeline", 100000), ("loops", 100000)]:
        moves(programs, shape, size, netlists.path(shape, size))
    pools(programs, "pipeline", 10000, netlists.path("pipeline", 10000))
    for shape in ("large", "tree"):
        text = netlists.path(shape, 1000000)
        print(f"{shape}: {os.path.getsize(text)} bytes")
        show(f"{shape}: listed", [measured(p, ["list", "--part", "bench"], text) for p in programs])
        show(f"{shape}: opened", [measured(p, run(["run:0"]), text) for p in programs])
        show(f"{shape}: opened, as launched", [measured(p, run(["run:0"]), text, launcher_settings()) for p in programs])
        for name, way in WAYS[1:]:
            show(f"{shape}: opened, {name}", [measured(p, run(["run:0"], way), text) for p in programs])


def shipped():
    """The program that ./breezesim runs, which is built where it must be."""
    launcher = os.path.join(HERE, os.pardir, "breezesim")
    program = subprocess.run([launcher, "--where"], stdout=subprocess.PIPE, text=True, check=True).stdout.strip()
    version = subprocess.run([launcher, "--version"], stdout=subprocess.PIPE, text=True, check=True).stdout
    print(program, "of", " ".join(version.split()), flush=True)
    return program


def main():
    words = sys.argv[1:]
    only = words.pop(0) if words and words[0] in ("--counts", "--times") else None
    if len(words) > 2 or any(it.startswith("-") for it in words):
        sys.exit(__doc__)
    words = words or [shipped()]
    with tempfile.TemporaryDirectory() as folder:
        netlists = Netlists(folder)
        if only == "--counts" and shutil.which("valgrind") is None:
            sys.exit("measure.py: instructions are counted by valgrind, which is not there")
        if only != "--times" and shutil.which("valgrind") is not None:
            counts(words, netlists)
        if only != "--counts":
            processor_times(words, netlists)
            times(words, netlists)


if __name__ == "__main__":
    main()
