#!/usr/bin/env python3
"""Measures pools: beside sessions that wait, with sessions that play, and at their end.

    pools.py PROGRAM [ROUNDS]

The first rows are of a pool that fires FIRINGS times on 1,000 buffers, with 1, 2, 4 and 8 workers, beside no session that waits and
beside 16: the microseconds of a processor that a firing takes, with the system's, where what the pool takes that fires nothing is
left out, and how often threads were switched in a hundred firings. Then 1, 2 and 16 sessions play PLAYED rounds of words, all
together, each on a buffer of its own: the seconds by the clock, those of a processor, and switches a word. The last rows are of
ENDED firings: with 16 sessions that end at once, with 8 workers, and with both, beside those of one session and one worker. The
first figures of these are of all threads, the last of the main thread alone: it closes the net once the others are joined,
compares each session and each worker with the journal, and writes the trace.

Times are the best of ROUNDS, else 5, and those in a row are taken in turn; switches are the most.
"""
import os
import subprocess
import sys
import tempfile
import time
from typing import NamedTuple

HERE = os.path.dirname(os.path.abspath(__file__))
FIRINGS, PLAYED, ENDED = 150_000, 10_000, 1_000_000
WORKERS = (1, 2, 4, 8)
SESSIONS = (1, 2, 16)
# the first session offers and then waits for ever, as the others do from the beginning
WAITING = ["offer:go", "collect:go"] + ["/", "offer:go"] * 15
ALONE = ["offer:go"]
ENDING = ["offer:go"] + ["/", "watch:go"] * 15


class Took(NamedTuple):
    """Seconds by the clock, those of a processor, the main thread's among them, and switches of threads."""

    clock: float
    seconds: float
    closing: float
    switches: int


def took(program, netlist, workers, fuel, words):
    """What a pool takes of the net in a file. The words come from a file."""
    options = ["--journal", "16777216", "--workers", str(workers), "--fuel", str(fuel), "--words", words]
    begin = time.perf_counter()
    with open(netlist, "rb") as text:
        child = subprocess.Popen(
            [program, "pool", "--part", "bench", *options], stdin=text, stdout=subprocess.DEVNULL, stderr=subprocess.DEVNULL
        )
        os.waitid(os.P_PID, child.pid, os.WEXITED | os.WNOWAIT)
        clock = time.perf_counter() - begin
        with open(f"/proc/{child.pid}/task/{child.pid}/schedstat", encoding="ascii") as own:
            closing = int(own.read().split()[0]) / 1e9
        _, status, used = os.wait4(child.pid, 0)
    child.returncode = os.waitstatus_to_exitcode(status)
    if child.returncode not in (0, 3):
        sys.exit(f"pools.py: {' '.join(options)}: status {child.returncode}")
    return Took(clock, used.ru_utime + used.ru_stime, closing, used.ru_nvcsw + used.ru_nivcsw)


def in_turn(program, rounds, pools):
    """What each of some pools takes, run in turn: the best times of some rounds, and the most switches."""
    runs = [[took(program, *pool) for pool in pools] for _ in range(rounds)]
    columns = [list(zip(*its)) for its in zip(*runs)]
    return [Took(min(clock), min(seconds), min(closing), max(switches)) for clock, seconds, closing, switches in columns]


def fires(program, rounds, pools):
    """The same, in turn with pools that fire nothing, whose times are left out."""
    idle = [(netlist, workers, 0, words) for netlist, workers, _, words in pools]
    each = in_turn(program, rounds, pools + idle)
    pairs = zip(each[: len(pools)], each[len(pools) :])
    return [Took(it.clock - no.clock, it.seconds - no.seconds, it.closing - no.closing, it.switches) for it, no in pairs]


def write(folder, name, text):
    path = os.path.join(folder, name)
    with open(path, "w", encoding="ascii") as file:
        file.write(text)
    return path


def buffers_of(count):
    """A net of some buffers, each with three ports of its own."""
    ports, channels, inside, components = [], [], [], []
    for k in range(count):
        ports.append(f'(sync-port "go{k}" passive) (port "in{k}" active input) (port "out{k}" active output)')
        channels.append("(sync) (pull 8) (push 8)")
        inside.append("(sync) (sync) (sync) (push 8) (pull 8)")
        go, source, sink = range(3 * k + 1, 3 * k + 4)
        loop, first, second, kept, read = range(3 * count + 5 * k + 1, 3 * count + 5 * k + 6)
        components.append(
            f'(component "$BrzVariable" (8 1 "x" "") ({kept} ({read})))'
            f' (component "$BrzLoop" () ({go} {loop}))'
            f' (component "$BrzSequence" (2) ({loop} ({first} {second})))'
            f' (component "$BrzFetch" (8) ({first} {source} {kept}))'
            f' (component "$BrzFetch" (8) ({second} {read} {sink}))\n'
        )
    items = f"(ports {' '.join(ports)})\n(channels {' '.join(channels)} {' '.join(inside)})\n(components\n{''.join(components)})"
    return f'(breeze-part "bench"\n{items})\n'


def plays_of(count):
    """Words of some sessions, each of which takes its part of the rounds through its own buffer."""
    rounds = PLAYED // count
    return "\n/\n".join(
        f"offer:go{k}\n" + f"accept:in{k} answer:in{k}:7 accept:out{k} answer:out{k}\n" * rounds for k in range(count)
    )


def main(program, rounds):
    with tempfile.TemporaryDirectory() as folder:
        pipeline = os.path.join(folder, "pipeline")
        with open(pipeline, "wb") as text:
            subprocess.run([sys.executable, f"{HERE}/netlists.py", "pipeline", "1000"], stdout=text, check=True)
        alone, waiting, ending = (
            write(folder, name, " ".join(words)) for name, words in (("alone", ALONE), ("waiting", WAITING), ("ending", ENDING))
        )
        for workers in WORKERS:
            rows = fires(program, rounds, [(pipeline, workers, FIRINGS, it) for it in (alone, waiting)])
            cells = "  ".join(f"{it.seconds * 1e6 / FIRINGS:6.3f} us {it.switches * 100 / FIRINGS:6.2f} switches" for it in rows)
            print(f"{workers} workers, none waits, 16 wait:  {cells}  {rows[1].seconds / rows[0].seconds:5.2f} times", flush=True)
        for count in SESSIONS:
            netlist, words = write(folder, "buffers", buffers_of(count)), write(folder, "plays", plays_of(count))
            for workers in WORKERS:
                [it] = in_turn(program, rounds, [(netlist, workers, 2**64 - 1, words)])
                print(f"{count} sessions play, {workers} workers:  {it.clock:6.3f} s by the clock  {it.seconds:6.3f} s of a processor"
                      f"  {it.switches / (4 * PLAYED):6.2f} switches a word", flush=True)
        for workers, sessions, words in ((1, 16, ending), (8, 1, alone), (8, 16, ending)):
            few, many = fires(program, rounds, [(pipeline, 1, ENDED, alone), (pipeline, workers, ENDED, words)])
            print(f"{sessions} sessions, {workers} workers beside one and one:  {many.seconds:6.3f} s  {few.seconds:6.3f} s"
                  f"  {many.seconds / few.seconds:5.2f} times,  main thread  {many.closing:6.3f} s  {few.closing:6.3f} s"
                  f"  {many.closing / few.closing:5.2f} times", flush=True)


if __name__ == "__main__":
    if len(sys.argv) not in (2, 3):
        sys.exit(__doc__)
    main(sys.argv[1], int((sys.argv[2:] or ["5"])[0]))
