#!/usr/bin/env python3
"""Measures every command on nets of three sizes, so that what grows faster than its net is seen.

    scales.py PROGRAM [SIZE..]

Each row is a command, and for each size, else 10,000, 100,000 and 1,000,000 components, the seconds of a processor with the
system's that it takes, the best of two, and the greatest memory in MB. The net is `large` of netlists.py, and the trace that of
1,000 moves in it; the short trace and the bench are of one request. What the program refuses has its status instead. Sizes are ten times
each other, so times should be about ten times each other too, where a row's begin is more than a few milliseconds.
"""
import os
import subprocess
import sys
import tempfile

HERE = os.path.dirname(os.path.abspath(__file__))
SIZES = [10_000, 100_000, 1_000_000]
PLAYED = ["offer:go", "run:1000"]
ROUNDS = 2


def commands(folder):
    """The words of each command, and what it reads behind them."""
    net = ["-p", "bench", "-n", f"{folder}/net"]
    traced = [*net, "--trace", f"{folder}/trace"]
    return [
        ("list", ["list", *net], b""),
        ("list --paths", ["list", "--paths", *net], b""),
        ("parts", ["parts", "-n", f"{folder}/net"], b""),
        ("lint", ["lint", *net], b""),
        ("run of 1,000 moves", ["run", *net, *PLAYED], b""),
        ("check", ["check", *traced], b""),
        ("check --cover", ["check", *traced, "--cover", f"{folder}/cover"], b""),
        ("complete", ["complete", *net, f"{folder}/short"], b""),
        ("waits", ["waits", *traced], b""),
        ("chart of 50 lines", ["chart", *traced, "--from", "1", "--to", "50"], b""),
        ("draw --around", ["draw", *net, "--around", "3"], b""),
        ("page", ["page", *traced], b""),
        ("explore", ["explore", *net], b"offer:go\nrun 1000\nwaits all\nundo\n"),
        ("pool", ["pool", *net, "--fuel", "1000", "--", "offer:go"], b""),
        ("test", ["test", f"{folder}/bench.txt"], b""),
    ]


def took(program, words, given, folder):
    """Seconds, MB and the status of one call."""
    if os.path.exists(f"{folder}/cover"):
        os.remove(f"{folder}/cover")
    with open(f"{folder}/given", "wb") as text:
        text.write(given)
    with open(f"{folder}/given", "rb") as text:
        child = subprocess.Popen([program, *words], stdin=text, stdout=subprocess.DEVNULL, stderr=subprocess.DEVNULL, cwd=folder)
        _, status, used = os.wait4(child.pid, 0)
    child.returncode = os.waitstatus_to_exitcode(status)
    return used.ru_utime + used.ru_stime, used.ru_maxrss / 1024, child.returncode


def lay_out(program, size, folder):
    """The net, its trace, a short one and a bench."""
    with open(f"{folder}/net", "wb") as text:
        subprocess.run([sys.executable, f"{HERE}/netlists.py", "large", str(size)], stdout=text, check=True)
    with open(f"{folder}/trace", "wb") as trace:
        subprocess.run([program, "run", "-p", "bench", "-n", f"{folder}/net", *PLAYED], stdout=trace, check=True)
    with open(f"{folder}/short", "w", encoding="utf-8") as short:
        short.write("ask go\n")
    with open(f"{folder}/bench.txt", "w", encoding="utf-8") as bench:
        bench.write(":netlist net\n:part bench\ngo >\n")


def main(program, sizes):
    rows = {}
    for size in sizes:
        with tempfile.TemporaryDirectory() as folder:
            lay_out(program, size, folder)
            for name, words, given in commands(folder):
                all_took = [took(program, words, given, folder) for _ in range(ROUNDS)]
                seconds, memory, status = min(all_took)
                said = f"{seconds:7.3f} s {memory:5.0f} MB" if status == 0 else f"status {status:<2} {seconds:6.3f} s"
                rows.setdefault(name, []).append(said)
                print(f"{size:>9} {name:20} {said}", flush=True)
    print()
    for name, cells in rows.items():
        print(f"{name:20}", "   ".join(cells))


if __name__ == "__main__":
    if len(sys.argv) < 2:
        sys.exit(__doc__)
    main(os.path.abspath(sys.argv[1]), [int(it) for it in sys.argv[2:]] or SIZES)
