#!/usr/bin/env python3
"""Times programs with the command line of breezesim on texts made to be slow, each at three sizes.

    hostile.py PROGRAM [OTHER]      ROUNDS=3 may be set in the environment
    hostile.py --text ROW SIZE      writes the netlist of a row to standard output

Each line is one text: its bytes, and for each program the best time in seconds, the memory at its greatest in MB, and how many times
as much these are as at the size before (the sizes double). Where there are two programs, the last column is how many times as long the
first takes, less than 20 ms counting as 20. Both must answer alike.
"""
import hashlib
import os
import subprocess
import sys
import tempfile
import time

ROUNDS = int(os.environ.get("ROUNDS", "3"))
FLOOR = 0.02

ELEMENTS = 1600
INSTANCES = 1000
NAME_BYTES = 16000
PORTS = 16000
HOST_PORTS = 100000

# A component with both ends of the part's first channel.
KNOT = '(component "$BrzSequence" () (1 (1)))'

# Pairs of blocks that lead the library's default hash of a name of 120 bytes from one state to one state, each pair after those
# before it: by taking one of each pair, 2^15 names get one hash.
ALIKE = [
    "3d389d4fbe732c5d 876fe2fcac51fc33",
    "7dc172d354288c49 76c3a6f220a26d3c",
    "fa0eddd6d3e171f7 d4ac9dfcf42d592d",
    "2377942364a5b0dd 497feb21ab69e8d2",
    "39bd2b192f3171a9 38bfbfe86eb74cdd",
    "1c58cb114f4ec296 69fd47d227518eae",
    "ca6335f65af7583b af2e7c42fe3c1df4",
    "fbe68f99c340d864 af7fc0c24a93edec",
    "4f771ace1a03d295 89d510235931d144",
    "d43407b9469fb940 4eeaa0db2afb9337",
    "2595639dbf1de906 db8cafd566556c36",
    "37e503f1de14daf0 a0bc4aa4da0f5914",
    "836633196556d8a6 372be5d6d34aca56",
    "a7d8c644aed74aed ea35a2dbace4f9aa",
    "e6f67ad52fddfd36 d505235afbd7cd2b",
]


def part(name, components, channels=("(sync)",), ports=()):
    forms = [b'(breeze-part "%s"' % name.encode()]
    forms.append(b"(ports %s)" % " ".join(f'(sync-port "{port}" passive)' for port in ports).encode())
    forms.append(b"(channels %s)" % " ".join(channels).encode())
    forms.append(b"(components %s))\n" % " ".join(components).encode())
    return b" ".join(forms)


def instance(name, entries=()):
    return f'(component "{name}" () ({" ".join(map(str, entries))}))'


def copies(count, leaf):
    """Parts with two instances of the next each, down to as many copies of `leaf`."""
    levels = count.bit_length() - 1
    text = []
    for level in range(levels):
        below = "leaf" if level + 1 == levels else f"level{level + 1}"
        name = "bench" if level == 0 else f"level{level}"
        text.append(part(name, [instance(below)] * 2, channels=()))
    return b"".join(text) + leaf


def case_elements(count):
    """A Case with many elements in its specification."""
    elements = ",".join(str(2 * n) for n in range(ELEMENTS))
    case = f'(component "$BrzCase" (16 1 "{elements}") (1 (2)))'
    rest = ['(component "$BrzFetch" (16) (2 3 1))', '(component "$BrzConstant" (16 7) (3))']
    return copies(count, part("leaf", [case, *rest], channels=("(push 16)", "(sync)", "(pull 16)")))


def empty_instances(count):
    """Many instances of a part that adds nothing."""
    leaf = part("leaf", [KNOT] + [instance("empty")] * INSTANCES)
    return copies(count, leaf + part("empty", [], channels=()))


def long_name(count):
    """An instance of a part with a long name."""
    name = "n" * NAME_BYTES
    return copies(count, part("leaf", [instance(name)], channels=()) + part(name, [KNOT]))


def ports(count):
    """An instance with many ports that nobody uses."""
    names = [f"p{n}" for n in range(PORTS)]
    wide = part("wide", [f'(component "$BrzSequence" () ({PORTS + 1} ({PORTS + 1})))'], ["(sync)"] * (PORTS + 1), names)
    return copies(count, part("leaf", [instance("wide", [1] * PORTS)]) + wide)


def ports_down(count):
    """Many ports, handed down through several parts, one of which is used at the end."""
    names = [f"p{n}" for n in range(PORTS)]
    entries = list(range(1, PORTS + 1))
    text = [part("leaf", [instance("down0", [1] * PORTS)])]
    for level in range(8):
        text.append(part(f"down{level}", [instance(f"down{level + 1}", entries)], ["(sync)"] * PORTS, names))
    text.append(part("down8", [f'(component "$BrzSequence" () ({PORTS} ({PORTS})))'], ["(sync)"] * PORTS, names))
    return copies(count, b"".join(text))


def chain(count):
    """A chain of parts, deeper than a net may be."""
    text = [part("bench", [instance("p1")], ())]
    text += [part(f"p{n}", [instance(f"p{n + 1}")], ()) for n in range(1, count - 1)]
    return b"".join(text) + part(f"p{count - 1}", [], ())


def circle(count):
    """The same, whose last part has itself."""
    text = [part("bench", [instance("p1")], ())]
    text += [part(f"p{n}", [instance(f"p{n + 1}")], ()) for n in range(1, count - 1)]
    return b"".join(text) + part(f"p{count - 1}", [instance(f"p{count - 1}")], ())


def host_words(count):
    """A part with many external ports."""
    return part("bench", [], ["(sync)"] * HOST_PORTS, [f"p{n}" for n in range(HOST_PORTS)])


def alike(count):
    """Names of one hash."""
    pairs = [[bytes.fromhex(block) for block in pair.split()] for pair in ALIKE]
    return [b"".join(pair[n >> place & 1] for place, pair in enumerate(pairs)) for n in range(count)]


def alike_names(count):
    """Parts with such names."""
    return part("bench", [KNOT]) + b"".join(b'(breeze-part "%s")\n' % name for name in alike(count))


def alike_ports(count):
    """Ports with such names."""
    named = b" ".join(b'(sync-port "%s" passive)' % name for name in alike(count))
    return b'(breeze-part "bench" (ports %s) (channels %s))\n' % (named, b" ".join([b"(sync)"] * count))


def list_net(count):
    return ["list", "--part", "bench"]


def watch_last(count):
    return ["run", "--part", "bench", *(f"watch:p{HOST_PORTS - 1 - n}" for n in range(count))]


# name, text, words, the greatest size
ROWS = [
    ("case_elements", case_elements, list_net, 2**18),
    ("empty_instances", empty_instances, list_net, 2**18),
    ("long_name", long_name, list_net, 2**17),
    ("ports", ports, list_net, 2**15),
    ("ports_down", ports_down, list_net, 2**15),
    ("chain", chain, list_net, 16000),
    ("circle", circle, list_net, 16000),
    ("host_words", host_words, watch_last, 5000),
    ("alike_names", alike_names, list_net, 2**15),
    ("alike_ports", alike_ports, list_net, 2**15),
]


def measure(program, arguments, netlist):
    """The best time of some rounds and the greatest memory in MB, and what was answered."""
    best, most, said = None, 0.0, None
    for _ in range(ROUNDS):
        with open(netlist, "rb") as text, tempfile.TemporaryFile() as out, tempfile.TemporaryFile() as err:
            begin = time.monotonic()
            child = subprocess.Popen([program, *arguments], stdin=text, stdout=out, stderr=err)
            _, status, used = os.wait4(child.pid, 0)
            took = time.monotonic() - begin
            child.returncode = os.waitstatus_to_exitcode(status)
            out.seek(0)
            err.seek(0)
            # a fault line begins with the program's name
            said = (child.returncode, hashlib.file_digest(out, "sha256").hexdigest(), err.read().split(b": ", 1)[-1])
        best = took if best is None else min(best, took)
        most = max(most, used.ru_maxrss / 1024)
    return best, most, said


def show(row, size, length, now, before):
    cells = [f"{row:16} {size:7} {length:9} bytes"]
    for place, (took, memory, _) in enumerate(now):
        grown = ""
        if before:
            grown = f" ({max(took, FLOOR) / max(before[place][0], FLOOR):4.1f} {memory / before[place][1]:4.1f})"
        cells.append(f"{took:8.3f} s {memory:6.0f} MB{grown:12}")
    if len(now) == 2:
        cells.append(f"{max(now[0][0], FLOOR) / max(now[1][0], FLOOR):6.1f} times")
        if now[0][2] != now[1][2]:
            cells.append("ANSWERS DIFFER")
    print("  ".join(cells), flush=True)


def main():
    if len(sys.argv) == 4 and sys.argv[1] == "--text":
        text = {name: make for name, make, _, _ in ROWS}[sys.argv[2]]
        sys.stdout.buffer.write(text(int(sys.argv[3])))
        return
    programs = sys.argv[1:]
    if not 1 <= len(programs) <= 2:
        sys.exit(__doc__)
    with tempfile.TemporaryDirectory() as folder:
        for name, _, words, most in ROWS:
            before = None
            for size in (most // 4, most // 2, most):
                path = os.path.join(folder, "netlist")
                # in another process: what this one had at its greatest is counted for the programs that it starts
                with open(path, "wb") as text:
                    subprocess.run([sys.executable, __file__, "--text", name, str(size)], stdout=text, check=True)
                now = [measure(program, words(size), path) for program in programs]
                show(name, size, os.path.getsize(path), now, before)
                before = now


if __name__ == "__main__":
    main()
