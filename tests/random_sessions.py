"""Sessions of `explore` made at random, for tests/same-answers."""
from random_netlists import number

HOST = ["offer", "collect", "accept", "answer", "watch"]
REPLIES = ["done", "busy", "not-yet", "not-taken", "idle", "asked", "taken", "value 0", "value 5"]
SLIPS = ["mvoes", "fire", "offer", "offer:", "expect", "run x", "run 1 2", "fire 1 1 1", "undo -1", "seed +1", "?", "help fire", "help fir",
         "help offer", "help help help", "trace", "trace! ", "q x", "waits all all", "wait", "\t moves  # so", "# nothing", "", "watch:%",
         "offer:c1:5:6", "answer:c1:x", "foo:bar", "trace no/file", "trace! no/file", "session t!", "run! 5", "%23", "state 0", "waits 0",
         "fire 0", "random 0", "run 0", "expect done", "help session!", "exit!", "\u00e9", "run\u00a01"]


def lines_of(pick, ports, comps):
    """The lines of a session with a net that has these ports and so many components."""
    lines = [line_of(pick, ports, comps) for _ in range(pick.choice([5, 20, 40, 80]))]
    return "\n".join(lines).encode() + pick.choice([b"\n", b"", b"\n\xff\xfe moves\nquit\nmoves\n"])


def line_of(pick, ports, comps):
    comp = pick.randint(1, comps + 1) if pick.random() < 0.95 else number(pick)
    port = pick.choice(ports) if ports and pick.random() < 0.95 else "nowhere"
    value = pick.choice(["", "", "", f":{pick.choice([0, 1, 5])}", f":{number(pick)}"])
    steps = pick.choice(["", " 1", " 3", " 30", " 200", f" {number(pick)}"])
    few = pick.choice(["", " 1", " 2", " 3", " 50"])
    shape = pick.random()
    if shape < 0.35:
        return f"{pick.choice(HOST)}:{port}{value}"
    if shape < 0.5:
        return f"run{steps}"
    return pick.choice([
        "moves", "moves", f"fire {comp}", f"fire {comp} {pick.randint(0, 4)}", f"random{pick.choice([' 1', ' 5', ' 100'])}",
        f"seed {number(pick) % 2**64}", f"expect {pick.choice(REPLIES)}", f"expect {pick.choice(REPLIES)}", "waits", "waits", "waits all", f"waits {comp}", f"waits {comp}",
        "state", f"state {comp}", f"state {comp}", f"undo{few}", f"undo{few}", f"trace t{pick.randint(1, 3)}.trace", f"trace! t{pick.randint(1, 3)}.trace",
        f"session s{pick.randint(1, 3)}.session", f"session! s{pick.randint(1, 3)}.session", "session! other.trace", "help", pick.choice(SLIPS),
        f"page p{pick.randint(1, 3)}.html", f"page! p{pick.randint(1, 3)}.html",
    ])
