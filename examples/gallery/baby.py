"""The Manchester Baby of 1948 as a design, with an assembler, two programs, and the machine in Python.

It has 32 lines of 32 bits, an accumulator and seven instructions. Bits 0 to 4 of a line name another line, and bits 13 to 15 the
operation.
"""
from handshake import Array, Call, Case, Const, If, Par, Pick, Procedure, Send, Seq, Set, SetAt, Unary, Var, While

JMP, JRP, LDN, STO, SUB, SUB_TOO, CMP, STP = range(8)
OPERATIONS = {"JMP": JMP, "JRP": JRP, "LDN": LDN, "STO": STO, "SUB": SUB, "CMP": CMP, "STP": STP}
# The line that has the answer at the stop.
ANSWER = 27

# Tom Kilburn's program of June 1948, the first that a stored-program computer ran, as amended in July: the greatest factor of a
# number, which is tried with all numbers from the one below it.
FACTOR = """
1 LDN 24
2 STO 26
3 LDN 26
4 STO 27
5 LDN 23
6 SUB 27
7 CMP
8 JRP 20
9 SUB 26
10 STO 25
11 LDN 25
12 CMP
13 STP
14 LDN 26
15 SUB 21
16 STO 27
17 LDN 27
18 STO 26
19 JMP 22
20 -3
21 1
22 4
23 -{number}
24 {below}
"""
FIBONACCI = """
1 LDN 27
2 SUB 26
3 STO 25
4 LDN 26
5 STO 27
6 LDN 27
7 STO 27
8 LDN 25
9 STO 26
10 LDN 24
11 SUB 23
12 STO 24
13 LDN 24
14 STO 24
15 LDN 24
16 CMP
17 STP
18 JMP 22
22 0
23 -1
24 {count}
26 1
27 0
"""


def assemble(text):
    """The 32 words of a program: lines with a number, then an operation and the line that it names, or a word."""
    words = [0] * 32
    for line in text.split("\n"):
        at, operation, *argument = line.split() or (0, "0")
        if operation in OPERATIONS:
            words[int(at)] = OPERATIONS[operation] << 13 | int((argument or [0])[0])
        else:
            words[int(at)] = int(operation) % 2**32
    return words


def emulate(words):
    """What the answer's line has at the stop, and how many instructions that took."""
    lines, accumulator, at, count = list(words), 0, 0, 0
    while True:
        at, count = (at + 1) % 32, count + 1
        operation, line = lines[at] >> 13 & 7, lines[at] & 31
        if operation == JMP:
            at = lines[line] % 32
        elif operation == JRP:
            at = (at + lines[line]) % 32
        elif operation == LDN:
            accumulator = -lines[line] % 2**32
        elif operation == STO:
            lines[line] = accumulator
        elif operation in (SUB, SUB_TOO):
            accumulator = (accumulator - lines[line]) % 2**32
        elif operation == CMP:
            at = (at + (accumulator >> 31)) % 32
        else:
            return lines[ANSWER], count


class Machine:
    """The variables of the machine, and the commands that it is made of."""

    def __init__(self, words):
        self.store, self.words = Array("s", 32, 32), words
        self.accumulator, self.moved, self.present = Var("a", 32), Var("m", 32), Var("pi", 32)
        self.control, self.at, self.more = Var("ci", 5), Var("at", 5), Var("more", 1)

    def fetch(self):
        return Call("fetch", Set(self.moved, self.store.at(self.at)))

    def keep(self):
        return Call("store", SetAt(self.store, self.at, self.moved))

    def load(self):
        """Writes the program into the store. (Variables are 0 at first, and so are lines without a word.)"""
        program = Pick(self.at, [(str(at), Const(it, 32)) for at, it in enumerate(self.words) if it], "program[at]")
        following = If(self.at.equals(31), Set(self.more, Const(0, 1)), Set(self.at, self.at + 1))
        return Seq(
            Par(Set(self.at, Const(0, 5)), Set(self.more, Const(1, 1))),
            While(self.more, Seq(Set(self.moved, program), self.keep(), following)),
        )

    def execute(self):
        """One instruction, which is in `present`, with the line that it names in `at`."""
        a, m, ci, line = self.accumulator, self.moved, self.control, self.moved.cut(0, 5)
        return Case(
            self.present.cut(13, 3),
            [
                ("0", Seq(self.fetch(), Set(ci, line))),
                ("1", Seq(self.fetch(), Set(ci, ci + line))),
                ("2", Seq(self.fetch(), Set(a, Unary("Negate", m)))),
                ("3", Seq(Set(m, a), self.keep())),
                ("4,5", Seq(self.fetch(), Set(a, a - m))),
                ("6", If(a.cut(31, 1), Set(ci, ci + 1))),
                ("7", Set(self.more, Const(0, 1))),
            ],
        )

    def step(self):
        """Takes the next instruction and executes it."""
        take = [Set(self.control, self.control + 1), Set(self.at, self.control), self.fetch(), Set(self.present, self.moved)]
        return Seq(*take, Set(self.at, self.present.cut(0, 5)), self.execute())


def baby(name, words, about):
    """The Baby with a program, which it loads from constants and runs to its stop. Then it sends the answer's line."""
    machine = Machine(words)
    load = machine.load().commands
    run = [Set(machine.more, Const(1, 1)), While(machine.more, machine.step())]
    send = [Set(machine.at, Const(ANSWER, 5)), machine.fetch(), Send("o", machine.moved)]
    return Procedure(name, ["o out 32"], Seq(*load, *run, *send), about)
