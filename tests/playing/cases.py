"""What an item says: a text with a name, or a command with what it works on."""

from dataclasses import dataclass, field

from .items import Item
from .program import fault_line
from .tests import differ


@dataclass
class Case:
    """A command, the name of its case, and what it works on."""

    item: Item
    command: str
    name: str
    of: str = ""
    # The text of that name.
    netlist: bytes = b""
    # Each behind `part`; where none is named, the name of the netlist.
    parts: list = field(default_factory=list)
    journal: int = 1000
    fuel: int = 1000
    workers: list = field(default_factory=list)
    # How often a pool is played.
    rounds: int = 1
    # Behind `trace`, `beside`, `rows` or `gives`: another text.
    other: bytes = b""
    depth: int | None = None
    around: int | None = None
    hops: int | None = None
    # Whether there is `beside each`.
    is_each: bool = False
    words: list = field(default_factory=list)


def case_of(item, texts):
    """The case of an item `COMMAND NAME KEY VALUE KEY VALUE ..`."""
    command, *words = item.head.split()
    if len(words) % 2 == 0:
        item.fail("a name or a value is wanted")
    case = Case(item, command, words[0])
    for key, value in zip(words[1::2], words[2::2]):
        set_value(case, texts, key, value)
    case.parts = case.parts or [case.of.encode()]
    return case


def set_value(case, texts, key, value):
    """Sets what a key and its value say."""
    item = case.item
    if key == "of":
        case.of, case.netlist = value, text_of(item, texts, value)
    elif key == "beside" and value == "each":
        case.is_each = True
    elif key in ("trace", "beside", "rows", "gives"):
        case.other = text_of(item, texts, value)
    elif key == "part":
        case.parts.append(item.bytes_of(value))
    elif key == "word":
        case.words.append(value)
    elif key == "workers":
        case.workers.append(item.number_of(value))
    elif key in ("depth", "around", "hops", "fuel", "rounds", "journal"):
        setattr(case, key, item.number_of(value))
    else:
        item.fail(f"no such setting: {key}")


def text_of(item, texts, name):
    """The text of this name."""
    return texts[name] if name in texts else item.fail(f"no such text: {name}")


def keep_text(item, texts):
    """Keeps the text of an item `netlist NAME`, `text NAME` or `bytes NAME TEXT`; whether it is one."""
    command, _, rest = item.head.partition(" ")
    if command not in ("bytes", "netlist", "text"):
        return False
    name, _, text = rest.partition(" ")
    if name in texts:
        item.fail("another text has this name")
    if command == "bytes" and not item.body:
        texts[name] = item.bytes_of(text)
    elif text:
        item.fail("the text stands in the lines below")
    elif command == "bytes":
        texts[name] = item.bytes_of("".join(f"{line}\n" for line in item.body))
    else:
        texts[name] = "".join(f"{line}\n" for line in item.body).encode()
    return True


class Want:
    """What a command is to write, and how it is to end."""

    def __init__(self, front=()):
        self.lines, self.is_end, self.count = list(front), False, None
        self.fault, self.status, self.verdict, self.notes = "", 0, None, []

    def tell(self, item, line):
        """A line of what is told: see docs/ROWS.md. A netlist or a word that is refused, by status 1 or 2, writes nothing."""
        key, _, value = line.partition(" ")
        if line == "...":
            self.lines, self.is_end = [], True
        elif key == "exit":
            status, _, self.fault = value.partition(": ")
            self.status = item.number_of(status)
            if self.status in (1, 2) and self.fault:
                self.lines = []
        elif key == "lines":
            self.count = item.number_of(value)
        elif key == "check":
            self.verdict = value
        elif key == "note":
            self.notes.append(f"breezesim: {value}\n")
        else:
            self.lines.append(line)

    def differs(self, ran):
        """What differs in what a call gave."""
        return self.end_differs(ran) or self.text_differs(ran.output)

    def end_differs(self, ran):
        """What differs in its status and its standard error."""
        wanted, found = fault_line(self.fault) + "".join(self.notes).encode(), ran.errors
        if self.fault.endswith(".."):
            wanted = fault_line(self.fault[:-2])[:-1]
            found = found[: len(wanted)] if found.count(b"\n") == 1 else found
        return differ((self.status, wanted), (ran.status, found))

    def text_differs(self, text):
        """What differs in what was written."""
        if text and not text.endswith(b"\n"):
            return "the last line has no end"
        found = text.decode("utf-8", "backslashreplace").split("\n")[:-1]
        if self.count is not None and len(found) != self.count:
            return f"{len(found)} lines"
        front = len(found) - len(self.lines) if self.is_end else 0
        if front < 0:
            return f"but {len(found)} lines"
        for at, line in enumerate(self.lines, front):
            if at >= len(found):
                return f"line {at + 1} is wanting: `{line}`"
            if found[at] != line:
                return f"line {at + 1} is `{found[at]}` in place of `{line}`"
        too_much = found[front + len(self.lines) :]
        return f"a line too much: `{too_much[0]}`" if too_much else None
