"""Files of rows, cut into items, and the texts in them in which escapes and braces count."""

import re

# The most times that a text is repeated.
MOST = 100_000

PLAIN = {b"n": b"\n", b"r": b"\r", b"t": b"\t"}


class Malformed(Exception):
    """A file of rows that is none: its line, and what is wrong there."""


class Item:
    """A line at the margin, with the lines two spaces in below it, without these two spaces."""

    def __init__(self, file, number, head):
        self.file, self.number, self.head, self.body = file, number, head, []
        # The texts in front of it, by their names.
        self.texts = {}

    def fail(self, why):
        """Refuses the file because of this item."""
        raise Malformed(f"{self.file}.rows:{self.number}: {why}")

    def halves(self, line):
        """What stands in front of the first `|` of a line, and behind it."""
        front, bar, back = line.partition("|")
        if not bar:
            self.fail("a line has no `|`")
        return front.strip(), back.strip()

    def number_of(self, word):
        """The number that a word tells."""
        if not re.fullmatch(r"[0-9]+", word):
            self.fail("a number is wanted")
        return int(word)

    def expanded(self, text):
        """The text with `{NAME}`, `{N*TEXT}`, `{A..B*TEXT}` and `{A..B/STEP*TEXT}` written out."""
        pieces, rest = [], text
        while True:
            front, brace, rest = rest.partition("{")
            pieces.append(front)
            if not brace:
                return "".join(pieces)
            inner, end, rest = rest.partition("}")
            found = re.fullmatch(r"([0-9]+)(?:\.\.([0-9]+)(?:/([0-9]+))?)?\*(.*)", inner, re.DOTALL)
            if not end or not found and inner not in self.texts:
                self.fail("braces that stand for nothing")
            pieces.append(repeated(*found.groups()) if found else self.texts[inner].decode())

    def bytes_of(self, text):
        """The bytes of a text in which escapes and braces count."""

        def escaped(found):
            if len(found[1]) == 3:
                return bytes([int(found[1][1:], 16)])
            return PLAIN[found[1]] if found[1] in PLAIN else self.fail("no such escape")

        return re.sub(rb"\\(x[0-9a-f]{2}|.|$)", escaped, self.expanded(text).encode(), flags=re.DOTALL)


def repeated(first, last, step, piece):
    """A text so many times, or once for each number, which stands for `#`, and the next one for `#+1`."""
    if last is None:
        return piece * min(int(first), MOST)
    numbers = range(int(first), min(int(last), MOST) + 1, int(step or 1))
    return "".join(piece.replace("#+1", str(number + 1)).replace("#", str(number)) for number in numbers)


def items_of(name, path):
    """The items of a file. Empty lines and those that begin with a `#` count for nothing."""
    items = []
    with open(path, encoding="utf-8", newline="\n") as it:
        lines = it.read().split("\n")
    for number, line in enumerate(lines, 1):
        if not line.strip() or line.startswith("#"):
            continue
        if not line.startswith("  "):
            items.append(Item(name, number, line))
        elif items:
            items[-1].body.append(line[2:])
        else:
            Item(name, number, line).fail("it belongs to no item")
    return items
