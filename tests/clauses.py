"""Finds the clauses of public functions in the sources of a crate."""
import os
import re

CLAUSE = re.compile(r"(?ms)^\s*(?:ensures|requires)\b.*?(?=^\s*(?:ensures|requires|//|\{)|\Z)")
# a public function up to its body
PUBLIC = re.compile(r"(?ms)^( *)pub fn (\w+)\b(?:[^\n]*[{};]$|.*?^\1(?:\S[^\n]*)?\{\}?$)")


def sources(top, crate):
    """Returns the texts of a crate's sources."""
    for here, _, names in os.walk(f"{top}/crates/{crate}/src"):
        for name in sorted(names):
            if name.endswith(".rt"):
                with open(f"{here}/{name}", encoding="utf-8") as file:
                    yield file.read()


def clauses_of(text, path):
    """Returns the clauses of a public function of a source, none where it has no such function.

    The last item of the path is the function's name, and one before it that of its type.
    """
    *owner, name = path
    if owner:
        blocks = re.findall(rf"(?ms)^impl\b[^{{]*\b{owner[0]}\b[^{{]*\{{$.*?^\}}$", text)
        text = "\n".join(blocks)
    found = re.search(rf"(?ms)^( *)pub fn {name}\b.*?^\1\{{\}}?$", text)
    return "".join(CLAUSE.findall(found[0])) if found else ""


def public_clauses(text):
    """Returns the name of each public function of a source, with its clauses."""
    for found in PUBLIC.finditer(text):
        yield found[2], "".join(CLAUSE.findall(found[0]))
