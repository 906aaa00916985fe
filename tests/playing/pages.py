"""Pages of traces: of what they are made, and where they are read apart from the program."""

import hashlib
import os
import re

from .page_oracle import CALLS, VARIABLES
from .tests import EXAMPLES, TOP

CRATE = f"{TOP}/crates/bz_page"
SOURCES = f"{CRATE}/page"
TEMPLATE = f"{CRATE}/src/template.rt"
# What the live page has beside the template's sources.
LIVE = {"live.js", "session.js", "next.js", "start.js", "live.css", "live.html"}
ENGINE = f"{TOP}/engine"
# What the browser's tests saw last: the sums of the template's sources, of the pages of the examples but for how their runs ended,
# and of what the live page has beside these.
SEEN = f"{TOP}/tests/page-seen"
NAMES = ["HEAD", "MID1", "MID2", "TAIL"]
BLOCKS = ["list", "rows", "trace"]
# The row of a kind: its ports, what is so of it, and its sign.
ROW = re.compile(r"(row (\w+)(?: [pa]:\S+)+)((?: [a-z]+)*) s:.+")
# Of which kinds the words of a row are that a page is looked at by.
MARKS = {"variable": VARIABLES, "meet": CALLS}
# The traces of `examples`, and the parts that they are of.
EXAMPLE_PAGES = {
    **{name: name for name in "arbiter_tree buffer careless countdown cross pipeline steer tee two_place".split()},
    "clash": "m",
    "wide_values": "row",
}


def constants():
    """The four constants of the template, as bytes, from the crate's source."""
    with open(TEMPLATE, encoding="utf-8", newline="") as file:
        found = dict(re.findall(r'const (\w+): &str = r##"(.*?)"##;', file.read(), re.S))
    return [found[name].encode() for name in NAMES]


def constants_of(sources):
    """The constants that the `make` of a folder of sources makes of them."""
    maker = {"__name__": "make", "__file__": f"{sources}/make"}
    with open(f"{sources}/make", encoding="utf-8") as file:
        exec(compile(file.read(), f"{sources}/make", "exec"), maker)
    made = maker["parts"]()
    return [made[name][1].encode() for name in NAMES]


def escaped(text):
    """A text as it stands in a page: LF and bytes 32 to 126 but `<` and `%` as they are."""
    keep = {*range(32, 127), 10} - {*b"<%"}
    return b"".join(bytes([byte]) if byte in keep else b"%%%02X" % byte for byte in text)


def read_back(text):
    """The text that stands escaped."""
    return re.sub(rb"%([0-9A-F]{2})", lambda found: bytes.fromhex(found[1].decode()), text)


def page_text(template, texts):
    """A page of three texts."""
    head, before_rows, before_trace, tail = template
    listed, rows, trace = map(escaped, texts)
    return b"".join([head, listed, before_rows, rows, before_trace, trace, tail])


def texts_of(page, template):
    """The three texts of a page, or None where it isn't one of this template."""
    head, before_rows, before_trace, tail = template
    if not page.startswith(head) or not page.endswith(tail):
        return None
    inner = page[len(head) : len(page) - len(tail)].split(before_rows)
    found = [inner[0], *inner[1].split(before_trace)] if len(inner) == 2 else []
    return [read_back(text) for text in found] if len(found) == 3 else None


def paths_of(name):
    """The netlist and the trace of an example."""
    return f"{EXAMPLES}/{name}.breeze", f"{EXAMPLES}/{name}.trace"


def page_of(program, part, netlist, trace):
    """What a call of `page` gives."""
    return program.run(["page", *part, "--netlist", netlist, "--trace", trace])


def kinds_of_language():
    """The ports of each kind as docs/LANGUAGE.md has them: name, whether passive, whether an array."""
    with open(f"{TOP}/docs/LANGUAGE.md", encoding="utf-8") as file:
        rows = re.findall(r"^\| ([A-Z]\w*(?:, [A-Z]\w*)*) \| ([^|]* [PA]) \|", file.read(), re.M)
    kinds = {}
    for names, ports in rows:
        found = [(name.strip("[]"), sense == "P", "[" in name) for name, sense in re.findall(r"(\S+) \w+ ([PA])", ports)]
        for name in names.split(", "):
            # (`inp sync P, inp push P` is of two kinds with one port each)
            kinds[name] = found[:1] if found[1:] and found[0][0] == found[1][0] else found
    return kinds


def rows_wanted(listed):
    """The lines of a page's rows that tell the ports of the kinds in a list."""
    kinds, used = kinds_of_language(), {line.split()[2] for line in listed.decode().splitlines() if line.startswith("component ")}
    words = {kind: [("p:" if passive else "a:") + name + "*" * array for name, passive, array in kinds[kind]] for kind in used}
    return {" ".join(["row", kind, *ports]) for kind, ports in words.items()}


def differs(program, name):
    """How the page of an example differs from its list, its trace and the rows of its kinds between the template's constants."""
    part, (netlist, trace), template = ["--part", EXAMPLE_PAGES[name]], paths_of(name), constants()
    ran = page_of(program, part, netlist, trace)
    if ran.status != 0 or ran.errors:
        return f"status {ran.status}: {ran.errors!r}"
    texts = texts_of(ran.output, template)
    if texts is None or page_text(template, texts) != ran.output:
        return "it is no page of this template"
    listed = program.run(["list", *part, "--paths", "--netlist", netlist]).output
    with open(trace, "rb") as file:
        played = file.read()
    if (texts[0], texts[2]) != (listed, played):
        return "its list or its trace is another"
    rows = [ROW.fullmatch(line) for line in texts[1].decode().splitlines() if line.startswith("row ")]
    if None in rows or {row[1] for row in rows} != rows_wanted(listed):
        return f"its rows are {rows} in place of {rows_wanted(listed)}"
    odd = [row[0] for row in rows for word, kinds in MARKS.items() if (word in row[3].split()) != (row[2] in kinds)]
    return f"other kinds are so: {odd}" if odd else None


def rows_of(page):
    """The lines of a page's rows."""
    return texts_of(page, constants())[1].splitlines(True)


def without_end(page):
    """A page without the lines that say how its run ended: only the program knows these."""
    listed, rows, trace = texts_of(page, constants())
    kept = b"".join(line for line in rows.splitlines(True) if not line.startswith((b"stuck ", b"ring ", b"end ")))
    return page_text(constants(), [listed, kept, trace])


def sum_of(data):
    return hashlib.sha256(data).hexdigest()


def sums_of(kind, paths):
    """The sums of files by their names."""
    sums = {}
    for path in paths:
        with open(path, "rb") as file:
            sums[f"{kind} {os.path.basename(path)}"] = sum_of(file.read())
    return sums


def files_in(folder):
    return [f"{folder}/{name}" for name in sorted(os.listdir(folder)) if os.path.isfile(f"{folder}/{name}")]


def source_sums():
    """The sums of the template and of all that it is made from."""
    return sums_of("source", [*(path for path in files_in(SOURCES) if os.path.basename(path) not in LIVE), TEMPLATE])


def live_sums():
    """The sums of what the live page has beside these."""
    return sums_of("live", [*(f"{SOURCES}/{name}" for name in LIVE), *files_in(ENGINE)])


def seen():
    """The sums that were seen last, by what they are of."""
    if not os.path.isfile(SEEN):
        return {}
    with open(SEEN, encoding="utf-8") as file:
        lines = [line.split() for line in file if line.strip() and not line.startswith("#")]
    return {f"{kind} {name}": found for kind, name, found in lines}


def write_seen(sums):
    """Writes what was seen, in place of what is there of its kinds."""
    kinds = {what.split()[0] for what in sums}
    sums = {**sums, **{what: found for what, found in seen().items() if what.split()[0] not in kinds}}
    with open(SEEN, "w", encoding="utf-8") as file:
        file.write("# What ./test-page saw last in a browser: the template's sources, the pages of the examples, and what the\n")
        file.write("# live page has beside these (SHA-256).\n")
        file.writelines(f"{what} {found}\n" for what, found in sorted(sums.items()))
