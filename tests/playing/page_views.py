"""What is done on pages in a browser with streams, the source, the list, groups, counts and fingers."""

import os
import re
import time

from . import pages
from .page_looks import VARIABLES, is_same, scrub
from .page_oracle import wanted_of
from .page_plays import COMPONENTS, LINE, SELECTED, Run, middle, shown
from .tests import EXAMPLES

# The pieces of these rows from the first to the last line, at a width: where each begins and ends, its style and its text.
PIECES = """((rows, from, to, width) => Object.fromEntries(rows.map(row => [row,
    breezesim.streamPieces(row, from, to, width).map(it => [it.first, it.end, it.style, it.text])])))"""
JOURNAL = "[...document.querySelectorAll('#journal .row')].map(it => Number(it.dataset.line))"
CHOSEN = "document.getElementById('only').textContent"
SOURCE = """[...document.querySelectorAll('.source .row')].map(it => [Number(it.dataset.place), it.className.trim(),
    [...it.querySelectorAll('mark')].map(mark => mark.textContent).join(' ')])"""


class Streams:
    """What the rows of streams have to show behind each line, by the answers of `explore` and the lines of the trace."""

    def __init__(self, wanted):
        self.wanted, self.last = wanted, len(wanted.lines) - 1

    def rows(self):
        """Every channel, and every component."""
        return [f"k{it}" for it in self.wanted.ends] + [f"c{it}" for it in self.wanted.kinds]

    def channel(self, number):
        """A channel's phase, with the value that came with a request or a reply; of a push until the reply."""
        told, value = [], ""
        for line in range(1, self.last + 1):
            phase, here = self.wanted.states[line].get(number, ("idle", ""))
            value = here or (value if phase == "taken" and self.wanted.channels[number] == "push" else "")
            told.append((phase, value))
        return told

    def component(self, number):
        """Of a variable what it holds, of another one whether it holds a request."""
        lines = range(1, self.last + 1)
        if self.wanted.kinds[number] in VARIABLES:
            return [("held", self.wanted.held(line)[number]) for line in lines]
        return [("taken" if number in self.wanted.busy(line) else "idle", "") for line in lines]

    def due(self, row):
        """What is so behind each line, and the lines that a row has to itself: those of its own moves."""
        number, kind = row[1:], self.wanted.kinds.get(row[1:]) if row[0] == "c" else None
        words, lines = list(map(str.split, self.wanted.lines)), range(2, self.last + 1)
        if row[0] == "k":
            told = self.channel(number)
            return told, [n for n in lines if told[n - 1] != told[n - 2]]
        fired = [n for n in lines if words[n][1:3] == ["fire", number]]
        if kind in VARIABLES:
            fired = [n for n in fired if words[n][3] == "take" and self.is_write(words[n][4], number)]
        return self.component(number), fired

    def is_write(self, channel, number):
        return self.wanted.ends[channel][1] == f"{number}.1"

    def faults(self, row, pieces, width):
        """The pieces follow each other, each shows what is so behind all of its lines; and many are told where they fall on one
        pixel alone."""
        told, moved = self.due(row)
        faults, at = [], 1
        for first, end, style, text in pieces:
            faults += is_same(f"{row} begins", first, at)
            at = end
            if style == "many":
                inner = [first, *(n for n in moved if first < n <= end)]
                gaps = [(b - a) * width / self.last for a, b in zip(inner, inner[1:])]
                faults += is_same(f"{row}, {first} to {end}: many", bool(gaps) and max(gaps) < 1 and inner[-1] == end, True)
            else:
                faults += is_same(f"{row}, {first} to {end}", [(style, text)] * (end - first), told[first - 1 : end - 1])
        return faults + is_same(f"{row} ends", at, self.last + 1)


def looks_at_streams(page, wanted):
    """Each piece of each row behind each line, where there is room for all, for some, and for hardly any."""
    streams, faults = Streams(wanted), []
    for width in (3 * streams.last, streams.last // 2 + 7, 11):
        found = page.do(f"{PIECES}({streams.rows()}, 1, {streams.last}, {width})")
        for row, pieces in found.items():
            faults += streams.faults(row, pieces, width)
            if width > streams.last:
                faults += is_same(f"many of {row}", [it for it in pieces if it[2] == "many"], [])
    return faults[:3]


def streams_and_lines(browser, ground):
    """Streams have a row for each port and variable; a click goes to the line under it, one on a name selects, and the mark of now
    follows."""
    run = Run(browser, ground, "countdown", "#line=44")
    page = run.page
    page.key("t")
    names = "[...document.querySelectorAll('.stream .name')].map(it => it.textContent)"
    run.found("rows", names, ["activate", "i", "tick", "n"])
    run.found("the button", "document.getElementById('streaming').classList.contains('on')", True)
    run.found("the address", "location.hash", "#line=44&view=streams")
    last = page.do("breezesim.trace.count")
    place = f"""((line, isSide) => {{ const it = document.querySelector('#chart svg').getBoundingClientRect();
        const now = document.querySelector('.streams .now'), x = Number(now.getAttribute('x1'));
        const wide = Number(document.querySelector('.streams').getAttribute('width')) - 10;
        const left = Number(document.querySelector('.stream .name').getAttribute('x')) + 8;
        return isSide ? Math.abs(x - left - (wide - left) * (line - 0.5) / {last}) < 1
            : [it.x + left + (wide - left) * (line - 0.5) / {last}, it.y + 40]; }})"""
    run.found("the mark of now", f"{place}(44, true)", True)
    for line in (9, 30, last, 1):
        page.click(*page.do(f"{place}({line}, false)"))
        run.line(f"a click at {line}", line)
        run.found(f"the mark at {line}", f"{place}({line}, true)", True)
    drawn = "document.querySelector('.streams')"
    page.do(f"void (window.before = {drawn})")
    page.key("ArrowRight")
    run.found("a step draws nothing anew", f"{drawn} === window.before", True)
    page.click(*page.do(middle('.stream[data-row="k2"] .name')))
    run.found("a name", SELECTED, "k2")
    run.found("its row", "document.querySelector('.stream.selected').dataset.row", "k2")
    width = page.do(f"Math.round(Number({drawn}.getAttribute('width')))")
    run.faults += is_same("they need no more room than there is", width <= page.do("document.getElementById('chart').clientWidth"),
                          True)
    page.key("t")
    run.faults += is_same("t again", shown(page, "#chart"), False)
    return run.ended()


def streams_are_drawn(browser, ground):
    """What is drawn of a row is its pieces: one shape for each, in their styles, with texts that are values of pieces."""
    run = Run(browser, ground, "pipeline", "#line=60&view=streams&pin=k8,c5")
    wanted = wanted_of(ground.program, *ground.made["pipeline"])
    streams = Streams(wanted)
    rows = run.page.do("[...document.querySelectorAll('.stream')].map(it => it.dataset.row)")
    run.faults += is_same("rows", rows, ["k1", "k2", "k3", "k8", "c5", "c1", "c2"] if "c1" in rows else rows)
    drawn = run.page.do("""Object.fromEntries([...document.querySelectorAll('.stream')].map(it => [it.dataset.row,
        [[...it.querySelectorAll('rect')].map(one => one.getAttribute('class')),
         [...it.querySelectorAll('.told')].map(one => one.textContent)]]))""")
    for row in rows:
        told, _ = streams.due(row)
        joined = [told[0]]
        for one in told[1:]:
            joined += [one] if one != joined[-1] else []
        run.faults += is_same(f"styles of {row}", drawn[row][0], [style for style, _ in joined])
        run.faults += is_same(f"texts of {row}", set(drawn[row][1]) - {text for _, text in joined}, set())
    seven = drawn["k2"][1].count("7")
    run.faults += is_same("7 came once at i", seven, 1)
    return run.ended()


def streams_near_and_far(browser, ground):
    """The wheel shows fewer lines around the pointer, and more again; with Shift it goes aside; the address has what is shown, and
    the line that one goes to is among those shown."""
    run = Run(browser, ground, "flat", "#line=600&view=streams")
    page, span = run.page, "[breezesim.streams.from, breezesim.streams.to]"
    run.found("all", span, [1, 0])
    x, y = page.do(middle("#chart"))
    for _ in range(6):
        page.mouse("mouseWheel", x, y, deltaX=0, deltaY=-300)
    page.until(f"{span}[1] > 0 && {span}[1] - {span}[0] < 600", True)
    first, last = page.do(span)
    run.faults += is_same("fewer lines", 20 <= last - first < 600, True)
    run.found("the address", "location.hash", f"#line=600&view=streams&from={first}&to={last}")
    turn = """document.getElementById('chart').dispatchEvent(new WheelEvent('wheel', {deltaY: %d, shiftKey: true, clientX: %d,
        cancelable: true}))"""
    page.do(turn % (100, x))
    run.found("aside", f"{span}[0] > {first} && {span}[1] - {span}[0] === {last - first}", True)
    page.key("Home")
    run.found("the line is among them", f"{span}[0]", 1)
    page.key("End")
    run.found("and the last one", f"{span}[0] > {first}", True)
    for _ in range(12):
        page.mouse("mouseWheel", x, y, deltaX=0, deltaY=300)
    run.found("all again", span, [1, 0])
    page = run.anew("flat", "#line=600&view=streams&from=500&to=640")
    run.found("a link", span, [500, 640])
    first = "Number(document.querySelector('.streams .tick').textContent)"
    run.found("its first line", first, 500)
    page.do("location.hash = '#line=600&view=streams&from=640&to=500'")
    run.found("one that is none", span, [1, 0])
    return run.ended()


def pins(browser, ground):
    """A row of its own for what is selected, by `p`, in the address, and by a link."""
    run = Run(browser, ground, "arbiter_tree", "#line=20&view=streams&at=c5")
    rows, page = "[...document.querySelectorAll('.stream')].map(it => it.dataset.row)", run.page
    ports = page.do(rows)
    page.key("p")
    run.found("p", rows, [*ports, "c5"])
    run.found("the address", "location.hash", "#line=20&at=c5&view=streams&pin=c5")
    page.do("location.hash = '#line=20&at=k9&view=streams&pin=c5,k9,x,c99,c5'")
    run.found("a link", rows, [*ports, "c5", "k9"])
    page.key("P")
    run.found("P leaves it out", rows, [*ports, "c5"])
    page.key("Escape", "p")
    run.found("nothing selected, nothing pinned", rows, [*ports, "c5"])
    return run.ended()


def list_in_words(browser, ground):
    """The list says its lines in words; the line as it is stands in the row's title."""
    run = Run(browser, ground, "countdown", "#line=44")
    row = "(it => [it.lastChild.textContent, it.title])(document.querySelector('#journal .now'))"
    line, words = "w1 fire 1 reply 13 2", "Variable 1 n replies 2 to BinaryFuncConstR 9"
    told = "Variable 1 n replies to BinaryFuncConstR 9 on channel 13, value 2"
    run.found("a line", row, [line, told])
    run.page.key("v")
    run.found("v", row, [words, line])
    run.found("the address", "location.hash", "#line=44&words=1")
    wanted = {
        2: "The host asks at activate: done",
        3: "Sequence 3 takes the request of the host at activate",
        4: "Sequence 3 asks Fetch 4",
        10: "Fetch 4 gets 2 from the host at i",
        11: "Fetch 4 asks CallMux 2 with 2",
        12: "CallMux 2 takes 2 from Fetch 4",
        16: "CallMux 2 gets the reply of Variable 1 n",
    }
    lines = wanted_of(ground.program, *ground.made["countdown"]).lines
    for number, text in wanted.items():
        scrub(run.page, number)
        run.found(f"line {number}: {lines[number]}", row, [text, lines[number]])
    run.page.click(*run.page.do(middle("#words")))
    run.found("the button", f"{row}[0]", lines[16])
    run.anew("countdown", "#line=44&words=1")
    run.found("a link", row, [words, line])
    return run.ended()


def list_of_some(browser, ground):
    """The list has all lines, those of the host, of what is selected, or found; the wheel goes through those."""
    run = Run(browser, ground, "arbiter_tree", "#line=30")
    page, lines = run.page, wanted_of(ground.program, *ground.made["arbiter_tree"]).lines
    hosts = [n for n, text in enumerate(lines) if re.match(r"h\d+ ", text)]
    own = [n for n, text in enumerate(lines) if text.split()[1:3] == ["fire", "5"]]
    found = [n for n, text in enumerate(lines) if "take" in text]
    page.key("e")
    run.found("e", f"[{CHOSEN}, {JOURNAL}.join()]", ["host only", ",".join(map(str, hosts))])
    run.found("the address", "location.hash", "#line=30&only=host")
    at = max(n for n in hosts if n <= 30)
    page.do("document.getElementById('journal').dispatchEvent(new WheelEvent('wheel', {deltaY: -9, cancelable: true}))")
    run.line("the wheel goes through these", hosts[max(0, hosts.index(at) - 2)])
    page.key("E")
    run.found("E, and all", CHOSEN, "all lines")
    page.do("location.hash = '#line=30&at=c5&find=take'")
    run.found("a link", SELECTED, "c5")
    for key, name, due in (("e", "host only", hosts), ("e", "selected only", own), ("e", "found only", found), ("e", "all lines", None)):
        page.key(key)
        run.found(name, CHOSEN, name)
        seen = page.do(JOURNAL)
        run.faults += is_same(name, due is None or seen == due[: len(seen)] or set(seen) <= set(due), True)
        run.faults += is_same(f"{name}: all that there is room for", due is None or len(seen) == min(len(due), len(seen)), True)
    page.click(*page.do(middle("#only")))
    run.found("the button", CHOSEN, "host only")
    run.anew("arbiter_tree", "#line=30&at=c5&only=mine")
    run.found("by a link", f"[{CHOSEN}, {JOURNAL}.join()]", ["selected only", ",".join(map(str, own))])
    run.page.key("Escape")
    run.found("nothing is selected, so all", f"{JOURNAL}.length > {len(own)}", True)
    return run.ended()


def places_before(browser, ground):
    """`u` goes back to where one was before each jump; steps are none."""
    run = Run(browser, ground, "arbiter_tree", "#line=20")
    page = run.page
    page.key("u")
    run.line("there is none", 20)
    page.key("ArrowRight", "End")
    page.click(*page.do(middle('[data-component="5"] .body')))
    page.key("Home", "ArrowRight")
    run.found("where one is", f"[{LINE}, {SELECTED}]", [2, "c5"])
    for key, wanted in (("u", [66, "c5"]), ("j", [66, None]), ("u", [21, None]), ("u", [21, None])):
        page.key(key)
        run.found(f"{key}, back", f"[{LINE}, {SELECTED}]", wanted)
    for line in (30, 40, 50):
        scrub(page, line)
    page.key("u")
    run.line("the scrubber is one jump", 21)
    return run.ended()


TWO_PLACE = """-- two places of 8 bits

-- one behind the other
procedure two_place (input i:byte; output o:byte) is
  variable x, y : byte
  loop
    i -> x ;
    x -> y ;
    o <- y
  end
"""
# The lines of the source that are shown behind a line of the trace, with their styles and marks.
TWO_PLACE_SHOWN = {
    3: [(5, "row", ""), (6, "row active now", "l"), (7, "row", "")],
    5: [(6, "row", ""), (7, "row active now", ";"), (8, "row", "")],
    7: [(6, "row", ""), (7, "row active now", "-"), (8, "row", "")],
}
TEE = "type word is 16 bits\n\n\n\nprocedure tee (\n  sync tick;\n  input i : word;\n  array 2 of output o : word) is\nbegin\n" \
    "  loop\n    i-> th||en sync tick ; \u00fc <x>\n    continue\n  end\nend\n"


def with_source(ground, name, source, files, more=()):
    """A page of the netlist and the trace of another one with these files of the source, and with more rows."""
    part, *paths = ground.made[source]
    for file, text in files.items():
        os.makedirs(os.path.dirname(f"{ground.room}/{file}"), exist_ok=True)
        part = [*part, "--source", ground.file(file, text.encode())]
    listed, rows, trace = pages.texts_of(pages.page_of(ground.program, part, *paths).output, ground.template)
    added = "".join(f"{line}\n" for line in more).encode()
    return ground.put(name, pages.page_text(ground.template, [listed, rows + added, trace]))


def source_of_two_place(browser, ground):
    """The source is shown where control is, with a mark at the column, and around it."""
    with_source(ground, "sourced", "two_place", {"two_place.balsa": TWO_PLACE, "other.balsa": "no place names this"})
    run = Run(browser, ground, "sourced", "#line=3&view=source")
    for line, wanted in TWO_PLACE_SHOWN.items():
        scrub(run.page, line)
        run.found(f"at line {line}", SOURCE, [list(it) for it in wanted])
    run.found("the file", "[...document.querySelectorAll('.source .file')].map(it => it.textContent)", ["two_place.balsa"])
    run.found("a text", "document.querySelector('.source .active').lastChild.textContent", "    i -> x ;")
    run.page.click(*run.page.do(middle(".source .active")))
    run.found("a click", SELECTED, "c5")
    run.page.do("location.hash = '#line=7&at=c1&view=source'")
    run.found("what is selected", SOURCE, [[4, "row", ""], [5, "row now", "x"], [6, "row", ""], [7, "row active", "-"],
                                           [8, "row", ""]])
    run.page.key("y")
    run.found("y", "breezesim.view.panel", "")
    return run.ended()


def source_of_tee(browser, ground):
    """Control may be in several lines. A source is known by the last part of its name, and its letters are those of the file."""
    with_source(ground, "sourced", "tee", {"lib/tee.balsa": TEE})
    run = Run(browser, ground, "sourced", "#line=9&view=source")
    page = run.page
    lines = wanted_of(ground.program, *ground.made["tee"])
    for line in range(3, len(lines.lines), 3):
        scrub(page, line)
        due = control_lines(lines, page, line)
        found = page.do("[...document.querySelectorAll('.source .active')].map(it => Number(it.dataset.place))")
        run.faults += is_same(f"control at line {line}", found, due)
    texts = "[...document.querySelectorAll('.source .row')].map(it => it.lastChild.textContent)"
    run.found("letters", f"{texts}.includes('    i-> th||en sync tick ; \u00fc <x>')", True)
    ring = ["stuck 5 1 2", "ring 2 it waits"]
    with_source(ground, "sourced", "tee", {"tee.balsa": TEE}, ring)
    run.anew("sourced", "#line=5&view=source")
    red = "[...document.querySelectorAll('.source .stuck')].map(it => it.dataset.place)"
    last = max(n for n, text in enumerate(lines.lines) if text.split()[1:3] == ["fire", "2"] and "take" in text)
    scrub(run.page, last)
    moves = [n for n, text in enumerate(lines.lines) if text.split()[1:3] == ["fire", "2"]]
    run.found("the ring is red from its last move on", red, ["11"] if last == moves[-1] else [])
    return run.ended()


def control_lines(wanted, page, line):
    """The lines of the source at which control is: of what holds a request that which called nobody who holds one."""
    places = page.do("Object.fromEntries(breezesim.net.components.slice(1).map(it => [it.number, it.source]))")
    busy = wanted.busy(line)
    calls = {wanted.ends[channel][0].split(".")[0] for channel, (phase, _) in wanted.states[line].items()
             if wanted.callee(channel) in busy}
    return sorted({int(places[it].split(":")[1]) for it in busy - calls})


def no_source(browser, ground):
    """A page without a source says so, and names what would be wanted; a source that no place names shows nothing."""
    run = Run(browser, ground, "two_place", "#line=7")
    hint = "document.querySelector('.source .hint').textContent"
    run.page.key("y")
    run.found("y", hint, "This page doesn't have the source: two_place.balsa")
    with_source(ground, "sourced", "two_place", {"other.balsa": TWO_PLACE})
    run.anew("sourced", "#line=7&view=source")
    run.found("another file", f"[{SOURCE}.length, {hint}]", [0, "This page doesn't have the source: two_place.balsa"])
    run.anew("countdown", "#view=source")
    run.found("a netlist that names none", hint, "This netlist names no source.")
    return run.ended()


CASED = b"""(breeze-part "cased"
 (ports (port "i" passive) (sync-port "a" active) (sync-port "b" active))
 (channels (push 2) (sync) (sync))
 (components (component "$BrzCase" (2 2 "0;1..3") (1 (2 3)))))
"""


def sets_of_cases(browser, ground):
    """At the outputs of a Case stand the sets of values that lead there."""
    path = ground.file("cased.breeze", CASED)
    ran = ground.program.run(["run", "--part", "cased", "--netlist", path, "--", "offer:i:2", "run:9"])
    ground.add("cased", ["--part", "cased"], path, ground.file("cased.trace", ran.output))
    if ground.template != pages.constants():
        ground.put("cased", pages.page_text(ground.template, pages.texts_of(ground.get("cased"), pages.constants())))
    run = Run(browser, ground, "cased", "#line=3&at=c1")
    run.found("in the picture", "[...document.querySelectorAll('.set')].map(it => it.textContent)", ["0", "1..3"])
    names = "[...document.querySelectorAll('#details .port')].map(it => it.children[1].textContent)"
    run.found("in the details", names, ["inp", "out1 0", "out2 1..3"])
    return run.ended()


def counts_of_handshakes(browser, ground):
    """Handshakes that ended are counted, in the details and in a view of them; what never moved is pale there."""
    run = Run(browser, ground, "countdown", "#line=60&at=k13")
    page, wanted = run.page, wanted_of(ground.program, *ground.made["countdown"])
    lines = list(map(str.split, wanted.lines))

    def ended(channel, upto):
        phases = [wanted.states[n].get(channel, ("idle", ""))[0] for n in range(1, upto + 1)]
        return sum(a == "replied" and b == "idle" for a, b in zip(phases, phases[1:]))

    last = len(lines) - 1
    told = f"{ended('13', 60)} handshake{'s' * (ended('13', 60) != 1)} ended, of {ended('13', last)}"
    run.found("in the details", "[...document.querySelectorAll('#details .under')].map(it => it.textContent)[2]", told)
    page.key("k")
    run.found("the address", "location.hash", "#line=60&at=k13&counts=1")
    for line in (60, 2, last):
        scrub(page, line)
        seen = page.do("""Object.fromEntries([...document.querySelectorAll('.channel[data-channel]')].map(it =>
            [it.dataset.channel, breezesim.drawn.channels.get(Number(it.dataset.channel)).label.textContent]))""")
        run.faults += is_same(f"counts at {line}", seen, {it: str(ended(it, line)) for it in wanted.ends})
        pale = set(page.do("[...document.querySelectorAll('.component[data-moved=\"0\"]')].map(it => it.dataset.component)"))
        moved = {words[2] for words in lines[1 : line + 1] if words[1:2] == ["fire"]}
        run.faults += is_same(f"what never moved at {line}", pale, set(wanted.kinds) - moved)
    wide = page.do("""Object.fromEntries([...document.querySelectorAll('.channel[data-channel]')].map(it =>
        [it.dataset.channel, parseFloat(it.getAttribute('style').slice(7))]))""")
    most = max(wanted.ends, key=lambda it: ended(it, last))
    run.faults += is_same("the line of most is the thickest", wide[most], max(wide.values()))
    run.faults += is_same("more are thicker", all(wide[a] <= wide[b] for a in wide for b in wide if ended(a, last) <= ended(b, last)),
                          True)
    page.key("k")
    run.found("numbers again", "[...document.querySelectorAll('.number')].some(it => it.textContent === '13')", True)
    run.anew("countdown", "#line=60&counts=1")
    run.found("by a link", "document.getElementById('svg').classList.contains('counted')", True)
    return run.ended()


def groups_of_flat_nets(browser, ground):
    """A flat net is grouped: what one component alone begins is one box, which unfolds. Channels side by side are one line."""
    run = Run(browser, ground, "large", "#line=9&focus=0")
    page = run.page
    boxes = "document.querySelectorAll('.folded').length"
    total = page.do("breezesim.net.components.length - 1")
    run.faults += is_same("boxes", page.do(boxes) > 1, True)
    inside = """[...document.querySelectorAll('.folded .caption')].reduce((sum, it) => sum + parseInt(it.textContent), 0)"""
    run.found("all are there", f"{inside} + document.querySelectorAll('.component').length", total)
    faults = page.do(DOMINATED)
    run.faults += is_same("what is in a group is begun through its first alone", faults, [])
    run.faults += bundles_at(run, ground, range(9, 1500, 211))
    page.do("location.hash = '#line=9&focus=0&fold='")
    run.found("unfolded", f"[{boxes}, document.querySelectorAll('.component').length]", [0, total])
    run.found("no bundles then", "document.querySelectorAll('.bundle, [data-bundle]').length", 0)
    run.found("frames", "document.querySelectorAll('.frame').length > 1", True)
    run.anew("flat", "#line=9&at=c3")
    run.found("a group is no copy", "document.querySelector('#details .under').textContent.includes(' (in ')", False)
    run.anew("chain", "#line=9")
    run.found("a net with copies has none", "breezesim.net.isGrouped", False)
    return run.ended()


# Channels by which a component of a group is asked from outside of it, though it is not the first of the group.
DOMINATED = """(() => {
  const {net} = breezesim, found = [];
  for (const channel of net.channels.slice(1)) if (channel.active && channel.passive && channel.passive !== 'host') {
    const to = net.components[channel.passive.component], from = channel.active === 'host' ? null : net.components[channel.active.component];
    const path = to.path, isFirst = path !== '' && path.split('/').pop() === String(to.number);
    const group = isFirst ? path.split('/').slice(0, -1).join('/') : path;
    if (group !== '' && !(from && (from.path === group || from.path.startsWith(group + '/')))) found.push(channel.number);
  }
  return found;
})()"""


def bundles_at(run, ground, lines):
    """Each bundle is drawn as that of its channels that moved last of those that aren't idle, and its number is how many they are."""
    wanted, faults = wanted_of(ground.program, *ground.made["large"]), []
    seen = """[...document.querySelectorAll('[data-bundle]')].map(it => [it.dataset.bundle.split(' '),
        ['asked', 'taken', 'replied', 'idle'].find(phase => it.classList.contains(phase)), it.dataset.select])"""
    words = list(map(str.split, wanted.lines))
    for line in lines:
        scrub(run.page, line)
        bundles = run.page.do(seen)
        faults += is_same("bundles", len(bundles) > 1 and all(len(channels) > 1 for channels, _, _ in bundles), True)
        for channels, phase, select in bundles:
            phases = wanted.phases(line)
            moved = {it: max((n for n in range(2, line + 1) if words[n][4:5] == [it]), default=0) for it in channels if it in phases}
            due = max(moved, key=moved.get) if moved else None
            faults += is_same(f"a bundle at {line}", [phase, select], [phases[due], f"k{due}"] if due else ["idle", select])
    labels = run.page.do("""[...document.querySelectorAll('[data-bundle]')].filter(it => !it.querySelector('.stub')).map(it =>
        [it.dataset.bundle.split(' ').length, breezesim.drawn.channels.get(Number(it.dataset.bundle.split(' ')[0])).label.textContent])""")
    return faults[:3] + is_same("numbers", [text for _, text in labels], [f"×{count}" for count, _ in labels])


def focus_at_first(browser, ground):
    """A net begins in focus where the letters of the whole would be too small on this screen."""
    faults = []
    small = """((width, height) => Math.min(width / breezesim.view.picture.width, height / breezesim.view.picture.height) * 11 < 6)(
        ...(it => [it.width, it.height])(document.getElementById('svg').getBoundingClientRect()))"""
    for width, height in ((1440, 900), (390, 800), (2600, 2200)):
        run = Run(browser, ground, "flat", "#line=8", width=width, height=height)
        is_focused = run.page.do("breezesim.view.isFocused")
        run.page.do("location.hash = '#line=9&focus=0&fold='")
        run.line("the whole", 9)
        run.faults += is_same(f"focus at {width}", is_focused, run.page.do(small))
        faults += run.ended()
    return faults


def focus_keeps_places(browser, ground):
    """Drawn anew, what stays in focus stays near to where it was, and the picture stays in sight."""
    run = Run(browser, ground, "large", "#line=500")
    page = run.page
    places = """Object.fromEntries([...document.querySelectorAll('.component')].map(it => (at =>
        [it.dataset.component, [at.x + at.width / 2, at.y + at.height / 2]])(it.querySelector('.body').getBoundingClientRect())))"""
    moved, anew = [], 0
    before, at = page.do(places), page.do("breezesim.view.focusLine")
    for _ in range(60):
        page.key("ArrowRight")
        now, focus = page.do(places), page.do("breezesim.view.focusLine")
        if focus != at:
            anew += 1
            stay = set(before) & set(now)
            shifts = sorted(max(abs(now[it][0] - before[it][0]), abs(now[it][1] - before[it][1])) for it in stay)
            moved += shifts[: len(shifts) // 2 + 1][-1:]
        before, at = now, focus
    run.faults += is_same("it was drawn anew", anew >= 2, True)
    run.faults += is_same("half of what stays moves little", [it for it in moved if it > 60], [])
    inside = """(({x, y, width, height}, it) => it.x >= x - 1 && it.y >= y - 1)(document.getElementById('svg').getBoundingClientRect(),
        document.getElementById('root').getBoundingClientRect())"""
    run.found("it is in sight", inside, True)
    return run.ended()


def large_wholes_ask(browser, ground):
    """The whole of a very large net is drawn when it is wanted twice."""
    run = Run(browser, ground, "large", "#line=9&focus=1&fold=")
    page = run.page
    page.do("void Object.assign(breezesim.limits, {drawn: 50})")
    page.do("breezesim.view.folded.clear()")
    page.key("o")
    run.found("it asks", "breezesim.view.isFocused", True)
    run.found("in words", "document.getElementById('says').textContent.includes('Once more')", True)
    page.key("o")
    run.found("once more", "breezesim.view.isFocused", False)
    page.key("o")
    run.found("and back at once", "breezesim.view.isFocused", True)
    return run.ended()


def picture_is_saved(browser, ground):
    """The picture is saved as a file that looks the same."""
    run = Run(browser, ground, "countdown", "#line=44&theme=dark")
    run.page.key("S")
    run.found("its name", "breezesim.added.saved?.name", "countdown-44.svg")
    text = run.page.do("breezesim.added.saved.text")
    colours = """[...document.querySelectorAll('.channel .line')].map(it => getComputedStyle(it).stroke)"""
    before = run.page.do(colours)
    path = ground.file("saved.svg", text.encode())
    run.page.open(path)
    run.found("its colours", colours, before)
    run.found("its ground", "getComputedStyle(document.querySelector('rect')).fill", "rgb(21, 24, 28)")
    return run.ended()


def buttons_that_zoom(browser, ground):
    run = Run(browser, ground, "countdown", "#line=44")
    width = "breezesim.view.box.width"
    before = run.page.do(width)
    for name, sign in (("nearer", "<"), ("farther", ">"), ("farther", ">")):
        was = run.page.do(width)
        run.page.click(*run.page.do(middle(f"#{name}")))
        run.found(name, f"{width} {sign} {was}", True)
    run.page.click(*run.page.do(middle("#fit")))
    run.found("whole", width, before)
    return run.ended()


FINGER = """((kind, id, x, y, where) => document.querySelector(where).dispatchEvent(new PointerEvent(kind, {pointerId: id,
    pointerType: 'touch', clientX: x, clientY: y, bubbles: true, cancelable: true})))"""


def fingers(browser, ground):
    """Two fingers bring the picture nearer around the place between them; one on the list goes through its lines."""
    run = Run(browser, ground, "countdown", "#line=44", width=420, height=800)
    page = run.page

    def finger(kind, who, x, y, where="#svg"):
        page.do(f"{FINGER}('pointer{kind}', {who}, {x}, {y}, '{where}')")

    under = """((x, y) => (({box}, it) => { const size = Math.max(box.width / it.width, box.height / it.height);
        return [box.x + box.width / 2 + (x - it.left - it.width / 2) * size,
        box.y + box.height / 2 + (y - it.top - it.height / 2) * size]; })(breezesim.view,
        document.getElementById('svg').getBoundingClientRect()))"""
    x, y = page.do(middle("#svg"))
    width, middle_before = page.do("breezesim.view.box.width"), page.do(f"{under}({x}, {y})")
    finger("down", 7, x - 30, y)
    finger("down", 8, x + 30, y)
    for step in range(1, 7):
        finger("move", 7, x - 30 - 5 * step, y)
        finger("move", 8, x + 30 + 5 * step, y)
    finger("up", 8, x + 60, y)
    finger("up", 7, x - 60, y)
    run.found("twice as near", f"Math.abs(breezesim.view.box.width * 2 / {width} - 1) < 0.02", True)
    after = page.do(f"{under}({x}, {y})")
    run.faults += is_same("the middle stays", [abs(a - b) < 2 for a, b in zip(after, middle_before)], [True, True])
    run.found("nothing is selected by it", SELECTED, None)
    x, y = page.do(middle("#journal"))
    finger("down", 9, x, y, "#journal")
    finger("move", 9, x, y - 40, "#journal")
    run.line("two rows on", 46)
    finger("move", 9, x, y + 18, "#journal")
    run.line("and back beyond", 43)
    finger("up", 9, x, y, "#journal")
    finger("move", 9, x, y - 90, "#journal")
    run.line("the finger is up", 43)
    page.key("t")
    x, y = page.do(middle("#chart"))
    finger("down", 3, x - 20, y, "#chart")
    finger("down", 4, x + 20, y, "#chart")
    for step in range(1, 5):
        finger("move", 3, x - 20 - 10 * step, y, "#chart")
        finger("move", 4, x + 20 + 10 * step, y, "#chart")
    run.found("fewer lines", "breezesim.streams.to - breezesim.streams.from < breezesim.trace.count / 2", True)
    first = page.do("breezesim.streams.from")
    finger("up", 4, x + 60, y, "#chart")
    finger("move", 3, x + 40, y, "#chart")
    run.found("aside", f"breezesim.streams.from < {first}", True)
    finger("up", 3, x + 40, y, "#chart")
    return run.ended()


def long_streams(browser, ground):
    """The streams of a long trace are drawn in a time that is that of the width."""
    run = Run(browser, ground, "flat", "#line=600&view=streams")
    took = run.page.do("""(() => { const begin = performance.now(); for (let i = 0; i < 20; i++) {
        breezesim.streams.key = ''; document.dispatchEvent(new KeyboardEvent('keydown', {key: 'ArrowRight'})); }
        return (performance.now() - begin) / 20; })()""")
    run.faults += is_same("below 100 ms", took < 100, True)
    pieces = run.page.do(f"Object.values({PIECES}(['k1', 'c1', 'c2'], 1, breezesim.trace.count, 40)).map(it => it.length)")
    run.faults += is_same("no more pieces than three for a pixel", max(pieces) <= 120, True)
    return run.ended()


PLAYS = [
    streams_and_lines,
    streams_are_drawn,
    streams_near_and_far,
    pins,
    list_in_words,
    list_of_some,
    places_before,
    source_of_two_place,
    source_of_tee,
    no_source,
    sets_of_cases,
    counts_of_handshakes,
    groups_of_flat_nets,
    focus_at_first,
    focus_keeps_places,
    large_wholes_ask,
    picture_is_saved,
    buttons_that_zoom,
    fingers,
    long_streams,
]
# Those that Node can't play.
DRAWN = {streams_and_lines, streams_are_drawn, streams_near_and_far, focus_at_first, focus_keeps_places, picture_is_saved,
         buttons_that_zoom, fingers, long_streams, list_of_some, list_in_words}
