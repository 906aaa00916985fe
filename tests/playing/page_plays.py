"""What is done on pages in a browser: keys, clicks, links, pages of hostile names, pages that are spoilt."""

import time

from . import pages
from .page_looks import Drawn, is_same, scrub
from .page_oracle import wanted_of
from .program import part_words

LINE, SELECTED = "breezesim.view.line", "breezesim.view.selected"
COMPONENTS = "[...document.querySelectorAll('.component')].map(it => it.dataset.component)"
SHOWN = "document.querySelectorAll('.component').length"


def middle(selector):
    """A script: the middle of an element on the screen."""
    return f"""(() => {{ const it = document.querySelector('{selector}').getBoundingClientRect();
        return [it.x + it.width / 2, it.y + it.height / 2]; }})()"""


def on_channel(number):
    """A script: a point of the screen in the middle of a channel's line."""
    return f"""(() => {{ const line = document.querySelector('[data-channel="{number}"] .line');
        const at = line.getPointAtLength(line.getTotalLength() / 2).matrixTransform(line.getScreenCTM());
        return [at.x, at.y]; }})()"""


def shown(page, selector):
    return page.do(f"getComputedStyle(document.querySelector('{selector}')).display !== 'none'")


class Run:
    """A page that is played on, with what was wrong so far."""

    def __init__(self, browser, ground, name, link="", **how):
        self.browser, self.ground, self.how, self.faults = browser, ground, how, []
        self.page = browser.page(**how).open(ground.path(name), link)

    def anew(self, name, link=""):
        """A page in place of the one that is open, also where it is of the same file."""
        self.ended()
        self.page = self.browser.page(**self.how).open(self.ground.path(name), link)
        return self.page

    def found(self, what, script, wanted):
        """A script has to have this value; it may need some time to get it."""
        self.faults += is_same(what, self.page.until(script, wanted, 2), wanted)

    def line(self, what, wanted):
        self.found(what, LINE, wanted)

    def ended(self):
        self.faults += is_same("errors", self.page.errors, [])
        self.page.close()
        return self.faults


def keys_that_step(browser, ground):
    run = Run(browser, ground, "arbiter_tree")
    key = run.page.key
    run.line("the opening", 1)
    steps = [(["ArrowRight", "ArrowRight"], 3), (["ArrowLeft"], 2), (["l", "l"], 4), (["h"], 3), (["End"], 66), (["Home"], 1)]
    for keys, wanted in [*steps, (["ArrowLeft"], 1), (["PageDown"], 66), (["ArrowRight"], 66), (["PageUp"], 1)]:
        key(*keys)
        run.line(" ".join(keys), wanted)
    key("ArrowRight", shift=True)
    run.line("Shift and right", 11)
    key("ArrowLeft", shift=True)
    run.line("Shift and left", 1)
    for keys, wanted in [(["]"], 2), (["]", "]"], 17), (["["], 3), (["r"], 16), (["r"], 19), (["R"], 16)]:
        key(*keys)
        run.line(f"hosts and rests, {' '.join(keys)}", wanted)
    key("g", "4", "2", "Enter")
    run.line("g", 42)
    key("x")
    run.line("no clash", 42)
    return run.ended()


def keys_of_clashes(browser, ground):
    run = Run(browser, ground, "careless")
    run.page.key("x")
    run.line("x", 3)
    run.found("the clash", "[...document.querySelectorAll('.component.clash')].map(it => it.dataset.component)", ["1"])
    run.page.key("End")
    run.found("the clash line", "document.getElementById('says').textContent", "Two requests met at 1 Call, first at line 3.")
    return run.ended()


def keys_of_looks(browser, ground):
    """Chart, light and dark, help, following, near and far."""
    run = Run(browser, ground, "arbiter_tree", "#line=20")
    page = run.page
    page.key("c")
    run.found("c", "document.querySelectorAll('#chart .row').length > 10", True)
    run.found("its line", "document.querySelector('#chart .row.now').dataset.line", "20")
    run.found("heads", "document.querySelectorAll('#chart .head').length", 8)
    page.key("c")
    run.faults += is_same("c again", shown(page, "#chart"), False)
    for wanted in ("dark", "light"):
        page.key("d")
        run.found("d", "document.documentElement.dataset.theme", wanted)
    page.key("?")
    run.faults += is_same("?", shown(page, "#help"), True)
    page.key("Escape")
    run.faults += is_same("Escape", shown(page, "#help"), False)
    box = page.do("document.getElementById('svg').getAttribute('viewBox')")
    page.key("+", "+")
    run.found("+", "breezesim.view.box.width < " + box.split()[2], True)
    page.key("-", "-", "-")
    run.found("-", "breezesim.view.box.width > " + box.split()[2], True)
    page.key("f")
    run.found("f", "document.getElementById('svg').getAttribute('viewBox')", box)
    page.key("w")
    run.found("w", "document.getElementById('follow').classList.contains('on')", True)
    page.key("w", "o")
    run.found("o", "[document.getElementById('focus').classList.contains('on'), breezesim.view.isFocused]", [True, True])
    page.key("o", "s")
    run.found("s", "breezesim.view.isStubbed", True)
    return run.ended()


def play_and_speed(browser, ground):
    run = Run(browser, ground, "arbiter_tree")
    page = run.page
    page.key(" ")
    time.sleep(0.9)
    page.key(" ")
    paused = page.do(LINE)
    run.faults += is_same("play", paused > 3, True)
    time.sleep(0.3)
    run.line("pause", paused)
    page.key("<", "<")
    run.found("slower", "document.getElementById('speed').textContent", "2/s")
    page.key(">", ">", ">", ">", ">", ">", ">")
    run.found("faster", "document.getElementById('speed').textContent", "1000/s")
    page.key("Home", " ")
    run.line("to the end", 66)
    run.found("and no farther", "document.getElementById('play').textContent", "play")
    return run.ended()


def clicks(browser, ground):
    run = Run(browser, ground, "arbiter_tree", "#line=16")
    page = run.page
    page.click(*page.do(middle('[data-component="5"] .body')))
    run.found("a component", SELECTED, "c5")
    page.key("]")
    run.line("its next line", 23)
    page.key("[", "[")
    run.line("its last lines", 12)
    page.click(*page.do(on_channel(7)))
    run.found("a channel", SELECTED, "k7")
    page.key("]")
    run.line("the channel's next line", 26)
    page.click(*page.do(middle('.events button:first-child')))
    run.line("the button for the previous event", 11)
    page.key("Escape")
    run.found("Escape", SELECTED, None)
    page.click(*page.do(middle("#journal .row:nth-child(5)")))
    run.line("a row", page.do("Number(document.querySelector('#journal .now').dataset.line)"))
    page.click(*page.do(middle('.port[data-channel="2"] rect')))
    run.found("a port", SELECTED, "k2")
    page.click(*page.do("(({x, y}) => [x + 4, y + 4])(document.getElementById('svg').getBoundingClientRect())"))
    run.found("nothing", SELECTED, None)
    page.click(*page.do(middle('.frame[data-copy="1"] text')))
    run.found("a copy is folded", "[...document.querySelectorAll('.folded')].map(it => it.dataset.copy)", ["1"])
    run.found("and hides what is in it", "document.querySelector('[data-component=\"1\"]')", None)
    page.click(*page.do(middle('.folded[data-copy="1"]')))
    run.found("and unfolded", "document.querySelectorAll('.folded').length", 0)
    for name, wanted in [("first", 1), ("forward", 2), ("last", 66), ("back", 65)]:
        page.click(*page.do(middle(f"#{name}")))
        run.line(f"the button {name}", wanted)
    return run.ended()


def details_are_whole(browser, ground):
    """Numbers and phases of ports aren't cut, whatever stands beside them, and nothing says `last` for `previous`."""
    run = Run(browser, ground, "flat", "#line=900")
    far = run.page.do("breezesim.net.components.findIndex(it => it && it.channels.some(number => number > 99))")
    run.page.do(f"location.hash = '#line=900&at=c{far}'")
    run.found("what is selected", SELECTED, f"c{far}")
    cut = "[...document.querySelectorAll('#details .port .channel')].filter(it => it.scrollWidth > it.clientWidth).length"
    run.found("numbers of channels that are cut", cut, 0)
    run.found("the buttons", "[...document.querySelectorAll('.events button')].map(it => it.textContent)",
              ["◂ previous event", "next event ▸", "×"])
    return run.ended()


def drag_and_wheel(browser, ground):
    run = Run(browser, ground, "arbiter_tree", "#line=16")
    page, box = run.page, "(({x, y, width}) => [Math.round(x), Math.round(y), Math.round(width)])(breezesim.view.box)"
    x, y, width = page.do(box)
    page.mouse("mousePressed", 300, 700, button="left", clickCount=1)
    for step in range(1, 6):
        page.mouse("mouseMoved", 300 + 20 * step, 700, button="left", buttons=1)
    page.mouse("mouseReleased", 400, 700, button="left", clickCount=1)
    run.found("a drag", f"{box}[0] < {x}", True)
    run.found("a drag selects nothing", SELECTED, None)
    page.mouse("mouseWheel", 300, 400, deltaX=0, deltaY=-300)
    run.found("the wheel", f"{box}[2] < {width}", True)
    page.mouse("mouseWheel", 1300, 200, deltaX=0, deltaY=100)
    run.line("the wheel on the journal", 19)
    return run.ended()


def links(browser, ground):
    run = Run(browser, ground, "arbiter_tree", "#line=30&at=k7&view=chart&theme=dark&fold=1,3&find=fire%205")
    page = run.page
    run.found("a link", f"[{LINE}, {SELECTED}, breezesim.view.panel]", [30, "k7", "chart"])
    run.found("its theme", "document.documentElement.dataset.theme", "dark")
    run.found("its copies", "[...document.querySelectorAll('.folded')].map(it => it.dataset.copy).sort()", ["1", "3"])
    run.found("its search", "document.getElementById('count').textContent", "12 lines")
    page.key("ArrowRight")
    members = ["line=31", "at=k7", "view=chart", "find=fire%205", "fold=1,3", "stubs=1", "theme=dark"]
    run.found("the address follows", "location.hash", "#" + "&".join(it for it in members if it != "stubs=1"))
    page.key("s")
    run.found("stubs", "location.hash", "#" + "&".join(members))
    page = run.anew("arbiter_tree", "#" + "&".join(members))
    seen = f"[{LINE}, {SELECTED}, breezesim.view.panel, breezesim.view.isStubbed, document.documentElement.dataset.theme]"
    run.found("all of it, anew", seen, [31, "k7", "chart", True, "dark"])
    page.do("location.hash = '#line=30'")
    run.found("what a link doesn't say", f"[...{seen}, breezesim.view.folded.size, document.getElementById('search').value]",
              [30, None, "", None, None, 0, ""])
    page.key("d")
    run.found("the theme alone", "location.hash", "#line=30&theme=dark")
    odd = [("#line=99999", [66, None]), ("#line=-4&at=c99", [1, None]), ("#line=x&at=k7", [1, "k7"])]
    for link, wanted in [*odd, ("#at=%3Cb%3E&line=9", [9, None]), ("", [1, None])]:
        page.do(f"location.hash = '{link}'")
        run.found(f"the link {link}", f"[{LINE}, {SELECTED}]", wanted)
    return run.ended()


def searches(browser, ground):
    run = Run(browser, ground, "arbiter_tree")
    page, wanted = run.page, wanted_of(ground.program, *ground.made["arbiter_tree"])
    lines = [n for n, text in enumerate(wanted.lines) if "fire 5" in text]
    page.key("/")
    page.type("fire 5")
    run.found("the count", "document.getElementById('count').textContent", f"{len(lines)} lines")
    ways = [("first", False, lines[0]), ("on", False, lines[1]), ("back", True, lines[0]), ("round", True, lines[-1])]
    for what, shift, due in ways:
        page.key("Enter", shift=shift)
        run.line(what, due)
    page.key("Escape", "n")
    run.line("n", lines[0])
    page.do("document.getElementById('search').value = ''")
    page.key("/")
    page.type("1 ")
    twice = sum("1 " in text for text in wanted.lines)
    run.found("lines that have it twice", "document.getElementById('count').textContent", f"{twice} lines")
    page.do("document.getElementById('search').value = ''")
    page.type("fire 5")
    run.found("the count again", "document.getElementById('count').textContent", f"{len(lines)} lines")
    page.key("Escape", "Home", "n")
    page.key("N")
    run.line("N", lines[-1])
    for text, due in [("arb", "c1"), ("channel 12", "k12"), ("use", "k5"), ("pick", "c1")]:
        page.do("document.getElementById('search').value = ''")
        page.key("/")
        page.type(text)
        run.found(f"the search for {text}", "document.querySelector('#found .name')?.dataset.select", due)
        page.click(*page.do(middle("#found .name")))
        run.found(f"what is selected by {text}", SELECTED, due)
        page.key("Escape", "Escape")
    return run.ended()


def found_is_seen(browser, ground):
    """What is chosen in a list is drawn with all that is beside it, in focus, and else the picture goes there to read it."""
    run = Run(browser, ground, "large", "#line=9&focus=1")
    page = run.page
    far = page.do("breezesim.net.components.length - 9")
    own = f"breezesim.net.components[{far}].channels.slice(1)"
    drawn = "channel => document.querySelector(`.channel[data-channel=\"${channel}\"]`)"
    run.found("it isn't there", f"document.querySelectorAll('[data-component=\"{far}\"]').length", 0)
    page.key("/")
    page.type(f"c{far}")
    page.key("ArrowDown", "Enter", "Escape")
    run.found("what is selected", SELECTED, f"c{far}")
    run.found("it is drawn", f"document.querySelectorAll('.component.selected[data-component=\"{far}\"]').length", 1)
    run.found("with its channels", f"{own}.every({drawn})", True)
    run.found("and who moves", "document.querySelectorAll('.component.moved').length", 1)
    page = run.anew("large", "#line=9&focus=0&fold=")
    channel = page.do(f"{own}[0]")
    near = f"""(({{x, y, width, height}}, node) => node.x > x && node.x < x + width && node.y > y && node.y < y + height
        && width < 2 * document.getElementById('svg').getBoundingClientRect().width)(breezesim.view.box,
        breezesim.view.picture.nodes.find(it => it.component && it.component.number === {far}))"""
    page.key("/")
    page.type(f"c{far}")
    page.key("ArrowDown", "Enter", "Escape")
    run.found("it is near", near, True)
    page.do("document.getElementById('search').value = ''")
    page.key("f", "/")
    page.type(f"k{channel}")
    page.key("ArrowDown", "Enter", "Escape")
    run.found("a channel", SELECTED, f"k{channel}")
    run.found("it is near", "breezesim.view.box.width < 2 * document.getElementById('svg').getBoundingClientRect().width", True)
    return run.ended()


def names_are_chosen(browser, ground):
    """Components are found in each way that they are told; arrows choose a name, and Enter takes one where no line is found."""
    run = Run(browser, ground, "pipeline", "#line=60")
    page = run.page
    chosen = "[...document.querySelectorAll('#found .chosen')].map(it => it.dataset.select)"
    for text in ("Fetch 5", "fetch 5", "5 Fetch", "c5", "Fetch5"):
        page.do("document.getElementById('search').value = ''")
        page.key("/")
        page.type(text)
        run.found(f"the search for {text}", "document.querySelector('#found .name')?.dataset.select", "c5")
        page.key("Escape")
    page.do("document.getElementById('search').value = ''")
    page.key("/")
    page.type("fetch")
    names = page.until("[...document.querySelectorAll('#found .name')].map(it => it.dataset.select)", None, 0.3)
    for key, wanted in (("ArrowDown", names[:1]), ("ArrowDown", names[1:2]), ("ArrowUp", names[:1]), ("ArrowUp", [])):
        page.key(key)
        run.found(key, chosen, wanted)
    page.key("Enter")
    run.found("no line is found, so the first", SELECTED, names[0])
    page.key("ArrowDown", "ArrowDown", "Enter", "Escape", "Escape")
    run.found("nothing selected", SELECTED, None)
    page.do("document.getElementById('search').value = ''")
    page.key("/")
    page.type("fire 5")
    page.key("Enter")
    run.found("lines come before names", f"{SELECTED} === null && {LINE} !== 60", True)
    return run.ended()


def callers(browser, ground):
    """Who called a component, up to the host; and at the end who waits for whom, where the page is told."""
    run = Run(browser, ground, "countdown", "#line=44&at=c1")
    due = "called by BinaryFuncConstR 9 ‹ Fetch 8 ‹ Sequence 7 ‹ While 5 ‹ Sequence 3 ‹ the host at activate"
    run.page.do("location.hash = '#line=43&at=c1'")
    run.found("callers", "document.querySelector('.callers').textContent", due)
    lines = ["end wait Sequence 2 for Passivator 4 to reply on 4", "end cycle: Sequence 2 -> Passivator 4"]
    run.page.open(put_rows(ground, "called", "cross", lines), "#line=12")
    told = "[...document.querySelectorAll('#details .wait')].map(it => [it.className, it.dataset.select || ''])"
    run.found("the end", told, [["wait", "c2"], ["wait cycle", ""]])
    run.page.key("Home")
    run.found("the beginning", told, [])
    return run.ended()


def pages_of_sessions(browser, ground):
    """A page that `explore` writes of a net in which nothing moves any more: who waits for whom, and the cycle in red."""
    lines = f"offer:go\nrun\npage {ground.path('stuck')}\n".encode()
    ground.program.run(["explore", "--part", "cross", "--netlist", pages.paths_of("cross")[0], "--files", ground.room], lines)
    run = Run(browser, ground, "stuck", "#line=12")
    rows = "[...document.querySelectorAll('#details .wait')].filter(it => !it.classList.contains('ring'))"
    told = f"{rows}.map(it => [it.className, it.dataset.select || '', it.textContent])"
    wanted = [
        ["wait cycle", "", "cycle: Sequence 2 -> Passivator 4 -> Sequence 3 -> Passivator 5 -> Sequence 2"],
        ["wait", "c1", "wait Concur 1 for Sequence 2 to reply on 2"],
        ["wait", "c1", "wait Concur 1 for Sequence 3 to reply on 3"],
        ["wait", "c2", "wait Sequence 2 for Passivator 4 to reply on 4"],
        ["wait", "c3", "wait Sequence 3 for Passivator 5 to reply on 6"],
        ["wait", "c4", "wait Passivator 4 for Sequence 3 to ask on 7"],
        ["wait", "c5", "wait Passivator 5 for Sequence 2 to ask on 5"],
        ["wait", "", "5 wait, 0 can move, 0 idle"],
    ]
    run.found("the end", told, wanted)
    run.found("its colour", "getComputedStyle(document.querySelector('#details .cycle')).color", "rgb(200, 16, 46)")
    run.page.key("ArrowLeft")
    run.found("before the end", told, wanted)
    run.page.key("Home")
    run.found("the beginning", told, [])
    return run.ended()


# What the rows of a page say of the net `late`, of which a part is stuck behind line 12 of 20, and all at the end.
LATE_RING = {
    2: "wait Sequence 2           for Passivator 4 to reply on 5",
    4: "wait Passivator 4         for Sequence 3 to ask on 9",
    3: "wait Sequence 3           for Passivator 5 to reply on 8",
    5: "wait Passivator 5         for Sequence 2 to ask on 6",
}
LATE_STUCK = ["stuck 12 4 1 2 3 4 5 6 7 8", *(f"ring {number} {text}" for number, text in LATE_RING.items())]
STUCK_SEEN = """(() => {
  const numbers = style => [...document.querySelectorAll('.component' + style)].map(it => Number(it.dataset.component)).sort();
  return [numbers('.stuck'), numbers('.in-ring'), document.querySelectorAll('.title.stuck').length];
})()"""
RING_SEEN = "[...document.querySelectorAll('#details .ring')].map(it => [it.className, it.dataset.select, it.textContent])"
STUCK_TOLD = "['.title', '.under'].map(it => document.querySelector(`#details ${it}`).textContent)"


def put_rows(ground, name, source, lines):
    """A page with the texts of another one, and with these rows of what is stuck."""
    listed, rows, trace = ground.texts(source)
    kept = b"".join(line for line in rows.splitlines(True) if not line.startswith((b"stuck ", b"ring ", b"end ")))
    added = "".join(f"{line}\n" for line in lines).encode()
    return ground.put(name, pages.page_text(ground.template, [listed, kept + added, trace]))


def stuck_rows(page):
    """The rows of a page that say what is stuck."""
    return [line for line in page.splitlines() if line.startswith(("stuck ", "ring "))]


class Stuck:
    """What a page has to show of what is stuck, by these rows, if there are any: each component from its own last move on."""

    def __init__(self, rows, trace):
        self.since, _, *self.members = map(int, rows[0].split()[1:]) if rows else (float("inf"), 0)
        self.ring = [int(line.split()[1]) for line in rows[1:]]
        self.fired = [line.split() for line in trace.splitlines()]

    def last(self, number):
        """The last line that moves a component."""
        return max((n for n, words in enumerate(self.fired, 1) if words[1:3] == ["fire", str(number)]), default=0)

    def at(self, line):
        """The components with a mark, those of them in the ring, and how many panels there are."""
        members = [it for it in self.members if line >= max(self.since, self.last(it))]
        return [members, sorted(set(members) & set(self.ring)), int(line >= self.since)]


def marks_of_the_stuck(browser, ground):
    """What never moves again has its mark from its last move on, and none before the first line, however one comes to a line."""
    put_rows(ground, "stuck_marks", "late", LATE_STUCK)
    run, wanted = Run(browser, ground, "stuck_marks"), Stuck(LATE_STUCK, ground.texts("late")[2].decode())
    run.found("the opening", STUCK_SEEN, wanted.at(1))
    for line in range(2, 21):
        run.page.key("ArrowRight")
        run.found(f"going on, line {line}", STUCK_SEEN, wanted.at(line))
    for line in range(19, 8, -1):
        run.page.key("ArrowLeft")
        run.found(f"going back, line {line}", STUCK_SEEN, wanted.at(line))
    for line in (12, 20, 11, 18, 1, 17):
        scrub(run.page, line)
        run.found(f"by the scrubber, line {line}", STUCK_SEEN, wanted.at(line))
    run.anew("stuck_marks", "#line=13")
    run.found("by a link", STUCK_SEEN, wanted.at(13))
    put_rows(ground, "stuck_marks", "late", [])
    run.anew("stuck_marks", "#line=20")
    run.found("a page that says nothing", STUCK_SEEN, [[], [], 0])
    return run.ended()


def panel_of_the_stuck(browser, ground):
    """From the first line on it is told what is stuck: how many there and at the end, and the ring, a click on each of it."""
    put_rows(ground, "stuck_panel", "late", LATE_STUCK)
    run = Run(browser, ground, "stuck_panel", "#line=12")
    ring = [["wait ring cycle", f"c{number}", " ".join(text.split())] for number, text in LATE_RING.items()]
    told = [
        "Since line 12, 4 components can never move again",
        "Whatever the host does. At the end it is 8 of 8, and 4 of them wait for one another.",
    ]
    texts = "[...document.querySelectorAll('#details .title, #details .under')].map(it => it.textContent)"
    run.found("what is told", texts, told)
    run.found("the ring", RING_SEEN, ring)
    said = "document.getElementById('says').textContent"
    words = "Passivator 5 takes the request of Sequence 3 on channel 8 (from here on something is stuck)"
    run.found("the line in words", said, words)
    run.page.key("End")
    run.found("at the end", texts, told)
    run.page.key("Home")
    run.found("at the opening", RING_SEEN, [])
    scrub(run.page, 16)
    run.page.click(*run.page.do(middle("#details [data-line=\"12\"]")))
    run.line("the title", 12)
    for number in LATE_RING:
        run.page.click(*run.page.do(middle(f"#details [data-select=\"c{number}\"]")))
        run.found("a line of the ring", SELECTED, f"c{number}")
        run.found("the ring is still told", f"{RING_SEEN}.length", 4)
        run.found("and what it is", "document.querySelectorAll('.under.stuck').length", 1)
    run.page.key("Home")
    run.found("not at the opening", "document.querySelectorAll('.under.stuck').length", 0)
    return run.ended()


def rings_that_close_later(browser, ground):
    """A member of the ring that still moves says until when, and is marked from there on."""
    of_6 = "wait Sequence 6 for Passivator 8 to reply on 11"
    rows = ["stuck 12 4 1 2 3 4 5 6 7 8", f"ring 6 {of_6}", "ring 2 wait Sequence 2 for me"]
    put_rows(ground, "stuck_later", "late", rows)
    run, wanted = Run(browser, ground, "stuck_later", "#line=17"), Stuck(rows, ground.texts("late")[2].decode())
    late = ["wait ring", "c6", f"{of_6} (from line 18 on)"]
    run.found("before its last move", RING_SEEN, [late, ["wait ring cycle", "c2", "wait Sequence 2 for me"]])
    run.found("its marks", STUCK_SEEN, wanted.at(17))
    run.page.key("ArrowRight")
    run.found("from it on", f"{RING_SEEN}.map(it => it[0])", ["wait ring cycle", "wait ring cycle"])
    run.found("its marks then", STUCK_SEEN, wanted.at(18))
    put_rows(ground, "stuck_later", "late", ["stuck 12 1 3"])
    run.anew("stuck_later", "#line=12")
    run.found("no ring", STUCK_TOLD, ["Since line 12, 1 component can never move again",
                                      "Whatever the host does. At the end it is 1 of 8."])
    return run.ended()


def rings_in_focus(browser, ground):
    """In focus the ring is in sight from the first line on, wherever it lies in the net."""
    far = [int(it) for it in list(wanted_of(ground.program, *ground.made["large"]).kinds)[::60]]
    stuck = f"stuck 700 {len(far)} {' '.join(map(str, far))}"
    put_rows(ground, "stuck_ring", "large", [stuck, *(f"ring {it} it waits" for it in far)])
    run = Run(browser, ground, "stuck_ring", "#line=699&focus=1")
    seen = f"(shown => [{far}.every(it => shown.includes(String(it))), shown.length <= 90])({COMPONENTS})"
    run.found("before it", seen, [False, True])
    for key, wanted in (("ArrowRight", True), ("ArrowLeft", False), ("End", True)):
        run.page.key(key)
        run.found(key, seen, [wanted, True])
    return run.ended()


def rings_in_folded_copies(browser, ground):
    """A folded copy is marked where a member of the ring is in it, from that member's last move on."""
    put_rows(ground, "stuck_box", "arbiter_tree", ["stuck 20 2 1 5", "ring 1 it waits", "ring 5 it waits"])
    moves = [line.split() for line in ground.texts("arbiter_tree")[2].decode().splitlines()]
    last = max(n for n, words in enumerate(moves, 1) if words[1:3] == ["fire", "1"])
    run = Run(browser, ground, "stuck_box", "#line=66&fold=1,2")
    boxes = "[...document.querySelectorAll('.folded.in-ring')].map(it => it.dataset.copy)"
    for line, wanted in ((66, ["1"]), (last - 1, []), (last, ["1"]), (1, [])):
        scrub(run.page, line)
        run.found(f"at line {line}", boxes, wanted)
    return run.ended()


def flag_of_strip(browser, ground):
    """Above the scrubber a red flag stands at the first line behind which something is stuck."""
    put_rows(ground, "stuck_flag", "late", LATE_STUCK)
    run = Run(browser, ground, "stuck_flag")
    column = """(line => { const strip = document.getElementById('strip'), width = strip.clientWidth;
        const x = Math.round((line - 1) / (breezesim.trace.count - 1) * (width - 1));
        return [...strip.getContext('2d').getImageData(x, 18, 1, 1).data]; })"""
    run.found("at line 12", f"{column}(12)", [200, 16, 46, 255])
    run.found("at line 9", f"{column}(9)", [0, 0, 0, 0])
    return run.ended()


def names_and_sources(browser, ground):
    """Names of channels and variables, and places in the source, where the list has them."""
    listed, rows, trace = ground.texts("pipeline")
    lines = listed.decode().splitlines()
    lines = [line + {"channel 11 ": " name store from pipe.balsa:7:5", "component 5 ": " from pipe.balsa:9:3",
                     "component 2 ": " name y from pipe.balsa:3:1"}.get(line[: line.find(" ", line.find(" ") + 1) + 1], "")
             for line in lines]
    rows = b"".join(line for line in rows.splitlines(True) if not line.startswith(b"detail 2 "))
    ground.put("named", pages.page_text(ground.template, [("\n".join(lines) + "\n").encode(), rows, trace]))
    run = Run(browser, ground, "named", "#line=60")
    run.found("a channel's label", "[...document.querySelectorAll('.number')].some(it => it.textContent === '11 store')", True)
    run.found("a variable's sign", "document.querySelector('[data-component=\"2\"] .sign').textContent", "y")
    for text, due in [("store", "k11"), ("balsa:9", "c5"), ("pipe.balsa:3", "c2")]:
        run.page.do("document.getElementById('search').value = ''")
        run.page.key("/")
        run.page.type(text)
        run.found(f"the search for {text}", "document.querySelector('#found .name')?.dataset.select", due)
        run.page.key("Escape")
    run.page.do("location.hash = '#line=60&at=c5'")
    told = "document.querySelector('#details .under').textContent"
    run.found("a source", told, "buffer 4, line 11 of the netlist (in 2), from pipe.balsa:9:3")
    run.page.do("location.hash = '#line=60&at=k11'")
    run.found("a channel's name", "document.querySelector('#details .title').textContent", "channel 11 store push 8")
    run.page.open(ground.path("two_place"))
    labels = "[...document.querySelectorAll('.number')].map(it => it.textContent).sort()"
    run.found("labels, without the names of ports", labels, sorted("1|2|3|4|5|6|7|8 x|9 x|10 y|11 y".split("|")))
    run.found("signs of variables", "[...document.querySelectorAll('.sign')].map(it => it.textContent).join('')", "xy#;→→→")
    return run.ended()


def large_nets(browser, ground):
    """In focus a large net is laid out anew as the line moves; and it can be seen whole."""
    run = Run(browser, ground, "large", "#focus=1")
    page, wanted = run.page, wanted_of(ground.program, *ground.made["large"])
    run.found("focus", "breezesim.view.isFocused", True)
    run.faults += is_same("few components", 0 < page.do(SHOWN) <= 90, True)
    for line in (2, 30, 100, 400, 401, 1400, 700):
        scrub(page, line)
        drawn = Drawn(page, wanted)
        run.faults += drawn.at("in focus,", line)
        mover = wanted.mover(line)
        run.faults += is_same(f"who moves at {line} is in focus", set(page.do("[...document.querySelectorAll('.component.moved')]"
                              ".map(it => it.dataset.component)")), mover)
        run.faults += is_same(f"who called it at {line} is in focus", wanted.callers(line) - set(page.do(COMPONENTS)), set())
    page.key("o")
    run.found("the whole net", "breezesim.view.isFocused", False)
    run.faults += Drawn(page, wanted).at("whole,", 700)
    page.do("location.hash = '#line=9&focus=0&fold='")
    run.line("a link to the whole net", 9)
    run.found("which is whole", f"{SHOWN} === breezesim.net.components.length - 1", True)
    return run.ended()


def long_chains(browser, ground):
    """A long chain of copies is cut into columns, and folds."""
    run = Run(browser, ground, "long", "#line=250&focus=0")
    run.found("its shape", "breezesim.view.picture.height < 1.5 * breezesim.view.picture.width", True)
    run.found("its copies", "document.querySelectorAll('.folded').length", 50)
    wanted = wanted_of(ground.program, *ground.made["long"])
    run.faults += Drawn(run.page, wanted).at("in columns,", 250)
    return run.ended()


def wide_charts(browser, ground):
    """A chart with many lifelines needs no more room than there is."""
    run = Run(browser, ground, "flat", "#line=600&view=chart")
    for line in (100, 600, 1100):
        scrub(run.page, line)
        run.found("its width", "(it => it.scrollWidth <= it.clientWidth)(document.getElementById('chart'))", True)
        run.found("its line", "document.querySelector('#chart .row.now').dataset.line", str(line))
    run.page.resize(480, 900)
    for line in range(100, 1100, 200):
        scrub(run.page, line)
        run.found("on a narrow screen", "(it => it.scrollWidth <= it.clientWidth)(document.getElementById('chart'))", True)
    return run.ended()


def strokes_of_charts(browser, ground):
    """The strokes of a chart are the handshakes of its lines, each with its channel, and its bars what is held."""
    run = Run(browser, ground, "countdown", "#line=44&view=chart")
    wanted = wanted_of(ground.program, *ground.made["countdown"])
    row = "it => [Number(it.dataset.line), it.lastChild.textContent]"
    rows = run.page.do(f"[...document.querySelectorAll('#chart .row')].map({row})")
    run.faults += is_same("rows", [text for _, text in rows], [wanted.lines[line] for line, _ in rows])
    first, last = rows[0][0], rows[-1][0]
    due = []
    for channel in wanted.ends:
        phases = [(line, wanted.states[line].get(channel, ("idle", ""))[0]) for line in range(0 if first == 0 else 1, last + 1)]
        changes = [line for (_, a), (line, b) in zip(phases, phases[1:]) if a != b and b in ("asked", "replied")]
        ends = [line for (_, a), (line, b) in zip(phases, phases[1:]) if a in ("asked", "replied") and a != b]
        due += [f"k{channel}" for i, line in enumerate(changes) if i >= len(ends) or ends[i] >= first]
    found = run.page.do("[...document.querySelectorAll('#chart .stroke')].map(it => it.dataset.select)")
    heads = set(run.page.do("[...document.querySelectorAll('#chart .head')].map(it => it.dataset.select)"))

    def is_in(channel):
        ends = [f"k{channel}" if end == "host" else f"c{end.split('.')[0]}" for end in wanted.ends[channel]]
        return all(end in heads for end in ends)

    run.faults += is_same("strokes", sorted(found), sorted(it for it in due if is_in(it[1:])))
    return run.ended()


HOSTILE = [
    b"</script><script>window.hit=1</script>",
    b"<!--<script>",
    b'"&lt;<img src=x onerror=window.hit=1>',
    b"]]>",
    b"a%3Cb",
    b"",
    b"</style>\r\n\0\xff<b>",
]


def hostile_netlist():
    """A part with these names."""
    quoted = [b'"' + name.replace(b"\\", b"\\\\").replace(b'"', b'\\"') + b'"' for name in HOSTILE]
    ports = b"".join(b"(sync-port " + name + b" passive)" for name in quoted)
    inner = b"".join(b'(component "$BrzContinue" () (%d))' % (i + 1) for i in range(len(HOSTILE)))
    channels = b" (sync)" * len(HOSTILE)
    return b"(breeze-part %b (ports %b) (channels%b) (components %b))\n" % (quoted[0], ports, channels, inner)


def hostile_names(browser, ground):
    """Names that would end a script, open a comment or be markup are names."""
    netlist = hostile_netlist()
    path, part = ground.file("hostile.breeze", netlist), part_words(HOSTILE[0])
    listed = ground.program.run(["list", *part, "--netlist", path]).output.decode().splitlines()
    names = [line.split()[2] for line in listed if line.startswith("port ")]
    words = [f"offer:{name}" for name in names] + ["run:99"] + [f"watch:{name}" for name in names]
    ran = ground.program.run(["run", *part, "--netlist", path, "--", *words])
    ground.add("hostile", part, path, ground.file("hostile.trace", ran.output))
    if ground.template != pages.constants():
        ground.put("hostile", pages.page_text(ground.template, pages.texts_of(ground.get("hostile"), pages.constants())))
    run = Run(browser, ground, "hostile", "#line=9")
    run.found("names", "breezesim.net.ports.filter(it => it).map(it => it.name)", names)
    run.found("trace", "breezesim.trace.text", ran.output.decode())
    run.found("ports", "[...document.querySelectorAll('g.port text')].map(it => it.textContent).sort()", sorted(names))
    run.found("what it is called", "document.title", f"{listed[0].split()[1]} · breezesim")
    strange = "document.querySelectorAll('img, b:not(#part, #help b)').length"
    run.found("nothing else ran", f"[typeof window.hit, {strange}]", ["undefined", 0])
    return run.ended()


def other_letters(browser, ground):
    """Each byte that stands escaped is read back."""
    listed, rows, trace = ground.texts("buffer")
    letters = bytes(it for it in range(256) if it not in b"\n ")
    rows += b"detail 1 " + letters + b"\n"
    ground.put("letters", pages.page_text(ground.template, [listed, rows, trace]))
    run = Run(browser, ground, "letters")
    run.found("a detail", "[...breezesim.net.components[1].detail].map(it => it.charCodeAt(0))", list(letters))
    return run.ended()


SPOILT = [
    ("a firing left out", lambda text: text.replace(b"w1 fire 3 ask 8\n", b"", 1)),
    ("one doubled", lambda text: text.replace(b"w1 fire 3 ask 8\n", b"w1 fire 3 ask 8\n" * 2, 1)),
    ("a value that came", lambda text: text.replace(b"got 2 7", b"got 2 9", 1)),
    ("a value that was taken", lambda text: text.replace(b"take 11 7", b"take 11 6", 1)),
    ("a clash put in", lambda text: text + b"clash 7\n"),
    ("another channel", lambda text: text.replace(b"ask 9\n", b"ask 90\n", 1)),
    ("a phase that the host was told", lambda text: text + b"h1 watch activate idle\n"),
    ("a value that the host was told", lambda text: text.replace(b"ask 3 7\n", b"ask 3 7\nh1 watch o asked 9\n", 1)),
]


def spoilt_pages(browser, ground):
    """A page whose trace was spoilt says so in red."""
    faults, (listed, rows, trace) = [], ground.texts("pipeline")
    bad = "[document.getElementById('foot').classList.contains('bad'), document.getElementById('foot').textContent.slice(0, 20)]"
    for what, spoil in SPOILT:
        if spoil(trace) == trace:
            faults.append(f"{what}: nothing is spoilt")
        ground.put("spoilt", pages.page_text(ground.template, [listed, rows, spoil(trace)]))
        page = browser.page().open(ground.path("spoilt"))
        faults += is_same(what, page.do(bad), [True, "THIS PAGE IS DAMAGED"])
        page.close()
    _, _, clashing = texts = ground.texts("careless")
    ground.put("spoilt", pages.page_text(ground.template, [*texts[:2], clashing.replace(b"clash 1\n", b"")]))
    page = browser.page().open(ground.path("spoilt"))
    faults += is_same("a clash left out", page.do(bad), [True, "THIS PAGE IS DAMAGED"])
    page.close()
    return faults


def policy(browser, ground):
    """A script that was put in does not run, and nothing is fetched: neither a picture nor a style sheet nor an address."""
    page_of = ground.get("buffer")
    added = b"""<script>window.hit=1</script><img src="http://127.0.0.1:9/a.png">
<link rel="stylesheet" href="http://127.0.0.1:9/a.css">
<a onclick="window.hit=1" id="bait">x</a>"""
    ground.put("added", page_of.replace(b"<header>", added + b"<header>", 1))
    page = browser.page().open(ground.path("added"))
    page.do("document.getElementById('bait').click()")
    faults = is_same("an added script", [page.do("typeof window.hit"), page.do(LINE)], ["undefined", 1])
    fetched = "fetch('http://127.0.0.1:9/').then(() => 'fetched', () => 'refused')"
    faults += is_same("a call of fetch", page.do(fetched), "refused")
    faults += is_same("requests", page.let_through(), [])
    page.close()
    changed = page_of.replace(b"'use strict';", b"'use strict'; ", 1)
    ground.put("added", changed)
    page = browser.page().open(ground.path("added"))
    faults += is_same("a script that was changed", page.do("typeof window.breezesim"), "undefined")
    page.close()
    return faults


def narrow_screens(browser, ground):
    """On a phone the picture, the line in words and the buttons are there, and what is selected takes the journal's place."""
    run = Run(browser, ground, "countdown", "#line=44", width=420, height=800)
    page = run.page
    run.found("no sideways scrolling", "document.documentElement.scrollWidth <= innerWidth", True)
    for name in ("svg", "says", "play", "scrubber", "journal"):
        run.found(name, f"(it => it.width > 0 && it.height > 0)(document.getElementById('{name}').getBoundingClientRect())", True)
    page.click(*page.do(middle('[data-component="1"] .body')))
    run.found("a component", SELECTED, "c1")
    places = ("#details", "#journal", "aside h2")
    run.faults += is_same("details", [shown(page, place) for place in places], [True, False, False])
    page.click(*page.do(middle(".leave")))
    run.found("nothing selected", SELECTED, None)
    run.faults += is_same("the journal", [shown(page, place) for place in places], [False, True, True])
    listed, rows, trace = ground.texts("cross")
    rows += b"end wait Sequence 2 for Passivator 4 to reply on 4\n"
    ground.put("ended", pages.page_text(ground.template, [listed, rows, trace]))
    page.open(ground.path("ended"), "#line=12")
    run.faults += is_same("the end", [shown(page, place) for place in places], [True, True, True])
    return run.ended()


def on_paper(browser, ground):
    run = Run(browser, ground, "countdown", "#line=44")
    run.page.put_on_paper()
    seen = [shown(run.page, selector) for selector in (".buttons", ".find", "#svg")]
    run.faults += is_same("buttons", seen, [False, False, True])
    return run.ended()


def read_aloud(browser, ground):
    """The line in words is told as it changes, but not while it plays."""
    run = Run(browser, ground, "countdown", "#line=44")
    said, live = "document.getElementById('says').textContent", "document.getElementById('says').getAttribute('aria-live')"
    run.found("a firing", said, "Variable 1 n replies to BinaryFuncConstR 9 on channel 13, value 2")
    run.found("told", live, "polite")
    scrub(run.page, 2)
    run.found("a host", said, "The host asks at activate: done")
    run.page.key("r")
    run.found("a rest", said, "Rest: a firing was still due, and no component can move.")
    run.page.key("<", "<", "<", " ")
    run.found("not told", live, "off")
    run.page.key(" ")
    run.found("told again", live, "polite")
    return run.ended()


def marks_of_strip(browser, ground):
    """The strip has a mark at each rest, each line of the host, each event of what is selected, each line found."""
    run = Run(browser, ground, "arbiter_tree", "#line=1")
    column = """(line => { const strip = document.getElementById('strip'), width = strip.clientWidth;
        const x = Math.round((line - 1) / (breezesim.trace.count - 1) * (width - 1)), found = [];
        const at = (top, bottom) => strip.getContext('2d').getImageData(x, top, 2, bottom - top).data.some(it => it > 0);
        return [at(0, 8), at(9, 15), at(16, 22)]; })"""
    run.found("a host", f"{column}(2)", [True, False, False])
    run.found("a rest", f"{column}(16)", [True, True, True])
    run.found("none", f"{column}(30)", [False, False, False])
    run.page.do("location.hash = '#line=1&at=c5&find=fire%206'")
    run.found("an event", f"{column}(12)", [False, True, False])
    run.found("a hit", f"{column}(14)", [False, False, True])
    return run.ended()


def a_step_looks_at_little(browser, ground):
    """A step changes the marks of what moved, and touches nothing else of the picture."""
    run = Run(browser, ground, "large", "#line=500&focus=0")
    changed = run.page.do("""(async () => {
        const touched = new Set(), note = it => touched.add(it.target.closest('[data-channel],[data-component]'));
        const watch = new MutationObserver(all => all.forEach(note));
        watch.observe(document.getElementById('root'), {subtree: true, attributes: true, childList: true});
        document.dispatchEvent(new KeyboardEvent('keydown', {key: 'ArrowRight'}));
        await new Promise(then => setTimeout(then, 50));
        return touched.size; })()""")
    run.faults += is_same("what a step touches", 0 < changed <= 10, True)
    return run.ended()


PLAYS = [
    keys_that_step,
    keys_of_clashes,
    keys_of_looks,
    play_and_speed,
    clicks,
    details_are_whole,
    drag_and_wheel,
    links,
    searches,
    found_is_seen,
    names_are_chosen,
    callers,
    pages_of_sessions,
    marks_of_the_stuck,
    panel_of_the_stuck,
    rings_that_close_later,
    rings_in_focus,
    rings_in_folded_copies,
    flag_of_strip,
    names_and_sources,
    large_nets,
    long_chains,
    wide_charts,
    strokes_of_charts,
    hostile_names,
    other_letters,
    spoilt_pages,
    policy,
    narrow_screens,
    on_paper,
    read_aloud,
    marks_of_strip,
    a_step_looks_at_little,
]
# Those that look at the picture, or at what a browser alone has: Node can't play them.
DRAWN = {keys_of_looks, clicks, details_are_whole, drag_and_wheel, pages_of_sessions, flag_of_strip, wide_charts, hostile_names}
DRAWN.update({policy, narrow_screens, on_paper, marks_of_strip, a_step_looks_at_little})
