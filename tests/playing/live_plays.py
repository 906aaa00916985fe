"""What is done on the live page in a browser: each play by clicks and keys, held against the native program."""

import json
import os
import tempfile
import time

from .page_looks import is_same
from .page_nets import NETS
from .page_plays import RING_SEEN, STUCK_SEEN, Stuck, hostile_netlist, shown, stuck_rows
from .page_views import SOURCE, TWO_PLACE
from .tests import EXAMPLES

READY = "document.body.classList.contains('ready')"
RESTING = "breezesim.live.isOpen && !breezesim.live.isBusy"
TRACE = "breezesim.trace.text"
ANSWER = "document.getElementById('answer').textContent"
SIGNS = "[...document.querySelectorAll('#can [data-can]')].map(it => it.dataset.can)"
SECONDS = 30
# How the page is called: its session is one call that is held while it waits, or is played anew for each line, or runs without a
# worker.
WAYS = ["", "#replayed", "#alone"]


class Stage:
    """The live page in a browser, the native program, and what was wrong so far."""

    def __init__(self, browser, program, path, way="", **how):
        self.browser, self.program, self.path, self.way, self.how, self.faults = browser, program, path, way, how, []
        self.page = None
        self.open(path)

    def open(self, path):
        """Opens a live page anew."""
        if self.page:
            self.faults += is_same("errors", self.page.errors, [])
            self.page.close()
        self.page = self.browser.page(**self.how).open(path, self.way)
        self.found("the engine", READY, True)

    def found(self, what, script, wanted):
        """A script has to have this value; it may need some time to get it."""
        self.faults += is_same(what, self.page.until(script, wanted, SECONDS), wanted)

    def settle(self):
        self.page.until(RESTING, True, SECONDS)

    def click(self, script):
        """Clicks in the middle of the element that a script answers."""
        place = f"(() => {{ const it = {script}; it.scrollIntoView({{block: 'nearest'}}); const at = it.getBoundingClientRect();"
        self.page.click(*self.page.do(f"{place} return [at.x + at.width / 2, at.y + at.height / 2]; }})()"))
        self.settle()

    def button(self, *names):
        for name in names:
            self.click(f"document.getElementById('{name}')")

    def sign(self, *commands):
        """Clicks the signs of moves in the picture."""
        for command in commands:
            self.click(f"document.querySelector('#can [data-can=\"{command}\"] circle')")

    def move(self, *commands):
        """Clicks moves in the list."""
        for command in commands:
            self.click(f"document.querySelector('#moves [data-can=\"{command}\"]')")

    def command(self, line):
        """Types a command."""
        self.click("document.getElementById('command')")
        self.page.type(line)
        self.page.key("Enter", "Escape")
        self.settle()

    def scrub(self, line):
        set_to = f"it.value = {line}; it.dispatchEvent(new Event('input'));"
        self.page.do(f"(() => {{ const it = document.getElementById('scrubber'); {set_to} }})()")

    def start(self, name):
        """Opens an example by its card."""
        if not self.page.do("getComputedStyle(document.getElementById('start')).display !== 'none'"):
            self.button("leave")
        cards = "[...document.querySelectorAll('.example')]"
        self.click(f"{cards}.find(it => it.firstChild.textContent === '{name}')")
        self.found(f"the part of {name}", "document.getElementById('part').textContent", name)
        self.settle()

    def choose(self, path, name="more-files"):
        """Chooses a file."""
        self.page.choose(f"#{name}", path)
        time.sleep(0.1)
        self.settle()

    def save(self, what):
        """What is saved by the list of the bar."""
        self.page.do("void (breezesim.added.saved = null)")
        chosen = f"it.value = '{what}'; it.dispatchEvent(new Event('change'));"
        self.page.do(f"(() => {{ const it = document.getElementById('saving'); {chosen} }})()")
        self.page.until("Boolean(breezesim.added.saved)", True, SECONDS)
        return self.page.do("breezesim.added.saved.text")

    def trace(self, what, wanted):
        """The trace has to be this."""
        self.found(what, TRACE, wanted)

    def explored(self, name, lines, what="trace"):
        """What the native `explore` writes of an example after these lines: its trace or its session."""
        words = ["explore", "--part", name, "--netlist", f"{EXAMPLES}/{name}.breeze"]
        with tempfile.TemporaryDirectory() as room:
            words += ["--files", room]
            self.program.run(words, "".join(f"{it}\n" for it in [*lines, f"{what} {room}/written"]).encode())
            with open(f"{room}/written", encoding="utf-8") as file:
                return file.read()

    def verdict(self, name):
        """The page's trace is one of a run, as the native `check` says."""
        words = ["check", "--part", name, "--netlist", f"{EXAMPLES}/{name}.breeze", "--trace"]
        with tempfile.NamedTemporaryFile(suffix=".trace") as file:
            file.write(self.page.do(TRACE).encode())
            file.flush()
            ran = self.program.run([*words, file.name])
        self.faults += is_same("the verdict", (ran.status, ran.output[:5]), (0, b"run: "))

    def ended(self):
        self.faults += is_same("errors", self.page.errors, [])
        # (its own worker is a text of the page)
        self.faults += is_same("requests", [it for it in self.page.let_through() if not it.startswith("blob:")], [])
        self.page.close()
        return self.faults


def both_outcomes(stage):
    """Of the Arbiter first the one outcome is played, and then, from the line before it, the other."""
    stage.start("arbiter_tree")
    stage.trace("the opening", "trace 2\n")
    stage.sign("offer:a", "offer:b")
    stage.found("the choice", SIGNS, ["fire 1 1", "fire 1 2", "offer:c", "offer:d"])
    stage.sign("fire 1 1")
    stage.found("a is first", f"{TRACE}.split('\\n')[3]", "w1 fire 1 take 1")
    stage.button("run")
    stage.trace("as explore writes it", stage.explored("arbiter_tree", ["offer:a", "offer:b", "fire 1 1", "run"]))
    stage.scrub(3)
    stage.found("no signs at an earlier line", SIGNS, [])
    stage.click("document.querySelector('#moves button.go')")
    stage.trace("before the choice", "trace 2\nh1 offer a done\nh1 offer b done\n")
    stage.move("fire 1 2")
    stage.button("run")
    stage.trace("b is first", stage.explored("arbiter_tree", ["offer:a", "offer:b", "fire 1 2", "run"]))
    stage.verdict("arbiter_tree")


def values(stage):
    """A word that needs a value has a field. Undo and redo go line by line, and one can go on from within a run."""
    stage.start("buffer")
    stage.sign("offer:activate")
    stage.button("run")
    stage.sign("accept:i", "answer:i")
    stage.found("the field is gone to", "document.activeElement.dataset.given", "answer:i")
    stage.page.type("5")
    stage.page.key("Enter")
    stage.settle()
    stage.button("run")
    stage.sign("accept:o")
    lines = ["offer:activate", "run", "accept:i", "answer:i:5", "run", "accept:o"]
    stage.found("steps", "breezesim.live.steps.map(it => it.line)", lines)
    stage.trace("as explore writes it", stage.explored("buffer", lines))
    stage.verdict("buffer")
    stage.button("undo", "undo")
    stage.trace("undone", stage.explored("buffer", lines[:4]))
    stage.command("undo 2")
    stage.trace("two undone at once", stage.explored("buffer", lines[:2]))
    stage.button("redo", "redo")
    stage.found("marks", "document.querySelector('[data-channel=\"3\"]').classList.contains('idle')", True)
    stage.button("redo", "redo")
    stage.trace("redone", stage.explored("buffer", lines))
    stage.scrub(5)
    stage.page.key("b")
    stage.trace("from within a run", stage.explored("buffer", ["offer:activate", "run 3"]))
    stage.scrub(4)
    stage.page.key("b")
    stage.trace("and of what was left of it", stage.explored("buffer", ["offer:activate", "run 2"]))


def deadlock(stage):
    """At rest who waits in a circle is red, and told in words."""
    stage.start("cross")
    stage.sign("offer:go")
    stage.page.key("m")
    red = "[...document.querySelectorAll('.component.circle')].map(it => Number(it.dataset.component)).sort()"
    stage.found("red components", red, [2, 3, 4, 5])
    red = "[...document.querySelectorAll('.channel.circle')].map(it => Number(it.dataset.channel)).sort()"
    stage.found("red channels", red, [4, 5, 6, 7])
    told = "[...document.querySelectorAll('.wait.cycle')].map(it => it.textContent).filter(it => it.startsWith('cycle: '))"
    stage.found("in words", told, ["cycle: Sequence 2 -> Passivator 4 -> Sequence 3 -> Passivator 5 -> Sequence 2"])
    stage.page.key("u")
    stage.found("none before", "document.querySelectorAll('.circle').length", 0)


def stuck(stage):
    """What can never move again is marked and told as a page of the same session has it, and no more when it is undone."""
    stage.start("cross")
    stage.sign("offer:go")
    stage.page.key("m")
    rows = stuck_rows(stage.explored("cross", ["offer:go", "run"], "page"))
    wanted = Stuck(rows, stage.explored("cross", ["offer:go", "run"]))
    for _ in range(2):
        stage.found("at rest", STUCK_SEEN, wanted.at(12))
        ring = [" ".join(row.split()[2:]) for row in rows[1:]]
        stage.found("the ring", f"{RING_SEEN}.map(it => it[2])", ring)
        for line in (9, 11, 10):
            stage.scrub(line)
            stage.found(f"at line {line}", STUCK_SEEN, wanted.at(line))
        stage.page.key("u")
        stage.settle()
        stage.found("undone", STUCK_SEEN, [[], [], 0])
        stage.page.key("U")
        stage.settle()
    stage.page.key("u")
    stage.settle()
    for _ in range(10):
        stage.command("watch:go")
    stage.found("at line 12, where all can still move", f"[breezesim.view.line, {STUCK_SEEN}]", [12, [[], [], 0]])


def clashes(stage):
    """Clash lines stand after all others, whatever comes then."""
    stage.start("careless")
    stage.sign("offer:a", "offer:b")
    stage.button("run")
    lines = ["offer:a", "offer:b", "run"]
    stage.trace("a clash", stage.explored("careless", lines))
    stage.sign("accept:use")
    stage.trace("more lines", stage.explored("careless", [*lines, "accept:use"]))
    stage.button("undo")
    stage.trace("fewer lines", stage.explored("careless", lines))
    stage.found("the audit", "breezesim.found.bad", 0)


def saved_pages(stage):
    """A page that is saved goes on where it was, also of random moves; the session, the trace and a page are saved."""
    stage.start("arbiter_tree")
    lines = ["offer:a", "offer:c", "seed 7", "random 3", "run 2"]
    stage.sign("offer:a", "offer:c")
    for line in lines[2:]:
        stage.command(line)
    trace = stage.explored("arbiter_tree", lines)
    stage.trace("as explore writes it", trace)
    stage.faults += is_same("the trace", stage.save("trace"), trace)
    stage.faults += is_same("the session", stage.save("session"), stage.explored("arbiter_tree", lines, "session"))
    stage.faults += is_same("a page", stage.save("page"), stage.explored("arbiter_tree", lines, "page"))
    with tempfile.TemporaryDirectory() as room:
        with open(f"{room}/saved.html", "w", encoding="utf-8") as file:
            file.write(stage.save("whole"))
        stage.open(f"{room}/saved.html")
    stage.trace("carried", trace)
    stage.settle()
    stage.button("run")
    stage.trace("it goes on", stage.explored("arbiter_tree", [*lines, "run"]))


def sessions(stage):
    """The session of each example, chosen as a file, ends with the trace that the native program writes."""
    for name in ("buffer", "arbiter_tree"):
        stage.start(name)
        path = f"{EXAMPLES}/{name}.session"
        with open(path, encoding="utf-8") as file:
            lines = [line.split("#")[0].strip() for line in file]
        stage.choose(path)
        played = [line for line in lines if line and line.split()[0] not in ("trace", "page", "session", "quit")]
        stage.trace(f"the session of {name}", stage.explored(name, played))


def hosts_that_stand_by(stage):
    """Hosts that stand by go on at rest, and a run with words of theirs is one command; it is taken back, also in part, as a whole.
    `redo` makes again what the last `undo` took back as it was, typed, in a session, and one by one. Words behind lines are no
    part of them."""
    stage.start("buffer")
    lines = ["feed i 5 6", "drain o", "offer:activate", "run"]
    for line in lines:
        stage.command(line)
    fed, begun = stage.explored("buffer", lines), stage.explored("buffer", lines[:3])
    steps = "breezesim.live.steps.map(it => [it.line, it.before])"
    stage.trace("fed", fed)
    stage.faults += is_same("values passed", [fed.count(" 5\n") > 1, fed.count(" 6\n") > 1], [True, True])
    stage.found("steps", steps, [["offer:activate", 1], ["run", 2]])
    stage.verdict("buffer")
    stage.button("undo")
    stage.trace("undone", begun)
    stage.command("redo")
    stage.trace("made again", fed)
    stage.command("undo 2")
    stage.trace("both undone", "trace 2\n")
    stage.command("redo")
    stage.trace("both made again", fed)
    stage.found("steps again", steps, [["offer:activate", 1], ["run", 2]])
    stage.command("redo")
    stage.found("no more", ANSWER, "error: there is nothing to redo")
    stage.scrub(8)
    stage.page.key("b")
    stage.trace("taken back as a whole", begun)
    stage.found("which is said", f"{ANSWER}.endsWith('taken back as a whole.')", True)
    stage.command("names on")
    stage.command("run 3")
    stage.found("in words", f"{ANSWER}.includes(' asks ')", True)
    stage.trace("without the words", stage.explored("buffer", [*lines[:3], "run 3"]))
    session = ["names on", *lines, "undo 2", "redo", "undo", "redo", "feed i 7", "run", "watch:i"]
    with tempfile.TemporaryDirectory() as room:
        with open(f"{room}/fed.session", "w", encoding="utf-8") as file:
            file.write("\n".join(session))
        stage.choose(f"{room}/fed.session")
    stage.trace("of a session", stage.explored("buffer", session))
    fed_more = stage.explored("buffer", session[:-1])
    ends = [["offer:activate", 1], ["run", 2], ["run", fed.count("\n")], ["watch:i", fed_more.count("\n")]]
    stage.found("steps of a session", steps, ends)
    stage.button("undo")
    stage.command("undo 3")
    stage.trace("all undone", "trace 2\n")
    stage.button("redo", "redo")
    stage.trace("made again as it was, though there is a 7 too", fed)
    stage.button("redo", "redo")
    stage.trace("all made again", stage.explored("buffer", session))
    stage.found("the steps as they were", steps, ends)


def sources(stage):
    """A source that places of the net name is shown where control is, also on a page that is saved; streams grow with the trace,
    and are drawn anew where it becomes another."""
    stage.choose(f"{EXAMPLES}/two_place.breeze", "file")
    stage.found("the part", "document.getElementById('part').textContent", "two_place")
    with tempfile.TemporaryDirectory() as room:
        path, saved = f"{room}/two_place.balsa", f"{room}/saved.html"
        with open(path, "w", encoding="utf-8") as file:
            file.write(TWO_PLACE)
        stage.choose(path)
        stage.found("the panel", "breezesim.view.panel", "source")
        stage.sign("offer:activate", "fire 3 1")
        rows = [[5, "row", ""], [6, "row active now", "l"], [7, "row", ""]]
        stage.found("the source", SOURCE, rows)
        stage.button("anew")
        stage.sign("offer:activate", "fire 3 1")
        stage.found("begun anew", SOURCE, rows)
        with open(saved, "w", encoding="utf-8") as file:
            file.write(stage.save("whole"))
        stage.page.key("t")
        styles = "[...document.querySelectorAll('.stream[data-row=\"k1\"] rect')].map(it => it.getAttribute('class'))"
        stage.found("streams", styles, ["idle", "asked", "taken"])
        stage.button("undo")
        stage.found("undone", styles, ["idle", "asked"])
        stage.open(saved)
        stage.found("it is open", RESTING, True)
        stage.page.key("y")
        stage.found("a page that was saved", SOURCE, rows)


def keys_that_are_taken(stage):
    """The keys of a page that have another meaning here are there by other ones."""
    stage.start("buffer")
    stage.sign("offer:activate")
    stage.button("run")
    stage.page.key("E")
    stage.found("E", "document.getElementById('only').textContent", "host only")
    stage.page.do("void (breezesim.view.selected = 'c1')")
    stage.page.key("P")
    stage.found("P", "breezesim.streams.pinned", ["c1"])
    line = stage.page.do("breezesim.view.line")
    stage.page.key("Home", "j")
    stage.found("j", "breezesim.view.line", line)


def traces(stage):
    """A trace that is a run is played, line by line, and can be changed; of any other the notes are shown."""
    stage.start("countdown")
    with open(f"{EXAMPLES}/countdown.trace", encoding="utf-8") as file:
        text = file.read()
    stage.choose(f"{EXAMPLES}/countdown.trace")
    stage.trace("played", text)
    stage.found("the verdict", f"{ANSWER}.startsWith('countdown.trace: run: ')", True)
    stage.scrub(20)
    stage.page.key("b")
    stage.trace("a front of it", "".join(text.splitlines(True)[:20]))
    with tempfile.TemporaryDirectory() as room:
        with open(f"{room}/spoilt.trace", "w", encoding="utf-8") as file:
            file.write(text.replace("fire 6 reply 10 0", "fire 6 reply 10 1"))
        stage.choose(f"{room}/spoilt.trace")
    stage.found("notes", f"/not a run: line \\d+\\n[^]*note: /.test({ANSWER})", True)
    stage.trace("as before", "".join(text.splitlines(True)[:20]))


def refusals(stage):
    """A netlist that is refused shows what `lint` says, and what was open can be gone back to. A bad command changes nothing."""
    stage.start("buffer")
    stage.sign("offer:activate")
    stage.choose(f"{EXAMPLES}/explain/several.breeze")
    linted = stage.program.run(["lint", "--netlist", "several.breeze"], cwd=f"{EXAMPLES}/explain").output.decode()
    stage.found("what lint says", "document.getElementById('refusal').textContent", linted.strip())
    stage.button("return")
    stage.found("the start is left", "getComputedStyle(document.getElementById('start')).display", "none")
    stage.trace("the other one is open", "trace 2\nh1 offer activate done\n")
    # (an answer that reads as a line of a trace is none)
    answered = {"answer:i:999": "error: ", "mvoes": "error: ", "quit": "error: ", "waits 2": "Loop 2 can move"}
    for line, wanted in {**answered, "say h1 offer activate done": "h1 offer activate done"}.items():
        stage.command(line)
        stage.found(line, f"{ANSWER}.includes('{wanted}')", True)
        stage.trace(f"after {line}", "trace 2\nh1 offer activate done\n")
    stage.command("trace mine.trace")
    stage.found("a file that a command names", "breezesim.added.saved.name", "mine.trace")


def files_of_no_use(stage):
    """A file that is no netlist, trace, session or source is refused with what it was taken for, and one that is too large by its
    size; all stays. A trace is told from a session by its first line."""
    stage.start("buffer")
    stage.sign("offer:activate")
    stage.button("run")
    played = stage.explored("buffer", ["offer:activate", "run"])
    no_command = " was taken for a session, and line {} begins with `{}`, which is no command. Nothing is changed."
    files = {
        "empty": (b"", " was taken for a session, and it is empty. Nothing is changed."),
        "notes.txt": (b"# today\n\nthings to do\n", no_command.format(3, "things")),
        "more.txt": (b"run\nundo\nrunning shoes\n", no_command.format(3, "running")),
        "a.png": (b"\x89PNG\r\n\x1a\n\0\0\0\rIHDR", no_command.format(1, "?PNG")),
        "it.answers": (b"h1 offer activate done\n", no_command.format(1, "h1")),
        "large": (None, " has 67108865 bytes, and at most 67108864 are read. Nothing is changed."),
    }
    with tempfile.TemporaryDirectory() as room:
        for name, (data, told) in files.items():
            with open(f"{room}/{name}", "wb") as file:
                file.write(data or b"")
                file.truncate(67108865 if data is None else len(data))
            for field in ("more-files", "file"):
                if field == "file":
                    stage.button("leave")
                stage.choose(f"{room}/{name}", field)
                shown_in = "answer" if field == "more-files" or data is not None else "refusal"
                stage.found(f"what is told of {name}", f"document.getElementById('{shown_in}').textContent", name + told)
                stage.found(f"what stays with {name}", f"[{TRACE}, breezesim.live.steps.length]", [played, 2])
                stage.page.do("void document.getElementById('return').click()")
        for name, text in [("next.trace", "trace 3\n"), ("dos.trace", "trace 2\r\n")]:
            with open(f"{room}/{name}", "w", encoding="utf-8", newline="") as file:
                file.write(text)
            stage.choose(f"{room}/{name}")
            stage.found(f"what is told of {name}", f"{ANSWER}.startsWith('{name}: not a trace: line 1')", True)
            stage.trace(f"what stays with {name}", played)
    stage.button("undo")
    stage.trace("undone", stage.explored("buffer", ["offer:activate"]))


def what_was_replaced(stage):
    """What was played is had back by `undo` at the opening of the netlist or the session that came in its place, or after a restart;
    `redo` goes back there. What is refused takes no place."""
    stage.choose(f"{EXAMPLES}/two_place.breeze", "file")
    stage.found("the part", "document.getElementById('part').textContent", "two_place")
    with tempfile.TemporaryDirectory() as room:
        with open(f"{room}/two_place.balsa", "w", encoding="utf-8") as file:
            file.write(TWO_PLACE)
        stage.choose(f"{room}/two_place.balsa")
        for line in ("offer:activate", "run", "undo", "random 3"):
            stage.command(line)
        played = stage.page.do(TRACE)
        stage.choose(f"{EXAMPLES}/explain/several.breeze")
        stage.button("return")
        stage.trace("a netlist that is refused", played)
        stage.choose(f"{EXAMPLES}/cross.breeze")
        for line in ("offer:go", "run"):
            stage.command(line)
        other, steps = stage.page.do(TRACE), "breezesim.live.steps.map(it => it.line)"
        stage.button("undo", "undo", "undo")
        stage.trace("had back", played)
        stage.found("its steps", steps, ["offer:activate", "random 3"])
        stage.found("its source", "breezesim.net.sources.size", 1)
        stage.button("undo", "redo", "redo", "redo", "redo")
        stage.trace("made again", other)
        stage.found("nothing more", "document.getElementById('redo').disabled", True)
        stage.button("anew")
        stage.command("undo")
        stage.trace("a restart taken back", other)
        stage.command("redo")
        stage.trace("begun anew again", "trace 2\n")
        with open(f"{room}/it.session", "w", encoding="utf-8") as file:
            file.write("# a comment\nrun 1\noffer:go\n")
        stage.button("undo")
        stage.choose(f"{room}/it.session")
        stage.trace("a session", stage.explored("cross", ["run 1", "offer:go"]))
        stage.button("undo", "undo", "undo")
        stage.trace("had back from under the session", other)
        stage.command("watch:go")
        stage.found("nothing to redo", "document.getElementById('redo').disabled", True)


# Opens so many times by clicks on these elements in turn, until an error is told; `window.opened` counts.
OPEN_MANY = """void (async (elements, most) => {
  window.opened = {count: 0, isDone: false};
  for (; window.opened.count < most; window.opened.count++) {
    elements[window.opened.count % elements.length].click();
    do await new Promise(it => setTimeout(it)); while (breezesim.live.isBusy);
    if (document.getElementById('answer').classList.contains('bad') || !breezesim.live.isOpen) break;
  }
  window.opened.isDone = true;
})"""
MANY, MANY_SECONDS = 1000, 600


def many_openings(stage):
    """A page bears 1,000 restarts and 1,000 openings, and the engine has as much memory then as at first."""
    stage.start("buffer")
    stage.command("offer:activate")
    memory = stage.page.do("breezesim.live.times.memory")
    for elements in ("[document.getElementById('anew')]", "[...document.querySelectorAll('.example')].slice(0, 3)"):
        stage.page.do(f"{OPEN_MANY}({elements}, {MANY})")
        stage.page.until("window.opened.isDone", True, MANY_SECONDS)
        stage.found(f"openings by {elements}", f"[window.opened.count, {ANSWER}]", [MANY, ""])
    stage.start("buffer")
    stage.command("offer:activate")
    stage.trace("it plays", "trace 2\nh1 offer activate done\n")
    stage.found("the engine's memory", "[breezesim.live.times.memory, breezesim.live.times.memory > 0]", [memory, True])


def parts(stage):
    """Of several parts one is chosen."""
    stage.start("pipeline")
    stage.found("parts", "[...document.getElementById('parts').options].map(it => it.value)", ["buffer", "pipeline"])
    chosen = "it.value = 'buffer'; it.dispatchEvent(new Event('change'));"
    stage.page.do(f"(() => {{ const it = document.getElementById('parts'); {chosen} }})()")
    stage.found("the part", "document.getElementById('part').textContent", "buffer")
    stage.settle()
    stage.sign("offer:activate")
    stage.trace("it plays", "trace 2\nh1 offer activate done\n")


def pasted(stage):
    """A netlist that is pasted is opened byte for byte, also with letters of more than a byte."""
    with open(f"{EXAMPLES}/buffer.breeze", encoding="utf-8") as file:
        text = "; \u00e9\u2192\n" + file.read()
    stage.page.do(f"void (document.getElementById('paste').value = {json.dumps(text)})")
    stage.button("open-paste")
    stage.found("the part", "document.getElementById('part').textContent", "buffer")
    stage.settle()
    stage.faults += is_same("the netlist", stage.page.do("[...breezesim.live.netlist]"), list(text.encode()))


def stopped(stage):
    """A long run is stopped, and all is as before it. (Without a worker a page can't be stopped.)"""
    if stage.way == "#alone":
        return
    with tempfile.TemporaryDirectory() as room:
        with open(f"{room}/large.breeze", "wb") as file:
            file.write(NETS["large"].text())
        stage.choose(f"{room}/large.breeze", "file")
    stage.command("offer:go")
    stage.command("run 200")
    before = stage.page.do(TRACE)
    stage.faults += is_same("it was played", before.count("\n") > 200, True)
    stage.page.do("void (breezesim.make('random 900000'), setTimeout(() => breezesim.stop(), 20))")
    time.sleep(0.5)
    stage.settle()
    stage.trace("as before", before)
    stage.command("run 20")
    stage.found("it plays on", f"{TRACE}.length > {len(before)}", True)


def long_runs(stage):
    """Of a run that is too long for its answer the trace is read whole. It grows, is taken back, and is cut."""
    net = NETS["large"]
    with tempfile.TemporaryDirectory() as room:
        with open(f"{room}/large.breeze", "wb") as file:
            file.write(net.text())
        stage.choose(f"{room}/large.breeze", "file")
        words = ["run", "--part", net.part, "--netlist", f"{room}/large.breeze", "--", "offer:go"]
        wanted = {count: stage.program.run([*words, f"run:{count}"]).output.decode() for count in (698, 9000, 20000)}
    stage.command("offer:go")
    stage.command("run 9000")
    stage.trace("a part of it", wanted[9000])
    stage.command("run 11000")
    stage.trace("all of it", wanted[20000])
    stage.button("undo")
    stage.trace("undone", wanted[9000])
    stage.scrub(700)
    stage.page.key("b")
    stage.trace("cut", wanted[698])
    stage.found("the audit", "breezesim.found.bad", 0)


def hostile_names(stage):
    """Names that would end a script or be markup are names, also on a page that is saved."""
    with tempfile.TemporaryDirectory() as room:
        with open(f"{room}/hostile.breeze", "wb") as file:
            file.write(hostile_netlist())
        stage.choose(f"{room}/hostile.breeze", "file")
        listed = stage.program.run(["parts", "--netlist", f"{room}/hostile.breeze"]).output.decode().splitlines()
        names = [line.split()[2] for line in listed if line.startswith("port ")]
        for name in names:
            stage.command(f"offer:{name}".replace("#", "%23"))
        with open(f"{room}/saved.html", "w", encoding="utf-8") as file:
            file.write(stage.save("whole"))
        for is_saved in (False, True):
            if is_saved:
                stage.open(f"{room}/saved.html")
            stage.trace("its lines", "".join(["trace 2\n", *(f"h1 offer {name} done\n" for name in names)]))
            stage.found("nothing else ran", "[typeof window.hit, document.querySelectorAll('img').length]", ["undefined", 0])


def narrow(stage):
    """On a phone the picture, the bar and what can come next are there, and nothing scrolls sideways."""
    stage.page.resize(420, 800)
    stage.start("arbiter_tree")
    stage.found("no sideways scrolling", "document.documentElement.scrollWidth <= innerWidth", True)
    for name in ("svg", "run", "moves", "scrubber"):
        place = f"document.getElementById('{name}').getBoundingClientRect()"
        stage.found(name, f"(it => it.width > 0 && it.height > 0)({place})", True)
    stage.move("offer:a")
    stage.trace("a move", "trace 2\nh1 offer a done\n")
    stage.faults += is_same("the picture", shown(stage.page, "#svg"), True)


# The plays, and whether each is played in all ways of calling.
PLAYS = {both_outcomes: True, values: True, deadlock: True, stuck: True, clashes: True, saved_pages: True, sessions: True}
PLAYS.update({hosts_that_stand_by: True, files_of_no_use: True, what_was_replaced: True})
PLAYS.update({traces: True, long_runs: True, refusals: False, parts: False, pasted: False, hostile_names: False})
PLAYS.update({stopped: False, narrow: False, sources: False, keys_that_are_taken: False, many_openings: False})
# Those that need a browser: one looks at the picture, the other at what memory there is.
DRAWN = {narrow, many_openings}


def play(act, browser, program, path, way):
    """What a play finds wrong."""
    stage = Stage(browser, program, os.path.abspath(path), way)
    act(stage)
    return stage.ended()
