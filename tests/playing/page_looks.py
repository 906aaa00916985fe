"""What is looked at on a page in a browser, and what is wrong with it."""

from .page_oracle import VARIABLES

STEPS_BACK, MARKED_LINES = 12, 30

# The phase and the value of each channel that isn't idle, behind each line.
DERIVED = """(() => {
  const {trace, net, lastChange, phaseAfter, valueAfter} = breezesim, names = ['idle', 'asked', 'taken', 'replied'], states = [];
  for (let line = 1; line <= trace.count; line++) {
    const state = {};
    for (let k = 1; k < net.channels.length; k++) {
      const change = lastChange(trace, k, line), phase = phaseAfter(trace, change);
      if (phase) state[k] = [names[phase], valueAfter(trace, change)];
    }
    states.push(state);
  }
  return states;
})()"""
# The phases and values that are seen, by channel; what is drawn; and the marks of components.
PHASES_SEEN = """(() => {
  const seen = {};
  for (const group of document.querySelectorAll('.channel[data-channel]')) {
    const phase = ['asked', 'taken', 'replied'].find(name => group.classList.contains(name));
    const tokens = [...group.querySelectorAll('.token')].map(token => token.tagName).join();
    if (phase || tokens) seen[group.dataset.channel] = [phase, tokens];
  }
  return seen;
})()"""
DRAWN = "[...document.querySelectorAll('.channel[data-channel]')].map(group => group.dataset.channel)"
VALUES_SEEN = """[...document.querySelectorAll('.value.on text')].filter(text => !text.closest('.of-bundle'))
    .map(text => text.textContent).sort()"""
ALL_SEEN = f"[{PHASES_SEEN}, {VALUES_SEEN}]"
MARKS_SEEN = """(() => {
  const numbers = style => [...document.querySelectorAll('.component' + style)].map(group => group.dataset.component).sort();
  const held = {};
  for (const group of document.querySelectorAll('.component')) {
    const caption = group.querySelector('.caption').textContent.split(' = ');
    if (caption.length > 1) held[group.dataset.component] = caption[1];
  }
  const row = document.querySelector('#journal .now');
  return {drawn: numbers(''), moved: numbers('.moved'), busy: numbers('.busy'), clash: numbers('.clash'), held,
    journal: row && [row.dataset.line, row.lastChild.textContent], at: document.getElementById('position').textContent};
})()"""


def is_same(what, found, wanted):
    """A list with what is wrong, or an empty one."""
    return [] if found == wanted else [f"{what}: {str(found)[:300]} in place of {str(wanted)[:300]}"]


def cut(text, most):
    return text[: most - 1] + "…" if len(text) > most else text


def scrub(page, line):
    """Moves the scrubber to a line."""
    find = "const it = document.getElementById('scrubber')"
    page.do(f"(() => {{ {find}; it.value = {line}; it.dispatchEvent(new Event('input')); }})()")


def looks_at_texts(page, wanted):
    """The trace stands in the page as it was, nothing was fetched, and the page finds nothing wrong with itself."""
    text = "\n".join(wanted.lines[1:]) + "\n"
    foot = page.do("[breezesim.found.bad, document.getElementById('foot').classList.contains('bad')]")
    return [*is_same("the trace", page.do("breezesim.trace.text"), text), *is_same("damage", foot, [0, False]),
            *is_same("requests", page.let_through(), []), *is_same("errors", page.errors, [])]


def looks_at_states(page, wanted):
    """Each channel's phase and value behind each line."""
    found = page.do(DERIVED)
    if len(found) != len(wanted.states) - 1:
        return [f"{len(found)} lines in place of {len(wanted.states) - 1}"]
    faults = []
    for line, state in enumerate(found, 1):
        faults += is_same(f"line {line}", {channel: tuple(told) for channel, told in state.items()}, wanted.states[line])
    return faults[:3]


class Drawn:
    """What is drawn of the channels of a page, held against what is wanted."""

    TOKENS = {"asked": "path", "taken": "rect", "replied": "path"}

    def __init__(self, page, wanted):
        self.page, self.wanted, self.drawn = page, wanted, set(page.do(DRAWN))

    def at(self, how, line):
        """The phases that are seen are those behind a line: by colour, and by one token."""
        phases_seen, values_seen = self.page.do(ALL_SEEN)
        seen = {channel: tuple(told) for channel, told in phases_seen.items()}
        phases = {channel: phase for channel, phase in self.wanted.phases(line).items() if channel in self.drawn}
        told = is_same(f"{how} line {line}", seen, {channel: (phase, self.TOKENS[phase]) for channel, phase in phases.items()})
        state = {channel: value for channel, (_, value) in self.wanted.states[line].items() if value}
        values = sorted(cut(value, 9) for channel, value in state.items() if channel in self.drawn)
        return told + is_same(f"values at {how} line {line}", values_seen, values)


def looks_at_drawing(page, wanted):
    """What is drawn behind a line, however one comes there: by a link, step by step back from the end, forth, by the scrubber."""
    last, faults = len(wanted.lines) - 1, []
    drawn = Drawn(page, wanted)
    for line in {1, 2, last // 2, last, 3} - {0}:
        page.do(f"location.hash = '#line={line}&focus=0'")
        page.until("breezesim.view.line", line)
        faults += drawn.at("by a link,", line)
    page.key("End")
    for line in range(last, max(1, last - STEPS_BACK), -1):
        faults += drawn.at("going back,", line)
        page.key("ArrowLeft")
    for line in [last, 2, last // 2, 1]:
        scrub(page, line)
        faults += drawn.at("by the scrubber,", line)
    for line in range(2, min(last, STEPS_BACK)):
        page.key("ArrowRight")
        faults += drawn.at("going on,", line)
    return faults


def looks_at_marks(page, wanted):
    """Who moved, who holds a request, where requests meet, what variables hold, and the line in the journal."""
    faults, last, drawn_now = [], len(wanted.lines) - 1, Drawn(page, wanted)
    for line in [*range(2, min(last, MARKED_LINES) + 1), last * 2 // 3, last]:
        scrub(page, line)
        faults += drawn_now.at("at once,", line)
        seen = page.do(MARKS_SEEN)
        drawn = set(seen["drawn"])
        variables = {it: cut(value, 9) for it, value in wanted.held(line).items() if it in drawn}
        for what, found, due in [
            ("moved", seen["moved"], sorted(wanted.mover(line) & drawn)),
            ("busy", seen["busy"], sorted(wanted.busy(line) & drawn)),
            ("clashing", seen["clash"], sorted(wanted.clashing(line) & drawn)),
            ("held", seen["held"], variables),
            ("the journal", seen["journal"], [str(line), wanted.lines[line]]),
            ("where it is", seen["at"], f"line {line} of {last}"),
        ]:
            faults += is_same(f"{what} at line {line}", found, due)
    return faults


def looks_at_ports(page, wanted, kinds):
    """The ports of each component, by the rows of its kind, arrays as long as its channels tell."""
    found = page.do("breezesim.net.components.slice(1).map(it => [it.kind, it.channels.length - 1, it.ports.slice(1)])")
    faults = []
    for kind, count, ports in found:
        row = kinds[kind]
        arrays = sum(is_array for _, _, is_array in row)
        size = (count - len(row) + arrays) // max(arrays, 1)
        due = []
        for name, passive, is_array in row:
            due += [(f"{name}{i + 1}", passive) for i in range(size)] if is_array else [(name, passive)]
        faults += is_same(f"ports of {kind}", [(port["name"], port["isPassive"]) for port in ports], due)
    return faults + is_same("components", len(found), len(wanted.kinds))


ENDS_SEEN = """(() => {
  const box = it => {
    const {x, y, width, height} = it.getBoundingClientRect();
    return [x - 6, y - 6, x + width + 6, y + height + 6];
  };
  const middle = it => {
    const [x, y, right, bottom] = box(it);
    return [(x + right) / 2, (y + bottom) / 2];
  };
  const components = {}, ports = {}, channels = {};
  for (const it of document.querySelectorAll('.component')) components[it.dataset.component] = box(it.querySelector('.body'));
  for (const it of document.querySelectorAll('g.port')) ports[it.dataset.channel] = box(it.querySelector('rect'));
  for (const it of document.querySelectorAll('.channel[data-channel]')) {
    const dots = ['active', 'passive'].map(name => it.querySelector('circle.' + name));
    channels[it.dataset.channel] = [dots.map(dot => dot && middle(dot)), it.querySelector('title').textContent.split('\\n')[0]];
  }
  return {components, ports, channels};
})()"""


def looks_at_ends(page, wanted):
    """A channel's filled dot is at the component or port that asks, its open one where it is answered; its title names both."""
    page.do("location.hash = '#line=1&focus=0'")
    page.until("breezesim.view.line", 1)
    page.key("f")
    seen, faults = page.do(ENDS_SEEN), []
    for channel, (dots, title) in seen["channels"].items():
        named = title.split(": ", 1)[1].removeprefix("from ").split(" to ")
        for end, dot, name in zip(wanted.ends[channel], dots, named):
            component = end.split(".")[0]
            wanted_name = "the host at " if end == "host" else f"{wanted.kinds[component]} {component}"
            faults += is_same(f"an end of {channel}", name.startswith(wanted_name), True)
            place = seen["ports"].get(channel) if end == "host" else seen["components"].get(component)
            if dot and place:
                is_in = place[0] <= dot[0] <= place[2] and place[1] <= dot[1] <= place[3]
                faults += is_same(f"the dot of {channel} at {end}", is_in, True)
    return faults


def looks_at_details(page, wanted):
    """What a click on a component and on a channel tells: the phases of its ports and its lines."""
    faults, last = [], len(wanted.lines) - 1
    line = last // 2 + 1
    for component in list(wanted.kinds)[:6]:
        page.do(f"location.hash = '#line={line}&at=c{component}'")
        page.until("breezesim.view.selected", f"c{component}")
        told = "row => [row.dataset.select.slice(1), row.lastChild.textContent]"
        rows = page.do(f"[...document.querySelectorAll('#details .port')].map({told})")
        state = wanted.states[line]
        due = [[channel, " ".join(filter(None, state.get(channel, ("idle", ""))))] for channel, _ in rows]
        faults += is_same(f"ports of {component} at line {line}", rows, due)
        lines = [n for n, text in enumerate(wanted.lines) if text.split()[1:3] == ["fire", component]]
        count = page.do("document.querySelector('.events .under').textContent")
        faults += is_same(f"lines of {component}", count, f"{sum(n <= line for n in lines)} of {len(lines)}")
        after, before = [n for n in lines if n > line], [n for n in lines if n < line]
        for key, due in (("]", min(after, default=line)), ("[", max(before, default=line))):
            page.key(key)
            faults += is_same(f"{key} of {component}", page.do("breezesim.view.line"), due)
            scrub(page, line)
        kind = wanted.kinds[component]
        title = page.do("document.querySelector('#details .title').textContent")
        faults += is_same("title", title.split()[:2], [component, kind])
        if kind in VARIABLES:
            told = page.do("[...document.querySelectorAll('#details .under')].some(it => it.textContent === "
                           f"'holds {wanted.held(line)[component]}')")
            faults += is_same(f"what {component} holds", told, True)
    return faults
