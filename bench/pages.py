#!/usr/bin/env python3
"""What pages of `page` cost, in Chromium without a window.

    pages.py PROGRAM [--firefox]     each line is a page: components, lines, bytes, how long it takes to open, and with the whole net
                                     drawn (`focus=0`), the mean of 40 steps with the layout of each, and of 10 streams that are
                                     drawn anew, with their rows

Times are milliseconds by the clock, the least of three, but for the large nets as a whole, which are opened once.
"""
import os
import sys
import tempfile
import time

TOP = os.path.dirname(os.path.dirname(os.path.realpath(__file__)))
sys.path.insert(0, f"{TOP}/tests")
sys.dont_write_bytecode = True
from playing.browser import Browser  # noqa: E402
from playing.firefox import Firefox  # noqa: E402
from playing.page_nets import Flat  # noqa: E402
from playing.program import Program  # noqa: E402
from playing.tests import EXAMPLES  # noqa: E402

SECONDS = 200
# Name, part, netlist, and how many moves are played; of an example its trace is taken.
CASES = [
    ("countdown", "countdown", None, 0),
    ("pipeline", "pipeline", None, 0),
    ("flat, 274", "flat", (250, 4), 3_500),
    ("flat, 1,108", "flat", (1000, 5), 20_000),
    ("flat, 10,920", "flat", (10_000, 5), 20_000),
    ("flat, a long trace", "flat", (400, 3), 1_000_000),
]
COLUMNS = ["components", "lines", "bytes", "opening", "whole", "drawn", "step", "streams", "rows"]
OPENED = "Math.round(performance.getEntriesByType('navigation')[0].loadEventEnd)"
DRAWN = "document.querySelectorAll('#root .component, #root .folded').length"
STEP = """(() => {
  const it = document.getElementById('scrubber'), {trace, view} = breezesim, from = Math.max(1, (trace.count >> 1) - 20);
  let spent = 0, steps = 0;
  for (let line = from; line < Math.min(trace.count, from + 41); line++) {
    const began = performance.now();
    it.value = line;
    it.dispatchEvent(new Event('input'));
    void document.body.offsetHeight;
    if (line > from) { spent += performance.now() - began; steps++; }
  }
  return Math.round(10 * spent / steps) / 10;
})()"""
STREAMS = """(() => {
  document.dispatchEvent(new KeyboardEvent('keydown', {key: 't'}));
  const it = document.getElementById('scrubber'), {trace, streams} = breezesim;
  let spent = 0;
  for (let i = 0; i < 10; i++) {
    const began = performance.now();
    streams.key = '';
    it.value = (trace.count >> 1) + i;
    it.dispatchEvent(new Event('input'));
    void document.body.offsetHeight;
    spent += performance.now() - began;
  }
  return [Math.round(spent) / 10, document.querySelectorAll('.stream').length];
})()"""


def page_of(program, room, name, part, size, moves):
    """Makes a page. Answers its path and how many lines its trace has."""
    netlist, trace = f"{EXAMPLES}/{part}.breeze", f"{EXAMPLES}/{part}.trace"
    if size:
        netlist, trace = f"{room}/net.breeze", f"{room}/net.trace"
        with open(netlist, "wb") as file:
            file.write(Flat(*size).text())
        words = ["run", "-p", part, "-n", netlist, "--journal", "2000000", "offer:go", f"run:{moves}"]
        with open(trace, "wb") as file:
            file.write(program.run(words).output)
    page = program.run(["page", "-p", part, "-n", netlist, "--trace", trace]).output
    path = f"{room}/{name}.html"
    with open(path, "wb") as file:
        file.write(page)
    return path, len(page)


def opened(browser, path, link):
    """The page of a path, opened, and how long that took."""
    page = browser.page().open(path, link)
    page.until(f"document.readyState === 'complete' && {OPENED} > 0", True, SECONDS)
    return page, page.do(OPENED)


def least(browser, path, link, times):
    """How long a page takes to open, and how much of the net it draws."""
    found = []
    for _ in range(times):
        page, took = opened(browser, path, link)
        found.append(took)
        drawn = page.do(DRAWN)
        page.close()
    return min(found), drawn


def measure(program, browser, room, case):
    path, size = page_of(program, room, *case)
    opening, _ = least(browser, path, "", 3)
    whole, drawn = least(browser, path, "#focus=0", 1 if case[3] > 4000 else 3)
    page, _ = opened(browser, path, "")
    step, (streams, rows) = page.do(STEP), page.do(STREAMS)
    components, lines = page.do("[breezesim.net.components.length - 1, breezesim.trace.count]")
    page.close()
    return [components, lines, size, opening, whole, drawn, step, streams, rows]


def main(path, kind):
    print(time.strftime("%H:%M"), "load", *os.getloadavg())
    print(f"{'':20}", *[f"{it:>11}" for it in COLUMNS], sep="")
    with tempfile.TemporaryDirectory() as room, kind() as browser:
        for case in CASES:
            found = measure(Program(path), browser, room, case)
            print(f"{case[0]:20}", *[f"{it:>11}" for it in found], sep="", flush=True)


if __name__ == "__main__":
    if len(sys.argv) not in (2, 3) or sys.argv[1].startswith("-"):
        sys.exit(__doc__)
    main(sys.argv[1], Firefox if sys.argv[2:] == ["--firefox"] else Browser)
