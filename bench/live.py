#!/usr/bin/env python3
"""What the live page costs, in a browser without a window.

    live.py PAGE.html [--firefox]    each line is a net: how long it takes to open, a step (the middle one of 40), of it the
                                     engine, the last of the commands before, an undo of that, and the memory of the engine
    live.py --steps MODULE.wasm      the engine's share of a step, in Node on one thread: the least and the middle one of 40, as
                                     time of a processor (`cpu`) and by the clock
    live.py --calls MODULE.wasm PROGRAM
                                     1,000,000 moves in one process of Node, call after call, and by the native program: user time

A step is from a click until the page shows it: the move, what can come next, who waits for whom, and the picture.
"""
import json
import os
import resource
import subprocess
import sys
import tempfile
import time

TOP = os.path.dirname(os.path.dirname(os.path.realpath(__file__)))
sys.path.insert(0, f"{TOP}/tests")
sys.dont_write_bytecode = True
from playing.browser import Browser  # noqa: E402
from playing.firefox import Firefox  # noqa: E402
from playing.page_nets import NETS, chain  # noqa: E402

SECONDS = 200
NET = NETS["large"]
CASES = [
    (chain(2), ["offer:activate", "run 5"]),
    (chain(167), ["offer:activate", "run 300"]),
    (chain(1667), ["offer:activate", "run 1000"]),
    (chain(4090), ["offer:activate", "run 1000"]),
    (NET.text(), ["offer:go", "run 111000"]),
    (NET.text(), ["offer:go", "run 900000"]),
]
SCRIPT = """(() => { window.measured = null; (async () => {
  const {live, make, take, undo} = breezesim, rounded = it => Math.round(it * 10) / 10, steps = [], parts = [];
  const opened = performance.now();
  await take('net.breeze', new TextEncoder().encode(NETLIST));
  const open = performance.now() - opened;
  for (const line of LINES) await make(line);
  const last = live.times.step, lines = breezesim.trace.count, {memory} = live.times;
  await undo();
  const undone = live.times.step;
  await make(LINES[LINES.length - 1]);
  for (let i = 0; i < 40; i++) {
    const move = live.moves.find(it => !it.isHost);
    if (!move) break;
    await make(move.command);
    steps.push(live.times.step);
    parts.push(live.times.engine);
  }
  const middle = list => rounded([...list].sort((a, b) => a - b)[list.length >> 1] || 0);
  const counts = {components: breezesim.net.components.length - 1, lines, moves: live.moves.length};
  const times = {open: rounded(open), step: middle(steps), engine: middle(parts), last: rounded(last), undo: rounded(undone)};
  window.measured = {...counts, ...times, memory: Math.round(memory / 1e5) / 10};
})().catch(fault => { window.measured = String(fault); }); })()"""
STEPS = """import fs from 'node:fs';
const [script, moduleFile, netlistFile, part, ...lines] = process.argv.slice(1), bytesOf = text => new TextEncoder().encode(text);
const engine = new Function(`${fs.readFileSync(script, 'utf8')}; return engine;`)();
const module = new WebAssembly.Module(fs.readFileSync(moduleFile));
const output = new engine.Sink(), disk = new engine.Memory({'net.breeze': new Uint8Array(fs.readFileSync(netlistFile))});
const spent = () => process.cpuUsage().user / 1000, times = {cpu: [], clock: []};
function* asked() {
  for (const line of lines) yield line;
  let moves = yield 'moves', state = yield 'state';
  const [, count] = /components: ([0-9]+)/.exec(state);
  for (let i = 0; i < 40; i++) {
    const move = /^fire [0-9]+ [0-9]+/m.exec(moves);
    if (!move) break;
    const cpu = spent(), clock = performance.now();
    yield move[0];
    moves = yield 'moves';
    state = yield 'state';
    if (Number(count) <= 300) yield 'waits all';
    times.cpu.push(spent() - cpu);
    times.clock.push(performance.now() - clock);
  }
  const told = [Number(count), Number(/trace: ([0-9]+)/.exec(state)[1]), moves.split('\\n').length - 2];
  for (const list of [times.cpu, times.clock]) {
    const sorted = [...list].sort((a, b) => a - b);
    told.push(...[sorted[0], sorted[sorted.length >> 1]].map(it => (it || 0).toFixed(1)));
  }
  console.log(told.map(it => String(it).padStart(12)).join(''));
}
const session = asked(), next = () => {
  const {value, done} = session.next(output.take());
  return done ? null : bytesOf(`${value}\\n`);
};
engine.play(module, ['explore', '-p', part, '-n', 'net.breeze'], disk, [new engine.Spring(next), output, new engine.Sink()]);"""
CALLS = """import fs from 'node:fs';
const [script, moduleFile, netlistFile, part] = process.argv.slice(1);
const engine = new Function(`${fs.readFileSync(script, 'utf8')}; return engine;`)();
const module = new WebAssembly.Module(fs.readFileSync(moduleFile)), netlist = fs.readFileSync(netlistFile);
for (let i = 0; i < 5; i++) {
  const before = process.cpuUsage().user, disk = new engine.Memory({'net.breeze': new Uint8Array(netlist)});
  const words = ['run', '-p', part, '-n', 'net.breeze', '--', 'offer:go', 'run:999000'];
  const {status, output} = engine.call(module, words, {disk});
  console.log(status, output.length, Math.round((process.cpuUsage().user - before) / 1000));
}"""


def measure_page(path, kind):
    columns = ["components", "lines", "moves", "open", "step", "engine", "last", "undo", "memory"]
    print(*[f"{it:>10}" for it in columns], "   ms and MB", sep="")
    with kind() as browser:
        for text, lines in CASES:
            page = browser.page().open(path)
            page.until("document.body.classList.contains('ready')", True, SECONDS)
            ready = round(page.do("breezesim.live.times.ready"))
            page.do(SCRIPT.replace("NETLIST", json.dumps(text.decode())).replace("LINES", json.dumps(lines)))
            page.until("window.measured !== null", True, SECONDS)
            measured = page.do("window.measured")
            row = [f"{measured[it]:>10}" for it in columns] if isinstance(measured, dict) else [measured]
            print(*row, f"   the engine started in {ready}", sep="", flush=True)
            page.close()


def measure_steps(module):
    columns = ["components", "fired", "moves", "cpu least", "cpu middle", "clock least", "clock middle"]
    print(*[f"{it:>12}" for it in columns], "   ms", sep="")
    for text, lines in CASES:
        with tempfile.NamedTemporaryFile(suffix=".breeze") as file:
            file.write(text)
            file.flush()
            part = NET.part if lines[0] == "offer:go" else "chain"
            words = [f"{TOP}/engine/engine.js", module, file.name, part, *lines]
            subprocess.run(["node", "--input-type=module", "-e", STEPS, *words], check=True)


def measure_calls(module, program):
    with tempfile.TemporaryDirectory() as room:
        with open(f"{room}/net.breeze", "wb") as file:
            file.write(NET.text())
        words = [f"{TOP}/engine/engine.js", module, f"{room}/net.breeze", NET.part]
        print("through the module: status, bytes, ms")
        subprocess.run(["node", "--input-type=module", "-e", CALLS, *words], check=True)
        print("native: ms")
        for _ in range(5):
            before = resource.getrusage(resource.RUSAGE_CHILDREN).ru_utime
            words = [program, "run", "-p", NET.part, "-n", f"{room}/net.breeze", "--", "offer:go", "run:999000"]
            subprocess.run(words, stdout=subprocess.DEVNULL, check=True)
            print(round((resource.getrusage(resource.RUSAGE_CHILDREN).ru_utime - before) * 1000))


if __name__ == "__main__":
    if len(sys.argv) == 4 and sys.argv[1] == "--calls":
        measure_calls(*sys.argv[2:])
    elif len(sys.argv) == 3 and sys.argv[1] == "--steps":
        print(time.strftime("%H:%M"), "load", *os.getloadavg())
        measure_steps(sys.argv[2])
    elif len(sys.argv) in (2, 3) and not sys.argv[1].startswith("-"):
        print(time.strftime("%H:%M"), "load", *os.getloadavg())
        measure_page(sys.argv[1], Firefox if sys.argv[2:] == ["--firefox"] else Browser)
    else:
        sys.exit(__doc__)
