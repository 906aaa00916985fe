// ---- live: the engine, on a thread of its own where the browser gives one to a file ----------------------------------

// What is open. `replaced` is what was open before, and `putBack` what was open when `undo` brought that back, each with what
// was played on it, the last one last. `steps` are the commands that stand, each with how many lines the trace had before it;
// `undone` how many of them each `undo` took back, the last `undo` last; `log` all lines that the session was told and that moved
// something, or changed what later ones do or are answered. `moves` is what can come next, `circle` who waits in one, and `links`
// the channels between those.
const live = {worker: null, waiting: new Map(), calls: 0, bytes: null, how: {}, name: '', netlist: null, part: '', isOpen: false,
  isBusy: false, isStopped: false, end: 1, steps: [], undone: [], log: [], moves: [], circle: new Set(), links: new Set(),
  values: new Map(), sources: new Map(), times: {}, replaced: [], putBack: []};

// The module that the page carries.
async function moduleBytes() {
  const packed = Uint8Array.from(atob(textOf('engine').trim()), letter => letter.charCodeAt(0));
  const stream = new Blob([packed]).stream().pipeThrough(new DecompressionStream('gzip'));
  return new Response(stream).arrayBuffer();
}

// Starts the engine on a worker, or else on the page's own thread. `live.how` says otherwise in tests.
async function startEngine() {
  live.bytes = live.bytes || await moduleBytes();
  live.waiting.clear();
  live.worker = null;
  if (!live.how.isAlone) try {
    live.worker = new Worker(URL.createObjectURL(new Blob([textOf('worker')], {type: 'text/javascript'})));
    live.worker.onmessage = event => answered(event.data);
    const refused = new Promise((_, reject) => { live.worker.onerror = reject; });
    return await Promise.race([ask('load', {bytes: live.bytes}), refused]);
  } catch (fault) {
    live.worker = null;
  }
  return ask('load', {bytes: live.bytes});
}

// Asks the engine; the answer is a promise.
function ask(act, given) {
  const id = ++live.calls;
  return new Promise((resolve, reject) => {
    live.waiting.set(id, {resolve, reject});
    if (live.worker) live.worker.postMessage({id, act, given});
    else serve({id, act, given}).then(answered);
  });
}

function answered({id, answer, fault}) {
  const waiting = live.waiting.get(id);
  live.waiting.delete(id);
  if (!waiting) return;
  if (fault) waiting.reject(new Error(fault));
  else waiting.resolve(answer);
}

// Ends what the engine plays, starts it again, and plays there what stands.
async function stop() {
  if (!live.isBusy || !live.worker || live.isStopped) return;
  live.isStopped = true;
  const waiting = [...live.waiting.values()];
  live.worker.terminate();
  try {
    await startEngine();
  } finally {
    live.isStopped = false;
    for (const {reject} of waiting) reject(new Error('stopped: nothing of it was played'));
  }
}

// Plays in a new session what stands, where the last one has ended.
async function playAgain() {
  await openSession(live.netlist, live.part);
  if (live.log.length) await ask('say', {lines: saidLines(live.log)});
}

// Has one thing done at a time, and shows that it is. Answers what that answers, or null where it failed, which is shown.
async function busily(act) {
  if (live.isBusy) return null;
  const began = performance.now(), timer = setTimeout(() => { $('stop').hidden = !live.worker; }, 400);
  live.isBusy = true;
  document.body.classList.add('busy');
  try {
    return await act();
  } catch (fault) {
    say(`error: ${fault.message || fault}`);
    if (live.isOpen) await playAgain().catch(again => say(`error: ${again.message || again}`));
    return null;
  } finally {
    clearTimeout(timer);
    live.isBusy = false;
    document.body.classList.remove('busy');
    $('stop').hidden = true;
    live.times.step = performance.now() - began;
  }
}

// ---- the files that the engine sees, and calls of the program ---------------------------------------------------------

const NETLIST = 'netlist.breeze', TRACE = 'played.trace';
const WRITTEN = {trace: TRACE, session: 'played.session', page: 'played.html'};

// A call of the program on a netlist and these files.
const call = (words, netlist, files = {}) => ask('call', {words, files: {[NETLIST]: netlist, ...files}});
const ofPart = part => ['--part-form', part, '-n', NETLIST];

// Opens a session on a part of a netlist.
const openSession = (netlist, part) => ask('open', {words: ['explore', ...ofPart(part)], files: {[NETLIST]: netlist},
  isReplayed: live.how.isReplayed});

// Lines as the session takes them: those that move something, or change what later ones do or are answered, are played before
// each later one where the call can't be held.
const isMoving = line => /^\s*(fire|run|random|seed|undo|redo|feed|drain|names|offer|accept|answer|collect|watch)\b/.test(line);
const saidLines = lines => lines.map(line => ({line, isKept: isMoving(line)}));

// Says lines. That the session ended (memory was refused, say) is a fault, with the program's own words.
async function sayPlainly(lines, wanted = []) {
  const said = await ask('say', {lines: saidLines(lines), wanted}), last = said.answers.find(it => it.status !== null);
  if (last) throw new Error(`${last.output}${last.errors}`.trim() || `the session ended with status ${last.status}`);
  return said;
}

// Where a text of a page begins and ends, and that text. (Spelled out, the words would end this script.)
const blockStart = id => `<${'script'} type="text/plain" id="${id}">`, BLOCK_END = `</${'script'}>`;
const blockIn = (page, id) => unescaped(page.split(blockStart(id))[1].split(BLOCK_END)[0]);

// A text of which each letter is a byte, as bytes and back.
const bytesOfLetters = text => Uint8Array.from(text, letter => letter.charCodeAt(0));
function lettersOf(bytes) {
  const pieces = [];
  for (let at = 0; at < bytes.length; at += 8192) pieces.push(String.fromCharCode(...bytes.subarray(at, at + 8192)));
  return pieces.join('');
}
