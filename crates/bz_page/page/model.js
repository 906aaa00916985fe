// ---- the three texts that the program wrote, as a net and a trace; nothing here touches the picture -----------------

// The text of a block. LF and printable ASCII but `<` and `%` stand for themselves there; any other byte is `%` and two digits.
const textOf = id => unescaped(document.getElementById(id).textContent);

function unescaped(text) {
  if (!text.includes('%')) return text;
  return text.replace(/%([0-9A-F]{2})/g, (all, digits) => String.fromCharCode(parseInt(digits, 16)));
}

// Letters that are bytes, as a text of UTF-8.
const utf8 = letters => new TextDecoder().decode(Uint8Array.from(letters, letter => letter.charCodeAt(0)));

const IDLE = 0, ASKED = 1, TAKEN = 2, REPLIED = 3;
const PHASES = ['idle', 'asked', 'taken', 'replied'];

// What can never move again: the first line behind which something is stuck (0: there is none), how many components are stuck
// there, the stuck ones at the end, and the members of a ring with their lines.
const nothingStuck = () => ({line: 0, first: 0, members: new Set(), ring: new Map()});

// What each kind is, the details of components, what is stuck, who waits for whom at the end, and sources: `source FILE`, and
// then a row `text LINE` for each of its lines.
function readRows(text) {
  const found = {kinds: new Map(), details: new Map(), stuck: nothingStuck(), end: [], sources: new Map()};
  let source = [];
  for (const line of text.split('\n')) {
    if (line.startsWith('text ')) {
      source.push(line.slice(5));
      continue;
    }
    const words = line.split(' ');
    if (words[0] === 'source') found.sources.set(words[1], source = []);
    if (words[0] === 'row') found.kinds.set(words[1], readKind(line));
    if (words[0] === 'detail') found.details.set(Number(words[1]), words.slice(2).join(' '));
    if (words[0] === 'stuck') {
      const [line, first, ...members] = words.slice(1).map(Number);
      Object.assign(found.stuck, {line, first, members: new Set(members)});
    }
    if (words[0] === 'ring') found.stuck.ring.set(Number(words[1]), words.slice(2).filter(word => word).join(' '));
    if (words[0] === 'end') found.end.push(line.slice(4));
  }
  return found;
}

// A row of a kind: its ports, what is so of it, and behind `s:` the sign by which handshake circuits are drawn. Others meet, or
// values lie, at a kind with an array of passive ports and none of active ones. (On a damaged page a kind may have no row.)
function readKind(line) {
  const [front, sign = ''] = line.split(' s:'), words = front.split(' ').slice(2), isPort = word => word[1] === ':';
  const ports = words.filter(isPort).map(readPort), marks = new Set(words);
  const hasArray = isPassive => ports.some(port => port.isArray && port.isPassive === isPassive);
  return {ports, sign: utf8(sign), isVariable: marks.has('variable'), isOrdered: marks.has('ordered'), isHub: marks.has('hub'),
    isCall: marks.has('meet'), isMeeting: hasArray(true) && !hasArray(false)};
}

// A port of a row: `p:` or `a:` for passive or active, its name, and `*` for an array of ports.
function readPort(word) {
  return {isPassive: word[0] === 'p', isArray: word.endsWith('*'), name: word.slice(2).replace('*', '')};
}

const MEMBERS = new Map([['in', 'path'], ['name', 'name'], ['from', 'source']]);

// Where a record stands: `at PART POSITION line LINE`, and then, where they are told, `in PATH`, `name NAME` and
// `from FILE:LINE:COLUMN`.
function readPlace(words, at) {
  const place = {part: words[at + 1], position: Number(words[at + 2]), line: Number(words[at + 4])};
  for (const member of MEMBERS.values()) place[member] = '';
  for (let i = at + 5; i + 1 < words.length; i += 2) if (MEMBERS.has(words[i])) place[MEMBERS.get(words[i])] = words[i + 1];
  return place;
}

// An end of a channel: null where nothing is there, 'host', or a component with its port.
function readEnd(word) {
  if (word === '-') return null;
  if (word === 'host') return 'host';
  const [component, port] = word.split('.').map(Number);
  return {component, port};
}

// A channel of the list, with its ends: the active one asks, the passive one answers.
function readChannel(words, ports) {
  const number = Number(words[1]), kind = words[2], at = kind === 'sync' ? 3 : 4, port = ports[number];
  return {number, kind, width: kind === 'sync' ? 0 : Number(words[3]), active: readEnd(words[at]),
    passive: readEnd(words[at + 1]), port: port ? port.name : '', isHostCaller: Boolean(port && port.isPassive),
    isShown: true, isStub: false, isBundled: false, bundle: [number], ...readPlace(words, at + 2)};
}

// A component of the list, with the channels at its ports, counted from 1, and the names of its ports.
function readComponent(words, rows) {
  const at = words.indexOf('at', 3), number = Number(words[1]), kind = words[2], place = readPlace(words, at);
  const channels = [0, ...words.slice(3, at).map(Number)], told = rows.details.get(number) || '', detail = told || place.name;
  const {ports, ...marks} = rows.kinds.get(kind) || readKind('');
  const component = {number, kind, ...marks, channels, detail, isShown: true, stubs: null, ...place};
  namePorts(component, ports);
  tellSets(component, told.split(';'));
  component.title = `${number} ${kind}` + (component.detail ? ` ${component.detail}` : '');
  return component;
}

// The ports of a component: its kind's row with each array as long as the number of channels tells.
function namePorts(component, row) {
  const arrays = row.filter(port => port.isArray).length, channels = component.channels.length - 1;
  const size = arrays ? (channels - row.length + arrays) / arrays : 0;
  component.ports = [null];
  for (const {name, isPassive, isArray} of row)
    for (let i = 1; i <= (isArray ? size : 1); i++) component.ports.push({name: isArray ? name + i : name, isPassive});
  component.passive = [];
  component.active = [];
  component.ports.forEach((port, p) => { if (port) (port.isPassive ? component.passive : component.active).push(p); });
}

// Where parameters tell as many sets as an array has ports, each port has the set of values by which it is chosen.
function tellSets(component, sets) {
  const array = component.ports.filter(port => port && /\d$/.test(port.name));
  if (sets.length === array.length) array.forEach((port, i) => { port.set = sets[i]; });
}

// The net of the list. Channels and components stand at their numbers, so the rows of both begin with null.
function readNet(list, rowText) {
  const rows = readRows(rowText);
  const net = {part: '', ports: [], channels: [null], components: [null], instances: new Map(), stuck: rows.stuck,
    end: rows.end, sources: rows.sources, files: null, isGrouped: false};
  for (const line of list.split('\n')) {
    const words = line.split(' '), number = Number(words[1]);
    if (words[0] === 'part') net.part = words[1];
    if (words[0] === 'port') net.ports[number] = {number, name: words[2], isPassive: words[3] === 'passive'};
    if (words[0] === 'channel') net.channels[number] = readChannel(words, net.ports);
    if (words[0] === 'instance') net.instances.set(words[1], {path: words[1], name: words[2]});
    if (words[0] === 'component') net.components[number] = readComponent(words, rows);
  }
  group(net);
  return net;
}

// What a line of a trace is: one of the four moves, a rest, a clash, or a host that was told without a move.
const NONE = 0, ASK = 1, TAKE = 2, REPLY = 3, GOT = 4, REST = 5, CLASH = 6, TOLD = 7;
const MOVES = {ask: ASK, take: TAKE, reply: REPLY, got: GOT};
const HOST_MOVES = {offer: ASK, accept: TAKE, answer: REPLY, collect: GOT};
const isMove = what => what >= ASK && what <= GOT;

// A trace with its index: of each line, from 1, where it begins, what it is, its channel and its component (0 where none is); and
// the lines of each channel and component, rising. It grows by the lines that are added.
function readTrace(text, net) {
  const trace = {text: '', count: 0, start: new Uint32Array(64), what: new Uint8Array(64), channel: new Uint32Array(64),
    component: new Uint32Array(64), hostLines: [], rests: [], clashes: [], audited: null,
    changesOf: [], linesOfChannel: [], linesOfComponent: [],
    portChannels: new Map(net.ports.filter(port => port).map(port => [port.name, port.number]))};
  addLines(trace, text);
  return trace;
}

// Adds lines after the last one.
function addLines(trace, text) {
  const before = trace.count;
  let more = 0, start = trace.text.length;
  for (let at = text.indexOf('\n'); at >= 0; at = text.indexOf('\n', at + 1)) more++;
  trace.text += text;
  makeRoom(trace, before + more + 2);
  const {what, channel, component} = trace;
  for (let line = before + 1; line <= before + more; line++) {
    const end = trace.text.indexOf('\n', start);
    trace.start[line] = start;
    what[line] = channel[line] = component[line] = 0;
    if (line > 1) readLine(trace, line, start, end);
    if (channel[line]) addLine(trace.linesOfChannel, channel[line], line);
    if (isMove(what[line])) {
      addLine(trace.changesOf, channel[line], line);
      if (component[line]) addLine(trace.linesOfComponent, component[line], line);
    }
    start = end + 1;
  }
  trace.count = before + more;
  trace.start[trace.count + 1] = start;
}

// Takes off the clash lines, which stand after all others.
function dropClashes(trace) {
  trace.count -= trace.clashes.length;
  trace.clashes.length = 0;
  trace.text = trace.text.slice(0, trace.start[trace.count + 1]);
}

function makeRoom(trace, size) {
  if (size <= trace.start.length) return;
  for (const name of ['start', 'what', 'channel', 'component']) {
    const grown = new trace[name].constructor(Math.max(size, 2 * trace[name].length));
    grown.set(trace[name]);
    trace[name] = grown;
  }
}

// Reads one line. A firing is read letter by letter, since there may be millions.
function readLine(trace, line, start, end) {
  const {text} = trace, blank = text.indexOf(' ', start);
  if (text.charCodeAt(blank + 1) === 102) {                                           // WHO fire
    const at = text.indexOf(' ', blank + 6), letter = text.charCodeAt(at + 1);        // a, t, r, or g
    trace.component[line] = numberAt(text, blank + 6, end);
    trace.what[line] = letter === 97 ? ASK : letter === 116 ? TAKE : letter === 114 ? REPLY : GOT;
    trace.channel[line] = numberAt(text, text.indexOf(' ', at + 1) + 1, end);
    return;
  }
  const words = text.slice(start, end).split(' ');
  if (words[0] === 'clash') {
    trace.what[line] = CLASH;
    trace.component[line] = Number(words[1]);
    trace.clashes.push(line);
  } else if (words[1] === 'rest') {
    trace.what[line] = REST;
    trace.rests.push(line);
  } else {
    const isDone = words[1] !== 'watch' && (words.includes('done', 3) || words.includes('value', 3));
    trace.channel[line] = trace.portChannels.get(words[2]) || 0;
    trace.what[line] = isDone ? HOST_MOVES[words[1]] || NONE : TOLD;
    trace.hostLines.push(line);
  }
}

// The number that begins at a place of a text.
function numberAt(text, at, end) {
  let number = 0;
  for (let i = at, digit; i < end && (digit = text.charCodeAt(i)) !== 32; i++) number = number * 10 + digit - 48;
  return number;
}

const lineText = (trace, line) => trace.text.slice(trace.start[line], trace.start[line + 1] - 1);

// How many of the rising numbers list[from] up to list[to] are at or below a line.
function countIn(list, from, to, line) {
  let low = from, high = to;
  while (low < high) {
    const middle = (low + high) >> 1;
    if (list[middle] <= line) low = middle + 1; else high = middle;
  }
  return low - from;
}

// The lines of a key, how many there are, how many are at or below a line, and the one at an index (0 where there is none).
const NO_LINES = [];
const linesOf = (lines, key) => lines[key] || NO_LINES;
const addLine = (lines, key, line) => { (lines[key] || (lines[key] = [])).push(line); };
const countOf = (lines, key) => linesOf(lines, key).length;
const countTo = (lines, key, line) => countIn(linesOf(lines, key), 0, countOf(lines, key), line);
const nthOf = (lines, key, index) => linesOf(lines, key)[index] || 0;

// The last line at or below a line that changed a channel; 0 where none did. From it the channel's phase and value.
const lastChange = (trace, channel, line) => nthOf(trace.changesOf, channel, countTo(trace.changesOf, channel, line) - 1);
const phaseAfter = (trace, change) => (change === 0 ? IDLE : trace.what[change] & 3);

// The value that is on a channel after a change: one that came with the request or with the reply and was not yet taken over.
function valueAfter(trace, change) {
  if (change === 0 || trace.what[change] !== ASK && trace.what[change] !== REPLY) return '';
  return valueIn(trace, change);
}

// The value that a line brings, or ''. `w1 fire 4 got 2 5`, `h1 answer i 5 done`, `h1 accept o value 5`.
function valueIn(trace, line) {
  const words = lineText(trace, line).split(' ');
  if (trace.component[line]) return words[5] || '';
  if (words[1] === 'offer' || words[1] === 'answer') return words[4] ? words[3] : '';
  return words[words.length - 2] === 'value' ? words[words.length - 1] : '';
}

// Whether something is stuck behind a line; and whether a component never moves again from there on. (What is stuck at the end
// may have moved after that: so each counts from its own last move on.)
const isStuckBehind = (net, line) => net.stuck.line > 0 && line >= net.stuck.line;
const lastMoveOf = (trace, number) => nthOf(trace.linesOfComponent, number, countOf(trace.linesOfComponent, number) - 1);
const isStill = (net, trace, number, line) => isStuckBehind(net, line) && net.stuck.members.has(number)
  && line >= lastMoveOf(trace, number);

// What a variable holds: the value of the last write that it took, at first 0.
function heldBy(trace, component, line) {
  const write = component.channels[1], seen = countTo(trace.changesOf, write, line);
  for (let i = seen - 1; i >= 0 && i >= seen - 4; i--) {
    const change = nthOf(trace.changesOf, write, i);
    if (trace.what[change] === TAKE) return valueIn(trace, change) || '?';
  }
  return '0';
}

// Who called, from a component up the requests that are taken: numbers of components, and last the host's port if it began there.
function callersOf(net, trace, component, line) {
  const callers = [], seen = new Set();
  for (let at = component; at && !seen.has(at) && callers.length < 64;) {
    seen.add(at);
    callers.push(at.number);
    const port = at.passive.find(p => phaseAfter(trace, lastChange(trace, at.channels[p], line)) === TAKEN);
    const channel = port && net.channels[at.channels[port]];
    if (channel && channel.active === 'host') return [...callers, channel.port];
    at = channel && channel.active ? net.components[channel.active.component] : null;
  }
  return callers;
}

// Holds the trace against itself, apart from what the page shows of it: each line's move by the four-move table, values handed
// over, phases and values that hosts were told, and the clash lines. `bad` is the first line that disagrees, or 0. It goes on
// where the last look at the same trace ended.
function audit(trace, net) {
  const seen = trace.audited || (trace.audited = {to: 1, phase: new Uint8Array(net.channels.length), open: new Map(),
    change: new Uint32Array(net.channels.length), found: {moves: 0, told: 0, values: 0, bad: 0, met: new Map()}});
  const {found} = seen, end = trace.count - trace.clashes.length;
  for (let line = seen.to + 1; line <= end && !found.bad; line++) {
    const what = trace.what[line];
    if (what === NONE || isMove(what) && !auditMove(trace, net, line, seen, found)) found.bad = line;
    if (what === TOLD && !auditTold(trace, line, seen, found)) found.bad = line;
  }
  seen.to = end;
  if (!found.bad && trace.clashes[0] <= end) return {...found, bad: trace.clashes[0]};
  const due = [...found.met.keys()].sort((a, b) => a - b).join();
  const written = trace.clashes.map(line => trace.component[line]).join();
  // (a trace of version 1 has no clash lines)
  const isAgreed = found.bad > 0 || due === written || lineText(trace, 1) !== 'trace 2';
  return isAgreed ? found : {...found, bad: trace.clashes[0] || trace.count};
}

// A move must find its channel in the phase before it, and bring on what was put there.
function auditMove(trace, net, line, seen, found) {
  const what = trace.what[line], number = trace.channel[line], channel = net.channels[number];
  if (!channel || seen.phase[number] !== what - 1) return false;
  if (channel.kind === 'push' && what === TAKE || channel.kind === 'pull' && what === GOT) {
    found.values++;
    if (valueIn(trace, line) !== valueIn(trace, seen.change[number])) return false;
  }
  seen.phase[number] = what & 3;
  seen.change[number] = line;
  found.moves++;
  const callee = channel.passive && channel.passive !== 'host' ? channel.passive.component : 0;
  if (callee && net.components[callee].isCall && (what === ASK || what === GOT)) {
    const open = (seen.open.get(callee) || 0) + (what === ASK ? 1 : -1);
    seen.open.set(callee, open);
    if (open === 2 && !found.met.has(callee)) found.met.set(callee, line);
  }
  return true;
}

// A host that was told a phase, and perhaps a value, must have been told those of its port.
function auditTold(trace, line, seen, found) {
  const words = lineText(trace, line).split(' '), at = words.findIndex((word, i) => i > 2 && PHASES.includes(word));
  if (at < 0) return true;
  const number = trace.channel[line];
  found.told++;
  return words[at] === PHASES[seen.phase[number]] && (words[at + 1] || '') === valueAfter(trace, seen.change[number]);
}
