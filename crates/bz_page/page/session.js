// ---- live: a netlist, and what is played on its net -------------------------------------------------------------------

// Opens a netlist, or says why it is refused: of several parts the one that is named, or the first that no other uses.
async function openNetlist(name, netlist, part = null, sources = new Map()) {
  const told = await call(['parts', '-n', NETLIST], netlist);
  if (told.status !== 0) return refuse(name, netlist, told);
  const parts = told.output.split('\n').filter(line => line.startsWith('part ')).map(line => line.split(' '));
  if (parts.length === 0) return refuse(name, netlist, {errors: 'it has no part'});
  const isTop = words => words[4] === 'top', named = parts.find(words => words[1] === part);
  const [, chosen] = named || parts.find(isTop) || parts[0];
  if (!await openPart(name, netlist, chosen, sources)) return false;
  const optionOf = words => new Option(words[1] + (isTop(words) ? '' : ' (used by others)'), words[1]);
  $('parts').replaceChildren(...parts.map(optionOf));
  $('parts').value = chosen;
  $('parts').hidden = parts.length < 2;
  return true;
}

// Opens the net of a part at its opening. What the page shows of a net stands in a page that the program makes. Where it is
// refused all stays as it was.
async function openPart(name, netlist, part, sources = live.sources) {
  const made = await call(['page', ...ofPart(part), '--trace', TRACE, '--explain'], netlist, {[TRACE]: 'trace 2\n'});
  if (made.status !== 0) return refuse(name, netlist, made);
  const told = await openSession(netlist, part);
  if (told.status !== null) {
    if (live.isOpen) await playAgain();
    return refuse(name, netlist, told);
  }
  noteReplaced(netlist);
  Object.assign(live, {name, netlist, part, sources, steps: [], undone: [], log: [], values: new Map()});
  load(blockIn(made.output, 'net'), blockIn(made.output, 'rows'), 'trace 2\n');
  net.sources = live.sources;
  live.isOpen = true;
  document.body.classList.add('living');
  $('refusal').hidden = true;
  $('focus').classList.toggle('on', view.isFocused);
  say('');
  measure();
  await sayLines([]);
  redraw();
  return true;
}

// What is open, with what was played on it. So much of what was open before can be had back.
const standing = () => {
  const {name, netlist, part, sources, log, undone} = live;
  return {name, netlist, part, sources, log, undone};
};
const MOST_REPLACED = 8;

// Notes what is open, as this netlist comes in its place, where something was played on it or it is another one.
function noteReplaced(netlist) {
  if (live.isOpen && (live.log.length || live.netlist !== netlist))
    live.replaced = [...live.replaced, {...standing(), undone: []}].slice(-MOST_REPLACED);
  live.putBack = [];
}

// Opens what is last in one of these lists, as it was, and puts what is open into the other.
async function exchange(from, to) {
  const it = live[from][live[from].length - 1], lists = {[from]: live[from].slice(0, -1), [to]: [...live[to], standing()]};
  if (!await openNetlist(it.name, it.netlist, it.part, it.sources)) return;
  await sayLines(it.log);
  Object.assign(live, lists, {undone: it.undone});
  say(`${it.name}: as it was, with ${counted(live.steps.length, 'command')}`);
  show();
}

// Shows why a netlist is refused: all that `lint` finds, or else what the program said.
async function refuse(name, netlist, {errors}) {
  const lint = await call(['lint', '-n', NETLIST], netlist);
  document.body.classList.remove('living');
  $('return').hidden = !live.isOpen;
  $('refusal').textContent = (lint.status === 1 ? lint.output : errors).trim().replaceAll(NETLIST, name);
  $('refusal').hidden = false;
  return false;
}

// ---- lines, and what they change --------------------------------------------------------------------------------------

// Up to so many components who waits for whom, and what is stuck, is asked after each move; of more where none can move. So many
// lines are shown.
const MOST_WAITS = 300, MOST_TOLD = 1000;

// Says lines, and then asks for what the page shows. Answers the answers to the lines.
async function sayLines(lines) {
  const began = performance.now(), asked = withLengths(lines);
  const {answers, memory} = await sayPlainly([...asked.map(it => it.line), 'moves', 'state']);
  const outputs = answers.map(it => it.output);
  const told = outputs.filter((_, at) => asked[at] && !asked[at].isLength), [moves, state] = outputs.slice(-2);
  const ends = asked.flatMap(({isLength}, at) => (isLength ? [] : [asked[at + 1]?.isLength ? lengthIn(outputs[at + 1]) : 0]));
  live.moves = movesIn(moves);
  const isAsked = all.components.length <= MOST_WAITS || !live.moves.some(it => !it.isHost);
  const isWhole = lines.every((line, i) => isWholly(line, told[i]));
  const questions = [...(isAsked ? ['waits all', 'waits'] : []), ...(isWhole ? [] : [`trace! ${TRACE}`])];
  const more = questions.length ? await sayPlainly(questions, isWhole ? [] : [TRACE]) : {answers: [], files: {}};
  const [waits = '', briefly = ''] = isAsked ? more.answers.map(it => it.output) : [];
  const stuck = /^stuck: /m.test(briefly) ? await askStuck() : nothingStuck();
  Object.assign(live.times, {memory, engine: performance.now() - began});
  takeWaits(waits);
  takeStuck(stuck);
  lines.forEach((line, i) => noteLine(line, told[i], ends[i]));
  const came = lines.flatMap((line, i) => (isMoving(line) ? entriesIn(told[i]) : []));
  if (isWhole) growTrace(came.map(line => `${line}\n`).join(''), clashesIn(state));
  else renewTrace(more.files[TRACE]);
  live.end = trace.count - trace.clashes.length;
  view.line = live.end;
  return told;
}

// Lines, and behind each run on which hosts may stand by the question how long the trace is then: its answer doesn't say it.
function withLengths(lines) {
  let isServed = live.log.some(isStanding);
  return lines.flatMap(line => {
    isServed = isServed || isStanding(line);
    return isServed && /^\s*run\b/.test(line) ? [{line}, {line: 'state', isLength: true}] : [{line}];
  });
}
const isStanding = line => /^\s*(feed|drain)\b/.test(line);

// How many lines the trace has, but for clashes, as `state` tells it.
function lengthIn(state) {
  const counts = /^trace: (\d+) fired, (\d+) host, (\d+) rest$/m.exec(state);
  return counts ? counts.slice(1).reduce((sum, count) => sum + Number(count), 1) : 0;
}

// The lines of the trace in an answer. (With `names on` each move has its words behind it, which begin with a kind.)
const entryOf = line => (/^w\d+ fire \d+ [a-z]+ \d+(?: \d+)?/.exec(line) || [line])[0];
const entriesIn = output => output.split('\n').filter(line => /^[hw]\d+ /.test(line)).map(entryOf);
const firedIn = output => Number((/^(\d+) fired, /m.exec(output) || [0, 0])[1]);
const isRest = line => line.endsWith(' rest');

// Whether an answer has each line that a command added to the trace. (Of a long run it has the first and the last ones, and of
// what is taken back or made again none.)
function isWholly(line, output) {
  if (/^\s*(un|re)do\b/.test(line)) return /^error: /.test(output);
  return !isMoving(line) || !/^\.\. \d+ lines more$/m.test(output);
}

// Notes a line that stands, and what it changed: how many lines it added to the trace, which then had so many where that was
// asked, or which commands it took back or made again.
function noteLine(line, output, end) {
  if (!isMoving(line) || /^error: /.test(output)) return;
  live.log.push(line);
  if (/^\s*undo\b/.test(line)) return noteUndo(Number(/\d+/.exec(line) || 1));
  if (/^\s*redo\b/.test(line)) return noteRedo(output);
  const entries = entriesIn(output), fired = firedIn(output);
  noteStep(line, end || live.end + (fired ? fired + entries.filter(isRest).length : entries.length));
}

// A command after which the trace has so many lines. What was undone can't be made again then.
function noteStep(line, end) {
  if (end <= live.end) return;
  live.steps.push({line, before: live.end});
  live.end = end;
  forgetUndone();
}
const forgetUndone = () => Object.assign(live, {undone: [], putBack: []});

function noteUndo(count) {
  const gone = live.steps.splice(live.steps.length - count);
  if (gone.length === 0) return;
  live.undone.push(gone.length);
  live.end = gone[0].before;
}

// `redone: run (12 lines)`
function noteRedo(output) {
  const undone = live.undone.slice(0, -1), {putBack} = live;
  for (const [, line, count] of output.matchAll(/^redone: (.*) \((\d+) lines?\)$/gm)) noteStep(line, live.end + Number(count));
  Object.assign(live, {undone, putBack});
}

// The clash lines of the trace, by the numbers that `state` writes.
function clashesIn(state) {
  const numbers = /^clashes:((?: \d+)+)$/m.exec(state);
  return numbers ? numbers[1].trim().split(' ').map(number => `clash ${number}\n`).join('') : '';
}

function growTrace(came, clashes) {
  dropClashes(trace);
  addLines(trace, came + clashes);
  takeTrace(trace);
}

// Takes the trace as the program wrote it. Where it is that of before with more lines, the index grows.
function renewTrace(text) {
  const before = trace.text.length;
  dropClashes(trace);
  const isMore = text.length >= trace.text.length && text.startsWith(trace.text);
  if (isMore) {
    addLines(trace, text.slice(trace.text.length));
    takeTrace(trace);
  } else takeTrace(readTrace(text, net));
  // (lines may have been taken back, so all is marked anew)
  if (!isMore || text.length < before) drawn.line = 0;
}

// `fire 3 1    take 4          Sequence activate`, `answer:i:V                  port 2 pull 8, taken`
function movesIn(text) {
  const moves = [];
  for (const line of text.split('\n')) {
    const fire = /^fire (\d+) (\d+) +(ask|take|reply|got) (\d+)(?: (\d+))? /.exec(line);
    const word = /^((offer|accept|answer|collect):(\S*?))(:V)? +port (\d+) /.exec(line);
    if (fire) {
      const [, component, port, what, channel, value] = fire;
      moves.push({command: `fire ${component} ${port}`, component: Number(component), what, channel: Number(channel), value});
    } else if (word) {
      const [, command, what, , needs, channel] = word;
      moves.push({command, what, channel: Number(channel), needsValue: Boolean(needs), isHost: true});
    }
  }
  return moves;
}

// Takes who waits for whom: cycles first, the components in them, and the channels on which one of these waits for another.
function takeWaits(text) {
  const lines = text.split('\n').filter(line => line), isCircle = line => /^c(ycle|ircle): /.test(line);
  net.end = [...lines.filter(isCircle), ...lines.filter(line => !isCircle(line))].slice(0, MOST_TOLD);
  live.circle = new Set();
  live.links = new Set();
  for (const line of lines.filter(isCircle))
    for (const name of line.slice(line.indexOf(': ') + 2).split(' -> ')) live.circle.add(Number(/^\S+ (\d+)/.exec(name)[1]));
  for (const line of lines) {
    const wait = /^(?:wait|or) \S+ +(\d+).* for \S+ (\d+).* to (?:reply|ask) on (\d+)/.exec(line);
    if (wait && live.circle.has(Number(wait[1])) && live.circle.has(Number(wait[2]))) live.links.add(Number(wait[3]));
  }
}

// What can never move again, as a page of what was played has it: nothing else tells all of it.
async function askStuck() {
  const {files} = await sayPlainly([`page! ${WRITTEN.page}`], [WRITTEN.page]), page = files[WRITTEN.page];
  return page ? readRows(blockIn(page, 'rows')).stuck : nothingStuck();
}

// Takes it. Where it is another than before all is marked anew, and what is in focus drawn anew.
function takeStuck(stuck) {
  const said = ({line, members, ring}) => [line, ...members, ...ring.keys()].join();
  if (said(stuck) !== said(net.stuck)) {
    drawn.line = 0;
    view.hasRing = null;
  }
  net.stuck = stuck;
}

// ---- what the reader does ---------------------------------------------------------------------------------------------

// Makes one command.
const make = line => live.isOpen && busily(async () => {
  const wanted = /^\s*(trace|page|session)!?\s+(\S+)\s*$/.exec(line);
  if (/^\s*(quit|exit|q)\s*$/.test(line)) return say('error: this page has no end: close it, or open another netlist');
  if (/^\s*redo\s*$/.test(line)) return makeAgain(lastUndone());
  if (/^\s*undo\s*$/.test(line) && live.steps.length === 0 && live.replaced.length > 0) return exchange('replaced', 'putBack');
  if (wanted) return saveWritten(wanted[1], wanted[2]);
  const [told] = await sayLines([line]);
  say(told);
  return show();
});
// (at the opening of a net `undo` brings back what was open before, and `redo` this net)
const canUndo = () => live.steps.length + live.replaced.length > 0;
const canRedo = () => live.undone.length + live.putBack.length > 0;
const undo = () => canUndo() && make('undo');
const redo = () => canRedo() && busily(() => makeAgain(Math.min(1, lastUndone())));
const lastUndone = () => live.undone[live.undone.length - 1] || 0;

// Makes the first so many commands of the last `undo` again; what else was undone stays so. (The session's `redo` makes all of
// them, as they were. A `run` that is said again could give what a host has got since.)
async function makeAgain(count) {
  if (count === 0 && live.putBack.length > 0) return exchange('putBack', 'replaced');
  if (count === 0) return say('error: there is nothing to redo');
  const rest = lastUndone() - count, [told] = await sayLines(rest ? ['redo', `undo ${rest}`] : ['redo']);
  say(told.split('\n').slice(0, count).join('\n'));
  return show();
}

// Goes on from an earlier line: takes back what came after it, and of a run that it is in the part after it.
const goOnFrom = line => busily(async () => {
  const {steps} = live, endOf = i => (i + 1 < steps.length ? steps[i + 1].before : live.end);
  const first = steps.findIndex((_, i) => endOf(i) > line), lines = [];
  if (first < 0) return;
  const {line: cut, before} = steps[first], hasHosts = trace.hostLines.some(it => it > before && it <= endOf(first));
  lines.push(`undo ${steps.length - first}`);
  // (a run on which hosts stood by is taken back whole: else they would give again what they gave in its first part)
  const isParted = before < line && !hasHosts;
  if (isParted) lines.push(`${cut.trim().startsWith('random') ? 'random' : 'run'} ${line - before}`);
  await sayLines(lines);
  forgetUndone();
  const why = live.end < line ? ' A run with words of hosts in it is taken back as a whole.' : '';
  say(`This is line ${live.end} again.${why}`);
  show();
});

// Plays many commands, one after another, from the opening: of a session, or of a trace.
async function playAll(lines) {
  if (!await openPart(live.name, live.netlist, live.part)) return [];
  const told = await sayLines(lines), faults = [];
  told.forEach((output, i) => { if (/^(error|differs): /m.test(output)) faults.push(`${lines[i]}: ${output.trim()}`); });
  live.undone = [];
  show();
  return faults;
}

// The commands that make the lines of a trace.
function commandsOf(text) {
  const commands = [];
  for (const line of text.split('\n').slice(1)) {
    const [, verb, ...rest] = line.split(' ');
    if (verb === 'fire') commands.push(fireOf(Number(rest[0]), rest[1], Number(rest[2])));
    if (verb === 'rest') commands.push('run 1');
    if (verb === 'watch' || verb === 'accept' || verb === 'collect') commands.push(`${verb}:${rest[0]}`);
    if (verb === 'offer' || verb === 'answer') commands.push(`${verb}:${rest[0]}${/^\d+$/.test(rest[1]) ? `:${rest[1]}` : ''}`);
  }
  return commands;
}
function fireOf(component, what, channel) {
  const {channels, ports} = net.components[component], isActive = what === 'ask' || what === 'got';
  return `fire ${component} ${channels.findIndex((number, p) => p > 0 && number === channel && ports[p].isPassive !== isActive)}`;
}

// Checks a trace. One of a run is played, and can be changed; of any other the notes are shown.
async function checkTrace(name, bytes) {
  const words = ['check', ...ofPart(live.part), '--trace', TRACE, '--explain'];
  const {status, output, errors} = await call(words, live.netlist, {[TRACE]: bytes});
  const verdict = `${name}: ${output}${errors}`.trim();
  if (status !== 0) return say(verdict, true);
  const faults = await playAll(commandsOf(lettersOf(bytes)));
  return say([verdict, ...faults.slice(0, 3)].join('\n'), faults.length > 0);
}

// The commands of a session, each with the number of its line.
const commandsIn = text => text.split('\n').map((line, i) => ({line: line.replace(/#.*/, '').trim(), number: i + 1}))
  .filter(({line}) => line);

// Why a text is no session: each of its first lines has to begin with a command of the program. Null where it is one.
const MOST_LOOKED_AT = 20;
async function whyNoSession(text) {
  const first = commandsIn(text).slice(0, MOST_LOOKED_AT), words = first.map(({line}) => /^(?:[^\s:!]{1,60}|.)/.exec(line)[0]);
  if (first.length === 0) return 'it is empty';
  const {answers} = await sayPlainly(words.map(word => `help ${word}`));
  const at = answers.findIndex(({output}) => /^error: /.test(output));
  return at < 0 ? null : `line ${first[at].number} begins with \`${words[at].replace(/[^ -~]/g, '?')}\`, which is no command`;
}

async function playSession(name, text) {
  const lines = commandsIn(text).map(it => it.line);
  const played = lines.filter(line => !/^(quit|exit|q|(trace|page|session)\b.*)$/.test(line));
  const faults = await playAll(played);
  say([`${name}: ${counted(played.length, 'line')} played`, ...faults.slice(0, 3)].join('\n'), faults.length > 0);
}

// Whether places of the net name a file so; and its lines, which the page shows where control is.
const isSource = name => live.isOpen && filesOfNet().some(file => unescaped(lastPart(file)) === lastPart(name));
function takeSource(name, text) {
  const file = filesOfNet().find(it => unescaped(lastPart(it)) === lastPart(name));
  live.sources.set(file, text.replace(/\n$/, '').split('\n'));
  say(`${name}: the source, shown by y`);
  if (view.panel === 'source') showSource(); else setPanel('source');
}

// What was dropped, chosen, pasted or carried: a netlist, or a trace, a session or a source of the netlist that is open. What is
// none of these is refused, and all stays.
const take = (name, bytes) => busily(async () => {
  const text = lettersOf(bytes), isTrace = /^trace \d+\r?\n/.test(text);
  if (isTrace && !live.isOpen) return refuseFile(name, 'is a trace: open its netlist first');
  if (!isTrace && text.includes('(breeze-part') || !live.isOpen) return openNetlist(name, bytes);
  document.body.classList.add('living');
  if (isTrace) return checkTrace(name, bytes);
  if (isSource(name)) return takeSource(name, text);
  const why = await whyNoSession(text);
  return why ? refuseFile(name, `was taken for a session, and ${why}. Nothing is changed.`) : playSession(name, text);
});

// Says why a file isn't taken, where the reader looks.
function refuseFile(name, why) {
  if (document.body.classList.contains('living')) return say(`${name} ${why}`, true);
  $('refusal').textContent = `${name} ${why}`;
  $('refusal').hidden = false;
}
