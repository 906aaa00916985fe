// ---- the journal: of the lines of the trace those around the current one --------------------------------------------

const ROW_HEIGHT = 18;

// A row with a line's number; a click goes there.
function lineRow(line, text, style) {
  const row = html('div', `row${style}`);
  row.append(html('span', 'line', String(line)), html('span', '', text));
  row.dataset.line = line;
  return row;
}

// How a line looks in the journal and in the chart.
function lineStyle(line) {
  const what = trace.what[line], isHost = !trace.component[line] && trace.channel[line] > 0;
  return (line === view.line ? ' now' : '') + (what === REST ? ' rest' : '') + (isHost ? ' host' : '')
    + (what === CLASH || isRefused(line) ? ' bad' : '');
}

// Of so many rows around the current line the first.
const firstRow = (rows, least) => Math.max(least, Math.min(view.line - (rows >> 1), trace.count - rows + 1));

function showJournal() {
  const lines = linesShown(Math.max(5, Math.floor(sizes.journal.height / ROW_HEIGHT))), {isInWords, only} = view;
  $('journal').replaceChildren(...lines.map(line => {
    const [text, other] = isInWords ? [tellShortly(line), lineText(trace, line)] : [lineText(trace, line), tell(line)];
    const row = lineRow(line, text, lineStyle(line) + (isOfSelected(line) ? ' mine' : ''));
    row.title = other;
    return row;
  }));
  $('journal').classList.toggle('words', isInWords);
  $('words').classList.toggle('on', isInWords);
  $('only').textContent = {host: 'host only', mine: 'selected only', found: 'found only'}[only] || 'all lines';
  $('only').classList.toggle('on', only !== '');
}

// The lines of which the list shows some, with their key, or null where it shows all: those of the host, of what is selected, or
// that the search found.
function listedLines() {
  const {only, selected} = view;
  if (only === 'host') return [[trace.hostLines], 0];
  if (only === 'mine' && selected) return selectedLines();
  return only === 'found' && search.hits ? [[search.hits], 0] : null;
}

// So many of these around the current line.
function linesShown(rows) {
  const listed = listedLines(), [lines, key] = listed || [[], 0];
  const count = listed ? countOf(lines, key) : trace.count, seen = listed ? countTo(lines, key, view.line) : view.line;
  const first = Math.max(0, Math.min(seen - 1 - (rows >> 1), count - rows));
  return Array.from({length: Math.min(rows, count - first)}, (_, i) => (listed ? nthOf(lines, key, first + i) : first + i + 1));
}

// Goes so many lines of the list on.
function stepInList(by) {
  const listed = listedLines();
  if (!listed) return go(view.line + by, true);
  const [lines, key] = listed, seen = countTo(lines, key, view.line), isHere = nthOf(lines, key, seen - 1) === view.line;
  const wanted = seen - 1 + by + (by < 0 && !isHere ? 1 : 0);
  return go(nthOf(lines, key, Math.max(0, Math.min(countOf(lines, key) - 1, wanted))) || view.line, true);
}

// Whether a line moves what is selected, or moves something on a channel of it.
function isOfSelected(line) {
  if (!view.selected) return false;
  const number = numberOf(view.selected), channel = trace.channel[line];
  if (view.selected[0] === 'k') return channel === number;
  return trace.component[line] === number || channel > 0 && net.components[number].channels.includes(channel, 1);
}

// ---- what is selected, with its history -----------------------------------------------------------------------------

const MOST_PORTS = 40, BEFORE = 6, HISTORY = 12;

// The rising lines of what is selected, and their key.
const selectedLines = () => [view.selected[0] === 'c' ? trace.linesOfComponent : trace.linesOfChannel, numberOf(view.selected)];

function showDetails() {
  const {selected} = view;
  document.body.classList.toggle('chosen', selected !== null);
  document.body.classList.toggle('told', selected === null && (isStuckBehind(net, view.line) || isEndTold()));
  const hint = html('div', 'hint', 'Click a component or a channel to see its history.');
  if (!selected) return $('details').replaceChildren(hint, ...stuckDetails(), ...endDetails());
  const shown = selected[0] === 'c' ? componentDetails(numberOf(selected)) : channelDetails(numberOf(selected));
  return $('details').replaceChildren(...shown, eventButtons(), history(), ...stuckDetails());
}

// What can never move again, since which line, and the ring.
function stuckDetails() {
  const {line, first, members, ring} = net.stuck;
  if (!isStuckBehind(net, view.line)) return [];
  const title = html('div', 'title stuck', `Since line ${line}, ${counted(first, 'component')} can never move again`);
  title.dataset.line = line;
  const now = added.isLive ? 'Now' : 'At the end', round = ring.size ? `, and ${ring.size} of them wait for one another` : '';
  const told = `Whatever the host does. ${now} it is ${members.size} of ${all.components.length}${round}.`;
  return [title, html('div', 'under', told), ...[...ring].map(([number, text]) => {
    const isNow = isStill(net, trace, number, view.line);
    const row = html('div', 'wait ring', isNow ? text : `${text} (from line ${lastMoveOf(trace, number)} on)`);
    row.classList.toggle('cycle', isNow);
    row.dataset.select = `c${number}`;
    return row;
  })];
}

// Whether the current line is behind the last move, and it is told who waits for whom then.
function isEndTold() {
  let last = trace.count;
  while (last > 1 && trace.what[last] >= REST) last--;
  return net.end.length > 0 && view.line >= last;
}

// At the end who waits for whom.
function endDetails() {
  if (!isEndTold()) return [];
  const shown = [html('div', 'title end', `Who waits for whom ${added.isLive ? 'now' : 'at the end'}`)];
  for (const line of net.end) {
    const names = /^(?:wait|or|ended) \S+ (\d+)/.exec(line), isCycle = /^(circle|cycle)/.test(line);
    const row = html('div', isCycle ? 'wait cycle' : 'wait', line.replace(/ +/g, ' '));
    if (names && net.components[Number(names[1])]) row.dataset.select = `c${names[1]}`;
    shown.push(row);
  }
  return shown;
}

// The phase of a channel and its value, in words.
function phaseText(number) {
  const change = lastChange(trace, number, view.line), value = valueAfter(trace, change);
  return {change, phase: PHASES[phaseAfter(trace, change)], text: PHASES[phaseAfter(trace, change)] + (value ? ` ${value}` : '')};
}

function componentDetails(number) {
  const component = net.components[number], more = component.channels.length - 1 - MOST_PORTS;
  const shown = [html('div', 'title', component.title), html('div', 'under', placeOf(component))];
  if (isStill(net, trace, number, view.line)) shown.push(html('div', 'under stuck', 'never moves again'));
  if (component.isVariable) shown.push(html('div', 'under', `holds ${heldBy(trace, component, view.line)}`));
  const ports = html('div', 'ports');
  for (let p = 1; p < component.channels.length && p <= MOST_PORTS; p++) ports.append(portRow(component, p));
  shown.push(ports);
  if (more > 0) shown.push(html('div', 'under', `and ${counted(more, 'more port')}`));
  const callers = callersOf(net, trace, component, view.line).slice(1);
  const nameOf = caller => (typeof caller === 'number' ? componentName(net.components[caller]) : `the host at ${caller}`);
  const names = callers.map(nameOf);
  if (names.length) shown.push(callerRow(callers, names));
  return shown;
}

// Who called it, up to the host. A click selects the nearest caller.
function callerRow(callers, names) {
  const row = html('div', 'under callers', `called by ${names.join(' ‹ ')}`);
  if (typeof callers[0] === 'number') row.dataset.select = `c${callers[0]}`;
  return row;
}

// A port of a component: its end, its name, its channel and what is on it. A click selects the channel.
function portRow(component, p) {
  const {isPassive, name, set} = component.ports[p] || {isPassive: false, name: `port ${p}`}, number = component.channels[p];
  const {phase, text} = phaseText(number), row = html('div', `port ${phase}`), channel = net.channels[number];
  row.append(html('span', `end ${isPassive ? 'passive' : 'active'}`), html('span', '', set ? `${name} ${set}` : name));
  row.append(html('span', 'channel', channelName(channel)), html('span', 'phase', text));
  row.dataset.select = `k${number}`;
  return row;
}

function channelDetails(number) {
  const channel = net.channels[number], port = channel.port ? `, port ${channel.port}` : '';
  const {change, phase, text} = phaseText(number);
  const ports = html('div', 'ports'), row = html('div', `port ${phase}`);
  row.append(html('span', 'phase', text + (change ? `, since line ${change}` : '')));
  ports.append(row);
  const title = `${channelName(channel)} ${kindOf(channel)}${port}`;
  const ended = `${counted(endedOn([number]), 'handshake')} ended, of ${countOf(trace.changesOf, number) >> 2}`;
  const under = [endsOf(channel), placeOf(channel), ended].map(text => html('div', 'under', text));
  return [html('div', 'title', title), ...under, ports];
}

// Buttons to the previous and the next line of what is selected, how many there are, and a button that leaves it.
function eventButtons() {
  const [lines, key] = selectedLines(), row = html('div', 'events');
  for (const [text, direction] of [['◂ previous event', -1], ['next event ▸', 1]]) {
    const button = html('button', '', text), line = eventLine(direction);
    button.title = direction > 0 ? ']' : '[';
    button.disabled = !line;
    button.onclick = () => go(line);
    row.append(button);
  }
  const leave = html('button', 'leave', '×');
  leave.title = 'nothing selected (Esc)';
  leave.onclick = () => select(null);
  row.append(html('span', 'under', `${countTo(lines, key, view.line)} of ${countOf(lines, key)}`), leave);
  return row;
}

// The lines of what is selected that are around the current one.
function history() {
  const [lines, key] = selectedLines(), list = html('div', 'history');
  const first = Math.max(0, countTo(lines, key, view.line) - BEFORE);
  for (let i = first; i < Math.min(countOf(lines, key), first + HISTORY); i++) {
    const line = nthOf(lines, key, i), text = tell(line);
    const style = line === view.line ? ' now' : line > view.line ? ' later' : '';
    const own = view.selected[0] === 'c' ? componentName(net.components[key]) : '';
    const row = lineRow(line, own && text.startsWith(`${own} `) ? text.slice(own.length + 1) : text, style);
    row.title = text;
    list.append(row);
  }
  return list;
}

// The next or previous line of what is selected, or of the hosts where nothing is; 0 where there is none.
function eventLine(direction) {
  const {hostLines} = trace, ofHosts = [[hostLines], 0];
  const [lines, key] = view.selected ? selectedLines() : ofHosts;
  const seen = countTo(lines, key, view.line), isHere = nthOf(lines, key, seen - 1) === view.line;
  return nthOf(lines, key, direction > 0 ? seen : seen - (isHere ? 2 : 1));
}

// ---- the strip above the scrubber: hosts, rests, clashes, events of what is selected, what was found, a flag where it is stuck

const STRIP_HEIGHT = 22;
const strip = {key: ''};
let clashLines = [];

function showStrip() {
  const canvas = $('strip'), width = Math.round(sizes.strip.width), ratio = window.devicePixelRatio || 1;
  const {theme} = document.documentElement.dataset;
  const key = [width, ratio, view.selected, search.text, theme].join();
  if (!width || strip.key === key) return;
  strip.key = key;
  canvas.width = width * ratio;
  canvas.height = STRIP_HEIGHT * ratio;
  const pen = canvas.getContext('2d'), colours = getComputedStyle(document.documentElement);
  pen.scale(ratio, ratio);
  const placeOfLine = line => (trace.count < 2 ? 0 : Math.round((line - 1) / (trace.count - 1) * (width - 1)));
  const marks = (lines, from, to, top, bottom, colour) => {
    pen.fillStyle = colours.getPropertyValue(colour).trim();
    for (let i = from, last = -1; i < to; i++) {
      const x = placeOfLine(lines[i]);
      if (x !== last) pen.fillRect(x, top, 1.5, bottom - top);
      last = x;
    }
  };
  marks(trace.rests, 0, trace.rests.length, 0, STRIP_HEIGHT, '--rest');
  marks(trace.hostLines, 0, trace.hostLines.length, 0, 8, '--ink');
  marks(clashLines, 0, clashLines.length, 0, STRIP_HEIGHT, '--clash');
  if (view.selected) {
    const [lines, number] = selectedLines();
    marks(linesOf(lines, number), 0, countOf(lines, number), 9, 15, '--selected');
  }
  if (search.hits) marks(search.hits, 0, search.hits.length, 16, STRIP_HEIGHT, '--found');
  if (net.stuck.line) {
    marks([net.stuck.line], 0, 1, 0, STRIP_HEIGHT, '--clash');
    pen.fillRect(placeOfLine(net.stuck.line) - 5, 0, 11, 7);
  }
}

// ---- search ---------------------------------------------------------------------------------------------------------

const MOST_HITS = 200000, MOST_NAMES = 12;
const search = {text: '', hits: null, chosen: -1, timer: 0};
const countedHits = count => (count === MOST_HITS ? `${count}+ lines` : counted(count, 'line'));

// Finds the lines that hold a text, and components, channels and ports by what they are called.
function find(text) {
  Object.assign(search, {text, hits: text === '' ? null : linesWith(text), chosen: -1});
  $('count').textContent = text === '' ? '' : countedHits(search.hits.length);
  $('found').replaceChildren(...(text === '' ? [] : namesWith(text.toLowerCase()).map(([select, name]) => {
    const row = html('div', 'name', name);
    row.dataset.select = select;
    return row;
  })));
  showStrip();
  writeLink();
}

// Chooses the next or the previous of the names that were found; before the first one none is chosen.
function chooseName(by) {
  const names = $('found').children;
  search.chosen = Math.max(-1, Math.min(names.length - 1, search.chosen + by));
  [...names].forEach((row, i) => row.classList.toggle('chosen', i === search.chosen));
}

// The lines that hold a text, rising.
function linesWith(text) {
  const hits = [];
  for (let at = trace.text.indexOf(text); at >= 0 && hits.length < MOST_HITS;) {
    const line = countIn(trace.start, 1, trace.count + 1, at);
    hits.push(line);
    if (line === trace.count) break;
    at = trace.text.indexOf(text, trace.start[line + 1]);
  }
  return hits;
}

// What is called so: by number, kind, name, copy, or place in the source. (`c12` and `fetch 12` are component 12, whose title
// begins with its number.)
function namesWith(text) {
  const names = [], holds = words => words.some(word => word && word.toLowerCase().includes(text));
  const number = /^(?:ch|channel|k) ?(\d+)$/.exec(text);
  if (number && net.channels[Number(number[1])]) names.push([`k${number[1]}`, channelName(net.channels[Number(number[1])])]);
  const [, kind, of] = /^([a-z]\w*?) ?(\d+)$/.exec(text) || [], named = net.components[Number(of)];
  if (named && (kind === 'c' || named.kind.toLowerCase() === kind)) names.push([`c${of}`, named.title]);
  for (const port of net.ports) if (port && names.length < MOST_NAMES && holds([port.name]))
    names.push([`k${port.number}`, `port ${port.name}`]);
  const most = names.length + MOST_NAMES;
  for (const component of all.components) {
    if (names.length >= most) break;
    const {title, source} = component, path = net.isGrouped ? '' : component.path;
    const part = path ? net.instances.get(path).name : '';
    const told = [path && ` in ${path} ${part}`, source && ` (${source})`].filter(it => it).join('');
    if (holds([title, source, path && `${path} ${part}`])) names.push([`c${component.number}`, title + told]);
  }
  for (const channel of all.channels) {
    if (names.length >= most + MOST_NAMES) break;
    const {name, source} = channel;
    if (holds([name, source])) names.push([`k${channel.number}`, channelName(channel) + (source ? ` (${source})` : '')]);
  }
  return names;
}

// Goes to the next or previous line found, and from the ends to the other end.
function goToHit(direction) {
  const {hits} = search;
  if (!hits || hits.length === 0) return;
  const seen = countIn(hits, 0, hits.length, view.line), isHere = hits[seen - 1] === view.line;
  go(direction > 0 ? hits[seen] || hits[0] : hits[seen - (isHere ? 2 : 1)] || hits[hits.length - 1]);
}

// ---- the chart around the current line, as `chart` draws it ---------------------------------------------------------

const CHART = {row: 15, left: 178, top: 34, widest: 110, named: 58, least: 24, label: 40};

// What the chart shows: its lines, and its lifelines from left to right. Where too many take part, fewer lines are shown.
function chartPlan(width, height) {
  let rows = Math.max(9, Math.floor((height - CHART.top - 16) / CHART.row));
  for (;; rows -= 2) {
    const first = firstRow(rows, 2), last = Math.min(trace.count, first + rows - 1), keys = new Set();
    for (let line = first; line <= last; line++) {
      const channel = net.channels[trace.channel[line]];
      if (channel) for (const end of [channel.active, channel.passive]) if (end) keys.add(lifelineOf(channel, end));
    }
    const room = (width - CHART.left - 12) / Math.max(1, keys.size);
    if (room < CHART.least && rows > 9) continue;
    const column = Math.max(CHART.least, Math.min(CHART.widest, room)), order = [...keys].sort((a, b) => rankOf(a) - rankOf(b));
    const places = new Map(order.map((key, i) => [key, CHART.left + column * (i + 0.5)]));
    const y = line => CHART.top + CHART.row * (Math.max(first - 0.7, Math.min(last + 0.9, line)) - first + 0.5);
    return {first, last, column, places, y, width: CHART.left + column * order.length + 10, height: y(last) + CHART.row};
  }
}

// A lifeline: `c5` of a component, `p2` of a port of the host. Ports where the host calls stand at the left, others at the right.
const lifelineOf = (channel, end) => (end === 'host' ? `p${channel.number}` : `c${end.component}`);
function rankOf(lifeline) {
  const number = numberOf(lifeline);
  if (lifeline[0] === 'c') return 1e6 + number;
  return net.channels[number].isHostCaller ? number : 1e12 + number;
}

function showChart() {
  const plan = chartPlan(Math.floor(sizes.chart.width), Math.floor(sizes.chart.height));
  const picture = svg('svg', {width: plan.width, height: plan.height});
  picture.append(...chartRows(plan), ...chartHeads(plan));
  const bars = svg('g'), strokes = [];
  for (const number of chartChannels(plan)) chartChannel(plan, net.channels[number], bars, strokes);
  picture.append(bars, drawStrokes(plan, strokes));
  $('chart').replaceChildren(picture);
}

// The lines with their texts.
function chartRows({first, last, y, width}) {
  const rows = [];
  for (let line = first; line <= last; line++) {
    const row = svg('g', {class: `row${lineStyle(line)}`, 'data-line': line});
    row.append(svg('rect', {x: 0, y: y(line) - CHART.row / 2, width, height: CHART.row}));
    row.append(svg('text', {x: 36, y: y(line) + 4, class: 'line'}, String(line)));
    row.append(svg('text', {x: 44, y: y(line) + 4}, cut(lineText(trace, line), 22)));
    rows.push(row);
  }
  return rows;
}

// The lifelines with their names; where there is little room the numbers stand by turns higher and lower, without kinds.
function chartHeads({last, column, places, y}) {
  const heads = [];
  [...places].forEach(([key, x], i) => {
    const number = numberOf(key), component = key[0] === 'c' ? net.components[number] : null, isNarrow = column < CHART.named;
    heads.push(svg('line', {class: 'lifeline', x1: x, x2: x, y1: CHART.top - 4, y2: y(last) + CHART.row / 2}));
    const head = svg('g', {class: 'head', 'data-select': component ? key : `k${number}`});
    const name = component ? String(number) : cut(net.channels[number].port, isNarrow ? 6 : 14);
    head.append(svg('text', {x, y: isNarrow && i % 2 ? 24 : 12}, name));
    const room = Math.floor(column / 5.6);
    if (component && !isNarrow) head.append(svg('text', {class: 'kind', x, y: 24}, cut(headOf(component), room)));
    head.append(svg('title', {}, component ? componentTitle(component) : channelTitle(net.channels[number])));
    heads.push(head);
  });
  return heads;
}

// What a head tells of a component beside its number.
function headOf(component) {
  const isTelling = component.isVariable || isOperation(component.detail.split(' ')[0]);
  return isTelling && component.detail ? component.detail : component.kind;
}

// The channels that may have something to show: those of the lines, and those by which a component of the chart was called.
function chartChannels({first, last, places}) {
  const channels = new Set();
  for (let line = first; line <= last; line++) if (trace.channel[line]) channels.add(trace.channel[line]);
  for (const key of places.keys()) if (key[0] === 'c') {
    const component = net.components[numberOf(key)];
    for (const p of component.passive) channels.add(component.channels[p]);
  }
  return channels;
}

// Of one channel: a bar while a request is held, and strokes from ask to take and from reply to got.
function chartChannel({first, last, places, y}, channel, bars, strokes) {
  const lines = trace.changesOf, key = channel.number;
  const [active, passive] = [channel.active, channel.passive].map(end => end && places.get(lifelineOf(channel, end)));
  for (let i = Math.max(0, countTo(lines, key, first - 1) - 1), line; (line = nthOf(lines, key, i)) && line <= last; i++) {
    const next = nthOf(lines, key, i + 1) || Infinity, what = trace.what[line];
    if (next < first) continue;
    if (what === TAKE && passive) {
      const height = Math.max(2, y(next) - y(line));
      bars.append(svg('rect', {class: 'bar', x: passive - 4, width: 8, y: y(line), height}));
    }
    if ((what === ASK || what === REPLY) && active && passive) {
      const isAsk = what === ASK, isThick = channel.kind === (isAsk ? 'push' : 'pull');
      strokes.push({channel, line, next, isAsk, isThick, from: isAsk ? active : passive, to: isAsk ? passive : active});
    }
  }
}

// The strokes. Where several wait beside one lifeline, each has a lane.
function drawStrokes({first, last, y, column}, strokes) {
  const group = svg('g'), lanes = new Map();
  for (const {channel, line, next, isAsk, isThick, from, to} of strokes.sort((a, b) => a.line - b.line)) {
    const sign = Math.sign(to - from) || 1, key = `${to} ${sign}`, isOpen = next > last;
    const isSelected = view.selected === `k${channel.number}`;
    if (!lanes.has(key)) lanes.set(key, []);
    const busy = lanes.get(key), free = busy.findIndex(until => until <= line), lane = free < 0 ? busy.length : free;
    busy[lane] = next;
    const wait = to - sign * (7 + Math.min(5, column / 12) * lane);
    const style = (isAsk ? 'asks' : 'replies') + (isThick ? ` ${channel.kind}` : '');
    const stroke = svg('g', {class: `stroke ${style}${isSelected ? ' selected' : ''}`, 'data-select': `k${channel.number}`});
    const way = `M${from + sign * 4} ${y(line)}L${wait} ${y(line)}L${wait} ${y(next)}`;
    stroke.append(svg('path', {d: isOpen ? way : `${way}L${to - sign * 4} ${y(next)}`}));
    if (!isOpen) stroke.append(svg('path', {class: 'tip', d: `M${to - sign * 3} ${y(next)}l${-sign * 7} -3.5l0 7z`}));
    const isTold = line >= first && (column >= CHART.label || isSelected || line === view.line), value = valueAfter(trace, line);
    if (isTold) {
      const text = channel.number + (value ? ` = ${cut(value, 9)}` : '');
      stroke.append(svg('text', {x: from + sign * 8, y: y(line) - 2, class: sign > 0 ? 'starts' : 'ends'}, text));
    }
    group.append(stroke);
  }
  return group;
}
