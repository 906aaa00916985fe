// ---- the streams: from left to right what was on channels, and what variables held ----------------------------------

const STREAM = {row: 19, left: 132, top: 20, letter: 6.4, least: 20};

// `from` to `to` are the lines shown (`to` is 0 for up to the end), `pinned` the rows that the reader keeps.
const streams = {from: 1, to: 0, pinned: [], line: 0, key: '', picture: null, now: null};
const MOST_PINNED = 24;
const lastStreamed = () => (streams.to ? Math.min(streams.to, trace.count) : trace.count);

// The rows that there is room for: the ports of the host, what was pinned, and the variables.
function streamRows(room) {
  const ports = net.ports.filter(port => port).map(port => `k${port.number}`), {pinned} = streams;
  const variables = all.components.filter(component => component.isVariable).map(component => `c${component.number}`);
  const others = ports.filter(row => !pinned.includes(row)).slice(0, Math.max(1, room - pinned.length));
  return [...new Set([...others, ...pinned, ...variables])].slice(0, room);
}

function streamName(row) {
  const number = numberOf(row);
  if (row[0] === 'k') return net.channels[number].port || channelName(net.channels[number]).replace('channel ', '');
  const component = net.components[number];
  return component.isVariable && component.detail ? component.detail.split(' ')[0] : component.title;
}

// The lines at which a row changes, rising: of a channel its moves, of a component its moves, and of a variable those by which it
// takes what is written: of four moves on its first channel the second.
function streamLines(row) {
  const number = numberOf(row);
  const at = (lines, key) => ({countTo: line => countTo(lines, key, line), nth: i => nthOf(lines, key, i)});
  if (row[0] === 'k') return at(trace.changesOf, number);
  const component = net.components[number];
  if (!component.isVariable) return at(trace.linesOfComponent, number);
  const moves = at(trace.changesOf, component.channels[1]);
  return {countTo: line => (moves.countTo(line) + 2) >> 2, nth: i => (i < 0 ? 0 : moves.nth(4 * i + 1))};
}

// What a row shows from one of its lines on (0: from the opening): a style and a text. The value of a push is shown until its
// reply.
function streamState(row, line) {
  const number = numberOf(row);
  if (row[0] === 'k') {
    const phase = phaseAfter(trace, line), isTaken = phase === TAKEN && net.channels[number].kind === 'push';
    return {style: PHASES[phase], text: isTaken ? valueIn(trace, line) : valueAfter(trace, line)};
  }
  const component = net.components[number];
  if (component.isVariable) return {style: 'held', text: line ? valueIn(trace, line) : '0'};
  const isBusy = component.passive.some(p => phaseAfter(trace, lastChange(trace, component.channels[p], line)) === TAKEN);
  return {style: isBusy ? 'taken' : 'idle', text: ''};
}

// The pieces of a row from a line to a line: each shows what is so behind its lines, from its first one to the one before its
// end. Changes that fall on one pixel are a piece of their own, `many`: so there are no more pieces than the width has room for.
function streamPieces(row, from, to, width) {
  const lines = streamLines(row), wide = width / (to - from + 1), pieces = [];
  let line = from, index = lines.countTo(from) - 1;
  while (line <= to) {
    const next = lines.nth(index + 1), isLast = !next || next > to, end = isLast ? to + 1 : next;
    if (isLast || (end - line) * wide >= 1) {
      pieces.push({first: line, end, ...streamState(row, lines.nth(index))});
      line = end;
      index++;
    } else {
      index = lines.countTo(Math.min(to, Math.floor(line + 1 / wide))) - 1;
      pieces.push({first: line, end: lines.nth(index), style: 'many', text: ''});
      line = lines.nth(index);
    }
  }
  return joined(pieces);
}

// Pieces side by side that show the same are one.
function joined(pieces) {
  const shown = [];
  for (const piece of pieces) {
    const last = shown[shown.length - 1];
    if (last && last.style === piece.style && last.text === piece.text) last.end = piece.end; else shown.push(piece);
  }
  return shown;
}

// Where a row's text goes at a piece: into it, or behind it where there is room until the next one; null where there is none.
function streamText(pieces, i, at) {
  const {first, end, text} = pieces[i], room = at(end) - at(first), size = text.length * STREAM.letter + 5, next = pieces[i + 1];
  if (!text) return null;
  if (room >= size) return {x: at(first) + 3, isIn: true, text};
  const quiet = next && next.style === 'replied' && !next.text ? pieces[i + 2] : next;
  if (quiet && quiet.style === 'idle' && at(quiet.end) - at(end) >= size) return {x: at(quiet.first) + 2, isIn: false, text};
  const fits = Math.floor((room - 4) / STREAM.letter);
  return fits >= 3 ? {x: at(first) + 3, isIn: true, text: cut(text, fits)} : null;
}

// What the streams show: lines and rows, and where they stand.
function streamPlan() {
  const {width, height} = sizes.chart, left = Math.min(STREAM.left, Math.round(width * 0.3)), to = lastStreamed();
  const wide = Math.max(50, Math.floor(width) - left - 12), from = Math.max(1, Math.min(streams.from, to));
  const rows = streamRows(Math.max(1, Math.floor((height - STREAM.top - 4) / STREAM.row)));
  return {from, to, left, wide, rows, at: line => left + (line - from) / (to - from + 1) * wide};
}

// Goes aside where the line has changed to one that isn't among those shown.
function followStreams() {
  const to = lastStreamed(), size = to - streams.from, {line} = view, isAnother = streams.line !== line;
  streams.line = line;
  if (!isAnother || line >= streams.from && line <= to) return;
  setStreams(line < streams.from ? line - size / 4 : line - size * 3 / 4, size);
}

// Shows so many lines and one more from this one on, as far as there are such.
function setStreams(from, size) {
  const most = trace.count - 1, wanted = Math.max(Math.min(STREAM.least, most), Math.min(most, Math.round(size)));
  streams.from = Math.max(1, Math.min(trace.count - wanted, Math.round(from)));
  streams.to = wanted === most ? 0 : streams.from + wanted;
}

// Shows the streams. Where only the line has changed, only the mark of now moves.
function showStreams() {
  followStreams();
  const plan = streamPlan(), key = [plan.from, plan.to, plan.wide, ...plan.rows, view.selected].join();
  if (streams.key !== key || !$('chart').contains(streams.picture)) drawStreams(plan);
  streams.key = key;
  const x = plan.at(view.line + 0.5);
  for (const name of ['x1', 'x2']) streams.now.setAttribute(name, x.toFixed(1));
}

function drawStreams(plan) {
  const {from, to, rows, at, left, wide} = plan, bottom = STREAM.top + rows.length * STREAM.row;
  const picture = svg('svg', {width: left + wide + 10, height: bottom + 2, class: 'streams'});
  for (const line of restsApart(plan)) {
    const x = at(line).toFixed(1);
    picture.append(svg('line', {class: 'rest', x1: x, x2: x, y1: STREAM.top - 6, y2: bottom}));
  }
  rows.forEach((row, i) => picture.append(streamRow(plan, row, STREAM.top + i * STREAM.row)));
  const ticks = wide < 400 ? 2 : 5;
  for (let i = 0; i <= ticks; i++) {
    const line = Math.round(from + (to - from) * i / ticks);
    picture.append(svg('text', {class: i === ticks ? 'tick ends' : 'tick', x: at(line).toFixed(1), y: 11}, String(line)));
  }
  const now = svg('line', {class: 'now', y1: 2, y2: bottom});
  picture.append(now);
  Object.assign(streams, {picture, now});
  $('chart').replaceChildren(picture);
}

// The rests among the lines shown, one for each pixel that has some.
function restsApart({from, to, wide}) {
  const {rests} = trace, found = [], step = (to - from + 1) / wide;
  for (let line = from - 1; line < to;) {
    const next = rests[countIn(rests, 0, rests.length, line)];
    if (!next || next > to) break;
    found.push(next);
    line = Math.max(next, Math.floor(next + step) - 1);
  }
  return found;
}

// A row: its name, and its pieces with their values.
function streamRow({from, to, wide, left, at}, row, y) {
  const group = svg('g', {class: `stream${view.selected === row ? ' selected' : ''}`, 'data-row': row});
  const pieces = streamPieces(row, from, to, wide), name = cut(streamName(row), Math.floor(left / 7));
  group.append(svg('text', {class: 'name', x: left - 8, y: y + 13, 'data-select': row}, name));
  pieces.forEach((piece, i) => {
    const isBus = piece.text !== '' || piece.style === 'held', told = streamText(pieces, i, at), x = at(piece.first);
    const [top, height] = piece.style === 'idle' ? [y + 9, 1.5] : isBus ? [y + 2, 14] : [y + 5, 8];
    const width = Math.max(0.8, at(piece.end) - x - (isBus ? 1 : 0));
    group.append(svg('rect', {class: piece.style, x: x.toFixed(1), y: top, width: width.toFixed(1), height}));
    const style = told && (told.isIn ? piece.style : 'beside');
    if (told) group.append(svg('text', {class: `told ${style}`, x: told.x.toFixed(1), y: y + 13}, told.text));
  });
  return group;
}

// The line under a point of the screen.
function streamLineAt(clientX) {
  const {from, to, left, wide} = streamPlan(), x = clientX - $('chart').getBoundingClientRect().left - left;
  return Math.max(from, Math.min(to, from + Math.floor(x / wide * (to - from + 1))));
}

// The wheel shows more or fewer lines around the pointer, with Shift it goes aside.
function turnStreams(event) {
  const {from, to} = streamPlan(), size = to - from, at = streamLineAt(event.clientX), turn = event.deltaY || event.deltaX;
  if (event.shiftKey) setStreams(from + Math.sign(turn) * Math.max(1, size / 10), size);
  else {
    const wanted = Math.min(trace.count - 1, Math.max(STREAM.least, size * Math.exp(turn * 0.002)));
    setStreams(at - (at - from) / Math.max(1, size) * wanted, wanted);
  }
  showStreams();
  writeLink();
}

// Fingers on the streams move from some places to others: the lines under them go with them.
function dragStreams(before, after) {
  const {from, to, left, wide} = streamPlan(), edge = $('chart').getBoundingClientRect().left + left, [x, y] = after;
  const lineAt = at => from + (at - edge) / wide * (to - from + 1), [a, b] = before.map(lineAt);
  const count = y === undefined ? to - from + 1 : (b - a) * wide / (y - x);
  if (count > 0) setStreams(a - (x - edge) / wide * count, count - 1);
  showStreams();
  writeLink();
}

// Keeps a row for what is selected, or leaves it out again.
function pin() {
  const {pinned} = streams, {selected} = view;
  if (!selected) return;
  if (pinned.includes(selected)) pinned.splice(pinned.indexOf(selected), 1);
  else if (pinned.length < MOST_PINNED) pinned.push(selected);
  show();
}
