// ---- the source: the lines from which the compiler made what holds a request ------------------------------------------

// The place of a component or channel in the source.
function sourceOf(item) {
  const found = /^(.*):(\d+):(\d+)$/.exec(item ? item.source : '');
  return found ? {file: found[1], line: Number(found[2]), column: Number(found[3])} : null;
}

// The files that places of the net name.
function filesOfNet() {
  net.files = net.files || [...new Set([...all.components, ...all.channels].map(it => sourceOf(it)?.file).filter(file => file))];
  return net.files;
}

// The lines of a file: of the source of this name, or of the one whose last part it is where no other has that part.
const lastPart = name => name.slice(name.lastIndexOf('/') + 1);
function linesOfSource(file) {
  const {sources} = net, isAlike = name => lastPart(name) === lastPart(file);
  if (sources.has(file)) return sources.get(file);
  const alike = [...sources.keys()].filter(isAlike);
  return alike.length === 1 && filesOfNet().filter(isAlike).length === 1 ? sources.get(alike[0]) : null;
}

const phaseNow = number => phaseAfter(trace, lastChange(trace, number, view.line));
const isBusyNow = component => component.passive.some(p => phaseNow(component.channels[p]) === TAKEN);

// Whether control is at a component: it holds a request, and has asked nobody who holds one. Where others meet, and where values
// lie, the place in the source is a declaration: there those tell where control is that came.
function isControlAt(component) {
  if (component.isMeeting || !isBusyNow(component)) return false;
  return component.active.every(p => {
    const {number, passive} = net.channels[component.channels[p]];
    const callee = passive && passive !== 'host' && net.components[passive.component];
    return !callee || callee.isMeeting || phaseNow(number) === IDLE || !isBusyNow(callee);
  });
}

// What is at a line of the source: its columns, a component to select, and whether one of them waits in a ring for ever.
function controlInSource() {
  const found = new Map();
  for (const component of all.components) {
    const place = component.source && isControlAt(component) ? sourceOf(component) : null;
    if (!place || !linesOfSource(place.file)) continue;
    const key = `${place.file}:${place.line}`, isRing = net.stuck.ring.has(component.number);
    const told = found.get(key) || {...place, columns: [], component: component.number, isRing: false};
    told.columns.push(place.column);
    told.isRing = told.isRing || isRing && isStill(net, trace, component.number, view.line);
    found.set(key, told);
  }
  return [...found.values()];
}

// The place of what is selected, or else of what moved last.
function sourceNow() {
  const isTold = item => sourceOf(item) && linesOfSource(sourceOf(item).file), {selected, line} = view;
  if (selected && isTold(thatIs(selected))) return sourceOf(thatIs(selected));
  for (let at = line; at > 1 && at > line - 500; at--) {
    const item = [net.components[trace.component[at]], net.channels[trace.channel[at]]].find(isTold);
    if (item) return sourceOf(item);
  }
  return null;
}

// The lines that are shown, as far as there is room: that of now, those of a ring, those where control is, each with its
// neighbours; where there is none of these the beginning.
function sourceLines(room) {
  const now = sourceNow(), shown = new Map(), control = controlInSource().sort((a, b) => b.isRing - a.isRing);
  const isAt = (place, file, line) => Boolean(place) && place.file === file && place.line === line;
  const put = (file, line) => {
    const key = `${file}:${line}`, lines = linesOfSource(file);
    if (line < 1 || line > lines.length || shown.has(key) || shown.size >= room) return;
    const told = control.find(it => isAt(it, file, line)), isNow = isAt(now, file, line);
    const columns = [...(isNow ? [now.column] : []), ...(told ? told.columns : [])];
    shown.set(key, {file, line, text: lines[line - 1], told, columns, isNow});
  };
  for (const {file, line} of [...(now ? [now] : []), ...control]) for (const at of [line, line - 1, line + 1]) put(file, at);
  const first = filesOfNet().find(linesOfSource);
  for (let line = 1; !now && control.length === 0 && line <= room; line++) put(first, line);
  return [...shown.values()].sort((a, b) => (a.file < b.file ? -1 : a.file > b.file ? 1 : a.line - b.line));
}

function sourceRow({line, text, told, columns, isNow}) {
  const row = html('div', `row${told ? told.isRing ? ' stuck' : ' active' : ''}${isNow ? ' now' : ''}`), held = html('span');
  let at = 0;
  for (const column of [...new Set(columns)].sort((a, b) => a - b)) if (column > at && column <= text.length) {
    const end = column + /^[\x80-\xbf]*/.exec(text.slice(column))[0].length;
    held.append(utf8(text.slice(at, column - 1)), html('mark', '', utf8(text.slice(column - 1, end))));
    at = end;
  }
  held.append(utf8(text.slice(at)));
  row.append(html('span', 'line', String(line)), held);
  row.dataset.place = line;
  if (told) row.dataset.select = `c${told.component}`;
  return row;
}

// What the panel says where no source can be shown.
function whyNoSource() {
  const files = filesOfNet();
  if (files.length === 0) return 'This netlist names no source.';
  return `This page doesn't have the source: ${cut(files.join(', '), 120)}${added.isLive ? '. Drop it here, or load it.' : ''}`;
}

function showSource() {
  const list = html('div', 'source'), isTold = filesOfNet().some(linesOfSource);
  if (!isTold) list.append(html('div', 'hint', whyNoSource()));
  let last = {file: '', line: 0};
  for (const it of isTold ? sourceLines(Math.max(6, Math.floor(sizes.chart.height / ROW_HEIGHT) - 3)) : []) {
    if (it.file !== last.file) list.append(html('div', 'file', it.file));
    else if (it.line > last.line + 1) list.append(html('div', 'gap', '·'));
    list.append(sourceRow(it));
    last = it;
  }
  $('chart').replaceChildren(list);
}
