// ---- what the reader does -------------------------------------------------------------------------------------------

// What is shown below the net, by name.
const PANELS = {chart: () => showChart(), streams: () => showStreams(), source: () => showSource()};

// Shows the current line in all panels.
function show() {
  const isFar = Math.abs(view.line - view.focusLine) > REFOCUS || view.hasRing !== isStuckBehind(net, view.line);
  if (view.isFocused && isFar) drawAnew();
  markPicture();
  if (view.isCounted) markCounts();
  if (view.isFollowing) follow();
  $('says').textContent = tell(view.line) + (view.line === net.stuck.line ? ' (from here on something is stuck)' : '');
  $('position').textContent = `line ${view.line} of ${trace.count}`;
  $('scrubber').value = view.line;
  showJournal();
  showDetails();
  showStrip();
  if (view.panel) PANELS[view.panel]();
  added.afterShow();
  writeLink();
}

// Where the reader was before each jump: the line, and what was selected.
const places = {before: [], isSeries: false}, MOST_PLACES = 200;
function notePlace(isSeries = false) {
  if (!isSeries || !places.isSeries) places.before.push({line: view.line, selected: view.selected});
  if (places.before.length > MOST_PLACES) places.before.shift();
  places.isSeries = isSeries;
}

// Back to the place before the last jump.
function goBack() {
  const place = places.before.pop();
  if (!place) return;
  view.line = Math.min(place.line, trace.count);
  setSelected(place.selected);
}

// Goes to a line, or to the nearest that there is. Of a series of jumps, as the scrubber makes, only the first is noted.
function go(line, isSeries = false) {
  const wanted = Math.max(1, Math.min(trace.count, Math.trunc(line) || 1));
  if (wanted === view.line) return;
  if (Math.abs(wanted - view.line) > 1) notePlace(isSeries);
  view.line = wanted;
  show();
}
const step = lines => go(view.line + lines);
const goTo = line => { if (line) go(line); };

// Selects a component, a channel, or nothing.
function select(selected) {
  if (selected !== view.selected) notePlace();
  setSelected(selected);
}

// In focus a component is drawn with all that is beside it.
function setSelected(selected) {
  const before = view.selected;
  view.selected = selected;
  if (view.isFocused && selected && !isDrawnWhole(selected)) drawAnew();
  markSelection(before);
  show();
}

// Selects what was chosen in a list, and moves the picture there, near enough to read it.
function goToSelected(selected) {
  select(selected);
  bringIntoSight(nodeOfSelected(selected), true);
}

// Draws anew, and shows all of it.
function redraw() {
  draw();
  fit();
  show();
}

function fold(path) {
  const folded = foldedNow();
  if (!folded.delete(path)) folded.add(path);
  redraw();
}

// Focus, or the whole net; of a very large one only when that is wanted twice.
const limits = {drawn: 3000};
function setFocus(isFocused) {
  const count = isFocused ? 0 : nodesOfWhole();
  if (count > limits.drawn && view.warnedAt !== view.line) {
    view.warnedAt = view.line;
    $('says').textContent = `The whole has ${count} components and copies to draw, which takes a while. Once more: draw it.`;
    return;
  }
  Object.assign(view, {isFocused, warnedAt: 0});
  $('focus').classList.toggle('on', isFocused);
  redraw();
}

function setStubs(isStubbed) {
  view.isStubbed = isStubbed;
  redraw();
}

function setFollow(isFollowing) {
  view.isFollowing = isFollowing;
  $('follow').classList.toggle('on', isFollowing);
  show();
}

// Shows one of the panels below the net, or none.
function setPanel(panel) {
  view.panel = panel;
  document.body.classList.toggle('charted', panel !== '');
  document.body.classList.toggle('low', panel === 'streams' || panel === 'source');
  for (const [id, name] of [['charting', 'chart'], ['streaming', 'streams'], ['sourcing', 'source']])
    $(id).classList.toggle('on', panel === name);
  measure();
  fit();
  show();
}
const togglePanel = panel => setPanel(view.panel === panel ? '' : panel);

// The lines that the list shows: all, those of the host, of what is selected, or that the search found.
function setOnly() {
  const kinds = ['', 'host', ...(view.selected ? ['mine'] : []), ...(search.hits ? ['found'] : [])];
  view.only = kinds[(kinds.indexOf(view.only) + 1) % kinds.length];
  show();
}

function setWords(isInWords) {
  view.isInWords = isInWords;
  show();
}

function setCounts(isCounted) {
  view.isCounted = isCounted;
  $('counting').classList.toggle('on', isCounted);
  markCounts();
  show();
}

// Gives a text as a file.
function save(name, text, type = 'text/plain') {
  const it = html('a');
  it.href = URL.createObjectURL(new Blob([text], {type}));
  it.download = name;
  it.click();
  setTimeout(() => URL.revokeObjectURL(it.href), 10000);
  added.saved = {name, text};
}
const savePicture = () => save(`${net.part}-${view.line}.svg`, pictureFile(), 'image/svg+xml');

// Light or dark; of a page that says neither the reader's system decides.
function setTheme(theme) {
  if (theme) document.documentElement.dataset.theme = theme;
  else delete document.documentElement.dataset.theme;
  showStrip();
  writeLink();
}

// Light where it is dark, and dark where it is light.
function otherTheme() {
  const isDark = window.matchMedia('(prefers-color-scheme: dark)').matches;
  const now = document.documentElement.dataset.theme || (isDark ? 'dark' : 'light');
  setTheme(now === 'dark' ? 'light' : 'dark');
}

const toggleHelp = isShown => $('help').classList.toggle('on', isShown);

// Leaves the help, or else what is selected.
function escape() {
  if ($('help').classList.contains('on')) toggleHelp(false);
  else select(null);
}

// ---- play: 1 to 1,000 lines a second, at most 50 pictures -----------------------------------------------------------

const SPEEDS = [1, 2, 5, 10, 25, 100, 1000], PICTURES = 50;
const player = {timer: 0, speed: 3};

function play(isPlaying) {
  clearInterval(player.timer);
  const speed = SPEEDS[player.speed], lines = Math.max(1, Math.round(speed / PICTURES));
  const next = () => {
    go(view.line + lines, true);
    if (view.line >= trace.count) play(false);
  };
  player.timer = isPlaying && view.line < trace.count ? setInterval(next, 1000 * lines / speed) : 0;
  // (what is read aloud would come too late)
  $('says').setAttribute('aria-live', player.timer ? 'off' : 'polite');
  $('play').textContent = player.timer ? 'pause' : 'play';
  $('speed').textContent = `${speed}/s`;
}
const togglePlay = () => play(!player.timer);

function changeSpeed(by) {
  player.speed = Math.max(0, Math.min(SPEEDS.length - 1, player.speed + by));
  play(Boolean(player.timer));
}

// ---- links to a moment: `#line=120&at=c7` ---------------------------------------------------------------------------

const link = {timer: 0};

// The copies that begin folded, in focus and else.
const foldedAtFirst = () => (view.isFocused ? [] : view.foldedAtFirst);

// Writes what is seen into the address, without a step in the browser's history.
function writeLink() {
  if (added.isLive) return;
  const parts = [`line=${view.line}`], folded = [...foldedNow()].join(), {theme} = document.documentElement.dataset;
  if (view.selected) parts.push(`at=${view.selected}`);
  if (view.panel) parts.push(`view=${view.panel}`);
  if (view.isFocused !== isLarge) parts.push(`focus=${Number(view.isFocused)}`);
  if (search.text) parts.push(`find=${encodeURIComponent(search.text)}`);
  parts.push(...membersOfPanels());
  if (folded !== foldedAtFirst().join()) parts.push(`fold=${folded}`);
  if (view.isStubbed !== null) parts.push(`stubs=${Number(view.isStubbed)}`);
  if (theme) parts.push(`theme=${theme}`);
  const hash = `#${parts.join('&')}`;
  clearTimeout(link.timer);
  link.timer = setTimeout(() => {
    if (window.location.hash !== hash) window.history.replaceState(null, '', hash);
  }, 120);
}

// What an address says of the list, the streams and the counts.
function membersOfPanels() {
  const {pinned, from, to} = streams, parts = [];
  if (view.only) parts.push(`only=${view.only}`);
  if (view.isInWords) parts.push('words=1');
  if (view.isCounted) parts.push('counts=1');
  if (pinned.length) parts.push(`pin=${pinned.join()}`);
  if (to) parts.push(`from=${from}`, `to=${to}`);
  return parts;
}
function readMembersOfPanels(said) {
  const only = said.get('only'), [from, to] = ['from', 'to'].map(name => Math.trunc(Number(said.get(name))) || 0);
  view.only = ['host', 'mine', 'found'].includes(only) ? only : '';
  view.isInWords = said.get('words') === '1';
  view.isCounted = said.get('counts') === '1';
  $('counting').classList.toggle('on', view.isCounted);
  streams.pinned = [...new Set((said.get('pin') || '').split(',').filter(isThere))].slice(0, MOST_PINNED);
  Object.assign(streams, {from: 1, to: 0, line: view.line});
  if (from >= 1 && to > from && to <= trace.count) setStreams(from, to - from);
}

// Whether there is a component or channel of this name.
const thatIs = selected => (selected[0] === 'c' ? net.components : net.channels)[numberOf(selected)];
const isThere = selected => /^[ck][0-9]+$/.test(selected) && Boolean(thatIs(selected));

// Shows what an address says; what it doesn't say is as at first.
function readLink(address) {
  const said = new URLSearchParams(new URL(address).hash.slice(1)), at = said.get('at');
  view.line = Math.max(1, Math.min(trace.count, Math.trunc(Number(said.get('line'))) || 1));
  view.selected = at && isThere(at) ? at : null;
  view.isFocused = said.has('focus') ? said.get('focus') === '1' : isLarge;
  view.isStubbed = said.has('stubs') ? said.get('stubs') === '1' : null;
  view[view.isFocused ? 'foldedInFocus' : 'folded'] = new Set(said.has('fold') ? foldedBy(said) : foldedAtFirst());
  setTheme(said.has('theme') && (said.get('theme') === 'dark' ? 'dark' : 'light'));
  $('search').value = said.get('find') || '';
  find($('search').value);
  $('focus').classList.toggle('on', view.isFocused);
  readMembersOfPanels(said);
  draw();
  markCounts();
  setPanel(Object.hasOwn(PANELS, said.get('view')) ? said.get('view') : '');
}
const foldedBy = said => said.get('fold').split(',').filter(path => net.instances.has(path));

// ---- keys and the mouse ---------------------------------------------------------------------------------------------

const lastBefore = lines => lines[countIn(lines, 0, lines.length, view.line - 1) - 1];
const firstAfter = lines => lines[countIn(lines, 0, lines.length, view.line)];

const KEYS = {
  ArrowRight: event => step(event.shiftKey ? 10 : 1), ArrowLeft: event => step(event.shiftKey ? -10 : -1),
  l: () => step(1), h: () => step(-1), PageDown: () => step(100), PageUp: () => step(-100),
  Home: () => go(1), End: () => go(trace.count), ' ': togglePlay, '>': () => changeSpeed(1), '<': () => changeSpeed(-1),
  ']': () => goTo(eventLine(1)), '[': () => goTo(eventLine(-1)),
  r: () => goTo(firstAfter(trace.rests)), R: () => goTo(lastBefore(trace.rests)),
  x: () => goTo(firstAfter(clashLines) || clashLines[0]),
  n: () => goToHit(1), N: () => goToHit(-1), '/': () => $('search').focus(), g: () => $('line').focus(),
  '+': () => zoom(0.8), '-': () => zoom(1.25), f: fit, w: () => setFollow(!view.isFollowing),
  o: () => setFocus(!view.isFocused), s: () => setStubs(!isStubbedNow()), d: otherTheme,
  c: () => togglePanel('chart'), t: () => togglePanel('streams'), y: () => togglePanel('source'),
  v: () => setWords(!view.isInWords), k: () => setCounts(!view.isCounted), S: savePicture,
  // (on the live page `e`, `p` and `u` are taken)
  e: setOnly, E: setOnly, p: pin, P: pin, u: goBack, j: goBack,
  '?': () => toggleHelp(), Escape: escape,
};

// A key in a field that is typed in.
function typed(event) {
  const field = event.target;
  if (event.key === 'Escape') field.blur();
  if (field.id === 'search') return typedInSearch(event);
  if (event.key !== 'Enter') return;
  event.preventDefault();
  go(Number(field.value));
  field.blur();
}

// Arrows choose a name that was found, and Enter goes there; else to the next line found, or to the first name where there is
// none.
function typedInSearch(event) {
  const by = {Enter: 0, ArrowDown: 1, ArrowUp: -1}[event.key], text = $('search').value;
  if (by === undefined) return;
  event.preventDefault();
  if (search.text !== text) find(text);
  if (by) return chooseName(by);
  const {hits, chosen} = search, name = $('found').children[hits && hits.length === 0 ? Math.max(0, chosen) : chosen];
  if (name) goToSelected(name.dataset.select);
  else goToHit(event.shiftKey ? -1 : 1);
}

function pressed(event) {
  if (event.ctrlKey || event.metaKey || event.altKey) return;
  if (event.target.tagName === 'INPUT' && event.target.type !== 'range') typed(event);
  else if (Object.hasOwn(KEYS, event.key)) {
    event.preventDefault();
    KEYS[event.key](event);
  }
}

// Goes to or selects what was clicked. Answers whether there was anything.
function clicked(event) {
  const target = event.target.closest('[data-line],[data-select],[data-component],[data-channel],[data-copy]');
  if (!target) return false;
  const {line, select: selected, component, channel, copy} = target.dataset;
  if (line) go(Number(line));
  else if (selected) goToSelected(selected);
  else if (component) select(`c${component}`);
  else if (channel) select(`k${channel}`);
  else fold(copy);
  return true;
}

// A mouse or a finger drags the picture, two fingers bring it nearer; a finger on the list goes through its lines, and on the
// streams the lines go with the fingers.
const drag = {from: null, box: null, isFar: false, fingers: new Map(), list: null, streams: new Map()};

const pointOf = event => ({x: event.clientX, y: event.clientY});

function dragFrom(event) {
  drag.fingers.set(event.pointerId, pointOf(event));
  Object.assign(drag, {from: pointOf(event), box: {...view.box}, isFar: drag.fingers.size > 1});
}

// Two fingers: the point of the picture between them stays there.
function pinchTo(event) {
  const spread = () => {
    const [a, b] = [...drag.fingers.values()];
    return {x: (a.x + b.x) / 2, y: (a.y + b.y) / 2, size: Math.max(20, Math.hypot(a.x - b.x, a.y - b.y))};
  };
  const before = spread(), {x, y} = pointAt(before.x, before.y);
  drag.fingers.set(event.pointerId, pointOf(event));
  const after = spread();
  zoom(before.size / after.size, {x, y});
  const there = pointAt(after.x, after.y), {box} = view;
  setBox({...box, x: box.x + x - there.x, y: box.y + y - there.y});
}

function listFrom(event) {
  if (event.pointerType !== 'mouse') drag.list = event.clientY;
}
function listTo(event) {
  const rows = Math.trunc((drag.list - event.clientY) / ROW_HEIGHT);
  if (rows === 0) return;
  drag.list -= rows * ROW_HEIGHT;
  stepInList(rows);
}

function streamsFrom(event) {
  if (event.pointerType !== 'mouse' && view.panel === 'streams') drag.streams.set(event.pointerId, event.clientX);
}
function streamsTo(event) {
  const before = [...drag.streams.values()].slice(0, 2);
  drag.streams.set(event.pointerId, event.clientX);
  dragStreams(before, [...drag.streams.values()].slice(0, 2));
}

function dragTo(event) {
  if (drag.list !== null) return listTo(event);
  if (drag.streams.has(event.pointerId)) return streamsTo(event);
  if (drag.fingers.size > 1) return drag.fingers.has(event.pointerId) && pinchTo(event);
  if (!drag.from) return;
  const dx = event.clientX - drag.from.x, dy = event.clientY - drag.from.y;
  if (Math.abs(dx) + Math.abs(dy) > 4) drag.isFar = true;
  if (!drag.isFar) return;
  const size = pixel($('svg').getBoundingClientRect(), drag.box);
  setBox({...drag.box, x: drag.box.x - dx * size, y: drag.box.y - dy * size});
}

// Ends a drag. Where nothing was dragged it is a click, and one beside everything selects nothing.
function dragEnd(event) {
  const isClick = drag.from && !drag.isFar && $('svg').contains(event.target);
  dragNothing(event);
  if (isClick && !added.takesClick(event) && !clicked(event)) select(null);
}

function dragNothing(event) {
  drag.fingers.delete(event.pointerId);
  drag.streams.delete(event.pointerId);
  Object.assign(drag, {from: null, list: null});
}

// A click on the panel below the net: in the streams beside names it goes to the line there.
function clickedPanel(event) {
  if (!clicked(event) && view.panel === 'streams') go(streamLineAt(event.clientX));
}

function listen() {
  document.addEventListener('keydown', pressed);
  for (const id of ['journal', 'details', 'found']) $(id).addEventListener('click', clicked);
  $('chart').addEventListener('click', clickedPanel);
  // (what is found is shown for as long as the field has the focus)
  $('found').addEventListener('mousedown', event => event.preventDefault());
  $('svg').addEventListener('pointerdown', dragFrom);
  window.addEventListener('pointermove', dragTo);
  window.addEventListener('pointerup', dragEnd);
  window.addEventListener('pointercancel', dragNothing);
  $('journal').addEventListener('pointerdown', listFrom);
  $('chart').addEventListener('pointerdown', streamsFrom);
  listenToWheels();
  listenToButtons();
  listenToSizes();
  $('scrubber').addEventListener('input', event => {
    play(false);
    go(Number(event.target.value), true);
  });
  $('search').addEventListener('input', event => {
    clearTimeout(search.timer);
    search.timer = setTimeout(() => find(event.target.value), trace.count > 100000 ? 200 : 30);
  });
  if (!added.isLive) window.addEventListener('hashchange', event => readLink(event.newURL));
}

function listenToWheels() {
  const onWheel = (id, turn, isWanted = () => true) => $(id).addEventListener('wheel', event => {
    if (!isWanted()) return;
    event.preventDefault();
    turn(event);
  }, {passive: false});
  onWheel('svg', event => zoom(Math.exp(event.deltaY * 0.0015), pointAt(event.clientX, event.clientY)));
  onWheel('journal', event => stepInList(Math.sign(event.deltaY) * 3));
  onWheel('chart', turnStreams, () => view.panel === 'streams');
}

function listenToSizes() {
  const observer = new ResizeObserver(() => {
    measure();
    showJournal();
    showStrip();
    if (view.panel) PANELS[view.panel]();
  });
  for (const id of ['svg', 'journal', 'chart', 'strip']) observer.observe($(id));
  window.addEventListener('resize', () => {
    measure();
    fit();
    show();
  });
}

function listenToButtons() {
  const buttons = {first: KEYS.Home, back: () => step(-1), play: togglePlay, forward: () => step(1), last: KEYS.End,
    slower: KEYS['<'], faster: KEYS['>'], charting: KEYS.c, streaming: KEYS.t, sourcing: KEYS.y, focus: KEYS.o, fit,
    nearer: KEYS['+'], farther: KEYS['-'], follow: KEYS.w, counting: KEYS.k, picture: savePicture, theme: otherTheme,
    only: setOnly, words: KEYS.v, ask: () => toggleHelp(true), close: () => toggleHelp(false)};
  for (const [id, act] of Object.entries(buttons)) $(id).onclick = () => {
    act();
    $(id).blur();
  };
}

// ---- the opening ----------------------------------------------------------------------------------------------------

let isLarge = false;

// What the page is of, and whether its trace agrees with itself.
function showFoot() {
  const hostMoves = trace.hostLines.filter(line => isMove(trace.what[line])).length, {moves, values, told, met, bad} = found;
  const counts = [`${counted(all.components.length, 'component')}, ${counted(all.channels.length, 'channel')}`,
    counted(moves - hostMoves, 'firing'), counted(trace.hostLines.length, 'host line'), counted(trace.rests.length, 'rest')];
  const audited = [`${counted(moves, 'move')} by the four-move table`, `${counted(values, 'value')} handed over`,
    `${counted(told, 'phase')} told`, counted(met.size, 'clash', 'clashes')].join(', ');
  $('foot').textContent = bad ? `THIS PAGE IS DAMAGED: line ${bad} is none of a run`
    : `${counts.join('; ')}. Looked at again: ${audited}: all agree.`;
  $('foot').classList.toggle('bad', bad > 0);
}

// Takes a net at its opening, or with a trace, in place of what is shown. Of a net with many components the outermost copies are
// folded; one that couldn't be read as a whole begins in focus.
function load(list, rows, text) {
  net = readNet(list, rows);
  all = {components: net.components.slice(1), channels: net.channels.slice(1)};
  Object.assign(view, {line: 1, selected: null, focusLine: 0, foldedInFocus: new Set(), isStubbed: null, picture: null,
    only: ''});
  view.foldedAtFirst = all.components.length > MANY / 2 ? [...net.instances.keys()].filter(path => !path.includes('/')) : [];
  view.folded = new Set(view.foldedAtFirst);
  measure();
  isLarge = view.isFocused = isTooSmall();
  Object.assign(streams, {from: 1, to: 0, pinned: [], key: ''});
  places.before = [];
  document.title = `${net.part} · breezesim`;
  $('part').textContent = net.part;
  takeTrace(readTrace(text, net));
}

// Takes a trace of the net, or what the trace has become.
function takeTrace(it) {
  trace = it;
  found = audit(trace, net);
  clashLines = [...found.met.values()].sort((a, b) => a - b);
  strip.key = streams.key = '';
  $('scrubber').max = trace.count;
  showFoot();
}

// Opens the page on the three texts that it carries.
function open() {
  const times = {started: performance.now()};
  load(textOf('net'), textOf('rows'), textOf('trace'));
  times.read = performance.now() - times.started;
  play(false);
  measure();
  listen();
  readLink(window.location.href);
  times.open = performance.now() - times.started;
  times.layout = view.layoutTime;
  return times;
}

// What tests look at.
const forTests = {
  view, streams, added, limits, phaseAfter, lastChange, valueAfter, lineText, tell, tellShortly, streamPieces, drawn,
  get net() { return net; },
  get trace() { return trace; }, get found() { return found; }};
