// ---- the picture: the net as it stands behind the current line ------------------------------------------------------

const $ = id => document.getElementById(id);

// An element of SVG, and one of HTML. Text goes in as text alone, whatever stands in a name.
function svg(name, attributes = {}, text) {
  const element = document.createElementNS('http://www.w3.org/2000/svg', name);
  for (const [key, value] of Object.entries(attributes)) element.setAttribute(key, value);
  if (text !== undefined) element.textContent = text;
  return element;
}
function html(tag, style, text) {
  const element = document.createElement(tag);
  if (style) element.className = style;
  if (text !== undefined) element.textContent = text;
  return element;
}

// The net and its trace, what the trace's audit found, and all components and channels (`load` sets them).
let net = null, trace = null, found = null, all = null;

// What the live page adds: what is done when all is shown, whether it takes a click, and ends of channels that stay in focus.
const added = {isLive: false, afterShow() {}, takesClick() { return false; }, endsInFocus() { return []; }, saved: null};

// Above so many components a page begins in focus. In focus are at most so many, of so many lines around, and it is made anew
// when the line has moved so far.
const MANY = 300, IN_FOCUS = 90, NEAR = 40, REFOCUS = 25;

// What the reader chose. `selected` is `c5` for a component, `k7` for a channel, or null; `panel` what is shown below the net,
// `only` the lines of the list.
const view = {line: 1, selected: null, isFocused: false, focusLine: 0, folded: new Set(), foldedInFocus: new Set(),
  foldedAtFirst: [], isStubbed: null, picture: null, box: null, isFollowing: false, panel: '', only: '', isInWords: false,
  isCounted: false, isFit: true, warnedAt: 0, hasRing: false, layoutTime: 0};

// What is drawn, by number or path, and the line that it shows (0: nothing yet).
const drawn = {channels: new Map(), components: new Map(), boxes: new Map(), ports: new Map(), inside: new Map(), line: 0,
  here: 0};

const foldedNow = () => (view.isFocused ? view.foldedInFocus : view.folded);
const isStubbedNow = () => (view.isStubbed === null ? net.shownComponents.length > 60 : view.isStubbed);
const numberOf = selected => Number(selected.slice(1));

// Chooses what is shown, lays it out and draws it. In focus what is drawn already keeps its order.
function draw() {
  const began = performance.now(), before = placesOf(view.isFocused && view.picture);
  if (view.isFocused) showNear(view.line); else showOnly(all.components, all.channels);
  view.picture = layout(net, foldedNow(), isStubbedNow(), before);
  view.layoutTime = performance.now() - began;
  for (const map of [drawn.channels, drawn.components, drawn.boxes, drawn.ports]) map.clear();
  drawn.line = 0;
  drawn.inside = insideBoxes();
  const layers = {frames: svg('g'), lines: svg('g'), nodes: svg('g'), marks: svg('g')}, {picture} = view;
  for (const frame of picture.frames) layers.frames.append(frameOf(frame));
  const labels = [];
  for (const [number, points] of picture.lines) drawChannel(net.channels[number], points, layers, labels);
  for (const [number, pieces] of picture.stubs) drawStub(net.channels[number], pieces, layers);
  for (const node of picture.nodes) layers.nodes.append(nodeOf(node));
  $('root').replaceChildren(layers.frames, layers.lines, layers.nodes, layers.marks);
}

// Draws anew what has changed, around what stays: that stands where it stood before, or moves from there.
function drawAnew() {
  const {picture, box, isFit} = view, before = placesOf(picture), old = seenOf(box);
  draw();
  if (isFit) fit();
  const seen = seenOf(view.box), stay = view.picture.nodes.filter(({id}) => before.has(id));
  if (stay.length < 2 || !Number.isFinite(old.size)) fit();
  else stayInPlace(stay, before, old, seen);
}

// Moves the picture so that what stays is where it was on the screen, or near to it, and lets each node go to its place from
// there. A picture that was whole stays so.
function stayInPlace(stay, before, old, seen) {
  const {isFit} = view, place = ({id}, at) => (before.get(id)[at] - old[at]) / old.size * seen.size;
  for (const [at, size] of [['x', 'width'], ['y', 'height']]) {
    const wanted = median(stay.map(it => it[at] - place(it, at))), least = view.picture[size] - seen[size];
    seen[at] = isFit ? Math.max(Math.min(least, 0), Math.min(Math.max(least, 0), wanted)) : wanted;
  }
  setBox({x: seen.x, y: seen.y, width: seen.width, height: seen.height}, isFit);
  glide(stay, it => ({x: place(it, 'x') + seen.x, y: place(it, 'y') + seen.y}));
}

const placesOf = picture => new Map(picture ? picture.nodes.map(it => [it.id, it]) : []);
const median = numbers => numbers.sort((a, b) => a - b)[numbers.length >> 1];

// What is seen of the picture, with what a pixel is of it.
function seenOf(box) {
  const {width, height} = sizes.svg, size = pixel(sizes.svg, box);
  const wide = width * size, high = height * size;
  return {x: box.x + (box.width - wide) / 2, y: box.y + (box.height - high) / 2, width: wide, height: high, size};
}

// Moves nodes within 0.2 s from where they were to where they are, if the reader wants things to move.
function glide(nodes, placeBefore) {
  if (window.matchMedia('(prefers-reduced-motion: reduce)').matches) return;
  const moved = ({x, y}) => ({transform: `translate(${x.toFixed(1)}px, ${y.toFixed(1)}px)`});
  for (const node of nodes) {
    groupOf(node).animate([moved(placeBefore(node)), moved(node)], {duration: 200, easing: 'ease-out'});
  }
  $('root').children[1].animate([{opacity: 0}, {opacity: 1}], {duration: 200});
}

// What is drawn of a node.
function groupOf({component, port, box}) {
  if (component) return drawn.components.get(component.number).group;
  return port ? drawn.ports.get(port.number) : drawn.boxes.get(box);
}

// How many components each folded copy hides.
function insideBoxes() {
  const inside = new Map();
  for (const component of foldedNow().size ? net.shownComponents : []) {
    const box = boxOf(component);
    if (box) inside.set(box, (inside.get(box) || 0) + 1);
  }
  return inside;
}

// Shows these components and channels, and no others.
function showOnly(components, channels) {
  for (const item of [...net.shownComponents || all.components, ...net.shownChannels || all.channels]) item.isShown = false;
  for (const item of components) item.isShown = true;
  for (const item of channels) item.isShown = true;
  Object.assign(net, {shownComponents: components, shownChannels: channels});
}

// In focus: what moves in the lines around this one, with who called it, and the ring where something is stuck.
function showNear(line) {
  const kept = new Set(), keep = number => { if (kept.size < IN_FOCUS) kept.add(number); };
  const keepEnd = (end, at) => {
    if (!end || end === 'host') return;
    keep(end.component);
    for (const caller of callersOf(net, trace, net.components[end.component], at)) if (typeof caller === 'number') keep(caller);
  };
  view.hasRing = isStuckBehind(net, line);
  for (let distance = 0; distance <= NEAR; distance++) {
    for (const at of new Set([line - distance, line + distance])) {
      const channel = at > 1 && at <= trace.count && net.channels[trace.channel[at]];
      if (channel) for (const end of [channel.active, channel.passive]) keepEnd(end, at);
    }
    if (distance > 0) continue;
    if (view.hasRing) [...net.stuck.ring.keys()].forEach(keep);
    endsBeside(view.selected).forEach(keep);
  }
  for (const end of added.endsInFocus()) keepEnd(end, line);
  view.focusLine = line;
  const components = [...kept].sort((a, b) => a - b).map(number => net.components[number]);
  const isKept = end => end === 'host' || end !== null && kept.has(end.component);
  const numbers = new Set(components.flatMap(component => component.channels.slice(1)));
  const channels = [...numbers].sort((a, b) => a - b).map(number => net.channels[number]);
  showOnly(components, channels.filter(it => it && isKept(it.active) && isKept(it.passive)));
}

// The components at the ends of a channel, or a component and those at the other ends of its channels.
function endsBeside(selected) {
  if (!selected) return [];
  const number = numberOf(selected), isChannel = selected[0] === 'k';
  const beside = (isChannel ? [number] : net.components[number].channels.slice(1)).map(one => net.channels[one]);
  const ends = beside.flatMap(({active, passive}) => [active, passive]).filter(end => end && end !== 'host');
  return [...(isChannel ? [] : [number]), ...ends.map(end => end.component)];
}

// Whether what is selected is drawn, and a component with all of its channels that have two ends.
function isDrawnWhole(selected) {
  const channels = selected[0] === 'k' ? [numberOf(selected)] : net.components[numberOf(selected)].channels.slice(1);
  return channels.every(number => drawn.channels.has(number) || !net.channels[number].active || !net.channels[number].passive);
}

// The frame of a copy that is unfolded.
function frameOf({path, x, y, width, height}) {
  const group = svg('g', {class: 'frame', 'data-copy': path});
  group.append(svg('rect', {x, y, width, height, rx: 8}));
  group.append(svg('text', {x: x + 8, y: y + 14}, `▾ ${path} ${net.instances.get(path).name}`));
  return group;
}

const dot = (style, {x, y}) => svg('circle', {class: style, cx: x, cy: y, r: 3.6});
const placed = ({x, y, angle = 0}, turn = 0) => `translate(${x.toFixed(1)} ${y.toFixed(1)}) rotate(${(angle + turn).toFixed(1)})`;
const ARROW = 'M5 0L-5 -4.5L-5 4.5Z';

// A channel: its line, a filled dot at the end that asks, an open one at the end that answers, an arrow for the way of its value,
// and its number.
function drawChannel(channel, points, layers, labels) {
  const group = channelGroup(channel), d = curve(points);
  const walk = walkOf(points), length = walk[walk.length - 1].way;
  group.append(svg('path', {class: 'hit', d}), svg('path', {class: 'line', d}));
  group.append(dot('active', points[0]), dot('passive', points[points.length - 1]));
  const isAlike = channel.bundle.every(number => net.channels[number].kind === channel.kind), kind = isAlike ? channel.kind : '';
  if (kind === 'push') group.append(svg('path', {class: 'arrow', d: ARROW, transform: placed(onWalk(walk, length - 9))}));
  if (kind === 'pull') group.append(svg('path', {class: 'arrow', d: ARROW, transform: placed(onWalk(walk, 9), 180)}));
  group.append(svg('title', {}, titleOfLine(channel)));
  layers.lines.append(group);
  const place = labelPlace(walk, length, labels), text = labelOf(channel);
  const label = svg('text', {class: 'number', x: place.x.toFixed(1), y: (place.y - 6).toFixed(1)}, text);
  const value = valueBox({x: place.x, y: place.y + 6});
  layers.marks.append(label, value);
  putDrawn(channel, {group, walk, length, value, label});
}

// The number of a channel with its name, where that isn't told in the port's box; of a bundle how many it is of.
function labelOf(channel) {
  if (channel.bundle.length > 1) return `×${channel.bundle.length}`;
  return channel.number + (channel.name && channel.name !== channel.port ? ` ${cut(channel.name, 10)}` : '');
}

// What is told of a line: of a bundle its channels.
const MOST_TITLES = 20;
function titleOfLine({bundle}) {
  const told = bundle.slice(0, MOST_TITLES).map(number => channelTitle(net.channels[number])), more = bundle.length - MOST_TITLES;
  return told.join('\n') + (more > 0 ? `\nand ${counted(more, 'more channel')}` : '');
}

// The element of a channel, or of a bundle, which has the channels' numbers.
function channelGroup({number, bundle}) {
  const name = bundle.length > 1 ? {'data-bundle': bundle.join(' ')} : {'data-channel': number};
  return svg('g', {class: 'channel', ...name});
}

// Notes what is drawn of a channel, or of all of a bundle.
function putDrawn({bundle}, mark) {
  for (const number of bundle) drawn.channels.set(number, Object.assign(mark, {bundle, token: null}));
}

// A place for a number on a line where no other number is near.
function labelPlace(walk, length, labels) {
  const places = [0.5, 0.38, 0.62, 0.28, 0.72].map(part => onWalk(walk, length * part));
  const isFree = place => !labels.some(other => Math.abs(other.x - place.x) < 14 && Math.abs(other.y - place.y) < 11);
  const place = places.find(isFree) || places[places.length - 1];
  labels.push(place);
  return place;
}

// The box for a value, which is hidden where there is none.
function valueBox(place) {
  const box = svg('g', {class: 'value', transform: placed(place)});
  box.append(svg('rect', {rx: 4, y: -7, height: 15}), svg('text', {y: 4}));
  return box;
}

// A channel as two short pieces, each with the name of the other end.
function drawStub(channel, pieces, layers) {
  const group = channelGroup(channel);
  const d = pieces.map(({x, y, dx, isOut}) => (isOut ? `M${x} ${y}h${dx}` : `M${x + dx} ${y}h${-dx}`)).join('');
  group.append(svg('path', {class: 'hit', d}), svg('path', {class: 'line', d}), svg('title', {}, titleOfLine(channel)));
  const many = channel.bundle.length > 1 ? ` ${labelOf(channel)}` : '';
  for (const piece of pieces) {
    const {x, y, dx, isOut} = piece;
    group.append(dot(isOut ? 'active' : 'passive', piece));
    const style = `stub ${isOut ? 'starts' : 'ends'}`, isCrowd = channel.callers > 1;
    const name = isCrowd ? `▸${channel.callers} groups` : stubName(isOut ? channel.passive : channel.active, isOut);
    group.append(svg('text', {class: style, x: x + dx * 1.2, y: y + 3}, name + many));
    const isArrow = channel.kind === (isOut ? 'pull' : 'push');
    if (isArrow) group.append(svg('path', {class: 'arrow', d: ARROW, transform: placed({x: x + dx / 1.8, y}, isOut ? 180 : 0)}));
  }
  layers.lines.append(group);
  const {x, y, dx, isOut} = pieces[0], tip = {x: x + dx, y};
  const value = valueBox({x: x + dx * 2.4, y}), walk = walkOf(isOut ? [pieces[0], tip] : [tip, pieces[0]]);
  layers.marks.append(value);
  putDrawn(channel, {group, walk, length: walk[walk.length - 1].way, value, label: null});
}

// The folded copy that hides a component, if one does.
function boxOf({path}, folded = foldedNow()) {
  if (path === '' || folded.size === 0) return undefined;
  const steps = path.split('/');
  return steps.map((step, i) => steps.slice(0, i + 1).join('/')).find(outer => folded.has(outer));
}

// How the other end of a stub is called: a folded copy by its path, a variable by its name, what answers by its sign and number,
// who asks by its number.
function stubName(end, isAnswering) {
  const component = net.components[end.component], box = boxOf(component);
  if (box) return `▸${box}`;
  if (!isAnswering) return String(component.number);
  return component.isVariable && component.detail ? signOf(component) : signOf(component) + component.number;
}

// A component, a port of the host, or a copy that is folded.
function nodeOf(node) {
  if (node.component) return drawComponent(node);
  if (node.port) return drawPort(node);
  return drawBox(node);
}

function drawComponent({component, x, y, width, height, isCut, inPorts, outPorts, tips}) {
  const group = svg('g', {'data-component': component.number, transform: placed({x, y})}), sign = signOf(component);
  const oval = (style, edge) => svg('rect', {class: style, x: -width / 2 - edge, y: -height / 2 - edge,
    width: width + 2 * edge, height: height + 2 * edge, rx: RADIUS + edge});
  group.append(oval('ring', 5), oval('body', 0));
  group.append(svg('text', {class: sign.length > 3 ? 'sign small' : 'sign', y: sign.length > 3 ? 4 : 6}, sign));
  if (isCut) group.append(svg('text', {class: 'more', y: height / 2 - 5}, '…'));
  for (const [ports, dx, style] of [[inPorts, -5, 'ends'], [outPorts, 5, 'starts']])
    for (const port of ports) if (component.ports[port]?.set)
      group.append(setOf(component.ports[port].set, tips.get(port), dx, style));
  const caption = svg('text', {class: 'caption', y: height / 2 + 13}, `${component.number} ${cut(component.kind, 14)}`);
  group.append(caption, svg('title', {}, componentTitle(component)));
  drawn.components.set(component.number, {group, caption});
  return group;
}

// The set of values by which a port is chosen.
const setOf = (text, {x, y}, dx, style) => svg('text', {class: `set ${style}`, x: x + dx, y: y - 4}, cut(text, 9));

function drawPort({port, x, y, width, height}) {
  const group = svg('g', {'data-channel': port.number, transform: placed({x, y})});
  group.append(svg('rect', {x: -width / 2, y: -height / 2, width, height, rx: 3}), svg('text', {y: 4}, port.port));
  group.append(svg('title', {}, channelTitle(port)));
  drawn.ports.set(port.number, group);
  return group;
}

function drawBox({box, x, y, width, height}) {
  const group = svg('g', {class: 'folded', 'data-copy': box, transform: placed({x, y})});
  for (const [style, shift] of [['behind', 4], ['front', 0]])
    group.append(svg('rect', {class: style, x: -width / 2 + shift, y: -height / 2 - shift, width, height, rx: 6}));
  group.append(svg('text', {y: -2}, `▸ ${box} ${cut(net.instances.get(box).name, 12)}`));
  group.append(svg('text', {y: 13, class: 'caption'}, counted(drawn.inside.get(box) || 0, 'component')));
  drawn.boxes.set(box, group);
  return group;
}

// ---- the state behind a line ----------------------------------------------------------------------------------------

// Shows the current line in the picture. Only what changed between the line shown last and this one is looked at.
function markPicture() {
  const {line} = view, steps = Math.abs(line - drawn.line), isAll = drawn.line === 0 || steps > 64;
  const channels = new Set(isAll ? drawn.channels.keys() : []), components = new Set(isAll ? drawn.components.keys() : []);
  for (let at = Math.min(line, drawn.line) + (isAll ? steps : 0); !isAll && at <= Math.max(line, drawn.line); at++) {
    if (trace.channel[at]) channels.add(trace.channel[at]);
    if (trace.component[at]) components.add(trace.component[at]);
  }
  if (isStuckBehind(net, line) !== isStuckBehind(net, drawn.line)) for (const number of net.stuck.members) components.add(number);
  for (const number of isAll ? [] : channels) for (const end of [net.channels[number].active, net.channels[number].passive])
    if (end && end !== 'host') components.add(end.component);
  for (const number of new Set([...channels].map(it => drawn.channels.get(it)?.bundle[0]))) markChannel(number);
  for (const number of components) markComponent(number);
  markBoxes();
  markPorts(isAll);
  drawn.line = line;
}

// Of a bundle the channel that its line shows: that which moved last of those that aren't idle.
function shownOf(bundle) {
  const isOpen = change => phaseAfter(trace, change) !== IDLE;
  const rank = number => (change => (isOpen(change) ? change : -1))(lastChange(trace, number, view.line));
  return bundle.length > 1 ? bundle.reduce((best, number) => (rank(number) > rank(best) ? number : best)) : bundle[0];
}

// The marks of a channel, or of a bundle with it: colour, dashes and token by its phase, and its value.
function markChannel(number) {
  const mark = drawn.channels.get(number);
  if (!mark) return;
  const {bundle} = mark, shown = shownOf(bundle), change = lastChange(trace, shown, view.line);
  const phase = phaseAfter(trace, change), value = valueAfter(trace, change), {selected} = view;
  const isHere = bundle.includes(trace.channel[view.line]);
  const isSelected = selected !== null && selected[0] === 'k' && bundle.includes(numberOf(selected));
  const style = `channel ${net.channels[shown].kind} ${PHASES[phase]}${bundle.length > 1 ? ' bundle' : ''}`;
  mark.group.setAttribute('class', style + (isHere ? ' here' : '') + (isSelected ? ' selected' : ''));
  if (bundle.length > 1) mark.group.dataset.select = `k${shown}`;
  mark.value.setAttribute('class', `value${value === '' ? '' : ' on'}${bundle.length > 1 ? ' of-bundle' : ''}`);
  if (value !== '') {
    const [box, text] = mark.value.children, width = 8 + 7 * cut(value, 9).length;
    text.textContent = cut(value, 9);
    box.setAttribute('x', -width / 2);
    box.setAttribute('width', width);
  }
  if (mark.token) mark.token.remove();
  mark.token = tokenOf(mark, phase);
  if (mark.token) mark.group.append(mark.token);
}

// A token: where a request or a reply is on its way a triangle that points there, and where a request is held a square.
function tokenOf({walk, length}, phase) {
  if (phase === IDLE) return null;
  if (phase === TAKEN) {
    const {x, y} = onWalk(walk, length - 7);
    return svg('rect', {class: 'token', x: -5, y: -5, width: 10, height: 10, transform: placed({x, y})});
  }
  const place = onWalk(walk, length * (phase === ASKED ? 0.74 : 0.26));
  return svg('path', {class: 'token', d: 'M8 0L-6 -7L-6 7Z', transform: placed(place, phase === REPLIED ? 180 : 0)});
}

// How many handshakes ended on channels up to the current line.
const endedOn = bundle => bundle.reduce((sum, number) => sum + (countTo(trace.changesOf, number, view.line) >> 2), 0);

// In the view of counts lines are as thick as handshakes were many, each has their count, and what never moved is pale.
function markCounts() {
  $('svg').classList.toggle('counted', view.isCounted);
  const marks = [...new Set(drawn.channels.values())], counts = marks.map(({bundle}) => endedOn(bundle));
  const most = Math.log1p(counts.reduce((a, b) => Math.max(a, b), 1));
  marks.forEach(({group, label, bundle}, i) => {
    const isStill = bundle.every(number => countTo(trace.changesOf, number, view.line) === 0);
    group.setAttribute('style', `--wide: ${(1 + 9 * Math.log1p(counts[i]) / most).toFixed(1)}px`);
    group.dataset.moved = Number(!isStill);
    if (label) label.textContent = view.isCounted ? String(counts[i]) : labelOf(net.channels[bundle[0]]);
  });
  for (const [number, {group}] of drawn.components)
    group.dataset.moved = Number(countTo(trace.linesOfComponent, number, view.line) > 0);
}

// The component that a line moves, or 0.
const moverAt = line => (isMove(trace.what[line]) ? trace.component[line] : 0);

// The marks of a component: filled where it holds a request that it took, ringed where it moved, red where requests meet; an edge
// of red dashes from where it never moves again, and thick red ones in the ring; and what a variable holds.
function markComponent(number) {
  const mark = drawn.components.get(number);
  if (!mark) return;
  const {line} = view, component = net.components[number];
  const phases = component.passive.map(p => phaseAfter(trace, lastChange(trace, component.channels[p], line)));
  const open = phases.filter(phase => phase !== IDLE).length;
  const isClash = component.isCall && open > 1 || trace.what[line] === CLASH && trace.component[line] === number;
  const isSelected = view.selected === `c${number}`;
  const stuck = isStill(net, trace, number, line);
  const styles = {stuck, 'in-ring': stuck && net.stuck.ring.has(number), busy: phases.includes(TAKEN),
    moved: moverAt(line) === number, selected: isSelected, clash: isClash};
  mark.group.setAttribute('class', ['component', ...Object.keys(styles).filter(style => styles[style])].join(' '));
  if (component.isVariable) mark.caption.textContent = `${number} ${component.kind} = ${cut(heldBy(trace, component, line), 9)}`;
}

// A folded copy is ringed where something in it moved, and red where something in it is in the ring.
function markBoxes() {
  const mover = moverAt(view.line), path = mover ? `${net.components[mover].path}/` : '';
  for (const [box, group] of drawn.boxes) group.setAttribute('class', path.startsWith(`${box}/`) ? 'folded moved' : 'folded');
  for (const number of drawn.boxes.size ? net.stuck.ring.keys() : []) if (isStill(net, trace, number, view.line))
    drawn.boxes.get(boxOf(net.components[number]))?.classList.add('in-ring');
}

// Whether a host was told no.
const isRefused = line => trace.what[line] === TOLD && / (busy|not-yet|not-taken)/.test(lineText(trace, line));

// A port is ringed where the host moved there, and dashed red where it was told no.
function markPorts(isAll) {
  const {line} = view, here = trace.component[line] ? 0 : trace.channel[line];
  for (const number of isAll ? drawn.ports.keys() : [drawn.here, here]) {
    const group = drawn.ports.get(number);
    if (!group) continue;
    const style = number !== here ? '' : isRefused(line) ? ' refused' : ' moved';
    group.setAttribute('class', `port${style}${view.selected === `k${number}` ? ' selected' : ''}`);
  }
  drawn.here = here;
  $('svg').classList.toggle('resting', trace.what[line] === REST);
}

// Marks anew what was selected and what is selected now.
function markSelection(before) {
  for (const selected of [before, view.selected]) if (selected) {
    if (selected[0] === 'c') markComponent(numberOf(selected));
    else markChannel(numberOf(selected));
  }
  markPorts(true);
}

// ---- how much of the picture is seen --------------------------------------------------------------------------------

const NEAR_SCALE = 1.5, FAR_SCALE = 0.55, FARTHEST_SCALE = 0.28;

// How large the panels are. (Asked at each step, the browser would have to lay out the page each time.)
const sizes = {};
function measure() {
  for (const id of ['svg', 'journal', 'chart', 'strip']) sizes[id] = $(id).getBoundingClientRect();
}

// Sets the part of the picture that is seen. From afar the small text is left out; names of ports are drawn when one is near.
function setBox(box, isFit = false) {
  Object.assign(view, {box, isFit});
  const scale = Math.min(sizes.svg.width / box.width, sizes.svg.height / box.height);
  $('svg').setAttribute('viewBox', `${box.x} ${box.y} ${box.width} ${box.height}`);
  if (scale > NEAR_SCALE) namePortsOfPicture();
  $('svg').classList.toggle('far', scale < FAR_SCALE);
  $('svg').classList.toggle('farthest', scale < FARTHEST_SCALE);
  $('svg').classList.toggle('near', scale > NEAR_SCALE);
}

// Draws the names of ports, once. That of a port which is alone on its side would say nothing.
function namePortsOfPicture() {
  if (view.picture.isNamed) return;
  view.picture.isNamed = true;
  for (const {component, tips, inPorts, outPorts} of view.picture.nodes) if (component) {
    const names = svg('g', {class: 'names'});
    const sides = [[inPorts, -6, 'ends'], [outPorts, 6, 'starts']].filter(([ports]) => ports.length > 1);
    for (const [ports, dx, style] of sides) for (const port of ports) {
      const {x, y} = tips.get(port);
      const {name, set} = component.ports[port];
      names.append(svg('text', {x: x + dx, y: y - 6, class: style}, set ? `${name} ${set}` : name));
    }
    drawn.components.get(component.number).group.append(names);
  }
}

// The whole picture, but not more than 2.2 times as large as it is.
function fit() {
  const {picture} = view, {svg: place} = sizes;
  const width = Math.max(picture.width, place.width / 2.2, 1), height = Math.max(picture.height, place.height / 2.2, 1);
  setBox({x: (picture.width - width) / 2, y: (picture.height - height) / 2, width, height}, true);
}

// Whether the letters of the whole picture would be too small to read; of a picture with more nodes than this that is clear.
const LEAST_LETTER = 6, LETTER_SIZE = 11;
function isTooSmall() {
  if (all.components.length <= GROUPED_FROM) return false;
  if (nodesOfWhole() > MANY) return true;
  showOnly(all.components, all.channels);
  const {width, height} = layout(net, view.folded, isStubbedNow(), new Map());
  return Math.min(sizes.svg.width / width, sizes.svg.height / height) * LETTER_SIZE < LEAST_LETTER;
}

// How many components and boxes the whole picture has.
function nodesOfWhole() {
  const boxes = new Set();
  let alone = 0;
  for (const component of all.components) {
    const box = boxOf(component, view.folded);
    if (box) boxes.add(box); else alone++;
  }
  return alone + boxes.size;
}

// The picture as it is seen, as a file of its own, with the page's styles.
function pictureFile() {
  const copy = $('svg').cloneNode(true), {x, y, width, height} = seenOf(view.box), {theme} = document.documentElement.dataset;
  copy.setAttribute('width', sizes.svg.width);
  copy.setAttribute('height', sizes.svg.height);
  if (theme) copy.setAttribute('data-theme', theme);
  const ground = svg('rect', {x, y, width, height, style: 'fill: var(--ground)'});
  copy.prepend(svg('style', {}, document.querySelector('style').textContent), ground);
  return new XMLSerializer().serializeToString(copy);
}

// How much of the picture a pixel of the screen is, and the point of the picture under a point of the screen.
const pixel = (place, box) => Math.max(box.width / place.width, box.height / place.height);
function pointAt(clientX, clientY) {
  const {box} = view, place = $('svg').getBoundingClientRect(), size = pixel(place, box);
  return {x: box.x + box.width / 2 + (clientX - place.left - place.width / 2) * size,
    y: box.y + box.height / 2 + (clientY - place.top - place.height / 2) * size};
}

// Nearer or farther, around a point of the picture, or else the middle.
function zoom(factor, point) {
  const {x, y, width, height} = view.box, {x: px, y: py} = point || {x: x + width / 2, y: y + height / 2};
  setBox({x: px - (px - x) * factor, y: py - (py - y) * factor, width: width * factor, height: height * factor});
}

// Moves the picture so that what moves is in sight.
function follow() {
  const mover = moverAt(view.line);
  if (!mover) return;
  bringIntoSight(nodeOfComponent(mover), false);
}

// What is drawn of a component: itself, or the folded copy that hides it. And of what is selected, if anything is.
function nodeOfComponent(number) {
  const path = `${net.components[number].path}/`, isIn = box => Boolean(box) && path.startsWith(`${box}/`);
  return view.picture.nodes.find(({component, box}) => (component ? component.number === number : isIn(box)));
}
function nodeOfSelected(selected) {
  const number = numberOf(selected);
  if (selected[0] === 'c') return nodeOfComponent(number);
  const [end] = endsBeside(selected);
  return view.picture.nodes.find(({port}) => port && port.number === number) || end && nodeOfComponent(end);
}

// Moves the picture so that a node is in sight, and as near as it has to be read where that is wanted.
function bringIntoSight(node, isToBeRead) {
  const {box} = view, isFar = isToBeRead && sizes.svg.width / box.width < FAR_SCALE, {width, height} = isFar ? sizes.svg : box;
  const isIn = (at, from, size) => at > from + 0.08 * size && at < from + 0.92 * size;
  if (!node || !isFar && isIn(node.x, box.x, box.width) && isIn(node.y, box.y, box.height)) return;
  setBox({x: node.x - width / 2, y: node.y - height / 2, width, height});
}
