// ---- live: what can come next, in the list and in the picture ---------------------------------------------------------

// How many moves the list shows, and how many signs the picture.
const MOST_MOVES = 60, MOST_SIGNS = 200;
const isNow = () => view.line >= live.end;

// The last answer of the engine: of what was played its end is seen first, of anything else its beginning.
function say(text, isBad = /^error: /m.test(text)) {
  const lines = text.trimEnd().split('\n');
  $('answer').textContent = (lines.length > 60 ? ['..', ...lines.slice(-60)] : lines).join('\n');
  $('answer').classList.toggle('bad', isBad);
  $('answer').scrollTop = /^[hw]\d+ /.test(text) ? $('answer').scrollHeight : 0;
}

// When all else is shown: what can come next, or, at an earlier line, how to go on from there.
function showNext() {
  if (!live.isOpen) return;
  $('undo').disabled = !canUndo();
  $('redo').disabled = !canRedo();
  $('next').classList.toggle('past', !isNow());
  $('moves').replaceChildren(...(isNow() ? rowsOfMoves() : rowsOfPast()));
  markNext();
}

function rowsOfPast() {
  const here = html('button', 'go', 'go on from here'), end = html('button', '', 'to the end');
  here.onclick = () => goOnFrom(view.line);
  end.onclick = () => go(live.end);
  return [html('div', 'under', `This is line ${view.line} of ${live.end}.`), here, end];
}

// The moves, of what is selected first; words of the host after those of components.
function rowsOfMoves() {
  const isMine = move => view.selected && (view.selected === `c${move.component}` || view.selected === `k${move.channel}`);
  const moves = [...live.moves.filter(isMine), ...live.moves.filter(move => !isMine(move))];
  const rows = moves.slice(0, MOST_MOVES).map(rowOfMove), more = moves.length - MOST_MOVES;
  if (!live.moves.some(move => !move.isHost)) rows.unshift(html('div', 'under', 'At rest: no component can move.'));
  if (more > 0) rows.push(html('div', 'under', `and ${counted(more, 'more', 'more')}: those of what is selected come first`));
  return rows;
}

const HOST_DOES = {offer: 'ask at', accept: 'take the request at', answer: 'reply at', collect: 'collect the reply at'};
const DOES = {ask: 'asks', take: 'takes the request of', reply: 'replies to', got: 'has the reply of'};

// A move in words.
function wordsOf({component, isHost, what, channel, value}) {
  const on = net.channels[channel], isActive = what === 'ask' || what === 'got';
  if (isHost) return `you ${HOST_DOES[what]} ${on.port}`;
  const name = componentName(net.components[component]), other = endName(on, isActive ? on.passive : on.active);
  return `${name} ${DOES[what]} ${other} on ${channelName(on)}${value ? `, value ${value}` : ''}`;
}

// A move of a component or a word of the host as a button, with a field where it needs a value.
function rowOfMove(move) {
  const row = html('div', 'move'), button = html('button', move.isHost ? 'go host' : 'go');
  button.textContent = move.isHost ? `${move.what} ${net.channels[move.channel].port}` : move.command;
  button.dataset.can = move.command;
  button.onclick = () => choose(move);
  row.append(button);
  if (move.needsValue) row.append(fieldOf(move));
  row.append(html('span', 'what', wordsOf(move)));
  const hint = isOn => drawn.channels.get(move.channel)?.group.classList.toggle('hinted', isOn);
  row.onmouseenter = () => hint(true);
  row.onmouseleave = () => hint(false);
  return row;
}

// The field for the value of a word. It keeps what was typed last.
function fieldOf(move) {
  const field = html('input', 'given');
  Object.assign(field, {value: live.values.get(move.command) || '', placeholder: 'value', inputMode: 'numeric', size: 7});
  field.setAttribute('aria-label', `value for ${move.command}`);
  field.dataset.given = move.command;
  field.oninput = () => live.values.set(move.command, field.value.trim());
  field.onkeydown = event => {
    event.stopPropagation();
    if (event.key === 'Enter') choose(move);
    if (event.key === 'Escape') field.blur();
  };
  return field;
}

// Makes a move. Where it needs a value that isn't there yet, its field is gone to.
function choose(move) {
  const value = live.values.get(move.command) || '';
  if (!move.needsValue) make(move.command);
  else if (value) make(`${move.command}:${value}`);
  else [...document.querySelectorAll('[data-given]')].find(it => it.dataset.given === move.command)?.focus();
}

// In the picture: a sign on each channel at the end that can move, and at each port where a word of the host would be done. At
// rest, and where somebody waits in a circle, these are red.
function markNext() {
  const layer = svg('g', {id: 'can'}), taken = [];
  $('can')?.remove();
  for (const {group} of [...drawn.components.values(), ...drawn.channels.values()]) group.classList.remove('can', 'circle');
  if (isNow()) {
    for (const move of live.moves.slice(0, MOST_SIGNS)) {
      drawn.components.get(move.component)?.group.classList.add('can');
      const mark = drawn.channels.get(move.channel);
      if (mark) layer.append(signOfMove(move, placeOfSign(move, mark, taken)));
    }
    for (const number of live.circle) drawn.components.get(number)?.group.classList.add('circle');
    for (const number of live.links) drawn.channels.get(number)?.group.classList.add('circle');
  }
  $('root').append(layer);
}

// A place on a channel near the end that moves, where no other sign is near.
function placeOfSign({isHost, what, channel}, {walk, length}, taken) {
  const isActive = isHost ? net.channels[channel].isHostCaller : what === 'ask' || what === 'got';
  const at = inset => onWalk(walk, isActive ? inset : length - inset);
  const isFree = place => !taken.some(other => Math.hypot(other.x - place.x, other.y - place.y) < 20);
  const insets = [15, 34, 53].filter(inset => inset < length * 0.8);
  const place = at(insets.find(inset => isFree(at(inset))) || Math.min(15, length / 2));
  taken.push(place);
  return place;
}

// A request goes with the line, and a reply against it.
function signOfMove(move, {x, y, angle = 0}) {
  const turn = angle + (['reply', 'got', 'answer', 'collect'].includes(move.what) ? 180 : 0);
  const style = `go${move.isHost ? ' host' : ''}`;
  const sign = svg('g', {class: style, 'data-can': move.command, transform: placed({x, y})});
  sign.append(svg('circle', {r: 9.5}), svg('path', {d: 'M-4 -4.5L6 0L-4 4.5L-1.5 0Z', transform: `rotate(${turn.toFixed(1)})`}));
  sign.append(svg('title', {}, `${move.command}${move.needsValue ? ':V' : ''}: ${wordsOf(move)}`));
  return sign;
}

// A click on a sign makes its move. Answers whether one was clicked.
function takeSign(event) {
  const sign = event.target.closest('#can [data-can]'), move = sign && live.moves.find(it => it.command === sign.dataset.can);
  if (move) choose(move);
  return Boolean(sign);
}

// In focus, where something can move is shown too.
function endsThatMove() {
  return live.moves.map(({component, channel}) => {
    const {isHostCaller, passive, active} = net.channels[channel];
    return component ? {component} : isHostCaller ? passive : active;
  });
}
