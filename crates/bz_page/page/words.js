// ---- words: the names of what there is, its signs, and what a line of the trace says --------------------------------

const cut = (text, most) => (text.length > most ? text.slice(0, most - 1) + '…' : text);
const counted = (count, one, many = `${one}s`) => `${count} ${count === 1 ? one : many}`;

// The signs of operations.
const OPERATIONS = {
  Add: '+', Subtract: '−', ReverseSubtract: '−r', Negate: '−', Equals: '=', NotEquals: '≠', LessThan: '<', GreaterThan: '>',
  LessOrEquals: '≤', GreaterOrEquals: '≥', And: '∧', Or: '∨', Xor: '⊕', Invert: '¬',
};
const isOperation = word => Object.hasOwn(OPERATIONS, word);

// A name that fits in a circle: `x` of `x[0..7]`, since a compiler's names end so.
const shortName = name => cut(name.length > 5 ? name.replace(/(.)\[.*$/, '$1') : name, 5);

// What stands in a circle: of a variable its name, of a constant, which asks nobody, its value, of an operation its sign, with
// its constant if it has one, and else the sign of the kind.
function signOf({isVariable, active, detail, sign, kind}) {
  const [first, second] = detail.split(' ');
  if (first && (isVariable || active.length === 0)) return shortName(first);
  if (isOperation(first)) return OPERATIONS[first] + (second ? cut(second, 4) : '');
  return sign || kind.slice(0, 4);
}

// The names by which components and channels are told. A variable goes by its name too, and so does a channel that has one.
const componentName = it => `${it.kind} ${it.number}` + (it.isVariable && it.detail ? ` ${it.detail.split(' ')[0]}` : '');
const channelName = it => `channel ${it.number}` + (it.name ? ` ${it.name}` : '');

// An end of a channel.
function endName(channel, end) {
  if (end === null) return 'nobody';
  return end === 'host' ? `the host at ${channel.port}` : componentName(net.components[end.component]);
}

// Where a component or channel stands in the netlist, and where it comes from in the source.
function placeOf(item) {
  const inside = item.path && !net.isGrouped ? ` (in ${item.path})` : '', source = item.source ? `, from ${item.source}` : '';
  return `${item.part} ${item.position}, line ${item.line} of the netlist${inside}${source}`;
}

const endsOf = channel => `from ${endName(channel, channel.active)} to ${endName(channel, channel.passive)}`;
const kindOf = channel => channel.kind + (channel.width ? ` ${channel.width}` : '');
const channelTitle = channel => `${channelName(channel)} ${kindOf(channel)}: ${endsOf(channel)}\n${placeOf(channel)}`;
const componentTitle = component => `${component.title}\n${placeOf(component)}`;

// What a line says.
function tell(line) {
  if (line === 1) return 'The opening: every channel is idle.';
  const what = trace.what[line], component = net.components[trace.component[line]];
  if (what === REST) return 'Rest: a firing was still due, and no component can move.';
  if (what === CLASH) {
    const first = found.met.get(component.number);
    return `Two requests met at ${component.title}${first ? `, first at line ${first}` : ''}.`;
  }
  if (!component) return tellHost(lineText(trace, line).split(' '));
  // (on a page that is damaged there may be no such channel)
  return net.channels[trace.channel[line]] ? tellFiring(line, component) : lineText(trace, line);
}

// What a component does: `Fetch 4 has the reply of Variable 1 on channel 13, value 2`.
function tellFiring(line, component) {
  const what = trace.what[line], channel = net.channels[trace.channel[line]], value = valueIn(trace, line);
  const other = endName(channel, what === ASK || what === GOT ? channel.passive : channel.active);
  const verb = ['', 'asks', 'takes the request of', 'replies to', 'has the reply of'][what];
  return `${componentName(component)} ${verb} ${other} on ${channelName(channel)}${value ? `, value ${value}` : ''}`;
}

// The same in fewer words, for the list: `Variable 8 a replies 12 to BinaryFunc 13`.
function tellShortly(line) {
  const what = trace.what[line], component = net.components[trace.component[line]];
  const channel = net.channels[trace.channel[line]], value = valueIn(trace, line);
  if (!component || !isMove(what) || !channel) return tell(line);
  const name = componentName(component);
  const other = endName(channel, what === ASK || what === GOT ? channel.passive : channel.active);
  if (what === ASK) return `${name} asks ${other}${value && ` with ${value}`}`;
  if (what === REPLY) return `${name} replies ${value && `${value} `}to ${other}`;
  const [verb, noun] = what === TAKE ? ['takes', 'request'] : ['gets', 'reply'];
  return `${name} ${verb} ${value ? `${value} from` : `the ${noun} of`} ${other}`;
}

// What a host does, and what it is told.
function tellHost([who, verb, port, ...told]) {
  const host = who === 'h1' ? 'The host' : `Host ${who.slice(1)}`;
  const does = {offer: 'asks at', collect: 'collects the reply at', accept: 'takes the request at', answer: 'replies at'}[verb];
  return `${host} ${does || 'looks at'} ${port}: ${told.join(' ')}`;
}
