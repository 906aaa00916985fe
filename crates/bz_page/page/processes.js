// ---- processes: of a flat net what only one component begins is a group, that folds as a copy does ----------------------

// Groups are made in nets of more than so many components; a group has at least so many. A net in which the search for them would
// take more steps than this has none.
const GROUPED_FROM = 60, GROUP_LEAST = 8, MOST_STEPS = 2e7;

// Of each component those that it asks, and those that ask it. At 0 stands the host.
function askersOf(net) {
  const graph = net.components.map(() => ({asks: [], askedBy: []}));
  for (const channel of net.channels) {
    if (!channel || !channel.passive || channel.passive === 'host') continue;
    const from = channel.active && channel.active !== 'host' ? channel.active.component : 0, to = channel.passive.component;
    graph[from].asks.push(to);
    graph[to].askedBy.push(from);
  }
  return graph;
}

// What is reached from the host, each behind all that it leads to. (Nets may be too deep for recursion.)
function postorder(graph) {
  const order = [], seen = new Uint8Array(graph.length), stack = [{number: 0, next: 0}];
  seen[0] = 1;
  while (stack.length) {
    const top = stack[stack.length - 1], next = graph[top.number].asks[top.next++];
    if (next === undefined) order.push(stack.pop().number);
    else if (!seen[next]) {
      seen[next] = 1;
      stack.push({number: next, next: 0});
    }
  }
  return order;
}

// Of each component the nearest one through which every request comes that reaches it from the host: its immediate dominator
// (Cooper, Harvey and Kennedy). -1 where none reaches it; null where it took too many steps.
function dominators(graph, order) {
  const rank = new Int32Array(graph.length), above = new Int32Array(graph.length).fill(-1);
  let steps = 0;
  order.forEach((number, i) => { rank[number] = i; });
  above[0] = 0;
  const meet = (a, b) => {
    for (; a !== b; steps++) if (rank[a] < rank[b]) a = above[a]; else b = above[b];
    return a;
  };
  for (let isChanged = true; isChanged && steps < MOST_STEPS;) {
    isChanged = false;
    for (let i = order.length - 2; i >= 0 && steps < MOST_STEPS; i--) {
      const number = order[i], found = graph[number].askedBy.filter(it => above[it] >= 0).reduce(meet);
      if (found !== above[number]) isChanged = true;
      above[number] = found;
    }
  }
  return steps < MOST_STEPS ? above : null;
}

// Puts the components of a flat net into groups: below a component that begins several large parts, each part that only one of
// these begins. A group has the path of a copy.
function group(net) {
  if (net.instances.size || net.components.length - 1 <= GROUPED_FROM) return;
  const graph = askersOf(net), above = dominators(graph, postorder(graph));
  if (!above) return;
  const below = graph.map(() => []), size = new Int32Array(graph.length), order = [0];
  for (let number = 1; number < graph.length; number++) if (above[number] >= 0) below[above[number]].push(number);
  for (let i = 0; i < order.length; i++) for (const one of below[order[i]]) order.push(one);
  for (const number of order.slice().reverse()) size[number] = 1 + below[number].reduce((sum, one) => sum + size[one], 0);
  for (const number of order) {
    const isAlone = below[number].filter(one => size[one] >= GROUP_LEAST).length < 2;
    const outer = number ? net.components[number].path : '';
    for (const one of below[number]) {
      const isGroup = !isAlone && size[one] >= GROUP_LEAST && isBegun(net, net.components[one]);
      net.components[one].path = isGroup ? `${outer && `${outer}/`}${one}` : outer;
      if (isGroup) putGroup(net, net.components[one]);
    }
  }
}

const isBegun = (net, component) => component.passive.some(p => net.channels[component.channels[p]].kind === 'sync');

function putGroup(net, {path, source, kind}) {
  net.instances.set(path, {path, name: source || kind});
  net.isGrouped = true;
}
