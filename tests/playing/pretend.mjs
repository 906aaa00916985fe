// pretend.mjs PAGE.html [#LINK]: for tests, a page in Node, without a browser: its script runs, on elements that nobody draws.
// Elements have no sizes, styles hide nothing, and each element has a point of its own, where a click finds it. What a line of standard input asks, {act, ..} as
// JSON, is done, and answered by a line {value} or {fault}.
import fs from 'node:fs';
import path from 'node:path';
import readline from 'node:readline';
import {Worker as Thread} from 'node:worker_threads';

const VOID = new Set(['meta', 'input', 'br']), TEXTS = {lt: '<', gt: '>', amp: '&', quot: '"'};
const plain = text => text.replace(/&(\w+);/g, (all, name) => TEXTS[name] || all);
const points = [];

class Element {
  constructor(tag, attributes = {}) {
    Object.assign(this, {tag, tagName: tag.toUpperCase(), kids: [], parent: null, listeners: new Map(), style: {}});
    this.attributes = new Map(Object.entries(attributes));
    this.dataset = new Proxy({}, {
      get: (_, name) => (typeof name === 'string' ? this.attributes.get(dataName(name)) : undefined),
      set: (_, name, value) => Boolean(this.attributes.set(dataName(name), String(value))),
      deleteProperty: (_, name) => this.attributes.delete(dataName(name)) || true,
    });
    this.value = attributes.value || '';
    points.push(this);
    this.point = points.length;
  }
  get id() { return this.attributes.get('id') || ''; }
  get className() { return this.attributes.get('class') || ''; }
  set className(text) { this.attributes.set('class', text); }
  get hidden() { return this.attributes.has('hidden'); }
  set hidden(is) { if (is) this.attributes.set('hidden', ''); else this.attributes.delete('hidden'); }
  get classes() { return this.className.split(' ').filter(it => it); }
  get classList() {
    const contains = name => this.classes.includes(name), add = (...names) => this.put([...this.classes, ...names]);
    const remove = (...names) => this.put(this.classes.filter(it => !names.includes(it)));
    const toggle = (name, is = !contains(name)) => (is ? add(name) : remove(name));
    return {contains, add, remove, toggle};
  }
  put(classes) { this.className = [...new Set(classes)].join(' '); }
  setAttribute(name, value) { this.attributes.set(name, String(value)); }
  getAttribute(name) { return this.attributes.has(name) ? this.attributes.get(name) : null; }
  get children() { return this.kids.filter(it => it instanceof Element); }
  get options() { return this.children; }
  get firstChild() { return this.kids[0] || null; }
  get lastChild() { return this.kids[this.kids.length - 1] || null; }
  get textContent() { return this.kids.map(it => (it instanceof Element ? it.textContent : it)).join(''); }
  set textContent(text) { this.replaceChildren(String(text)); }
  append(...kids) {
    for (const it of kids) {
      if (it instanceof Element) {
        it.remove();
        it.parent = this;
      }
      this.kids.push(it instanceof Element ? it : String(it));
    }
  }
  replaceChildren(...kids) {
    for (const it of this.children) it.parent = null;
    this.kids = [];
    this.append(...kids);
  }
  remove() {
    if (this.parent) this.parent.kids = this.parent.kids.filter(it => it !== this);
    this.parent = null;
  }
  *all() {
    for (const it of this.children) {
      yield it;
      yield* it.all();
    }
  }
  contains(other) { return other === this || Boolean(other) && this.contains(other.parent); }
  matches(selector) { return listOf(selector).some(steps => fits(this, steps)); }
  closest(selector) { return this.matches(selector) ? this : this.parent && this.parent.closest(selector); }
  querySelectorAll(selector) {
    const list = listOf(selector);
    return [...this.all()].filter(it => list.some(steps => fits(it, steps)));
  }
  querySelector(selector) { return this.querySelectorAll(selector)[0] || null; }
  getBoundingClientRect() { return {x: this.point * 10, y: 0, left: this.point * 10, top: 0, width: 800, height: 600}; }
  scrollIntoView() {}
  getContext() { return new Proxy({}, {get: () => () => {}, set: () => true}); }
  focus() { document.activeElement = this; }
  blur() { if (document.activeElement === this) document.activeElement = document.body; }
  addEventListener(type, act) { this.listeners.set(type, [...this.listeners.get(type) || [], act]); }
  dispatchEvent({type}) { dispatch(this, type); }
  click() { if (!this.disabled) dispatch(this, 'click'); }
}

const dataName = name => `data-${name.replace(/[A-Z]/g, letter => `-${letter.toLowerCase()}`)}`;

// A selector: a list of steps from the outer to the inner element, each a list of `tag`, `#id`, `.class`, `[name]` and
// `[name="value"]`.
const listOf = selector => selector.split(',').map(one => one.match(/(?:\[[^\]]*\]|[^\s[])+/g).map(partsOf));
const partsOf = step => step.match(/\[[^\]]*\]|[#.]?[\w-]+/g);
function fits(element, steps) {
  const [outer, own] = [steps.slice(0, -1), steps[steps.length - 1]];
  if (!own.every(part => isOf(element, part))) return false;
  for (let at = element.parent; outer.length > 0; at = at.parent) {
    if (!at) return false;
    if (fits(at, outer)) return true;
  }
  return true;
}
function isOf(element, part) {
  if (part[0] === '#') return element.id === part.slice(1);
  if (part[0] === '.') return element.classes.includes(part.slice(1));
  if (part[0] !== '[') return element.tag === part;
  const [, name, value] = /^\[([\w-]+)(?:="([^"]*)")?\]$/.exec(part);
  return element.attributes.has(name) && (value === undefined || element.attributes.get(name) === value);
}

// Events go from an element outwards, to the document and the window.
const outer = {document: new Element('document'), window: new Element('window')};
function dispatch(target, type, more = {}) {
  let isStopped = false;
  const event = {type, target, clientX: 0, clientY: 0, preventDefault() {}, stopPropagation() { isStopped = true; }, ...more};
  const way = [];
  for (let at = target; at; at = at.parent) way.push(at);
  for (const at of [...way, outer.document, outer.window]) {
    if (at[`on${type}`]) at[`on${type}`](event);
    for (const act of at.listeners.get(type) || []) act(event);
    if (isStopped) return;
  }
}

// The elements of a page's text.
function read(text) {
  const root = new Element('root'), open = [root], tags = /<(\/?)(\w+)([^>]*)>/g;
  let at = 0;
  for (let tag; (tag = tags.exec(text));) {
    const [whole, isEnd, name, rest] = tag, inner = open[open.length - 1];
    if (tag.index > at) inner.append(plain(text.slice(at, tag.index)));
    at = tag.index + whole.length;
    if (isEnd) open.pop();
    else {
      const found = [...rest.matchAll(/([\w-]+)(?:="([^"]*)")?/g)].map(([, key, value = '']) => [key, plain(value)]);
      const element = new Element(name, Object.fromEntries(found));
      inner.append(element);
      if (name === 'script' || name === 'style') {
        const end = text.indexOf(`</${name}>`, at);
        element.kids = [text.slice(at, end)];
        at = tags.lastIndex = end + name.length + 3;
      } else if (!VOID.has(name)) open.push(element);
    }
  }
  return root;
}

// ---- what a browser has beside elements ------------------------------------------------------------------------------------

const [file, link = ''] = process.argv.slice(2), text = fs.readFileSync(file, 'utf8').replace('<!doctype html>\n', '');
const root = read(text), errors = [], urls = new Map();
const ids = new Map([...root.all()].filter(it => it.id).map(it => [it.id, it]));
const byId = id => (ids.get(id) && root.contains(ids.get(id)) ? ids.get(id) : root.querySelector(`#${id}`));
const [head] = root.querySelectorAll('html');
Object.defineProperty(head, 'outerHTML', {get: () => text});

class PageBlob extends Blob {
  constructor(parts, how) {
    super(parts, how);
    this.parts = parts;
  }
}
class PageWorker {
  constructor(url) {
    const begin = `const {parentPort} = require('node:worker_threads'); globalThis.self = globalThis;
      globalThis.WorkerGlobalScope = class {}; self.postMessage = told => parentPort.postMessage(told);
      parentPort.on('message', data => self.onmessage({data}));\n`;
    this.thread = new Thread(begin + urls.get(url).parts.join(''), {eval: true});
    this.thread.on('message', data => this.onmessage({data}));
    this.thread.on('error', fault => this.onerror(fault));
  }
  postMessage(told) { this.thread.postMessage(told); }
  terminate() { this.thread.terminate(); }
}
function PageOption(name, value) {
  const option = new Element('option');
  option.textContent = name;
  return Object.assign(option, {value});
}
const document = {
  getElementById: byId, createElement: tag => new Element(tag), createElementNS: (_, tag) => Object.assign(new Element(tag), {tagName: tag}),
  querySelector: selector => root.querySelector(selector), querySelectorAll: selector => root.querySelectorAll(selector),
  addEventListener: (type, act) => outer.document.addEventListener(type, act),
  documentElement: head, body: root.querySelector('body'), title: '',
};
document.activeElement = document.body;
// (of what styles hide, the start alone)
const isShown = it => !it.hidden && !(it.id === 'start' && document.body.classList.contains('living'))
  && (!it.parent || isShown(it.parent));
// The address. What is written to it is followed a little later.
let hash = link;
const address = {
  get href() { return `file://${file}${hash}`; },
  get hash() { return hash; },
  set hash(written) {
    hash = written;
    const newURL = address.href;
    setImmediate(() => (outer.window.listeners.get('hashchange') || []).forEach(act => act({newURL})));
  },
};
Object.assign(globalThis, {
  document, window: globalThis, Blob: PageBlob, Option: PageOption, location: address,
  history: {replaceState(_, title, written) { hash = written; }}, matchMedia: asked => ({matches: asked.includes('reduced-motion')}),
  getComputedStyle: it => ({display: isShown(it) ? 'block' : 'none', getPropertyValue: () => ''}),
  addEventListener: (type, act) => outer.window.addEventListener(type, act),
  ResizeObserver: class { observe() {} },
});
if (link !== '#alone') globalThis.Worker = PageWorker;
URL.createObjectURL = blob => {
  urls.set(`blob:${urls.size}`, blob);
  return `blob:${urls.size - 1}`;
};
URL.revokeObjectURL = () => {};
const note = fault => errors.push(String(fault && fault.stack));
for (const type of ['uncaughtException', 'unhandledRejection']) process.on(type, note);

// ---- what is asked -------------------------------------------------------------------------------------------------------

const acts = {
  // (what is written to the address is followed before anything else is asked)
  async do({script}) {
    const value = await (0, eval)(script);
    await new Promise(setImmediate);
    return value;
  },
  click({x}) {
    const element = points[Math.floor(x / 10) - 41];
    if (!element || !root.contains(element) || !isShown(element)) throw new Error('nothing is there to be clicked');
    if (['input', 'textarea'].includes(element.tag)) element.focus();
    for (const type of ['pointerdown', 'pointerup']) dispatch(element, type);
    element.click();
  },
  key({key, shift}) {
    const element = document.activeElement;
    if (element.tag === 'input' && key.length === 1) element.value += key;
    dispatch(element, 'keydown', {key, shiftKey: shift});
  },
  type({text: typed}) {
    document.activeElement.value += typed;
    dispatch(document.activeElement, 'input');
  },
  choose({selector, file: chosen}) {
    const field = document.querySelector(selector), read = async () => new Uint8Array(fs.readFileSync(chosen)).buffer;
    field.files = [{name: path.basename(chosen), size: fs.statSync(chosen).size, arrayBuffer: read}];
    dispatch(field, 'change');
  },
  errors: () => errors,
};

(0, eval)([...root.querySelectorAll('script')].filter(it => !it.id)[0].textContent);
for await (const line of readline.createInterface({input: process.stdin})) {
  const {act, ...given} = JSON.parse(line);
  let said;
  try {
    said = {value: await acts[act](given)};
  } catch (fault) {
    said = {fault: String(fault && fault.stack)};
  }
  process.stdout.write(`${JSON.stringify(said)}\n`);
}
process.exit(0);
