// A stand-in for a browser's document, and the gestures of a user.
import { readFileSync } from 'node:fs';

// An element: a box of children with text, attributes and listeners.
export class Thing {
  constructor(tag) {
    Object.assign(this, { tagName: tag.toUpperCase(), children: [], style: {}, dataset: {}, attributes: {}, value: '' });
    Object.assign(this, { hidden: false, disabled: false, scrollTop: 0, own: '', parent: null, selectionStart: 0, selectionEnd: 0, options: [] });
    this.names = new Set();
    this.acts = new Map();
    this.classList = {
      add: name => this.names.add(name),
      remove: name => this.names.delete(name),
      contains: name => this.names.has(name),
      toggle: (name, isOn) => (isOn ? this.names.add(name) : this.names.delete(name)),
    };
  }

  get id() { return this.name; }
  set id(name) {
    this.name = name;
    known.set(name, this);
  }

  get textContent() { return this.own + this.children.map(it => (typeof it === 'string' ? it : it.textContent)).join(''); }
  set textContent(text) { Object.assign(this, { own: text, children: [] }); }

  append(...added) { for (const it of added) this.insert(it); }
  insert(it) {
    if (it instanceof Thing) it.parent = this;
    this.children.push(it);
  }

  replaceChildren(...added) {
    Object.assign(this, { own: '', children: [] });
    this.append(...added);
  }

  before(...added) {
    const others = this.parent.children;
    others.splice(others.indexOf(this), 0, ...added);
    for (const it of added) if (it instanceof Thing) it.parent = this.parent;
  }

  replaceWith(other) { this.parent?.children.splice(this.parent.children.indexOf(this), 1, other); }
  remove() { if (this.parent) this.parent.children = this.parent.children.filter(it => it !== this); }
  setAttribute(name, value) { this.attributes[name] = value; }
  getAttribute(name) { return this.attributes[name] ?? null; }
  removeAttribute(name) { delete this.attributes[name]; }
  get firstElementChild() { return this.children.find(it => it instanceof Thing) ?? null; }
  contains(other) { return other === this || this.children.some(it => it instanceof Thing && it.contains(other)); }
  // The only selector that it knows is a tag's name; others find nothing.
  querySelectorAll(selector) {
    const below = this.children.filter(it => it instanceof Thing);
    return below.flatMap(it => [...(it.tagName === selector.toUpperCase() ? [it] : []), ...it.querySelectorAll(selector)]);
  }

  closest() { return null; }
  addEventListener(name, act) { this.acts.set(name, [...(this.acts.get(name) ?? []), act]); }
  dispatchEvent(event) { for (const act of this.acts.get(event.type) ?? []) act(event); }
  focus() { document.activeElement = this; }
  setSelectionRange(selectionStart, selectionEnd) { Object.assign(this, { selectionStart, selectionEnd }); }
  getBoundingClientRect() { return { top: 0, left: 0, width: 1, height: 1 }; }
  scrollIntoView() {}
  click() { this.onclick?.({ target: this }); }
}

const known = new Map();
export const kept = new Map();
export const keptInTab = new Map();
const storage = map => ({ getItem: name => map.get(name) ?? null, setItem: (name, value) => map.set(name, value), removeItem: name => map.delete(name) });
const listeners = new Map();
// Names the element under the pointer.
let under = '';

export function made(name) {
  const thing = new Thing('div');
  thing.id = name;
  return thing;
}

const TEMPLATE = readFileSync(new URL('../../web/template.html', import.meta.url), 'utf8');

// Returns the elements of the page's template that have a name and an attribute, as [data-word]; others are not found.
function withAttribute(selector) {
  const wanted = /^\[data-(\w+)\]$/.exec(selector)?.[1];
  return [...TEMPLATE.matchAll(/<\w+ id="([\w-]+)"[^>]*>/g)].flatMap(([tag, name]) => {
    const word = new RegExp(` data-${wanted}="(\\w+)"`).exec(tag)?.[1];
    if (!word) return [];
    const thing = document.getElementById(name);
    thing.dataset[wanted] = word;
    return [thing];
  });
}

Object.assign(globalThis, {
  document: {
    activeElement: null, body: new Thing('body'), documentElement: new Thing('html'),
    getElementById: name => known.get(name) ?? made(name),
    createElement: tag => new Thing(tag), createElementNS: (_, tag) => new Thing(tag),
    querySelectorAll: withAttribute, addEventListener() {},
    elementFromPoint: () => ({ closest: () => known.get(under) ?? null }),
  },
  addEventListener: (name, act) => listeners.set(name, [...(listeners.get(name) ?? []), act]),
  localStorage: storage(kept), sessionStorage: storage(keptInTab),
  location: { hash: '' },
  Option: class extends Thing { constructor(text, value) { super('option'); Object.assign(this, { textContent: text, value }); } },
});
Object.defineProperty(globalThis, 'navigator', { value: { hardwareConcurrency: 1 }, configurable: true });

// Gestures: an event of the whole page, a pasted text, a drag from an element to a square.
export const send = (name, event) => (listeners.get(name) ?? []).forEach(act => act({ button: 0, target: new Thing('div'), preventDefault() {}, ...event }));
export const paste = text => send('paste', { clipboardData: { getData: () => text } });
export const drag = (thing, square) => {
  under = square;
  thing.onpointerdown({ button: 0, clientX: 0, clientY: 0, target: thing });
  send('pointermove', { clientX: 100, clientY: 100 });
  send('pointerup', { clientX: 100, clientY: 100 });
};

/** Gives elements the texts that the page contains: the sentences of explanations, the shapes of men. */
export function fill(parts) {
  for (const [name, text] of Object.entries(parts)) made(name).own = text;
  made('tail').append(new Thing('span'));
}
