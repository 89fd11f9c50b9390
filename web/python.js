// @ts-nocheck
// What Python's own types and modules do, for the module that web/from_python.py makes: only what that module uses. Bytes are strings of
// characters up to U+00FF, tuples are arrays.

import { LETTERS, UTF8 } from './codecs.js';

/** @type {any} */
export const py = (() => {
  class Exception extends Error {
    toString() { return this.message; }
  }

  class ValueError extends Exception {}
  class UnicodeError extends ValueError {}
  class UnicodeDecodeError extends UnicodeError {}
  const numbers = new WeakMap();
  let most = 0;

  /** Returns a number for an object, always the same. */
  const numberOf = it => numbers.get(it) ?? (numbers.set(it, ++most), most);

  // An apostrophe and a bracket.
  const SIGNS_OF_KEYS = new Set([0x27, 0x28]);
  /** Returns what stands for a value as a key: equal values have the same. */
  function keyOf(it) {
    // (a text that could be the key of something else gets a sign in front; others are themselves, which takes no time)
    if (typeof it === 'string') return SIGNS_OF_KEYS.has(it.charCodeAt(0)) ? `'${it}` : it;
    if (it === null || typeof it !== 'object') return it;
    if (!(it instanceof Record) && !Array.isArray(it)) return it;
    let key = '(';
    for (const name of it instanceof Record ? fieldsOf(it) : it.keys()) key += `${partOfKey(it[name])},`;
    return key;
  }

  function partOfKey(it) {
    const key = typeof it === 'number' ? it : typeof it === 'string' ? JSON.stringify(it) : keyOf(it);
    return key !== null && typeof key === 'object' ? `#${numberOf(key)}` : key;
  }

  function eq(one, next) {
    if (one === next || one === null || next === null || typeof one !== 'object') return one === next;
    if (one instanceof Record) return one.constructor === next.constructor && fieldsOf(one).every(name => eq(one[name], next[name]));
    return Array.isArray(one) && Array.isArray(next) && one.length === next.length && one.every((it, place) => eq(it, next[place]));
  }

  function has(all, one) {
    if (typeof all === 'string') return all.includes(one);
    if (all instanceof Dict) return all.has(one);
    for (const it of iter(all)) if (eq(it, one)) return true;
    return false;
  }

  /** A class with fields: equal if its fields are. */
  class Record {
    static fields = [];
    [Symbol.iterator]() {
      return fieldsOf(this).map(name => this[name])[Symbol.iterator]();
    }
  }

  const fieldsOf = it => it.constructor.fields;

  class Enum {
    static members = {};
    static byValue = new Map();
    name = '';
    value = null;
    static [Symbol.iterator]() {
      return Object.values(this.members)[Symbol.iterator]();
    }

    static of(value) {
      const found = this.byValue.get(value);
      if (!found) throw new ValueError(`${value} is no ${this.name}`);
      return found;
    }
  }

  class Dict {
    constructor(pairs) {
      this.pairs = new Map();
      for (const [key, value] of pairs) this.put(key, value);
    }

    get size() { return this.pairs.size; }
    has(key) { return this.pairs.has(keyOf(key)); }
    get(key, absent = null) {
      const pair = this.pairs.get(keyOf(key));
      return pair ? pair[1] : absent;
    }

    put(key, value) {
      const pair = this.pairs.get(keyOf(key));
      this.pairs.set(keyOf(key), [pair ? pair[0] : key, value]);
    }

    drop(key) { this.pairs.delete(keyOf(key)); }
    * [Symbol.iterator]() {
      for (const [key] of this.pairs.values()) yield key;
    }
  }

  class PySet extends Dict {}

  class Match {
    constructor(found, groups) {
      this.all = found;
      this.named = groups;
    }

    start() { return this.all.index; }
    end() { return this.all.index + this.all[0].length; }
    groups() { return this.all.slice(1).map(it => it ?? null); }
    /** Returns the group that took part, if it has a name. */
    get lastgroup() { return Object.keys(this.named).find(name => this.named[name] !== undefined) ?? null; }
  }

  const IGNORECASE = 2;
  const DOTALL = 16;
  const ASCII = 256;
  // What a class of signs of Python holds, within a class of JavaScript: in texts, and in bytes.
  const OF_TEXTS = {
    d: '\\p{Nd}', w: '\\p{L}\\p{N}_', s: '\\t-\\r\\x1c-\\x20\\x85\\xa0\\u1680\\u2000-\\u200a\\u2028\\u2029\\u202f\\u205f\\u3000',
  };
  const OF_BYTES = { d: '0-9', w: 'A-Za-z0-9_', s: '\\t-\\r\\x20' };
  const PARTS_OF_PATTERN = /\[(\^?)(\]?(?:\\[^]|[^\]\\])*)\]|\\([^])|\(\?P<|[.$]/g;

  /** Writes an escape of Python's: `inner` is before a class of signs, and `outer` after it. */
  function escapeOf(letter, known, [inner, outer]) {
    if (letter in known) return inner + known[letter] + outer;
    return /[a-z0-9^$\\.*+?()[\]{}|/-]/i.test(letter) && (letter !== '-' || !inner) ? `\\${letter}` : letter;
  }

  /** Writes a class of signs of Python's. A negated one in a negated one, as in `[^\W\d_]`, becomes the signs of the inner one without the others. */
  function classOf(sign, inside, known) {
    const negated = [];
    const rest = inside.replace(/\\([^])/g, (_, letter) => {
      if (!/[DSW]/.test(letter)) return escapeOf(letter, known, ['', '']);
      negated.push(known[letter.toLowerCase()]);
      return '';
    });
    if (!negated.length) return `[${sign}${rest}]`;
    if (!sign || negated.length > 1) throw new ValueError(`no translation of the class ${inside}`);
    return `(?:${rest && `(?![${rest}])`}[${negated[0]}])`;
  }

  /** Writes a pattern of Python's in JavaScript. `re.MULTILINE` isn't known: JavaScript has other ends of lines than Python. */
  function patternOf(text, flags) {
    const known = flags & ASCII ? OF_BYTES : OF_TEXTS;
    return text.replace(PARTS_OF_PATTERN, (part, sign, inside, letter) => {
      if (inside !== undefined) return classOf(sign, inside, known);
      if (letter === 'Z') return '(?![^])';
      if (letter !== undefined) return /[DSW]/.test(letter) ? `[^${known[letter.toLowerCase()]}]` : escapeOf(letter, known, ['[', ']']);
      return part === '.' ? flags & DOTALL ? '[^]' : '[^\\n]' : part === '$' ? '(?![^\\n]|\\n[^])' : '(?<';
    });
  }

  const NO_GROUPS = {};
  class Pattern {
    constructor(text, flags) {
      const isFolded = (flags & IGNORECASE) !== 0 || text.startsWith('(?i)');
      this.text = patternOf(text.replace(/^\(\?i\)/, ''), flags);
      this.flags = (isFolded ? 'i' : '') + (/\\p\{|[^\0-\u{ffff}]|[\ud800-\udfff]/u.test(this.text) ? 'u' : '');
      this.made = {};
    }

    found(text, from, to, mark, whole) {
      const pattern = (this.made[mark + whole] ??= new RegExp(whole ? `(?:${this.text})$` : this.text, mark + this.flags));
      pattern.lastIndex = from;
      const found = pattern.exec(to === undefined || to === text.length ? text : text.slice(0, to));
      return found && new Match(found, found.groups ?? NO_GROUPS);
    }

    search(text, from = 0, to = undefined) { return this.found(text, from, to, 'g', ''); }
    match(text, from = 0, to = undefined) { return this.found(text, from, to, 'y', ''); }
    fullmatch(text) { return this.found(text, 0, undefined, 'y', '$'); }
    * finditer(text, from = 0) {
      for (let found = this.search(text, from); found; found = this.search(text, Math.max(found.end(), found.start() + 1))) yield found;
    }

    findall(text, from = 0) { return [...this.finditer(text, from)].map(it => it.all[it.all.length > 1 ? 1 : 0]); }
    sub(made, text) {
      if (typeof made === 'function') return this.subBy(made, text);
      const said = made.replaceAll('$', '$$$$').replace(/\\(?:g<)?([0-9])>?/g, (_, group) => (group === '0' ? '$&' : `$${group}`));
      return text.replace(this.made.all ??= new RegExp(this.text, `g${this.flags}`), said);
    }

    subBy(made, text) {
      let [said, end] = ['', 0];
      for (const found of this.finditer(text)) {
        said += text.slice(end, found.start()) + made(found);
        end = found.end();
      }
      return said + text.slice(end);
    }
  }

  const compiled = new Map();
  function compile(pattern, flags = 0) {
    if (pattern instanceof Pattern) return pattern;
    const key = `${flags} ${pattern}`;
    if (!compiled.has(key)) compiled.set(key, new Pattern(pattern, flags));
    return compiled.get(key);
  }

  const re = {
    IGNORECASE, DOTALL, ASCII, compile,
    get MULTILINE() { throw new ValueError('no translation of re.MULTILINE'); },
    ...Object.fromEntries(['search', 'match', 'fullmatch', 'findall'].map(name => [name, (pattern, text, flags = 0) => compile(pattern, flags)[name](text)])),
    sub: (pattern, made, text) => compile(pattern).sub(made, text),
    escape: text => text.replace(/[\]\\^$.*+?()[{}|/-]/g, '\\$&'),
  };

  const ENTITIES = { '&': '&amp;', '<': '&lt;', '>': '&gt;', '"': '&quot;', "'": '&#x27;' };
  const CATEGORIES = ['Zs', 'Zl', 'Zp', 'Cf', 'Cc', 'Co', 'Cs', 'Cn'].map(name => [name, new RegExp(`^\\p{${name}}`, 'u')]);
  const unicodedata = {
    category: letter => CATEGORIES.find(([, pattern]) => pattern.test(letter))?.[0] ?? 'other',
    combining: letter => /^\p{Mn}/u.test(letter),
    east_asian_width: letter => (/^[\uff01-\uff60\uffe0-\uffe6]/.test(letter) ? 'F' : 'other'),
    normalize: (form, text) => text.normalize(form),
  };

  const iter = it => (it instanceof Object && !(Symbol.iterator in it) ? Object.keys(it) : it);
  const list = (it = []) => [...iter(it)];
  const len = it => it.length ?? it.size;
  function bool(it) {
    if (it === null || typeof it !== 'object') return Boolean(it);
    return Array.isArray(it) || it instanceof Dict ? len(it) > 0 : true;
  }

  function at(it, place) {
    if (it instanceof Dict) return it.get(place);
    if (it instanceof Match) return (typeof place === 'number' ? it.all[place] : it.named[place]) ?? null;
    if (typeof it === 'function') return it.members[place];
    const all = it instanceof Record ? [...it] : it;
    return typeof place === 'number' && place < 0 ? all[all.length + place] : all[place];
  }

  function compare(one, next) {
    if (!Array.isArray(one)) return one < next ? -1 : one > next ? 1 : 0;
    const place = one.findIndex((it, index) => it !== next[index]);
    return place < 0 ? 0 : compare(one[place], next[place]);
  }

  function withOptions(given) {
    const last = given.at(-1);
    const isLast = last !== null && typeof last === 'object' && Object.getPrototypeOf(last) === Object.prototype;
    const all = isLast ? given.slice(0, -1) : given;
    const { key = it => it, default: absent = null, reverse = false } = isLast ? last : {};
    return { all: all.length === 1 ? list(all[0]) : all, key, absent, reverse };
  }

  function sorted(...given) {
    const { all, key, reverse } = withOptions(given);
    return all.sort((one, next) => (reverse ? compare(key(next), key(one)) : compare(key(one), key(next))));
  }

  /** Returns the first of some values that no other is beyond: below for the sign -1, above for 1. */
  const utmost = sign => (...given) => {
    const { all, key, absent } = withOptions(given);
    return all.length ? all.reduce((one, next) => (compare(key(next), key(one)) === sign ? next : one)) : absent;
  };

  function range(one, end, step = 1) {
    const [from, to] = end === undefined ? [0, one] : [one, end];
    const all = [];
    for (let at = from; step > 0 ? at < to : at > to; at += step) all.push(at);
    return all;
  }

  const isAscii = text => !/[^\0-\x7f]/.test(text);
  function decode(text, coding, errors = 'strict') {
    if (coding === 'latin-1' || !coding.startsWith('utf-16') && isAscii(text)) return text;
    if (coding === 'ascii') throw new UnicodeDecodeError('no ASCII');
    const known = { 'utf-16': text.startsWith('\xfe\xff') ? 'utf-16be' : 'utf-16le', 'utf-16-le': 'utf-16le', 'utf-16-be': 'utf-16be' }[coding];
    try {
      const decoder = new TextDecoder(known ?? 'utf-8', { fatal: errors === 'strict', ignoreBOM: coding !== 'utf-16' });
      const said = decoder.decode(LETTERS.encode(text));
      return errors === 'ignore' ? said.replaceAll('\ufffd', '') : said;
    } catch {
      throw new UnicodeDecodeError(`no ${coding}`);
    }
  }

  const encode = (text, coding) => (coding !== 'utf-8' || isAscii(text) ? text : LETTERS.decode(UTF8.encode(text)));

  /** Counts the letters at an end of a text that are among some signs, from a place on by steps. */
  function countOfEnd(text, signs, start, step) {
    let at = start;
    while (at >= 0 && at < text.length && signs.includes(text[at])) at += step;
    return Math.abs(at - start);
  }
  const lstrip = (text, signs = null) => (signs === null ? text.trimStart() : text.slice(countOfEnd(text, signs, 0, 1)));
  const rstrip = (text, signs = null) => (signs === null ? text.trimEnd() : text.slice(0, text.length - countOfEnd(text, signs, text.length - 1, -1)));

  /** Writes a value in the shape of a text with values. */
  function formatted(it, shape) {
    if (shape === 'g') return String(it);
    if (shape === ',') return String(it).replace(/\B(?=(\d{3})+$)/g, ',');
    return shape === '02' ? String(it).padStart(2, '0') : it.toString(16).toUpperCase().padStart(4, '0');
  }

  /** Makes the members of a class of constants. */
  function members(kind, values) {
    kind.members = Object.fromEntries(Object.entries(values).map(([name, value]) => [name, Object.assign(new kind(), { name, value })]));
    kind.byValue = new Map(Object.values(kind.members).map(it => [it.value, it]));
    Object.assign(kind, Object.fromEntries(Object.entries(kind.members).filter(([name]) => name !== 'name')));
  }

  function isinstance(it, kind) {
    if (Array.isArray(kind)) return kind.some(one => isinstance(it, one));
    return kind === str ? typeof it === 'string' : kind === list ? Array.isArray(it) : it instanceof (kind === dict ? Dict : kind);
  }

  const str = String;
  const dict = Object.assign((pairs = []) => new Dict(pairs instanceof Dict ? pairs.pairs.values() : pairs), {
    fromkeys: (keys, value = null) => new Dict(list(keys).map(key => [key, value])),
  });
  const items = it => (it instanceof Dict ? [...it.pairs.values()] : Object.entries(it));
  const set = (it = []) => new PySet(list(it).map(key => [key, null]));

  return {
    Exception, ValueError, UnicodeError, UnicodeDecodeError, Record, Enum, re, unicodedata, members, iter, list, tuple: list, len, bool, at, sorted, min: utmost(-1), max: utmost(1), range,
    decode, encode, lstrip, rstrip, formatted, isinstance, str, dict, items, set, frozenset: set,
    format: (text, ...given) => text.replace(/\{(\w*)\}/g, (_, name) => (name ? given[name] ?? given[0][name] : given.shift())),
    percent: (one, given) => { if (typeof one === 'number') return one % given; const all = [given].flat(); return one.replace(/%[ds]/g, () => all.shift()); },
    translate: (text, table) => Array.from(text, letter => table.get(letter.codePointAt(0), letter)).join(''),
    record: (kind, given) => new kind(...kind.fields.map(name => given[name])),
    html: { escape: (text, { quote = true } = {}) => text.replace(quote ? /[&<>"']/g : /[&<>]/g, sign => ENTITIES[sign]) },
    json: { dumps: it => JSON.stringify(it, (_, value) => (value instanceof Dict ? Object.fromEntries(items(value)) : value)) },
    math: { prod: all => list(all).reduce((one, next) => one * next, 1) },
    dataclasses: {
      replace: (it, changes) => new it.constructor(...it.constructor.fields.map(name => (name in changes ? changes[name] : it[name]))),
    },
    eq, has,
    plus: (one, next) => (Array.isArray(one) ? [...one, ...next] : one + next),
    joined: (one, next) => (typeof one === 'number' ? one | next : set([...one, ...next])),
    common: (one, next) => set([...one].filter(it => has(next, it))),
    times: (one, next) => (typeof one === 'string' ? one.repeat(next) : Array.isArray(one) ? range(Number(next)).flatMap(() => one) : one * next),
    slice: (it, from, to) => it.slice(from ?? 0, to ?? undefined),
    put: (it, key, value) => (it instanceof Dict ? it.put(key, value) : (it[key < 0 ? it.length + key : key] = value)),
    or: (one, next) => (bool(one) ? one : next()),
    and: (one, next) => (bool(one) ? next() : one),
    any: all => list(all).some(bool),
    all: all => list(all).every(bool),
    next: (all, absent = null) => { for (const it of all) return it; return absent; },
    enumerate: (all, { start = 0 } = {}) => list(all).map((it, index) => [index + start, it]),
    zip: (one, next) => { const others = list(next); return list(one).slice(0, others.length).map((it, index) => [it, others[index]]); },
    map: (act, all) => list(all).map(it => (act.prototype instanceof Record ? new act(it) : act(it))),
    reversed: all => list(all).reverse(),
    abs: Math.abs, int: Number, ord: letter => letter.codePointAt(0), chr: String.fromCodePoint, repr: it => `'${it}'`,
    fields: it => (it instanceof Dict ? Object.fromEntries(items(it)) : it),
    append: (all, it) => { all.push(it); },
    count: (all, one, from = 0, to = Infinity) => (typeof all === 'string' ? all.slice(from, to).split(one).length - 1 : all.filter(it => eq(it, one)).length),
    index: (all, one) => (typeof all === 'string' ? all.indexOf(one) : all.findIndex(it => eq(it, one))),
    find: (text, one, from = 0, to = Infinity) => text.slice(0, to).indexOf(one, from),
    rfind: (text, one, from = 0, to = Infinity) => { const place = text.slice(0, to).lastIndexOf(one); return place < from ? -1 : place; },
    get: (all, key, absent = null) => (all instanceof Dict ? all.get(key, absent) : Object.hasOwn(all, key) ? all[key] : absent),
    values: all => items(all).map(([, value]) => value),
    pop: (all, key = -1, absent = null) => { const it = at(all, key) ?? absent; if (all instanceof Dict) all.drop(key); else all.splice(key, 1); return it; },
    join: (between, all) => list(all).join(between),
    split: (text, between = null) => (text instanceof Pattern ? between.split(new RegExp(text.text, text.flags)) : between === null ? text.split(/[ \t\n\v\f\r]+/).filter(Boolean) : text.split(between)),
    strip: (text, signs = null) => lstrip(rstrip(text, signs), signs),
    extend: (all, more) => { for (const one of iter(more)) all.push(one); },
    filter: (_, all) => list(all).filter(bool),
    update: (all, more) => { for (const it of more instanceof Dict ? items(more) : more) all.put(...(all instanceof PySet ? [it, null] : it)); },
    sum: all => list(all).reduce((one, next) => one + Number(next), 0),
    setdefault: (all, key, value) => { if (!all.has(key)) all.put(key, value); return all.get(key); },
    partition: (text, sign) => { const at = text.indexOf(sign); return at < 0 ? [text, '', ''] : [text.slice(0, at), sign, text.slice(at + sign.length)]; },
    rpartition: (text, sign) => { const at = text.lastIndexOf(sign); return at < 0 ? ['', '', text] : [text.slice(0, at), sign, text.slice(at + sign.length)]; },
    replace: (text, one, next) => text.replaceAll(one, () => next),
    lower: text => text.toLowerCase(),
    upper: text => text.toUpperCase(),
    casefold: text => text.toUpperCase().toLowerCase(),
    title: text => text.toLowerCase().replace(/\p{L}+/gu, word => word[0].toUpperCase() + word.slice(1)),
    startswith: (text, some) => [some].flat().some(it => text.startsWith(it)),
    endswith: (text, some) => [some].flat().some(it => text.endsWith(it)),
    isalpha: text => /^\p{L}+$/u.test(text),
    isalnum: text => /^[\p{L}\p{N}]+$/u.test(text),
    isdecimal: text => /^\p{Nd}+$/u.test(text),
    isascii: isAscii,
    isprintable: text => !/[\p{C}\p{Zl}\p{Zp}]|(?! )\p{Zs}/u.test(text),
    islower: text => text === text.toLowerCase() && text !== text.toUpperCase(),
    isupper: text => text === text.toUpperCase() && text !== text.toLowerCase(),
  };
})();
