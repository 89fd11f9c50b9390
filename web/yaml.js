// @ts-check
// Reads collections in YAML, or in JSON, in the form of Olive and YACPDB, written from memory: what pops-import has of PyYAML, by the same names. It
// knows no lines.
import { py } from './python.js';

/** Why a text isn't read. */
export class YamlError extends py.ValueError {
  line = 1;
  /** @param {string} said the line's text, or what is wrong */
  constructor(said) { super(said); }
}

/** Returns a text of a collection. @param {string} text */
export const Scalar = Object.defineProperty((/** @type {string} */ text) => text, Symbol.hasInstance, { value: (/** @type {any} */ it) => typeof it === 'string' });
export const line_of = () => 1;
// As pops-import has it.
const MOST_LEVELS = 40;

// A line that ends a document, or begins the next.
const MARK = /(?:^|\n)(?:---[^\n]*|\.\.\.[^\S\n]*)(?![^\n])/;
const KEY = /^("[^"]*"|'[^']*'|[^\s"'[\]{},:#](?:[^:#]*[^\s:#])?)\s*:(?:\s+([^]*))?$/;

/**
 * Cuts off a comment: from a # after the last quote.
 * @param {string} line
 */
function withoutComment(line) {
  const after = Math.max(line.lastIndexOf('"'), line.lastIndexOf("'")) + 1;
  const comment = after ? /(\s)#[^]*/ : /(^|\s)#[^]*/;
  return (line.slice(0, after) + line.slice(after).replace(comment, '$1')).trimEnd();
}

// What an escape in double quotes stands for; another one stays as it is written.
/** @type {Record<string, string>} */
const ESCAPES = {
  0: '\0', a: '\x07', b: '\b', t: '\t', '\t': '\t', n: '\n', v: '\v', f: '\f', r: '\r', e: '\x1b', ' ': ' ', '"': '"', '/': '/', '\\': '\\',
  N: '\x85', _: '\xa0', L: '\u2028', P: '\u2029',
};
const ESCAPE = /\\(?:x([\da-fA-F]{2})|u([\da-fA-F]{4})|U([\da-fA-F]{8})|([^]))/g;
// Half of a character by itself, which also stands for codes beyond all characters.
const NO_CHARACTER = /[\ud800-\udfff]/u;
/** @param {number} code */
const letterOf = code => (code > 0x10ffff ? '\ud800' : String.fromCodePoint(code));
// A text in quotes that its line doesn't end, and the line that does.
const OPEN = /^(?:"(?:[^"\\]|\\[^]|\\$)*|'(?:[^']|'')*)$/;
/** @type {Record<string, RegExp>} */
const CLOSED = { '"': /^((?:[^"\\]|\\[^])*)"\s*(?:#[^]*)?$/, "'": /^((?:[^']|'')*)'\s*(?:#[^]*)?$/ };
const ESCAPED_END = /(?:^|[^\\])(?:\\\\)*\\$/;

/**
 * Returns a text; YamlError where a code in it stands for no character.
 * @param {string} text
 */
function whole(text) {
  if (NO_CHARACTER.test(text)) throw new YamlError('a code stands for no character');
  return text;
}

/** @param {string} text */
function scalar(text) {
  if (/^"[^]*"$/.test(text)) {
    return whole(text.slice(1, -1).replace(ESCAPE, (said, two, four, eight, sign) => (sign ? ESCAPES[sign] ?? said : letterOf(parseInt(two ?? four ?? eight, 16)))));
  }
  if (/^'[^]*'$/.test(text)) return text.slice(1, -1).replaceAll("''", "'");
  if (/^[&*!|>%@`]/.test(text)) throw new YamlError(text);
  return text;
}

/**
 * Joins the lines of a scalar by blanks, where lines are empty by line ends; where a line ends in an escape, by nothing.
 * @param {string[]} lines
 * @param {string} sign the scalar's quotes
 */
function folded(lines, sign) {
  const parts = [lines[0]];
  let empty = 0;
  lines.slice(1).forEach((line, at) => {
    if (!line && at < lines.length - 2) {
      empty++;
      return;
    }
    const last = parts.length - 1;
    const isEscaped = sign === '"' && ESCAPED_END.test(parts[last]);
    if (isEscaped) parts[last] = parts[last].slice(0, -1);
    parts.push((empty || isEscaped ? '\n'.repeat(empty) : ' ') + line);
    empty = 0;
  });
  return parts.join('');
}

/**
 * Reads `[a, b]` or `{a: b}`, also nested.
 * @param {string} text
 */
function flow(text) {
  const words = text.match(/\s*(?:"(?:[^"\\]|\\[^])*"|'(?:[^']|'')*'|[[\]{},]|:(?=\s|$)|(?:[^[\]{},:]|:(?!\s|$))+)/g)?.map(it => it.trim()).filter(Boolean) ?? [];
  const value = flowValue(words.reverse(), 1);
  if (words.length) throw new YamlError(text);
  return value;
}

/**
 * Returns the value that some words say; takes them, which are in reverse order.
 * @param {string[]} parts
 * @param {number} level
 * @returns {any}
 */
function flowValue(parts, level) {
  const first = parts.pop();
  if (first === undefined) throw new YamlError('the text ends too early');
  if (first !== '[' && first !== '{') return scalar(first);
  refuseLevel(level);
  const isList = first === '[';
  /** @type {any[]} */
  const list = [];
  const found = py.dict();
  while (parts.at(-1) !== (isList ? ']' : '}')) {
    if (isList) list.push(flowValue(parts, level + 1));
    else {
      const key = scalar(parts.pop() ?? '');
      if (parts.pop() !== ':') throw new YamlError(key);
      found.put(key, flowValue(parts, level + 1));
    }
    if (parts.at(-1) === ',') parts.pop();
    if (parts.at(-1) === undefined) throw new YamlError('the text ends too early');
  }
  parts.pop();
  return isList ? list : found;
}

/** @param {number} level */
function refuseLevel(level) {
  if (level > MOST_LEVELS) throw new YamlError(`there are more than ${MOST_LEVELS} levels`);
}

class YamlReader {
  /** @param {YamlLine[]} lines */
  constructor(lines) {
    this.lines = lines;
    this.at = 0;
  }

  get line() {
    while (this.lines[this.at] && !this.lines[this.at].text) this.at++;
    return this.lines[this.at];
  }

  /**
   * Returns the value after a key: on its line, or in the lines below that are indented more.
   * @param {string} text
   * @param {number} indent
   * @returns {any}
   */
  value(text, indent) {
    if (/^[|>]/.test(text)) return this.block(indent);
    if (/^[[{]/.test(text)) return flow(this.toEnd(text, text[0] === '[' ? ']' : '}'));
    if (/^["']/.test(text)) return scalar(this.quoted(text));
    if (text) return scalar(this.plain(text, indent));
    const next = this.line;
    if (!next || next.indent < indent || (next.indent === indent && !next.text.startsWith('-'))) return null;
    return next.text.startsWith('-') ? this.list(next.indent) : this.mapping(next.indent);
  }

  /**
   * Returns a text in quotes, with the lines below up to the one that ends it. The line's own text may lack what follows a #.
   * @param {string} text
   */
  quoted(text) {
    const { raw, text: whole } = this.lines[this.at - 1];
    const first = raw.slice(raw.indexOf(whole) + whole.length - text.length).trimEnd();
    if (!OPEN.test(first)) return text;
    const lines = [first];
    for (let end = null; !end;) {
      const next = this.lines[this.at++];
      if (!next) throw new YamlError('the text ends too early');
      end = CLOSED[text[0]].exec(next.raw.trim());
      lines.push(end ? end[1] : next.raw.trim());
    }
    return folded(lines, text[0]) + text[0];
  }

  /**
   * Returns the lines from here on that are empty or indented more.
   * @param {number} indent
   */
  below(indent) {
    let end = this.at;
    while (this.lines[end] && (!this.lines[end].raw.trim() || this.lines[end].indent > indent)) end++;
    return this.lines.slice(this.at, end);
  }

  /**
   * Returns a text without quotes, with the lines below that are indented more.
   * @param {string} text
   * @param {number} indent
   */
  plain(text, indent) {
    const lines = [text];
    for (const { raw, text: own } of this.below(indent)) {
      if (raw.trim() && !own) break;
      if (/:(?:\s|$)/.test(own)) throw new YamlError(own);
      lines.push(own);
    }
    while (!lines[lines.length - 1]) lines.pop();
    this.at += lines.length - 1;
    return folded(lines, '');
  }

  /** @param {string} text @param {string} sign */
  toEnd(text, sign) {
    const texts = [text];
    while (!texts[texts.length - 1].endsWith(sign)) {
      if (!this.line) throw new YamlError('the text ends too early');
      texts.push(this.line.text);
      this.at++;
    }
    return texts.join(' ');
  }

  /** @param {number} indent */
  block(indent) {
    const texts = this.below(indent).map(it => it.raw);
    this.at += texts.length;
    const first = texts.find(it => it.trim()) ?? '';
    const own = first.length - first.trimStart().length;
    const lines = texts.map(it => it.slice(Math.min(own, it.length - it.trimStart().length)).trimEnd());
    return py.strip(lines.join('\n'), '\n');
  }

  /** @param {number} indent @returns {any[]} */
  list(indent) {
    const items = [];
    for (let next = this.line; next && next.indent === indent && next.text.startsWith('-'); next = this.line) {
      const text = next.text.slice(1).trim();
      if (KEY.test(text)) {
        // (a mapping on the line of its sign goes on below its first key)
        const own = indent + next.text.length - text.length;
        this.lines[this.at] = { ...next, indent: own, text };
        items.push(this.mapping(own));
      } else {
        this.at++;
        items.push(this.value(text, indent));
      }
    }
    return items;
  }

  /** @param {number} indent @returns {any} */
  mapping(indent) {
    const found = py.dict();
    for (let next = this.line; next && next.indent === indent; next = this.line) {
      const key = KEY.exec(next.text);
      if (!key) throw new YamlError(next.text);
      this.at++;
      const name = scalar(key[1]);
      if (found.has(name)) throw new YamlError(next.text);
      found.put(name, this.value(key[2] ?? '', indent));
    }
    return found;
  }
}

/**
 * Returns what JSON says as a node, where numbers are texts too.
 * @param {any} value
 * @param {number} level
 * @returns {any}
 */
function nodeOfJson(value, level) {
  if (value === null || typeof value !== 'object') return value === null ? null : whole(String(value));
  refuseLevel(level);
  if (Array.isArray(value)) return value.map(it => nodeOfJson(it, level + 1));
  return py.dict(Object.entries(value).map(([key, it]) => [key, nodeOfJson(it, level + 1)]));
}

/**
 * Returns the documents of a collection in YAML or JSON: each has what it holds as `node`.
 * @param {string} text
 */
export function documents(text) {
  try {
    const json = /^\s*[[{]/.test(text) ? JSON.parse(text) : null;
    if (json) return [{ line: 1, node: () => nodeOfJson(json, 1) }];
  } catch {
    // (it may be YAML)
  }
  const all = text.replaceAll('\r\n', '\n').split(MARK).map(document => document.split('\n').filter(line => !line.startsWith('%')));
  return all.filter(lines => lines.some(line => line.trim())).map(lines => ({ line: 1, node: () => nodeOf(lines) }));
}

/** @param {string[]} lines */
function nodeOf(lines) {
  const reader = new YamlReader(lines.map(raw => ({ indent: raw.length - raw.trimStart().length, text: withoutComment(raw).trim(), raw })));
  const first = reader.line;
  const read = first?.text.startsWith('- ') ? 'list' : 'mapping';
  const found = first ? reader[read](first.indent) : py.dict();
  if (reader.line) throw new YamlError(reader.line.text);
  return found;
}
