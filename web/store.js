// @ts-check
// Links that contain a text, stored texts and visits, files as texts, undo and redo.
import { blockAt, fieldsOf, menOf, sidesOf, valueOf } from './text.js';

export const MOST_KEPT = 20;
export const MOST_KEPT_LETTERS = 100000;
const MOST_LINKED_LETTERS = 30000;
const MOST_STEPS = 200;
// The most letters of the texts for undo, but that the last step stays: a browser keeps one or two bytes for each.
const MOST_UNDO_LETTERS = 1 << 25;
// The most letters of a visit's texts for undo, and of its report.
const MOST_STEP_LETTERS = 500000;
const MOST_REPORT_LETTERS = 1000000;
// The letters at a text's beginning that have its name.
const NAMED_LETTERS = 5000;
// More letters of a title don't come into a file's name.
const LONGEST_TITLE = 1000;
export const MOST_FILE_BYTES = 1 << 23;

/**
 * Returns the fragment of a link with this text, or null if it would be too long.
 * @param {string} text
 */
export function fragmentOf(text) {
  if (text.length > MOST_LINKED_LETTERS) return null;
  const fragment = `#${new URLSearchParams({ text })}`;
  return fragment.length > MOST_LINKED_LETTERS ? null : fragment;
}

/**
 * Returns the text in a link's fragment, or null.
 * @param {string} fragment
 */
export const textOfFragment = fragment => new URLSearchParams(fragment.slice(1)).get('text');

/**
 * Returns the list of stored texts with this one first, and no text twice. A tab's text in work replaces the one that was
 * stored of this tab before.
 * @param {KeptText[]} kept
 * @param {KeptText} added
 */
export function withKept(kept, added) {
  if (added.text.length > MOST_KEPT_LETTERS || !added.text.trim()) return kept;
  const others = kept.filter(it => it.text !== added.text && (!added.tab || it.tab !== added.tab));
  return [added, ...others].slice(0, MOST_KEPT);
}

/**
 * Reads a stored list; what isn't a list of texts is dropped.
 * @param {string} written
 */
export function keptOf(written) {
  try {
    /** @type {KeptText[]} */
    const list = JSON.parse(written);
    return list.filter(it => typeof it.text === 'string' && Number.isFinite(it.time)).slice(0, MOST_KEPT);
  } catch {
    return [];
  }
}

/**
 * Returns the latest texts for undo that fit into a stored visit, with the one that is shown.
 * @param {StoredSteps} steps
 * @returns {StoredSteps}
 */
export function latestSteps({ texts, place }) {
  let [first, last, room] = [place, place + 1, MOST_STEP_LETTERS - texts[place].length];
  while (first > 0 && texts[first - 1].length <= room) room -= texts[--first].length;
  while (last < texts.length && texts[last].length <= room) room -= texts[last++].length;
  return { texts: texts.slice(first, last), place: place - first };
}

/**
 * Writes a visit: the latest texts for undo that fit, and the report if it fits.
 * @param {Visit} visit
 */
export function writtenVisit(visit) {
  const steps = latestSteps(visit.steps);
  const solved = visit.solved && visit.solved.report.length + visit.solved.text.length <= MOST_REPORT_LETTERS ? visit.solved : null;
  return JSON.stringify({ ...visit, steps, solved });
}

/**
 * Reads a stored visit; null for anything else.
 * @param {string | null} written
 * @returns {Visit | null}
 */
export function visitOf(written) {
  try {
    const { steps, number, link, solved = null } = JSON.parse(written ?? '');
    const isText = (/** @type {unknown} */ it) => typeof it === 'string';
    const isVisit = steps.texts.every(isText) && isText(steps.texts[steps.place]) && Number.isInteger(number) && isText(link);
    const isSolved = solved && [solved.text, solved.report].every(isText) && Number.isInteger(solved.only);
    return isVisit ? { steps, number, link, solved: isSolved ? solved : null } : null;
  } catch {
    return null;
  }
}

/**
 * Returns a name of a text, or of one of its problems: its title, else its stipulation and men.
 * @param {string} text
 * @param {Block | null} [block]
 */
export function nameOfText(text, block = blockAt(text.slice(0, NAMED_LETTERS), 0)) {
  if (!block) return text.trim().slice(0, 40);
  const fields = fieldsOf(text, block);
  const said = valueOf(fields, 'title') || `${valueOf(fields, 'stipulation') ?? ''} ${sidesOf(menOf(block).men).trim()}`;
  return said.trim().slice(0, 60);
}

/**
 * Returns a name for a file of a problem with this title: its letters and digits, joined by hyphens; `pops` without any.
 * @param {string | null} title
 * @param {string} ending
 */
export function fileNameOf(title, ending) {
  const words = (title ?? '').slice(0, LONGEST_TITLE).normalize('NFC').match(/[\p{L}\p{M}\p{N}]+/gu) ?? [];
  return `${[...words.join('-')].slice(0, 60).join('') || 'pops'}.${ending}`;
}

/**
 * Decodes a file's bytes, and says whether they were UTF-8; others are read as Windows-1252.
 * @param {Uint8Array} bytes
 */
export function textOfBytes(bytes) {
  try {
    return { text: new TextDecoder('utf-8', { fatal: true }).decode(bytes), isUtf8: true };
  } catch {
    return { text: new TextDecoder('windows-1252').decode(bytes), isUtf8: false };
  }
}

/** Undo and redo of texts. */
export class Steps {
  /**
   * @param {string} text
   * @param {{ texts: string[], place: number }} [stored] the texts of an earlier visit; this text follows its last one
   */
  constructor(text, stored = { texts: [text], place: 0 }) {
    this.texts = [...stored.texts];
    this.place = stored.place;
    this.add(text);
  }

  /** @param {string} text */
  add(text) {
    if (text === this.texts[this.place]) return;
    this.texts.splice(this.place + 1, this.texts.length, text);
    let room = MOST_UNDO_LETTERS;
    const kept = this.texts.findLastIndex((it, at) => (room -= it.length) < 0 && at < this.texts.length - 2);
    this.texts.splice(0, Math.max(kept + 1, this.texts.length - MOST_STEPS));
    this.place = this.texts.length - 1;
  }

  /**
   * Returns the text one step further, or null at the end.
   * @param {number} step
   */
  go(step) {
    const text = this.texts[this.place + step];
    if (text === undefined) return null;
    this.place += step;
    return text;
  }

  /** @param {number} step */
  has(step) {
    return this.texts[this.place + step] !== undefined;
  }
}
