// @ts-check
// Explains and mends the faults of a text, as pops-explain does: by its own code, translated (web/from_python.py), which counts bytes.
import { UTF8 } from './codecs.js';
import { companions } from './out/companions.js';
import { lineAt, lineOf, problemsOf, remembered, wordsOf } from './text.js';

const LONGEST_LINE = 160;
const ROOM_BEFORE = 60;
const MOST_EDITS = 50;
// A longer problem is explained in several steps.
const MOST_AT_ONCE = 10000;
// A longer problem isn't mended.
const MOST_MENDED = 20000;
// A problem is read up to here; a fault that comes later isn't explained.
const MOST_LETTERS = 100000;
// Words that ask for what the page shows with tries.
const ASKS_FOR_TRIES = /shows? (?:tries with|threats)/;

// A text in UTF-16, whose bytes the page took for letters.
const OF_TWO_BYTES = /^(?:\xff\xfe|\xfe\xff)[\0-\xff]*$/;
/** @param {string} text @returns {string} */
const bytesOf = text => (OF_TWO_BYTES.test(text) ? text : companions.encoded(text));
const allBytesOf = remembered(function* (text) { return bytesOf(text); });
/** @param {string} bytes @returns {string} */
const textOf = bytes => companions.decoded(bytes);

/**
 * Writes each invisible character of a text as `<U+00A0>`.
 * @param {string} text
 */
export const shown = text => companions.shown(bytesOf(text));

/**
 * Returns the faults of a text as read here: problem, line, number, and the problem as far as it was read.
 * @param {string} text
 */
export function faultsOf(text) {
  const bytes = allBytesOf(text);
  return companions.cut(bytes).flatMap((/** @type {any} */ piece) => {
    const read = companions.readPiece(bytes, piece);
    return read.number ? [{ problem: piece.number, line: lineOfFault(bytes, read), fault: read.number.value, read }] : [];
  });
}

/**
 * Returns where the engine finds the faults of a text, by the numbers of the problems; its list counts bytes.
 * @param {string} text
 * @param {string} list
 */
export function placesOf(text, list) {
  const bytes = UTF8.encode(text);
  let [place, passed] = [0, 0];
  const placeOf = (/** @type {string} */ byte) => {
    // (the first byte of a letter counts, that of four bytes for the letter's two halves)
    for (; passed < Number(byte); passed++) place += Number((bytes[passed] & 0xc0) !== 0x80) + Number(bytes[passed] >= 0xf0);
    return place;
  };
  const lines = list.matchAll(/^(\d+): .* bytes (\d+) up to (\d+)$/gm);
  return new Map(Array.from(lines, ([, number, from, to]) => [Number(number), { from: placeOf(from), to: placeOf(to) }]));
}

/** @param {string} bytes @param {any} read */
const lineOfFault = (bytes, read) => (read.at === null ? bytes.split('\n').length : read.word.line);

/**
 * Returns the explanation of a fault.
 * @param {string} text
 * @param {any} read the problem up to its fault
 * @returns {Explanation}
 */
export function explanationOf(text, read) {
  const bytes = allBytesOf(text);
  const said = companions.explanation(bytes, read);
  return { text: said.text, marks: said.marks.map((/** @type {any} */ mark) => spanIn(text, bytes, mark)) };
}

/**
 * Returns some bytes of a text as a part of it.
 * @param {string} text
 * @param {string} bytes
 * @param {{ start: number, stop: number }} span
 * @returns {Span}
 */
function spanIn(text, bytes, { start, stop }) {
  const placeOf = (/** @type {number} */ place) => (bytes === text ? place : textOf(bytes.slice(0, place)).length);
  return { from: placeOf(start), to: placeOf(stop) };
}

/**
 * Explains the fault of a problem of a text step by step; the result is null if this reading finds another fault than the report, or finds
 * it in another place than the engine.
 * @param {string} text
 * @param {{ number: number, fault: { line: number, number: number }, place?: Span }} item
 * @returns {Generator<void, Explanation | null>}
 */
export function* explainFault(text, { number, fault, place: known }) {
  yield* problemsOf.steps(text);
  const { from, to, alone, place, start } = aloneOf(text, number);
  const isLong = alone.length > MOST_AT_ONCE;
  const bytes = allBytesOf(alone);
  if (isLong) yield;
  const read = companions.readNumber(bytes, place);
  if (isLong) yield;
  const line = read && lineOfFault(bytes, read) + lineOf(text, from) - 1;
  const isCut = start + alone.length < to && read?.at !== null && read?.fault_span.stop === bytes.length;
  if (read?.number?.value !== fault.number || line !== fault.line || isCut) return null;
  const own = known && spanIn(alone, bytes, read.fault_span);
  if (own && (own.from + start !== known.from || own.to + start !== known.to)) return null;
  const said = explanationOf(alone, read);
  return { text: said.text, marks: said.marks.map(mark => ({ from: mark.from + start, to: mark.to + start })) };
}

/**
 * Returns a problem as a text of its own, up to a limit, with the word that closes the problem before it: where its words begin and end in
 * the whole text, its place in its own, and how far its own begins in the whole.
 * @param {string} text
 * @param {number} number
 */
function aloneOf(text, number) {
  const problems = problemsOf(text);
  const [before, own] = [problems[number - 2]?.closing, problems[number - 1]?.closing];
  const [from, to] = [before?.to ?? 0, own?.to ?? text.length];
  const head = before ? `BeginProblem ${before.word}` : '';
  return { from, to, alone: head + text.slice(from, Math.min(to, from + MOST_LETTERS)), place: before ? 2 : 1, start: from - head.length };
}

/**
 * Returns the lines of a text with marks, each in pieces: { text, isMarked }. Invisible characters are made visible.
 * @param {string} text
 * @param {Span[]} marks
 */
export function markedLines(text, marks) {
  const lines = new Map();
  for (const mark of marks) {
    const line = lineOf(text, mark.from);
    lines.set(line, [...(lines.get(line) ?? []), mark]);
  }
  return [...lines].map(([line, own]) => ({ line, pieces: piecesOf(text, lineAt(text, line), own) }));
}

/**
 * Divides a line into pieces, a long line only around its first mark.
 * @param {string} text
 * @param {Span} line
 * @param {Span[]} marks
 */
function piecesOf(text, { from, to }, marks) {
  const start = to - from > LONGEST_LINE ? Math.max(from, marks[0].from - ROOM_BEFORE) : from;
  const stop = Math.min(to, start + LONGEST_LINE);
  const pieces = [{ text: start > from ? '..' : '', isMarked: false }];
  let place = start;
  /** @param {number} end @param {boolean} isMarked */
  const add = (end, isMarked) => {
    pieces.push({ text: shown(text.slice(place, end).replace(/[\t\v\f\r]/g, ' ')), isMarked });
    place = end;
  };
  for (const mark of marks.filter(it => it.from < stop)) {
    add(Math.max(place, mark.from), false);
    add(Math.min(Math.max(place, mark.to), stop), true);
  }
  add(stop, false);
  pieces.push({ text: stop < to ? '..' : '', isMarked: false });
  return pieces.filter(piece => piece.text);
}

/**
 * Returns the most refutations of a try by the options of a text, `Try` and `Defence N`; 0 if none says so.
 * @param {string} text
 */
function refutationsIn(text) {
  const words = wordsOf(text);
  return words.reduce((most, { word }, at) => {
    const name = (companions.unread(word) ?? companions.unread(companions.foreign(word)?.english ?? ''))?.name;
    return Math.max(most, name === 'Try' ? 1 : name === 'Defence' ? Number(/^[0-9]+$/.exec(words[at + 1]?.word ?? '') ?? 0) : 0);
  }, 0);
}

/**
 * Mends the faults of a problem, a step for each, as many as can be; null if the first one can't. `asksForTries` says whether a word that
 * was left out asks for tries or threats, `refutations` is the most of a try.
 * @param {string} text
 * @param {number} number
 * @returns {Generator<void, Corrected & CorrectedLine | null>}
 */
export function* mendProblem(text, number) {
  const { from, to, alone, place, start } = aloneOf(text, number);
  if (to - from > MOST_MENDED) return null;
  let bytes = bytesOf(alone);
  let asksForTries = false;
  for (let count = 0; count < MOST_EDITS; count++) {
    const read = companions.readNumber(bytes, place);
    if (!read?.number) break;
    const said = companions.explanation(bytes, read);
    const edit = companions.editFor(bytes, place, read, false, said);
    if (!edit) break;
    asksForTries ||= ASKS_FOR_TRIES.test(said.text);
    bytes = edit.of(bytes);
    yield;
  }
  const made = textOf(bytes);
  if (made === alone) return null;
  let same = from - start;
  while (same < made.length && made[same] === alone[same]) same++;
  const changed = changedFrom(text, { from, to }, made.slice(from - start), same - from + start);
  return Object.assign(changed, { asksForTries, refutations: asksForTries ? refutationsIn(alone) : 0 });
}

/**
 * Returns a text in which one part changes from a place on, its first line that changes, or the number of lines that are left, and how this
 * line begins. The text is made when it is read: many long ones need too much memory.
 * @param {string} text
 * @param {Span} part
 * @param {string} own what the part becomes
 * @param {number} same the place in it
 */
function changedFrom(text, { from, to }, own, same) {
  const first = lineOf(text, from);
  const line = first + own.slice(0, same).split('\n').length - 1;
  const start = lineAt(text, first).from;
  const near = text.slice(start, Math.min(from, start + MOST_MENDED)) + own + text.slice(to, to + MOST_MENDED);
  return { get text() { return text.slice(0, from) + own + text.slice(to); }, line, said: near.split('\n')[line - first] };
}
