// @ts-check
// The text area. It shows only a part of a long text, since browsers lay out all lines of an area again at each change. Places and lines
// count in the whole text.
import { element } from '../elements.js';
import { lastOf, lineAt, lineOf } from '../text.js';
import { say } from '../words.js';

// A text of more lines or letters is long. (To select 10,000 lines and remove them takes a browser seconds.)
const MOST_AREA_LINES = 3000;
const MOST_AREA_LETTERS = 1 << 19;
// The most that the squares of its lines' lengths may add up to: a browser's time for combining letters grows like this sum.
const MOST_AREA_SQUARES = 1e8;
// The lines of its part before and after the caret, and the most letters of these.
const LINES_BESIDE = 1000;
const LETTERS_BESIDE = 50000;
// So near to its end the caret moves the part.
const LINES_LEFT = 10;
const LINE_PIXELS = 20;

/** The whole text, where the part begins, its letters, the number of its first line; whether all of it is being replaced. */
const areaText = { text: '', from: 0, shown: '', first: 1, isReplaced: false };

const endOfPart = () => areaText.from + areaText.shown.length;
const isPart = () => areaText.shown.length < areaText.text.length;

/** Returns the whole text, with what was typed in the area. */
export function wholeText() {
  const { value } = element('text');
  if (value !== areaText.shown) {
    const { text, from } = areaText.isReplaced ? { text: '', from: 0 } : areaText;
    if (areaText.isReplaced) areaText.first = 1;
    Object.assign(areaText, { text: text.slice(0, from) + value + text.slice(endOfPart()), from, isReplaced: false });
  }
  // (a string is compared with itself at once, with an equal one letter by letter)
  areaText.shown = value;
  return areaText.text;
}

/** @param {string} text */
function isLong(text) {
  if (text.length > MOST_AREA_LETTERS) return true;
  const lines = text.split('\n');
  return lines.length > MOST_AREA_LINES || lines.reduce((sum, { length }) => sum + length ** 2, 0) > MOST_AREA_SQUARES;
}

/**
 * Returns a text with line ends as an area has them. (A pattern takes seconds for millions of them.)
 * @param {string} text
 */
export const withLineEnds = text => text.split('\r\n').join('\n').split('\r').join('\n');

/**
 * Returns whether the area would show too much with another text at its caret.
 * @param {string} added
 */
export const isLongWith = added => isLong(element('text').value + added);

/**
 * Returns the part of a text to show for a place: whole lines, if they aren't too long.
 * @param {string} text
 * @param {number} place
 * @param {number} [most] its letters before and after the place
 * @returns {Span}
 */
function partAround(text, place, most = LETTERS_BESIDE) {
  if (!isLong(text)) return { from: 0, to: text.length };
  const line = lineOf(text, place);
  const from = Math.max(lineAt(text, Math.max(1, line - LINES_BESIDE)).from, place - most);
  const to = Math.min(lineAt(text, line + LINES_BESIDE).to, place + most);
  if (isLong(text.slice(from, to))) return partAround(text, place, most >> 1);
  const isInside = (/** @type {number} */ at) => /^[\udc00-\udfff]/.test(text.slice(at, at + 1));
  return { from: from - Number(isInside(from)), to: to + Number(isInside(to)) };
}

/** @param {string} text @param {Span} part */
function showPart(text, { from, to }) {
  const part = text.slice(from, to);
  element('text').value = part;
  const shown = element('text').value;
  // (the browser may have changed line ends)
  Object.assign(areaText, { text: shown === part ? text : text.slice(0, from) + shown + text.slice(to), from, shown, isReplaced: false });
  areaText.first = from ? lineOf(text, from) : 1;
}

/**
 * Returns how many letters two texts have in common at their beginning.
 * @param {string} one
 * @param {string} next
 */
const sameLetters = (one, next) => lastOf(0, Math.min(one.length, next.length) + 1, (to, from) => one.slice(from, to) === next.slice(from, to));

/**
 * Returns how many letters two texts have in common at their end, after those at their beginning.
 * @param {string} one
 * @param {string} next
 * @param {number} begun
 */
function sameEnd(one, next, begun) {
  const isSame = (/** @type {number} */ to, /** @type {number} */ from) => (
    one.slice(one.length - to, one.length - from) === next.slice(next.length - to, next.length - from));
  return lastOf(0, Math.min(one.length, next.length) - begun + 1, isSame);
}

/**
 * Shows a text: of a long one the same part, if only this has changed, or else the part around what has changed.
 * @param {string} given
 */
export function showText(given) {
  if (!isLong(given)) {
    showPart(given, { from: 0, to: given.length });
    return;
  }
  const text = withLineEnds(given);
  const grown = text.length - areaText.text.length;
  const from = text === areaText.text ? areaText.from : sameLetters(areaText.text, text);
  const to = text === areaText.text ? from : text.length - sameEnd(areaText.text, text, from);
  const same = { from: areaText.from, to: endOfPart() + grown };
  if (isPart() && areaText.from <= from && to <= same.to && !isLong(text.slice(same.from, same.to))) {
    showPart(text, same);
    select(to, to);
  } else {
    showPart(text, partAround(text, from));
    select(from, from);
    scrollToLine(lineOf(text, from), 4);
  }
}

/** Returns what is selected in the text; if it is all that the area shows, then the whole text. */
export function selectionNow() {
  const { length } = wholeText();
  const { selectionStart, selectionEnd } = element('text');
  return isAllSelected() ? { from: 0, to: length } : { from: areaText.from + selectionStart, to: areaText.from + selectionEnd };
}

const isAllSelected = () => areaText.shown !== '' && element('text').selectionStart === 0 && element('text').selectionEnd === areaText.shown.length;

/**
 * Selects a part of the text, or puts the caret before one that is too long to be shown.
 * @param {number} from
 * @param {number} to
 */
export function select(from, to) {
  wholeText();
  if (from < areaText.from || to > endOfPart()) showPart(areaText.text, partAround(areaText.text, from));
  element('text').setSelectionRange(from - areaText.from, (to > endOfPart() ? from : to) - areaText.from);
  followCaret();
}

/**
 * Returns where the area shows a line, in pixels from the first.
 * @param {number} line
 */
export const lineTop = line => (line - areaText.first) * LINE_PIXELS;

/**
 * Scrolls the text so that a line is the one after some others, counted from the top.
 * @param {number} line
 * @param {number} lead
 */
export function scrollToLine(line, lead) {
  element('text').scrollTop = Math.max(0, lineTop(line) - (lead - 1) * LINE_PIXELS);
}

/** Shows the part around the caret, which stays where it is on the screen. */
function showAroundCaret() {
  const { from, to } = selectionNow();
  const line = lineOf(areaText.text, from);
  const below = lineTop(line) - element('text').scrollTop;
  showPart(areaText.text, partAround(areaText.text, from));
  select(from, to);
  element('text').scrollTop = lineTop(line) - below;
}

/** Shows the lines around the caret if it is near the end of those that are shown. */
export function followCaret() {
  const { length } = wholeText();
  const { selectionStart, selectionEnd } = element('text');
  if (!isPart() || selectionStart !== selectionEnd) return;
  const isNear = (/** @type {string} */ rest) => rest.length < areaText.shown.length / 4 && rest.split('\n').length <= LINES_LEFT;
  const [above, below] = [areaText.shown.slice(0, selectionStart), areaText.shown.slice(selectionStart)];
  if ((areaText.from > 0 && isNear(above)) || (endOfPart() < length && isNear(below))) showAroundCaret();
}

/** Shows as much as can be shown, once typing has made the text or its part long or short. */
export function fitPart() {
  const text = wholeText();
  if (isPart() ? isLong(areaText.shown) || !isLong(text) : isLong(text)) showAroundCaret();
}

/** Says which lines are shown. */
export function sayPart() {
  const text = wholeText();
  element('part').hidden = !isPart();
  if (isPart()) element('part').textContent = say('part', { first: areaText.first, last: lineOf(text, endOfPart()), all: lineOf(text, text.length) });
}

/**
 * Copies the whole text if all that is shown is selected. Returns whether it did.
 * @param {ClipboardEvent} event
 */
function copied(event) {
  if (!isPart() || !isAllSelected()) return false;
  event.preventDefault();
  event.clipboardData?.setData('text/plain', wholeText());
  return true;
}

/**
 * Lets what is done with all that is shown be done with the whole text, but for a drag, which is refused; lets the page undo and redo.
 * @param {() => void} empty what removes the whole text
 * @param {(step: number) => void} goSteps
 */
export function listenToArea(empty, goSteps) {
  const area = element('text');
  area.oncopy = event => { copied(event); };
  area.oncut = event => { if (copied(event)) empty(); };
  area.ondragstart = event => { if (isPart() && isAllSelected()) event.preventDefault(); };
  area.addEventListener('beforeinput', event => {
    wholeText();
    const isOfSelection = !/^history|Drag$|Drop$/.test(event.inputType);
    areaText.isReplaced = isOfSelection && isPart() && isAllSelected();
    if (!event.inputType.startsWith('history')) return;
    event.preventDefault();
    goSteps(event.inputType === 'historyUndo' ? -1 : 1);
  });
}
