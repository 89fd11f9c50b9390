// @ts-check
// Texts from elsewhere: files that are opened or dropped, and pasted texts.
import { element, LONGEST_SHOWN } from '../elements.js';
import { imported, isOfAnother } from '../importing.js';
import { readFen } from '../position.js';
import { inSlices, LONG_TEXT } from '../slices.js';
import { MOST_FILE_BYTES, textOfBytes } from '../store.js';
import { bodiesOf, hasProblem, joinedBodies, NEW_PROBLEM, withFen } from '../text.js';
import { language, say } from '../words.js';
import { isLongWith, selectionNow } from './area.js';
import { doChore, SHORT_WORK } from './beside.js';
import { insertLong, insertText, takeFen, takeProblems, takeText } from './editing.js';
import { textNow } from './state.js';
import { note } from './views.js';

// The most names and reasons that are said of many files.
const MOST_SAID = 5;

/** @param {FileList | null | undefined} files */
async function takeFiles(files) {
  const all = [...files ?? []];
  if (all.length > 1) await takeMany(all);
  else if (all.length) await takeFile(all[0]);
}

/** @param {File} file */
async function takeFile(file) {
  const { name } = file;
  const read = file.size > MOST_FILE_BYTES ? null : await textOfFile(file);
  note(read ? '' : say(file.size > MOST_FILE_BYTES ? 'fileLong' : 'fileNot', { name }));
  if (!read) return;
  takeText(read.text);
  const said = element('note').textContent;
  note([say(read.isUtf8 ? 'fileTaken' : 'fileLatin', { name }), said].filter(Boolean).join('. '));
}

/**
 * Returns a file's text, and whether it is UTF-8; null for what can't be read, as a folder.
 * @param {File} file
 */
async function textOfFile(file) {
  try {
    const { text, isUtf8 } = textOfBytes(new Uint8Array(await file.arrayBuffer()));
    return { text: text.replace(/^\ufeff/, ''), isUtf8 };
  } catch {
    return null;
  }
}

/**
 * Takes the problems of several files as one text, and says of which files there are none.
 * @param {File[]} files
 */
async function takeMany(files) {
  /** @type {Record<'none' | 'long' | 'latin', string[]>} */
  const names = { none: [], long: [], latin: [] };
  /** @type {{ name: string, made: Imported, bodies: string[] }[]} */
  const taken = [];
  let room = MOST_FILE_BYTES;
  for (const [at, file] of files.entries()) {
    const { name, size } = file;
    note(say('fileOf', { number: at + 1, all: files.length }), () => true);
    const read = size > room ? null : await textOfFile(file);
    const made = read && await problemsIn(read.text);
    const bodies = made?.text ? await bodiesIn(made.text) : [];
    const { length } = joinedBodies(bodies);
    if (size > room || length > room) names.long.push(name);
    else if (!made || !bodies.length) names.none.push(name);
    else {
      taken.push({ name, made, bodies });
      room -= length;
      if (!read?.isUtf8) names.latin.push(name);
    }
  }
  note('');
  const all = taken.map(it => it.made);
  const bodies = taken.flatMap(it => it.bodies);
  const isAsked = taken.length > 0 && takeProblems({
    text: joinedBodies(bodies), asksForTries: all.some(it => it.asksForTries), refutations: Math.max(...all.map(it => it.refutations)),
  });
  const lost = taken.flatMap(({ name, made }) => made.lost.map(reason => `${name}: ${reason}`));
  note([
    say('filesTaken', { count: taken.length, all: files.length, problems: bodies.length }), ...(isAsked ? [say('triesOn')] : []), ...sayNames(names), ...firstOf(lost),
  ].join('. '));
}

/**
 * Returns the problems of a text without the words around them; reads a long one in slices.
 * @param {string} text
 * @returns {Promise<string[]>}
 */
const bodiesIn = text => new Promise(take => { inSlices(text.length, bodiesOf(text), take); });

/**
 * Returns the problems of a text as of one of another program: of one in FEN, of pops's own, or of another; null if there are none.
 * @param {string} text
 * @returns {Promise<Imported | null>}
 */
async function problemsIn(text) {
  const fen = readFen(text);
  if (fen) return owned(withFen(NEW_PROBLEM, 0, fen));
  if (text.length < LONG_TEXT && isOfAnother(text)) return new Promise(take => { doChore('import', { text }, take, () => take(null)); });
  return hasProblem(text) ? owned(text) : null;
}

/** @param {string} text @returns {Imported} */
const owned = text => ({ text, lost: [], asksForTries: false, refutations: 0 });

/**
 * Names the files that weren't read, or not as UTF-8.
 * @param {Record<'none' | 'long' | 'latin', string[]>} names
 */
function sayNames({ none, long, latin }) {
  const said = [['filesNone', none], ['filesLong', long], ['filesLatin', latin]];
  return said.flatMap(([key, all]) => (all.length ? [say(/** @type {string} */ (key), { names: firstOf(/** @type {string[]} */ (all)).join(', ') })] : []));
}

/**
 * Returns the first of many, and how many there are more.
 * @param {string[]} all
 */
const firstOf = all => [...all.slice(0, MOST_SAID), ...(all.length > MOST_SAID ? [say('more', { count: all.length - MOST_SAID })] : [])];

/**
 * Returns whether a text from elsewhere is too long, and says so.
 * @param {number} length
 */
export function isTooLong(length) {
  if (length > MOST_FILE_BYTES) note(say('textLong'));
  return length > MOST_FILE_BYTES;
}

/** @param {ClipboardEvent} event */
function pasted(event) {
  const text = (event.clipboardData?.getData('text/plain') ?? '').replace(/^\ufeff/, '');
  const isText = event.target === element('text');
  if (!text) return;
  if (isInField(event)) putIntoField(event, text);
  else if (isTooLong((isText ? lengthBesideSelection() : 0) + text.length)) event.preventDefault();
  else takePasted(event, text, isText);
}

/** @param {Event} event */
const isInField = ({ target }) => Boolean(/** @type {Element} */ (target).closest?.('input, select'));

/**
 * Leaves a text to the browser, which puts it into a field of one line; refuses one that is too long.
 * @param {Event} event
 * @param {string} text
 */
function putIntoField(event, text) {
  const isLong = text.length > LONGEST_SHOWN;
  if (isLong) note(say('fieldLong', { most: LONGEST_SHOWN.toLocaleString(language) }));
  if (isLong || isTooLong(textNow().length + text.length)) event.preventDefault();
}

/**
 * Returns whether a text becomes problems of pops; of a long one, whether another program wrote it.
 * @param {string} text
 */
const isConvertible = text => text.length < LONG_TEXT && isOfAnother(text) && (text.length >= SHORT_WORK || Boolean(imported(text)?.text));

/**
 * @param {ClipboardEvent} event
 * @param {string} text
 * @param {boolean} isText
 */
function takePasted(event, text, isText) {
  if (readFen(text)) takeFen(text);
  else if (isText && isAmongText() && isConvertible(text)) insertText(text);
  else if ((!isText && hasProblem(text)) || isConvertible(text)) takeText(text);
  else if (isText && isLongWith(text)) insertLong(text);
  else return;
  event.preventDefault();
}

/**
 * Refuses what is typed if the text would be too long.
 * @param {InputEvent} event
 */
function beforeTyped(event) {
  if (event.inputType.startsWith('insert') && isTooLong(lengthBesideSelection() + (event.data?.length ?? 1))) event.preventDefault();
}

/** Returns how many letters stay in the text where what is selected is replaced. */
function lengthBesideSelection() {
  const { from, to } = selectionNow();
  return textNow().length - (to - from);
}

/** Returns whether the text box has more than what is selected in it. */
function isAmongText() {
  const { from, to } = selectionNow();
  return Boolean((textNow().slice(0, from) + textNow().slice(to)).trim());
}

/** @param {DragEvent} event */
function dropped(event) {
  document.body.classList.remove('dropping');
  const { dataTransfer } = event;
  const text = dataTransfer?.getData('text/plain') ?? '';
  if (!isDroppable(event)) {
    putDropped(event, text);
    return;
  }
  event.preventDefault();
  if (dataTransfer?.files.length) takeFiles(dataTransfer.files);
  else if (!isTooLong(text.length)) takeText(text);
}

/**
 * Puts a dropped text into a field, or into the text box's own, where this would take the browser long; a text that is too long is refused.
 * @param {DragEvent} event
 * @param {string} text
 */
function putDropped(event, text) {
  if (isInField(event)) putIntoField(event, text);
  else if (text && isLongWith(text)) {
    event.preventDefault();
    if (!isTooLong(lengthBesideSelection() + text.length)) insertLong(text);
  }
}

/**
 * Returns whether the page takes what is dropped: files, and a text but into the text box's own or a field other than FEN.
 * @param {DragEvent} event
 */
function isDroppable(event) {
  const { dataTransfer, target } = event;
  const types = [...dataTransfer?.types ?? []];
  const isPut = target === element('text') ? isAmongText() : isInField(event) && target !== element('fen');
  return types.includes('Files') || (types.includes('text/plain') && !isPut);
}

export function listenToFiles() {
  element('open').onclick = () => element('file').click();
  element('file').onchange = () => takeFiles(element('file').files).then(() => { element('file').value = ''; });
  addEventListener('dragover', event => {
    if (!isDroppable(event)) return;
    event.preventDefault();
    document.body.classList.add('dropping');
  });
  addEventListener('dragleave', () => document.body.classList.remove('dropping'));
  addEventListener('drop', dropped);
  addEventListener('paste', event => pasted(/** @type {ClipboardEvent} */ (event)));
  element('text').addEventListener('beforeinput', beforeTyped);
}
