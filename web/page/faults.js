// @ts-check
// The faults of the report: their marks beside the text, and their explanations in the solutions.
import { element, madeWith, makeButton, partText } from '../elements.js';
import { faultBox } from '../faults.js';
import { isOfAnother } from '../importing.js';
import { LONG_TEXT, Work } from '../slices.js';
import { blocksOf, lineAt, lineOf, sameWordIn } from '../text.js';
import { say } from '../words.js';
import { lineTop, scrollToLine, select } from './area.js';
import { doChore } from './beside.js';
import { state, textNow } from './state.js';

const MARKED_FAULTS = 100;
/** What takes a corrected text, and what converts the text. */
const corrected = { take: (/** @type {Corrected} */ _) => {}, convert: () => {} };

/** What explains the faults that are drawn, and corrects them. */
export const faultWork = new Work();

export function unmarkFaults() {
  element('gutter').replaceChildren();
}

/** Marks the faults at their lines of the text. */
export function markFaults() {
  unmarkFaults();
  if (!state.isSolved()) return;
  for (const { line } of state.items.flatMap(it => it.fault ?? []).slice(0, MARKED_FAULTS)) {
    const mark = madeWith('span', '!');
    mark.dataset.line = String(line);
    element('gutter').append(mark);
  }
  placeMarks();
}

/** Moves the marks to where their lines are shown. */
export function placeMarks() {
  const { scrollTop } = element('text');
  for (const mark of element('gutter').children) {
    mark.style.top = `${4 + lineTop(Number(mark.dataset.line)) - scrollTop}px`;
  }
}

/** @type {{ text: string, answer: boolean | null, waiting: (() => void)[] }} the text that was tried last: whether the page can convert it, null until that is known */
let tried = { text: '', answer: false, waiting: [] };

/**
 * Does something if the page can convert a text, because another program's problems are in it.
 * @param {string} text
 * @param {() => void} act
 */
function whenConvertible(text, act) {
  if (tried.text !== text) tryToConvert(text);
  if (tried.answer) act();
  else if (tried.answer === null) tried.waiting.push(act);
}

/** @param {string} text */
function tryToConvert(text) {
  const own = tried = { text, answer: /** @type {boolean | null} */ (null), waiting: /** @type {(() => void)[]} */ ([]) };
  /** @param {boolean} answer */
  const end = answer => {
    own.answer = answer;
    for (const act of own.waiting.splice(0)) if (answer) act();
  };
  if (text.length >= LONG_TEXT || !isOfAnother(text)) end(false);
  else doChore('import', { text }, made => end(Boolean(made?.text)), () => end(false));
}

/**
 * Selects the line of a fault, wherever it is now; of a problem that was changed since, the first line.
 * @param {FaultyItem} item
 */
const goToFault = ({ number, fault }) => state.whenRead(() => {
  const [text, then, now] = [textNow(), state.solvedBlocks[number - 1], blocksOf(textNow())[number - 1]];
  const isSame = then && now && state.isPosedNow(number);
  const place = isSame ? sameWordIn(then, now, lineAt(state.solved, fault.line).from) : now?.from ?? 0;
  const line = state.isSolved() ? fault.line : lineOf(text, place);
  const { from, to } = lineAt(text, line);
  element('text').focus();
  select(from, to);
  scrollToLine(line, 4);
});

/**
 * Sets what takes a corrected text, and what converts the text.
 * @param {(made: Corrected) => void} take
 * @param {() => void} convert
 */
export function whenCorrected(take, convert) {
  Object.assign(corrected, { take, convert });
}

/**
 * Draws the fault of an item, for the solutions.
 * @param {FaultyItem} item
 */
export function drawnFault(item) {
  const general = JSON.parse(partText('fault-words'))[item.fault.number] ?? '';
  const placed = { ...item, place: state.places.get(item.number) };
  const box = faultBox(state.solved, placed, general, { goToLine: () => goToFault(item), take: made => corrected.take(made) }, faultWork);
  whenConvertible(state.solved, () => box.append(makeButton(say('convert'), () => corrected.convert())));
  return box;
}
