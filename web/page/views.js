// @ts-check
// The parts of the page that are made once: the board, the solutions and the notes.
import { Board } from '../board.js';
import { element } from '../elements.js';
import { Notes } from '../notes.js';
import { Tree } from '../tree.js';
import { state, textNow } from './state.js';

/** @type {Board} */
export let board;
/** @type {Tree} */
export let tree;
/** @type {Notes} */
export let notes;

/**
 * Makes the parts.
 * @param {{ change: (changer: (men: Men) => Men | null) => void, move: (from: string, to: string) => void }} acts what the board's gestures do
 * @param {(place: Place | null) => void} showPlace shows the position that is chosen in the solutions
 */
export function buildViews(acts, showPlace) {
  tree = new Tree(showPlace, item => !state.isPosedNow(item.number));
  notes = new Notes(element('note'));
  board = new Board({ ...acts, note, check: () => notes.check() });
}

/** Returns a cause that lasts while the text and the shown position don't change. */
export function unchanged() {
  const [text, walked] = [textNow(), state.walked];
  return () => textNow() === text && state.walked === walked;
}

/**
 * Shows a note while its cause lasts; without one it says what came of an action. Returns its number.
 * @param {string} text
 * @param {() => boolean} [holds]
 */
export const note = (text, holds) => notes.show(text, holds ?? unchanged(), !holds);
