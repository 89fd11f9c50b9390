// @ts-check
// The list of the text's problems, and the twins of the problem on the board.
import { element, madeWith, makeButton } from './elements.js';
import { itemOfContent } from './items.js';
import { sayCondition } from './names.js';
import { companions } from './out/companions.js';
import { givenOf } from './outputs.js';
import { goToProblem } from './page/editing.js';
import { blockNow, state, textNow } from './page/state.js';
import { atOnce, inSlices, LONG_TEXT } from './slices.js';
import { blocksOf, CONDITIONS, fieldsOf, isShort, menOf, readProblem, sidesOf, valueOf } from './text.js';
import { say } from './words.js';

const LONGEST_NAME = 60;
// The list shows all problems up to this number. From more it chooses some, since browsers lay out all entries of a list at once.
const MOST_LISTED = 1000;
// The problems that are listed on each side of the one on the board, and the most others, at equal distances.
const LISTED_BESIDE = 200;
const MOST_OTHERS = 500;
// What is beside stays the same until another hundred is nearer.
const HUNDRED = 100;

/**
 * Returns a problem of a text with its number and names.
 * @param {string} text
 * @param {Block} block
 * @returns {Content}
 */
function contentOf(text, block) {
  const fields = fieldsOf(text, block);
  const { men } = menOf(block);
  const said = valueOf(fields, 'condition') ?? '';
  const condition = CONDITIONS.find(it => isShort(said, it));
  const asked = [valueOf(fields, 'stipulation'), condition ? sayCondition(condition) : said].filter(Boolean).join(' ') || null;
  const [title, author] = ['title', 'author'].map(name => valueOf(fields, name) || null);
  return { number: block.number, title, author, asked, men };
}

/**
 * Returns a problem of a text that has one of this number, with its names.
 * @param {string} text
 * @param {number} number
 */
export const contentAt = (text, number) => contentOf(text, blocksOf(text)[number - 1]);

/**
 * Returns the place of a problem among twins, by the label of its title; 0 without one.
 * @param {Content} problem
 * @returns {number}
 */
const placeOfTwin = ({ title }) => companions.labelAndTitle(title)[1].place;

/**
 * Finds step by step whether a problem can be the next twin of the one before it.
 * @param {string} text
 * @param {number} number
 * @returns {Generator<void, boolean>}
 */
function* mayContinue(text, number) {
  const blocks = blocksOf(text);
  if (number < 2 || number > blocks.length) return false;
  for (const block of [blocks[number - 2], blocks[number - 1]]) yield* readProblem(text, block);
  return placeOfTwin(contentAt(text, number)) > placeOfTwin(contentAt(text, number - 1));
}

/**
 * Finds step by step the group of twins that a problem belongs to, each with what changes in it; empty if it has no twins or they are long.
 * @param {string} text
 * @param {number} number
 * @returns {Generator<void, ContentTwin[]>}
 */
function* readTwins(text, number) {
  let [first, last] = [number, number];
  while (yield* mayContinue(text, first)) first--;
  while (yield* mayContinue(text, last + 1)) last++;
  const blocks = blocksOf(text).slice(first - 1, last);
  const said = text.slice(blocks[0].start, blocks[blocks.length - 1].end);
  if (first === last || said.length >= LONG_TEXT) return [];
  const contents = blocks.map(block => contentOf(text, block));
  const given = givenOf(`BeginProblem${said}\nEndProblem`);
  for (const { title, twins } of companions.groups(contents.map(itemOfContent), given, 'utf-8', false)) {
    const own = twins.map((/** @type {any} */ { item, label, change }) => ({ ...contents[item.number - 1], title, label, change }));
    if (own.length > 1 && own.some((/** @type {ContentTwin} */ it) => it.number === number)) return own;
  }
  return [];
}

/**
 * Returns the group of twins that a problem belongs to, as `readTwins` finds it.
 * @param {string} text
 * @param {number} number
 */
export const twinsOf = (text, number) => atOnce(readTwins(text, number));

/**
 * Lists the numbers of the problems that the list shows, in order.
 * @param {number} all the number of problems
 * @param {number} own the one on the board
 */
export function listedNumbers(all, own) {
  const numbers = Array.from({ length: Math.min(all, MOST_LISTED) }, (_, at) => at + 1);
  if (all <= MOST_LISTED) return numbers;
  const middle = Math.round(own / HUNDRED) * HUNDRED;
  const distance = 10 ** Math.ceil(Math.log10(all / MOST_OTHERS));
  const beside = Array.from({ length: 2 * LISTED_BESIDE + 1 }, (_, at) => middle - LISTED_BESIDE + at).filter(it => it > 0 && it <= all);
  const others = Array.from({ length: Math.floor(all / distance) }, (_, at) => (at + 1) * distance);
  return [...new Set([1, ...beside, ...others, all])].sort((one, next) => one - next);
}

/** Ends the showing of an earlier list. */
let endShowing = () => {};

/** Shows the list if there is more than one problem, and the twins of the one on the board; of a long text in slices. */
export function showContents() {
  endShowing();
  const text = textNow();
  const { length } = blocksOf(text);
  element('contents').hidden = length < 2;
  element('problemNumber').hidden = length <= MOST_LISTED;
  element('problemNumber').max = String(length);
  endShowing = inSlices(text.length, shownContents(text, Math.min(state.number, length)), showTwins);
}

/**
 * Fills the list of a text's problems step by step, if it isn't shown already; returns the twins of the one on the board.
 * @param {string} text
 * @param {number} own
 * @returns {Generator<void, ContentTwin[]>}
 */
function* shownContents(text, own) {
  const blocks = blocksOf(text);
  if (!blocks.length) return [];
  /** @type {string[]} */
  const names = [];
  const numbers = listedNumbers(blocks.length, own);
  for (const number of numbers) {
    yield* readProblem(text, blocks[number - 1]);
    const { title, asked, men } = contentAt(text, number);
    const name = [title, asked, title ? '' : sidesOf(men).trim()].filter(Boolean).join(' · ');
    names.push(`${number}. ${name.slice(0, LONGEST_NAME)}`);
    yield;
  }
  const list = element('problems');
  if (list.dataset.names !== names.join('\n')) {
    list.replaceChildren(...names.map((name, at) => new Option(name, String(numbers[at]))));
    list.dataset.names = names.join('\n');
  }
  list.value = element('problemNumber').value = String(own);
  return yield* readTwins(text, own);
}

/** @param {ContentTwin[]} twins */
function showTwins(twins) {
  const now = blockNow()?.number;
  element('twins').hidden = !twins.length;
  const buttons = twins.map(({ number, label, change }) => {
    const made = makeButton([label.text || say('twin'), change].join(' '), () => goToProblem(number), label.text || say('twin'));
    made.setAttribute('aria-pressed', String(number === now));
    return made;
  });
  const change = twins.find(twin => twin.number === now)?.change ?? '';
  element('twins').replaceChildren(...buttons, madeWith('span', change));
}
