// @ts-check
// Work that may take seconds, by name: texts read, and files made of texts and reports. The page does it, or a worker that runs the page's
// script beside it.
import { imported } from './importing.js';
import { beyondLatex, givenOf, jsonOf, latexOf, sheetOf, shortText, yamlOf } from './outputs.js';
import { itemsOf } from './report.js';
import { blocksOf, menOfItem } from './text.js';
import { language, say, speak } from './words.js';

// The parts of the page that it needs.
const PARTS = ['words', 'reasons', 'letters', 'men-shapes'];

/**
 * Returns the items of a report that are wanted.
 * @param {ChoreGiven} given
 */
function wantedItems({ report, numbers }) {
  const wanted = new Set(numbers);
  return itemsOf(report ?? '').filter(it => wanted.has(it.number));
}

/** @type {Record<string, (given: ChoreGiven) => any>} */
const CHORES = {
  import: ({ text }) => imported(text),
  json: it => {
    const given = givenOf(it.text);
    return wantedItems(it).map(item => `${jsonOf(item, given[item.number - 1])}\n`).join('');
  },
  latex: it => {
    const made = latexOf(it.text, wantedItems(it));
    return { made, letters: beyondLatex(made) };
  },
  page: it => sheetOf(wantedItems(it), say('sheet'), givenOf(it.text)),
  short: it => {
    const [item] = /** @type {SoundItem[]} */ (wantedItems(it));
    return shortText(item, menOfItem(item, blocksOf(it.text)[item.number - 1]));
  },
  yaml: it => yamlOf(it.text, wantedItems(it)),
};

/**
 * Does some work at once; returns its result.
 * @param {string} name
 * @param {ChoreGiven} given
 */
export const choreDone = (name, given) => CHORES[name](given);

/**
 * Returns what a worker gets for some work.
 * @param {string} name
 * @param {ChoreGiven} given
 * @param {(id: string) => string} partOf
 */
export const choreMessage = (name, given, partOf) => ({ name, given, language, parts: Object.fromEntries(PARTS.map(id => [id, partOf(id)])) });

/** Does, in a worker, the work that it gets. */
export function serveChores() {
  onmessage = ({ data: { name, given, language: code, parts } }) => {
    Object.assign(globalThis, { document: { getElementById: (/** @type {string} */ id) => ({ textContent: parts[id] }) } });
    speak(code);
    postMessage(choreDone(name, given));
  };
}
