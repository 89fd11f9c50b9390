// @ts-check
// The texts that the browser's own storage keeps: the text in work, and the list of kept problems.
import { partText } from '../elements.js';
import { keptOf, withKept } from '../store.js';
import { keep, keepInTab, kept, keptInTab } from './storage.js';

/** What shows the list of kept problems after it has changed. */
let showList = () => {};
/** The text that another one replaced last, if it isn't kept. */
let unkept = '';

/** @param {() => void} act */
export function whenKept(act) {
  showList = act;
}

export const keptList = () => keptOf(kept('pops.kept') ?? '[]');

/**
 * Stores the list of kept problems, if the browser has room for it; null removes it.
 * @param {KeptText[] | null} list
 */
export function storeList(list) {
  keep('pops.kept', list && JSON.stringify(list));
  showList();
}

/**
 * Adds a text to the kept problems; returns whether it is one of them then.
 * @param {string} text
 * @param {{ isLinked?: boolean, tab?: string }} [more]
 */
export function keepProblem(text, more = {}) {
  storeList(withKept(keptList(), { text, time: Date.now(), ...more }));
  return isKeptText(text);
}

/** @param {string} text */
const isKeptText = text => keptList().some(it => it.text === text);

/**
 * Returns whether nobody would miss a text: the page's example, or an empty one.
 * @param {string} text
 */
export const isNobodys = text => text === exampleText() || !text.trim();

export const exampleText = () => partText('example').trimStart();

/**
 * Keeps a text that another one replaces, unless it is kept already or nobody would miss it.
 * @param {string} text
 */
export function keepReplaced(text) {
  unkept = keepsReplaced(text) ? '' : text;
}

/**
 * Keeps a text as one of its own, or as a tab's text in work, which the tab's next one replaces. Returns whether it is kept or nobody would
 * miss it.
 * @param {string} text
 * @param {{ tab?: string }} [more]
 */
const keepsReplaced = (text, more = {}) => isNobodys(text)
  || keptList().some(it => it.text === text && (more.tab || !it.tab)) || keepProblem(text, more);

/** Returns the text that another one replaced last, if it isn't kept; empty otherwise. */
export const unkeptText = () => unkept;

/** Returns the name of this tab, which a reload doesn't change. */
export function tabName() {
  const known = keptInTab('pops.tab');
  if (known) return known;
  const made = Math.random().toString(36).slice(2);
  keepInTab('pops.tab', made);
  return made;
}

/** Takes another name for this tab if a copy of it, which has the same one, has stored its text. */
export function leaveNameToCopy() {
  if (kept('pops.tab') === tabName()) keepInTab('pops.tab', null);
}

/**
 * Stores the text in work. If the stored one is another tab's, it becomes a kept problem, or stays if there is no room for that.
 * @param {string} text
 */
export function storeText(text) {
  const [stored, tab, own] = [kept('pops'), kept('pops.tab'), tabName()];
  if (stored !== null && tab && tab !== own && stored !== text && !keepsReplaced(stored, { tab })) return;
  // (the name first: another tab that sees the text come in finds whose it is)
  if (!keep('pops.tab', own) || !keep('pops', text)) storeNoText();
}

/** Says that the visit alone has the text in work: it is long, or there is no room for it. */
export function storeNoText() {
  keep('pops.tab', null);
}

/** Returns the text in work, if this tab stored it last. */
export const storedByTab = () => (kept('pops.tab') === tabName() ? kept('pops') : null);
