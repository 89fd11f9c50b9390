// @ts-check
// All texts of the page, in one table for each language: words.json. {name} is replaced by a value. Reports and explanations of faults are
// English.
import { partText } from './elements.js';

/** @type {Record<string, Record<string, string>> | null} */
let table = null;
/** @returns {Record<string, Record<string, string>>} */
const tables = () => (table ??= JSON.parse(partText('words')));
export let language = 'en';
export const LANGUAGES = { en: 'English', de: 'Deutsch', fr: 'Français' };

/**
 * Chooses the language of all texts; English for a language without a table.
 * @param {string} code
 */
export function speak(code) {
  language = code in LANGUAGES ? code : 'en';
}

/**
 * Returns the text with this name, with these values.
 * @param {string} name
 * @param {Record<string, any>} [values]
 */
export function say(name, values = {}) {
  const said = tables()[language][name] ?? tables().en[name];
  return said.replace(/\{(\w+)\}/g, (/** @type {string} */ whole, /** @type {string} */ key) => (key in values ? String(values[key]) : whole));
}

/** @param {Man} man */
export const sayMan = man => say('man', { colour: say(man[0] === 'w' ? 'white' : 'black'), kind: say(man[1]) });
