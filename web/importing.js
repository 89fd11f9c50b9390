// @ts-check
// Turns texts of other programs into problems of pops, as pops-import does: inputs of Popeye, collections in YAML or JSON.
import { explanationOf, faultsOf } from './explaining.js';
import { sayFaultKind, sayReason } from './names.js';
import { companions } from './out/companions.js';
import { wordsOf } from './text.js';
import { language, say } from './words.js';

const TRIES_OPTIONS = ['Try', 'Defence', 'Threat'];
const OF_YAML = /(?:^|\n)[^\S\n]*(?:- +)?algebraic[^\S\n]*:/;

/**
 * Returns whether a text that begins as ours has words that only Popeye reads, or is in another language.
 * @param {string} text
 */
function isOfPopeye(text) {
  const words = wordsOf(text).filter(token => token.end === undefined);
  const [first] = words;
  if (!first || !companions.begins(first.word)) return false;
  const others = new Set(words.filter(it => !it.command).map(it => it.word));
  return first.command !== 'beginproblem' || [...others].some(word => companions.unread(word) !== null)
    || words.some(({ word }, index) => /^[1-9][0-9]*\.[0-9.]*$/.test(word) && /[#=]/.test(words[index - 1]?.word ?? ''));
}

/**
 * Returns why pops wouldn't solve a problem; empty if it would.
 * @param {{ lines: string[], faults: { text: string }[] }} posed
 */
function reasonOf({ lines, faults }) {
  if (faults.length) return faults.map(it => sayReason(it.text)).join('; ');
  const text = companions.textOfProblems([lines]);
  const [fault] = faultsOf(text);
  if (!fault) return '';
  return language === 'en' ? explanationOf(text, fault.read).text : sayFaultKind(fault.fault);
}

/**
 * Returns the text of drafts, and why some were left out.
 * @param {any[]} drafts
 */
function posedText(drafts) {
  const posed = drafts.flatMap(draft => companions.posed(draft).map((/** @type {any} */ one) => ({ ...one, number: draft.number, reason: reasonOf(one) })));
  const lines = posed.filter(it => !it.reason).map(it => it.lines);
  const lost = posed.filter(it => it.reason)
    .map(({ number, label, reason }) => say('lostProblem', { number: [number, label].filter(Boolean).join(' '), reason }));
  return { text: lines.length ? companions.textOfProblems(lines) : null, lost };
}

/** @param {string} text */
const withoutMark = text => text.replace(/^\ufeff/, '');

/**
 * Returns whether a text is a collection in YAML or JSON.
 * @param {string} text
 */
const isCollection = text => OF_YAML.test(text) || (/^[[{]/.test(text.trimStart()) && /"algebraic"\s*:/.test(text));

/**
 * Returns whether a text is one of another program.
 * @param {string} text
 */
export const isOfAnother = text => isCollection(text) || isOfPopeye(withoutMark(text));

/**
 * Returns the problems of a text of another program, why some were left out, whether an option asks for tries or threats, and the most
 * refutations of a try, 0 if no option says; null for any other text. The result's text is null if no problem can be posed.
 * @param {string} given
 * @returns {Imported | null}
 */
export function imported(given) {
  const text = withoutMark(given);
  if (!isOfAnother(text)) return null;
  const drafts = companions[isCollection(text) ? 'readYaml' : 'readPopeye'](text.replaceAll('\r\n', '\n'));
  const leftOut = drafts.flatMap((/** @type {any} */ { notes }) => notes.map((/** @type {any} */ note) => companions.optionLeftOut(note.text)?.split(' ')[0]));
  const refutations = drafts.reduce((/** @type {number} */ most, /** @type {any} */ { options }) => Math.max(most, options.refutations), 0);
  return { ...posedText(drafts), asksForTries: TRIES_OPTIONS.some(it => leftOut.includes(it)), refutations };
}
