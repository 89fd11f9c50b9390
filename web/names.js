// @ts-check
// What texts and reports name, in the page's language: conditions, dates and faults as pops-sheet names them, reasons of an import, phases and totals.
import { partText } from './elements.js';
import { companions } from './out/companions.js';
import { py } from './python.js';
import { language, say } from './words.js';

/** @param {string} condition @returns {string} */
export const sayCondition = condition => companions.LANGUAGES.get(language).conditions[condition];

/**
 * Writes a stipulation with its condition, as a report has it.
 * @param {string} asked
 */
export const sayAsked = asked => asked.replace(/ (Circe|Madrasi)$/, (_, condition) => ` ${sayCondition(condition)}`);

/** @param {string} origin @returns {string} */
export const sayDated = origin => companions.LANGUAGES.get(language).dated(origin);

/** @param {number} number @returns {string} */
export const sayFaultKind = number => companions.LANGUAGES.get(language).faults.get(companions.FaultKind.of(number));

/** @param {ReportFault} fault */
export const sayFault = ({ line, number, text }) => say('fault', { line, number, text: language === 'en' ? text : sayFaultKind(number) });

/**
 * Returns why an import leaves a problem out, in the page's language.
 * @param {string} reason the companions' words
 */
export function sayReason(reason) {
  /** @type {Record<string, Record<string, string>>} */
  const reasons = language === 'en' ? {} : JSON.parse(partText('reasons'));
  for (const [english, others] of Object.entries(reasons)) {
    const values = new RegExp(`^${english.split('{}').map(py.re.escape).join('(.+)')}$`).exec(reason)?.slice(1);
    if (values) return others[language].replace(/\{\}/g, () => values.shift() ?? '');
  }
  return reason;
}

/**
 * Writes the total of a phase, or what is known of it so far.
 * @param {Phase} phase
 */
export function sayTotal(phase) {
  const isTries = phase.kind === 'tries';
  if (!phase.isPossible) return say(isTries ? 'noTries' : 'impossible');
  if (phase.total) return say(isTries ? 'totalTries' : phase.isStopped ? 'totalStopped' : 'total', phase);
  return say(isTries ? 'unfinishedTries' : 'unfinished', { count: phase.solutions.filter(it => it.level === 0).length });
}
