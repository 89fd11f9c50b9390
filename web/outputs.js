// @ts-check
// Problems and reports in other forms, as the companions write them, by their code: JSON, pages of diagrams, drawings, YAML, LaTeX, short notation.
import { faultsOf } from './explaining.js';
import { faultyItem, knownItem, knownMen, knownTries } from './items.js';
import { sayAsked, sayDated, sayFault, sayReason, sayTotal } from './names.js';
import { companions } from './out/companions.js';
import { ranksOf } from './position.js';
import { py } from './python.js';
import { language, say } from './words.js';

const CODING = 'utf-8';
// The most problems of which it is said why they are left out.
const MOST_LOST = 100;

/** The texts of a page of diagrams, in the page's language. */
const PAGE_WORDS = {
  get code() { return language; },
  get sound() { return `${say('soundItem')} <small>(${say('soundMeans')})</small>`; },
  get no_board() { return say('noBoardShown'); },
  asked: sayAsked,
  dated: sayDated,
  fault: sayFault,
  get fairy_men() { return companions.LANGUAGES.get(language).fairy_men; },
  phase: (/** @type {any} */ kind) => say(`kind-${kind.value}`),
  total: (/** @type {any} */ { own }) => sayTotal(own),
  found: (/** @type {number} */ count) => say(count ? 'foundKeys' : 'found0', { count }),
  numbers: (/** @type {number} */ first, /** @type {number} */ last) => say(first === last ? 'item' : 'items', { number: first, first, last }),
};

/**
 * Writes the object that pops2json writes for an item, of tries if it has some; the problem's text adds its origin.
 * @param {Item} item
 * @param {any} [given] what the text says of the problem
 */
export function jsonOf(item, given = null) {
  const hasTries = item.phases.some(it => it.kind === 'tries' && it.isPossible);
  return py.json.dumps(companions.itemObject(hasTries ? knownTries(item) : knownItem(item), CODING, given));
}

/**
 * Returns what the problems of a text say of themselves.
 * @param {string} text
 */
export const givenOf = text => companions.givenProblems(companions.encoded(text));

/**
 * Makes the page of a report's items, twins as one problem.
 * @param {Item[]} items
 * @param {string} heading
 * @param {any[]} [given] what the text says of each problem
 */
export const sheetOf = (items, heading, given = []) => new companions.Page(heading, CODING, given, false, PAGE_WORDS).of(items.map(knownItem));

/** @param {Men} men */
export const diagramOf = men => companions.diagram(new companions.Board(ranksOf(men)));

/**
 * Makes a file with the diagram and the shapes that it needs.
 * @param {Men} men
 * @param {string} title
 */
export const diagramFile = (men, title) => companions.diagramFile(new companions.Board(ranksOf(men)), title);

/**
 * Writes the solution of an item in short notation, in the page's language: set play, tries, keys, each under its heading if there are
 * several.
 * @param {SoundItem} item
 * @param {Men} men the men of its diagram
 */
export function shortText(item, men) {
  const words = companions.LANGUAGES.get(language);
  const given = knownItem(item);
  const blocks = new companions.Solution(knownMen(men), given.condition, words).blocks(given, knownTries(item));
  const marks = companions.markedAs(words, py.dict());
  return `${companions.linesOf(blocks, marks).join('\n')}\n`;
}

/**
 * Reads the problems of a text that becomes YAML: those that are left out, with the reasons, if it can't be read.
 * @param {string} text
 */
function problemsRead(text) {
  try {
    return companions.readProblems(text);
  } catch (fault) {
    if (!(fault instanceof companions.Unreadable)) throw fault;
    return { problems: [], left_out: [{ name: '1', reasons: [/** @type {any} */ (fault).message.text] }] };
  }
}

/**
 * Writes the problems of a text in YAML, with the solutions of these items, twins as one problem; with the reasons, in the page's language,
 * why some are left out.
 * @param {string} text
 * @param {Item[]} items
 */
export function yamlOf(text, items) {
  const reading = problemsRead(text);
  const solved = py.dict(items.map(it => [it.number, Object.assign(knownItem(it), it.isWhole ? {} : { unfinished: 'stopped' })]));
  const more = reading.left_out.length - MOST_LOST;
  const lost = reading.left_out.slice(0, MOST_LOST).map((/** @type {{ name: string, reasons: string[] }} */ { name, reasons }) => say('lostProblem',
    { number: name, reason: reasons.map(sayReason).join('; ') }));
  if (more > 0) lost.push(say('more', { count: more }));
  return { text: [...companions.yamlOf(companions.joined(reading.problems, true, reading.left_out), solved)].join(''), lost };
}

/**
 * Writes the problems of a text as a document of LaTeX, with its faults, and the solutions of these items.
 * @param {string} text
 * @param {Item[]} items
 */
export function latexOf(text, items) {
  const bytes = companions.encoded(text);
  const given = companions.givenProblems(bytes);
  const known = new Map([...faultsOf(text).map(faultyItem), ...items.map(knownItem)].map(it => [it.number, it]));
  const all = given.map((/** @type {{ number: number }} */ { number }) => known.get(number) ?? new companions.HeadlessItem(number, null));
  const tries = items.flatMap(it => [[it.number, knownTries(it)]]).filter(([, it]) => it);
  const words = companions.LANGUAGES.get(language);
  const sheet = new companions.Sheet(companions.boardsOf(bytes), py.dict(tries), words, CODING);
  return companions.asLatex(sheet.entries(companions.groups(all, given, CODING, false), 1, false), words, say('sheet'), CODING, false);
}

/**
 * Returns the letters of a document that plain LaTeX lacks.
 * @param {string} text
 */
export const beyondLatex = text => [...companions.beyondLatex(text)].join(' ');
