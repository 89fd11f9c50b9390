// @ts-check
// The items of a report as the companions' code, translated (web/from_python.py), has them.
import { companions } from './out/companions.js';
import { ranksOf } from './position.js';
import { labelOf, rowsOf } from './report.js';

/** @param {string | null} text @returns {string | null} */
const encodedText = text => (text === null ? null : companions.encoded(text));
/** @param {Colour} letter */
export const knownSide = letter => (letter === 'w' ? companions.Colour.WHITE : companions.Colour.BLACK);
/** @param {Move} move */
const playedOf = move => companions.readMove(move.said, 0, move.half, knownSide(move.colour))[0];
/** @param {Row[]} rows @returns {any[]} */
const nodesOf = rows => rows.filter(it => !it.word).map(({ moves: [move], below }) => new companions.Node(labelOf(move), playedOf(move), nodesOf(below)));

/**
 * Returns the men as the companions have them, rank 8 first.
 * @param {Men} men
 */
export const knownMen = men => new companions.Board(ranksOf(men)).men;

/**
 * Returns the counts of a side that no game from the initial array can have, as [3, 'Q', ''] and [8, 'P', '']; a count of all its men has no
 * kind.
 * @param {Men} men
 * @param {Colour} colour
 * @returns {[number, string, string][]}
 */
export const impossibleCounts = (men, colour) => companions.impossible(knownMen(men), knownSide(colour))
  .map((/** @type {any} */ { number, kind, shade }) => [number, kind?.value ?? '', shade]);

/** @param {Phase} phase */
function totalOf({ count, isStopped, solutions }) {
  return count === null ? new companions.Total(solutions.filter(it => it.level === 0).length, true) : new companions.Total(count, Boolean(isStopped));
}

/** @param {Phase} phase @param {boolean} isHelp */
function playOf(phase, isHelp) {
  const kind = { set: companions.PhaseKind.SET, play: companions.PhaseKind.PLAY }[phase.kind] ?? { value: phase.kind };
  const solutions = isHelp ? phase.solutions.map(it => new companions.HelpLine(it.line, it.moves.map(playedOf))) : nodesOf(rowsOf(phase, false));
  const made = new companions.Phase(kind, solutions, phase.lines, phase.count === null ? null : totalOf(phase), phase.isPossible ? phase.total ?? '' : 'not possible');
  return Object.assign(made, { own: phase });
}

/** @param {Row} row */
function firstMoveOf({ moves: [move], below }) {
  /** @param {string} word */
  const under = word => below.find(it => it.word === word)?.below ?? [];
  const menace = ['threat', 'zugzwang', 'check'].find(word => below.some(it => it.word === word));
  const refutations = nodesOf(under('but'));
  return new companions.FirstMove(labelOf(move), playedOf(move), menace ? companions.Menace.of(menace) : null, nodesOf(under('threat')), nodesOf(below),
    refutations, refutations.length < under('but').length);
}

/** @param {SoundItem} item */
function headPartsOf({ number, title, author, ranks, asked }) {
  const condition = asked.condition && companions.Condition.of(asked.condition);
  return [number, encodedText(title), encodedText(author), ranks.length ? new companions.Board(ranks) : null, companions.Stipulation.of_text(asked.text), condition];
}

/** @param {{ problem: number, line: number, fault: number }} read */
export const faultyItem = ({ problem, line, fault }) => new companions.FaultyItem(problem, new companions.Fault(line, fault, ''));

/**
 * Returns an item; tries are a phase of their own.
 * @param {Item} item
 */
export function knownItem(item) {
  const { number, fault, asked } = item;
  if (fault) return new companions.FaultyItem(number, new companions.Fault(fault.line, fault.number, fault.text));
  if (!asked) return new companions.HeadlessItem(number, null);
  const phases = item.isChecked ? null : item.phases.map(it => playOf(it, asked.isHelp));
  return new companions.SoundItem(...headPartsOf(/** @type {SoundItem} */ (item)), phases);
}

/**
 * Returns a problem of the text as an item of a report.
 * @param {Content} problem
 * @param {number} place
 */
export const itemOfContent = ({ title, author, asked, men }, place) => new companions.SoundItem(place + 1, encodedText(title), encodedText(author),
  new companions.Board(ranksOf(men)), { text: asked ?? '' }, null, null);

/**
 * Returns the keys and tries of an item of battle play; null for another one.
 * @param {Item} item
 */
export function knownTries(item) {
  const [set, play, tries] = ['set', 'play', 'tries'].map(kind => item.phases.find(it => it.kind === kind));
  if (!item.asked || item.asked.isHelp || !play) return null;
  return new companions.TriesItem(...headPartsOf(/** @type {SoundItem} */ (item)), set ? playOf(set, false) : null, rowsOf(play, false).map(firstMoveOf), totalOf(play),
    tries ? rowsOf(tries, false).map(firstMoveOf) : []);
}
