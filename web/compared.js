// @ts-check
// Set play, tries and play of a problem side by side: White's moves after each reply of Black, and what changes.
import { labelOf } from './report.js';
import { say } from './words.js';

// The most tries, and the most keys, side by side.
const MOST_COMPARED = 12;

/** @param {Row} row */
const firstSaid = row => (row.word ? say(`below-${row.word}`) : labelOf(row.moves[0]));

/**
 * Makes a move's name that is the same in all phases, whatever it captures or attacks.
 * @param {Move} move
 */
const nameOfMove = ({ from, to, promotion, castling }) => castling ?? from + to + (promotion ?? '');

/**
 * Makes a column of a first move: its threat, and the replies with White's moves, or that they refute.
 * @template {Row} T
 * @param {string} kind
 * @param {string} label
 * @param {T | null} row the first move; null for set play
 * @param {T[]} below
 * @returns {ComparedColumn<T>}
 */
function columnOf(kind, label, row, below) {
  const refutations = below.find(it => it.word === 'but')?.below ?? [];
  const head = below.find(it => it.word && it.word !== 'but') ?? null;
  return { kind, label, row, head, replies: below.filter(it => !it.word), refutations: /** @type {T[]} */ (refutations.filter(it => !it.word)) };
}

/** @param {Row} row */
const hasVariations = row => row.below.some(it => !it.word && it.hasBelow);

/**
 * Returns a column's cell for a reply.
 * @template {Row} T
 * @param {ComparedColumn<T>} column
 * @param {string} name
 * @returns {ComparedCell<T>}
 */
function cellOf({ replies, refutations }, name) {
  const isIt = (/** @type {Row} */ it) => nameOfMove(it.moves[0]) === name;
  const reply = replies.find(isIt);
  const rows = /** @type {T[]} */ (reply?.below ?? []);
  if (rows.length) return { rows, said: rows.map(firstSaid), isChanged: false };
  const refutation = refutations.find(isIt);
  return { rows: refutation ? [refutation] : [], said: refutation ? ['!'] : [], isChanged: false };
}

/**
 * Marks the cells in which White moves otherwise than in the play, and the play's own then.
 * @template {Row} T
 * @param {ComparedCell<T>[]} cells
 * @param {ComparedColumn<T>[]} columns
 */
function withChanges(cells, columns) {
  const place = columns.findIndex(it => it.kind === 'play');
  // (wherever the man comes from)
  const names = cells.map(({ rows, said }) => (said[0] === '!' ? '' : rows.map(({ moves: [{ kind, to, promotion, castling }] }) => (
    castling ?? kind + to + (promotion ?? ''))).sort().join()));
  const isOther = names.map(name => Boolean(name && names[place]) && name !== names[place]);
  const hasChanges = isOther.some(Boolean);
  return cells.map((cell, at) => ({ ...cell, isChanged: isOther[at] || (at === place && hasChanges) }));
}

/** @param {{ kind: string, rows: Row[] }[]} phases @param {string} kind */
const rowsIn = (phases, kind) => phases.find(it => it.kind === kind)?.rows ?? [];

/**
 * Returns whether phases of a problem can be compared: whether there are two columns.
 * @param {{ kind: string, rows: Row[] }[]} phases
 */
export function isComparable(phases) {
  let lacking = 2 - (rowsIn(phases, 'set').length ? 1 : 0) - rowsIn(phases, 'play').length;
  return lacking <= 0 || rowsIn(phases, 'tries').some(it => hasVariations(it) && --lacking === 0);
}

/**
 * Compares the phases of a problem; null if there is nothing to compare. Tries without variations, and tries and keys beyond the
 * first twelve, are left out and counted.
 * @template {Row} T
 * @param {{ kind: string, rows: T[] }[]} phases
 * @returns {Comparison<T> | null}
 */
export function comparisonOf(phases) {
  const [set, tries, play] = ['set', 'tries', 'play'].map(kind => /** @type {T[]} */ (rowsIn(phases, kind)));
  const shown = tries.filter(hasVariations).slice(0, MOST_COMPARED);
  const ofRow = (/** @type {string} */ kind) => (/** @type {T} */ it) => columnOf(kind, firstSaid(it), it, /** @type {T[]} */ (it.below));
  const keys = play.slice(0, MOST_COMPARED).map(ofRow('play'));
  const columns = [...(set.length ? [columnOf('set', say('set'), null, set)] : []), ...shown.map(ofRow('tries')), ...keys];
  if (columns.length < 2) return null;
  /** @type {Map<string, string>} */
  const replies = new Map();
  for (const { replies: given, refutations } of [...keys, ...columns]) {
    for (const it of [...given, ...refutations]) {
      const name = nameOfMove(it.moves[0]);
      if (!replies.has(name)) replies.set(name, firstSaid(it).replace(/!$/, ''));
    }
  }
  const rows = [...replies].map(([name, label]) => ({ label, cells: withChanges(columns.map(it => cellOf(it, name)), columns) }));
  return { columns, rows, left: tries.length - shown.length, leftKeys: play.length - keys.length };
}
