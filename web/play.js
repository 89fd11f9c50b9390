// @ts-check
// Moves played on the board, and problems that continue from a position. Nothing here judges a move: the engine does.
import { knownSide } from './items.js';
import { companions } from './out/companions.js';
import { after, manAt, other } from './position.js';
import { labelOf } from './report.js';
import { barredIn, fieldsOf, sidesOf, turnOf, valueOf, withFen } from './text.js';

const HOME_SQUARES = ['a1', 'e1', 'h1', 'a8', 'e8', 'h8'];

/**
 * Returns whether a move takes a pawn to its last rank.
 * @param {Men} men
 * @param {Square} from
 * @param {Square} to
 */
export const promotes = (men, from, to) => men.get(from)?.[1] === 'P' && to[1] === (men.get(from)?.[0] === 'w' ? '8' : '1');

/** @param {Men} men @param {Square} from @param {Square} to */
function castlingOf(men, from, to) {
  const [colour, kind] = manAt(men, from);
  const rank = colour === 'w' ? '1' : '8';
  const side = { [`g${rank}`]: ['0-0', 'h', 'fg'], [`c${rank}`]: ['0-0-0', 'a', 'bcd'] }[to];
  if (kind !== 'K' || from !== `e${rank}` || !side) return null;
  const [said, corner, between] = side;
  const isFree = [...between].every(file => !men.has(file + rank));
  return isFree && men.get(corner + rank) === `${colour}R` ? said : null;
}

/**
 * Returns the move of a man from a square to another, as a report would write it.
 * @param {Men} men
 * @param {{ from: string, to: string, promotion: string | null, half: number, isCirce: boolean }} asked
 * @returns {Move}
 */
export function moveBetween(men, { from, to, promotion, half, isCirce }) {
  const [colour, kind] = manAt(men, from);
  const castling = castlingOf(men, from, to);
  const enPassant = kind === 'P' && from[0] !== to[0] && !men.has(to) && men.get(to[0] + from[1]) === `${other(colour)}P`;
  const place = enPassant ? to[0] + from[1] : to;
  const taken = men.get(place);
  /** @type {Move} */
  const move = { half, colour, kind, from, to, captures: Boolean(taken), enPassant, castling, promotion, rebirth: null, mark: null, said: '', label: '' };
  if (taken && isCirce) move.rebirth = rebirthOf(after(men, move), taken, place);
  const said = saidMove(move);
  return { ...move, said, label: said };
}

/**
 * Returns where a captured man is reborn in Circe; null for a king, and where a man stands there.
 * @param {Men} men
 * @param {Man} taken
 * @param {Square} place where it is captured
 */
function rebirthOf(men, taken, place) {
  const [colour, kind] = taken;
  if (kind === 'K') return null;
  const man = new companions.Man(knownSide(/** @type {Colour} */ (colour)), companions.Kind.of(kind));
  const square = companions.rebirthSquare(man, companions.Square.of_name(place)).name;
  return men.has(square) ? null : { square, man: taken };
}

/** @param {Move} move */
function saidMove({ kind, from, to, captures, enPassant, castling, promotion, rebirth }) {
  if (castling) return castling;
  return (kind === 'P' ? '' : kind) + from + (captures ? '*' : '-') + to + (enPassant ? ' ep.' : '')
    + (promotion ? `=${promotion}` : '') + (rebirth ? `[+${rebirth.man}${rebirth.square}]` : '');
}

/**
 * Returns the number of a half-move of this colour after some moves: in help play Black makes the odd ones, in battle play White.
 * @param {{ half: number }[]} moves
 * @param {Colour} colour
 * @param {{ isHelp: boolean, isHalf: boolean }} play
 */
export function halfAfter(moves, colour, { isHelp, isHalf }) {
  const last = moves.at(-1)?.half ?? (isHalf ? 1 : 0);
  const isOdd = (colour === 'w') !== isHelp;
  return last + ((last + 1) % 2 === (isOdd ? 1 : 0) ? 1 : 2);
}

/**
 * Divides a stipulation into its form, as `h#`, and its number of moves; null for another word.
 * @param {string} word
 */
export function partsOfStipulation(word) {
  const found = /^([sh]?[#=])([0-9]+(?:\.5)?)$/i.exec(word);
  return found && { form: found[1].toLowerCase(), moves: found[2] };
}

/**
 * Writes a stipulation of a form and a number of moves, 2 without one; only help play has half a move. A form that is a whole word stays.
 * @param {string} form
 * @param {string} moves
 */
export function stipulationOf(form, moves) {
  if (!/^[sh]?[#=]$/.test(form)) return form || null;
  const halves = Math.round(2 * (Number(moves) || 2));
  const number = form[0] === 'h' ? Math.max(halves, 1) / 2 : Math.max(Math.ceil(halves / 2), 1);
  return form + Math.min(number, 16);
}

/**
 * Returns the problem that is left after a half-move: its stipulation, and whether it is set play, with Black to move; null if the
 * play is over.
 * @param {string} stipulation
 * @param {number} half
 */
export function stipulationAfter(stipulation, half) {
  const found = /^([sh]?)([#=])([0-9]+)(\.5)?$/i.exec(stipulation);
  if (!found) return null;
  const [, form, goal, number, point] = found;
  if (form.toLowerCase() === 'h') {
    const left = 2 * Number(number) + (point ? 2 : 0) - half;
    return left > 0 ? { word: `${form}${goal}${left >> 1}${left % 2 ? '.5' : ''}`, isSet: false } : null;
  }
  const last = 2 * Number(number) - (form ? 0 : 1);
  return half < last ? { word: `${form}${goal}${Number(number) - (half >> 1)}`, isSet: half % 2 === 1 } : null;
}

/**
 * Returns the square that a pawn has just crossed; null if the move isn't a double step.
 * @param {{ kind: string, from: Square, to: Square }} move
 */
function crossedBy({ kind, from, to }) {
  const isDouble = kind === 'P' && from[0] === to[0] && Math.abs(Number(from[1]) - Number(to[1])) === 2;
  return isDouble ? from[0] + (Number(from[1]) + Number(to[1])) / 2 : null;
}

/**
 * Returns the squares for NoCastling after some moves: the home squares of men that have moved. A man reborn there may castle.
 * @param {Men} men
 * @param {Move[]} moves
 * @param {Square[]} barred
 */
export function barredAfter(men, moves, barred) {
  const touched = new Set(barred);
  for (const { from, to, castling, rebirth } of moves) {
    for (const square of [from, to]) touched.add(square);
    if (castling) for (const file of 'ah') touched.add(file + from[1]);
    if (rebirth) touched.delete(rebirth.square);
  }
  /** @param {Square} square */
  const isHome = square => men.get(square) === `${square[1] === '1' ? 'w' : 'b'}${square[0] === 'e' ? 'K' : 'R'}`;
  return HOME_SQUARES.filter(square => touched.has(square) && isHome(square));
}

/**
 * Replaces a problem's position by the position after some moves; its stipulation stays.
 * @param {string} text
 * @param {Block} block
 * @param {{ men: Men, moves: Move[] }} reached
 */
export function withReached(text, block, { men, moves }) {
  const fields = fieldsOf(text, block);
  const turn = turnOf(fields);
  const last = moves[moves.length - 1];
  const crossed = turn === last.colour ? null : crossedBy(last);
  return withFen(text, block.from, { men, turn, noCastling: barredAfter(men, moves, barredIn(fields)), crossed });
}

/**
 * Adds a problem after this one: the position after some moves, with the moves left to play; returns null if none are left.
 * @param {string} text
 * @param {Block} block
 * @param {{ men: Men, moves: Move[] }} reached
 */
export function withProblemAfter(text, block, { men, moves }) {
  const fields = fieldsOf(text, block);
  const last = moves[moves.length - 1];
  const asked = stipulationAfter(valueOf(fields, 'stipulation') ?? '', last.half);
  if (!asked) return null;
  const crossed = asked.isSet ? null : crossedBy(last);
  const barred = barredAfter(men, moves, barredIn(fields));
  const options = [
    ...(asked.isSet ? ['SetPlay'] : []), ...(valueOf(fields, 'Variation') === null ? [] : ['Variation']),
    ...(crossed ? [`EnPassant ${crossed}`] : []), ...(barred.length ? [`NoCastling ${barred.join('')}`] : []),
  ];
  const condition = valueOf(fields, 'condition');
  const lines = [
    `Title ${[valueOf(fields, 'title'), 'after', ...moves.map(labelOf)].filter(Boolean).join(' ')}`, `Pieces${sidesOf(men)}`,
    `Stipulation ${asked.word}`, ...(condition ? [`Condition ${condition}`] : []), ...(options.length ? [`Option ${options.join(' ')}`] : []),
  ];
  const isOpen = block.end === text.length;
  const before = text.slice(0, block.end);
  const lead = before.endsWith('\n') ? '' : '\n';
  return `${before}${lead}NextProblem\n${lines.join('\n')}\n${isOpen ? 'EndProblem\n' : ''}${text.slice(block.end)}`;
}
