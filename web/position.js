// @ts-check
// Positions are maps from squares to men, as 'e4' to 'wK'. Changes of a whole board, FEN, and positions after moves.
import { KINDS } from './men.js';

export const FILES = 'abcdefgh';
// The letters of FEN for our kinds: N is the knight. A letter in brackets is Popeye's; so are all letters if S is the knight.
/** @type {Record<string, string>} */
const FEN_LETTERS = { ...Object.fromEntries([...KINDS].map(kind => [kind, kind])), S: 'N', N: '(N)' };
/** @type {Record<string, string>} */
const FEN_KINDS = Object.fromEntries(Object.entries(FEN_LETTERS).map(([kind, letter]) => [letter, kind]));
// In letters, with some blanks between the fields.
const LONGEST_FEN = 1000;
const FEN_SQUARES = new RegExp(`\\(([${KINDS}])\\)|[${KINDS}]|[1-8]`, 'gi');
/** @type {Record<string, string>} */
const CORNERS = { K: 'h1', Q: 'a1', k: 'h8', q: 'a8' };
/** @param {Square} square */
export const placeOf = square => /** @type {[number, number]} */ ([FILES.indexOf(square[0]), Number(square[1]) - 1]);
/** @param {number} file @param {number} rank */
export const squareOf = (file, rank) => FILES[file] + (rank + 1);
/**
 * Returns the man on a square that has one.
 * @param {Men} men
 * @param {Square} square
 */
export const manAt = (men, square) => /** @type {Man} */ (men.get(square));
/** @param {Colour} colour */
export const other = colour => (colour === 'w' ? 'b' : 'w');
/** @type {Record<string, (file: number, rank: number) => [number, number]>} the changes of places */
export const CHANGES = {
  left: (file, rank) => [file - 1, rank],
  right: (file, rank) => [file + 1, rank],
  up: (file, rank) => [file, rank + 1],
  down: (file, rank) => [file, rank - 1],
  mirror: (file, rank) => [7 - file, rank],
  upright: (file, rank) => [file, 7 - rank],
  turn: (file, rank) => [rank, 7 - file],
};

/**
 * Moves all men by one change, or returns null if a man would leave the board.
 * @param {Men} men
 * @param {string} name
 */
export function changed(men, name) {
  const result = new Map();
  for (const [square, man] of men) {
    const [file, rank] = CHANGES[name](...placeOf(square));
    if (file < 0 || file > 7 || rank < 0 || rank > 7) return null;
    result.set(squareOf(file, rank), man);
  }
  return result;
}

/**
 * Exchanges the colours of all men, and rank 1 with rank 8.
 * @param {Men} men
 */
export function exchanged(men) {
  /** @param {[Square, Man]} entry */
  const turned = ([square, man]) => /** @type {[Square, Man]} */ ([square[0] + (9 - Number(square[1])), other(man[0]) + man[1]]);
  return new Map([...men].map(turned));
}

/** @param {Men} men @param {Colour} colour */
export const countOf = (men, colour) => [...men.values()].filter(man => man[0] === colour).length;

/**
 * Writes the eight ranks of a board as a report prints them, rank 8 first.
 * @param {Men} men
 */
export function ranksOf(men) {
  /** @param {Man | undefined} man */
  const letter = man => (man ? (man[0] === 'w' ? man[1] : man[1].toLowerCase()) : '.');
  /** @param {number} number */
  const rank = number => [...FILES].map(file => letter(men.get(file + number))).join('');
  return [8, 7, 6, 5, 4, 3, 2, 1].map(rank);
}

/** @param {string[]} ranks */
export function menOfRanks(ranks) {
  const men = new Map();
  ranks.forEach((row, index) => [...row].forEach((letter, file) => {
    const colour = letter === letter.toUpperCase() ? 'w' : 'b';
    if (letter !== '.') men.set(squareOf(file, 7 - index), colour + letter.toUpperCase());
  }));
  return men;
}

/**
 * Returns a position as FEN: knights are N, grasshoppers G, nightriders (N). `barred` are the squares of NoCastling.
 * @param {{ men: Men, turn: string, barred: string[], crossed: string | null }} position
 */
export function fenOf({ men, turn, barred, crossed }) {
  const passed = /^[a-h][36]$/.test(crossed ?? '') ? crossed : '-';
  const rights = homeRights(men).filter(right => !barred.includes(CORNERS[right]) && !barred.includes(`e${CORNERS[right][1]}`));
  /** @param {string} letter */
  const fenLetter = letter => FEN_LETTERS[letter] ?? FEN_LETTERS[letter.toUpperCase()].toLowerCase();
  const rows = ranksOf(men).map(row => row.replace(/[a-z]/gi, fenLetter).replace(/\.+/g, points => String(points.length)));
  return `${rows.join('/')} ${turn} ${rights.join('') || '-'} ${passed} 0 1`;
}

/**
 * Returns the rights whose king and rook are at home.
 * @param {Men} men
 */
const homeRights = men => Object.keys(CORNERS).filter(right => {
  const [colour, corner] = [right < 'a' ? 'w' : 'b', CORNERS[right]];
  return men.get(corner) === `${colour}R` && men.get(`e${corner[1]}`) === `${colour}K`;
});

/**
 * Reads a position in FEN; null if the text is none. The fields after the board may be missing.
 * @param {string} text
 * @returns {Fen | null}
 */
export function readFen(text) {
  const said = text.trim();
  if (said.length > LONGEST_FEN) return null;
  const [placement, turn = 'w', rights = null, crossed = '-', ...counts] = said.split(/\s+/);
  const men = menOfPlacement(placement);
  if (!men || counts.length > 2 || !counts.every(field => /^\d+$/.test(field))) return null;
  if (!/^[wb]$/.test(turn) || !/^(-|[KQkq]+)$/.test(rights ?? '-') || !/^(-|[a-h][36])$/.test(crossed)) return null;
  const barred = rights === null ? [] : homeRights(men).filter(right => !rights.includes(right));
  return { men, turn, noCastling: barred.map(right => CORNERS[right]), crossed: crossed === '-' ? null : crossed };
}

/**
 * Returns the men of the first field of a FEN; null if it isn't one.
 * @param {string} placement
 * @returns {Men | null}
 */
function menOfPlacement(placement) {
  const isPopeyes = /s/i.test(placement.replace(/\(.\)/g, ''));
  /** @param {string} letter @param {string | undefined} bracketed */
  const kindOf = (letter, bracketed) => (bracketed ?? (isPopeyes ? letter : FEN_KINDS[letter.toUpperCase()])).toUpperCase();
  /** @param {string} row */
  const squaresOf = row => [...row.matchAll(FEN_SQUARES)].flatMap(([sign, bracketed]) => {
    if (/[1-8]/.test(sign)) return Array(Number(sign)).fill('');
    const letter = bracketed ?? sign;
    return [(letter < 'a' ? 'w' : 'b') + kindOf(sign, bracketed)];
  });
  const rows = placement.split('/');
  const isFen = rows.length === 8 && rows.every(row => !row.replace(FEN_SQUARES, '') && squaresOf(row).length === 8);
  if (!isFen) return null;
  const placed = rows.flatMap((row, index) => squaresOf(row).map((man, file) => /** @type {[string, string]} */ ([squareOf(file, 7 - index), man])));
  return new Map(placed.filter(([, man]) => man));
}

/**
 * Returns the position after a move of a report: the move's text names every capture, arrival and rebirth.
 * @param {Men} men
 * @param {Move} move
 */
export function after(men, move) {
  const result = new Map(men);
  const man = result.get(move.from) ?? move.colour + move.kind;
  result.delete(move.from);
  if (move.enPassant) result.delete(move.to[0] + move.from[1]);
  result.set(move.to, move.promotion ? move.colour + move.promotion : man);
  if (move.castling) {
    const rank = move.from[1];
    const [corner, beside] = move.castling === '0-0' ? ['h', 'f'] : ['a', 'd'];
    result.delete(corner + rank);
    result.set(beside + rank, `${move.colour}R`);
  }
  if (move.rebirth) result.set(move.rebirth.square, move.rebirth.man);
  return result;
}
