// @ts-check
// Reads a report, with or without tries, or a beginning of one: items, phases, trees of moves.
import { KINDS } from './men.js';
import { atOnce } from './slices.js';

const REBORN = KINDS.replace('K', '');
const PROMOTED = REBORN.replace('P', '');
const RANK = new RegExp(`^[1-8] [${KINDS}${KINDS.toLowerCase()}.]{8}$`);
const MOVE = new RegExp(`^(?:(0-0-0|0-0)|([K${PROMOTED}])?([a-h][1-8])([-*])([a-h][1-8])( ep\\.)?(?:=([${PROMOTED}]))?`
  + `(?:\\[\\+([wb])([${REBORN}])([a-h][1-8])\\])?)([+#=])?$`);
const HALF = /(?:([1-9][0-9]*)(\.\.\.|\.))?((?:[^ ]+)(?: ep\.[^ ]*)?)/g;
// The words below a first move: what it threatens, or that it threatens nothing; what refutes it, a move or stalemate.
const WORD = /^(?:  (threat|zugzwang|check|but)|    (stalemate))$/;
const NO_TRIES = 'no tries in help play';
// The lines of one step of reading.
const LINES_A_STEP = 100;
const ASKED = /^([sh]?)([#=])([0-9]+)(\.5)?(?: (Circe|Madrasi))?$/;

/**
 * Reads a move with its number among the half-moves of a play.
 * @param {string} said
 * @param {number} half
 * @param {boolean} isHelp
 */
function moveOf(said, half, isHelp) {
  const found = MOVE.exec(said);
  if (!found) return null;
  const [, castling, kind, from, sign, to, passing, promotion, colour, reborn, square, mark] = found;
  const side = (half % 2 === 1) === isHelp ? 'b' : 'w';
  const rank = side === 'w' ? '1' : '8';
  return {
    said, half, colour: side, kind: castling ? 'K' : kind ?? 'P',
    from: castling ? `e${rank}` : from, to: castling ? (castling === '0-0' ? 'g' : 'c') + rank : to,
    captures: sign === '*', enPassant: Boolean(passing), castling: castling ?? null, promotion: promotion ?? null,
    rebirth: square ? { square, man: colour + reborn } : null, mark: mark ?? null,
  };
}

/**
 * Reads the moves of a line of a report, each with its printed number, if any; returns null for another line.
 * @param {string} line
 * @param {boolean} isHelp
 */
export function movesOf(line, isHelp) {
  const moves = [];
  let half = 0;
  for (const [, number, points, said] of line.trim().matchAll(HALF)) {
    if (number) half = 2 * Number(number) - (points === '.' ? 1 : 0);
    else half += 1;
    const move = half ? moveOf(said, half, isHelp) : null;
    if (!move) return null;
    moves.push({ ...move, label: (number ?? '') + (points ?? '') + said });
  }
  return moves.length ? moves : null;
}

/**
 * Reads the stipulation from a report's line.
 * @param {string} line
 */
export function askedOf(line) {
  const found = ASKED.exec(line);
  if (!found) return null;
  const [, form, , number, half, condition] = found;
  const moves = Number(number);
  const halfMoves = 2 * moves + (form ? Number(Boolean(half)) : -1);
  return { line, text: line.split(' ')[0], isHelp: form === 'h', moves, halfMoves, condition: condition ?? null };
}

/**
 * Reads a line of solutions: its moves, or a word below a first move. After the last move "!" marks keys and refutations, "?"
 * tries; the label keeps this sign.
 * @param {string} line
 * @param {boolean} isHelp
 * @returns {Solution | null}
 */
function solutionOf(line, isHelp) {
  const level = (line.length - line.trimStart().length) / 2;
  const word = isHelp ? null : WORD.exec(line);
  if (word) return { line, moves: [], level, word: word[1] ?? word[2] };
  const sign = isHelp ? '' : /[!?]?$/.exec(line)?.[0] ?? '';
  const moves = movesOf(line.slice(0, line.length - sign.length), isHelp);
  if (!moves) return null;
  moves[moves.length - 1].label += sign;
  return { line, moves, level };
}

/**
 * Reads a line of a phase.
 * @param {string} line
 * @param {Phase} phase
 * @param {SoundItem} item
 */
function readSolution(line, phase, item) {
  const total = (phase.kind === 'tries' ? /^tries: ([0-9]+)()$/ : /^solutions: ([0-9]+)(, stopped)?$/).exec(line);
  if (total) Object.assign(phase, { count: Number(total[1]), isStopped: Boolean(total[2]), total: line });
  else if (line === 'not possible') Object.assign(phase, { isPossible: false, total: line });
  else {
    const solution = solutionOf(line, item.asked.isHelp);
    if (!solution || (solution.word && !phase.solutions.length)) return false;
    phase.lines.push(line);
    phase.solutions.push(solution);
  }
  return true;
}

/**
 * Makes a phase without lines.
 * @param {string} kind
 * @returns {Phase}
 */
const newPhase = kind => ({ kind, isPossible: true, lines: [], solutions: [], count: null, total: null });

/**
 * Reads a line of an item after its number; returns false if it doesn't belong there.
 * @param {string} line
 * @param {Item} item
 */
function readLine(line, item) {
  const phase = item.phases.at(-1);
  const fault = /^line ([0-9]+): fault ([0-9]+): ([^]*)$/.exec(line);
  if (phase && !phase.total && line !== 'play') return readSolution(line, phase, /** @type {SoundItem} */ (item));
  if (item.asked) {
    if (line === 'sound') item.isChecked = true;
    else if (line === NO_TRIES && item.asked.isHelp) item.phases.push({ ...newPhase('tries'), isPossible: false, total: line });
    else if (line !== 'set' && line !== 'play' && (line !== 'tries' || phase?.kind !== 'play')) return false;
    else item.phases.push(newPhase(line));
  } else if (fault && !item.ranks.length) item.fault = { line: Number(fault[1]), number: Number(fault[2]), text: fault[3] };
  else if (RANK.test(line)) item.ranks.push(line.slice(2));
  else if (line !== '  abcdefgh') item.asked = askedOf(line);
  return Boolean(item.asked || item.fault || item.ranks.length);
}

/** A report that is read line by line, as it grows. A line that doesn't belong there ends the reading. */
export class ReportReading {
  /** @param {string} [report] the beginning of the report */
  constructor(report = '') {
    /** What isn't divided into lines yet. (Lines of the whole report would each keep a copy of it in memory.) */
    this.left = report;
    /** @type {Item[]} */
    this.items = [];
    /** @type {Item | null} the item that isn't whole yet */
    this.item = null;
    this.isOver = false;
    /** @type {string[]} lines, the first of which are read */
    this.lines = [];
    this.at = 0;
  }

  /** @param {string} text the next part of the report */
  add(text) {
    this.left += text;
  }

  /**
   * Reads the next line; returns whether it belongs there.
   * @param {string} line
   */
  take(line) {
    const { item } = this;
    const number = /^problem ([1-9][0-9]*)$/.exec(line);
    if (!item && number) {
      this.item = { number: Number(number[1]), title: null, author: null, ranks: [], asked: null, phases: [], fault: null,
        isChecked: false, isWhole: false };
      this.items.push(this.item);
    } else if (item && !line) {
      item.isWhole = true;
      this.item = null;
    } else if (item && !item.author && !item.ranks.length && !item.asked && /^(title|author): [^]/.test(line)) {
      item[line.startsWith('title') ? 'title' : 'author'] = line.slice(line.indexOf(':') + 2);
    } else return item ? readLine(line, item) : !line;
    return true;
  }

  /**
   * Reads the lines that are whole, step by step; a later call goes on after a call that was broken off.
   * @returns {Generator<void, void>}
   */
  *more() {
    for (let count = 1; !this.isOver; count++) {
      if (this.at === this.lines.length) {
        const lines = this.left.split('\n');
        this.left = lines.pop() ?? '';
        Object.assign(this, { lines, at: 0 });
        if (!lines.length) return;
      }
      this.isOver = !this.take(this.lines[this.at]);
      this.at += 1;
      if (count % LINES_A_STEP === 0) yield;
    }
  }
}

/**
 * Reads the items of a report, or of a beginning of one. A line that doesn't belong there ends the reading.
 * @param {string} report
 */
export function itemsOf(report) {
  const reading = new ReportReading(report.endsWith('\n') ? report : `${report}\n`);
  atOnce(reading.more());
  return reading.items;
}

/** @param {Move} move */
export const labelOf = move => move.label.replace(/^([0-9]+\.+)?/, (Math.floor((move.half + 1) / 2)) + (move.half % 2 ? '.' : '...'));

/**
 * Makes the rows of a phase: each row has its moves and, made only once they are shown, the rows below it. Lines of help play with
 * the same beginning share its rows.
 * @param {Phase} phase
 * @param {boolean} isHelp
 * @param {{ from?: number, made?: (rows: Row[], above: Row | null) => void }} more the first line, which begins a row; what receives each
 *   list of rows that is made, with the row above it
 */
export function rowsOf({ solutions }, isHelp, { from = 0, made = () => {} } = {}) {
  const given = { solutions, made, rowsIn: isHelp ? sharedRows : nestedRows };
  return madeRows(given, { from, to: solutions.length }, null);
}

/**
 * Makes the rows of some lines, below a row.
 * @param {RowsGiven} given
 * @param {Span} span the lines
 * @param {Row | null} above
 */
function madeRows(given, span, above) {
  const level = above ? above.level + 1 : 0;
  const rows = given.rowsIn(given, span, { level, path: above ? [...above.path, ...above.moves] : [] });
  given.made(rows, above);
  return rows;
}

/**
 * Makes a row; the rows below it are made of some of its lines.
 * @param {RowsGiven} given
 * @param {{ moves: Move[], path: Move[], level: number, from: number, to: number, word?: string }} said
 * @param {Span} lines
 * @returns {Row}
 */
function rowWith(given, said, lines) {
  /** @type {Row[] | null} */
  let below = null;
  return { ...said, hasBelow: lines.from < lines.to, get below() { return below ??= madeRows(given, lines, this); } };
}

/**
 * Makes the rows of lines of battle play: one for each line of a level, with the lines that continue it.
 * @param {RowsGiven} given
 * @param {Span} span
 * @param {{ level: number, path: Move[] }} above
 */
function nestedRows(given, { from, to }, { level, path }) {
  const { solutions } = given;
  const rows = [];
  for (let at = from; at < to;) {
    const first = at;
    // (a line continues no deeper one than the line before it)
    for (let last = level; ++at < to && (last = Math.min(solutions[at].level, last + 1)) > level;);
    const { moves, word } = solutions[first];
    rows.push(rowWith(given, { moves: moves.slice(0, 1), path, level, from: first, to: at, ...(word && { word }) }, { from: first + 1, to: at }));
  }
  return rows;
}

/**
 * Counts the moves that some lines share, from a place on.
 * @param {Solution[]} solutions
 * @param {Span} lines
 * @param {number} start
 */
function commonLength(solutions, { from, to }, start) {
  const { moves } = solutions[from];
  let end = moves.length;
  for (let at = from + 1; at < to && end > start; at++) {
    const other = solutions[at].moves;
    let same = start;
    while (same < end && other[same]?.said === moves[same].said) same++;
    end = same;
  }
  return end;
}

/**
 * Makes the rows of lines of help play: one for the lines that go on with the same move, with the moves that they share.
 * @param {RowsGiven} given
 * @param {Span} span
 * @param {{ level: number, path: Move[] }} above
 */
function sharedRows(given, { from, to }, { level, path }) {
  const { solutions } = given;
  const start = path.length;
  const rows = [];
  for (let first = from; first < to;) {
    let next = first + 1;
    while (next < to && solutions[next].moves[start]?.said === solutions[first].moves[start].said) next++;
    const lines = { from: first, to: next };
    const end = commonLength(solutions, lines, start);
    let isParted = next > first + 1;
    for (let at = first; at < next && isParted; at++) isParted = solutions[at].moves.length > end;
    rows.push(rowWith(given, { moves: solutions[first].moves.slice(start, end), path, level, ...lines }, isParted ? lines : { from: next, to: next }));
    first = next;
  }
  return rows;
}

/**
 * Returns what was found in the play of a problem, as the name and the value of a text of the page: keys, or lines of help play.
 * Null while the play continues, and for a faulty problem.
 * @param {Item} item
 */
export function foundIn(item) {
  if (item.isChecked) return { name: 'foundNone', count: 0, isStopped: false };
  const play = item.phases.find(phase => phase.kind === 'play');
  if (!play?.total || play.count === null) return null;
  const { count, isStopped } = play;
  const one = item.asked?.isHelp ? 'foundLine' : 'foundKey';
  return { name: count > 1 ? `${one}s` : count ? one : 'found0', count, isStopped };
}

/**
 * Returns the number of tries of a problem; null while they aren't complete, and for a report without tries.
 * @param {Item} item
 */
export const triesIn = item => item.phases.find(phase => phase.kind === 'tries')?.count ?? null;
