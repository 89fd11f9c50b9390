// @ts-check
// Puts a report together: heads as the engine prints them for a text that it only tests, solutions part by part, totals as
// it prints them. At any time the result is a beginning of the report.
import { askedOf } from './report.js';
import { blocksOf, fieldsOf, problemsOf, valueOf } from './text.js';

export const SOUND_LINE = 'sound\n\n';

/**
 * Divides a text into its items, each a text of its own: the words between two closing words, with new opening and closing
 * words. The last item stays open if no word closes it.
 * @param {string} text
 */
export function itemTexts(text) {
  let from = 0;
  return problemsOf(text).map(({ closing }, at) => {
    const own = (at ? 'BeginProblem' : '') + text.slice(from, closing?.from) + (closing ? 'EndProblem\n' : '');
    from = closing?.to ?? from;
    return own;
  });
}

/**
 * Returns the most solutions of a phase of a text's first problem.
 * @param {string} text
 */
export function limitOf(text) {
  const block = blocksOf(text)[0];
  const said = block && valueOf(fieldsOf(text, block), 'MaxSolutions');
  return said ? Number(said) : Infinity;
}

/**
 * Divides a report into its items.
 * @param {string} report
 */
export const itemsIn = report => report.match(/[^]+?\n\n/g) ?? [];

/**
 * Reads the items of a report of --check: the text of a faulty item; of a sound one the head, the number of half-moves and whether it is help play.
 * @param {string} report
 */
export function headsOf(report) {
  return itemsIn(report).map(text => {
    if (!text.endsWith(`\n${SOUND_LINE}`)) return { text, isSound: false, isHelp: false, halfMoves: 0 };
    const head = text.slice(0, -SOUND_LINE.length);
    const asked = askedOf(head.slice(head.lastIndexOf('\n', head.length - 2) + 1, -1));
    return { text: head, isSound: true, isHelp: Boolean(asked?.isHelp), halfMoves: asked?.halfMoves ?? 0 };
  });
}

/**
 * Returns the lines after the line that numbers an item.
 * @param {string} text
 */
export const afterNumber = text => text.slice(text.indexOf('\n') + 1);

/**
 * Reads from the list of one sound problem the number of parts of each phase, in order; null if the phase isn't possible.
 * @param {string} list
 */
export function listOf(list) {
  const found = /^1: (?:set (not possible|[0-9]+), )?play ([0-9]+)\n$/.exec(list);
  if (!found) throw new Error(`no list of parts: ${list.slice(0, 80)}`);
  const set = found[1] ? [{ kind: 'set', parts: found[1] === 'not possible' ? null : Number(found[1]) }] : [];
  return [...set, { kind: 'play', parts: Number(found[2]) }];
}

/**
 * Returns the solutions in a text, each with all its lines.
 * @param {string} text
 */
export const solutionsIn = text => text.match(/^[^ \n].*\n(?: .*\n)*/gm) ?? [];

/**
 * Returns the solutions of a part. A cut text gives only complete lines; the last of its solutions may be incomplete.
 * @param {string} text
 * @param {boolean} isCut
 */
export function solutionsOf(text, isCut) {
  if (isCut) return { all: solutionsIn(text.slice(0, text.lastIndexOf('\n') + 1)), isCut };
  const total = /(?:^|\n)solutions: ([0-9]+)(?:, stopped)?\n$/.exec(text.slice(-60));
  const lines = text.slice(0, text.lastIndexOf('solutions: '));
  const all = solutionsIn(lines);
  if (!total || Number(total[1]) !== all.length || all.join('') !== lines) throw new Error(`no part: ${text.slice(0, 80)}`);
  return { all, isCut: false };
}

/** A piece of a report that is known at once, or once its text is set. */
export class Piece {
  /** @param {string | null} [text] */
  constructor(text = null) {
    this.text = text;
    this.isWhole = false;
    this.isCut = false;
  }

  /** Returns the text that is new since the last call. */
  more() {
    if (this.text === null || this.isWhole) return '';
    this.isWhole = true;
    return this.text;
  }
}

/** A phase whose parts come in any order; LIMIT is its most solutions. */
export class PhasePiece {
  /** @param {PhaseParts} phase @param {number} limit */
  constructor({ kind, parts }, limit) {
    this.kind = kind;
    this.limit = limit;
    this.isWhole = false;
    this.isCut = false;
    /** @type {Map<number, PartSolutions>} the parts that aren't shown yet */
    this.solutions = new Map();
    /** @type {Map<number, number>} the number of complete solutions of each part */
    this.counts = new Map();
    this.next = 1;
    this.found = 0;
    this.begun = `${kind}\n${parts === null ? 'not possible\n' : ''}`;
    this.isPossible = parts !== null;
    this.last = parts ?? 0;
  }

  /** @param {number} number @param {PartSolutions} part */
  take(number, { all, isCut }) {
    this.solutions.set(number, { all, isCut });
    this.counts.set(number, all.length - (isCut ? 1 : 0));
    if (isCut) this.last = Math.min(this.last, number);
    // (the last part that is needed reaches the limit together with the finished parts before it)
    for (let at = 1, count = 0; at <= this.last; at++) {
      count += this.counts.get(at) ?? 0;
      if (count >= this.limit) this.last = at;
    }
  }

  /** Returns the text that is new since the last call: complete solutions of parts in order, and at the end their number. */
  more() {
    let text = this.begun;
    this.begun = '';
    for (let part; !this.isCut && this.found < this.limit && (part = this.solutions.get(this.next)); this.next++) {
      const shown = part.all.slice(0, this.limit - this.found);
      this.solutions.delete(this.next);
      // (a limit reached before an incomplete solution completes the phase)
      this.isCut = part.isCut && shown.length === part.all.length;
      this.found += shown.length;
      text += shown.join('');
    }
    if (this.isWhole || this.isCut || this.next <= this.last) return text;
    this.isWhole = true;
    if (!this.isPossible) return text;
    return `${text}solutions: ${this.found}${this.found === this.limit ? ', stopped' : ''}\n`;
  }
}

/** The report of a text: its items, whose pieces come in any order. */
export class ReportText {
  /** @param {Head[]} heads */
  constructor(heads) {
    this.items = heads.map(({ text, isSound }) => ({ pieces: /** @type {(Piece | PhasePiece)[]} */ ([new Piece(text)]), isPlanned: !isSound, at: 0 }));
    this.at = 0;
    this.isCut = false;
  }

  get isWhole() {
    return this.at === this.items.length && !this.isCut;
  }

  /**
   * Sets the pieces of an item's text after its head.
   * @param {number} index
   * @param {(Piece | PhasePiece)[]} pieces
   */
  plan(index, pieces) {
    this.items[index].pieces.push(...pieces);
    this.items[index].isPlanned = true;
  }

  /** Returns the text that is new since the last call. */
  more() {
    let text = '';
    for (; !this.isWhole; this.at++) {
      const item = this.items[this.at];
      for (; item.at < item.pieces.length; item.at++) {
        const piece = item.pieces[item.at];
        text += piece.more();
        this.isCut ||= piece.isCut;
        if (!piece.isWhole || this.isCut) return text;
      }
      if (!item.isPlanned) break;
    }
    return text;
  }
}
