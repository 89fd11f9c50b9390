// @ts-check
// What the page shows: the problem on the board, the moves after it, and the report. Only its operations change it.
import { placesOf } from '../explaining.js';
import { after } from '../position.js';
import { ReportReading } from '../report.js';
import { atOnce, inSlices, LONG_TEXT } from '../slices.js';
import { Steps } from '../store.js';
import { blocksOf, posedAlike, readProblem } from '../text.js';
import { wholeText } from './area.js';

class PageState {
  constructor() {
    /** The number of the problem on the board. */
    this.number = 1;
    /** The texts for undo and redo. */
    this.steps = new Steps('');
    /** @type {Place | null} the moves after which the board is shown; null for the diagram */
    this.place = null;
    /** @type {Men | null} the men after these moves */
    this.walked = null;
    /** Whether moving a man on the board plays a move. */
    this.isPlaying = false;
    /** The text that was solved last, and its problems. */
    this.solved = '';
    /** @type {Block[]} */
    this.solvedBlocks = [];
    /** @type {Map<number, Span>} where the engine finds the faults of that text, by the numbers of the problems, as far as that is known */
    this.places = new Map();
    /** Counts the texts that replaced another as a whole, and says at which count the solved text was shown. */
    this.sheet = 0;
    this.solvedSheet = 0;
    /** The number of the one problem that was solved; 0 for all. */
    this.only = 0;
    /** The report of that text, or its beginning. */
    this.report = '';
    /** Whether solving has ended, and whether it did before the end of the report. */
    this.isEnded = true;
    this.isBeginning = false;
    this.reading = new ReportReading();
    /** @type {Item[]} the items of the report when it was read last */
    this.items = [];
    /** @type {(() => void)[]} */
    this.followers = [];
    /** @type {{ now: string, then: string, isSolved: boolean, isAsLong: boolean, changed: Set<number> }} how the text on the page differs from the solved one: whether it is the same, has as many problems, and which are posed otherwise */
    this.compared = { now: '', then: '', isSolved: true, isAsLong: true, changed: new Set() };
    /** Ends what still follows an earlier change. */
    this.endFollowing = () => {};
    /** @type {string | null} the text that is being read and shown */
    this.followed = null;
    /** @type {(() => void)[]} what the user did that needs the problems of a text that is still being read */
    this.waiting = [];
  }

  /**
   * Puts a problem on the board, the first of a text without problems too.
   * @param {number} number
   */
  choose(number) {
    this.number = Math.max(number, 1);
  }

  /**
   * Begins undo and redo with a text, after the texts of an earlier visit.
   * @param {string} text
   * @param {StoredSteps} [stored]
   */
  beginSteps(text, stored) {
    this.steps = new Steps(text, stored);
  }

  /**
   * Goes to the position after some moves; or, for null, to the diagram.
   * @param {Place | null} place
   */
  walk(place) {
    this.place = place;
    this.walked = place && place.moves.reduce(after, place.start);
  }

  /** @param {boolean} isPlaying whether moving a man on the board plays a move */
  play(isPlaying) {
    this.isPlaying = isPlaying;
  }

  /**
   * Begins the report of a text.
   * @param {string} text
   * @param {number} only the number of the one problem that is solved; 0 for all
   */
  beginReport(text, only = 0) {
    this.takeSolved(text, only);
    this.report = '';
    this.isBeginning = false;
    this.isEnded = false;
  }

  /**
   * Takes the report of an earlier visit.
   * @param {StoredReport} stored
   */
  restoreReport({ text, report, isBeginning, only, isReplaced }) {
    this.takeSolved(text, only);
    if (isReplaced) this.beginSheet();
    Object.assign(this, { report, isBeginning, isEnded: true });
  }

  /** @param {string} text @param {number} only */
  takeSolved(text, only) {
    Object.assign(this, { solved: text, only, solvedBlocks: blocksOf(text), places: new Map(), solvedSheet: this.sheet });
  }

  /** @param {string} list the engine's list of the solved text's faults */
  takePlaces(list) {
    this.places = placesOf(this.solved, list);
  }

  /** Begins another text, which replaces the one before as a whole; what waits for that one isn't done. */
  beginSheet() {
    this.sheet += 1;
    this.waiting = [];
  }

  /**
   * Adds a part to the report.
   * @param {string} text
   */
  addReport(text) {
    this.report += text;
    this.reading.add(text);
  }

  /**
   * Ends the report.
   * @param {boolean} isWhole whether nothing more would follow
   */
  endReport(isWhole) {
    this.isBeginning = !isWhole && this.report !== '';
    this.isEnded = true;
  }

  /** Reads the items of the report as it is now. */
  readReport() {
    this.reading = new ReportReading(this.report);
    atOnce(this.readMore());
  }

  /**
   * Reads what was added to the report, step by step.
   * @returns {Generator<void, void>}
   */
  *readMore() {
    yield* this.reading.more();
    this.items = this.reading.items;
  }

  /**
   * Compares the text on the page with the solved one, step by step, unless it has done so.
   * @returns {Generator<void, PageState['compared']>}
   */
  *compare() {
    const [now, then] = [textNow(), this.solved];
    if (this.compared.now === now && this.compared.then === then) {
      // (the browser compares a string with itself at once, with an equal one letter by letter)
      Object.assign(this.compared, { now, then });
      return this.compared;
    }
    const changed = new Set();
    const isSolved = now === then;
    const blocks = isSolved ? this.solvedBlocks : blocksOf(now);
    for (let at = 0; at < this.solvedBlocks.length && !isSolved; at++) {
      if (!blocks[at] || !(yield* posedAlike(blocks[at], this.solvedBlocks[at]))) changed.add(at + 1);
      yield;
    }
    this.compared = { now, then, isSolved, isAsLong: blocks.length === this.solvedBlocks.length, changed };
    return this.compared;
  }

  /** Compares them at once; while a long text is still unread, returns how the one before it differed. */
  comparedNow() {
    return isRead() ? atOnce(this.compare()) : this.compared;
  }

  /** Returns whether the text on the page is the one that was solved. */
  isSolved() {
    return textNow() === this.solved;
  }

  /**
   * Returns whether a problem of the solved text is posed the same now.
   * @param {number} number
   */
  isPosedNow(number) {
    const { isSolved, changed } = this.comparedNow();
    return isSolved || (number <= this.solvedBlocks.length && !changed.has(number));
  }

  /** Returns whether the solved problems are those on the page now. */
  isCurrent() {
    if (this.only) return this.isPosedNow(this.only);
    const { isSolved, isAsLong, changed } = this.comparedNow();
    return isSolved || (this.solvedBlocks.length > 0 && isAsLong && !changed.size);
  }

  /** Returns whether another text as a whole has taken the place of the solved one. */
  isReplaced() {
    return this.sheet !== this.solvedSheet && !this.isSolved();
  }

  /**
   * Adds what is to be shown again after every change of text, problem or position.
   * @param {...(() => void)} acts
   */
  addFollowers(...acts) {
    this.followers.push(...acts);
  }

  /** Shows everything again after a change of text, problem or position; a long text in slices, until the next change. */
  follow() {
    this.endFollowing();
    const text = this.followed = textNow();
    let isOver = false;
    const stop = inSlices(text.length, this.following(text), () => {
      isOver = true;
      this.followed = null;
      this.goOn();
    });
    if (isOver) return;
    this.endFollowing = () => {
      stop();
      this.followed = null;
    };
  }

  /**
   * Does something that needs the problems of the text, after what waits: at once, or when a long text is read.
   * @param {() => void} act
   */
  whenRead(act) {
    this.waiting.push(act);
    if (this.followed === textNow() || isRead()) this.goOn();
    else this.follow();
  }

  /**
   * Does something after what waits.
   * @param {() => void} act
   */
  inTurn(act) {
    if (this.waiting.length) this.waiting.push(act);
    else act();
  }

  /** Does what waits, up to a change of a long text. What each one itself leaves to wait comes before the others. */
  goOn() {
    while (this.waiting.length && (this.followed === null || isRead())) {
      const [[act, ...others], { sheet }] = [this.waiting, this];
      this.waiting = [];
      try {
        act();
      } finally {
        if (this.sheet === sheet) this.waiting.push(...others);
      }
    }
  }

  /**
   * Reads the text and shows everything, step by step.
   * @param {string} text
   * @returns {Generator<void, void>}
   */
  *following(text) {
    yield* blocksOf.steps(text);
    const block = blockNow();
    if (block) yield* readProblem(text, block);
    yield* this.compare();
    for (const act of this.followers) {
      act();
      yield;
    }
  }
}

export const state = new PageState();

export function textNow() {
  return wholeText();
}

/** Returns whether the problems of the text are known, or soon are. */
export const isRead = () => textNow().length < LONG_TEXT || blocksOf.knows(textNow());

/**
 * Returns the problem on the board; null if the text has none.
 * @returns {Block | null}
 */
export function blockNow() {
  const blocks = blocksOf(textNow());
  return blocks[Math.min(state.number, blocks.length) - 1] ?? null;
}
