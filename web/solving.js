// @ts-check
// Solves a text by several workers: problem by problem, each phase by parts, several parts at a time. A problem with few
// half-moves, or with tries, is solved whole; so is a text that the page can't divide into its problems.
import {
  afterNumber, headsOf, itemsIn, itemTexts, limitOf, listOf, PhasePiece, Piece, ReportText, solutionsIn, solutionsOf,
  SOUND_LINE,
} from './parts.js';

const LEAST_HALF_MOVES = 4;
const PARTS_A_WORKER = 16;
const MOST_PARTS = 4096;
const MOST_DEPTH = 4;
const CUT_STATUS = 3;

/** The error that the text and the engine's report don't agree on the problems. */
class CutWrong extends Error {}

export class Solving {
  /**
   * CHECK and NOBOARD are the settings. REFUTATIONS is the most refutations of a try, or null for a report without tries. A
   * problem with LEAST half-moves or more is solved by parts. A report is cut once it has more than MOST letters. ONLY is the number
   * of the one problem that is solved, or 0 for all. SOLVESHELP solves help play, which has no tries, as without them. PLACED receives
   * the engine's list of a faulty text's faults, before their report. SAID receives each new part of the report.
   * @param {string} text
   * @param {{ check?: boolean, noBoard?: boolean, refutations?: number | null, least?: number, most?: number, only?: number, solvesHelp?: boolean, placed?: (list: string) => void }} settings
   * @param {Crew} crew
   * @param {(text: string) => void} said
   */
  constructor(text, { check = false, noBoard = false, refutations = null, least = LEAST_HALF_MOVES, most = Infinity, only = 0, solvesHelp = false, placed }, crew, said) {
    this.text = text;
    this.check = check;
    this.noBoard = noBoard;
    this.most = most;
    this.only = only;
    this.least = least;
    this.hasTries = refutations !== null;
    this.solvesHelp = solvesHelp;
    this.placed = placed;
    /** @type {Call} the call that solves a problem without tries */
    this.plainCall = { call: 'report', check: false, noBoard };
    /** @type {Call} the call that solves a problem or a text whole */
    this.wholeCall = refutations === null ? this.plainCall : { call: 'tries', noBoard, refutations };
    this.crew = crew;
    this.said = said;
    /** The parts of the report; empty until the text is tested. */
    this.report = new ReportText([]);
    /** @type {Set<Task>} the calls whose results are needed */
    this.tasks = new Set();
    /** @type {PhasePiece[]} */
    this.phases = [];
    /** What was shown of the report. */
    this.shown = '';
    this.status = 0;
    this.found = 0;
    /** The number of problems that are solved whole, and how many of them are. */
    this.whole = 0;
    this.wholeDone = 0;
    this.isOver = false;
    this.isByOneCall = false;
    /** @type {(how: Ended) => void} */
    this.ended = () => {};
  }

  /** Resolves to { status }, the program's, to { failed } or, after stop(), to { isStopped }. */
  solve() {
    return new Promise(ended => {
      this.ended = ended;
      this.begin().catch(fault => this.fault(fault));
    });
  }

  stop() {
    this.end({ isStopped: true });
  }

  /** @param {Ended} how */
  end(how) {
    if (this.isOver) return;
    this.isOver = true;
    this.crew.stop();
    this.ended(how);
  }

  /** @param {Error} fault */
  fault(fault) {
    if (this.isOver) return;
    if (!(fault instanceof CutWrong)) this.end({ failed: fault.message });
    else if (!this.isByOneCall) this.solveWhole().catch(other => this.fault(other));
  }

  /** Counts the finished parts and the parts known to be needed; a problem that is solved whole is one part. */
  get progress() {
    const parts = this.phases.reduce((sum, { last }) => sum + last, this.whole);
    const done = this.phases.reduce((sum, it) => sum + [...it.counts.keys()].filter(number => number <= it.last).length, this.wholeDone);
    return { done, parts, found: this.found };
  }

  async begin() {
    const tested = await this.ask({ call: 'report', check: true, noBoard: this.noBoard }, this.text);
    if (this.placed && tested.status) this.placed((await this.ask({ call: 'faults' }, this.text)).text);
    if (this.check) {
      this.give(this.only ? this.chosen(itemsIn(tested.text)).join('') : tested.text);
      this.end({ status: tested.status });
      return;
    }
    if (tested.status === CUT_STATUS) throw new CutWrong();
    const [allItems, allTexts] = [headsOf(tested.text), itemTexts(this.text)];
    if (allItems.length !== allTexts.length) throw new CutWrong();
    const [items, texts] = [this.chosen(allItems), this.chosen(allTexts)];
    this.status = this.only ? Number(items.some(it => !it.isSound)) : tested.status;
    this.report = new ReportText(items);
    this.whole = items.filter(it => it.isSound).length;
    this.show();
    for (let index = 0; index < items.length && this.goesOn; index++) {
      if (items[index].isSound) await this.beginItem(index, items[index], texts[index]);
    }
  }

  /**
   * Returns the one that is wanted, or all.
   * @template T
   * @param {T[]} all
   */
  chosen(all) {
    return this.only ? all.slice(this.only - 1, this.only) : all;
  }

  get goesOn() {
    return !this.isOver && !this.isByOneCall;
  }

  /**
   * Returns the engine's result of a call.
   * @param {Call} call
   * @param {string} text
   */
  async ask(call, text) {
    await this.crew.free();
    return this.crew.ask({ ...call, text }).answer;
  }

  /** Solves the whole text by one call; the report goes on where it was. */
  async solveWhole() {
    for (const task of this.tasks) this.crew.drop(task);
    this.tasks.clear();
    Object.assign(this, { isByOneCall: true, phases: [], found: 0, whole: 1, wholeDone: 0 });
    const { status, text: all } = await this.ask(this.wholeCall, this.text);
    const text = this.only ? this.chosen(itemsIn(all)).join('') : all;
    this.wholeDone = 1;
    if (text.startsWith(this.shown)) this.give(text.slice(this.shown.length));
    else if (status !== CUT_STATUS || !this.shown.startsWith(text)) throw new Error('the report begins in two ways');
    this.end({ status });
  }

  /** @param {string} text */
  give(text) {
    if (this.isOver || !text) return;
    this.shown += text;
    this.said(text);
  }

  /** Shows what is new, and resolves once the report is complete. */
  show() {
    if (this.isOver || this.isByOneCall) return;
    this.give(this.report.more());
    if (this.report.isWhole) this.end({ status: this.status });
    else if (this.report.isCut || this.shown.length > this.most) this.end({ status: CUT_STATUS });
  }

  /**
   * Starts a call; its result is received when it comes.
   * @param {Call} call
   * @param {string} text
   * @param {(answer: Answer) => void} take
   */
  hand(call, text, take) {
    const task = this.crew.ask({ ...call, text });
    this.tasks.add(task);
    task.answer.then(answer => {
      if (!this.tasks.delete(task) || this.isOver) return;
      take(answer);
      this.show();
    }).catch(fault => this.fault(fault));
    return task;
  }

  /** @param {number} index @param {Head} item @param {string} text */
  async beginItem(index, item, text) {
    await this.crew.free();
    const hasTries = this.hasTries && !(this.solvesHelp && item.isHelp);
    const plan = hasTries || item.halfMoves < this.least ? null : await this.planned(item, text);
    if (!this.goesOn) return;
    if (!plan) {
      this.beginWhole(index, item, text, hasTries ? this.wholeCall : this.plainCall);
      return;
    }
    const limit = limitOf(text);
    const phases = plan.phases.map(it => new PhasePiece(it, limit));
    this.whole -= 1;
    this.phases.push(...phases);
    this.report.plan(index, [...phases, new Piece('\n')]);
    this.show();
    for (const phase of phases) await this.beginParts(phase, text, plan.depth);
  }

  /**
   * Returns the phases of a problem with the numbers of their parts, and the number of moves that divide them, large enough
   * for all workers; null if there is nothing to divide.
   * @param {Head} item
   * @param {string} text
   */
  async planned(item, text) {
    const alone = await this.ask({ call: 'report', check: true, noBoard: this.noBoard }, text);
    if (alone.text !== `problem 1\n${afterNumber(item.text)}${SOUND_LINE}`) throw new CutWrong();
    let found = null;
    for (let depth = 1; depth <= MOST_DEPTH; depth++) {
      const { text: list } = await this.ask({ call: 'list', depth }, text);
      const phases = listOf(list);
      const most = Math.max(...phases.map(it => it.parts ?? 0));
      if (found && (most > MOST_PARTS || most <= found.most)) break;
      found = { phases, depth, most };
      if (most >= PARTS_A_WORKER * this.crew.size) break;
    }
    return found && found.most > 1 ? found : null;
  }

  /** @param {number} index @param {Head} item @param {string} text @param {Call} call */
  beginWhole(index, item, text, call) {
    const rest = new Piece();
    this.report.plan(index, [rest]);
    this.hand(call, text, ({ status, text: said }) => {
      const head = `problem 1\n${afterNumber(item.text)}`;
      if (!said.startsWith(head)) throw new CutWrong();
      rest.text = said.slice(head.length);
      rest.isCut = status === CUT_STATUS;
      this.wholeDone += 1;
      this.found += solutionsIn(rest.text).filter(it => /^[0-9]+\.[^?]*\n/.test(it)).length;
    });
  }

  /**
   * Starts the parts of a phase, in order, up to the last one that is needed.
   * @param {PhasePiece} phase
   * @param {string} text
   * @param {number} depth
   */
  async beginParts(phase, text, depth) {
    const running = new Map();
    for (let number = 1; number <= phase.last && this.goesOn; number++) {
      await this.crew.free();
      if (number > phase.last || !this.goesOn) break;
      const call = { call: 'part', isSet: phase.kind === 'set', depth, number };
      running.set(number, this.hand(call, text, answer => this.takePart(phase, number, answer, running)));
    }
  }

  /** @param {PhasePiece} phase @param {number} number @param {Answer} answer @param {Map<number, Task>} running */
  takePart(phase, number, { status, text }, running) {
    if (status !== 0 && status !== CUT_STATUS) throw new Error(`part ${number}: status ${status}`);
    const solutions = solutionsOf(text, status === CUT_STATUS);
    running.delete(number);
    phase.take(number, solutions);
    this.found += solutions.all.length;
    for (const [later, task] of running) {
      if (later <= phase.last) continue;
      running.delete(later);
      this.tasks.delete(task);
      this.crew.drop(task);
    }
  }
}
