// @ts-check
// Solves the text on the page: starts and stops the workers, and says how far they are.
import { UTF8 } from '../codecs.js';
import { Crew } from '../crew.js';
import { element, partText, workerOf } from '../elements.js';
import { Solving } from '../solving.js';
import { nameOfText } from '../store.js';
import { blocksOf } from '../text.js';
import { sayFound } from '../tree.js';
import { say } from '../words.js';
import { endTyping } from './editing.js';
import { keepProblem } from './keeping.js';
import { beginReport, drawGrowth, reportGrew } from './reporting.js';
import { blockNow, state, textNow } from './state.js';
import { notes } from './views.js';
import { leave } from './walk.js';

// The greatest status of a whole report.
const WHOLE_STATUS = 1;
const MOST_REFUTATIONS = 200;
// The most letters of a report that the page shows.
const MOST_REPORT = 1 << 24;
/** @type {{ engine: WebAssembly.Module | null, solving: Solving | null, clock: ReturnType<typeof setInterval> | undefined, begun: number, said: string, isOfReport: boolean, isLive: boolean, last: number, asked: string, ended: () => void }} */
const run = { engine: null, solving: null, clock: undefined, begun: 0, said: '', isOfReport: false, isLive: false, last: 0, asked: '', ended: () => {} };

const secondsPassed = () => Math.round((performance.now() - run.begun) / 1000);

/**
 * Says how far solving is, or how it ended.
 * @param {string} said
 * @param {boolean} isOfReport
 */
function tell(said, isOfReport) {
  Object.assign(run, { said, isOfReport });
  showSaid();
}

/** Shows what was said last, and whether it isn't of the problems on the page any more. */
export function showSaid() {
  const isOld = run.isOfReport && !state.isCurrent();
  element('state').classList.toggle('old', isOld);
  element('state').textContent = isOld ? say('oldSaid', run) : run.said;
}

/** @param {string} said */
function endSolving(said, isOfReport = true) {
  run.solving = null;
  clearInterval(run.clock);
  element('solve').disabled = element('solveThis').disabled = !run.engine;
  element('stop').disabled = true;
  tell(said, isOfReport);
}

/**
 * Receives how solving ended; the report so far is kept.
 * @param {Ended} ended
 */
function solvingEnded(ended) {
  const { status, failed, isStopped } = ended;
  const milliseconds = Math.round(performance.now() - run.begun);
  state.endReport(!failed && !isStopped && (status ?? 0) <= WHOLE_STATUS);
  drawGrowth(() => solvingDrawn(ended, milliseconds));
}

/**
 * Says how solving ended, once the report is drawn.
 * @param {Ended} ended
 * @param {number} milliseconds
 */
function solvingDrawn({ status, failed, isStopped }, milliseconds) {
  const seconds = Math.round(milliseconds / 1000);
  if (failed) endSolving(say('failed', { fault: failed }));
  else if (isStopped) endSolving(say(state.report ? 'stopped' : 'stoppedEmpty', { seconds }));
  else endSolving(sayDone(say(`status${status}`), milliseconds));
  notes.check();
  if (!run.isLive) keepProblem(state.solved);
  // (a search that was stopped soon says nothing of its duration)
  if (!isStopped || milliseconds > run.last) run.last = milliseconds;
  run.ended();
}

/**
 * Describes how solving ended; for a text of one problem also what was found.
 * @param {string} answer
 * @param {number} milliseconds
 */
export function sayDone(answer, milliseconds) {
  const found = state.items.length === 1 && !state.isBeginning ? sayFound(state.items[0]) : '';
  return say(found && !state.items[0].isChecked ? 'doneOne' : 'done', { answer, found, milliseconds });
}

function makeWorker() {
  const worker = workerOf(partText('worker'));
  worker.postMessage({ engine: run.engine });
  return worker;
}

/** Names the problem that is being solved. */
export function sayProblem() {
  const { solved, only, solvedBlocks: { length: all } } = state;
  const number = only || (state.items.at(-1)?.number ?? 1);
  const name = nameOfText(solved, state.solvedBlocks[number - 1] ?? null);
  return all > 1 ? say('problemOf', { number, all, name }) : name;
}

function tellProgress() {
  tell(say('solving', { problem: sayProblem(), seconds: secondsPassed(), ...run.solving?.progress }), true);
}

/** Returns the most refutations of a try, 1 if none are written; null if the switch for tries is off. */
export function mostRefutations() {
  const said = element('refutations').value;
  const most = said === '' ? 1 : Math.trunc(Number(said)) || 0;
  return element('tries').checked ? Math.min(Math.max(most, 0), MOST_REFUTATIONS) : null;
}

/** Shows the number of refutations if the switch for tries is on. */
export function showMost() {
  element('most').hidden = !element('tries').checked;
}

/** Shows the button for one problem if there are several. */
export function showSolve() {
  const isOne = blocksOf(textNow()).length < 2;
  element('solveThis').hidden = isOne;
  element('solve').textContent = say(isOne ? 'solve' : 'solveAll');
}

const settingsNow = () => ({ check: element('check').checked, refutations: mostRefutations() });

/**
 * Returns how solving stands: whether it can begin, whether a change or a button began it, how many milliseconds the last search took,
 * and whether it had the settings of now.
 */
export const solvingNow = () => ({
  isReady: Boolean(run.engine) && !run.solving, isLive: Boolean(run.solving) && run.isLive, isAsked: Boolean(run.solving) && !run.isLive, last: run.last,
  isAsNow: run.asked === JSON.stringify(settingsNow()),
});

/**
 * Sets what happens whenever solving has ended.
 * @param {() => void} act
 */
export function whenSolved(act) {
  run.ended = act;
}

/** Solves the problem on the board alone. */
export const solveThis = () => state.whenRead(() => solve(blockNow()?.number ?? 0));

/**
 * Solves the text, or one of its problems, once it is read.
 * @param {number} only its number; 0 for all
 * @param {boolean} isLive whether a change of the problem began it
 */
export const solve = (only = 0, isLive = false) => state.whenRead(() => beginSolving(only, isLive));

/** @param {number} only @param {boolean} isLive */
function beginSolving(only, isLive) {
  if (!run.engine || run.solving) return;
  endTyping();
  leave();
  Object.assign(run, { begun: performance.now(), isLive, asked: JSON.stringify(settingsNow()) });
  beginReport(textNow(), blocksOf(textNow()).length > 1 ? only : 0);
  element('solve').disabled = element('solveThis').disabled = true;
  element('stop').disabled = false;
  const crew = new Crew(navigator.hardwareConcurrency || 1, makeWorker, UTF8);
  const settings = { ...settingsNow(), most: MOST_REPORT, only: state.only, solvesHelp: true, placed: state.takePlaces.bind(state) };
  run.solving = new Solving(state.solved, settings, crew, reportGrew);
  tellProgress();
  run.clock = setInterval(tellProgress, 1000);
  run.solving.solve().then(solvingEnded);
}

export function stopSolving() {
  run.solving?.stop();
}

export async function loadEngine() {
  tell(say('loading'), false);
  try {
    const bytes = Uint8Array.from(atob(partText('engine').trim()), letter => letter.charCodeAt(0));
    run.engine = await WebAssembly.compile(bytes);
    endSolving(say('ready'), false);
  } catch (fault) {
    endSolving(say('noEngine', { fault }), false);
  }
}
