// @ts-check
// Draws the report: its text, its solutions and its faults, and marks what isn't of the problem on the page any more. A growing report is drawn
// after pauses.
import { element, LONGEST_SHOWN, shortened } from '../elements.js';
import { inSlices } from '../slices.js';
import { menOfItem } from '../text.js';
import { drawnFault, faultWork, markFaults } from './faults.js';
import { state } from './state.js';
import { tree } from './views.js';

// A growing report is drawn again after this many times the duration of the last drawing.
const DRAWING_SHARE = 10;
const LEAST_PAUSE = 200;
const LINES_AT_ONCE = 2000;
/** How much of the report is shown, and how many lines may be: a browser lays out all of them at each change above. */
const inSight = { letters: 0, lines: 0, most: LINES_AT_ONCE };
/** @type {{ timer: ReturnType<typeof setTimeout> | null, pause: number, endReading: (() => void) | null }} the next drawing, the pause before it, what ends its reading */
const drawing = { timer: null, pause: LEAST_PAUSE, endReading: null };

/** Shows the lines of the report that aren't shown yet, up to the requested number. */
function showReport() {
  const { report } = state;
  const begin = inSight.letters;
  while (inSight.lines < inSight.most && inSight.letters < report.length) {
    const end = report.indexOf('\n', inSight.letters) + 1;
    inSight.letters = end || report.length;
    if (end) inSight.lines += 1;
  }
  if (inSight.letters > begin) element('report').append(linesShown(report.slice(begin, inSight.letters)));
  element('moreReport').hidden = inSight.letters === report.length;
}

/** @param {string} lines */
const linesShown = lines => (lines.length > LONGEST_SHOWN ? lines.split('\n').map(line => shortened(line)).join('\n') : lines);

export function showMoreReport() {
  inSight.most += LINES_AT_ONCE;
  showReport();
}

/** Draws the whole report. */
export function drawReport() {
  endDrawing();
  faultWork.clear();
  state.readReport();
  Object.assign(inSight, { letters: 0, lines: 0, most: LINES_AT_ONCE });
  element('report').textContent = '';
  showReport();
  element('beginning').hidden = !state.isBeginning;
  tree.draw(state.items, item => menOfItem(item, state.solvedBlocks[item.number - 1]), drawnFault);
  showAge();
  markFaults();
}

/** Marks the solutions of problems that were changed since; hides all solutions of a text that another one replaced. */
export function showAge() {
  element('found').hidden = state.isReplaced();
  element('whole').classList.toggle('old', !state.isCurrent());
  tree.markOld();
}

function endDrawing() {
  clearTimeout(drawing.timer ?? undefined);
  drawing.endReading?.();
  Object.assign(drawing, { timer: null, endReading: null });
}

/**
 * Begins to draw the report of a text.
 * @param {string} text
 * @param {number} only the number of the one problem that is solved; 0 for all
 */
export function beginReport(text, only = 0) {
  tree.remember(state.only === only && state.solvedSheet === state.sheet);
  state.beginReport(text, only);
  drawing.pause = LEAST_PAUSE;
  drawReport();
}

/**
 * Receives a new part of the report; draws it after a pause.
 * @param {string} text
 */
export function reportGrew(text) {
  state.addReport(text);
  if (!drawing.endReading) drawing.timer ??= setTimeout(() => drawGrowth(), drawing.pause);
}

/**
 * Draws the new part of the report, which is read in slices.
 * @param {() => void} [ended]
 */
export function drawGrowth(ended = () => {}) {
  endDrawing();
  let isRead = false;
  const endReading = inSlices(state.reading.left.length, state.readMore(), () => {
    isRead = true;
    drawRead();
    ended();
  });
  if (!isRead) drawing.endReading = endReading;
}

/** Draws what was read of the report. */
function drawRead() {
  const begun = performance.now();
  showReport();
  element('beginning').hidden = !state.isBeginning;
  tree.grow(state.items);
  if (state.items.some(item => item.fault)) markFaults();
  drawing.pause = Math.max(LEAST_PAUSE, DRAWING_SHARE * (performance.now() - begun));
  drawing.endReading = null;
}
