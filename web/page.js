// @ts-check
// The page: builds its parts, connects buttons, keys and events, and begins with the text of the link, the last visit or an example. In a
// worker, which has no document, the same script does the work of chores.js.
import { serveChores } from './chores.js';
import { showContents } from './contents.js';
import { element, partText } from './elements.js';
import { makeProblem, move, solveFromHere, togglePlaying } from './line.js';
import { listenToArea, sayPart, showText } from './page/area.js';
import {
  addProblem, change, changeBoard, fenWritten, goSteps, goToProblem, joinTail, keepText, numberWritten, placed, setText, showProblem,
  showTail, takeCorrected, takeText, typed,
} from './page/editing.js';
import { placeMarks, whenCorrected } from './page/faults.js';
import { buildFields, showFields } from './page/fields.js';
import { listenToFiles } from './page/files.js';
import { leaveNameToCopy, whenKept } from './page/keeping.js';
import { forgetAll, showKept } from './page/kept.js';
import { OUTS } from './page/outs.js';
import { showAge, showMoreReport } from './page/reporting.js';
import { buildLive, liveChanged } from './page/live.js';
import { loadEngine, showMost, showSaid, showSolve, solve, solveThis, stopSolving } from './page/solving.js';
import { state, textNow } from './page/state.js';
import { keep, kept } from './page/storage.js';
import { buildSwitches } from './page/switches.js';
import { board, buildViews, note, notes, tree } from './page/views.js';
import { askToStay, beginVisit, drawVisit, openLink, sayUnkept, storeVisit } from './page/visit.js';
import { goBack, leave, showPlace } from './page/walk.js';
import { CHANGES } from './position.js';
import { fillPrint } from './printing.js';
import { language, LANGUAGES, say, speak } from './words.js';

/** @type {Record<string, () => unknown>} what the buttons do, by their names */
const ACTS = {
  undo: () => goSteps(-1), redo: () => goSteps(1), flip: flipBoard, playing: togglePlaying, fromHere: solveFromHere, makeProblem,
  first: leave, before: goBack, after: () => tree.onward(), unfold: () => tree.foldAll(true), fold: () => tree.foldAll(false),
  next: addProblem, solve: () => solve(), solveThis, stop: stopSolving, forget: forgetAll, join: joinTail, moreReport: showMoreReport,
};

/** @param {string} name @returns {NodeListOf<HTMLElement>} the elements with this attribute */
const allWith = name => document.querySelectorAll(`[${name}]`);

function fillWords() {
  document.documentElement.lang = language;
  document.title = `pops: ${say('subtitle')}`;
  for (const it of allWith('data-word')) it.textContent = say(it.dataset.word ?? '');
  for (const it of allWith('data-title')) it.title = say(it.dataset.title ?? '');
  for (const it of allWith('data-label')) it.setAttribute('aria-label', say(it.dataset.label ?? ''));
}

function connectButtons() {
  for (const [name, act] of Object.entries(ACTS)) element(name).onclick = act;
  for (const name of [...Object.keys(CHANGES), 'exchange', 'clear']) element(name).onclick = () => changeBoard(name);
  // (what was done before is in what is saved)
  for (const [name, act] of Object.entries(OUTS)) element(name).onclick = () => state.whenRead(act);
  togglePlaying();
}

/** Shows the board from the other side, now and in later visits. */
function flipBoard() {
  board.flip(!board.isFlipped);
  element('flip').setAttribute('aria-pressed', String(board.isFlipped));
  keep('pops.flipped', board.isFlipped ? 'on' : null);
}

/** @param {KeyboardEvent} event */
function keyPressed(event) {
  const key = event.key.toLowerCase();
  const isField = /** @type {Element} */ (event.target).closest?.('input:not([type=checkbox])');
  if (event.key === 'Escape' && state.walked) leave();
  if (!event.ctrlKey && !event.metaKey) return;
  if (key === 'enter') {
    notes.endAction();
    event.shiftKey ? solve() : solveThis();
  } else if (isField) return;
  else if (key === 'z') goSteps(event.shiftKey ? 1 : -1);
  else if (key === 'y') goSteps(1);
  else return;
  event.preventDefault();
}

/**
 * Receives that another tab has stored something, or removed all (null).
 * @param {string | null} key
 */
function storedByOther(key) {
  if (key === 'pops') leaveNameToCopy();
  else if (key === 'pops.kept' || key === null) showKept();
}

function listen() {
  const area = element('text');
  area.oninput = typed;
  area.onclick = placed;
  area.onkeyup = placed;
  area.onscroll = placeMarks;
  listenToArea(() => setText(''), goSteps);
  element('problems').onchange = () => goToProblem(Number(element('problems').value));
  element('problemNumber').onchange = numberWritten;
  element('tries').addEventListener('change', showMost);
  element('fen').oninput = () => notes.check();
  element('fen').onchange = fenWritten;
  addEventListener('keydown', keyPressed);
  // (what is said of one action ends when a click begins the next)
  addEventListener('click', ({ target }) => /** @type {Element} */ (target).closest?.('button, label, select, summary') && notes.endAction(), true);
  addEventListener('beforeprint', fillPrint);
  addEventListener('hashchange', openLink);
  addEventListener('pagehide', storeVisit);
  addEventListener('storage', ({ key }) => storedByOther(key));
  addEventListener('beforeunload', askToStay);
  document.addEventListener('visibilitychange', () => document.visibilityState === 'hidden' && storeVisit());
  listenToFiles();
}

/** Fills the choice of languages; a choice loads the page again, which shows everything as before. */
function buildLanguages() {
  const list = element('language');
  list.replaceChildren(...Object.entries(LANGUAGES).map(([code, name]) => new Option(name, code)));
  list.value = language;
  list.onchange = () => {
    if (keep('pops.language', list.value)) location.reload();
    else note(say('keptNot'));
    list.value = language;
  };
}

function begin() {
  speak(kept('pops.language') ?? navigator.language?.slice(0, 2) ?? 'en');
  fillWords();
  buildLanguages();
  element('shapes').innerHTML = partText('men-shapes');
  connectButtons();
  buildFields();
  buildViews({ change, move }, showPlace);
  if (kept('pops.flipped')) flipBoard();
  showText(beginVisit());
  state.addFollowers(showProblem, showFields, showContents, showTail, sayPart, keepText, showAge, showSaid, showSolve, liveChanged, () => notes.check());
  listen();
  buildSwitches();
  buildLive();
  whenCorrected(takeCorrected, () => takeText(textNow()));
  showMost();
  whenKept(showKept);
  showKept();
  state.addFollowers(sayUnkept);
  drawVisit();
  state.follow();
  openLink();
  loadEngine();
}

if (typeof document === 'undefined') serveChores();
else addEventListener('DOMContentLoaded', begin);
