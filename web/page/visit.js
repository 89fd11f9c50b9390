// @ts-check
// What a reload of the page shows again, what it would lose, and links that are opened.
import { element } from '../elements.js';
import { readFen } from '../position.js';
import { LONG_TEXT } from '../slices.js';
import { latestSteps, MOST_KEPT_LETTERS, textOfFragment, visitOf, writtenVisit } from '../store.js';
import { NEW_PROBLEM, withFen } from '../text.js';
import { language, say } from '../words.js';
import { endTyping, keepText, takeText } from './editing.js';
import { isTooLong } from './files.js';
import { exampleText, isNobodys, keepProblem, storedByTab, unkeptText } from './keeping.js';
import { drawReport } from './reporting.js';
import { solvingNow } from './solving.js';
import { state, textNow } from './state.js';
import { keep, keepInTab, kept, keptInTab } from './storage.js';
import { note } from './views.js';

// In milliseconds: a browser takes a hundred for five million letters.
const STORING_PAUSE = 1000;
/** The fragment of the link that was opened last. */
let link = '';
/** The text that was saved last as a file. */
let savedText = '';
/** @type {{ timer: ReturnType<typeof setTimeout> | undefined, isKept: boolean }} runs out when a long text is stored next; whether the last one was kept */
const storing = { timer: undefined, isKept: true };

/** Stores the text in work and this visit, for a reload of this tab and for the next visit; returns whether both will find the text. */
export function storeVisit() {
  endTyping();
  keepText();
  return storeNow();
}

/** Stores this visit at once, and says which texts aren't kept; returns whether the next visit will find the text in work. */
function storeNow() {
  endWaiting();
  storing.isKept = keepsVisit() || storedByTab() !== null;
  tellUnkept();
  return storing.isKept;
}

function endWaiting() {
  clearTimeout(storing.timer);
  storing.timer = undefined;
}

/** Stores this visit; returns whether the next one will find it. */
function keepsVisit() {
  const { steps, number, solved, report, only } = state;
  const isBeginning = state.isBeginning || !state.isEnded;
  const written = writtenVisit({ steps, number, link, solved: report ? { text: solved, report, isBeginning, only, isReplaced: state.isReplaced() } : null });
  const isKept = keep('pops.visit', written);
  const isInTab = keepInTab('pops.visit', written);
  // (a reload would find an older one of this tab first)
  if (isKept && !isInTab) keepInTab('pops.visit', null);
  keepInTab('pops.lost', isKept || isInTab ? null : 'yes');
  return isKept;
}

/** Says which texts aren't kept, and stores a long one a moment later. */
export function sayUnkept() {
  if (storedByTab() === null && textNow().length < LONG_TEXT) {
    storeNow();
    return;
  }
  if (storedByTab() !== null) {
    endWaiting();
    storing.isKept = true;
  } else storing.timer ??= setTimeout(storeNow, STORING_PAUSE);
  tellUnkept();
}

function tellUnkept() {
  const isKept = storing.isKept || isNobodys(textNow());
  const text = unkeptText();
  const isReplaced = text !== '' && text !== textNow() && state.steps.texts.includes(text);
  const letters = MOST_KEPT_LETTERS.toLocaleString(language);
  const said = [...(isKept ? [] : [say('unkept')]), ...(isReplaced ? [say('unkeptReplaced', { letters })] : [])].join(' ');
  Object.assign(element('unkept'), { hidden: !said, textContent: said });
}

/** Remembers that the text is saved as a file. */
export function textSaved() {
  savedText = textNow();
}

/**
 * Asks whether to leave the page, if a search would end, or a text would be lost that isn't saved as a file.
 * @param {BeforeUnloadEvent} event
 */
export function askToStay(event) {
  const isKept = storeVisit() || isNobodys(textNow()) || textNow() === savedText;
  const replaced = unkeptText();
  if (!solvingNow().isAsked && isKept && (!replaced || replaced === savedText || latestSteps(state.steps).texts.includes(replaced))) return;
  event.preventDefault();
  // (Chrome before 119 asks only so)
  event.returnValue = true;
}

/** Begins with this tab's visit, or else with the last one; without any, with the example. Returns the text. */
export function beginVisit() {
  const own = visitOf(keptInTab('pops.visit'));
  const visit = own ?? visitOf(kept('pops.visit'));
  // (of a tab whose text was lost the last short one is later than its visit)
  const latest = keptInTab('pops.lost') ? null : own ?? (kept('pops.tab') ? null : visit);
  const text = storedByTab() ?? latest?.steps.texts[latest.steps.place] ?? kept('pops') ?? exampleText();
  state.beginSteps(text, visit?.steps);
  state.choose(visit?.number ?? 1);
  link = own?.link ?? '';
  if (visit?.solved) state.restoreReport(visit.solved);
  return text;
}

/** Draws the report of an earlier visit; says so if its text was lost. */
export function drawVisit() {
  if (state.report) drawReport();
  if (keptInTab('pops.lost')) note(say('textLost'));
}

/** Opens the text of the link, unless it was opened already, beside the text in work, which is kept. */
export function openLink() {
  const linked = textOfFragment(location.hash);
  if (location.hash === link) return;
  link = location.hash;
  if (linked === null || linked === textNow() || isTooLong(linked.length)) return;
  const fen = readFen(linked);
  takeText(fen ? withFen(NEW_PROBLEM, 0, fen) : linked);
  keepProblem(textNow(), { isLinked: true });
  note(say('linkOpened'));
}

/**
 * Remembers that the link in the address has the text that is shown.
 * @param {string} fragment
 */
export function ownLink(fragment) {
  link = fragment;
}
