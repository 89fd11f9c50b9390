// @ts-check
// Solves the problem on the board after each change of it, if the switch is on and the last search took under a second.
import { element } from '../elements.js';
import { say } from '../words.js';
import { solve, solvingNow, stopSolving, whenSolved } from './solving.js';
import { blockNow, isRead, state } from './state.js';
import { keep, kept } from './storage.js';

const QUICK_MILLISECONDS = 1000;
const PAUSE = 100;
/** @type {ReturnType<typeof setTimeout> | undefined} runs out when the problem has been the same for a moment */
let pause;

/** Returns whether the problem on the board isn't solved as it is now. */
function isWanted() {
  const number = element('live').checked && isRead() && blockNow()?.number;
  if (!number) return false;
  return !solvingNow().isAsNow || !state.isPosedNow(number) || state.isReplaced() || (state.only ? state.only !== number : !state.solvedBlocks[number - 1]);
}

/** Says that the search takes too long for solving after each change. */
export function showLive() {
  const { last } = solvingNow();
  const isSlow = element('live').checked && last >= QUICK_MILLISECONDS;
  element('liveState').textContent = isSlow ? say('liveWaits', { seconds: (last / 1000).toFixed(1) }) : '';
}

/** Receives that the text or the problem on the board may have changed. */
export function liveChanged() {
  clearTimeout(pause);
  if (isWanted()) pause = setTimeout(solveLive, PAUSE);
}

/** Solves the problem on the board; stops a search that a change began before. */
export function solveLive() {
  const { isReady, isLive, last } = solvingNow();
  if (isLive) stopSolving();
  else if (isReady && last < QUICK_MILLISECONDS && isWanted()) solve(blockNow()?.number ?? 0, true);
}

function searchEnded() {
  showLive();
  liveChanged();
}

/** Switches between solving after each change and by the buttons. */
function switched() {
  keep('pops.live', element('live').checked ? 'on' : null);
  searchEnded();
}

/** Sets the switch as in the last visit. */
export function buildLive() {
  element('live').checked = kept('pops.live') === 'on';
  element('live').onchange = switched;
  for (const name of /** @type {const} */ (['check', 'tries', 'refutations'])) element(name).addEventListener('change', liveChanged);
  whenSolved(searchEnded);
}
