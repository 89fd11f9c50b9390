// @ts-check
// The position that the board shows: the diagram, or the position after moves that were chosen in the solutions or played.
import { element } from '../elements.js';
import { labelOf } from '../report.js';
import { say } from '../words.js';
import { state } from './state.js';
import { board, note, tree, unchanged } from './views.js';

/**
 * Shows the position after some moves; or, for null, the diagram again.
 * @param {Place | null} place
 */
export function showPlace(place) {
  state.walk(place);
  const last = place?.moves.at(-1);
  element('squares').classList.toggle('walking', Boolean(place));
  element('line').hidden = !place;
  element('promotion').hidden = true;
  element('reached').textContent = last ? labelOf(last) : '';
  if (state.walked && last) board.show(state.walked, [last.from, last.to]);
  if (!place) state.follow();
  else state.whenRead(() => state.place === place && showItem(place));
}

/**
 * Shows the problem of a position, and says which move led there.
 * @param {Place} place
 */
function showItem({ item, moves }) {
  // (the report of a problem that was changed since isn't of one of these)
  const isNow = !item || state.isPosedNow(item.number);
  if (item && isNow && state.number !== item.number) {
    state.choose(item.number);
    state.follow();
  }
  const last = moves.at(-1);
  if (last) note(say(isNow ? 'shown' : 'shownOld', { move: labelOf(last) }), unchanged());
}

/** Shows the diagram again. */
export function leave() {
  if (tree.current) tree.leave();
  else if (state.place) showPlace(null);
}

/** Goes one move back: in the solutions, or before the last played move. */
export function goBack() {
  if (tree.current || !state.place) tree.backward();
  else if (state.place.moves.length > 1) showPlace({ ...state.place, moves: state.place.moves.slice(0, -1) });
  else leave();
}
