// @ts-check
// Moves on the board: played, or made in the diagram; and problems that continue from the position shown.
import { drawn, element, makeButton } from './elements.js';
import { change, setText } from './page/editing.js';
import { solve } from './page/solving.js';
import { blockNow, state, textNow } from './page/state.js';
import { board, note, tree } from './page/views.js';
import { showPlace } from './page/walk.js';
import { halfAfter, moveBetween, promotes, withProblemAfter, withReached } from './play.js';
import { manAt } from './position.js';
import { fieldsOf, isShort, menOf, valueOf } from './text.js';
import { say, sayMan } from './words.js';

/** Switches between moves that are played and men that are moved in the diagram. */
export function togglePlaying() {
  state.play(element('playing').getAttribute('aria-pressed') === 'false');
  element('playing').setAttribute('aria-pressed', String(state.isPlaying));
}

/**
 * Moves a man: plays the move if a position after moves is shown, or moves are to be played; else changes the diagram.
 * @param {Square} from
 * @param {Square} to
 */
export function move(from, to) {
  if (!state.place && !state.isPlaying) moveInDiagram(from, to);
  else if (promotes(board.men, from, to)) choosePromotion(from, to);
  else playMove(from, to, null);
}

/** @param {Square} from @param {Square} to */
function moveInDiagram(from, to) {
  change(men => {
    const moved = new Map(men);
    const man = moved.get(from);
    moved.delete(from);
    return man ? moved.set(to, man) : moved;
  });
}

/** @param {Square} from @param {Square} to @param {string | null} promotion */
const playMove = (from, to, promotion) => state.whenRead(() => {
  const block = blockNow();
  if (!block || !board.men.has(from)) return;
  const fields = fieldsOf(textNow(), block);
  const word = valueOf(fields, 'stipulation') ?? '';
  const play = { isHelp: /^h/i.test(word), isHalf: /^h.*\.5$/i.test(word) };
  const { start, moves } = state.place ?? { start: menOf(block).men, moves: [] };
  const half = halfAfter(moves, manAt(board.men, from)[0], play);
  const isCirce = isShort(valueOf(fields, 'condition') ?? '', 'Circe');
  const played = moveBetween(board.men, { from, to, promotion, half, isCirce });
  tree.unmark();
  showPlace({ start, moves: [...moves, played], item: null });
});

/**
 * Lets the user choose what a pawn becomes.
 * @param {Square} from
 * @param {Square} to
 */
function choosePromotion(from, to) {
  const [colour] = manAt(board.men, from);
  const fairy = 'GN'.split('').filter(kind => [...board.men.values()].some(man => man[1] === kind));
  element('promotion').replaceChildren(...['Q', 'R', 'B', 'S', ...fairy].map(kind => {
    const made = makeButton(sayMan(colour + kind), () => playMove(from, to, kind), '');
    made.append(drawn(colour + kind));
    return made;
  }));
  element('promotion').hidden = false;
  element('promotion').firstElementChild.focus();
}

/** Returns the position shown and the moves to it; null for the diagram. */
const reachedNow = () => (state.walked && state.place?.moves.length ? { men: state.walked, moves: state.place.moves } : null);

/** Makes the shown position the problem's diagram. */
export function makeProblem() {
  const [block, reached] = [blockNow(), reachedNow()];
  if (block && reached) setText(withReached(textNow(), block, reached));
}

/** Adds the shown position as a problem with the moves left to play, and solves it. */
export function solveFromHere() {
  const [block, reached] = [blockNow(), reachedNow()];
  if (!block || !reached) return;
  const text = withProblemAfter(textNow(), block, reached);
  if (!text) {
    note(say('over'));
    return;
  }
  state.choose(block.number + 1);
  setText(text);
  solve();
}
