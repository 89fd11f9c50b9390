// @ts-check
// Changes of the text: by typing, by the board, by a FEN, by undo and redo. All else on the page follows the text.
import { element } from '../elements.js';
import { isOfAnother } from '../importing.js';
import { impossibleCounts } from '../items.js';
import { changed, countOf, exchanged, readFen } from '../position.js';
import { inSlices, LONG_TEXT } from '../slices.js';
import {
  blockAt, blocksOf, cleared, fenOfBlock, lineOf, menOf, tailOf, withFen, withLine, withMen, withNewProblem, withTail,
} from '../text.js';
import { say } from '../words.js';
import { fitPart, followCaret, scrollToLine, select, selectionNow, showText, withLineEnds } from './area.js';
import { doChore } from './beside.js';
import { unmarkFaults } from './faults.js';
import { keepReplaced, storeNoText, storeText } from './keeping.js';
import { blockNow, state, textNow } from './state.js';
import { board, note, unchanged } from './views.js';
import { leave } from './walk.js';

const TYPING_PAUSE = 500;
/** @type {ReturnType<typeof setTimeout> | undefined} runs out when a pause in typing is long enough for a step of undo */
let typing;
/** Ends the reading for an earlier click or key. */
let endPlacing = () => {};

/**
 * Sets the text and shows everything again.
 * @param {string} text
 */
export function setText(text) {
  leave();
  showText(text);
  state.steps.add(textNow());
  state.follow();
}

/** Makes what was typed so far a step of undo. */
export function endTyping() {
  clearTimeout(typing);
  state.steps.add(textNow());
}

/** Receives that the user typed in the text. */
export function typed() {
  leave();
  clearTimeout(typing);
  typing = setTimeout(() => {
    endTyping();
    fitPart();
    state.follow();
  }, TYPING_PAUSE);
  if (textNow().length < LONG_TEXT) state.follow();
  else state.endFollowing();
  unmarkFaults();
}

/** Shows the problem at the cursor on the board; in a long text that was changed, when it is read. */
export function placed() {
  endPlacing();
  followCaret();
  const text = textNow();
  endPlacing = inSlices(text.length, blocksOf.steps(text), () => showPlaced(text));
}

/** @param {string} text the text at the click or key */
function showPlaced(text) {
  if (textNow() !== text) return;
  const number = blockAt(text, selectionNow().from)?.number ?? 1;
  state.inTurn(() => {
    if (number === state.number) return;
    state.choose(number);
    state.follow();
  });
}

/**
 * Shows a problem on the board and in the text.
 * @param {number} number
 */
export function goToProblem(number) {
  endTyping();
  leave();
  state.whenRead(() => {
    state.choose(number);
    state.follow();
    const block = blockNow();
    if (!block) return;
    select(block.from, block.from);
    scrollToLine(lineOf(textNow(), block.from), 2);
  });
}

/** Shows the problem whose number was written, or the nearest one. */
export function numberWritten() {
  const field = element('problemNumber');
  const wanted = Math.max(Math.trunc(Number(field.value)) || state.number, 1);
  state.whenRead(() => {
    const number = Math.min(wanted, blocksOf(textNow()).length);
    field.value = String(number);
    goToProblem(number);
  });
}

/**
 * Leaves a solution that is stepped through, and does something with the problem on the board; a text without problems gets a new one.
 * @param {(block: Block) => void} act
 */
function withBlock(act) {
  endTyping();
  leave();
  const doAct = () => act(/** @type {Block} */ (blockNow()));
  state.whenRead(() => {
    if (blockNow()) {
      doAct();
      return;
    }
    showText(withNewProblem(textNow()));
    state.waiting.unshift(doAct);
    state.follow();
  });
}

/**
 * Changes the men of the problem on the board.
 * @param {(men: Men) => Men | null} changer
 */
export const change = changer => withBlock(block => {
  const { men, unknown } = menOf(block);
  const changed = changer(men);
  const [word] = unknown;
  const isThere = () => Boolean(blockNow() && menOf(/** @type {Block} */ (blockNow())).unknown.includes(word));
  if (word) note(say('unknownWord', { word: word.slice(0, 40) }), isThere);
  else if (changed) setText(withMen(textNow(), block.from, changed));
  else note(say('leaves'));
});

/** @param {string} name */
export function changeBoard(name) {
  if (name === 'clear') withBlock(({ from }) => setText(cleared(textNow(), from)));
  else change(name === 'exchange' ? exchanged : men => changed(men, name));
}

/**
 * Undoes, or redoes, some steps.
 * @param {number} step
 */
export const goSteps = step => state.inTurn(() => {
  endTyping();
  const text = state.steps.go(step);
  if (text === null) return;
  leave();
  showText(text);
  state.follow();
});

/**
 * Replaces the position on the board by a position in FEN; returns false if the text isn't FEN.
 * @param {string} text
 */
export function takeFen(text) {
  const fen = readFen(text);
  if (!fen) return false;
  withBlock(block => {
    setText(withFen(textNow(), block.from, fen));
    note(say('fenTaken') + (fen.turn === 'b' ? say('fenBlack') : ''));
  });
  return true;
}

/**
 * Switches tries and threats on if a text that asked for them has problems of direct mates or selfmates, with the number of refutations that
 * it named. Returns whether it did.
 * @param {Corrected} made
 */
function askForTries({ text, asksForTries, refutations }) {
  const isAsked = asksForTries && /stipulation\s+s?[#=]/i.test(text);
  if (isAsked) {
    if (refutations) element('refutations').value = String(refutations);
    element('tries').checked = true;
    element('tries').dispatchEvent(new Event('change'));
  }
  return isAsked;
}

/**
 * Takes a text in which faults were corrected; switches tries on if a word that was left out asked for them.
 * @param {Corrected} made
 */
export function takeCorrected(made) {
  endTyping();
  if (!state.isSolved()) {
    note(say('correctLater'));
    return;
  }
  setText(made.text);
  note(say(askForTries(made) ? 'correctedTries' : 'corrected'));
}

/**
 * Takes over a whole text, a text of another program, or a position in FEN. A text that it replaces is kept.
 * @param {string} given
 */
export function takeText(given) {
  const text = given.replace(/^\ufeff/, '');
  if (takeFen(text)) return;
  endTyping();
  if (text.length >= LONG_TEXT || !isOfAnother(text)) {
    replaceText(text);
    return;
  }
  let isShown = false;
  const isMade = doChore('import', { text }, made => {
    if (!isShown) replaceText(made.text ?? text);
    else if (textNow() !== text) {
      note(say('importChanged'));
      return;
    } else if (made.text) setText(made.text);
    sayImported(made);
  }, fault => note(say('failed', { fault })));
  if (isMade) return;
  isShown = true;
  replaceText(text);
  note(say('importing'));
}

/**
 * Puts the problems of another program's text where one's own text has its caret, or in place of what is selected in it, as a browser pastes.
 * @param {string} given
 */
export function insertText(given) {
  endTyping();
  const [text, selected, { sheet }] = [textNow(), selectionNow(), state];
  /** @param {Imported} made */
  const put = made => {
    // (another text as a whole may have replaced the one that it was pasted into)
    if (state.sheet !== sheet && textNow() !== text) {
      note(say('importLate'));
      return;
    }
    insertAt(textNow() === text ? selected : selectionNow(), made.text ?? given);
    sayImported(made);
  };
  if (!doChore('import', { text: given }, put, fault => note(say('failed', { fault })))) note(say('importing'));
}

/**
 * Puts a pasted text in place of what is selected, as a browser does, where this would take long.
 * @param {string} given
 */
export function insertLong(given) {
  endTyping();
  const { from, to } = selectionNow();
  const before = textNow().slice(0, from) + withLineEnds(given);
  setText(before + textNow().slice(to));
  select(before.length, before.length);
  scrollToLine(lineOf(textNow(), before.length), 4);
  placed();
}

/**
 * Puts whole lines into the text, with the caret after them.
 * @param {Span} place
 * @param {string} lines
 */
function insertAt({ from, to }, lines) {
  const before = textNow().slice(0, from);
  const first = !before || before.endsWith('\n') ? before : `${before}\n`;
  const end = first.length + lines.length;
  setText(first + lines + textNow().slice(to));
  select(end, end);
  scrollToLine(lineOf(textNow(), first.length), 2);
  placed();
}

/**
 * Takes the problems of several texts of other programs or of pops, which are one text now; switches tries on if one asks for them.
 * @param {Corrected} made
 */
export function takeProblems(made) {
  endTyping();
  replaceText(made.text);
  return askForTries(made);
}

/**
 * Replaces the whole text, which is kept.
 * @param {string} text
 */
function replaceText(text) {
  keepReplaced(textNow());
  state.beginSheet();
  state.choose(1);
  setText(text);
  select(0, 0);
}

/**
 * Says what became of a text of another program, and switches tries on if it asks for them.
 * @param {Imported} made
 */
function sayImported(made) {
  const isAsked = askForTries({ ...made, text: made.text ?? '' });
  note([say(made.text ? 'imported' : 'importedNone'), ...(isAsked ? [say('triesOn')] : []), ...made.lost].join('. '));
}

export const addProblem = () => state.whenRead(() => {
  endTyping();
  const blocks = blocksOf(textNow());
  const text = blocks.length ? withLine(textNow(), blocks[blocks.length - 1], 'NextProblem\nStipulation #2') : withNewProblem(textNow());
  state.choose(blocks.length + 1);
  setText(text);
});

/**
 * Says which counts of men no game can have.
 * @param {Men} men
 */
function noGame(men) {
  const sides = /** @type {[Colour, string][]} */ ([['w', say('white')], ['b', say('black')]]);
  const counts = sides.flatMap(([side, colour]) => impossibleCounts(men, side).map(([number, kind, shade]) => {
    const man = kind ? say('man', { colour, kind: say(kind) }) : say('allMen', { colour });
    return `${number} × ${shade ? say(shade, { man }) : man}`;
  }));
  return counts.length ? say('noGame', { men: counts.join(', ') }) : '';
}

/**
 * Says that `N` is no knight if there are nightriders and no knights.
 * @param {Men} men
 */
function noKnights(men) {
  const kinds = new Set([...men.values()].map(man => man[1]));
  return kinds.has('N') && !kinds.has('S') ? say('noKnights') : '';
}

/** Shows the problem's position on the board, its men and its FEN, and the steps that can be undone. */
export function showProblem() {
  const block = blockNow();
  const men = block ? menOf(block).men : new Map();
  if (!state.walked) board.show(men, []);
  const all = blocksOf(textNow()).length;
  element('count').textContent = block
    ? say('count', { number: block.number, all, white: countOf(men, 'w'), black: countOf(men, 'b') }) + noGame(men) + noKnights(men)
    : say('none');
  if (document.activeElement !== element('fen')) element('fen').value = block ? fenOfBlock(textNow(), block) : '';
  element('undo').disabled = !state.steps.has(-1);
  element('redo').disabled = !state.steps.has(1);
}

/** Says that the text continues after its EndProblem. */
export function showTail() {
  const tail = tailOf(textNow());
  element('tail').hidden = !tail;
  if (!tail) return;
  element('tail').children[0].textContent = say(tail.opening ? 'tail' : 'tailLoose', tail);
  element('join').hidden = !tail.opening;
}

/** Joins the text after EndProblem to the problems before it. */
export const joinTail = () => state.whenRead(() => {
  endTyping();
  setText(withTail(textNow()));
});

/** Stores the text for the next visit. */
export function keepText() {
  if (textNow().length < LONG_TEXT) storeText(textNow());
  else storeNoText();
}

/** Takes the FEN that was written in its field. */
export function fenWritten() {
  const text = element('fen').value;
  const isSame = unchanged();
  if (text.trim() && !takeFen(text)) note(say('badFen'), () => element('fen').value === text && isSame());
}
