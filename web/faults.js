// @ts-check
// A fault as the page shows it: the lines at fault, with their words marked, and the explanation.
import { madeWith, makeButton } from './elements.js';
import { explainFault, markedLines, mendProblem, shown } from './explaining.js';
import { sayFault } from './names.js';
import { lineAt } from './text.js';
import { say } from './words.js';

const LONGEST_QUOTED_LINE = 300;

/**
 * Draws a line of the text with its number, in pieces, some of them marked.
 * @param {MarkedLine} marked
 */
function drawnLine({ line, pieces }) {
  const drawn = madeWith('code', `${line} | `);
  drawn.append(...pieces.map(({ text, isMarked }) => madeWith(isMarked ? 'mark' : 'span', text)));
  return drawn;
}

/**
 * Returns a line without marks, as of a fault of which no word is known.
 * @param {CorrectedLine} line
 */
function bareLine({ line, said }) {
  const text = shown(said.slice(0, LONGEST_QUOTED_LINE).replace(/[\t\v\f\r]/g, ' '));
  return { line, pieces: [{ text, isMarked: false }] };
}

/**
 * Names the page's own switches and fields in advice that names programs.
 * @param {string} advice
 */
export const ownAdvice = advice => advice
  .replace(/`pops-tries(?: --refutations N)?` shows (.*?)(?=\.|$)/, (_, what) => say('triesShow', { what }))
  .replace(/`fen2pop [^`]*` makes a problem of it/, () => say('fenMakes'));

/**
 * Draws the button that corrects a problem, with the first line that it changes.
 * @param {Corrected & CorrectedLine} made
 * @param {(made: Corrected) => void} take receives the corrected text
 */
function mendingBox(made, take) {
  const box = document.createElement('div');
  const button = makeButton(say('correct'), () => take(made));
  const line = drawnLine(bareLine(made));
  line.className = 'corrected';
  box.append(line, button);
  return box;
}

/**
 * Draws the fault of a problem: with the explanation of its word, or else with the manual's text about the fault. What takes long is
 * drawn in steps: the explanation, and once all faults are explained the button that corrects the problem.
 * @param {string} text the text of the report
 * @param {FaultyItem & { place?: Span }} item with the place where the engine finds the fault, if that is known
 * @param {string} general what the manual says
 * @param {{ goToLine: (line: number) => void, take: (made: Corrected) => void }} acts `take` receives the corrected text
 * @param {{ add: (steps: WorkSteps) => void }} work takes these steps
 */
export function faultBox(text, item, general, { goToLine, take }, work) {
  const { fault } = item;
  const button = makeButton(say('goToLine', fault), () => goToLine(fault.line));
  const box = document.createElement('div');
  box.className = 'fault';
  box.append(madeWith('p', sayFault(fault)), button);
  work.add(explaining());
  return box;

  /** @returns {WorkSteps} */
  function* explaining() {
    const explanation = yield* explainFault(text, item);
    const { from, to } = lineAt(text, fault.line);
    const marked = explanation?.marks.length ? markedLines(text, explanation.marks) : [bareLine({ line: fault.line, said: text.slice(from, to) })];
    button.before(...marked.map(drawnLine), madeWith('p', ownAdvice(explanation?.text ?? general)));
    if (explanation) return mending();
  }

  /** @returns {WorkSteps} */
  function* mending() {
    const made = yield* mendProblem(text, item.number);
    if (made) button.before(mendingBox(made, take));
  }
}
