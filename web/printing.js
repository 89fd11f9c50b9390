// @ts-check
// The printed sheet: the problem on the board with its solutions, twins under one diagram.
import { contentAt, twinsOf } from './contents.js';
import { element, madeWith, shortened } from './elements.js';
import { sayDated, sayTotal } from './names.js';
import { diagramOf } from './outputs.js';
import { blockNow, state, textNow } from './page/state.js';
import { countOf } from './position.js';
import { blocksOf, fieldsOf, valueOf } from './text.js';
import { say } from './words.js';

const MANY_LINES = 70;
const MOST_LINES = 300;
// The rows that are printed, some ten pages, and the letters of one. (A browser lays them out at once, in a time that grows by the square.)
const PRINTED_ROWS = 4000;
const LETTERS_A_ROW = 25;

export function fillPrint() {
  const { number } = blockNow() ?? { number: 0 };
  const own = number ? contentAt(textNow(), number) : null;
  const twins = own ? twinsOf(textNow(), own.number) : [];
  const shown = twins.length ? twins : own ? [{ ...own, label: { text: '' }, change: '' }] : [];
  element('print').replaceChildren(printedDiagram(shown[0] ?? null), printedLines(shown));
}

/** @param {string} tag @param {string} name @param {string} text */
function printedPart(tag, name, text) {
  const made = madeWith(tag, shortened(text));
  made.className = name;
  return made;
}

/** @param {PrintedProblem | null} first */
function printedDiagram(first) {
  const men = first?.men ?? new Map();
  const block = first && blocksOf(textNow())[first.number - 1];
  const origin = block ? valueOf(fieldsOf(textNow(), block), 'origin') : null;
  const diagram = document.createElement('div');
  diagram.innerHTML = diagramOf(men);
  const below = printedPart('div', 'below', '');
  below.append(printedPart('span', 'asked', first?.asked ?? ''), printedPart('span', 'count', `(${countOf(men, 'w')}+${countOf(men, 'b')})`));
  const made = document.createElement('div');
  made.append(
    printedPart('h2', 'title', first?.title ?? ''), printedPart('p', 'author', first?.author ?? ''), printedPart('p', 'origin', sayDated(origin ?? '')),
    diagram, below,
  );
  return made;
}

/** @param {PrintedProblem[]} shown */
function printedLines(shown) {
  const lines = shown.flatMap(({ number, label, change, asked }, index) => {
    const item = state.isPosedNow(number) ? state.items.find(it => it.number === number) : null;
    const head = label.text ? [[label.text, change || (index ? asked : '')].filter(Boolean).join(' ')] : [];
    return [...head, ...(item?.phases ?? []).flatMap(phase => [say(phase.kind), ...phase.lines, phase.isPossible && !phase.total ? say('beginning') : sayTotal(phase)])];
  });
  const many = lines.length > MOST_LINES ? 'most' : lines.length > MANY_LINES ? 'many' : '';
  const first = firstRows(lines.map(line => shortened(line)));
  const left = lines.length > first.length ? [say('more', { count: lines.length - first.length })] : [];
  const made = madeWith('pre', [...first, ...left].join('\n'));
  made.className = many;
  return made;
}

/**
 * Returns the lines that are printed.
 * @param {string[]} lines
 */
function firstRows(lines) {
  let rows = 0;
  const end = lines.findIndex(({ length }) => (rows += 1 + Math.floor(length / LETTERS_A_ROW)) > PRINTED_ROWS);
  return end < 0 ? lines : lines.slice(0, end);
}
