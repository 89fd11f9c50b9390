// @ts-check
// The solutions as rows that fold, and the walk through their moves. Rows are drawn when they are unfolded, a number at
// a time. While a report grows, only its last rows change.
import { comparisonOf, isComparable } from './compared.js';
import { element, madeWith, makeButton, shortened } from './elements.js';
import { sayAsked, sayTotal } from './names.js';
import { foundIn, labelOf, rowsOf, triesIn } from './report.js';
import { say } from './words.js';

const ROWS_AT_ONCE = 200;
const MOST_UNFOLDED = 2000;

/** @param {TreeRow} row */
const stepsOf = row => (row.word ? [row.word] : row.moves.map(move => move.said));
/**
 * Lists the words and moves above a row.
 * @param {TreeRow} row
 * @returns {string[]}
 */
const stepsAbove = row => (row.parent ? [...stepsAbove(row.parent), ...stepsOf(row.parent)] : []);
/** @param {TreeRow} row */
const pathOf = row => [...stepsAbove(row), ...stepsOf(row)].join(' ');
/** @param {TreeRow} row */
const isOpenRow = row => Boolean(row.list && !row.list.hidden);
/**
 * Lists rows and the unfolded rows below them, as the page shows them.
 * @param {TreeRow[]} rows
 * @returns {TreeRow[]}
 */
const shownRows = rows => rows.flatMap(row => (isOpenRow(row) ? [row, ...shownRows(row.below)] : row));
/** @param {TreeRow[]} rows */
const openPaths = rows => shownRows(rows).filter(isOpenRow).map(pathOf);
/** @param {TreeRow} row @returns {TreeRow} */
const topOf = row => (row.parent ? topOf(row.parent) : row);
/** @param {ListBox} [list] @returns {any[]} what is drawn of a list */
const drawnOf = list => list?.filling.things.slice(0, list.filling.drawn) ?? [];

/**
 * Says what refutes a try, for its folded row; empty for another row.
 * @param {TreeRow} row
 */
function briefOf(row) {
  if (row.group.kind !== 'tries') return '';
  const refutations = row.below.find(it => it.word === 'but')?.below ?? [];
  return refutations.length ? say('butBrief', { moves: refutations.map(it => (it.word ? say(`below-${it.word}`) : labelOf(it.moves[0]))).join(' ') }) : '';
}

/**
 * Marks the rows on the way to rows that were unfolded; these are drawn unfolded.
 * @param {TreeRow} row
 * @param {string[]} paths
 */
function keepOpen(row, paths) {
  const own = pathOf(row);
  row.wasOpen = paths.some(path => path === own || path.startsWith(`${own} `));
  if (row.wasOpen) for (const below of row.below) keepOpen(below, paths);
}

/**
 * Finds the place to which words and moves lead, in a row or below it.
 * @param {TreeRow} row
 * @param {string[]} steps
 * @returns {RowPlace}
 */
function placeIn(row, steps) {
  const above = stepsAbove(row).length;
  const own = stepsOf(row).length;
  if (steps.length <= above + own) return { row, index: steps.length - above - 1 };
  return placeIn(/** @type {TreeRow} */ (row.below.find(it => stepsOf(it)[0] === steps[above + own])), steps);
}

/**
 * Says how many keys, tries or lines were found; empty if that isn't known.
 * @param {Item} item
 */
export function sayFound(item) {
  const found = foundIn(item);
  if (!found) return '';
  const keys = say(found.name, found);
  const tries = triesIn(item);
  const said = found.isStopped ? say('foundLeast', { found: keys }) : keys;
  return tries === null ? said : `${said}, ${say(tries === 1 ? 'foundTry' : 'foundTries', { count: tries })}`;
}

/**
 * Makes a list whose elements are drawn a number at a time.
 * @param {string} tag
 * @param {any[]} things
 * @param {(thing: any) => Element} draw
 */
function madeList(tag, things, draw) {
  const box = /** @type {ListBox} */ (document.createElement(tag));
  box.filling = { things, draw, drawn: 0, most: ROWS_AT_ONCE, more: null };
  refill(box);
  return box;
}

/**
 * Draws the elements of a list that aren't drawn yet, up to the requested number, and a button for the others.
 * @param {ListBox} box
 * @param {number} [added] how many more are requested
 */
function refill(box, added = 0) {
  const { filling } = box;
  const { things, drawn, draw } = filling;
  filling.most += added;
  filling.drawn = Math.min(things.length, filling.most);
  filling.more?.remove();
  filling.more = null;
  for (const thing of things.slice(drawn, filling.drawn)) box.append(draw(thing));
  if (filling.drawn === things.length) return;
  filling.more = document.createElement(box.tagName === 'UL' ? 'li' : 'p');
  filling.more.append(makeButton(say('more', { count: things.length - filling.drawn }), () => refill(box, ROWS_AT_ONCE)));
  box.append(filling.more);
}

export class Tree {
  /**
   * SHOW receives the chosen place or null: the men of the diagram, the moves from there, and the item. ISOLD returns whether an item's
   * problem was changed since.
   * @param {(place: Place | null) => void} show
   * @param {(item: Item) => boolean} isOld
   */
  constructor(show, isOld) {
    this.showPlace = show;
    this.isOld = isOld;
    /** @type {Group[]} */
    this.groups = [];
    /** @type {RowPlace | null} */
    this.current = null;
    /** @type {(item: Item) => Men} */
    this.start = () => new Map();
    /** @type {string[]} the paths of rows that are drawn unfolded */
    this.opened = [];
    this.list = madeList('div', [], item => item);
    element('tree').onkeydown = event => this.key(event);
  }

  /**
   * Remembers which rows are unfolded: the next report draws them so.
   * @param {boolean} isWanted
   */
  remember(isWanted) {
    this.opened = isWanted ? this.groups.flatMap(group => openPaths(group.rows)) : [];
  }

  clear() {
    this.groups = [];
    this.current = null;
    element('tree').replaceChildren();
  }

  /**
   * Draws the items of a report; START returns the men of an item's diagram, FAULT draws a faulty item.
   * @param {Item[]} items
   * @param {(item: Item) => Men} start
   * @param {(item: FaultyItem) => Element} fault
   */
  draw(items, start, fault) {
    this.clear();
    this.start = start;
    this.list = madeList('div', [...items], item => this.drawnItem(item, fault));
    element('tree').append(this.list);
  }

  /**
   * Draws the new part of a report: the last item continues, others follow it.
   * @param {Item[]} items
   */
  grow(items) {
    const { things, drawn } = this.list.filling;
    const last = things.length - 1;
    if (last >= 0) things[last] = items[last];
    for (const item of items.slice(things.length)) things.push(item);
    if (last >= 0 && last < drawn) this.growItem(this.list.children[last], items[last]);
    refill(this.list);
  }

  /** @param {Item} item @param {(item: FaultyItem) => Element} fault */
  drawnItem(item, fault) {
    const box = /** @type {ItemBox} */ (document.createElement('section'));
    box.groups = [];
    box.head = document.createElement('h2');
    box.age = madeWith('p', say('oldItem'));
    box.compared = Object.assign(document.createElement('details'), { className: 'compared' });
    box.compared.append(madeWith('summary', say('compared')));
    // (phases side by side, made when they are opened)
    box.compared.ontoggle = () => box.compared.open && this.fillComparison(box);
    box.append(box.head, box.age);
    this.markBox(box, item);
    if (item.fault) box.append(fault(/** @type {FaultyItem} */ (item)));
    else if (item.isChecked) box.append(madeWith('p', say('sound')));
    this.growItem(box, item);
    return box;
  }

  /** Marks the drawn items whose problems were changed since. */
  markOld() {
    drawnOf(this.list).forEach((item, at) => this.markBox(this.list.children[at], item));
  }

  /** @param {any} box @param {Item} item */
  markBox(box, item) {
    const isOld = this.isOld(item);
    box.classList.toggle('old', isOld);
    box.age.hidden = !isOld;
  }

  /**
   * Draws the phases of an item as they are now.
   * @param {any} box
   * @param {Item} item
   */
  growItem(box, item) {
    box.head.textContent = [say('item', item), shortened(item.title ?? ''), shortened(item.author ?? ''), item.asked && sayAsked(item.asked.line), sayFound(item)].filter(Boolean).join(' · ');
    item.phases.forEach((phase, index) => {
      if (index < box.groups.length) this.growPhase(box.groups[index], phase, /** @type {SoundItem} */ (item));
      else box.append(...this.drawnPhase(phase, /** @type {SoundItem} */ (item), box));
    });
    if (item.asked?.isHelp || !isComparable(box.groups)) return;
    box.append(box.compared);
    if (box.compared.open) this.fillComparison(box);
  }

  /** @param {any} box */
  fillComparison(box) {
    const made = /** @type {Comparison<TreeRow>} */ (comparisonOf(box.groups));
    const table = document.createElement('table');
    const heads = made.columns.map(({ label, row }) => this.comparedCell('th', row ? [row] : [], [label]));
    table.append(this.tableRow('', heads));
    if (made.columns.some(it => it.head)) table.append(this.tableRow(say('below-threat'), made.columns.map(({ head }) => this.headCell(head))));
    for (const { label, cells } of made.rows) {
      table.append(this.tableRow(label, cells.map(({ rows, said, isChanged }) => this.comparedCell('td', rows, said, isChanged))));
    }
    const scroll = document.createElement('div');
    scroll.append(table);
    const counts = /** @type {[string, number][]} */ ([['comparedLeft', made.left], ['comparedLeftKeys', made.leftKeys]]);
    const left = counts.flatMap(([name, count]) => (count ? [madeWith('p', say(name, { count }))] : []));
    box.compared.replaceChildren(madeWith('summary', say('compared')), scroll, ...left);
  }

  /** @param {TreeRow | null} head what a first move threatens, or a word */
  headCell(head) {
    if (!head) return madeWith('td', '');
    if (!head.hasBelow) return madeWith('td', say(`below-${head.word}`));
    return this.comparedCell('td', head.below, head.below.map(it => labelOf(it.moves[0])));
  }

  /** @param {string} label @param {HTMLElement[]} cells */
  tableRow(label, cells) {
    const made = document.createElement('tr');
    made.append(madeWith('th', label), ...cells);
    return made;
  }

  /**
   * Makes a cell whose texts are buttons that go to the rows' positions.
   * @param {string} tag
   * @param {TreeRow[]} rows
   * @param {string[]} said
   * @param {boolean} isChanged
   */
  comparedCell(tag, rows, said, isChanged = false) {
    const made = madeWith(tag, rows.length ? '' : said.join(' '));
    made.className = isChanged ? 'changed' : '';
    made.append(...rows.map((row, at) => {
      const button = makeButton(said[at] === '!' ? say('refutes', { move: labelOf(row.moves[0]) }) : said[at], () => this.go(row, 0), said[at]);
      button.className = 'move';
      return button;
    }));
    return made;
  }

  /** @param {Phase} phase @param {SoundItem} item @param {any} box */
  drawnPhase(phase, item, box) {
    /** @type {TreeRow[]} */
    const rows = [];
    const list = madeList('ul', rows, row => this.drawnRow(row));
    list.className = 'top';
    const group = { kind: phase.kind, item, men: this.start(item), rows, list, lines: 0, total: madeWith('p', '') };
    this.groups.push(group);
    box.groups.push(group);
    this.growPhase(group, phase, item);
    return [madeWith('h3', say(phase.kind)), list, group.total];
  }

  /**
   * Draws the new part of a phase: the last row may continue, others follow it.
   * @param {Group} group
   * @param {Phase} phase
   * @param {SoundItem} item
   */
  growPhase(group, phase, item) {
    group.item = item;
    group.total.textContent = sayTotal(phase);
    if (phase.lines.length === group.lines) return;
    group.lines = phase.lines.length;
    const last = group.rows.length - 1;
    const from = last < 0 ? 0 : group.rows[last].from;
    const made = (/** @type {Row[]} */ own, /** @type {Row | null} */ parent) => own.forEach(row => Object.assign(row, { parent, group }));
    const rows = /** @type {TreeRow[]} */ (rowsOf(phase, item.asked.isHelp, { from, made }));
    if (last >= 0 && rows[0].to !== group.rows[last].to) this.replaceRow(group, last, rows[0]);
    for (const row of last < 0 ? rows : rows.slice(1)) {
      group.rows.push(row);
      keepOpen(row, this.opened);
    }
    refill(group.list);
  }

  /**
   * Replaces a row that continues; unfolded rows and the chosen place stay.
   * @param {Group} group
   * @param {number} index
   * @param {TreeRow} row
   */
  replaceRow(group, index, row) {
    const old = group.rows[index];
    const { current } = this;
    const isWalked = current !== null && topOf(current.row) === old;
    const steps = isWalked ? [...stepsAbove(current.row), ...stepsOf(current.row).slice(0, current.index + 1)] : [];
    const hasFocus = old.line?.contains(document.activeElement);
    group.rows[index] = row;
    keepOpen(row, openPaths([old]));
    if (old.line) old.line.replaceWith(this.drawnRow(row));
    if (!isWalked) return;
    this.current = placeIn(row, steps);
    this.reveal(this.current.row);
    const button = this.current.row.buttons[this.current.index];
    button.setAttribute('aria-current', 'true');
    if (hasFocus) button.focus({ preventScroll: true });
  }

  /** @param {TreeRow} row */
  drawnRow(row) {
    const line = document.createElement('li');
    const turn = makeButton(say('openRow'), () => this.fold(row, !row.list || row.list.hidden), '▸');
    turn.className = row.hasBelow ? 'turn' : 'turn none';
    turn.tabIndex = row.hasBelow ? 0 : -1;
    turn.setAttribute('aria-expanded', 'false');
    row.turn = turn;
    row.line = line;
    row.buttons = this.buttonsOf(row);
    line.append(turn, ...row.buttons);
    const brief = briefOf(row);
    if (brief) line.append(row.brief = Object.assign(madeWith('span', brief), { className: 'brief' }));
    if (row.hasBelow && row.wasOpen) this.fold(row, true);
    return line;
  }

  /**
   * Makes the buttons of a row: one for each move, or one for its word, which shows the position before the row.
   * @param {TreeRow} row
   */
  buttonsOf(row) {
    const said = row.word ? [say(`below-${row.word}`)] : row.moves.map((move, index) => (index ? move.label : labelOf(move)));
    const className = row.word ? 'move word' : 'move';
    return said.map((text, index) => Object.assign(madeWith('button', text), { type: 'button', className, onclick: () => this.go(row, index) }));
  }

  /**
   * Unfolds a row, or folds it.
   * @param {TreeRow} row
   * @param {boolean} isOpen
   */
  fold(row, isOpen) {
    if (!row.hasBelow) return;
    if (isOpen && !row.list) {
      row.list = madeList('ul', row.below, it => this.drawnRow(it));
      row.line?.append(row.list);
    }
    if (row.list) row.list.hidden = !isOpen;
    if (row.brief) row.brief.hidden = isOpen;
    row.turn.textContent = isOpen ? '▾' : '▸';
    row.turn.setAttribute('aria-expanded', String(isOpen));
    row.turn.setAttribute('aria-label', say(isOpen ? 'closeRow' : 'openRow'));
    row.turn.title = say(isOpen ? 'closeRow' : 'openRow');
  }

  /**
   * Unfolds or folds all drawn rows, and the rows that are drawn then, up to a number that a page can show.
   * @param {boolean} isOpen
   */
  foldAll(isOpen) {
    const waiting = this.groups.flatMap(group => drawnOf(group.list));
    let unfolded = 0;
    for (let at = 0; at < waiting.length && unfolded < MOST_UNFOLDED; at++) {
      const row = waiting[at];
      this.fold(row, isOpen);
      const below = drawnOf(row.list);
      if (isOpen) unfolded += below.length;
      for (const it of below) waiting.push(it);
    }
  }

  /**
   * Draws a row that isn't drawn yet, and unfolds the rows above it.
   * @param {TreeRow} row
   */
  reveal(row) {
    if (row.parent) {
      this.reveal(row.parent);
      this.fold(row.parent, true);
    }
    const list = row.parent ? row.parent.list : row.group.list;
    while (!row.line && list?.filling.more) refill(list, ROWS_AT_ONCE);
  }

  /**
   * Chooses a move of a row.
   * @param {TreeRow} row
   * @param {number} index
   */
  go(row, index) {
    this.reveal(row);
    this.unmark();
    this.current = { row, index };
    const button = row.buttons[index];
    button.setAttribute('aria-current', 'true');
    this.bringToSight(button);
    this.showPlace({ start: row.group.men, moves: [...row.path, ...row.moves.slice(0, index + 1)], item: row.group.item });
  }

  /**
   * (a move scrolls only the tree; a click in the tree also scrolls the page to the board)
   * @param {HTMLElement} button
   */
  bringToSight(button) {
    const box = element('tree');
    const lower = button.getBoundingClientRect().top - box.getBoundingClientRect().top;
    if (lower < 0) box.scrollTop += lower - 8;
    else if (lower > box.clientHeight - 30) box.scrollTop += lower - box.clientHeight + 30;
    if (!box.contains(document.activeElement)) return;
    button.focus({ preventScroll: true });
    element('squares').scrollIntoView({ block: 'nearest' });
  }

  unmark() {
    if (this.current) this.current.row.buttons[this.current.index].removeAttribute('aria-current');
    this.current = null;
  }

  /** Returns to the diagram. */
  leave() {
    if (!this.current) return;
    const { row, index } = this.current;
    this.unmark();
    if (element('tree').contains(document.activeElement)) row.buttons[index].focus({ preventScroll: true });
    this.showPlace(null);
  }

  onward() {
    if (!this.current) {
      const first = this.groups.find(group => group.rows.length);
      if (first) this.go(first.rows[0], 0);
      return;
    }
    const { row, index } = this.current;
    if (index + 1 < row.moves.length) this.go(row, index + 1);
    else if (row.hasBelow) this.go(row.below[0], 0);
  }

  backward() {
    if (!this.current) return;
    const { row, index } = this.current;
    if (index > 0) this.go(row, index - 1);
    else if (row.parent) this.go(row.parent, row.parent.buttons.length - 1);
    else this.leave();
  }

  /** @param {KeyboardEvent} event */
  key(event) {
    if (event.ctrlKey || event.metaKey || event.altKey) return;
    const row = this.current?.row;
    /** @type {Record<string, () => void>} */
    const acts = {
      ArrowRight: () => this.onward(), ArrowLeft: () => this.backward(), Escape: () => this.leave(),
      ArrowDown: () => this.step(1), ArrowUp: () => this.step(-1),
      '+': () => row && this.fold(row, true), '-': () => row && this.fold(row, false),
    };
    if (!(event.key in acts)) return;
    event.preventDefault();
    acts[event.key]();
  }

  /**
   * Goes to the next shown row below or above, also of another phase or problem.
   * @param {number} step
   */
  step(step) {
    if (!this.current) {
      this.onward();
      return;
    }
    const shown = this.groups.flatMap(group => shownRows(group.rows));
    let { row } = this.current;
    while (row.parent && !shown.includes(row)) row = row.parent;
    const next = shown[shown.indexOf(row) + step];
    if (next) this.go(next, 0);
  }
}
