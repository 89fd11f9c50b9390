// @ts-check
// The board on the page, used by mouse, touch and keys. It passes each change to the page as new men.
import { drawn, element, madeWith, makeButton } from './elements.js';
import { KINDS } from './men.js';
import { FILES, placeOf, squareOf } from './position.js';
import { say, sayMan } from './words.js';

const HAND = 'hand';
const DRAG_PIXELS = 6;

export class Board {
  /**
   * PAGE has change(changer), which takes a function from the men to other men; move(from, to); note(text, holds), which
   * shows a note while its cause holds; and check(), which removes the note once the cause is gone.
   * @param {BoardPage} page
   */
  constructor(page) {
    this.page = page;
    /** @type {Men} */
    this.men = new Map();
    this.tool = HAND;
    /** @type {Square | null} */
    this.held = null;
    /** @type {{ man: Man, square: Square | null, x: number, y: number, ghost: HTMLElement | null } | null} */
    this.drag = null;
    this.wasDragged = false;
    this.isFlipped = false;
    /** @type {Map<Square, HTMLElement>} */
    this.squares = new Map();
    this.buildSquares();
    this.buildTools();
    addEventListener('pointermove', event => this.moved(event));
    addEventListener('pointerup', event => this.dropped(event));
    addEventListener('pointercancel', () => this.endDrag());
  }

  buildSquares() {
    for (const rank of '87654321') for (const file of FILES) this.builtSquare(file, rank);
    this.flip(false);
    element('a8').tabIndex = 0;
    element('squares').onkeydown = event => this.key(/** @type {KeyboardEvent & { target: HTMLElement }} */ (event));
  }

  /**
   * Puts the squares in their rows, as seen by White or by Black, with the files' letters in the lowest row and the ranks' numbers in the left
   * column.
   * @param {boolean} isFlipped
   */
  flip(isFlipped) {
    this.isFlipped = isFlipped;
    const [ranks, files] = isFlipped ? ['12345678', [...FILES].reverse()] : ['87654321', [...FILES]];
    element('squares').replaceChildren(...[...ranks].map(rank => {
      const row = document.createElement('div');
      row.setAttribute('role', 'row');
      row.append(...files.map(file => {
        const square = /** @type {HTMLElement} */ (this.squares.get(file + rank));
        Object.assign(square.dataset, { file: ranks[7] === rank ? file : '', rank: files[0] === file ? rank : '' });
        return square;
      }));
      return row;
    }));
  }

  /** @param {string} file @param {string} rank */
  builtSquare(file, rank) {
    const made = document.createElement('button');
    made.type = 'button';
    made.id = file + rank;
    this.squares.set(made.id, made);
    made.tabIndex = -1;
    made.setAttribute('role', 'gridcell');
    made.className = (FILES.indexOf(file) + Number(rank)) % 2 ? 'dark' : 'light';
    made.onclick = () => this.click(made.id);
    made.onpointerdown = event => {
      const man = this.men.get(made.id);
      this.wasDragged = false;
      if (man && !this.held) this.beginDrag({ man, square: made.id }, event);
    };
    made.onfocus = () => {
      for (const it of this.squares.values()) it.tabIndex = it === made ? 0 : -1;
    };
    made.oncontextmenu = event => {
      event.preventDefault();
      this.set(made.id, null);
    };
  }

  buildTools() {
    this.addTool(HAND, say('move'), '☚');
    for (const kind of KINDS) this.addTool(`w${kind}`, sayMan(`w${kind}`));
    this.addTool('', say('remove'), '✕');
    for (const kind of KINDS) this.addTool(`b${kind}`, sayMan(`b${kind}`));
    this.choose(HAND);
  }

  /** @param {string} tool @param {string} label @param {string} [sign] */
  addTool(tool, label, sign = '') {
    const made = makeButton(label, () => this.choose(tool), '');
    made.dataset.tool = tool;
    made.append(sign || drawn(tool));
    if (!sign) made.onpointerdown = event => this.beginDrag({ man: tool, square: null }, event);
    element('men').append(made);
  }

  /** @param {string} tool */
  choose(tool) {
    this.tool = tool;
    this.hold(null);
    for (const it of element('men').children) it.setAttribute('aria-pressed', String(it.dataset.tool === tool));
  }

  /**
   * Shows these men, and marks the squares of TRACE.
   * @param {Men} men
   * @param {Square[]} trace
   */
  show(men, trace) {
    this.men = men;
    for (const it of element('squares').querySelectorAll('button')) {
      const man = men.get(it.id);
      if (it.dataset.man !== (man ?? '')) it.replaceChildren(...(man ? [drawn(man)] : []));
      it.dataset.man = man ?? '';
      it.classList.toggle('holds', Boolean(man));
      it.classList.toggle('trace', trace.includes(it.id));
      it.setAttribute('aria-label', say('square', { square: it.id, man: man ? sayMan(man) : say('empty') }));
    }
    element('ranks').replaceChildren(...[...'87654321'].map(rank => {
      const placed = [...FILES].map(file => file + rank).filter(square => men.has(square));
      const said = placed.map(square => say('placed', { man: sayMan(men.get(square) ?? ''), square }));
      return madeWith('li', say('rank', { rank, men: said.join(', ') || say('emptyRank') }));
    }));
  }

  /** @param {Square} square @param {Man | null} man */
  set(square, man) {
    this.hold(null);
    this.page.change(men => {
      const changed = new Map(men);
      if (man) changed.set(square, man);
      else changed.delete(square);
      return changed;
    });
  }

  /**
   * Moves a man to a square.
   * @param {Square} from
   * @param {Square} to
   */
  move(from, to) {
    this.hold(null);
    this.page.move(from, to);
  }

  /** @param {Square | null} square */
  hold(square) {
    if (this.held) element(this.held).classList.remove('held');
    this.held = square;
    this.page.check();
    if (!square) return;
    element(square).classList.add('held');
    const held = say('held', { man: sayMan(this.men.get(square) ?? ''), square });
    this.page.note(held, () => this.held === square);
  }

  /** @param {Square} square */
  click(square) {
    const man = this.men.get(square);
    if (this.wasDragged) this.wasDragged = false;
    else if (this.held) {
      if (this.held === square) this.hold(null);
      else this.move(this.held, square);
    } else if (this.tool !== HAND) this.set(square, man === this.tool ? null : this.tool);
    else if (man) this.hold(square);
  }

  /**
   * Starts to drag a man, from a square or from the palette.
   * @param {{ man: Man, square: Square | null }} dragged
   * @param {PointerEvent} event
   */
  beginDrag({ man, square }, event) {
    if (event.button !== 0) return;
    if (event.pointerType === 'touch') /** @type {HTMLElement} */ (event.target).releasePointerCapture?.(event.pointerId);
    this.drag = { man, square, x: event.clientX, y: event.clientY, ghost: null };
  }

  /** @param {PointerEvent} event */
  moved(event) {
    const { drag } = this;
    if (!drag) return;
    const isFar = Math.hypot(event.clientX - drag.x, event.clientY - drag.y) > DRAG_PIXELS;
    if (!drag.ghost && isFar) {
      drag.ghost = Object.assign(document.createElement('div'), { id: 'ghost' });
      drag.ghost.append(drawn(drag.man));
      document.body.append(drag.ghost);
    }
    if (!drag.ghost) return;
    drag.ghost.style.left = `${event.clientX}px`;
    drag.ghost.style.top = `${event.clientY}px`;
    const aim = this.squareUnder(event);
    for (const it of element('squares').querySelectorAll('.aim')) it.classList.remove('aim');
    if (aim) element(aim).classList.add('aim');
  }

  /** @param {PointerEvent} event */
  squareUnder({ clientX, clientY }) {
    return document.elementFromPoint(clientX, clientY)?.closest('#squares button')?.id ?? null;
  }

  /** @param {PointerEvent} event */
  dropped(event) {
    const { drag } = this;
    if (!drag) return;
    this.endDrag();
    if (!drag.ghost) return;
    const to = this.squareUnder(event);
    // (the click at the end of a drag to the same square is ignored)
    this.wasDragged = to !== null && to === drag.square;
    if (this.wasDragged) return;
    if (to && drag.square) this.move(drag.square, to);
    else if (to) this.set(to, drag.man);
    else if (drag.square) this.set(drag.square, null);
  }

  endDrag() {
    this.drag?.ghost?.remove();
    this.drag = null;
    for (const it of element('squares').querySelectorAll('.aim')) it.classList.remove('aim');
  }

  /** @param {KeyboardEvent & { target: HTMLElement }} event */
  key(event) {
    const square = event.target.id;
    if (!/^[a-h][1-8]$/.test(square) || event.ctrlKey || event.metaKey || event.altKey) return;
    const [file, rank] = placeOf(square);
    /** @type {Record<string, [number, number]>} */
    const steps = { ArrowLeft: [-1, 0], ArrowRight: [1, 0], ArrowUp: [0, 1], ArrowDown: [0, -1] };
    const step = steps[event.key]?.map(it => (this.isFlipped ? -it : it));
    const kind = event.key.toUpperCase();
    if (step) {
      /** @param {number} number */
      const inside = number => Math.min(7, Math.max(0, number));
      element(squareOf(inside(file + step[0]), inside(rank + step[1]))).focus();
    } else if (event.key === 'Home' || event.key === 'End') element(((event.key === 'Home') !== this.isFlipped ? 'a' : 'h') + square[1]).focus();
    else if (event.key.length === 1 && KINDS.includes(kind)) this.set(square, (event.key === kind ? 'w' : 'b') + kind);
    else if (['Delete', 'Backspace', '.'].includes(event.key)) this.set(square, null);
    else if (event.key === 'Escape' && this.held) this.hold(null);
    else return;
    event.preventDefault();
    if (event.key === 'Escape') event.stopPropagation();
  }
}
