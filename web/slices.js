// @ts-check
// Long work in slices: between two slices the page reacts to the user.

// In letters: what takes longer than a moment with a longer text isn't done at each letter that is typed, nor all at once.
export const LONG_TEXT = 100000;
const SLICE_MILLISECONDS = 50;

/**
 * Does all steps of some work at once; returns its result.
 * @template T
 * @param {Generator<void, T>} steps
 * @returns {T}
 */
export function atOnce(steps) {
  for (;;) {
    const { done, value } = steps.next();
    if (done) return /** @type {T} */ (value);
  }
}

/**
 * Does the steps of some work on a text, on a long one in slices, the first one now; then passes its result on. Returns what stops it.
 * @template T
 * @param {number} length the letters of the text
 * @param {Generator<void, T>} steps
 * @param {(result: T) => void} [ended]
 */
export function inSlices(length, steps, ended = () => {}) {
  const work = new Work();
  if (length < LONG_TEXT) ended(atOnce(steps));
  else work.add((function* () { ended(yield* steps); }()));
  return () => work.clear();
}

/** Work of many parts, one after the other, in slices that they share. */
export class Work {
  constructor() {
    /** @type {WorkSteps[]} */
    this.waiting = [];
    /** @type {WorkSteps[]} what comes after all that waits */
    this.later = [];
    this.end = 0;
    this.isNewSlice = false;
    /** @type {ReturnType<typeof setTimeout> | undefined} */
    this.next = undefined;
  }

  /**
   * Adds a part, which is begun now if the slice has time for it. The steps that it returns come after all other parts.
   * @param {WorkSteps} steps
   */
  add(steps) {
    this.waiting.push(steps);
    if (this.next === undefined) this.beginSlice();
    this.goOn();
  }

  /** Leaves all that isn't done. */
  clear() {
    clearTimeout(this.next);
    this.next = undefined;
    this.waiting = [];
    this.later = [];
  }

  /** The parts of which the first one is next. */
  get parts() {
    return this.waiting.length ? this.waiting : this.later;
  }

  /** Begins a slice, in which one step at least is done, and after which the page has its turn. */
  beginSlice() {
    this.end = performance.now() + SLICE_MILLISECONDS;
    this.isNewSlice = true;
    this.next = setTimeout(() => {
      this.next = undefined;
      if (!this.parts.length) return;
      this.beginSlice();
      this.goOn();
    });
  }

  goOn() {
    while (this.parts.length && (this.isNewSlice || performance.now() < this.end)) {
      this.isNewSlice = false;
      const { parts } = this;
      const { done, value } = parts[0].next();
      if (!done) continue;
      parts.shift();
      if (value) this.later.push(value);
    }
  }
}
