// @ts-check
// The notes below the board.
import { shortened } from './elements.js';

export class Notes {
  /** @param {HTMLElement} place shows the note */
  constructor(place) {
    this.place = place;
    this.holds = () => true;
    this.isOfAction = false;
    /** Counts the notes. */
    this.number = 0;
  }

  /**
   * Shows a note until its cause is gone, of a long one the beginning; returns its number.
   * @param {string} text
   * @param {() => boolean} holds whether the cause is still there
   * @param {boolean} [isOfAction] whether it says what came of an action, and goes when the next one begins
   */
  show(text, holds, isOfAction = false) {
    Object.assign(this, { holds, isOfAction });
    this.place.textContent = shortened(text);
    this.number += 1;
    return this.number;
  }

  /** Removes the note of an action, as another one begins. */
  endAction() {
    if (this.isOfAction) this.show('', () => true);
  }

  /** Removes the note if its cause is gone. */
  check() {
    if (!this.holds()) this.show('', () => true);
  }
}
