// @ts-check
// Elements of the page: found by their names, and made.
import { MAN_NAMES } from './men.js';

const SHAPE = 'http://www.w3.org/2000/svg';
// The most letters of a line.
export const LONGEST_SHOWN = 5000;

/**
 * Returns the element with this name. The types of those that aren't plain elements are in types.d.ts.
 * @template {string} Id
 * @param {Id} id
 * @returns {Id extends keyof PageElements ? PageElements[Id] : HTMLElement}
 */
export function element(id) {
  return /** @type {any} */ (document.getElementById(id));
}

/**
 * Returns the text of an element that holds a part of the page: the engine, the worker, the shapes of men.
 * @param {string} id
 */
export function partText(id) {
  return element(id).textContent ?? '';
}

/** @param {string} script */
export function workerOf(script) {
  const source = URL.createObjectURL(new Blob([script], { type: 'text/javascript' }));
  const made = new Worker(source);
  URL.revokeObjectURL(source);
  return made;
}

/** @param {Man} man */
export function drawn(man) {
  const drawing = document.createElementNS(SHAPE, 'svg');
  const use = document.createElementNS(SHAPE, 'use');
  drawing.setAttribute('viewBox', '0 0 45 45');
  drawing.setAttribute('class', `man ${man[0]}`);
  drawing.setAttribute('aria-hidden', 'true');
  use.setAttribute('href', `#${MAN_NAMES[man[1]]}`);
  drawing.append(use);
  return drawing;
}

/**
 * Makes a button.
 * @param {string} label its name
 * @param {() => void} act
 * @param {string} [said] its text, if that isn't its name
 */
export function makeButton(label, act, said = label) {
  const made = /** @type {HTMLButtonElement} */ (madeWith('button', said));
  made.type = 'button';
  made.setAttribute('aria-label', label);
  made.title = label;
  made.onclick = act;
  return made;
}

/** @param {string} tag @param {string} text */
export function madeWith(tag, text) {
  const made = document.createElement(tag);
  made.textContent = text;
  return made;
}

/**
 * Returns a text as a line of the page shows it: of a long one the beginning, since browsers lay out all letters of a line at once.
 * @param {string} text
 * @param {number} [most] its letters
 */
export const shortened = (text, most = LONGEST_SHOWN) => (text.length > most ? `${text.slice(0, most)}…` : text);
