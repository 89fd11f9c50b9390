// @ts-check
// The switches of solving, which a reload in the same tab finds as they were.
import { element } from '../elements.js';
import { keepInTab, keptInTab } from './storage.js';

const SWITCHES = /** @type {const} */ (['check', 'tries', 'refutations']);
const STORED = 'pops.switches';

/** Sets the switches as this tab stored them, and stores each change: of each the switch and its value. */
export function buildSwitches() {
  const keepSwitches = () => keepInTab(STORED, JSON.stringify(SWITCHES.map(name => [element(name).checked, element(name).value])));
  const stored = keptInTab(STORED);
  if (stored) JSON.parse(stored).forEach((/** @type {[boolean, string]} */ [checked, value], /** @type {number} */ at) => Object.assign(element(SWITCHES[at]), { checked, value }));
  for (const name of SWITCHES) element(name).addEventListener('change', keepSwitches);
}
