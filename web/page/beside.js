// @ts-check
// Work of chores.js: short work is done at once, long work by a worker beside the page, which reacts meanwhile.
import { choreDone, choreMessage } from '../chores.js';
import { partText, workerOf } from '../elements.js';

// In letters.
export const SHORT_WORK = 5000;

/**
 * Does some work, and passes its result on. Returns whether it was done at once.
 * @param {string} name
 * @param {ChoreGiven} given
 * @param {(result: any) => void} take
 * @param {(fault: string) => void} refuse
 */
export function doChore(name, given, take, refuse) {
  if (given.text.length + (given.report?.length ?? 0) < SHORT_WORK) {
    take(choreDone(name, given));
    return true;
  }
  const helper = workerOf([...document.querySelectorAll('script')].find(it => !it.type)?.textContent ?? '');
  helper.onmessage = ({ data }) => {
    helper.terminate();
    take(data);
  };
  helper.onerror = fault => {
    helper.terminate();
    refuse(fault.message);
  };
  helper.postMessage(choreMessage(name, given, partText));
  return false;
}
