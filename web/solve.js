// @ts-check
// Solves a text for a program: what web pages and Node have in common.
import { LETTERS, UTF8 } from './codecs.js';
import { Crew } from './crew.js';
import { Solving } from './solving.js';

const MOST_TRIED = 200;
const MOST_MILLISECONDS = 2 ** 31 - 1;

/**
 * Refuses options that mean nothing.
 * @param {SolveOptions} options
 */
function refuseOptions({ refutations = 1, workers = 1, seconds = 0 }) {
  if (!Number.isInteger(refutations) || refutations < 0 || refutations > MOST_TRIED) {
    throw new RangeError(`refutations is a number from 0 to ${MOST_TRIED}, not ${refutations}`);
  }
  if (!Number.isInteger(workers) || workers < 1) throw new RangeError(`workers is a number from 1, not ${workers}`);
  if (!(seconds >= 0)) throw new RangeError(`seconds is a number from 0, not ${seconds}`);
}

/**
 * Solves a text by workers that MAKE makes. A text of letters has a report of letters, bytes have a report of bytes.
 * @param {() => EngineWorker} make
 * @param {string | Uint8Array} text
 * @param {SolveOptions} [options]
 * @returns {Promise<Solved>}
 */
export async function solveByWorkers(make, text, options = {}) {
  refuseOptions(options);
  const { tries = false, refutations = 1, workers = 1, seconds = Infinity, signal, check = false, noBoard = false, onText } = options;
  const isLetters = typeof text === 'string';
  const outward = (/** @type {string} */ said) => (isLetters ? said : LETTERS.encode(said));
  const crew = new Crew(workers, make, isLetters ? UTF8 : LETTERS);
  const settings = { check, noBoard, refutations: tries ? refutations : null };
  const solving = new Solving(isLetters ? text : LETTERS.decode(text), settings, crew, said => onText?.(outward(said)));
  const stop = () => solving.stop();
  const clock = seconds * 1000 > MOST_MILLISECONDS ? undefined : setTimeout(stop, seconds * 1000);
  signal?.addEventListener('abort', stop);
  /** @type {Ended} */
  const ended = signal?.aborted ? { isStopped: true } : await solving.solve();
  clearTimeout(clock);
  signal?.removeEventListener('abort', stop);
  if (ended.failed !== undefined) throw new Error(ended.failed);
  return { status: ended.status ?? null, report: outward(solving.shown), stopped: Boolean(ended.isStopped) };
}
