// @ts-check
// The package for web pages. The engine and the worker are files beside the module.
import { solveByWorkers } from '../solve.js';

/** @type {Promise<WebAssembly.Module> | null} */
let loadedEngine = null;

async function fetchEngine() {
  const answer = await fetch(new URL('./pops.wasm', import.meta.url));
  if (!answer.ok) throw new Error(`pops.wasm: ${answer.status} ${answer.statusText}`);
  return WebAssembly.compile(await answer.arrayBuffer());
}

/** Returns the compiled engine; after a failure the next call fetches it again. */
function engineOnce() {
  loadedEngine ??= fetchEngine().catch(fault => {
    loadedEngine = null;
    throw fault;
  });
  return loadedEngine;
}

/**
 * Solves a text by workers that MAKE makes, for other hosts than web pages and Node.
 * @type {typeof solveByWorkers}
 */
export const solveWith = solveByWorkers;

/**
 * Solves a text in a web page.
 * @param {string | Uint8Array} text
 * @param {SolveOptions} [options]
 */
export async function solve(text, options = {}) {
  const engine = await engineOnce();
  const make = () => {
    const worker = new Worker(new URL('./worker.js', import.meta.url));
    worker.postMessage({ engine });
    return worker;
  };
  return solveByWorkers(make, text, { ...options, workers: options.workers ?? (navigator.hardwareConcurrency || 1) });
}
