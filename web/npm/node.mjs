// The package for Node. Workers are threads.
import { readFile } from 'node:fs/promises';
import os from 'node:os';
import { Worker } from 'node:worker_threads';
import { solveWith } from './pops.mjs';

export { solveWith };

let loadedEngine = null;

async function engineOnce() {
  loadedEngine ??= WebAssembly.compile(await readFile(new URL('./pops.wasm', import.meta.url)));
  return loadedEngine;
}

/** A thread, as a web page sees a worker. */
class ThreadWorker {
  constructor(engine) {
    this.thread = new Worker(new URL('./worker-node.mjs', import.meta.url));
    this.thread.on('message', data => this.onmessage?.({ data }));
    this.thread.on('error', fault => this.onerror?.(fault));
    this.thread.postMessage({ engine });
  }

  postMessage(message) {
    this.thread.postMessage(message);
  }

  terminate() {
    this.thread.terminate();
  }
}

/** Solves a text in Node. */
export async function solve(text, options = {}) {
  const engine = await engineOnce();
  const processors = os.availableParallelism?.() ?? os.cpus().length;
  return solveWith(() => new ThreadWorker(engine), text, { ...options, workers: options.workers ?? (processors || 1) });
}
