// Runs the worker of web pages in a thread of Node.
import { parentPort } from 'node:worker_threads';

globalThis.postMessage = said => parentPort.postMessage(said);
globalThis.onmessage = null;
await import('./worker.js');
parentPort.on('message', data => globalThis.onmessage({ data }));
