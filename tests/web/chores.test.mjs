// Work that may take seconds: of the page, and of a worker that runs the page's script.
import assert from 'node:assert/strict';
import { execFileSync } from 'node:child_process';
import { test } from 'node:test';
import { fileURLToPath } from 'node:url';
import { Worker } from 'node:worker_threads';
import { makeDocument, sharedParts } from '../helpers/page_imports.mjs';

makeDocument();
const { choreDone, choreMessage } = await import('../../web/chores.js');
const { speak } = await import('../../web/words.js');

const TEXT = 'BeginProblem\nTitle A mate\nOrigin Somewhere\nPieces White Kg6 Ra1 Black Kg8\nStipulation #1\nNextProblem\nPieces White Kg6 Ra1 Black Kh8\nStipulation h#1\nEndProblem\n';
const REPORT = 'problem 1\ntitle: A mate\n#1\nplay\n1.Ra1-a8#\nsolutions: 1\n\nproblem 2\nh#1\nplay\n1.Kh8-g8 Ra1-a8#\nsolutions: 1\n\n';
const YAML = "algebraic:\n  white: [Kg6, Ra1, Zb1]\n  black: [Kg8]\nstipulation: '#1'\ntwins: {b: Remove a1}\n";
const CASES = [['import', { text: YAML }], ['import', { text: TEXT }], ...['json', 'latex', 'page', 'yaml'].map(it => [it, { text: TEXT, report: REPORT, numbers: [1, 2] }]),
  ['short', { text: TEXT, report: REPORT, numbers: [2] }]];
// Runs a script as a browser's worker does, which has no document.
const THREAD = `
const { parentPort, workerData } = require('node:worker_threads');
globalThis.postMessage = said => parentPort.postMessage(said);
globalThis.onmessage = null;
require('node:vm').runInThisContext(workerData);
parentPort.on('message', data => globalThis.onmessage({ data }));
`;

test('chores: of a report only the items that are wanted', () => {
  assert.equal(choreDone('json', { text: TEXT, report: REPORT, numbers: [2] }).trim().split('\n').length, 1);
  assert.match(choreDone('json', { text: TEXT, report: REPORT, numbers: [1] }), /"origin": ?"Somewhere"/);
  assert.equal(choreDone('short', { text: TEXT, report: REPORT, numbers: [2] }), '1.Kg8 Ra8#\n');
  assert.match(choreDone('page', { text: TEXT, report: REPORT, numbers: [1] }), /1\.Ra1-a8#/);
  assert.match(choreDone('yaml', { text: TEXT, report: REPORT, numbers: [1, 2] }).text, /solution: \|/);
  assert.match(choreDone('latex', { text: TEXT, report: REPORT, numbers: [1, 2] }).made, /begin\{document\}/);
  assert.equal(choreDone('import', { text: TEXT }), null);
});

test('chores: a worker that runs the page\'s script does the same, in each language', async () => {
  const script = execFileSync('python3', [fileURLToPath(new URL('../../web/join.py', import.meta.url))], { encoding: 'utf8', maxBuffer: 1 << 26 });
  const worker = new Worker(THREAD, { eval: true, workerData: script });
  for (const code of ['en', 'de', 'fr']) {
    speak(code);
    for (const [name, given] of CASES) {
      const answer = new Promise((take, refuse) => worker.once('message', take).once('error', refuse));
      worker.postMessage(choreMessage(name, given, id => sharedParts()[id]));
      assert.deepEqual(await answer, choreDone(name, given), `${name} in ${code}`);
    }
  }
  speak('en');
  await worker.terminate();
});
