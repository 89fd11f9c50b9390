// How a program solves a text: with made workers, whose engine knows one problem.
import assert from 'node:assert/strict';
import { test } from 'node:test';
import { LETTERS, UTF8 } from '../../web/codecs.js';
import { solve, solveWith } from '../../web/npm/pops.js';
import { Crew } from '../../web/crew.js';
import { solveByWorkers } from '../../web/solve.js';
import { Solving } from '../../web/solving.js';
import { problemsOf } from '../../web/text.js';

const TEXT = 'BeginProblem\nTitle é\nPieces White Kg6 Ra1 Black Kg8\nStipulation #1\nEndProblem\n';
const HEAD = 'problem 1\ntitle: é\n#1\n';
const REPORT = `${HEAD}play\n1.Ra1-a8#\nsolutions: 1\n\n`;
const TRIES = `${HEAD}play\n1.Ra1-a8#\nsolutions: 1\ntries\ntries: 0\n\n`;

/** A worker that answers at once, or never answers what takes long. */
class MadeWorker {
  static ended = 0;

  constructor({ hangs = false, fails = false } = {}) {
    Object.assign(this, { hangs, fails, asked: [] });
  }

  postMessage(call) {
    this.asked.push(call);
    if (this.hangs && !call.check) return;
    queueMicrotask(() => this.onmessage({ data: this.fails ? { failed: 'broken' } : this.answer(call) }));
  }

  answer({ call, check }) {
    const report = call === 'tries' ? TRIES : check ? `${HEAD}sound\n\n` : REPORT;
    return { status: 0, bytes: new TextEncoder().encode(report) };
  }

  terminate() {
    MadeWorker.ended += 1;
  }
}

const make = () => new MadeWorker();

test('codecs: any bytes are letters, also a byte order mark', () => {
  const bytes = Uint8Array.from({ length: 20000 }, (_, at) => at % 256);
  assert.deepEqual(LETTERS.encode(LETTERS.decode(bytes)), bytes);
  assert.equal(UTF8.decode(UTF8.encode('\ufeffé')), '\ufeffé');
});

test('solve: letters give letters, part by part, and all workers end', async () => {
  const parts = [];
  let made = 0;
  MadeWorker.ended = 0;
  const counted = () => { made += 1; return make(); };
  assert.deepEqual(await solveByWorkers(counted, TEXT, { onText: part => parts.push(part) }), { status: 0, report: REPORT, stopped: false });
  assert.deepEqual([parts.join(''), parts.length > 1, MadeWorker.ended], [REPORT, true, made]);
});

test('solve: bytes give bytes', async () => {
  const wanted = new TextEncoder().encode(REPORT);
  const parts = [];
  const { report } = await solveByWorkers(make, new TextEncoder().encode(TEXT), { onText: part => parts.push(...part) });
  assert.deepEqual([report, Uint8Array.from(parts)], [wanted, wanted]);
});

test('solve: tries and their refutations are asked for', async () => {
  const workers = [];
  const seen = () => { workers.push(make()); return workers.at(-1); };
  assert.equal((await solveByWorkers(seen, TEXT, { tries: true, refutations: 3, noBoard: true })).report, TRIES);
  const calls = workers.flatMap(it => it.asked).filter(it => it.call === 'tries');
  assert.deepEqual(calls.map(it => [it.refutations, it.noBoard]), [[3, true]]);
});

test('solve: a signal or the time stops it, with a beginning of the report', async () => {
  const stopping = new AbortController();
  const hanging = () => new MadeWorker({ hangs: true });
  const stopped = { status: null, report: HEAD, stopped: true };
  assert.deepEqual(await solveByWorkers(hanging, TEXT, { signal: stopping.signal, onText: () => stopping.abort() }), stopped);
  assert.deepEqual(await solveByWorkers(hanging, TEXT, { seconds: 0.05 }), stopped);
  assert.deepEqual(await solveByWorkers(hanging, TEXT, { signal: stopping.signal }), { ...stopped, report: '' });
});

test('solve: an engine or a receiver that fails rejects', async () => {
  await assert.rejects(solveByWorkers(() => new MadeWorker({ fails: true }), TEXT), /broken/);
  await assert.rejects(solveByWorkers(make, TEXT, { onText: () => { throw new Error('full'); } }), /full/);
});

test('solve: options without a meaning are refused', async () => {
  for (const wrong of [{ refutations: 201 }, { refutations: 0.5 }, { workers: 0 }, { seconds: -1 }, { seconds: NaN }]) {
    await assert.rejects(solveByWorkers(make, TEXT, wrong), RangeError);
  }
});

test('the package for web pages: a missing engine rejects, each time', async () => {
  assert.equal(solveWith, solveByWorkers);
  const { fetch } = globalThis;
  globalThis.fetch = async () => ({ ok: false, status: 404, statusText: 'Not Found' });
  try {
    for (const _ of [1, 2]) await assert.rejects(solve(TEXT), /pops.wasm: 404 Not Found/);
  } finally {
    globalThis.fetch = fetch;
  }
});

const THREE = 'BeginProblem Stipulation #1\nTitle a\nNextProblem Stipulation #0\nTitle b\nNextProblem Stipulation #1\nTitle c\nEndProblem\n';

const LIST = '2: fault 8, line 3, bytes 72 up to 74\n';

/** A worker whose engine solves each problem by its title, and takes problem b for faulty. */
class TitleWorker extends MadeWorker {
  answer({ call, text, check }) {
    if (call === 'faults') return { status: 1, bytes: new TextEncoder().encode(LIST) };
    const titles = new TextDecoder().decode(text).match(/Title ./g).map(it => it.at(-1));
    const items = titles.map((title, at) => (title === 'b' ? `problem ${at + 1}\nline 3: fault 8: bad stipulation\n\n`
      : `problem ${at + 1}\ntitle: ${title}\n#1\n${check ? 'sound' : `play\n1.R${title}1-${title}8#\nsolutions: 1`}\n\n`));
    return { status: Number(titles.includes('b')), bytes: new TextEncoder().encode(items.join('')) };
  }
}

/** Solves one of the three problems, with these settings. */
async function solvedOnly(only, settings = {}) {
  const solving = new Solving(THREE, { only, ...settings }, new Crew(1, () => new TitleWorker(), UTF8), () => {});
  return { ...await solving.solve(), report: solving.shown };
}

test('solving: the list of a faulty text is given before its report, once', async () => {
  const said = [];
  const crew = () => new Crew(1, () => new TitleWorker(), UTF8);
  const solving = new Solving(THREE, { placed: list => said.push(['list', list]) }, crew(), part => said.push(['report', part]));
  await solving.solve();
  assert.deepEqual(said.map(it => it[0]).indexOf('list'), 0);
  assert.deepEqual(said.filter(it => it[0] === 'list'), [['list', LIST]]);
  const sound = new Solving(THREE.replace('Title b', 'Title d'), { placed: assert.fail }, crew(), () => {});
  assert.equal((await sound.solve()).status, 0);
});

test('solving: one problem of several keeps its number', async () => {
  const third = 'problem 3\ntitle: c\n#1\nplay\n1.Rc1-c8#\nsolutions: 1\n\n';
  assert.deepEqual(await solvedOnly(3), { status: 0, report: third });
  assert.deepEqual(await solvedOnly(2), { status: 1, report: 'problem 2\nline 3: fault 8: bad stipulation\n\n' });
  assert.deepEqual(await solvedOnly(3, { check: true }), { status: 1, report: 'problem 3\ntitle: c\n#1\nsound\n\n' });
  assert.equal((await solvedOnly(0)).report.match(/problem /g).length, 3);
  const whole = new Solving(THREE, { only: 3 }, new Crew(1, () => new TitleWorker(), UTF8), () => {});
  whole.begin = () => whole.solveWhole();
  assert.deepEqual([await whole.solve(), whole.shown], [{ status: 1 }, third]);
});

test('solving: a text whose heads alone are more than the room of a report isn\'t divided into its problems', async () => {
  class Cut extends MadeWorker {
    answer({ call, check }) {
      return { ...super.answer({ call, check }), status: 3 };
    }
  }
  const text = TEXT.replace('Kg6', 'Kh6');
  let report = '';
  const ended = await new Solving(text, {}, new Crew(1, () => new Cut(), UTF8), part => { report += part; }).solve();
  assert.deepEqual([ended, report, problemsOf.knows(text)], [{ status: 3 }, REPORT, false]);
});
