// Solves texts as the page does, in Node: with the page's modules, and workers that are threads with the page's own worker and
// engine, or made workers with a made engine. The made engine divides the report of the program pops: a part for each beginning
// of its solutions, and empty parts between them; or it uses the program pops-part to list and solve the parts. For reports with
// tries it uses the program pops-tries.
//
// Standard input: a line with { worker, engine } in base64 or { program, parts, tries }, then a line for each text with { text } in
// base64 and { check, noBoard, refutations, least, workers, stopAfter }, for the made engine also { breaks, room }: how it
// breaks, and for how many bytes it has room. Standard output: a line for each text, how solving ended and { report }.
import { spawnSync } from 'node:child_process';
import { readFileSync } from 'node:fs';
import * as threads from 'node:worker_threads';
import { Crew } from '../../web/crew.js';
import { limitOf } from '../../web/parts.js';
import { Solving } from '../../web/solving.js';
import { withField } from '../../web/text.js';

const CUT_STATUS = 3;
const SECONDS_A_TEXT = 7200;
const SECONDS_OF_THE_PROGRAM = 7200;
const SECONDS_OF_A_HANG = 5;
// A text that takes more processor seconds without its limit of solutions is solved with it.
const SECONDS_WITHOUT_LIMIT = 3;
// Turns bytes into letters and back, so that any bytes are a text.
const CODEC = {
  encode: text => new Uint8Array(Buffer.from(text, 'latin1')),
  decode: bytes => Buffer.from(bytes).toString('latin1'),
};
const THREAD = `
const { parentPort, workerData } = require('worker_threads');
globalThis.postMessage = said => parentPort.postMessage(said);
globalThis.onmessage = null;
require('vm').runInThisContext(workerData);
parentPort.on('message', data => globalThis.onmessage({ data }));
`;

// A worker of the page in a thread. A worker that is ended while idle is used again for the next text.
class ThreadWorker {
  static idle = [];

  static of(source, engine) {
    return ThreadWorker.idle.pop() ?? new ThreadWorker(source, engine);
  }

  constructor(source, engine) {
    this.isBusy = false;
    this.thread = new threads.Worker(THREAD, { eval: true, workerData: source });
    this.thread.on('message', data => {
      this.isBusy = false;
      this.onmessage({ data });
    });
    this.thread.on('error', fault => this.onerror(fault));
    this.thread.postMessage({ engine });
  }

  postMessage(data) {
    this.isBusy = true;
    this.thread.postMessage(data);
  }

  terminate() {
    if (this.isBusy) this.thread.terminate();
    else ThreadWorker.idle.push(this);
  }
}

// Runs a program on a text: its output and its status.
class Program {
  constructor(path) {
    Object.assign(this, { path, kept: new Map() });
  }

  // The status is null if the program takes more processor seconds than `seconds`.
  run(words, text, seconds = 'unlimited') {
    const key = JSON.stringify([words, text, seconds]);
    if (!this.kept.has(key)) this.kept.set(key, this.ran(words, text, seconds));
    return this.kept.get(key);
  }

  ran(words, text, seconds) {
    const limited = ['-c', `ulimit -t ${seconds}; exec "$@"`, 'sh', this.path, ...words];
    const done = spawnSync('sh', limited, { input: Buffer.from(text, 'latin1'), maxBuffer: 1 << 28,
      timeout: SECONDS_OF_THE_PROGRAM * 1000 });
    if (done.error) throw new Error(`${this.path}: ${done.error.message}`);
    return { status: done.status, text: done.stdout.toString('latin1') };
  }
}

// The made engine: the four calls.
class MadeEngine {
  constructor(program, tries) {
    Object.assign(this, { program, triesProgram: tries });
  }

  tries({ text, noBoard, refutations }) {
    return this.triesProgram.run([...(noBoard ? ['--no-board'] : []), '--refutations', String(refutations)], text);
  }

  report({ text, check, noBoard }) {
    return this.program.run([...(check ? ['--check'] : []), ...(noBoard ? ['--no-board'] : [])], text);
  }

  list({ text, depth }) {
    const phases = this.phases(text, depth);
    if (!phases) return { status: 1, text: '1: faulty\n' };
    const said = Object.entries(phases).map(([name, parts]) => `${name} ${parts ? parts.length : 'not possible'}`);
    return { status: 0, text: `1: ${said.join(', ')}\n` };
  }

  part({ text, isSet, depth, number }) {
    const phases = this.phases(text, depth);
    if (!phases) return { status: 1, text: '' };
    const parts = phases[isSet ? 'set' : 'play'];
    if (parts === undefined) return { status: 6, text: '' };
    const part = parts?.[number - 1];
    if (!part) return { status: 7, text: '' };
    const limit = limitOf(text);
    const shown = part.slice(0, limit);
    return { status: 0, text: `${shown.join('')}solutions: ${shown.length}${shown.length === limit ? ', stopped' : ''}\n` };
  }

  // Returns the report of a text without its limit of solutions, unless that takes too long.
  withoutLimit(text) {
    const whole = this.program.run(['--no-board'], withField(text, 0, 'MaxSolutions', null), SECONDS_WITHOUT_LIMIT);
    return whole.status === null ? this.program.run(['--no-board'], text) : whole;
  }

  // Returns the parts of the phases of a text's first problem, each a list of solutions; null if it is faulty.
  phases(text, depth) {
    const { status, text: report } = this.withoutLimit(text);
    if (status) return null;
    const phases = {};
    const isHelp = /\nh[#=][0-9.]+(?: [CM][a-z]+)?\n/.test(report);
    for (const [, name, lines] of report.matchAll(/^(set|play)\n([^]*?)(?:solutions: .*|not possible)\n/gm)) {
      const solutions = lines.match(/^[^ ].*\n(?: .*\n)*/gm) ?? [];
      const isPossible = !report.includes(`${name}\n${lines}not possible\n`);
      phases[name] = isPossible ? this.shared(solutions, isHelp ? depth : 1) : null;
    }
    return phases;
  }

  // Divides solutions by their first moves, with an empty part before each and after the last.
  shared(solutions, depth) {
    if (!solutions.length) return [];
    const parts = [[]];
    let last = null;
    for (const solution of solutions) {
      const beginning = solution.replace(/ ep\./g, 'ep.').split('\n')[0].split(' ').slice(0, depth).join(' ');
      if (beginning === last) parts.at(-2).push(solution);
      else parts.push([solution], []);
      last = beginning;
    }
    return parts;
  }
}

// Returns the parts as pops-part makes them.
class EngineOfPrograms extends MadeEngine {
  constructor(program, parts) {
    super(program);
    this.parts = parts;
  }

  list({ text, depth }) {
    return this.parts.run(['--list', '--depth', String(depth)], text);
  }

  part({ text, isSet, depth, number }) {
    const words = ['--item', '1', '--phase', isSet ? 'set' : 'play', '--part', String(number), '--depth', String(depth)];
    return this.parts.run(words, text);
  }
}

function madeEngine({ program, parts, tries }) {
  if (!program) return null;
  return parts ? new EngineOfPrograms(new Program(program), new Program(parts)) : new MadeEngine(new Program(program), new Program(tries));
}

// A worker with the made engine, which replies after a while; a broken one fails, a hanging one says so and never replies.
class MadeWorker {
  constructor(engine, draw, { breaks, room = Infinity, hangs }) {
    Object.assign(this, { engine, draw, breaks, room, hangs, isEnded: false });
  }

  postMessage(data) {
    if (this.breaks === 'hangs' && data.call === 'part') {
      this.hangs();
      return;
    }
    setTimeout(() => this.isEnded || this.onmessage(this.answer(data)), this.draw() * 4);
  }

  answer(data) {
    if (this.breaks === 'fails' && data.call === 'part') return { data: { failed: 'broken' } };
    try {
      const { status, text } = this.engine[data.call]({ ...data, text: CODEC.decode(data.text) });
      const isCut = text.length > this.room;
      return { data: { status: isCut ? CUT_STATUS : status, bytes: CODEC.encode(isCut ? text.slice(0, this.room) : text) } };
    } catch (fault) {
      return { data: { failed: String(fault) } };
    }
  }

  terminate() {
    this.isEnded = true;
  }
}

// Makes numbers from 0 to 1, equal in each run.
function drawn(seed) {
  let state = seed;
  return () => {
    state = (state * 1103515245 + 12345) % 2147483648;
    return state / 2147483648;
  };
}

// Solves one text, and stops it after `stopAfter` pieces of its report.
async function solved(make, given) {
  const crew = new Crew(given.workers ?? 4, make, CODEC);
  let report = '';
  let pieces = 0;
  let isLate;
  const late = new Promise(end => { isLate = () => end({ failed: 'no end in time' }); });
  let limit = setTimeout(isLate, SECONDS_A_TEXT * 1000);
  given.hangs = () => {
    clearTimeout(limit);
    limit = setTimeout(isLate, SECONDS_OF_A_HANG * 1000);
  };
  const solving = new Solving(CODEC.decode(Buffer.from(given.text, 'base64')), given, crew, text => {
    report += text;
    pieces += 1;
    if (pieces === given.stopAfter) solving.stop();
  });
  const ended = await Promise.race([solving.solve(), late]);
  crew.stop();
  clearTimeout(limit);
  return { ...ended, pieces, progress: solving.progress, report: Buffer.from(report, 'latin1').toString('base64') };
}

async function main() {
  const [first, ...texts] = readFileSync(0, 'utf8').trim().split('\n').map(line => JSON.parse(line));
  const engine = first.engine && await WebAssembly.compile(Buffer.from(first.engine, 'base64'));
  const made = madeEngine(first);
  const draw = drawn(1);
  for (const given of texts) {
    const make = engine ? () => ThreadWorker.of(first.worker, engine) : () => new MadeWorker(made, draw, given);
    const line = JSON.stringify(await solved(make, given));
    await new Promise(written => { process.stdout.write(`${line}\n`, written); });
  }
  process.exit(0);
}

main();
