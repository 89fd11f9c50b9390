// Uses the installed package `pops` in Node. Arguments: the folders of the examples and of the stored tries. Standard input: texts in
// base64, each with its options and with report and status of the program. Standard output: a line of JSON for each use, whether it
// holds and what it is.
import { readFileSync, readdirSync } from 'node:fs';
import { solve } from 'pops';

const [examples, tries] = process.argv.slice(2);
const told = (holds, what) => console.log(JSON.stringify([Boolean(holds), what]));
const isSame = (one, other) => Buffer.compare(Buffer.from(one), Buffer.from(other)) === 0;
// It would take years.
const LONG = 'BeginProblem\nPieces White Kd1 Ra1 Bc1 Pa2 Black Ke8 Qb8 Pa7\nStipulation h#8\nEndProblem\n';
const MATE = readFileSync(`${examples}/morphy_1856.pop`, 'utf8');
// (a busy machine needs some)
const SECONDS_OF_A_STOP = 7200;

for (const { name, text, options, report, status } of JSON.parse(readFileSync(0, 'utf8'))) {
  const ours = await solve(Buffer.from(text, 'base64'), options);
  told(isSame(ours.report, Buffer.from(report, 'base64')) && ours.status === status, `${name}: bytes and status`);
}
for (const name of readdirSync(examples).filter(it => it.endsWith('.pop'))) {
  const text = readFileSync(`${examples}/${name}`);
  const wanted = readFileSync(`${examples}/${name.replace('.pop', '.report')}`);
  const parts = [];
  const { report, stopped } = await solve(text, { onText: part => parts.push(part) });
  told(isSame(report, wanted) && isSame(Buffer.concat(parts), wanted) && !stopped, `${name}: bytes, and the same in parts`);
}
const wanted = readFileSync(`${examples}/morphy_1856.report`, 'utf8');
told((await solve(MATE)).report === wanted, 'a string');
told((await solve(MATE, { workers: 1 })).report === wanted, 'one worker');
told((await solve(MATE, { noBoard: true })).report === wanted.replace(/^([1-8] .{8}| {2}abcdefgh)\n/gm, ''), 'no board');
told((await solve(MATE, { check: true })).report.endsWith('\n#2\nsound\n\n'), 'only tested');
told((await solve(readFileSync(`${tries}/morphy_1856.pop`, 'utf8'), { tries: true })).report === readFileSync(`${tries}/morphy_1856.tries`, 'utf8'), 'tries');
told((await solve('BeginProblem\nStipulation #0\nEndProblem\n')).status === 1, 'the status of a fault');
const many = Array.from({ length: 20 }, () => MATE.replace(/BeginProblem|EndProblem/g, '').trim()).join('\nNextProblem\n');
const all = await solve(`BeginProblem\n${many}\nEndProblem\n`, { workers: 4 });
told(all.report === Array.from({ length: 20 }, (_, at) => wanted.replace('problem 1', `problem ${at + 1}`)).join(''), 'twenty problems, in their order');

const stopping = new AbortController();
setTimeout(() => stopping.abort(), 500);
for (const [what, options] of [['a signal', { signal: stopping.signal }], ['seconds', { seconds: 0.5 }]]) {
  const begun = performance.now();
  const { status, report, stopped } = await solve(LONG, options);
  const seconds = (performance.now() - begun) / 1000;
  const isBeginning = report === '' || report.startsWith('problem 1\n');
  told(stopped && status === null && isBeginning && seconds < SECONDS_OF_A_STOP, `${what} stops it, in ${seconds.toFixed(1)} s`);
}
const refused = await solve(MATE, { workers: 0 }).catch(fault => fault);
told(refused instanceof RangeError, 'no workers are refused');
