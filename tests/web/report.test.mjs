// Reports: read, drawn, put together from parts, and solved by workers.
import assert from 'node:assert/strict';
import { test } from 'node:test';
import { Crew } from '../../web/crew.js';
import { makeDocument } from '../helpers/page_imports.mjs';
import { headsOf, itemTexts, limitOf, listOf, PhasePiece, ReportText, solutionsOf } from '../../web/parts.js';
import { askedOf, foundIn, itemsOf, labelOf, movesOf, rowsOf, triesIn } from '../../web/report.js';
import { Solving } from '../../web/solving.js';

makeDocument();
const { diagramFile, jsonOf, sheetOf } = await import('../../web/outputs.js');
const objectOf = item => JSON.parse(jsonOf(item));

const REPORT = 'problem 1\ntitle: A\n#2\nplay\n1.Qh8-b2\n  1...Ke1-d1\n    2.Rc7-c1#\nsolutions: 1\n\n';
const [ITEM] = itemsOf(REPORT);
const TRIES = 'problem 1\n#2\nset\n1...Kh2-h1\n  2.Qb5-b1#\nsolutions: 1\nplay\n1.Qb5-f1!\n  threat\n    2.Qf1-g1#\n  1...Bf3-g2\n    2.Qf1*g2#\nsolutions: 1\n'
  + 'tries\n1.Qb5-b2+?\n  check\n  but\n    1...Bf3-e2!\n1.Qb5-e5?\n  zugzwang\n  but\n    1...Kh2-h1!\ntries: 2\n\n';
const CODEC = { encode: text => new TextEncoder().encode(text), decode: bytes => new TextDecoder().decode(bytes) };

test('report: items and moves', () => {
  assert.deepEqual([ITEM.title, ITEM.asked.moves, ITEM.phases[0].count, ITEM.isWhole], ['A', 2, 1, true]);
  assert.equal(askedOf('h#1.5 Circe').halfMoves, 3);
  assert.equal(askedOf('nothing'), null);
  const [move] = movesOf('1.e7*d8=S+', false);
  assert.deepEqual([move.from, move.to, move.promotion, move.captures, move.mark, move.colour], ['e7', 'd8', 'S', true, '+', 'w']);
  assert.equal(labelOf(movesOf('1...Ke1-d1', false)[0]), '1...Ke1-d1');
});

test('report: a line that does not belong there ends the reading', () => {
  assert.equal(itemsOf('problem 1\n#1\nplay\n<b>\nsolutions: 0\n\nproblem 2\n').length, 1);
});

test('report: rows, what was found, objects', () => {
  const [row] = rowsOf(ITEM.phases[0], false);
  assert.equal(row.below[0].below[0].moves[0].said, 'Rc7-c1#');
  assert.deepEqual(foundIn(ITEM), { name: 'foundKey', count: 1, isStopped: false });
  assert.deepEqual(objectOf(ITEM).stipulation, { text: '#2', play: 'direct', goal: 'mate', moves: 2, half_moves: 3 });
});

test('report: keys, threats, tries and refutations', () => {
  const [item] = itemsOf(TRIES);
  assert.deepEqual(item.phases.map(it => [it.kind, it.count, it.total]), [['set', 1, 'solutions: 1'], ['play', 1, 'solutions: 1'], ['tries', 2, 'tries: 2']]);
  assert.deepEqual([foundIn(item).name, triesIn(item), triesIn(ITEM), item.isWhole], ['foundKey', 2, null, true]);
  const said = row => [row.word ?? labelOf(row.moves[0]), row.path.length, ...row.below.map(said)];
  assert.deepEqual(rowsOf(item.phases[1], false).map(said),
    [['1.Qb5-f1!', 0, ['threat', 1, ['2.Qf1-g1#', 1]], ['1...Bf3-g2', 1, ['2.Qf1*g2#', 2]]]]);
  assert.deepEqual(rowsOf(item.phases[2], false).map(said), [['1.Qb5-b2+?', 0, ['check', 1], ['but', 1, ['1...Bf3-e2!', 1]]],
    ['1.Qb5-e5?', 0, ['zugzwang', 1], ['but', 1, ['1...Kh2-h1!', 1]]]]);
  const [first, next] = objectOf(item).tries;
  assert.deepEqual([first.text, first.menace, first.refutations.map(it => it.text), next.menace], ['1.Qb5-b2+?', 'check', ['1...Bf3-e2!'], 'zugzwang']);
});

test('report: a try that stalemates', () => {
  const [item] = itemsOf('problem 1\n#1\nplay\nsolutions: 0\ntries\n1.Kb6-a6?\n  but\n    stalemate\ntries: 1\n\n');
  const said = row => [row.word ?? labelOf(row.moves[0]), row.path.length, ...row.below.map(said)];
  assert.deepEqual(rowsOf(item.phases[1], false).map(said), [['1.Kb6-a6?', 0, ['but', 1, ['stalemate', 1]]]]);
});

test('report: beginnings of a report with tries, and lines that do not belong there', () => {
  for (let end = 1; end < TRIES.length; end++) assert.equal(itemsOf(TRIES.slice(0, end)).length <= 1, true);
  const phases = text => itemsOf(text)[0].phases.map(it => [it.kind, it.isPossible, it.total]);
  assert.deepEqual(phases('problem 1\nh#1\nno tries in help play\n\n'), [['tries', false, 'no tries in help play']]);
  assert.deepEqual(phases('problem 1\n#1\nno tries in help play\n\n'), []);
  assert.deepEqual(phases('problem 1\n#1\ntries\n'), []);
  assert.deepEqual(itemsOf('problem 1\n#1\nplay\n  threat\n')[0].phases[0].lines, []);
  assert.deepEqual(itemsOf('problem 1\nh#1\nplay\n1.Kg8-h8 Ra1-h1#!\n')[0].phases[0].lines, []);
});

test('diagrams: titles are escaped', () => {
  assert.equal(diagramFile(new Map(), '<b>').includes('<b>'), false);
  assert.equal(sheetOf(itemsOf(REPORT.replace('A', '<b>')), 'all').includes('<b>'), false);
});

test('parts: texts, heads and lists', () => {
  assert.deepEqual(itemTexts('beg a\nnex b end'), ['beg a\nEndProblem\n', 'BeginProblem b EndProblem\n']);
  assert.equal(limitOf('beg opt max 7 end'), 7);
  assert.deepEqual(headsOf('problem 1\n#2\nsound\n\n'), [{ text: 'problem 1\n#2\n', isSound: true, isHelp: false, halfMoves: 3 }]);
  assert.deepEqual(listOf('1: set not possible, play 3\n'), [{ kind: 'set', parts: null }, { kind: 'play', parts: 3 }]);
  assert.throws(() => listOf('1: faulty\n'));
});

test('parts: pieces in any order make a beginning of the report', () => {
  const report = new ReportText([{ text: 'problem 1\n#1\n', isSound: true, halfMoves: 1 }]);
  const phase = new PhasePiece({ kind: 'play', parts: 2 }, Infinity);
  report.plan(0, [phase]);
  phase.take(2, solutionsOf('1.Rb1-b8#\nsolutions: 1\n', false));
  assert.equal(report.more(), 'problem 1\n#1\nplay\n');
  phase.take(1, solutionsOf('solutions: 0\n', false));
  assert.equal(report.more(), '1.Rb1-b8#\nsolutions: 1\n');
  assert.equal(report.isWhole, true);
});

/** A worker that answers with what `act` makes of a call; it never does if that is null. */
function workerOf(act) {
  return { isEnded: false, postMessage(call) { const data = act(call); if (data) queueMicrotask(() => this.onmessage({ data })); }, terminate() { this.isEnded = true; } };
}

test('crew: no more workers than allowed, and a failed one gets no other call', async () => {
  const made = [];
  const crew = new Crew(1, () => {
    made.push(workerOf(({ call }) => (call === 'bad' ? { failed: 'broken' } : { status: 0, bytes: CODEC.encode(call) })));
    return made.at(-1);
  }, CODEC);
  assert.deepEqual(await crew.ask({ call: 'one', text: '' }).answer, { status: 0, text: 'one' });
  await assert.rejects(crew.ask({ call: 'bad', text: '' }).answer, /broken/);
  assert.deepEqual([made.length, made[0].isEnded], [1, true]);
  await crew.free();
  assert.equal((await crew.ask({ call: 'two', text: '' }).answer).text, 'two');
  assert.equal(made.length, 2);
});

test('solving: a problem of few half-moves by one call after the test', async () => {
  const said = [];
  const replies = { true: 'problem 1\n#1\nsound\n\n', false: 'problem 1\n#1\nplay\nsolutions: 0\n\n' };
  const crew = new Crew(1, () => workerOf(({ check }) => ({ status: 0, bytes: CODEC.encode(replies[check]) })), CODEC);
  const solving = new Solving('beg sti #1 end', {}, crew, text => said.push(text));
  assert.deepEqual(await solving.solve(), { status: 0 });
  assert.equal(said.join(''), replies.false);
});

test('solving: with tries each problem is solved whole, after the test', async () => {
  const said = [];
  const asked = [];
  const replies = { report: 'problem 1\n#2\nsound\n\n', tries: TRIES };
  const crew = new Crew(1, () => workerOf(({ call, noBoard, refutations }) => {
    asked.push([call, noBoard, refutations]);
    return { status: 0, bytes: CODEC.encode(replies[call]) };
  }), CODEC);
  const solving = new Solving('beg sti #2 end', { refutations: 3, least: 1 }, crew, text => said.push(text));
  assert.deepEqual(await solving.solve(), { status: 0 });
  assert.equal(said.join(''), TRIES);
  assert.deepEqual(asked, [['report', false, undefined], ['tries', false, 3]]);
  assert.equal(solving.progress.found, 2);
});

test('solving: stopped', async () => {
  const solving = new Solving('beg sti #1 end', {}, new Crew(1, () => workerOf(() => null), CODEC), () => {});
  const ended = solving.solve();
  solving.stop();
  assert.deepEqual(await ended, { isStopped: true });
});

test('report: rows are made when they are asked for, and from a line on', () => {
  const squares = [...'abcdefgh'].flatMap(file => [...'12345678'].map(rank => file + rank)).slice(1);
  const play = squares.flatMap(one => squares.map(next => `1.Ka1-${one} Qa1-${next}#\n`)).join('');
  const battle = squares.map(one => `1.Ka1-${one}\n  1...Qa1-b2\n    2.Ra1-a8#\n`).join('');
  for (const [text, isHelp] of [[`problem 1\nh#1\nplay\n${play}`, true], [`problem 1\n#2\nplay\n${battle}`, false]]) {
    const [phase] = itemsOf(text)[0].phases;
    const lists = [];
    const made = (rows, above) => lists.push([rows.length, above]);
    const rows = rowsOf(phase, isHelp, { made });
    assert.deepEqual([rows.length, lists], [63, [[63, null]]]);
    assert.equal(rows.every(it => it.hasBelow), true);
    assert.equal(rows[5].below, rows[5].below);
    assert.deepEqual(lists.slice(1), [[rows[5].below.length, rows[5]]]);
    const { from } = rows[62];
    for (let at = 0; at < from; at++) Object.defineProperty(phase.solutions, at, { get() { throw new Error('looked at'); } });
    const [last, ...others] = rowsOf(phase, isHelp, { from });
    assert.deepEqual([last.moves, last.to, others], [rows[62].moves, phase.solutions.length, []]);
    assert.deepEqual(last.below.map(it => it.moves[0].said), rows[62].below.map(it => it.moves[0].said));
  }
});
