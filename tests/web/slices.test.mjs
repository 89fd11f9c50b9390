// Work in slices, and a report that is read as it grows.
import assert from 'node:assert/strict';
import { readFileSync } from 'node:fs';
import test from 'node:test';
import { ReportReading, itemsOf } from '../../web/report.js';
import { atOnce, inSlices, LONG_TEXT, Work } from '../../web/slices.js';
import { blocksOf, wordsOf } from '../../web/text.js';
import { withSlowClock } from '../helpers/slow_clock.mjs';

const turn = () => new Promise(go => { setTimeout(go, 1); });

function* counting(most) {
  for (let count = 0; count < most; count++) yield;
  return most;
}

// Steps without an end; each takes a moment.
function* endless(seen) {
  for (;;) {
    seen.count += 1;
    for (const begun = performance.now(); performance.now() < begun + 5;);
    yield;
  }
}

test('slices: short work is done at once, however long it takes', () => {
  assert.equal(atOnce(counting(5)), 5);
  const results = [];
  inSlices(LONG_TEXT - 1, counting(1e6), it => results.push(it));
  assert.deepEqual(results, [1e6]);
});

test('slices: long work lets others do theirs, and can be ended', async () => {
  const seen = { count: 0 };
  const end = inSlices(LONG_TEXT, endless(seen));
  const first = seen.count;
  assert.ok(first >= 1);
  while (seen.count === first) await turn();
  end();
  const last = seen.count;
  for (let turns = 0; turns < 20; turns++) await turn();
  assert.equal(seen.count, last);
});

test('slices: the result comes after the last one', async () => {
  let result = 0;
  inSlices(LONG_TEXT, counting(3e7), it => { result = it; });
  while (!result) await turn();
  assert.equal(result, 3e7);
});

function* noting(seen, name, most, after) {
  for (let count = 0; count < most; count++) {
    seen.push(name);
    yield;
  }
  return after;
}

test('work: its parts share the slices, and what a part returns comes after all others', () => withSlowClock(pass => {
  const work = new Work();
  const seen = [];
  work.add(noting(seen, 'a', 1, noting(seen, 'c', 3)));
  work.add(noting(seen, 'b', 2));
  assert.deepEqual(seen, ['a']);
  for (let passes = 0; passes < 8; passes++) {
    const before = seen.length;
    pass();
    assert.ok(seen.length <= before + 1);
  }
  assert.deepEqual(seen, ['a', 'b', 'b', 'c', 'c', 'c']);
}));

test('work: what is left isn\'t done, and other work begins at once', () => withSlowClock(pass => {
  const work = new Work();
  const seen = [];
  work.add(noting(seen, 'a', 9));
  work.clear();
  work.add(noting(seen, 'b', 2));
  assert.deepEqual(seen, ['a', 'b']);
  for (let passes = 0; passes < 3; passes++) pass();
  assert.deepEqual(seen, ['a', 'b', 'b']);
  work.add(noting(seen, 'c', 1));
  assert.deepEqual(seen.slice(3), ['c']);
}));

test('work: a part that fails leaves the others', () => withSlowClock(pass => {
  const work = new Work();
  const seen = [];
  function* failing() { throw new Error('no'); }
  assert.throws(() => work.add(failing()), /no/);
  work.add(noting(seen, 'a', 3));
  for (let passes = 0; passes < 4; passes++) pass();
  assert.equal(seen.length, 3);
}));

test('reading: a text that is read step by step has the same words and problems', () => {
  const text = readFileSync(new URL('../../examples/several_problems.pop', import.meta.url), 'utf8');
  const [words, blocks] = [wordsOf(text), blocksOf(text)];
  wordsOf('');
  blocksOf('');
  const steps = blocksOf.steps(text);
  while (!steps.next().done) assert.equal(blocksOf.knows(text), false);
  assert.equal(blocksOf.knows(text), true);
  assert.deepEqual([wordsOf(text), blocksOf(text)], [words, blocks]);
  assert.equal(blocks.length, 3);
});

test('reading: a report that comes in two parts, cut anywhere, has the same items', () => {
  for (const name of ['several_problems', 'set_play', 'faults']) {
    const report = readFileSync(new URL(`../../examples/${name}.report`, import.meta.url), 'utf8');
    const wanted = itemsOf(report);
    assert.ok(wanted.length);
    for (let cut = 0; cut <= report.length; cut++) {
      const reading = new ReportReading(report.slice(0, cut));
      atOnce(reading.more());
      // (a line that isn't whole isn't read)
      const whole = report.slice(0, report.lastIndexOf('\n', cut - 1) + 1);
      if (cut) assert.deepEqual(reading.items, itemsOf(whole));
      reading.add(report.slice(cut));
      atOnce(reading.more());
      assert.deepEqual(reading.items, wanted);
    }
  }
});

test('reading: work that was broken off goes on', () => {
  const report = `problem 1\nh#1\nplay\n${'1.Kg8-h8 Ra1-h1#\n'.repeat(1000)}solutions: 1000\n\n`;
  const reading = new ReportReading(report);
  reading.more().next();
  const before = reading.items[0].phases[0].lines.length;
  assert.ok(before > 0 && before < 1000);
  atOnce(reading.more());
  assert.deepEqual(reading.items, itemsOf(report));
});
