// Explanations of faults, and texts of other programs. The sentences come from a stand-in for the browser's document.
import assert from 'node:assert/strict';
import { readFileSync } from 'node:fs';
import { test } from 'node:test';
import { makeDocument } from '../helpers/page_imports.mjs';

makeDocument();
const { explainFault, explanationOf, faultsOf, markedLines, mendProblem, placesOf, shown } = await import('../../web/explaining.js');
const { ownAdvice } = await import('../../web/faults.js');
const { companions } = await import('../../web/out/companions.js');
const { DATA, sentence } = companions;
const { py } = await import('../../web/python.js');
const { imported } = await import('../../web/importing.js');
const { documents } = await import('../../web/yaml.js');
const { contentAt, listedNumbers, twinsOf } = await import('../../web/contents.js');
const { blocksOf, lineAt, lineOf, problemsOf } = await import('../../web/text.js');
const { knownMen, knownSide } = await import('../../web/items.js');
const { givenOf } = await import('../../web/outputs.js');
const { atOnce } = await import('../../web/slices.js');

const explain = (text, item) => atOnce(explainFault(text, item));
const mendedProblem = (text, number) => atOnce(mendProblem(text, number));
const posed = (...lines) => `BeginProblem\n${lines.join('\n')}\nEndProblem\n`;

/** Returns the names of the squares of White's men that attack a square. */
const attackers = (men, target, isMadrasi) => companions.attackers(knownMen(men), companions.Square.of_name(target), knownSide('w'), isMadrasi).map(it => it.name).sort();

test('attacks: lines, hops and paralysed men', () => {
  const men = new Map([['a1', 'wR'], ['a4', 'wP'], ['a8', 'bK'], ['b8', 'wG'], ['h2', 'wN']]);
  assert.deepEqual(attackers(men, 'a5', false), []);
  assert.deepEqual(attackers(new Map([['a1', 'wR'], ['b3', 'wN']]), 'a5', false), ['a1', 'b3']);
  assert.deepEqual(attackers(new Map([['a1', 'wR'], ['a2', 'bR']]), 'a2', true), []);
});

test('companions: what the module uses of Python is there', () => {
  const text = readFileSync(new URL('../../web/out/companions.js', import.meta.url), 'utf8');
  const used = new Set(text.match(/\bpy(?:\.[A-Za-z_]+)+/g));
  assert.ok(used.size > 50);
  for (const path of used) assert.notEqual(path.split('.').slice(1).reduce((all, name) => all?.[name], py), undefined, path);
});

test('python: equal values are one key, texts and their bytes, patterns', () => {
  const { Colour, Kind, Man, Square } = companions;
  const men = py.dict([[Square.of_name('e4'), new Man(Colour.WHITE, Kind.PAWN)]]);
  assert.ok(py.has(men, new Square(5, 4)) && !py.has(men, new Square(4, 5)));
  assert.ok(py.eq(men.get(new Square(5, 4)), new Man(Colour.WHITE, Kind.PAWN)));
  assert.equal(py.decode(py.encode('Kб', 'utf-8'), 'utf-8'), 'Kб');
  assert.throws(() => py.decode('\xff', 'utf-8'), py.ValueError);
  assert.deepEqual([...py.re.compile('(?P<a>x)|y', py.re.IGNORECASE).finditer('Xy')].map(it => [it.start(), it.lastgroup]), [[0, 'a'], [1, null]]);
  assert.equal(py.re.sub('(.)(.)', '\\2\\1', 'abcd'), 'badc');
  assert.deepEqual(py.sorted([3, 1, 2], { key: it => -it }), [3, 2, 1]);
});

test('explaining: the first fault of a problem, what it is and where', () => {
  const faultOf = text => faultsOf(text)[0]?.fault ?? null;
  assert.equal(faultOf(posed('Pieces White Kg6 Ra1 Black Kg8', 'Stipulation #1')), null);
  assert.equal(faultOf(posed('Pieces White Kg6 Ka1')), 7);
  assert.equal(faultOf(posed('Stipulation #0')), 8);
  assert.equal(faultOf('BeginProblem\n'), 19);
  const text = posed('Title Ä', 'Pieces White Kg6 Ra1 Black Kg8 Tb1', 'Stipulation #1');
  const [{ line, fault, read }] = faultsOf(text);
  const { marks } = explanationOf(text, read);
  assert.deepEqual([line, fault, marks.map(({ from, to }) => text.slice(from, to))], [3, 2, ['Tb1']]);
  assert.equal(explanationOf('B\0e\0g\0', faultsOf('B\0e\0g\0')[0].read).text, sentence('utf_16'));
});

test('explaining: a later problem with the word before it; a fault far down is not explained', () => {
  const text = posed('Pieces White Kg6 Ra1 Black Kg8', 'Stipulation #1', 'Next Problem', 'Ä');
  const { text: said, marks } = explain(text, { number: 2, fault: { line: 4, number: 2 } });
  assert.deepEqual([said, marks.map(({ from, to }) => text.slice(from, to))], ['`NextProblem` is one word, without a blank.', ['Next', 'Problem']]);
  const long = posed(...Array(20000).fill('Remark a'), 'x');
  assert.equal(explain(long, { number: 1, fault: { line: 20002, number: 2 } }), null);
  assert.equal(explain(posed('x'), { number: 1, fault: { line: 2, number: 2 } }).marks[0].from, 'BeginProblem\n'.length);
});

test('explaining: only at the place where the engine finds the fault', () => {
  const text = posed('Title Ä б 😀', 'Pieces White Kg6 Ra1 Black Kg8 xÄ1', 'Stipulation #1', 'NextProblem', 'Ö', 'NextProblem');
  const placeOf = word => new TextEncoder().encode(text.slice(0, text.indexOf(word))).length;
  const [first, second] = [placeOf('xÄ1'), placeOf('Ö')];
  const list = `1: fault 2, line 3, bytes ${first} up to ${first + 4}\n2: fault 2, line 6, bytes ${second} up to ${second + 2}\n`;
  const places = placesOf(text, list);
  assert.deepEqual([...places].map(([number, { from, to }]) => [number, text.slice(from, to)]), [[1, 'xÄ1'], [2, 'Ö']]);
  const faults = [{ number: 1, fault: { line: 3, number: 2 } }, { number: 2, fault: { line: 6, number: 2 } }];
  for (const item of faults) {
    const { from, to } = places.get(item.number);
    assert.deepEqual(explain(text, { ...item, place: { from, to } }), explain(text, item));
    assert.equal(explain(text, { ...item, place: { from: from - 1, to } }), null);
    assert.equal(explain(text, { ...item, place: { from, to: to + 1 } }), null);
  }
  const open = 'BeginProblem\nTitle é\n';
  const end = { number: 1, fault: { line: 3, number: 19 }, place: placesOf(open, '1: fault 19, line 3, bytes 22 up to 22\n').get(1) };
  assert.deepEqual([end.place, explain(open, end)?.text], [{ from: 21, to: 21 }, explain(open, { ...end, place: undefined }).text]);
});

test('explaining: a long problem in several steps, whose text is cut into problems once', () => {
  const text = posed('Pieces White Kg6 Ra1 Black Kg8', 'Stipulation #1', `Option${' SetPlay'.repeat(10000)} xyz`);
  const item = { number: 1, fault: { line: 4, number: 2 } };
  const steps = explainFault(text, item);
  let count = 0;
  let next = steps.next();
  for (; !next.done; next = steps.next()) count++;
  assert.ok(count > 5, `${count} steps`);
  assert.deepEqual(next.value, explain(text, item));
  assert.deepEqual(next.value.marks.map(({ from, to }) => text.slice(from, to)), ['xyz']);
  assert.equal(problemsOf(text), problemsOf(text));
});

test('explaining: lines and their places, and texts with other letters', () => {
  const text = 'a\n\nбc\n';
  assert.deepEqual([0, 1, 2, 3, 5, 6].map(place => lineOf(text, place)), [1, 1, 2, 3, 3, 4]);
  assert.deepEqual([1, 2, 3, 4, 5].map(line => lineAt(text, line)), [[0, 1], [2, 2], [3, 5], [6, 6], [6, 6]].map(([from, to]) => ({ from, to })));
  const long = `${'б'.repeat(20000)}\ud800`;
  assert.equal(py.decode(py.encode(long, 'utf-8'), 'utf-8'), `${'б'.repeat(20000)}\ufffd`);
  assert.deepEqual([py.count('abab', 'ab'), py.count('abab', 'b', 0, 2), py.count('', 'a')], [2, 1, 0]);
  const keys = py.dict([["'a", 1], ['a', 2], ['(a', 3]]);
  assert.deepEqual(["'a", 'a', '(a', "''a"].map(key => keys.get(key)), [1, 2, 3, null]);
});

test('explaining: punctuation', () => {
  const text = posed('Pieces White Kg6 Ra1 Black Kg8', 'Stipulation #2!');
  assert.match(explanationOf(text, faultsOf(text)[0].read).text, /The exclamation mark is part of the word `#2!`/);
});

test('explaining: marked lines, and what does not show', () => {
  assert.deepEqual(markedLines('a\nb c\n', [{ from: 4, to: 5 }]).map(({ line, pieces }) => [line, pieces.map(it => it.text + (it.isMarked ? '!' : ''))]),
    [[2, ['b ', 'c!']]]);
  assert.equal(shown('a\u200bб'), 'a<U+200B>б');
});

test('explanations: sentences and their table', () => {
  assert.equal(sentence('counted', { first: 'h#2', second: 3 }).includes('h#2'), true);
  assert.equal(typeof DATA.sentences.counted, 'string');
});

test('importing: twins, what is left out, YAML; our own texts stay', () => {
  const twins = imported('BeginProblem\nPieces White Kg6 Ra1 Black Kh8\nStipulation h#1\nTwin Move a1 b2\nEndProblem\n');
  assert.deepEqual(twins.lost, []);
  assert.deepEqual(twins.text.match(/^Pieces.*$/gm), ['Pieces White Kg6 Ra1 Black Kh8', 'Pieces White Kg6 Rb2 Black Kh8']);
  const made = imported("algebraic:\n  white: [Kg6, Ra1]\n  black: [Kg8]\nstipulation: '#1'\n");
  assert.match(made.text, /^Pieces White Kg6 Ra1 Black Kg8$/m);
  assert.match(made.text, /^Stipulation #1$/m);
  assert.equal(imported('title: a\n'), null);
  assert.equal(imported(posed('Pieces White Kg6', 'Stipulation #1')), null);
});

test('importing: only options ask for tries or threats', () => {
  const yaml = more => imported(`algebraic:\n  white: [Kg6, Ra1]\n  black: [Kg8]\nstipulation: '#1'\n${more}\n`);
  const popeye = more => imported(`BeginProblem\nPieces White Kg6 Ra1 Black Kg8\nStipulation #1\n${more}\nTwin Move a1 b1\nEndProblem\n`);
  const german = more => imported(`AnfangProblem\nSteine Weiss Kg6 Ta1 Schwarz Kg8\nForderung #1\n${more}\nEndeProblem\n`);
  for (const [made, asks, most] of [
    [yaml('options: [Try]'), true, 1], [yaml('options: [Threat]'), true, 0], [popeye('Option Variation Defence 3'), true, 3], [german('Option Verfuehrung'), true, 1],
    [yaml('keywords: [Threat reversal]'), false, 0], [yaml('comments: [A try by Smith]'), false, 0], [popeye('Title A Threat'), false, 0],
    [popeye('Remark Try left out: pops-tries shows tries'), false, 0], [yaml('options: [Intelligent]'), false, 0],
  ]) assert.deepEqual([made.asksForTries, made.refutations], [asks, most], made.text);
});

test('importing: JSON of YACPDB', () => {
  const problem = { id: 12, authors: ['Loyd, Samuel'], algebraic: { white: ['Kg6', 'Ra1'], black: ['Kg8'] }, stipulation: '#1', options: ['SetPlay'], award: null };
  const twin = { id: 13, algebraic: { white: ['Kg6', 'Ra1'], black: ['Kh8'] }, stipulation: 'h#1', twins: { b: 'Move a1 b2' } };
  for (const given of [{ success: true, result: { entries: [problem, twin] } }, [problem, twin]]) {
    const { text, lost } = imported(`\ufeff${JSON.stringify(given, null, 1)}\r\n`);
    assert.deepEqual(text.match(/^(?:Author|Pieces|Stipulation|Option) .*$/gm), [
      'Author Loyd, Samuel', 'Pieces White Kg6 Ra1 Black Kg8', 'Stipulation #1', 'Option SetPlay', 'Pieces White Kg6 Ra1 Black Kh8', 'Stipulation h#1',
      'Pieces White Kg6 Rb2 Black Kh8', 'Stipulation h#1',
    ]);
    assert.deepEqual(lost, []);
  }
  const deep = '['.repeat(1000) + JSON.stringify(problem) + ']'.repeat(1000);
  assert.match(imported(deep).lost.join(), /40/);
  assert.match(imported('{"algebraic": {"white": ["Kg6"}').lost.join(), /YAML/);
});

test('yaml: documents, their keys and lists', () => {
  const [{ node }] = documents('---\na: [b, "c: d"]\ne: |\n  f\n  g\nh:\n - i: j\n');
  const found = node();
  assert.deepEqual([...found], ['a', 'e', 'h']);
  assert.deepEqual([found.get('a'), found.get('e'), found.get('h').length], [['b', 'c: d'], 'f\ng', 1]);
  assert.throws(() => documents('a: *b\n')[0].node(), /\*b/);
  const [{ node: listed }] = documents('- a:\n  -   b: c\n      d: e\n  - f: |\n      g\n  - h:i\n');
  const [first, second, third] = listed()[0].get('a');
  assert.deepEqual([[...first], first.get('d'), second.get('f'), third], [['b', 'd'], 'e', 'g', 'h:i']);
});

test('yaml: escapes, and texts of several lines, as PyYAML writes them', () => {
  const read = text => documents(text)[0].node().get('a');
  assert.equal(read('a: "Benk\\u0151, P\\xE1l\\tis\\ \\U0001F600 \\Die\\ \\"Schwalbe\\""\n'), 'Benkő, Pál\tis 😀 \\Die "Schwalbe"');
  assert.equal(read('a: "1.Qa1 #\\n   \\"b\\" #\\n\\\n  \\  2.Qa8\n  #\\\\\\n\n\n  c"  # d\nb: c\n'), '1.Qa1 #\n   "b" #\n  2.Qa8 #\\\n\nc');
  assert.equal(read("a: 'b: # it''s\n\n\n  c\n  \"d'\nb: c\n"), 'b: # it\'s\n\nc "d');
  assert.equal(read("a: 'b\n\n  '\nc: d\n"), 'b\n');
  assert.deepEqual(read('a:\n- b\n  c\n\n  d\n- e\n\nf: g\n'), ['b c\nd', 'e']);
  assert.deepEqual(read('a:\n  - b: c\n      d # e\n    f: "g\n      h"\n')[0].get('b'), 'c d');
  for (const wrong of ['a: b\n  c: d\n', 'a: "b\n', "a: 'b\nc: d\n"]) assert.throws(() => read(wrong), wrong);
});

test('twins: groups, remarks and changes', () => {
  const problem = (title, men, asked, remark) => [`Title ${title}`, ...(remark ? [`Remark ${remark}`] : []), `Pieces White ${men}`, `Stipulation ${asked}`].join('\n');
  const twins = (...problems) => {
    const text = `BeginProblem\n${problems.join('\nNextProblem\n')}\nEndProblem\n`;
    return problems.map((_, at) => twinsOf(text, at + 1).map(it => it.change));
  };
  assert.deepEqual(twins(problem('A a)', 'Ra1', '#2'), problem('A b)', 'Rb2', '#1'), problem('B', 'Ra1', '#2')),
    [['', 'white Ra1 to b2, #1'], ['', 'white Ra1 to b2, #1'], []]);
  assert.deepEqual(twins(problem('A a)', 'Ra1', '#2'), problem('A b)', 'Rb2', '#2', 'b) Move a1 b2'))[0], ['', 'Move a1 b2']);
  assert.equal(py.decode(givenOf(posed('Title A', 'Origin O'))[0].origin, 'utf-8'), 'O');
});

test('contents: names and twins of a text', () => {
  const text = 'BeginProblem\nTitle A a)\nStipulation #1\nNextProblem\nTitle A b)\nStipulation #2\nEndProblem\n';
  assert.deepEqual([1, 2].map(it => contentAt(text, it)).map(it => [it.number, it.title, it.asked]), [[1, 'A a)', '#1'], [2, 'A b)', '#2']]);
  assert.deepEqual(twinsOf(text, 2).map(it => [it.label.text, it.change]), [['a)', ''], ['b)', '#2']]);
});

test('twins: of many problems with labels only those of its own group are looked at', () => {
  const one = label => `Title T ${label})\nPieces White Kg6 Ra1 Black Kg8\nStipulation #1\n`;
  const text = `BeginProblem\n${[...'abcabcabc'].map(one).join('NextProblem\n')}EndProblem\n`;
  for (const at of [0, 1, 7, 8]) Object.defineProperty(blocksOf(text)[at], 'words', { get() { throw new Error('looked at'); } });
  for (const number of [4, 5, 6]) assert.deepEqual(twinsOf(text, number).map(it => it.number), [4, 5, 6]);
});

test('twins: those of a long text are not compared', () => {
  const one = (label, letters) => `Title T ${label})\nRemark ${'x'.repeat(letters)}\nPieces White Kg6 Ra1 Black Kg8\nStipulation #1\n`;
  const twins = letters => twinsOf(`BeginProblem\n${one('a', letters)}NextProblem\n${one('b', letters)}EndProblem\n`, 2).length;
  assert.deepEqual([twins(40000), twins(60000)], [2, 0]);
});

test('contents: of many problems the list shows those around the one on the board, and others at equal distances', () => {
  assert.deepEqual(listedNumbers(3, 2), [1, 2, 3]);
  assert.deepEqual([0, 1, 999].map(at => listedNumbers(1000, 1)[at]), [1, 2, 1000]);
  for (const [all, own] of [[1001, 1], [5000, 4999], [104000, 52034], [1000000, 1000000]]) {
    const numbers = listedNumbers(all, own);
    assert.ok(numbers.length <= 1000, `${numbers.length} of ${all}`);
    assert.deepEqual([numbers[0], numbers.at(-1)], [1, all]);
    assert.ok(numbers.every((it, at) => !at || it > numbers[at - 1]));
    for (let it = Math.max(1, own - 150); it <= Math.min(all, own + 150); it++) assert.ok(numbers.includes(it), `${it} of ${all} around ${own}`);
    const gaps = numbers.slice(1).map((it, at) => it - numbers[at]);
    assert.ok(Math.max(...gaps) <= all / 50, `a gap of ${Math.max(...gaps)} of ${all}`);
  }
  assert.deepEqual(listedNumbers(104000, 52034), listedNumbers(104000, 52049));
});

test('importing: long lines of blanks, comments and line ends, and long chains of twins, take little time', () => {
  const most = 1e5;
  const head = "algebraic:\n  white: [Kg6, Ra1]\n  black: [Kg8]\nstipulation: '#1'\n";
  const chain = 'Twin Continued Move a1 a2\nTwin Continued Move a2 a1\n'.repeat(500);
  for (const [text, isRead] of [
    [`${head}title: a${' '.repeat(most)}b\n`, true], [`${head}a${' '.repeat(most)}b: c\n`, true], [`${head}x${' '.repeat(most)}y\n`, false],
    [`${head}title: "a"${' #'.repeat(most)}\n`, true], [`${head}title: ${' #'.repeat(most)}"\n`, true], [`${'\r'.repeat(most)}${'\n'.repeat(most)}a: b\n`, false],
    [`BeginProblem\nPieces White Kg6 Ra1 Black Kh8\nStipulation h#1\n${chain}EndProblem\n`, true],
    [`BeginProblem\nTitle a${' '.repeat(4 * most)}b\nPieces White Kg6 Ra1 Black Kh8\nStipulation h#1\nTwin Move a1 b2\nEndProblem\n`, true],
    [`${head}x: |\n  a\n${'\n'.repeat(4 * most)}  b\n`, true], [`${head}x: [${'a, '.repeat(most)}b]\n`, true], [`${head}x: [\n${'a,\n'.repeat(most)}b]\n`, true],
  ]) {
    const begun = process.cpuUsage();
    assert.equal(Boolean(imported(text)?.text), isRead);
    const { user, system } = process.cpuUsage(begun);
    assert.ok(user + system < 3e7, `${user + system} microseconds for ${text.length} letters`);
  }
});

test('importing: flows of many lines, levels and parts', () => {
  const head = "algebraic:\n  white: [Kg6, Ra1]\n  black: [Kg8]\nstipulation: '#1'\n";
  const remarks = text => imported(head + text).text.match(/^Remark .*$/gm);
  assert.deepEqual(remarks('x: [a, [b,\n  c], {d: e,\n f: g}]\n'), ['x.1: a', 'x.2: b', 'x.2: c', 'x.3.d: e', 'x.3.f: g'].map(it => `Remark ${it}`));
  assert.match(imported(`${head}x: ${'['.repeat(20000)}${']'.repeat(20000)}\n`).lost.join(), /more than 40 levels/);
  assert.match(imported(`${head}x: [a\n`).lost.join(), /the text ends too early/);
  assert.equal(remarks(`x: [${'a, '.repeat(3000)}b]\n`).length, 3001);
});

test('importing: comments and keys', () => {
  const titleOf = line => imported(`algebraic:\n  white: [Kg6, Ra1]\n  black: [Kg8]\nstipulation: '#1'\n${line}\n`)?.text?.match(/^Title (.*)$/m)?.[1];
  for (const [line, title] of [
    ['title: a b', 'a b'], ['title : a', 'a'], ['title: a # b', 'a'], ['title: "a # b"', 'a # b'], ['title: "a" # b', 'a'], ["title: it's #1", "it's"],
    ["title: 'a' #b # c", 'a'], ['title: a#b', 'a#b'], ["title: a # it's", "a # it's"], ['#title: b\ntitle: a', 'a'],
  ]) assert.equal(titleOf(line), title);
});

/** Writes a mate in two with these options, if any. */
const withOptions = options => `BeginProblem\nPieces White Kd6 Qh8 Rc7 Black Ke1 Pa6\nStipulation #2\n${options}EndProblem\n`;

test('mending: options of Popeye that change nothing here, with their numbers and alone', () => {
  for (const [given, wanted, asksForTries, most] of [
    ['Option Try\n', '', true, 1], ['Option Variation Try\n', 'Option Variation\n', true, 1], ['Option Threat 2 Variation\n', 'Option Variation\n', true, 0],
    ['Option Intelligent\nRemark a\n', 'Remark a\n', false, 0], ['Option MoveNumbers SetPlay\n', 'Option SetPlay\n', false, 0],
    ['Option Variation StartMoveNumber 3 Defence 4 Threat Intelligent\n', 'Option Variation\n', true, 4],
    ['Option Drohung\n', '', true, 0], ['Option Verteidigung 3 Variation Try\n', 'Option Variation\n', true, 3],
  ]) {
    const { text, asksForTries: asks, refutations, line, said } = mendedProblem(withOptions(given), 1);
    assert.deepEqual([text, asks, refutations, line, said], [withOptions(wanted), asksForTries, most, 4, withOptions(wanted).split('\n')[3]]);
  }
});

test('mending: a byte order mark, letters of another language, a mistyped word; each in its own problem', () => {
  const good = withOptions('Option Variation\n');
  assert.deepEqual(mendedProblem(`\ufeff${good}`, 1), { text: good, asksForTries: false, refutations: 0, line: 1, said: 'BeginProblem' });
  const withoutPawn = good.replace(' Pa6', '');
  assert.equal(mendedProblem(withoutPawn.replace('Qh8 Rc7', 'Rc7 Th8'), 1), null);
  assert.equal(mendedProblem(withoutPawn.replace('Qh8 Rc7', 'Th8c7'), 1).text, withoutPawn.replace('Qh8 Rc7', 'Rh8c7'));
  assert.equal(mendedProblem(good.replace('Stipulation', 'Stipulatoin'), 1).text, good);
  const two = text => good.replace('End', 'Next') + text.slice(text.indexOf('Pieces'));
  const made = mendedProblem(two(withOptions('Option Try Variation\n')), 2);
  assert.deepEqual([made.text, made.line, made.said], [two(good), 8, 'Option Variation']);
  const [before, after] = [withOptions('Option Try Variation\n'), good].map(it => two(it).replaceAll('\n', ' '));
  const inOneLine = mendedProblem(before, 2);
  assert.deepEqual([inOneLine.text, inOneLine.line, inOneLine.said], [after, 1, after]);
  assert.equal(mendedProblem(two(good), 1), null);
  assert.equal(mendedProblem(good.replace('Black Ke1', 'Black'), 1), null);
});

test('mending: of a long text with many faults none is made before it is read', () => {
  const text = `${withOptions('Option Try\n').replace('End', 'Next')}Remark ${'x'.repeat(1 << 22)}\nEndProblem\n`;
  const before = process.memoryUsage().heapUsed;
  const made = Array.from({ length: 100 }, () => mendedProblem(text, 1));
  assert.ok(process.memoryUsage().heapUsed - before < 1 << 28);
  assert.equal(made[99].text === text.replace('Option Try\n', ''), true);
});

test('mending: advice names the page\'s own switch and field', () => {
  const [{ read }] = faultsOf(withOptions('Option Try\n'));
  const said = ownAdvice(explanationOf(withOptions('Option Try\n'), read).text);
  assert.match(said, /Leave it out: the switch “tries and threats” of this page shows tries with their refutations\.$/);
  assert.match(ownAdvice('Leave it out: `pops-tries` shows threats.'), /this page shows threats\.$/);
  assert.equal(ownAdvice('`8/8` is FEN. `fen2pop --stipulation \'#2\' \'8/8\'` makes a problem of it.'), '`8/8` is FEN. The field FEN of this page makes a problem of it.');
});
