// Texts, positions, and what the page keeps: modules that need no browser.
import assert from 'node:assert/strict';
import { test } from 'node:test';
import { KINDS, MAN_NAMES } from '../../web/men.js';
import { barredAfter, halfAfter, moveBetween, promotes, stipulationAfter, withProblemAfter, partsOfStipulation, stipulationOf } from '../../web/play.js';
import { after, changed, exchanged, fenOf, menOfRanks, placeOf, ranksOf, readFen, squareOf } from '../../web/position.js';
import { fileNameOf, fragmentOf, keptOf, nameOfText, Steps, textOfBytes, textOfFragment, visitOf, withKept, writtenVisit } from '../../web/store.js';
import { atOnce } from '../../web/slices.js';
import {
  blockAt, blocksOf, cleared, fieldsOf, lineAt, menOf, posedAlike, sidesOf, tailOf, valueOf, withFen, withField, withMen, withTail, wordsOf,
} from '../../web/text.js';
import { language, say, sayMan } from '../../web/words.js';
import { makeDocument } from '../helpers/page_imports.mjs';

makeDocument();

const TEXT = 'BeginProblem\nTitle A b\nPieces White Kg6 Ra1 Black Kg8\nStipulation #1\nOption MaxSolutions 3\nEndProblem\n';
const men = (...placed) => new Map(placed.map(it => [it.slice(2), it.slice(0, 2)]));

test('words: values replace names in braces', () => {
  assert.equal(say('fault', { line: 3, number: 8, text: 'bad stipulation' }), 'line 3: fault 8: bad stipulation');
  assert.equal(say('count', { number: 1 }).includes('{all}'), true);
  assert.equal(sayMan('bN'), 'black nightrider');
  assert.equal(language, 'en');
});

test('men: each letter has its name', () => {
  assert.deepEqual(Object.keys(MAN_NAMES), [...KINDS]);
  assert.equal(sayMan('wG'), `white ${MAN_NAMES.G}`);
});

test('text: words have places, and the rest of a text line is no word', () => {
  assert.deepEqual(wordsOf('tit A b\npie x').map(it => [it.word, it.from, it.command]), [['tit', 0, 'title'], ['pie', 8, 'pieces'], ['x', 12, undefined]]);
  assert.equal(wordsOf('tit A b\npie x')[0].end, 7);
});

test('text: men and fields of a problem', () => {
  const [block] = blocksOf(TEXT);
  assert.equal(sidesOf(menOf(block).men), ' White Kg6 Ra1 Black Kg8');
  assert.equal(valueOf(fieldsOf(TEXT, block), 'title'), 'A b');
  assert.equal(valueOf(fieldsOf(TEXT, block), 'MaxSolutions'), '3');
  assert.equal(valueOf(fieldsOf(TEXT, block), 'SetPlay'), null);
  assert.equal(blockAt(TEXT, 20).number, 1);
});

test('text: a word of millions of letters is no men', () => {
  const word = `k${'a1'.repeat(4_000_000)}`;
  assert.deepEqual(menOf(blockAt(`BeginProblem Pieces White ${word} Kb1 EndProblem`, 0)), {
    men: men('wKb1'), parts: [{ from: 13, to: 13 + 12 + word.length + 5 }], unknown: [word],
  });
});

test('text: a change leaves the rest as it is', () => {
  assert.equal(withMen(TEXT, 0, men('wKa1')), TEXT.replace('White Kg6 Ra1 Black Kg8', 'White Ka1'));
  assert.equal(withField(TEXT, 0, 'Stipulation', 'h#2'), TEXT.replace('#1', 'h#2'));
  assert.equal(withField(TEXT, 0, 'MaxSolutions', null), TEXT.replace('Option MaxSolutions 3\n', ''));
});

test('text: lines, and a text after EndProblem', () => {
  assert.deepEqual(lineAt('a\nbc\nd', 2), { from: 2, to: 4 });
  assert.equal(tailOf(TEXT), null);
  assert.equal(tailOf(`${TEXT}BeginProblem\nEndProblem\n`).line, 7);
  assert.equal(withTail('BeginProblem\nEndProblem\nBeginProblem\nPieces\n'), 'BeginProblem\nNextProblem\nPieces\n');
});

test('position: squares, ranks and changes', () => {
  assert.deepEqual(placeOf('b3'), [1, 2]);
  assert.equal(squareOf(7, 7), 'h8');
  assert.deepEqual(menOfRanks(ranksOf(men('wKe1', 'bNh8'))), men('bNh8', 'wKe1'));
  assert.deepEqual(changed(men('wKa1'), 'turn'), men('wKa8'));
  assert.equal(changed(men('wKa1'), 'down'), null);
  assert.deepEqual(exchanged(men('wKa1')), men('bKa8'));
});

test('position: FEN, read and written', () => {
  assert.deepEqual(readFen('4k2r/8/8/8/8/8/8/4K2R w K - 0 1').noCastling, ['h8']);
  assert.equal(readFen('8/8 w'), null);
  assert.equal(fenOf({ men: men('wKe1', 'wRh1'), turn: 'w', barred: ['h1'], crossed: 'e6' }), '8/8/8/8/8/8/8/4K2R w - e6 0 1');
});

test('position: a move takes its captures along', () => {
  const move = { colour: 'w', kind: 'P', from: 'e5', to: 'd6', enPassant: true, promotion: null, castling: null, rebirth: null };
  assert.deepEqual(after(men('wPe5', 'bPd5'), move), men('wPd6'));
});

test('play: moves as a report writes them', () => {
  const asked = { promotion: null, half: 1, isCirce: false };
  assert.equal(moveBetween(men('wKe1', 'wRh1'), { from: 'e1', to: 'g1', ...asked }).said, '0-0');
  assert.equal(moveBetween(men('wRa1', 'bSa4'), { from: 'a1', to: 'a4', ...asked, isCirce: true }).said, 'Ra1*a4[+bSg8]');
  assert.equal(promotes(men('wPa7'), 'a7', 'a8'), true);
});

test('play: what is left to play', () => {
  assert.equal(halfAfter([], 'b', { isHelp: false, isHalf: false }), 2);
  assert.deepEqual(stipulationAfter('#3', 2), { word: '#2', isSet: false });
  assert.deepEqual(barredAfter(men('wKe1', 'wRh1'), [{ from: 'h1', to: 'h2' }, { from: 'h2', to: 'h1' }], []), ['h1']);
  const move = { ...moveBetween(men('wRa1'), { from: 'a1', to: 'a2', promotion: null, half: 1, isCirce: false }) };
  assert.equal(withProblemAfter(TEXT, blocksOf(TEXT)[0], { men: men('wRa2'), moves: [move] }), null);
});

test('store: links, kept texts, files', () => {
  assert.equal(textOfFragment(fragmentOf('a & b = #')), 'a & b = #');
  assert.equal(fragmentOf('a'.repeat(40000)), null);
  assert.deepEqual(withKept([{ text: 'a', time: 1 }], { text: 'b', time: 2 }), [{ text: 'b', time: 2 }, { text: 'a', time: 1 }]);
  assert.deepEqual(withKept([{ text: 'a', time: 1, tab: 't' }], { text: 'b', time: 2, tab: 't' }), [{ text: 'b', time: 2, tab: 't' }]);
  assert.deepEqual(keptOf('{"text": 1}'), []);
  assert.equal(nameOfText(TEXT), 'A b');
  const long = TEXT + ' a'.repeat(40000);
  assert.deepEqual([nameOfText(long), blocksOf.knows(long)], ['A b', false], 'only the beginning is read');
  assert.deepEqual(textOfBytes(Uint8Array.of(0xe9)), { text: 'é', isUtf8: false });
});

test('store: undo and redo', () => {
  const steps = new Steps('a');
  steps.add('b');
  assert.equal(steps.go(-1), 'a');
  assert.equal(steps.has(-1), false);
  assert.equal(steps.go(1), 'b');
  assert.equal(steps.go(1), null);
});

test('store: a visit, whose longest parts may be left out', () => {
  const visit = { steps: { texts: ['a', 'b', 'c'], place: 1 }, number: 2, link: '#x', solved: { text: 'b', report: 'r', isBeginning: true, only: 2 } };
  assert.deepEqual(visitOf(writtenVisit(visit)), visit);
  const long = 'x'.repeat(300000);
  const { steps, solved } = visitOf(writtenVisit({ ...visit, steps: { texts: [`${long}a`, `${long}b`, 'c', 'd'], place: 2 }, solved: { text: 'c', report: 'r'.repeat(1000000), isBeginning: false, only: 0 } }));
  assert.deepEqual([steps.texts.map(it => it.length), steps.place, solved], [[300001, 1, 1], 1, null]);
  assert.deepEqual(['', 'x', '{}', '{"steps":{"texts":[1],"place":0},"number":1,"link":""}', null].map(visitOf), [null, null, null, null, null]);
  const again = new Steps('c', visit.steps);
  assert.deepEqual([again.texts, again.go(-1), new Steps('b', visit.steps).has(1)], [['a', 'b', 'c'], 'b', true]);
});

test('text: a word of millions of squares is read', () => {
  const squares = 'a1'.repeat(1 << 22);
  const text = `BeginProblem Option NoCastling ${squares} EndProblem`;
  assert.equal(valueOf(fieldsOf(text, blocksOf(text)[0]), 'NoCastling'), squares);
});

test('text: a title takes nothing of the line that opens the problem', () => {
  const text = 'BeginProblem Pieces White Kg6 Stipulation #1 EndProblem\n';
  const titled = withField(text, 0, 'Title', 'A');
  assert.equal(titled, 'BeginProblem\nTitle A\n Pieces White Kg6 Stipulation #1 EndProblem\n');
  assert.equal(withField('BeginProblem \r\nEndProblem\n', 0, 'Title', 'A'), 'BeginProblem\nTitle A \r\nEndProblem\n');
});

test('text: what a problem poses doesn\'t depend on names, blanks and capitals', () => {
  const [block] = blocksOf(TEXT);
  const isPosedAs = text => atOnce(posedAlike(block, blocksOf(text)[0]));
  assert.equal(isPosedAs(TEXT.replace('A b', 'C').replace('Kg6', 'KG6 ').replace('\nStip', '\nRemark d\nStip')), true);
  for (const other of [TEXT.replace('Kg6', 'Kg7'), TEXT.replace('EndProblem', 'Option SetPlay\nEndProblem'), 'BeginProblem\nEndProblem']) assert.equal(isPosedAs(other), false);
});

test('play: a stipulation by choice and number', () => {
  assert.deepEqual(['#2', 'H#2.5', 's=3', '#', 'h#2*', 'r#2'].map(partsOfStipulation), [
    { form: '#', moves: '2' }, { form: 'h#', moves: '2.5' }, { form: 's=', moves: '3' }, null, null, null]);
  const made = [['#', '3'], ['#', '2.5'], ['h#', '2.5'], ['h=', '2'], ['s#', ''], ['h#', '0'], ['#', '99'], ['h#2*', ''], ['', '']];
  assert.deepEqual(made.map(it => stipulationOf(...it)), ['#3', '#3', 'h#2.5', 'h=2', 's#2', 'h#2', '#16', 'h#2*', null]);
});

test('store: undo keeps few long texts, many short ones, and always the last step', () => {
  const long = (/** @type {number} */ number, millions = 3) => `${number}`.padEnd(millions << 20);
  const steps = new Steps(long(0));
  for (let number = 1; number < 20; number++) steps.add(long(number));
  assert.deepEqual([steps.texts.length, steps.place, steps.go(-1)?.startsWith('18 ')], [10, 9, true]);
  steps.add('short');
  assert.deepEqual([steps.texts.length, steps.go(-1)?.startsWith('18 '), steps.go(1)], [10, true, 'short']);
  for (const number of [1, 2, 3]) steps.add(long(number, 20));
  assert.deepEqual([steps.texts.length, steps.go(-1)?.startsWith('2 '), steps.has(-1), steps.has(1)], [2, true, false, true]);
  const short = new Steps('');
  for (let number = 1; number < 400; number++) short.add(`${number}`);
  assert.deepEqual([short.texts.length, short.place, short.texts[0]], [200, 199, '200']);
});

test('store: files are named after the title', () => {
  assert.deepEqual(['A first problem', 'Über “Größe”, 2.', '../../x', '', null].map(it => fileNameOf(it, 'pop')),
    ['A-first-problem.pop', 'Über-Größe-2.pop', 'x.pop', 'pops.pop', 'pops.pop']);
  assert.equal(fileNameOf('x'.repeat(100), 'svg').length, 64);
});

// Lines of a problem, or parts of one.
const LINES = [
  'Pieces White Ka1 Black Kh8', 'Pieces White Kb1 Black Kg8 Pa7', 'Title T', 'Author A', 'Remark R r', 'Stipulation #2', 'Condition Circe', 'Option NoCastling h1',
  'Option EnPassant e3 NoCastling h1 a1h8', 'Option Variation EnPassant e3', 'Option SetPlay MaxSolutions 3', 'Option', 'NoCastling e1', 'EnPassant d6', 'junk',
];
const FIELDS = ['title', 'author', 'stipulation', 'condition', 'SetPlay', 'Variation', 'MaxSolutions', 'EnPassant', 'NoCastling'];

/** Returns what the first problem of a text says, but for commands without words. */
function saidIn(text) {
  const [block] = blocksOf(text);
  const fields = fieldsOf(text, block);
  return [[...menOf(block).men], FIELDS.map(name => valueOf(fields, name)), block.words.map(it => it.word).filter(it => it !== 'Option')];
}

test('text: a FEN changes what men and options change one after another, without a reading between them', () => {
  let number = 1;
  const draw = (/** @type {any[]} */ all) => all[(number = (number * 1103515245 + 12345) % 2 ** 31) % 65537 % all.length];
  for (let tried = 0; tried < 3000; tried++) {
    const lines = Array.from({ length: draw([0, 1, 2, 3, 4, 5, 6]) }, () => draw(LINES) + draw(['\n', '\n', ' ', '\r\n', '\n\n'])).join('');
    const text = `${draw(['', 'x\n'])}BeginProblem\n${lines}${draw(['', 'EndProblem\n', 'NextProblem\nOption Variation\nEndProblem\n'])}`;
    const fen = { men: draw([new Map(), men('wKa1', 'bKh8')]), turn: 'w', crossed: draw([null, 'e6']), noCastling: draw([[], ['h1'], ['a1', 'h8']]) };
    const { from } = blocksOf(text)[0];
    const squares = withField(withMen(text, from, fen.men), from, 'EnPassant', fen.crossed);
    const wanted = saidIn(withField(squares, from, 'NoCastling', fen.noCastling.join('') || null));
    assert.equal(blocksOf(text).length > 0, true);
    const made = withFen(text, from, fen);
    assert.equal(blocksOf.knows(text), true);
    assert.deepEqual(saidIn(made), wanted, text);
    cleared(text, blocksOf(text)[0].from);
    assert.equal(blocksOf.knows(text), true);
  }
});

test('text: what clear removes, also where options stand between others and commands lose all their words', () => {
  const posed = said => `BeginProblem\n${said}EndProblem\n`;
  for (const [given, wanted] of [
    ['Title A\nAuthor B\nOrigin C\nRemark D\nPieces White Ka1\nStipulation #2\nPieces Black Kh8\n', 'Author B\nStipulation #2\n'],
    ['Option EnPassant e3 SetPlay NoCastling h1 a1h8 Variation\n', 'Option SetPlay Variation\n'],
    ['Option EnPassant e3 NoCastling h1\nOption NoCastling a1 NoCastling h8\nOption Variation\n', 'Option Variation\n'],
    ['Pieces White Ka1 Option NoCastling h1 Stipulation #2\n', ' Stipulation #2\n'],
    ['Stipulation #2\n', 'Stipulation #2\n'],
  ]) assert.equal(cleared(posed(given), 0), posed(wanted));
});

test('text: a long text that says one thing again and again is read and changed in little time', () => {
  const begun = process.cpuUsage();
  const many = 80_000;
  const posed = (line = '') => `BeginProblem\nPieces White Ke1 Ra1 Black Ke8\nStipulation #1\n${line}EndProblem\n`;
  const squares = posed(`Option NoCastling${' a1'.repeat(many)}\n`);
  const value = Array(many).fill('a1').join(' ');
  assert.ok(valueOf(fieldsOf(squares, blocksOf(squares)[0]), 'NoCastling') === value);
  assert.ok(withField(squares, 0, 'NoCastling', null) === posed());
  const options = posed('Opt NoC a1\n'.repeat(many));
  assert.ok(valueOf(fieldsOf(options, blocksOf(options)[0]), 'NoCastling') === value);
  assert.ok(withField(options, 0, 'NoCastling', null) === posed());
  assert.ok(withField(options, 0, 'NoCastling', 'h1') === posed('Opt NoC h1\n'));
  const words = posed(`Option SetPlay${' NoC a1'.repeat(many)}\n`);
  assert.ok(withField(words, 0, 'NoCastling', null) === posed('Option SetPlay\n'));
  const men = posed('Pieces White Ka1\nRem x\n'.repeat(many));
  assert.ok(withMen(men, 0, new Map([['b2', 'wK']])) === posed('Rem x\n'.repeat(many)).replace('White Ke1 Ra1 Black Ke8', 'White Kb2'));
  assert.ok(cleared(posed('Rem x\nCond Circe\n'.repeat(many)), 0) === posed('Cond Circe\n'.repeat(many)).replace('Pieces White Ke1 Ra1 Black Ke8\n', ''));
  const { user, system } = process.cpuUsage(begun);
  assert.ok(user + system < 6e7, `${user + system} microseconds`);
});
