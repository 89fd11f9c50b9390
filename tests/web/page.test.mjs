// The modules that show the page, with a stand-in for a browser's document.
import assert from 'node:assert/strict';
import { test } from 'node:test';
import { fill, kept, keptInTab, made, paste, send } from '../helpers/page_document.mjs';
import { sharedParts } from '../helpers/page_imports.mjs';
import { withSlowClock } from '../helpers/slow_clock.mjs';

const TEXT = 'BeginProblem\nPieces White Kg6 Ra1 Black Kg8\nStipulation #1\nEndProblem\n';
const REPORT = 'problem 1\n#1\nplay\n1.Ra1-a8#\nsolutions: 1\n\n';
const TWO_MOVES = 'BeginProblem\nPieces White Kh8 Qb1 Black Kf8 Pa7\nStipulation #2\nEndProblem\n';
const TRIES = 'problem 1\n#2\nplay\n1.Qb1-b6!\n  threat\n    2.Qb6-f6#\n  1...a7*b6\nsolutions: 1\ntries\n1.Qb1-b2?\n  zugzwang\n  but\n    1...a7-a5!\ntries: 1\n\n';
fill({ ...sharedParts(), example: TEXT, 'fault-words': '{"8": "what the manual says"}', engine: 'AGFzbQEAAAA=' });
const { choreDone } = await import('../../web/chores.js');
const { comparisonOf } = await import('../../web/compared.js');
const { Board } = await import('../../web/board.js');
const { element, LONGEST_SHOWN, makeButton, madeWith, partText } = await import('../../web/elements.js');
const { faultBox } = await import('../../web/faults.js');
const { makeProblem, move, solveFromHere } = await import('../../web/line.js');
const { Notes } = await import('../../web/notes.js');
const { doChore } = await import('../../web/page/beside.js');
const { changeBoard, endTyping, goSteps, goToProblem, keepText, setText, takeFen, takeText } = await import('../../web/page/editing.js');
const { markFaults, unmarkFaults } = await import('../../web/page/faults.js');
const { fieldChanged } = await import('../../web/page/fields.js');
const { listenToFiles } = await import('../../web/page/files.js');
const { keepProblem, storeText } = await import('../../web/page/keeping.js');
const { forgetAll } = await import('../../web/page/kept.js');
const { OUTS } = await import('../../web/page/outs.js');
const { beginReport, drawGrowth, drawReport, reportGrew, showAge } = await import('../../web/page/reporting.js');
const { buildLive, liveChanged, showLive, solveLive } = await import('../../web/page/live.js');
const { mostRefutations, sayDone, sayProblem, showMost, showSolve, solve, solvingNow, stopSolving } = await import('../../web/page/solving.js');
const { blockNow, state, textNow } = await import('../../web/page/state.js');
const { sayAsked, sayCondition, sayFault, sayTotal } = await import('../../web/names.js');
const { companions } = await import('../../web/out/companions.js');
const { givenOf, sheetOf, shortText } = await import('../../web/outputs.js');
const { keep, keepInTab, kept: keptValue } = await import('../../web/page/storage.js');
const { buildSwitches } = await import('../../web/page/switches.js');
const views = await import('../../web/page/views.js');
const { askToStay, beginVisit, drawVisit, openLink, sayUnkept, storeVisit } = await import('../../web/page/visit.js');
const { leave, showPlace } = await import('../../web/page/walk.js');
const { fillPrint } = await import('../../web/printing.js');
const { fragmentOf } = await import('../../web/store.js');
const { blocksOf, menOf } = await import('../../web/text.js');
const { Work } = await import('../../web/slices.js');
const { sayFound } = await import('../../web/tree.js');
const { imported } = await import('../../web/importing.js');
const words = await import('../../web/words.js');
const { LANGUAGES, say, sayMan, speak } = words;
await import('../../web/page.js');
send('DOMContentLoaded', {});

/** Begins with a text and its report. */
function begin(text, report = '') {
  setText(text);
  goToProblem(1);
  beginReport(text);
  state.addReport(report);
  drawReport();
}

const noteNow = () => element('note').textContent;

test('page: it begins with the example, and its buttons have their words', () => {
  assert.equal(textNow(), TEXT);
  assert.equal(element('outText').textContent, 'Text');
  assert.equal(document.title, 'pops: chess problems, solved');
  assert.equal(element('count').textContent, 'problem 1 of 1: 2 + 1 men');
});

test('page: nightriders without knights are no knights', () => {
  const countOf = men => {
    setText(`BeginProblem\nPieces White Kg6 ${men} Black Kg8\nStipulation #1\nEndProblem\n`);
    return element('count').textContent;
  };
  assert.equal(countOf('Na1'), 'problem 1 of 1: 2 + 1 men; N is a nightrider, and there is no knight: knights are S');
  assert.equal(countOf('Na1 Sb1'), 'problem 1 of 1: 3 + 1 men');
  setText(TEXT);
});

test('words: a number that may be 1 comes after its noun', () => {
  for (const code of Object.keys(LANGUAGES)) {
    speak(code);
    assert.match(say('solving', { problem: '#2', seconds: 1, done: 0, parts: 1, found: 1 }), /\p{L}\s?: 1$/u);
    for (const name of ['comparedLeft', 'comparedLeftKeys']) assert.match(say(name, { count: 1 }), /\p{L}\s?: 1,/u);
  }
  speak('en');
});

test('elements: made with label and text', () => {
  assert.equal(makeButton('label', () => {}).getAttribute('aria-label'), 'label');
  assert.equal(madeWith('p', 'text').textContent, 'text');
  assert.equal(partText('engine'), 'AGFzbQEAAAA=');
});

test('notes: one stays while its cause lasts', () => {
  const notes = new Notes(made('a-note'));
  let holds = true;
  notes.show('text', () => holds);
  notes.check();
  assert.equal(element('a-note').textContent, 'text');
  holds = false;
  notes.check();
  assert.equal(element('a-note').textContent, '');
});

test('state: a report that grows, and its end', () => {
  state.beginReport('a');
  state.addReport('b');
  state.addReport('c');
  assert.deepEqual([state.solved, state.report], ['a', 'bc']);
  state.endReport(false);
  assert.equal(state.isBeginning, true);
  state.beginReport('a');
  state.endReport(false);
  assert.deepEqual([state.report, state.isBeginning], ['', false]);
  assert.equal(state.isSolved(), false);
});

test('storage: kept, removed, and refused by the browser', () => {
  assert.equal(keep('a', 'b'), true);
  assert.equal(keptValue('a'), 'b');
  keep('a', null);
  assert.equal(keptValue('a'), null);
  const { localStorage } = globalThis;
  globalThis.localStorage = undefined;
  assert.deepEqual([keep('a', 'b'), keptValue('a')], [false, null]);
  globalThis.localStorage = localStorage;
});

/** Does something in a browser whose storages have room for so many letters of a value. */
function withRoom(letters, act) {
  const both = [localStorage, sessionStorage].map(storage => ({ storage, setItem: storage.setItem }));
  for (const { storage, setItem } of both) {
    storage.setItem = (name, value) => {
      if (value.length > letters) throw new Error('no room');
      setItem(name, value);
    };
  }
  try {
    act();
  } finally {
    for (const { storage, setItem } of both) storage.setItem = setItem;
  }
}

test('storage: without room the older value stays', () => {
  for (const [store, map] of [[keep, kept], [keepInTab, keptInTab]]) {
    store('a', 'old');
    withRoom(5, () => assert.deepEqual([store('a', 'too long'), store('b', 'short')], [false, true]));
    assert.deepEqual([map.get('a'), map.get('b')], ['old', 'short']);
    for (const name of ['a', 'b']) assert.equal(store(name, null), true);
    assert.equal(map.has('a') || map.has('b'), false);
  }
});

test('editing: board, FEN, undo and redo', () => {
  begin(TEXT);
  changeBoard('mirror');
  assert.equal(textNow(), TEXT.replace('White Kg6 Ra1 Black Kg8', 'White Kb6 Rh1 Black Kb8'));
  goSteps(-1);
  assert.equal(textNow(), TEXT);
  assert.equal(takeFen('no FEN'), false);
  assert.equal(takeFen('8/8/8/8/8/8/8/K7 w'), true);
  assert.equal(textNow(), TEXT.replace('White Kg6 Ra1 Black Kg8', 'White Ka1'));
  endTyping();
  assert.equal(blockNow().number, 1);
});

test('editing: a text without problems gets one', () => {
  setText('');
  takeFen('8/8/8/8/8/8/8/K7 w');
  const made = 'BeginProblem\nPieces White Ka1\nStipulation #2\nEndProblem\n';
  assert.equal(textNow(), made);
  for (const [act, wanted] of [[() => takeFen('8/8/8/8/8/8/8/K7 w'), made], [() => element('next').onclick(), made.replace('Pieces White Ka1\n', '')]]) {
    setText('a word');
    act();
    assert.equal(textNow(), `a word\n${wanted}`);
  }
});

test('a text without a problem or with a word before it: the board\'s buttons make one, YAML says that there is none, and nothing goes on from the diagram', () => {
  for (const name of ['mirror', 'upright', 'turn', 'exchange', 'clear']) {
    setText('a b c');
    changeBoard(name);
    assert.equal(textNow(), 'a b c\nBeginProblem\nStipulation #2\nEndProblem\n');
  }
  for (const text of ['a b c', '', 'x'.repeat(6000)]) {
    setText(text);
    helpersOf(() => OUTS.outYaml());
    assert.deepEqual([Helper.all.length, noteNow()], [0, say('none')]);
  }
  setText(`x ${TEXT}`);
  OUTS.outYaml();
  assert.match(noteNow(), /^Problem 1 was left out: there is no BeginProblem/);
  for (const text of ['a b c', 'BeginProblem\n', TEXT]) {
    setText(text);
    solveFromHere();
    makeProblem();
    assert.equal(textNow(), text);
  }
});

test('fields: a value goes into the text', () => {
  begin(TEXT);
  element('field-Title').value = 'A';
  fieldChanged('Title');
  assert.equal(textNow(), TEXT.replace('BeginProblem\n', 'BeginProblem\nTitle A\n'));
});

test('of a title of millions of letters each line of the page shows the beginning, and its field can\'t be changed', () => {
  const [title, long] = [1 << 20, 30000].map(it => 'x'.repeat(it));
  const fields = ['field-Title', 'field-Author', 'field-Stipulation'].map(element);
  const text = TEXT.replace('Pieces', `Title ${long}\nAuthor B\nPieces`).replace('#1', `#1${long}`);
  begin(text, REPORT.replace('#1', `title: ${title}\nauthor: ${title}\n#1`));
  assert.deepEqual(fields.map(it => it.disabled), [true, false, true]);
  assert.ok(fields.every(it => it.value.length < 6000));
  fillPrint();
  for (const name of ['tree', 'report', 'print', 'fields']) assert.ok(element(name).textContent.length < 20000, `${name}: ${element(name).textContent.length}`);
  assert.match(element('report').textContent, /^problem 1\ntitle: x+…\nauthor: x+…\n#1\n/);
  begin(TEXT);
  assert.deepEqual(fields.map(it => it.disabled), [false, false, false]);
});

test('printing: of hundreds of thousands of lines, or of long ones, some ten pages are printed', () => {
  for (const [line, printed] of [['1.Kg8-h8 Ra1-a8#', 4000], [`1.Kg8-h8 ${'x'.repeat(71)}`, 1000]]) {
    begin(TEXT);
    Object.assign(state, { items: [{ ...state.items[0], number: 1, phases: [{ kind: 'play', lines: Array(30000).fill(line), isPossible: true, total: null }] }] });
    fillPrint();
    const lines = element('print').children[1].textContent.split('\n');
    assert.deepEqual([lines.length, lines.at(-1)], [printed + 1, `${30002 - printed} more`]);
  }
  begin(TEXT);
});

test('files: a dropped text is taken', () => {
  assert.equal(typeof listenToFiles, 'function');
  begin(TEXT);
  send('drop', { dataTransfer: { types: ['text/plain'], files: [], getData: () => 'BeginProblem\nEndProblem\n' } });
  assert.equal(textNow(), 'BeginProblem\nEndProblem\n');
  paste(TEXT);
  assert.equal(textNow(), TEXT);
});

const POPEYE = 'AnfangProblem\nSteine Weiss Kg6 Ta2 Schwarz Kg8\nForderung #1\nEndeProblem\n';
const pasteIntoBox = text => {
  let isTaken = false;
  send('paste', { target: element('text'), clipboardData: { getData: () => text }, preventDefault: () => { isTaken = true; } });
  return isTaken;
};

test('files: a text of Popeye pasted among one\'s own is put in at the caret, and one step of undo takes it back', () => {
  const made = TEXT.replace('Ra1', 'Ra2');
  for (const [from, to, wanted] of [
    [TEXT.length, TEXT.length, TEXT + made], [0, 0, made + TEXT], [TEXT.length - 1, TEXT.length - 1, `${TEXT}${made}\n`], [0, 13, made + TEXT.slice(13)],
  ]) {
    begin(TEXT);
    element('text').setSelectionRange(from, to);
    assert.equal(pasteIntoBox(POPEYE), true);
    assert.equal(textNow(), wanted);
    assert.equal(noteNow(), say('imported'));
    assert.equal(textNow().slice(0, element('text').selectionStart).endsWith(made), true);
    goSteps(-1);
    assert.equal(textNow(), TEXT);
  }
  begin(TEXT);
  element('text').setSelectionRange(0, TEXT.length);
  pasteIntoBox(POPEYE);
  assert.equal(textNow(), made);
  assert.equal(pasteIntoBox('Pieces White Ka1'), false);
});

test('files: a long text of Popeye is put in where the caret was, or is by then in a text that was changed', () => {
  const long = POPEYE.replace('Forderung', `${'\n'.repeat(6000)}Forderung`);
  const made = TEXT.replace('Ra1', 'Ra2');
  begin(TEXT);
  element('text').setSelectionRange(0, 0);
  const [first] = helpersOf(() => pasteIntoBox(long));
  assert.deepEqual([textNow(), noteNow()], [TEXT, say('importing')]);
  element('text').setSelectionRange(TEXT.length, TEXT.length);
  first.answer();
  assert.equal(textNow(), made + TEXT);
  begin(TEXT);
  element('text').setSelectionRange(0, 0);
  const [second] = helpersOf(() => pasteIntoBox(long));
  setText(`${TEXT}\n`);
  element('text').setSelectionRange(TEXT.length + 1, TEXT.length + 1);
  second.answer();
  assert.equal(textNow(), `${TEXT}\n${made}`);
});

test('files: a long text of Popeye is left out, with a note, where another text as a whole has replaced the one that it was pasted into', () => {
  const long = POPEYE.replace('Forderung', `${'\n'.repeat(6000)}Forderung`);
  begin(TEXT);
  element('text').setSelectionRange(TEXT.length, TEXT.length);
  const [late, again] = helpersOf(() => [pasteIntoBox(long), pasteIntoBox(long)]);
  takeText(TWO_MOVES);
  late.answer();
  assert.deepEqual([textNow(), noteNow()], [TWO_MOVES, say('importLate')]);
  goSteps(-1);
  again.answer();
  assert.equal(textNow(), TEXT + TEXT.replace('Ra1', 'Ra2'));
});

test('files: a text dropped into the text box among one\'s own is left to the browser', () => {
  const drop = target => {
    let isTaken = false;
    send('drop', { target, dataTransfer: { types: ['text/plain'], files: [], getData: () => TWO_MOVES }, preventDefault: () => { isTaken = true; } });
    return isTaken;
  };
  begin(TEXT);
  element('text').setSelectionRange(0, 5);
  assert.deepEqual([drop(element('text')), textNow()], [false, TEXT]);
  begin('');
  assert.deepEqual([drop(element('text')), textNow()], [true, TWO_MOVES]);
});

test('notes: what is said of an action goes when the next one begins', () => {
  const click = name => send('click', { target: { closest: words => (words.includes(name) ? {} : null) } });
  begin(TEXT);
  OUTS.outJson();
  assert.equal(noteNow(), 'solve first: there is no report yet');
  click('button');
  assert.equal(noteNow(), 'solve first: there is no report yet');
  OUTS.outCopyShort();
  assert.equal(noteNow(), 'solve first: this problem has no solution yet');
  click('p');
  assert.equal(noteNow(), 'solve first: this problem has no solution yet');
  click('button');
  assert.equal(noteNow(), '');
  takeFen('8/8/8/8/8/8/8/K7 w');
  helpersOf(() => send('keydown', { key: 'Enter', ctrlKey: true }));
  stopSolving();
  assert.equal(noteNow(), '');
  begin(TEXT, REPORT);
  views.tree.onward();
  click('button');
  assert.match(noteNow(), /^position after 1\.Ra1-a8#/);
  leave();
});

test('outs: the solution of a changed position is neither copied nor saved, and the page says so', () => {
  const saved = [];
  const { createElement } = document;
  document.createElement = tag => Object.assign(createElement(tag), tag === 'a' ? { click() { saved.push(this.download); } } : {});
  begin(TEXT, REPORT);
  changeBoard('mirror');
  OUTS.outCopyShort();
  assert.equal(noteNow(), 'not copied: the solution is of the position before it was changed; solve again');
  for (const name of ['outYaml', 'outLatex']) {
    OUTS[name]();
    assert.equal(noteNow(), 'without the solutions of problems that were changed: solve again');
  }
  takeText(TWO_MOVES);
  OUTS.outCopyShort();
  assert.equal(noteNow(), 'solve first: this problem has no solution yet');
  assert.deepEqual(saved, ['pops.yaml', 'pops.tex']);
  document.createElement = createElement;
});

test('files: a text with a byte order mark is taken wherever it is pasted', () => {
  begin('');
  paste(`\ufeff${TEXT}`);
  assert.equal(textNow(), TEXT);
});

test('a text that is too long for the page is refused', () => {
  const long = 'x'.repeat((1 << 23) + 1);
  for (const give of [() => paste(long), () => send('drop', { dataTransfer: { types: ['text/plain'], files: [], getData: () => long } })]) {
    begin(TEXT);
    give();
    assert.equal(textNow(), TEXT);
    assert.match(element('note').textContent, /would be longer than 8 MiB/);
  }
});

test('what is typed is refused where the text would be too long; what makes it shorter isn\'t', () => {
  const almost = 'x'.repeat((1 << 23) - TEXT.length) + TEXT;
  /** Returns whether the page keeps the browser from putting in what is typed. */
  const refuses = (inputType, data = null) => {
    let isRefused = false;
    views.note('');
    element('text').dispatchEvent({ type: 'beforeinput', inputType, data, preventDefault: () => { isRefused = true; } });
    assert.equal(isRefused, /would be longer than 8 MiB/.test(noteNow()));
    return isRefused;
  };
  begin(almost.slice(1));
  assert.deepEqual([refuses('insertText', 'x'), refuses('insertLineBreak'), refuses('insertFromPaste', 'xx')], [false, false, true]);
  begin(almost);
  assert.deepEqual([refuses('insertText', 'x'), refuses('insertLineBreak'), refuses('deleteContentBackward')], [true, true, false]);
  setText(TEXT);
});

test('a text that is too long is refused in fields and where it is dropped into the text; a text dropped into a field is left to the browser', () => {
  const long = 'x'.repeat((1 << 23) + 1 - TEXT.length);
  const field = { closest: () => element('field-Title') };
  const types = ['text/plain'];
  /** Returns how many of these texts the browser is kept from putting in. */
  const prevented = (name, target, ...texts) => texts.filter(text => {
    let isPrevented = false;
    const given = { types, files: [], getData: () => text };
    begin(TEXT);
    send(name, { target, clipboardData: given, dataTransfer: given, preventDefault: () => { isPrevented = true; } });
    assert.equal(textNow().includes(TEXT), true);
    return isPrevented;
  }).length;
  const cases = [['paste', field, 'x'.repeat(LONGEST_SHOWN + 1), /longer than 5,000 letters/], ['drop', field, long, /longer than 5,000 letters/],
    ['drop', element('text'), long, /would be longer than 8 MiB/]];
  for (const [name, target, text, said] of cases) {
    views.note('');
    assert.equal(prevented(name, target, text), 1);
    assert.equal(textNow(), TEXT);
    assert.match(element('note').textContent, said);
    assert.equal(prevented(name, target, '', 'x'), 0);
  }
  assert.equal(prevented('paste', field, 'x'.repeat(LONGEST_SHOWN)), 0);
  const lines = 'x\n'.repeat(20000);
  assert.equal(prevented('drop', element('text'), lines), 1);
  assert.equal(textNow().length, TEXT.length + lines.length);
  assert.ok(element('text').value.length < lines.length);
});

test('notes: of a long one the beginning is shown', () => {
  views.note('x'.repeat(1 << 20));
  assert.equal(element('note').textContent, `${'x'.repeat(LONGEST_SHOWN)}…`);
  views.note('');
});

test('store: no link is made of a long text, which takes no time', () => {
  const { URLSearchParams } = globalThis;
  globalThis.URLSearchParams = class { constructor() { throw new Error('a long text is written'); } };
  try {
    assert.equal(fragmentOf('x'.repeat(30001)), null);
  } finally {
    globalThis.URLSearchParams = URLSearchParams;
  }
});

test('faults: marks at their lines, until the text changes', () => {
  const text = TEXT.replace('#1', '#0');
  begin(text, 'problem 1\nline 3: fault 8: bad stipulation\n\n');
  assert.deepEqual(element('gutter').children.map(it => it.dataset.line), ['3']);
  unmarkFaults();
  assert.equal(element('gutter').children.length, 0);
  markFaults();
  assert.equal(element('gutter').children.length, 1);
  setText(TEXT);
  markFaults();
  assert.equal(element('gutter').children.length, 0);
});

test('faults: the button goes to the line of the fault, where that is now', () => {
  const text = `${TEXT.replace('End', 'Next')}Pieces White Kg6 Ra1 Black Kg8\nStipulation #0\nEndProblem\n`;
  /** Returns what the button selects after a change of the text. */
  const selected = changed => {
    setText(changed);
    element('tree').querySelectorAll('button')[0].click();
    const { selectionStart, selectionEnd } = element('text');
    return changed.slice(selectionStart, selectionEnd);
  };
  begin(text, `problem 1\n#1\nsound\n\nproblem 2\nline 6: fault 8: bad stipulation\n\n`);
  assert.equal(selected(text), 'Stipulation #0');
  assert.equal(selected(text.replace('Pieces', 'Title first\nRemark one\nPieces')), 'Stipulation #0');
  assert.equal(selected(text.replace('NextProblem\n', 'NextProblem\nTitle second\n\n').replace('#1', '#2')), 'Stipulation #0');
  assert.equal(selected(`\n${text.replace('#0', '#4')}`), 'NextProblem');
  assert.equal(selected('another'), 'another');
});

test('faults: the manual speaks where nothing else is known', () => {
  const box = faultBox('a\n', { number: 1, fault: { line: 1, number: 20, text: 'x' } }, 'general', {}, new Work());
  assert.equal(box.textContent.includes('general'), true);
});

test('reporting: the new part of a report is drawn', () => {
  begin(TEXT);
  reportGrew(REPORT.slice(0, 17));
  drawGrowth();
  reportGrew(REPORT.slice(17));
  drawGrowth();
  assert.equal(element('report').textContent, REPORT);
  assert.equal(element('tree').textContent.includes('1.Ra1-a8#'), true);
});

const SQUARES = [...'abcdefgh'].flatMap(file => [...'12345678'].map(rank => file + rank)).slice(1);
// Sixty-three first moves with sixty-three replies to each.
const MANY_LINES = SQUARES.flatMap(one => SQUARES.map(next => `1.Ka1-${one} Qa1-${next}#\n`));
const MANY = `problem 1\nh#1\nplay\n${MANY_LINES.join('')}solutions: ${MANY_LINES.length}\n\n`;

test('reporting: a long report is shown a number of lines at a time, and saved whole', () => {
  const linesShown = () => element('report').textContent.split('\n').length - 1;
  begin(TEXT, MANY);
  assert.deepEqual([linesShown(), element('moreReport').hidden], [2000, false]);
  element('moreReport').click();
  assert.deepEqual([element('report').textContent, element('moreReport').hidden], [MANY, true]);
  beginReport(TEXT);
  for (const part of MANY.match(/[^]{1,999}/g)) {
    reportGrew(part);
    drawGrowth();
  }
  assert.equal(linesShown(), 2000);
  assert.equal(MANY.startsWith(element('report').textContent), true);
  const { createElement } = document;
  const { createObjectURL } = URL;
  const sizes = [];
  document.createElement = tag => Object.assign(createElement(tag), tag === 'a' ? { click() {} } : {});
  URL.createObjectURL = blob => sizes.push(blob.size);
  OUTS.outReport();
  Object.assign(document, { createElement });
  Object.assign(URL, { createObjectURL });
  assert.deepEqual(sizes, [MANY.length]);
  begin(TEXT, REPORT);
  assert.deepEqual([element('report').textContent, element('moreReport').hidden], [REPORT, true]);
});

test('tree: of a report that grows only the lines from the last first move on become rows, and the tree is the one that is drawn at once', () => {
  const shown = () => {
    views.tree.foldAll(true);
    return element('tree').textContent;
  };
  begin(TEXT, MANY);
  const wanted = shown();
  views.tree.foldAll(false);
  for (const [lines, first] of [[100, 63], [63 * 5, 63 * 4], [63 * 62 + 1, 63 * 62], [MANY_LINES.length - 1, 63 * 62]]) {
    const grown = `problem 1\nh#1\nplay\n${MANY_LINES.slice(0, lines).join('')}`;
    begin(TEXT, grown);
    const { solutions } = state.items[0].phases[0];
    assert.equal(solutions.length, lines);
    const own = [...solutions];
    for (let at = 0; at < first; at++) Object.defineProperty(solutions, at, { get() { throw new Error('looked at'); } });
    reportGrew(MANY.slice(grown.length));
    drawGrowth();
    for (let at = 0; at < first; at++) Object.defineProperty(solutions, at, { value: own[at] });
    assert.equal(shown(), wanted);
    // (the arrows go through all rows, down and up)
    views.tree.foldAll(false);
    const { rows } = views.tree.groups[0];
    assert.equal(rows.length, SQUARES.length);
    for (const [ordered, step] of [[rows, 1], [[...rows].reverse(), -1]]) {
      views.tree.go(ordered[0], 0);
      for (const row of [...ordered.slice(1), ordered.at(-1)]) {
        views.tree.step(step);
        assert.equal(views.tree.current.row === row, true);
      }
    }
    views.tree.leave();
  }
});

test('tree: of many rows a number is unfolded, and all are folded', () => {
  begin(TEXT, MANY);
  views.tree.foldAll(true);
  const rows = element('tree').querySelectorAll('li').length;
  assert.ok(rows > 2000 && rows < 2200, `${rows} rows`);
  const lists = () => element('tree').querySelectorAll('ul').filter(it => !it.hidden).length;
  assert.ok(lists() > 30);
  views.tree.foldAll(false);
  assert.equal(lists(), 1);
});

test('solving: what was found; nothing without an engine', () => {
  begin(TEXT, REPORT);
  assert.equal(sayFound(state.items[0]), '1 key');
  assert.equal(sayDone(say('status0'), 7), 'no faults in the text: 1 key; 7 ms');
  solve();
  assert.equal(state.report, REPORT);
});

test('walk and tree: on, back, and to the diagram', () => {
  begin(TEXT, REPORT);
  views.tree.onward();
  assert.equal(state.walked.get('a8'), 'wR');
  assert.equal(element('reached').textContent, '1.Ra1-a8#');
  leave();
  assert.equal(state.walked, null);
  showPlace(null);
  assert.equal(element('line').hidden, true);
});

test('tree: threats and refutations, by keys and by the switch', () => {
  begin(TWO_MOVES, TRIES);
  assert.equal(sayFound(state.items[0]), '1 key, 1 try');
  assert.equal(element('tree').textContent.includes('tries: 1'), true);
  const key = name => element('tree').onkeydown({ key: name, preventDefault() {} });
  const shown = () => [element('reached').textContent, state.walked?.get('b6') ?? null, state.walked?.get('f6') ?? null];
  key('ArrowRight');
  assert.deepEqual(shown(), ['1.Qb1-b6!', 'wQ', null]);
  key('ArrowRight');
  assert.deepEqual([views.tree.current.row.word, ...shown()], ['threat', '1.Qb1-b6!', 'wQ', null]);
  key('ArrowRight');
  assert.deepEqual(shown(), ['2.Qb6-f6#', null, 'wQ']);
  key('ArrowLeft');
  key('ArrowDown');
  key('ArrowDown');
  assert.deepEqual(shown(), ['1...a7*b6', 'bP', null]);
  for (const name of ['ArrowDown', 'ArrowRight', 'ArrowDown', 'ArrowRight']) key(name);
  assert.equal(element('reached').textContent, '1...a7-a5!');
  for (const name of ['ArrowLeft', 'ArrowLeft', 'ArrowLeft']) key(name);
  assert.equal(state.walked, null);
  leave();
});

test('tree: from a move that is folded away the arrows go to the rows beside the one that hides it', () => {
  begin(TWO_MOVES, TRIES);
  const { tree } = views;
  const rows = tree.groups.flatMap(it => it.rows);
  const hiding = rows.findIndex(it => it.hasBelow);
  for (const [step, wanted] of [[1, rows[hiding + 1]], [-1, rows[hiding - 1]]]) {
    tree.go(rows[hiding].below[0], 0);
    tree.fold(rows[hiding], false);
    const before = tree.current.row;
    tree.step(step);
    assert.equal(tree.current.row === (wanted ?? before), true);
  }
  leave();
});

test('tree: a report with tries that grows keeps what is unfolded', () => {
  begin(TWO_MOVES, TRIES.slice(0, TRIES.indexOf('  1...')));
  for (let step = 0; step < 3; step++) views.tree.onward();
  reportGrew(TRIES.slice(TRIES.indexOf('  1...')));
  drawGrowth();
  assert.deepEqual([views.tree.current.row.parent.word, element('reached').textContent], ['threat', '2.Qb6-f6#']);
  leave();
});

test('solving: the switch for tries and its number', () => {
  assert.deepEqual([mostRefutations(), element('most').hidden], [null, true]);
  element('tries').checked = true;
  showMost();
  const numbers = ['', '0', '3', '200', '500', '-1', 'x'].map(said => {
    element('refutations').value = said;
    return mostRefutations();
  });
  assert.deepEqual([...numbers, element('most').hidden], [1, 0, 3, 200, 200, 0, 0, false]);
  element('tries').checked = false;
  showMost();
});

test('board: a click picks a man up and puts it down', () => {
  begin(TEXT);
  assert.ok(views.board instanceof Board);
  views.board.click('a1');
  assert.equal(noteNow(), 'white rook a1: where to? Escape cancels');
  views.board.click('a2');
  assert.equal(textNow(), TEXT.replace('Ra1', 'Ra2'));
});

test('line: a move played, made the problem, solved from there', () => {
  begin(TEXT.replace('#1', '#2'));
  state.play(true);
  move('a1', 'a7');
  makeProblem();
  assert.equal(textNow(), TEXT.replace('#1', '#2').replace('Ra1', 'Ra7'));
  move('a7', 'a1');
  solveFromHere();
  assert.equal(textNow().includes('Title after 1.Ra7-a1'), true);
  state.play(false);
});

test('kept: texts that were solved', () => {
  begin(TEXT);
  forgetAll();
  keepProblem(TEXT);
  assert.equal(JSON.parse(kept.get('pops.kept'))[0].text, TEXT);
  takeText('');
  element('kept-list').children[0].children[0].onclick();
  assert.equal(textNow(), TEXT);
  forgetAll();
  assert.equal(kept.has('pops.kept'), false);
});

test('kept: one that is forgotten takes away nothing that another tab has kept meanwhile', () => {
  forgetAll();
  keepProblem(TEXT);
  const [line] = element('kept-list').children;
  kept.set('pops.kept', JSON.stringify([{ text: TWO_MOVES, time: 1 }, ...JSON.parse(kept.get('pops.kept'))]));
  send('storage', { key: 'pops.visit' });
  assert.equal(element('kept-list').children[0], line, 'a change of another value draws nothing');
  send('storage', { key: 'pops.kept' });
  assert.equal(element('kept-list').children.length, 2);
  line.children[1].onclick();
  assert.deepEqual(JSON.parse(kept.get('pops.kept')).map(it => it.text), [TWO_MOVES]);
  forgetAll();
});

test('outs and printing: nothing without a report, the sheet with one', () => {
  begin(TEXT);
  OUTS.outJson();
  assert.equal(noteNow(), 'solve first: there is no report yet');
  begin(TEXT, REPORT);
  fillPrint();
  assert.equal(element('print').textContent.includes('1.Ra1-a8#'), true);
});

const keptTexts = () => JSON.parse(kept.get('pops.kept') ?? '[]').map(it => it.text);

test('links: a link\'s text is opened beside the text in work, once', () => {
  forgetAll();
  begin(TWO_MOVES);
  const linked = TEXT.replace('Ra1', 'Ra2');
  location.hash = fragmentOf(linked);
  openLink();
  assert.equal(textNow(), linked);
  assert.deepEqual(keptTexts(), [linked, TWO_MOVES]);
  assert.match(noteNow(), /^the link’s text was opened/);
  assert.match(element('kept-list').children[0].textContent, /from a link/);
  goSteps(-1);
  assert.equal(textNow(), TWO_MOVES);
  openLink();
  assert.equal(textNow(), TWO_MOVES);
  // (again, after the page was opened without it)
  location.hash = '';
  openLink();
  assert.equal(textNow(), TWO_MOVES);
  location.hash = fragmentOf(linked);
  openLink();
  assert.equal(textNow(), linked);
  location.hash = `#text=${'x'.repeat((1 << 23) + 1)}`;
  openLink();
  assert.equal(textNow(), linked);
  assert.match(noteNow(), /would be longer than 8 MiB/);
  location.hash = fragmentOf('6k1/8/6K1/8/8/8/8/R7 w - - 0 1');
  openLink();
  assert.equal(textNow(), 'BeginProblem\nPieces White Kg6 Ra1 Black Kg8\nStipulation #2\nEndProblem\n');
  assert.deepEqual(keptTexts().slice(1), [linked, TWO_MOVES]);
  location.hash = '';
  forgetAll();
});

test('links: the example isn\'t kept, and a text that replaces another keeps it', () => {
  forgetAll();
  setText(element('example').textContent);
  takeText(TWO_MOVES);
  assert.deepEqual(keptTexts(), []);
  takeText(TEXT.replace('Ra1', 'Ra3'));
  assert.deepEqual(keptTexts(), [TWO_MOVES]);
  forgetAll();
});

test('visit: texts for undo, the problem and its report survive a reload', () => {
  begin(TWO_MOVES, TRIES);
  state.endReport(true);
  setText(TEXT);
  setText(TEXT + TEXT);
  goSteps(-1);
  storeVisit();
  setText('another');
  keptInTab.delete('pops.tab');
  state.beginReport('');
  const text = beginVisit();
  assert.equal(text, TEXT);
  element('text').value = text;
  drawVisit();
  assert.equal(element('tree').textContent.includes('1.Qb1-b6!'), true);
  assert.deepEqual([state.solved, state.isBeginning, state.steps.has(1)], [TWO_MOVES, false, true]);
  goSteps(-1);
  assert.equal(textNow(), TWO_MOVES);
  state.beginReport(TEXT);
  state.addReport('problem 1\n#1\n');
  storeVisit();
  beginVisit();
  assert.deepEqual([state.report, state.isBeginning], ['problem 1\n#1\n', true]);
  state.endReport(true);
  takeText(TWO_MOVES.replace('Qb1', 'Qb2'));
  storeVisit();
  state.beginReport(textNow());
  beginVisit();
  assert.equal(state.isReplaced(), true);
});

const withRemark = letters => TEXT.replace('Pieces', `Remark ${'x'.repeat(letters)}\nPieces`);
const unkeptNow = () => (element('unkept').hidden ? '' : element('unkept').textContent);
/** Stores a long text at once, which the page does a moment later. */
const keepLong = () => storeVisit();

/** Returns whether the page asks before it is left. */
function asksToStay() {
  let asks = false;
  askToStay({ preventDefault: () => { asks = true; } });
  return asks;
}
/** Loads the page again. */
function reload() {
  storeVisit();
  const text = beginVisit();
  element('text').value = text;
  drawVisit();
  return text;
}

test('visit: of a text that there is no room for the page says so, asks before it is left, and shows the one before after a reload', () => {
  begin(TEXT);
  storeVisit();
  begin(TWO_MOVES);
  assert.equal(unkeptNow(), '');
  withRoom(250000, () => {
    setText(withRemark(300000));
    keepLong();
    assert.deepEqual([unkeptNow(), asksToStay()], [say('unkept'), true]);
    OUTS.outText();
    assert.equal(asksToStay(), false);
    changeBoard('mirror');
    assert.equal(asksToStay(), true);
    assert.equal(reload(), TWO_MOVES);
    assert.equal(noteNow(), say('textLost'));
    setText(TEXT);
    storeVisit();
    assert.deepEqual([unkeptNow(), asksToStay(), keptInTab.has('pops.lost')], ['', false, false]);
  });
});

test('visit: a long text is stored at each change, and the next visit in another tab begins with it', () => {
  begin(TWO_MOVES);
  const long = withRemark(300000);
  setText(long);
  keepLong();
  assert.deepEqual([unkeptNow(), asksToStay()], ['', false]);
  for (const name of ['pops.tab', 'pops.visit']) keptInTab.delete(name);
  assert.equal(beginVisit(), long);
  storeVisit();
  setText(long.replace('xx', 'xy'));
  // (this tab has less room than all visits have)
  const { setItem } = sessionStorage;
  sessionStorage.setItem = () => { throw new Error('no room'); };
  assert.equal(reload(), long.replace('xx', 'xy'));
  sessionStorage.setItem = setItem;
  begin(TEXT);
});

test('visit: a long text is stored a moment after changes, once for all of them, and at once before the page goes', () => withSlowClock(pass => {
  begin(TEXT);
  storeVisit();
  const visits = [];
  const { setItem } = localStorage;
  localStorage.setItem = (name, value) => {
    if (name === 'pops.visit') visits.push(JSON.parse(value).steps.texts.at(-1));
    setItem(name, value);
  };
  const longs = [200001, 200002, 200003, 200004, 200005].map(withRemark);
  for (const long of longs.slice(0, 3)) {
    setText(long);
    keepText();
    sayUnkept();
  }
  assert.deepEqual([visits.length, unkeptNow()], [0, '']);
  pass();
  assert.equal(visits.length === 1 && visits[0] === longs[2], true);
  for (let passes = 0; passes < 9; passes++) pass();
  visits.length = 0;
  setText(longs[3]);
  sayUnkept();
  send('pagehide', {});
  assert.equal(visits.length === 1 && visits[0] === longs[3], true);
  withRoom(1000, () => {
    setText(longs[4]);
    sayUnkept();
    for (let passes = 0; passes < 30 && !unkeptNow(); passes++) pass();
    assert.equal(unkeptNow(), say('unkept'));
  });
  localStorage.setItem = setItem;
  setText(TEXT);
  keepText();
  sayUnkept();
  assert.equal(unkeptNow(), '');
  for (let passes = 0; passes < 9; passes++) pass();
}));

test('visit: a short text that there is no room for isn\'t taken for the one before', () => {
  begin(TWO_MOVES);
  storeVisit();
  const { setItem } = localStorage;
  localStorage.setItem = () => { throw new Error('no room'); };
  setText(TEXT.replace('Ra1', 'Ra4'));
  assert.deepEqual([unkeptNow(), asksToStay()], [say('unkept'), true]);
  assert.equal(reload(), TEXT.replace('Ra1', 'Ra4'));
  setText(element('example').textContent);
  assert.deepEqual([unkeptNow(), asksToStay()], ['', false]);
  localStorage.setItem = setItem;
});

test('kept: of a text that is replaced and too long to be kept the page says so, and asks before undo would lose it', () => {
  forgetAll();
  const letters = '100,000';
  for (const [long, asks] of [[withRemark(120000), false], [withRemark(600000), true]]) {
    begin(long);
    takeText(TWO_MOVES);
    assert.deepEqual([unkeptNow(), asksToStay(), keptTexts()], [say('unkeptReplaced', { letters }), asks, []]);
    goSteps(-1);
    keepLong();
    assert.equal(unkeptNow(), '');
    OUTS.outText();
    goSteps(1);
    assert.equal(asksToStay(), false);
    takeText(TEXT);
    assert.deepEqual([unkeptNow(), asksToStay(), keptTexts()], ['', false, [TWO_MOVES]]);
    forgetAll();
  }
  assert.match(element('kept-where').textContent, /of up to 100,000 letters/);
  withRoom(1000, () => {
    begin(withRemark(2000));
    takeText(TWO_MOVES);
    assert.equal(unkeptNow(), say('unkeptReplaced', { letters }));
  });
  begin(TEXT);
});

test('keeping: whether a text is kept is found in the list, also where there is no room for another', () => {
  forgetAll();
  withRoom(500, () => {
    assert.deepEqual([keepProblem(TEXT), keepProblem(withRemark(2000)), keepProblem(TEXT)], [true, false, true]);
    withRoom(10, () => assert.equal(keepProblem(TEXT), true));
  });
  assert.deepEqual(keptTexts(), [TEXT]);
  assert.deepEqual([withRemark(100001), ' '].map(it => keepProblem(it)), [false, false]);
  forgetAll();
});

test('keeping: nobody misses blanks, however many: they are neither kept nor asked for, nor is their loss told of', () => {
  forgetAll();
  begin(TEXT);
  takeText(TWO_MOVES);
  forgetAll();
  begin(' \n'.repeat(60000));
  withRoom(1000, () => {
    keepLong();
    assert.deepEqual([unkeptNow(), asksToStay()], ['', false]);
    takeText(TEXT);
  });
  assert.deepEqual([unkeptNow(), asksToStay(), keptTexts()], ['', false, []]);
  begin(TEXT);
});

test('keeping: another tab\'s text stays where there is no room to keep it', () => {
  forgetAll();
  kept.set('pops', withRemark(2000));
  kept.set('pops.tab', 'another');
  withRoom(1000, () => storeText(TEXT));
  assert.deepEqual([kept.get('pops'), kept.get('pops.tab')], [withRemark(2000), 'another']);
  kept.delete('pops.tab');
});

test('keeping: a text in work isn\'t kept again if it is kept already, is the same, is of no tab, or is none', () => {
  forgetAll();
  const stored = (text, tab) => {
    for (const [name, value] of [['pops', text], ['pops.tab', tab]]) keep(name, value);
  };
  keepProblem(TWO_MOVES, { isLinked: true });
  stored(TWO_MOVES, 'another');
  storeText(TEXT);
  assert.deepEqual(JSON.parse(kept.get('pops.kept')).map(it => it.isLinked), [true]);
  for (const [text, tab, next] of [[TWO, 'another', TWO], [TWO, null, TEXT], [null, 'another', TEXT]]) {
    stored(text, tab);
    storeText(next);
    assert.deepEqual([keptTexts(), kept.get('pops')], [[TWO_MOVES], next]);
  }
  forgetAll();
});

test('keeping: a text in work of another tab is kept before it is replaced', () => {
  forgetAll();
  for (const other of ['one', 'one more']) {
    kept.set('pops', other);
    kept.set('pops.tab', 'another');
    storeText(TEXT);
  }
  assert.deepEqual([keptTexts(), kept.get('pops')], [['one more'], TEXT]);
  storeText(TWO_MOVES);
  assert.deepEqual(keptTexts(), ['one more']);
  forgetAll();
});

test('keeping: another tab that sees a text in work come in finds whose it is', () => {
  forgetAll();
  kept.set('pops.tab', 'another');
  const { setItem } = localStorage;
  let seen;
  localStorage.setItem = (name, value) => {
    setItem(name, value);
    if (name === 'pops') seen = kept.get('pops.tab');
  };
  storeText(TEXT);
  localStorage.setItem = setItem;
  assert.equal(seen, keptInTab.get('pops.tab'));
});

test('keeping: a replaced text that is kept as one in work stays kept beside the next one', () => {
  forgetAll();
  begin(TWO_MOVES);
  keepProblem(TWO_MOVES, { tab: 'this' });
  takeText(TEXT);
  keepProblem('one more', { tab: 'this' });
  assert.deepEqual(keptTexts(), ['one more', TWO_MOVES]);
  forgetAll();
});

test('keeping: a text in work of a copy of this tab is kept before it is replaced', () => {
  begin(TEXT);
  forgetAll();
  storeText(TEXT);
  // (the copy has this tab's name)
  kept.set('pops', TWO_MOVES);
  send('storage', { key: 'pops' });
  storeText(TEXT);
  assert.deepEqual([keptTexts(), kept.get('pops')], [[TWO_MOVES], TEXT]);
  forgetAll();
});

const TWO = TWO_MOVES.replace('End', 'Next') + TEXT.slice(TEXT.indexOf('Pieces'));
const TWO_REPORTS = 'problem 1\n#2\nplay\n1.Qb1-b6!\nsolutions: 1\n\n' + REPORT.replace('problem 1', 'problem 2');

/** Lists whether each problem of the solutions is marked as old. */
const oldItems = () => views.tree.list.children.map(it => [it.classList.contains('old'), it.children[1].hidden]);

test('age: the solutions of a changed problem are marked at once, and not the others', () => {
  begin(TWO, TWO_REPORTS);
  assert.deepEqual(oldItems(), [[false, true], [false, true]]);
  changeBoard('mirror');
  assert.deepEqual(oldItems(), [[true, false], [false, true]]);
  assert.match(views.tree.list.children[0].textContent, /Not of this position/);
  assert.equal(element('whole').classList.contains('old'), true);
  reportGrew('');
  drawGrowth();
  assert.deepEqual(oldItems(), [[true, false], [false, true]]);
  drawReport();
  assert.deepEqual(oldItems(), [[true, false], [false, true]]);
  goSteps(-1);
  assert.deepEqual(oldItems(), [[false, true], [false, true]]);
  element('field-Title').value = 'Another title';
  fieldChanged('Title');
  assert.deepEqual(oldItems(), [[false, true], [false, true]]);
  goToProblem(2);
  element('field-Stipulation').value = '#3';
  fieldChanged('Stipulation');
  assert.deepEqual(oldItems(), [[false, true], [true, false]]);
  views.tree.go(views.tree.groups[1].rows[0], 0);
  assert.match(noteNow(), /^position after 1.Ra1-a8#, of the problem before it was changed/);
  leave();
});

test('age: the solutions of a text that another one replaced are hidden, until it comes back', () => {
  begin(TWO, TWO_REPORTS);
  takeText(TEXT.replace('Ra1', 'Ra5'));
  assert.equal(element('found').hidden, true);
  goSteps(-1);
  assert.deepEqual([element('found').hidden, ...oldItems()], [false, [false, true], [false, true]]);
  showAge();
});

test('solving: which problem it is', () => {
  begin(TWO, TWO_REPORTS.slice(0, 40));
  assert.equal(sayProblem(), 'problem 1 of 2, #2 White Kh8 Qb1 Black Kf8 Pa7');
  state.addReport(TWO_REPORTS.slice(40));
  state.readReport();
  assert.equal(sayProblem(), 'problem 2 of 2, #1 White Kg6 Ra1 Black Kg8');
  begin(TEXT.replace('Pieces', 'Title One\nPieces'));
  assert.equal(sayProblem(), 'One');
});

test('live: the switch is kept, and nothing begins without an engine', () => {
  begin(TEXT, REPORT);
  element('live').checked = true;
  element('live').onchange();
  assert.equal(kept.get('pops.live'), 'on');
  changeBoard('mirror');
  liveChanged();
  solveLive();
  assert.deepEqual([solvingNow().isReady, state.solved, element('liveState').textContent], [false, TEXT, '']);
  element('live').checked = false;
  buildLive();
  assert.equal(element('live').checked, true);
  element('live').checked = false;
  element('live').onchange();
  assert.equal(kept.has('pops.live'), false);
  showLive();
});

test('solving: one button for one problem, two for several', () => {
  begin(TEXT);
  showSolve();
  assert.deepEqual([element('solve').textContent, element('solveThis').hidden], ['Solve', true]);
  begin(TWO);
  assert.deepEqual([element('solve').textContent, element('solveThis').hidden], ['Solve all', false]);
});

/** Returns the button of the solutions with this name, once there is one. */
async function buttonNamed(name) {
  for (;;) {
    const found = element('tree').querySelectorAll('button').find(it => it.textContent === name);
    if (found) return found;
    await new Promise(end => { setTimeout(end, 1); });
  }
}

test('faults: corrected by a click, which switches tries on if an option asked for them', async () => {
  const text = TEXT.replace('End', 'Option Try Variation\nEnd');
  const good = TEXT.replace('End', 'Option Variation\nEnd');
  begin(text, 'problem 1\nline 4: fault 2: misplaced word\n\n');
  const [correct, convert] = [await buttonNamed('Correct it'), await buttonNamed('Convert the whole text')];
  assert.match(element('tree').textContent, /4 \| Option Variation/);
  element('tries').checked = false;
  correct.onclick();
  assert.deepEqual([textNow(), element('tries').checked, element('most').hidden], [good, true, false]);
  assert.match(noteNow(), /^corrected, and “tries and threats” was switched on/);
  correct.onclick();
  assert.match(noteNow(), /^the text was changed since/);
  goSteps(-1);
  element('tries').checked = false;
  convert.onclick();
  assert.deepEqual([textNow(), element('tries').checked], [good.replace('BeginProblem', 'BeginProblem\nRemark Try left out: pops-tries shows tries'), true]);
  element('tries').checked = false;
  showMost();
});

test('faults: a text typed after a byte order mark is corrected by a click, and one of Popeye converted', async () => {
  const report = 'problem 1\nline 1: fault 1: BeginProblem expected\n\n';
  const pressed = name => element('tree').querySelectorAll('button').find(it => it.textContent === name);
  begin(`\ufeff${TEXT}`, report);
  assert.equal(pressed('Convert the whole text'), undefined);
  (await buttonNamed('Correct it')).onclick();
  assert.equal(textNow(), TEXT);
  begin('\ufeffAnfangProblem\nSteine Weiss Kg6 Ta1 Schwarz Kg8\nForderung #1\nEndeProblem\n', report);
  pressed('Convert the whole text').onclick();
  assert.equal(textNow(), TEXT);
});

/** Returns how often a function does work of the companions by this name. */
function callsOf(name, act) {
  const own = companions[name];
  let calls = 0;
  companions[name] = (...given) => {
    calls += 1;
    return own(...given);
  };
  act();
  companions[name] = own;
  return calls;
}

test('faults: many are explained and corrected in slices, all explanations before the corrections', () => withSlowClock(pass => {
  const text = `Begin${Array(4).fill(`Problem\nPieces White Kg6 Ra1 Black Kg8\nStipulation #1\n${'Option Variatoin\n'.repeat(5)}`).join('Next')}EndProblem\n`;
  const report = [1, 2, 3, 4].map(it => `problem ${it}\nline ${4 + 8 * (it - 1)}: fault 2: misplaced word\n\n`).join('');
  const count = said => element('tree').textContent.split(said).length - 1;
  assert.ok(callsOf('readNumber', () => begin(text, report)) <= 1);
  assert.deepEqual([count('misplaced word'), count('It looks like'), count(say('correct'))], [4, 1, 0]);
  for (let passes = 0; passes < 40 && count(say('correct')) < 4; passes++) {
    assert.ok(callsOf('readNumber', pass) <= 1);
    if (count(say('correct'))) assert.equal(count('It looks like'), 4);
  }
  assert.equal(count(say('correct')), 4);
  begin(text, report);
  begin(TEXT, REPORT);
  assert.equal(callsOf('readNumber', pass), 0);
}));

test('files: a text of Popeye pasted into the text box is converted, also with a byte order mark', () => {
  const popeye = '\ufeffAnfangProblem\nSteine Weiss Kg6 Ta1 Schwarz Kg8\nForderung #1\nEndeProblem\n';
  begin('');
  send('paste', { target: element('text'), clipboardData: { getData: () => popeye } });
  assert.equal(textNow(), TEXT);
  begin('');
  takeText(`\ufeff${TEXT}`);
  assert.equal(textNow(), TEXT);
});

test('files: the number of refutations that a text asks for is set with the switch', async () => {
  const yaml = "algebraic:\n  white: [Kg6, Ra1]\n  black: [Kg8]\nstipulation: '#1'\noptions: [Defence 2, Variation]\n";
  const popeye = options => TEXT.replace('End', `Option ${options}\nEnd`);
  for (const [text, most] of [[popeye('Defence 3'), 3], [popeye('Defence 3 Try'), 3], [popeye('Try'), 1], [popeye('Threat'), 7], [yaml, 2]]) {
    begin('');
    Object.assign(element('tries'), { checked: false });
    Object.assign(element('refutations'), { value: '7' });
    takeText(text);
    assert.equal(mostRefutations(), most);
  }
  begin(popeye('Defence 4'), 'problem 1\nline 4: fault 2: misplaced word\n\n');
  (await buttonNamed('Correct it')).onclick();
  assert.equal(mostRefutations(), 4);
  Object.assign(element('tries'), { checked: false });
  Object.assign(element('refutations'), { value: '' });
  showMost();
});

const COMPARED = [
  'problem 1', '#2', 'set', '1...a7-a6', '  2.Qb1-f5#', '1...a7-a5', '  2.Qb1-f1#', 'solutions: 2',
  'play', '1.Qb1-b6!', '  zugzwang', '  1...a7*b6', '    2.Kh8-h7#', '  1...a7-a5', '    2.Qb6-f2#', '    2.Qb6-f6#', 'solutions: 1',
  'tries', '1.Qb1-b2?', '  threat', '    2.Qb2-f6#', '  1...a7-a5', '    2.Qb2-f6#', '    2.Qb2-f2#', '  but', '    1...Kf8-e8!', '    1...a7-a6!',
  '1.Qb1-h1?', '  zugzwang', '  but', '    1...a7-a5!', 'tries: 2', '', ''].join('\n');

test('tree: a folded try shows what refutes it', () => {
  begin(TWO_MOVES, COMPARED);
  const briefs = () => views.tree.groups[2].rows.map(row => [row.brief.textContent, Boolean(row.brief.hidden)]);
  assert.deepEqual(briefs(), [['… but 1...Kf8-e8! 1...a7-a6!', false], ['… but 1...a7-a5!', false]]);
  views.tree.fold(views.tree.groups[2].rows[0], true);
  assert.deepEqual(briefs().map(it => it[1]), [true, false]);
  assert.equal(views.tree.groups[1].rows[0].brief, undefined);
});

test('tree: set play, tries and play side by side, with what changes', () => {
  begin(TWO_MOVES, COMPARED);
  const box = views.tree.list.children[0].children.at(-1);
  assert.equal(box.tagName, 'DETAILS');
  box.open = true;
  box.ontoggle();
  const rows = box.querySelectorAll('tr').map(tr => tr.children.map(it => it.textContent + (it.className ? '*' : '')));
  assert.deepEqual(rows, [
    ['', 'set play', '1.Qb1-b2?', '1.Qb1-b6!'],
    ['threat', '', '2.Qb2-f6#', 'zugzwang'],
    ['1...a7*b6', '', '', '2.Kh8-h7#'],
    ['1...a7-a5', '2.Qb1-f1#*', '2.Qb2-f6#2.Qb2-f2#', '2.Qb6-f2#2.Qb6-f6#*'],
    ['1...a7-a6', '2.Qb1-f5#', '!', ''],
    ['1...Kf8-e8', '', '!', ''],
  ]);
  assert.match(box.textContent, /tries not shown: 1,/);
  box.querySelectorAll('button').find(it => it.textContent === '2.Qb6-f2#').onclick();
  assert.equal(element('reached').textContent, '2.Qb6-f2#');
  leave();
  begin(TWO_MOVES, TRIES);
  assert.equal(views.tree.list.children[0].children.some(it => it.tagName === 'DETAILS'), false);
  assert.equal(comparisonOf([]), null);
});

test('tree: of many keys the first twelve are compared, and the page says how many are left', () => {
  const keys = [...'abcdefghijklm'].map((_, at) => `1.Qb1-${'abcdefgh'[at % 8]}${3 + (at >> 3)}\n`).join('');
  begin(TWO_MOVES, `problem 1\n#2\nplay\n${keys}solutions: 13\n\n`);
  const box = views.tree.list.children[0].children.at(-1);
  box.open = true;
  box.ontoggle();
  assert.equal(box.querySelectorAll('tr')[0].children.length, 13);
  assert.match(box.textContent, /keys not shown: 1,/);
});

test('fields: the stipulation is a choice and a number; another word is a choice of its own', () => {
  begin(TEXT.replace('#1', 'h#2.5'));
  const shown = () => [element('field-Stipulation').value, element('field-Moves').value, Boolean(element('field-Moves').disabled)];
  assert.deepEqual(shown(), ['h#', '2.5', false]);
  element('field-Stipulation').value = '#';
  element('field-Stipulation').onchange();
  assert.equal(textNow(), TEXT.replace('#1', '#3'));
  element('field-Moves').value = '2';
  element('field-Moves').onchange();
  assert.equal(textNow(), TEXT.replace('#1', '#2'));
  setText(TEXT.replace('#1', 'r#2'));
  assert.deepEqual([...shown(), element('field-Stipulation').children.at(-1).value], ['r#2', '', true, 'r#2']);
});

test('board: seen from the other side, with its letters and keys', () => {
  begin(TEXT);
  const corners = () => { const rows = element('squares').children; return [rows[0].children[0], rows[7].children[7]].map(it => it.id); };
  assert.deepEqual(corners(), ['a8', 'h1']);
  element('flip').onclick();
  assert.deepEqual([...corners(), kept.get('pops.flipped')], ['h1', 'a8', 'on']);
  assert.deepEqual(['h8', 'a8', 'h1', 'a1'].map(it => [element(it).dataset.file, element(it).dataset.rank]), [['h', '8'], ['a', ''], ['', '1'], ['', '']]);
  const key = (square, name) => { element('squares').onkeydown({ key: name, target: element(square), preventDefault() {} }); return document.activeElement.id; };
  assert.deepEqual([key('e4', 'ArrowUp'), key('e4', 'ArrowRight'), key('e4', 'Home')], ['e3', 'd4', 'h4']);
  assert.equal(textNow(), TEXT);
  element('flip').onclick();
  assert.deepEqual([...corners(), key('e4', 'ArrowUp'), key('e4', 'Home'), kept.has('pops.flipped')], ['a8', 'h1', 'e5', 'a4', false]);
});

test('editing: clear removes titles, source, remarks and squares of options too, and leaves the author and other problems', () => {
  const other = 'NextProblem\nTitle D\nRemark keywords: Fleck\nPieces White Kg6 Ra1 Black Kg8\nStipulation #1\nEndProblem\n';
  begin(`BeginProblem\nTitle Z\nTitle A\nAuthor B\nOrigin C\nRemark solution: "1.Rh8#"\nPieces White Ke1 Rh1 Black Ke8\nRemark keywords: Barulin\nStipulation #2\nOption Variation NoCastling h1\n${other}`);
  changeBoard('clear');
  assert.equal(textNow(), `BeginProblem\nAuthor B\nStipulation #2\nOption Variation\n${other}`);
  goSteps(-1);
  assert.match(textNow(), /Title A/);
});

test('words: no line of French begins with a sign that belongs to the word before it', () => {
  for (const said of Object.values(JSON.parse(sharedParts().words).fr)) assert.doesNotMatch(said, / [:;?!»]|« /);
});

test('words: every language has every text, with the same values in it', () => {
  const [english, ...others] = Object.keys(LANGUAGES).map(code => new Set(Object.keys(JSON.parse(sharedParts().words)[code])));
  assert.equal(english.size > 150, true);
  for (const [at, other] of others.entries()) {
    const code = Object.keys(LANGUAGES)[at + 1];
    assert.deepEqual([...english].filter(it => !other.has(it)), []);
    assert.deepEqual([...other].filter(it => !english.has(it) && it !== 'below-stalemate'), []);
    for (const name of english) {
      const values = () => (say(name).match(/\{\w+\}/g) ?? []).sort();
      speak('en');
      const wanted = values();
      speak(code);
      assert.deepEqual(values(), wanted, `${code} ${name}`);
    }
  }
  speak('xx');
  assert.equal(sayMan('bS'), 'black knight');
  speak('de');
  assert.equal(sayMan('bS'), 'Springer (Schwarz)');
  speak('en');
});

test('names: conditions, fairy men, faults and totals in each language', () => {
  const fault = { line: 3, number: 14, text: 'square expected' };
  const total = { kind: 'play', isPossible: true, total: 'solutions: 2, stopped', count: 2, isStopped: true, solutions: [] };
  const sayNightrider = () => companions.LANGUAGES.get(words.language).fairy_men.get(companions.Kind.NIGHTRIDER);
  const said = () => [sayAsked('h#2.5 Circe'), sayAsked('#2'), sayCondition('Madrasi'), sayNightrider(), sayFault(fault), sayTotal(total)];
  assert.deepEqual(said(), ['h#2.5 Circe', '#2', 'Madrasi', 'Nightrider', 'line 3: fault 14: square expected', 'solutions: 2, stopped']);
  speak('de');
  assert.deepEqual(said(), ['h#2.5 Circe', '#2', 'Madrasi', 'Nachtreiter', 'Zeile 3: Fehler 14: Feld erwartet', 'Lösungen: 2, dann gestoppt']);
  speak('fr');
  assert.deepEqual(said(), ['h#2.5 Circé', '#2', 'Madrasi', 'Noctambule', 'ligne 3\u00a0: faute 14\u00a0: case attendue', 'solutions\u00a0: 2, puis arrêté']);
  speak('en');
});

test('names: the page of diagrams and the printed sheet speak the language', () => {
  speak('de');
  const text = TEXT.replace('#1', '#1\nCondition Circe\nOrigin Die Schwalbe, February 1971');
  begin(text, REPORT.replace('#1\n', `${'8 .....k..\n'}#1 Circe\n`));
  const sheet = sheetOf(state.items, say('sheet'), givenOf(text));
  assert.match(sheet, /<html lang="de">[^]*Problem 1<[^]*>Die Schwalbe, Februar 1971<[^]*<h3>Spiel<[^]*Lösungen: 1</);
  fillPrint();
  assert.match(element('print').textContent, /Die Schwalbe, Februar 1971[^]*Spiel\n1\.Ra1-a8#\nLösungen: 1/);
  speak('en');
});

test('names: an import says in the page\'s language why it leaves a problem out', () => {
  const text = (men, asked, more = '') => `BeginProblem\nPieces ${men}\nStipulation ${asked}\n${more}EndProblem\n`;
  const lost = () => [text('White Kg6 Ra1 Black Kh8', 'r#2', 'Option Try\n'), text('White Kg6 Ra1 Black', '#1', 'Option Try\n'),
    text('White Kg6 Ra1 Black Kh8', 'h#1', 'Twin Move a2 b2\n')].map(it => imported(it)?.lost.join());
  speak('de');
  assert.deepEqual(lost(), ['Problem 1 wurde ausgelassen: pops kennt die Forderung r#2 nicht', 'Problem 1 wurde ausgelassen: der schwarze König fehlt',
    'Problem 1 b) wurde ausgelassen: auf a2 steht kein Stein, der zieht']);
  speak('fr');
  assert.deepEqual(lost(), ['Le problème 1 a été omis\u00a0: pops ne connaît pas l’énoncé r#2', 'Le problème 1 a été omis\u00a0: il manque le roi noir',
    'Le problème 1 b) a été omis\u00a0: il n’y a pas de pièce en a2 à déplacer']);
  speak('en');
  assert.match(lost()[1], /there is no black king/);
});

test('switches: a reload in the same tab finds them as they were', () => {
  const switches = () => ['check', 'tries', 'refutations'].map(name => [Boolean(element(name).checked), element(name).value]);
  const before = switches();
  Object.assign(element('tries'), { checked: true });
  Object.assign(element('refutations'), { value: '3' });
  for (const act of element('refutations').acts.get('change')) act();
  Object.assign(element('tries'), { checked: false });
  Object.assign(element('refutations'), { value: '' });
  buildSwitches();
  assert.deepEqual(switches().slice(1).map(([isOn, value], at) => (at ? value : isOn)), [true, '3']);
  keptInTab.delete('pops.switches');
  ['check', 'tries', 'refutations'].forEach((name, at) => Object.assign(element(name), { checked: before[at][0], value: before[at][1] }));
});

test('words: the solution in short notation has the letters of its language', () => {
  begin(TWO_MOVES, TRIES);
  const [item] = state.items;
  const men = menOf(blockNow()).men;
  speak('de');
  assert.equal(shortText(item, men), 'Verführungen\n  1.Db2? a5!\nLösung\n  1.Db6! droht: 2.Df6#\n    1...axb6\n');
  speak('fr');
  assert.match(shortText(item, men), /1\.Db6! menace : 2\.Df6#/);
  speak('en');
});

/** A stand-in for a worker: it keeps what it gets, and answers when it is told to. */
class Helper {
  static all = [];

  constructor() {
    Helper.all.push(this);
  }

  postMessage(asked) { this.asked = asked; }
  terminate() { this.isOver = true; }
  answer() { this.onmessage({ data: choreDone(this.asked.name, this.asked.given) }); }
}

/** Does something with workers that are stand-ins; returns those that were made. */
function helpersOf(act) {
  Helper.all = [];
  globalThis.Worker = Helper;
  act();
  return Helper.all;
}

const YAML = "---\nalgebraic:\n  white: [Kg6, Ra1]\n  black: [Kg8]\nstipulation: '#1'\n".repeat(80);

test('state: each problem is compared with the solved one once after a change', () => {
  const others = TEXT.replace('EndProblem', `NextProblem${TEXT.slice(12)}`);
  begin(others, `${REPORT}${REPORT.replace('problem 1', 'problem 2')}`);
  let reads = 0;
  for (const block of state.solvedBlocks) {
    const { words: own } = block;
    Object.defineProperty(block, 'words', { get() { reads += 1; return own; } });
  }
  setText(others.replace('Ra1', 'Ra2'));
  assert.deepEqual([1, 2, 3].map(it => state.isPosedNow(it)), [false, true, false]);
  assert.equal(state.isCurrent(), false);
  assert.equal(reads, 2);
  setText(others);
  assert.equal(state.isSolved() && state.isCurrent(), true);
  assert.equal(reads, 2);
  begin(TEXT);
});

test('beside: a long text of another program is shown at once, and becomes problems by a worker', () => {
  begin(TEXT);
  const [helper] = helpersOf(() => paste(YAML));
  assert.equal(textNow(), YAML);
  assert.equal(noteNow(), say('importing'));
  helper.answer();
  assert.equal(helper.isOver, true);
  assert.equal(blocksOf(textNow()).length, 80);
  assert.equal(noteNow(), say('imported'));
  goSteps(-1);
  assert.equal(textNow(), YAML);
});

test('beside: a text that was changed meanwhile stays; a worker that fails is told of', () => {
  begin(TEXT);
  const [late, failing] = helpersOf(() => [takeText(YAML), takeText(`${YAML}\n`)]);
  late.answer();
  assert.deepEqual([textNow(), noteNow()], [`${YAML}\n`, say('importChanged')]);
  failing.onerror({ message: 'no room' });
  assert.equal(noteNow(), say('failed', { fault: 'no room' }));
  assert.equal(textNow(), `${YAML}\n`);
});

test('beside: solutions of a long report are saved in other forms by a worker, under the name of the problem then', () => {
  const saved = [];
  const { createElement } = document;
  document.createElement = tag => Object.assign(createElement(tag), tag === 'a' ? { click() { saved.push(this.download); } } : {});
  const lines = '1.Kh8-g8 Ra1-a8#\n';
  begin(TEXT.replace('Pieces', 'Title Then\nPieces').replace('#1', 'h#1').replace('Kg8', 'Kh8'), `problem 1\nh#1\nplay\n${lines.repeat(300)}solutions: 300\n\n`);
  const helpers = helpersOf(() => [OUTS.outPage(), OUTS.outJson(), OUTS.outLatex(), OUTS.outYaml()]);
  assert.deepEqual(helpers.map(it => it.asked.name), ['page', 'json', 'latex', 'yaml']);
  assert.equal(noteNow(), say('making'));
  assert.deepEqual(saved, []);
  changeBoard('clear');
  for (const it of helpers) it.answer();
  assert.deepEqual(saved, ['Then.html', 'Then.json', 'Then.tex', 'Then.yaml']);
  document.createElement = createElement;
});

test('beside: whether a long text can be converted is tried once, by a worker', () => {
  const report = [1, 2].map(number => `problem ${number}\nline 1: fault 1: the text doesn't begin with BeginProblem\n\n`).join('');
  const helpers = helpersOf(() => begin(YAML, report));
  assert.equal(helpers.length, 1);
  const convertible = () => element('tree').textContent.split(say('convert')).length - 1;
  assert.equal(convertible(), 0);
  helpers[0].answer();
  assert.equal(convertible(), 2);
  assert.equal(helpersOf(drawReport).length, 0);
  assert.equal(doChore('import', { text: TEXT }, () => {}, () => {}), true);
});

const fileOf = (name, text, size = text.length) => ({ name, size, arrayBuffer: async () => new TextEncoder().encode(text).buffer });

/** Drops files, and waits until the page says what became of them. */
async function dropFiles(...files) {
  const before = views.notes.number;
  send('drop', { dataTransfer: { types: ['Files'], files, getData: () => '' } });
  while (views.notes.number === before || noteNow().startsWith('reading')) await new Promise(setImmediate);
}

test('files: of one that is dropped the text is taken; a folder can\'t be read', async () => {
  begin('');
  await dropFiles(fileOf('a.pop', `${TEXT}a.pop`));
  assert.equal(textNow(), `${TEXT}a.pop`);
  assert.match(noteNow(), /^a\.pop was read/);
  await dropFiles({ name: 'folder', size: 9, arrayBuffer: () => Promise.reject(new Error('a folder')) });
  assert.deepEqual([textNow(), noteNow()], [`${TEXT}a.pop`, 'folder can’t be read']);
});

test('files: of many that are dropped all problems are one text, and the page says which have none', async () => {
  const numbered = Array.from({ length: 200 }, (_, at) => fileOf(`${at}.pop`, TEXT.replace('Pieces', `Title ${at}\nPieces`)));
  begin(TEXT);
  await dropFiles(...numbered);
  assert.equal(blocksOf(textNow()).length, 200);
  assert.equal(element('problems').children[199].textContent, '200. 199 · #1');
  assert.equal(noteNow(), 'files read: 200 of 200, problems: 200');
  goSteps(-1);
  assert.equal(textNow(), TEXT);
  const popeye = 'AnfangProblem\nSteine Weiss Kg6 Ta1 Schwarz Kg8\nForderung r#1\nWeiteresProblem\nSteine Weiss Kg6 Ta2 Schwarz Kg8\nForderung #1\nOption Verfuehrung\nEndeProblem\n';
  element('tries').checked = false;
  await dropFiles(
    fileOf('two.pop', `${TEXT}${TEXT.replace('Ra1', 'Ra3').trimEnd()}`), fileOf('picture.png', '\0'), fileOf('popeye.inp', popeye), fileOf('long.pop', TEXT, 1 << 23),
    fileOf('one.fen', '6k1/8/6K1/8/8/8/8/R7 w - - 0 1'), { name: 'folder', size: 9, arrayBuffer: () => Promise.reject(new Error('a folder')) },
  );
  assert.deepEqual(textNow().match(/R\w\d/g), ['Ra1', 'Ra3', 'Ra2', 'Ra1']);
  assert.equal(blocksOf(textNow()).length, 4);
  assert.equal(noteNow(), 'files read: 3 of 6, problems: 4. “tries and threats” was switched on, as the text asks for them. without a problem: picture.png, folder. '
    + 'too long for the page, which takes 8 MiB in all: long.pop. popeye.inp: Problem 1 was left out: pops knows no stipulation r#1');
  element('tries').checked = false;
  showMost();
  await dropFiles(...Array.from({ length: 9 }, (_, at) => fileOf(`${at}.txt`, 'no problem')));
  assert.equal(noteNow(), 'files read: 0 of 9, problems: 0. without a problem: 0.txt, 1.txt, 2.txt, 3.txt, 4.txt, 4 more');
  assert.equal(blocksOf(textNow()).length, 4);
});

test('files: what many become is no longer than 8 MiB, also where short words become longer ones', async () => {
  const long = `BeginProblem\nRemark ${'x'.repeat((1 << 23) - 100000)}\nEndProblem\n`;
  begin('');
  await dropFiles(fileOf('long.pop', long), fileOf('short.pop', `BeginProblem\n${'nex\n'.repeat(20000)}`), fileOf('one.pop', TEXT));
  assert.equal(noteNow(), 'files read: 2 of 3, problems: 2. too long for the page, which takes 8 MiB in all: short.pop');
  assert.deepEqual([textNow().length < 1 << 23, textNow().endsWith(TEXT.replace('Begin', 'Next'))], [true, true]);
  setText(TEXT);
});

test('files: long ones of many are read in slices', async () => {
  const { now } = performance;
  let [time, turns] = [0, 0];
  // (each look at this clock takes longer than a slice)
  performance.now = () => (time += 1000);
  const turn = () => {
    turns += 1;
    if (performance.now !== now) setImmediate(turn);
  };
  setImmediate(turn);
  begin('');
  const words = 50000;
  await dropFiles(...['a', 'b'].map(name => fileOf(name, `BeginProblem\n${'Kg6\n'.repeat(words)}`)));
  performance.now = now;
  assert.equal(noteNow(), 'files read: 2 of 2, problems: 2');
  assert.ok(turns > 2 * words / 2000, `${turns} turns`);
  setText(TEXT);
});

test('contents: of many problems some are listed, and each is reached by its number', async () => {
  begin(`BeginProblem\n${Array.from({ length: 2000 }, (_, at) => `Title ${at + 1}\nStipulation #1\n`).join('NextProblem\n')}EndProblem\n`);
  const listed = () => element('problems').children.map(it => it.textContent);
  const goTo = async (name, value) => {
    element(name).value = value;
    element(name).onchange();
    while (element('problems').value !== String(state.number)) await new Promise(end => { setTimeout(end, 1); });
  };
  assert.ok(listed().length < 1000, `${listed().length} entries`);
  assert.deepEqual([element('problemNumber').hidden, listed().at(-1), listed().includes('1234. 1234 · #1')], [false, '2000. 2000 · #1', false]);
  for (const [value, number] of [['1234', 1234], ['9999', 2000], ['-5', 1], ['', 1]]) {
    await goTo('problemNumber', value);
    assert.deepEqual([state.number, element('problems').value, element('problemNumber').value], [number, String(number), String(number)]);
  }
  await goTo('problems', '1230');
  for (const number of [1229, 1230, 1231, 1234]) assert.ok(listed().includes(`${number}. ${number} · #1`), `${number}`);
  begin(TEXT);
  assert.equal(element('problemNumber').hidden, true);
});

test('after a key in a long text the problem at the cursor is looked for in slices', async () => {
  const long = `${TEXT.replace('EndProblem', 'NextProblem')}${'a '.repeat(1 << 21)}`;
  begin(TEXT);
  Object.assign(element('text'), { value: long, selectionStart: long.length });
  element('text').onkeyup();
  assert.equal(blocksOf.knows(long), false);
  while (state.number !== 2) await new Promise(end => setTimeout(end, 1));
  begin(TEXT);
});

test('a long text that was changed isn\'t read at once to say of what the report is, nor to solve it again', () => {
  const long = `${TEXT}${'a '.repeat(1 << 17)}`;
  begin(long, REPORT);
  element('live').checked = true;
  for (const [typed, isCurrent] of [[`${long}b`, true], [long.replace('Ra1', 'Ra2'), true]]) {
    element('text').value = typed;
    element('text').oninput();
    showAge();
    liveChanged();
    assert.deepEqual([state.isCurrent(), state.isSolved(), blocksOf.knows(typed)], [isCurrent, false, false]);
  }
  blocksOf(textNow());
  assert.equal(state.isCurrent(), false);
  element('live').checked = false;
  begin(TEXT);
});

// (the last one: it leaves a long text among those for undo)
test('a long text that is pasted is read in slices', () => {
  const long = `BeginProblem\n${'a '.repeat(1 << 21)}`;
  begin(TEXT);
  paste(long);
  assert.equal(textNow(), long);
  assert.equal(blocksOf.knows(long), false);
  begin(TEXT);
  paste('a '.repeat(1 << 21));
  assert.equal(textNow(), TEXT);
});

test('a text that replaces what is selected is as long as it is by itself', () => {
  const long = remark => TEXT.replace('Stipulation', `Remark ${remark.repeat(7 << 20)}\nStipulation`);
  for (const [from, wanted] of [[0, long('y')], [1, long('x')]]) {
    begin(long('x'));
    element('text').setSelectionRange(from, element('text').value.length);
    pasteIntoBox(long('y'));
    assert.equal(element('note').textContent.includes('would be longer'), from > 0);
    assert.equal(textNow() === wanted, true);
  }
});
