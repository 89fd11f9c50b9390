// The text area, which shows a part of a long text; all else on the page is about the whole text.
import assert from 'node:assert/strict';
import { test } from 'node:test';
import { fill, paste, send } from '../helpers/page_document.mjs';
import { sharedParts } from '../helpers/page_imports.mjs';
import { withSlowClock } from '../helpers/slow_clock.mjs';

const TEXT = 'BeginProblem\nPieces White Kg6 Ra1 Black Kg8\nStipulation #1\nEndProblem\n';
const PROBLEMS = 4000;
const ONE = number => `Title T ${number}\nPieces White Kg6 Ra1 Black Kg8\nStipulation #1\n`;
const LONG = `BeginProblem\n${Array.from({ length: PROBLEMS }, (_, at) => ONE(at + 1)).join('NextProblem\n')}EndProblem\n`;
const LINES = 4 * PROBLEMS + 2;
// The letters that a browser may be given to lay out.
const FEW = 100000;
fill({ ...sharedParts(), example: TEXT, 'fault-words': '{}', engine: 'AGFzbQEAAAA=' });
const { element } = await import('../../web/elements.js');
const { fitPart, followCaret, select, selectionNow, showText, wholeText } = await import('../../web/page/area.js');
const { changeBoard, goSteps, goToProblem, numberWritten, placed, setText, takeFen, takeText } = await import('../../web/page/editing.js');
const { drawnFault, faultWork, markFaults } = await import('../../web/page/faults.js');
const { state, textNow } = await import('../../web/page/state.js');
const { atOnce } = await import('../../web/slices.js');
const { blocksOf, fieldsOf, lineOf, menOf, readProblem } = await import('../../web/text.js');
const { say } = await import('../../web/words.js');
await import('../../web/page.js');
send('DOMContentLoaded', {});
const { board } = await import('../../web/page/views.js');
const area = element('text');

/** Begins with a text; its reading is ended. */
function begin(text) {
  state.beginSheet();
  setText('');
  blocksOf(text);
  setText(text);
  state.endFollowing();
  atOnce(state.following(text));
}

/** Types in place of what is selected in the area, as a browser does. */
function type(letters) {
  area.dispatchEvent({ type: 'beforeinput', inputType: 'insertText', data: letters });
  const { value, selectionStart, selectionEnd } = area;
  const at = selectionStart + letters.length;
  Object.assign(area, { value: value.slice(0, selectionStart) + letters + value.slice(selectionEnd), selectionStart: at, selectionEnd: at });
  area.oninput();
}

/** Checks that the area shows a part of the text, where the selection is in both the same. */
function assertPart(text) {
  assert.equal(textNow(), text);
  assert.equal(area.value.length < FEW, true);
  assert.equal(text.startsWith(area.value.slice(area.selectionStart), selectionNow().from), true);
}

test('area: a text of 2,900 lines is shown as a whole', () => {
  const text = `${TEXT}${'Kg6\n'.repeat(2900)}`;
  begin(text);
  assert.deepEqual([area.value, element('part').hidden, wholeText()], [text, true, text]);
  type('x');
  assert.equal(textNow().length, text.length + 1);
  setText(TEXT);
});

test('area: no more lines are shown than a browser selects and removes within a second', () => {
  const text = `${TEXT}${'a\n'.repeat(9900)}`;
  begin(text);
  assert.ok(area.value.split('\n').length <= 3000);
  area.setSelectionRange(0, area.value.length);
  assert.deepEqual([textNow(), selectionNow()], [text, { from: 0, to: text.length }]);
  setText(TEXT);
});

test('area: of a long text a part is shown, and the page says which', () => {
  begin(TEXT);
  paste(LONG);
  state.endFollowing();
  atOnce(state.following(LONG));
  assertPart(LONG);
  assert.deepEqual([element('part').hidden, element('part').textContent], [false, say('part', { first: 1, last: 1002, all: LINES })]);
  assert.equal(element('count').textContent.includes(`1 of ${PROBLEMS}`), true);
  setText(TEXT);
  assert.deepEqual([area.value, element('part').hidden], [TEXT, true]);
  goSteps(-1);
  assertPart(LONG);
});

test('area: another problem, a man on the board, undo; the rest of the text stays', () => {
  begin(LONG);
  goToProblem(3000);
  assert.equal(selectionNow().from, blocksOf(LONG)[2999].from);
  assertPart(LONG);
  const shown = area.value;
  board.set('d4', 'wQ');
  const changed = LONG.replace('T 3000\nPieces White Kg6', 'T 3000\nPieces White Kg6 Qd4');
  assertPart(changed);
  assert.equal(area.value, shown.replace('T 3000\nPieces White Kg6', 'T 3000\nPieces White Kg6 Qd4'));
  goSteps(-1);
  assertPart(LONG);
  assert.equal(area.value, shown);
  goToProblem(1);
  goSteps(1);
  assertPart(changed);
  assert.equal(area.value.includes('Qd4'), true);
});

test('area: what is typed in the part is typed in the text, and the problem at the caret is shown', () => {
  begin(LONG);
  goToProblem(2000);
  const place = LONG.indexOf('T 2002\n') + 'T 2002'.length;
  select(place, place);
  type(' new');
  assertPart(LONG.replace('T 2002', 'T 2002 new'));
  assert.equal(selectionNow().from, place + 4);
  blocksOf(textNow());
  area.onkeyup();
  state.endFollowing();
  atOnce(state.following(textNow()));
  assert.deepEqual([state.number, element('field-Title').value], [2002, 'T 2002 new']);
});

test('area: the part goes with the caret', () => {
  begin(LONG);
  let last = 0;
  for (let times = 0; times < 5; times++) {
    area.setSelectionRange(area.value.length, area.value.length);
    const place = selectionNow().from;
    assert.equal(place > last, true);
    last = place;
    area.scrollTop = 20000;
    area.onkeyup();
    assert.equal(selectionNow().from, place);
    assertPart(LONG);
  }
  const line = lineOf(LONG, last);
  assert.equal(area.value.slice(0, area.selectionStart).split('\n').length, 1001);
  assert.equal(line, 5001);
  select(last - 10, last);
  followCaret();
  assert.deepEqual(selectionNow(), { from: last - 10, to: last });
  area.setSelectionRange(0, 0);
  area.onclick();
  assertPart(LONG);
  assert.equal(area.selectionStart > 0, true);
});

test('area: what selects all that is shown selects the whole text', () => {
  begin(LONG);
  goToProblem(2000);
  area.setSelectionRange(0, area.value.length);
  area.onkeyup();
  assert.deepEqual(selectionNow(), { from: 0, to: LONG.length });
  const copied = [];
  const event = { preventDefault: () => copied.push('own'), clipboardData: { setData: (_, text) => copied.push(text) } };
  area.oncopy(event);
  assert.deepEqual(copied, ['own', LONG]);
  type('BeginProblem');
  assert.equal(textNow(), 'BeginProblem');
  begin(LONG);
  area.setSelectionRange(0, area.value.length);
  area.oncut(event);
  assert.deepEqual([textNow(), area.value, copied.length], ['', '', 4]);
  goSteps(-1);
  area.setSelectionRange(0, area.value.length - 1);
  // (false would keep the browser from copying)
  assert.equal(area.oncopy(event), undefined);
  assert.equal(copied.length, 4);
  type('');
  assert.equal(textNow().length > FEW, true);
});

test('area: the browser\'s own undo and redo are those of the page, also where all that is shown is selected', () => {
  const act = inputType => {
    const shown = area.value;
    let isTaken = false;
    area.dispatchEvent({ type: 'beforeinput', inputType, preventDefault: () => { isTaken = true; } });
    if (isTaken) return;
    area.value = shown.slice(1);
    area.oninput();
  };
  begin(LONG);
  area.setSelectionRange(3, 3);
  type('abc');
  const typed = textNow();
  for (const [inputType, text] of [['historyUndo', LONG], ['historyUndo', ''], ['historyRedo', LONG], ['historyRedo', typed], ['historyRedo', typed]]) {
    area.setSelectionRange(0, area.value.length);
    act(inputType);
    assert.equal(textNow(), text);
  }
  area.setSelectionRange(0, area.value.length);
  type('x');
  act('historyUndo');
  assert.equal(textNow(), typed);
});

test('area: all that is shown of a long text can\'t be dragged, and a drag changes no more than it', () => {
  const isRefused = () => {
    let isTaken = false;
    area.ondragstart({ preventDefault: () => { isTaken = true; } });
    return isTaken;
  };
  begin(LONG);
  area.setSelectionRange(0, 5);
  assert.equal(isRefused(), false);
  area.setSelectionRange(0, area.value.length);
  assert.equal(isRefused(), true);
  const rest = LONG.slice(area.value.length);
  area.dispatchEvent({ type: 'beforeinput', inputType: 'deleteByDrag' });
  area.value = '';
  assert.equal(textNow(), rest);
  begin(TEXT);
  area.setSelectionRange(0, TEXT.length);
  assert.equal(isRefused(), false);
});

test('area: a long text pasted into it takes the place of what is selected', () => {
  begin(TEXT);
  area.setSelectionRange(0, TEXT.length);
  let isTaken = false;
  const pasteHere = text => send('paste', { target: area, clipboardData: { getData: () => text }, preventDefault: () => { isTaken = true; } });
  pasteHere(LONG.replaceAll('\n', '\r\n'));
  assert.equal(isTaken, true);
  assertPart(LONG);
  assert.equal(selectionNow().from, LONG.length);
  isTaken = false;
  pasteHere('Remark short\n');
  assert.equal(isTaken, false);
  const place = LONG.indexOf('Title T 3000\n');
  select(place, place + 5);
  pasteHere('Author A\n'.repeat(20000));
  assertPart(`${LONG.slice(0, place)}${'Author A\n'.repeat(20000)}${LONG.slice(place + 5)}`);
});

test('area: typing that makes a text long or short', () => {
  begin(TEXT);
  area.setSelectionRange(TEXT.length, TEXT.length);
  type(LONG);
  assert.equal(area.value, TEXT + LONG);
  fitPart();
  assertPart(TEXT + LONG);
  area.setSelectionRange(0, area.value.length);
  type(TEXT);
  fitPart();
  assert.deepEqual([area.value, textNow()], [TEXT, TEXT]);
});

test('area: marks of faults and lines are those of the text', () => {
  begin(LONG.replace('T 3000\nPieces White Kg6', 'T 3000\nPieces White Tg6'));
  goToProblem(3000);
  const line = lineOf(textNow(), textNow().indexOf('Tg6'));
  state.beginReport(textNow());
  state.addReport(`problem 3000\nline ${line}: fault 8: bad piece\n\n`);
  state.readReport();
  markFaults();
  const [mark] = element('gutter').children;
  assert.equal(mark.dataset.line, String(line));
  const inPart = area.value.slice(0, area.value.indexOf('Tg6')).split('\n').length;
  assert.equal(mark.style.top, `${4 + (inPart - 1) * 20 - area.scrollTop}px`);
  assert.equal(area.scrollTop, (inPart - 3 - 1) * 20);
  goToProblem(1);
  drawnFault(state.items[0]).children.find(it => it.tagName === 'BUTTON').onclick();
  faultWork.clear();
  assert.equal(area.value.slice(area.selectionStart, area.selectionEnd), 'Pieces White Tg6 Ra1 Black Kg8');
  setText(TEXT);
});

test('area: a line that is too long is shown in part, and no letter of two is cut', () => {
  const text = `BeginProblem ${'\u{1d49c}'.repeat(400000)}`;
  begin(text);
  select(300000, 300000);
  assert.equal(textNow(), text);
  assert.equal(area.value.length <= FEW + 2 && area.value.isWellFormed?.() !== false, true);
  select(0, text.length);
  assert.deepEqual(selectionNow(), { from: 0, to: 0 });
  setText(TEXT);
});

test('area: of a line of many letters few are shown, since a browser lays out combining ones slowly', () => {
  const text = `BeginProblem\nRemark e${'\u0301'.repeat(40000)}\n`;
  begin(text);
  for (const place of [20000, 30000, 0]) {
    select(place, place);
    assert.deepEqual([textNow() === text, selectionNow().from], [true, place]);
    assert.ok(area.value.length < 13000);
  }
  type('é');
  assert.equal(textNow(), `é${text}`);
  setText(TEXT);
});

test('area: line ends of a long text are those that a browser makes of them', () => {
  showText(LONG.replaceAll('\n', '\r\n'));
  assert.equal(textNow(), LONG);
  setText(TEXT);
});

test('reading: the men and fields of a long problem are read in steps, and once', () => {
  const words = 30000;
  const text = `BeginProblem Pieces White ${'Kg6 '.repeat(words)}`;
  begin(TEXT);
  const [block] = blocksOf(text);
  const steps = [...readProblem(text, block)].length;
  assert.equal(steps >= words / 1000 - 2, true);
  assert.equal(menOf(block), menOf(block));
  assert.equal(fieldsOf(text, block), fieldsOf(text, block));
  const [short] = blocksOf(TEXT);
  assert.deepEqual([[...readProblem(TEXT, short)].length, menOf(short).men.size], [0, 3]);
});

test('reading: no step of showing a long problem looks at all of its words', () => withSlowClock(pass => {
  const text = `BeginProblem Pieces White ${'Kg6 '.repeat(30000)}`;
  begin(TEXT);
  const [block] = blocksOf(text);
  let looks = 0;
  block.words = new Proxy(block.words, { get: (words, name) => {
    looks += Number(/^\d+$/.test(String(name)));
    return words[name];
  } });
  setText(text);
  const most = [];
  for (let times = 0; times < 200; times++) {
    most.push(looks);
    looks = 0;
    pass();
  }
  assert.equal(Math.max(...most) > 1000 && Math.max(...most) < 5000, true);
  assert.equal(element('g6').dataset.man, 'wK');
  begin(TEXT);
}));

test('state: of a text without problems the first one is chosen', () => {
  state.choose(0);
  assert.equal(state.number, 1);
});

/** Begins with a long text that isn't read yet, does something, and returns whether this read it at once. */
function readsAtOnce(act) {
  begin(TEXT);
  state.choose(1);
  setText(LONG);
  act();
  return blocksOf.knows(LONG) || textNow() !== LONG;
}

test('reading: what is done with the board of a long text waits until the text is read, and comes in its order', () => withSlowClock(pass => {
  for (const act of [() => changeBoard('right'), () => changeBoard('clear'), () => takeFen('8/8/8/8/8/8/8/K1k5'), () => goToProblem(2)]) {
    assert.equal(readsAtOnce(act), false, String(act));
  }
  assert.equal(readsAtOnce(() => ['left', 'mirror', 'left'].forEach(changeBoard)), false);
  goSteps(-1);
  assert.equal(textNow(), LONG);
  for (let times = 0; state.waiting.length || state.followed !== null; times++) {
    assert.ok(times < 100000);
    pass();
  }
  // (Kg6, Ra1 and Kg8 can't go to the left; mirrored they are Kb6, Rh1 and Kb8, and then go to the left; the last of these is undone)
  assert.match(textNow().slice(0, 60), /White Kb6 Rh1 Black Kb8/);
  begin(TEXT);
}));

test('reading: a key while a long text is shown leaves the changed text to be read in slices', () => withSlowClock(pass => {
  assert.equal(readsAtOnce(() => select(14, 14)), false);
  for (let times = 0; !blocksOf.knows(LONG); times++) {
    assert.ok(times < 100000);
    pass();
  }
  type('x');
  pass();
  assert.equal(blocksOf.knows(textNow()), false);
  begin(TEXT);
}));

test('reading: the board is of the problem that was last gone to, also while a long text is read', () => withSlowClock(pass => {
  const end = () => {
    for (let times = 0; state.waiting.length || state.followed !== null; times++) {
      assert.ok(times < 100000);
      pass();
    }
    return [1, 3].map(number => textNow().split('NextProblem\n')[number - 1].includes('White Kb6 Rh1 Black Kb8'));
  };
  const write = () => {
    element('problemNumber').value = '3';
    numberWritten();
  };
  const click = () => {
    const at = LONG.indexOf('Title T 3\n');
    select(at, at);
    placed();
  };
  assert.equal(readsAtOnce(() => [write, () => changeBoard('mirror')].forEach(act => act())), false);
  assert.deepEqual(end(), [false, true]);
  assert.equal(readsAtOnce(() => [() => changeBoard('mirror'), click].forEach(act => act())), false);
  assert.deepEqual(end(), [true, false]);
  assert.equal(state.number, 3);
  begin(TEXT);
}));

test('reading: what is saved of a long text has what was done with the board before', async () => {
  const { createObjectURL, revokeObjectURL } = URL;
  const saved = [];
  Object.assign(URL, { createObjectURL: blob => saved.push(blob), revokeObjectURL: () => {} });
  withSlowClock(pass => {
    assert.equal(readsAtOnce(() => [() => changeBoard('mirror'), element('outText').onclick].forEach(act => act())), false);
    for (let times = 0; state.waiting.length || state.followed !== null; times++) pass();
    begin(TEXT);
  });
  Object.assign(URL, { createObjectURL, revokeObjectURL });
  assert.match((await saved[0].text()).slice(0, 60), /White Kb6 Rh1 Black Kb8/);
});

test('reading: what waits for a long text isn\'t done with another one', () => withSlowClock(pass => {
  assert.equal(readsAtOnce(() => changeBoard('right')), false);
  takeText(TEXT);
  for (let times = 0; times < 1000; times++) pass();
  assert.equal(textNow(), TEXT);
}));
