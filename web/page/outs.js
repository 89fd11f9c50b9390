// @ts-check
// What the page gives away: files of text, report, diagrams and other forms, the clipboard, links, and the printed sheet.
import { diagramFile } from '../outputs.js';
import { fileNameOf, fragmentOf } from '../store.js';
import { blockAt, fieldsOf, valueOf } from '../text.js';
import { say } from '../words.js';
import { doChore } from './beside.js';
import { blockNow, state, textNow } from './state.js';
import { board, note, notes } from './views.js';
import { ownLink, textSaved } from './visit.js';

/**
 * Names a file after a problem's title, the text's first without another.
 * @param {string} ending
 * @param {Block | null} block
 */
const nameNow = (ending, block = blockAt(textNow(), 0)) => fileNameOf(block && valueOf(fieldsOf(textNow(), block), 'title'), ending);

/**
 * Saves a file.
 * @param {string} name
 * @param {string} type
 * @param {string | Blob} content
 */
function save(name, type, content) {
  const link = document.createElement('a');
  link.href = URL.createObjectURL(new Blob([content], { type }));
  link.download = name;
  link.click();
  setTimeout(() => URL.revokeObjectURL(link.href), 10000);
}

/**
 * Does some work of chores.js, and says so if it takes long; at its end what `take` returns, if that is something.
 * @param {string} name
 * @param {ChoreGiven} given
 * @param {(made: any) => string} take
 */
function make(name, given, take) {
  let number = 0;
  // (another action may have its note there now)
  const end = (/** @type {string} */ said) => (said || notes.number === number) && note(said);
  if (!doChore(name, given, made => end(take(made)), fault => end(say('failed', { fault })))) number = note(say('making'));
}

/** Draws the board with its men. */
function drawingNow() {
  const block = blockNow();
  const fields = block ? fieldsOf(textNow(), block) : {};
  const title = ['title', 'author', 'stipulation'].map(name => valueOf(fields, name)).filter(Boolean).join(', ');
  return diagramFile(board.men, title);
}

/** Draws the board as a picture. @returns {Promise<Blob>} */
async function pictureNow() {
  const image = new Image();
  image.src = `data:image/svg+xml,${encodeURIComponent(drawingNow())}`;
  await image.decode();
  const canvas = document.createElement('canvas');
  Object.assign(canvas, { width: image.width, height: image.height });
  const pen = /** @type {CanvasRenderingContext2D} */ (canvas.getContext('2d'));
  pen.fillStyle = '#fff';
  pen.fillRect(0, 0, image.width, image.height);
  pen.drawImage(image, 0, 0);
  return new Promise((take, refuse) => canvas.toBlob(blob => (blob ? take(blob) : refuse(new Error('no picture'))), 'image/png'));
}

async function copyDiagram() {
  try {
    await navigator.clipboard.write([new ClipboardItem({ 'image/png': pictureNow() })]);
    note(say('copied'));
  } catch {
    note(say('copyNot'));
  }
}

/** Returns the solved items that are posed the same now. */
const itemsNow = () => /** @type {SoundItem[]} */ (state.items.filter(it => it.asked && !it.isChecked && it.phases.length && state.isPosedNow(it.number)));

/** @param {Item[]} items */
const numbersOf = items => items.map(it => it.number);

/**
 * Returns whether a problem on the page was solved before it was changed.
 * @param {Item} item
 */
const isOld = ({ number, asked, phases }) => Boolean(asked && phases.length) && !state.isReplaced() && !state.isPosedNow(number);

async function copyShort() {
  const number = blockNow()?.number;
  const item = itemsNow().find(it => it.number === number);
  if (!item) {
    note(say(state.items.some(it => it.number === number && isOld(it)) ? 'copyOld' : 'copyNone'));
    return;
  }
  const given = { text: textNow(), report: state.report, numbers: [item.number] };
  let [short, isMade] = ['', false];
  const made = new Promise((take, refuse) => {
    isMade = doChore('short', given, text => take(short = text), refuse);
  });
  try {
    if (isMade) await navigator.clipboard.writeText(short);
    else {
      note(say('making'));
      // (a browser lets a page copy right after a click: what is made later is promised)
      await navigator.clipboard.write([new ClipboardItem({ 'text/plain': made.then(text => new Blob([text], { type: 'text/plain' })) })]);
    }
    note(say('copied'));
  } catch {
    note(say('copyNot'));
  }
}

/** Returns whether there is a report to save; says so if there is none. */
function hasItems() {
  if (!state.items.length) note(say('nothing'), () => !state.items.length);
  return state.items.length > 0;
}

/** Says of what was saved that it isn't of the text on the page any more. */
const saidOld = () => (state.isCurrent() ? '' : say('savedOld'));
/** Says of what was saved that solutions of an earlier position aren't in it. */
const saidWithoutOld = () => (state.items.some(isOld) ? say('savedWithoutOld') : '');

/**
 * Saves the items of the report in another form.
 * @param {string} name
 * @param {string} ending
 * @param {string} type
 */
function saveItems(name, ending, type) {
  if (!hasItems()) return;
  const file = nameNow(ending);
  const numbers = numbersOf(state.items.filter(item => item.isWhole || item.asked || item.fault));
  make(name, { text: state.solved, report: state.report, numbers }, made => {
    save(file, type, made);
    return saidOld();
  });
}

function saveText() {
  save(nameNow('pop'), 'text/plain', textNow());
  textSaved();
}

function saveReport() {
  if (!hasItems()) return;
  save(nameNow('report'), 'text/plain', state.report);
  note(saidOld());
}

export const OUTS = {
  outText: saveText,
  outReport: saveReport,
  outPage: () => saveItems('page', 'html', 'text/html'),
  outSvg: () => save(nameNow('svg', blockNow()), 'image/svg+xml', drawingNow()),
  outPng: async () => save(nameNow('png', blockNow()), 'image/png', await pictureNow()),
  outJson: () => saveItems('json', 'json', 'application/json'),
  outLatex: saveLatex,
  outYaml: saveYaml,
  outCopyDiagram: copyDiagram,
  outCopyShort: copyShort,
  outLink: makeLink,
  outPrint: () => print(),
};

/** Saves the problems in LaTeX, and says which letters only some of its engines set. */
function saveLatex() {
  const faulty = state.items.filter(it => it.fault && state.isPosedNow(it.number));
  const file = nameNow('tex');
  make('latex', { text: textNow(), report: state.report, numbers: numbersOf([...itemsNow(), ...faulty]) }, ({ made, letters }) => {
    save(file, 'application/x-tex', made);
    return [letters && say('latexLacks', { letters }), saidWithoutOld()].filter(Boolean).join('. ');
  });
}

/** Saves the problems in YAML, and says which are left out. */
function saveYaml() {
  if (!blockNow()) {
    note(say('none'), () => !blockNow());
    return;
  }
  const file = nameNow('yaml');
  make('yaml', { text: textNow(), report: state.report, numbers: numbersOf(itemsNow()) }, ({ text, lost }) => {
    save(file, 'application/yaml', text);
    return [...lost, saidWithoutOld()].filter(Boolean).join('. ');
  });
}

/** Says of a page from disk that its link leads nowhere on another computer. */
const onlyHere = () => (location.protocol === 'file:' ? say('linkedHere') : '');

async function makeLink() {
  const fragment = fragmentOf(textNow());
  if (!fragment) {
    note(say('linkLong'));
    return;
  }
  history.replaceState(null, '', fragment);
  ownLink(location.hash);
  try {
    await navigator.clipboard.writeText(location.href);
    note(say('linked') + onlyHere());
  } catch {
    note(say('linkShown') + onlyHere());
  }
}
