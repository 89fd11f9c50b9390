// @ts-check
// The fields of the problem on the board: its names, its stipulation, its condition and its options.
import { element, LONGEST_SHOWN, shortened } from '../elements.js';
import { sayCondition } from '../names.js';
import { partsOfStipulation, stipulationOf } from '../play.js';
import { CONDITIONS, fieldsOf, FLAGS, isShort, valueOf, VALUES, withField } from '../text.js';
import { say } from '../words.js';
import { endTyping, setText } from './editing.js';
import { blockNow, state, textNow } from './state.js';

const FIELDS = ['Title', 'Author', 'Origin', 'Stipulation', 'Condition', ...FLAGS, ...VALUES];
const FORMS = ['#', 's#', 'h#', '=', 's=', 'h='];

/** @param {string} name @returns {HTMLInputElement} the field, which may be a select */
const inputOf = name => /** @type {any} */ (element(`field-${name}`));

/** Shows the fields of the problem on the board; of a value that is too long for a field only the beginning, which can't be changed there. */
export function showFields() {
  const block = blockNow();
  const fields = block ? fieldsOf(textNow(), block) : {};
  for (const name of FIELDS) {
    const input = inputOf(name);
    const whole = valueOf(fields, name in fields ? name : name.toLowerCase());
    const said = whole === null ? null : shortened(whole);
    input.disabled = !block || (whole ?? '').length > LONGEST_SHOWN;
    if (name === 'Stipulation') showStipulation(said ?? '', input.disabled);
    else if (FLAGS.includes(name)) input.checked = said !== null;
    else if (name === 'Condition') input.value = CONDITIONS.find(it => said && isShort(said, it)) ?? '';
    else if (document.activeElement !== input) input.value = said ?? '';
  }
}

/**
 * Shows a stipulation as choice and number; one that pops doesn't have is a choice of its own.
 * @param {string} word
 * @param {boolean} isDisabled
 */
function showStipulation(word, isDisabled) {
  const [form, moves] = [inputOf('Stipulation'), inputOf('Moves')];
  const parts = partsOfStipulation(word);
  const own = parts || !word ? [] : [new Option(word, word)];
  form.replaceChildren(...FORMS.map(it => new Option(say(`form-${it}`), it)), ...own);
  form.value = parts?.form ?? word;
  moves.disabled = isDisabled || !parts;
  moves.step = form.value[0] === 'h' ? '0.5' : '1';
  if (document.activeElement !== moves) moves.value = parts?.moves ?? '';
}

/**
 * Writes a field's value into the text, or removes it.
 * @param {string} name
 */
export function fieldChanged(name) {
  endTyping();
  const input = inputOf(name);
  const said = FLAGS.includes(name) ? (input.checked ? '' : null) : input.value.trim() || null;
  const value = name === 'Stipulation' ? stipulationOf(input.value, inputOf('Moves').value) : said;
  state.whenRead(() => {
    const block = blockNow();
    if (block) setText(withField(textNow(), block.from, name, value));
  });
}

export function buildFields() {
  inputOf('Condition').append(new Option(say('noCondition'), ''), ...CONDITIONS.map(it => new Option(sayCondition(it), it)));
  for (const name of FIELDS) inputOf(name).onchange = () => fieldChanged(name);
  inputOf('Moves').onchange = () => fieldChanged('Stipulation');
}
