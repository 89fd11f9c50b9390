// @ts-check
// The list of kept problems.
import { element, makeButton } from '../elements.js';
import { MOST_KEPT, MOST_KEPT_LETTERS, nameOfText } from '../store.js';
import { language, say } from '../words.js';
import { takeText } from './editing.js';
import { keptList, storeList } from './keeping.js';

export function showKept() {
  const list = keptList();
  const where = say('keptWhere', { most: MOST_KEPT, letters: MOST_KEPT_LETTERS.toLocaleString(language) });
  element('kept-where').textContent = list.length ? where : `${say('keptNone')}. ${where}`;
  element('kept-list').replaceChildren(...list.map(it => {
    const line = document.createElement('li');
    const name = nameOfText(it.text);
    const said = [name, new Date(it.time).toLocaleString(language), ...(it.isLinked ? [say('byLink')] : [])].join(' · ');
    const forget = makeButton(`${say('forget')}: ${name}`, () => storeList(keptList().filter(({ text }) => text !== it.text)), '✕');
    line.append(makeButton(name, () => takeText(it.text), said), forget);
    return line;
  }));
}

export function forgetAll() {
  storeList(null);
}
