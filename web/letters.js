// @ts-check
// Letters beyond ASCII in commands of LaTeX, which the companions write into the page (sheet/latex_commands.py).
import { partText } from './elements.js';

/** @type {{ letters: Record<string, string>, exact: string } | null} */
let known = null;

export const CYRILLIC = Array.from({ length: 0x130 }, (_, place) => 0x400 + place);

/**
 * Returns a character in commands, and whether they set it as it is.
 * @param {string} character
 */
export function in_commands(character) {
  const { letters, exact } = (known ??= /** @type {{ letters: Record<string, string>, exact: string }} */ (JSON.parse(partText('letters'))));
  return [letters[character] ?? '?', exact.includes(character)];
}
