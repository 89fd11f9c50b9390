// @ts-check
// A text of problems: reads and replaces the men and fields of one problem. The rest of the text stays byte for byte.
// Nothing here judges a problem: the engine does.
import { KINDS } from './men.js';
import { fenOf, menOfRanks } from './position.js';
import { atOnce, LONG_TEXT } from './slices.js';

// Text lines that are fields of the page.
const MAN_WORD = new RegExp(`^[${KINDS}]([a-h][1-8])+$`, 'i');
const TEXT_FIELDS = ['title', 'author', 'origin'];
const TEXT_LINES = ['title', 'author', 'origin', 'remark'];
// The text lines that belong to one problem alone.
const CLEARED_LINES = ['title', 'origin', 'remark'];
const COMMANDS = ['beginproblem', 'pieces', 'stipulation', 'condition', 'option', 'nextproblem', 'endproblem',
  ...TEXT_LINES];
// A man of each square.
const LONGEST_MEN = 1 + 2 * 64;
export const FLAGS = ['SetPlay', 'Variation', 'NoBoard'];
export const VALUES = ['MaxSolutions', 'EnPassant', 'NoCastling'];
export const CONDITIONS = ['Circe', 'Madrasi'];
export const NEW_PROBLEM = 'BeginProblem\nStipulation #2\nEndProblem\n';
/**
 * Adds a new problem to a text without problems.
 * @param {string} text
 */
export const withNewProblem = text => `${text}${!text || text.endsWith('\n') ? '' : '\n'}${NEW_PROBLEM}`;
/** @param {string} word @param {string} full */
export const isShort = (word, full) => word.length >= 3 && word.length <= full.length && full.toLowerCase().startsWith(word.toLowerCase());

/** @param {string | undefined} command */
const isTextCommand = command => command !== undefined && TEXT_LINES.includes(command);

/**
 * Makes a function that reads a text and keeps its last result: the page reads one text many times. `steps` reads step by step; `knows` says
 * whether a text is the one that was read last.
 * @template T
 * @param {(text: string) => Generator<void, T>} read
 */
export function remembered(read) {
  /** @type {{ text: string, made: T } | null} */
  let last = null;
  /** @param {string} text @returns {Generator<void, T>} */
  function* steps(text) {
    if (last?.text !== text) last = { text, made: yield* read(text) };
    // (a string is compared with itself at once, with an equal one letter by letter)
    last.text = text;
    return last.made;
  }
  return Object.assign((/** @type {string} */ text) => atOnce(steps(text)), { steps, knows: (/** @type {string} */ text) => last?.text === text });
}

// The words of one step of reading.
const WORDS_A_STEP = 2000;

/**
 * Makes a function that reads a problem, and keeps what it has read of long ones; `steps` reads one step by step.
 * @template T
 * @param {(block: Block, text: string) => Generator<void, T>} read
 */
function keptByBlock(read) {
  /** @type {WeakMap<Block, T>} */
  const known = new WeakMap();
  /** @param {Block} block @param {string} text @returns {Generator<void, T>} */
  function* steps(block, text) {
    const made = known.get(block) ?? (yield* read(block, text));
    if (block.words.length >= WORDS_A_STEP) known.set(block, made);
    return made;
  }
  return { of: (/** @type {Block} */ block, text = '') => atOnce(steps(block, text)), steps };
}

/**
 * Reads words step by step, up to the last one that is wanted.
 * @param {string} text
 * @param {(word: Token) => boolean} [isLast]
 * @returns {Generator<void, Token[]>}
 */
function* readWords(text, isLast = () => false) {
  /** @type {Token[]} */
  const words = [];
  const pattern = /[^ \t\n\v\f\r]+/g;
  for (let found; (found = pattern.exec(text));) {
    const [word] = found;
    const command = COMMANDS.find(it => isShort(word, it));
    /** @type {Token} */
    const token = { word, from: found.index, to: pattern.lastIndex, command };
    words.push(token);
    if (isLast(token)) break;
    if (isTextCommand(command)) {
      const end = text.indexOf('\n', pattern.lastIndex);
      pattern.lastIndex = end < 0 ? text.length : end;
      token.end = pattern.lastIndex;
    }
    if (words.length % WORDS_A_STEP === 0) yield;
  }
  return words;
}

/** Reads the words of a text with their places; the rest of a text command's line is no word. */
export const wordsOf = remembered(text => readWords(text));

/** @param {Token} word */
const opensText = word => word.command === 'beginproblem';
/**
 * Returns whether a text has a problem; of a long one only the beginning is read.
 * @param {string} text
 */
export const hasProblem = text => atOnce(readWords(text.slice(0, LONG_TEXT), opensText)).some(opensText);

/**
 * Divides the words of a text at those that close a problem, step by step.
 * @param {string} text
 * @returns {Generator<void, ProblemWords[]>}
 */
function* readParts(text) {
  const words = yield* wordsOf.steps(text);
  /** @type {ProblemWords[]} */
  const parts = [{ tokens: [], closing: null }];
  for (let at = 0; at < words.length; at++) {
    if (at % WORDS_A_STEP === WORDS_A_STEP - 1) yield;
    const [word, part] = [words[at], parts[parts.length - 1]];
    const isClosing = word.command === 'nextproblem' || word.command === 'endproblem';
    if (!isClosing) part.tokens.push(word);
    else if (parts.push({ tokens: [], closing: null })) part.closing = word;
  }
  return parts;
}

const partsOf = remembered(readParts);

/** Returns the problems of a text as pops numbers them: the words and text lines of each, and the word that closes it. */
export const problemsOf = remembered(function* (text) {
  const parts = yield* partsOf.steps(text);
  const last = parts.findIndex(it => it.closing?.command === 'endproblem');
  return last < 0 ? parts : parts.slice(0, last + 1);
});

/**
 * Reads the problems of a text step by step.
 * @param {string} text
 * @param {boolean} [isAll] whether also those after an EndProblem are read
 * @returns {Generator<void, Block[]>}
 */
function* readBlocks(text, isAll = false) {
  const parts = yield* partsOf.steps(text);
  /** @type {Block[]} */
  const blocks = [];
  /** @type {Token | null} the NextProblem after the last problem */
  let next = null;
  for (let at = 0; at < parts.length && (isAll || next || !blocks.length); at++) {
    if (at % WORDS_A_STEP === WORDS_A_STEP - 1) yield;
    const { tokens, closing } = parts[at];
    const opening = /** @type {Token | undefined} */ (next ?? tokens.find(opensText));
    next = opening && closing?.command === 'nextproblem' ? closing : null;
    if (!opening) continue;
    const words = tokens.slice(tokens.indexOf(opening) + 1);
    blocks.push({ words, from: opening.from, start: opening.to, end: closing?.from ?? text.length, number: blocks.length + 1 });
  }
  return blocks;
}

/** Returns the problems of a text: the words of each, between its opening and its closing word. */
export const blocksOf = remembered(text => readBlocks(text));

/**
 * Finds step by step whether two problems pose the same: whether their words are the same without text lines, in small letters.
 * @param {Block} one
 * @param {Block} next
 * @returns {Generator<void, boolean>}
 */
export function* posedAlike({ words: one }, { words: next }) {
  for (let [at, other] = [0, 0]; ; at++, other++) {
    while (isTextCommand(one[at]?.command)) at++;
    while (isTextCommand(next[other]?.command)) other++;
    const [word, second] = [one[at], next[other]];
    if (!word || word.word.toLowerCase() !== second?.word.toLowerCase()) return word === second;
    if (at % WORDS_A_STEP === WORDS_A_STEP - 1) yield;
  }
}

/**
 * Returns where a problem has the word that another one posed alike has at a place, or next after it.
 * @param {Block} one
 * @param {Block} next
 * @param {number} place a place in the first one
 */
export function sameWordIn(one, next, place) {
  const [before, after] = [one, next].map(({ words }) => words.filter(it => !isTextCommand(it.command)));
  return place <= one.from ? next.from : after[before.findIndex(it => it.from >= place)]?.from ?? next.end;
}

/**
 * Returns the problem at a place of the text, or the last one before it; null if the text has none.
 * @param {string} text
 * @param {number} place
 * @returns {Block | null}
 */
export function blockAt(text, place) {
  const blocks = blocksOf(text);
  return blocks.findLast(block => block.from <= place) ?? blocks[0] ?? null;
}

/**
 * Returns the problem at a place of a text that has one.
 * @param {string} text
 * @param {number} place
 */
function problemAt(text, place) {
  const block = blockAt(text, place);
  if (!block) throw new Error('a text without problems');
  return block;
}

/**
 * Reads the men of a problem step by step.
 * @param {Block} block
 * @returns {Generator<void, MenRead>}
 */
function* readMenOf(block) {
  /** @type {MenRead} */
  const found = { men: new Map(), parts: [], unknown: [] };
  /** @type {Colour | null} */
  let colour = null;
  let isOpen = false;
  /** @type {Span | null} */
  let part = null;
  for (const [at, { word, from, to, command }] of block.words.entries()) {
    if (at % WORDS_A_STEP === WORDS_A_STEP - 1) yield;
    if (isTextCommand(command)) part = null;
    else if (command) {
      isOpen = command === 'pieces';
      colour = null;
      part = isOpen ? { from, to } : null;
      if (part) found.parts.push(part);
    } else if (isOpen) {
      if (!part) found.parts.push(part = { from, to });
      part.to = to;
      colour = readMen(word, colour, found);
    }
  }
  return found;
}

const menByBlock = keptByBlock(readMenOf);
/**
 * Returns the men of a problem by square, as 'wK' or 'bS', the parts of the text with men, and the words that a board can't
 * show.
 * @param {Block} block
 */
export const menOf = block => menByBlock.of(block);

/**
 * Returns the men of an item's diagram: from the report, or from the text if the report shows no board.
 * @param {Item} item
 * @param {Block | undefined} block
 */
export const menOfItem = ({ ranks }, block) => (ranks.length || !block ? menOfRanks(ranks) : menOf(block).men);

/**
 * Reads one word after Pieces, and returns the colour of the men that follow.
 * @param {string} word
 * @param {Colour | null} colour
 * @param {MenRead} found
 */
function readMen(word, colour, found) {
  const letters = word.toLowerCase();
  if ('white'.startsWith(letters)) return 'w';
  if ('black'.startsWith(letters)) return 'b';
  // (the pattern needs the stack for each square)
  const isMen = letters.length <= LONGEST_MEN && MAN_WORD.test(letters);
  const squares = isMen ? letters.slice(1).match(/../g) ?? [] : [];
  const isTwice = squares.some((square, index) => found.men.has(square) || squares.indexOf(square) < index);
  if (!colour || !squares.length || isTwice) found.unknown.push(word);
  else for (const square of squares) found.men.set(square, colour + letters[0].toUpperCase());
  return colour;
}

/** @param {Square} one @param {Square} next */
export const byRank = (one, next) => (one[1] + one[0] < next[1] + next[0] ? -1 : 1);

/**
 * Writes the men as after Pieces.
 * @param {Men} men
 */
export function sidesOf(men) {
  /** @param {Colour} colour @param {string} name */
  const side = (colour, name) => {
    const words = [];
    for (const kind of KINDS) {
      const squares = [...men].filter(([, man]) => man === colour + kind).map(([square]) => square).sort(byRank);
      if (squares.length) words.push(kind + squares.join(''));
    }
    return words.length ? ` ${name} ${words.join(' ')}` : '';
  };
  return side('w', 'White') + side('b', 'Black');
}

/**
 * Replaces some parts of a text: places and their new contents, in any order, without overlaps.
 * @param {string} text
 * @param {Replacement[]} parts
 */
function replaced(text, parts) {
  const pieces = [];
  let end = 0;
  for (const { from, to, said } of [...parts].sort((one, next) => one.from - next.from)) {
    pieces.push(text.slice(end, from), said);
    end = to;
  }
  return pieces.join('') + text.slice(end);
}

/**
 * Extends a part of a text over the blanks around it, and over its line if nothing else is in it.
 * @param {string} text
 * @param {Span} part
 */
function withBlanks(text, { from, to }) {
  let first = from;
  let last = to;
  while (' \t'.includes(text[first - 1] ?? '\n')) first--;
  while (' \t\r'.includes(text[last] ?? '\n')) last++;
  const isLine = (first === 0 || text[first - 1] === '\n') && (last === text.length || text[last] === '\n');
  if (isLine) return { from: first, to: Math.min(last + 1, text.length), said: '' };
  return { from: first, to, said: '' };
}

/**
 * Adds a line at the end of a problem.
 * @param {string} text
 * @param {Block} block
 * @param {string} line
 */
export const withLine = (text, block, line) => replaced(text, [linePut(text, block, line)]);

/**
 * Returns what adds a line at the end of a problem.
 * @param {string} text
 * @param {Block} block
 * @param {string} line
 * @returns {Replacement}
 */
function linePut(text, { end }, line) {
  const start = end === 0 || text[end - 1] === '\n' ? '' : '\n';
  return { from: end, to: end, said: `${start}${line}\n` };
}

/**
 * Joins parts of a text with only blanks between them.
 * @param {string} text
 * @param {Span[]} parts
 */
function joinedParts(text, parts) {
  /** @type {Span[]} */
  const joined = [];
  for (const part of [...parts].sort((one, next) => one.from - next.from)) {
    const last = joined.at(-1);
    if (last && !text.slice(last.to, part.from).trim()) last.to = part.to;
    else joined.push({ from: part.from, to: part.to });
  }
  return joined;
}

/**
 * Does some edits of a text at once, so that it isn't read again between them.
 * @param {string} text
 * @param {Edit[]} edits
 */
function edited(text, edits) {
  const gone = joinedParts(text, edits.flatMap(it => it.gone)).map(part => withBlanks(text, part));
  return replaced(text, [...edits.flatMap(it => it.put), ...gone]);
}

/**
 * Returns the edit that replaces the men of a problem.
 * @param {Block} block
 * @param {Men} men
 * @returns {Edit}
 */
function menEdit(block, men) {
  const { parts } = menOf(block);
  const sides = sidesOf(men);
  const said = `Pieces${sides}`;
  if (!sides) return { gone: parts, put: [] };
  if (!parts.length) return { gone: [], put: [{ from: block.start, to: block.start, said: `\n${said}` }] };
  return { gone: parts.slice(1), put: [{ ...parts[0], said }] };
}

/**
 * Replaces the men of a problem.
 * @param {string} text
 * @param {number} place
 * @param {Men} men
 */
export const withMen = (text, place, men) => edited(text, [menEdit(problemAt(text, place), men)]);

/**
 * Removes the men of a problem, and what belongs to the problem that was: title, source, remarks, and the squares of options.
 * @param {string} text
 * @param {number} place
 */
export function cleared(text, place) {
  const block = problemAt(text, place);
  const lines = block.words.filter(word => word.command && CLEARED_LINES.includes(word.command));
  const gone = lines.map(({ from, to, end = to }) => ({ from, to: end }));
  return edited(text, [menEdit(block, new Map()), { gone, put: [] }, optionsEdit(text, block, { EnPassant: null, NoCastling: null })]);
}

/**
 * Reads the fields of a problem step by step.
 * @param {Block} block
 * @param {string} text
 * @returns {Generator<void, Fields>}
 */
function* readFields(block, text) {
  /** @type {Fields} */
  const fields = {};
  /** @type {FieldState} */
  const state = { section: null, awaited: null, last: null };
  for (const [at, word] of block.words.entries()) {
    if (at % WORDS_A_STEP === WORDS_A_STEP - 1) yield;
    if (word.command && TEXT_FIELDS.includes(word.command)) {
      const end = word.end ?? word.to;
      const said = text.slice(word.to, end).trim();
      fields[word.command] = { parts: [{ from: word.from, to: end }], said, section: null, earlier: fields[word.command] };
    } else if (word.command && !isTextCommand(word.command)) {
      Object.assign(state, { section: { ...word, words: 0 }, awaited: null, last: null });
    } else if (!word.command && state.section) {
      state.section.words++;
      readField(word, state.section, fields, state);
    }
  }
  return fields;
}

const fieldsByBlock = keptByBlock(readFields);
/**
 * Returns the fields of a problem, each with its parts of the text, its own name first.
 * @param {string} text
 * @param {Block} block
 */
export const fieldsOf = (text, block) => fieldsByBlock.of(block, text);

/**
 * Reads a problem step by step; if it is long, its men and fields are known then.
 * @param {string} text
 * @param {Block} block
 * @returns {Generator<void, void>}
 */
export function* readProblem(text, block) {
  if (block.words.length < WORDS_A_STEP) return;
  yield* menByBlock.steps(block, text);
  yield* fieldsByBlock.steps(block, text);
}

/**
 * Reads one word after a command.
 * @param {Token} word
 * @param {Section} section
 * @param {Fields} fields
 * @param {FieldState} state
 */
function readField(word, section, fields, state) {
  const { awaited, last } = state;
  const part = { from: word.from, to: word.to };
  if (awaited) {
    awaited.parts.push(part);
    awaited.said = word.word;
    state.awaited = null;
  } else if (section.command === 'option') {
    const name = [...FLAGS, ...VALUES].find(it => isShort(word.word, it));
    if (name) {
      state.last = fields[name] = { name, parts: [part], said: '', section, earlier: fields[name] };
      state.awaited = name === 'MaxSolutions' || name === 'EnPassant' ? fields[name] : null;
    } else if (last?.name === 'NoCastling' && /^(?:[a-h][1-8])+$/i.test(word.word)) {
      last.parts.push(part);
      // (without a look at the letters of what is joined, which would take time that grows by the square)
      last.said += last.said ? ` ${word.word}` : word.word;
    }
  } else if ((section.command === 'stipulation' || section.command === 'condition') && !fields[section.command]) {
    fields[section.command] = { parts: [part], said: word.word, section };
  }
}

/**
 * Returns the value of a field, or null: the last word counts, and squares of NoCastling add up.
 * @param {Fields} fields
 * @param {string} name
 */
export function valueOf(fields, name) {
  const found = fields[name];
  if (!found) return null;
  const said = [];
  for (let field = /** @type {Field | undefined} */ (found); field; field = name === 'NoCastling' ? field.earlier : undefined) said.push(field.said);
  return said.reverse().join(' ').trim();
}

/** @param {string} value */
const oneLine = value => value.replace(/[\r\n]+/g, ' ').trim();

/**
 * Returns the edit that sets a text line, as the title, or another word after a command: the stipulation or the condition; the last one
 * counts.
 * @param {string} text
 * @param {Block} block
 * @param {string} name
 * @param {string} value
 * @returns {Edit}
 */
function valueEdit(text, block, name, value) {
  const command = name.toLowerCase();
  const isLine = TEXT_FIELDS.includes(command);
  const field = fieldsOf(text, block)[command];
  const said = oneLine(value);
  const line = `${name} ${said}`;
  if (field && !said) return { gone: [...emptied(field.parts.map(() => field.section), null), ...field.parts], put: [] };
  if (!said) return { gone: [], put: [] };
  if (field) return { gone: [], put: [{ ...field.parts[0], said: isLine ? line : said }] };
  // (what follows the opening word in its line goes on the next one)
  const end = /^[ \t\r]*(\n|$)/.test(text.slice(block.start)) ? '' : '\n';
  if (isLine) return { gone: [], put: [{ from: block.start, to: block.start, said: `\n${line}${end}` }] };
  const bare = block.words.find(word => word.command === command);
  return { gone: [], put: [bare ? { from: bare.to, to: bare.to, said: ` ${said}` } : linePut(text, block, line)] };
}

/**
 * Returns the edit that sets options and their values; it removes those whose value is null.
 * @param {string} text
 * @param {Block} block
 * @param {Record<string, string | null>} values
 * @returns {Edit}
 */
function optionsEdit(text, block, values) {
  const fields = fieldsOf(text, block);
  const set = Object.entries(values).filter(([name, value]) => value !== null && fields[name]);
  const put = set.map(([name, value]) => {
    const [{ parts: [own, first] }, said] = [fields[name], oneLine(value ?? '')];
    return first ? { ...first, said } : { from: own.to, to: own.to, said: said && ` ${said}` };
  });
  const gone = Object.entries(values).flatMap(([name, value]) => goneParts(fields[name], value !== null));
  const added = Object.entries(values).flatMap(([name, value]) => (value === null || fields[name] ? [] : [`${name} ${oneLine(value)}`.trim()]));
  const words = new Set(gone.map(({ part }) => part.from));
  const place = added.length ? placeOfOptions(text, block, words) : null;
  if (place) put.push({ from: place.to, to: place.to, said: ` ${added.join(' ')}` });
  else if (added.length) put.push(linePut(text, block, `Option ${added.join(' ')}`));
  return { put, gone: [...gone.map(it => it.part), ...emptied(gone.map(it => it.section), place?.section ?? null)] };
}

/**
 * Lists the words of an option that go, with their commands: all of the same option before it; if its value is set, the other words of this
 * value, or else all its words.
 * @param {Field | undefined} found
 * @param {boolean} isSet
 */
function goneParts(found, isSet) {
  const gone = [];
  for (let field = found; field; field = field.earlier) {
    for (const part of isSet && field === found ? field.parts.slice(2) : field.parts) gone.push({ part, section: field.section });
  }
  return gone;
}

/**
 * Lists the commands all of whose words go, but for one.
 * @param {(Section | null)[]} sections the command of each word that goes
 * @param {Token | null} kept
 */
function emptied(sections, kept) {
  /** @type {Map<Section, number>} */
  const counts = new Map();
  for (const section of sections) if (section) counts.set(section, (counts.get(section) ?? 0) + 1);
  return [...counts].filter(([section, count]) => section.words === count && section.from !== kept?.from).map(([section]) => section);
}

/**
 * Returns where a problem's options go on, with their command; null if their line ends in a value, another command follows them or there are
 * none.
 * @param {string} text
 * @param {Block} block
 * @param {Set<number>} gone where words are that go
 */
function placeOfOptions(text, block, gone) {
  const at = block.words.findLastIndex(word => word.command === 'option');
  const [section, ...following] = at < 0 ? [] : block.words.slice(at);
  const last = following.at(-1);
  if (!section || !last || following.some(word => word.command) || text.slice(section.to, last.to).includes('\n')) return null;
  return { section, to: following.findLast(word => !gone.has(word.from))?.to ?? section.to };
}

/**
 * Sets the value of the field with this name.
 * @param {string} text
 * @param {number} place
 * @param {string} name
 * @param {string | null} value
 */
export function withField(text, place, name, value) {
  const block = problemAt(text, place);
  const isOption = FLAGS.includes(name) || VALUES.includes(name);
  return edited(text, [isOption ? optionsEdit(text, block, { [name]: value }) : valueEdit(text, block, name, value ?? '')]);
}

/**
 * Replaces a problem's position by the position of a FEN.
 * @param {string} text
 * @param {number} place a place in the problem
 * @param {Fen} fen
 */
export function withFen(text, place, fen) {
  const block = problemAt(text, place);
  const squares = { EnPassant: fen.crossed, NoCastling: fen.noCastling.join('') || null };
  return edited(text, [menEdit(block, fen.men), optionsEdit(text, block, squares)]);
}

/**
 * Returns the side that moves first in a problem: Black in help play, unless it begins with White's half-move.
 * @param {Fields} fields
 */
export const turnOf = fields => (/^h[#=]\d+$/i.test(valueOf(fields, 'stipulation') ?? '') ? 'b' : 'w');
/**
 * Returns the squares that NoCastling names.
 * @param {Fields} fields
 */
export const barredIn = fields => (valueOf(fields, 'NoCastling') ?? '').toLowerCase().match(/[a-h][1-8]/g) ?? [];

/**
 * Returns the position of a problem as FEN: its men, the side that moves first, NoCastling, EnPassant.
 * @param {string} text
 * @param {Block} block
 */
export function fenOfBlock(text, block) {
  const fields = fieldsOf(text, block);
  return fenOf({ men: menOf(block).men, turn: turnOf(fields), barred: barredIn(fields), crossed: valueOf(fields, 'EnPassant')?.toLowerCase() ?? null });
}

/**
 * Returns where a text continues after its first EndProblem, though nothing there is read: both lines, counted from 1, and the
 * BeginProblem that may follow; null if nothing follows.
 * @param {string} text
 */
export function tailOf(text) {
  const words = wordsOf(text);
  const at = words.findIndex(word => word.command === 'endproblem');
  if (at < 0 || at === words.length - 1) return null;
  const [end, next] = words.slice(at, at + 2);
  const opening = words.slice(at + 1).find(word => !isTextCommand(word.command));
  return {
    end, endLine: lineOf(text, end.from), line: lineOf(text, next.from),
    opening: opening?.command === 'beginproblem' ? opening : null,
  };
}

/**
 * Joins a second text after EndProblem by NextProblem.
 * @param {string} text
 */
export function withTail(text) {
  const { end, opening } = tailOf(text) ?? {};
  if (!end || !opening) return text;
  return replaced(text, [{ from: end.from, to: end.to, said: 'NextProblem' }, withBlanks(text, opening)]);
}

/**
 * Returns the problems of a text, with those after an EndProblem, without the words that open and close them, step by step.
 * @param {string} text
 * @returns {Generator<void, string[]>}
 */
export function* bodiesOf(text) {
  const blocks = yield* readBlocks(text, true);
  return blocks.map(({ start, end }) => `${text.slice(start, end).trimEnd()}\n`);
}

/**
 * Joins problems to one text.
 * @param {string[]} bodies
 */
export const joinedBodies = bodies => `BeginProblem${bodies.join('NextProblem')}EndProblem\n`;

// Where each line begins.
const startsOf = remembered(function* (text) {
  const starts = [0];
  for (let end = text.indexOf('\n'); end >= 0; end = text.indexOf('\n', end + 1)) starts.push(end + 1);
  return starts;
});

/**
 * Returns the line of a place, counted from 1.
 * @param {string} text
 * @param {number} place
 */
export function lineOf(text, place) {
  const starts = startsOf(text);
  return lastOf(1, starts.length + 1, line => starts[line - 1] <= place);
}

/**
 * Returns the last of some numbers of which something holds, as of all before it; the first one if it holds of none.
 * @param {number} first
 * @param {number} after
 * @param {(number: number, held: number) => boolean} holds receives also a number before it of which it holds
 */
export function lastOf(first, after, holds) {
  let [last, end] = [first, after];
  while (last + 1 < end) {
    const middle = (last + end) >> 1;
    if (holds(middle, last)) last = middle;
    else end = middle;
  }
  return last;
}

/**
 * Returns where a line of a text, counted from 1, begins and ends.
 * @param {string} text
 * @param {number} line
 */
export function lineAt(text, line) {
  const starts = startsOf(text);
  const from = starts[Math.min(line, starts.length) - 1];
  const end = text.indexOf('\n', from);
  return { from, to: end < 0 ? text.length : end };
}
