// The page's patterns: those of the companions mean in JavaScript what they mean in Python, also where the two know other ends of lines and
// blanks, and none takes time that grows by the square of an ordinary text.
import assert from 'node:assert/strict';
import { execFileSync } from 'node:child_process';
import { readFileSync } from 'node:fs';
import { test } from 'node:test';
import { fileURLToPath } from 'node:url';
import { py } from '../../web/python.js';
import { documents, YamlError } from '../../web/yaml.js';
import { makeDocument } from '../helpers/page_imports.mjs';

makeDocument();
const made = [];
const { compile } = py.re;
py.re.compile = (text, flags = 0) => {
  made.push([text, flags]);
  return compile(text, flags);
};
const { companions } = await import('../../web/out/companions.js');
const { isOfAnother } = await import('../../web/importing.js');
py.re.compile = compile;

const HERE = fileURLToPath(new URL('.', import.meta.url));
// Against hanging, in milliseconds: no busy machine takes so long.
const PATIENCE = 600_000;
const ODD = ['\u2028', '\u2029', '\x85', '\r', '\v', '\f', '\x1c', '\xa0', '\ufeff', '\n', ' ', '\t'];
// In Python's own words: what is found first in each text, with its groups, whether all of the text is, and all that is found, unless that may be empty.
const BY_PYTHON = `
import json, re, sys

def found(match):
    return None if match is None else [match[0], *match.groups()]

cases, texts = json.load(sys.stdin)
said = []
for text, flags in cases:
    one = re.compile(text, flags)
    said.append([[found(one.search(it)), found(one.fullmatch(it)), [] if one.search("") else [found(match) for match in one.finditer(it)]] for it in texts])
json.dump(said, sys.stdout)
`;

// A program of its own, which can be ended: it reads long texts of each sign.
const LONG_LINES = `
import assert from 'node:assert/strict';
import { makeDocument } from '../helpers/page_imports.mjs';
makeDocument();
const { imported, isOfAnother } = await import('../../web/importing.js');
const { documents } = await import('../../web/yaml.js');
const { companions } = await import('../../web/out/companions.js');
const signs = JSON.parse(process.argv[1]);
for (const sign of signs) {
  const text = sign.repeat(99_990);
  for (const one of [text, text + 'algebraic', 'BeginProblem\\n' + text]) assert.equal(isOfAnother(one), false);
  assert.equal(imported(text), null);
  assert.throws(() => companions.readPopeye(text));
  assert.equal(documents(text + '\\n').length, text.trim() ? 1 : 0);
}
console.log(signs.length, 'signs');
`;

/** Returns patterns that are written where they are used, with their flags. */
function writtenInPlace() {
  const text = readFileSync(new URL('../../web/out/companions.js', import.meta.url), 'utf8');
  const calls = text.matchAll(/py\.re\.(?:search|match|fullmatch|findall|sub)\(("(?:[^"\\]|\\.)*")([^;\n]*)/g);
  return [...calls].map(([, pattern, rest]) => [JSON.parse(pattern), rest.includes('IGNORECASE') ? py.re.IGNORECASE : 0]);
}

/** Returns texts of odd signs and of ordinary ones, in pseudo-random order. */
function oddTexts() {
  let state = 7;
  const next = most => (state = (state * 1103515245 + 12345) % 2147483648) % 65536 % most;
  const signs = [...ODD, ...ODD, 'a', 'b1', 'K', '#', '2', '-', '.', ',', '=', ':', '[', '"', 'é', '²', '٣', '_', '...', 'h#2', 'Ka1', '1900', 'duplex'];
  return Array.from({ length: 300 }, () => Array.from({ length: 1 + next(6) }, () => signs[next(signs.length)]).join(''));
}

const found = match => match && [match.all[0], ...match.groups()];

test('patterns: the same in JavaScript and Python', () => {
  const cases = [...made, ...writtenInPlace(), ['(?:^|\\n)[^\\S\\n]*a$', 0], ['.+', 0], ['.+', py.re.DOTALL], ['\\s+$', 0], ['^\\s+', 0], ['\\S+', py.re.ASCII]];
  assert.ok(cases.length > 120);
  const texts = oddTexts();
  const wanted = JSON.parse(execFileSync('python3', ['-c', BY_PYTHON], { input: JSON.stringify([cases, texts]), encoding: 'utf8', maxBuffer: 1 << 28 }));
  cases.forEach(([pattern, flags], place) => {
    const one = compile(pattern, flags);
    texts.forEach((text, at) => {
      const said = [found(one.search(text)), found(one.fullmatch(text)), one.search('') ? [] : [...one.finditer(text)].map(found)];
      assert.deepEqual(said, wanted[place][at], JSON.stringify([pattern, flags, text]));
    });
  });
});

test('patterns: lines of odd signs take no time that grows by the square', () => {
  const said = execFileSync(process.execPath, ['--input-type=module', '-e', LONG_LINES, JSON.stringify(ODD)], { cwd: HERE, encoding: 'utf8', timeout: PATIENCE });
  assert.equal(said, `${ODD.length} signs\n`);
});

test('patterns: an odd sign ends no line', () => {
  assert.throws(() => py.re.MULTILINE, py.ValueError);
  assert.equal(isOfAnother('Title a\u2028algebraic: b'), false);
  assert.equal(isOfAnother('a\n algebraic: b'), true);
  assert.equal(companions.begins('Remark a\u2028AnfangProblem'), false);
  assert.equal(companions.begins('Remark a\nAnfangProblem'), true);
  assert.equal(documents('title: "a\u2028--- b"').length, 1);
  assert.equal(documents('title: "a\u2028b"')[0].node().get('title'), 'a\u2028b');
});

test('YAML: a code that stands for no character is refused, in JSON too', () => {
  for (const code of ['\\U00110000', '\\UFFFFFFFF', '\\ud800', '\\udc00\\ud83d']) assert.throws(() => documents(`title: "${code}"`)[0].node(), YamlError, code);
  assert.throws(() => documents('{"title": "\\ud800"}')[0].node(), YamlError);
  assert.equal(documents('title: "\\ud83d\\ude00 \\U0010FFFF"')[0].node().get('title'), '\u{1f600} \u{10ffff}');
});
