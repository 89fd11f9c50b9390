// Solutions in short notation, and problems in YAML and LaTeX.
import assert from 'node:assert/strict';
import { test } from 'node:test';
import { makeDocument } from '../helpers/page_imports.mjs';

makeDocument();
const { imported } = await import('../../web/importing.js');
const { beyondLatex, diagramFile, latexOf, shortText, yamlOf } = await import('../../web/outputs.js');
const { in_commands } = await import('../../web/letters.js');
const { men_shapes } = await import('../../web/shapes.js');
const { menOfRanks } = await import('../../web/position.js');
const { itemsOf } = await import('../../web/report.js');
const { blockAt, menOf } = await import('../../web/text.js');
const { speak } = await import('../../web/words.js');

/** Returns the men of a text, as `White Ke1 Black Ke8`. */
const menIn = men => menOf(blockAt(`BeginProblem Pieces ${men} EndProblem`, 0)).men;
/** Returns the short notation of a first move, without its number and the sign of a key. */
const short = (men, move, isHelp = false) => shortText(itemsOf(`problem 1\n${isHelp ? 'h#1' : '#1'}\nplay\n${move}\nsolutions: 1\n`)[0], menIn(men))
  .slice(2).replace(/!?\n$/, '');

test('short: a move names as much of its origin as is needed', () => {
  assert.equal(short('White Ka1 Sb1f1 Black Kh8', '1.Sb1-d2'), 'Sbd2');
  assert.equal(short('White Ka1 Sb1b3 Black Kh8', '1.Sb1-d2'), 'S1d2');
  assert.equal(short('White Ka1 Sb1b3f1 Black Kh8', '1.Sb1-d2'), 'Sb1d2');
  assert.equal(short('White Ka1 Sb1 Black Kh8', '1.Sb1-d2'), 'Sd2');
  // The knight on f1 is pinned by the rook.
  assert.equal(short('White Kh1 Sb1f1 Black Kh8 Ra1', '1.Sb1-d2'), 'Sbd2');
  assert.equal(short('White Kh1 Sb3f1 Black Kh8 Ra1', '1.Sb3-d2'), 'Sd2');
});

test('short: captures, castling, promotions, en passant, rebirths', () => {
  assert.equal(short('White Ka1 Pe5 Black Kh8 Pd5', '1.e5*d6 ep.'), 'exd6 ep.');
  assert.equal(short('White Ka1 Pb7 Black Kh8 Ra8', '1.b7*a8=Q+'), 'bxa8=Q+');
  assert.equal(short('White Ke1 Rh1 Black Kh8', '1.0-0'), '0-0');
  assert.equal(short('White Ka1 Rb1 Black Kh8 Sb8', '1.Rb1*b8[+bSg8]+'), 'Rxb8[+bSg8]+');
  assert.equal(short('White Ka1 Black Kh8 Pa7', '1.a7-a5', true), 'a5');
});

const MORPHY = [
  'problem 1', 'title: Mate in two', '8 kbK.....', '7 pp......', '6 .P......', '5 ........', '4 ........', '3 ........', '2 ........', '1 R.......', '  abcdefgh', '#2',
  'play', '1.Ra1-a6!', '  zugzwang', '  1...b7*a6', '    2.b6-b7#', '  1...Bb8-h2', '    2.Ra6*a7#', '  1...Bb8-g3', '    2.Ra6*a7#', 'solutions: 1',
  'tries', '1.Ra1*a7+?', '  check', '  but', '    1...Bb8*a7!', 'tries: 1', '', ''].join('\n');
const TEXT = 'BeginProblem\nTitle Mate in two\nAuthor Morphy, Paul; Another One\nOrigin Here\nOrigin There\nRemark solutions 1\nRemark "odd" & #1\n'
  + 'Pieces White Kc8 Ra1 Pb6 Black Ka8 Bb8 Pa7b7\nStipulation #2\nCondition Mad\nOption SetPlay Variation MaxSolutions 3 NoCastling a1 h1\nEndProblem\n';

test('short: tries and keys with their variations', () => {
  const [item] = itemsOf(MORPHY);
  assert.equal(shortText(item, menOfRanks(item.ranks)), [
    'Tries', '  1.Rxa7+? Bxa7!', 'Solution', '  1.Ra6! zugzwang', '    1...bxa6 2.b7#', '    1...Bh2,Bg3 2.Rxa7#', ''].join('\n'));
});

test('short: tries of a man that all check keep their mark in a group, also in LaTeX', () => {
  const tries = ['g2', 'f3', 'f5', 'g6'].map(it => `1.Sh4-${it}+?\n  check\n  but\n    1...Kh8-g8!\n`).join('');
  const board = ['.......k', '......p.', '........', '........', '.......S', '........', '........', 'K......R'].map((it, at) => `${8 - at} ${it}\n`).join('');
  const [item] = itemsOf(`problem 1\n${board}  abcdefgh\n#2\nplay\nsolutions: 0\ntries\n${tries}tries: 4\n\n`);
  assert.match(shortText(item, menOfRanks(item.ranks)), /\n {2}1\.S~\+\? Kg8!\n/);
  assert.match(latexOf('BeginProblem\nPieces White Ka1 Rh1 Sh4 Black Kh8 Pg7\nStipulation #2\nEndProblem\n', [item]), /1\.S\\textasciitilde\{\}\+\? Kg8!/);
});

test('short: threats, several continuations, longer play, help play, no solution', () => {
  const head = 'problem 1\n#3\nplay\n';
  const men = menIn('White Kh1 Qa1 Ra2 Black Kh8 Pa7');
  const text = (play, from = head) => shortText(itemsOf(from + play)[0], men);
  assert.equal(text('1.Qa1-b1!\n  threat\n    2.Qb1-b8+\n      2...Kh8-g7\n        3.Ra2-g2#\n  1...a7-a5\n    2.Qb1-b2+\n      2...Kh8-g8\n        3.Qb2-b8#\n        3.Ra2-g2#\nsolutions: 1\n'),
    '1.Qb1! threat: 2.Qb8+ Kg7 3.Rg2#\n  1...a5 2.Qb2+ Kg8 3.Qb8#/Rg2#\n');
  assert.equal(text('solutions: 0\n'), 'no solution\n');
  assert.equal(text('1.Qa1-b1\nsolutions: 1, stopped\n'), '1.Qb1!\n(and perhaps more)\n');
  assert.equal(text('1.Kh8-g8 Qa1-a3 2.a7-a6 Qa3-f8#\nsolutions: 1\n', 'problem 1\nh#2\nset\n1...Qa1-a3 2.a7-a6 Qa3-f8#\nsolutions: 1\nplay\n'),
    'Set play\n  1...Qa3 2.a6 Qf8#\nSolution\n  1.Kg8 Qa3 2.a6 Qf8#\n');
  assert.equal(text('not possible\nplay\n1.Qa1-b1\nsolutions: 1\n', 'problem 1\n#1\nset\n'), '1.Qb1!\n');
});

test('outputs: YAML', () => {
  assert.equal(yamlOf(TEXT, itemsOf(MORPHY)).text, [
    '---', 'authors:', '  - "Morphy, Paul"', '  - "Another One"', 'title: "Mate in two"', 'source: "Here"', 'origins:', '  - "There"', 'algebraic:',
    '  white: [Kc8, Ra1, Pb6]', '  black: [Ka8, Bb8, Pa7, Pb7]', 'stipulation: "#2"', 'conditions: [Madrasi]', 'options:', '  - "SetPlay"', '  - "Variation"',
    '  - "MaxSolutions 3"', '  - "NoCastling a1h1"', 'intended-solutions: 1', 'comments:', '  - "\\"odd\\" & #1"', 'solution: |',
    '  1.Ra1-a6 ! zugzwang.', '      1...b7*a6', '          2.b6-b7 #', '      1...Bb8-h2', '          2.Ra6*a7 #', '      1...Bb8-g3', '          2.Ra6*a7 #', '',
    '  1.Ra1*a7 + ?', '      but', '          1...Bb8*a7 !', ''].join('\n'));
  assert.equal(yamlOf(TEXT, []).text.includes('solution: |'), false);
});

test('outputs: YAML says of solutions that were stopped, by a limit or by the user, that they may not be all', () => {
  const text = 'BeginProblem\nPieces White Kg6 Ra1 Rb2 Black Kh8\nStipulation h#1\nOption SetPlay\nEndProblem\n';
  const [set, play] = ['set\n1...Ra1-a8#\nsolutions: 1\n', 'play\n1.Kh8-g8 Ra1-a8#\n'];
  const solutionOf = report => /\nsolution: \|\n([^]*)$/.exec(yamlOf(text, itemsOf(`problem 1\nh#1\n${report}`)).text)?.[1];
  const lines = '  1...Ra1-a8 #\n\n  1.Kh8-g8 Ra1-a8 #\n';
  for (const end of ['solutions: 1, stopped\n\n', '']) assert.equal(solutionOf(set + play + end), `${lines}\n  Partial solution\n`);
  assert.equal(solutionOf(`${set}${play}solutions: 1\n\n`), lines);
  assert.equal(solutionOf(set), '  1...Ra1-a8 #\n\n  Partial solution\n');
  const made = yamlOf(text, itemsOf(`problem 1\nh#1\n${set}`)).text;
  assert.equal(yamlOf(imported(made).text, []).text, made);
});

test('outputs: a name with many blanks takes little time', () => {
  const begun = process.cpuUsage();
  const text = blanks => `BeginProblem\nAuthor A${' '.repeat(blanks)}B & C\nPieces White Kg6 Black Kg8\nStipulation #1\nEndProblem\n`;
  assert.match(yamlOf(text(100), []).text, /^  - "A B"\n  - "C"$/m);
  assert.ok(/^  - "A"$/m.test(yamlOf(text(2e5), []).text), 'the first 200 bytes are the name');
  const { user, system } = process.cpuUsage(begun);
  assert.ok(user + system < 3e7, `${user + system} microseconds`);
});

test('outputs: twins of a position that is no problem are one problem in YAML', () => {
  const given = ['---', 'title: "Zero"', 'algebraic:', '  white: [Kg6, Ra1]', '  black: [Kh8]', 'stipulation: "h#1"', 'twins:', '  a: "Move a1 a3"',
    '  b: "Move a1 a2"', ''].join('\n');
  assert.equal(yamlOf(imported(given).text, []).text, given);
});

test('outputs: YAML of what an import kept has its keys again', () => {
  const given = ['---', 'id: 77', 'authors:', '  - "Loyd, Samuel"', 'source: "New York Albion"', 'date: "1858-07-03"', 'algebraic:', '  white: [Kg6, Ra1]', '  black: [Kg8]',
    'stipulation: "#1"', 'source-id: "A7"', 'award:', '  tourney: "A tourney"', '  distinction: "1st Prize"', 'keywords:', '  - "Zugzwang"', 'comments:', '  - "a comment"',
    'solution: |', '  1.Ra8 #', '    and more', ''].join('\n');
  assert.equal(yamlOf(imported(given).text, []).text, given);
});

test('outputs: the other side of a duplex has its solutions in YAML as they are played on the diagram', () => {
  const { text } = imported('BeginProblem\nTitle Both\nPieces White Kh1 Rb7 Pg2h2 Black Kh8 Rb2 Pg7h7\nStipulation h#1\nCondition Circe\nOption Duplex\nEndProblem\n');
  const items = itemsOf('problem 1\nh#1 Circe\nplay\nsolutions: 0\n\nproblem 2\nh#1 Circe\nplay\n1.Rb2-a2 Rb7*b8[+bSb8]#\nsolutions: 1\n\n');
  assert.match(yamlOf(text, items).text, /duplex\n\n {2}1\.Rb7-a7 Rb2\*b1\[\+wSb1\] #/);
});

test('outputs: a faulty problem in LaTeX is a box, and letters that plain LaTeX lacks are known', () => {
  const made = latexOf('BeginProblem\nTitle A&B\nAuthor Loyd, Samuel\nPieces White Kg6 Rz1 Black Kg8\nStipulation #1\nEndProblem\n',
    itemsOf('problem 1\nline 4: fault 14: square expected\n\n'));
  assert.equal(made.includes('\\begin{diagram}'), false);
  assert.match(made, /\\raggedright\n\\textbf\{1\} Samuel Loyd\\\\\nA\\&B\\\\\n\\textbf\{line 4: square expected\}\n\\end\{minipage\}/);
  assert.equal(beyondLatex('é ǿ ſ Ж ơ ả Ɓ Ɓ'), 'ſ Ɓ');
  assert.deepEqual(['ả', 'ỉ', 'ſ'].map(in_commands), [['\\hooked{a}', true], ['\\hooked{\\i}', true], ['s', false]]);
});

test('outputs: twins are one problem in LaTeX and YAML, and what cannot be posed is left out of YAML', () => {
  const { text } = imported('BeginProblem\nTitle A pair\nPieces White Kg6 Ra1 Black Kh8\nStipulation h#1\nTwin Move a1 b2\nEndProblem\n');
  const made = latexOf(text, []);
  assert.equal(made.split('\\begin{diagram}').length, 2);
  assert.match(made, /\n\\twins\{b\) Ra1\$\\rightarrow\$b2\}\n/);
  assert.match(yamlOf(text, []).text, /^title: "A pair"\n[^]*\ntwins:\n  b: "Move a1 b2"\n$/m);
  const { text: left, lost } = yamlOf(text.replace('Rb2', 'Ra9'), []);
  assert.deepEqual([left.split('---').length, lost.length], [2, 1]);
  assert.deepEqual(lost, ['Problem 2 was left out: Ra9 isn\'t known here']);
  assert.match(left, /^title: "A pair"$/m);
});

test('outputs: of many problems that are left out of YAML the first are named, and how many there are', () => {
  const { lost } = yamlOf(`BeginProblem\n${'NextProblem\n'.repeat(299)}EndProblem\n`, []);
  assert.equal(lost.length, 101);
  assert.match(lost[99], /100/);
  assert.equal(lost[100], '200 more');
});

test('outputs: LaTeX has the date of a source in the language of the page', () => {
  const text = 'BeginProblem\nOrigin Die Schwalbe, 6 February 1971\nPieces White Kg6 Ra1 Black Kg8\nStipulation #1\nEndProblem\n';
  for (const [code, date] of [['en', '6 February 1971'], ['de', '6. Februar 1971'], ['fr', '6 février 1971']]) {
    speak(code);
    assert.ok(latexOf(text, []).includes(`\\source{Die Schwalbe, ${date}}\n`), date);
  }
  speak('en');
});

test('outputs: why a problem is left out of YAML, in the language of the page', () => {
  const text = 'BeginProblem\nPieces White Kg6 Ra1 Black Kh8\nStipulation r#1\nEndProblem\n';
  speak('de');
  assert.deepEqual(yamlOf(text, []).lost, ['Problem 1 wurde ausgelassen: pops kennt die Forderung r#1 nicht']);
  const read = more => imported(`algebraic:\n  white: [Kg6, Ra1]\n  black: [Kg8]\nstipulation: '#1'\n${more}\n`).lost.join();
  assert.match(read('x: [a'), /ausgelassen: das ist nicht als YAML lesbar: der Text endet zu früh$/);
  assert.match(read(`x: ${'['.repeat(50)}${']'.repeat(50)}`), /lesbar: es sind mehr als 40 Ebenen$/);
  assert.match(read(`twins:\n  ${'b'.repeat(50)}: Move a1 b1`), /hat mehr als 40 Zeichen$/);
  speak('fr');
  assert.deepEqual(yamlOf(text, []).lost, ['Le problème 1 a été omis\u00a0: pops ne connaît pas l’énoncé r#1']);
  speak('en');
});

test('outputs: three authors are three', () => {
  const text = 'BeginProblem\nAuthor A. Ax & B. Bx & C. Cx\nPieces White Kg6 Ra1 Black Kg8\nStipulation #1\nEndProblem\n';
  assert.match(yamlOf(text, []).text, /^authors:\n {2}- "A. Ax"\n {2}- "B. Bx"\n {2}- "C. Cx"\n/m);
  assert.match(latexOf(text, []), /\\author\{\{A\. Ax\}, \{\}; \{B\. Bx\}, \{\}; \{C\. Cx\}, \{\}\}/);
});

test('outputs: a drawing has the shapes of its men alone', () => {
  assert.deepEqual([...men_shapes()].filter(it => it !== 'board').length, 8);
  const made = diagramFile(menIn('White Ka1 Ga2 Black Kh8'), 'A & B');
  assert.match(made, /<title>A &amp; B<\/title>/);
  assert.deepEqual(['king', 'queen', 'grasshopper', 'rook'].map(it => made.includes(`<g id="${it}">`)), [true, true, true, false]);
});

test('outputs: LaTeX', () => {
  const report = MORPHY.replace('\n8 ', '\nauthor: Morphy, Paul; Another One\n8 ').replace('#2', '#2 Madrasi');
  const made = latexOf(TEXT.replace('Here', '50% {x} Ж_1'), itemsOf(report));
  assert.match(made, /^\\documentclass\[a4paper\]\{article\}\n/);
  assert.match(made, /\n\\cyrillicletter\{0416\}\{Ж\}\{Ж\}\n/);
  assert.equal(made.slice(made.indexOf('\\begin{diagram}')), [
    '\\begin{diagram}', '\\specialdiagnum{1}', '\\author{Morphy, Paul; {Another One}, {}}', '\\dedic{Mate in two}', '\\source{50\\% \\{x\\} Ж\\_1; There}',
    '\\pieces[3+4]{wKc8, wTa1, wBb6, sKa8, sLb8, sBa7b7}', '\\stipulation{\\#2}', '\\condition{Madrasi}',
    '\\solution{\\textit{Tries}\\newline', '1.Rxa7+? Bxa7!\\newline', '\\textit{Solution}\\newline', '1.Ra6! zugzwang\\newline', '\\hspace*{1em}1...bxa6 2.b7\\#\\newline',
    '\\hspace*{1em}1...Bh2,\\allowbreak{}Bg3 2.Rxa7\\#}', '\\end{diagram}', '\\hspace{1em}', '', '\\putsol', '', '\\section*{Authors}',
    'Morphy, Paul \\dotfill\\ 1\\par', 'One, Another \\dotfill\\ 1\\par', '\\end{document}', ''].join('\n'));
  assert.match(latexOf('BeginProblem\nPieces White Kh1 Ga1 Nb1 Black Kh3 Gc1\nStipulation #1\nEndProblem\n', []), /\\piecedefs\{\{ws\}\{DU\}\{Grasshopper\}; \{w\}\{SU\}\{Nightrider\}\}/);
});
