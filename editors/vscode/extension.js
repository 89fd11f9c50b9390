"use strict";
// Folds each problem of a text, from BeginProblem or NextProblem to the line before the next of these words or EndProblem.

const BEGIN = /^\s*(?:beg|begi|begin|beginp|beginpr|beginpro|beginprob|beginprobl|beginproble|beginproblem|nex|next|nextp|nextpr|nextpro|nextprob|nextprobl|nextproble|nextproblem)(?!\S)/i;
const END = /^\s*(?:end|endp|endpr|endpro|endprob|endprobl|endproble|endproblem)(?!\S)/i;

/** Returns the first and last line of each problem, counted from 0. */
function problemRanges(lines) {
  const ranges = [];
  let first = null;
  for (let line = 0; line <= lines.length; line += 1) {
    const isEnd = line === lines.length || END.test(lines[line]);
    if (first !== null && (isEnd || BEGIN.test(lines[line]))) {
      if (line - 1 > first) ranges.push([first, line - 1]);
      first = null;
    }
    if (isEnd) break;
    if (BEGIN.test(lines[line])) first = line;
  }
  return ranges;
}

/** Registers the folds with VS Code. */
function activate(context) {
  const vscode = require("vscode");
  const provider = {
    provideFoldingRanges: (document) =>
      problemRanges(document.getText().split(/\r?\n/)).map(([first, last]) => new vscode.FoldingRange(first, last)),
  };
  context.subscriptions.push(vscode.languages.registerFoldingRangeProvider("pop", provider));
}

module.exports = { activate, problemRanges };
