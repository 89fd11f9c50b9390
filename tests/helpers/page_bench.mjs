// Uses the page in Node, with a stand-in for a browser's document: what the page does with gestures,
// pasted texts and reports. Standard input: more parts of the page, and cases, each a text, a report of it
// and steps, which are scripts. Standard output: for each case the values of its steps.
import { readFileSync } from 'node:fs';
import { drag, fill, paste, send } from './page_document.mjs';
import { evaluated, importAll, modulePaths, sharedParts } from './page_imports.mjs';

const given = JSON.parse(readFileSync(0, 'utf8'));
fill({ ...sharedParts(), ...given.parts });
const modules = await importAll(modulePaths());
send('DOMContentLoaded', {});
const report = text => {
  modules.beginReport(modules.textNow());
  modules.state.addReport(text);
  modules.drawReport();
};
// (after the page has begun: some names get their values then)
const names = { ...modules, ...await importAll(['page/views.js']), report, paste, drag };

console.log(JSON.stringify(given.cases.map(({ text, report: known, steps }) => {
  names.setText(text);
  names.state.choose(1);
  names.state.follow();
  if (known) report(known);
  return steps.map(script => evaluated(script, names));
})));
process.exit(0);
