// Evaluates scripts over the page's modules, except those that show the page. Standard input: a list of scripts, each with its value of
// `given`. Standard output: the list of their values.
import { readFileSync } from 'node:fs';
import { evaluated, importAll, makeDocument, modulePaths } from './page_imports.mjs';

makeDocument();
const names = await importAll(modulePaths().filter(path => path !== 'page.js'));
const asked = JSON.parse(readFileSync(0, 'utf8'));
console.log(JSON.stringify(asked.map(([script, given]) => evaluated(script, { ...names, given }))));
