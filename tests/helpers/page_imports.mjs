// Imports the page's modules in Node. Before, a stand-in for the browser's document gives them the texts that the page contains.
import { execFileSync } from 'node:child_process';
import { readdirSync, readFileSync } from 'node:fs';
import { fileURLToPath } from 'node:url';

const WEB = new URL('../../web/', import.meta.url);
const COMPANIONS = new URL('../../companions/', import.meta.url);
const textOf = (path, base) => readFileSync(new URL(path, base), 'utf8');
let parts = null;

/** Returns the parts of the page that hold tables and shapes, by their names. */
export function sharedParts() {
  if (parts) return parts;
  const words = ['-B', '-m', 'pops_companions.show.shared'];
  const { shapes, letters } = JSON.parse(execFileSync('python3', words, { cwd: fileURLToPath(COMPANIONS), encoding: 'utf8' }));
  parts = { words: textOf('words.json', WEB),
    reasons: textOf('pops_companions/import_/reasons.json', COMPANIONS), letters: JSON.stringify(letters), 'men-shapes': shapes };
  return parts;
}

/** Makes a document that has only these parts. */
export function makeDocument() {
  globalThis.document ??= { getElementById: name => (name in sharedParts() ? { textContent: sharedParts()[name] } : null) };
}

/** Returns the paths of the page's modules: not the worker, which is a script of its own, and not those of the package of npm. */
export function modulePaths(below = '') {
  const entries = readdirSync(new URL(below, WEB), { withFileTypes: true }).filter(it => it.name !== 'npm');
  return entries.flatMap(it => (it.isDirectory() ? modulePaths(`${below}${it.name}/`)
    : it.name.endsWith('.js') && it.name !== 'worker.js' ? [below + it.name] : []));
}

/** Imports modules, and returns all that they export. */
export async function importAll(paths) {
  const modules = await Promise.all(paths.map(path => import(new URL(path, WEB))));
  return Object.assign({}, ...modules);
}

/** Evaluates a script that uses these names; a fault is returned as { thrown }. */
export function evaluated(script, names) {
  try {
    return new Function(...Object.keys(names), `return (${script});`)(...Object.values(names)) ?? null;
  } catch (fault) {
    return { thrown: String(fault) };
  }
}
