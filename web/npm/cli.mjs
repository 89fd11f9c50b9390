#!/usr/bin/env node
// Solves a file or standard input, with the flags, the report and the exit statuses of the program pops.
import { closeSync, openSync, readFileSync } from 'node:fs';
import { solve } from './node.mjs';

const USAGE = 'pops: usage: pops [--check] [--no-board] [FILE]';
const USAGE_STATUS = 2;
const DEVICE_STATUS = 3;
// What the engine's statuses mean that are no report's.
const ENDS = { 3: 'the report is cut: the engine has room for 4 MiB of a problem, or of a part of it', 4: 'out of memory' };
// The report of a folder, which can be opened and not read.
const UNREADABLE = 'problem 1\nline 1: fault 21: input device failed\n\n';

/** Ends the program with a line on standard error. */
function end(status, said) {
  process.stderr.write(`${said}\n`);
  process.exit(status);
}

/** Reads the command line: the flags, at most one FILE, and after `--` a FILE that may begin with a hyphen. */
function settingsOf(words) {
  const settings = { check: false, noBoard: false, file: null };
  let areOptions = true;
  for (const word of words) {
    const flag = { '--check': 'check', '--no-board': 'noBoard' }[word];
    if (areOptions && word === '--') areOptions = false;
    else if (areOptions && flag && !settings[flag]) settings[flag] = true;
    else if ((areOptions && word.startsWith('-') && word !== '-') || settings.file !== null) return null;
    else settings.file = word;
  }
  return settings;
}

function opened(file) {
  try {
    return openSync(file);
  } catch {
    return end(DEVICE_STATUS, 'pops: cannot open the input file');
  }
}

/** Resolves to the input; null for a folder. */
async function read(file) {
  if (file === null) {
    const parts = [];
    for await (const part of process.stdin) parts.push(part);
    return Buffer.concat(parts);
  }
  const number = opened(file);
  try {
    return readFileSync(number);
  } catch (fault) {
    if (fault.code === 'EISDIR') return null;
    throw fault;
  } finally {
    closeSync(number);
  }
}

/** Resolves once standard output has taken these bytes. */
const write = bytes => new Promise(written => { process.stdout.write(bytes, written); });

/** Writes the report of the input. Resolves to the exit status. */
async function report({ file, check, noBoard }) {
  const text = await read(file);
  if (text === null) {
    await write(UNREADABLE);
    return DEVICE_STATUS;
  }
  const { status } = await solve(text, { check, noBoard, onText: bytes => process.stdout.write(bytes) });
  await write('');
  if (ENDS[status]) process.stderr.write(`pops: ${ENDS[status]}\n`);
  return status;
}

const settings = settingsOf(process.argv.slice(2)) ?? end(USAGE_STATUS, USAGE);
process.stdout.on('error', () => end(DEVICE_STATUS, 'pops: output failed'));
try {
  process.exitCode = await report(settings);
} catch (fault) {
  end(DEVICE_STATUS, `pops: ${fault.message}`);
}
