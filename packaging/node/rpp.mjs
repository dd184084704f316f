#!/usr/bin/env node
// Starts the companion rpp, which is written in Python. It calls the programs next to this file, or those that the environment
// variables ROOPLPP_PROGRAM and ROOPLPP_LIVE name.
import { spawn, spawnSync } from 'node:child_process';
import path from 'node:path';
import { fileURLToPath } from 'node:url';

const HERE = path.dirname(fileURLToPath(import.meta.url));
const PYTHONS = [['python3'], ['python'], ['py', '-3']];
const IS_NEW_ENOUGH = 'import sys; sys.exit(sys.version_info < (3, 8))';
const NO_PYTHON = 126;

function foundPython() {
  return PYTHONS.find(([name, ...words]) => spawnSync(name, [...words, '-c', IS_NEW_ENOUGH], { stdio: 'ignore' }).status === 0);
}

const python = foundPython();
if (!python) {
  console.error('rpp: it needs Python 3.8 or later, and there is no python3, python or py on the path');
  process.exit(NO_PYTHON);
}
const programs = {
  ROOPLPP_PROGRAM: process.env.ROOPLPP_PROGRAM || path.join(HERE, 'rooplpp.mjs'),
  ROOPLPP_LIVE: process.env.ROOPLPP_LIVE || path.join(HERE, 'rooplpp-live.mjs'),
};
const folders = [path.dirname(process.execPath), process.env.PATH ?? ''].join(path.delimiter);
const words = [...python.slice(1), path.join(HERE, 'companion', 'rpp.py'), ...process.argv.slice(2)];
const companion = spawn(python[0], words, { stdio: 'inherit', env: { ...process.env, ...programs, PATH: folders } });
// The companion itself answers a ^C at the terminal.
process.on('SIGINT', () => {});
for (const signal of ['SIGTERM', 'SIGHUP']) process.on(signal, () => companion.kill(signal));
companion.on('exit', (status, signal) => process.exit(signal ? 1 : status));
