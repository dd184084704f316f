#!/usr/bin/env node
// Runs the program rooplpp, the WebAssembly module rooplpp.wasm next to this file. This file gives it arguments, files, standard input,
// standard output and the exit status. Bytes pass as they are, so line ends do not change. rooplpp-live.mjs runs another program so.
import fs from 'node:fs';
import { fileURLToPath } from 'node:url';
import { isMainThread, Worker, workerData } from 'node:worker_threads';

const HERE = fileURLToPath(import.meta.url);
// The program runs on a thread of its own, which may have a larger stack than the first thread has on some systems.
const STACK_MEGABYTES = 32;
// The status of a call that the engine had to end, for example because the stack is full. The program itself never has it.
const ABORTED = 134;

// The module uses the numbers of Linux on every system. It distinguishes these errors, and no others.
const FLAGS = { write: 1, readAndWrite: 2, create: 0x40, exclusive: 0x80, truncate: 0x200, append: 0x400 };
const ERRORS = { ENOENT: 2, EINTR: 4, ENOMEM: 12 };
const OTHER_ERROR = 5;
const NO_WORD = -1n, NO_ROOM = -2n;
const MODE = 0o666;
const MILLISECONDS_TO_RETRY = 5;

// The flags of an `open` of Linux, as those of this system.
export function flagsHere(flags, constants = fs.constants) {
  const { O_RDONLY, O_WRONLY, O_RDWR, O_CREAT, O_EXCL, O_TRUNC, O_APPEND } = constants;
  const way = flags & FLAGS.readAndWrite ? O_RDWR : flags & FLAGS.write ? O_WRONLY : O_RDONLY;
  const more = [[FLAGS.create, O_CREAT], [FLAGS.exclusive, O_EXCL], [FLAGS.truncate, O_TRUNC], [FLAGS.append, O_APPEND]];
  return more.reduce((all, [flag, here]) => (flags & flag ? all | here : all), way);
}

// The answer to a call that failed: the negative number of the error on Linux. Other exceptions are mistakes of this file.
export function errorNumber(error) {
  if (typeof error.code !== 'string' || error.syscall === undefined) throw error;
  return -(ERRORS[error.code] ?? OTHER_ERROR);
}

function answerOf(call) {
  try {
    return call();
  } catch (error) {
    return errorNumber(error);
  }
}

// Calls again while a pipe or a terminal that does not block is full, or has nothing yet.
function answerInTime(call) {
  for (;;) {
    try {
      return call();
    } catch (error) {
      if (error.code !== 'EAGAIN') throw error;
      Atomics.wait(new Int32Array(new SharedArrayBuffer(4)), 0, 0, MILLISECONDS_TO_RETRY);
    }
  }
}

export function written(file, bytes) {
  return answerInTime(() => fs.writeSync(file, bytes));
}

// Windows says of the end of a pipe that it is an error.
export function readInto(file, bytes) {
  try {
    return answerInTime(() => fs.readSync(file, bytes));
  } catch (error) {
    if (error.code === 'EOF') return 0;
    throw error;
  }
}

// The functions that the module imports. `words` are the bytes of the arguments, its own name first; `memory()` is its memory.
export function imports(words, memory) {
  const bytes = (at, length) => Buffer.from(memory().buffer, Number(at), Number(length));
  return {
    word(number, at, room) {
      const word = words[Number(number)];
      if (word === undefined) return NO_WORD;
      if (BigInt(word.length) > room) return NO_ROOM;
      word.copy(bytes(at, word.length));
      return BigInt(word.length);
    },
    // A name stays as its bytes are: `C:\folder\file` and `folder/file` reach the system as they were written.
    open: (at, length, flags) => answerOf(() => fs.openSync(Buffer.from(bytes(at, length)), flagsHere(flags), MODE)),
    read: (file, at, length) => BigInt(answerOf(() => readInto(file, bytes(at, length)))),
    write: (file, at, length) => BigInt(answerOf(() => written(file, bytes(at, length)))),
    close: file => answerOf(() => (fs.closeSync(file), 0)),
  };
}

// The bytes of the arguments. Node has them as text; if they are not UTF-8, Linux still has their bytes.
export function wordsGiven(given = process.argv.slice(2), file = '/proc/self/cmdline') {
  const words = given.map(word => Buffer.from(word));
  if (!given.some(word => word.includes('\ufffd')) || !fs.existsSync(file)) return words;
  const all = fs.readFileSync(file, 'latin1').split('\0').slice(0, -1);
  return all.slice(all.length - given.length).map(word => Buffer.from(word, 'latin1'));
}

// Runs a program in this thread; its status.
export function run(words, program = 'rooplpp') {
  const file = fileURLToPath(new URL(`${program}.wasm`, import.meta.url));
  const instance = new WebAssembly.Instance(new WebAssembly.Module(fs.readFileSync(file)), {
    page: imports([Buffer.from(program), ...words], () => instance.exports.memory),
  });
  return instance.exports.program_main();
}

function runHere({ program, words }) {
  try {
    process.exit(run(words.map(word => Buffer.from(word)), program));
  } catch (error) {
    if (!(error instanceof RangeError || error instanceof WebAssembly.RuntimeError)) throw error;
    written(2, Buffer.from(`${program}: the engine ended the call: ${error.message}\n`));
    process.exit(ABORTED);
  }
}

// Runs a program with the arguments of this process, which ends with its status.
export function start(program) {
  const limits = { stackSizeMb: STACK_MEGABYTES };
  const worker = new Worker(HERE, { workerData: { program, words: wordsGiven() }, resourceLimits: limits });
  worker.on('exit', status => process.exit(status));
  worker.on('error', error => {
    written(2, Buffer.from(`${program}: ${error.message}\n`));
    process.exit(ABORTED);
  });
}

if (!isMainThread && workerData?.words) runHere(workerData);
else if (process.argv[1] && fs.realpathSync(process.argv[1]) === fs.realpathSync(HERE)) start('rooplpp');
