// Tries the parts of the host of the node package by themselves: node node_host.mjs PACKAGE FOLDER. It prints a line `ok WHAT` or
// `FAILED WHAT: ..` for each.
import assert from 'node:assert/strict';
import fs from 'node:fs';
import path from 'node:path';
import { pathToFileURL } from 'node:url';

const [home, folder] = process.argv.slice(2);
const host = await import(pathToFileURL(path.join(home, 'rooplpp.mjs')));

// Linux's flags as the module gives them, and what other systems call the same.
const CLOSE_ON_EXEC = 0x80000;
const TO_WRITE = CLOSE_ON_EXEC | 1 | 0x40 | 0x200;
const WINDOWS = { O_RDONLY: 0, O_WRONLY: 1, O_RDWR: 2, O_APPEND: 8, O_CREAT: 0x100, O_TRUNC: 0x200, O_EXCL: 0x400 };
const MACOS = { O_RDONLY: 0, O_WRONLY: 1, O_RDWR: 2, O_APPEND: 8, O_CREAT: 0x200, O_TRUNC: 0x400, O_EXCL: 0x800 };
const memory = new WebAssembly.Memory({ initial: 1 });
const AT = 4096;

function bytesAt(at, length) {
  return Buffer.from(memory.buffer, at, length);
}

// Puts bytes into the memory; the length that a call names.
function put(bytes) {
  Buffer.from(bytes).copy(bytesAt(AT, Buffer.from(bytes).length));
  return Buffer.from(bytes).length;
}

// Has `fs` answer otherwise while something runs.
function instead(name, answer, runs) {
  const kept = fs[name];
  fs[name] = answer;
  try {
    return runs();
  } finally {
    fs[name] = kept;
  }
}

function failing(code, errno, syscall = 'open') {
  return Object.assign(new Error(code), { code, errno, syscall });
}

const outside = host.imports(['rooplpp', 'go', '\u00e9'].map(word => Buffer.from(word)), () => memory);
const open = (name, flags) => outside.open(BigInt(AT), BigInt(put(name)), flags);

const TESTS = {
  'flags are those of the system': () => {
    assert.equal(host.flagsHere(CLOSE_ON_EXEC, WINDOWS), 0);
    assert.equal(host.flagsHere(TO_WRITE, WINDOWS), 0x301);
    assert.equal(host.flagsHere(TO_WRITE, MACOS), 0x601);
    assert.equal(host.flagsHere(CLOSE_ON_EXEC | 2 | 0x80 | 0x400, MACOS), 0x80a);
  },
  'errors have the numbers of Linux': () => {
    for (const [code, errno, wanted] of [['ENOENT', -4058, -2], ['ENOMEM', -4057, -12], ['EISDIR', -4068, -5], ['EPERM', -4048, -5], ['EBUSY', -16, -5]]) {
      assert.equal(host.errorNumber(failing(code, errno)), wanted);
    }
    assert.throws(() => host.errorNumber(new TypeError('a mistake of the host')), TypeError);
  },
  'names reach the system as they are': () => {
    for (const name of ['C:\\Users\\\u00e9\\a b.rpp', '\\\\server\\share\\x.rpp', 'D:x.rpp', 'folder/x.rpp', '..\\x.rpp']) {
      const given = [];
      instead('openSync', (...words) => given.push(words), () => open(name, 0));
      assert.equal(given[0][0].toString(), name);
    }
    const bytes = Buffer.from([0x61, 0xff, 0x62]), given = [];
    instead('openSync', (...words) => given.push(words), () => open(bytes, 0));
    assert.deepEqual(given[0][0], bytes);
  },
  'line ends stay': () => {
    const name = path.join(folder, 'ends'), text = 'a\r\nb\nc\r\0\x1a\r\n';
    const out = open(name, TO_WRITE);
    assert.equal(outside.write(out, BigInt(AT), BigInt(put(text))), BigInt(text.length));
    assert.equal(outside.close(out), 0);
    assert.equal(fs.readFileSync(name, 'latin1'), text);
    const file = open(name, 0);
    assert.equal(outside.read(file, BigInt(AT), 100n), BigInt(text.length));
    assert.equal(bytesAt(AT, text.length).toString('latin1'), text);
    assert.equal(outside.read(file, BigInt(AT), 100n), 0n);
    outside.close(file);
    assert.equal(outside.read(file, BigInt(AT), 1n), -5n);
  },
  'a file that is not there is missing, and one below a file is not': () => {
    assert.equal(open(path.join(folder, 'nothing'), 0), -2);
    fs.writeFileSync(path.join(folder, 'file'), '');
    assert.equal(open(path.join(folder, 'file', 'below'), 0), -5);
  },
  'words are given where there is space': () => {
    assert.equal(outside.word(2n, BigInt(AT), 10n), 2n);
    assert.equal(bytesAt(AT, 2).toString(), '\u00e9');
    assert.equal(outside.word(1n, BigInt(AT), 1n), -2n);
    assert.equal(outside.word(3n, BigInt(AT), 10n), -1n);
  },
  'words that are no text keep their bytes': () => {
    const file = path.join(folder, 'cmdline');
    fs.writeFileSync(file, Buffer.from('node\0rooplpp.mjs\0check\0a\xff\0', 'latin1'));
    assert.deepEqual(host.wordsGiven(['check', 'a\ufffd'], file), [Buffer.from('check'), Buffer.from([0x61, 0xff])]);
    assert.deepEqual(host.wordsGiven(['check', 'a\ufffd'], path.join(folder, 'nothing')), [Buffer.from('check'), Buffer.from('a\ufffd')]);
    assert.deepEqual(host.wordsGiven(['check', '\u00e9'], file), [Buffer.from('check'), Buffer.from('\u00e9')]);
  },
  'a full pipe is waited for': () => {
    let calls = 0;
    const full = () => {
      calls += 1;
      if (calls < 3) throw failing('EAGAIN', -11, 'write');
      return 4;
    };
    assert.equal(instead('writeSync', full, () => outside.write(1, BigInt(AT), 4n)), 4n);
    assert.equal(calls, 3);
    const closed = () => {
      throw failing('EPIPE', -32, 'write');
    };
    assert.equal(instead('writeSync', closed, () => outside.write(1, BigInt(AT), 4n)), -5n);
  },
  'an empty pipe or terminal is waited for': () => {
    const answers = [failing('EAGAIN', -11, 'read'), failing('EAGAIN', -11, 'read'), 3];
    const reads = () => {
      const answer = answers.shift();
      if (typeof answer !== 'number') throw answer;
      return answer;
    };
    assert.equal(instead('readSync', reads, () => outside.read(0, BigInt(AT), 4n)), 3n);
    assert.equal(answers.length, 0);
  },
  'the end of a pipe is an end on Windows too': () => {
    const ended = () => {
      throw failing('EOF', -4095, 'read');
    };
    assert.equal(instead('readSync', ended, () => outside.read(0, BigInt(AT), 4n)), 0n);
  },
};

for (const [name, test] of Object.entries(TESTS)) {
  try {
    test();
    console.log(`ok ${name}`);
  } catch (error) {
    console.log(`FAILED ${name}: ${error.message.replaceAll('\n', ' ')}`);
  }
}
