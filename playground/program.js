// One call of the program, as a process would make it: an instance of its own, words, files by their names, and then
// the status, what was printed, and the files as they are left.
'use strict';

const NO_FILE = -2, BAD_FILE = -9, NO_WORD = -1n, NO_ROOM = -2n;
const WRITES = 3;
// An engine that runs out of stack throws; natively the program is then stopped by a signal, and prints nothing.
const STOPPED = 134;

// The bytes of the parts, one after the other.
function joined(parts) {
  const all = new Uint8Array(parts.reduce((length, part) => length + part.length, 0));
  let at = 0;
  for (const part of parts) {
    all.set(part, at);
    at += part.length;
  }
  return all;
}

// The files that a call reads and writes. Files 0 to 2 are open from the start: the first is empty, the others print.
class Files {
  constructor(given) {
    this.kept = new Map(given);
    this.printed = [];
    this.open = new Map([[0, { bytes: new Uint8Array(), at: 0 }], [1, { parts: this.printed }], [2, { parts: this.printed }]]);
    this.next = 3;
  }

  opened(name, flags) {
    const writes = (flags & WRITES) !== 0;
    if (!writes && !this.kept.has(name)) return NO_FILE;
    this.open.set(this.next, writes ? { name, parts: [] } : { bytes: this.kept.get(name), at: 0 });
    return this.next++;
  }

  // The next bytes of a file, or nothing where it cannot be read.
  read(number, length) {
    const file = this.open.get(number);
    if (!file?.bytes) return undefined;
    const piece = file.bytes.subarray(file.at, file.at + length);
    file.at += piece.length;
    return piece;
  }

  write(number, bytes) {
    const parts = this.open.get(number)?.parts;
    parts?.push(bytes);
    return parts !== undefined;
  }

  closed(number) {
    const file = this.open.get(number);
    if (file?.name !== undefined) this.kept.set(file.name, joined(file.parts));
    this.open.delete(number);
    return 0;
  }
}

// What the module imports: the functions that library.c calls. `memory` gives the instance's memory once there is one.
function imports(words, files, memory) {
  const encoder = new TextEncoder(), decoder = new TextDecoder();
  const bytes = (at, length) => new Uint8Array(memory().buffer, Number(at), Number(length));
  return {
    word(number, at, room) {
      if (number > BigInt(words.length)) return NO_WORD;
      const word = encoder.encode(number === 0n ? 'rooplpp' : words[Number(number) - 1]);
      if (BigInt(word.length) > room) return NO_ROOM;
      bytes(at, word.length).set(word);
      return BigInt(word.length);
    },
    open: (at, length, flags) => files.opened(decoder.decode(bytes(at, length).slice()), flags),
    read(number, at, length) {
      const piece = files.read(number, Number(length));
      if (!piece) return BigInt(BAD_FILE);
      bytes(at, piece.length).set(piece);
      return BigInt(piece.length);
    },
    write: (number, at, length) => (files.write(number, bytes(at, length).slice()) ? length : BigInt(BAD_FILE)),
    close: number => files.closed(number),
  };
}

// Calls a function of a module. Where the engine can, it runs on a stack of its own, which is larger than the rest of a
// worker's.
function onOwnStack(main) { return WebAssembly.promising ? WebAssembly.promising(main)() : main(); }

async function callProgram(module, words, given) {
  const files = new Files(given);
  const page = imports(words, files, () => instance.exports.memory);
  const instance = await WebAssembly.instantiate(module, { page });
  const begin = performance.now();
  let status, stopped;
  try {
    status = await onOwnStack(instance.exports.program_main);
  } catch (error) {
    status = STOPPED;
    stopped = String(error);
    files.printed.length = 0;
  }
  return { status, stopped, printed: joined(files.printed), files: [...files.kept], milliseconds: performance.now() - begin };
}
