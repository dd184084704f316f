// A session of the live program, which is held open between requests. Where the program waits for a line, it is
// suspended (suspend.py made it such): its calls are kept in its own memory, and go on when a line is there.
'use strict';

// The calls are kept at the far end of the program's stack, which it does not use while it waits: first where they end,
// then where their place ends, then the calls.
const CALLS = 16, CALLS_HEAD = 8, CALLS_END = 65536;
const SUSPENDING = 1, RESUMING = 2;

class Session {
  constructor(module, words, given) {
    Object.assign(this, { module, files: new Files(given), lines: new Uint8Array(), status: undefined });
    const page = imports(words, this.files, () => this.exports.memory);
    this.page = { ...page, read: (number, at, length) => (number === 0 ? this.read(at, length) : page.read(number, at, length)) };
  }

  // Begins the session; what is printed ends with the line that says that it waits.
  async begin() {
    this.exports = (await WebAssembly.instantiate(this.module, { page: this.page })).exports;
    return this.goOn();
  }

  // Gives lines to the program, and what it prints until it waits for the next.
  ask(lines) {
    this.lines = new TextEncoder().encode(lines);
    if (this.status === undefined) this.exports.asyncify_start_rewind(CALLS);
    return this.goOn();
  }

  async goOn() {
    const { exports, files } = this;
    try {
      if (this.status === undefined) this.status = await onOwnStack(exports.program_main);
      if (exports.asyncify_get_state() === SUSPENDING) {
        exports.asyncify_stop_unwind();
        this.status = undefined;
      }
    } catch (error) {
      Object.assign(this, { status: STOPPED, stopped: String(error) });
    }
    return { status: this.status, stopped: this.stopped, printed: joined(files.printed.splice(0)) };
  }

  // The program reads what it was given. If nothing is left of that, it is suspended.
  read(at, length) {
    const { exports, lines } = this;
    if (exports.asyncify_get_state() === RESUMING) exports.asyncify_stop_rewind();
    if (!lines.length) {
      new Uint32Array(exports.memory.buffer, CALLS, 2).set([CALLS + CALLS_HEAD, CALLS_END]);
      exports.asyncify_start_unwind(CALLS);
      return 0n;
    }
    const piece = lines.subarray(0, Number(length));
    new Uint8Array(exports.memory.buffer, Number(at), piece.length).set(piece);
    this.lines = lines.subarray(piece.length);
    return BigInt(piece.length);
  }
}
