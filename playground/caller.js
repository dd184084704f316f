// The page's side of the calls: a worker that can be stopped at any moment, and what its answers are.
'use strict';

class Stopped extends Error {}

// Calls the program in a worker, which holds sessions too. Calls wait for each other; `stop` ends the one that runs,
// those that wait, and all sessions.
class Caller {
  // `modules` has those of the program and of the live program.
  constructor(modules, source) {
    this.modules = modules;
    this.source = URL.createObjectURL(new Blob([source], { type: 'text/javascript' }));
    this.waiting = new Map();
    this.number = this.begun = 0;
    this.start();
  }

  start() {
    this.begun++;
    this.worker = new Worker(this.source);
    const { worker } = this;
    worker.onmessage = ({ data }) => {
      this.waiting.get(data.number)?.done(data);
      this.waiting.delete(data.number);
    };
    worker.onerror = event => this.died(worker, event.message || 'the worker of this page has ended');
    worker.onmessageerror = () => this.died(worker, 'an answer could not be read');
    worker.postMessage({ modules: this.modules });
  }

  // The calls of a worker that dies fail; the next call begins another one.
  died(worker, why) {
    if (worker !== this.worker) return;
    worker.terminate();
    this.worker = undefined;
    this.end(new Error(why));
  }

  // Makes a call; `files` is a list of names with bytes or texts.
  call(words, files) { return this.send({ words, files }); }

  // Sends a message to the worker: a call, or what a session is to do.
  send({ words, files = [], ...more }) {
    if (!this.worker) this.start();
    const number = ++this.number, encoder = new TextEncoder();
    const bytes = files.map(([name, it]) => [name, typeof it === 'string' ? encoder.encode(it) : it]);
    this.worker.postMessage({ number, words: words?.map(String), files: bytes, ...more });
    return new Promise((done, failed) => this.waiting.set(number, { done, failed })).then(told);
  }

  stop() {
    this.worker?.terminate();
    this.worker = undefined;
    this.end(new Stopped('stopped'));
  }

  end(error) {
    const waiting = [...this.waiting.values()];
    this.waiting.clear();
    for (const { failed } of waiting) failed(error);
  }
}

// An answer with its printed text next to its bytes, and its files by their names.
function told(answer) {
  return { ...answer, text: new TextDecoder().decode(answer.printed), files: new Map(answer.files) };
}
