// A session of a run: the live program holds the run of a source open, and answers requests line by line.
'use strict';

const AT = /^at (\d+) (?:place (\d+) depth (\d+)|end)(?: (.*))?$/;

// The replies of a printed text: for each its text, and the word of its last line.
function repliesOf(printed) {
  const replies = [];
  for (let at = 0, next; at < printed.length; at = next) {
    const last = printed.startsWith('. ', at) ? at : printed.indexOf('\n. ', at) + 1;
    next = printed.indexOf('\n', last) + 1 || printed.length;
    replies.push({ text: printed.slice(at, last), last: printed.slice(last + 2, next).trimEnd() });
  }
  return replies;
}

// What the last line of a text says of a position: its number, its place (-1 at the end), its depth, and what else.
function moveOf(text) {
  const line = text.trimEnd(), found = AT.exec(line.slice(line.lastIndexOf('\n') + 1));
  return found && { at: Number(found[1]), place: Number(found[2] ?? -1), depth: Number(found[3] ?? 0), note: found[4] ?? '' };
}

// The line that leads from one position to another.
const moveTo = (from, to) => (to < from ? `back ${from - to}` : `step ${to - from}`);

class LiveSession {
  // `send` gives a message to the caller's worker. A worker that ends takes its sessions with it: the next request
  // begins the session again, at position 0.
  constructor(caller, send, words, files) {
    Object.assign(this, { caller, send, words, files, at: 0, begun: 0, isEnded: false, last: Promise.resolve() });
  }

  get isHeld() { return this.begun === this.caller.begun && this.caller.worker !== undefined; }

  // Asks for lines, which `linesAt` gives for the position of the session. The answer has the replies to them; it has a
  // status if the session ended or did not begin. Requests wait for each other.
  ask(linesAt, isAhead) {
    const work = () => this.asked(linesAt, isAhead);
    this.last = this.last.then(work, work);
    return this.last;
  }

  async asked(linesAt, isAhead) {
    if (this.isEnded) throw new Stopped('ended');
    if (!this.isHeld) {
      this.number = ++LiveSession.count;
      const begun = await this.send({ session: this.number, words: this.words, files: this.files }, isAhead);
      if (begun.status !== undefined) return { ...begun, replies: [] };
      Object.assign(this, { begun: this.caller.begun, at: 0 });
    }
    const lines = linesAt(this.at).map(line => `${line}\n`).join(''), answer = await this.send({ session: this.number, lines }, isAhead);
    if (answer.status !== undefined) this.begun = 0;
    const replies = repliesOf(answer.text);
    this.at = replies.map(it => moveOf(it.text)).filter(Boolean).pop()?.at ?? this.at;
    return { ...answer, replies };
  }

  // Lets the worker forget the session, which may be beginning; nothing more can be asked.
  end() {
    const forget = () => { if (this.isHeld) this.caller.send({ session: this.number }).catch(() => undefined); };
    this.isEnded = true;
    this.last.then(forget, forget);
  }
}
LiveSession.count = 0;
