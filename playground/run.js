// The positions of a run: for each its statement, how many calls are open and which one called. Those near the position
// that is shown have the variables and objects, as the session prints them.
'use strict';

// A run is walked along over so many positions at first, and on when a position comes so near to the last known one.
const MOST_POSITIONS = 92000, NEAR_THE_LAST = 9200, NO_MEMORY = 7;
// So many positions are asked for round one, names by the thousand. So many characters are kept of what was printed.
const WINDOW = 24, NAMES_AT_ONCE = 1000, MOST_KEPT = 20000000;

const range = (first, count) => Array.from({ length: count }, (_, at) => first + at);

class Run {
  // `session` holds the run of the text open.
  constructor(text, session) {
    Object.assign(this, { text, session, source: new Source(text), places: [], depths: [], callers: [], undone: [] });
    Object.assign(this, { isWhole: false, names: 1, looks: new Map(), older: new Map(), kept: 0 });
  }

  get last() { return this.places.length - 1; }

  // Walks along the run to its end, or over so many positions. Gives the answer if the program refuses, else nothing.
  async walk(most = MOST_POSITIONS) {
    const first = Math.max(0, this.last), answer = await this.session.ask(at => [moveTo(at, first), `points ${most - first}`, 'fault']);
    if (answer.status !== undefined) return answer;
    const [begin, points, fault] = answer.replies;
    if (points.last === 'memory') return { ...answer, status: NO_MEMORY };
    for (const move of `${begin.text}${points.text}`.split('\n').map(moveOf)) {
      if (move?.at === this.places.length) this.add(move.place, move.depth);
    }
    this.isWhole = points.last !== 'done' || this.places[this.last] < 0;
    if (points.last === 'fault') this.failing = { ...failingOf(fault.text), printed: fault.text };
    return undefined;
  }

  // Adds the next position. A name is given to each object that is made, and never again.
  add(place, depth) {
    let caller = this.last;
    while (caller >= 0 && this.depths[caller] >= depth) caller = this.callers[caller];
    const isUndone = caller >= 0 && this.undone[caller] !== (this.words(caller)[0] === 'uncall'), isAgain = place === this.places[this.last];
    this.places.push(place);
    this.depths.push(depth);
    this.callers.push(caller);
    this.undone.push(isUndone);
    const [word] = this.words(this.last);
    this.names += word === 'construct' ? isAgain : word === (isUndone ? 'delete' : 'new');
  }

  // The words of the statement at a position.
  words(index) { return this.source.statement(this.places[index])?.words ?? []; }

  // The line, from 0, of a position; -1 at the end.
  lineAt(index) { return this.places[index] < 0 ? -1 : this.source.lineAt(this.places[index]); }

  // ---- variables and objects

  // What was printed of a position: the variables as fields, a line for each call, and the objects. Nothing if it was
  // not asked for.
  look(index) {
    const look = this.looks.get(index) ?? this.older.get(index);
    return look && (look.report ??= reportOf(look.printed));
  }

  objects(index) { return [...(this.look(index)?.objects.values() ?? [])]; }

  object(index, name) { return this.look(index)?.objects.get(name); }

  value(index, name) { return this.look(index)?.fields.filter(([own]) => own === name).pop()?.[1]; }

  // The lines that show the objects.
  get cellLines() { return range(0, Math.ceil(this.names / NAMES_AT_ONCE)).map(at => `cells ${1 + at * NAMES_AT_ONCE} ${NAMES_AT_ONCE}`); }

  // Asks for the positions that are not known. If too much is kept, the older half of it is let go.
  async ask(indices, isAhead) {
    if (this.kept > MOST_KEPT) Object.assign(this, { older: this.looks, looks: new Map([...this.looks].filter(([it]) => it === this.test)), kept: 0 });
    const isWanted = it => it >= 0 && it <= this.last && !this.looks.has(it);
    const wanted = [...new Set(indices)].filter(isWanted).sort((one, other) => one - other);
    if (!wanted.length) return;
    const shows = ['regs', 'stack', ...this.cellLines], linesAt = at => wanted.flatMap((it, next) => [moveTo(wanted[next - 1] ?? at, it), ...shows]);
    const { replies } = await this.session.ask(linesAt, isAhead);
    for (const index of wanted) {
      const [move, ...looks] = replies.splice(0, 1 + shows.length), printed = looks.map(it => it.text).join('');
      if (move) this.looks.set(index, { printed });
      this.kept += printed.length;
    }
  }

  // The positions that show one: itself, the one before it, and the ends.
  needed(index) { return [0, index - 1, index, this.last]; }

  has(index) { return this.needed(index).every(it => it < 0 || this.looks.has(it) || this.older.has(it)); }

  // Loads the positions round one, if what was asked for ahead does not have them.
  async load(index, isAhead) {
    if (!isAhead) await this.coming;
    if (!this.has(index)) await this.ask(range(index - WINDOW / 2, WINDOW).flatMap(it => this.needed(it)), isAhead);
  }

  // Asks for positions before the run comes there. What fails here is asked for again when the run is there.
  ahead(index, way) {
    const next = Math.max(0, Math.min(this.last, index + way * WINDOW / 3));
    this.coming ??= this.load(next, true).catch(() => undefined).finally(() => { this.coming = undefined; });
  }

  // ---- calls

  // The object of the innermost call at a position, or of that with so many calls, if it is known. A test that failed
  // has the calls of the position before it.
  self(index, depth = this.depths[index]) {
    const calls = this.look(index - (index === this.test))?.rest ?? [];
    return /#\d+/.exec(calls[Math.max(1, depth) - 1])?.[0];
  }

  // Parameters and locals: the variables after the fields of the current object.
  locals(index) { return this.look(index)?.fields.slice(this.object(index, this.self(index))?.cells.length ?? 0) ?? []; }

  // The positions of the open calls, the innermost first.
  chain(index) {
    const chain = [];
    for (let at = this.callers[index]; at >= 0; at = this.callers[at]) chain.push(at);
    return chain;
  }

  // The open calls, the outermost first, each with the position of its statement. Where there are many, some in the
  // middle are left out, and one item has their number.
  calls(index, most = Infinity) {
    if (this.places[index] < 0) return [];
    const all = [index, ...this.chain(index)].reverse(), left = all.length - most + 1;
    const call = at => ({ at, self: this.self(index, this.depths[at]), method: this.source.method(this.places[at]), isUndone: this.undone[at] });
    return left > 1 ? [call(all[0]), { left }, ...all.slice(1 + left).map(call)] : all.map(call);
  }

  // The next position that way at which no more calls are open.
  over(index, way) {
    let next = index + way;
    while (this.depths[next] > this.depths[index]) next += way;
    return next;
  }
}
