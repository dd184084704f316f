// The compiled program next to the editor: its listing in the colours of the source lines, the machine's registers and
// memory, stepped with the run by the program's debugger.
'use strict';

const HUES = 6, FIRST_STATIC = 40, MOST_CELLS = 4096, FRAME_CELLS = 512, USED_CELLS = 128, MOST_FRAMES = 7, CELLS_AT_ONCE = 1000, MORE_ROWS = 20;
// The machine's steps are looked up for so many positions in one call, and a statement's cells without a bound.
const ALIGNED_AT_ONCE = 2000, FAR = 1000000000, MOST_STATES = 120, AHEAD = 16, MOST_ALIGNED_AHEAD = 200;
// The height of a row, as the style has it.
const listingRow = () => parseFloat(getComputedStyle(document.documentElement).getPropertyValue('--listing-row'));
// The points of a `construct`, and of a call on an element: the machine enters the statement at the first of them.
const POINTS = { construct: 3, element: 4 };

class ListingView {
  // `call` makes a call of the program, `onStep` hears to which position of the run a step of the machine belongs.
  constructor(root, editor, call, onStep) {
    Object.assign(this, { root, editor, call, onStep, at: 0, states: new Map(), steps: [], rows: new Elements(), spans: new Elements() });
    root.innerHTML = `<div class="subbar"><span class="keys">
      <button type="button" class="quiet" data-step="-1" aria-label="One instruction back" title="↑ in the listing">◂</button>
      <button type="button" class="quiet" data-step="1" aria-label="One instruction on" title="↓ in the listing">▸</button></span>
      <p class="caption"></p></div>
      <div class="machine-panes">
        <div class="scroll listing" tabindex="0" role="region" aria-label="Listing; the arrows up and down go by one instruction"><ol></ol></div>
        <div class="scroll side" tabindex="0" role="region" aria-label="Registers and memory">
          <h3>Registers</h3><dl class="registers"></dl><div class="cells"></div></div></div>`;
    [this.pane, this.list, this.told] = ['.listing', 'ol', '.caption'].map(it => root.querySelector(it));
    for (const button of root.querySelectorAll('[data-step]')) button.onclick = () => this.step(Number(button.dataset.step));
    this.pane.onkeydown = event => {
      const way = { ArrowDown: 1, ArrowUp: -1 }[event.key];
      if (!way || event.ctrlKey || event.altKey || event.metaKey) return;
      event.preventDefault();
      event.stopPropagation();
      this.step(way);
    };
    this.pane.onscroll = () => this.draw();
    new ResizeObserver(() => this.draw()).observe(this.pane);
    this.list.onpointerover = event => this.hover(event.target.closest('li'));
    this.list.onpointerleave = () => this.editor.hover(-1);
  }

  // Shows the image of a run; `limits` are the words of its heap and calls.
  async load(run, image, listing, limits) {
    Object.assign(this, { run, image, listing, limits, states: new Map(), steps: [], asked: 0, walked: 0, isAligned: true });
    Object.assign(this, { seen: new Map(), aligning: undefined, coming: undefined });
    [this.rows, this.spans] = [new Elements(), new Elements()];
    this.owner = new Array(listing.cells.length);
    const marks = [...listing.marks].sort((one, other) => (other.behind - other.first) - (one.behind - one.first));
    for (const mark of marks) this.owner.fill(mark, mark.first, mark.behind);
    this.byPlace = new Map(listing.marks.map(mark => [mark.place, mark]));
    const lines = [...new Set(marks.map(mark => run.source.lineAt(mark.place)))].sort((one, other) => one - other);
    this.hue = new Map(lines.map((line, at) => [line, at % HUES]));
    const answer = await this.debug(`cells 1 3\nstep ${FAR}\n`);
    this.bases = [...answer.text.matchAll(/^cell [123] = (\d+)$/gm)].map(it => Number(it[1]));
    this.total = statesOf(answer.text).at(-1)?.at ?? 0;
  }

  debug(script, isAhead) {
    return this.call(['debug', 'image', ...this.limits, 'script'], [['image', this.image], ['script', script]], isAhead);
  }

  // ---- the steps of the machine at the positions of the run

  // Whether the code of a statement is entered at a position, and not gone on with.
  isEntry(index) {
    const words = this.run.words(index);
    const many = words[0] === 'construct' ? POINTS.construct : /call$/.test(words[0]) && words[2] === '[' ? POINTS.element : 1;
    if (many === 1) return true;
    const key = `${this.run.callers[index]} ${this.run.places[index]}`, count = this.seen.get(key) ?? 0;
    this.seen.set(key, count + 1);
    return count % many === 0;
  }

  // Looks the steps up, a piece of the run at a time, up to a position.
  async align(index, isAhead) {
    while (this.asked <= Math.min(index, this.run.last)) {
      const piece = this.aligning ?? this.alignPiece(isAhead);
      this.aligning = piece;
      await piece.finally(() => { if (this.aligning === piece) this.aligning = undefined; });
    }
  }

  async alignPiece(isAhead) {
    const { run } = this, script = [`step ${this.walked}\n`], wanted = [], behind = Math.min(this.asked + ALIGNED_AT_ONCE, run.last + 1);
    for (let at = this.asked; at < behind; at++) {
      const mark = this.byPlace.get(run.places[at]);
      if (!mark || at === run.test || !this.isEntry(at)) continue;
      script.push(`to ${run.undone[at] ? mark.behind - 1 : mark.first} ${FAR}\n`);
      wanted.push(at);
    }
    const states = statesOf((await this.debug(script.join(''), isAhead)).text).slice(1);
    if (run !== this.run) return;
    wanted.forEach((position, at) => { if (states[at] && !states[at].said) this.steps[position] = states[at].at; });
    this.isAligned &&= wanted.every((_, at) => states[at] && !states[at].said);
    this.walked = this.steps.at(-1) ?? this.walked;
    for (let at = this.asked; at < behind; at++) this.steps[at] ??= at === run.last ? this.total : undefined;
    this.asked = behind;
  }

  // The step at a position: its own, or that of the next position that has one.
  stepAt(index) {
    for (let at = index; at < this.steps.length; at++) if (this.steps[at] !== undefined) return this.steps[at];
    return this.total;
  }

  // The position to which a step belongs.
  positionAt(step) {
    let found = 0;
    for (let at = 0; at < this.steps.length; at++) if (this.steps[at] !== undefined && this.steps[at] <= step) found = at;
    return found;
  }

  // ---- the machine's states

  // The areas of the memory after a step. Cells 1 to 3 hold the order of the heap and the bases of heap and stack. The
  // stack has a frame for each open call; where there are many, some after the first are left out.
  areas(step) {
    const [, heap, stack] = this.bases, first = Math.max(heap, stack - MOST_CELLS), at = this.positionAt(step), { depths } = this.run;
    const depth = Math.max(1, depths[at], depths[at + 1] ?? 0), shown = range(0, depth).filter(it => it === 0 || it > depth - MOST_FRAMES);
    const frames = shown.map(it => [it ? `Stack, call ${it + 1}` : 'Stack', stack + it * FRAME_CELLS, USED_CELLS]);
    return [['Static words', FIRST_STATIC, this.listing.statics], ['Heap', first, stack - first], ...frames];
  }

  look(step) {
    let script = 'regs\n';
    for (const [, first, length] of this.areas(step)) {
      for (let at = 0; at < length; at += CELLS_AT_ONCE) script += `cells ${first + at} ${Math.min(CELLS_AT_ONCE, length - at)}\n`;
    }
    return script;
  }

  // The states before a step and after it.
  async statesAt(at) {
    const before = Math.max(0, at - 1), has = () => this.states.has(at) && this.states.has(before);
    if (!has()) await this.coming;
    if (!has()) await this.askStates([before, at]);
    return [this.states.get(before), this.states.get(at) ?? this.states.get(this.total)];
  }

  // Asks for the states after steps. At the end the debugger says why it stopped, if asked for one step more.
  async askStates(steps, isAhead) {
    const { run } = this, wanted = [...new Set(steps)].filter(it => !this.states.has(it)).sort((one, other) => one - other);
    if (!wanted.length) return;
    const moves = wanted.map((step, at) => `step ${step - (wanted[at - 1] ?? 0)}\n${this.look(step)}`);
    const states = statesOf((await this.debug(`${moves.join('')}step 1\n`, isAhead)).text), next = states.pop();
    if (run !== this.run) return;
    for (const state of states) this.states.set(state.at, state);
    for (const at of [...this.states.keys()].slice(0, -MOST_STATES)) this.states.delete(at);
    if (next?.at === states.at(-1)?.at) this.states.get(next.at).said = next.said;
  }

  // Asks for states before the run comes there: those of the next positions that way, or of the next steps.
  ahead(steps) {
    const wanted = [...new Set(steps.filter(it => it >= 0 && it <= this.total).flatMap(it => [Math.max(0, it - 1), it]))];
    if (this.coming || wanted.slice(0, AHEAD).every(it => this.states.has(it))) return;
    // What fails here is asked for again when the run is there.
    this.coming = this.askStates(wanted, true).catch(() => undefined).finally(() => { this.coming = undefined; });
  }

  // Shows the machine where it enters the statement of a position; `way` is where the run goes on to.
  async go(index, way) {
    if (!this.bases) return;
    const { run } = this;
    await this.align(index);
    if (run === this.run) await this.show(this.stepAt(index));
    if (run !== this.run) return;
    if (index + MOST_ALIGNED_AHEAD > this.asked) this.align(index + MOST_ALIGNED_AHEAD, true).catch(() => undefined);
    this.ahead(Array.from({ length: AHEAD }, (_, at) => index + (at + 1) * way).filter(at => at >= 0 && at < this.asked).map(at => this.stepAt(at)));
  }

  async step(way) {
    if (!this.bases) return;
    await this.show(Math.max(0, Math.min(this.total, this.at + way)));
    while (this.asked <= this.run.last && this.steps.at(-1) <= this.at) await this.align(this.asked);
    this.ahead(Array.from({ length: AHEAD }, (_, at) => this.at + (at + 1) * way));
    this.onStep(this.positionAt(this.at));
  }

  async show(at) {
    const { run } = this;
    this.wanted = at;
    const [before, state] = await this.statesAt(at);
    if (!state || run !== this.run || at !== this.wanted) return;
    Object.assign(this, { at: state.at, now: state });
    this.reveal(state.place);
    this.draw();
    const count = number => number.toLocaleString('en'), cell = this.listing.cells[state.place] ?? '';
    this.told.textContent = [`step ${count(state.at)} of ${count(this.total)}`, `cell ${state.place}: ${cell}`,
      `${state.direction < 0 ? 'backward' : 'forward'}${state.branch ? `, branch ${state.branch}` : ''}`,
      ...(state.said ? [state.said] : []), ...(this.isAligned ? [] : ['not aligned with the run'])].join(' · ');
    this.showRegisters(before, state);
    this.showCells(before, state);
  }

  // ---- what is drawn

  reveal(place) {
    const row = listingRow(), top = place * row;
    this.list.style.height = `${this.listing.cells.length * row}px`;
    const { scrollTop, clientHeight } = this.pane;
    if (top < scrollTop + row || top > scrollTop + clientHeight - 3 * row) this.pane.scrollTop = Math.max(0, top - clientHeight / 3);
  }

  // Draws the rows that are in sight, with some before and after.
  draw() {
    if (!this.listing || !this.pane.clientHeight) return;
    const row = listingRow(), first = Math.max(0, Math.floor(this.pane.scrollTop / row) - MORE_ROWS);
    const behind = Math.min(this.listing.cells.length, Math.ceil((this.pane.scrollTop + this.pane.clientHeight) / row) + MORE_ROWS);
    const mark = this.now && this.owner[this.now.place];
    this.rows.begin();
    arrange(this.list, Array.from({ length: behind - first }, (_, at) => this.row(first + at, mark)));
    this.list.style.paddingTop = `${first * row}px`;
  }

  row(place, mark) {
    const [name, ...words] = this.listing.cells[place].split(' '), owner = this.owner[place];
    const isHere = place === this.now?.place, isOf = mark && place >= mark.first && place < mark.behind;
    const kinds = [owner && `hue-${this.hue.get(this.run.source.lineAt(owner.place))}`, isOf && 'of-statement', isHere && 'here',
      isHere && this.now.direction < 0 && 'undone'].filter(Boolean).join(' ');
    const number = () => made('span', { className: 'number', textContent: place });
    return this.rows.get(`${place} ${kinds}`, () =>
      made('li', { className: kinds, cell: place }, number(), made('b', { textContent: name }), ` ${words.join(' ')}`));
  }

  showRegisters(before, state) {
    const list = this.root.querySelector('.registers');
    list.replaceChildren(...[...state.registers].flatMap(([name, value]) =>
      [made('dt', { textContent: name }), made('dd', { textContent: value, className: before.registers.get(name) === value ? '' : 'changed' })]));
    if (!state.registers.size) list.append(made('dt', { textContent: 'all zero' }));
  }

  // Shows the cells by their areas; runs of zeros are one line. What stays as it is stays in its place.
  showCells(before, state) {
    const names = new Map(this.listing.cellNames), begins = new Map(this.areas(state.at).map(([name, first]) => [first, name])), shown = [], { spans } = this;
    let zeros = [];
    const close = () => {
      const [first] = zeros, count = zeros.length;
      const run = () => made('span', { className: 'run', textContent: `${count.toLocaleString('en')} cells of 0` });
      if (count > 7) shown.push(spans.get(`${first} run ${count}`, run));
      else shown.push(...zeros.map(number => spans.get(`${number} 0`, () => cellOf(number, '0', false))));
      zeros = [];
    };
    spans.begin();
    for (const [number, value] of state.cells) {
      const isChanged = (before.cells.get(number) ?? '0') !== value;
      if (begins.has(number)) {
        close();
        shown.push(spans.get(begins.get(number), () => made('h3', { textContent: begins.get(number) })));
      }
      if (value === '0' && !isChanged && !names.has(number)) {
        zeros.push(number);
        continue;
      }
      close();
      shown.push(spans.get(`${number} ${value} ${isChanged}`, () => cellOf(number, value, isChanged, names.get(number))));
    }
    close();
    arrange(this.root.querySelector('.cells'), shown);
  }

  // The colours of the source's lines in the editor, while this view is open.
  colour(isOn) { this.editor.colour(isOn ? this.hue : undefined); }

  hover(row) {
    const mark = row && this.owner[row.cell];
    this.editor.hover(mark ? this.run.source.lineAt(mark.place) : -1);
  }
}

function cellOf(number, value, isChanged, name) {
  const kinds = [name && 'named', isChanged && 'changed', value === '0' && 'zero'].filter(Boolean).join(' ');
  return made('span', { className: kinds }, made('small', { textContent: name ?? number }), value);
}
