// Moves along the run as a video player does: keys, the timeline with the depth of calls, and what is read out.
'use strict';

const SHIFTED = { 'step-on': 'over-on', 'step-back': 'over-back' }, MOST_MARKS = 300, SPEAK_MILLISECONDS = 250;
const TIMELINE_BARS = 600;

class Transport {
  // `bench` shows positions; `breakLines` gives the lines with breakpoints.
  constructor(bench) {
    Object.assign(this, { bench, at: 0, way: 0 });
    this.range = made('input', { type: 'range', min: 0, max: 0, value: 0 });
    this.range.setAttribute('aria-label', 'Position in the run');
    this.range.oninput = () => { this.pause(); this.bench.go(Number(this.range.value)); };
    $('timeline').append(this.range);
    for (const button of all('[data-go]')) button.onclick = event => this.press(button.dataset.go, event.shiftKey);
    $('speed').onchange = () => { if (this.way) this.play(this.way, true); };
    this.showEnds();
  }

  get run() { return this.bench.run; }

  press(name, isShifted) {
    if (!this.run) return;
    const move = isShifted ? SHIFTED[name] ?? name : name, { at, run } = this;
    if (move === 'on' || move === 'back') {
      this.play(move === 'on' ? 1 : -1);
      return;
    }
    this.pause();
    const moves = { start: () => 0, end: () => run.last, 'step-on': () => at + 1, 'step-back': () => at - 1,
      'over-on': () => run.over(at, 1), 'over-back': () => run.over(at, -1) };
    this.bench.go(moves[move]());
  }

  isEnd(way, at = this.at) { return !this.run || (way > 0 ? at >= this.run.last : at <= 0); }

  isBreak(index) { return this.breakLines.has(this.run.lineAt(index)); }

  // Plays that way up to the end or a breakpoint; the same again pauses.
  play(way, isSure) {
    if (!this.run) return;
    if (this.way === way && !isSure) {
      this.pause(true);
      return;
    }
    this.pause();
    if (this.isEnd(way)) return;
    this.way = way;
    this.breakLines = this.bench.editor.breakLines;
    this.showEnds();
    this.begun = { time: performance.now(), done: 0, speed: Number($('speed').value) };
    this.ticking = requestAnimationFrame(() => this.tick(way));
  }

  async tick(way) {
    if (this.way !== way) return;
    const { begun, run } = this;
    let moves = Math.floor((performance.now() - begun.time) / 1000 * begun.speed) - begun.done, at = this.at;
    for (; moves > 0 && !this.isEnd(way, at); moves--) {
      begun.done++;
      at += way;
      if (this.isBreak(at)) break;
    }
    const isStop = at !== this.at && this.isBreak(at);
    if (at !== this.at) await this.bench.go(at, { isPlaying: true });
    if (this.way !== way || this.run !== run) return;
    if (isStop || this.isEnd(way)) this.pause(true);
    else this.ticking = requestAnimationFrame(() => this.tick(way));
  }

  pause(isTold) {
    cancelAnimationFrame(this.ticking);
    this.way = 0;
    this.showEnds();
    if (isTold) this.bench.say(this.bench.spoken());
  }

  // Shows which keys play, and which have nowhere to go. Keys at their end keep the focus.
  showEnds() {
    for (const [name, way] of [['on', 1], ['back', -1], ['step-on', 1], ['step-back', -1], ['end', 1], ['start', -1]]) {
      const button = document.querySelector(`[data-go=${name}]`);
      button.setAttribute('aria-disabled', this.isEnd(way));
      if (!button.classList.contains('play')) continue;
      button.classList.toggle('playing', this.way === way);
      button.setAttribute('aria-pressed', this.way === way);
    }
  }

  // Shows a position on the timeline, and in words.
  show(index, readout) {
    this.at = index;
    this.range.value = index;
    if (this.passed) this.passed.style.clipPath = `inset(0 ${100 - index / Math.max(1, this.run.last) * 100}% 0 0)`;
    this.range.setAttribute('aria-valuetext', this.bench.spoken());
    $('where').textContent = `${index.toLocaleString('en')} / ${this.run.last.toLocaleString('en')}${this.run.isWhole ? '' : '+'}`;
    $('doing').replaceChildren(...readout);
    this.showEnds();
  }

  // ---- the timeline

  fill(isFault) {
    const { run } = this, count = Math.max(1, run.last), deepest = run.depths.reduce((most, it) => Math.max(most, it), 2);
    const bars = this.bars(count, deepest);
    if (isFault) {
      const width = Math.max(0.5, count / 200);
      bars.push(svg('rect', { x: count - width, y: 0, width, height: deepest, class: 'bar-fault' }));
    }
    const shape = { viewBox: `0 0 ${count} ${deepest}`, preserveAspectRatio: 'none', 'aria-hidden': 'true' };
    this.passed = svg('svg', { ...shape, class: 'passed' }, ...bars.map(it => it.cloneNode()));
    this.range.max = run.last;
    const marks = this.breakPositions().map(index => {
      const mark = made('i', { className: 'mark' });
      mark.style.left = `${index / count * 100}%`;
      return mark;
    });
    if (isFault) marks.push(made('i', { className: 'flag', title: 'The run stops here' }));
    $('timeline').replaceChildren(svg('svg', shape, ...bars), this.passed, ...marks, this.range);
  }

  // A bar for each stretch of one depth and direction; of a long run, for each of so many pieces, with its deepest.
  bars(count, deepest) {
    const { depths, undone } = this.run, bars = [], stride = Math.max(1, count / TIMELINE_BARS);
    for (let first = 0, next = 0; first < depths.length; first = next) {
      let depth = depths[first];
      const isSame = at => at < depths.length && undone[at] === undone[first] && (depths[at] === depth || at - first < stride);
      for (next = first + 1; isSame(next); next++) depth = Math.max(depth, depths[next]);
      const height = Math.max(depth, 0.3), from = Math.max(0, first - 0.5), to = Math.min(count, next - 0.5);
      if (to > from) bars.push(svg('rect', { x: from, y: deepest - height, width: to - from, height, class: undone[first] ? 'bar-back' : 'bar-on' }));
    }
    return bars;
  }

  breakPositions() {
    const lines = this.bench.editor.breakLines, found = [];
    if (!lines.size) return found;
    for (let index = 0; index <= this.run.last && found.length < MOST_MARKS; index++) if (lines.has(this.run.lineAt(index))) found.push(index);
    return found;
  }
}
