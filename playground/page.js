// The workbench: the editor, the views and the transport, all at one position of one run.
'use strict';

const SOURCE = 'program.rpp', INPUT = 'input.txt', INVERSE = 'inverse.rpp', IMAGE = 'image', LISTING = 'listing', END = 'end';
const VIEWS = ['store', 'output', 'inverse', 'machine'];
const EDIT_MILLISECONDS = 350, SLOW_MILLISECONDS = 400, IDLE_MILLISECONDS = 150, KEEP_MILLISECONDS = 500, TOAST_MILLISECONDS = 4000, UNDO_MILLISECONDS = 10000;
const LEAST_SPLIT = 20, MOST_SPLIT = 75, REFUSED_TEXT = 3, FAULTED = 5, MORE_POSITIONS = 46000;
const LARGEST = { usual: 1.4, large: 1.9 }, SMALLEST = { usual: 0.7, embedded: 0.6 };

class Workbench {
  constructor(carried, caller, lessons) {
    Object.assign(this, { carried, caller, lessons, at: 0, way: 1, asked: 0, moved: 0, addressed: 0, running: 0, waited: 0 });
    Object.assign(this, { view: 'store', zoom: 1, isEmbedded: false, exercise: undefined });
    const play = () => this.transport.play(1), keys = { 'Ctrl-Enter': play, 'Cmd-Enter': play, Esc: () => $('transport').focus() };
    this.editor = new Editor($('text'), carried.grammar, keys, isTyped => this.edited(isTyped));
    this.problems = new Problems(this.editor);
    this.inputs = new Inputs(what => this.changed(what));
    this.transport = new Transport(this);
    const take = text => this.replace({ ...this.setting(), text }, 'The inverse program is in the editor.');
    this.inverse = new InverseView($('inverse'), this.editor, take);
    const call = (...words) => this.call(...words);
    this.listing = new ListingView($('machine'), this.editor, call, index => this.go(index, { keepsMachine: true }));
    this.output = new OutputView($('output'), ([, , words]) => this.question(words));
    this.sharing = new Sharing(this);
    Object.assign(lessons, { onOpen: setting => this.replace(setting), textNow: () => this.editor.text, exerciseNow: () => this.exercise });
    this.editor.onBreak = (line, isOn) => {
      if (this.run) this.transport.fill(this.fault && this.run.isWhole);
      this.say(`Breakpoint at line ${line + 1} ${isOn ? 'set' : 'removed'}`);
    };
    this.connect();
    this.makeStore();
  }

  // ---- connections

  connect() {
    $('stop').onclick = () => this.stop();
    for (const tab of all('#views [role=tab]')) tab.onclick = () => this.openView(tab.getAttribute('aria-controls'));
    for (const tab of all('#sheets [role=tab]')) tab.onclick = () => {
      if (tab.dataset.view) this.openView(tab.dataset.view);
      this.openSheet(tab.dataset.sheet);
    };
    for (const list of all('[role=tablist]')) list.onkeydown = event => alongTabs(event, list);
    $('welcomed').onclick = () => {
      $('welcome').hidden = true;
      Kept.set({ welcomed: true });
      this.editor.refresh();
    };
    $('dark').onclick = () => this.setTheme(document.documentElement.dataset.theme === 'dark' ? 'light' : 'dark', true);
    $('large').onclick = () => this.setSize(document.documentElement.dataset.size === 'large' ? '' : 'large');
    document.addEventListener('keydown', event => this.key(event));
    addEventListener('hashchange', () => this.openAddress());
    new ResizeObserver(() => this.drawStore()).observe($('store'));
    this.connectSplit();
    this.connectMore();
  }

  // What a narrow header has no space for: a key opens it, and it closes when one goes elsewhere.
  connectMore() {
    const isOpen = () => $('more').getAttribute('aria-expanded') === 'true', open = it => $('more').setAttribute('aria-expanded', it);
    const leave = ({ target }) => { if (!target.closest?.('#more, #extras')) open(false); };
    $('more').onclick = () => open(!isOpen());
    for (const kind of ['pointerdown', 'focusin']) document.addEventListener(kind, leave);
    const close = () => {
      if (!isOpen()) return;
      open(false);
      $('more').focus();
    };
    $('embed').addEventListener('click', close);
    $('head').onkeydown = event => { if (event.key === 'Escape') close(); };
  }

  connectSplit() {
    const split = $('split');
    split.onpointerdown = event => {
      split.setPointerCapture(event.pointerId);
      split.onpointermove = move => this.setSplit(move.clientX / innerWidth * 100);
    };
    split.onpointerup = () => { split.onpointermove = null; };
    split.onkeydown = event => {
      const way = { ArrowLeft: -2, ArrowRight: 2 }[event.key];
      if (!way) return;
      event.stopPropagation();
      event.preventDefault();
      this.setSplit(Number(split.getAttribute('aria-valuenow')) + way);
    };
  }

  setSplit(percent) {
    const now = Math.round(Math.max(LEAST_SPLIT, Math.min(MOST_SPLIT, percent)));
    document.documentElement.style.setProperty('--split', now);
    $('split').setAttribute('aria-valuenow', now);
    Kept.set({ split: now });
    this.editor.refresh();
  }

  key(event) {
    if (event.defaultPrevented || event.ctrlKey || event.altKey || event.metaKey) return;
    const { target } = event;
    if (target.closest('.CodeMirror, textarea, select, dialog, #limits') || (target.matches('input') && target.type !== 'range')) return;
    const moves = { ArrowRight: 'step-on', ArrowLeft: 'step-back', Home: 'start', End: 'end' };
    if (moves[event.key]) this.transport.press(moves[event.key], event.shiftKey);
    else if (event.key === ' ' && !target.closest('button, summary, a')) this.transport.play(event.shiftKey ? -1 : 1);
    else if (/^[1-4]$/.test(event.key)) this.openView(VIEWS[event.key - 1]);
    else return;
    event.preventDefault();
  }

  // ---- the program and its settings

  setting() {
    const exercise = this.exercise ? { exercise: this.exercise } : {};
    return { text: this.editor.text, input: Object.fromEntries(this.inputs.numbers()), ...this.inputs.limits, ...exercise };
  }

  // Opens a program with its settings; `at` is the position to be shown.
  async open(setting, at = 0) {
    this.inputs.setLimits({ ...USUAL, ...setting });
    this.inputs.reset(setting.input);
    this.editor.text = setting.text;
    this.at = at;
    this.exercise = this.lessons.task(setting.exercise) && setting.exercise;
    this.showTask();
    await this.judge();
    this.editor.refresh();
  }

  // Opens another program, and offers the way back to the text that was there.
  async replace(setting, told) {
    const was = this.setting(), at = this.transport.at, isOwn = !this.lessons.isExample(was.text) && was.text.trim() !== '';
    await this.open(setting, setting.at ?? 0);
    if (isOwn || told) this.toast(told ?? 'Your program was replaced.', 'Undo', () => this.open(was, at));
  }

  edited(isTyped) {
    this.transport?.pause();
    this.editor?.clear();
    clearTimeout(this.later);
    this.later = isTyped ? setTimeout(() => this.judge(), EDIT_MILLISECONDS) : undefined;
  }

  // A field or a limit has another value: the run begins again.
  changed(what) {
    if (what === 'field') this.at = 0;
    this.judge();
  }

  showTask() {
    const task = this.lessons.task(this.exercise);
    $('task').hidden = !task;
    if (!task) return;
    $('task').className = '';
    $('task').replaceChildren(made('b', { textContent: `Exercise ${task.name}: ` }), ...withCode(task.task), made('span', { id: 'check' }));
  }

  // ---- calls

  // Makes a call of the program; `isAhead` says that nothing waits for it.
  call(words, files, isAhead) { return this.send({ words, files }, isAhead); }

  async send(message, isAhead) {
    if (this.isStopped) throw new Stopped('stopped');
    return this.during(() => this.caller.send(message), isAhead);
  }

  // Does work. Where what is waited for takes long together, the key Stop is shown until it is done.
  async during(work, isAhead) {
    this.running++;
    if (!isAhead) {
      this.waited++;
      clearTimeout(this.idle);
      this.slow ??= setTimeout(() => { $('stop').hidden = false; }, SLOW_MILLISECONDS);
    }
    try {
      return await work();
    } finally {
      this.running--;
      if (!isAhead && --this.waited === 0) this.idle = setTimeout(() => this.rest(), IDLE_MILLISECONDS);
    }
  }

  rest() {
    clearTimeout(this.slow);
    this.slow = undefined;
    $('stop').hidden = true;
  }

  stop() {
    this.isStopped = true;
    this.caller.stop();
  }

  // Does work for a question; where a later one was asked, the work ends.
  async guarded(work) {
    const asked = ++this.asked;
    this.isStopped = false;
    const still = answer => {
      if (asked !== this.asked) throw new Stopped();
      return answer;
    };
    try {
      await work(still);
    } catch (error) {
      if (asked !== this.asked) return;
      $('views').classList.toggle('stale', this.editor.text !== this.text);
      if (error instanceof Stopped) this.problems.fine('Stopped.');
      else this.problems.wrong('This call failed', undefined, made('p', { textContent: `${error.message}. The next call starts again.` }));
      this.isStopped = false;
      this.say($('problems').textContent);
    } finally {
      if (asked === this.asked) document.body.dataset.asked = asked;
    }
  }

  files(numbers = this.inputs.numbers(), text = this.editor.text) {
    return [[SOURCE, text], [INPUT, numbers.map(([name, value]) => `${name} = ${value}\n`).join('')]];
  }

  get input() { return this.inputs.numbers().length ? [INPUT] : []; }

  get limits() {
    const { heap, depth, steps } = this.inputs.limits;
    return [heap, depth, steps];
  }

  question(words) { return this.call(words({ input: this.input, names: this.inputs.names }, this.limits), this.files()); }

  // Begins the session of the run of a text, with numbers in some fields. One that was begun before, and that shows no
  // run yet, ends.
  openSession(text, numbers) {
    const [heap, depth] = this.limits, input = numbers.length ? [INPUT] : [], send = (message, isAhead) => this.send(message, isAhead);
    this.begun?.end();
    this.begun = new LiveSession(this.caller, send, ['source', SOURCE, heap, depth, ...input], this.files(numbers, text));
    return this.begun;
  }

  // ---- judging and running

  // Judges the text by the session of its run. Where it is accepted, shows the run. The fields are those of the start.
  // If some begin with other numbers than 0, the session begins again.
  judge() {
    clearTimeout(this.later);
    this.later = undefined;
    return this.guarded(async still => {
      this.keepSetting();
      const text = this.editor.text;
      this.lessons.name(this.lessons.title(text, this.exercise));
      $('welcome-first').hidden = text !== this.carried.examples[FIRST.example].text;
      const answer = still(await this.openSession(text, []).ask(() => ['regs']));
      this.editor.clear();
      if (answer.status === REFUSED_TEXT) {
        this.refused(answer, text);
        return;
      }
      if (answer.status === undefined) this.inputs.show(intsOf(reportOf(answer.replies[0].text).fields).map(([name]) => name));
      const numbers = this.inputs.numbers();
      await this.film(new Run(text, numbers.length ? this.openSession(text, numbers) : this.begun), still);
    });
  }

  refused(answer, text) {
    this.transport.pause();
    document.body.removeAttribute('data-fault');
    this.say(this.problems.refused(answer, text));
    $('views').classList.add('stale');
    $('doing').textContent = 'the last accepted program';
  }

  // Walks along the run, runs it on the machine, and finds the place of a fault.
  async film(run, still) {
    this.keepSetting();
    const bad = this.inputs.bad(), refused = still(await run.walk());
    this.inputs.markBad(bad);
    if (refused) {
      this.say(this.problems.notBegun(refused, bad));
      if (!bad) this.inputs.openLimits(true);
      return;
    }
    const machine = still(await this.question(QUESTIONS[0][2])), fault = still(await this.faultOf(run, machine));
    const picture = still(await StorePicture.of(run, this.pane()));
    this.run?.session.end();
    Object.assign(this, { run, fault, picture, machine, text: run.text, begun: undefined, hasInverse: false, hasListing: false });
    this.output.load(run, machine);
    $('views').classList.remove('stale');
    this.transport.fill(fault && run.isWhole);
    this.tellEnd();
    await this.fillView();
    if (this.exercise) await this.checkExercise(still);
  }

  async faultOf(run, machine) {
    if (machine.status !== FAULTED) return undefined;
    const { heap, depth } = this.inputs.limits, fault = await findFault(run, machine, () => this.runImage(run));
    return { ...fault, message: await faultMessage(fault, run, heap, depth) };
  }

  // Walks on along a long run, where the position comes near the last one that is known.
  async walkOn() {
    const { run, machine } = this;
    if (run.isWhole || this.isWalking || this.at < run.last - NEAR_THE_LAST) return;
    this.isWalking = true;
    try {
      await run.walk(run.last + MORE_POSITIONS);
      const fault = run.isWhole ? await this.faultOf(run, machine) : this.fault;
      if (run !== this.run) return;
      this.fault = fault;
      this.transport.fill(fault && run.isWhole);
      this.tellEnd();
      await this.go(this.at, { isQuiet: true });
    } catch (error) {
      if (!(error instanceof Stopped)) throw error;
    } finally {
      this.isWalking = false;
    }
  }

  // Whether a position is the one at which the run stops with a fault.
  isFault(index) { return Boolean(this.fault) && this.run.isWhole && index === this.run.last; }

  // The image of a run's program, with what the run begins with in its static words, and its listing.
  async imageOf(run) {
    const compiled = await this.call(['compile', SOURCE, IMAGE], [[SOURCE, run.text]]), image = compiled.files.get(IMAGE);
    const listed = await this.call(['list', IMAGE, LISTING], [[IMAGE, image]]), listing = listingOf(new TextDecoder().decode(listed.files.get(LISTING)));
    await run.ask([0]);
    return [withNumbers(image, listing, intsOf(run.object(0, '#1').cells)), listing];
  }

  async runImage(run) {
    const [heap, depth, steps] = this.limits, [image] = await this.imageOf(run);
    return this.call(['run', IMAGE, heap, depth, steps, '-', END], [[IMAGE, image]]);
  }

  tellEnd() {
    const { run, fault, machine } = this, span = fault && spanOf(fault, run.source);
    if (fault) this.problems.fault(fault, span && run.source.lineOf(span.at), () => this.transport.press('end'));
    else this.problems.done(run, machine, this.inputs.limits.steps);
  }

  async checkExercise(still) {
    const words = input => ['turn', SOURCE, ...this.limits, ...(Object.keys(input).length ? [INPUT] : [])];
    const turn = input => this.call(words(input), this.files(Object.entries(input)));
    const { isSolved, told } = still(await this.lessons.check(this.exercise, this.run, turn));
    $('task').className = isSolved ? 'solved' : '';
    $('check').replaceChildren(' ', ...withCode(told));
    if (isSolved) this.say(told);
  }

  // ---- the position

  // Shows a position in all views; where it is not known yet, it is asked for first.
  async go(wanted, { isQuiet, isPlaying, keepsMachine } = {}) {
    const { run } = this;
    if (!run) return;
    const index = Math.max(0, Math.min(run.last, wanted)), moved = ++this.moved;
    if (index !== this.at) this.way = Math.sign(index - this.at);
    this.at = this.transport.at = index;
    const isLoaded = run.has(index) || await this.load(run, index);
    if (moved !== this.moved || run !== this.run) return;
    if (!isLoaded) {
      await this.go(this.shown ?? 0);
      return;
    }
    this.shown = index;
    const isFault = this.isFault(index);
    document.body.toggleAttribute('data-fault', isFault);
    this.editor.code.operation(() => {
      this.editor.clear();
      if (this.editor.text === this.text) this.markPosition(index, isFault);
    });
    this.transport.show(index, this.readout(index, isFault));
    this.drawStore();
    if (this.view === 'output') this.output.show(index);
    if (this.view === 'inverse' && this.hasInverse) this.inverse.go(run.places[index], run.undone[index]);
    if (this.view === 'machine' && this.hasListing && !keepsMachine) await this.listing.go(index, this.way);
    if (!isQuiet && !isPlaying) this.speakSoon();
    this.keepPlace();
    this.walkOn();
    run.ahead(index, this.way);
  }

  // Loads the positions round one, and says whether it was not stopped.
  async load(run, index) {
    try {
      await this.during(() => run.load(index));
      return true;
    } catch (error) {
      if (!(error instanceof Stopped)) throw error;
      this.isStopped = false;
      return false;
    }
  }

  speakSoon() {
    clearTimeout(this.speaking);
    this.speaking = setTimeout(() => this.say(this.spoken()), SPEAK_MILLISECONDS);
  }

  markPosition(index, isFault) {
    const { run, editor } = this, { source } = run;
    for (const at of run.chain(index).slice(0, 100)) {
      const outer = source.statement(run.places[at]);
      if (outer) editor.markSpan(outer.at, outer.end, 'wait-place');
    }
    const span = isFault ? spanOf(this.fault, source) : index === run.test ? undefined : source.statement(run.places[index]);
    if (!span) return;
    const way = run.undone[index] ? 'here undone' : 'here';
    editor.mark(span, isFault ? 'fault' : way, isFault ? '■' : run.undone[index] ? '◀' : '▶');
    if (isFault) editor.tell(source.lineOf(span.end), this.problems.atPlace(this.fault));
    if (!editor.code.hasFocus() || isFault) editor.reveal(source.lineOf(isFault ? span.end : span.at), isFault ? 10 : 3);
  }

  // What the readout has next to the number of the position.
  readout(index, isFault) {
    const { run } = this, line = run.lineAt(index), isUndone = run.undone[index];
    if (isFault) {
      const span = spanOf(this.fault, run.source);
      return [`stopped: ${this.fault.name}${span ? `, line ${run.source.lineOf(span.at) + 1}` : ''}`];
    }
    if (line < 0) return ['at the end'];
    const way = { className: isUndone ? 'way back' : 'way on', textContent: isUndone ? '◂ undone' : '▸ forward' };
    return [`line ${line + 1}, ${run.source.method(run.places[index])} · `, made('b', way)];
  }

  spoken() {
    const { run, fault } = this, at = this.transport.at, line = run.lineAt(at), isFault = this.isFault(at);
    const words = at === run.test ? 'a test' : run.source.statement(run.places[at])?.words.join(' ');
    const text = line < 0 ? 'the end' : `line ${line + 1}, ${words}${run.undone[at] ? ', undone' : ''}`;
    const told = isFault ? `, fault ${fault.name}${fault.failure ? `: ${fault.failure.told.replaceAll('`', '')}` : ''}` : '';
    return `${at} of ${run.last}, ${text}${told}`;
  }

  // The one place from which the page speaks.
  say(text) { $('spoken').textContent = text; }

  // ---- views

  openView(view) {
    this.view = view;
    document.body.dataset.view = view;
    for (const tab of all('#views [role=tab]')) {
      const isOpen = tab.getAttribute('aria-controls') === view;
      selectTab(tab, isOpen);
      $(tab.getAttribute('aria-controls')).hidden = !isOpen;
    }
    this.tellSheet();
    $('tools').hidden = view !== 'store';
    this.keepPlace();
    return this.fillView();
  }

  openSheet(sheet) {
    document.body.dataset.sheet = sheet;
    this.tellSheet();
    this.editor.refresh();
    if (this.run) this.go(this.at, { isQuiet: true });
  }

  tellSheet() {
    const isOpen = ({ dataset }) => dataset.sheet === document.body.dataset.sheet && (dataset.view ?? this.view) === this.view;
    for (const tab of all('#sheets [role=tab]')) selectTab(tab, isOpen(tab));
  }

  // Shows the position in the view that is open, which may need more of the program first.
  async fillView() {
    const { run, view } = this;
    if (!run) return;
    if (view === 'inverse' && !this.hasInverse) await this.loadInverse();
    if (view === 'machine' && !this.hasListing) await this.loadListing();
    if (run !== this.run || view !== this.view) return;
    this.listing.colour(view === 'machine');
    await this.go(this.at, { isQuiet: true });
  }

  async loadInverse() {
    const { text, run } = this, inverse = await this.written(text), normal = await this.written(inverse);
    if (run !== this.run) return;
    this.inverse.load(run.source, normal, inverse);
    this.hasInverse = true;
  }

  async loadListing() {
    const { run } = this, [heap, depth] = this.limits, [image, listing] = await this.imageOf(run);
    if (run !== this.run) return;
    await this.listing.load(run, image, listing, [heap, depth]);
    this.hasListing = run === this.run;
  }

  async written(text) {
    return new TextDecoder().decode((await this.call(['show-inverse', SOURCE, INVERSE], [[SOURCE, text]])).files.get(INVERSE));
  }

  // ---- the store

  makeStore() {
    this.canvas = made('div', { className: 'canvas', tabIndex: 0 });
    this.canvas.setAttribute('role', 'region');
    this.canvas.setAttribute('aria-label', 'Picture of the store');
    this.words = made('pre', { tabIndex: 0 });
    this.words.setAttribute('role', 'region');
    this.words.setAttribute('aria-label', 'The store as text');
    $('store').append(this.canvas, made('details', { ontoggle: () => this.drawStore() }, made('summary', { textContent: 'As text' }), this.words));
    this.canvas.onclick = event => {
      const at = event.target.closest('[data-at]')?.dataset.at;
      if (at === undefined) return;
      this.transport.pause();
      this.go(Number(at));
    };
    const tool = (text, title, zoom) => {
      const onclick = () => {
        this.zoom = zoom();
        this.drawStore();
      };
      const key = made('button', { type: 'button', className: 'quiet', textContent: text, title, onclick });
      key.setAttribute('aria-label', title);
      return key;
    };
    $('tools').append(tool('−', 'Smaller', () => Math.max(0.4, this.zoom * 0.8)), tool('Fit', 'Fit the store into the pane', () => 1),
      tool('+', 'Larger', () => Math.min(2.5, this.zoom * 1.25)));
  }

  pane() { return { width: this.canvas.clientWidth || 840, height: this.canvas.clientHeight || 600 }; }

  drawStore() {
    if (!this.picture || $('store').hidden || !$('store').offsetParent || !this.run.look(this.at)) return;
    const { canvas } = this, { drawn, width, height, seen } = this.picture.draw(this.at);
    const largest = document.documentElement.dataset.size === 'large' ? LARGEST.large : LARGEST.usual;
    const fit = Math.min((canvas.clientWidth - 12) / width, (canvas.clientHeight - 12) / height, largest);
    const scale = Math.max(fit, this.isEmbedded ? SMALLEST.embedded : SMALLEST.usual) * this.zoom;
    setAttributes(drawn, { width: width * scale, height: height * scale });
    arrange(canvas, [drawn]);
    for (const box of seen) keepInSight(canvas, box, scale);
    if ($('store').querySelector('details').open) this.words.textContent = this.picture.words(this.at);
  }

  // ---- the address and what is kept

  keepSetting() {
    Kept.set({ setting: this.setting() });
    this.keepPlace();
  }

  // The browser and the address keep what is shown, a moment after it was last changed.
  keepPlace() {
    clearTimeout(this.keeping);
    this.keeping = setTimeout(() => {
      Kept.set({ at: this.at, view: this.view });
      if (!this.isEmbedded) this.sharing.showLink();
    }, KEEP_MILLISECONDS);
  }

  // What the address asks for: the setting, its view and its position; nothing where it asks for none.
  async wantedByAddress() {
    const found = await readFragment(location.hash);
    if (!found) return undefined;
    $('notice').hidden = true;
    const setting = found.setting ?? (found.example ? this.lessons.example(found.example) : this.lessons.exercise(found.exercise));
    const { version } = this.carried, isOther = found.version !== undefined && found.version !== version;
    if (!setting) this.notice(found.isBroken ? 'The link is broken: its program cannot be read.' : 'The link names a program that this page does not have.');
    else if (isOther) this.notice(`The link was made with version ${found.version}; this page is version ${version}.`);
    return setting && { ...setting, view: found.view, at: found.at };
  }

  // Opens what another address asks for; of the program that is open already, the view and the position.
  async openAddress() {
    const addressed = ++this.addressed, wanted = await this.wantedByAddress();
    if (!wanted || addressed !== this.addressed) return;
    if (VIEWS.includes(wanted.view)) this.openView(wanted.view);
    if (!isSame(wanted, this.setting())) {
      await this.replace(wanted);
    } else if (wanted.at !== undefined && wanted.text === this.text) {
      this.transport.pause();
      await this.go(wanted.at);
    }
  }

  notice(text) {
    $('notice').querySelector('span').textContent = text;
    $('notice').hidden = false;
    $('notice').querySelector('button').onclick = () => { $('notice').hidden = true; };
    this.say(text);
  }

  toast(text, action, done) {
    clearTimeout(this.toasting);
    const key = action && made('button', { type: 'button', textContent: action, onclick: () => { $('toast').hidden = true; done(); } });
    $('toast').replaceChildren(text, ...(key ? [key] : []));
    $('toast').hidden = false;
    this.say(text);
    this.toasting = setTimeout(() => { $('toast').hidden = true; }, action ? UNDO_MILLISECONDS : TOAST_MILLISECONDS);
  }

  // ---- looks

  setTheme(theme, isKept) {
    document.documentElement.dataset.theme = theme;
    $('dark').setAttribute('aria-pressed', theme === 'dark');
    if (isKept) Kept.set({ theme });
  }

  setSize(size) {
    document.documentElement.dataset.size = size;
    $('large').setAttribute('aria-pressed', size === 'large');
    Kept.set({ size });
    this.editor.refresh();
    this.drawStore();
  }

  // ---- the start

  async begin() {
    const words = new URLSearchParams(location.search);
    this.isEmbedded = this.inputs.isEmbedded = Kept.isOff = words.has('embed');
    document.body.classList.toggle('embed', this.isEmbedded);
    const kept = this.isEmbedded ? {} : Kept.get();
    this.beginLooks(words, kept);
    const linked = await this.wantedByAddress(), named = this.lessons.example(words.get('example'));
    const own = kept.setting && { ...kept.setting, at: kept.at, view: kept.view };
    const setting = linked ?? named ?? own ?? { ...this.lessons.example(FIRST.example), at: FIRST.at };
    const view = words.get('view') ?? setting.view, at = Number(words.get('step') ?? setting.at ?? 0);
    this.openSheet(words.has('view') || words.get('sheet') === 'views' ? 'views' : 'program');
    this.openView(VIEWS.includes(view) ? view : 'store');
    await this.open(setting, Number.isInteger(at) ? at : 0);
    if (this.isEmbedded) await this.beginEmbedded();
  }

  beginLooks(words, kept) {
    const dark = matchMedia('(prefers-color-scheme: dark)');
    this.setTheme(words.get('theme') ?? kept.theme ?? (dark.matches ? 'dark' : 'light'));
    dark.onchange = () => Kept.get().theme ?? this.setTheme(dark.matches ? 'dark' : 'light');
    if (kept.split) this.setSplit(kept.split);
    if (kept.size) this.setSize(kept.size);
    $('welcome').hidden = Boolean(kept.welcomed);
  }

  async beginEmbedded() {
    const open = made('a', { className: 'open-all', target: '_blank', textContent: 'Open the workbench ↗', href: await this.sharing.link() });
    open.onpointerdown = open.onfocus = async () => { open.href = await this.sharing.link(); };
    document.querySelector('.controls').append(open);
  }
}

// ---- parts

// Whether two settings are of one program with the same numbers and limits.
function isSame(one, other) {
  const limits = Object.keys(USUAL), numbers = input => JSON.stringify(Object.entries(input ?? {}).filter(([, value]) => Number(value) !== 0).sort());
  return one.text === other.text && one.exercise === other.exercise && numbers(one.input) === numbers(other.input)
    && limits.every(name => String(one[name] ?? USUAL[name]) === String(other[name]));
}

function selectTab(tab, isOpen) {
  tab.setAttribute('aria-selected', isOpen);
  tab.tabIndex = isOpen ? 0 : -1;
}

// Arrow keys go along tabs, and the focus stays there.
function alongTabs(event, list) {
  const way = { ArrowRight: 1, ArrowLeft: -1 }[event.key], tabs = [...list.querySelectorAll('[role=tab]')];
  if (!way) return;
  event.stopPropagation();
  event.preventDefault();
  const next = tabs.at((tabs.indexOf(event.target) + way) % tabs.length);
  next.click();
  next.focus();
}

function keepInSight(canvas, box, scale) {
  const left = box.x * scale, right = left + box.width * scale, top = box.y * scale, bottom = top + box.height * scale;
  if (left < canvas.scrollLeft || right > canvas.scrollLeft + canvas.clientWidth) canvas.scrollLeft = Math.max(0, left - canvas.clientWidth / 2);
  if (top < canvas.scrollTop || bottom > canvas.scrollTop + canvas.clientHeight) canvas.scrollTop = Math.max(0, top - canvas.clientHeight / 2);
}
