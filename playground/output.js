// The results of a run: the fields of the main object at its start, here and at its end, and what the program prints.
'use strict';

const MOST_EXPLAINED_CALLS = 32;

// The names that a report gives its objects, with the names in the picture. Both are followed from the main object on.
function namesInPicture(report, objects) {
  const names = new Map(), open = [];
  const pair = (cells, own) => cells.forEach(([, value], at) => {
    if (!isReference(value) || names.has(value) || !isReference(own?.[at]?.[1] ?? '')) return;
    names.set(value, own[at][1]);
    open.push(value);
  });
  pair(report.fields, objects.get('#1')?.cells);
  while (open.length) {
    const name = open.pop();
    pair(report.objects.get(name)?.cells ?? [], objects.get(names.get(name))?.cells);
  }
  return names;
}

// What the program printed of the end of a run, with the names of the picture. The text after the first report stays.
function withPictureNames(text, objects) {
  const [, report] = /^([^]*?(?:^live .*\n|$(?![^])))/m.exec(text), names = namesInPicture(reportOf(report), objects);
  return report.replace(/#\d+/g, name => names.get(name) ?? name) + text.slice(report.length);
}

// What may be asked of the program besides the result: the text of the key, what it means, and the arguments.
const QUESTIONS = [
  ['Result', 'Compiled, and run on the machine', (run, limits) => ['go', SOURCE, ...limits, ...run.input]],
  ['There and back', 'The machine is reversed at the end, and restores the start', (run, limits) => ['turn', SOURCE, ...limits, ...run.input]],
  ['Meaning', 'By the semantics of the language, without a machine', (run, [heap, depth, steps]) =>
    ['explain', SOURCE, heap, Math.min(depth, MOST_EXPLAINED_CALLS), steps, ...run.input]],
  ['Profile', 'What probes observe of the run; all fields begin at 0', (run, limits) => ['profile', SOURCE, ...limits]],
  ['Result only', 'Run, copy the result, run back', (run, limits) => ['wrap', SOURCE, ...limits, run.names.join(',') || 'none', ...run.input]],
];

class OutputView {
  // `ask` makes a call for a question; its answer stays until another run.
  constructor(root, ask) {
    Object.assign(this, { root, ask, answer: undefined, chosen: 0 });
    this.table = made('div', {});
    this.printed = made('pre', { tabIndex: 0 });
    this.printed.setAttribute('aria-label', 'What the program prints');
    this.printed.setAttribute('role', 'region');
    this.note = made('p', { className: 'caption' });
    this.keys = QUESTIONS.map(([text, title], at) => made('button', { type: 'button', textContent: text, title, onclick: () => this.choose(at) }));
    root.append(made('h3', { textContent: 'Fields of the main object' }), this.table, made('h3', { textContent: 'What the program prints' }),
      made('div', { className: 'asks' }, ...this.keys), this.printed, this.note);
  }

  // Takes a run and the answer of `go` for it.
  load(run, machine) {
    Object.assign(this, { run, answer: machine, chosen: 0 });
  }

  async choose(at) {
    const { run } = this, answer = await this.ask(QUESTIONS[at]);
    if (run !== this.run) return;
    Object.assign(this, { answer, chosen: at });
    this.show(this.at);
  }

  show(index) {
    this.at = index;
    const { run } = this, isEnd = run.isWhole, objects = run.look(run.last)?.objects ?? new Map();
    const heads = ['field', 'at the start', `here, ${index}`, run.failing ? 'where it stops' : isEnd ? 'at the end' : `at ${run.last}`];
    const fieldsAt = at => new Map(run.object(at, '#1')?.cells), [start, now, last] = [0, index, run.last].map(fieldsAt);
    const kinds = (value, before, kind) => `${kind} ${value === before ? '' : 'differs'}`.trim();
    const cell = (value, before, kind = '') => made('td', { className: kinds(value, before, kind), textContent: value ?? '' });
    const row = ([name, value]) => made('tr', {}, made('th', { scope: 'row', textContent: name }), cell(value, value),
      cell(now.get(name), value, 'now'), cell(last.get(name), value));
    this.table.replaceChildren(made('table', {}, made('thead', {}, made('tr', {}, ...heads.map(it => made('th', { textContent: it, scope: 'col' })))),
      made('tbody', {}, ...[...start].map(row))));
    const isNamed = isEnd && !run.failing && this.answer.status === 0, text = this.answer.text || `status ${this.answer.status}`;
    this.printed.textContent = isNamed ? withPictureNames(text, objects) : text;
    this.keys.forEach((key, at) => key.setAttribute('aria-pressed', at === this.chosen));
    this.note.textContent = [...(isNamed && /#\d/.test(text) ? ['Objects have the names of the picture.'] : []), ...this.limits()].join(' ');
  }

  // What the answer rests on that the reader does not see elsewhere.
  limits() {
    const [name] = QUESTIONS[this.chosen];
    if (name === 'Meaning') return [`Meaning is computed with at most ${MOST_EXPLAINED_CALLS} active calls.`];
    return name === 'Profile' ? ['For the profile all fields begin at 0.'] : [];
  }
}
