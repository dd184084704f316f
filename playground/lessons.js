// Examples in steps, and exercises that check themselves.
'use strict';

class Lessons {
  // `onOpen` hears the setting of an example or an exercise that was chosen.
  constructor(carried, onOpen) {
    Object.assign(this, { carried, onOpen });
    $('pick').onclick = () => this.show();
    $('help').onclick = () => $('helping').showModal();
  }

  get exercises() { return this.carried.exercises; }

  // The setting of an example: its limits count only where they are wider than the usual ones.
  example(name) {
    const found = this.carried.examples[name];
    if (!found) return undefined;
    return { text: found.text, input: found.input, ...USUAL, depth: String(Math.max(Number(USUAL.depth), Number(found.depth ?? 0))) };
  }

  exercise(name) {
    const found = this.exercises.find(it => it.name === name);
    return found && { text: found.text, input: found.cases[0].input, ...USUAL, exercise: name };
  }

  // What the picker calls a text.
  title(text, exercise) {
    const task = this.exercises.find(it => it.name === exercise);
    if (task) return ['Exercise: ', `${task.name} ${task.title}`];
    for (const [rung, rows] of this.carried.ladder) {
      const row = rows.find(([name]) => this.carried.examples[name].text === text);
      if (row) return [`${rung}: `, row[1]];
    }
    return ['', 'Your program'];
  }

  isExample(text) { return Object.values(this.carried.examples).some(it => it.text === text); }

  name(name) { $('picked').replaceChildren(...(name[0] ? [made('i', { textContent: name[0] })] : []), name[1]); }

  // ---- the dialog of examples

  show() {
    const text = this.textNow?.(), solved = Kept.get().solved ?? [];
    const rung = (head, at, rows) => made('section', { className: 'rung' }, made('h3', {}, made('b', { textContent: at }), head), ...rows);
    const rungs = this.carried.ladder.map(([head, rows], at) => rung(head, at + 1, rows.map(([name, title, sentence]) =>
      this.row(title, sentence, this.carried.examples[name].text === text, () => this.example(name)))));
    const tasks = this.exercises.map(({ name, title, sentence }) =>
      this.row(`${name} ${title}${solved.includes(name) ? ' ✓' : ''}`, sentence, name === this.exerciseNow?.(), () => this.exercise(name)));
    $('rungs').replaceChildren(...rungs, rung('Exercises of the course', rungs.length + 1, tasks));
    $('ladder').showModal();
    $('ladder').querySelector('[aria-current=true]')?.focus();
  }

  row(title, sentence, isNow, setting) {
    const open = () => {
      $('ladder').close();
      this.onOpen(setting());
    };
    const row = made('button', { type: 'button', onclick: open }, made('b', { textContent: title }), made('span', {}, ...withCode(sentence)));
    row.setAttribute('aria-current', isNow);
    return row;
  }

  // ---- exercises

  // Whether a program is what an exercise expects, by rules of its text and by its cases. `turn` runs it on an input.
  async check(name, run, turn) {
    const { rules, cases } = this.task(name), broken = rules.map(rule => brokenRule(rule, run)).find(Boolean);
    if (broken) return { isSolved: false, told: broken };
    for (const one of cases) {
      const missing = missed(one, await turn(one.input));
      if (missing) return { isSolved: false, told: missing };
    }
    Kept.set({ solved: [...new Set([...(Kept.get().solved ?? []), name])] });
    return { isSolved: true, told: cases.length === 1 ? 'Solved.' : `Solved: all ${cases.length} inputs give what is expected.` };
  }

  task(name) { return this.exercises.find(it => it.name === name); }
}

// Why a program does not meet a rule on its text, or nothing.
function brokenRule({ kind, parts, method }, run) {
  if (kind === 'fields') {
    const own = run.object(0, '#1').cells.map(([name]) => name), isSame = parts.length === own.length && parts.every(name => own.includes(name));
    return isSame ? undefined : `The main class must have exactly the fields ${parts.join(', ')}.`;
  }
  const words = parts.at(-1), where = method ? ` in ${method}` : '', count = occurrences(run.source, words.match(TOKEN), method);
  if (kind === 'uses' && !count) return `Use \`${words}\`${where}.`;
  if (kind === 'no' && count) return `Do without \`${words}\`${where}.`;
  return kind === 'most' && count > Number(parts[0]) ? `Use \`${words}\` at most ${parts[0]} times${where}.` : undefined;
}

// How often words follow each other in a text, or in the methods of one name.
function occurrences(source, words, method) {
  let inside = !method, count = 0;
  source.tokens.forEach(({ text }, at) => {
    if (method && (text === 'class' || text === 'method')) inside = text === 'method' && source.word(at + 1) === method;
    count += inside && words.every((word, next) => source.word(at + next) === word);
  });
  return count;
}

// Why a run does not meet a case, or nothing. `answer` is what the program printed of the run in both directions.
function missed({ input, fields, back }, answer) {
  const given = Object.entries(input).map(([field, value]) => `\`${field} = ${value}\``).join(', '), begun = given ? `With ${given}` : 'Not yet';
  if (answer.status !== 0) return `${begun}: the run does not finish.`;
  const [report] = answer.text.split(/^back /m), got = new Map(reportOf(report).fields);
  for (const [field, value] of Object.entries(fields)) {
    if (!got.has(field)) return `The main class needs a field \`${field}\`.`;
    if (got.get(field) !== value) return `${begun}: \`${field}\` must be ${value} at the end, and is ${got.get(field)}.`;
  }
  return back && !/^restored /m.test(answer.text) ? `${begun}: the run does not lead back.` : undefined;
}
