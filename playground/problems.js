// What is wrong with a program, or how its run ended, below the editor and at its place.
'use strict';

const spaced = name => name.replace(/([a-z])([A-Z])/g, '$1 $2').toLowerCase();
const caption = text => made('span', { className: 'caption', textContent: `  ${text}` });

class Problems {
  constructor(editor) { this.editor = editor; }

  tell(kind, ...parts) {
    $('problems').className = kind;
    $('problems').replaceChildren(...parts);
  }

  fine(...parts) { this.tell('', made('div', { className: 'fine' }, ...parts)); }

  wrong(head, number, ...parts) {
    this.tell('wrong', made('h2', {}, ...withCode(head), ...(number ? [caption(number)] : [])), ...parts);
  }

  // A message: its sentence, what was expected, and how to fix what it says.
  parts({ sentence, detail, fix }) {
    const out = made('p', { className: 'out' }, made('b', { textContent: 'How to fix it: ' }), ...withCode(fix));
    return [...[sentence, detail].filter(Boolean).map(it => made('p', {}, ...withCode(it))), ...(fix ? [out] : [])];
  }

  // Tells a refused text. Gives what is to be spoken.
  refused(answer, text) {
    const refusal = refusalOf(answer.text), other = answer.stopped ?? `the program ended with status ${answer.status}`;
    const words = refusal ? spaced(refusal.name) : other;
    if (refusal?.place === undefined) {
      this.wrong(words, refusal && `refusal ${refusal.number}`);
      return words;
    }
    const spot = spotOf(text, refusal.place), message = refusalMessage(text, refusal.number, refusal.place);
    const head = `Line ${spot.line + 1}, column ${spot.column + 1}: ${words}`, isSyntax = refusal.name === 'Syntax';
    this.editor.markMistake(spot);
    this.editor.tell(spot.line, made('div', { className: 'told' }, ...withCode(message.sentence), ' ', this.writing(message, text)));
    this.wrong(head, `refusal ${refusal.number}`, this.lines(text, spot), ...this.parts(message), ...(isSyntax ? this.open(text) : []));
    return `${head}. ${message.sentence.replaceAll('`', '')}`;
  }

  // The blocks that are not ended yet.
  open(text) {
    const blocks = openBlocks(text).map(([word, line]) => `\`${word}\` of line ${line}`);
    return blocks.length ? [made('p', { className: 'out' }, ...withCode(`Not ended yet: ${blocks.join(', ')}.`))] : [];
  }

  // The key that writes what a message says is to be written, where that is a text.
  writing({ edits, title }, text) {
    if (!edits.length || !title) return undefined;
    const index = indexOfByte(text), parts = edits.map(it => [index(it.begin), index(it.end), it.text]);
    return made('button', { type: 'button', onclick: () => this.editor.change(parts) }, ...withCode(title));
  }

  // The line of a mistake between its neighbours, with a caret.
  lines(text, { line, column }) {
    const lines = text.split('\n'), frame = made('pre');
    for (let at = Math.max(0, line - 1); at <= Math.min(lines.length - 1, line + 1); at++) {
      frame.append(`${String(at + 1).padStart(4)} │ ${lines[at]}\n`);
      if (at === line) frame.append('     │ ', made('b', { textContent: `${lines[at].slice(0, column).replace(/[^\t]/g, ' ')}^ here\n` }));
    }
    return frame;
  }

  // Tells that a run could not begin: because of a number in a chip, or of a limit.
  notBegun(answer, bad) {
    const refusal = refusalOf(answer.text), rule = companion.rules.REFUSAL_OF.get(refusal?.number);
    const range = 'it takes a whole number from -2,147,483,648 to 2,147,483,647';
    const sentence = rule ? rule.sentence : ended(answer, '');
    const why = bad ? `The field ${bad[0]} cannot begin with “${bad[1]}”: ${range}.` : sentence;
    this.wrong('The run did not begin', refusal && !bad ? `refusal ${refusal.number} ${refusal.name}` : undefined, made('p', {}, ...withCode(why)));
    return `The run did not begin. ${why}`;
  }

  // Tells how a run ended without a fault.
  done(run, machine, steps) {
    const accepted = made('b', { textContent: 'Accepted. ' }), count = Number(/^steps (\d+)$/m.exec(machine.text)?.[1]);
    const statements = `${run.last.toLocaleString('en')}${run.isWhole ? '' : ' and more'} ${run.last === 1 ? 'statement' : 'statements'}`;
    if (machine.status === 0) this.fine(accepted, `${statements}, ${count.toLocaleString('en')} machine steps.`);
    else this.fine(accepted, ended(machine, steps));
  }

  // Tells a fault, with the line where the program says that it is.
  fault(fault, line, onShow) {
    const where = line === undefined ? 'The run stops' : `The run stops at line ${line + 1}`;
    const show = made('button', { type: 'button', textContent: 'Show the stop', onclick: onShow });
    const told = fault.failure ? [made('p', {}, ...withCode(`${fault.failure.told}.`))] : [];
    this.wrong(`${where}: ${faultTitle(fault)}`, `fault ${fault.number} ${fault.name}`, ...told, ...this.parts(fault.message),
      made('p', { className: 'out' }, show, ' ', made('span', { className: 'caption', textContent: 'Go back from there to see why.' })));
  }

  // The lines below the line of a fault.
  atPlace(fault) {
    const { number, name, failure, message } = fault, title = made('b', {}, ...withCode(faultTitle(fault)));
    const told = made('div', { className: 'told' }, title, caption(`fault ${number} ${name}`));
    if (failure) {
      const row = (term, value) => [made('dt', { textContent: term }), made('dd', { textContent: value })];
      told.append(made('dl', {}, ...row('found', failure.found), ...row('wanted', failure.wanted)));
    } else {
      told.append(made('div', {}, ...withCode(message.sentence)));
    }
    return told;
  }
}

const FAULT_TITLES = { 1: 'the assertion after `fi` fails', 2: 'the assertion of the loop fails', 3: 'a local ends with another value' };
const faultTitle = ({ number, name }) => FAULT_TITLES[number] ?? spaced(name);

// How a run ended that neither finished nor met a fault.
function ended(answer, steps) {
  switch (answer.status) {
    case 6: return `The run reached its limit of ${Number(steps).toLocaleString('en')} machine steps.`;
    case 7: return 'There was not enough memory for this.';
    case 8: return 'The input or a limit does not fit.';
    default: return answer.stopped ?? (answer.text || `The program ended with status ${answer.status}.`);
  }
}
