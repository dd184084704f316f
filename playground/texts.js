// What the program prints, read into plain data. docs/reference/formats.md has the form of these texts.
'use strict';

const REFUSED = /^refused (\d+) (\w+)(?: at (\d+))?$/m;
const FAULT = /^fault (-?\d+)(?: (\w+))?$/m;
const STATE = /^at (\d+) pc (-?\d+) br (-?\d+) dir (-?1)(?: (.*))?$/;

// The refusal that a text reports: its number, its name and its place.
function refusalOf(text) {
  const found = REFUSED.exec(text);
  return found && { number: Number(found[1]), name: found[2], place: found[3] && Number(found[3]) };
}

// The fault that a text reports.
function faultOf(text) {
  const found = FAULT.exec(text);
  return found && { number: Number(found[1]), name: found[2] ?? '' };
}

// A listing: its cells, its marks with their cells and places, the number of static words, and the names of the main
// object's int fields with their cells.
function listingOf(text) {
  const cells = [], marks = [], cellNames = [];
  let statics = 0;
  for (const line of text.split('\n')) {
    const words = line.split(' ');
    if (words[0] === 'MARK') marks.push({ first: Number(words[1]), behind: Number(words[2]), place: Number(words[3]) });
    else if (words[0] === 'NAME') cellNames.push([Number(words[1]), words[2]]);
    else if (words[0] === 'STATIC') statics++;
    else if (line !== '') cells.push(line);
  }
  return { cells, marks, statics, cellNames };
}

// A state that a script of the machine's debugger shows. The registers and cells that follow it are read when they are
// asked for.
class State {
  constructor(line, printed) {
    const [at, place, branch, direction] = line.slice(1, 5).map(Number);
    Object.assign(this, { at, place, branch, direction, said: line[5] ?? '', printed });
  }

  get registers() { return this.parts.registers; }

  get cells() { return this.parts.cells; }

  get parts() {
    if (this.read) return this.read;
    this.read = { registers: new Map(), cells: new Map() };
    for (const line of this.printed.split('\n')) {
      const [name, value] = line.split(' = ');
      if (line.startsWith('cell ')) this.read.cells.set(Number(name.slice(5)), value);
      else if (line.startsWith('$')) this.read.registers.set(name, value);
    }
    this.printed = '';
    return this.read;
  }
}

// The states that a script shows.
function statesOf(text) {
  const states = [];
  for (let at = 0, next; at < text.length; at = next) {
    const end = text.indexOf('\n', at) + 1 || text.length, found = STATE.exec(text.slice(at, end).trimEnd());
    next = text.startsWith('at ', end) ? end : text.indexOf('\nat ', end) + 1 || text.length;
    if (found) states.push(new State(found, text.slice(end, next)));
  }
  return states;
}

// What `fault` says, if something fails: the fault, the word of its test, the place of the statement, what the test
// found and needed, and how many calls are open.
function failingOf(text) {
  const found = /^test (\w+) at \d+ of (\d+)\n(?:found (.*)\nwanted (.*)\n)?depth (\d+)$/m.exec(text);
  return found && { ...faultOf(text), word: found[1], place: Number(found[2]), is: found[3], needed: found[4], depth: Number(found[5]) };
}

// A report, or what a session prints of a position: the fields of the main object or the variables, the objects and
// arrays, and the other lines.
function reportOf(text) {
  const fields = [], objects = new Map(), rest = [];
  let object;
  for (const line of text.split('\n')) {
    const cell = /^( *)(\S+) = (-?\d+|nil|#\d+)$/.exec(line), head = cell ? undefined : /^(#\d+) (\S+) count (\d+)$/.exec(line);
    if (cell) (cell[1] ? object.cells : fields).push([cell[2], cell[3]]);
    else if (head) objects.set(head[1], object = { name: head[1], head: head[2], count: Number(head[3]), cells: [] });
    else rest.push(line);
  }
  return { fields, objects, rest };
}

// Where a place in bytes is in a text: the index, line and column from 0, and the whole line.
function spotOf(text, place) {
  const bytes = new TextEncoder().encode(text);
  const before = new TextDecoder().decode(bytes.slice(0, place)).split('\n');
  const line = before.length - 1, column = before[line].length;
  return { index: before.join('\n').length, line, column, text: text.split('\n')[line] ?? '' };
}
