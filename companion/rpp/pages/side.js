/* A program beside its inverse, laid out, with the lines that belong together. It needs side.css and nothing else. Called so:
 *
 *   const side = RooplSide.show(element, data);   draws into the element, whose content it replaces
 *   side.select(number, column);                  selects the line of this number, from 1, of 'program' or 'inverse'
 *   side.remove();                                empties the element
 *
 * data is plain:
 *   program   the text that `show-inverse` writes of the inverse
 *   inverse   the text that `show-inverse` writes of the program
 *
 * The arrows up and down go along a column, those left and right to the line of the other column that belongs to it.
 * RooplSide.lines(data) gives the lines of both columns without drawing: {program, inverse}, each a list of
 * {indent, text, partner} with the index of the line of the other column. */
globalThis.RooplSide = (() => {
  'use strict';

  const OPENS = ['if', 'from', 'local', 'construct'], GOES_ON = ['else', 'loop'], CLOSES = ['fi', 'until', 'delocal', 'destruct'];
  const KEYWORDS = ['if', 'then', 'else', 'fi', 'from', 'do', 'loop', 'until', 'local', 'delocal', 'construct', 'destruct', 'new',
    'delete', 'copy', 'uncopy', 'call', 'uncall', 'skip', 'class', 'inherits', 'method', 'int', 'nil'];

  // ---- the lines of a printed text

  /* Words with a space between two of them, but where none is usual. */
  function joined(words) {
    return words.reduce((text, word, at) => {
      const before = words[at - 1];
      const isCall = word === '(' && /^[A-Za-z]/.test(before) && !KEYWORDS.includes(before);
      const isTight = isCall || [')', ']', '[', ',', '::'].includes(word) || ['(', '[', '::'].includes(before);
      return text + (at === 0 || isTight ? '' : ' ') + word;
    }, '');
  }

  /* The words of a printed line, cut before each word that goes on with or closes a statement. */
  function pieces(line) {
    const cut = [[]];
    for (const word of line.split(' ')) {
      if (GOES_ON.includes(word) || CLOSES.includes(word)) {
        cut.push([]);
      }
      cut[cut.length - 1].push(word);
    }
    return cut.filter(piece => piece.length);
  }

  /* A class's head, and each of its fields. */
  function classPieces(words) {
    const head = words[2] === 'inherits' ? 4 : 2, cut = [words.slice(0, head)];
    for (let at = head; at < words.length;) {
      const next = at + (words[at + 1] === '[' ? 4 : 2);
      cut.push(words.slice(at, next));
      at = next;
    }
    return cut;
  }

  /* The lines of a text as `show-inverse` writes it; the heads, which keep their order in the inverse; and the block of each
   * method. A block is a list of statements, a statement a list of its lines with its blocks between them. */
  class LaidOut {
    constructor(text) {
      this.lines = [];
      this.heads = [];
      this.methods = [];
      this.open = [];
      for (const printed of text.trim().split('\n')) {
        const words = printed.split(' ');
        if (words[0] === 'class') {
          classPieces(words).forEach((piece, at) => this.heads.push(this.line(piece, at ? 1 : 0)));
        } else if (words[0] === 'method') {
          this.heads.push(this.line(words, 0));
          this.block = [];
          this.methods.push(this.block);
        } else {
          pieces(printed).forEach(piece => this.piece(piece));
        }
      }
    }

    line(words, indent) {
      this.lines.push({indent, text: joined(words)});
      return this.lines.length - 1;
    }

    piece(words) {
      const last = this.open[this.open.length - 1];
      if (OPENS.includes(words[0])) {
        const statement = [this.line(words, this.open.length + 1), []];
        this.block.push(statement);
        this.open.push({statement, around: this.block});
        this.block = statement[1];
      } else if (GOES_ON.includes(words[0])) {
        this.block = [];
        last.statement.push(this.line(words, this.open.length), this.block);
      } else if (CLOSES.includes(words[0])) {
        last.statement.push(this.line(words, this.open.length));
        this.block = last.around;
        this.open.pop();
      } else {
        this.block.push([this.line(words, this.open.length + 1)]);
      }
    }
  }

  /* Pairs the lines of two blocks that are each other's inverse: statements the last first, a head with a foot. */
  function pairBlocks(one, other, pair) {
    one.forEach((statement, at) => {
      const partner = other[other.length - 1 - at], last = statement.length - 1;
      pair(statement[0], partner[last]);
      pair(statement[last], partner[0]);
      for (let part = 1; part < last; part++) {
        if (Array.isArray(statement[part])) {
          pairBlocks(statement[part], partner[part], pair);
        } else {
          pair(statement[part], partner[part]);
        }
      }
    });
  }

  function lines(data) {
    const program = new LaidOut(data.program), inverse = new LaidOut(data.inverse);
    const pair = (one, other) => {
      program.lines[one].partner = other;
      inverse.lines[other].partner = one;
    };
    program.heads.forEach((head, at) => pair(head, inverse.heads[at]));
    program.methods.forEach((block, at) => pairBlocks(block, inverse.methods[at], pair));
    return {program: program.lines, inverse: inverse.lines};
  }

  // ---- the view

  const COLUMNS = ['program', 'inverse'];
  const other = column => column === 'program' ? 'inverse' : 'program';

  function made(name, attributes, ...inner) {
    const element = name.startsWith('svg:') ? document.createElementNS('http://www.w3.org/2000/svg', name.slice(4))
      : document.createElement(name);
    Object.entries(attributes).forEach(([key, value]) => element.setAttribute(key, value));
    element.append(...inner);
    return element;
  }

  class View {
    constructor(root, data) {
      this.root = root;
      this.lines = lines(data);
      this.items = {};
      this.drawing = made('svg:svg', {class: 'side-links', 'aria-hidden': 'true'});
      const [left, right] = COLUMNS.map(column => this.column(column));
      root.classList.add('side');
      root.replaceChildren(left, this.drawing, right);
      this.ending = new AbortController();
      root.addEventListener('keydown', event => this.key(event), {signal: this.ending.signal});
      root.addEventListener('focusin', event => this.chosen(event.target), {signal: this.ending.signal});
      root.addEventListener('pointerover', event => this.chosen(event.target), {signal: this.ending.signal});
      this.watcher = new ResizeObserver(() => this.drawLinks());
      this.watcher.observe(root);
      this.select(0, 'program');
    }

    column(column) {
      const title = column === 'program' ? 'Program' : 'Inverse, numbered by what it undoes';
      this.items[column] = this.lines[column].map((line, index) => {
        const number = column === 'program' ? index + 1 : line.partner + 1;
        const kind = /^(class|method) /.test(line.text) ? 'side-head' : '';
        return made('li', {tabindex: -1, class: kind, 'data-column': column, 'data-index': index},
          made('span', {class: 'side-number'}, String(number)), '  '.repeat(line.indent) + line.text);
      });
      return made('section', {class: `side-${column}`}, made('h3', {}, title), made('ol', {}, ...this.items[column]));
    }

    chosen(target) {
      const item = target.closest?.('li[data-column]');
      if (item) {
        this.select(Number(item.dataset.index), item.dataset.column);
      }
    }

    select(index, column) {
      for (const item of this.root.querySelectorAll('.side-here, .side-partner')) {
        item.classList.remove('side-here', 'side-partner');
        item.tabIndex = -1;
      }
      const item = this.items[column][index], partner = this.lines[column][index].partner;
      this.selected = {column, index};
      item.classList.add('side-here');
      item.tabIndex = 0;
      item.setAttribute('aria-description', `belongs to line ${partner + 1} of the ${other(column)}`);
      this.items[other(column)][partner].classList.add('side-partner');
      this.drawLinks();
    }

    key(event) {
      const {column, index} = this.selected;
      const {[event.key]: item} = {ArrowUp: this.items[column][index - 1], ArrowDown: this.items[column][index + 1],
        [column === 'program' ? 'ArrowRight' : 'ArrowLeft']: this.items[other(column)][this.lines[column][index].partner]};
      if (item && !event.altKey && !event.ctrlKey && !event.metaKey) {
        event.preventDefault();
        item.focus();
        item.scrollIntoView({block: 'nearest'});
      }
    }

    /* Draws a line from each line of the program to the one of the inverse that undoes it. */
    drawLinks() {
      const box = this.drawing.getBoundingClientRect();
      const middle = item => {
        const line = item.getBoundingClientRect();
        return line.top + line.height / 2 - box.top;
      };
      const chosen = this.selected.column === 'program' ? this.selected.index : this.lines.inverse[this.selected.index].partner;
      const links = this.lines.program.map((line, index) => {
        const start = middle(this.items.program[index]), end = middle(this.items.inverse[line.partner]), half = box.width / 2;
        return made('svg:path', {d: `M0 ${start}C${half} ${start} ${half} ${end} ${box.width} ${end}`,
          class: index === chosen ? 'side-chosen' : 'side-link'});
      });
      links.push(...links.splice(chosen, 1));
      this.drawing.replaceChildren(...box.width ? links : []);
    }

    remove() {
      this.ending.abort();
      this.watcher.disconnect();
      this.root.classList.remove('side');
      this.root.replaceChildren();
    }
  }

  function show(root, data) {
    const view = new View(root, data);
    const within = (number, column) => Math.max(0, Math.min(number - 1, view.lines[column].length - 1));
    return {select: (number, column) => view.select(within(number, column), column), remove: () => view.remove()};
  }

  return {show, lines};
})();
