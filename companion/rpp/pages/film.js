/* The film of a run: the program with the statement that comes next, the store as boxes and arrows, the active calls, and a
 * slider over all positions of the run. It needs film.css and nothing else. Called so:
 *
 *   const film = RooplFilm.show(element, data, options);   draws into the element, whose content it replaces
 *   film.go(index);                                        shows the position of this index, from 0
 *   film.index();                                          the index of the position that is shown
 *   film.remove();                                         empties the element and listens to no key any more
 *
 * data is plain:
 *   source      the text of the program
 *   name        what the heading calls it (may be missing)
 *   positions   the positions of the run in their order, each
 *     place       the place of its statement in bytes, as the program prints it; null at the end of the run
 *     depth       how many calls are open; 0 at the end
 *     uncalled    true where its statement is in a body that is being undone
 *     variables   a list of [name, value] as `regs` prints them; a value is a text: '7', 'nil' or '#3'
 *     objects     a list of {name: '#3', head: 'Node', count: 1, cells: [[name, value], ..]} as `cells` prints them;
 *                 in the place of an object may stand a number, which is its index in data.objects
 *     note        what the program says there besides the place, as 'fault 3 Delocal' (may be missing)
 *     end         the byte after what is marked, if that is no statement but a test that fails (may be missing)
 *   objects     the objects that positions name by their index (may be missing)
 *   rest        what is said at the last position if the run goes on after it (may be missing)
 * options (may be missing):
 *   start       the index that is shown first
 *   keys        the target on which keys are heard: `document` for a page of its own, else the element itself is taken
 *   onmove      a function that is called with the index after each move
 *
 * Keys: left and right one statement, with shift over calls; home and end.
 * RooplFilm.read(source, printed) makes the positions of what `trace` printed for a script of the lines
 * `step 0`, `regs`, `cells 1 1000`, and then any number of times `step 1`, `regs`, `cells 1 1000`. */
globalThis.RooplFilm = (() => {
  'use strict';

  // ---- the text of the program

  const TOKEN = /\/\/[^\n]*|[A-Za-z][\w']*|\d+|<=>|[-+^]=|&&|\|\||[<>!]=|::|[^\s]/g;

  function tokensOf(text) {
    return [...text.matchAll(TOKEN)].filter(found => !found[0].startsWith('//'))
      .map(found => ({text: found[0], at: found.index, end: found.index + found[0].length}));
  }

  /* A function from places in bytes to indices of the text. */
  function indexOfByte(text) {
    if (/^[\x00-\x7f]*$/.test(text)) {
      return place => place;
    }
    const indices = [];
    let index = 0;
    for (const character of text) {
      const bytes = new TextEncoder().encode(character).length;
      indices.push(...Array(bytes).fill(index));
      index += character.length;
    }
    indices.push(index);
    return place => indices[place];
  }

  function afterBracket(tokens, first) {
    let depth = 0;
    for (let next = first; next < tokens.length; next++) {
      depth += '([' .includes(tokens[next].text) ? 1 : ')]'.includes(tokens[next].text) ? -1 : 0;
      if (depth === 0) {
        return next + 1;
      }
    }
    return tokens.length;
  }

  const isToken = (tokens, index, ...texts) => index < tokens.length && texts.includes(tokens[index].text);

  function afterPlace(tokens, first) {
    return isToken(tokens, first + 1, '[') ? afterBracket(tokens, first + 1) : first + 1;
  }

  function afterExpression(tokens, first) {
    const operators = ['*', '/', '%', '+', '-', '<', '>', '<=', '>=', '=', '!=', '&', '^', '|', '&&', '||'];
    let next = first - 1;
    do {
      next = isToken(tokens, next + 1, '(') ? afterBracket(tokens, next + 1) : afterPlace(tokens, next + 1);
    } while (isToken(tokens, next, ...operators));
    return next;
  }

  function afterWord(tokens, first, word) {
    const found = tokens.findIndex((token, index) => index > first && token.text === word);
    return found < 0 ? tokens.length : found + 1;
  }

  /* The index behind the last token of the statement that begins at a token; of one with blocks, of its head. */
  function afterHead(tokens, first) {
    switch (tokens[first].text) {
      case 'skip': return first + 1;
      case 'if': return afterWord(tokens, first, 'then');
      case 'from': return afterWord(tokens, first, 'do');
      case 'construct': return first + 3;
      case 'local': return afterExpression(tokens, afterWord(tokens, first, '='));
      case 'new': case 'delete': return afterPlace(tokens, afterPlace(tokens, first + 1));
      case 'copy': case 'uncopy': return afterPlace(tokens, afterPlace(tokens, afterPlace(tokens, first + 1)));
      case 'call': case 'uncall': {
        const name = afterPlace(tokens, first + 1);
        return afterBracket(tokens, isToken(tokens, name, '::') ? name + 2 : name);
      }
      default: return afterExpression(tokens, afterPlace(tokens, first) + 1);
    }
  }

  /* The program's text, its tokens, its methods, and the statements at places. */
  class Program {
    constructor(text) {
      this.text = text;
      this.tokens = tokensOf(text);
      this.indexOf = indexOfByte(text);
      this.byPlace = new Map(this.tokens.map((token, index) => [token.at, index]));
      this.methods = [];
      let owner = '';
      this.tokens.forEach((token, index) => {
        const name = this.tokens[index + 1]?.text;
        if (token.text === 'class') {
          owner = name;
        } else if (token.text === 'method') {
          this.methods.push({at: token.at, name: `${owner}::${name}`});
        }
      });
    }

    /* The texts of the tokens of the statement at a place, and its span in the text; null where none is. */
    statement(place) {
      const first = this.byPlace.get(this.indexOf(place));
      if (place === null || first === undefined) {
        return null;
      }
      const own = this.tokens.slice(first, afterHead(this.tokens, first));
      return {words: own.map(token => token.text), at: own[0].at, end: own[own.length - 1].end};
    }

    /* The span that a position marks in the text; null at the end of the run. */
    span(position) {
      return position.end === undefined ? this.statement(position.place) :
        {at: this.indexOf(position.place), end: this.indexOf(position.end)};
    }

    method(place) {
      const index = place === null ? -1 : this.indexOf(place);
      return this.methods.filter(method => method.at <= index).pop()?.name ?? 'main';
    }

    line(place) {
      return this.text.slice(0, this.indexOf(place)).split('\n').length;
    }
  }

  // ---- what trace printed

  /* The positions of a run, of the lines that `trace` printed. */
  function read(source, printed) {
    const positions = [];
    let object = null;
    for (const line of printed.split('\n')) {
      const at = /^at (\d+) (?:place (\d+) depth (\d+)|end)(?: (.*))?$/.exec(line);
      const head = /^(#\d+) (\S+) count (\d+)$/.exec(line);
      const cell = /^( *)(\S+) = (\S+)$/.exec(line);
      if (at) {
        const note = at[4] && at[4] !== 'start' ? at[4] : '';
        if (positions.length && positions[positions.length - 1].at === Number(at[1])) {
          positions.pop();
        }
        positions.push({at: Number(at[1]), place: at[2] ? Number(at[2]) : null, depth: Number(at[3] ?? 0), note,
          variables: [], objects: []});
      } else if (head) {
        object = {name: head[1], head: head[2], count: Number(head[3]), cells: []};
        positions[positions.length - 1].objects.push(object);
      } else if (cell) {
        (cell[1] ? object.cells : positions[positions.length - 1].variables).push([cell[2], cell[3]]);
      }
    }
    return withDirections(new Program(source), positions);
  }

  /* A body runs backward where an odd number of the calls that are open round it are written `uncall`. */
  function withDirections(program, positions) {
    const open = [false];
    positions.forEach((position, index) => {
      if (index > 0 && position.depth > positions[index - 1].depth) {
        const turned = program.statement(positions[index - 1].place)?.words[0] === 'uncall';
        open.push(open[open.length - 1] !== turned);
      }
      open.length = Math.max(1, Math.min(open.length, position.depth));
      position.uncalled = open[open.length - 1];
    });
    return positions;
  }

  // ---- the run

  const isReference = value => /^#\d+$/.test(value);

  /* The positions with the call that each is in, and the object on which its method runs. */
  class Run {
    constructor(data) {
      this.program = new Program(data.source);
      this.positions = data.positions;
      this.shared = data.objects ?? [];
      this.frames = [];
      this.positions.forEach((position, index) => this.frames.push(this.frameAt(position, index)));
    }

    objects(index) {
      return this.positions[index].objects.map(object => typeof object === 'number' ? this.shared[object] : object);
    }

    object(index, name) {
      return this.objects(index).find(object => object.name === name);
    }

    frameAt(position, index) {
      if (index === 0) {
        return {call: -1, self: position.depth <= 1 ? '#1' : null, outer: null};
      }
      let frame = this.frames[index - 1];
      const depth = this.positions[index - 1].depth;
      if (position.depth > depth) {
        return {call: index - 1, self: this.receiver(index - 1), outer: frame};
      }
      for (let left = depth - position.depth; left > 0 && frame.outer; left--) {
        frame = frame.outer;
      }
      return frame;
    }

    /* The object on which the call at a position runs its method; null where that is not to be seen. */
    receiver(index) {
      const words = this.program.statement(this.positions[index].place)?.words ?? [];
      if (words[2] === '(') {
        return this.frames[index].self;
      }
      if (words[2] === '::') {
        return this.value(index, words[1]);
      }
      // (the element is exchanged for nil by a statement of its own, or by the call itself)
      return this.lost(words[1], index - 1, index) ?? this.lost(words[1], index, index + 1);
    }

    value(index, name) {
      return this.positions[index].variables.filter(variable => variable[0] === name).pop()?.[1] ?? null;
    }

    /* The reference that was in the array of this name at one position, and is not at the next one. */
    lost(name, index, next) {
      if (index < 0 || next >= this.positions.length || this.positions[index].depth > this.positions[next].depth) {
        return null;
      }
      const array = this.value(index, name), now = this.object(next, array);
      const isLost = ([, value], at) => isReference(value) && now?.cells[at]?.[1] === 'nil';
      return this.object(index, array)?.cells.find(isLost)?.[1] ?? null;
    }

    /* The parameters and locals of the method at a position: its variables behind the fields of its object. */
    locals(index) {
      const self = this.positions[index].place === null ? '#1' : this.frames[index].self;
      const fields = this.object(index, self)?.cells.length ?? 0;
      return this.positions[index].variables.slice(fields);
    }

    /* The active calls at a position, the innermost first: the index of the statement in each, and its object. */
    calls(index) {
      const calls = [];
      let at = index;
      for (let frame = this.frames[index]; frame && this.positions[index].place !== null; frame = frame.outer) {
        calls.push({at, self: frame.self, position: this.positions[at], method: this.program.method(this.positions[at].place)});
        at = frame.call;
      }
      return calls;
    }

    /* The names whose values have moved into the call at a position. */
    moved(index) {
      const words = this.program.statement(this.positions[index].place)?.words ?? [];
      const last = words.lastIndexOf('(');
      return [...words.slice(last + 1), ...(words[2] === '::' ? [words[1]] : [])];
    }

    /* The index of the next position in this direction at which no more calls are open. */
    over(index, way) {
      let next = index + way;
      while (this.positions[next + way] && this.positions[next].depth > this.positions[index].depth) {
        next += way;
      }
      return next;
    }
  }

  // ---- the picture of the store

  const CHARACTER = 8, ROW = 20, HEAD = 24, EDGE = 8, MARGIN = 30, GAP = 48, LEAST = 72, TALL = 6, GRID = 8;
  const OUTER_FRAMES = 3;

  function element(name, attributes, ...inner) {
    const made = name.startsWith('svg:') ? document.createElementNS('http://www.w3.org/2000/svg', name.slice(4))
      : document.createElement(name);
    for (const [key, value] of Object.entries(attributes ?? {})) {
      made.setAttribute(key, value);
    }
    made.append(...inner);
    return made;
  }

  /* The boxes of a position: its active calls with their variables, and its objects and arrays. */
  function boxesOf(run, index) {
    const calls = run.calls(index).slice(0, 1 + OUTER_FRAMES);
    const frames = calls.map((call, outer) => frameBox(run, call, outer)).filter((box, outer) => outer === 0 || box.rows.length);
    const own = run.calls(index)[0]?.self;
    return [...frames, ...run.objects(index).map(object => objectBox(run, index, object, own))];
  }

  function frameBox(run, call, outer) {
    const moved = outer ? run.moved(call.at) : [];
    const before = !outer && call.at > 0 && run.frames[call.at - 1] === run.frames[call.at] ? run.locals(call.at - 1) : null;
    const rows = run.locals(call.at).map(([name, value], at) => ({name, value: moved.includes(name) ? 'moved' : value,
      changed: before !== null && before[at]?.[1] !== value}));
    return {name: `call ${call.at}`, title: call.method, note: outer ? 'waits' : 'variables', rows,
      kind: outer ? 'film-outer' : 'film-frame', layer: 0};
  }

  function objectBox(run, index, object, own) {
    const before = index > 0 ? run.object(index - 1, object.name) : object;
    const rows = object.cells.map(([name, value], at) => ({name, value, changed: before?.cells[at]?.[1] !== value}));
    const isGrid = /^int\[/.test(object.head) && rows.length > 3;
    const isOwn = object.name === own, role = object.name === '#1' ? 'main' : `count ${object.count}`;
    return {name: object.name, title: `${object.name} ${object.head}`, note: isOwn ? `present, ${role}` : role,
      rows, kind: isOwn ? 'film-object film-own' : 'film-object', isGrid, isNew: !before,
      isCounted: before && before.count !== object.count};
  }

  function measured(box) {
    const longest = Math.max(0, ...box.rows.map(row => row.value.length + (box.isGrid ? 0 : row.name.length + 3)));
    box.cell = Math.max(longest, 3) * CHARACTER + 6;
    const columns = Math.min(GRID, box.rows.length);
    const body = box.isGrid ? columns * box.cell : longest * CHARACTER;
    box.width = Math.max(LEAST, body + 2 * EDGE, (box.title.length + box.note.length + 2) * CHARACTER + 2 * EDGE);
    box.height = HEAD + (box.isGrid ? Math.ceil(box.rows.length / GRID) * (ROW + 12) : box.rows.length * ROW) + 4;
    return box;
  }

  /* Each object's layer is its distance from the main object, or else from the variables. */
  function layered(boxes) {
    const byName = new Map(boxes.map(box => [box.name, box]));
    const held = boxes.filter(box => box.layer === 0).flatMap(box => box.rows.map(row => row.value));
    for (const root of ['#1', ...held, ...byName.keys()]) {
      const from = byName.get(root);
      let layer = from && from.layer === undefined ? [from] : [];
      for (let depth = 1; layer.length; depth++) {
        layer.forEach(box => box.layer = depth);
        const next = layer.flatMap(box => box.rows.map(row => byName.get(row.value)));
        layer = [...new Set(next)].filter(box => box && box.layer === undefined);
      }
    }
    return boxes;
  }

  /* The columns of boxes from left to right: a layer each, cut where it is tall. */
  function columnsOf(boxes) {
    const columns = [];
    for (let layer = 0; layer <= Math.max(...boxes.map(box => box.layer)); layer++) {
      const inside = boxes.filter(box => box.layer === layer);
      for (let first = 0; first < inside.length; first += TALL) {
        columns.push(inside.slice(first, first + TALL));
      }
    }
    return columns;
  }

  /* Gives each box its place: columns side by side in bands of the width. The size of the whole. */
  function placed(columns, width) {
    let left = MARGIN, top = 2 * EDGE, band = 0, bottom = 0, right = 0;
    for (const column of columns) {
      const wide = Math.max(...column.map(box => box.width));
      if (left > MARGIN && left + wide > width) {
        [left, top, band] = [MARGIN, bottom + GAP, band + 1];
      }
      let down = top;
      for (const box of column) {
        Object.assign(box, {left, top: down, band, gutter: top - GAP / 2, right: left + wide});
        down += box.height + ROW;
      }
      bottom = Math.max(bottom, down - ROW);
      right = Math.max(right, left + wide);
      left += wide + GAP;
    }
    return {width: right + EDGE + GAP / 2, height: bottom + EDGE};
  }

  /* The way from beside a box to beside another of another band: down to the next band, else by the left margin. */
  function wayBetweenBands(from, to, shift) {
    const [out, into] = [from, to].map(box => Math.max(box.gutter - 8 + shift, 2 + shift / 2));
    const margin = from.band + 1 === to.band ? '' : `V${out}H${4 + shift}`;
    return `H${from.right + 6 + shift}${margin}V${into}H${to.left - 26 + shift}`;
  }

  /* The line from a row of a box to the head of another; between bands in a lane of its own. */
  function arrowPath(from, at, to, lane) {
    const start = from.top + HEAD + (at + 0.5) * ROW, end = to.top + HEAD / 2;
    const right = from.left + from.width, far = to.left + to.width;
    if (from.band !== to.band) {
      return `M${right - 6} ${start}${wayBetweenBands(from, to, lane % 5 * 4)}V${end}H${to.left - 1}`;
    }
    if (to.left > right) {
      const bend = Math.max(20, (to.left - right) / 2);
      return `M${right - 6} ${start}C${right + bend} ${start} ${to.left - bend} ${end} ${to.left - 1} ${end}`;
    }
    if (far < from.left) {
      const bend = Math.max(20, (from.left - far) / 2);
      return `M${from.left + 2} ${start}C${from.left - bend} ${start} ${far + bend} ${end} ${far + 1} ${end}`;
    }
    return `M${right - 6} ${start}C${right + 36} ${start} ${far + 36} ${end} ${far + 1} ${end}`;
  }

  const label = (left, top, text, kind) => element('svg:text', {x: left, y: top, class: kind}, text);

  function rowParts(box, row, at) {
    const grid = {left: box.left + EDGE + at % GRID * box.cell, top: box.top + HEAD + Math.floor(at / GRID) * (ROW + 12)};
    const top = box.top + HEAD + at * ROW, changed = row.changed ? ' film-changed' : '';
    if (box.isGrid) {
      return [element('svg:rect', {x: grid.left, y: grid.top + 11, width: box.cell, height: ROW, class: 'film-cell' + changed}),
        label(grid.left + box.cell / 2, grid.top + 9, row.name.slice(1, -1), 'film-number'),
        label(grid.left + box.cell / 2, grid.top + 26, row.value, 'film-middle' + changed)];
    }
    return [element('svg:rect', {x: box.left + 2, y: top, width: box.width - 4, height: ROW, class: 'film-row' + changed}),
      label(box.left + EDGE, top + 15, row.name, 'film-field'),
      label(box.left + box.width - EDGE - (isReference(row.value) ? 6 : 0), top + 15, row.value, 'film-value' + changed)];
  }

  function boxParts(box) {
    const group = element('svg:g', {class: box.kind + (box.isNew ? ' film-new' : ''), 'data-name': box.name});
    group.append(
      element('svg:rect', {x: box.left, y: box.top, width: box.width, height: box.height, rx: 5, class: 'film-box'}),
      element('svg:path', {d: `M${box.left} ${box.top + HEAD - 2}h${box.width}`, class: 'film-rule'}),
      label(box.left + EDGE, box.top + 16, box.title, 'film-title'),
      label(box.left + box.width - EDGE, box.top + 16, box.note, 'film-note' + (box.isCounted ? ' film-changed' : '')),
      ...box.rows.flatMap((row, at) => rowParts(box, row, at)));
    return group;
  }

  function arrowsOf(boxes) {
    const byName = new Map(boxes.map(box => [box.name, box]));
    const arrows = [];
    for (const from of boxes) {
      from.rows.forEach((row, at) => {
        const to = isReference(row.value) && byName.get(row.value);
        if (to) {
          arrows.push({path: arrowPath(from, at, to, arrows.length), changed: row.changed ? ' film-changed' : ''});
        }
      });
    }
    return arrows;
  }

  const POINTER = 'M0 0L9 4L0 8z';

  function pointer(name, kind) {
    return element('svg:marker', {id: name, viewBox: '0 0 9 8', refX: 8, refY: 4, markerWidth: 9, markerHeight: 8,
      orient: 'auto', markerUnits: 'userSpaceOnUse'}, element('svg:path', {d: POINTER, class: kind}));
  }

  /* The picture of the store at a position, for a width. */
  function storePicture(run, index, width) {
    const boxes = layered(boxesOf(run, index).map(measured));
    const size = placed(columnsOf(boxes), Math.max(width - GAP / 2, 240));
    const arrows = arrowsOf(boxes).flatMap(arrow => [
      element('svg:path', {d: arrow.path, class: 'film-halo'}),
      element('svg:path', {d: arrow.path, class: 'film-arrow' + arrow.changed,
        'marker-end': `url(#film-pointer${arrow.changed ? '-changed' : ''})`})]);
    return element('svg:svg', {width: size.width, height: size.height, role: 'img', class: 'film-store',
      'aria-label': `The store: ${run.objects(index).length} objects and arrays; as text below.`},
    element('svg:defs', {}, pointer('film-pointer', 'film-pointer'),
      pointer('film-pointer-changed', 'film-pointer film-changed')),
    ...boxes.map(boxParts), ...arrows);
  }

  /* The variables and objects of a position in the words of the program. */
  function printed(run, index) {
    const lines = run.positions[index].variables.map(([name, value]) => `${name} = ${value}`);
    for (const object of run.objects(index)) {
      lines.push(`${object.name} ${object.head} count ${object.count}`);
      lines.push(...object.cells.map(([name, value]) => `  ${name} = ${value}`));
    }
    return lines.join('\n');
  }

  // ---- the line of time

  /* A picture of the depth of calls over the run, in the colours of the two directions. */
  function timePicture(positions) {
    const deepest = Math.max(1, ...positions.map(position => position.depth));
    const bars = [];
    for (let first = 0, next = 0; first < positions.length; first = next) {
      const {depth, uncalled} = positions[first];
      for (next = first; next < positions.length && positions[next].depth === depth && positions[next].uncalled === uncalled;) {
        next++;
      }
      const height = Math.max(depth, 0.25);
      bars.push(element('svg:rect', {x: first, y: deepest - height, width: next - first, height,
        class: uncalled ? 'film-undone' : 'film-forward'}));
    }
    const here = element('svg:rect', {x: 0, y: 0, width: 1, height: deepest, class: 'film-here'});
    const picture = element('svg:svg', {viewBox: `0 0 ${positions.length} ${deepest}`, preserveAspectRatio: 'none',
      class: 'film-time', 'aria-hidden': 'true'}, ...bars, here);
    return {picture, here};
  }

  // ---- the view

  const PARTS = `
    <div class="film-bar">
      <div class="film-buttons">
        <button type="button" data-go="first" title="to the start (home)">&#x21E4; start</button>
        <button type="button" data-go="over-back" title="back, over a call (shift and left)">&#x2190; over</button>
        <button type="button" data-go="back" title="back one statement (left)">&#x2190; back</button>
        <button type="button" data-go="forward" title="forward one statement (right)">forward &#x2192;</button>
        <button type="button" data-go="over" title="forward, over a call (shift and right)">over &#x2192;</button>
        <button type="button" data-go="last" title="to the end (end)">end &#x21E5;</button>
      </div>
      <p class="film-status" role="status"></p>
      <div class="film-line"><input type="range" min="0" value="0" aria-label="position in the run"></div>
    </div>
    <div class="film-panes">
      <section class="film-program"><h3>Program</h3>
        <div class="film-scroll" tabindex="0"><ol class="film-lines"></ol></div></section>
      <section class="film-memory"><h3>Variables and objects</h3><div class="film-scroll" tabindex="0"></div>
        <details><summary>As text</summary><pre class="film-text"></pre></details></section>
      <section class="film-calls"><h3>Open calls</h3><ol></ol></section>
    </div>`;

  class View {
    constructor(root, data, options) {
      this.run = new Run(data);
      this.root = root;
      this.options = options;
      this.at = -1;
      root.classList.add('film');
      root.innerHTML = PARTS;
      this.find = name => root.querySelector(name);
      this.last = data.positions.length - 1;
      this.rest = data.rest;
      this.time = timePicture(data.positions);
      this.find('.film-line').prepend(this.time.picture);
      this.find('input').max = this.last;
      this.lines = this.sourceLines(data.source);
      this.find('.film-lines').append(...this.lines.map(line => line.item));
      this.find('.film-lines').style.setProperty('--film-digits', String(this.lines.length).length);
      this.marked = [];
      this.listen();
      this.go(options.start ?? 0);
    }

    sourceLines(source) {
      let at = 0;
      return source.replace(/\n$/, '').split('\n').map(text => {
        const line = {text, at, item: element('li', {}, text || ' ')};
        at += text.length + 1;
        return line;
      });
    }

    listen() {
      this.ending = new AbortController();
      const {signal} = this.ending;
      const keys = this.options.keys ?? this.root;
      keys.addEventListener('keydown', event => this.key(event), {signal});
      this.find('.film-buttons').addEventListener('click', event => this.move(event.target.dataset.go), {signal});
      this.find('input').addEventListener('input', event => this.go(Number(event.target.value)), {signal});
      this.time.picture.addEventListener('click', event => this.timeClicked(event), {signal});
      this.find('.film-calls').addEventListener('click', event => this.callClicked(event), {signal});
      this.watcher = new ResizeObserver(() => this.drawStore());
      this.watcher.observe(this.find('.film-memory'));
    }

    key(event) {
      const way = {ArrowLeft: 'back', ArrowRight: 'forward', Home: 'first', End: 'last'}[event.key];
      const isTyping = event.target.closest?.('textarea, select, [contenteditable], input:not([type=range])');
      if (!way || isTyping || event.altKey || event.ctrlKey || event.metaKey) {
        return;
      }
      event.preventDefault();
      this.move(event.shiftKey && way === 'back' ? 'over-back' : event.shiftKey && way === 'forward' ? 'over' : way);
    }

    move(way) {
      const to = {first: () => 0, last: () => this.last, back: () => this.at - 1, forward: () => this.at + 1,
        over: () => this.run.over(this.at, 1), 'over-back': () => this.run.over(this.at, -1)}[way];
      if (to) {
        this.go(to());
      }
    }

    timeClicked(event) {
      const box = this.time.picture.getBoundingClientRect();
      this.go(Math.floor((event.clientX - box.left) / box.width * (this.last + 1)));
    }

    callClicked(event) {
      const call = event.target.closest('[data-at]');
      if (call) {
        this.go(Number(call.dataset.at));
      }
    }

    go(index) {
      const to = Math.max(0, Math.min(this.last, Math.floor(index) || 0));
      if (to !== this.at && this.last >= 0) {
        this.at = to;
        this.draw();
        this.options.onmove?.(to);
      }
    }

    draw() {
      this.root.dataset.index = this.at;
      this.find('input').value = this.at;
      this.time.here.setAttribute('x', this.at);
      this.drawStatus();
      this.drawSource();
      this.drawCalls();
      this.drawStore();
      this.find('.film-text').textContent = printed(this.run, this.at);
      for (const button of this.root.querySelectorAll('[data-go]')) {
        // (not `disabled`, by which a button loses the focus)
        button.setAttribute('aria-disabled', this.at === (/first|back/.test(button.dataset.go) ? 0 : this.last));
      }
    }

    drawStatus() {
      const position = this.run.positions[this.at], isEnd = position.place === null;
      const place = isEnd ? 'end of the run' : `line ${this.run.program.line(position.place)}`;
      const count = isEnd ? '' : `, ${position.depth} ${position.depth === 1 ? 'call' : 'calls'} open`;
      this.find('.film-status').replaceChildren(
        element('span', {class: 'film-count'}, `${this.at} of ${this.last}`), `${place}${count}`,
        ...isEnd ? [] : [element('span', {class: position.uncalled ? 'film-tag film-undone' : 'film-tag film-forward'},
          position.uncalled ? '\u21B6 undone' : '\u2192 forward')],
        ...position.note ? [element('strong', {class: 'film-fault'}, position.note)] : [],
        ...this.rest && this.at === this.last ? [element('span', {class: 'film-rest'}, this.rest)] : []);
    }

    drawSource() {
      for (const line of this.marked) {
        line.item.replaceChildren(line.text || ' ');
        line.item.removeAttribute('aria-current');
        line.item.className = '';
      }
      this.marked = [];
      const outer = this.run.calls(this.at);
      outer.slice(1).forEach(call => this.mark(call.position, 'film-waits'));
      this.mark(this.run.positions[this.at], '');
    }

    /* Marks the statement of a position. */
    mark(position, kind) {
      const span = this.run.program.span(position);
      const name = kind || (position.note ? 'film-fault' : position.uncalled ? 'film-undone' : 'film-forward');
      for (const line of span ? this.lines.filter(line => line.at < span.end && line.at + line.text.length >= span.at) : []) {
        const from = Math.max(0, span.at - line.at), to = span.end - line.at;
        line.item.replaceChildren(line.text.slice(0, from), element('mark', {class: name}, line.text.slice(from, to)),
          line.text.slice(to));
        line.item.className = kind ? 'film-waiting' : 'film-present ' + name;
        this.marked.push(line);
        if (!kind && line.at + from === span.at) {
          line.item.setAttribute('aria-current', 'step');
          this.bringUp(line.item);
        }
      }
    }

    /* Scrolls the program, and nothing else, so that a line can be seen. */
    bringUp(item) {
      const pane = this.find('.film-program .film-scroll');
      const line = item.getBoundingClientRect(), box = pane.getBoundingClientRect();
      if (line.top < box.top + 2 * line.height || line.bottom > box.bottom - 2 * line.height) {
        pane.scrollTop += line.top - box.top - box.height / 2;
      }
    }

    drawCalls() {
      this.find('.film-calls ol').replaceChildren(...this.run.calls(this.at).map((call, outer) => {
        const on = call.self ? ` on ${call.self}` : '';
        const text = `${call.method}${on}, line ${this.run.program.line(call.position.place)}`;
        const kind = call.position.uncalled ? 'film-undone' : 'film-forward';
        const waits = {type: 'button', 'data-at': call.at, title: 'to the call that waits here'};
        return element('li', {class: kind}, outer ? element('button', waits, text) : text,
          call.position.uncalled ? ' \u21B6 undone' : '');
      }));
    }

    drawStore() {
      const pane = this.find('.film-memory .film-scroll');
      const width = pane?.clientWidth;
      if (width) {
        pane.replaceChildren(storePicture(this.run, this.at, width));
      }
    }

    remove() {
      this.ending.abort();
      this.watcher.disconnect();
      this.root.classList.remove('film');
      this.root.replaceChildren();
    }
  }

  function show(root, data, options = {}) {
    const view = new View(root, data, options);
    return {go: index => view.go(index), index: () => view.at, remove: () => view.remove()};
  }

  return {show, read};
})();
