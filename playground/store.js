// The picture of the store at a position: the open calls at the left, the outermost on top, and the objects.
'use strict';

const MOST_CALLS = 7, PICTURE_RIGHT = 36;
// A layout is of at most so many stores of a long run, or of stores of at most so many characters in all.
const SAMPLES = 300, MOST_CHARACTERS = 1200000, LEAST_SIZE = 1000, LEAST_STORES = 24;
let pictures = 0;

function svg(name, attributes, ...inner) {
  const made = document.createElementNS('http://www.w3.org/2000/svg', name);
  for (const [key, value] of Object.entries(attributes ?? {})) if (value !== undefined) made.setAttribute(key, value);
  made.append(...inner);
  return made;
}

// Sets the attributes whose value is another one.
function setAttributes(element, attributes) {
  for (const [key, value] of Object.entries(attributes)) if (element.getAttribute(key) !== String(value)) element.setAttribute(key, value);
}

const svgText = (x, y, kind, text) => svg('text', { x, y, class: kind }, text);

// Stores of a run by which its objects get their places: all of a short run, and some of a long one.
async function storesOf(run) {
  const some = count => [...new Set(range(0, count + 1).map(at => Math.round(run.last * at / count)))];
  await run.ask(some(4));
  const size = Math.max(LEAST_SIZE, run.kept / run.looks.size), most = Math.max(LEAST_STORES, Math.floor(MOST_CHARACTERS / size));
  const indices = some(run.last < most ? Math.max(1, run.last) : Math.min(SAMPLES, most));
  await run.ask(indices);
  return indices.filter(it => run.look(it)).map(it => ({ index: it, objects: run.look(it).objects }));
}

class StorePicture {
  // The layout of a run is made once, for the pane in which it is first seen.
  static async of(run, pane) {
    const stores = await storesOf(run);
    const sizeOf = (index, object) => objectBox(run, index, object);
    const wide = Math.max(LEAST, ...stores.flatMap(({ index }) => callBoxes(run, index).map(box => box.width)));
    return new StorePicture(run, new Places(stores, sizeOf, pane, wide));
  }

  constructor(run, places) { Object.assign(this, { run, places, drawing: new Drawing() }); }

  // The boxes of a position, at their places.
  boxes(index) {
    const { run, places } = this, own = run.self(index), objects = run.objects(index);
    places.admit(objects, object => objectBox(run, index, object));
    const calls = callBoxes(run, index);
    let down = TOP;
    for (const box of calls) {
      Object.assign(box, { x: TOP, y: down });
      down += box.height + 8;
    }
    const folded = new Map(), shown = [];
    for (const object of objects) {
      const slot = places.slot(object.name), fold = places.foldOf(slot);
      if (!fold) shown.push(this.placed(objectBox(run, index, object, own), places.boxes.get(slot)));
      else if (folded.has(fold)) folded.get(fold).push({ slot, object });
      else folded.set(fold, [{ slot, object }]);
    }
    return { calls, objects: [...shown, ...[...folded].flatMap(([fold, members]) => this.foldBoxes(fold, members, index))], down };
  }

  placed(box, { x, y }) { return Object.assign(box, { x: TOP + this.places.left + x, y: TOP + y }); }

  // The box of a fold with a cell for each member, and one member in full: the present object, or one that has changed.
  foldBoxes(fold, members, index) {
    const { run } = this, self = run.self(index), title = `${members.length} × ${fold.head}`;
    const frame = this.placed({ name: `fold ${fold.head}`, title, note: 'folded', rows: [], width: fold.width, height: fold.height, kind: 'fold' },
      this.places.boxes.get(`fold ${fold.head}`));
    frame.cells = members.map(({ slot, object }) => {
      const spot = fold.spot(slot), isOwn = object.name === self;
      return { name: object.name, value: shownValue(object), x: frame.x + spot.x, y: frame.y + spot.y, width: fold.cell - 2, height: FOLD_ROW - 2,
        isOwn, changed: isChanged(run, index, object) };
    });
    const at = Math.max(frame.cells.findIndex(it => it.isOwn), frame.cells.some(it => it.isOwn) ? 0 : frame.cells.findIndex(it => it.changed));
    if (at < 0) return [frame];
    const lens = objectBox(run, index, members[at].object, self);
    return [frame, Object.assign(lens, { x: frame.x + EDGE, y: frame.y + HEAD + 4 + fold.grid + FOLD_LENS, isLens: true })];
  }

  // Draws a position, and leaves the elements that it has in common with the last one; a figure has its own. `seen` are
  // the boxes that are to be kept in sight.
  draw(index, isFigure = false) {
    const { calls, objects, down } = this.boxes(index), byName = new Map(), drawing = isFigure ? new Drawing() : this.drawing;
    for (const box of objects) for (const cell of box.cells ?? []) byName.set(cell.name, { box, spot: cell });
    for (const box of objects) if (!box.cells && !box.isLens) byName.set(box.name, { box });
    drawing.begin();
    const arrows = this.arrows([...calls, ...objects], byName, drawing), { places } = this;
    const width = Math.ceil(TOP + PICTURE_RIGHT + places.width), height = Math.ceil(Math.max(places.tall + 2 * TOP, down + TOP));
    const count = this.run.objects(index).length, label = `The store: ${count} ${count === 1 ? 'object' : 'objects'}. The same follows as text.`;
    drawing.show({ viewBox: `0 0 ${width} ${height}`, 'aria-label': label }, [...objects.filter(it => it.cells).map(it => drawing.fold(it)),
      ...arrows.lines, ...calls.map(it => drawing.box(it)), ...objects.filter(it => !it.cells).map(it => drawing.box(it)), ...arrows.roots]);
    const focus = calls.find(box => box.kind === 'inner');
    const held = objects.find(box => box.isOwn && !box.isMain) ?? objects.find(box => box.rows.some(row => row.changed));
    return { drawn: drawing.svg, width, height, seen: [focus, held].filter(Boolean) };
  }

  arrows(boxes, byName, drawing) {
    const lines = [], roots = [], ways = new Ways(boxes.filter(it => !it.isLens), this.places);
    for (const from of boxes) {
      if (from.isGrid) continue;
      from.rows.forEach((row, at) => {
        const to = isReference(row.value) && byName.get(row.value);
        if (!to || (from.isLens && to.spot)) return;
        const y = from.y + HEAD + (at + 0.5) * ROW, kind = row.changed ? 'changed' : from.kind ? 'from-call' : '';
        const { d, start } = ways.way(from, y, to.box, to.spot), ends = { 'data-from': from.name, 'data-to': to.box.name };
        lines.push(...drawing.arrow(`${from.name} ${at}`, d, kind, ends));
        roots.push(drawing.root(`${from.name} ${at}`, kind, start[0], y));
      });
    }
    return { lines, roots };
  }

  // The store in words, for a screen reader and for copying.
  words(index) {
    const { run } = this, lines = run.calls(index).map(call => `in ${call.method}${call.self ? ` on ${call.self}` : ''}`);
    for (const [name, value] of run.locals(index)) lines.push(`  ${name} = ${value}`);
    for (const object of run.objects(index)) {
      lines.push(`${object.name} ${object.head}, ${object.count} ${object.count === 1 ? 'reference' : 'references'}`);
      lines.push(...object.cells.map(([name, value]) => `  ${name} = ${value}`));
    }
    return lines.join('\n');
  }
}

// The elements of one picture after the other.
class Drawing {
  constructor() {
    Object.assign(this, { elements: new Elements(), ids: `p${++pictures}-` });
    this.svg = svg('svg', { class: 'picture', role: 'img', xmlns: 'http://www.w3.org/2000/svg' });
    this.tips = svg('defs', {}, ...['tip', 'tip changed', 'tip from-call'].map(kind => arrowHead(this.ids, kind)));
  }

  begin() { this.elements.begin(); }

  show(attributes, parts) {
    setAttributes(this.svg, attributes);
    arrange(this.svg, [this.tips, ...parts]);
  }

  box(box) { return this.elements.get(JSON.stringify(box), () => boxParts(box)); }

  fold({ cells, ...box }) {
    const { elements } = this, head = elements.get(JSON.stringify(box), () => [...boxParts(box).childNodes]);
    const group = elements.get(box.name, () => svg('g', { class: 'box fold', 'data-name': box.name }));
    const cell = it => elements.get(`cell ${it.name} ${it.x} ${it.y} ${it.value} ${it.isOwn} ${it.changed}`, () => foldCell(it));
    arrange(group, [...head, ...cells.map(cell)]);
    return group;
  }

  arrow(name, d, kind, ends) {
    const head = `url(#${this.ids}${kind ? `tip-${kind}` : 'tip'})`, arrow = { d, class: `arrow ${kind}`, 'marker-end': head, ...ends };
    return this.elements.get(`arrow ${name} ${ends['data-to']} ${kind} ${d}`, () => [svg('path', { d, class: 'halo' }), svg('path', arrow)]);
  }

  root(name, kind, cx, cy) {
    return this.elements.get(`root ${name} ${kind} ${cx} ${cy}`, () => svg('circle', { class: `root ${kind}`, cx, cy, r: 3 }));
  }
}

// ---- boxes

function objectBox(run, index, object, own) {
  const before = index > 0 ? run.object(index - 1, object.name) : object, isKnown = index === 0 || run.look(index - 1);
  const rows = object.cells.map(([name, value], at) => ({ name, value, changed: Boolean(before) && before.cells[at]?.[1] !== value }));
  const isGrid = /\[/.test(object.head) && rows.length > 3 && !rows.some(row => isReference(row.value));
  const note = object.name === '#1' ? 'main' : object.count === 1 ? '' : `${object.count} refs`;
  return measured({ name: object.name, title: `${object.name} ${object.head}`, note, rows, isGrid,
    isOwn: object.name === own, isNew: isKnown && !before, isMain: object.name === '#1' });
}

// Whether the last move has made an object, or changed a field of it.
function isChanged(run, index, object) {
  const before = index > 0 ? run.object(index - 1, object.name) : object;
  if (before === object) return false;
  if (!before) return run.look(index - 1) !== undefined;
  return before.cells.length !== object.cells.length || before.cells.some(([, value], at) => value !== object.cells[at][1]);
}

function callBoxes(run, index) {
  return run.calls(index, MOST_CALLS).map((call, _, calls) => {
    if (call.left) return measured({ name: 'more', title: `${call.left} calls more`, note: '', rows: [], kind: 'more' });
    const isInner = call === calls.at(-1), note = isInner ? '' : `line ${run.lineAt(call.at) + 1}`;
    return measured({ name: `call ${call.at}`, title: call.method, note, rows: isInner ? localRows(run, call.at) : [],
      kind: isInner ? 'inner' : 'outer', isUndone: call.isUndone, at: call.at });
  });
}

// The parameters and locals at a position, and which of them the last move has changed.
function localRows(run, index) {
  const isSame = index > 0 && run.callers[index - 1] === run.callers[index] && run.look(index - 1);
  const before = isSame ? run.locals(index - 1) : undefined;
  return run.locals(index).map(([name, value], at) => ({ name, value, changed: before !== undefined && before[at]?.[1] !== value }));
}

function arrowHead(ids, kind) {
  const size = { viewBox: '0 0 9 8', refX: 8, refY: 4, markerWidth: 9, markerHeight: 8, orient: 'auto', markerUnits: 'userSpaceOnUse' };
  return svg('marker', { id: ids + kind.replace(' ', '-'), ...size }, svg('path', { d: 'M0 0L9 4L0 8z', class: kind }));
}

function boxParts(box) {
  const kinds = [box.kind ?? 'object', box.isOwn && 'own', box.isNew && 'new', box.isMain && 'main', box.isUndone && 'undone'].filter(Boolean);
  const { x, y, width, height } = box, frame = kind => svg('rect', { class: kind, x, y, width, height, rx: 6 });
  const group = svg('g', { class: `box ${kinds.join(' ')}`, 'data-name': box.name, 'data-at': box.at }, frame('frame'));
  if (box.rows.length) group.append(svg('path', { class: 'rule', d: `M${x} ${y + HEAD}h${width}` }));
  const tab = `M${x} ${y + 6}a6 6 0 0 1 6-6h${width - 12}a6 6 0 0 1 6 6v${HEAD - 6}h${-width}z`;
  if (box.isOwn) group.append(svg('path', { class: 'tab', d: tab }), frame('frame edge'));
  group.append(svgText(x + EDGE, y + 17, 'title', box.title), svgText(x + width - EDGE, y + 17, 'note', box.note));
  box.rows.forEach((row, at) => group.append(...(box.isGrid ? gridCell(box, row, at) : boxRow(box, row, at))));
  return group;
}

function gridCell(box, row, at) {
  const x = box.x + EDGE + at % GRID * box.cell, y = box.y + HEAD + Math.floor(at / GRID) * GRID_ROW + 12, changed = row.changed ? ' changed' : '';
  return [svg('rect', { class: `cell${changed}`, x, y, width: box.cell, height: ROW }),
    svgText(x + box.cell / 2, y - 2, 'number', row.name.slice(1, -1)), svgText(x + box.cell / 2, y + 15, `middle${changed}`, row.value)];
}

function boxRow(box, row, at) {
  const y = box.y + HEAD + at * ROW, parts = [], kind = `value${row.changed ? ' changed' : ''}${row.value === 'nil' ? ' nil' : ''}`;
  if (row.changed) parts.push(svg('rect', { class: 'changed', x: box.x + 3, y: y + 1.5, width: box.width - 6, height: ROW - 2, rx: 3 }));
  const right = box.x + box.width - EDGE - (isReference(row.value) ? 6 : 0);
  return [...parts, svgText(box.x + EDGE, y + 15, 'field', row.name), svgText(right, y + 15, kind, row.value)];
}

function foldCell(cell) {
  const kind = `${cell.changed ? ' changed' : ''}${cell.isOwn ? ' own-cell' : ''}`;
  return svg('g', { 'data-name': cell.name }, svg('title', {}, `${cell.name}: ${cell.value}`),
    svg('rect', { class: `cell${kind}`, x: cell.x, y: cell.y, width: cell.width, height: cell.height, rx: 3 }),
    svgText(cell.x + cell.width / 2, cell.y + 13, `middle small${kind}`, cell.value.slice(0, 8)));
}
