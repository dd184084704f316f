// Where objects are: one layout for all stores of a run, so that no object moves while it lives. An object that dies
// leaves its place to the next of its class. A class that needs too many places is folded into a grid of small cells.
'use strict';

const CHARACTER = 7.8, ROW = 20, HEAD = 24, EDGE = 8, LEAST = 80, GRID = 8, GRID_ROW = 32, GAP = 44, TOP = 24;
const MOST_SHOWN = 60, FOLD_ROW = 20, FOLD_LENS = 14;

const classOf = head => head.replace(/\[.*/, '[]');
const bump = (map, key) => map.set(key, (map.get(key) ?? 0) + 1);

// The size of a box by its rows.
function measured(box) {
  const longest = Math.max(0, ...box.rows.map(row => row.value.length + (box.isGrid ? 0 : row.name.length + 3)));
  box.cell = Math.max(longest, 3) * CHARACTER + 6;
  const body = box.isGrid ? Math.min(GRID, box.rows.length) * box.cell : longest * CHARACTER;
  const title = (box.title.length + (box.note ? box.note.length + 2 : 0)) * CHARACTER;
  box.width = Math.ceil(Math.max(LEAST, body + 2 * EDGE, title + 2 * EDGE));
  const rows = box.isGrid ? Math.ceil(box.rows.length / GRID) * GRID_ROW : box.rows.length * ROW;
  box.height = HEAD + rows + (box.rows.length ? 4 : 0);
  return box;
}

// A grid of cells for the objects of one class, with space below for one of them in full.
class Fold {
  constructor(head, slots, size, widest) {
    Object.assign(this, { head, slots, lens: size });
    this.cell = Math.max(3, Math.min(widest, 8)) * CHARACTER + 8;
    this.columns = Math.max(4, Math.min(slots.length, Math.ceil(Math.sqrt(slots.length * FOLD_ROW / this.cell * 1.6))));
    this.grid = Math.ceil(slots.length / this.columns) * FOLD_ROW;
    this.width = Math.max(this.columns * this.cell, size.width) + 2 * EDGE;
    this.height = HEAD + EDGE + this.grid + FOLD_LENS + size.height + EDGE;
    this.order = new Map(slots.map((slot, index) => [slot, index]));
  }

  // The place of a slot's cell within the box.
  spot(slot) {
    const index = this.order.get(slot);
    return { x: EDGE + index % this.columns * this.cell, y: HEAD + 4 + Math.floor(index / this.columns) * FOLD_ROW };
  }
}

class Places {
  // `stores` are positions of the run with their objects, `sizeOf` measures an object at one of them, and `wide` is the
  // width of the widest call.
  constructor(stores, sizeOf, pane, wide) {
    Object.assign(this, { slots: new Map(), heads: new Map(), sizes: new Map(), edges: new Map(), fields: new Map(), widest: new Map(), folds: new Map(), late: 0 });
    this.left = wide + GAP;
    this.giveSlots(stores);
    for (const store of stores) this.measure(store, sizeOf);
    this.fold();
    this.draw(stores, pane);
  }

  slot(name) { return this.slots.get(name) ?? name; }

  giveSlots(stores) {
    const free = new Map();
    let alive = new Map();
    for (const { objects } of stores) {
      for (const [name, head] of alive) if (!objects.has(name)) free.set(head, [...(free.get(head) ?? []), this.slots.get(name)]);
      for (const [name, { head }] of objects) {
        if (alive.has(name)) continue;
        const left = free.get(head) ?? [], own = left.indexOf(this.slots.get(name));
        if (own >= 0) left.splice(own, 1);
        else this.slots.set(name, left.pop() ?? name);
        this.heads.set(this.slot(name), classOf(head));
      }
      alive = new Map([...objects].map(([name, { head }]) => [name, head]));
    }
  }

  measure(store, sizeOf) {
    for (const object of store.objects.values()) {
      const slot = this.slot(object.name), size = sizeOf(store.index, object), was = this.sizes.get(slot) ?? { width: 0, height: 0 };
      this.sizes.set(slot, { width: Math.max(was.width, size.width), height: Math.max(was.height, size.height) });
      const shown = shownValue(object), head = this.heads.get(slot);
      this.widest.set(head, Math.max(this.widest.get(head) ?? 0, shown.length));
      object.cells.forEach(([, value], field) => {
        if (!isReference(value) || this.slot(value) === slot) return;
        bump(this.edges, `${slot} ${this.slot(value)}`);
        this.fields.set(`${slot} ${this.slot(value)}`, field);
      });
    }
  }

  // Folds the classes that need too many places.
  fold() {
    const byHead = new Map();
    for (const [slot, head] of this.heads) byHead.set(head, [...(byHead.get(head) ?? []), slot]);
    for (const [head, slots] of byHead) {
      if (slots.length <= MOST_SHOWN) continue;
      const sizes = slots.map(it => this.sizes.get(it));
      const size = { width: Math.max(...sizes.map(it => it.width)), height: Math.max(...sizes.map(it => it.height)) };
      this.folds.set(head, new Fold(head, this.chained(slots), size, this.widest.get(head)));
    }
  }

  // Slots in the order of the references among them, where these make chains.
  chained(slots) {
    const own = new Set(slots), next = new Map(), strength = new Map(), hasOne = new Set();
    for (const [edge, weight] of this.edges) {
      const [from, to] = edge.split(' ');
      if (!own.has(from) || !own.has(to) || (strength.get(from) ?? 0) >= weight) continue;
      strength.set(from, weight);
      next.set(from, to);
    }
    for (const to of next.values()) hasOne.add(to);
    const order = new Set();
    for (const first of [...slots.filter(it => !hasOne.has(it)), ...slots]) {
      for (let at = first; at !== undefined && !order.has(at); at = next.get(at)) order.add(at);
    }
    return [...order];
  }

  // The node of the layout that holds a slot.
  node(slot) { return this.foldOf(slot) ? `fold ${this.heads.get(slot)}` : slot; }

  // The fold in which a slot has a cell, if any.
  foldOf(slot) {
    const fold = this.folds.get(this.heads.get(slot));
    return fold?.order.has(slot) ? fold : undefined;
  }

  draw(stores, pane) {
    const nodes = new Map(), last = new Set(), weights = new Map();
    for (const [slot, size] of this.sizes) {
      const fold = this.foldOf(slot);
      nodes.set(this.node(slot), fold ? { width: fold.width, height: fold.height } : size);
    }
    // The store at the end counts, however short it lasts.
    for (const { name, cells } of stores.at(-1).objects.values()) for (const [, value] of cells) last.add(`${this.slot(name)} ${this.slot(value)}`);
    for (const [edge, weight] of this.edges) {
      const [from, to] = edge.split(' ').map(it => this.node(it)), key = `${from}\n${to}`, was = weights.get(key)?.weight ?? 0;
      if (from !== to) weights.set(key, { from, to, weight: was + weight + (last.has(edge) ? stores.length : 0), field: this.fields.get(edge) });
    }
    const kept = [...weights.values()].filter(({ weight }) => weight * 20 > stores.length).sort((one, other) => other.weight - one.weight);
    const [along, down] = ['LR', 'TB'].map(direction => laidOut(nodes, kept, direction));
    const scale = it => Math.min(pane.width / (it.width + this.left + 80), pane.height / (it.height + 40), 1.4);
    Object.assign(this, scale(down) > scale(along) * 1.08 ? down : along);
    this.width += this.left;
  }

  // Gives places to objects that no store of the layout had: free ones of their class, or new ones below all others.
  admit(objects, sizeOf) {
    const taken = new Set();
    for (const object of objects) {
      const head = classOf(object.head);
      if (!this.slots.has(object.name) || taken.has(this.slot(object.name))) {
        const isFree = slot => !taken.has(slot) && !objects.some(other => this.slots.get(other.name) === slot);
        const free = [...this.heads].find(([slot, it]) => it === head && isFree(slot));
        this.slots.set(object.name, free?.[0] ?? this.added(object, head, sizeOf(object)));
      }
      taken.add(this.slot(object.name));
    }
  }

  added(object, head, size) {
    this.heads.set(object.name, head);
    this.boxes.set(object.name, { x: this.late, y: this.height + ROW, ...size });
    this.late += size.width + GAP;
    this.width = Math.max(this.width, this.left + this.late);
    this.hasLate = Math.max(this.hasLate ?? 0, size.height + 2 * ROW);
    return object.name;
  }

  get tall() { return this.height + (this.hasLate ?? 0); }
}

// One layout of nodes by weighed edges, along or down. If two edges are opposite, the first counts. The layout keeps
// the order in which it gets the edges of a node, so what the first field refers to is on the left, or on top.
function laidOut(nodes, edges, rankdir) {
  const graph = new dagre.graphlib.Graph(), known = new Set();
  graph.setGraph({ rankdir, nodesep: rankdir === 'LR' ? 16 : 24, ranksep: 36, ranker: 'network-simplex' });
  graph.setDefaultEdgeLabel(() => ({}));
  for (const [name, size] of nodes) graph.setNode(name, { ...size });
  const counts = edges.filter(({ from, to }) => {
    known.add(`${from}\n${to}`);
    return nodes.has(from) && nodes.has(to) && !known.has(`${to}\n${from}`);
  });
  for (const { from, to, weight } of counts.sort((one, other) => one.field - other.field)) graph.setEdge(from, to, { weight: Math.ceil(Math.log2(weight + 1)) });
  dagre.layout(graph);
  const boxes = new Map([...nodes].map(([name, size]) => {
    const { x, y, width, height } = graph.node(name);
    return [name, { x: x - width / 2, y: y - height / 2, ...size }];
  }));
  return { boxes, isDown: rankdir === 'TB', width: graph.graph().width || 0, height: Math.max(graph.graph().height || 0, 120) };
}

// What the small cell of a folded object shows: its first number, or else its name.
function shownValue(object) {
  return object.cells.find(([, value]) => /^-?\d+$/.test(value))?.[1] ?? object.name;
}
