// The ways of arrows: a curve where it crosses no box, else straight pieces through the gaps between the boxes.
'use strict';

const NEAR = 3, CORNER = 8;

const inside = (box, x, y, room) => x > box.x - room && x < box.x + box.width + room && y > box.y - room && y < box.y + box.height + room;

// A curve with points on it, by which crossings are seen.
function curve(from, leave, arrive, to) {
  const points = [];
  for (let at = 0.04; at < 1; at += 0.04) {
    const left = 1 - at, weights = [left ** 3, 3 * left * left * at, 3 * left * at * at, at ** 3];
    points.push([0, 1].map(axis => [from, leave, arrive, to].reduce((sum, point, index) => sum + weights[index] * point[axis], 0)));
  }
  return { d: `M${from}C${leave} ${arrive} ${to}`, points, start: from };
}

// A way of straight pieces with round corners.
function lane(points) {
  const toward = ([x, y], [fromX, fromY]) => {
    const length = Math.hypot(fromX - x, fromY - y), cut = Math.min(CORNER, length / 2);
    return length ? [x + (fromX - x) / length * cut, y + (fromY - y) / length * cut] : [x, y];
  };
  const pieces = points.slice(1).map((point, at) => {
    const next = points[at + 2];
    return next ? `L${toward(point, points[at])}Q${point} ${toward(point, next)}` : `L${point}`;
  });
  return { d: `M${points[0]}${pieces.join('')}`, start: points[0] };
}

// Finds the way of each arrow of one picture.
class Ways {
  // `boxes` are all that are drawn, `places` is the layout.
  constructor(boxes, places) {
    Object.assign(this, { boxes, places, drawn: 0 });
    this.objects = boxes.filter(box => !box.kind);
    this.under = Math.max(0, ...this.objects.map(box => box.y + box.height)) + 14;
    this.beside = Math.max(0, ...this.objects.map(box => box.x + box.width)) + 6;
  }

  // The way from a height in one box to another box, or to a spot in it.
  way(from, y, to, spot) {
    this.drawn++;
    const target = spot ?? to, found = this.curves(from, y, target).find(it => !this.isCrossed(it.points, from, to));
    return found ?? this.lane(from, y, target, to);
  }

  isCrossed(points, from, to) {
    return this.boxes.some(box => box !== from && box !== to && points.some(([x, y]) => inside(box, x, y, NEAR)));
  }

  // The curves that may do, the best first.
  curves(from, y, to) {
    const right = from.x + from.width, start = [right - 7, y], middle = to.x + to.width / 2, end = to.y + Math.min(HEAD, to.height) / 2;
    if (from === to) return [curve(start, [right + 34, y], [right + 34, end], [right + 2, end])];
    const back = curve(start, [right + 40, y], [to.x + to.width + 40, end], [to.x + to.width + 2, end]);
    return [...this.downward(from, y, to), ...this.onward(start, right, to), ...this.backward(from, y, to, middle), back];
  }

  downward(from, y, to) {
    if (!this.places.isDown || from.kind || to.y <= from.y + from.height) return [];
    const right = from.x + from.width, middle = to.x + to.width / 2, end = to.y + Math.min(HEAD, to.height) / 2;
    const isLeft = middle < from.x + from.width / 2 - 4, out = isLeft ? [from.x + 3, y] : [right - 7, y];
    const beside = curve(out, [right + 34, y], [to.x + to.width + 34, end], [to.x + to.width + 2, end]);
    const above = curve(out, [out[0] + (isLeft ? -28 : 28), y], [middle, to.y - 36], [middle, to.y - 2]);
    return !isLeft && middle < right + 12 ? [beside, above] : [above];
  }

  onward(start, right, to) {
    if (to.x <= right + 8) return [];
    const [, y] = start, bend = Math.max(18, Math.min(80, (to.x - right) / 2)), out = [right + bend, y];
    const middle = to.x + to.width / 2, end = to.y + Math.min(HEAD, to.height) / 2, foot = to.y + to.height;
    return [curve(start, out, [to.x - bend, end], [to.x - 2, end]), curve(start, out, [middle, to.y - 40], [middle, to.y - 2]),
      curve(start, out, [middle, foot + 40], [middle, foot + 2])];
  }

  backward(from, y, to, middle) {
    if (to.x + to.width + 8 >= from.x) return [];
    const end = to.y + Math.min(HEAD, to.height) / 2, isUnder = end < y, edge = isUnder ? to.y + to.height + 2 : to.y - 2;
    const bend = Math.max(24, Math.abs(edge - y) / 2), start = [from.x + 3, y], out = [from.x - 26, y], right = to.x + to.width;
    return [curve(start, out, [middle, edge + (isUnder ? bend : -bend)], [middle, edge]), curve(start, out, [right + 26, end], [right + 2, end])];
  }

  // The cheapest of the ways by straight pieces.
  lane(from, y, to, box) {
    const others = this.boxes.filter(it => it !== from && it !== box);
    const costs = this.lanes(from, y, to).map(points => [this.cost(points, others, [from, box]), points]);
    return lane(costs.reduce((best, it) => (it[0] < best[0] ? it : best))[1]);
  }

  lanes(from, y, to) {
    const shift = this.drawn % 4 * 4, right = from.x + from.width, middle = to.x + to.width / 2, end = to.y + Math.min(HEAD, to.height) / 2;
    const rank = this.objects.filter(box => box.y < from.y + from.height && box.y + box.height > from.y);
    const below = Math.max(0, ...rank.map(box => box.y + box.height)) + 8 + shift;
    const crossings = [to.y - 15 - shift / 2, to.y + to.height + 15 + shift / 2, below, 6 + shift, this.under + shift / 2];
    const outs = from.kind ? [TOP + this.places.left - 20 - shift] : [right + 8 + shift, from.x - 8 - shift];
    return outs.flatMap(out => crossings.flatMap(across => {
      const first = [out < from.x ? [from.x + 3, y] : [right - 7, y], [out, y], [out, across]];
      const into = (x, edge) => [...first, [x, across], [x, end], [edge, end]];
      return [[...first, [middle, across], [middle, across < to.y ? to.y - 2 : to.y + to.height + 2]], into(to.x - 12 - shift, to.x - 2),
        into(to.x + to.width + 12 + shift, to.x + to.width + 2), into(this.beside + shift, to.x + to.width + 2)];
    }));
  }

  // Its length, and much more for each box that it crosses; one that comes back through its own boxes is no way either.
  cost(points, others, own) {
    let crossed = 0, length = 0;
    for (let at = 1; at < points.length; at++) {
      const [[fromX, fromY], [toX, toY]] = [points[at - 1], points[at]];
      const [left, right, top, bottom] = [Math.min(fromX, toX), Math.max(fromX, toX), Math.min(fromY, toY), Math.max(fromY, toY)];
      const isThrough = ({ x, y, width, height }, room) =>
        right > x - room && left < x + width + room && bottom > y - room && top < y + height + room;
      length += right - left + bottom - top;
      crossed += others.filter(box => isThrough(box, 2)).length + (at > 1 ? own.filter(box => isThrough(box, -4)).length : 0);
    }
    return crossed * 1e5 + length;
  }
}
