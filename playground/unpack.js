// Unpacks what the page carries: base64 of LZMA, as Python's library packs it (FORMAT_ALONE, with a mark at the end).
'use strict';

const LZMA_HEAD = 13, HALF_CHANCE = 1024, NORMAL_RANGE = 1 << 24;
// What a step of the text was, by the last few steps: up to this number it was a letter.
const LAST_LETTER = 6, FIRST_DISTANCE_MODEL = 4, LAST_DISTANCE_MODEL = 14, ALIGN_BITS = 4, LEAST_MATCH = 2;

const chances = count => new Uint16Array(count).fill(HALF_CHANCE);
const lists = (count, make) => Array.from({ length: count }, make);

// Reads bits, each with a chance that its model has learnt.
class RangeReader {
  constructor(bytes, at) {
    Object.assign(this, { bytes, at: at + 5 });
    // The range and the code, as numbers without a sign.
    this.now = Uint32Array.of(0xffffffff, new DataView(bytes.buffer, bytes.byteOffset).getUint32(at + 1));
  }

  bit(model, index) {
    const { now } = this, chance = model[index], bound = (now[0] >>> 11) * chance, is = now[1] >= bound ? 1 : 0;
    if (is) {
      now[0] -= bound;
      now[1] -= bound;
      model[index] = chance - (chance >>> 5);
    } else {
      now[0] = bound;
      model[index] = chance + ((2048 - chance) >>> 5);
    }
    if (now[0] < NORMAL_RANGE) this.more();
    return is;
  }

  more() {
    const { now } = this;
    now[0] <<= 8;
    now[1] = (now[1] << 8) | this.bytes[this.at++];
  }

  // A number of so many bits that all have the same chance.
  plain(count) {
    const { now } = this;
    let number = 0;
    for (let left = count; left > 0; left--) {
      now[0] >>>= 1;
      const is = now[1] >= now[0] ? 1 : 0;
      if (is) now[1] -= now[0];
      number = number * 2 + is;
      if (now[0] < NORMAL_RANGE) this.more();
    }
    return number;
  }

  // A number of so many bits, the highest first; each bit has a model for the bits above it.
  tree(model, count, first = 0) {
    let at = 1;
    for (let left = count; left > 0; left--) at = at * 2 + this.bit(model, first + at);
    return at - (1 << count);
  }

  // The same with the lowest bit first.
  treeFromBelow(model, count, first = 0) {
    let at = 1, number = 0;
    for (let place = 0; place < count; place++) {
      const is = this.bit(model, first + at);
      at = at * 2 + is;
      number |= is << place;
    }
    return number;
  }
}

// How long a match is.
class Length {
  constructor(places) {
    Object.assign(this, { choice: chances(2), high: chances(256), low: lists(places, () => chances(8)), middle: lists(places, () => chances(8)) });
  }

  read(reader, place) {
    if (!reader.bit(this.choice, 0)) return LEAST_MATCH + reader.tree(this.low[place], 3);
    if (!reader.bit(this.choice, 1)) return LEAST_MATCH + 8 + reader.tree(this.middle[place], 3);
    return LEAST_MATCH + 16 + reader.tree(this.high, 8);
  }
}

class Unpacker {
  constructor(packed, size) {
    const kinds = packed[0], places = 1 << Math.floor(kinds / 45);
    Object.assign(this, { reader: new RangeReader(packed, LZMA_HEAD), out: new Uint8Array(size), at: 0, state: 0, last: Uint32Array.of(1, 1, 1, 1) });
    Object.assign(this, { before: kinds % 9, mask: places - 1, placeMask: (1 << Math.floor(kinds / 9) % 5) - 1 });
    const states = () => chances(12);
    Object.assign(this, { isMatch: lists(places, states), isOld: states(), isNotFirst: states(), isNotSecond: states(), isNotThird: states() });
    Object.assign(this, { isLong: lists(places, states), length: new Length(places), oldLength: new Length(places) });
    Object.assign(this, { slots: lists(4, () => chances(64)), distances: chances(128), align: chances(16) });
    this.letters = lists(1 << (this.before + Math.floor(kinds / 9) % 5), () => chances(768));
  }

  // Whether there is more; a match that is infinitely far is the end.
  unpack() {
    const { out, reader } = this;
    while (this.at < out.length) {
      const place = this.at & this.mask;
      if (!reader.bit(this.isMatch[place], this.state)) this.letter();
      else this.copy(reader.bit(this.isOld, this.state) ? this.oldMatch(place) : this.newMatch(place));
    }
    return out;
  }

  letter() {
    const { out, at, reader } = this, previous = at ? out[at - 1] : 0;
    const model = this.letters[((at & this.placeMask) << this.before) + (previous >>> (8 - this.before))];
    let found = 1;
    if (this.state > LAST_LETTER) {
      // After a match, the letter that would have followed it says how likely each bit is, as long as all are the same.
      let likely = out[at - this.last[0]];
      while (found < 256) {
        const wanted = likely >>> 7 & 1, is = reader.bit(model, ((1 + wanted) << 8) + found);
        likely <<= 1;
        found = found * 2 + is;
        if (is !== wanted) break;
      }
    }
    while (found < 256) found = found * 2 + reader.bit(model, found);
    out[this.at++] = found;
    this.state -= this.state < 4 ? this.state : this.state < 10 ? 3 : 6;
  }

  // How long a match is of which the distance came before; the distance is then the last one.
  oldMatch(place) {
    const { reader, state, last } = this;
    if (!reader.bit(this.isNotFirst, state)) {
      if (!reader.bit(this.isLong[place], state)) {
        this.state = state > LAST_LETTER ? 11 : 9;
        return 1;
      }
    } else {
      const which = !reader.bit(this.isNotSecond, state) ? 1 : 2 + reader.bit(this.isNotThird, state);
      this.put(last[which], which);
    }
    this.state = state > LAST_LETTER ? 11 : 8;
    return this.oldLength.read(reader, place);
  }

  newMatch(place) {
    this.state = this.state > LAST_LETTER ? 10 : 7;
    const length = this.length.read(this.reader, place);
    this.put(1 + this.distance(Math.min(length - LEAST_MATCH, 3)), 3);
    return length;
  }

  // Puts a distance before the last ones, up to that one.
  put(distance, which) {
    this.last.copyWithin(1, 0, which);
    this.last[0] = distance;
  }

  distance(kind) {
    const { reader } = this, slot = reader.tree(this.slots[kind], 6);
    if (slot < FIRST_DISTANCE_MODEL) return slot;
    const bits = (slot >>> 1) - 1, base = (2 | slot & 1) * 2 ** bits;
    if (slot < LAST_DISTANCE_MODEL) return base + reader.treeFromBelow(this.distances, bits, base - slot);
    return base + reader.plain(bits - ALIGN_BITS) * (1 << ALIGN_BITS) + reader.treeFromBelow(this.align, ALIGN_BITS);
  }

  copy(length) {
    const { out, at } = this, distance = this.last[0], end = Math.min(at + length, out.length);
    if (distance > at) throw new Error('what the page carries is damaged');
    for (let to = at; to < end; to++) out[to] = out[to - distance];
    this.at = end;
  }
}

function bytesOf(base64) {
  const letters = atob(base64), bytes = new Uint8Array(letters.length);
  for (let at = 0; at < bytes.length; at++) bytes[at] = letters.charCodeAt(at);
  return bytes;
}

// The bytes that are packed in a text of base64. There are so many.
const unzipped = (base64, size) => new Unpacker(bytesOf(base64), size).unpack();
