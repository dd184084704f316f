// What the translated modules of the companion use of Python, where JavaScript does otherwise: truth, equality, places
// counted from the end, and the methods of texts, bytes, lists, dictionaries, sets and patterns.
'use strict';

// Bytes, as a text with a character for each.
class Bytes {
  constructor(latin) { this.latin = latin; }

  static of(text) { return new Bytes(Array.from(new TextEncoder().encode(text), it => String.fromCharCode(it)).join('')); }

  get array() { return Uint8Array.from(this.latin, it => it.charCodeAt(0)); }

  // The text; `ignore` leaves out what is none.
  text(isLossy) {
    if (!isLossy) return new TextDecoder('utf-8', { ignoreBOM: true }).decode(this.array);
    const strict = new TextDecoder('utf-8', { fatal: true, ignoreBOM: true }), { array } = this;
    let text = '';
    for (let at = 0; at < array.length;) {
      const piece = [1, 2, 3, 4].map(width => array.slice(at, at + width)).find(it => py.decodes(strict, it));
      text += piece ? strict.decode(piece) : '';
      at += piece ? piece.length : 1;
    }
    return text;
  }
}

// An object of a translated class. The fields of a record are rows of a name and what makes its value if none is given.
class Thing {
  static made(named, ...given) {
    const it = new this();
    if (!this.fields) it.__init__?.(...given);
    this.fields?.forEach(([name, make], at) => { it[name] = at < given.length ? given[at] : name in named ? named[name] : make(); });
    return it;
  }

  _replace(named) { return Object.assign(Object.create(Object.getPrototypeOf(this)), this, named); }
}

// A pattern over texts or bytes; what it finds is of the same kind.
class Pattern {
  constructor(source, isBytes, flags = '') {
    const text = source.replaceAll('(?P<', '(?<').replaceAll('\\Z', '(?![^])');
    Object.assign(this, { isBytes, form: new RegExp(text, `dg${isBytes || !/\\u/.test(text) ? '' : 'u'}${flags}`) });
  }

  * finditer(where) { for (const found of (where.latin ?? where).matchAll(this.form)) yield new Match(found, this.isBytes); }

  findall(where) { return [...this.finditer(where)].map(it => (it.found.length === 2 ? it.at(1) : it.at(0))); }

  match(where) {
    const [first] = this.finditer(where);
    return first?.found.index === 0 ? first : undefined;
  }

  search(where) {
    const [first] = this.finditer(where);
    return first;
  }

  sub(made, where) { return where.replace(this.form, (...found) => (typeof made === 'string' ? made : made(new Match(found, false)))); }
}

class Match {
  constructor(found, isBytes) { Object.assign(this, { found, isBytes }); }

  get lastgroup() { return Object.entries(this.found.groups ?? {}).find(([, it]) => it !== undefined)?.[0]; }

  // What a group found, by its number or its name.
  at(group) {
    const found = typeof group === 'string' ? this.found.groups[group] : this.found[group];
    return this.isBytes && found !== undefined ? new Bytes(found) : found;
  }

  group(number = 0) { return this.at(number); }

  start() { return this.found.index; }

  end() { return this.found.index + this.found[0].length; }
}

const SPACE = /[\t-\r\x1c-\x20\x85\xa0\u1680\u2000-\u200a\u2028\u2029\u202f\u205f\u3000]+/;

const py = {
  Thing,
  bytes: latin => new Bytes(latin),
  RecursionError: class RecursionError {},

  // ---- truth and order

  is(it) {
    if (it === undefined || it === null || it === false || it === 0 || it === '') return false;
    return typeof it !== 'object' || it instanceof Thing || py.length(it) !== 0;
  },
  and: (one, other) => (py.is(one) ? other() : one),
  or: (one, other) => (py.is(one) ? one : other()),
  same: (one, other) => (one ?? undefined) === (other ?? undefined),
  eq(one, other) {
    if (one === other || typeof one !== 'object' || typeof other !== 'object' || !one || !other) return (one ?? undefined) === (other ?? undefined);
    if (one instanceof Bytes) return one.latin === other.latin;
    if (one instanceof Set) return py.le(one, other) && py.le(other, one);
    return Array.isArray(one) && one.length === other.length && one.every((it, at) => py.eq(it, other[at]));
  },
  compare(one, other) {
    if (!Array.isArray(one)) return one < other ? -1 : Number(one > other);
    const at = one.findIndex((it, index) => index >= other.length || !py.eq(it, other[index]));
    if (at < 0) return one.length - other.length;
    return at < other.length ? py.compare(one[at], other[at]) : 1;
  },
  lt: (one, other) => py.compare(one, other) < 0,
  le: (one, other) => (one instanceof Set ? [...one].every(it => other.has(it)) : py.compare(one, other) <= 0),
  gt: (one, other) => py.compare(one, other) > 0,
  ge: (one, other) => py.compare(one, other) >= 0,
  has(where, it) {
    if (typeof where === 'string') return where.includes(it);
    if (where instanceof Bytes) return where.latin.includes(it.latin);
    return Array.isArray(where) ? where.some(each => py.eq(each, it)) : where.has(it);
  },

  // ---- numbers, texts and lists

  add(one, other) {
    if (one instanceof Bytes) return new Bytes(one.latin + other.latin);
    return Array.isArray(one) ? [...one, ...other] : one + other;
  },
  sub: (one, other) => (one instanceof Set ? new Set([...one].filter(it => !other.has(it))) : one - other),
  union: (one, other) => new Set([...one, ...other]),
  shift: (one, other) => one * 2 ** other,
  length: it => (it instanceof Bytes ? it.latin.length : it.size ?? it.length ?? 1),
  letters: text => (/[\ud800-\udfff]/.test(text) ? [...text] : text),
  at(where, key) {
    if (where instanceof Map) {
      if (!where.has(key)) throw new Error(`no ${key}`);
      return where.get(key);
    }
    if (where instanceof Match) return where.at(key);
    const list = typeof where === 'string' ? py.letters(where) : where.latin ?? where, at = key < 0 ? key + list.length : key;
    if (at < 0 || at >= list.length) throw new Error(`no item ${key}`);
    return where instanceof Bytes ? list.charCodeAt(at) : list[at];
  },
  put(where, key, value) { if (where instanceof Map) where.set(key, value); else where[key] = value; },
  slice(where, first, behind, step) {
    if (step !== undefined) return [...where].reverse();
    const part = (typeof where === 'string' ? py.letters(where) : where.latin ?? where).slice(first ?? 0, behind);
    if (where instanceof Bytes) return new Bytes(part);
    return typeof where === 'string' && Array.isArray(part) ? part.join('') : part;
  },
  iter(it) {
    if (it instanceof Map) return it.keys();
    return it instanceof Bytes ? it.array : it;
  },
  str: it => (it === undefined || it === null ? 'None' : it === true ? 'True' : it === false ? 'False' : String(it)),
  format: (it, form) => (form === ',' ? it.toLocaleString('en') : py.str(it)),

  // ---- functions

  all: list => [...list].every(py.is),
  any(list) {
    for (const it of py.iter(list)) if (py.is(it)) return true;
    return false;
  },
  bool: it => py.is(it),
  callable: it => typeof it === 'function',
  dict: (pairs = []) => new Map(pairs),
  * enumerate(list, at = 0) { for (const it of py.iter(list)) yield [at++, it]; },
  * filter(_, list) { for (const it of py.iter(list)) if (py.is(it)) yield it; },
  set: (list = []) => new Set(py.iter(list)),
  frozenset: list => new Set(py.iter(list)),
  getattr: (it, name, other) => (it[name] === undefined ? other : py.bound(it, name)),
  bound: (it, name) => (typeof it[name] === 'function' ? it[name].bind(it) : it[name]),
  id: it => it,
  int: it => Number(it),
  isinstance: (it, kind) => (kind === py.str ? typeof it === 'string' : it instanceof kind),
  isError: (error, kinds) => kinds.some(it => (it === py.RecursionError ? error instanceof RangeError || error.name === 'InternalError' : error instanceof it)),
  len: it => py.length(it),
  list: list => [...py.iter(list)],
  tuple: list => [...py.iter(list)],
  max: (...given) => (given.length > 1 ? given : [...py.iter(given[0])]).reduce((one, other) => (py.lt(one, other) ? other : one)),
  next(list, ...other) {
    for (const it of py.iter(list)) return it;
    if (!other.length) throw new Error('nothing is next');
    return other[0];
  },
  * range(first, behind) { for (let at = first; at < behind; at++) yield at; },
  reversed: list => [...list].reverse(),
  sorted: list => [...py.iter(list)].sort(py.compare),
  decodes(decoder, bytes) {
    try { return [...decoder.decode(bytes)].length === 1; } catch { return false; }
  },

  // ---- methods

  do(it, name, ...given) {
    if (it instanceof Thing || it instanceof Pattern || it instanceof Match || it === py.re || it === py.difflib) return it[name](...given);
    const kind = typeof it === 'string' ? 'str' : it instanceof Bytes ? 'bytes' : Array.isArray(it) ? 'list' : it instanceof Map ? 'dict' : 'set';
    return py.methods[kind][name](it, ...given);
  },
  methods: {
    str: {
      count: (it, part) => it.split(part).length - 1,
      encode: it => Bytes.of(it),
      endswith: (it, end) => it.endsWith(end),
      isalpha: it => /^\p{L}+$/u.test(it),
      isdigit: it => /^\p{Nd}+$/u.test(it),
      isprintable: it => !/[^ \P{Z}]|\p{C}/u.test(it),
      isupper: it => it !== it.toLowerCase(),
      join: (it, list) => [...list].join(it),
      lower: it => it.toLowerCase(),
      replace: (it, part, other) => it.replaceAll(part, other),
      split: (it, sign) => (sign === undefined ? it.split(SPACE).filter(Boolean) : it.split(sign)),
      startswith: (it, start) => it.startsWith(start),
      strip: it => it.trim(),
    },
    bytes: {
      count: (it, part, first, behind) => it.latin.slice(first, behind).split(part.latin).length - 1,
      decode: (it, kind, errors) => (kind === 'latin-1' ? it.latin : it.text(errors === 'ignore')),
    },
    list: {
      append: (it, one) => { it.push(one); },
      count: (it, one) => it.filter(each => py.eq(each, one)).length,
      extend: (it, more) => { it.push(...more); },
      index: (it, one) => it.findIndex(each => py.eq(each, one)),
      pop: it => it.pop(),
      sort: (it, key = each => each) => { it.sort((one, other) => py.compare(key(one), key(other))); },
    },
    dict: {
      get: (it, key, other) => (it.has(key) ? it.get(key) : other),
      items: it => it.entries(),
      setdefault(it, key, value) {
        if (!it.has(key)) it.set(key, value);
        return it.get(key);
      },
      update(it, more) { for (const [key, value] of more) it.set(key, value); },
      values: it => it.values(),
    },
    set: {
      add: (it, one) => { it.add(one); },
      update(it, more) { for (const each of py.iter(more)) it.add(each); },
    },
  },
  re: {
    S: 's', M: 'm',
    compile: (source, flags) => new Pattern(source.latin ?? source, source instanceof Bytes, flags),
    sub: (source, made, where) => new Pattern(source, false).sub(made, where),
  },
  // The names most like a word, as Python's library computes it: by the blocks that two words share.
  difflib: {
    shared(one, other) {
      let [length, first, second] = [0, 0, 0], before = [];
      for (let at = 0; at < one.length; at++) {
        const here = [];
        for (let to = 0; to < other.length; to++) {
          if (one[at] !== other[to]) continue;
          here[to] = (before[to - 1] ?? 0) + 1;
          if (here[to] > length) [length, first, second] = [here[to], at - here[to] + 1, to - here[to] + 1];
        }
        before = here;
      }
      if (!length) return 0;
      const left = py.difflib.shared(one.slice(0, first), other.slice(0, second));
      return length + left + py.difflib.shared(one.slice(first + length), other.slice(second + length));
    },
    get_close_matches(word, known, most, least) {
      const rated = [...known].map(it => [2 * py.difflib.shared(it, word) / Math.max(1, it.length + word.length), it]);
      return rated.filter(([rate]) => rate >= least).sort((one, other) => py.compare(other, one)).slice(0, most).map(([, it]) => it);
    },
  },
};
