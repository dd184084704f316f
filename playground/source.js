// The text of a program: its tokens, its methods, and the statements at places in bytes, as the program names them.
'use strict';

const TOKEN = /\/\/[^\n]*|[A-Za-z][\w']*|\d+|<=>|[-+^]=|&&|\|\||[<>!]=|::|[^\s]/g;
const OPENERS = ['if', 'from', 'local', 'construct'], CLOSERS = ['fi', 'until', 'delocal', 'destruct'];
const MIDDLES = ['then', 'do', 'else', 'loop'];
// From the loosest to the tightest.
const OPERATORS = [['||'], ['&&'], ['^'], ['|'], ['&'], ['=', '!='], ['<', '>', '<=', '>='], ['+', '-'], ['*', '/', '%']];
const IS_OPERATOR = new Set(OPERATORS.flat());

const isReference = value => /^#\d+$/.test(value);
const byteOf = (text, index) => new TextEncoder().encode(text.slice(0, index)).length;

// A function from places in bytes to indices of the text.
function indexOfByte(text) {
  if (/^[\x00-\x7f]*$/.test(text)) return place => place;
  const indices = [], encoder = new TextEncoder();
  let index = 0;
  for (const character of text) {
    for (let bytes = encoder.encode(character).length; bytes > 0; bytes--) indices.push(index);
    index += character.length;
  }
  indices.push(index);
  return place => indices[place];
}

// The last item of a sorted list that is not greater than a number, by its index.
function lastUpTo(list, number, of = it => it) {
  let low = -1, high = list.length - 1;
  while (low < high) {
    const middle = (low + high + 1) >> 1;
    if (of(list[middle]) <= number) low = middle; else high = middle - 1;
  }
  return low;
}

class Source {
  constructor(text) {
    this.text = text;
    this.tokens = [...text.matchAll(TOKEN)].filter(found => !found[0].startsWith('//'))
      .map(found => ({ text: found[0], at: found.index, end: found.index + found[0].length }));
    this.indexOf = indexOfByte(text);
    this.byIndex = new Map(this.tokens.map((token, index) => [token.at, index]));
    this.starts = [0, ...[...text.matchAll(/\n/g)].map(found => found.index + 1)];
    this.statements = new Map();
    this.methods = [];
    let owner = '';
    this.tokens.forEach((token, index) => {
      if (token.text === 'class') owner = this.word(index + 1);
      else if (token.text === 'method') this.methods.push({ at: token.at, name: `${owner}::${this.word(index + 1)}` });
    });
  }

  word(index) { return this.tokens[index]?.text; }

  // The line, from 0, of an index of the text.
  lineOf(index) { return Math.max(0, lastUpTo(this.starts, index)); }

  // The line, from 0, of a place in bytes.
  lineAt(place) { return this.lineOf(this.indexOf(place)); }

  // The index of the token at a place in bytes.
  first(place) { return place < 0 ? undefined : this.byIndex.get(this.indexOf(place)); }

  // The name of the method of a place.
  method(place) {
    const found = place < 0 ? -1 : lastUpTo(this.methods, this.indexOf(place), it => it.at);
    return found < 0 ? 'main' : this.methods[found].name;
  }

  slice(first, behind) { return this.text.slice(this.tokens[first].at, this.tokens[behind - 1].end); }

  // ---- where parts of statements end: each gives the index of the token after the part

  afterBracket(first) {
    let depth = 0;
    for (let next = first; next < this.tokens.length; next++) {
      depth += '(['.includes(this.word(next)) ? 1 : ')]'.includes(this.word(next)) ? -1 : 0;
      if (depth === 0) return next + 1;
    }
    return this.tokens.length;
  }

  afterPlace(first) { return this.word(first + 1) === '[' ? this.afterBracket(first + 1) : first + 1; }

  afterExpression(first) {
    let next = first - 1;
    do next = this.word(next + 1) === '(' ? this.afterBracket(next + 1) : this.afterPlace(next + 1);
    while (IS_OPERATOR.has(this.word(next)));
    return next;
  }

  afterWord(first, word) {
    let next = first + 1;
    while (next < this.tokens.length && this.word(next) !== word) next++;
    return Math.min(next + 1, this.tokens.length);
  }

  afterHead(first) {
    switch (this.word(first)) {
      case 'skip': return first + 1;
      case 'if': return this.afterWord(first, 'then');
      case 'from': return this.afterWord(first, 'do');
      case 'construct': return first + 3;
      case 'local': return this.afterExpression(this.afterWord(first, '='));
      case 'new': case 'delete': return this.afterPlace(this.afterPlace(first + 1));
      case 'copy': case 'uncopy': return this.afterPlace(this.afterPlace(this.afterPlace(first + 1)));
      case 'call': case 'uncall': {
        const name = this.afterPlace(first + 1);
        return this.afterBracket(this.word(name) === '::' ? name + 2 : name);
      }
      default: return this.afterExpression(this.afterPlace(first) + 1);
    }
  }

  // ---- statements

  // The statement at a place: its words, up to its first block, and their span.
  statement(place) {
    const first = this.first(place);
    if (first === undefined) return undefined;
    if (!this.statements.has(first)) {
      const own = this.tokens.slice(first, this.afterHead(first));
      this.statements.set(first, { first, words: own.map(it => it.text), at: own[0].at, end: own.at(-1).end });
    }
    return this.statements.get(first);
  }

  // The parts of a statement with blocks: the indices of its middle words and of the word that closes it.
  parts(first) {
    const middle = [];
    for (let next = first, depth = 0; next < this.tokens.length; next++) {
      const word = this.word(next);
      if (OPENERS.includes(word)) depth++;
      if (depth === 1 && MIDDLES.includes(word)) middle.push(next);
      if (CLOSERS.includes(word) && --depth === 0) return { first, middle, closer: next };
    }
    return { first, middle, closer: first };
  }
}
