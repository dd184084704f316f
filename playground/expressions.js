// Computes expressions at positions of a run, from the values that the program printed there.
'use strict';

class Unknown extends Error {}

class Expression {
  constructor(run, index) {
    this.source = run.source;
    this.look = name => run.value(index, name);
    this.element = (array, at) => run.object(index, array)?.cells[at]?.[1];
  }

  // The value of the tokens from one index up to another, or nothing where it is not to be had.
  value(first, behind) {
    [this.at, this.behind] = [first, behind];
    try {
      return this.level(0);
    } catch (error) {
      if (error instanceof Unknown) return undefined;
      throw error;
    }
  }

  level(depth) {
    if (depth === OPERATORS.length) return this.atom();
    let value = this.level(depth + 1);
    while (this.at < this.behind && OPERATORS[depth].includes(this.source.word(this.at))) {
      value = applied(this.source.word(this.at++), value, this.level(depth + 1));
    }
    return value;
  }

  atom() {
    const word = this.source.word(this.at++);
    if (word === '(') return this.closed();
    if (/^\d+$/.test(word)) return Number(word);
    if (word === 'nil') return 'nil';
    if (this.source.word(this.at) !== '[') return known(this.look(word));
    this.at++;
    const index = this.closed();
    return known(this.element(this.look(word), index));
  }

  // The value up to a closing bracket.
  closed() {
    const value = this.level(0);
    this.at++;
    return value;
  }
}

function known(text) {
  if (text === undefined) throw new Unknown();
  return /^-?\d+$/.test(text) ? Number(text) : text;
}

function applied(operator, left, right) {
  const truth = it => (it ? 1 : 0);
  switch (operator) {
    case '||': return truth(left || right);
    case '&&': return truth(left && right);
    case '^': return left ^ right;
    case '|': return left | right;
    case '&': return left & right;
    case '=': return truth(left === right);
    case '!=': return truth(left !== right);
    case '<': return truth(left < right);
    case '>': return truth(left > right);
    case '<=': return truth(left <= right);
    case '>=': return truth(left >= right);
    case '+': return (left + right) | 0;
    case '-': return (left - right) | 0;
    default: throw new Unknown();
  }
}
