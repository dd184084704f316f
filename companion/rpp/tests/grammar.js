// Evaluates editors/tree-sitter/grammar.js as tree-sitter does, and prints its rules as JSON: `node grammar.js FILE`.
'use strict';

const rule = value => value instanceof RegExp ? {type: 'PATTERN', value: value.source} : typeof value === 'string' ? {type: 'STRING', value} : value;
const several = type => (...members) => ({type, members: members.map(rule)});

Object.assign(globalThis, {
  seq: several('SEQ'),
  choice: several('CHOICE'),
  repeat: content => ({type: 'REPEAT', content: rule(content)}),
  repeat1: content => ({type: 'REPEAT1', content: rule(content)}),
  optional: content => ({type: 'CHOICE', members: [rule(content), {type: 'BLANK'}]}),
  field: (name, content) => rule(content),
  token: content => ({type: 'TOKEN', content: rule(content)}),
  prec: {left: (level, content) => ({type: 'PREC_LEFT', value: level, content: rule(content)})},
  grammar: given => {
    const names = new Proxy({}, {get: (_, name) => {
      if (!(name in given.rules)) {
        throw new Error(`there is no rule ${name}`);
      }
      return {type: 'SYMBOL', name};
    }});
    return {name: given.name, start: Object.keys(given.rules)[0], extras: given.extras(names).map(rule), word: given.word(names).name,
      rules: Object.fromEntries(Object.entries(given.rules).map(([name, make]) => [name, rule(make(names))]))};
  },
});

console.log(JSON.stringify(require(require('path').resolve(process.argv[2]))));
