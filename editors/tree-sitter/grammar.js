// ROOPL++ for tree-sitter: `tree-sitter generate && tree-sitter parse stack.rpp`. The productions are those of
// docs/reference/language.md, "Grammar"; levels of operators are those of its table, from the weakest to the strongest.
const OPERATORS = [['||'], ['&&'], ['|'], ['^'], ['&'], ['=', '!='], ['<', '>', '<=', '>='], ['+', '-'], ['*', '/', '%']];

const commaed = rule => optional(seq(rule, repeat(seq(',', rule))));

module.exports = grammar({
  name: 'rooplpp',
  extras: $ => [/[ \t\r\n]/, $.comment],
  word: $ => $.name,
  rules: {
    program: $ => repeat($.class),
    class: $ => seq('class', field('name', $.name), optional(seq('inherits', field('parent', $.name))), repeat($.field), repeat($.method)),
    field: $ => seq(field('type', $.type), field('name', $.name)),
    method: $ => seq('method', field('name', $.name), '(', commaed($.parameter), ')', field('body', $.block)),
    parameter: $ => seq(field('type', $.type), field('name', $.name)),
    type: $ => seq(choice('int', $.name), optional(seq('[', ']'))),
    block: $ => repeat1($._statement),
    place: $ => seq(field('name', $.name), optional(seq('[', $._expression, ']'))),
    _statement: $ => choice($.update, $.swap, $.conditional, $.loop, $.construct, $.local, $.new, $.delete, $.copy, $.uncopy, $.call,
      $.uncall, $.skip),
    update: $ => seq($.place, choice('+=', '-=', '^='), $._expression),
    swap: $ => seq($.place, '<=>', $.place),
    conditional: $ => seq('if', $._expression, 'then', $.block, 'else', $.block, 'fi', $._expression),
    loop: $ => seq('from', $._expression, 'do', $.block, 'loop', $.block, 'until', $._expression),
    construct: $ => seq('construct', field('class', $.name), field('name', $.name), $.block, 'destruct', $.name),
    local: $ => seq('local', $.type, field('name', $.name), '=', $._expression, $.block, 'delocal', $.type, $.name, '=', $._expression),
    new: $ => seq('new', $.made, $.place),
    delete: $ => seq('delete', $.made, $.place),
    copy: $ => seq('copy', $.type, $.place, $.place),
    uncopy: $ => seq('uncopy', $.type, $.place, $.place),
    call: $ => seq('call', $._target),
    uncall: $ => seq('uncall', $._target),
    skip: _ => 'skip',
    made: $ => choice($.name, seq(choice('int', $.name), '[', $._expression, ']')),
    _target: $ => choice(seq(field('receiver', $.place), '::', $._message), $._message),
    _message: $ => seq(field('method', $.name), '(', commaed($.name), ')'),
    _expression: $ => choice($.number, $.nil, $.place, seq('(', $._expression, ')'), $.operation),
    operation: $ => choice(...OPERATORS.map((signs, level) =>
      prec.left(level + 1, seq(field('left', $._expression), field('operator', choice(...signs)), field('right', $._expression))))),
    nil: _ => 'nil',
    number: _ => /[0-9]+/,
    name: _ => /[A-Za-z][A-Za-z0-9_']*/,
    comment: _ => token(seq('//', /[^\n]*/)),
  },
});
