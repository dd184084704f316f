// What a test that fails says: which test it is, the values that it saw, and what it must have given.
'use strict';

// The tests of statements with blocks, by their words: whether a loop has them, and whether they are at its head.
const TESTS = { if: { isHead: true }, fi: {}, from: { isLoop: true, isHead: true }, until: { isLoop: true }, local: { isHead: true }, delocal: {} };

// The tokens of a test: its word, where its expression begins, and the one after it.
function testOf(source, { word, place }) {
  const first = source.first(place), keyword = TESTS[word].isHead ? first : source.parts(first).closer;
  const begin = /local$/.test(word) ? source.afterWord(keyword, '=') : keyword + 1;
  return { keyword, begin, behind: source.afterExpression(begin) };
}

// The span of the test that fails at the last position of a run, what it found and needed, and both as a sentence.
// `told` is what the session says of it.
function failureOf(run, told, { keyword, begin, behind }) {
  const { source } = run, seen = valuesOf(run, begin, behind);
  const said = /local$/.test(told.word) ? saidOfLocal(source.word(begin - 2), told, seen) : saidOfTest(source.slice(begin, behind), told, seen);
  return { at: source.tokens[keyword].at, end: source.tokens[behind - 1].end, ...said };
}

// A local that is closed with another value; in a body that is undone the head closes it.
function saidOfLocal(name, { is, needed }, values) {
  const seen = values.map(([it, value]) => `${it} is ${value}`);
  return { found: `${name} = ${is}`, wanted: `${name} = ${needed}`,
    told: `\`${name}\` is ${is}, and must be ${needed} to be closed${seen.length ? `: ${seen.join(', ')}` : ''}` };
}

// A loop tests at its head, an alternative at its foot; in a body that is undone it is the other end.
function saidOfTest(text, { word, needed }, values) {
  const mustHold = needed === 'true', seen = values.map(([name, value]) => `\`${name}\` is ${value}`).join(', ');
  const ofLoop = mustHold ? 'the loop begins' : 'the loop goes round again';
  const branch = TESTS[word].isLoop ? ofLoop : `the ${mustHold ? 'then' : 'else'} block ran`;
  const holds = it => (it ? 'holds' : 'does not hold');
  return { found: `${values.map(([name, value]) => `${name} = ${value}`).join(', ') || 'constants'}: ${text} ${holds(!mustHold)}`,
    wanted: `${text} ${holds(mustHold)}, since ${branch}`,
    told: `${seen ? `${seen}, so ` : ''}\`${text}\` ${holds(!mustHold)}; ${branch}, so it must ${mustHold ? '' : 'not '}hold` };
}

// The names and elements of an expression with their values at the last position.
function valuesOf(run, first, behind) {
  const { source } = run, found = new Map(), expression = new Expression(run, run.last);
  for (let at = first; at < behind; at++) {
    if (!/^[A-Za-z]/.test(source.word(at)) || source.word(at) === 'nil') continue;
    const after = source.afterPlace(at), value = expression.value(at, after);
    if (value !== undefined) found.set(source.slice(at, after), value);
  }
  return [...found];
}
