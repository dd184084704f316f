// What the companion says of a refusal or a fault, by its own rules: the build translates them (translate.py).
'use strict';

// The companion's message for a refused text: its sentence, what was expected, how to fix it, and the edits that do.
function refusalMessage(text, number, place) { return companion.explain.of_refusal(Bytes.of(text), number, place); }

// The blocks that have no end yet where a text leaves the grammar: the words that open them, with their lines from 1.
function openBlocks(text) {
  const bytes = Bytes.of(text), [tokens] = companion.tokens.cut(bytes), wrong = companion.grammar.first_wrong(tokens);
  const open = (wrong?.open ?? []).filter(({ what }) => OPENERS.includes(what)), place = wrong && companion.syntax_place.Place.made({}, bytes, tokens, wrong);
  return open.map(({ what, first }) => [what, place.line_of(first)]);
}

// What is there at the last position of a run, as the companion's rules read it.
function momentOf(run) {
  const at = run.last, things = run.objects(at).map(it => [Number(it.name.slice(1)), { ...it, number: Number(it.name.slice(1)) }]);
  return { point: { place: run.places[at] }, value: name => run.value(at, name), objects: new Map(things) };
}

// The companion's message for a fault, in a run with so large a heap and so many calls. The last position is that of
// the test that failed, or else of the last statement that began.
async function faultMessage({ number, place, isUndone, failure }, run, heap, depth) {
  await run.ask([run.last]);
  const moment = momentOf(run), [before, failed] = failure ? [undefined, moment] : [moment, undefined];
  const given = [Bytes.of(run.text), place, before, isUndone, Number(heap), Number(depth), failed];
  return companion.explain.of_fault(number, place === undefined ? undefined : companion.fault_slots.Where.made({}, ...given), isUndone);
}
