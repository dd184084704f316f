// Where a run stopped with a fault. The statement is the one that the program names for the compiled run. A test that
// fails is a position of its own, with the values that it saw.
'use strict';

// The last fault of a test that has a value. If the expression of a test fails, the values are those of an element.
const DELOCAL = 3;
const IMAGE_HEADER = 16, CELL_BYTES = 8;

// The image with the numbers of a run in its static words.
function withNumbers(image, listing, numbers) {
  const bytes = image.slice(), view = new DataView(bytes.buffer), cells = new Map(listing.cellNames.map(([cell, name]) => [name, cell]));
  const words = IMAGE_HEADER + CELL_BYTES * view.getUint32(8, true);
  for (const [name, value] of numbers) view.setInt32(words + 4 * (cells.get(name) - FIRST_STATIC), Number(value), true);
  return bytes;
}

// The fault of a run: its number and name, the place of its statement if the program names it, and what a failed test
// says. `machine` is what `go` answered, `runImage` runs the image.
async function findFault(run, machine, runImage) {
  const fault = faultOf(machine.text), told = run.failing?.number === fault.number ? run.failing : undefined;
  const from = told ? undefined : /^from (\d+)$/m.exec((await runImage()).text)?.[1];
  fault.place = told?.place ?? (from && Number(from));
  if (TESTS[told?.word] && told.number <= DELOCAL) {
    const test = testOf(run.source, told);
    run.test = run.last + 1;
    run.add(byteOf(run.text, run.source.tokens[test.keyword].at), told.depth);
    run.looks.set(run.test, { printed: told.printed + await objectsAtTest(run) });
    fault.failure = failureOf(run, told, test);
  }
  return { ...fault, isUndone: run.undone[run.last] };
}

// The objects at a test that failed, as the session prints them. They have the names of the position before, and one
// that the statement there may have given: for each request the source is run again.
async function objectsAtTest(run) {
  await run.ask([run.test - 1]);
  const names = [run.names, ...run.objects(run.test - 1).map(it => Number(it.name.slice(1)))];
  const firsts = [...new Set(names.map(it => it - (it - 1) % NAMES_AT_ONCE))].sort((one, other) => one - other);
  const { replies } = await run.session.ask(at => [moveTo(at, run.test - 1), ...firsts.map(it => `fault cells ${it} ${NAMES_AT_ONCE}`)]);
  return replies.slice(1).map(it => it.text).join('');
}

// The faults of `new`. Where a `construct` fails with another one, what fails is its `delete`.
const OF_NEW = [4, 8];

// The span of the text that a fault is about: the test that failed, the end of a `construct`, or the statement.
function spanOf(fault, source) {
  if (fault.failure) return fault.failure;
  const statement = fault.place === undefined ? undefined : source.statement(fault.place);
  if (statement?.words[0] !== 'construct' || OF_NEW.includes(fault.number) !== fault.isUndone) return statement;
  const { closer } = source.parts(statement.first);
  return { at: source.tokens[closer].at, end: source.tokens[closer + 1].end };
}
