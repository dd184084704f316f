// The start of the page: what it needs is unpacked and tried. If that fails, the page says what is missing, and still
// shows texts, examples, lessons and the help.
'use strict';

class CannotRun extends Error {}

function needs(holds, what) {
  if (!holds) throw new CannotRun(`it has no ${what}`);
}

// The modules of the program and of the live program.
function compiled({ aside, modules, sizes }) {
  needs(typeof WebAssembly === 'object', 'WebAssembly');
  needs(typeof Worker === 'function', 'workers');
  const worker = new Worker(URL.createObjectURL(new Blob([aside], { type: 'text/javascript' })));
  return new Promise((done, failed) => {
    worker.onmessage = ({ data }) => {
      worker.terminate();
      if (data.modules) done(data.modules); else failed(new Error(data.why));
    };
    worker.onerror = event => failed(new Error(event.message || 'a worker does not begin'));
    worker.postMessage({ modules, sizes });
  });
}

// A caller of the program that has answered once.
async function readyCaller(modules, worker) {
  const caller = new Caller(modules, worker);
  const answer = await caller.call(['check', 'p'], [['p', 'class P int x method main() skip']]);
  if (answer.status !== 0) throw new CannotRun(`the program does not answer (${answer.stopped ?? answer.status})`);
  return caller;
}

// The editor, the layout and most of the page's own scripts, which it carries packed.
function loadScripts({ scripts, length }) {
  needs(typeof DecompressionStream === 'function', 'DecompressionStream, by which this page reads links');
  document.head.append(made('script', { textContent: new TextDecoder().decode(unzipped(scripts, length)) }));
}

// The page without runs: the text can be read and written, and the examples can be chosen.
function startWithoutRuns(carried, lessons, error) {
  const why = error instanceof CannotRun ? error.message : `it refuses to: ${error.message}`;
  $('cannot').textContent = `This browser cannot run the program: ${why}. Chrome, Edge, Firefox and Safari of the last three years can, `
    + 'unless the settings of a school or a company forbid it. You can still read the examples, the exercises and the help.';
  $('cannot').hidden = false;
  $('welcome').hidden = true;
  document.body.dataset.without = 'runs';
  const open = setting => {
    $('text').value = setting.text;
    lessons.name(lessons.title(setting.text, setting.exercise));
    const task = lessons.task(setting.exercise);
    $('task').hidden = !task;
    $('task').textContent = task ? `Exercise ${task.name}: ${task.task}` : '';
  };
  Object.assign(lessons, { onOpen: open, textNow: () => $('text').value });
  for (const key of ['share', 'embed', 'large', 'dark', 'more']) $(key).hidden = true;
  open(lessons.example(FIRST.example));
}

async function start() {
  const carried = JSON.parse($('carried').textContent), lessons = new Lessons(carried);
  for (const key of all('[data-close]')) key.onclick = () => key.closest('dialog').close();
  for (const dialog of all('dialog')) dialog.onclick = event => event.target === dialog && dialog.close();
  try {
    const [modules] = await Promise.all([compiled(carried), loadScripts(carried)]);
    // For the tests of this page.
    globalThis.playground = new Workbench(carried, await readyCaller(modules, carried.worker), lessons);
  } catch (error) {
    startWithoutRuns(carried, lessons, error);
    document.body.dataset.ready = 'without';
    return;
  }
  await playground.begin();
  document.body.dataset.ready = 'yes';
}

start();
