// Makes the calls that the page sends, one after the other, and holds its sessions. Each call and each session is an
// instance of its own. The first message has the modules. The page ends this worker to stop a call; a program that runs
// without end is only stopped by that.
const sessions = new Map();
let modules, last = Promise.resolve();

// What a message asks for: a call, or the beginning of a session, lines for it, or its end.
async function answer({ session, words, files, lines }) {
  if (session === undefined) return callProgram(modules.program, words, files);
  if (words) sessions.set(session, new Session(modules.live, words, files));
  const held = sessions.get(session), ended = { status: 0, printed: new Uint8Array() };
  const told = words ? await held.begin() : lines !== undefined ? await held.ask(lines) : ended;
  if (told.status !== undefined) sessions.delete(session);
  return told;
}

async function answered(data) {
  try {
    postMessage({ number: data.number, ...await answer(data) });
  } catch (error) {
    // A promise that a worker leaves rejected never reaches the page, which would wait for ever.
    postMessage({ number: data.number, status: STOPPED, stopped: String(error), printed: new Uint8Array(), files: data.files });
  }
}

onmessage = ({ data }) => {
  if (data.modules) modules = data.modules;
  else last = last.then(() => answered(data));
};
