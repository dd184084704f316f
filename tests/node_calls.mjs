// Makes many calls of the program for node in one process, each in an instance of its own: node node_calls.mjs PACKAGE. Each line that it
// reads is a list of calls in a folder, and the line that it prints has the status and the output of each.
import fs from 'node:fs';
import path from 'node:path';
import readline from 'node:readline';
import { pathToFileURL } from 'node:url';

const home = process.argv[2];
const host = await import(pathToFileURL(path.join(home, 'rooplpp.mjs')));
const program = new WebAssembly.Module(fs.readFileSync(path.join(home, 'rooplpp.wasm')));
const writeSync = fs.writeSync;
let printed;

// What goes to standard output is kept.
fs.writeSync = (file, bytes, ...more) => {
  if (file !== 1 || typeof bytes === 'string') return writeSync(file, bytes, ...more);
  printed.push(Buffer.from(bytes));
  return bytes.length;
};

function call(words) {
  printed = [];
  const given = ['rooplpp', ...words].map(word => Buffer.from(word));
  const instance = new WebAssembly.Instance(program, { page: host.imports(given, () => instance.exports.memory) });
  const status = instance.exports.program_main();
  return [status, Buffer.concat(printed).toString('base64'), ''];
}

for await (const line of readline.createInterface({ input: process.stdin })) {
  const { folder, calls } = JSON.parse(line);
  process.chdir(folder);
  const answers = calls.map(words => {
    try {
      return call(words);
    } catch (error) {
      return [-1, '', String(error)];
    }
  });
  process.chdir('/');
  process.stdout.write(`${JSON.stringify(answers)}\n`);
}
