// A link carries the program and its settings in its fragment, which no browser sends to anyone.
'use strict';

const KEPT = 'rooplpp-workbench';

async function through(stream, bytes) {
  return new Uint8Array(await new Response(new Blob([bytes]).stream().pipeThrough(stream)).arrayBuffer());
}

function base64Of(bytes) {
  return btoa(Array.from(bytes, byte => String.fromCharCode(byte)).join(''));
}

// A setting as its JSON, compressed, in letters that links may have.
async function packed(setting) {
  const bytes = await through(new CompressionStream('deflate-raw'), new TextEncoder().encode(JSON.stringify(setting)));
  return base64Of(bytes).replaceAll('+', '-').replaceAll('/', '_').replaceAll('=', '');
}

// The setting that was packed, or nothing where the letters cannot be read.
async function unpacked(letters) {
  try {
    const bytes = bytesOf(letters.replaceAll('-', '+').replaceAll('_', '/'));
    const setting = JSON.parse(new TextDecoder().decode(await through(new DecompressionStream('deflate-raw'), bytes)));
    return typeof setting.text === 'string' ? setting : undefined;
  } catch {
    return undefined;
  }
}

// The fragment of a link: the version of the page, and more words before the program.
async function fragmentOf(setting, version, more = {}) {
  return `#${new URLSearchParams({ v: version, ...more })}&program=${await packed(setting)}`;
}

// What a fragment says: a setting, an example or an exercise, with view and position; nothing where it is empty.
async function readFragment(fragment) {
  const words = new URLSearchParams(fragment.slice(1)), number = Number(words.get('step') ?? NaN);
  const where = { view: words.get('view') ?? undefined, at: Number.isInteger(number) ? number : undefined, version: words.get('v') ?? undefined };
  for (const kind of ['example', 'exercise']) if (words.has(kind)) return { ...where, [kind]: words.get(kind) };
  if (!words.has('program')) return fragment.length > 1 ? { ...where, isBroken: true } : undefined;
  const setting = await unpacked(words.get('program').replaceAll(' ', '+'));
  return setting ? { ...where, setting } : { ...where, isBroken: true };
}

// What the browser keeps of this page from one visit to the next, where it may.
const Kept = {
  isOff: false,
  get() {
    try { return JSON.parse(localStorage.getItem(KEPT)) ?? {}; } catch { return {}; }
  },
  set(values) {
    if (this.isOff) return;
    try { localStorage.setItem(KEPT, JSON.stringify({ ...this.get(), ...values })); } catch { /* the address keeps the text */ }
  },
};
