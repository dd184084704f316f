// What all scripts of the page use.
'use strict';

// The limits with which a run begins.
const USUAL = { heap: '12', depth: '64', steps: '100000000' };
// Opened first: a run that is paused in its middle, with objects to be seen.
const FIRST = { example: 'list', at: 40 };

const $ = id => document.getElementById(id);
const all = selector => [...document.querySelectorAll(selector)];

function made(name, properties, ...inner) {
  const it = Object.assign(document.createElement(name), properties);
  it.append(...inner.filter(part => part !== undefined));
  return it;
}

// A sentence with the parts in backquotes as code.
const withCode = sentence => sentence.split('`').map((part, index) => (index % 2 ? made('code', { textContent: part }) : part));

// Makes these the children of an element, in this order. Those that it has already are not touched.
function arrange(parent, children) {
  const wanted = new Set(children);
  for (const it of [...parent.childNodes]) if (!wanted.has(it)) it.remove();
  let next = parent.firstChild;
  for (const it of children) {
    if (it === next) next = next.nextSibling;
    else parent.insertBefore(it, next);
  }
}

// What one drawing after the other has in common: an element is made once for its key, and stays as long as each
// drawing asks for it.
class Elements {
  constructor() { this.now = new Map(); }

  begin() { [this.before, this.now] = [this.now, new Map()]; }

  get(key, make) {
    const it = this.before.get(key) ?? make();
    this.now.set(key, it);
    return it;
  }
}
