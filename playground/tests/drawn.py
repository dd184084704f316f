"""The page as a person sees it: what is drawn in a browser, and what keys and clicks do. Nothing here reads what the page's own
objects hold; they are asked only whether the page still works on something."""
import contextlib
import os
import re

SHIFT, CONTROL, TAB, ESCAPE, ENTER, F9 = '\ue008', '\ue009', '\ue004', '\ue00c', '\ue007', '\ue039'
SPACE, END, HOME, LEFT, UP, RIGHT, DOWN = ' ', '\ue010', '\ue011', '\ue012', '\ue013', '\ue014', '\ue015'
WIDE, TALL = 1440, 1000
TOP = os.path.dirname(os.path.dirname(os.path.dirname(os.path.realpath(__file__))))

# The tests that open the page themselves.
OPENING = set()
# Whether an element is drawn: it has a size, and a point of it is on the screen and belongs to it or to what it holds.
IS_DRAWN = '''
const isDrawn = it => {
  if (!it || !it.checkVisibility({ visibilityProperty: true, opacityProperty: true })) return false;
  const box = it.getBoundingClientRect();
  return box.width > 0 && box.height > 0;
};
const drawn = selector => {
  const it = [...document.querySelectorAll(selector)].find(isDrawn);
  if (!it) throw new Error(`nothing drawn for ${selector}`);
  return it;
};
'''
LINES = IS_DRAWN + '''
return [...document.querySelectorAll('.CodeMirror-code > div')].filter(isDrawn).map(row => ({
  number: Number(row.querySelector('.CodeMirror-linenumber').textContent),
  text: row.querySelector('.CodeMirror-line').textContent.replace(/\\u200b/g, '').replace(/\\u00a0/g, ' '),
  kinds: [...row.querySelectorAll('.CodeMirror-linebackground')].map(it => it.className).join(' '),
  sign: row.querySelector('.way-mark')?.textContent ?? '',
  marked: [...row.querySelectorAll('.here-place, .fault-place, .mistake-place')].map(it => it.textContent).join(''),
  told: row.querySelector('.told')?.innerText ?? '' }));
'''
BOXES = IS_DRAWN + '''
return [...document.querySelectorAll('#store .box')].filter(isDrawn).map(box => {
  const frame = box.querySelector('.frame').getBoundingClientRect(), canvas = document.querySelector('#store .picture').getBoundingClientRect();
  return { name: box.dataset.name, kind: box.getAttribute('class'), title: box.querySelector('.title').textContent,
    fields: [...box.querySelectorAll('.field')].map(it => it.textContent), values: [...box.querySelectorAll('.value')].map(it => it.textContent),
    at: [frame.left - canvas.left, frame.top - canvas.top].map(Math.round) };
});
'''

PARTS = 4
# Waits for at most a second until two frames are drawn and nothing is under way, and says whether that is so.
SETTLES = '''
const frame = () => new Promise(done => requestAnimationFrame(() => setTimeout(done, 0))), end = performance.now() + 1000;
const isBusy = it => it && (it.running || it.later !== undefined || Number(document.body.dataset.asked) !== it.asked);
do { await frame(); await frame(); } while (isBusy(globalThis.playground) && performance.now() < end);
return !isBusy(globalThis.playground);
'''
# Waits in the page until it has answered a question that is asked from here on: what the driver asks takes time of the page too.
ANSWERED = '''
const answered = new Promise(done => new MutationObserver(done).observe(document.body, { attributeFilter: ['data-asked'] }));
'''
# Makes moves, each as soon as the last one is drawn.
MOVES = '''
const [key, count, told] = arguments, frame = () => new Promise(done => requestAnimationFrame(() => setTimeout(done, 0)));
for (let at = 0; at < count; at++) {
  const before = document.querySelector(told).textContent;
  document.querySelector(`[data-go=${key}]`).click();
  do await frame(); while (document.querySelector(told).textContent === before);
}
'''
# Makes moves one frame after the other, and gives what an element says after each.
STEPS = '''
const [key, count, told] = arguments, seen = [];
for (let at = 0; at < count; at++) {
  document.querySelector(`[data-go=${key}]`).click();
  for (let frame = 0; frame < 3; frame++) await new Promise(done => requestAnimationFrame(done));
  seen.push(document.querySelector(told).textContent);
}
return seen;
'''
# From here on the worker answers neither calls nor sessions, until they are let go.
HOLDS = '''
const { caller } = playground, { send } = caller;
caller.held = [];
caller.send = (...given) => new Promise((done, failed) => caller.held.push(() => send.apply(caller, given).then(done, failed)));
'''
LETS_GO = 'const { caller } = playground; delete caller.send; for (const it of caller.held) it()'


def read(file):
    with open(os.path.join(TOP, file), encoding='utf-8') as it:
        return it.read()


def equal(got, wanted, what=''):
    if got != wanted:
        raise AssertionError(f'{what}{": " if what else ""}wanted {wanted!r}, got {got!r}')


def holds(is_so, what):
    if not is_so:
        raise AssertionError(what)


def opening(test):
    """Marks a test that opens the page itself."""
    OPENING.add(test)
    return test


class Page:
    """The page in a browser."""

    def __init__(self, browser, file):
        self.browser, self.file = browser, file

    def run(self, script, *given):
        return self.browser.run(script, *given)

    # ---- opening, and waiting

    def open(self, fragment='', query='', file=None, clears=True):
        """Opens the page again. What it kept of the last visit is cleared first, unless `clears` is false."""
        address = f'file://{file or self.file}{query}{fragment}'
        if clears:
            self.clear()
        self.browser.open('about:blank')
        self.browser.open(address)
        self.browser.until('return document.body && document.body.dataset.ready')

    def clear(self):
        """Clears what the page kept. If it is open, it keeps nothing more from then on."""
        if self.run('return location.pathname') != self.file:
            self.browser.open(f'file://{self.file}?embed')
        self.run('localStorage.clear(); Storage.prototype.setItem = () => {}')

    def reload(self):
        self.browser.reload()
        self.browser.until('return document.body && document.body.dataset.ready')

    def rest(self, seconds):
        self.run('await new Promise(done => setTimeout(done, 1000 * arguments[0]))', seconds)

    def settled(self):
        """Waits until nothing is under way, as the page shows by its key Stop and counts by its questions, and no edit waits to be read."""
        self.browser.until(SETTLES)

    # ---- what is drawn

    def text(self, selector):
        return self.run(IS_DRAWN + 'return drawn(arguments[0]).innerText.trim()', selector)

    def is_drawn(self, selector):
        return self.run(IS_DRAWN + 'return [...document.querySelectorAll(arguments[0])].some(isDrawn)', selector)

    def lines(self):
        return self.run(LINES)

    def position(self):
        """The number of the position that is shown, and the last one."""
        at, last = self.text('#where').replace(',', '').rstrip('+').split(' / ')
        return int(at), int(last)

    def here(self):
        """The line that is marked as the next one, with its sign and the text that is marked in it."""
        marked = [it for it in self.lines() if re.search('(here|fault)-line', it['kinds'])]
        return (marked[0]['number'], marked[0]['sign'], marked[0]['marked']) if marked else None

    def boxes(self):
        return self.run(BOXES)

    def store(self):
        """The objects with their fields and values, by their titles, and the variables of the innermost call."""
        found = {it['title']: dict(zip(it['fields'], it['values'])) for it in self.boxes() if ' object' in it['kind'] or ' inner' in it['kind']}
        holds(found, 'the picture of the store is empty')
        return found

    def output(self):
        """The rows of the table of fields: name, at the start, here, at the end."""
        return self.run(IS_DRAWN + 'return [...drawn("#output table").querySelectorAll("tbody tr")]'
                        '.map(row => [...row.children].map(it => it.innerText))')

    # ---- doing

    def click(self, selector):
        self.browser.click(selector)

    def click_text(self, selector, text):
        """Clicks the element of this kind that has this text."""
        self.run('for (const it of document.querySelectorAll("[data-of-test]")) delete it.dataset.ofTest;'
                 'const it = [...document.querySelectorAll(arguments[0])].find(it => it.innerText.trim().startsWith(arguments[1]));'
                 'if (!it) throw new Error(`no ${arguments[1]}`); it.scrollIntoView({ block: "nearest" }); it.dataset.ofTest = "yes"', selector, text)
        self.click('[data-of-test]')

    def click_line_number(self, line):
        self.run('for (const it of document.querySelectorAll("[data-of-test]")) delete it.dataset.ofTest;'
                 '[...document.querySelectorAll(".CodeMirror-code .CodeMirror-linenumber")].find(it => it.textContent === arguments[0]).dataset.ofTest = "yes"', str(line))
        self.click('[data-of-test]')

    def press(self, *keys):
        self.browser.press(*keys)

    def choose(self, title):
        """Chooses an example by its title."""
        self.click('#pick')
        self.click_text('#rungs button', title)
        self.settled()

    def write(self, text):
        """Puts a text into the editor in the place of all that is there, as one pastes it."""
        self.run(ANSWERED + 'const { code } = playground.editor, last = code.lastLine();'
                 'code.replaceRange(arguments[0], { line: 0, ch: 0 }, { line: last, ch: code.getLine(last).length }, "paste");'
                 'code.getInputField().blur(); await answered', text)
        self.settled()

    def follow(self, fragment):
        """Follows a link to another fragment of the page that is open."""
        self.run('const followed = new Promise(done => addEventListener("hashchange", done, { once: true }));'
                 'location.hash = arguments[0]; await followed', fragment)
        self.rest(0.1)
        self.settled()

    def view(self, name):
        self.click(f'#tab-{name}')
        self.settled()

    def go(self, name):
        """Presses a key of the transport."""
        self.click(f'[data-go={name}]')
        self.settled()

    def move_cost(self, key, count, told='#where'):
        """The milliseconds for which the processor works at the page for a move by a key of the transport, after which an element has
        another text, in the best of several parts of these moves. What else the machine does adds little."""
        costs = []
        for _ in range(PARTS):
            before = self.browser.processor_seconds()
            self.run(MOVES, key, count // PARTS, told)
            costs.append((self.browser.processor_seconds() - before) * 1000 * PARTS / count)
        return min(costs)

    @contextlib.contextmanager
    def without_answers(self):
        """While this lasts, no call of the program is answered."""
        self.run(HOLDS)
        try:
            yield
        finally:
            self.run(LETS_GO)
            self.settled()

    def steps(self, key, count, told='#where'):
        """What an element says after each of so many moves that are made with no regard to calls of the program."""
        return self.run(STEPS, key, count, told)

    def put(self, selector, value):
        """Types a value into a box, and leaves it."""
        self.run(ANSWERED + 'const it = document.querySelector(arguments[0]); it.focus(); it.value = arguments[1];'
                 'it.dispatchEvent(new Event("input")); it.dispatchEvent(new Event("change")); it.blur(); await answered', selector, value)
        self.settled()
