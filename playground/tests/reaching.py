"""Access by keyboard, names, contrast and sizes; no network; browsers that cannot run the program; a worker that dies."""
import contextlib
import os
import tempfile

from drawn import CONTROL, END, ENTER, ESCAPE, F9, HOME, IS_DRAWN, LEFT, RIGHT, SHIFT, SPACE, TAB, UP, equal, holds, opening, read
from running import FAULTS

UNNAMED = '''
const labelled = it => (it.getAttribute('aria-labelledby') || '').split(' ').map(id => document.getElementById(id)?.textContent ?? '').join('');
const named = it => (it.getAttribute('aria-label') || labelled(it) || it.closest('label')?.textContent || it.textContent || it.title).trim();
const kinds = 'button, input, select, textarea, a, [role=tab], [role=separator], [role=tabpanel], [role=region], section, form, dialog';
return [...document.querySelectorAll(kinds)].filter(it => it.checkVisibility() && !named(it)).map(it => it.outerHTML.slice(0, 90));
'''
# The contrast of two colours, as WCAG defines it.
RATIO = '''
const numbers = colour => {
  const found = colour.match(/[\\d.]+/g).map(Number);
  return found.length > 3 ? found : [...found.slice(0, 3), 1];
};
const linear = part => (part <= 0.03928 ? part / 12.92 : ((part + 0.055) / 1.055) ** 2.4);
const light = ([r, g, b]) => 0.2126 * linear(r / 255) + 0.7152 * linear(g / 255) + 0.0722 * linear(b / 255);
const ratio = (one, other) => {
  const [high, low] = [light(one), light(other)].sort((a, b) => b - a);
  return (high + 0.05) / (low + 0.05);
};
const low = new Set();
'''
# The texts with too little contrast, each with its ground: the nearest background that is not transparent.
CONTRAST = RATIO + '''
const isShape = it => it instanceof SVGElement;
const ground = it => {
  for (let at = it; at; at = at.parentElement) {
    const colour = isShape(at) ? [0, 0, 0, 0] : numbers(getComputedStyle(at).backgroundColor);
    if (colour[3] === 1) return colour;
  }
  return [255, 255, 255];
};
const shapeGround = it => {
  const box = it.closest('.box'), before = it.previousElementSibling?.matches('rect.changed, rect.cell') ? it.previousElementSibling : null;
  return numbers(getComputedStyle(before ?? box?.querySelector('.tab') ?? box?.querySelector('.frame') ?? it).fill);
};
for (const it of document.querySelectorAll('body *')) {
  if (!it.checkVisibility({ opacityProperty: true }) || it.closest('[aria-hidden=true], [hidden], .stale') || it.tagName === 'OPTION') continue;
  if (![...it.childNodes].some(child => child.nodeType === 3 && child.textContent.trim())) continue;
  const style = getComputedStyle(it), colour = numbers(isShape(it) ? style.fill : style.color);
  const found = ratio(colour, isShape(it) ? shapeGround(it) : ground(it));
  if (found < 4.5) low.add(`${found.toFixed(2)} ${it.tagName}.${it.getAttribute('class') ?? ''} ${it.textContent.trim().slice(0, 20)}`);
}
return [...low];
'''
SHAPES = RATIO + '''
const ground = it => numbers(getComputedStyle(document.querySelector(it.closest('#timeline') ? '#transport' : 'body')).backgroundColor);
for (const it of document.querySelectorAll('#store .object > .frame, #store .inner > .frame, #store .arrow, #timeline rect')) {
  const style = getComputedStyle(it), found = ratio(numbers(it.matches('#timeline rect') ? style.fill : style.stroke), ground(it));
  if (found < 3) low.add(`${found.toFixed(2)} ${it.getAttribute('class')}`);
}
return [...low];
'''
# The element that has the focus, by a name, and whether it shows that it has it.
FOCUS = '''
const it = document.activeElement, style = getComputedStyle(it), box = getComputedStyle(it.closest('.CodeMirror, .chip') ?? it);
const name = it.id || it.dataset.go || it.dataset.step || it.getAttribute('aria-label') || `${it.tagName}.${it.className}`;
return [name, style.outlineStyle !== 'none' || box.boxShadow !== 'none', (it.innerText ?? '').slice(0, 40)];
'''
LISTENS = '''
const spoken = document.getElementById('spoken');
playground.heard = [];
new MutationObserver(() => playground.heard.push(spoken.textContent)).observe(spoken, { childList: true, characterData: true, subtree: true });
'''
TOO_WIDE = 'const it = document.documentElement; return [it.scrollWidth > it.clientWidth, document.body.scrollWidth > innerWidth]'
# What is not wholly on the screen of these, and of these what is wider than its place.
OFF_SCREEN = IS_DRAWN + '''
const isOff = box => box.left < -1 || box.right > innerWidth + 1 || box.top < -1 || box.bottom > innerHeight + 1;
const name = it => it.id || it.dataset.go || it.className || it.tagName;
return [...document.querySelectorAll(arguments[0])].filter(isDrawn).filter(it => isOff(it.getBoundingClientRect())).map(name);
'''
WIDER = IS_DRAWN + '''
return [...document.querySelectorAll(arguments[0])].filter(isDrawn).filter(it => it.scrollWidth > it.clientWidth + 1).map(it => it.id || it.className);
'''
KEYS = '.controls button, .controls select, #readout, #timeline, #head button, [role=tab], #limits, #limits input, #toast, #toast button'
WORDS = '.keys button, [role=tab], #head button:not(.picker)'
SMALL = (320, 720)
# The names of the keys that are drawn, and the light of the ground, the size of the text and the width of the picture.
NAMES = IS_DRAWN + '''
const text = it => [...it.childNodes].filter(part => !part.ariaHidden).map(part => part.textContent).join('');
return [...document.querySelectorAll('button, select, input')].filter(isDrawn).filter(it => !it.closest('dialog'))
  .map(it => (it.getAttribute('aria-label') || text(it) || it.title || it.id).trim()).filter(it => it !== 'More');
'''
LOOKS = RATIO + '''
const width = document.querySelector('#store .picture').getBoundingClientRect().width, size = parseFloat(getComputedStyle(document.body).fontSize);
return [light(numbers(getComputedStyle(document.body).backgroundColor)), size, width];
'''
# A telephone, and a window of 1280 by 900 at 200 %.
NARROW = ((390, 844), (640, 450))
SIZES = ((320, 700), (390, 844), (720, 500), (1024, 768), (1440, 1000))
# Tries to reach the network in three ways, and gives the rules of the page's policy that forbid it.
FETCHES = '''
const image = () => new Promise((done, failed) => { const it = new Image(); it.onload = done; it.onerror = failed; it.src = 'http://127.0.0.1:9/x.png'; });
const tries = [() => fetch('http://127.0.0.1:9/'), image, async () => new WebSocket('ws://127.0.0.1:9/')], blocked = [];
document.addEventListener('securitypolicyviolation', it => blocked.push(it.effectiveDirective));
for (const one of tries) await one().catch(() => undefined);
await new Promise(done => setTimeout(done, 200));
return blocked;
'''
DIES = '''
const { caller } = playground, call = caller.call(['check', 'p'], [['p', 'class']]).catch(error => { document.body.dataset.died = error.message; });
caller.worker.dispatchEvent(new ErrorEvent('error', { message: 'out of memory' }));
await call;
'''


@opening
def every_control_has_a_name(page):
    page.open('#example=list')
    page.settled()
    for view in ('store', 'output', 'inverse', 'machine'):
        page.view(view)
        equal(page.run(UNNAMED), [], view)
    for key, dialog in (('#pick', '#ladder'), ('#help', '#helping'), ('#embed', '#embedding')):
        page.click(key)
        equal(page.run(UNNAMED), [], dialog)
        page.click(f'{dialog} [data-close]')
    equal(page.run('return [...document.querySelectorAll("[role=status], [role=alert], [aria-live]")].map(it => it.id)'), ['cannot', 'spoken'])
    page.view('store')


@opening
def assistive_technology_sees_it(page):
    """The accessibility tree of the browser has each part with its role and its name."""
    page.open('#example=list')
    page.settled()
    for selector, role, name in (
            ('[data-go=on]', 'button', 'Forward'), ('[data-go=back]', 'button', 'Back'), ('[data-go=start]', 'button', 'To the start'),
            ('[data-go=step-on]', 'button', 'One statement on'), ('#timeline input', 'slider', 'Position in the run'), ('#tab-store', 'tab', 'Store'),
            ('#store', 'tabpanel', 'Store'), ('#split', 'separator', 'Width of the program'), ('#speed', 'combobox', 'Speed'),
            ('#field-sum', 'textbox', 'sum'), ('#pick', 'button', 'Data structures: Linked list'), ('#dark', 'button', 'Dark'),
            ('.CodeMirror textarea', 'textbox', 'Program text'), ('#gear', 'button', 'Limits of the run')):
        equal(page.browser.accessible(selector), (role, name), selector)
    picture = page.browser.accessible('#store .picture')
    holds(picture[0] in ('image', 'img', 'graphics-document') and picture[1].startswith('The store: '), repr(picture))


def tabs_keep_the_focus(page):
    """Arrow keys go along the tabs, open each view, and leave the focus there."""
    page.run('document.getElementById("tab-store").focus()')
    for key, view in ((RIGHT, 'output'), (RIGHT, 'inverse'), (RIGHT, 'machine'), (RIGHT, 'store'), (LEFT, 'machine'), (RIGHT, 'store')):
        page.press(key)
        page.settled()
        equal(page.run('return document.activeElement.id'), f'tab-{view}')
        holds(page.is_drawn(f'#{view}'), f'{view} is not open')


def the_keyboard_reaches_all(page):
    """The tabulator goes through the whole page, into the editor and out of it, and each stop shows its focus."""
    page.run('document.activeElement.blur(); scrollTo(0, 0)')
    seen = []
    for _ in range(45):
        page.press(TAB)
        here = page.run(FOCUS)
        if seen and here[0] == seen[0][0]:
            break
        seen.append(here)
    names = [name for name, *_ in seen]
    for wanted in ('pick', 'share', 'help', 'Program text', 'split', 'tab-store', 'start', 'back', 'on', 'end', 'speed', 'gear'):
        holds(wanted in names, f'the tabulator does not come to {wanted}: {names}')
    equal([name for name, is_shown, _ in seen if not is_shown and name not in ('BODY.', 'HTML.')], [], 'these do not show their focus')


def tab_to(page, name, *, keys=(TAB,)):
    """Presses the tabulator until the focus is at what has this name, or a text that begins so."""
    for _ in range(90):
        page.press(*keys)
        found, _, text = page.run(FOCUS)
        if found == name or text.startswith(name):
            return
    raise AssertionError(f'the tabulator does not come to {name}')


def works_by_keyboard_alone(page):
    """All that a pointer does can be done by keys: choose, write, break, play, fields, limits, help, share, the width of the program."""
    page.run('document.activeElement.blur(); scrollTo(0, 0)')
    tab_to(page, 'pick')
    page.press(ENTER)
    # Backward: after the last example, Firefox without a screen leaves the page and does not come back.
    tab_to(page, 'Swap', keys=(SHIFT, TAB))
    page.press(ENTER)
    page.browser.until('return document.getElementById("picked").textContent.endsWith("Swap")')
    page.settled()
    tab_to(page, 'Program text')
    page.press(CONTROL, 'a')
    page.browser.type(ENTER.join(('class P int x method main()', 'x += 1', 'x += 2', 'x += 3')))
    page.browser.until('return document.getElementById("problems").textContent.startsWith("Accepted. 3")')
    page.settled()
    page.press(UP)
    page.press(F9)
    holds(page.is_drawn('.break'), 'F9 sets no breakpoint')
    page.press(ESCAPE)
    page.press(HOME)
    page.settled()
    page.press(SPACE)
    page.browser.until('return !document.querySelector(".play.playing")')
    equal(page.here()[0], 3, 'the breakpoint of line 3')
    tab_to(page, 'end')
    page.press(ENTER)
    page.settled()
    equal((page.store()['#1 P'], page.run(FOCUS)[0]), ({'x': '6'}, 'end'))
    by_keys_in_fields(page)


def by_keys_in_fields(page):
    tab_to(page, 'field-x')
    page.press(CONTROL, 'a')
    page.browser.type('10')
    page.press(TAB)
    page.settled()
    tab_to(page, 'gear')
    page.press(ENTER)
    equal(page.run(FOCUS)[0], 'heap')
    page.press(ESCAPE)
    equal((page.run(FOCUS)[0], page.is_drawn('#limits')), ('gear', False))
    page.press(END)
    page.settled()
    equal(page.store()['#1 P'], {'x': '16'})
    tab_to(page, 'split', keys=(SHIFT, TAB))
    width = page.run('return document.getElementById("program").offsetWidth')
    page.press(RIGHT)
    holds(page.run('return document.getElementById("program").offsetWidth') > width, 'the program does not get wider')
    tab_to(page, 'help', keys=(SHIFT, TAB))
    page.press(ENTER)
    holds(page.is_drawn('#helping'), 'the help does not open')
    page.press(ESCAPE)
    equal((page.run(FOCUS)[0], page.is_drawn('#helping')), ('help', False))
    tab_to(page, 'share', keys=(SHIFT, TAB))
    page.press(ENTER)
    page.browser.until('return /step=3&/.test(location.hash)')


@opening
def a_narrow_page_has_all_keys(page):
    """On a telephone, and at 200 %, the page has all keys that a wide one has, and they work."""
    page.open('#example=tree&step=60', query='?theme=light')
    page.settled()
    wide = {*page.run(NAMES)}
    holds({'Dark', 'Larger text', 'Embed', 'Larger', 'Smaller', 'field-first'} <= wide, f'{wide}')
    for size in NARROW:
        page.browser.resize(*size)
        page.run('playground.openSheet("views")')
        page.settled()
        page.click('#more')
        names = {*page.run(NAMES)}
        page.press(ESCAPE)
        page.click('#gear')
        names |= {*page.run(NAMES)}
        page.press(ESCAPE)
        equal(wide - names - {'Close the welcome'}, set(), f'{size}: keys that are not there')
        narrow_keys_work(page, size)


def narrow_keys_work(page, size):
    light, text, picture = page.run(LOOKS)
    high = page.run('return document.querySelector("#store .canvas").clientHeight')
    holds(high > 80, f'{size}: the picture has a height of {high}')
    page.click('#tools [aria-label=Larger]')
    holds(page.run(LOOKS)[2] > picture, f'{size}: the picture is not larger')
    page.click('#tools [aria-label^=Fit]')
    page.click('#more')
    equal(page.run(OFF_SCREEN, '#extras *'), [], f'{size}: off the screen')
    holds(page.text('#extras small').startswith('Version '), page.text('#extras'))
    page.click('#dark')
    page.click('#large')
    other = page.run(LOOKS)
    holds(light > 0.8 > 0.05 > other[0] and other[1] > text, f'{size}: {light, text} is then {other}')
    equal(page.run(CONTRAST), [], f'{size}: contrast')
    page.click('#dark')
    page.click('#large')
    page.click('#embed')
    page.browser.until('return document.getElementById("embedding").open')
    holds(page.is_drawn('#embedding') and not page.is_drawn('#extras'), f'{size}: Embed does not open')
    page.press(ESCAPE)
    equal(page.run(FOCUS)[0], 'more', f'{size}: the focus')


def what_is_wrong_is_spoken_once(page):
    """A refusal and a fault are each spoken once, with the place and what is wrong."""
    page.run(LISTENS)
    for text, key, words in (('class P int x method main()\nx += x', '', ('Line 2, column 1', 'self update')),
                             (FAULTS[0][0], 'end', ('line 8', 'fault Fi', 'x is 1'))):
        page.run('playground.heard.length = 0')
        page.write(text)
        if key:
            page.rest(0.5)
            page.run('playground.heard.length = 0')
            page.go(key)
        heard = page.run('await new Promise(done => setTimeout(done, 500)); return playground.heard')
        equal(len(heard), 1, repr(heard))
        holds(all(it in heard[0] for it in words), f'{words} in {heard[0]!r}')


def one_voice(page):
    """A move by hand is spoken once; while the run plays nothing is."""
    page.choose('Linked list')
    page.run(LISTENS)
    page.go('start')
    page.run('await new Promise(done => setTimeout(done, 400)); playground.heard.length = 0')
    page.go('step-on')
    heard = page.run('await new Promise(done => setTimeout(done, 400)); return playground.heard')
    equal(len(heard), 1, repr(heard))
    holds(heard[0].startswith('1 of 60, line '), heard[0])
    page.run('playground.heard.length = 0; document.getElementById("speed").value = "1"')
    page.go('on')
    equal(page.run('await new Promise(done => setTimeout(done, 800)); return playground.heard.length'), 0)
    page.go('on')
    equal(page.run('await new Promise(done => setTimeout(done, 400)); return playground.heard.length'), 1)
    told = page.run('return document.querySelector("#timeline input").getAttribute("aria-valuetext")')
    holds('of 60, line' in told, f'the slider has {told!r}')


@opening
def colours_have_contrast(page):
    """Text has a contrast of 4.5 and shapes one of 3, in all views, both themes, and where something is wrong."""
    for theme in ('light', 'dark'):
        page.open('#example=list', query=f'?theme={theme}')
        page.settled()
        for view in ('store', 'output', 'inverse', 'machine'):
            page.view(view)
            page.go('step-on')
            page.run('for (const it of document.getAnimations()) it.finish()')
            equal(page.run(CONTRAST), [], f'{theme}, {view}')
            if view == 'store':
                equal(page.run(SHAPES), [], f'{theme}, shapes')
        page.view('store')
        page.choose('Find the mistake')
        page.go('end')
        equal(page.run(CONTRAST), [], f'{theme}, a fault')
        page.write('class P int x method main() x += x')
        equal(page.run(CONTRAST), [], f'{theme}, a refusal')
        for key, dialog in (('#pick', '#ladder'), ('#help', '#helping')):
            page.click(key)
            equal(page.run(CONTRAST), [], f'{theme}, {dialog}')
            page.click(f'{dialog} [data-close]')


@opening
def it_fits(page):
    """Nothing is wider than the screen, at all widths, in all views and dialogs, with a fault and with a refusal. All keys are on the
    screen, also at 320 wide and at twice the size."""
    page.open('#example=tree')
    page.settled()
    for width, height in SIZES:
        page.browser.resize(width, height)
        fits(page, width)
        if width in SMALL:
            fits_with_more(page, width)
    page.run('document.getElementById("large").click()')
    fits(page, 'larger text')
    page.run('document.getElementById("large").click()')


def fits(page, size):
    for view in ('store', 'output', 'inverse', 'machine'):
        page.run('playground.openView(arguments[0]); playground.openSheet("views")', view)
        page.settled()
        equal((page.run(TOO_WIDE), page.run(OFF_SCREEN, KEYS), page.run(WIDER, WORDS)), ([False, False], [], []), f'{size}, {view}')
        holds(page.is_drawn(f'#{view} *'), f'{size}: {view} is not drawn')
    page.run('playground.openView("store"); playground.openSheet("program")')
    page.click('#gear')
    equal(page.run(OFF_SCREEN, KEYS), [], f'{size}, limits')
    page.press(ESCAPE)


def fits_with_more(page, size):
    for key, dialog in (('#pick', '#ladder'), ('#help', '#helping')):
        page.click(key)
        equal((page.run(TOO_WIDE), page.run(OFF_SCREEN, dialog), page.run(WIDER, dialog)), ([False, False], [], []), f'{size}, {dialog}')
        page.click(f'{dialog} [data-close]')
    text = page.run('return playground.editor.text')
    for what, other in (('a fault', FAULTS[6][0]), ('a refusal', 'class P int x method main() x = x + 1'), ('the program', text)):
        page.write(other)
        page.run('playground.transport.press("end")')
        page.settled()
        equal((page.run(TOO_WIDE), page.run(OFF_SCREEN, KEYS), page.run(WIDER, '#problems')), ([False, False], [], []), f'{size}, {what}')


# Moves from the start on, and gives how many animations run then.
MOVING = '''
let count = 0;
document.querySelector('[data-go=start]').click();
for (let at = 0; at < 20; at++) {
  document.querySelector('[data-go=step-on]').click();
  await new Promise(done => requestAnimationFrame(done));
  count += document.getAnimations().filter(it => it.playState === 'running').length;
}
return count;
'''


def it_follows_what_the_reader_prefers(page):
    """The page is dark if the reader prefers that, also when this changes, until one chooses. Nothing moves by itself if one prefers that."""
    ground = RATIO + 'return light(numbers(getComputedStyle(document.body).backgroundColor))'
    try:
        for theme in ('dark', 'light', 'dark'):
            page.browser.emulate(prefers_color_scheme=theme)
            page.rest(0.2)
            light = page.run(ground)
            holds(light < 0.05 if theme == 'dark' else light > 0.8, f'the ground of {theme} has a light of {light}')
        page.click('#dark')
        page.reload()
        page.settled()
        holds(page.run(ground) > 0.8, 'what was chosen does not stay')
        page.choose('Linked list')
        for preferred in ('no-preference', 'reduce'):
            page.browser.emulate(prefers_reduced_motion=preferred)
            page.rest(0.2)
            count = page.run(MOVING)
            holds((count == 0) == (preferred == 'reduce'), f'{count} movements where a reader prefers {preferred}')
    finally:
        page.browser.emulate()


def it_asks_no_network(page):
    """The page fetches nothing, and the browser lets it fetch nothing."""
    asked = 'return performance.getEntriesByType("resource").map(it => it.name).filter(it => !/^(blob|data):/.test(it))'
    equal(page.run(asked), [])
    blocked = page.run(FETCHES)
    holds('connect-src' in blocked and 'img-src' in blocked, f'the policy blocks {blocked} alone')


@opening
def a_worker_that_dies_is_begun_anew(page):
    page.open('#example=first')
    page.settled()
    page.run('playground.caller.worker.dispatchEvent(new ErrorEvent("error", { message: "out of memory" }))')
    page.write('class P int x method main() x += 7')
    holds(page.text('#problems').startswith('Accepted'), page.text('#problems'))
    page.run(DIES)
    equal(page.run('return document.body.dataset.died'), 'out of memory')
    page.write('class P int x method main() x += 8')
    holds(page.text('#problems').startswith('Accepted'), page.text('#problems'))


@contextlib.contextmanager
def changed_page(page, part, other):
    """The page with another text in the place of a part of it, opened."""
    with open(page.file, encoding='utf-8') as it:
        text = it.read()
    holds(part in text, f'the page has no {part}')
    with tempfile.TemporaryDirectory() as folder:
        file = os.path.join(folder, 'page.html')
        with open(file, 'w', encoding='utf-8') as it:
            it.write(text.replace(part, other, 1))
        page.open(file=file)
        yield


@opening
def it_runs_without_newer_parts_of_browsers(page):
    """A run with many active calls is the same where the module runs on the worker's own stack."""
    outputs = []
    for more in ('', 'delete WebAssembly.promising;delete WebAssembly.Suspending;'):
        with changed_page(page, '"worker": "', f'"worker": "{more}'):
            page.choose('Deep recursion')
            page.view('output')
            page.go('end')
            holds(page.text('#problems').startswith('Accepted'), page.text('#problems'))
            outputs.append((page.position(), page.output(), page.text('#output pre')))
    equal(outputs[1], outputs[0])


@opening
def without_runs_it_reads(page):
    """If the browser has no runs, or the policy of a page forbids them, the page says why, and shows texts, examples, exercises and help."""
    script = lambda text: ('<body', f'<script>{text}</script>\n<body')
    lacks = (('WebAssembly', script('delete globalThis.WebAssembly')), ('workers', script('delete globalThis.Worker')),
             ('DecompressionStream', script('delete globalThis.DecompressionStream')),
             ('it refuses to', script('globalThis.Worker = function () { throw new Error("a policy forbids it"); }')),
             ('it refuses to', (" 'wasm-unsafe-eval'", '')), ('it refuses to', ('worker-src blob:', "worker-src 'none'")))
    for what, change in lacks:
        with changed_page(page, *change):
            told = page.text('#cannot')
            holds(told.startswith('This browser cannot run the program') and what in told, f'{change}: {told}')
            holds('class List' in page.run('return document.querySelector("#text").value'), 'no text is shown')
            page.click('#pick')
            page.click_text('#rungs button', 'Search tree')
            equal(page.run('return document.querySelector("#text").value'), read('examples/tree.rpp'))
            holds(page.text('#picked').endswith('Search tree'), page.text('#picked'))
            page.click('#pick')
            page.click_text('#rungs button', '4.1 ')
            holds(page.text('#task').startswith('Exercise 4.1: ') and page.text('#picked').startswith('Exercise: 4.1 '), 'no exercise is shown')
            page.click('#help')
            holds('16 SharedArray' in page.text('#helping'), 'the help has no faults')
            page.click('#helping [data-close]')
            holds(not page.is_drawn('#transport'), 'keys are shown that can do nothing')


TESTS = (every_control_has_a_name, assistive_technology_sees_it, tabs_keep_the_focus, the_keyboard_reaches_all, works_by_keyboard_alone,
         a_narrow_page_has_all_keys, one_voice, what_is_wrong_is_spoken_once, colours_have_contrast, it_fits, it_follows_what_the_reader_prefers,
         it_asks_no_network, a_worker_that_dies_is_begun_anew, it_runs_without_newer_parts_of_browsers, without_runs_it_reads)
