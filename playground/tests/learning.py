"""Examples, exercises, help, links, frames, figures and print."""
import json
import os
import re
import tempfile

from drawn import END, HOME, TALL, TOP, WIDE, equal, holds, opening, read
from reaching import RATIO

# After this time the browser and the address have what is shown.
KEPT_SECONDS = 1.2
# A page of A4 with its margins, in pixels of a screen.
PAPER = (794, 1100)
# The parts of a picture: the kind, the colours, and whether the arrow has a head.
FIGURE = '''
const picture = [...document.querySelectorAll('svg.picture')].at(-1);
return [...picture.querySelectorAll('.frame, .arrow, text')].map(it => {
  const { fill, stroke } = getComputedStyle(it), head = /#([^")]+)/.exec(it.getAttribute('marker-end') ?? '')?.[1];
  return [it.getAttribute('class'), it.matches('text') ? [it.textContent, fill] : stroke, head ? Boolean(document.getElementById(head)) : false];
});
'''
# What is printed with too little contrast on white, whether its picture is drawn, and whether something is wider than the paper.
PRINTED = RATIO + '''
const white = [255, 255, 255, 1], picture = document.querySelector('#printed svg').getBoundingClientRect();
for (const it of document.querySelectorAll('#printed h1, #printed figcaption, #printed pre, #printed svg text')) {
  const style = getComputedStyle(it), found = ratio(numbers(it.matches('text') ? style.fill : style.color), white);
  if (found < 4.5) low.add(`${found.toFixed(2)} ${it.tagName} ${it.getAttribute('class') ?? ''} ${it.textContent.slice(0, 20)}`);
}
return [[...low], picture.width > 100 && picture.height > 100, document.documentElement.scrollWidth > innerWidth];
'''
SOLUTIONS = {'1.1': ('01', 'three.rpp'), '1.3': ('01', 'change.rpp'), '2.2': ('02', 'five.rpp'), '2.3': ('02', 'sign.rpp'), '3.1': ('03', 'most.rpp'),
             '3.3': ('03', 'days.rpp'), '4.1': ('04', 'product.rpp'), '4.3': ('04', 'divide.rpp'), '5.3': ('05', 'pairs.rpp'), '6.1': ('06', 'sum.rpp'),
             '11.1': ('11', 'square.rpp')}


def the_ladder_has_all(page):
    """Each example and each exercise has a title and a sentence."""
    page.click('#pick')
    rows = page.run('return [...document.querySelectorAll("#rungs button")].map(it => [it.querySelector("b").innerText, it.querySelector("span").innerText])')
    page.click('#ladder [data-close]')
    lessons = json.loads(read('playground/lessons.json'))
    equal(len(rows), sum(len(rung) for _, rung in lessons['ladder']) + len(lessons['exercises']))
    holds(all(title and sentence for title, sentence in rows), 'a row has no title or no sentence')


def solution(name):
    page, file = SOLUTIONS[name]
    return re.search(rf'```\n(// {re.escape(file)}\n.*?)```', read(f'examples/solutions/{page}.md'), re.S)[1]


@opening
def exercises_check_themselves(page):
    """An exercise opens by its link; its start is not yet right, and its solution of the course is."""
    for at, (name, title, _) in enumerate(json.loads(read('playground/lessons.json'))['exercises']):
        (page.follow if at else page.open)(f'#exercise={name}')
        page.settled()
        equal(page.text('#picked'), f'Exercise: {name} {title}')
        check = page.text('#check')
        holds('must be' in check or check.startswith('Use '), f'{name} at its start: {check!r}')
        page.write(solution(name))
        holds(page.text('#check').startswith('Solved'), f'{name} with its solution: {page.text("#check")!r}')
    page.click('#pick')
    holds('✓' in page.text('#rungs'), 'what was solved is not marked')
    page.click('#ladder [data-close]')


def the_help_has_all(page):
    """The sheet with each keyword, the keys, all faults and refusals, the version and the sums are in the help."""
    page.click('#help')
    text = page.text('#helping')
    keywords = re.search(r'Keywords: ([^.]*)\.', read('docs/reference/language.md'))[1].split()
    sheet = set(re.findall(r'\w+', page.run('return [...document.querySelector("#helping section").querySelectorAll("code")].map(it => it.innerText).join(" ")')))
    equal(set(keywords) - sheet, set(), f'keywords that the sheet does not have, of {len(keywords)}')
    pages = ''.join(read(it) for it in ('docs/reference/language.md', 'docs/reference/messages.md') if os.path.isfile(f'{TOP}/{it}'))
    rules = sorted(set(re.findall(r'^### (?:Fault )?(\d+ \w+)$', pages, re.M)))
    holds(len(rules) == 39, f'{len(rules)} rules in docs/reference')
    for rule in rules:
        holds(rule in text, f'the help has no {rule}')
    page.run('for (const it of document.querySelectorAll("#helping details")) it.open = true')
    told = page.run('return [...document.querySelectorAll("#helping .rules details")].map(it => it.innerText)')
    holds(len(told) > 55, f'{len(told)} rules in the help')
    equal([it for it in told if re.search(r'\b[B-HJ-Z]\b|\b(above|below|rpp)\b', it)], [], 'what names another medium')
    for word in ('x += e', 'uncall m(x)', 'Shift', 'SHA-256', 'CodeMirror', 'dagre'):
        holds(word in text, f'the help has no {word}')
    page.click('#helping [data-close]')


def links_lead_back(page):
    """The address keeps text, inputs and limits as one types; a link has view and position, and the version."""
    text = '// \u00e9\u2192 \U0001f600\nclass P int x int y method main()\nx += 1\ny += 2\nx += y'
    page.write(text)
    page.put('#field-x', '-3')
    page.put('#heap', '9')
    page.view('output')
    page.go('step-on')
    page.click('#share')
    page.browser.until('return /view=output&step=1&/.test(location.hash)')
    address = page.run('return location.hash')
    version = read('CHANGELOG.md').split('\n## ')[1].split(' ')[0]
    holds(f'v={version}' in address, address[:80])
    page.rest(KEPT_SECONDS)
    equal(page.run('return location.hash'), address, 'the address a while after Share')
    page.open(address)
    page.settled()
    equal([it['text'] for it in page.lines()], text.split('\n'))
    equal(page.position(), (1, 3))
    equal([row[:3] for row in page.output()], [['x', '-3', '-2'], ['y', '0', '0']])
    equal(page.run('return document.getElementById("heap").value'), '9')
    equal(page.text('#version'), version)


@opening
def a_link_in_the_open_page_is_followed(page):
    """A link opens its program, view and position in the page that is open, also where only one of these is another."""
    page.open('#example=tree&view=store&step=5')
    page.settled()
    equal(page.position()[0], 5)
    for fragment, view, at, name in (('#example=tree&view=store&step=60', 'store', 60, 'Search tree'),
                                     ('#example=tree&view=output&step=7', 'output', 7, 'Search tree'),
                                     ('#example=tree&view=store', 'store', 7, 'Search tree'), ('#example=queue&step=3', 'store', 3, 'Queue')):
        page.follow(fragment)
        equal((page.position()[0], page.is_drawn(f'#{view}'), page.text('#picked').split(': ')[1]), (at, True, name), fragment)
    equal([it['text'] for it in page.lines()][:5], read('examples/queue.rpp').split('\n')[:5])
    page.write('class P int x method main()\nx += 1\nx += 2')
    equal(page.position(), (2, 2))
    page.click('#share')
    page.browser.until('return /step=2&/.test(location.hash)')
    shared = page.run('return location.hash')
    page.put('#field-x', '40')
    page.go('end')
    equal(page.store()['#1 P'], {'x': '43'})
    page.follow('#v=0.1.0&program=broken')
    holds('broken' in page.text('#notice') and page.store()['#1 P'] == {'x': '43'}, 'a broken link leaves what is there')
    page.follow(shared)
    holds(not page.is_drawn('#notice'), 'what was said of the broken link stays')
    page.go('end')
    equal(page.store()['#1 P'], {'x': '3'}, 'the field of a link to the same text')


def the_address_keeps_the_text(page):
    """The address has the text as it was typed last. What Share puts there stays, also if the text before it is still being packed."""
    page.write('class P int x method main()\nx += 1\nx += 2')
    page.rest(KEPT_SECONDS)
    page.write('class P int x method main()\nx += 1\nx += 7')
    page.rest(KEPT_SECONDS)
    page.open(page.run('return location.hash'))
    page.settled()
    equal(page.lines()[-1]['text'], 'x += 7')
    page.press(END)
    page.run('playground.keepPlace(); document.getElementById("share").click()')
    page.browser.until('return /step=2&/.test(location.hash)')
    address = page.run('return location.hash')
    page.rest(KEPT_SECONDS)
    equal(page.run('return location.hash'), address, 'the address a while after Share')


def a_reload_keeps_the_text(page):
    """Text, field, view and position stay when the page is loaded again, and when it is opened without an address."""
    page.write('class P int kept method main()\nkept += 4\nkept += 5')
    page.put('#field-kept', '30')
    page.view('output')
    page.go('step-on')
    page.rest(KEPT_SECONDS)
    for again in (page.reload, lambda: page.open(clears=False)):
        again()
        page.settled()
        equal([it['text'] for it in page.lines()][-1], 'kept += 5')
        equal((page.position(), page.output()), ((1, 2), [['kept', '30', '34', '39']]))


def undo_brings_all_back(page):
    """Where a program takes the place of one's own, Undo brings back the text with its field, its limit and the position."""
    page.write('class P int own method main()\nown += 1\nown += 2\nown += 4')
    page.put('#field-own', '8')
    page.put('#heap', '9')
    page.press(HOME)
    page.go('step-on')
    page.go('step-on')
    page.view('output')
    shown = page.lines(), page.position(), page.output()
    equal(shown[1:], ((2, 3), [['own', '8', '11', '15']]))
    page.choose('Queue')
    holds(page.text('#picked').endswith('Queue') and page.output() != shown[2], page.text('#picked'))
    page.click('#toast button')
    page.settled()
    equal((page.lines(), page.position(), page.output()), shown)
    equal((page.run('return document.getElementById("heap").value'), page.text('#picked')), ('9', 'Your program'))


@opening
def a_broken_link_says_so(page):
    page.open('#v=0.1.0&program=broken')
    holds('broken' in page.text('#notice'), page.text('#notice'))
    holds(page.text('#problems').startswith('Accepted'), 'there is nothing to run')
    page.open('#example=nothing')
    holds('does not have' in page.text('#notice'), page.text('#notice'))
    page.click('#notice button')
    holds(not page.is_drawn('#notice'), 'the notice stays')
    page.open('#v=0.1.0&example=tree')
    holds('version 0.1.0' in page.text('#notice'), page.text('#notice'))
    holds(page.text('#picked').endswith('Search tree'), page.text('#picked'))


@opening
def it_embeds(page):
    """Embedded it has no header, shows the view and position asked for, and keeps nothing."""
    page.open(query='?embed&view=store&step=20', fragment='#example=list')
    page.settled()
    equal(page.position(), (20, 60))
    holds(not page.is_drawn('#head') and page.is_drawn('#store .picture') and page.is_drawn('[data-go=on]'), 'what is to be seen is not')
    holds('#v=' in page.run('return document.querySelector(".open-all").href'), 'no link leads to the workbench')
    equal(page.run('return localStorage.length'), 0)
    page.open()
    page.write('class P int x method main()\nx += 1\nx += 2\nx += 4')
    page.click('#share')
    page.browser.until('return /step=3&/.test(location.hash)')
    page.open(query='?embed&view=output&step=1', fragment=page.run('return location.hash'))
    page.settled()
    equal((page.position(), page.output(), page.lines()[-1]['text']), ((1, 3), [['x', '0', '1', '7']], 'x += 4'))
    page.open()
    page.click('#embed')
    frame = page.run('return document.getElementById("frame").value')
    holds(frame.startswith('<iframe src="file://') and '?embed#v=' in frame and 'step=40' in frame, frame)
    page.click('#embedding [data-close]')


@opening
def figures_stand_alone(page):
    """The picture as a file has its colours and arrow heads inside, and is drawn by itself as it is on the page."""
    page.open('#example=list')
    page.settled()
    page.go('end')
    page.click('#embed')
    figure = page.run('''let saved; const make = URL.createObjectURL; URL.createObjectURL = blob => { saved = blob; return make(blob); };
      HTMLAnchorElement.prototype.click = function () { saved.file = this.download; };
      document.getElementById('save-figure').click(); URL.createObjectURL = make; return [saved.file, await saved.text()]''')
    equal(figure[0], 'store-60.svg')
    holds('var(' not in figure[1] and '<marker' in figure[1] and '#1 List' in figure[1] and 'fill:' in figure[1], figure[1][:200])
    drawn = page.run(FIGURE)
    page.click('#embedding [data-close]')
    with tempfile.TemporaryDirectory() as folder:
        with open(f'{folder}/store.svg', 'w', encoding='utf-8') as it:
            it.write(figure[1])
        page.browser.open(f'file://{folder}/store.svg')
        alone = page.run(FIGURE)
    holds(alone == drawn and len(drawn) > 5, f'the file has {alone}, and the page {drawn}')


@opening
def the_print_has_picture_and_program(page):
    """What is printed is the title, the picture of the store with a caption, and the numbered program, dark on white, and as wide as the paper."""
    for theme in ('light', 'dark'):
        page.open('#example=list', query=f'?theme={theme}')
        page.settled()
        page.go('end')
        page.browser.emulate('print')
        page.browser.resize(*PAPER)
        page.run('dispatchEvent(new Event("beforeprint"))')
        try:
            equal([it for it in ('#head', '#welcome', '#bench', '#transport', '.CodeMirror') if page.is_drawn(it)], [], 'what is not to be printed')
            equal(page.text('#printed h1').split(': ')[-1], 'Linked list')
            holds('position 60 of 60' in page.text('#printed figcaption'), page.text('#printed figcaption'))
            lines = [f'{at:3}  {line}' for at, line in enumerate(read('examples/list.rpp').split('\n'), 1)]
            equal(page.run('return document.querySelector("#printed pre").innerText').rstrip().split('\n')[-2].strip(), lines[-2].strip())
            equal(page.run(PRINTED), [[], True, False], f'{theme}: too little contrast, the picture is drawn, something is too wide')
        finally:
            page.browser.emulate()
            page.browser.resize(WIDE, TALL)


def the_first_view_says_what_to_press(page):
    """The page opens with a run that is paused in its middle, with objects, and says in two lines at most what the language is and what to
    press. Once closed, this stays away."""
    at, last = page.position()
    holds(0 < at < last and len(page.boxes()) > 3, f'the page opens at {at} of {last}')
    words, high, row = page.run('const it = document.querySelector("#welcome span");'
                                'return [it.innerText, it.offsetHeight, parseFloat(getComputedStyle(it).lineHeight)]')
    holds('both ways' in words and 'Forward' in words and 'Back' in words and high <= 2 * row + 12, f'{words!r} is {high} high')
    page.click('#welcomed')
    holds(not page.is_drawn('#welcome'), 'the first line does not close')
    page.open(clears=False)
    holds(not page.is_drawn('#welcome'), 'the first line comes again')


TESTS = (the_first_view_says_what_to_press, the_ladder_has_all, exercises_check_themselves, the_help_has_all, links_lead_back,
         a_link_in_the_open_page_is_followed, the_address_keeps_the_text, a_reload_keeps_the_text, undo_brings_all_back, a_broken_link_says_so,
         it_embeds, figures_stand_alone, the_print_has_picture_and_program)
