"""Runs: what is shown at each position, forward and back; faults at their place; limits; the editor."""
from drawn import CONTROL, DOWN, END, ENTER, HOME, IS_DRAWN, LEFT, RIGHT, SHIFT, SPACE, UP, equal, holds, read

COUNTER = 'class P\n  int x\nmethod main()\n  x += 5\n'
ENDLESS = 'class P int x int y method main()\n  from x = 0 do\n    skip\n  loop\n    x += 2\n  until y = 1'
LIST = ('class P\n  int n\n  C a\n  C b\nmethod main()\n  new C a\n  call a::add(n)\n  copy C a b\n  n += 2\n  uncall a::add(n)\n'
        'class C\n  int v\nmethod add(int by)\n  v += 1\n  by += v\n')
HEAD, TURNED = 'class P\n  int x\nmethod main()\n', 'class P\n  int x\nmethod main()\n  uncall q()\nmethod q()\n'
OBJECTS, ARRAYS = 'class P\n  C a\n  C b\nmethod main()\n', 'class P\n  int[] a\n  int[] b\nmethod main()\n'
PUT = 'class C\n  int v\nmethod put()\n  v += 1\n'
TOUCHED = 'class C\n  C self\n  int x\nmethod hold(C other)\n  self <=> other\nmethod begin()\n  call self::add(x)\nmethod add(int n)\n  x += 1\n'
# A text, the line of its fault, its name, and for a test what it found and what it needed, by the rules of the language.
FAULTS = (
    (HEAD + '  if x = 0 then\n    x += 1\n  else\n    skip\n  fi x = 0', 8, '1 Fi', 'x = 1: x = 0 does not hold', 'x = 0 holds, since the then block ran'),
    (HEAD + '  x += 1\n  if x = 0 then\n    skip\n  else\n    x -= 1\n  fi x = 0', 9, '1 Fi', 'x = 0: x = 0 holds', 'x = 0 does not hold, since the else block ran'),
    (TURNED + '  if x = 1 then\n    skip\n  else\n    skip\n  fi x = 0', 6, '1 Fi', 'x = 0: x = 1 does not hold', 'x = 1 holds, since the then block ran'),
    (HEAD + '  from x = 1 do\n    skip\n  loop\n    skip\n  until x = 1', 4, '2 Loop', 'x = 0: x = 1 does not hold', 'x = 1 holds, since the loop begins'),
    (HEAD + '  from x = 0 do\n    skip\n  loop\n    skip\n  until x = 1', 4, '2 Loop', 'x = 0: x = 0 holds', 'x = 0 does not hold, since the loop goes round again'),
    (TURNED + '  from x = 0 do\n    skip\n  loop\n    skip\n  until x = 1', 10, '2 Loop', 'x = 0: x = 1 does not hold', 'x = 1 holds, since the loop begins'),
    (HEAD + '  local int t = 0\n    t += 1\n    x += 7\n  delocal int t = x', 7, '3 Delocal', 't = 1', 't = 7'),
    (TURNED + '  local int t = 0\n    t += 1\n  delocal int t = 0', 6, '3 Delocal', 't = -1', 't = 0'),
    (OBJECTS + '  new C a\n  new C a\nclass C', 6, '4 NotNil', '', ''),
    (OBJECTS + '  delete C a\nclass C', 5, '5 Nil', '', ''),
    (OBJECTS + '  uncall q()\nmethod q()\n  new C a\nclass C', 7, '5 Nil', '', ''),
    (OBJECTS + '  new C a\n  copy C a b\n  delete C a\nclass C', 7, '6 Count', '', ''),
    (ARRAYS + '  new int[1] a\n  a[0] += 1\n  delete int[1] a', 7, '7 NotEmpty', '', ''),
    (HEAD + '  construct C c\n    call c::put()\n  destruct c\n' + PUT, 6, '7 NotEmpty', '', ''),
    (TURNED + '  construct C c\n    call c::put()\n  destruct c\n' + PUT, 6, '7 NotEmpty', '', ''),
    (ARRAYS + '  new int[5000] a', 5, '8 HeapFull', '', ''),
    (ARRAYS + '  new int[2] a\n  a[2] += 1', 6, '9 Index', '', ''),
    (OBJECTS + '  new C a\n  new C b\n  uncopy C a b\nclass C', 7, '10 NotSame', '', ''),
    (OBJECTS + '  new D a\n  delete C a\nclass C\nclass D inherits C', 6, '11 ClassDiffers', '', ''),
    (ARRAYS + '  new int[2] a\n  delete int[3] a', 6, '12 LengthDiffers', '', ''),
    (ARRAYS + '  new int[0] a', 5, '13 Length', '', ''),
    (HEAD + '  call main()', 4, '14 TooDeep', '', ''),
    (OBJECTS + '  new C a\n  copy C a b\n  call a::hold(b)\n  call a::begin()\n' + TOUCHED, 15, '15 Touched', '', ''),
    (ARRAYS + '  new int[2] a\n  copy int[] a b\n  a[0] += b[1]', 7, '16 SharedArray', '', ''),
)


def faults_are_where_they_are(page):
    """Each fault is marked at its own line, with its name, and a failed test with what it found and what it needed."""
    for text, line, name, found, wanted in FAULTS:
        page.write(text)
        problems = page.text('#problems')
        equal((f'line {line}:' in problems, name in problems), (True, True), f'{name} of line {line} in {problems!r}')
        page.go('end')
        marked = [it for it in page.lines() if 'fault-line' in it['kinds']]
        equal([(it['number'], it['sign']) for it in marked], [(line, '■')], name)
        begins = text.split('\n')[line - 1].strip()
        holds(' ' in marked[0]['marked'] and begins.startswith(marked[0]['marked']), f'{name}: {marked[0]["marked"]!r} is marked in {begins!r}')
        told = ' '.join(marked[0]['told'].split())
        holds(name in told, f'{name} is not shown at its place: {told!r}')
        holds(found in told and wanted in told, f'{name}: wanted {found!r} and {wanted!r} in {told!r}')
        holds(f'line {line}' in page.text('#doing'), f'{name}: the readout has {page.text("#doing")!r}')


def sequence(page, key, stop):
    """What is shown at each position up to the end that way: its number, the line, and the store."""
    seen = []
    while True:
        at = page.position()
        seen.append((at[0], page.here(), page.store()))
        if at[0] == stop:
            return seen
        page.go(key)


def back_is_back(page):
    """Back leads along the same positions to the start, with the same store at each; also from a fault."""
    for text in (COUNTER, LIST, FAULTS[6][0]):
        page.write(text)
        page.go('start')
        last = page.position()[1]
        forward = sequence(page, 'step-on', last)
        holds(len(forward) == last + 1 > 1, 'a run has more than one position')
        equal(sequence(page, 'step-back', 0), forward[::-1], text)
    page.write(COUNTER)
    page.go('end')
    equal(page.store()['#1 P'], {'x': '5'})
    page.go('start')
    equal(page.store()['#1 P'], {'x': '0'})


def plays_both_ways(page):
    """Space and the keys of the transport play to the end and back again to the start, and a breakpoint stops both ways."""
    page.write(LIST)
    page.run('document.getElementById("speed").value = "60"')
    page.go('start')
    last = page.position()[1]
    for play, stop in ((lambda: page.click('[data-go=on]'), last), (lambda: page.click('[data-go=back]'), 0),
                       (lambda: page.press(SPACE), last), (lambda: page.press(SHIFT, SPACE), 0)):
        page.run('document.activeElement.blur()')
        play()
        page.browser.until('return document.getElementById("where").textContent.startsWith(arguments[0])', f'{stop} /')
        holds(not page.is_drawn('.play.playing'), 'it still plays at the end')
    page.click_line_number(8)
    holds(page.is_drawn('.break'), 'no breakpoint is drawn')
    for keys in ((SPACE,), (SHIFT, SPACE)):
        page.press(*keys)
        page.browser.until('return !document.querySelector(".play.playing")')
        equal((page.here() or [page.position()])[0], 8, 'the breakpoint of line 8')
        page.press(*((END,) if len(keys) == 1 else (HOME,)))
        page.settled()


def keys_move(page):
    page.write(LIST)
    page.press(HOME)
    page.settled()
    for keys, at in (((RIGHT,), 1), ((SHIFT, RIGHT), 4), ((LEFT,), 3), ((RIGHT,), 4), ((SHIFT, LEFT), 1)):
        page.press(*keys)
        page.settled()
        equal(page.position()[0], at, f'after {keys!r}')
    page.press(END)
    page.settled()
    at, last = page.position()
    equal(at, last)
    for key, view in (('2', 'output'), ('3', 'inverse'), ('4', 'machine'), ('1', 'store')):
        page.press(key)
        page.settled()
        holds(page.is_drawn(f'#{view}'), f'the key {key} does not open {view}')


def keys_belong_to_what_has_the_focus(page):
    """In the editor and in a field keys write, and do not move the run. The editor and the listing have keys of their own."""
    page.write(LIST)
    page.run('document.getElementById("speed").value = "60"')
    page.go('start')
    last = page.position()[1]
    page.click('#field-n')
    page.press(CONTROL, 'a')
    page.press('2')
    page.press(END)
    page.settled()
    equal((page.position()[0], page.is_drawn('#store'), page.run('return document.getElementById("field-n").value')), (0, True, '2'))
    page.click('.CodeMirror-lines')
    page.press(RIGHT)
    page.settled()
    equal(page.position()[0], 0, 'after an arrow key in the editor')
    page.press(CONTROL, ENTER)
    page.browser.until('return document.getElementById("where").textContent.startsWith(arguments[0])', f'{last} /')
    for line in ('// class P', 'class P'):
        page.press(CONTROL, HOME)
        page.press(CONTROL, '/')
        equal(page.lines()[0]['text'], line)
    page.settled()
    page.view('machine')
    page.run('document.querySelector("#machine .listing").focus()')
    told = [page.text('#machine .caption')]
    for key in (UP, UP, DOWN, DOWN):
        page.press(key)
        page.settled()
        told.append(page.text('#machine .caption'))
    equal((len({*told}), told[3:]), (3, told[1::-1]), f'the machine after each key: {told}')
    page.view('store')


# The timeline: its bars with their spans and heights, how much of it is done, and the handle.
TIMELINE = IS_DRAWN + '''
const line = document.querySelector('#timeline input'), area = drawn('#timeline svg').getBoundingClientRect();
const bars = [...document.querySelectorAll('#timeline svg:not(.passed) rect')].map(it => [it, it.getBoundingClientRect()])
  .map(([it, box]) => ({ kind: it.getAttribute('class'), from: (box.left - area.left) / area.width, to: (box.right - area.left) / area.width, high: box.height }));
const marks = [...document.querySelectorAll('#timeline .mark')].filter(isDrawn).map(it => it.getBoundingClientRect())
  .map(box => (box.left + box.width / 2 - area.left) / area.width);
const behind = parseFloat(/ ([\\d.]+)%/.exec(getComputedStyle(document.querySelector('#timeline .passed')).clipPath)?.[1] ?? 0);
return { bars, marks, behind: 1 - behind / 100, handle: line.value / line.max, flag: isDrawn(document.querySelector('#timeline .flag')) };
'''


# Plays for a while from the start, and gives how many moves were made in how many seconds.
PLAYS = '''
const begin = performance.now(), key = document.querySelector('[data-go=on]'), rest = time => new Promise(done => setTimeout(done, time));
key.click();
await rest(1200);
key.click();
await rest(100);
return [parseInt(document.getElementById('where').textContent), (performance.now() - begin) / 1000];
'''


def the_timeline_shows_the_run(page):
    """The timeline has the depth of the calls as height, the direction as colour, what is done, breakpoints and a fault."""
    page.write(LIST)
    page.click_line_number(14)
    page.go('start')
    last, depths = page.position()[1], {}
    for at in range(last):
        it = page.run(TIMELINE)
        bar = [bar for bar in it['bars'] if bar['from'] - 0.001 <= at / last <= bar['to'] + 0.001][-1]
        equal(bar['kind'], 'bar-back' if 'undone' in page.text('#doing') else 'bar-on', f'the bar at {at}')
        depths.setdefault('in a call' if 'C::add' in page.text('#doing') else 'in main', set()).add(round(bar['high']))
        holds(abs(it['behind'] - at / last) < 0.02 and abs(it['handle'] - at / last) < 0.02, f'at {at} of {last}: {it}')
        page.go('step-on')
    holds(min(depths['in a call']) > max(depths['in main']), f'the heights of the bars are {depths}')
    equal([it['number'] for it in page.lines() if it['sign'] == '▶'], [], 'the end has no statement')
    marked = page.run(TIMELINE)['marks']
    equal(len(marked), 2, 'breakpoints on the timeline')
    page.click_line_number(14)
    equal(page.run(TIMELINE)['marks'], [], 'breakpoints that were taken away')
    holds(not page.run(TIMELINE)['flag'], 'a run that ends has a flag')
    page.write(FAULTS[6][0])
    it = page.run(TIMELINE)
    holds(it['flag'] and it['bars'][-1]['kind'] == 'bar-fault' and it['bars'][-1]['to'] > 0.99, f'the fault on the timeline: {it["bars"]}')


def it_plays_at_a_speed(page):
    """A run plays so many statements in a second as the speed says."""
    page.choose('Search tree')
    for speed in (1, 15):
        page.go('start')
        page.run('document.getElementById("speed").value = arguments[0]', str(speed))
        moves, seconds = page.run(PLAYS)
        holds(moves <= seconds * speed, f'{moves} moves in {seconds} seconds at a speed of {speed}')
        holds(moves >= speed * 0.5, f'{moves} moves in {seconds} seconds at a speed of {speed}')


def the_editor_is_next_to_the_views(page):
    """The editor is next to each view, both are over the transport, and none covers another."""
    page.choose('Search tree')
    for view in ('store', 'output', 'inverse', 'machine'):
        page.view(view)
        boxes = 'return [".CodeMirror", arguments[0], "#transport"].map(it => document.querySelector(it).getBoundingClientRect().toJSON())'
        left, right, below = page.run(boxes, f'#{view}')
        holds(left['right'] <= right['left'] and max(left['bottom'], right['bottom']) <= below['top'], f'{view}: {left}, {right}, {below}')
        holds(left['width'] > 400 and right['width'] > 400 and left['height'] > 400 and right['height'] > 400, f'{view}: {left}, {right}')
        holds(page.lines() and page.is_drawn(f'#{view} *'), f'{view} or the editor is empty')
    page.view('store')


def all_views_agree(page):
    """Store, output, inverse and machine show one position."""
    page.choose('Linked list')
    page.press(HOME)
    for at in (0, 13, 40, 60):
        page.run('const it = document.querySelector("#timeline input"); it.value = arguments[0]; it.dispatchEvent(new Event("input"))', at)
        page.settled()
        page.view('store')
        equal(page.position(), (at, 60))
        main, here = page.store()['#1 List'], page.here()
        page.view('output')
        equal({name: now for name, _, now, _ in page.output()}, main, f'the output at {at}')
        page.view('inverse')
        if here:
            equal(page.text('#inverse li.here .number'), str(here[0]), f'the inverse at {at}')
        page.view('machine')
        equal(named_cells(page)['sum'], main['sum'], f'the memory at {at}')
        holds('forward' in page.text('#machine .caption') or 'backward' in page.text('#machine .caption'), 'no direction is shown')
    page.view('store')


def takes_inputs_and_limits(page):
    page.write(COUNTER)
    page.put('#field-x', '37')
    page.go('end')
    equal(page.store()['#1 P'], {'x': '42'})
    page.put('#field-x', 'many')
    holds('x cannot begin with' in page.text('#problems'), page.text('#problems'))
    equal(page.run('return document.querySelector(".chip [aria-invalid]")?.id'), 'field-x')
    page.put('#field-x', '0')
    page.click('#gear')
    page.put('#heap', '77')
    holds('The run did not begin' in page.text('#problems') and 'refusal 35' in page.text('#problems'), page.text('#problems'))
    holds('The heap must have 2 to the power of 1 to 20 words.' in page.text('#problems'), page.text('#problems'))
    page.click('#usual')
    page.settled()
    page.put('#steps', '10')
    holds('limit of 10 machine steps' in page.text('#problems'), page.text('#problems'))
    page.click('#usual')
    page.settled()
    holds('Accepted' in page.text('#problems'), page.text('#problems'))
    page.press('\ue00c')
    holds(not page.is_drawn('#limits'), 'Escape does not close the limits')


def questions_say_what_they_rest_on(page):
    """What the program prints for each key of the output is shown, and so is a limit that the reader does not see elsewhere."""
    page.write(COUNTER)
    page.view('output')
    for key, printed, note in (('There and back', 'restored', ''), ('Meaning', 'cost', 'at most 32 active calls'), ('Profile', 'places', 'all fields begin at 0'),
                               ('Result only', 'initial', ''), ('Result', 'steps', '')):
        page.click_text('#output .asks button', key)
        page.settled()
        equal(page.text('#output pre').split('\n')[0], 'x = 5', key)
        holds(f'\n{printed} ' in page.text('#output pre') and note in page.text('#output'), f'{key}: {page.text("#output")!r}')
    page.view('store')


def named_cells(page):
    """The words of the memory that have the names of fields."""
    return dict(page.run('return [...document.querySelectorAll(".cells .named")].map(it => [it.querySelector("small").textContent, it.lastChild.textContent])'))


def the_machine_begins_again(page):
    """Another field begins the machine's run again. After another limit it is at the position that is shown."""
    page.write(COUNTER)
    page.view('machine')
    page.go('end')
    page.put('#field-x', '9')
    page.go('end')
    equal(named_cells(page)['x'], '14')
    page.write(COUNTER + '  x += 6\n  x += 7\n')
    page.put('#field-x', '0')
    page.press(HOME)
    page.go('step-on')
    page.go('step-on')
    told, areas = page.text('#machine .caption'), page.text('#machine .cells')
    equal((page.position(), named_cells(page)['x']), ((2, 3), '11'))
    page.click('#gear')
    page.put('#heap', '9')
    equal((page.position(), page.text('#machine .caption'), named_cells(page)['x']), ((2, 3), told, '11'), 'after another limit')
    holds(page.text('#machine .cells') != areas, f'the memory of another size is {areas!r}')
    page.click('#machine [data-step="1"]')
    page.settled()
    holds(page.text('#machine .caption') != told and page.position()[0] >= 2, f'a step of the machine leads to {page.position()}')
    page.click('#usual')
    page.settled()
    page.view('store')


def a_run_without_end_stops(page):
    """A run without an end has a key that stops it, and what was shown before is then faded."""
    page.write(COUNTER)
    page.click('#gear')
    page.put('#steps', '100000000000000000')
    page.run('playground.editor.code.replaceRange(arguments[0], { line: 0, ch: 0 }, { line: 3, ch: 8 }, "paste")', ENDLESS)
    page.browser.until('return !document.getElementById("stop").hidden && document.getElementById("stop").checkVisibility()')
    page.click('#stop')
    page.browser.until('return document.getElementById("problems").textContent === "Stopped."')
    holds(page.is_drawn('#views.stale'), 'the last run is not faded')
    page.click('#usual')
    page.settled()
    page.write(COUNTER)
    holds('Accepted' in page.text('#problems'), page.text('#problems'))


def mistakes_are_told(page):
    """A mistake that is typed is marked at its place, in the companion's words."""
    page.write(COUNTER)
    page.click('.CodeMirror-scroll')
    page.press(CONTROL, 'a')
    page.browser.type('class P int x method main() x += x')
    page.browser.until('return document.getElementById("problems").textContent.includes("refusal 16")')
    problems = page.text('#problems')
    holds(problems.startswith('Line 1, column 29: self update'), problems)
    holds('its own value' in problems or 'what changes it' in problems, problems)
    holds('How to fix it: ' in problems and 'y += x + x' in problems.split('How to fix it: ')[1], problems)
    equal([it['marked'] for it in page.lines() if it['marked']], ['x'])
    equal(page.text('#picked'), 'Your program')
    holds(page.is_drawn('#views.stale'), 'the last run is not faded')
    page.write('class P\n  int x\nmethod main()\n  if x = 0 then skip fi x = 0\n')
    problems = page.text('#problems')
    holds(problems.startswith('Line 4, column 22: syntax') and 'Not ended yet: if of line 4.' in problems, problems)
    if 'Expected' in problems:
        holds('or else' in problems and 'found fi' in problems, problems)
    page.write(COUNTER)
    holds(page.text('#problems').startswith('Accepted'), page.text('#problems'))


def the_editor_shows_what_runs(page):
    """The text on the screen is the one that runs, also after it was replaced while it was hidden."""
    page.choose('Search tree')
    page.view('inverse')
    page.click_text('#inverse button', 'Put it into the editor')
    page.settled()
    wanted = page.run('return playground.run.text').split('\n')
    for it in page.lines():
        equal(it['text'], wanted[it['number'] - 1], f'line {it["number"]}')
    equal(page.text('#picked'), 'Your program')
    page.click('#toast button')
    page.settled()
    equal([it['text'] for it in page.lines()][:5], read('examples/tree.rpp').split('\n')[:5])
    equal(page.text('#picked').split(': ')[1], 'Search tree')
    page.view('store')
    page.browser.resize(480, 900)
    page.click('#sheets [data-view=output]')
    page.choose('Queue')
    page.click('#sheets [data-sheet=program]')
    page.settled()
    equal([it['text'] for it in page.lines()][:5], read('examples/queue.rpp').split('\n')[:5])
    page.browser.resize(1440, 1000)


TESTS = (faults_are_where_they_are, back_is_back, plays_both_ways, keys_move, keys_belong_to_what_has_the_focus, the_timeline_shows_the_run,
         it_plays_at_a_speed, the_editor_is_next_to_the_views, all_views_agree, takes_inputs_and_limits, questions_say_what_they_rest_on, the_machine_begins_again,
         a_run_without_end_stops, mistakes_are_told, the_editor_shows_what_runs)
