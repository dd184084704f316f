"""Pictures of the store, the listing, and long runs."""
import json
import re

from drawn import IS_DRAWN, equal, holds, read

# The most milliseconds of the processor for a move: of a run with 1,000 nodes, and of a program with 20,000 tokens.
MOST_OF_NODES, MOST_OF_TOKENS, MEASURED, BEFORE = 60, 50, 20, 4
# The most seconds of the processor in which a run opens.
MOST_TRIES = 3
MOST_TO_OPEN, MOST_TO_OPEN_LONG = 0.3, 2
# Examples that are stepped through. Then how many positions are looked at, of these and of the others, and at which of them arrows are.
STEPPED, ALL_POSITIONS, SOME_POSITIONS = ('list', 'tree', 'doubly', 'queue', 'visitor'), (240, 9), (12, 1)
# So many objects of a class are drawn one by one.
MOST_DRAWN = 60

# Goes through positions of the run, at most so many, and looks at arrows at each that this number divides. Gives the objects that move
# while they live, places that two objects have at once, arrows that go through a box, and how many objects it saw.
PLACES = IS_DRAWN + '''
const line = document.querySelector('#timeline input'), last = Number(line.max), frame = () => new Promise(done => requestAnimationFrame(done));
const moved = new Set(), shared = new Set(), crossed = new Set(), seen = new Set();
const isElsewhere = (one, other) => one.some((it, axis) => Math.abs(it - other[axis]) > 1.5);
let before = new Map();
for (let next = 0; next <= last; next += Math.max(1, last / arguments[0])) {
  const at = Math.round(next);
  line.value = at;
  line.dispatchEvent(new Event('input'));
  do await frame(); while (!document.getElementById('where').textContent.replaceAll(',', '').startsWith(`${at} /`));
  const picture = document.querySelector('#store .picture').getBoundingClientRect(), now = new Map();
  const boxes = [...document.querySelectorAll('#store .box')].filter(isDrawn).map(it => ({ name: it.dataset.name, kind: it.getAttribute('class'),
    box: it.querySelector('.frame').getBBox(), rect: it.querySelector('.frame').getBoundingClientRect() }));
  for (const { name, kind, rect } of boxes) if (kind.includes(' object') && !document.querySelector(`#store .fold [data-name="${name}"]`)) {
    now.set(name, [rect.left - picture.left, rect.top - picture.top]);
    seen.add(name);
  }
  for (const [name, place] of now) {
    if (before.has(name) && isElsewhere(place, before.get(name))) moved.add(`${name} at ${at}`);
    for (const [other, where] of now) if (other !== name && !isElsewhere(place, where)) shared.add(`${name} and ${other} at ${at}`);
  }
  before = now;
  if (at % arguments[1]) continue;
  for (const arrow of document.querySelectorAll('#store .arrow')) {
    for (let along = 4; along < arrow.getTotalLength() - 4; along += 5) {
      const { x, y } = arrow.getPointAtLength(along);
      const hit = boxes.find(({ name, box }) => ![arrow.dataset.from, arrow.dataset.to].includes(name)
        && x > box.x + 1 && x < box.x + box.width - 1 && y > box.y + 1 && y < box.y + box.height - 1);
      if (hit) { crossed.add(`${arrow.dataset.from} to ${arrow.dataset.to} through ${hit.name}`); break; }
    }
  }
}
return [[...moved], [...shared], [...crossed], seen.size];
'''
# The listing of a text, as the program prints it.
LISTING = '''
const { files } = await playground.caller.call(['compile', 'p', 'i'], [['p', arguments[0]]]);
const listed = await playground.caller.call(['list', 'i', 'l'], [['i', files.get('i')]]);
return new TextDecoder().decode(listed.files.get('l'));
'''
# The registers that are drawn, and the cells of the memory with a value that is not 0; named ones have their names.
MACHINE = IS_DRAWN + '''
const registers = [...drawn('#machine .registers').querySelectorAll('dt')].filter(it => it.nextElementSibling?.tagName === 'DD')
  .map(it => [it.textContent, it.nextElementSibling.textContent]);
const cells = [...document.querySelectorAll('#machine .cells span:not(.run)')].map(it => [it.querySelector('small').textContent, it.lastChild.textContent]);
return [Object.fromEntries(registers), Object.fromEntries(cells.filter(([, value]) => value !== '0'))];
'''
# What the program's debugger prints of the machine after so many steps of the image of a text.
DEBUGGED = '''
const [text, step] = arguments, { files } = await playground.caller.call(['compile', 'p', 'i'], [['p', text]]);
const script = ['step ' + step, 'regs', ...Array.from({ length: 12 }, (_, at) => `cells ${40 + at * 1000} 1000`)].join('\\n') + '\\n';
return (await playground.caller.call(['debug', 'i', '12', '64', 's'], [['i', files.get('i')], ['s', script]])).text;
'''
# The colours of the rows of the listing that are drawn, by their cells, and those of the lines of the editor.
ROW_COLOURS = IS_DRAWN + '''
const colour = it => it && getComputedStyle(it).backgroundColor;
const rows = [...document.querySelectorAll('#machine .listing li:not(.here)')].filter(isDrawn);
const lines = [...document.querySelectorAll('.CodeMirror-code > div')].filter(isDrawn);
const text = it => it.querySelector('.CodeMirror-linenumber').textContent;
return [rows.map(it => [Number(it.querySelector('.number').textContent), colour(it)]),
  lines.map(it => [Number(text(it)), colour(it.querySelector('[class*=hue-]'))])];
'''
LONG = '''class Main
  int x
  Cell a
method main()
  local int i = 0
  from i = 0 do
    new Cell a
    call a::put(i)
    x += 1
    uncall a::put(i)
    delete Cell a
  loop
    i += 1
  until i = 3000
  delocal int i = 3000
class Cell
  int v
method put(int n)
  v += n
'''
CHAIN = '''class Main
  int n
  Node head
method main()
  from n = 0 do
    call put()
    n += 1
  loop
    skip
  until n = {count}
method put()
  local Node fresh = nil
    new Node fresh
    call fresh::hang(head, n)
    head <=> fresh
  delocal Node fresh = nil
class Node
  int value
  Node next
method hang(Node list, int v)
  value += v
  next <=> list
'''


def examples_are_drawn(page):
    """Each example is the program in the editor and has its title in the picker. No object moves while it lives, no two objects have one
    place, and no arrow goes through a box."""
    ladder = json.loads(read('playground/lessons.json'))['ladder']
    for name, title, _ in (it for _, rung in ladder for it in rung):
        page.choose(title)
        equal(page.text('#picked').split(': ')[1], title)
        lines = read(f'examples/{name}.rpp').split('\n')
        shown = {it['number']: it['text'] for it in page.lines()}
        equal(shown, {number: lines[number - 1] for number in shown or [1]}, f'{title}: the editor')
        *wrong, count = page.run(PLACES, *(ALL_POSITIONS if name in STEPPED else SOME_POSITIONS))
        equal(wrong, [[], [], []], f'{title}: objects that move, objects on one place, arrows through boxes')
        holds(count, f'{title}: no object is drawn')


def tree_program(keys):
    """A program that puts keys into a search tree, and the pairs of a node and its children, left and right."""
    children, calls, before = {keys[0]: [None, None]}, [], 0
    for key in keys:
        at, depth = keys[0], 0
        while key != at:
            side, depth = int(key > at), depth + 1
            if children[at][side] is None:
                children[at][side] = key
                children[key] = [None, None]
            at = children[at][side]
        calls += [f'    key += {key - before}' if key > before else f'    key -= {before - key}', '    call put(key, depth)', f'    depth -= {depth}']
        before = key
    text = read('examples/tree.rpp')
    head, tail = text[:text.index('    key += 50')], text[text.index('method put'):]
    return head + '\n'.join([*calls, f'    key -= {before}', '  delocal int depth = 0', '  delocal int key = 0', '', tail]), children


def a_tree_looks_like_one(page):
    """A tree of 15 nodes is drawn level by level, the parent over or before its children, which are in the order of its fields."""
    for keys in ((8, 4, 12, 2, 6, 10, 14, 1, 3, 5, 7, 9, 11, 13, 15), (8, 12, 4, 14, 10, 6, 2, 15, 13, 11, 9, 7, 5, 3, 1)):
        text, children = tree_program(keys)
        page.write(text)
        page.go('end')
        drawn = {dict(zip(it['fields'], it['values']))['key']: it['at'] for it in page.boxes() if it['title'].endswith(' Node')}
        equal(sorted(map(int, drawn)), list(range(1, 16)), page.text('#problems'))
        level, across = (1, 0) if drawn['8'][1] < drawn['4'][1] else (0, 1)
        for key, (left, right) in children.items():
            at = drawn[str(key)]
            for child in filter(None, (left, right)):
                holds(drawn[str(child)][level] > at[level] + 20, f'{child} is not after {key}, of which it is a child: {drawn}')
            if left and right:
                one, other = drawn[str(left)], drawn[str(right)]
                holds(abs(one[level] - other[level]) <= 1 and one[across] < other[across], f'{left} and {right}, the children of {key}: {drawn}')
        holds(len({tuple(at) for at in drawn.values()}) == 15, f'two nodes have one place: {drawn}')


def a_change_is_marked(page):
    page.choose('One update')
    page.go('end')
    equal(page.run('return [...document.querySelectorAll("#store text.changed")].map(it => it.textContent)'), ['5'])
    page.go('start')
    equal(page.run('return document.querySelectorAll("#store text.changed").length'), 0)


def one_object_has_one_name(page):
    """The report and the picture call an object by one name."""
    page.write('class Node\n  int key\nclass Main\n  Node a\n  Node b\nmethod main()\n  new Node a\n  delete Node a\n  new Node b\n  new Node a\n')
    page.go('end')
    titles = sorted(it for it in page.store() if 'Node' in it)
    page.view('output')
    printed = page.text('#output pre')
    fields = dict(line.split(' = ') for line in printed.split('\n') if ' = ' in line and not line.startswith(' '))
    equal(sorted(line.rsplit(' count', 1)[0] for line in printed.split('\n') if ' count ' in line), titles)
    equal({name: now for name, _, now, _ in page.output()}, fields)
    page.view('store')


def long_runs_open(page):
    """A run of tens of thousands of positions opens, and each of its positions shows the store as it is there, with objects in their places."""
    page.write(LONG)
    at, last = page.position()
    holds(last > 20000, f'the run has {last} positions')
    page.go('end')
    equal(page.store()['#1 Main'], {'x': '3001', 'a': 'nil'})
    page.run('const it = document.querySelector("#timeline input"); it.value = 12000; it.dispatchEvent(new Event("input"))')
    page.settled()
    equal(page.position()[0], 12000)
    middle = page.store()
    page.go('step-back')
    page.go('step-on')
    equal(page.store(), middle, 'the store at position 12,000 is another one when it is come to by steps')
    page.go('start')
    equal(page.store()['#1 Main'], {'x': '0', 'a': 'nil'})
    equal(page.run(PLACES, *SOME_POSITIONS)[:3], [[], [], []], 'objects that move, objects on one place, arrows through boxes')


def runs_open_at_once(page):
    """A run of 60 positions opens in 0.3 seconds of a processor, and one of 8,000 in 2, with its picture. It is tried again if the
    machine does much else."""
    for text, least, most in ((read('examples/list.rpp'), 60, MOST_TO_OPEN), (LONG.replace('3000', '1000'), 8000, MOST_TO_OPEN_LONG)):
        costs = []
        while len(costs) < MOST_TRIES and (not costs or costs[-1] > most):
            page.write('class P int x method main() x += 1')
            before = page.browser.processor_seconds(of_all=True)
            page.write(text)
            costs.append(page.browser.processor_seconds(of_all=True) - before)
            holds(page.position()[1] >= least and page.boxes(), f'a run of {page.position()}')
        holds(min(costs) <= most, f'a run of {page.position()[1]} positions takes {costs} seconds to open')


def runs_have_no_end(page):
    """Where a run is longer than what the page first asks for, it goes on as one comes there."""
    page.write('class P\n  int x\nmethod main()\n  local int i = 0\n  from i = 0 do\n    x += i\n  loop\n    i += 1\n  until i = 50000\n'
               '  delocal int i = 50000\n')
    page.go('end')
    page.browser.until('return document.getElementById("where").textContent.endsWith("/ 100,003")')
    page.go('end')
    equal(page.position(), (100003, 100003))
    equal(page.store()['#1 P'], {'x': '1250025000'})


def cells_of_fold(page):
    return page.run('return [...document.querySelectorAll("#store .fold g[data-name] text")].map(it => it.textContent)')


def long_chains_fold(page):
    """A list of more than 60 nodes is one folded box, which has a cell for each node. One of 60 nodes has a box for each."""
    for count in (MOST_DRAWN, MOST_DRAWN + 1, 200):
        page.write(CHAIN.replace('{count}', str(count)))
        page.go('end')
        boxes = page.boxes()
        folds, nodes = [it['title'] for it in boxes if ' fold' in it['kind']], [it for it in boxes if it['title'].endswith(' Node')]
        is_folded = count > MOST_DRAWN
        equal((folds, len(nodes) < count), ([f'{count} × Node'] if is_folded else [], is_folded), f'{count} nodes')
        values = cells_of_fold(page) if is_folded else [dict(zip(it['fields'], it['values']))['value'] for it in nodes]
        equal(sorted(map(int, values)), list(range(count)), f'{count} nodes')


def is_quick(cost, most, what):
    holds(cost <= most, f'{what}: a move takes {cost:.0f} ms of the processor')


def a_thousand_nodes_move(page):
    """With 1,000 nodes a move takes at most 60 ms, and what the next moves show is there before they are made. It is drawn right."""
    page.click('#gear')
    page.put('#heap', '14')
    page.write(CHAIN.replace('{count}', '1000'))
    page.go('end')
    equal(sorted(map(int, cells_of_fold(page))), list(range(1000)))
    last = page.position()[1]
    with page.without_answers():
        for key, way in (('step-back', -1), ('step-on', 1)):
            at = page.position()[0]
            equal(page.steps(key, 8), [f'{at + way * (move + 1):,} / {last:,}' for move in range(8)], 'positions that are shown without a call')
    for key in ('step-back', 'step-on'):
        page.move_cost(key, BEFORE)
        is_quick(page.move_cost(key, MEASURED), MOST_OF_NODES, key)
        page.settled()
    page.go('step-back')
    shown, found = page.store(), (page.here(), sorted(cells_of_fold(page)))
    page.go('start')
    page.go('end')
    page.go('step-back')
    equal((page.store(), (page.here(), sorted(cells_of_fold(page)))), (shown, found), 'the same position, come to in another way')
    page.click('#usual')
    page.settled()


def the_listing_is_coloured(page):
    """Each line of the source has one colour in the editor and in the listing; the machine steps one instruction at a time."""
    page.choose('One update')
    page.view('machine')
    colour = 'return getComputedStyle(document.querySelector(arguments[0])).backgroundColor'
    equal(page.run(colour, '#machine .listing li.of-statement:not(.here)'), page.run(colour, '.CodeMirror-code [class*=hue-]'))
    page.go('start')
    told = page.text('#machine .caption')
    page.click('#machine [data-step="1"]')
    page.settled()
    holds(page.text('#machine .caption') != told, 'a step of the machine changes nothing')
    page.click('#machine [data-step="-1"]')
    page.settled()
    equal(page.text('#machine .caption'), told)
    page.go('end')
    equal(page.position(), (1, 1))
    holds('finished' in page.text('#machine .caption'), page.text('#machine .caption'))
    heads = page.run(IS_DRAWN + 'return [...document.querySelectorAll("#machine h3")].filter(isDrawn).map(it => it.innerText)')
    equal(heads, ['Registers', 'Static words', 'Heap', 'Stack'])
    page.view('store')


def rows_have_the_colours_of_their_lines(page):
    """Each instruction has the colour of the line that the image's marks say it is of; lines next to each other have other colours."""
    text = read('examples/counter.rpp')
    page.choose('A counter')
    page.view('machine')
    marks = sorted(((int(behind) - int(first), int(first), int(behind), int(place)) for first, behind, place in
                    re.findall(r'^MARK (\d+) (\d+) (\d+)', page.run(LISTING, text), re.M)), reverse=True)
    holds(marks, 'the image has no marks')
    of_cell = {cell: text.encode()[:place].count(b'\n') + 1 for _, first, behind, place in marks for cell in range(first, behind)}
    page.run('document.querySelector("#machine .listing").scrollTop = arguments[0] * parseFloat(getComputedStyle(document.documentElement)'
             '.getPropertyValue("--listing-row"))', min(of_cell) - 4)
    page.rest(0.3)
    rows, lines = page.run(ROW_COLOURS)
    lines = dict(lines)
    coloured = [cell for cell, _ in rows if cell in of_cell]
    holds(len(coloured) > 10 and len({of_cell[cell] for cell in coloured}) > 1, f'{len(coloured)} rows with colours are drawn')
    clear = {colour for cell, colour in rows if cell not in of_cell}
    equal([(cell, colour) for cell, colour in rows if cell in of_cell and (colour != lines[of_cell[cell]] or colour in clear)], [],
          f'rows with another colour than their lines, which have {lines}')
    neighbours = [line for line in {*of_cell.values()} if line + 1 in of_cell.values() and lines[line] == lines[line + 1]]
    equal(neighbours, [], 'lines that have the colour of the next one')
    page.view('store')


def the_machine_is_as_the_debugger_prints_it(page):
    """Registers, static words, heap and stack are what the program's debugger prints after the step that is shown."""
    text = read('examples/tree.rpp')
    page.choose('Search tree')
    page.view('machine')
    names = dict(re.findall(r'^NAME (\d+) (\w+)$', page.run(LISTING, text), re.M))
    for at in (0, 33, 60, 98):
        page.run('const it = document.querySelector("#timeline input"); it.value = arguments[0]; it.dispatchEvent(new Event("input"))', at)
        page.settled()
        printed = page.run(DEBUGGED, text, re.search(r'step ([\d,]+) of', page.text('#machine .caption'))[1].replace(',', ''))
        registers = dict(re.findall(r'^(\$\w+) = (-?\d+)$', printed, re.M))
        cells = {names.get(cell, cell): value for cell, value in re.findall(r'^cell (\d+) = (-?\d+)$', printed, re.M) if value != '0'}
        holds(cells or not at, printed)
        equal(page.run(MACHINE), [registers, cells], f'the machine at position {at}')
    page.view('store')


def large_programs_step(page):
    """A program of 20,000 tokens steps in less than 50 ms, with any view open. The listing draws only what is in sight, and the next
    moves wait for no call."""
    page.write('class P\n  int x\nmethod main()\n' + '  x += 1\n' * 5000 + 'class Q\n')
    page.go('start')
    for view, told in (('store', '#where'), ('machine', '#machine .caption')):
        page.view(view)
        page.move_cost('step-on', BEFORE, told)
        is_quick(page.move_cost('step-on', MEASURED, told), MOST_OF_TOKENS, view)
        page.settled()
    equal(page.position()[0], 2 * (MEASURED + BEFORE))
    rows = page.run('return [document.querySelectorAll("#machine .listing li").length, document.querySelector("#machine .listing ol").offsetHeight]')
    holds(0 < rows[0] < 200 and rows[1] > 100000, f'{rows[0]} rows are drawn, and the list is {rows[1]} high')
    before = page.text('#machine .caption')
    with page.without_answers():
        seen = page.steps('step-on', 6, '#machine .caption')
        equal(page.steps('step-back', 6, '#machine .caption'), [*seen[-2::-1], before], 'the machine on the way back')
    equal(len(set(seen)), 6, 'states of the machine that are shown without a call')
    page.view('store')


def the_inverse_is_paired(page):
    page.choose('Search tree')
    page.view('inverse')
    equal(page.text('#inverse .caption'), 'Each line undoes the line whose number it has.')
    source = page.run('return playground.run.text').split('\n')
    pairs = page.run('return [...document.querySelectorAll("#inverse li")]'
                     '.map(it => [it.querySelector("code").textContent.trim(), Number(it.querySelector(".number").textContent)])')
    holds(len(pairs) > 30, 'the inverse is empty')
    # A method of the inverse program undoes what it did, so a call of it is undone by a call that is written alike.
    calls = [(text, number) for text, number in pairs if text.startswith(('call ', 'uncall '))]
    holds(len(calls) > 5, 'the inverse has no calls')
    for text, number in calls:
        line = source[number - 1].split('//')[0]
        holds(f' {text.split("(")[0]}(' in f' {line}', f'{text!r} is said to undo {line!r}')
    page.go('start')
    holds(page.is_drawn('#inverse .link.here'), 'no curve joins the line of the position')
    page.view('store')


TESTS = (examples_are_drawn, a_tree_looks_like_one, a_change_is_marked, one_object_has_one_name, long_runs_open, runs_have_no_end,
         runs_open_at_once, long_chains_fold, a_thousand_nodes_move, the_listing_is_coloured, rows_have_the_colours_of_their_lines,
         the_machine_is_as_the_debugger_prints_it, large_programs_step, the_inverse_is_paired)
