"""Sessions: the page holds one session of a run, which answers as the pages of the project say, and begins
again if its worker ended."""
import os
import re
import sys

from drawn import HOME, TOP, equal, holds, read

sys.path.insert(0, os.path.join(TOP, 'tests'))
import live_looks

COUNTER = 'class P\n  int x\nmethod main()\n  x += 5\n'
TURNS = 3000
# A run of more than 15,000 positions, with an object and an array whose contents change.
LONG = ('class P\n  int x\n  C c\n  int[] a\nmethod main()\n  new C c\n  new int[2] a\n  from x = 0 do\n    skip\n  loop\n    call c::up(x)\n'
        f'    a[0] += 1\n  until x = {TURNS}\nclass C\n  int v\nmethod up(int by)\n  v += 2\n  by += 1\n')
# Texts whose condition fails when a call has ended, what is said of it, and the variables at that moment.
AFTER_CALLS = (
    ('class P\n  int x\nmethod main()\n  local int t = 0\n    uncall down(t)\n  delocal int t = 0\nmethod down(int n)\n  n += 1\n',
     't is -1, and must be 0 to be closed', '  t = -1\n'),
    ('class P\n  int x\n  C c\nmethod main()\n  new C c\n  if x = 0 then\n    call c::up(x)\n  else\n    skip\n  fi x = 0\nclass C\n  int v\nmethod up(int by)\n'
     '  v += 3\n  by += 1\n', 'x is 1, so x = 0 does not hold', ''),
)
PAIR, ROW = 'class P\n  int x\n  C c\nmethod main()\n', 'class P\n  int x\n  int[] a\nmethod main()\n'
PUT = 'class C\n  int v\nmethod put()\n  v += 3\n'
# Texts whose condition fails after a statement that changed an object, and what is drawn of that moment, worked out by hand.
AFTER_CHANGES = (
    (PAIR + '  new C c\n  if x = 0 then\n    x += 1\n    call c::put()\n  else\n    skip\n  fi x = 0\n' + PUT,
     {'#1 P': {'x': '1', 'c': '#2'}, '#2 C': {'v': '3'}, 'P::main': {}}),
    (PAIR + '  local int t = 1\n    new C c\n  delocal int t = x\n' + PUT, {'#1 P': {'x': '0', 'c': '#2'}, '#2 C': {'v': '0'}, 'P::main': {'t': '1'}}),
    (PAIR + '  new C c\n  local int t = 1\n    delete C c\n  delocal int t = 2\n' + PUT, {'#1 P': {'x': '0', 'c': 'nil'}, 'P::main': {'t': '1'}}),
    (ROW + '  new int[2] a\n  from a[0] = 0 do\n    x += 1\n  loop\n    x -= 1\n    a[1] += 5\n  until x = 3\n',
     {'#1 P': {'x': '0', 'a': '#2'}, '#2 int[2]': {'[0]': '0', '[1]': '5'}, 'P::main': {}}),
    (PAIR + '  uncall q()\nmethod q()\n  if x = 1 then\n    delete C c\n  else\n    skip\n  fi x = 0\n' + PUT,
     {'#1 P': {'x': '0', 'c': '#2'}, '#2 C': {'v': '0'}, 'P::q': {}}),
)
MARK = re.compile(r'(@[A-Z])')
# From here on the page counts what it sends to its worker: calls by their first word, and what sessions are asked; and the programs.
COUNTS = '''
const { caller } = playground, { send } = Object.getPrototypeOf(caller);
caller.sent = [];
caller.texts = new Set();
caller.send = function (message) {
  const { session, words, files = [], lines } = message;
  for (const [name, text] of files) if (name === 'program.rpp') caller.texts.add(text);
  caller.sent.push(session === undefined ? words[0] : words ? 'begin' : lines !== undefined ? 'ask' : 'end');
  return send.call(this, message);
};
'''
SENT = 'return playground.caller.sent.splice(0)'
# Holds sessions, each in a text of its own, and gives what they print. The lines of a session are sent one by one.
HOLDS_SESSIONS = '''
const told = [], { caller } = playground;
for (const [number, [words, files, lines]] of arguments[0].entries()) {
  const session = -1 - number;
  let answer = await caller.send({ session, words, files: Object.entries(files) }), printed = answer.text;
  for (const line of lines) if (answer.status === undefined) printed += (answer = await caller.send({ session, lines: `${line}\\n` })).text;
  if (answer.status === undefined) printed += (await caller.send({ session, lines: 'quit\\n' })).text;
  told.push(printed);
  await caller.send({ session });
}
return told;
'''
# What is shown of a position, as the program printed it.
SHOWN = 'const { run, at } = playground; return [run.look(at).fields, run.objects(at).map(it => [it.name, it.cells])]'


def documented():
    """The sessions of docs/reference/live.md: words, files, lines and what is printed."""
    for block in re.findall(r'^```\n(\$ .*?)^```$', read('docs/reference/live.md'), re.S | re.M):
        command, _, wanted = block.partition('\n')
        found = re.fullmatch(r"\$ printf '%s\\n' (.*) \| rooplpp-live (.*)", command)
        if found:
            words, lines = found[2].split(), [one or two for one, two in re.findall(r"'([^']*)'|(\S+)", found[1])]
            yield words, {it: read(it) for it in words if '/' in it}, lines, wanted


def faults():
    """The programs of tests/live_faults.txt, and what `fault` replies at the last position of each."""
    for part in read('tests/live_faults.txt').split('\n\n'):
        rows = {begin: [line[2:] for line in part.splitlines() if line[:2] == begin] for begin in ('$ ', '| ', '> ')}
        if not rows['| ']:
            continue
        text, marks = '', {}
        for piece in MARK.split(''.join(f'{line}\n' for line in rows['| '])):
            if MARK.fullmatch(piece):
                marks[piece] = str(len(text.encode()))
            else:
                text += piece
        wanted = ''.join(f'{MARK.sub(lambda mark, at=marks: at[mark[0]], line)}\n' for line in rows['> '])
        yield ['source', 'p', *(rows['$ '] or ['12 64'])[0].split()], {'p': text}, ['step 1000000', 'fault'], f'\n. fault\n{wanted}. done\n. bye\n'


def looks():
    """The sessions of tests/live_looks.txt on sources."""
    for _, bounds, text, requests in live_looks.cases():
        if bounds[0] != 'image':
            replies = ''.join(f'{line}\n' for _, reply in requests for line in reply)
            yield ['source', 'p', *bounds], {'p': text}, [line for line, _ in requests], f'. done\n{replies}. bye\n'


def sessions_reply_as_documented(page):
    """A session in the page replies what the page on live sessions says, and to looks and `fault` what their cases say, byte for byte."""
    for kind, cases, least in (('documented', list(documented()), 4), ('looks', list(looks()), 8), ('fault', list(faults()), 50)):
        holds(len(cases) >= least, f'{len(cases)} cases of the kind {kind}')
        for (words, files, _, wanted), printed in zip(cases, page.run(HOLDS_SESSIONS, [it[:3] for it in cases])):
            is_same = printed == wanted if kind == 'documented' else printed.endswith(wanted)
            holds(is_same, f'{kind} {" ".join(words)}: wanted {wanted!r}, got {printed!r} of {list(files.values())[0]!r}')


def a_run_has_one_session(page):
    """The page begins one session for a run, asks it for whatever is looked at, and lets it go when another run takes its place."""
    page.write(COUNTER)
    page.run(COUNTS)
    page.write(LONG)
    page.press(HOME)
    page.settled()
    sent = page.run(SENT)
    equal((sent.count('begin'), sent.count('end'), 'trace' in sent), (1, 1, False), str(sent))
    for at in (0, TURNS, 17, 2 * TURNS, 1, page.position()[1]):
        page.run('playground.transport.range.value = arguments[0]; playground.transport.range.oninput()', at)
        page.settled()
        equal(page.position()[0], at)
    sent = page.run(SENT)
    equal(set(sent), {'ask'}, 'what is sent for other positions')
    page.write(COUNTER)
    sent = page.run(SENT)
    equal((sent.count('begin'), sent.count('end')), (1, 1), str(sent))


def a_window_is_asked_for_once(page):
    """A position with its neighbours is one request, and moves within them are none."""
    page.write(LONG)
    page.run(COUNTS)
    page.run('playground.run.looks.clear()')
    page.run('await playground.go(arguments[0])', TURNS)
    page.settled()
    equal(page.run(SENT)[:1], ['ask'])
    page.run('await playground.run.coming; playground.caller.sent.length = 0')
    for at in range(TURNS + 1, TURNS + 6):
        page.run('await playground.go(arguments[0])', at)
    sent = page.run(SENT)
    holds(set(sent) <= {'ask'} and len(sent) <= 1, f'moves next to a position send {sent}')


def a_session_that_ended_begins_again(page):
    """If the worker ends, in the middle of a request too, the next move begins the session again. It shows what was shown before."""
    page.write(LONG)
    page.run('await playground.go(arguments[0])', TURNS)
    before = page.run(SHOWN)
    for end in ('playground.caller.worker.dispatchEvent(new ErrorEvent("error", { message: "out of memory" }))', 'playground.caller.stop()',
                'const asked = playground.run.session.ask(() => ["points 1000000"]).catch(() => undefined);'
                'await new Promise(done => setTimeout(done)); playground.caller.stop(); await asked'):
        page.run(end)
        page.run('playground.run.looks.clear()')
        page.run(COUNTS)
        page.run('await playground.go(arguments[0])', TURNS)
        page.settled()
        equal(page.position()[0], TURNS)
        equal(page.run(SHOWN), before, end)
        sent = page.run(SENT)
        equal((sent.count('begin'), sent.count('ask') >= 1), (1, True), f'after {end}: {sent}')


def a_long_run_opens(page):
    """A run of thousands of positions is walked along by one request, and what is shown at its end is what the program prints there."""
    page.run(COUNTS)
    page.write(LONG)
    equal(page.position()[1], 4 + TURNS * 5, 'the statements of the run')
    page.go('end')
    last = page.store()
    equal((last['#1 P']['x'], last['#2 C']['v']), (str(TURNS), str(2 * TURNS)))
    printed = page.run('return (await playground.caller.call(["go", "p", "12", "64", "100000000"], [["p", arguments[0]]])).text', LONG)
    holds(f'x = {TURNS}\n' in printed and f'v = {2 * TURNS}\n' in printed, printed)


def a_test_after_a_call_is_in_its_method(page):
    """A condition that fails after a call, or after a call that is undone, is shown in its own method and direction."""
    for text, told, variables in AFTER_CALLS:
        page.write(text)
        page.go('end')
        words = page.run('return playground.picture.words(playground.at)')
        equal(words[:words.index('#1 ')], f'in P::main on #1\n{variables}', text)
        holds('undone' not in page.run('return playground.spoken()'), 'the test is said to be undone')
        holds(told in page.text('#problems') and 'way back,' not in page.text('#problems'), page.text('#problems'))


def objects_at_a_failed_condition_are_drawn(page):
    """Where a condition fails, the picture has the objects of that moment. The move back shows them as they were before."""
    for text, store in AFTER_CHANGES:
        page.write(text)
        page.go('end')
        equal(page.store(), store, text)
        page.go('step-back')
        holds(page.store() != store, f'the last statement changes nothing that is drawn: {text}')
        page.go('step-on')
        equal(page.store(), store, f'after a move back and on: {text}')


def a_fault_is_found_in_the_session_of_the_run(page):
    """Where a condition fails, one session begins, as for any other run, and no program has another text than the editor."""
    for text in (text for text, *_ in (*AFTER_CHANGES, *AFTER_CALLS)):
        page.run(COUNTS)
        page.write(text)
        page.go('end')
        sent, texts = page.run(SENT), page.run('return [...playground.caller.texts]')
        equal((sent.count('begin'), texts), (1, [text]), f'{sent}')


TESTS = (sessions_reply_as_documented, a_run_has_one_session, a_window_is_asked_for_once, a_session_that_ended_begins_again, a_long_run_opens,
         a_test_after_a_call_is_in_its_method, objects_at_a_failed_condition_are_drawn,
         a_fault_is_found_in_the_session_of_the_run)
