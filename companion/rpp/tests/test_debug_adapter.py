"""Whole sessions of the debug adapter, by a scripted client over its standard input."""
import os
import re

from rpp.places import Text

from .base import EXAMPLES, LIST, Case
from .protocol_client import DebugClient
from .test_failing import IN_ARRAY, TOUCHED

# Worked out by hand: its run has 11 points, at the lines of LINES, and then its end.
RUN = """class Main
  Node head
  int sum
method main()
  new Node head
  call head::put(sum)
  sum += 2
  uncall head::put(sum)
  call twice()
method twice()
  sum += 1  sum += 1
class Node
  int value  Node next
method put(int n)
  n += 5
  value += 1
"""
LINES = [5, 6, 15, 16, 7, 8, 16, 15, 9, 11, 11]
FAULTY = """class P
  int x
method main()
  local int k = 1
    k += 2
    x += k
  delocal int k = 4
  x += 1
"""
GROWING = """class P
  int x
  Box box
method main()
  new Box box
  from x = 0 do
    call box::put(x)
    x += 1
  loop skip
  until x = 40
  uncall twice()
method twice()
  x += 0
  x -= 0
class Box
  int held
method put(int n)
  held += n
  held += 1
"""
UNDONE = """class P
  int x
method main()
  uncall work()
method work()
  local int t = 2
    t += 5
  delocal int t = 9 + x
"""
CALLED = """class P
  int x
method main()
  if x = 0 then call more() else skip fi x = 0
method more()
  x += 1
"""
ENDLESS = """class P
  int x
  int y
method main()
  from x = 0 do
    x += 1
  loop
    y += 1
  until x = 0
"""
FIRST = os.path.join(EXAMPLES, 'first.rpp')
SINGLE = {'granularity': 'instruction'}


class Session(Case):
    def setUp(self):
        super().setUp()
        self.client = DebugClient()

    def tearDown(self):
        self.client.ask('disconnect')
        self.assertEqual(self.client.end(), 0)

    def written(self, text, name='run.rpp'):
        return self.write(name, text)

    def frames(self):
        return [(each['name'], each['line']) for each in self.client.ask('stackTrace', threadId=1)['stackFrames']]

    def moved(self, command, **arguments):
        stop = self.client.moved(command, **arguments)
        return stop['reason'], self.client.line()

    def test_each_statement_both_ways(self):
        client = self.client
        client.begin(self.written(RUN))
        seen = [(client.line(), client.scope('Parameters'), client.scope('Fields'))]
        while len(seen) < len(LINES):
            self.assertEqual(client.moved('stepIn')['reason'], 'step')
            seen.append((client.line(), client.scope('Parameters'), client.scope('Fields')))
        self.assertEqual([line for line, _, _ in seen], LINES)
        self.assertEqual(seen[3][1:], ({'n': '5'}, {'value': '0', 'next': 'nil'}))
        self.assertEqual(seen[7][1:], ({'n': '7'}, {'value': '0', 'next': 'nil'}))
        self.assertEqual(seen[4][1:], ({}, {'head': '#2 Node count 1', 'sum': '5'}))
        end = client.moved('stepIn')
        self.assertEqual((end['reason'], end['text']), ('step', 'the end of the run'))
        self.assertEqual(client.event('output')['output'], 'head = #2\nsum = 4\n')
        self.assertEqual(client.scope('Fields'), {'head': '#2 Node count 1', 'sum': '4'})
        for each in reversed(seen[1:]):
            self.assertEqual(client.moved('stepBack', **SINGLE)['reason'], 'step')
            self.assertEqual((client.line(), client.scope('Parameters'), client.scope('Fields')), each)
        client.moved('stepBack', **SINGLE)
        self.assertEqual(client.line(), 5)
        self.assertEqual(client.moved('stepBack')['text'], 'the start of the run')

    def test_over_and_out(self):
        client = self.client
        client.begin(self.written(RUN))
        self.assertEqual([self.moved('next') for _ in range(4)], [('step', each) for each in (6, 7, 8, 9)])
        self.assertEqual([self.moved('stepBack') for _ in range(3)], [('step', each) for each in (8, 7, 6)])
        self.assertEqual([self.moved('stepIn'), self.moved('stepOut')], [('step', 15), ('step', 7)])
        self.moved('stepIn')
        self.assertEqual(self.moved('stepIn'), ('step', 16))
        self.assertEqual(self.frames(), [('Node.put uncalled', 16), ('Main.main', 8)])
        self.assertEqual(client.scope('Fields', 2), {'head': '#2 Node count 1', 'sum': '7'})
        self.assertEqual(self.moved('stepBack'), ('step', 8))
        frame = client.ask('stackTrace', threadId=1)['stackFrames'][0]
        self.assertEqual([frame[each] for each in ('line', 'column', 'endLine', 'endColumn')], [8, 3, 8, 24])
        self.assertEqual(client.moved('restart')['reason'], 'entry')
        self.assertEqual(client.line(), 5)

    def test_breakpoints_both_ways(self):
        client = self.client
        found, stop = client.begin(self.written(RUN), [14, 10, 99], stopOnEntry=False)
        self.assertEqual([(each['verified'], each.get('line'), each.get('column')) for each in found],
                         [(True, 15, 3), (True, 11, 3), (False, None, None)])
        self.assertEqual((stop['reason'], client.line()), ('breakpoint', 15))
        self.assertEqual([self.moved('continue') for _ in range(2)], [('breakpoint', 15), ('breakpoint', 11)])
        self.assertEqual(client.moved('continue')['text'], 'the end of the run')
        stops = [self.moved('reverseContinue') for _ in range(3)]
        self.assertEqual(stops, [('breakpoint', each) for each in (11, 15, 15)])
        self.assertEqual(client.moved('reverseContinue')['text'], 'the start of the run')
        other = {'path': self.written(RUN, 'other.rpp')}
        other = client.ask('setBreakpoints', source=other, breakpoints=[{'line': 15}])
        self.assertFalse(other['breakpoints'][0]['verified'])
        source = {'path': self.written(RUN)}
        second = client.ask('setBreakpoints', source=source, breakpoints=[{'line': 11, 'column': 4}])
        self.assertEqual(second['breakpoints'][0]['column'], 13)
        self.assertEqual(self.moved('continue'), ('breakpoint', 11))
        self.assertEqual(client.scope('Fields')['sum'], '3')
        places = client.ask('breakpointLocations', source=source, line=11)
        self.assertEqual([each['column'] for each in places['breakpoints']], [3, 13])

    def test_objects(self):
        client = self.client
        client.begin(LIST, [13])
        for _ in range(4):
            client.moved('continue')
        value = lambda path: client.ask('evaluate', expression=path, frameId=1)['result']
        # (as the fourth number is put in front, the third is the first)
        self.assertEqual([value(path) for path in ('i', 'head.value', 'head.next.value')], ['4', '3', '2'])
        self.assertEqual([value(f'head.next.next.{field}') for field in ('value', 'next')], ['1', 'nil'])
        found = client.ask('evaluate', expression='head', frameId=1)
        cells = client.ask('variables', variablesReference=found['variablesReference'])['variables']
        shown, found_next = [(each['name'], each['value']) for each in cells], cells[1]['value']
        self.assertEqual(shown, [('value', '3'), ('next', value('head.next'))])
        self.assertTrue(cells[1]['variablesReference'])
        heads = sorted(each.split()[1] for each in client.scope('Objects').values())
        self.assertEqual(heads, ['List', 'Node', 'Node', 'Node'])
        self.assertEqual([value(text) for text in ('i + 1', 'head.value * 2 = i + 2', 'head.next')], ['5', '1', found_next])
        for wrong in ('nothing', 'head.no', '#99', 'i + ', 'i + nothing', ''):
            self.assertFalse(client.answer('evaluate', expression=wrong, frameId=1)['success'], wrong)
        old = found['variablesReference']
        client.moved('stepIn')
        self.assertFalse(client.answer('variables', variablesReference=old)['success'])

    def test_what_is_watched(self):
        client = self.client
        client.begin(self.written(RUN), [16])
        client.moved('next')
        fields = next(each for each in client.ask('scopes', frameId=1)['scopes'] if each['name'].startswith('Fields'))
        shown = client.ask('variables', variablesReference=fields['variablesReference'])['variables']
        cells = client.ask('variables', variablesReference=shown[0]['variablesReference'])['variables']
        self.assertEqual([each['evaluateName'] for each in shown + cells], ['head', 'sum', '#2.value', '#2.next'])
        head = shown[0]['variablesReference']
        ids = [client.ask('dataBreakpointInfo', variablesReference=head, name='value')['dataId']]
        self.assertEqual(ids, ['#2.value'])
        self.assertIsNone(client.ask('dataBreakpointInfo', name='nothing')['dataId'])
        client.ask('setDataBreakpoints', breakpoints=[{'dataId': each} for each in ids])
        # (`value += 1` is at position 3, and undone at position 6: it has changed at 4 and at 7)
        self.assertEqual([self.moved('continue') for _ in range(4)],
                         [('breakpoint', 16), ('data breakpoint', 7), ('breakpoint', 16), ('data breakpoint', 15)])
        client.ask('setBreakpoints', source={'path': self.written(RUN)}, breakpoints=[])
        self.assertEqual(client.moved('continue')['text'], 'the end of the run')
        stops = [self.moved('reverseContinue') for _ in range(2)]
        self.assertEqual(stops, [('data breakpoint', 16), ('data breakpoint', 16)])
        self.assertEqual(client.scope('Fields')['value'], '0')

    def test_conditions(self):
        client = self.client
        client.begin(self.written(GROWING))
        source = {'path': self.written(GROWING)}
        wanted = [{'line': 8, 'condition': 'x = 30 || x = 2'}, {'line': 7, 'condition': 'x +'}, {'line': 8, 'condition': 'zz'}]
        found = client.ask('setBreakpoints', source=source, breakpoints=wanted)['breakpoints']
        self.assertEqual([each['verified'] for each in found], [True, False, True])
        self.assertEqual(found[1]['message'], 'a value is missing at the end')
        stop = client.moved('continue')
        self.assertEqual((stop['reason'], stop['text']), ('breakpoint', 'its condition has no value here: there is no zz here'))
        self.assertEqual(stop['hitBreakpointIds'], [found[2]['id']])
        client.ask('setBreakpoints', source=source, breakpoints=wanted[:1])
        seen = []
        for command in ('continue', 'continue', 'continue', 'reverseContinue', 'reverseContinue', 'reverseContinue'):
            seen.append((client.moved(command)['reason'], client.scope('Fields')['x']))
        self.assertEqual(seen, [('breakpoint', '2'), ('breakpoint', '30'), ('step', '40'), ('breakpoint', '30'), ('breakpoint', '2'),
                                ('entry', '0')])

    def test_breakpoints_in_methods(self):
        client = self.client
        client.begin(self.written(GROWING))
        wanted = [{'name': 'Box.put', 'condition': 'n = 7'}, {'name': 'twice'}, {'name': 'nothing'}, {'name': 'twic'}]
        found = client.ask('setFunctionBreakpoints', breakpoints=wanted)['breakpoints']
        self.assertEqual([(each['verified'], each.get('line')) for each in found], [(True, 18), (True, 13), (False, None), (False, None)])
        self.assertEqual(found[3]['message'], 'there is no method twic; did you mean `P.twice`?')
        client.ask('setBreakpoints', source={'path': self.written(GROWING)}, breakpoints=[{'line': 8, 'condition': 'x = 39'}])
        stop = client.moved('continue')
        self.assertEqual((stop['reason'], stop['hitBreakpointIds'], client.line()), ('function breakpoint', [found[0]['id']], 18))
        self.assertEqual(client.scope('Parameters'), {'n': '7'})
        self.assertEqual(self.moved('continue'), ('breakpoint', 8))
        # (the body runs backward, so its last statement is the first)
        self.assertEqual(self.moved('continue'), ('function breakpoint', 14))
        self.assertEqual(client.moved('continue')['text'], 'the end of the run')

    def test_fault(self):
        client = self.client
        client.begin(self.written(FAULTY))
        stop = client.moved('continue')
        self.assertEqual((stop['reason'], stop['text'], client.line()), ('exception', 'fault 3 Delocal', 7))
        said = '`k` is 3 after the block, and must be 4'
        self.assertEqual(stop['description'], f'fault 3 Delocal: {said}')
        frame = client.ask('stackTrace', threadId=1)['stackFrames'][0]
        self.assertEqual([frame[each] for each in ('name', 'column', 'endLine', 'endColumn')], ['P.main', 19, 7, 20])
        self.assertEqual((client.scope('Parameters'), client.scope('Fields')), ({'k': '3'}, {'x': '3'}))
        self.assertEqual(client.ask('evaluate', expression='x', frameId=1)['result'], '3')
        told = client.ask('exceptionInfo', threadId=1)
        self.assertEqual((told['exceptionId'], told['breakMode']), ('fault 3 Delocal', 'always'))
        self.assertTrue(told['description'].startswith(f'{said}. `k` must be equal to `4` at its `delocal`, and it is 3.\n'))
        self.assertEqual(client.moved('stepIn')['reason'], 'exception')
        # (back from the test to the last statement that began)
        self.assertEqual(self.moved('stepBack'), ('step', 6))
        self.assertEqual((client.scope('Parameters'), client.scope('Fields')), ({'k': '3'}, {'x': '0'}))
        self.assertEqual(self.moved('stepBack'), ('step', 5))
        self.assertFalse(client.answer('exceptionInfo', threadId=1)['success'])

    def test_fault_in_an_uncalled_body(self):
        client = self.client
        client.begin(self.written(UNDONE))
        stop = client.moved('continue')
        self.assertEqual(stop['description'], 'fault 3 Delocal: `t` is 4 after the block was undone, and must be 2')
        self.assertEqual(self.frames(), [('P.work uncalled', 6), ('P.main', 4)])
        self.assertEqual((client.scope('Parameters'), client.scope('Fields')), ({'t': '4'}, {'x': '0'}))

    def test_fault_of_a_call(self):
        client = self.client
        client.begin(self.written(TOUCHED.format('call')))
        stop = client.moved('continue')
        self.assertEqual(stop['description'], 'fault 15 Touched: `x` is 1 after the call, and must be 0')
        self.assertEqual(self.frames(), [('C.begin', 15), ('P.main', 8)])
        self.assertEqual(client.scope('Fields'), {'self': 'nil', 'x': '1'})
        # (over the call, back to its begin)
        self.assertEqual(self.moved('stepBack'), ('step', 15))
        self.assertEqual(client.scope('Fields')['x'], '0')

    def test_fault_after_a_call(self):
        client = self.client
        client.begin(self.written(CALLED))
        stop = client.moved('continue')
        self.assertEqual(stop['description'], 'fault 1 Fi: `x = 0` is false after the `then` block')
        self.assertEqual(self.frames(), [('P.main', 4)])
        self.assertEqual(client.scope('Fields'), {'x': '1'})
        self.assertEqual(self.moved('stepBack'), ('step', 4))
        self.assertEqual(client.scope('Fields'), {'x': '0'})

    def test_objects_at_a_fault(self):
        client = self.client
        client.begin(self.written(IN_ARRAY.format('x += 2 a[1] += 3')))
        stop = client.moved('continue')
        self.assertEqual(stop['description'], 'fault 1 Fi: `x = 1` is false after the `then` block')
        # (the last statement that began changed the element)
        self.assertEqual(client.scope('Fields'), {'x': '2', 'a': '#2 int[2] count 1'})
        self.assertEqual(client.ask('evaluate', expression='a[1]', frameId=1)['result'], '8')
        self.assertEqual(self.moved('stepBack'), ('step', 7))
        self.assertEqual(client.ask('evaluate', expression='a[1]', frameId=1)['result'], '5')

    def test_pause(self):
        client = self.client
        client.begin(self.written(ENDLESS))
        for command in ('continue', 'stepOut'):
            client.ask(command, threadId=1)
            self.assertFalse(client.answer('stackTrace', threadId=1)['success'])
            client.ask('pause', threadId=1)
            self.assertEqual(client.event('stopped')['reason'], 'pause')
            self.assertEqual(client.line(), 5)

    def test_input_and_bounds(self):
        client = self.client
        client.begin(FIRST, input=self.written('x = 37\n', 'numbers'), heap=1, depth=1)
        self.assertEqual(client.scope('Fields'), {'x': '37'})
        client.moved('continue')
        self.assertEqual(client.event('output')['output'], 'x = 42\n')

    def test_without_stops(self):
        client, path = self.client, LIST
        client.ask('initialize', adapterID='rpp')
        client.ask('launch', program=path, noDebug=True)
        client.event('initialized')
        client.ask('configurationDone')
        said = self.program.call('go', path, 12, 64, 100000000)
        self.assertEqual(client.event('output')['output'], said.output)
        self.assertEqual(client.event('exited')['exitCode'], 0)
        client.event('terminated')

    def test_what_is_not_begun(self):
        client = self.client
        client.ask('initialize', adapterID='rpp')
        for command in ('stackTrace', 'next', 'nothing', 'configurationDone', 'setBreakpoints'):
            self.assertFalse(client.answer(command, threadId=1)['success'], command)
        wrong = self.written(FAULTY.replace('x += k', 'x += x'))
        for launch, said in (({'program': wrong}, f'{wrong}:6:5: SelfUpdate: '), ({'program': wrong + '.no'}, 'No such file'),
                             ({}, 'names no')):
            found = client.answer('launch', **launch)
            self.assertFalse(found['success'])
            self.assertIn(said, found['message'])
        right = FIRST
        for more, said in (({'heap': 21}, 'HeapOrder'), ({'input': self.written('z = 1', 'numbers')}, 'UnknownField')):
            found = client.answer('launch', program=right, **more)
            self.assertFalse(found['success'])
            self.assertIn(said, found['message'])


class Examples(Case):
    """At each position of an example's run the adapter shows the place and the variables that `trace` shows there."""

    def test_equal_to_trace(self):
        for name in ('swap', 'stack', 'recursion'):
            path = os.path.join(EXAMPLES, f'{name}.rpp')
            said = self.trace(path, 'step 0', 'regs', *['step 1', 'regs'] * 40)
            text, client = Text.read(path), DebugClient()
            client.begin(path)
            for block in re.split(r'^(?=at )', said, flags=re.M)[1:]:
                head, *rows = block.splitlines()
                at = re.fullmatch(r'at \d+ place (\d+) depth (\d+)(?: start)?', head)
                if not at:
                    break
                frames = client.ask('stackTrace', threadId=1)['stackFrames']
                self.assertEqual((frames[0]['line'], frames[0]['column']), tuple(text.place(int(at[1]))), head)
                self.assertEqual(len(frames), int(at[2]), head)
                shown = {**client.scope('Fields'), **client.scope('Parameters')}
                first_words = {key: value.split()[0] for key, value in shown.items()}
                self.assertEqual(first_words, dict(row.split(' = ') for row in rows), head)
                client.moved('stepIn')
            client.ask('disconnect')
            self.assertEqual(client.end(), 0)
