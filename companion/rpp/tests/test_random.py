"""Random programs: what `rpp debug` shows at each position is what `trace` prints there."""
import os
import random
import re

from .base import Case

PROGRAMS = 10
POSITIONS = 100
KINDS = ['update', 'update', 'swap', 'call', 'if', 'from', 'local', 'object', 'array']


class Maker:
    """Writes a random program of the language: nested blocks, loops, locals, calls, uncalls, objects and arrays."""

    def __init__(self, seed: int):
        self.random = random.Random(seed)
        self.locals = 0

    def expression(self, names) -> str:
        parts = [self.random.choice(names + [str(self.random.randrange(9))]) for _ in range(self.random.randrange(1, 4))]
        return f' {self.random.choice("+-^&|")} '.join(parts)

    def update(self, names, indent: str) -> str:
        place = self.random.choice(names)
        others = [name for name in names if name != place] or ['5']
        return f'{indent}{place} {self.random.choice(["+=", "-=", "^="])} {self.expression(others)}\n'

    def block(self, names, indent: str, deep: int, level: int) -> str:
        return ''.join(self.statement(names, indent, deep, level) for _ in range(self.random.randrange(1, 4)))

    def statement(self, names, indent: str, deep: int, level: int) -> str:
        kind = self.random.choice(KINDS) if deep else 'update'
        inner = indent + '  '
        if kind == 'swap':
            return f'{indent}{" <=> ".join(self.random.sample(names, 2))}\n'
        if kind == 'call' and level:
            target = f'{"rack::" if self.random.random() < 0.3 else ""}m{level - 1}()'
            return f'{indent}{self.random.choice(["call", "uncall"])} {target.replace("rack::m", "rack::s")}\n'
        if kind == 'if':
            return (f'{indent}if {names[0]} < 4 then\n{self.block(names[1:], inner, deep - 1, level)}{indent}else\n'
                    f'{self.block(names[1:], inner, deep - 1, level)}{indent}fi {names[0]} < 4\n') if len(names) > 3 else \
                self.update(names, indent)
        return self.longer(kind, names, indent, deep, level)

    def longer(self, kind: str, names, indent: str, deep: int, level: int) -> str:
        """The statements that declare a name of their own."""
        self.locals += 1
        name, inner = f't{self.locals}', indent + '  '
        if kind in ('from', 'local') and deep:
            body = self.block(names, inner, deep - 1, level)
            if kind == 'local':
                return f'{indent}local int {name} = 3\n{body}{indent}delocal int {name} = 3\n'
            return (f'{indent}local int {name} = 0\n{indent}from {name} = 0 do\n{body}{inner}{name} += 1\n{indent}loop skip\n'
                    f'{indent}until {name} = 2\n{indent}delocal int {name} = 2\n')
        if kind == 'object':
            return (f'{indent}construct Rack {name}\n{inner}call {name}::s0()\n{inner}uncall {name}::s0()\n'
                    f'{indent}destruct {name}\n')
        if kind == 'array':
            return f'{indent}call racks[{self.random.randrange(2)}]::s0()\n'
        return self.update(names, indent)

    def program(self) -> str:
        fields = ['a', 'b', 'c', 'd', 'e']
        text = 'class P\n' + ''.join(f'  int {name}\n' for name in fields) + '  Rack rack\n  Rack[] racks\n'
        text += 'method main()\n  new Rack rack\n  new Rack[2] racks\n  new Rack racks[0]\n  new Rack racks[1]\n'
        text += '  d += 6\n' + ''.join(self.statement(fields, '  ', 3, 3) for _ in range(5))
        for level in range(3):
            text += f'method m{level}()\n{self.block(fields, "  ", 2, level)}'
        text += 'class Rack\n  int held\n  int kept\n'
        for level in range(3):
            text += f'method s{level}()\n  held += {level + 1}\n'
            text += f'  call s{level - 1}()\n  kept ^= held\n' if level else ''
        return text


class Positions(Case):
    def compared(self, source: str):
        """Compares each position of both commands, going there and back."""
        ended = int(re.search(r'^at (\d+)', self.trace(source, 'step 1000000'))[1])
        count = min(POSITIONS, ended)
        lines = ['step 0', 'regs', 'cells 1 1000'] + ['step 1', 'regs', 'cells 1 1000'] * count
        lines += ['back 1', 'regs', 'cells 1 1000'] * count
        commands = 'print\nobjects\n' + 'step\nprint\nobjects\n' * count + 'back\nprint\nobjects\n' * count
        self.write('commands', commands)
        done = self.rpp('debug', source, '-x', 'commands')
        self.assertEqual((done.returncode, done.stderr), (0, ''))
        with open(source, 'rb') as file:
            self.text = file.read()
        self.assertEqual(self.told(done.stdout), self.printed(self.trace(source, *lines)))
        return count

    def printed(self, output: str):
        """For each position that `trace` printed: its number, its place, its depth, and what `regs` and `cells` say."""
        found = re.findall(r'^at (\d+) (?:place (\d+) depth (\d+)|end)[^\n]*\n((?:[^a\n].*\n|a =.*\n|a[^t\n].*\n)*)', output, re.M)
        return [(position, place, depth, body) for position, place, depth, body in found]

    def told(self, output: str):
        """The same, of what the session printed: lines and columns are counted to bytes here."""
        rows = self.text.split(b'\n')
        found = re.findall(r'^\[(\d+)\] (?:\S+:(\d+):(\d+) in [^\n]*|the end)\n.*?^\(rpp\) print\n(.*?)^\(rpp\) objects\n(.*?)(?=^\(rpp\)|\Z)',
                           output, re.M | re.S)
        told = []
        for position, line, column, variables, things in found:
            place = sum(len(row) + 1 for row in rows[:int(line) - 1]) + int(column) - 1 if line else ''
            depth = re.search(rf'^\[{position}\] [^\n]*, depth (\d+)', output, re.M)
            told.append((position, str(place), (depth[1] if depth else '1') if line else '', variables + things))
        return told

    def test_random_programs(self):
        compared = 0
        for seed in range(PROGRAMS):
            source = self.write(f'r{seed}.rpp', Maker(seed).program())
            self.assertEqual(self.program.call('check', source), (0, 'accepted\n'), f'seed {seed}')
            with self.subTest(seed=seed):
                compared += self.compared(source)
        self.assertGreater(compared, 20 * PROGRAMS)

    def test_generated_programs(self):
        for seed in range(2):
            source = os.path.join(self.folder, f'g{seed}.rpp')
            self.program.call('generate', seed, 6 + seed, source)
            with self.subTest(seed=seed):
                self.compared(source)
