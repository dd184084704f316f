"""Finding the program, calling it, and keeping away from sources."""
import os
import shutil
import subprocess
import sys
import threading

from rpp.program import Interrupted, OutOfTime, OverSource, Program, keep_apart

from .base import COMMAND, LIST, Case

ENDLESS = 'class P int x method main() from x = 0 do x += 1 loop skip until x = 0'


class Found(Case):
    def test_without_a_program_it_says_what_to_do(self):
        alone = os.path.join(self.folder, 'alone')
        shutil.copytree(os.path.dirname(os.path.dirname(os.path.dirname(__file__))), os.path.join(alone, 'companion'),
                        ignore=shutil.ignore_patterns('tests', '__pycache__', 'vim', 'textmate'))
        shutil.copy(COMMAND, alone)
        environment = {'PATH': self.folder, 'ROOPLPP_PROGRAM': ''}
        done = subprocess.run([sys.executable, os.path.join(alone, 'rpp'), 'check', LIST], env=environment,
                              stdout=subprocess.PIPE, stderr=subprocess.PIPE, universal_newlines=True, check=False)
        self.assertEqual(done.returncode, 126)
        self.assertIn('there is no built program', done.stderr)
        self.assertIn('ROOPLPP_PROGRAM', done.stderr)

    def test_a_script_is_no_program(self):
        script = self.write('rooplpp', '#!/bin/sh\nexit 0\n')
        os.chmod(script, 0o755)
        done = self.rpp('check', LIST, env={'ROOPLPP_PROGRAM': script})
        self.assertEqual(done.returncode, 126)
        self.assertIn('is a script', done.stderr)

    def test_a_named_program_is_taken(self):
        copy = os.path.join(self.folder, 'copy')
        shutil.copy(self.program.path, copy)
        with open(copy, 'ab') as file:
            file.write(b'\n')
        done = self.rpp('version', env={'ROOPLPP_PROGRAM': copy})
        self.assertIn(f'program: {copy} (ROOPLPP_PROGRAM)', done.stdout)
        self.assertIn('proved: not known', done.stdout)

    def test_node_runs_the_program_of_its_package(self):
        # It prints the refusal that the program has for every text, with the words that it was called with.
        program = self.write('rooplpp.mjs', 'console.log(process.argv.slice(2)[0] === "check" ? "refused 3 Syntax at 6" : "");\n'
                             'process.exit(3);\n')
        if shutil.which('node') is None:
            self.skipTest('there is no node')
        done = self.rpp('check', LIST, env={'ROOPLPP_PROGRAM': program})
        self.assertEqual((done.returncode, f"{LIST}:1:7: " in done.stdout), (1, True), done.stdout + done.stderr)

    def test_what_node_had_to_end_gives_no_answer(self):
        program = self.write('rooplpp.mjs', 'console.error("too deep");\nprocess.exit(134);\n')
        if shutil.which('node') is None:
            self.skipTest('there is no node')
        done = self.rpp('check', LIST, env={'ROOPLPP_PROGRAM': program})
        self.assertEqual((done.returncode, done.stderr), (1, 'rpp: too deep\n'))

    def test_without_node_it_says_so(self):
        program = self.write('rooplpp.mjs', '')
        environment = {'PATH': self.folder, 'ROOPLPP_PROGRAM': program}
        done = subprocess.run([sys.executable, COMMAND, 'check', LIST], env=environment, stdout=subprocess.PIPE, stderr=subprocess.PIPE,
                              universal_newlines=True, check=False)
        self.assertEqual(done.returncode, 126)
        self.assertIn('there is no node on the path', done.stderr)


class Called(Case):
    def test_the_answer_is_the_programs(self):
        self.assertEqual(self.program.call('check', LIST), (0, 'accepted\n'))
        self.assertEqual(self.program.call('check'), (1, 'words refused\n'))

    def test_a_call_ends_in_time(self):
        source = self.write('endless.rpp', ENDLESS)
        with self.assertRaises(OutOfTime):
            self.program.call('go', source, 1, 1, 10 ** 17, timeout=0.3)

    def test_a_call_is_stopped_from_another_thread(self):
        source = self.write('endless.rpp', ENDLESS)
        threading.Timer(0.3, self.program.stop).start()
        # (a call that is not stopped takes years, so this ends only if it is)
        with self.assertRaises(Interrupted):
            self.program.call('go', source, 1, 1, 10 ** 17)

    def test_nothing_is_written_over_what_is_read(self):
        source = self.write('a.rpp', 'class P method main() skip')
        os.symlink(source, os.path.join(self.folder, 'b.rpp'))
        with self.assertRaises(OverSource):
            keep_apart(os.path.join(self.folder, 'b.rpp'), source)
        keep_apart(os.path.join(self.folder, 'c.rpp'), source)
        self.assertEqual(self.rpp('state', source, source, '-o', 'b.rpp').returncode, 1)
        with open(source, encoding='utf-8') as file:
            self.assertEqual(file.read(), 'class P method main() skip')

    def test_a_folder_goes(self):
        with Program.folder() as folder:
            path = folder.write('script', 'step 1\n')
            self.assertTrue(os.path.isfile(path))
        self.assertFalse(os.path.exists(folder.path))
