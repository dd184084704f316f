"""Drives a headless Chromium or Firefox, with nothing but the standard library: Chromium by its driver over HTTP,
Firefox by its own socket. Both take the commands of WebDriver, under names that differ."""
import base64
import contextlib
import json
import os
import re
import shutil
import signal
import socket
import subprocess
import sys
import tempfile
import time
import urllib.error
import urllib.request

ELEMENT = 'element-6066-11e4-a52e-4f735466cecf'
# The longest waits on a busy machine: for the start of a browser, for an answer, and for what the page is to show.
START_SECONDS, ANSWER_SECONDS, SHOWN_SECONDS = 600, 1200, 300


class BrowserFailed(Exception):
    """The browser refused a command, or did not start."""


def descendants(root):
    """The processes that a process has begun, and those that these have begun."""
    parents = {}
    for it in filter(str.isdigit, os.listdir('/proc')):
        with contextlib.suppress(OSError), open(f'/proc/{it}/stat', encoding='latin-1') as file:
            parents[int(it)] = int(file.read().rpartition(')')[2].split()[1])
    found, open_ones = [], [root]
    while open_ones:
        own = open_ones.pop()
        children = [it for it, parent in parents.items() if parent == own]
        found += children
        open_ones += children
    return found


def port_in(file, name):
    """The port that a browser writes into a file of its profile when it has started: the first word of the first line."""
    end = time.monotonic() + START_SECONDS
    while time.monotonic() < end:
        with contextlib.suppress(OSError, ValueError, IndexError):
            with open(file, encoding='ascii') as it:
                return int(it.read().split()[0])
        time.sleep(0.1)
    raise BrowserFailed(f'{name} did not start')


def ended(process):
    process.terminate()
    try:
        process.wait(20)
    except subprocess.TimeoutExpired:
        process.kill()
        process.wait()


class Browser:
    """What both browsers do. A subclass has `command(name, path, body)` and ends its process in `close`; `of_page` is a word of
    the command line of the processes that run pages."""

    of_page = ''

    def open(self, url):
        self.command('Navigate', 'url', {'url': url})

    def reload(self):
        self.command('Refresh', 'refresh', {})

    def run(self, script, *given):
        """The value that the body of a function in the page returns for the arguments given; it may be a promise."""
        body = f'const done = arguments[arguments.length - 1]; (async function () {{ {script} }}).apply(null, arguments)' \
               '.then(it => done({ value: it }), error => done({ error: String(error) + "\\n" + error.stack }))'
        answer = self.command('ExecuteAsyncScript', 'execute/async', {'script': body, 'args': list(given)})
        if 'error' in answer:
            raise BrowserFailed(answer['error'])
        return answer.get('value')

    def element(self, selector):
        found = self.command('FindElement', 'element', {'using': 'css selector', 'value': selector})
        return found[ELEMENT]

    def accessible(self, selector):
        """The role and the name that assistive technology gets for an element."""
        it = self.element(selector)
        return self.ask('GetComputedRole', f'element/{it}/computedrole', it), self.ask('GetComputedLabel', f'element/{it}/computedlabel', it)

    def click(self, selector):
        it = self.element(selector)
        self.command('ElementClick', f'element/{it}/click', {'id': it})

    def press(self, *keys):
        """Presses the keys one upon the other, as for a shortcut, and lets them go."""
        self.move_keys([('keyDown', key) for key in keys] + [('keyUp', key) for key in reversed(keys)])

    def type(self, text):
        """Presses the keys one after the other."""
        self.move_keys([(kind, key) for key in text for kind in ('keyDown', 'keyUp')])

    def move_keys(self, moves):
        """Has keys go down or up, one after the other."""
        actions = [{'type': kind, 'value': key} for kind, key in moves]
        self.command('PerformActions', 'actions', {'actions': [{'type': 'key', 'id': 'keys', 'actions': actions}]})

    def resize(self, width, height):
        self.command('SetWindowRect', 'window/rect', {'width': width, 'height': height})

    def processor_seconds(self, of_all=False):
        """The time for which processors worked at the pages: in their main threads, which run the scripts and draw, or in all threads."""
        ticks = 0
        for it in descendants(self.root()):
            with contextlib.suppress(OSError):
                with open(f'/proc/{it}/cmdline', encoding='latin-1') as file:
                    is_of_page = self.of_page in file.read()
                if is_of_page:
                    with open(f'/proc/{it}/{"" if of_all else f"task/{it}/"}stat', encoding='latin-1') as file:
                        ticks += sum(map(int, file.read().rpartition(')')[2].split()[11:13]))
        return ticks / os.sysconf('SC_CLK_TCK')

    def screenshot(self, file):
        with open(file, 'wb') as it:
            it.write(base64.b64decode(self.command('TakeScreenshot', 'screenshot', None)))

    def until(self, script, *given):
        """Waits until the script returns something true, and returns that."""
        end = time.monotonic() + SHOWN_SECONDS
        while True:
            value = self.run(script, *given)
            if value:
                return value
            if time.monotonic() > end:
                raise BrowserFailed(f'waited {SHOWN_SECONDS} seconds for: {script}')
            time.sleep(0.05)

    @contextlib.contextmanager
    def closed_on_failure(self):
        """Ends the browser where what is done within it fails."""
        try:
            yield
        except BaseException:
            self.close()
            raise

    def set_limits(self):
        self.command('SetTimeouts', 'timeouts', {'script': ANSWER_SECONDS * 1000, 'pageLoad': START_SECONDS * 1000})

    def __enter__(self):
        return self

    def __exit__(self, *_):
        self.close()


class Chromium(Browser):
    """Chromium, driven over HTTP by chromedriver. It is begun here, because chromedriver waits for a minute only."""

    name = 'chromium'
    needs = ('chromium', 'chromedriver')
    of_page = '--type=renderer'

    def __init__(self):
        self.folder = tempfile.mkdtemp(prefix='chromium')
        words = ['chromium', '--headless=new', '--disable-dev-shm-usage', '--remote-debugging-port=0', f'--user-data-dir={self.folder}']
        words += ['--no-first-run', '--disable-background-networking', '--disable-component-update', '--disable-sync']
        words += ['--no-sandbox'] * (os.geteuid() == 0)
        self.process = subprocess.Popen(words, stdout=subprocess.DEVNULL, stderr=subprocess.DEVNULL)
        self.driver = subprocess.Popen(['chromedriver', '--port=0'], stdout=subprocess.PIPE, stderr=subprocess.DEVNULL, text=True)
        self.address = ''
        with self.closed_on_failure():
            self.begin()

    def begin(self):
        """Begins the session; its address is that of each later command."""
        browser = f'127.0.0.1:{port_in(f"{self.folder}/DevToolsActivePort", self.name)}'
        self.address = f'http://127.0.0.1:{self.port()}/session'
        session = self.send('POST', '', {'capabilities': {'alwaysMatch': {'browserName': 'chrome', 'goog:chromeOptions': {'debuggerAddress': browser}}}})
        self.address += f'/{session["sessionId"]}'
        self.set_limits()

    def root(self):
        return self.process.pid

    def emulate(self, medium='', **features):
        """Has the page drawn as for a medium, such as print, and for what a reader prefers, such as prefers_color_scheme='dark'."""
        wanted = [{'name': name.replace('_', '-'), 'value': value} for name, value in features.items()]
        self.command('', 'goog/cdp/execute', {'cmd': 'Emulation.setEmulatedMedia', 'params': {'media': medium, 'features': wanted}})

    def port(self):
        for line in self.driver.stdout:
            found = re.search(r'started successfully on port (\d+)', line)
            if found:
                return int(found[1])
        raise BrowserFailed('chromedriver did not start')

    def send(self, method, path, body):
        data = None if body is None else json.dumps(body).encode()
        asked = urllib.request.Request(self.address + path, data, {'Content-Type': 'application/json'}, method=method)
        try:
            with urllib.request.urlopen(asked, timeout=ANSWER_SECONDS) as answer:
                return json.load(answer)['value']
        except urllib.error.HTTPError as error:
            raise BrowserFailed(error.read().decode()[:1000]) from error

    def command(self, name, path, body):
        return self.send('GET' if body is None else 'POST', f'/{path}', body)

    def ask(self, name, path, element):
        return self.command(name, path, None)

    def close(self):
        with contextlib.suppress(BrowserFailed, OSError):
            if self.address:
                self.send('DELETE', '', None)
        ended(self.driver)
        self.driver.stdout.close()
        ended(self.process)
        shutil.rmtree(self.folder, ignore_errors=True)


class Firefox(Browser):
    """Firefox, driven over the socket that it opens itself."""

    name = 'firefox'
    needs = ('firefox-esr',)
    of_page = '-isForBrowser'

    def __init__(self):
        self.folder = tempfile.mkdtemp(prefix='firefox')
        with open(f'{self.folder}/user.js', 'w', encoding='ascii') as it:
            it.write('user_pref("marionette.port", 0);\nuser_pref("datareporting.policy.dataSubmissionEnabled", false);\n')
        words = ['firefox-esr', '--headless', '--marionette', '--remote-allow-system-access', '--no-remote', '--profile', self.folder]
        self.process = subprocess.Popen(words, stdout=subprocess.DEVNULL, stderr=subprocess.DEVNULL)
        self.socket, self.got, self.number = None, b'', 0
        with self.closed_on_failure():
            port = port_in(f'{self.folder}/MarionetteActivePort', self.name)
            self.socket = socket.create_connection(('127.0.0.1', port), ANSWER_SECONDS)
            self.message()
            self.command('NewSession', '', {})
            self.set_limits()

    def root(self):
        return self.process.pid

    def emulate(self, medium='', **features):
        """Has the page drawn as for a medium, such as print, and for what a reader prefers, such as prefers_color_scheme='dark'."""
        script = '''const context = gBrowser.selectedBrowser.browsingContext, [medium, dark, still] = arguments;
            context.mediumOverride = medium;
            context.prefersColorSchemeOverride = dark;
            Services.prefs.setIntPref('ui.prefersReducedMotion', still);'''
        given = [medium, features.get('prefers_color_scheme', 'none'), int(features.get('prefers_reduced_motion') == 'reduce')]
        self.command_of('Marionette', 'SetContext', {'value': 'chrome'})
        try:
            self.command('ExecuteScript', '', {'script': script, 'args': given})
        finally:
            self.command_of('Marionette', 'SetContext', {'value': 'content'})

    def message(self):
        """The next message: its length in bytes, a colon, and that many bytes of JSON."""
        while b':' not in self.got:
            self.receive()
        length, _, rest = self.got.partition(b':')
        self.got = rest
        while len(self.got) < int(length):
            self.receive()
        text, self.got = self.got[: int(length)], self.got[int(length) :]
        return json.loads(text)

    def receive(self):
        piece = self.socket.recv(1 << 16)
        if not piece:
            raise BrowserFailed('firefox closed its socket')
        self.got += piece

    def command(self, name, path, body):
        return self.command_of('WebDriver', name, body)

    def command_of(self, kind, name, body):
        self.number += 1
        text = json.dumps([0, self.number, f'{kind}:{name}', body or {}]).encode()
        self.socket.sendall(b'%d:%s' % (len(text), text))
        _, _, error, value = self.message()
        if error:
            raise BrowserFailed(f'{error["error"]}: {error["message"]}'[:1000])
        return value['value'] if isinstance(value, dict) and list(value) == ['value'] else value

    def ask(self, name, path, element):
        return self.command(name, path, {'id': element})

    def close(self):
        if self.socket:
            self.socket.close()
        ended(self.process)
        shutil.rmtree(self.folder, ignore_errors=True)


def end_on_signal():
    """A signal then ends this program as an exception does, and so the browsers with it."""
    signal.signal(signal.SIGTERM, lambda *_: sys.exit(1))


def found():
    """The browsers that this machine has."""
    return [it for it in (Chromium, Firefox) if all(map(shutil.which, it.needs))]
