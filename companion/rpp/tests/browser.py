"""A headless Chromium for tests and screenshots, spoken to by its DevTools protocol over a pipe.

    with Browser() as browser:                  # NoBrowser where there is none
        browser.open('/tmp/page.html')
        browser.value('document.title')         # what an expression of the page gives
        browser.click('[data-go=forward]')      # the mouse, at the middle of what the selector finds
        browser.press('ArrowRight')
"""
import base64
import json
import os
import shutil
import subprocess
import tempfile
from typing import Any, Dict, List

NAMES = ('chromium', 'chromium-browser', 'google-chrome')
# (no sandbox: tests may run as root, where Chromium has none; the pages are our own files)
WORDS = ['--headless', '--no-sandbox', '--disable-gpu', '--hide-scrollbars', '--no-first-run', '--disable-extensions',
         '--disable-background-networking', '--remote-debugging-pipe']
CODES = {'ArrowLeft': 37, 'ArrowRight': 39, 'ArrowUp': 38, 'ArrowDown': 40, 'Home': 36, 'End': 35, 'Tab': 9}


class NoBrowser(Exception):
    """There is no Chromium here."""


class Browser:
    """A browser with one page."""

    def __init__(self):
        found = [path for path in map(shutil.which, NAMES) if path]
        if not found:
            raise NoBrowser('no Chromium here')
        self.folder = tempfile.mkdtemp(prefix='rpp-browser-')
        read_end, write_end = os.pipe(), os.pipe()
        words = ' '.join(WORDS + [f'--user-data-dir={self.folder}'])
        line = f'exec nice -n 10 {found[0]} {words} about:blank 3<&{read_end[0]} 4>&{write_end[1]}'
        self.process = subprocess.Popen(['bash', '-c', line], pass_fds=(read_end[0], write_end[1]), stdin=subprocess.DEVNULL,
                                        stdout=subprocess.DEVNULL, stderr=subprocess.DEVNULL)
        os.close(read_end[0])
        os.close(write_end[1])
        self.out, self.into = os.fdopen(read_end[1], 'wb', buffering=0), write_end[0]
        self.last, self.session, self.heard, self.events = 0, None, b'', []
        target = self.call('Target.createTarget', url='about:blank')['targetId']
        self.session = self.call('Target.attachToTarget', targetId=target, flatten=True)['sessionId']
        for domain in ('Page', 'Runtime', 'Network', 'Log'):
            self.call(f'{domain}.enable')

    def __enter__(self) -> 'Browser':
        return self

    def __exit__(self, *_):
        self.session = None
        try:
            self.call('Browser.close')
            self.process.wait(10)
        except (RuntimeError, OSError, subprocess.TimeoutExpired):
            self.process.kill()
            self.process.wait()
        self.out.close()
        os.close(self.into)
        shutil.rmtree(self.folder, ignore_errors=True)

    def call(self, method: str, **words) -> Dict[str, Any]:
        """Calls a method of the protocol, and gives its result; events that come before it are kept."""
        self.last += 1
        message = {'id': self.last, 'method': method, 'params': words}
        if self.session:
            message['sessionId'] = self.session
        self.out.write(json.dumps(message).encode() + b'\0')
        while True:
            answer = self.receive()
            if answer.get('id') == self.last:
                if 'error' in answer:
                    raise RuntimeError(f'{method}: {answer["error"]["message"]}')
                return answer['result']

    def receive(self) -> Dict[str, Any]:
        while b'\0' not in self.heard:
            piece = os.read(self.into, 1 << 16)
            if not piece:
                raise RuntimeError('the browser has ended')
            self.heard += piece
        message, _, self.heard = self.heard.partition(b'\0')
        answer = json.loads(message)
        if 'method' in answer:
            self.events.append(answer)
        return answer

    def named(self, event: str) -> List[Dict[str, Any]]:
        """The events of this name since the page was opened."""
        return [each['params'] for each in self.events if each['method'] == event]

    def open(self, path: str, mark: str = '') -> None:
        """Opens a file, with a mark after its address, and waits until it is there."""
        self.call('Page.navigate', url='about:blank')
        self.events = []
        self.call('Page.navigate', url=f'file://{os.path.abspath(path)}{mark}')
        while not self.named('Page.loadEventFired'):
            self.receive()
        self.value('new Promise(done => requestAnimationFrame(() => requestAnimationFrame(() => done(1))))')

    def value(self, expression: str) -> Any:
        """What an expression of the page gives; its promise is waited for."""
        answer = self.call('Runtime.evaluate', expression=expression, returnByValue=True, awaitPromise=True)
        if 'exceptionDetails' in answer:
            raise RuntimeError(answer['exceptionDetails'].get('exception', {}).get('description', 'the page threw'))
        return answer['result'].get('value')

    def click(self, selector: str) -> None:
        """Presses and releases the mouse at the middle of the element that the selector finds."""
        left, top = self.value(f'(() => {{ const box = document.querySelector({json.dumps(selector)}).getBoundingClientRect();'
                               'return [box.left + box.width / 2, box.top + box.height / 2]; })()')
        for kind in ('mousePressed', 'mouseReleased'):
            self.call('Input.dispatchMouseEvent', type=kind, x=left, y=top, button='left', clickCount=1)

    def press(self, key: str, shift: bool = False) -> None:
        for kind in ('rawKeyDown', 'keyUp'):
            self.call('Input.dispatchKeyEvent', type=kind, key=key, code=key, windowsVirtualKeyCode=CODES[key],
                      modifiers=8 if shift else 0)

    def resize(self, width: int, height: int, dark: bool = False, scale: float = 1) -> None:
        """Gives the page a size, and the colours that its reader prefers."""
        self.call('Emulation.setDeviceMetricsOverride', width=width, height=height, deviceScaleFactor=scale, mobile=False)
        self.call('Emulation.setEmulatedMedia', features=[{'name': 'prefers-color-scheme', 'value': 'dark' if dark else 'light'}])

    def screenshot(self, path: str, selector: str = 'html') -> None:
        """Writes a picture of the element that the selector finds, with a margin, into a file."""
        left, top, width, height = self.value(
            f'(() => {{ const box = document.querySelector({json.dumps(selector)}).getBoundingClientRect();'
            'return [box.left, box.top, box.width, box.height]; })()')
        margin = 0 if selector == 'html' else 12
        clip = {'x': left - margin, 'y': top - margin, 'width': width + 2 * margin, 'height': height + 2 * margin, 'scale': 1}
        shot = self.call('Page.captureScreenshot', format='png', captureBeyondViewport=True, clip=clip)
        with open(path, 'wb') as file:
            file.write(base64.b64decode(shot['data']))
