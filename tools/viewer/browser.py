"""Drives a headless Chromium over its debugging pipe: opens pages, runs scripts in them, sends keys and the mouse."""
import base64
import fcntl
import json
import os
import select
import shutil
import subprocess
import tempfile
import time

NAMES = ('chromium', 'chromium-browser', 'google-chrome', 'chrome')
# No answer takes as many seconds.
PATIENCE = 120
KEY_CODES = {'ArrowLeft': 37, 'ArrowUp': 38, 'ArrowRight': 39, 'ArrowDown': 40, 'Home': 36, 'End': 35, 'Escape': 27, 'Enter': 13, ' ': 32}


def found():
    """The browser's path, or None."""
    return next((it for it in map(shutil.which, NAMES) if it), None)


class Browser:
    """A browser without a window, with one page."""

    def __init__(self, width=1280, height=800):
        self.folder = tempfile.TemporaryDirectory(ignore_cleanup_errors=True)
        to_read, self.to = os.pipe()
        self.back, to_write = os.pipe()

        def prepare():
            # The browser reads from 3 and writes to 4.
            held = [fcntl.fcntl(it, fcntl.F_DUPFD, 10) for it in (to_read, to_write)]
            for it, number in zip(held, (3, 4)):
                os.dup2(it, number)

        words = [found(), '--headless=new', '--remote-debugging-pipe', f'--user-data-dir={self.folder.name}', '--no-sandbox', '--disable-gpu',
                 '--disable-dev-shm-usage', '--no-first-run', '--hide-scrollbars', '--force-color-profile=srgb', f'--window-size={width},{height}']
        self.child = subprocess.Popen(words, stdin=subprocess.DEVNULL, stdout=subprocess.DEVNULL, stderr=subprocess.DEVNULL,
                                      preexec_fn=prepare, pass_fds=(3, 4))
        os.close(to_read)
        os.close(to_write)
        self.held, self.number, self.session = b'', 0, None
        # What went wrong in the page: errors on its console, exceptions that nobody caught, things that it asked for.
        self.errors = []
        target = self.ask('Target.createTarget', url='about:blank')['targetId']
        self.session = self.ask('Target.attachToTarget', targetId=target, flatten=True)['sessionId']
        for name in ('Page', 'Runtime', 'Log', 'Network'):
            self.ask(f'{name}.enable')
        self.resize(width, height)

    def __enter__(self):
        return self

    def __exit__(self, *_):
        self.session = None
        try:
            self.ask('Browser.close')
            self.child.wait(10)
        except (OSError, RuntimeError, subprocess.TimeoutExpired):
            self.child.kill()
            self.child.wait()
        os.close(self.to)
        os.close(self.back)
        self.folder.cleanup()

    # Messages

    def ask(self, method, **given):
        self.number += 1
        message = {'id': self.number, 'method': method, 'params': given}
        if self.session:
            message['sessionId'] = self.session
        left = json.dumps(message).encode() + b'\0'
        while left:
            left = left[os.write(self.to, left):]
        until = time.monotonic() + PATIENCE
        while True:
            answer = self.message(until)
            if answer.get('id') == self.number:
                if 'error' in answer:
                    raise RuntimeError(f'{method}: {answer["error"]["message"]}')
                return answer['result']

    def message(self, until):
        """The next message; what it says of errors is kept."""
        while b'\0' not in self.held:
            if not select.select([self.back], [], [], max(0, until - time.monotonic()))[0]:
                raise RuntimeError('the browser does not answer')
            more = os.read(self.back, 1 << 20)
            if not more:
                raise RuntimeError('the browser has ended')
            self.held += more
        text, _, self.held = self.held.partition(b'\0')
        answer = json.loads(text)
        name, given = answer.get('method'), answer.get('params', {})
        if name == 'Runtime.exceptionThrown':
            details = given['exceptionDetails']
            self.errors.append(details.get('exception', {}).get('description', details['text']))
        elif name == 'Runtime.consoleAPICalled' and given['type'] in ('error', 'warning', 'assert'):
            self.errors.append(' '.join(str(it.get('value', it.get('description'))) for it in given['args']))
        elif name == 'Log.entryAdded' and given['entry']['level'] in ('error', 'warning'):
            self.errors.append(given['entry']['text'])
        elif name == 'Network.requestWillBeSent' and not given['request']['url'].startswith(('file:', 'about:', 'blob:', 'data:')):
            self.errors.append(f'asked for {given["request"]["url"]}')
        return answer

    def processor(self):
        """The processor seconds of the browser's processes so far."""
        parents, used = {}, {}
        for it in os.listdir('/proc'):
            try:
                with open(f'/proc/{it}/stat') as stat:
                    fields = stat.read().rpartition(')')[2].split()
                parents[int(it)], used[int(it)] = int(fields[1]), int(fields[11]) + int(fields[12])
            except (OSError, ValueError):
                pass

        def is_ours(process):
            while process not in (None, self.child.pid):
                process = parents.get(process)
            return process is not None

        return sum(it for process, it in used.items() if is_ours(process)) / os.sysconf('SC_CLK_TCK')

    # Pages

    def resize(self, width, height, scale=1):
        self.ask('Emulation.setDeviceMetricsOverride', width=width, height=height, deviceScaleFactor=scale, mobile=False)

    def prefer(self, **features):
        """What the system prefers, as prefers_color_scheme='dark'."""
        self.ask('Emulation.setEmulatedMedia', features=[{'name': name.replace('_', '-'), 'value': value} for name, value in features.items()])

    def open(self, path):
        """Opens a file; returns the seconds until its script says that it is there, and what they took of processors."""
        self.errors = []
        # By way of an empty page: an address that differs after # alone would not be opened anew.
        self.ask('Page.navigate', url='about:blank')
        begun, used = time.monotonic(), self.processor()
        self.ask('Page.navigate', url=f'file://{path}')
        while not self.run('Boolean(window.lockstep)'):
            if time.monotonic() - begun > PATIENCE or self.errors:
                raise RuntimeError(f'the page does not open: {self.errors}')
            time.sleep(0.02)
        return time.monotonic() - begun, self.processor() - used

    def run(self, script):
        """The value of an expression in the page."""
        answer = self.ask('Runtime.evaluate', expression=script, returnByValue=True, awaitPromise=True)
        if 'exceptionDetails' in answer:
            raise RuntimeError(answer['exceptionDetails'].get('exception', {}).get('description', 'an exception'))
        return answer['result'].get('value')

    def settle(self):
        """Waits until what was asked for is drawn."""
        self.run('new Promise((done) => requestAnimationFrame(() => setTimeout(done)))')

    def key(self, key, code=None, **held):
        given = {'key': key, 'code': code or key, 'windowsVirtualKeyCode': KEY_CODES.get(key, ord(key[0].upper()))}
        # 1 is Alt, 8 is Shift.
        given['modifiers'] = 8 * bool(held.get('shift')) + bool(held.get('alt'))
        text = {'text': key} if len(key) == 1 else {}
        self.ask('Input.dispatchKeyEvent', type='keyDown', **given, **text)
        self.ask('Input.dispatchKeyEvent', type='keyUp', **given)
        self.settle()

    def mouse(self, kind, x, y, **more):
        self.ask('Input.dispatchMouseEvent', type=kind, x=x, y=y, **{'button': 'left', 'buttons': 1, 'clickCount': 1, **more})

    def click(self, x, y):
        self.mouse('mousePressed', x, y)
        self.mouse('mouseReleased', x, y, buttons=0)
        self.settle()

    def drag(self, *places):
        self.mouse('mousePressed', *places[0])
        for place in places[1:]:
            self.mouse('mouseMoved', *place)
        self.mouse('mouseReleased', *places[-1], buttons=0)
        self.settle()

    def box(self, chosen):
        """The left, the top, the width and the height of an element."""
        return self.run(f'(({{ x, y, width, height }}) => [x, y, width, height])(document.querySelector({json.dumps(chosen)}).getBoundingClientRect())')

    def picture(self, path):
        with open(path, 'wb') as it:
            it.write(base64.b64decode(self.ask('Page.captureScreenshot', format='png')['data']))
