"""A headless Chromium, driven over a pipe by the standard library alone."""
import base64
import json
import os
import shutil
import subprocess
import tempfile
import time


CODES = {'Tab': 9, 'Enter': 13, 'Escape': 27, ' ': 32, 'End': 35, 'Home': 36, 'ArrowLeft': 37, 'ArrowUp': 38, 'ArrowRight': 39, 'ArrowDown': 40}


def found():
    return next(filter(None, map(shutil.which, ('chromium', 'chromium-browser', 'google-chrome'))), None)


class Browser:
    """A browser with one page. `messages` has what the page writes on its console, and its exceptions."""

    def __init__(self, program):
        self.profile = tempfile.TemporaryDirectory(prefix='page-check-')
        to_read, self.to_write = os.pipe()
        from_read, from_write = os.pipe()
        words = [program, '--headless', '--no-sandbox', '--disable-gpu', '--hide-scrollbars', '--no-first-run', '--disable-extensions',
                 '--disable-background-networking', '--disable-dev-shm-usage', f'--user-data-dir={self.profile.name}',
                 '--remote-debugging-pipe', 'about:blank']
        # The browser reads commands from descriptor 3 and writes replies to 4. Not every sh can copy a descriptor above 9.
        self.process = subprocess.Popen(['bash', '-c', f'exec 3<&{to_read} 4>&{from_write} "$@"', 'bash', *words],
                                        pass_fds=(to_read, from_write), stdout=subprocess.DEVNULL, stderr=subprocess.DEVNULL)
        os.close(to_read)
        os.close(from_write)
        self.replies = os.fdopen(from_read, 'rb', buffering=0)
        self.rest, self.number, self.messages, self.session = b'', 0, [], None
        targets = self.call('Target.getTargets')['targetInfos']
        page = next(target['targetId'] for target in targets if target['type'] == 'page')
        self.session = self.call('Target.attachToTarget', targetId=page, flatten=True)['sessionId']
        for domain in ('Page', 'Runtime', 'Log'):
            self.call(domain + '.enable')

    def __enter__(self):
        return self

    def __exit__(self, *_):
        try:
            self.session = None
            self.call('Browser.close')
            self.process.wait(10)
        except (OSError, EOFError, subprocess.TimeoutExpired):
            self.process.kill()
            self.process.wait()
        self.profile.cleanup()

    def read(self):
        while b'\0' not in self.rest:
            part = self.replies.read(1 << 20)
            if not part:
                raise EOFError('the browser has ended')
            self.rest += part
        text, self.rest = self.rest.split(b'\0', 1)
        message = json.loads(text)
        method = message.get('method')
        if method == 'Runtime.consoleAPICalled':
            self.messages.append('console: ' + ' '.join(str(item.get('value')) for item in message['params']['args']))
        elif method == 'Runtime.exceptionThrown':
            details = message['params']['exceptionDetails']
            self.messages.append('exception: ' + details.get('exception', {}).get('description', details['text']))
        elif method == 'Log.entryAdded':
            self.messages.append('log: ' + message['params']['entry']['text'])
        return message

    def call(self, method, **params):
        self.number += 1
        command = {'id': self.number, 'method': method, 'params': params}
        if self.session:
            command['sessionId'] = self.session
        os.write(self.to_write, json.dumps(command).encode() + b'\0')
        while True:
            message = self.read()
            if message.get('id') == self.number:
                if 'error' in message:
                    raise RuntimeError(f'{method}: {message["error"]}')
                return message['result']

    def open(self, path, fragment=''):
        self.go(f'file://{path}{fragment}')

    def go(self, address):
        self.call('Page.navigate', url='about:blank')
        self.call('Page.navigate', url=address)
        # The blank page may still report that it is complete, so look at the address too.
        self.wait("location.protocol !== 'about:' && document.readyState === 'complete'", f'{address} was not opened')

    def wait(self, script, fault):
        """Waits until the value of the script is true. While a page is loaded, what the script names may not be there yet."""
        end, why = time.monotonic() + 30, None
        while True:
            try:
                if self.value(script):
                    return
            except RuntimeError as error:
                why = error
            if time.monotonic() > end:
                raise TimeoutError(f'{fault}: timed out') from why
            time.sleep(0.02)

    def value(self, script):
        result = self.call('Runtime.evaluate', expression=script, returnByValue=True, awaitPromise=True)
        if 'exceptionDetails' in result:
            details = result['exceptionDetails']
            raise RuntimeError(details.get('exception', {}).get('description', details['text']))
        return result['result'].get('value')

    def press(self, key, shift=False, ctrl=False):
        # Enter and the space act on a button only if they come with their text, and what the browser does by itself needs codes.
        code, text = CODES.get(key, 0), {'text': chr(CODES[key])} if key in ('Enter', ' ') else {}
        for kind, more in (('keyDown', text), ('keyUp', {})):
            self.call('Input.dispatchKeyEvent', type=kind, key=key, modifiers=8 * shift + 2 * ctrl, windowsVirtualKeyCode=code, **more)

    def type(self, text):
        self.call('Input.insertText', text=text)

    def mouse(self, kind, x, y, **more):
        self.call('Input.dispatchMouseEvent', type=kind, x=x, y=y, **more)

    def click(self, x, y, shift=False):
        for kind in ('mousePressed', 'mouseReleased'):
            self.mouse(kind, x, y, button='left', buttons=1, clickCount=1, modifiers=8 * shift)

    def drag(self, begin, end):
        self.mouse('mousePressed', *begin, button='left', buttons=1, clickCount=1)
        for part in (0.3, 0.7, 1):
            self.mouse('mouseMoved', *(a + part * (b - a) for a, b in zip(begin, end)), button='left', buttons=1)
        self.mouse('mouseReleased', *end, button='left', buttons=0, clickCount=1)

    def touch(self, *steps):
        # Each step has the places of the fingers.
        self.call('Emulation.setTouchEmulationEnabled', enabled=True, maxTouchPoints=2)
        for kind, fingers in zip(('touchStart', *['touchMove'] * (len(steps) - 1)), steps):
            self.call('Input.dispatchTouchEvent', type=kind, touchPoints=[{'x': x, 'y': y, 'id': number} for number, (x, y) in enumerate(fingers)])
        self.call('Input.dispatchTouchEvent', type='touchEnd', touchPoints=[])
        self.call('Emulation.setTouchEmulationEnabled', enabled=False)

    def tap(self, x, y):
        self.touch([(x, y)])

    def screen(self, width, height, dark, zoom=1):
        self.call('Emulation.setDeviceMetricsOverride', width=width, height=height, deviceScaleFactor=zoom, mobile=min(width, height) < 600)
        self.call('Emulation.setEmulatedMedia', features=[{'name': 'prefers-color-scheme', 'value': 'dark' if dark else 'light'}])

    def screenshot(self, path, width, height, dark, zoom=1):
        self.screen(width, height, dark, zoom)
        data = self.call('Page.captureScreenshot', format='png')['data']
        with open(path, 'wb') as file:
            file.write(base64.b64decode(data))
