"""Chromium without a window, driven over its debugging pipe: no package is wanted."""
import base64
import json
import os
import pathlib
import select
import shutil
import subprocess
import tempfile
import time

KEYS = {'ArrowRight': 39, 'ArrowLeft': 37, 'ArrowUp': 38, 'ArrowDown': 40, 'Home': 36, 'End': 35, 'Tab': 9, 'Enter': 13, 'Escape': 27, ' ': 32}


class Wrong(Exception):
    """What a browser answered in place of a result."""


class Browser:
    """One browser with a home of its own, which is left empty behind."""

    def __init__(self, program='chromium'):
        self.home = tempfile.mkdtemp(prefix='page-')
        (to_read, self.to), (self.out, from_write) = os.pipe(), os.pipe()

        def as_three_and_four():
            a, b = os.dup(to_read), os.dup(from_write)
            os.dup2(a, 3)
            os.dup2(b, 4)
        self.process = subprocess.Popen(
            [program, '--headless=new', '--no-sandbox', '--disable-gpu', '--remote-debugging-pipe', '--hide-scrollbars', '--no-first-run',
             '--user-data-dir=' + self.home, 'about:blank'], stdin=subprocess.DEVNULL, stdout=subprocess.DEVNULL, stderr=subprocess.DEVNULL,
            preexec_fn=as_three_and_four, close_fds=False)
        os.close(to_read)
        os.close(from_write)
        self.rest, self.number, self.events = b'', 0, []

    def read(self, until):
        """The next message, or None where there is none till then."""
        while b'\0' not in self.rest:
            left = until - time.monotonic()
            if left <= 0 or not select.select([self.out], [], [], left)[0]:
                return None
            got = os.read(self.out, 1 << 20)
            if not got:
                raise Wrong('the browser ended')
            self.rest += got
        message, self.rest = self.rest.split(b'\0', 1)
        return json.loads(message)

    def call(self, method, params=None, session=None, seconds=60):
        self.number += 1
        message = {'id': self.number, 'method': method, 'params': params or {}}
        if session:
            message['sessionId'] = session
        os.write(self.to, json.dumps(message).encode() + b'\0')
        until = time.monotonic() + seconds
        while True:
            got = self.read(until)
            if got is None:
                raise Wrong('no answer to ' + method)
            if got.get('id') == self.number:
                if 'error' in got:
                    raise Wrong(method + ' ' + got['error']['message'])
                return got['result']
            self.events.append(got)

    def wait(self, method, session, seconds=30):
        """The next event of a kind, which may have come already."""
        until = time.monotonic() + seconds
        while True:
            for event in self.events:
                if event.get('method') == method and event.get('sessionId') == session:
                    self.events.remove(event)
                    return event
            got = self.read(until)
            if got is None:
                raise Wrong('no ' + method)
            self.events.append(got)

    def close(self):
        try:
            self.call('Browser.close', seconds=5)
        except (Wrong, OSError):
            pass
        try:
            self.process.wait(10)
        except subprocess.TimeoutExpired:
            self.process.kill()
        shutil.rmtree(self.home, ignore_errors=True)

    def __enter__(self):
        return self

    def __exit__(self, *_):
        self.close()


class Tab:
    """A page in a window of some size."""

    def __init__(self, browser, path, width=1024, height=768, dark=False, reduced=False, forced=False, scripts=True):
        self.browser, self.width, self.height = browser, width, height
        self.target = browser.call('Target.createTarget', {'url': 'about:blank'})['targetId']
        self.session = browser.call('Target.attachToTarget', {'targetId': self.target, 'flatten': True})['sessionId']
        for domain in ('Runtime', 'Log', 'Page', 'Network'):
            self.send(domain + '.enable')
        self.size(width, height)
        self.send('Emulation.setEmulatedMedia', {'features': [
            {'name': 'prefers-color-scheme', 'value': 'dark' if dark else 'light'},
            {'name': 'prefers-reduced-motion', 'value': 'reduce' if reduced else 'no-preference'},
            {'name': 'forced-colors', 'value': 'active' if forced else 'none'}]})
        if not scripts:
            self.send('Emulation.setScriptExecutionDisabled', {'value': True})
        begun = time.monotonic()
        self.send('Page.navigate', {'url': pathlib.Path(path).resolve().as_uri()})
        browser.wait('Page.loadEventFired', self.session)
        self.took = time.monotonic() - begun

    def send(self, method, params=None):
        return self.browser.call(method, params, self.session)

    def size(self, width, height):
        """Makes the page so wide and high. Gives how wide it is."""
        self.send('Emulation.setDeviceMetricsOverride', {'width': width, 'height': height, 'deviceScaleFactor': 1, 'mobile': False})
        return width

    def run(self, expression):
        """What an expression is in the page."""
        got = self.send('Runtime.evaluate', {'expression': expression, 'awaitPromise': True, 'returnByValue': True})
        if 'exceptionDetails' in got:
            details = got['exceptionDetails']
            raise Wrong(details.get('exception', {}).get('description') or details['text'])
        return got['result'].get('value')

    def key(self, *keys):
        for k in keys:
            shift, name = k.startswith('Shift+') and 8 or 0, k.removeprefix('Shift+')
            event = {'key': name, 'code': {' ': 'Space', '/': 'Slash'}.get(name, name), 'modifiers': shift,
                     'windowsVirtualKeyCode': KEYS.get(name) or ord(name.upper()[0])}
            text = {'text': '\r' if name == 'Enter' else name} if len(name) == 1 or name == 'Enter' else {}
            self.send('Input.dispatchKeyEvent', dict(event, type='keyDown', **text))
            self.send('Input.dispatchKeyEvent', dict(event, type='keyUp'))

    def controls(self):
        """The controls of the page, each by its role and its name for readers."""
        self.send('Accessibility.enable')
        nodes = self.send('Accessibility.getFullAXTree')['nodes']
        wanted = ('button', 'searchbox', 'textbox', 'combobox', 'slider', 'checkbox', 'link', 'region', 'img', 'table')
        found = [n for n in nodes if not n.get('ignored') and n.get('role', {}).get('value') in wanted]
        return [(n['role']['value'], n.get('name', {}).get('value')) for n in found]

    def said(self):
        """What the console, the log and the policy said, and what was asked for of the net."""
        self.run('1')
        found = []
        for event in [e for e in self.browser.events if e.get('sessionId') == self.session]:
            method, params = event['method'], event['params']
            if method == 'Runtime.consoleAPICalled':
                found.append('console %s %s' % (params['type'], [a.get('value', a.get('description')) for a in params['args']]))
            elif method == 'Runtime.exceptionThrown':
                found.append('exception ' + str(params['exceptionDetails'].get('exception', {}).get('description') or params['exceptionDetails']['text']))
            elif method == 'Log.entryAdded':
                found.append('log %s %s' % (params['entry']['level'], params['entry']['text']))
            elif method == 'Network.requestWillBeSent' and not params['request']['url'].startswith('file:'):
                found.append('request ' + params['request']['url'])
            elif method == 'Page.javascriptDialogOpening':
                found.append('dialog ' + params['message'])
        return found

    def shot(self, path, whole=False, most=5000):
        if whole:                                    # the whole page, in a window as high as it is: what sticks to a window would stand in the middle
            high = self.send('Page.getLayoutMetrics')['cssContentSize']['height']
            self.size(self.width, min(int(high) + 1, most))
            time.sleep(0.15)
        got = self.send('Page.captureScreenshot', {'format': 'png'})
        pathlib.Path(path).write_bytes(base64.b64decode(got['data']))
        if whole:
            self.size(self.width, self.height)

    def pdf(self, path):
        self.send('Emulation.setEmulatedMedia', {'features': []})
        got = self.send('Page.printToPDF', {'preferCSSPageSize': True, 'printBackground': True})
        pathlib.Path(path).write_bytes(base64.b64decode(got['data']))

    def close(self):
        self.browser.call('Target.closeTarget', {'targetId': self.target})

    def __enter__(self):
        return self

    def __exit__(self, *_):
        self.close()
