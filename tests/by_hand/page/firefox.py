"""Firefox without a window, driven over its own protocol (Marionette, a socket of this machine): no package is wanted."""
import base64
import json
import os
import pathlib
import shutil
import socket
import subprocess
import tempfile
import time

from browser import Wrong

KEYS = {'Tab': '\ue004', 'Enter': '\ue007', 'Escape': '\ue00c', 'End': '\ue010', 'Home': '\ue011', 'ArrowLeft': '\ue012', 'ArrowUp': '\ue013', 'ArrowRight': '\ue014',
        'ArrowDown': '\ue015'}
SHIFT = '\ue008'
ELEMENT = 'element-6066-11e4-a52e-4f735466cecf'
NARROWEST = 500         # Firefox makes no window narrower than about this


class Browser:
    """One browser with a home of its own, which is left empty behind."""

    def __init__(self, program='firefox-esr'):
        self.home = tempfile.mkdtemp(prefix='page-')
        with socket.socket() as any_port:
            any_port.bind(('127.0.0.1', 0))
            port = any_port.getsockname()[1]
        # nothing is asked for of the net, and only a page's own messages are on the console
        prefs = {'marionette.port': port, 'browser.shell.checkDefaultBrowser': False, 'datareporting.policy.dataSubmissionEnabled': False, 'app.update.enabled': False,
                 'toolkit.telemetry.enabled': False, 'browser.startup.homepage_override.mstone': 'ignore'}
        with open(os.path.join(self.home, 'user.js'), 'w', encoding='ascii') as f:
            f.writelines('user_pref(%s, %s);\n' % (json.dumps(name), json.dumps(value)) for name, value in prefs.items())
        self.process = subprocess.Popen([program, '--headless', '--marionette', '--remote-allow-system-access', '--no-remote', '--profile', self.home], stdin=subprocess.DEVNULL, stdout=subprocess.DEVNULL,
                                        stderr=subprocess.DEVNULL, env={**os.environ, 'HOME': self.home, 'MOZ_HEADLESS': '1'})
        self.number, self.rest = 0, b''
        self.socket = self.reach(port, time.monotonic() + 60)
        self.message()
        self.call('WebDriver:NewSession', {'capabilities': {'alwaysMatch': {'acceptInsecureCerts': False}}})

    def reach(self, port, until):
        while True:
            try:
                return socket.create_connection(('127.0.0.1', port), 60)
            except OSError:
                if time.monotonic() > until:
                    raise Wrong('the browser does not answer') from None
                time.sleep(0.2)

    def message(self):
        """The next message: its length in digits, a colon, and JSON."""
        while b':' not in self.rest or len(self.rest.split(b':', 1)[1]) < int(self.rest.split(b':', 1)[0]):
            got = self.socket.recv(1 << 20)
            if not got:
                raise Wrong('the browser ended')
            self.rest += got
        length, rest = self.rest.split(b':', 1)
        self.rest = rest[int(length):]
        return json.loads(rest[:int(length)])

    def call(self, method, params=None):
        self.number += 1
        text = json.dumps([0, self.number, method, params or {}]).encode()
        self.socket.sendall(b'%d:%s' % (len(text), text))
        _, number, error, result = self.message()
        if error:
            raise Wrong(method + ' ' + error['message'])
        return result['value'] if isinstance(result, dict) and set(result) == {'value'} else result

    def in_chrome(self, script, *arguments):
        """What a script gives that runs in the browser itself and not in a page."""
        self.call('Marionette:SetContext', {'value': 'chrome'})
        try:
            return self.call('WebDriver:ExecuteScript', {'script': script, 'args': arguments})
        finally:
            self.call('Marionette:SetContext', {'value': 'content'})

    def close(self):
        try:
            self.call('Marionette:Quit', {'flags': ['eForceQuit']})
        except (Wrong, OSError):
            pass
        try:
            self.process.wait(10)
        except subprocess.TimeoutExpired:
            self.process.kill()
        shutil.rmtree(self.home, ignore_errors=True)

    def __enter__(self):
        return self

    def __exit__(self, *_):
        self.close()


class Tab:
    """A page in the one window, of some size."""

    def __init__(self, browser, path, width=1024, height=768, dark=False, reduced=False, forced=False, scripts=True):
        self.browser, self.width, self.height, self.name = browser, width, height, pathlib.Path(path).name
        browser.in_chrome('''const [dark, reduced, scripts] = arguments;
            Services.prefs.setIntPref("layout.css.prefers-color-scheme.content-override", dark ? 0 : 1);
            Services.prefs.setIntPref("ui.prefersReducedMotion", reduced ? 1 : 0);
            Services.prefs.setBoolPref("javascript.enabled", scripts);
            Services.console.reset();''', dark, reduced, scripts)
        self.size(width, height)
        begun = time.monotonic()
        browser.call('WebDriver:Navigate', {'url': pathlib.Path(path).resolve().as_uri()})
        self.took = time.monotonic() - begun

    def size(self, width, height):
        """Makes the page so wide and high, or as narrow as a window can be. Gives how wide it is."""
        width = max(width, NARROWEST)
        rect = self.browser.call('WebDriver:SetWindowRect', {'width': width, 'height': height})
        for _ in range(3):
            inner = self.browser.call('WebDriver:ExecuteScript', {'script': 'return [window.innerWidth, window.innerHeight]', 'args': []})
            if inner == [width, height]:
                break
            rect = self.browser.call('WebDriver:SetWindowRect', {'width': rect['width'] + width - inner[0], 'height': rect['height'] + height - inner[1]})
        return width

    def run(self, expression):
        """What an expression is in the page."""
        script = 'const done = arguments[0]; Promise.resolve().then(() => (%s)).then(v => done([0, v === undefined ? null : v]), e => done([1, String(e)]));' % expression
        failed, value = self.browser.call('WebDriver:ExecuteAsyncScript', {'script': script, 'args': [], 'scriptTimeout': 240000, 'sandbox': None, 'newSandbox': False})
        if failed:
            raise Wrong(value)
        return value

    def key(self, *keys):
        for k in keys:
            name = KEYS.get(k.removeprefix('Shift+'), k.removeprefix('Shift+'))
            down = [{'type': 'keyDown', 'value': v} for v in ([SHIFT] if k.startswith('Shift+') else []) + [name]]
            up = [dict(action, type='keyUp') for action in reversed(down)]
            self.browser.call('WebDriver:PerformActions', {'actions': [{'type': 'key', 'id': 'keys', 'actions': down + up}]})

    def controls(self):
        """The controls of the page, each by its role and its name for readers."""
        wanted = 'button, input, select, a[href], svg[role], .node, [role=region], [role=img]'
        found = self.browser.call('WebDriver:FindElements', {'using': 'css selector', 'value': wanted})
        seen = [e for e in found if self.browser.call('WebDriver:IsElementDisplayed', {'id': e[ELEMENT]})]
        return [(self.browser.call('WebDriver:GetComputedRole', {'id': e[ELEMENT]}), self.browser.call('WebDriver:GetComputedLabel', {'id': e[ELEMENT]})) for e in seen]

    def said(self):
        """What the console says of this page: errors, warnings, and what its policy refused."""
        return self.browser.in_chrome('''const [name] = arguments;
            return Services.console.getMessageArray().filter(m => String(m.sourceName ?? "").endsWith(name) || String(m.message).includes(name)).map(m => String(m.message));''', self.name)

    def shot(self, path, whole=False):
        got = self.browser.call('WebDriver:TakeScreenshot', {'full': whole, 'hash': False, 'id': None})
        pathlib.Path(path).write_bytes(base64.b64decode(got))

    def pdf(self, path):
        got = self.browser.call('WebDriver:Print', {'background': True, 'page': {'width': 21.0, 'height': 29.7}})
        pathlib.Path(path).write_bytes(base64.b64decode(got))

    def close(self):
        self.browser.call('WebDriver:Navigate', {'url': 'about:blank'})

    def __enter__(self):
        return self

    def __exit__(self, *_):
        self.close()
