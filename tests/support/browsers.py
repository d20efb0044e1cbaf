"""Headless browsers of Debian's packages, driven as a person would: Chromium by the WebDriver of `chromedriver`, Firefox
by its own Marionette, which takes the same commands over a socket, since Debian has no `geckodriver`."""

import base64
import contextlib
import functools
import glob
import json
import os
import shutil
import socket
import subprocess
import sys
import tempfile
import time
import urllib.error
import urllib.request

from support.tables import TOP

sys.path[:0] = [os.path.join(TOP, 'examples', 'line')]

from board import free_port

ELEMENT = 'element-6066-11e4-a52e-4f735466cecf'
# What takes longer hangs, whatever else the machine does.
LONGEST = 300
# The middle of the part of an element that is in the window.
MIDDLE = """const it = document.querySelector(arguments[0]).getBoundingClientRect();
return [Math.round(it.left + it.width / 2), Math.round((Math.max(it.top, 0) + Math.min(it.bottom, innerHeight)) / 2)]"""
# Ends after two frames: in the first what an action changed gets its size, at which it may be drawn anew.
FRAMES = 'const done = arguments[arguments.length - 1]; requestAnimationFrame(() => requestAnimationFrame(() => done(true)))'
KEYS = {'down': '\ue015', 'up': '\ue013', 'left': '\ue012', 'right': '\ue014', 'home': '\ue011', 'end': '\ue010',
        'enter': '\ue007', 'tab': '\ue004', 'escape': '\ue00c'}


def seen(act):
    """An action after which the page is drawn before anything else is done: what is clicked or read meanwhile could become another."""
    @functools.wraps(act)
    def acted(browser, *given):
        act(browser, *given)
        browser.settle()
    return acted


class Browser:
    """What a person does with a page. Each way to a browser has `ask`."""

    def be_patient(self):
        """A script, or a page that opens, may take as long as other rows wait: by itself a browser ends scripts after 30 seconds, also one
        that waits for the page to do its work."""
        self.ask('POST', 'timeouts', 'WebDriver:SetTimeouts', {'script': 1000 * LONGEST, 'pageLoad': 1000 * LONGEST})

    def open(self, address):
        self.ask('POST', 'url', 'WebDriver:Navigate', {'url': address})

    def run(self, script, *given):
        """The value of a script that returns one."""
        return self.ask('POST', 'execute/sync', 'WebDriver:ExecuteScript', {'script': script, 'args': list(given)})

    def wait(self, script, *given):
        """The value of a script, as soon as it is true."""
        end = time.monotonic() + LONGEST
        while time.monotonic() < end:
            value = self.run(script, *given)
            if value:
                return value
            time.sleep(0.02)
        raise TimeoutError(script)

    def settle(self):
        """Waits until what was done is drawn."""
        with contextlib.suppress(RuntimeError):     # another page came
            self.ask('POST', 'execute/async', 'WebDriver:ExecuteAsyncScript', {'script': FRAMES, 'args': []})

    def find(self, selector):
        found = self.ask('POST', 'element', 'WebDriver:FindElement', {'using': 'css selector', 'value': selector})
        return found[ELEMENT]

    def find_all(self, selector):
        found = self.ask('POST', 'elements', 'WebDriver:FindElements', {'using': 'css selector', 'value': selector})
        return [one[ELEMENT] for one in found]

    def role(self, found):
        """The role of an element in the accessibility tree."""
        return self.ask('GET', 'element/%s/computedrole' % found, 'WebDriver:GetComputedRole', {'id': found})

    def label(self, found):
        """The name of an element in the accessibility tree."""
        return self.ask('GET', 'element/%s/computedlabel' % found, 'WebDriver:GetComputedLabel', {'id': found})

    @seen
    def press(self, key):
        """Presses a key with the focus where it is."""
        actions = [{'type': kind, 'value': KEYS[key]} for kind in ('keyDown', 'keyUp')]
        self.ask('POST', 'actions', 'WebDriver:PerformActions', {'actions': [{'type': 'key', 'id': 'keys', 'actions': actions}]})

    @seen
    def click(self, selector):
        found = self.find(selector)
        self.ask('POST', 'element/%s/click' % found, 'WebDriver:ElementClick', {'id': found})

    @seen
    def type(self, selector, text):
        found = self.find(selector)
        self.ask('POST', 'element/%s/value' % found, 'WebDriver:ElementSendKeys', {'id': found, 'text': text})

    @seen
    def point(self, selector):
        """Moves the pointer to the middle of an element."""
        move = {'type': 'pointerMove', 'duration': 0, 'x': 0, 'y': 0, 'origin': {ELEMENT: self.find(selector)}}
        pointer = {'type': 'pointer', 'id': 'mouse', 'parameters': {'pointerType': 'mouse'}, 'actions': [move]}
        self.ask('POST', 'actions', 'WebDriver:PerformActions', {'actions': [pointer]})

    @seen
    def turn_wheel(self, selector, by):
        """Turns the wheel over an element by this many pixels."""
        turn = {'type': 'scroll', 'duration': 0, 'x': 0, 'y': 0, 'deltaX': 0, 'deltaY': by,
                'origin': {ELEMENT: self.find(selector)}}
        self.ask('POST', 'actions', 'WebDriver:PerformActions', {'actions': [{'type': 'wheel', 'id': 'wheel', 'actions': [turn]}]})

    @seen
    def touch(self, selector, *fingers):
        """Moves fingers over an element at the same time: for each, the points that it goes through, counted from the middle
        of what is seen of the element."""
        middle = self.run(MIDDLE, selector)
        actions = []
        for number, points in enumerate(fingers):
            moves = [{'type': 'pointerMove', 'duration': 40 * (place > 0), 'origin': 'viewport', 'x': middle[0] + x, 'y': middle[1] + y}
                     for place, (x, y) in enumerate(points)]
            steps = moves[:1] + [{'type': 'pointerDown', 'button': 0}] + moves[1:]
            actions.append({'type': 'pointer', 'id': 'finger%d' % number, 'parameters': {'pointerType': 'touch'},
                            'actions': steps + [{'type': 'pointerUp', 'button': 0}]})
        self.ask('POST', 'actions', 'WebDriver:PerformActions', {'actions': actions})

    def printed(self):
        """The page on paper, as PDF."""
        return base64.b64decode(self.ask('POST', 'print', 'WebDriver:Print', {'background': True}))

    def used(self):
        """The seconds of a processor that its processes have used, of those that run."""
        below, parents, used = {self.process.pid}, {}, {}
        for path in glob.glob('/proc/[0-9]*/stat'):
            with contextlib.suppress(OSError), open(path, encoding='utf-8', errors='replace') as file:
                number, fields = int(path.split('/')[2]), file.read().rpartition(')')[2].split()
                parents[number], used[number] = int(fields[1]), int(fields[11]) + int(fields[12])
        while more := {one for one, parent in parents.items() if parent in below} - below:
            below |= more
        return sum(used[one] for one in below & used.keys()) / os.sysconf('SC_CLK_TCK')

    @seen
    def size(self, width, height):
        self.ask('POST', 'window/rect', 'WebDriver:SetWindowRect', {'width': width, 'height': height})

    def picture(self, path):
        """Writes what is seen to a file, as PNG."""
        with open(path, 'wb') as file:
            file.write(base64.b64decode(self.ask('GET', 'screenshot', 'WebDriver:TakeScreenshot', None, full=False)))


def as_soon_as_it_listens(call, *given, **more):
    """What a call to a browser gives that has just been started."""
    end = time.monotonic() + LONGEST
    while True:
        try:
            return call(*given, **more)
        except OSError:
            if time.monotonic() > end:
                raise
            time.sleep(0.1)


class Chromium(Browser):
    """Chromium, over HTTP."""

    name = 'Chromium'
    programs = ('chromium', 'chromedriver')

    def __init__(self, room):
        port = free_port()
        self.process = subprocess.Popen(['chromedriver', '--port=%d' % port], cwd=room, stdout=subprocess.DEVNULL,
                                        stderr=subprocess.DEVNULL)
        self.base = 'http://127.0.0.1:%d/session' % port
        options = ['--headless=new', '--disable-gpu', '--disable-dev-shm-usage', '--window-size=1280,900',
                   '--force-device-scale-factor=1', '--user-data-dir=' + os.path.join(room, 'profile')]
        if os.geteuid() == 0:
            options.append('--no-sandbox')
        wanted = {'browserName': 'chrome', 'goog:chromeOptions': {'binary': shutil.which('chromium'), 'args': options}}
        begun = as_soon_as_it_listens(self.sent, 'POST', self.base, {'capabilities': {'alwaysMatch': wanted}})
        self.base += '/' + begun['sessionId']
        self.be_patient()

    @staticmethod
    def sent(method, address, given):
        body = None if given is None else json.dumps(given).encode()
        request = urllib.request.Request(address, body, {'Content-Type': 'application/json'}, method=method)
        try:
            with urllib.request.urlopen(request, timeout=LONGEST) as answer:
                return json.load(answer)['value']
        except urllib.error.HTTPError as fault:
            raise RuntimeError(json.load(fault)['value']['message']) from None

    def ask(self, method, path, _, given, **_ignored):
        return self.sent(method, self.base + '/' + path, None if method == 'GET' else given)

    def end(self):
        with contextlib.suppress(OSError, RuntimeError):
            self.sent('DELETE', self.base, None)
        self.process.terminate()
        self.process.wait()


class Firefox(Browser):
    """Firefox, over the socket of Marionette: `LENGTH:[type, number, name, values]`."""

    name = 'Firefox'
    programs = ('firefox-esr',)

    def __init__(self, room):
        port = free_port()
        profile = os.path.join(room, 'profile')
        os.mkdir(profile)
        with open(os.path.join(profile, 'user.js'), 'w', encoding='ascii') as settings:
            settings.write('user_pref("marionette.port", %d);\nuser_pref("app.update.enabled", false);\n'
                           'user_pref("datareporting.policy.dataSubmissionEnabled", false);\n' % port)
        self.number = 0
        self.process = subprocess.Popen(
            ['firefox-esr', '--headless', '--marionette', '--no-remote', '--profile', profile, '--width', '1280',
             '--height', '900'], env=dict(os.environ, HOME=room, MOZ_HEADLESS='1'), stdout=subprocess.DEVNULL,
            stderr=subprocess.DEVNULL)
        self.socket = as_soon_as_it_listens(socket.create_connection, ('127.0.0.1', port), timeout=LONGEST)
        self.stream = self.socket.makefile('rb')
        self.message()
        self.ask(None, None, 'WebDriver:NewSession', {})
        self.be_patient()

    def message(self):
        length = b''
        while not length.endswith(b':'):
            octet = self.stream.read(1)
            if not octet:
                raise RuntimeError('Firefox ended')
            length += octet
        return json.loads(self.stream.read(int(length[:-1])))

    def ask(self, _method, _path, name, given, **more):
        self.number += 1
        text = json.dumps([0, self.number, name, dict(given or {}, **more)]).encode()
        self.socket.sendall(b'%d:%s' % (len(text), text))
        _, _, fault, value = self.message()
        if fault:
            raise RuntimeError(fault['message'])
        return value['value'] if isinstance(value, dict) and set(value) == {'value'} else value

    def end(self):
        with contextlib.suppress(OSError, RuntimeError):
            self.ask(None, None, 'Marionette:Quit', {})
        self.socket.close()
        self.process.terminate()
        self.process.wait()


@contextlib.contextmanager
def running(kind):
    """A browser that runs for a while."""
    with tempfile.TemporaryDirectory(ignore_cleanup_errors=True) as room:
        browser = kind(room)
        try:
            yield browser
        finally:
            browser.end()


def browsers(check):
    """Returns the browsers in which a check is run: with `--all` each that is installed, otherwise the first."""
    installed = [kind for kind in (Chromium, Firefox) if all(map(shutil.which, kind.programs))]
    for kind in (Chromium, Firefox):
        if kind not in installed:
            check.skip(kind.name, 'no %s here' % ' or no '.join(kind.programs))
        elif kind is installed[0] or check.whole(kind.name):
            yield kind
