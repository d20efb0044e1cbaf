"""The page in a browser: how an example, a file or a pasted text is opened in it, and what is read from it."""

import base64
import hashlib
import os
import re
import subprocess

from support.tables import CAN_PROVE, TOP

PAGE = os.path.join(TOP, 'fio2070.html' if CAN_PROVE else 'dist/fio2070.html')
SEEN_TEXT = 'const it = document.querySelector(arguments[0]); return it && it.checkVisibility() ? it.textContent : ""'
CLOSE = 'delete document.documentElement.dataset.opened'
OPENED = 'return document.documentElement.dataset.opened === arguments[0]'
# The text that the button saves, caught on its way to a file.
SAVE = '''const made = URL.createObjectURL; window.saved = null;
URL.createObjectURL = (blob) => { blob.text().then((text) => { window.saved = text; }); return made.call(URL, blob); };
HTMLAnchorElement.prototype.click = () => {};
document.getElementById(arguments[0]).click(); URL.createObjectURL = made;'''
CELLS = '''return [...document.querySelectorAll(".line")].map((row) => [...row.children].map((cell) => cell.textContent))'''
# Opens texts one after the other, as files that were chosen: `window.tables` has the cells of each.
OPEN_ALL = '''window.tables = null; const [texts] = arguments, input = document.getElementById("file"), root = document.documentElement;
const opened = async (text) => { delete root.dataset.opened; const chosen = new DataTransfer(); chosen.items.add(new File([text], "log.txt"));
    input.files = chosen.files; input.dispatchEvent(new Event("change"));
    while (!root.dataset.opened) await new Promise((done) => setTimeout(done)); return cells(); };
const cells = () => { %s; };
(async () => { const tables = []; for (const text of texts) tables.push(await opened(text)); window.tables = tables; })();''' % CELLS
# Drops a text on the page, as text or, if it has a name, as a file.
DROP = '''const [text, name] = arguments, dropped = new DataTransfer();
if (name) dropped.items.add(new File([text], name)); else dropped.setData("text/plain", text);
document.querySelector(".drop").dispatchEvent(new DragEvent("drop", { bubbles: true, cancelable: true, dataTransfer: dropped }));'''
# What work of the page in slices makes, at once.
FINISHED = 'const finished = (work) => { let next = work.next(); while (!next.done) next = work.next(); return next.value; };'
# Calls what one more script adds, `window.judged`; its result is `window.found`.
RUN_ADDED = '''const [added, ...given] = arguments, script = document.createElement("script"); script.textContent = added;
document.head.append(script); window.found = null; window.judged(...given).then((found) => { window.found = found; }, (fault) => { window.found = String(fault); });'''
# Directions as rows show them.
ARROWS = {'>': 'CPU → module', '<': 'module → CPU'}
# The first and the last millisecond that are seen.
RANGE = 'return document.getElementById("range").textContent.match(/-?\\d+/g).slice(0, 2).map(Number)'


# Chooses, by the identifiers of controls, how the next log is written, or where it was taken.
CHOOSE = '''for (const [id, value] of Object.entries(arguments[0])) {
    const it = document.getElementById(id); it.value = value; it.dispatchEvent(new Event("change")); }'''


def scripts_in(page):
    """The texts of the page's scripts."""
    return re.findall('<script[^>]*>(.*?)</script>', page, re.S)


def script_hash(text):
    """The hash by which a policy names a script."""
    return base64.b64encode(hashlib.sha256(text.encode()).digest()).decode()


def has_hash(check):
    """Whether the page's policy names its script. The page of dist/ may be of other sources."""
    with open(PAGE, encoding='utf-8') as file:
        is_named = "script-src 'sha256-" in file.read()
    if not is_named and not CAN_PROVE:
        check.skip('the policy names the script', 'the page of dist/ is of other sources (make release-files)')
    return is_named or CAN_PROVE


class InBrowser:
    """A check in one browser, with which the names of its rows end."""

    def __init__(self, check, name):
        self.check, self.name = check, name

    def __getattr__(self, method):
        return lambda title, *given: getattr(self.check, method)('%s in %s' % (title, self.name), *given)


def make_page(check):
    """Makes the page of the present sources, or ends the check."""
    made = subprocess.run(['make', '-s', '-C', TOP, 'page'], stdout=subprocess.PIPE, stderr=subprocess.STDOUT)
    check.equal('make page', 0, made.returncode)
    if made.returncode:
        print(made.stdout.decode())
        check.end()


def choose(browser, **values):
    """Chooses how the next log is written, or where it was taken."""
    browser.run(CHOOSE, values)


def address(query=''):
    return 'file://' + PAGE + query


def started(browser, at=''):
    """Opens the page, or this address of it, and waits until it has started."""
    browser.open(at or address())
    browser.wait('return document.documentElement.dataset.bits')


def words_in(browser, selector):
    """The text of an element; empty if it is not seen."""
    return browser.run(SEEN_TEXT, selector)


def text_of(name):
    with open(os.path.join(TOP, 'examples', name), encoding='latin-1') as file:
        return file.read()


def has_opened(browser, name):
    """Waits until a log is open, and drawn."""
    browser.wait(OPENED, name)
    browser.settle()


def example(browser, name):
    """Opens an example by its button."""
    browser.click('#tab-open')
    browser.run(CLOSE + '; document.getElementById("more-examples").open = true')
    browser.click('[data-example="%s"]' % name)
    has_opened(browser, name)


def saved(browser, button='save'):
    """The text that a button saves."""
    browser.run(SAVE, button)
    browser.wait('return window.saved !== null')
    return browser.run('return window.saved')


def opened(browser, path):
    """Opens a file as one that was chosen."""
    browser.click('#tab-open')
    browser.run(CLOSE)
    browser.type('#file', path)
    has_opened(browser, os.path.basename(path))


def pasted(browser, text):
    """Opens a text that is pasted."""
    browser.click('#tab-open')
    browser.run(CLOSE + '; document.getElementById("paste").value = arguments[0]', text)
    browser.click('#open-paste')
    has_opened(browser, 'pasted text')


def dropped(browser, text, file=''):
    """Opens a text that is dropped, as text or as a file of this name."""
    browser.click('#tab-open')
    browser.run(CLOSE)
    browser.run(DROP, text, file)
    has_opened(browser, file or 'dropped text')


def is_message(row):
    """Whether a row has a message, and no line or octets that are none."""
    return row[5] != '' and not re.match('wrong length|unknown|empty', row[3])


def open_with(browser, folder, added):
    """Opens a copy of the page whose policy names one more script."""
    with open(PAGE, encoding='utf-8') as file:
        page = file.read()
    path = os.path.join(folder, 'added.html')
    with open(path, 'w', encoding='utf-8') as file:
        file.write(page.replace("script-src 'sha256-", "script-src 'sha256-%s' 'sha256-" % script_hash(added), 1))
    started(browser, 'file://' + path)
