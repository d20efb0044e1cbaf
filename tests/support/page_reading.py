"""How the page reads a long log: in slices, between which it answers, shows how far it is and can be stopped; and where it says that a
breach is if a line has several messages."""

import os
import re

from support import line_model as model
from support.browsers import KEYS
from support.opened import CLOSE, OPENED, choose, example, opened, pasted, saved, words_in
from support.tables import output_of

# Keeps what is said while a log is read, and clicks something at the first share that is shown: `window.answered` has the share at which
# the page handled an event that was sent then.
WATCH = '''window.shares = []; window.answered = null; const [selector] = arguments, none = document.getElementById("no-log");
window.watch?.disconnect(); window.watch = new MutationObserver(() => { const it = document.getElementById("reading-share"); if (!it || it.textContent === window.shares.at(-1)) return;
    window.shares.push(it.textContent); if (window.shares.length > 1) return;
    addEventListener("message", () => { window.answered = window.shares.at(-1); }, { once: true }); postMessage("", "*"); if (selector) document.querySelector(selector).click(); });
window.watch.observe(none, { childList: true, characterData: true, subtree: true });'''
STOP, OTHER = '#stop', '[data-example="good.transcript"]'
# The lines that `show` takes at a time.
AT_ONCE = 10_000
# How often the page has handled an event of its own.
TURNS = '''window.turns = 0; const turn = () => { if (window.turns++ < 200) setTimeout(turn); }; turn();'''


def begun(browser, path, selector=''):
    """Chooses a log, and clicks something while it is read."""
    browser.click('#tab-open')
    browser.run(CLOSE)
    browser.run(WATCH, selector)
    browser.type('#file', path)


def check_slices(check, browser, folder):
    """While a log is read the page handles events, and says how far it is; the log is whole."""
    path = os.path.join(folder, 'many.transcript')
    begun(browser, path)
    browser.wait(OPENED, 'many.transcript')
    shares, answered = browser.run('return [window.shares, window.answered]')
    numbers = [int(re.fullmatch(r'Reading \.\. (\d+) %', words)[1]) for words in shares]
    check.holds('how far it is', len(numbers) > 3 and numbers == sorted(set(numbers)) and numbers[-1] <= 100, numbers)
    check.holds('an event is handled before the end', answered is not None and answered in shares[:-1], (answered, shares))
    with open(path, encoding='ascii') as file:
        frames = re.sub('^[<>] ', '', file.read(), flags=re.M).splitlines(True)
    shown = ''.join(output_of('show', ''.join(frames[place:place + AT_ONCE]))[0] for place in range(0, len(frames), AT_ONCE))
    seen = saved(browser)
    check.holds('all messages are as `show` has them', seen == shown, (len(seen), len(shown)))


def check_stop(check, browser, folder):
    """A log that is stopped is not shown, and nothing goes on; what is opened meanwhile is shown in its place."""
    path = os.path.join(folder, 'many.transcript')
    example(browser, 'lost-answer.transcript')
    begun(browser, path, STOP)
    browser.wait('return document.getElementById("no-log").textContent.includes("was not read to its end")')
    browser.run(TURNS)
    browser.wait('return window.turns > 200')
    shares, is_opened, rows = browser.run('''return [window.shares, "opened" in document.documentElement.dataset, document.querySelector(".table").checkVisibility()]''')
    check.equal('after a stop nothing is read nor shown', (1, False, False), (len(shares), is_opened, rows))
    browser.click('#tab-inputs')
    check.holds('nor in the inputs', 'No log is open' in words_in(browser, '#view-inputs .none'))
    begun(browser, path, OTHER)
    browser.wait(OPENED, 'good.transcript')
    browser.run(TURNS)
    browser.wait('return window.turns > 200')
    check.equal('the log that was opened last is shown', ['good.transcript', 'good.transcript, read as a transcript.', 5], browser.run(
        'return [document.documentElement.dataset.opened, document.getElementById("note").textContent, document.querySelectorAll(".line").length]'))


def check_fault(check, browser, _):
    """A log that cannot be read says why."""
    choose(browser, form='pattern', pattern='(')
    browser.run('document.getElementById("paste").value = "3605"; document.getElementById("open-paste").click()')
    browser.wait('return document.getElementById("no-log").checkVisibility()')
    seen = words_in(browser, '#no-log')
    check.holds('what cannot be read says why', re.fullmatch('pasted text could not be read.{10,}Open a log or an example', seen), seen)
    choose(browser, form='auto', pattern='')


# A CPU that asks for block 6, and hears block 7.
STREAM = [bytes.fromhex(digits) for digits in ('3605', 'b605000000000001', '3606', 'b607000000000002')]


def stream(gap):
    """The octets of a line, with more flags than one between its messages, and the place of the last one, counted from 1."""
    parts = [b'\x7e' * gap + model.line_of(one) for one in STREAM]
    octets = b''.join(parts)
    return octets, len(octets) - len(parts[-1]) + gap + 2


def check_stream(check, browser, folder):
    """A breach in a line with several messages, or in a file without lines, says which message it is, and where it begins."""
    for gap in (0, 3):
        octets, place = stream(gap)
        path = os.path.join(folder, 'stream.bin')
        for form, file, words in (('digits', octets.hex(' ').encode(), 'message 4, octet %d of line 1' % place), ('line', octets, 'message 4, octet %d' % place)):
            with open(path, 'wb') as out:
                out.write(file)
            choose(browser, form=form)
            opened(browser, path)
            check.holds('%s: the verdict names %s' % (form, words), words_in(browser, '#verdict-text').startswith('Module: %s breaks the rule number' % words),
                        words_in(browser, '#verdict-text'))
            browser.click('#first-breach')
            check.equal('%s: and so does the message %s' % (form, words), words[0].upper() + words[1:], words_in(browser, '.detail h2'))
    choose(browser, form='auto')
    pasted(browser, ''.join('%s %s\n' % ('RX' if one[0] >= 128 else 'TX', one.hex()) for one in STREAM))
    check.holds('a line with one message is a line', words_in(browser, '#verdict-text').startswith('Module: line 4 breaks'), words_in(browser, '#verdict-text'))


def check_words(check, browser, _):
    """What words of a verdict mean is a click away."""
    example(browser, 'lost-answer.transcript')
    check.equal('the meanings are folded', '', words_in(browser, '#words dl'))
    browser.click('#words summary')
    seen = browser.run('return [...document.querySelectorAll("#words dt")].map((it) => [it.textContent, it.nextSibling.textContent.length > 20, it.checkVisibility()])')
    check.equal('and a click shows them', [[word, True, True] for word in ('entry', 'gap mark', 'seam', 'clear block', 'sync', 'own profile')], seen)
    browser.type('#words summary', KEYS['enter'])


# Of each row: whether it has a note, and whether its message is seen whole, up to the column of octets.
ROOM = '''const note = document.querySelector(".heads .rule").getBoundingClientRect(); return [...document.querySelectorAll(".line")].map((row) => {
    const words = row.querySelector(".words"), box = words.getBoundingClientRect();
    return [row.querySelector(".rule").textContent !== "", words.scrollWidth <= words.clientWidth, Math.abs(box.right - note.right) < 2]; })'''


def check_room(check, browser, _):
    """A message without a note has the room of the note."""
    browser.size(1280, 900)
    long = '> 3605\n< b60500' + '00' + '000003e8\n' + '> 3b' + 'ff' * 16 + '\n> 37' + '01' * 16 + '\n> 36ff\n'
    pasted(browser, long)
    rows = browser.run(ROOM)
    bare = [row for row in rows if not row[0]]
    check.holds('there are rows with a note and without', 0 < len(bare) < len(rows), rows)
    check.equal('those without are as wide as both columns', [[False, True, True]] * len(bare), bare)


CHECKS = (check_slices, check_stop, check_fault, check_stream, check_words, check_room)
