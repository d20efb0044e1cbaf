#!/usr/bin/env -S python3 -B
"""Drives the page that `make page` writes, in headless Chromium, with `--all` in Firefox too, as a person would: the examples give what
`show`, `check` and `simulate` give, letter for letter; 100,000 messages open within three seconds of a processor and scroll; hostile files
change nothing but the table; the views follow pointer and keys; the planning table is that of docs/PLANNING.md. With
`--pictures` the pictures of tools/page/, and that of *Play* in docs/pictures/, are taken again. Last line: `N passed, M failed`."""

import json
import os
import random
import re
import shutil
import subprocess
import tempfile
import time

from support import page_answer, page_judged, page_lines, page_logs, page_packets, page_reading, page_stations, page_views
from support.fiolog import LIBRARY, fiolog, may_use_library
from support.browsers import KEYS, Chromium, browsers, running
from support.check import Check
from support.opened import (CELLS, PAGE, RANGE, InBrowser, address, example, has_hash, make_page, opened, saved, script_hash, scripts_in, started, text_of,
                            words_in)
from support.tables import TOP, output_of
from support.waits import slowness

PICTURES = os.path.join(TOP, 'tools', 'page')
PLAYED_PICTURE = os.path.join(TOP, 'docs', 'pictures', 'play.png')
MOST_OCTETS = 1 << 19
MANY = 100_000
# Seconds of a processor of all processes of the browser; more where a processor does less in a second.
MOST_SECONDS = 3
# What browsers call long, for the mean of all frames, by the processor too.
LONG_FRAME_MS = 100
# The most rows that a frame may have, of which some are above and below those in sight.
MOST_ROWS = 200
CONTRAST = 4.5

# The kind of the verdict, and the first rule that it names with its line.
VERDICT = '''const it = document.getElementById("verdict"), found = /[Ll]ine (\\d+) breaks the rule (\\w+)/.exec(it.textContent);
return [it.dataset.kind, found && found[1], found && found[2]]'''
NAMES = '''return [...document.querySelectorAll("button, input, select, textarea, [role], [tabindex='0']")].filter((it) =>
!(it.getAttribute("aria-label") || it.getAttribute("aria-labelledby") || it.textContent.trim()
|| ["presentation", "status", "alert"].includes(it.getAttribute("role")))).map((it) => it.outerHTML)'''


def check_file(check):
    """The page is one file of its size, which asks for nothing."""
    with open(PAGE, encoding='utf-8') as file:
        page = file.read()
    check.holds('the page has less than %d octets' % MOST_OCTETS, len(page.encode()) < MOST_OCTETS, len(page.encode()))
    asked = re.findall(r'<(?:link|img|script|iframe)[^>]*(?:src|href)="(?!data:)', page)
    check.equal('the page names no other file', [], asked)
    check.holds('the page may not ask for one, nor send a form', all(words in page for words in ("default-src 'none'", "form-action 'none'", "base-uri 'none'")))
    if has_hash(check):
        policy = re.search('script-src ([^;]*);', page)[1]
        check.equal('the policy names the one script', ["'sha256-%s' 'wasm-unsafe-eval'" % script_hash(text) for text in scripts_in(page)], [policy])
    check_contrast(check, page)


def luminance(colour):
    parts = [int(colour[place:place + 2], 16) / 255 for place in (1, 3, 5)]
    parts = [part / 12.92 if part <= 0.03928 else ((part + 0.055) / 1.055) ** 2.4 for part in parts]
    return 0.2126 * parts[0] + 0.7152 * parts[1] + 0.0722 * parts[2]


def contrast(one, other):
    dark, light = sorted((luminance(one), luminance(other)))
    return (light + 0.05) / (dark + 0.05)


def check_contrast(check, page):
    """Each pair of colours in which words are written, in both themes (WCAG 2: 4.5 to 1)."""
    pairs = [(ink, back) for ink in ('ink', 'soft', 'accent', 'bad', 'warn', 'good') for back in ('back', 'panel', 'lane')]
    pairs += [('good', 'good-back'), ('ink', 'good-back'), ('warn', 'warn-back'), ('bad', 'bad-back'), ('ink', 'warn-back'), ('ink', 'bad-back'), ('soft', 'bad-back'), ('ink', 'accent-back'),
              ('soft', 'accent-back'), ('accent', 'accent-back'), ('mark-ink', 'mark'), ('panel', 'accent')]
    for theme, block in zip(('light', 'dark'), re.findall(r':root[^{]*\{([^}]*--ink[^}]*)\}', page)):
        colours = dict(re.findall(r'--([\w-]+): (#[0-9a-f]{6})', block))
        low = [pair for pair in pairs if contrast(colours[pair[0]], colours[pair[1]]) < CONTRAST]
        check.equal('the contrast of the %s theme' % theme, [], low)


def expected_verdict(base, recorded):
    """What the page is to say first of a transcript: what `check` says, and `record` of the entries and of restarts."""
    verdict = text_of(os.path.splitext(base)[0] + '.verdict')
    found = re.search(r'^line (\d+) (?:input \d+ )?breaks (\w+)$', verdict + recorded, re.M)
    if recorded.endswith(' restarted\n'):
        return ['restarted', None, None]
    return ['broken', *found.groups()] if found else ['good' if verdict.startswith('good') else 'partly', None, None]


def check_examples(check, browser, _):
    """Each frames file, transcript and capture says what `show` and `check` say; each script reports as `simulate`."""
    names = sorted(os.listdir(os.path.join(TOP, 'examples')))
    logs = [one for one in names if one.endswith(('.frames', '.transcript'))]
    for base in logs if check.whole('all examples') else logs[::3]:
        example(browser, base)
        shown = os.path.splitext(base)[0] + '.shown'
        frames = re.sub(r'^[<>] ', '', text_of(base), flags=re.M)
        expected = text_of(shown) if base.endswith('.frames') and shown in names else output_of('show', frames)[0]
        check.equal(base, expected, saved(browser))
        if base.endswith('.transcript'):
            # What breaks these rules is a restart to the page.
            recorded = re.sub('breaks (?:clock|watchdog)$', 'restarted', output_of('record', text_of(base))[0], flags=re.M)
            check.equal('the verdict on %s' % base, expected_verdict(base, recorded), browser.run(VERDICT))
            browser.click('#tab-inputs')
            check.equal('the record of %s' % base, recorded, saved(browser, 'save-record'))
            browser.click('#show-record')
            browser.wait('return document.getElementById("record-text").textContent !== ""')
            check.equal('the record of %s as it is seen' % base, recorded, words_in(browser, '#record-text'))
    browser.click('#tab-play')
    for base in [one for one in names if one.endswith('.script')]:
        browser.run('const it = document.getElementById("play-example"); it.value = arguments[0]; it.dispatchEvent(new Event("change"))', base)
        check.equal(base, text_of(os.path.splitext(base)[0] + '.report'), words_in(browser, '#report'))


def check_fields(check, browser, _):
    """What the pointer and the keys mark."""
    example(browser, 'lost-answer.transcript')
    browser.click('#row-2')
    marked = 'return [".grid", "ol"].map((it) => [...document.querySelectorAll(`.detail ${it} .is-marked`)].map((one) => one.textContent))'
    for octet, expected in {2: [['ff'], ['255']], 4: [['00'], ['0', '0']], 5: [['00', '01'], ['1']], 8: [['00', '00', '00', '01'], ['1']]}.items():
        browser.point('.detail .grid span:nth-child(%d)' % octet)
        check.equal('octet %d under the pointer' % octet, expected, browser.run(marked))
    browser.click('.rows')
    browser.type('.rows', KEYS['home'] + KEYS['down'])
    check.equal('the keys select a row', 'Line 3', words_in(browser, '.detail h2'))
    browser.type('#search', 'block 0')
    browser.wait('return document.querySelectorAll(".line").length === 2')
    check.equal('the search', ['5', '6'], [row[0] for row in browser.run(CELLS)])
    browser.type('#tab-messages', KEYS['right'])
    check.equal('a key goes to the next view', 'tab-inputs', browser.run('return document.activeElement.id'))


def many_messages(path, count=MANY):
    """A log of many messages: rounds of a poll and a block of up to 20 entries, as a right link has them."""
    chosen, state, stamp = random.Random(2070), [1] * 64, 0
    with open(path, 'w', encoding='ascii') as file:
        for number in range(count // 2):
            stamp += 10
            entries = b''
            for place in sorted(chosen.sample(range(64), chosen.choice((0, 1, 2, 20)))):
                state[place] ^= 1
                entries += bytes([place | state[place] << 7]) + ((stamp - 5) & 0xffff).to_bytes(2, 'big')
            block = bytes([182, number & 255, len(entries) // 3]) + entries + b'\0' + stamp.to_bytes(4, 'big')
            file.write('> 36%02x\n< %s\n' % (number & 255, block.hex()))


# Moves the table from its first message to its last, a hundredth in each frame: the rows of each frame that is drawn.
SCROLL = '''window.drawn = []; const rows = document.querySelector(".rows"), frame = window.requestAnimationFrame;
window.requestAnimationFrame = (draw) => frame((now) => { draw(now); rows.offsetHeight; window.drawn.push(document.querySelectorAll(".line").length); });
const most = rows.scrollHeight - rows.clientHeight; let step = 0; rows.scrollTop = 0;
const next = () => { if (step++ < 100) { rows.scrollTop = most * step / 100; frame(next); } else { window.requestAnimationFrame = frame; window.isScrolled = true; } };
window.isScrolled = false; frame(next);'''


def check_many(check, browser, folder):
    """Many messages open soon, and scroll: each frame has few rows, and the mean takes less of a processor than a long one may."""
    path = os.path.join(folder, 'many.transcript')
    many_messages(path)
    browser.click('#tab-open')
    browser.run('''document.getElementById("file").addEventListener("change", () => { window.begun = performance.now(); }, true);
        new MutationObserver(() => requestAnimationFrame(() => setTimeout(() => { window.painted = performance.now(); })))
            .observe(document.documentElement, { attributeFilter: ["data-opened"] });''')
    before = browser.used()
    browser.type('#file', path)
    browser.wait('return window.painted > 0')
    seconds, used = browser.run('return (window.painted - window.begun) / 1000'), browser.used() - before
    slower = slowness()
    print('%s: %d messages open in %.2f s, %.2f s of a processor %.1f times as slow' % (check.name, MANY, seconds, used, slower))
    check.holds('%d messages open within %d s of a processor' % (MANY, MOST_SECONDS), used < MOST_SECONDS * slower, (used, slower))
    check.equal('their number', '100,000 messages', words_in(browser, '[data-fact=messages]'))
    check.equal('their verdict', 'good', browser.run('return document.getElementById("verdict").dataset.kind'))
    before = browser.used()
    browser.run(SCROLL)
    browser.wait('return window.isScrolled')
    drawn, used = browser.run('return window.drawn'), browser.used() - before
    print('%s: a frame of a pass over all rows takes %.1f ms of a processor' % (check.name, 1000 * used / len(drawn)))
    check.holds('scrolling through all rows draws frames', len(drawn) > 50, len(drawn))
    check.holds('each frame has few rows', 10 < min(drawn) <= max(drawn) <= MOST_ROWS, (min(drawn), max(drawn)))
    slower = slowness()
    check.holds('a frame takes less than %d ms of a processor' % LONG_FRAME_MS, 1000 * used / len(drawn) < LONG_FRAME_MS * slower, (used, slower))
    browser.type('.rows', KEYS['end'])
    check.equal('the last row', '100000', browser.run(CELLS)[-1][0])
    browser.click('#tab-inputs')
    browser.turn_wheel('#waves', -800)
    browser.click('#waves')
    reading = words_in(browser, '#reading')
    check.holds('a click reads a transition', re.fullmatch(r'input \d+ state [01] at \d+ ms Line \d+', reading), reading)
    browser.click('#to-message')
    line = words_in(browser, '.detail h2')
    check.equal('and goes to its message', reading.rpartition('ms ')[2], line)
    wide = re.sub(r'input (\d+) state (\d) at (\d+) .*', r'  input \1 state \2 stamp ', reading)
    check.holds('which has the transition', wide.strip() in words_in(browser, '.detail ol'), wide)


def hostile_files():
    """Files that no logger writes, by their names."""
    chosen = random.Random(37)
    return {
        'random': chosen.randbytes(200_000),
        'markup': b'> 36<script>window.broken = 1</script>\n<img src=x onerror="window.broken = 1">\n' * 50,
        'long line': b'> ' + b'b6' * 1_000_000 + b'\n',
        'no line': b'', 'empty lines': b'\n' * 300_000, 'zeros': bytes(300_000), 'half an octet': b'> 360\n< b\n',
        'wrong lengths': b''.join(b'> %s\n' % chosen.randbytes(chosen.randrange(1, 40)).hex().encode() for _ in range(3000)),
        'blanks': b'> ' + b' ' * 100_000 + b'x\n', 'digits': b'1:' * 50_000 + b'\n', 'separators': b'TX 36 ' + b'- ' * 50_000 + b'z\n',
        'UTF-16': '> 3605\n'.encode('utf-16'), 'a mark alone': b'\xff\xfe', 'name.<b>': b'> 3605\n',
    }


def check_hostile(check, browser, folder):
    """Each opens, or says why not, and runs nothing."""
    for title, octets in hostile_files().items():
        path = os.path.join(folder, title)
        with open(path, 'wb') as file:
            file.write(octets)
        opened(browser, path)
        state = browser.run('return [window.broken === undefined, document.querySelectorAll("main script, main img, main b:not(button b)").length]')
        check.equal(title, ([True, 0], ''), (state, words_in(browser, '#trouble')))
    example(browser, 'good.transcript')
    check.equal('after these an example opens', 5, len(browser.run(CELLS)))


def check_touch(check, browser, folder):
    """Fingers on the waveforms: one moves the times, two widen them and narrow them, a touch reads a transition."""
    browser.size(520, 800)
    path = os.path.join(folder, 'some.transcript')
    many_messages(path, MANY // 4)
    opened(browser, path)
    browser.click('#tab-inputs')
    browser.run('document.querySelector(".wave-box").scrollIntoView({block: "center"})')
    start, end = browser.run(RANGE)
    browser.touch('.wave-box', [(-40, 0), (-60, 0), (-120, 0)], [(40, 0), (60, 0), (120, 0)])
    near, far = browser.run(RANGE)
    check.holds('two fingers that part narrow the times', (far - near) * 2 < end - start, (start, end, near, far))
    browser.touch('.wave-box', [(100, 0), (60, 0), (0, 0)])
    moved, other = browser.run(RANGE)
    check.holds('a finger moves the times', moved > near and abs((other - moved) - (far - near)) <= 2, (near, far, moved, other))
    browser.touch('.wave-box', [(-120, 0), (-90, 0), (-40, 0)], [(120, 0), (90, 0), (40, 0)])
    low, high = browser.run(RANGE)
    check.holds('two fingers that close widen the times', high - low > (other - moved) * 2, (moved, other, low, high))
    browser.touch('.wave-box', [(60, 0)])
    reading = words_in(browser, '#reading')
    check.holds('a touch reads a transition', re.match(r'input \d+ state [01] at \d+ ms Line \d+', reading), reading)
    browser.size(1280, 900)


LISTEN = '''window.printed = []; addEventListener("beforeprint", () => window.printed.push(document.documentElement.dataset.theme));
document.documentElement.dataset.theme = "dark";'''


def check_print(check, browser, folder):
    """On paper: light, with the table's rows, and the waveforms."""
    example(browser, 'every-type.frames')
    browser.run(LISTEN)
    for view in ('messages', 'inputs'):
        browser.click('#tab-' + view)
        paper = browser.printed()
        path = os.path.join(folder, '%s.pdf' % view)
        with open(path, 'wb') as file:
            file.write(paper)
        check.holds('the view %s on paper' % view, paper.startswith(b'%PDF') and len(paper) > 5000, len(paper))
        if view == 'messages' and shutil.which('pdftotext'):
            text = re.sub(r'\s+', ' ', subprocess.run(['pdftotext', '-layout', path, '-'], stdout=subprocess.PIPE).stdout.decode())
            missing = [line for line in text_of('every-type.shown').splitlines() if not line.startswith(' ') and line[:16] not in text]
            check.equal('the rows on paper', [], missing)
        elif view == 'messages':
            check.skip('the rows on paper', 'no pdftotext here (Debian package poppler-utils)')
    check.equal('paper is light', {'light'}, set(browser.run('return window.printed')))
    check.equal('and the page dark again', 'dark', browser.run('return document.documentElement.dataset.theme'))
    browser.run('document.documentElement.dataset.theme = "light"')


def check_plan(check, browser, _):
    """The rows of docs/PLANNING.md; how often to poll 8 inputs with filters of 5, if few entries may wait; and what `fiolog plan` says."""
    browser.click('#tab-plan')
    with open(os.path.join(TOP, 'docs', 'PLANNING.md'), encoding='utf-8') as page:
        rows = [[cell.strip() for cell in line.strip('|\n ').split('|')] for line in page if re.match(r'\| \d', line)]
    move = '''["inputs", "filter", "waiting", "lost", "drift", "jitter", "rate", "stop_bits"].forEach((name, place) => {
        const it = document.getElementById("plan-" + name);
        it.value = arguments[0][place] ?? it.value; it.dispatchEvent(new Event("input")); });
        return [...document.querySelectorAll(arguments[1])].map((it) => it.textContent)'''
    for row in rows:
        found = browser.run(move, row[:2], '#plan-row td')
        check.equal('the row of %s inputs with filters of %s' % (row[0], row[1]), row[:5], [*found[:3], found[4], found[6]])
    check.equal('the number of rows', 16, len(rows))
    for waiting, lost, every in ((1024, 0, 159), (71, 0, 40), (70, 0, 39), (71, 1, 10), (7, 0, 0)):
        check.equal('the pace if %d may wait, with %d lost' % (waiting, lost), '%d ms' % every,
                    browser.run(move, [8, 5, waiting, lost, 0], '.answers td.mono')[0])
    for rate, every in ((614_400, '4 ms'), (153_600, 'no pace')):
        check.equal('the least pace at %d bit/s' % rate, every, browser.run(move, [64, 5, 1024, 0, 0, 0, rate, 0], '.plan .answers td.mono')[-1])
    check_clocks(check, browser, move)


# Inputs, filter, entries that may wait, drift, jitter, rate and stop bits.
CLOCKS = ((64, 5, 1024, 0, 0, 614_400, 0), (64, 5, 1024, 100, 0, 614_400, 0), (8, 5, 71, 10_000, 3, 1_200, 1), (8, 5, 1024, 100, 7, 19_200, 2),
          (40, 10, 1024, 2_000, 0, 153_600, 0), (64, 1, 1024, 100, 3, 614_400, 0), (16, 50, 8192, 50, 255, 153_600, 1))


def check_clocks(check, browser, move):
    """How often to poll, at most and at least, by a clock that drifts and polls late: as `fiolog plan` says."""
    if not os.path.exists(LIBRARY):
        check.skip('plans as fiolog gives them', 'no libfio2070.so here (make library)')
        return
    for clock in CLOCKS:
        inputs, length, waiting, drift, jitter, rate, stop = clock
        words = [('--inputs', inputs), ('--filter', length), ('--waiting', waiting), ('--drift', drift), ('--jitter', jitter), ('--rate', rate)]
        line = ['--async', str(stop)] if stop else ['--sync']
        rows = json.loads(fiolog('plan', '--json', *line, *(str(one) for pair in words for one in pair)).out)
        numbers = {one['what']: str(one['number']) for one in rows}
        least = next(number for what, number in numbers.items() if what.startswith('at {:,} bit/s'.format(rate)))
        seen = browser.run(move, [inputs, length, waiting, 0, drift, jitter, rate, stop], '.plan .answers td.mono')
        check.equal('the plan of %s inputs with filters of %s, %s wait, drift %s, jitter %s, %s bit/s, %s stop bits' % clock,
                    [numbers['poll every'], least], [seen[0], seen[-1]])


# What the clicks of `check_play` do, and what the profile says of it: input 5 goes to 0 at the second of two samples; the
# first poll is lost; the second is answered, and its answer is heard twice.
PLAYED = ['quiet', 'quiet', 'sent 2 3600', 'sent 3 3600', 'sent 2 b600010500020000000002', 'block entries 1 status 00', 'stale 0']
PLAYED_END = ['counter 2', 'number 1', 'waiting 0', 'record 1', 'input 5 state 0 stamp 2 wide 2']


def check_play(check, browser, _):
    """Both ends by clicks, and the link to the run."""
    started(browser)
    browser.click('#tab-play')
    for selector in ('[data-input="5"]', '#scan', '#scan', '#poll', '#to-module li:first-child button:last-child', '#poll',
                     '#to-module li:first-child button', '#to-cpu li:first-child button', '#to-cpu li:first-child button'):
        browser.click(selector)
    lines = words_in(browser, '#report').splitlines()
    expected = ['%d %s' % (number, line) for number, line in enumerate(PLAYED, 4)] + PLAYED_END
    check.equal('what clicks do', expected, lines[3:])
    script = browser.run('return document.getElementById("script").value')
    browser.click('#link')
    link = browser.run('return location.href')
    browser.open('about:blank')
    started(browser, link)
    check.equal('the link holds the run', script, browser.run('return document.getElementById("script").value'))
    faulty = {'fio2070 script 9 2 0\n': 'line 1: bad header', 'fio2070 script 1 2 0\nrestart\n': 'line 2: bad line',
              'fio2070 script 1 2 0\nsend 33\n': 'line 2: bad frame wrong length needed 2 got 1',
              'fio2070 script 1 2 0\n' + 'poll\n' * 10_001: 'line 10002: too many events'}
    for text, fault in faulty.items():
        browser.run('document.getElementById("script").value = arguments[0]; document.getElementById("run-script").click()', text)
        check.equal(fault, fault, words_in(browser, '#script-trouble'))


def check_access(check, browser, _):
    """Names of what can be used."""
    check.equal('each control has a name', [], browser.run(NAMES))


CHECKS = (check_examples, *page_logs.CHECKS, check_fields, check_many, check_touch, check_hostile, check_print, check_plan, check_play, check_access,
          *page_views.CHECKS, *page_answer.CHECKS, *page_judged.CHECKS, *page_stations.CHECKS, *page_lines.CHECKS, *page_packets.CHECKS, *page_reading.CHECKS)


def check_browser(check, kind, folder):
    """All of it in one browser."""
    begun = time.monotonic()
    with running(kind) as browser:
        for bits in (32, 64) if shutil.which('wasm-opt') else (64,):
            browser.open(address('?bits=%d' % bits))
            used = browser.wait('return document.documentElement.dataset.bits')
            check.equal('%d-bit addresses in %s' % (bits, kind.name), (str(bits), ''), (used, words_in(browser, '#trouble')))
            page_logs.check_captures(InBrowser(check, '%s with %d bits' % (kind.name, bits)), browser, folder)
        for one in CHECKS:
            one(InBrowser(check, kind.name), browser, folder)
    print('%s: %.0f s' % (kind.name, time.monotonic() - begun))


def take_pictures(folder):
    """The pictures of the page, by Chromium."""
    with running(Chromium) as browser:
        browser.size(1280, 800)
        started(browser)
        path = os.path.join(folder, 'cabinet.log')
        with open(path, 'w', encoding='ascii') as file:
            file.write(page_answer.cabinet_log())
        opened(browser, path)
        browser.click('#first-breach')
        browser.picture(os.path.join(PICTURES, 'messages.png'))
        browser.click('#tab-inputs')
        browser.picture(os.path.join(PICTURES, 'inputs.png'))
        browser.size(1180, 1090)
        browser.click('#tab-play')
        browser.click('[data-story="lost-answer.script"]')
        browser.run('document.activeElement.blur(); document.querySelector("main").scrollTop = 0')
        browser.picture(PLAYED_PICTURE)


def main():
    check = Check(pictures=False)
    make_page(check)
    check_file(check)
    may_use_library(check, 'logs beside the library')
    if not shutil.which('wasm-opt'):
        check.skip('32-bit addresses', 'no wasm-opt here (Debian package binaryen)')
    with tempfile.TemporaryDirectory() as folder:
        for kind in browsers(check):
            check_browser(check, kind, folder)
        if check.given.pictures:
            take_pictures(folder)
    check.end()


main()
