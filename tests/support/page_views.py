"""What a user sees in each view of the page: the verdict, the order of rows, texts that are no log, examples, labels, waveforms,
times, and the picture of a run."""

import os
import re
from xml.etree import ElementTree

from support.browsers import KEYS
from support.opened import CELLS, RANGE, choose, example, is_message, opened, pasted, saved, started, text_of, words_in
from support.tables import TOP



def check_verdict(check, browser, _):
    """One verdict, what helps, and which of the limits is broken."""
    example(browser, 'doubled-entry.transcript')
    seen = browser.run('return [...document.querySelectorAll("#view-messages .good, #view-messages .verdict")].map((it) => it.dataset.kind || it.textContent)')
    check.equal('a doubled entry has one verdict', ['broken'], seen)
    browser.click('#first-breach')
    check.equal('which goes to the line', 'Line 10', words_in(browser, '.detail h2'))
    pasted(browser, 'link up\nTX 36 05\nRX B6 05 00 00 00 00 00 01\n')
    check.holds('how lines are read', 'Read as “TX ” and octets: 1 line.' in words_in(browser, '#note') and 'No form: 1 line.' in words_in(browser, '#note'),
                words_in(browser, '#note'))
    pasted(browser, '> 3605\n< b60501400001' + '0000000001\n')
    note = browser.run('return [...document.querySelectorAll(".line.broken .rule")].map((it) => it.textContent)')
    check.holds('a breach of the limits says which', any('an entry is of input 64, above 63' in words for words in note), note)


# Logs of which the reader says how they are written: how, an expression, the log, and its messages.
POLL_AND_BLOCK = ['poll block 5', 'block 5 entries 0 status 00 stamp 1']
WAYS = [
    ('unchecked', '', b'TX 7e 14 83 36 05 7e\nRX 7e 14 83 b6 05 00 00 00 00 00 01 7e\n', POLL_AND_BLOCK),
    ('pattern', r'/(?P<dir>\w+)/(?P<octets>\w+)$', b'17/tx/3605\n17/rx/b605000000000001\n', POLL_AND_BLOCK),
    ('octets', '', bytes.fromhex('b605000000000001'), POLL_AND_BLOCK[1:]),
]


def check_ways(check, browser, folder):
    """A log is read in the way that is chosen."""
    path = os.path.join(folder, 'chosen.bin')
    for way, expression, octets, words in WAYS:
        with open(path, 'wb') as file:
            file.write(octets)
        choose(browser, form=way, pattern=expression)
        opened(browser, path)
        check.equal('a log that is read as %s' % way, words, [row[3] for row in browser.run(CELLS) if is_message(row)])
    choose(browser, form='auto')


def check_order(check, browser, folder):
    """Rows are in the document in their order, all of a short log; a copy has them as lines; a repeat says so."""
    example(browser, 'serial-log.txt')
    check.equal('a repeat says so in its row', ['no answer', '', 'E: sent again', '', '', 'advance: block 1 was due, 0 came: the CPU asks again', 'E: sent again'],
                [row[4].split(' for a block')[0] for row in browser.run(CELLS)])
    copied = browser.run("""const rows = document.querySelector(".rows"), data = new DataTransfer();
        getSelection().selectAllChildren(rows.querySelector(".canvas"));
        rows.dispatchEvent(Object.defineProperty(new Event("copy", { bubbles: true, cancelable: true }), "clipboardData", { value: data }));
        getSelection().removeAllRanges(); return data.getData("text/plain")""")
    check.equal('the rows as they are copied', ['%d' % line for line in range(2, 9)],
                [line.split('\t')[0] for line in copied.splitlines()])
    opened(browser, os.path.join(folder, 'many.transcript'))
    order = 'return [...document.querySelector(".rows .canvas").children].map((row) => Number(row.ariaRowIndex))'
    for keys in ('', 'end', 'up', 'home', 'down'):
        if keys:
            browser.type('.rows', KEYS[keys])
        rows = browser.run(order)
        check.holds('rows in the document after %s' % (keys or 'opening'), len(rows) > 10 and rows == list(range(rows[0], rows[0] + len(rows))), rows)
    example(browser, 'lost-answer.frames')
    frames = [line for line in text_of('lost-answer.frames').splitlines() if line and not line.startswith('#')]
    check.equal('a short log is in the document whole', len(frames), len(browser.run(order)))


def check_no_log(check, browser, folder):
    """A text that is no log says so, what it is, and what can be read; each form that is named can be."""
    for title, octets, words in [
            ('prose', b'Dear all,\nthe meeting is on Tuesday.\n', 'text without octets'), ('nothing', b'', 'empty'), ('blanks', b'  \n', 'empty'),
            ('script', text_of('lost-poll.script').encode(), 'the view Play runs it'), ('record', text_of('lost-answer.record').encode(), 'open the log itself'),
            ('zip', b'PK\3\4' + bytes(40), 'zip'), ('gzip', b'\x1f\x8b\x08' + bytes(40), 'gzip'), ('zeros', bytes(100), 'a binary file'), ('capture', bytes.fromhex('d4c3b2a1020004000000000000000000ffff000001000000'), 'a capture of packets'),
            ('another link', b''.join(b'01 03 00 %02X 00 0A C5 CD\n' % number for number in range(6)), 'a log of another link')]:
        path = os.path.join(folder, title + '.file')
        with open(path, 'wb') as file:
            file.write(octets)
        opened(browser, path)
        seen = words_in(browser, '#no-log')
        check.equal('%s is no log' % title, (True, True, True),
                    ('No message was found in %s.file' % title in seen, words in words_in(browser, '#no-log-kind'), 'What can be read' in seen))
        check.equal('of %s no table is shown' % title, '', words_in(browser, '.table'))
    forms = browser.run('return [...document.querySelectorAll(".readable pre")].map((it) => it.textContent)')
    check.holds('forms are named', len(forms) > 3, forms)
    for form in forms:
        pasted(browser, form + '\n')
        check.holds('%r can be read' % form, any(is_message(row) for row in browser.run(CELLS)))


def check_stories(check, browser, _):
    """Three examples with a story are seen; the others are folded; each has a sentence."""
    started(browser)
    seen = 'return [...document.querySelectorAll("[data-example]")].filter((it) => it.checkVisibility()).map((it) => it.querySelector("span").textContent)'
    stories = browser.run(seen)
    check.equal('examples that are seen first', 3, len(stories))
    check.holds('each tells a story', all(len(words) > 60 and words.endswith('.') for words in stories), stories)
    browser.click('#more-examples summary')
    others = browser.run(seen)
    check.holds('each other one has a sentence', len(others) > 20 and all(re.fullmatch(r'[A-Z].*\.', words) for words in others), others)


# Labels that are seen: of controls, of rows, and what is beside a control.
LABELS = """return [...document.querySelectorAll("main label, main th, main summary, main button, main .slider span, main option, main h2, main h3")]
.filter((it) => !it.closest(".line, .heads, .detail .grid, [data-example], #play-example, .levels")).map((it) => it.textContent.trim()).filter((it) => it !== "")"""


def check_labels(check, browser, _):
    """Labels begin as sentences do, but for the name of a log, which is the heading while it is read, if that takes long."""
    log = 'near-entries.transcript'
    example(browser, log)
    low = [words for words in browser.run(LABELS) if words[0].islower() and words != log]
    check.equal('labels that begin small', [], low)


# The pixels of the waveforms that have the colour of lines, in each column of a lane: the lane's top is at 22 times its number.
COLUMNS = """const canvas = document.getElementById("waves"), paint = canvas.getContext("2d"), top = 22 * arguments[0];
const [red, green, blue] = getComputedStyle(document.documentElement).getPropertyValue("--accent").trim().match(/[0-9a-f]{2}/gi).map((it) => parseInt(it, 16));
const { data, width } = paint.getImageData(72, top, canvas.width - 72, 22);
return Array.from({ length: width }, (_, x) => { let count = 0; for (let y = 0; y < 22; y++) { const at = 4 * (y * width + x);
if (Math.abs(data[at] - red) + Math.abs(data[at + 1] - green) + Math.abs(data[at + 2] - blue) < 30) count++; } return count; })"""


def dense_log():
    """A log in which input 0 changes each 10 ms for 20 seconds, then each 2 ms; and input 1 twice."""
    lines, stamp, state = [], 0, [1, 1]
    for number in range(400):
        entries = b''
        for _ in range(10 if number < 200 else 50):
            stamp += 10 if number < 200 else 2
            state[0] ^= 1
            entries += bytes([state[0] << 7]) + (stamp & 0xffff).to_bytes(2, 'big')
        if number in (100, 300):
            stamp += 1
            state[1] ^= 1
            entries += bytes([1 | state[1] << 7]) + (stamp & 0xffff).to_bytes(2, 'big')
        block = bytes([182, number & 255, len(entries) // 3]) + entries + b'\0' + (stamp + 1).to_bytes(4, 'big')
        lines.append('> 36%02x\n< %s\n' % (number & 255, block.hex()))
    return ''.join(lines)


def check_inputs(check, browser, folder):
    """No time is below 0; many transitions are drawn as density."""
    browser.size(1280, 900)
    opened(browser, os.path.join(folder, 'many.transcript'))
    browser.click('#tab-inputs')
    starts = [browser.run(RANGE)[0]]
    for keys in ('-', '-', KEYS['left'], KEYS['left'], '0'):
        browser.type('#waves', keys)
        starts.append(browser.run(RANGE)[0])
    check.holds('the times that are seen begin at 0 or later', min(starts) >= 0, starts)
    pasted(browser, dense_log())
    browser.click('#tab-inputs')
    heights = browser.run(COLUMNS, 0)
    quarter = len(heights) // 4
    sparse, dense = max(heights[quarter // 2:quarter]), max(heights[-quarter:-quarter // 2])
    check.holds('five times as many transitions are drawn higher', 0 < sparse * 3 <= dense, (sparse, dense))
    check.holds('and the scale is said', 'a full bar is' in words_in(browser, '#range'))
    few = browser.run(COLUMNS, 1)
    check.holds('an input with few transitions has its line', few.count(1) + few.count(2) > len(few) // 3, few[:40])


# Keeps what is written on the axis.
WRITTEN = '''window.axis = []; const write = CanvasRenderingContext2D.prototype.fillText;
CanvasRenderingContext2D.prototype.fillText = function (text, ...at) { if (this.canvas.className === "axis") window.axis.push(text); return write.call(this, text, ...at); };'''
# A block with the stamp 1,000, and one with 9,000, by lines with other clocks; and the seconds that these show at the stamp 0.
AXES = [('%s TX 3605\n%s RX b605018003e700000003e8\n%s TX 3606\n%s RX b6060180232700000002328\n'.replace('000002328', '00002328'), clocks, zero) for clocks, zero in (
    (('07:15:02.100', '07:15:02.108', '07:15:10.100', '07:15:10.108'), 7 * 3600 + 15 * 60 + 1.108),
    (('11:59:58 PM', '11:59:58 PM', '12:00:06 AM', '12:00:06 AM'), 86397), (('0.100', '0.108', '8.100', '8.108'), -0.892))]
# The waveforms as they are saved, and as they are seen: the size of both, and whether the pixels of the lanes are the same.
SAVED_PICTURE = '''window.picture = null; const made = URL.createObjectURL, lanes = document.getElementById("waves"), head = document.querySelector(".axis");
HTMLAnchorElement.prototype.click = () => {};
URL.createObjectURL = (blob) => { URL.createObjectURL = made; createImageBitmap(blob).then((it) => {
    const canvas = document.createElement("canvas"); Object.assign(canvas, { width: it.width, height: it.height });
    const paint = canvas.getContext("2d"); paint.drawImage(it, 0, 0);
    const seen = lanes.getContext("2d").getImageData(0, 0, lanes.width, 22).data, whole = paint.getImageData(0, head.height, lanes.width, 22).data;
    window.picture = [blob.type, it.width - lanes.width, it.height - lanes.height - head.height, seen.every((value, place) => value === whole[place])]; });
    return "data:,"; };
document.getElementById("save-waves").click();'''


def check_axis(check, browser, _):
    """Where the log has times the axis has its clock; the waveforms are saved as a picture."""
    started(browser)
    browser.run(WRITTEN)
    for text, clocks, zero in AXES:
        pasted(browser, text % clocks)
        browser.run('window.axis = []')
        browser.click('#tab-inputs')
        browser.wait('return window.axis.length > 4')
        seen = browser.run('return window.axis')
        pairs = [(float(one.replace(',', '')), other) for one, other in zip(seen, seen[1:]) if re.fullmatch('[\\d,]+', one) and '.' in other]
        shown = [sum(float(part) * 60 ** place for place, part in enumerate(reversed(other.split(':')))) for _, other in pairs]
        wrong = [pair for pair, seconds in zip(pairs, shown) if abs((seconds - pair[0] / 1000 - zero) % 86400) not in (0, 86400) and abs(seconds - pair[0] / 1000 - zero) % 86400 > 0.002]
        check.holds('the clock of %s on the axis' % clocks[0], len(pairs) > 2 and not wrong, (seen, wrong))
        check.holds('and where the range begins and ends', len(re.findall(r'\d\.\d{3}', words_in(browser, '#range'))) == 2, words_in(browser, '#range'))
    browser.run(SAVED_PICTURE)
    check.equal('the picture that is saved', ['image/png', 0, 0, True], browser.wait('return window.picture'))
    pasted(browser, '> 3605\n< b605018003e700000003e8\n')
    browser.run('window.axis = []')
    browser.click('#tab-inputs')
    browser.wait('return window.axis.length > 4')
    check.holds('a log without times has no clock', 'clock' not in browser.run('return window.axis'))


TIMES = [('an epoch', '{"ts": 1795331702.108, "data": "3605"}\n{"ts": 1795331702.120, "data": "b605000000000001"}\n', ['07:15:02.108', '07:15:02.120']),
         ('a time after the year 9999', '{"ts": 3e11, "data": "3605"}\n{"ts": 1, "data": "b605000000000001"}\n', ['', '']),
         ('midnight', '23:59:59.999 TX 36 05\n00:00:00.001 RX B6 05 00 00 00 00 00 01\n', ['23:59:59.999', '00:00:00.001']),
         ('seconds', '(1795331702.108) TX 36 05\n(1795331702.110) RX B6 05 00 00 00 00 00 01\n', ['07:15:02.108', '07:15:02.110']),
         ('octets between colons', ''.join('0.%d63,0x02,36:0%d\n0.%d65,0x81,b6:0%d:00:00:00:00:00:01\n' % (number, number, number, number) for number in range(3)),
          ['0.063', '0.065', '0.163', '0.165', '0.263', '0.265']),
         ('a time two lines above', ''.join('[29/11/2026 07:00:00.%d] %s data (COM3)\n\n    %s\n\n' % row for row in (
             (163, 'Written', '36 05'), (165, 'Read', 'b6 05 00 00 00 00 00 01'), (263, 'Written', '36 06'), (265, 'Read', 'b6 06 00 00 00 00 00 64'))),
          ['07:00:00.163', '07:00:00.165', '07:00:00.263', '07:00:00.265'])]


def check_times(check, browser, _):
    """The times of odd logs, and how long after its command an answer came."""
    for title, text, expected in TIMES:
        pasted(browser, text)
        check.equal(title, expected, [row[1] for row in browser.run(CELLS)])
    after = {}
    for title, text, _ in TIMES[1:3] + [('', '12:00:01 TX 36 05\n12:00:00 RX B6 05 00 00 00 00 00 01\n', [])]:
        pasted(browser, text)
        browser.click('#row-1')
        after[title] = words_in(browser, '.detail .soft')
    check.holds('an answer after midnight', '2.000 ms after the command' in after['midnight'], after)
    check.holds('an answer whose command has no time', 'after the command' not in after['a time after the year 9999'], after)
    check.holds('an answer with an earlier time than its command', 'before that of the command' in after[''], after)


def check_ladder(check, browser, _):
    """The run as a picture: which messages are lost, and what each end does; saved as a file of its own."""
    started(browser)
    browser.click('#tab-play')
    browser.click('[data-story="lost-answer.script"]')
    drawn = browser.run("""return [".lad-whole", ".lad-lost", ".lad-again"].map((it) => document.querySelectorAll("#ladder line" + it).length)
        .concat([...document.querySelectorAll("#ladder text")].map((it) => it.textContent))""")
    # By the comments of the script: four commands and two answers arrive, two answers never do, and one arrives once more.
    check.equal('the messages of an answer that is lost', [6, 2, 1], drawn[:3])
    for words in ('block 255 entries 1 status 02 stamp 1, E: sent again', 'waits for another block: records nothing', 'records 1 change', '1 scan: 1 change waits'):
        check.holds('the picture says %s' % words, words in drawn, drawn)
    check.holds('the story is shown', 'The answer to the first poll 255 is lost.' in words_in(browser, '#play-story'))
    root = ElementTree.fromstring(saved(browser, 'save-ladder'))
    check.equal('the picture that is saved', '{http://www.w3.org/2000/svg}svg', root.tag)
    browser.click('[data-story="restart.script"]')
    texts = browser.run('return [...document.querySelectorAll("#ladder text")].map((it) => it.textContent)')
    check.holds('a poll that comes again has its number', 'poll block 0 once more' in texts, texts)
    browser.click('#play-anew')
    browser.click('#poll')
    browser.click('#to-module li:first-child button:last-child')
    check.equal('what is lost is marked', 1, browser.run('return document.querySelectorAll("#ladder line.lad-lost").length'))


CHECKS = (check_verdict, check_order, check_no_log, check_ways, check_stories, check_labels, check_inputs, check_axis, check_times, check_ladder)
