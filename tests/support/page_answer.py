"""What the page says first of a log: whether transitions are lost, where and why; its colour; the seams as bands over the waveforms, with the
reason at the pointer; and that these are the words of `fiolog check`."""

from support.kinds import KINDS, blocks, polls
from support.opened import CELLS, RANGE, example, pasted, words_in

CONFIGURATION = ['> 3310' + ''.join('%02x0505' % named for named in range(16)), '< b300']
# Entries of a full block, of 16 inputs, each 20 ms after the one before.
FULL = ''.join('%02x%04x' % (place % 16 | place // 16 % 2 << 7, 2500 + place // 16 * 20) for place in range(255))
MORE_AND_LOST = 0x0c


def block(number, stamp, entries='', status=0):
    return 'b6%02x%02x%s%02x%08x' % (number, len(entries) // 6, entries, status, stamp)


def log(*lines):
    """A log with a line each second; a poll is above each block."""
    said = []
    for line in lines:
        said += ['> 36' + line[2:4], '< ' + line] if line.startswith('b6') else [line]
    return ''.join('07:00:%02d.000 %s\n' % pair for pair in enumerate(said))


def cabinet_log():
    """The log of a cabinet: a CPU polls 16 inputs with filters of 5 each 50 ms, and once 3.2 s late. Inputs 0 to 3 change in turn, each 50 ms
    one; in the 3.2 s all change so fast that the module's buffer overflows. What is in line 44 and below it may be lost."""
    states, lines, now = [1] * 16, [], 0

    def write(after, side, digits):
        lines.append('07:08:%02d.%03d %s %s\n' % ((now + after) // 1000, (now + after) % 1000, side, bytes.fromhex(digits).hex(' ').upper()))

    def entry(named, time):
        states[named] ^= 1
        return '%02x%04x' % (named | states[named] << 7, time)

    for (side, line), after in zip(map(str.split, CONFIGURATION), (0, 4)):
        write(after, 'TX' if side == '>' else 'RX', line)
    for number in range(40):
        now += 3200 if number == 20 else 50
        is_late = number == 20
        entries = [entry(place % 16, now - 200 + place // 16 * 6) for place in range(255)] if is_late else [entry(number % 4, now - 20)]
        write(0, 'TX', '36%02x' % number)
        write(3, 'RX', block(number, now, ''.join(entries), MORE_AND_LOST if is_late else 0))
    return ''.join(lines)


FIRST, SECOND, THIRD = block(5, 1000, '0303e8'), block(6, 2000, '8307d00407d0'), block(7, 6000)
OVERFLOWN = block(7, 3000, FULL, MORE_AND_LOST)
BROKEN_OFF = log(FIRST, SECOND, '> 3607', '< b607', block(8, 7000))
PLAN = 'For 16 inputs with filter 5 a poll each 79 ms is often enough, and an outage of 320 ms loses nothing (plan).'
RESTARTED = 'The module was restarted once; what waited in it then is not recorded.'
# A log, the kind of its verdict, what is said first, the colour of that, and what is said then: by hand. The pace is that of docs/PLANNING.md, and
# 1,024 entries wait at most, 64 of each of 16 inputs, one in 5 ms.
LOGS = [
    ('nothing lost', log(FIRST, SECOND, THIRD), 'good', 'Nothing is lost: 3 transitions from 07:00:01 to 07:00:05, each once.', 'good', 'No rule is broken in 6 messages.'),
    ('an answer lost', log(FIRST, '> 3606', block(6, 2000, '8307d0', 2)), 'good',
     'Nothing is lost: 2 transitions from 07:00:01 to 07:00:04, each once. 1 answer was lost, and asked for again.', 'good', 'No rule is broken in 5 messages.'),
    ('an overflow', log(*CONFIGURATION, FIRST, SECOND, OVERFLOWN), 'lost',
     "Transitions are lost at 1 place at least; in line 8, 07:00:07: the module's buffer overflowed, 2.0 s after the poll before. " + PLAN, 'warn', 'No rule is broken in 8 messages.'),
    ('a cabinet', cabinet_log(), 'lost', "Transitions are lost at 1 place at least; in line 44, 07:08:04: the module's buffer overflowed, 3.2 s after the poll before. " + PLAN, 'warn',
     'No rule is broken in 82 messages.'),
    ('an overflow in the only block', log(OVERFLOWN), 'lost', "Transitions are lost at 1 place at least; in line 2, 07:00:01: the module's buffer overflowed.", 'warn', 'No rule is broken in 2'),
    ('a block that is not in the log', BROKEN_OFF, 'missing', 'Nothing is lost in what this log has, 33.3 % of the time; at 1 place at least 1 block is not in it.', 'warn',
     'No rule is broken in the 7 messages that could be judged.'),
    ('a restart', log(FIRST, SECOND, block(7, 10)), 'restarted', 'Nothing is lost in what this log has, 50.0 % of the time. ' + RESTARTED, 'warn', 'Line 6: the module restarted'),
    ('a breach', log(FIRST, SECOND, block(7, 3000, '830bb8')), 'broken',
     'Nothing is lost in what this log has, 50.0 % of the time. At 1 place entries are not to be believed (below).', 'bad', 'Module: line 6 breaks the rule alternate'),
    ('a poll that is passed over', log(FIRST, SECOND, '> 3607', block(8, 7000, status=1)), 'broken',
     'Nothing is lost: 3 transitions from 07:00:01 to 07:00:06, each once. 1 poll had no answer.', 'bad', 'CPU: line 6 breaks the rule advance'),
    ('one block', log(FIRST), 'few', 'Too few blocks to say.', 'line', 'No rule is broken in 2 messages.'),
    ('two links', ''.join([polls(99), *KINDS['two links'][0], polls(99), blocks(98)]), 'unjudged', 'This log is not of one link in order, so nothing is said.', 'warn', 'This log looks like'),
]
# The kind of the verdict, the text of the answer below its mark, the colour of the frame, its name, and what rules say.
SAID = '''const it = document.getElementById("verdict"), style = getComputedStyle(it), probe = document.createElement("i");
const named = ["good", "warn", "bad", "line"].find((name) => { probe.style.color = style.getPropertyValue("--" + name); it.append(probe);
    return getComputedStyle(probe).color === style.borderRightColor; }); probe.remove();
return [it.dataset.kind, document.getElementById("answer").textContent.slice(2), named, document.getElementById("verdict-text").textContent]'''


def check_answers(check, browser, _):
    """What is said first, in the colour of its kind, by day and by night; then what rules say."""
    for title, text, kind, says, colour, rules in LOGS:
        pasted(browser, text)
        for theme in ('dark', 'light'):
            browser.run('document.documentElement.dataset.theme = arguments[0]', theme)
            *got, said = browser.run(SAID)
            check.equal('%s: what is said first (%s)' % (title, theme), ([kind, says, colour], True), (got, rules in said))
    pasted(browser, LOGS[2][1])
    check.equal('a way to the first seam', 'Show line 8', words_in(browser, '#first-breach'))
    check.equal('F is before C', 'F: entries were pushed out; C: more entries wait', browser.run(CELLS)[-1][4])
    browser.click('[data-fact="seams"]')
    check.equal('seams alone', ['8'], [row[0] for row in browser.run(CELLS)])
    pasted(browser, BROKEN_OFF)
    check.equal('the note of a seam', 'at least 1 block is not in the log above', browser.run(CELLS)[-1][4])
    example(browser, 'two-stations.txt')
    stations = browser.run('return [...document.querySelectorAll("#stations li")].map((it) => it.textContent)')
    check.equal('of each station', [['address 14: 4 messages. Nothing is lost: no transition. '], ['address 15: 4 messages. Nothing is lost in what this log has, ']],
                [[one[:len(begin)] for begin in (['address 14: 4 messages. Nothing is lost: no transition. '], ['address 15: 4 messages. Nothing is lost in what this log has, '])[place]]
                 for place, one in enumerate(stations)])


# The columns of the lanes that have the colour of a kind below the first lane's line and below the last one's; and what is said at the pointer there,
# in their middle, and far from them.
BAND = '''const canvas = document.getElementById("waves"), paint = canvas.getContext("2d"), [kind] = arguments, probe = document.createElement("i");
probe.style.color = getComputedStyle(canvas).getPropertyValue(`--${kind}-back`); canvas.after(probe);
const wanted = getComputedStyle(probe).color.match(/\\d+/g).join(); probe.remove();
const isIn = (x) => [20, canvas.height - 10].every((y) => paint.getImageData(x, y, 1, 1).data.slice(0, 3).join() === wanted);
const found = Array.from({ length: canvas.width - 72 }, (_, place) => place + 72).filter(isIn), { left, top } = canvas.getBoundingClientRect();
const said = (x) => { canvas.dispatchEvent(new PointerEvent("pointermove", { clientX: left + x, clientY: top + 20, pointerId: 9 })); return canvas.title; };
return [found[0], found.at(-1), said((found[0] + found.at(-1)) / 2), said(found[0] - 20), canvas.width]'''
# Bands: the log, the kind of their colour, the milliseconds in which they are, and the reason.
BANDS = [
    (log(FIRST, SECOND, OVERFLOWN), 'bad', (2000, 2500), "Line 6: the module's buffer overflowed: transitions are lost above"),
    (log(FIRST, SECOND, '> 3607', '< b607', block(8, 7000, '831770')), 'warn', (2000, 6000), 'Line 8: at least 1 block is not in the log above'),
]


def check_bands(check, browser, _):
    """A seam is a band from the block above it to the first entry below, over all lanes; its reason is at the pointer, and what a click reads."""
    browser.size(1280, 900)
    for text, kind, times, says in BANDS:
        pasted(browser, text)
        browser.click('#tab-inputs')
        start, end, said, beside, width = browser.run(BAND, kind)
        first, last = browser.run(RANGE)
        seen = [first + (x - 72) / (width - 72) * (last - first) for x in (start, end)]
        check.holds('the band of: ' + says, all(abs(got - time) < (last - first) / 50 for got, time in zip(seen, times)), (seen, times))
        check.equal('at the pointer: ' + says, (says, ''), (said, beside))
        browser.run('''const it = document.getElementById("waves"), { left, top } = it.getBoundingClientRect();
            it.dispatchEvent(new MouseEvent("click", { clientX: left + arguments[0], clientY: top + 20 }))''', (start + end) / 2)
        line = says.partition(':')[0]
        check.equal('a click reads: ' + says, '%s %s' % (says, line), words_in(browser, '#reading'))
        browser.click('#to-message')
        check.equal('and goes to %s' % line, line, words_in(browser, '.detail h2'))
        check.holds('which says it', says.partition(': ')[2][:20] in words_in(browser, '.detail .doubt').lower(), words_in(browser, '.detail .doubt'))


CHECKS = (check_answers, check_bands)
