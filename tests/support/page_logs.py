"""What the page shows of the lines of logs, beside what the library says by Python: frames with their octets, lines that may be a
message, damaged lines, times, and how many lines are passed over."""

import glob
import os
import re

from support.damage import DAMAGED
from support.fiolog import verdicts_on
from support.loggers import LOGGERS
from support.opened import ARROWS, CELLS, OPEN_ALL, choose, dropped, example, pasted, saved
from support.sessions import SESSION, timed
from support.strangers import BLOCK, DUMP, PASSED, READ
from support.tables import TOP, output_of

# How many octets a row shows.
SHOWN_OCTETS = 40
# The rows of the log that is open, and what is said below the verdict.
SEEN = '''const rows = () => { %s }; return { rows: rows(), note: document.getElementById("note").textContent };''' % CELLS
POSSIBLE, BAD_LINE = 'what may have been a message, and no form of this log', 'damaged: bad line'
# The reasons of lines with octets that are in no frame, of which the page has a row above those of their frames.
DROPPED = 'more', 'broken'

# What is captured, and the messages that it has, by docs/CAPTURES.md.
CAPTURES = {
    'octets.txt': ['poll block 5', 'block 5 entries 1 status 00 stamp 1000', 'poll block 6', 'block 6 entries 0 status 00 stamp 1001'],
    'serial-log.txt': ['poll block 255', 'poll block 255', 'block 255 entries 1 status 02 stamp 1', 'poll block 0',
                       'block 0 entries 1 status 00 stamp 2', 'poll block 0', 'block 0 entries 1 status 02 stamp 2'],
    'module-log.txt': ['poll block 5', 'block 5 entries 0 status 00 stamp 1000', 'poll block 6', 'block 6 entries 1 status 00 stamp 1020'],
    'powershell.txt': ['poll block 5', 'block 5 entries 0 status 00 stamp 1000'],
}


def check_captures(check, browser, _):
    """Logs of other tools give their messages, with directions and times."""
    for capture, words in CAPTURES.items():
        example(browser, capture)
        rows = [row for row in browser.run(CELLS) if row[5] != ''][:len(words)]
        check.equal(capture, words, [row[3] for row in rows])
        if capture != 'octets.txt':
            arrows = [ARROWS['>' if word.startswith('poll') else '<'] for word in words]
            check.equal('the directions of %s' % capture, arrows, [row[2] for row in rows])
    check.equal('a time of powershell.txt', '07:15:02.108', rows[1][1])


def logs():
    """The logs: a title and the text of each."""
    frames = timed(SESSION)
    yield from ((form, written(frames)) for form, written in LOGGERS.items())
    yield from ((title, text) for title, text, _ in READ + PASSED)
    yield from ((title, text) for title, text, *_ in DAMAGED)
    for path in sorted(glob.glob(os.path.join(TOP, 'examples', 'captures', '*.txt'))):
        with open(path, 'rb') as file:
            octets = file.read()
        yield os.path.basename(path), octets.decode('utf-16' if octets.startswith(b'\xff\xfe') else 'utf-8')


def row_of(verdict, octets):
    """A frame as its row shows it: line, whether there is a time, direction, whether it is of no form, and octets."""
    arrow = ARROWS['<' if octets[0] >= 128 else '>']
    digits = octets[:SHOWN_OCTETS].hex() + '…' * (len(octets) > SHOWN_OCTETS)
    return [verdict.line, verdict.time is not None, arrow, False, digits]


def by_library(text):
    """The rows of a log, and how many lines are passed over, by the library."""
    rows, verdicts = [], verdicts_on(text.encode())
    for verdict in verdicts:
        rows += [[verdict.line, False, '', verdict.kind == 'possible', '']] * (verdict.kind in ('damaged', 'possible') or verdict.reason in DROPPED)
        rows += [row_of(verdict, octets) for octets in verdict.frames]
    return rows, sum(verdict.kind == 'passed over' and verdict.reason not in DROPPED for verdict in verdicts)


def by_page(seen):
    """The same by the page."""
    passed = re.search(r'([\d,]+) lines? skipped', seen['note'])
    return ([[int(row[0]), row[1] != '', row[2], POSSIBLE in row[4], row[5]] for row in seen['rows']],
            int(passed[1].replace(',', '')) if passed else 0)


def check_lines(check, browser, _):
    """Each log of another tool: the page shows what the definition finds."""
    wanted = [log for log in logs() if check.wants('the log %s' % log[0])]
    browser.run(OPEN_ALL.replace(CELLS, SEEN), [text for _, text in wanted])
    browser.wait('return window.tables !== null')
    for (title, text), seen in zip(wanted, browser.run('return window.tables')):
        check.equal('the log %s' % title, by_library(text), by_page(seen))


def verdict_on(browser, text):
    """The kind of the verdict on a text that is pasted, and all that it says."""
    pasted(browser, text)
    return browser.run('const it = document.getElementById("verdict"); return [it.dataset.kind, it.textContent]')


# Polls and their answers.
ROUNDS = ['> 36%02x\n< b6%02x0000%08x\n' % (number, number, number) for number in range(1, 9)]


def check_unsure(check, browser, _):
    """A line of no form that may be a message is shown; a damaged line is shown as it is written, and accuses nobody up to the next poll;
    a breach below is found."""
    kind, says = verdict_on(browser, ''.join(ROUNDS) + 'memory at b6050000\n')
    check.equal('a line of no form', [[17, False, '', True, '']], by_page({'rows': browser.run(CELLS), 'note': ''})[0][16:])
    check.holds('it is not judged', kind == 'partly' and '1 line may be a message' in says, (kind, says))
    poll, answer = ROUNDS[3].splitlines()
    for size in range(len('< b6'), len(answer)):
        # The module answers; the log has a part of it. The CPU goes on.
        kind, says = verdict_on(browser, ''.join(ROUNDS[:3]) + poll + '\n' + answer[:size] + '\n' + ''.join(ROUNDS[4:]))
        check.equal('an answer that is cut to %d characters accuses nobody' % size, 'missing', kind)
    seen = [row[3:5] for row in browser.run(CELLS) if row[5] == '']
    check.equal('a damaged line is shown as it is written', [[answer[:-1], 'damaged: octets that are no message']], seen)
    kind, says = verdict_on(browser, ''.join(ROUNDS[:3]) + poll + '\n' + answer[:9] + '\n' + ROUNDS[4].replace('< b605', '< b607') + ''.join(ROUNDS[5:]))
    check.holds('a breach below is found', kind == 'broken' and 'line 10 breaks' in says, (kind, says))


def check_dump(check, browser, _):
    """The frame of a dump is read, however the dump comes; as frames by order each line is what `show` says of it."""
    ways = {'pasted': pasted, 'dropped as text': dropped, 'dropped as a file': lambda *given: dropped(*given, 'dump.txt')}
    for way, give in ways.items():
        give(browser, DUMP)
        check.equal('a dump of one frame that is %s' % way, [[1, False, ARROWS['<'], False, BLOCK]],
                    by_page({'rows': browser.run(CELLS), 'note': ''})[0])
    choose(browser, form='frames')
    pasted(browser, DUMP)
    check.equal('a dump of one frame as frames by order', output_of('show', DUMP)[0], saved(browser))
    choose(browser, form='auto')
    browser.click('#as-any')
    check.equal('and as any log by a button', [BLOCK], [row[5] for row in browser.run(CELLS)])


# A text, and the cell of words of each line by the form in which it is read; a bad line is shown as it is written.
BY_ORDER = '> 3605\n> 33\nx\n< b605000000000001\n'
AS_TRANSCRIPT = ['poll block 5', 'wrong length needed 2 got 1', 'x', 'block 5 entries 0 status 00 stamp 1']


def check_order(check, browser, _):
    """A log is read as `check` reads it by order, or if it is named as a transcript; else by the definition."""
    for form, words in (('transcript', AS_TRANSCRIPT), ('frames', BY_ORDER.splitlines()), ('auto', None)):
        choose(browser, form=form)
        pasted(browser, BY_ORDER)
        rows = browser.run(CELLS)
        if words:
            check.equal('a text by order as %s' % form, words, [row[3] for row in rows])
            check.equal('its bad lines', [BAD_LINE] * (1 if form == 'transcript' else 4), [row[4] for row in rows if row[5] == ''])
        else:
            check.equal('and again as any log', by_library(BY_ORDER)[0], by_page({'rows': rows, 'note': ''})[0])


CHECKS = (check_lines, check_dump, check_order, check_unsure)
