"""What the page says of a log by the library's judge: restarts of the module, what is not judged and why, what kind of log it is, and the
same answer, breaches, restarts and counts as `fiolog check`."""

import glob
import json
import os
import re

from support.damage import DAMAGED
from support.fiolog import LIBRARY, fiolog
from support.kinds import KINDS, LEFT_OUT, SIGNS, blocks, polls
from support.opened import CELLS, FINISHED, OPEN_ALL, RUN_ADDED, open_with, pasted, text_of, words_in
from support.page_stations import PAIR, SIZES, STATIONS, heard
from support.strangers import READ
from support.tables import TOP

# The kind of the verdict, all that it says, and what is not judged.
SAID = '''const it = document.getElementById("not-judged");
return [document.getElementById("verdict").dataset.kind, document.getElementById("verdict-text").textContent, it ? it.textContent : ""]'''
# The breaches and the restarts in the rows, each with its line; what is not judged; all that the verdict says; and what is said first, of each
# station if there are several.
FOUND = '''const it = document.getElementById("not-judged"), rule = (row) => row.children[4].textContent.split(":")[0];
const found = [...document.querySelectorAll(".line.broken, .line.restarted")].map((row) =>
    [Number(row.children[0].textContent), row.matches(".broken") ? rule(row) : "restarted"]);
const said = document.querySelectorAll("#stations li, #answer");
return [found, it ? it.textContent : "", document.getElementById("verdict").textContent, [...said].map((one) => one.textContent)]'''
# How the page says each count that `fiolog check --json` has by this name.
COUNTS = {
    'frames_above_a_command': r'([\d,]+) messages? above the first command',
    'frames_not_at_the_cpu': r'([\d,]+) messages? (?:is|are) not judged, since this log was not taken at the CPU',
    'frames_below_loads': r'([\d,]+) messages? (?:is|are) not judged, since a load of the counter',
    'losses_of_sync': r'([\d,]+) loss(?:es)? of sync',
    'frames_at_losses_of_sync': r'([\d,]+) messages? from there to the next poll',
}

STATUS = '> 34\n< b4000000000000000000000001\n'
# The counter shows 21 ms, then 11.
LATER, EARLIER = '> 3600\n< b600000000000015\n', '> 3601\n< b60100000000000b\n'
BACK = LATER + EARLIER
RESTARTED = 'the module restarted, or the stamp is wrong: its counter went back'
LOAD, CUT, DONE = '> 3200000000\n', '> 320\n', '< b200\n'
AGAIN = '%s 3605\n%s b605000000000001\n%s 3605\n%s b605000200000001\n'
# A log, the kind of its verdict, what that says, and what is not judged, by its name: by hand, from the rules of the judge.
LOGS = [
    ('a restart', BACK, 'restarted', ['Line 4: ' + RESTARTED, 'No rule is broken in the 4 messages that could be judged', 'look at its supply'], {'losses_of_sync': 1}),
    ('what is below a restart, up to the next poll', BACK + STATUS + '> 3602\n< b60200000000000c\n', 'restarted', ['in the 6 messages that'],
     {'losses_of_sync': 1, 'frames_at_losses_of_sync': 2}),
    ('two restarts', BACK + '> 3602\n< b602000000000015\n> 3603\n< b60300000000000b\n', 'restarted', ['2 restarts. The first: line 4'], {'losses_of_sync': 2}),
    ('an answer that comes late', '> 34\n> 3605\n< b6050000000003e8\n< b40000000000000000000003e7\n', 'restarted', ['Line 4: ' + RESTARTED, 'Answers may have come late or twice'],
     {'losses_of_sync': 1}),
    ('a breach below the poll below a restart', BACK + '> 3602\n< b60300000000000c\n', 'broken',
     ['Module: line 6 breaks the rule number', 'Line 4: ' + RESTARTED], {'losses_of_sync': 2}),
    ('a watchdog that is forgotten', LATER + '> 3a32\n< ba00\n> 3a32\n< ba00\n', 'restarted', ['Line 6: the module restarted, or forgot its watchdog'], {'losses_of_sync': 1}),
    ('a load that was sent', LATER + LOAD + DONE + EARLIER, 'missing', ['in the 5 messages that'], {'frames_below_loads': 1, 'losses_of_sync': 1}),
    ('a load that a lost line may have been', LATER + CUT + DONE + EARLIER + STATUS + '> 3602\n< b60200000000000c\n', 'restarted', ['Only 3 messages of 10 could be judged'],
     {'frames_below_loads': 1, 'losses_of_sync': 2, 'frames_at_losses_of_sync': 3}),
    ('two steps back below one lost line', LATER + CUT + DONE + '> 3601\n< b601000000000016\n> 3602\n< b60200000000000b\n> 3603\n< b60300000000000a\n',
     'restarted', ['Line 10: ' + RESTARTED],
     {'frames_below_loads': 1, 'losses_of_sync': 3, 'frames_at_losses_of_sync': 1}),
    ('a block that is asked for again', AGAIN % tuple('><' * 2), 'broken', ['CPU: line 3 breaks the rule advance', 'If this is not the log of the CPU, log there.'], {'losses_of_sync': 1, 'frames_at_losses_of_sync': 1}),
    ('the same at the module', AGAIN % tuple('<>' * 2), 'few', ['in the 3 messages that'], {'frames_not_at_the_cpu': 1}),
    ('two damaged lines, one below the other', '> 3605\n< b6050\n< b6050\n' + STATUS + '> 3606\n< b606000000000002\n> 3607\n< b607000000000003\n', 'unjudged', ['Only 4 messages of 9 could be judged'],
     {'losses_of_sync': 1, 'frames_at_losses_of_sync': 2}),
    ('a log without directions', '36ff\nb6ff010000010200000001\n', 'few', ['does not say who sent'], {}),
    ('a log with a bad line', '> 36ff\n> 36f\n< b6ff010000010200000001\n> 3600\n< b600000000000002\n', 'unjudged',
     ['Only 2 messages of 5', '1 line could not be read as a message and is not judged'], {'losses_of_sync': 1, 'frames_at_losses_of_sync': 1}),
    ('a log of the bus', '3605\nb605000000000001\n3605\n', 'few', ['1 message is not judged, since this log was not taken at the CPU'], {'frames_not_at_the_cpu': 1}),
    ('answers below a breach', '> 36fe\n< b6fe000000000001\n> 36ff\n< b605000000000001\n< b605000000000001\n', 'broken',
     ['1 loss of sync, at a breach: 1 message from there to the next poll is not judged'], {'losses_of_sync': 1, 'frames_at_losses_of_sync': 1}),
    ('an answer alone', 'b605018c4121000000416a\n', 'unjudged', ['1 message above the first command is not judged'], {'frames_above_a_command': 1}),
    ('a log that begins with an answer', '< b605000000000001\n> 3606\n< b606000000000002\n', 'partly', ['1 message above the first command is not judged'],
     {'frames_above_a_command': 1}),
    ('a breach above the first poll', '> 34\n< b605000000000001\n> 3606\n< b606000000000002\n', 'broken', ['in the middle of traffic'], {'losses_of_sync': 1}),
    ('one poll, over and over', '> 36 05\n' * 8, 'few', ['No answer came: the module is silent, or its direction was not logged'], {}),
    ('a line that may be a message', 'TX 36 05\nRX B6 05 00 00 00 00 00 01\nmemory at b6 05 00 00\nRX B6 05 00 02 00 00 00 01\nTX 36 06\n', 'unjudged',
     ['Only 2 messages of 5', '1 line may be a message, and has no form of this log'], {'losses_of_sync': 1, 'frames_at_losses_of_sync': 1}),
    ('octets beside a message', 'TX 36 05\nRX B6 05 00 00 00 00 00 01\nTX 36 06\nRX B6 06 00 00 00 00 00 02 and b6 09 00\nTX 36 09\n', 'partly',
     ['1 line could not be read as a message and is not judged'], {'losses_of_sync': 1, 'frames_at_losses_of_sync': 1}),
    ('a log of which less than half is judged', '> 3605\n< b605000000000001\n> 36f\n' + STATUS * 2, 'unjudged', ['1 line could not be read'],
     {'losses_of_sync': 1, 'frames_at_losses_of_sync': 4}),
    ('answers that come late', '> 3605\n> 3605\n< b605000000000001\n< b605000200000001\n> 3606\n< b606000000000002\n', 'unjudged', ['Answers came late in this log'], {}),
    ('such answers, and a breach', '> 3605\n> 3605\n< b605000000000001\n< b605000200000001\n> 3606\n< b606000000000002\n> 3608\n', 'broken',
     ['2 messages of 7 break a rule, the first one of the module: line 4 breaks the rule pair', 'Answers may have come late or twice'], {'losses_of_sync': 2}),
    ('a log of the other end', '07:15:02.100 RX 36 05\n07:15:02.106 TX B6 05 00 00 00 00 00 01\n', 'few', [], {}),
    ('commands alone', ''.join('> 36%02x\n' % number for number in range(8)), 'unjudged', ['This log has the commands alone'], {}),
    ('answers alone', ''.join('< b6%02x000000000001\n' % number for number in range(5)), 'unjudged', ['This log has the answers alone'], {}),
]


def counts_in(words):
    """What is not judged, by its name."""
    found = {name: re.search(form, words) for name, form in COUNTS.items()}
    return {name: int(one[1].replace(',', '')) for name, one in found.items() if one}


def check_logs(check, browser, _):
    """The verdict on each of these logs, and what is not judged."""
    for title, text, kind, says, counts in LOGS:
        pasted(browser, text)
        got, verdict, not_judged = browser.run(SAID)
        check.equal('%s: the verdict' % title, (kind, []), (got, [words for words in says if words not in verdict + not_judged]))
        check.equal('%s: what is not judged' % title, counts, counts_in(not_judged))


def check_sources(check, browser, _):
    """Beside a breach are the sources of its rule, as docs/PROTOCOL.md has them of the answer to a load, and of a block's number."""
    for name, text, words in (('a load that is refused', LATER + '> 32000000ff\n< b201\n', 'Source: behaviour own profile, layout own profile.'),
                              ('another number', LATER + '> 3601\n< b6020000000003e8\n', 'Source: behaviour TEES 2009, layout TEES 2009.')):
        pasted(browser, text)
        browser.click('#first-breach')
        check.equal('the sources: ' + name, words, words_in(browser, '#rule-source'))


def check_restart(check, browser, _):
    """A restart is marked at its message, which says what to do, and can be chosen among the messages."""
    pasted(browser, BACK)
    check.equal('the row of a restart', [[[4, 'restarted']], RESTARTED], [browser.run(FOUND)[0], words_in(browser, '.line.restarted .rule')])
    browser.click('#first-breach')
    detail = words_in(browser, '.detail')
    check.holds('and its message', all(words in detail for words in ('Line 4', 'T' + RESTARTED[1:] + '.', 'has P', 'configure its inputs')), detail)
    browser.click('[data-fact="restarts"]')
    check.equal('restarts alone', ['1 restart', 1], browser.run(
        'return [document.querySelector("[data-fact=restarts]").textContent, document.querySelectorAll(".line").length]'))
    pasted(browser, BACK.replace('b60000', 'b600018c0014'))
    browser.click('#tab-inputs')
    check.holds('the record says it', 'The first restart: line 4.' in words_in(browser, '#record-note'))


# Judges a text with these marks above its messages, by the calls: the lines of breaches, and the counts of messages without a judgement.
JUDGED = FINISHED + '''window.judged = async (text, marks) => {
    const library = new Library(await startMachine(BUILDS)), found = finished(readLog(library, new LogReader(library), new TextEncoder().encode(text), LOG_FORMS.auto));
    for (const [place, mark] of marks) found.marks[place] |= MARKS[mark];
    const { breaches, lines, judging, verdict } = finished(new Log(library, new Arena(library), "marked", found, ENDS.auto).work());
    return [[...breaches.keys()].map((place) => lines[place]), judging.losses, judging.unjudged[WHY.placeLost], verdict.notJudged.join(" ")]; }'''
# The CPU goes on without the answer to its poll; and an answer comes twice.
SKIPS = '> 3605\n< b605000000000001\n> 3606\n> 3607\n< b607000000000003\n> 3608\n< b608000000000004\n'
TWICE = PAIR + '< b605000000000001\n> 3606\n< b606000000000002\n'
MARKS = [
    ('no remark', SKIPS, [], [4], 1, 1), ('a remark of loss', SKIPS, [[3, 'loss']], [], 0, 0), ('one above a poll', SKIPS, [[0, 'loss']], [4], 1, 1),
    ('a heading', SKIPS, [[3, 'heading']], [], 1, 0), ('an answer twice', TWICE, [], [3], 1, 0), ('with a remark of loss', TWICE, [[2, 'loss']], [], 0, 1),
    ('below a heading', TWICE, [[2, 'heading']], [], 1, 1), ('a heading at the end', PAIR, [[2, 'heading']], [], 0, 0),
]


# Lines that say so.
WORDS = {'loss': '3 frames lost\n', 'heading': '---- part 2 ----\n'}


def check_marks(check, browser, folder):
    """What remarks of loss and headings do, which lines without octets say: by the calls, and in a log."""
    open_with(browser, folder, JUDGED)
    for title, text, marks, broken, losses, count in MARKS:
        browser.run(RUN_ADDED, JUDGED, text, marks)
        found = browser.wait('return window.found')
        check.equal(title, [broken, losses, count], found[:3])
        check.equal('%s is said' % title, {key: number for key, number in (('losses_of_sync', losses), ('frames_at_losses_of_sync', count)) if number and losses},
                    counts_in(found[3]))
        if not marks:
            continue
        [(place, mark)], lines = marks, text.splitlines(True)
        pasted(browser, ''.join([*lines[:place], WORDS[mark], *lines[place:]]))
        seen, not_judged, *_ = browser.run(FOUND)
        check.equal('%s, as a line' % title, ([line + (line > place) for line in broken], counts_in(found[3])),
                    ([line for line, _ in seen], counts_in(not_judged)))


def check_kinds(check, browser, _):
    """What a log looks like is the verdict, in the words of `fiolog check`, and no rule is judged; of a log of one link rules are."""
    for title, (lines, sign) in KINDS.items():
        pasted(browser, ''.join([polls(99), *lines, polls(99), blocks(98)] if sign else lines))
        words, (kind, verdict, _) = SIGNS.get(sign, ''), browser.run(SAID)
        if sign:
            check.equal('%s: what it looks like' % title, ('unjudged', words[0].upper() + words[1:] + '.', []), (kind, verdict, browser.run(FOUND)[0]))
        else:
            check.equal('%s: it looks like one link' % title, [], [words for words in SIGNS.values() if words[1:] in verdict])


def by_fiolog(text):
    """The same by `fiolog check`: breaches, restarts, the counts that the page has too, its words for the first breach, and what it says first."""
    lines = [json.loads(line) for line in fiolog('check', '--json', text=text).out.splitlines()]
    counts = lines[-1].get('summary', {}).get('not_judged', {}) if lines else {}
    return ([[line['line'], line.get('rule') or line['outcome']] for line in lines if 'line' in line],
            {name: counts[name] for name in COUNTS if counts.get(name)}, lines[0].get('says') if lines else None,
            lines[-1].get('summary', {}).get('answer', {}).get('says', '').split('\n') if lines else [])


def check_as_fiolog(check, browser, _):
    """The breaches, the restarts and what is not judged of each log are those of `fiolog check`, and the first breach is in its words."""
    if not os.path.exists(LIBRARY):
        check.skip('what fiolog finds', 'no libfio2070.so here (make library)')
        return
    texts = [(os.path.basename(path), text_of(os.path.relpath(path, os.path.join(TOP, 'examples'))))
             for ending in ('*.frames', '*.transcript', 'captures/*.txt') for path in sorted(glob.glob(os.path.join(TOP, 'examples', ending)))]
    texts = [(base, text) for base, text in texts if '\0' not in text]
    texts += [(title, text) for title, (text, *_) in LEFT_OUT.items()]
    texts += [(title, text) for title, text, *_ in READ[:40] + DAMAGED + LOGS + SIZES] + [(title, heard(*frames)) for title, frames, *_ in STATIONS]
    browser.run(OPEN_ALL.replace(CELLS, FOUND), [text for _, text in texts])
    browser.wait('return window.tables !== null')
    for (title, text), (found, not_judged, said, first) in zip(texts, browser.run('return window.tables')):
        *judged, words, answers = by_fiolog(text)
        check.equal('%s as fiolog judges it' % title, judged, [found, counts_in(not_judged)])
        if words:
            check.holds('%s in the words of fiolog' % title, words in said, said)
        parts = [re.fullmatch(r'(address \w\w: )?(.*)', one).groups('') for one in answers]
        check.holds('%s: what is said first is that of fiolog' % title, not parts or len(parts) == len(first) and all(
            words and address in got and words in got for (address, words), got in zip(parts, first)), (answers, first))


CHECKS = (check_logs, check_sources, check_restart, check_marks, check_kinds, check_as_fiolog)
