#!/usr/bin/env -S python3 -B
"""What `fiolog` says where the module restarted, and what it does not judge where lines are lost: loads of the counter that may
have been in them, remarks of loss, headings, losses of sync. Logs of right links that restart, with loads, pauses and damage, are
accused of nothing. Last line: `N passed, M failed`."""

import json
import os
import random
import re
import tempfile

from support.check import Check
from support.fiolog import copied, fiolog, reading, use_library, written
from support.kinds import LOST

WORDS = 'the module restarted, or the stamp is wrong: its counter went back'
# The counter of the module is 1000, 1010 and then 10: it restarted above line 6. Up to the next poll, in line 9, nothing is judged.
ABOVE = ['> 3600', '< b6000000000003e8', '> 3601', '< b6010000000003f2']
RESTART = [*ABOVE, '> 3602', '< b60200000000000a', '> 35', '< b5ffffffffffffffff0000000b', '> 3603', '< b603000000000014']
# The same without the restart.
GOOD = [*ABOVE, '> 3602', '< b6020000000003fc']
# Below the poll of line 9 block 4 is due.
JUMP = ['> 3606', '< b60600000000001e']
# A line that may have held a frame; a load of the counter, and what is left of one in a damaged line.
DAMAGED, LOAD, CUT_LOAD = '< b6060000', ['> 3200000000', '< b200'], '> 320000'
BACK = ['> 3602', '< b60200000000000a', '> 3603', '< b603000000000014']
AGAIN = ['> 3604', '< b604000000000005']


def text_of(lines):
    """Lines as a text."""
    return '\n'.join(lines) + '\n'


def checked(lines, *words):
    """What `check` says of a log."""
    return fiolog('check', *words, text=text_of(lines))


def not_judged(lines, *words):
    """What is not judged in a log, by its reason."""
    return {name: count for name, count in checked(lines, '--json', *words).summary()['not_judged'].items() if count}


# The line and the first word of each breach or restart.
TOLD = r'^line (\d+: \w+)'


def check_short_lives(check):
    """A restart between stamps that rise is not seen: what waited is gone, and a rule accuses the module."""
    for name, lines, said in (
            ('a block without entries', ['> 3600', '< b600010c00050800000005', '> 3601', '< b601000000000009'], ['4: rest']),
            ('an entry', ['> 3600', '< b600010c00050000000005', '> 3601', '< b601018c00020000000009'], ['4: fresh'])):
        check.equal('below a restart that is not seen: ' + name, said, checked(lines, '--limits', '1', '1024').found(TOLD))


def check_check(check):
    """A restart is reported as a breach is, and is not counted as one: it has a status of its own."""
    done = checked(RESTART)
    check.equal('a restart', (['Nothing is lost in what this log has, 100.0 % of the time. The module was restarted once; what waited in it then is not recorded.',
                               'line 6: restarted: ' + WORDS, 'frames 10, polls 4, repeats 0, answers lost 0, gap marks 0, breaches 0, restarted 1',
                               'not judged: 1 loss of sync, 2 frames from a loss of sync to the next poll'],
                              'fiolog: module: restarted: once, in line 6. Look at its supply, and configure its inputs again.\n', LOST), (done.out.splitlines(), done.remarks, done.status))
    done = checked(RESTART, '--json')
    check.equal('its object', {'file': '-', 'line': 6, 'outcome': 'restarted', 'says': WORDS}, done.objects()[0])
    check.equal('the object of the summary', (0, 1, LOST), (done.summary()['breaches'], done.summary()['restarted'], done.status))
    done = checked(GOOD)
    check.equal('no restart', (0, False, 0), (done.status, 'restarted' in done.out + done.err, checked(GOOD, '--json').summary()['restarted']))
    for words in (['--rules', 'transcript'], ['--late-answers'], ['--no-loads'], ['--whole'], ['--at', 'module'], ['--at', 'bus'], ['--start-at-poll'],
                  ['--except', 'clock']):
        done = checked(RESTART, *words)
        check.equal('a restart, ' + ' '.join(words), (['6: restarted'], True, LOST),
                    (done.found(TOLD), 'breaches 0, restarted 1' in done.out, done.status))
    done = checked(RESTART + JUMP)
    check.equal('a breach below the next poll', (['6: restarted', '11: advance'], True, 1),
                (done.found(TOLD), 'breaches 1, restarted 1' in done.out, done.status))
    check.equal('a watchdog that is forgotten', ['line 4: restarted: the module restarted, or forgot its watchdog: it says that none was set before'],
                checked(['> 3a32', '< ba00'] * 2, '--format', 'transcript').found('^line .*'))


def check_others(check, folder):
    """The other commands that judge say it too."""
    paths = [written(folder, name, text_of(lines)) for name, lines in (
        ('good', GOOD), ('damaged', [*GOOD, DAMAGED]), ('restart', RESTART), ('jump', GOOD[:4] + JUMP), ('load', LOADS['a load that was sent'][0]))]
    *paths, load = paths
    rows = fiolog('check', '--json', *paths).objects()
    check.equal('a row of many logs: a restart is below breaches, and above damage', [('jump', 1, 0), ('restart', 0, 1), ('damaged', 0, 0), ('good', 0, 0)],
                [(os.path.basename(row['file']), row['breaches'], row['restarted']) for row in rows[:-1]])
    check.equal('the row of all', (1, 1, {'advance': 1}), tuple(rows[-1]['summary'][name] for name in ('breaches', 'restarted', 'rules')))
    table = fiolog('check', *paths[::2]).out.splitlines()
    check.equal('a table', (['file', 'breaches', 'restarted'], ['0', '1'], 'line 6: restarted'),
                (table[1].split()[:3], table[2].split()[1:3], table[2][-17:]))
    for command, *statuses in (('check', LOST, 1), ('stats', 0, 0)):
        check.equal('the status of %s' % command, tuple(statuses), (fiolog(command, *paths[::2]).status, fiolog(command, *paths[2:]).status))
    done = fiolog('live', '-q', '--fifo', paths[2])
    first, *_, last = done.out.splitlines()
    check.equal('live', ('line 6: restarted: ' + WORDS, ['breaches 0', 'breaches in content 0', 'restarted 1'], LOST),
                (first, last.split(', ')[-3:], done.status))
    done = fiolog('live', '-q', '--fifo', paths[0])
    check.equal('live without one', (0, False), (done.status, 'restarted' in done.out))
    done = fiolog('live', '-q', '--fifo', load)
    check.equal('live where a load may explain a stamp', (True, False, 0), (
        'frames whose stamps a load of the counter may explain 1' in done.out, 'restarted' in done.out, done.status))
    done = fiolog('record', '-q', text=text_of(RESTART))
    check.equal('record', ('line 6 restarted\n', 0), (done.out, done.status))
    done = fiolog('record', '-q', '--start-at-poll', paths[2], paths[2])
    check.equal('record of a file twice', 2, done.out.count('line 6 restarted'))


def check_record(check):
    """A restart is above the items of its block, in each form."""
    lines = ['> 3600', '< b600010c03e700000003e8', '> 3601', '< b601010c000900000000' + '0a']
    items = ['2:     input 12 state 0 stamp 999 wide 999', 'line 4 restarted', '4:     input 12 state 0 stamp 9 wide 9']
    check.equal('the table', items, fiolog('record', '-q', text=text_of(lines)).out.splitlines())
    check.equal('the text ends there', ['record 1', 'input 12 state 0 stamp 999 wide 999', 'line 4 restarted'],
                fiolog('record', '-q', '--text', text=text_of(lines)).out.splitlines())
    rows = fiolog('record', '-q', '--json', text=text_of(lines)).objects()
    check.equal('the objects', [(2, None), (4, 'restarted'), (4, None)], [(row['line'], row.get('outcome')) for row in rows])
    rows = [row.split(',') for row in fiolog('record', '-q', '--csv', text=text_of(lines)).out.splitlines()[1:]]
    check.equal('the rows', [('2', ''), ('4', 'restarted'), ('4', '')], [(row[2], row[-2]) for row in rows])


# Below a damaged line an entry is before the block above it.
EARLY = [*ABOVE, CUT_LOAD, '> 3602', '< b602010c03e8000000044c', '> 3603', '< b603018c03e7000000044d']
# A log, which breaches or restarts are reported in it and where, and what is not judged. (The answer knows no load but one that is in the
# log: in one of these it says a restart.)
LOADS = {
    'a load that was sent': ([*ABOVE, *LOAD, *BACK], [], {'frames_below_loads': 1, 'losses_of_sync': 1}),
    'it explains one stamp': ([*ABOVE, *LOAD, *BACK, *AGAIN], ['12: restarted'], {'frames_below_loads': 1, 'losses_of_sync': 2}),
    'one that a damaged line may have been': ([*ABOVE, CUT_LOAD, *BACK], [], {'damaged_lines': 1, 'frames_below_loads': 1, 'losses_of_sync': 2}),
    # The rules on content know no stamp above the first of them: so the load is used up by the second.
    'that explains two stamps at most': ([*ABOVE, CUT_LOAD, *BACK, *AGAIN, '> 3605', '< b605000000000002'], ['13: restarted'],
                                         {'damaged_lines': 1, 'frames_below_loads': 2, 'losses_of_sync': 4}),
    'none in the log': ([*ABOVE, *BACK], ['6: restarted'], {'losses_of_sync': 1}),
    'one that explains an entry': (EARLY, [], {'damaged_lines': 1, 'losses_of_sync': 1}),
}
# The same with --no-loads: no damaged line is a load, down to a load that is in the log.
NO_LOADS = {
    'a load that was sent': LOADS['a load that was sent'],
    'none in a damaged line': ([*ABOVE, CUT_LOAD, *BACK], ['7: restarted'], {'damaged_lines': 1, 'losses_of_sync': 2}),
    'none in a second one': ([*ABOVE, CUT_LOAD, *BACK, CUT_LOAD, *AGAIN], ['7: restarted', '12: restarted'], {'damaged_lines': 2, 'losses_of_sync': 4}),
    'one in a damaged line below a load': ([*ABOVE, *LOAD, *BACK, CUT_LOAD, *AGAIN], [],
                                           {'damaged_lines': 1, 'frames_below_loads': 2, 'losses_of_sync': 3}),
    'an entry that is too early': (EARLY, ['9: fresh'], {'damaged_lines': 1, 'losses_of_sync': 1}),
}


def check_loads(check):
    """A load of the counter, one that a lost line may have been too, explains one stamp that is before the latest."""
    for name, (lines, told, unjudged) in LOADS.items():
        done = checked(lines)
        is_restart = told or name == 'one that a damaged line may have been'
        check.equal('a load: ' + name, (told, LOST if is_restart else 0, unjudged), (done.found(TOLD), done.status, not_judged(lines)))
    for name, (lines, told, unjudged) in NO_LOADS.items():
        for words in (['--no-loads'], ['--no-loads', '--whole']):
            check.equal('%s: %s' % (' '.join(words), name), (told, unjudged), (checked(lines, *words).found(TOLD), not_judged(lines, *words)))
    for count, words in ((1, '1 frame whose stamp a load of the counter may explain'), (2, '2 frames whose stamps a load of the counter may explain')):
        lines = [*ABOVE, *LOAD, *LOAD, *BACK, *(AGAIN if count == 2 else [])]
        check.holds('the words of %d' % count, words in checked(lines).out)


# How often a log loses sync, with these options.
LOSSES = {
    'one damaged line': ([*ABOVE, DAMAGED, '> 3602'], 1),
    'two, one below the other': ([*ABOVE, DAMAGED, DAMAGED, '> 3602'], 1),
    'two up to the next poll': ([*ABOVE, DAMAGED, '> 35', DAMAGED, '> 3602'], 1),
    'one on either side of a poll': ([*ABOVE, DAMAGED, '> 3602', DAMAGED, '> 3602'], 2),
    'one above the first command': (['< b6050000000003e8', '< b60600', '> 3606', '< b6060000000003e9'], 1),
    'a breach': ([*ABOVE, *JUMP, '> 3607'], 1),
    'a breach, and damage below': ([*ABOVE, *JUMP, DAMAGED, '> 3607'], 1),
    'damage, and a poll that is right below it': ([*ABOVE, DAMAGED, '> 3609', '< b609000000000400', '> 360a'], 1),
    'a breach of a rule on content': ([*ABOVE, '> 32000000ff', '< b201', '> 3602'], 0),
    'a restart': (RESTART, 1),
    'a restart, and damage below': ([*RESTART[:6], DAMAGED, *RESTART[8:]], 1),
    'a load that is excused': (LOADS['a load that was sent'][0], 1),
    'none': (GOOD, 0),
}


def check_losses(check):
    """The place is lost once at each loss of sync, up to the next poll."""
    for name, (lines, count) in LOSSES.items():
        for words in ((), ('--rules', 'transcript')):
            check.equal('losses of sync, %s: %s' % (' '.join(words) or 'all rules', name), count, not_judged(lines, *words).get('losses_of_sync', 0))
    hidden = [*ABOVE, DAMAGED, '< b609000000000400', '> 35', '> 3605', '< b605000000000400', '> 3607']
    check.equal('what is directly below damage is not judged, what is below the next poll is',
                (['10: advance'], {'damaged_lines': 1, 'losses_of_sync': 2, 'frames_at_losses_of_sync': 2}), (checked(hidden).found(TOLD), not_judged(hidden)))


POLL, ANSWER, LATER = (('frames', '', (bytes.fromhex(digits),)) for digits in ('3605', 'b60500000000000a', '3607'))
LOSS, HEADING, TEXT, BROKEN = (('passed over', reason, ()) for reason in ('loss', 'heading', 'no octets', 'broken'))
POSSIBLE, MORE = ('possible', 'no form', ()), ('frames', 'more', LATER[2])
NEXT_POLL, SENT_AGAIN, NEXT_ANSWER, LATER_ANSWER = (
    ('frames', '', (bytes.fromhex(digits),)) for digits in ('3606', 'b60600020000000b', 'b60600000000000b', 'b60700000000000c'))
# Of these the answer says that the module was restarted: a block has the number of the one above, and no E, or an earlier stamp.
OF_BLOCKS = ('a remark above an answer that nothing waits for', 'octets beside a poll', 'a heading above an answer', 'a heading below a frame')
# Lines, which rules are broken, and how often sync is lost. Block 6 is due below block 5. A remark of loss explains that up to the next
# block or poll, and a block that is sent again up to the next block; a heading, a line that may be a message, and octets that are in no
# frame explain that, and what is up to the next poll.
REMARKS = {
    'other text': ([POLL, ANSWER, TEXT, LATER], {'advance': 1}, 1),
    'a remark of loss': ([POLL, ANSWER, LOSS, LATER], {}, None),
    'one above a block': ([POLL, LOSS, ANSWER, LATER], {'advance': 1}, None),
    'a remark above an answer that nothing waits for': ([POLL, ANSWER, LOSS, ANSWER], {}, None),
    'a line that may be a message': ([POLL, ANSWER, POSSIBLE, LATER], {}, 1),
    'one above all': ([POSSIBLE, POLL, ANSWER, LATER], {'advance': 1}, 1),
    'a message that is not whole': ([POLL, ANSWER, BROKEN, LATER], {}, 1),
    'octets beside a poll': ([POLL, ANSWER, NEXT_POLL, NEXT_ANSWER, MORE, ANSWER], {}, 2),
    'no remark above such an answer': ([POLL, ANSWER, ANSWER], {'pair': 1}, 1),
    'a remark above the poll for a block that is sent again': ([POLL, ANSWER, LOSS, NEXT_POLL, SENT_AGAIN], {}, None),
    'no remark above such a poll': ([POLL, ANSWER, NEXT_POLL, SENT_AGAIN], {'same': 1}, 1),
    'one above the block before': ([POLL, LOSS, ANSWER, NEXT_POLL, SENT_AGAIN], {'same': 1}, 1),
    'a heading': ([POLL, ANSWER, HEADING, LATER], {}, 1),
    'a heading above an answer': ([POLL, ANSWER, HEADING, ANSWER], {}, 1),
    'a heading above all': ([HEADING, POLL, ANSWER, LATER], {'advance': 1}, 1),
}


# The same of a log that begins with both ends: the answer may be that to a line above all frames that may be a message.
WHOLE = {
    'an answer above all': ([ANSWER, POLL, ANSWER], {'pair': 1}, 1),
    'a line that may be a message above an answer': ([POSSIBLE, ANSWER, NEXT_POLL, NEXT_ANSWER, LATER, LATER_ANSWER], {}, 1),
    'rules hold from the next poll on': ([POSSIBLE, ANSWER, NEXT_POLL, ANSWER], {'number': 1}, 2),
    'a heading above an answer': ([HEADING, ANSWER, NEXT_POLL, NEXT_ANSWER], {'pair': 1}, 1),
    'a heading below a frame': ([POLL, HEADING, NEXT_ANSWER, NEXT_POLL, NEXT_ANSWER], {}, 1),
}


def status_of(name, broken):
    """The status of a log of this name that breaks these rules."""
    return 1 if broken else LOST if name in OF_BLOCKS else 0


def check_whole(check, folder):
    """Above the first frame of a log that begins with both ends a line that may be a message is one, a heading is none."""
    for name, (lines, broken, lost) in WHOLE.items():
        path = written(folder, 'lines', '\n' * len(lines))
        with reading(lines):
            for command in ('check', '-q'), ('live', '-q', '--fifo'):
                status, out = copied((command[0], '--whole', *command[1:], path), b'')[:2]
                check.equal('%s --whole, %s' % (command[0], name), (status_of(name, broken), list(broken)),
                            (status, re.findall(r'^line \d+: (\w+)', out.decode(), re.M)))
            told = json.loads('[%s]' % copied(('check', '--json', '--whole', path), b'')[1].decode().replace('}\n{', '},{'))
        check.equal('losses of sync --whole, ' + name, lost, told[-1]['summary']['not_judged']['losses_of_sync'])


def check_remarks(check, folder):
    """Remarks of loss and headings reach the judge in each command that judges, and are skipped lines."""
    from fiolog.summary import summary_of
    for name, (lines, broken, lost) in REMARKS.items():
        path = written(folder, 'lines', '\n' * len(lines))
        with reading(lines):
            found = summary_of(path)
            check_run, live, record = (copied(words, b'')[:2] for words in (
                ('check', '-q', path), ('live', '-q', '--fifo', path), ('record', '-q', path)))
        skipped = sum(kind == 'passed over' and reason != 'broken' for kind, reason, _ in lines)
        check.equal('a summary, ' + name, (broken, skipped, 0), (dict(found.broken), found.left_out['skipped_lines'], found.left_out['damaged_lines']))
        if lost is not None:
            check.equal('losses of sync, ' + name, lost, found.left_out['losses_of_sync'])
        for command, (status, out) in (('check', check_run), ('live', live)):
            check.equal('%s, %s' % (command, name), (status_of(name, broken), list(broken)),
                        (status, re.findall(r'^line \d+: (\w+)', out.decode(), re.M)))
        check.equal('record, ' + name, (int(bool(broken)), list(broken)), (record[0], re.findall(r'breaks (\w+)', record[1].decode())))


def fault_of_right_links(links):
    """Logs of right links that restart, whole, from a command on and with damage, are accused of nothing, and only
    real restarts are reported. If nothing is damaged and no load is sent, each is reported."""
    from support.restarting import damaged, fault_of, found_in, lines_of, restarting
    told = restarts = 0
    for seed in range(links):
        draw, link = random.Random(seed), restarting(seed)
        lines, begin = lines_of(link.frames), draw.choice(link.beginnings())
        logs = [(0, lines, {}), (0, lines, {'whole': True}), (begin, lines[begin:], {})]
        logs += [(first, damaged(lines[first:], draw, chance), {}) for first in (0, begin) for chance in (0.01, 0.1)]
        for place, (first, log, settings) in enumerate(logs):
            found, _ = found_in(log, **settings)
            fault = fault_of(found, first, link.restarts)
            if fault:
                return 'seed %d, log %d from line %d: %s' % (seed, place, first + 1, fault)
            if place == 0 and not link.loads:
                told, restarts = told + len(found), restarts + len(link.restarts)
    return None if told == restarts >= links // 10 else '%d of %d restarts are reported' % (told, restarts)


def fault_of_unloaded_links(links):
    """Damaged logs of right links whose CPU never loads the counter are accused of nothing with --no-loads, only real restarts are
    reported, and more of them than without."""
    from support.restarting import damaged, fault_of, found_in, lines_of, restarting
    told = {True: 0, False: 0}
    for seed in range(links):
        draw, link = random.Random('no loads %d' % seed), restarting(seed, loads=0)
        lines, begin = lines_of(link.frames), draw.choice(link.beginnings())
        for first, chance in ((0, 0.005), (0, 0.02), (begin, 0.05), (0, 0.1)):
            log = damaged(lines[first:], draw, chance)
            for never in told:
                found, _ = found_in(log, no_loads=never)
                told[never] += len(found)
                fault = fault_of(found, first, link.restarts)
                if fault:
                    return 'seed %d, %s of the lines from %d on: %s' % (seed, chance, first + 1, fault)
    return None if told[True] > told[False] else told


def fault_of_links_that_go_on(links):
    """Over restarts that a stamp shows, also if the first one is that of a block that is sent again, nobody is accused, and each is
    said once at most."""
    from support.restarting import going_on, shows_restart
    import fio2070
    from fio2070 import constants
    seen = again = 0
    for seed in range(links):
        link = going_on(seed)
        judge = fio2070.LinkJudge(link.kind.per_block, link.kind.waiting)
        kinds = [(judge.sent if sent else judge.heard)(octets).kind for sent, octets in link.frames]
        above = 0
        for begin, end in zip(link.restarts, link.restarts[1:] + [len(kinds)]):
            shown, first_again = shows_restart(link.frames[:begin], link.frames[begin:end])
            # The judge has found its place again: a poll is below the frame at which it said that the module was restarted.
            told = max((place for place in range(above, begin) if kinds[place] == constants.OUTCOME_RESTARTED), default=begin)
            if not shown or told < begin and not any(sent and octets[0] == 54 for sent, octets in link.frames[told:begin]):
                break
            here, above = kinds[begin:end], begin
            if here.count(constants.OUTCOME_RESTARTED) > 1 or {constants.OUTCOME_BROKEN, constants.OUTCOME_BROKEN_CONTENT} & set(here):
                return 'seed %d, from frame %d on: %s' % (seed, begin, here)
            seen, again = seen + 1, again + first_again
    return None if again * 20 > links else '%d restarts, of which %d begin with a block that is sent again' % (seen, again)


# The module restarts above line 7, and its first stamp there, 1500, is that of a block that is sent again. The CPU asked for it first when
# it knew the stamp 1000, and twice below that of 2000. Its entry, or in the other log that it has none, breaks a rule by what is above.
ASKED_TWICE = ['> 3605', '< b6050000000003e8', '> 3606', '> 35', '< b5ffffffffffffffff000007d0', '> 3606', '> 3606']
# A block with all the entries that it takes, below which more wait.
FULL = '< b605ff%s08000003e8' % ''.join('%02x%04x' % (5 | place % 2 << 7, 100 + place) for place in range(255))
FIRST_STAMPS = {
    'a rule on content': ([*ASKED_TWICE, '< b606010500c902000005dc', '> 3607', '< b60700000000060e'], ['8: restarted']),
    'the rule rest': (['> 3605', FULL, *ASKED_TWICE[2:], '< b6060002000005dc'], ['8: restarted']),
    'asked for once below the latest stamp': ([*ASKED_TWICE[:6], '< b606010500c902000005dc'], ['7: fresh']),
}


def check_blocks_sent_again(check):
    """A restart may show first in a block that is sent again."""
    for name, (lines, told) in FIRST_STAMPS.items():
        check.equal('a block that is sent again: ' + name, told, checked(lines).found(TOLD))


def main():
    check = Check(links=(60, 200, 1000))
    use_library(check, 'restarts')
    for part in (check_check, check_short_lives, check_record, check_loads, check_losses, check_blocks_sent_again):
        part(check)
    with tempfile.TemporaryDirectory() as folder:
        for part in (check_others, check_whole, check_remarks):
            part(check, folder)
    check.fault('right links', fault_of_right_links, check.given.links)
    check.fault('right links without loads', fault_of_unloaded_links, check.given.links)
    check.fault('links that go on at once', fault_of_links_that_go_on, check.given.links)
    check.end()


main()
