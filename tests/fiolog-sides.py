#!/usr/bin/env -S python3 -B
"""`fiolog` on logs of one direction: what is missing is said, and no rule is judged; and on the two files of a line, which `--merge`
reads as one log in the order of time. Last line: `N passed, M failed`."""

import itertools
import json
import os
import re
import tempfile

from support.check import Check
from support.fiolog import fiolog, use_library, written
from support.kinds import KINDS, LEFT_OUT, LIKE, LITTLE, SIGNS, blocks, polls
from support.line_model import line_of
from support.loggers import LOGGERS
from support.talking import session

COMMANDS = 'fiolog: this log has the commands alone: the answers were not logged, so no rule is judged (two files of one line: see --merge)'
ANSWERS = 'fiolog: this log has the answers alone: the commands were not logged, so no rule is judged (two files of one line: see --merge)'
SILENT = 'fiolog: no answer came: the module is silent, or its direction was not logged'
NOT_WHOLE = 'fiolog: no answer in this log is whole, so no rule is judged'
UNREAD = 'fiolog: this log has one direction alone, but for frames in lines of no form, so no rule is judged'
SENTENCES = COMMANDS, ANSWERS, SILENT, NOT_WHOLE, UNREAD


def unread(octets):
    """A line between flags in a log without."""
    return 'ttyS1 saw %s\n' % line_of(bytes.fromhex(octets)).hex(' ')


# A log, what is said of it, how many breaches it has, and the status. Below a breach the rules begin anew at the next poll.
SIDES = {
    'polls that rise': (polls(5, 6, 7, 8), [COMMANDS], 0, LITTLE),
    'polls that rise around 255': (polls(254, 254, 255, 0, 1), [COMMANDS], 0, LITTLE),
    'a configuration and polls': ('TX 33 01 0C 05 03\n' + polls(5, 6, 6), [COMMANDS], 0, LITTLE),
    'polls of one number': (polls(5, 5, 5, 5), [SILENT], 0, 0),
    'commands without a poll': ('TX 31 80\n' * 4, [SILENT], 0, 0),
    'answers': (blocks(5, 6, 7, 8), [ANSWERS], 0, LITTLE),
    'answers that the module sends again': (blocks(5) + 'RX B6 05 00 02 00 00 00 05\n' * 3, [ANSWERS], 0, LITTLE),
    'three polls': (polls(5, 6, 7), [], 1, 1),
    'one answer among polls': (polls(5, 6, 7) + blocks(7) + polls(8, 9), [], 2, 1),
    'one answer above polls': (blocks(4) + polls(5, 6, 7, 8), [], 2, 1),
    'one answer below polls': (polls(5, 6, 7, 8) + blocks(8), [], 2, 1),
    'one command among answers': (blocks(4, 5, 6) + polls(7, 7, 7) + blocks(7), [], 0, 0),
    'answers that are cut': (''.join(polls(number) + 'RX B6 %02X 01 8C 03 ..\n' % number for number in range(5, 9)), [NOT_WHOLE], 0, LITTLE),
    'half as many answers that are cut': (polls(5, 6, 7, 8) + 'RX B6 05 01 8C 03 ..\n' * 2, [NOT_WHOLE], 0, LITTLE),
    'fewer': (polls(5, 6, 7, 8) + 'RX B6 05 01 8C 03 ..\n', [COMMANDS], 0, LITTLE),
    'polls, and an answer that no form reads': (polls(5, 6, 7, 8) + unread('b608000000000001'), [UNREAD], 0, LITTLE),
    'polls, and each answer': (''.join(polls(number) + unread('b6%02x000000000001' % number) for number in range(5, 9)), [UNREAD], 0, LITTLE),
    'polls of one number, and an answer': (polls(5, 5, 5, 5) + unread('b605000000000001'), [UNREAD], 0, LITTLE),
    'answers, and a poll that no form reads': (blocks(5, 6, 7, 8) + unread('3609'), [UNREAD], 0, LITTLE),
    'both, and an answer that no form reads': (polls(5) + blocks(5) + polls(6, 7) + unread('b607000000000001') + polls(8), [], 1, 1),
    'a line of no form whose check is wrong': (polls(5, 6, 7, 8) + unread('b608000000000001').replace('00 00', '00 01'), [COMMANDS], 0, LITTLE),
    'few lines that are cut': (polls(*range(5, 25)) + 'RX B6 05 01 8C 03 ..\n', [COMMANDS], 0, LITTLE),
}


def check_kinds(check):
    """What a log looks like is said once; then no rule is judged, and nothing else is to be tried."""
    for name, (lines, sign) in KINDS.items():
        # Below a breach, and a late answer above the first poll.
        for title, more in (name, []), (name + ', with a breach', [polls(99), blocks(98)]), (name + ', above the first poll', blocks(3)):
            text = ''.join([*more[:1], *lines, *more]) if isinstance(more, list) else more + ''.join(lines)
            done, *objects = fiolog('check', text=text), *fiolog('check', '--json', text=text).objects()
            last, count = objects[-1]['summary'], objects[-1]['summary']['frames']
            check.equal(title, [SIGNS[sign]] if sign else [], [words[8:] for words in done.err.splitlines() if words[8:] in SIGNS.values()])
            check.equal(title + ', as an object', [sign] if sign else [], [words for words in last.get('remarks', []) if words in SIGNS])
            told = len(done.found('^line ')), len(objects) - 1, last['breaches'], ': try ' in done.err
            if not sign:
                # If a frame is beside those of both ends, the second of equal ones may have no form.
                check.equal(title + ': breaches are told', name == 'one link in order' and isinstance(more, list) and more != [], all(told[:3]))
                continue
            check.equal(title + ': nothing else', ((0, 0, 0, False), LITTLE, count), (told, done.status, last['not_judged']['frames_of_another_kind']))
            for command in 'record', 'stats':
                done = fiolog(command, text=text)
                check.equal('%s, %s' % (title, command), (0, 1, LITTLE), (len(re.findall('breaks|was due', done.out + done.err)),
                                                                          done.err.count(SIGNS[sign]), done.status))


def check_left_out(check):
    """Of a log without empty blocks that is said once, and nobody is accused where a poll has no answer and the next number follows."""
    words = SIGNS['empty blocks left out']
    for name, (text, broken, status) in LEFT_OUT.items():
        done, *objects = fiolog('check', text=text), *fiolog('check', '--json', text=text).objects()
        last = objects[-1]['summary']
        check.equal('left out: ' + name, (broken, broken, broken, status is not None, 1 if broken else status),
                    (len(done.found('^line ')), len(objects) - 1, last['breaches'], words in done.err, done.status))
        if status is not None:
            pieces = summary_of_lines(text)
            check.equal('left out, line by line: ' + name, (0, ['empty blocks left out']), (pieces.breaches, list(pieces.verdicts)))
            check.holds('left out, said of the places: ' + name, 'which may have had no entries' in done.out, done.out)


def summary_of_lines(text):
    """The summary of a log that comes line by line."""
    from fiolog.summary import summary_of
    return summary_of(iter(text.encode().splitlines(True)))


# A log, how many of its answers are surely late, and the rules that are broken. Block 6 that the CPU asks for twice has E the second time.
AGAIN, LATER = 'RX B6 06 00 02 00 00 00 07\n', 'RX B6 06 00 02 00 00 00 0B\n'
LATE = {
    'both polls are above both answers': (polls(6, 6) + blocks(6) + AGAIN, []),
    'three of each': (polls(6, 6, 6) + blocks(6) + AGAIN + AGAIN, []),
    'an answer of another type': ('TX 34\n' + polls(6) + blocks(6) + 'RX B4 00 00 00 00 00 00 00 00 00 00 00 09\n', []),
    'a block below the next poll': (polls(6, 6) + blocks(6) + polls(7) + AGAIN + blocks(7), []),
    'such a block twice': (polls(6, 6) + blocks(6) + AGAIN * 2, []),
    'an answer twice': (polls(6) + blocks(6, 6), ['pair']),
    'an answer twice, below a poll that was lost': (polls(6, 6) + AGAIN * 2, ['pair']),
    'another answer to one poll': (polls(6) + blocks(6) + AGAIN, ['pair']),
    'a second block without E': (polls(6, 6) + blocks(6) + 'RX B6 06 00 00 00 00 00 07\n', ['pair']),
    'a block with another number': (polls(6) + blocks(6) + polls(7) + blocks(6), ['number']),
    'another number, below a poll that was lost': (polls(6, 6) + AGAIN + polls(7) + blocks(6), ['number']),
    'the command is far above': (polls(6, 6) + blocks(6) + ''.join(polls(number) + blocks(number) for number in range(7, 11)) + LATER, ['pair']),
    'another breach': (polls(6, 6) + blocks(6) + AGAIN + polls(7) + blocks(7) + polls(99), ['pair', 'advance']),
}


def check_late(check):
    """Of a log in which all that is found are answers that are surely late that is said, however it comes, and no breach."""
    from fiolog.summary import summary_of
    for name, (lines, broken) in LATE.items():
        text = polls(5) + blocks(5) + lines
        done = fiolog('check', *LIKE, text=text)
        hints = [words[8:] for words in done.err.splitlines() if ': try ' in words]
        check.equal('late: ' + name, (broken, int(bool(broken)) or LITTLE, hints if broken else [SIGNS['late answers']]),
                    (done.found(r'^line \d+: (\w+)'), done.status, hints))
        pieces = summary_of(iter(text.encode().splitlines(True)), like=[line.encode() for line in LIKE[1::2]])
        check.equal('late, line by line: ' + name, (sorted(broken), [] if broken else ['late answers']), (sorted(pieces.broken), list(pieces.verdicts)))
        if not broken:
            check.equal('late, --late-answers: ' + name, (0, False), (fiolog('check', '--late-answers', *LIKE, text=text).status, SIGNS['late answers'] in done.out))
            check.equal('late, counted: ' + name, 0, fiolog('stats', *LIKE, text=text).status)


def sentences(done):
    """Which of the sentences a run said."""
    return [line for line in done.err.splitlines() if line in SENTENCES]


def check_sides(check):
    """What is said of a log, by each command that judges."""
    for name, (text, said, breaches, status) in SIDES.items():
        done = fiolog('check', *LIKE, text=text)
        check.equal(name, (said, breaches, status), (sentences(done), len(done.found('^line ')), done.status))
        if said and status:
            record, last = fiolog('record', *LIKE, text=text), fiolog('check', *LIKE, '--json', text=text).summary()
            check.equal('record: ' + name, (said, 0, LITTLE), (sentences(record), record.out.count('breaks') + record.err.count('was due'), record.status))
            not_judged = {key: count for key, count in last['not_judged'].items() if 'frame' in key and count}
            check.equal('no frame is judged: ' + name, {'frames_of_one_direction': last['frames']}, not_judged)
    for words in ('--late-answers', '--no-loads', '--start-at-poll', '--whole'):
        done = fiolog('check', words, *LIKE, text=polls(5, 6, 7, 8))
        check.equal('polls that rise, ' + words, (True, 0, LITTLE), (COMMANDS in done.err, done.out.count('line '), done.status))


def check_many(check, folder):
    """A row of a table says it, and so does a live line."""
    paths = [written(folder, name, text) for name, text in (
        ('tx.log', polls(5, 6, 7, 8)), ('rx.log', blocks(5, 6, 7, 8)), ('good.log', polls(5) + blocks(5)))]
    *rows, _ = fiolog('check', *LIKE, '--json', *paths).objects()
    found = {os.path.basename(row['file']): (row['breaches'], row.get('remarks')) for row in rows}
    check.equal('logs of one direction in a table', {'tx.log': (0, {'the commands alone': 1}), 'rx.log': (0, {'the answers alone': 1}), 'good.log': (0, None)}, found)
    check.equal('its status', (LITTLE, 0), (fiolog('check', *LIKE, *paths).status, fiolog('check', *LIKE, paths[2], paths[2]).status))
    check.holds('its words', re.search('tx.log .*the commands alone', fiolog('check', *LIKE, *paths).out))
    for path, said in zip(paths, (COMMANDS, ANSWERS)):
        done = fiolog('live', *LIKE, '-q', '--fifo', path)
        check.equal('live on ' + os.path.basename(path), (True, 0, LITTLE), (said in done.err, done.out.count('line '), done.status))


def merged(folder, command, *texts):
    """What a command says of files that are merged."""
    return fiolog(*command, '--merge', *(written(folder, 'part%d' % number, text) for number, text in enumerate(texts)))


TO_TRANSCRIPT = 'convert', '-q', '--to', 'transcript'
# Forms with times: clocks of milliseconds, and of whole seconds, in which several frames have the same time.
TIMED = 'ISO times', 'epoch times', 'German times', 'US times', 'JSON lines', 'Docklight', 'syslog', 'PuTTY'


def check_merge(check, folder):
    """A log is the same in one file and in two, whichever is named first; so are right ends whose answers are lost."""
    for form in TIMED:
        for apart in (0.05, 0.2):
            frames = session(60, apart)
            parts = [LOGGERS[form]([frame for frame in frames if frame[1] == side]) for side in '><']
            for order, texts in (('commands', parts), ('answers', parts[::-1])):
                done = merged(folder, TO_TRANSCRIPT, *texts)
                check.equal('%s, %s s apart, %s first' % (form, apart, order), (LOGGERS['transcript'](frames), 0), (done.out, done.status))
                check.equal('%s, %s s apart, %s first: nobody is accused' % (form, apart, order), 0, merged(folder, ('check', '-q'), *texts).status)


# Two files, and the transcript that they are.
MERGED = {
    'a line without a time is where the line above it is': (
        '10:00:00.000 TX 36 05\nTX 36 05\n10:00:00.300 TX 36 06\n', '10:00:00.200 RX B6 05 00 02 00 00 00 01\n10:00:00.310 RX B6 06 00 00 00 00 00 02\n',
        ['> 3605', '> 3605', '< b605000200000001', '> 3606', '< b606000000000002']),
    'a clock that is set back': (
        '10:00:00.000 TX 36 05\n09:59:59.900 TX 36 06\n10:00:00.400 TX 36 07\n', '10:00:00.000 RX B6 05 00 00 00 00 00 01\n10:00:00.100 RX B6 06 00 00 00 00 00 02\n',
        ['> 3605', '< b605000000000001', '> 3606', '< b606000000000002', '> 3607']),
    'midnight': (
        '23:59:59.900 TX 36 05\n00:00:00.100 TX 36 06\n', '23:59:59.950 RX B6 05 00 00 00 00 00 01\n00:00:00.150 RX B6 06 00 00 00 00 00 02\n',
        ['> 3605', '< b605000000000001', '> 3606', '< b606000000000002']),
    'a date in one file': (
        '2026-11-22 10:00:00.000 TX 36 05\n2026-11-22 10:00:00.200 TX 36 06\n', '10:00:00.100 RX B6 05 00 00 00 00 00 01\n10:00:00.300 RX B6 06 00 00 00 00 00 02\n',
        ['> 3605', '< b605000000000001', '> 3606', '< b606000000000002']),
    'dates over midnight': (
        '2026-11-22 23:59:59.900 TX 36 05\n2026-11-23 00:00:00.100 TX 36 06\n', '23:59:59.950 RX B6 05 00 00 00 00 00 01\n00:00:00.150 RX B6 06 00 00 00 00 00 02\n',
        ['> 3605', '< b605000000000001', '> 3606', '< b606000000000002']),
    'equal times': (
        '10:00:00 TX 36 05\n10:00:00 TX 36 06\n10:00:01 TX 36 07\n', '10:00:00 RX B6 05 00 00 00 00 00 01\n10:00:00 RX B6 06 00 00 00 00 00 02\n',
        ['> 3605', '< b605000000000001', '> 3606', '< b606000000000002', '> 3607']),
    'equal times, an answer that was lost': (
        '10:00:00 TX 36 05\n10:00:00 TX 36 05\n10:00:00 TX 36 06\n', '10:00:00 RX B6 05 00 02 00 00 00 01\n10:00:00 RX B6 06 00 00 00 00 00 02\n',
        ['> 3605', '> 3605', '< b605000200000001', '> 3606', '< b606000000000002']),
    'equal times, answers of two types': (
        '10:00:00 TX 31 80\n10:00:00 TX 36 05\n', '10:00:00 RX B1 00 00 00 00 00 00 01\n10:00:00 RX B6 05 00 00 00 00 00 02\n',
        ['> 3180', '< b100000000000001', '> 3605', '< b605000000000002']),
    'seconds since a start': (
        '1.000 TX 36 05\n1.200 TX 36 06\n', '1.100 RX B6 05 00 00 00 00 00 01\n1.300 RX B6 06 00 00 00 00 00 02\n',
        ['> 3605', '< b605000000000001', '> 3606', '< b606000000000002']),
}


def check_times(check, folder):
    """In which order frames are, by their times; and which files cannot be merged."""
    for name, (sent, heard, expected) in MERGED.items():
        for order, texts in (('commands', (sent, heard)), ('answers', (heard, sent))):
            done = merged(folder, TO_TRANSCRIPT, *texts)
            check.equal('%s, %s first' % (name, order), (expected, 0), (done.out.splitlines(), done.status))
    answers = '10:00:00.100 RX B6 05 00 00 00 00 00 01\n'
    for name, sent, words in (('no time', 'TX 36 05\nTX 36 06\n', 'line 1: --merge needs a time at the first frame of a file'),
                              ('other times', '0.5 TX 36 05\n0.7 TX 36 06\n', 'the files have different times: ')):
        done = merged(folder, ('check',), sent, answers)
        check.equal('files that cannot be merged: ' + name, (2, True, False), (done.status, words in done.err, 'Traceback' in done.err))
    done = merged(folder, ('check',), '09:00:00 TX 36 05\n09:00:01 TX 36 05\n', answers)
    check.holds('files of other hours', 'one file ends before another begins' in done.err, done.err)
    done = merged(folder, ('check',), '10:00:00 TX 36 05\n10:00:00.100 TX 36 06\n', answers)
    check.equal('files of which one ends when the other begins', False, 'one file ends before another begins' in done.err)


CLOCKS = 'fiolog: the clocks of these files differ, and not by one time, so no rule is judged: take both directions with one clock'
# By how many milliseconds the clock of the answers is ahead; these come 50 ms after their commands, which are 100 ms apart.
AHEAD = -950, -320, -60, 55, 70, 450, 940


def two_files(form, frames, delays):
    """The files of commands and of answers; the times of these are later by so many milliseconds, in turn."""
    late = [(time + next(delays) / 1000, side, octets) for time, side, octets in frames if side == '<']
    return [LOGGERS[form](part) for part in ([one for one in frames if one[1] == '>'], late)]


def check_clocks(check, folder):
    """Two files whose clocks differ are the log that they would be with one clock; what is not explained so accuses nobody, and one fault is one."""
    frames = [(1 + time, *one) for time, *one in session(60, 0.05)]
    for form in TIMED[:6]:
        for ahead in AHEAD:
            parts = two_files(form, frames, itertools.repeat(ahead))
            for order, texts in (('commands', parts), ('answers', parts[::-1])):
                name = 'clocks that differ by %d ms, %s, %s first' % (ahead, form, order)
                done, stats = merged(folder, TO_TRANSCRIPT, *texts), merged(folder, ('stats', '--json'), *texts)
                check.equal(name, (LOGGERS['transcript'](frames), 0), (done.out, done.status))
                said = re.findall(r'the times of \S+/part(\d) are taken as (\S+) ms (later|earlier)', done.err)
                check.equal(name + ', said', [(str(int(order == 'commands')), 'earlier' if ahead > 0 else 'later', True)],
                            [(part, way, 0 < float(much) <= abs(ahead)) for part, much, way in said])
                check.equal(name + ': nobody is accused, and no response is timed', (0, 0, 0), (
                    merged(folder, ('check', '-q'), *texts).status, stats.status, json.loads(stats.out)['response_ms']['count']))
    # Commands of two types in turn, of which those at both ends are not answered.
    two_types = [(1 + 0.05 * place, '<' if place % 2 else '>', bytes.fromhex(('3180', 'b1000000000000%02x' % place, '3a32', 'ba00')[place % 4]))
                 for place in range(60) if place % 2 == 0 or 15 < place < 45]
    for name, texts, expected in (
            ('answers that come late by turns', two_files('ISO times', frames, itertools.cycle((0, 60, 130, 20))), (LITTLE, False, True)),
            ('a clock that goes slower', two_files('ISO times', frames, itertools.count(0, -3)), (LITTLE, False, True)),
            ('more than one time explains it', two_files('ISO times', two_types, itertools.repeat(-60)), (LITTLE, False, True)),
            ('two answers that come late', two_files('ISO times', frames, itertools.chain([0, 0, 120, 0, 120], itertools.repeat(0))), (1, True, False)),
            ('an answer with another number', two_files('ISO times', [(*one[:2], b'\xb6\x09' + one[2][2:]) if place == 40 else one for place, one in enumerate(frames)],
                                                        itertools.repeat(0)), (1, True, False))):
        done, stats = merged(folder, ('check',), *texts), merged(folder, ('stats',), *texts)
        check.equal('clocks: ' + name, expected, (done.status, done.found(r'^\S+ line \d+: ') != [], CLOCKS in done.err))
        check.equal('clocks, stats: ' + name, (LITTLE * expected[2], expected[2]), (stats.status, CLOCKS in stats.err))


def check_places(check, folder):
    """A line is named with its file."""
    sent, heard = '1.000 TX 36 05\nidle\n1.200 TX 36 09\n', '1.100 RX B6 05 01 0C 00 01 00 00 00 00 01\n1.300 RX B6 09 00 00 00 00 00 02\n'
    done = merged(folder, ('check', '-v'), sent, heard)
    part = re.escape(os.path.join(folder, 'part0'))
    for name, words in (('a breach', '^%s line 3: advance: block 6 was due' % part), ('when it was first', 'once, in %s line 3 at 1.2' % part),
                        ('a line that is passed over', '%s line 2: no octets: idle' % part), ('how many', '1 of 5 lines skipped')):
        check.holds(name, re.search(words, done.out + done.err, re.M), done)
    row = merged(folder, ('check', '--json'), sent, heard).objects()[0]
    check.equal('the object of a breach', ('part0', 3, 'advance'), (os.path.basename(row['file']), row['line'], row['rule']))
    row = merged(folder, ('decode', '--json'), sent, heard).objects()[1]
    check.equal('the object of a frame', ('part1', 1, 'b605010c00010000000001'), (os.path.basename(row['file']), row['line'], row['octets']))
    record = merged(folder, ('record',), sent, heard).out.splitlines()
    check.equal('the record', ['part1 1: 1.100 input 12 state 0 stamp 1 wide 1', 'part0 line 3 breaks advance'],
                [' '.join(os.path.basename(line).split()) for line in record])


def main():
    check = Check()
    use_library(check, 'logs of one direction')
    check_sides(check)
    check_kinds(check)
    check_left_out(check)
    check_late(check)
    with tempfile.TemporaryDirectory() as folder:
        check_many(check, folder)
        for part in (check_merge, check_times, check_clocks, check_places):
            part(check, folder)
    check.end()


main()
