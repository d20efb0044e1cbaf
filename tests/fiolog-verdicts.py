#!/usr/bin/env -S python3 -B
"""What `fiolog` judges and says of a log: where a log begins, which rules are left out, what to try if a log is not
read, and what is a fault. Last line: `N passed, M failed`."""

import re
import tempfile

from support.check import Check
from support.fiolog import fiolog, use_library, written
from support.kinds import KINDS, LIKE, LITTLE, LOST, blocks, polls
from support.loggers import LOGGERS
from support.pages import text_of
from support.talking import session


def check_beginning(check):
    """A log begins anywhere: what is above its first command is answered to commands that are not in it."""
    for name, above, count in (('a refused configuration', '< b301\n', 1), ('a block', '< b605018c03e700000003e8\n', 1),
                               ('two answers', '< b301\n< b605018c03e700000003e8\n', 2)):
        done = fiolog('check', text=above + '> 3606\n< b6060000000003e9\n> 3607\n< b6070000000003ea\n')
        words = ['%d frame%s above the first command' % (count, 's' * (count > 1))]
        check.equal('%s above the first command' % name, (0, words, ''), (done.status, done.found('^not judged: (.*)'), done.remarks))
    text = '< b6050000000003e8\n> 3606\n< b6060000000003e9\n< b6060000000003e9\n'
    for name, words, lines in (('what is below the first command is judged', [], ['4']), ('a log that is whole begins with a command', ['--whole'], ['1', '4']),
                               ('the rules of transcripts alone', ['--rules', 'transcript'], ['4'])):
        check.equal(name, lines, fiolog('check', *words, text=text).found('^line (.*): pair'))


def check_explained(check):
    """Each rule is explained in the words of docs/FORMATS.md, with what else it uses."""
    rows = [row.split(' | ') for row in re.findall(r'^\| (`[a-z]+` \| .*) \|$', text_of('docs/FORMATS.md').partition('## `fio2070 check`')[2], re.M)]
    check.holds('rows of rules', len(rows) > 25, rows)
    for name, *words in rows:
        name = name.strip('`')
        words = words if len(words) < 3 else [*words[:-2], 'Source: behaviour %s, layout %s' % tuple(words[-2:])]
        done = fiolog('check', '--explain', name)
        said = ' '.join(done.out.split())
        check.equal('%s is explained' % name, (0, '', []), (done.status, done.err, [part for part in words if re.sub(
            r'\binput I (.*)to S\b', r'input I \1to S', part) not in said]))
    check.equal('the words that a rule uses', ['C', 'Source', 'clear', 'excuses', 'late'],
                sorted(fiolog('check', '--explain', 'fresh').found(r'^  (\w+): ')))


def check_cures(check):
    """`fiolog` says what helps: to lines of no form a sample; and of a file that is no text what it is."""
    whole, less = 'TX 36 05\nRX B6 05 00 00 00 00 00 01\n', 'TX 36 06\nRX B6 06 00 00 00 00 00\n'
    strange = 'memory at b6 05 00 00\n'
    for more in (), ('-q',), ('-v',):
        check.equal('lines that may be messages, and have no form%s' % ''.join(more), [] if more == ('-q',) else ['1 line may be a message'],
                    re.findall('1 line may be a message(?=, and has no form of this log: to read such, give one by --like)', fiolog('check', *more, text=whole * 3 + strange).err))
    said = fiolog('check', '-v', text=whole + less + '3 frames lost\nLog file opened\nidle\n').err
    check.equal('a line is named by its words', ['4: octets that are no message', '5: octets may be lost', '6: heading', '7: no octets'],
                re.findall(r'line (\d+: [^:]*): ', said))
    cut = 'RX B6 05 01 8C 03 E7 00 00 00 03 E8 A4 7C\n'
    check.equal('it helps: --pattern', ['block 5 entries 1 status 00 stamp 1000', 'input 12 state 1 stamp 999 wide 999'],
                [line.split('< ')[-1].strip() for line in fiolog('decode', '-q', '--pattern', '(?P<octets>B6.*) .. ..$', text=cut).out.splitlines()])
    block = 'B6 0%d 00 00 00 00 00 0%d'
    pieces = ''.join('TX 36 0%d\nRX %s\n' % (number, (
        block % (number, number)).replace(' 00 00', '\nRX 00 00', int(number % 3 == 0))) for number in range(1, 9))
    done = fiolog('check', text=pieces)
    check.equal('messages in two lines', (0, ['16'], False), (done.status, done.found('^frames ([0-9]+)'), 'damaged' in done.out + done.err))
    binary = bytes.fromhex('7e1483') + bytes.fromhex('b6050000000000010a') * 30
    for name, octets, is_binary in (('a binary file', binary, True), ('a text', 'caf\u00e9 \u2192\n'.encode() * 30, False), ('one line', b'\x1b[1mhello\n', False)):
        with tempfile.TemporaryDirectory() as folder:
            done = fiolog('check', written(folder, 'log', octets))
        check.equal('%s without a message' % name, (LITTLE, is_binary), (done.status, 'this is a binary file: no message is sure in its octets' in done.err))


def check_few(check):
    """If less than half of what says messages was judged, the status says it. A poll directly below a loss of sync is compared with nothing."""
    whole, cut = 'TX 36 05\nRX B6 05 00 00 00 00 00 01\n', 'RX B6 05 00 00 00\n'
    for name, text, words in (
            ('half of it', whole + cut * 2, None), ('less than half', whole + cut * 3, '2 of 5'), ('three answers', '< b300\n' * 2 + '< b605000000000001\n', '0 of 3'),
            ('answers above most', 'RX B3 00\n' * 3 + whole, '2 of 5'),
            ('polls that are all below losses', whole + 'TX 36 06\nRX B6 06 00 00\n' * 3, '3 of 8')):
        done = fiolog('check', text=text)
        found = re.findall('fewer than half of the messages that this log may have were judged: (.*)', done.err)
        check.equal('judged: ' + name, (LITTLE * bool(words), [words] * bool(words)), (done.status, found))
        check.equal('record: ' + name, LITTLE * bool(words), fiolog('record', text=text).status)
    with tempfile.TemporaryDirectory() as folder:
        done = fiolog('check', *[written(folder, 'few', whole + cut * 3)] * 2)
        check.equal('a row of many says it', (LITTLE, True), (done.status, 'fewer than half judged' in done.out))


ROUND, JUMP, CUT = polls(5) + blocks(5), polls(9) + blocks(9), 'RX B6 06 00 00\n'
BACK = polls(6) + 'RX B6 06 00 00 00 00 00 01\n'
OVERFLOW = polls(6) + 'RX B6 06 FF%s 0C 00 00 01 00\n' % ''.join(' %02X 00 %02X' % (place % 64 | place // 64 % 2 << 7, place // 64 + 16) for place in range(255))
# A log, the status of `check` and `live`, that of `record`, and that of `stats`.
STATUSES = {
    'a good log': (ROUND + polls(6), 0, 0, 0),
    'a breach': (ROUND + JUMP, 1, 1, 0),
    'a restart': (ROUND + BACK, LOST, 0, 0),
    'transitions that are lost': (ROUND + OVERFLOW, LOST, 0, 0),
    'a restart and a breach': (ROUND + BACK + polls(7) + blocks(8), 1, 1, 0),
    'no frame': ('nothing here\n', LITTLE, LITTLE, LITTLE),
    'no frame, and a damaged line': (CUT, LITTLE, LITTLE, LITTLE),
    'fewer than half': (ROUND + CUT * 3, LITTLE, LITTLE, 0),
    'fewer than half, and a breach': (ROUND + JUMP + CUT * 5, 1, 1, 0),
    'a restart, and fewer than half': (ROUND + BACK + CUT * 5, LOST, LITTLE, 0),
    'frames that are all below losses': ((polls(5) + CUT) * 8 + blocks(5), LITTLE, LITTLE, 0),
    'commands alone': (polls(5, 6, 7, 8), LITTLE, LITTLE, 0),
    'polls that nobody answers': (polls(5, 5, 5, 5), 0, 0, 0),
    # By sample lines the second of equal frames is no copy.
    **{name: (''.join(lines), *[0 if name == 'one link in order' else LITTLE] * 3) for name, (lines, _) in KINDS.items()},
}


def check_statuses(check, folder):
    """The statuses of all commands that judge: 1 for a breach; 5 if transitions are lost or the module was restarted, of those that say so;
    4 if little could be judged. Of several logs the first of these counts that one has."""
    paths = {name: written(folder, name.replace(' ', '-'), text) for name, (text, *_) in STATUSES.items()}
    for name, (_, judged, recorded, counted) in STATUSES.items():
        runs = {words: fiolog(*words, *LIKE, paths[name]).status for words in (
            ('check',), ('check', '--json'), ('check', '--csv'), ('record',), ('record', '--json'), ('stats',), ('stats', '--json'))}
        runs['check', 'twice'], runs['stats', 'twice'] = (fiolog(word, *LIKE, *[paths[name]] * 2).status for word in ('check', 'stats'))
        runs['live', '-q'] = fiolog('live', '-q', *LIKE, '--fifo', paths[name]).status
        due = {'stats': counted, 'record': recorded}
        check.equal('the statuses of ' + name, {words: due.get(words[0], judged) for words in runs}, runs)
    for names, status in ((('a good log', 'fewer than half'), LITTLE), (('a good log', 'no frame'), LITTLE), (('the last line first', 'a good log'), LITTLE),
                          (('a breach', 'two links'), 1), (('a restart', 'a good log'), LOST), (('no frame', 'transitions that are lost'), LOST),
                          (('a restart', 'a breach', 'no frame'), 1)):
        runs = [fiolog('check', *words, *LIKE, *map(paths.get, names)).status for words in ((), ('--csv',), ('--json', '--jobs', '2'))]
        check.equal('the status of ' + ', '.join(names), [status] * 3, runs)


def check_messages(check):
    """A breach names its line, and in a line with several messages which of them it is, and its first octet of theirs."""
    for name, text, words, place in (
            ('a message a line', '> 3605\n< b6050000000003e8\n> 3609\n', 'line 3', {'line': 3}),
            ('the second message of a line', '> 3605\n< b6050000000003e8 > 3609\n', 'line 2, message 2, octet 9', {'line': 2, 'message': 2, 'octet': 9}),
            ('the third message of a line', '> 3605\n< b6050000000003e8\n> 3606 < b6060000000003e9 > 3609\n', 'line 3, message 3, octet 11',
             {'line': 3, 'message': 3, 'octet': 11}),
            ('the first message of a line', '> 3605\n< b6050000000003e8\n> 3609 < b6090000000003e9\n> 360a\n', 'line 3, message 1, octet 1',
             {'line': 3, 'message': 1, 'octet': 1})):
        done = fiolog('check', text=text)
        check.equal('the place of a breach: ' + name, ([words + ': advance'], 'fiolog: CPU: advance: once, in ' + words + '. If this is not the log of the CPU, log there.\n'),
                    (done.found('^line .*?: advance'), done.remarks))
        first = fiolog('check', '--json', text=text).objects()[0]
        check.equal('the place in JSON: ' + name, place, {key: first[key] for key in ('line', 'message', 'octet') if key in first})


def check_except(check):
    """A rule that is left out is not said to be broken; what it would have said is counted."""
    # Between the blocks of a jump nothing is in the log; the other block says F.
    jump, lost = '> 3605\n< b6050000000003e8\n> 3609\n< b6090000000003e9\n', '> 3605\n< b605010c03ea04000003eb\n'
    for name, text, words, rules, count, status in (
            ('one rule', jump, ['--except', 'advance'], [], 1, LITTLE), ('another rule', jump, ['--except', 'pair'], ['advance'], 0, 1),
            ('two rules', jump + lost, ['--except', 'advance', '--except', 'limits'], [], 2, LOST),
            ('one rule of two', jump + lost, ['--except', 'limits'], ['advance'], 1, 1),
            ('a rule on content', '> 32000000ff\n< b201\n', ['--except', 'done'], [], 1, 0)):
        done = fiolog('check', *words, text=text)
        left_out = done.found(r'(\d+) breach(?:es)? of (?:a rule|rules) that (?:is|are) left out')
        check.equal('--except, %s' % name, (rules, status, [str(count)] * bool(count)),
                    (done.found(r'^line \d+: (\w+)'), done.status, left_out))
    check.equal('--except of no rule', 2, fiolog('check', '--except', 'nothing', text=jump).status)
    with tempfile.TemporaryDirectory() as folder:
        path = written(folder, 'jump', jump)
        for name, command, *files in (('two logs', 'check', path, path), ('a live line', 'live', '--fifo', path)):
            check.equal('--except of ' + name, (1, LITTLE), (fiolog(command, *files).status, fiolog(command, '--except', 'advance', *files).status))


def check_places(check):
    """What is judged below damage, with limits, at the module's end, and in the second of two files."""
    good, cut = '> 3605\n< b60500000000000a\n> 3606\n', '< b6060000\n'
    lost = '> 3607\n< b607010c000a040000000b\n'
    for name, words, text, expected in (
            ('the limits hold below damage', ['--limits', '255', '64'], good + cut + lost, []),
            ('as do the standard ones', [], good + cut + lost, ['line 6: limits']),
            ('below other damage nobody is', [], good + cut + '> 3607\n', []),
            ('the state of an entry below a gap mark', ['--limits', '255', '64'], good + '< b606028c000b8c000d040000000e\n', ['line 4: alternate: input 12 went to 1 twice in a row'])):
        check.equal('judged: %s' % name, expected, fiolog('check', *words, text=text).found(r'^line \d+: \w+(?:: input[^,]*)?'))
    again = '%s 36 05\n%s B6 05 00 00 00 00 00 01\n%s 36 05\n%s B6 05 00 02 00 00 00 01\n'
    for name, sides, status in (('the CPU', ('TX', 'RX'), 1), ('the module', ('RX', 'TX'), 0), ('the CPU, with arrows', ('>', '<'), 1),
                                ('the module, with arrows', ('<', '>'), 0)):
        done = fiolog('check', text=again % (sides * 2))
        check.equal('a block that is asked for again, in a log of %s' % name, (status, bool(status)), (done.status, 'line 3: advance' in done.out))
    named = ['TX 36 05 poll', 'RX B6 05 00 00 00 00 00 01 block', 'TX 37%s outputs' % (' 00' * 16), 'RX B7 00 00 00 00 02 other',
             'TX 36 06 poll', 'RX B6 06 00 00 00 00 00 03 block', 'TX 3C identify', 'RX BC 02 other']
    check.equal('a command of one octet in a line with words of its own', [], fiolog('check', text='\n'.join(named) + '\n').found('^line.*'))
    with tempfile.TemporaryDirectory() as folder:
        paths = [written(folder, name, '> 34\n< b301\n' + good) for name in ('first', 'second')]
        for words, count in ((['--start-at-poll'], 0), ([], 2)):
            for title, files in (('two files', paths), ('a file twice', paths[:1] * 2)):
                check.equal('record %s of %s' % (' '.join(words), title), count, fiolog('record', *words, *files).out.count('breaks pair'))


def check_unseen(check):
    """Damage that is not seen: a right end is accused where a frame is missing or is another. What is seen accuses nobody."""
    link = ['RX B6 %02X 00 00 00 00 00 %02X' % (place // 2, place) if place % 2 else 'TX 36 %02X' % (place // 2) for place in range(16)]
    for name, first, last, line, expected in (
            ('two lines that are joined', 7, 9, link[7] + ' ' + link[8], ([], '0')),
            ('a digit that makes another message', 8, 9, 'TX 36 0C', (['9: advance'], '0')),
            ('a word in an octet, which is seen', 8, 9, 'TX 3note 6 04', ([], '0')),
            ('a line that is too long', 8, 9, link[8] + ' ' + 'x' * 66000, ([], '1')),
            ('a cut, which is seen', 8, 9, 'TX 36 0', ([], '1')), ('a side alone, which is seen', 8, 9, 'TX', ([], '1'))):
        done = fiolog('check', text='\n'.join([*link[:first], line, *link[last:]]) + '\n')
        check.equal('damage: ' + name, expected, (done.found(r'^line (\d+: \w+)'), (done.found(r'(\d+) damaged line') or ['0'])[0]))


def check_said(check):
    """Why lines are passed over, the text of each, and octets without a zero first."""
    frames = 'TX 36 05\nRX B6 05 00 00 00 00 00 01\n'
    text = frames + 'hello\n' * 3 + '3 lost\n' * 2 + 'Log file opened\n' + frames
    reasons = fiolog('check', text=text).found(r'(\d) skipped lines? \([^,]* (\d), [^,]* (\d), [^,)]* (\d)\)')
    check.equal('three reasons', [('6', '3', '2', '1')], reasons)
    named = re.findall(r'line (\d): no octets: (\w+)', fiolog('check', '-v', text=frames + 'one\ntwo\nthree\n').err)
    check.equal('the text of each line', [('3', 'one'), ('4', 'two'), ('5', 'three')], named)
    done = fiolog('check', text=frames)
    check.equal('how lines are read', ['TX ', 'RX '], sorted(re.findall('read as "(.*)" <octets>: 1 line', done.err), reverse=True))
    last = fiolog('check', '--json', text='hello\n' + frames + frames).summary()
    check.equal('how lines are read, in an object', ([('RX ', 2, 0, False), ('TX ', 2, 0, False)], 1), (
        sorted((one['front'], one['lines'], one['damaged'], one['is_copy']) for one in last['read_as']), last['lines_of_no_form']))


def check_hints(check):
    """`fiolog` says what to try where that helps."""
    begin, late = 'try --start-at-poll', 'try --late-answers'
    good = '> 3605\n< b6050000000003e8\n'
    for name, text, hints in (
            ('a breach below the first poll', good + '> 3609\n< b6090000000003e9\n', []),
            ('one below another command', '> 3180\n< b1000000000003e8\n' + good + '> 3609\n', []),
            ('one above the first poll', '> 3180\n< b1800000000003e8\n' + good, [begin]),
            ('one in a log without a poll', '> 3180\n< b1800000000003e8\n', []),
            ('a block that comes late', '> 3605\n> 3605\n< b6050000000003e8\n< b6050002000003e8\n> 3606\n', [late]),
            ('another answer that comes late', '> 34\n' + good + '< b40000000000000000000003e9\n', [late]),
            ('one with a stamp before that of the block', '> 34\n' + good + '< b4000000000000000000000001\n', [late]),
            ('an answer in time with such a stamp', good + '> 34\n< b4000000000000000000000001\n', []),
            ('a block of the number before', good + '> 3606\n< b6060000000003e9\n< b6050000000003e8\n', [late]),
            ('a block of two numbers before', good + '> 3606\n< b6060000000003e9\n< b6040000000003e8\n', []),
            ('an answer to nothing', good + '< ba00\n', [])):
        done = fiolog('check', text=text)
        check.equal('hints: ' + name, hints, [hint for hint in (begin, late) if hint in done.err])
    late_block = good + '> 3606\n< b6060000000003e9\n< b6050000000003e8\n'
    for place in ('auto', 'cpu', 'bus'):
        check.equal('hints: a late answer, --at %s' % place, True, late + '\n' in fiolog('check', '--at', place, text=late_block).err)
    # A line of a day before is damaged: it may have been a load.
    above, below = ['TX 36 05', 'RX B6 05 00 00 00 00 03 E8'], ['TX 36 06', 'RX B6 06 00 00 05 26 60 00']
    for name, hour, lines, is_said in (
            ('a day without a load', 7, [*above, 'TX 36 0'], True), ('an hour less', 6, [*above, 'TX 36 0'], False), ('no damaged line', 7, above, False),
            ('a load', 7, [*above, 'TX 36 0', 'TX 32 00 00 00 00', 'RX B2 00'], False)):
        text = ''.join('2026-11-%s %s\n' % (time, line) for time, part in (('22 07:15:02.100', lines), ('23 0%d:15:02.100' % hour, below)) for line in part)
        check.equal('hints: ' + name, (is_said, False), tuple('try --no-loads' in fiolog('check', *words, text=text).err for words in ([], ['--no-loads'])))
    # The CPU's words at the module's end: most lines say the other direction, and are said to.
    said, unsaid = ['RX 36 %02X\nTX B6 %02X 00 00 00 00 00 01\n' % (number, number) for number in range(2)], 'TX 36 02\nRX B6 02 00 00 00 00 00 02\n'
    for name, text, is_said in (('all lines', ''.join(said), True), ('two of three', ''.join(said) + unsaid, True), ('half of them', said[0] + unsaid, False)):
        for place in ('cpu', 'bus', 'module', 'auto'):
            check.equal('the other direction in %s, --at %s' % (name, place), is_said and place in ('cpu', 'bus'),
                        'try --at module' in fiolog('check', '--at', place, text=text).err)


# The word by which a form says that a command was sent.
SENT = {'TX and RX': 'TX', 'CPU and FIO': 'CPU', 'WRITE and READ': 'WRITE', 'counts': 'TX', 'ISO times': 'tx', 'German times': 'gesendet',
        'US times': 'Sent', 'JSON lines': 'tx', 'Python bytes': 'sent', 'syslog': 'TX', 'Python logging': 'tx'}


def check_sent_again(check):
    """A poll that was sent again is no copy, though a word of its own says so, however many there are: one that is written below each command is."""
    for form, word in SENT.items():
        for name, losses in (('one in five', 5), ('each one', 2)):
            frames = session(60, 0.05, losses)
            again = [place > 0 and one[2] == frames[place - 1][2] for place, one in enumerate(frames)]
            lines = [LOGGERS[form]([one]) for one in frames]
            done = fiolog('check', text=''.join(line.replace(word, 'RETRY', 1) if is_again else line for line, is_again in zip(lines, again)))
            check.equal('sent again, %s, %s' % (name, form), (0, [str(len(frames))], [str(sum(again))], []),
                        (done.status, done.found(r'^frames (\d+)'), done.found(r'answers lost (\d+)'), done.found('^not judged: (.*)')))
        copies = [line.replace(word, 'ECHO', 1) * (one[1] == '>') for line, one in zip(lines, frames)]
        done = fiolog('check', text=''.join(line + copy for line, copy in zip(lines, copies)))
        check.equal('written again, ' + form, ([str(len(frames))], []), (done.found(r'^frames (\d+)'), done.found(r'^line \d+: (\w+)')))


def main():
    check = Check()
    use_library(check, 'what fiolog judges')
    for part in (check_beginning, check_except, check_explained, check_places, check_messages, check_unseen, check_said, check_hints, check_cures,
                 check_few, check_sent_again):
        part(check)
    with tempfile.TemporaryDirectory() as folder:
        check_statuses(check, folder)
    check.end()


main()
