#!/usr/bin/env -S python3 -B
"""The commands of `fiolog`, run as a user runs them: the text of `show`, the rows of docs/PLANNING.md, texts that the
program reads again, answers while the input goes on; at a terminal too. Last line: `N passed, M failed`."""

import bz2
import csv
import glob
import gzip
import io
import lzma
import os
import random
import re
import subprocess
import sys
import tempfile
from pathlib import Path

from support.check import Check
from support.fiolog import ENVIRONMENT, LIBRARY, LONGEST, TOOL, fiolog, on_terminal, started, use_library, written
from support.kinds import LIKE, LITTLE, LOST
from support.loggers import LOGGERS
from support.paced import Line, Traffic, apart, least
from support.pages import text_of
from support.pcapng import frames_of
from support.sessions import SESSION, timed
from support.tables import TOP

EXAMPLES = os.path.join(TOP, 'examples')
BIT = re.compile(r'^ +[A-Z]: ')
AGAIN = '  E: sent again'
LINE = re.compile(r'^\d+: +(?:\S+ \S+ |\d+\.\d+ )?[<>] ')
LOG = LOGGERS['ISO times'](timed(SESSION))


def check_decode(check):
    """`decode` says what `show` says for the examples, and its other forms say the same."""
    for name in sorted(glob.glob(os.path.join(EXAMPLES, '*.frames'))):
        expected = [line for line in text_of(name[:-len('frames')] + 'shown').splitlines() if not line.startswith('line ')]
        found = [LINE.sub('', line).removesuffix(AGAIN) for line in fiolog('decode', '--format', 'frames', name).out.splitlines()
                 if not BIT.match(line)]
        faults = [line for line in found if re.match(r'(?:unknown|wrong length|too long|\d+: +\? damaged: bad line)', line)]
        check.equal('decode of ' + os.path.basename(name), expected, [line for line in found if line not in faults])
    rows = fiolog('decode', '--json', text=LOG).objects()
    check.equal('the octets of decode --json', [octets.hex() for octets in SESSION], [row['octets'] for row in rows])
    check.equal('an object', {'line': 7, 'direction': '<', 'type': 182, 'says': 'block 0 entries 1 status 00 stamp 1000',
                              'block': 0, 'status': 0, 'stamp': 1000,
                              'entries': [{'input': 12, 'state': 1, 'stamp': 999, 'wide': 999}]},
                {name: rows[6].get(name) for name in ('line', 'direction', 'type', 'says', 'block', 'status', 'stamp',
                                                      'entries')})
    table = list(csv.DictReader(io.StringIO(fiolog('decode', '--csv', text=LOG).out)))
    entries = sum(octets[2] for octets in SESSION if octets[0] == 182)
    check.equal('the entries of decode --csv', entries,
                sum(bool(row['input']) and row['type'] == '182' for row in table))
    check.equal('decode --input 13', [9], [row['line'] for row in fiolog('decode', '--json', '--input', '13', text=LOG).objects()])
    check.equal('by order a line ends at a carriage return too', ['1:     > wrong length needed 2 got 1', '2:     > unknown type 110'],
                fiolog('decode', '--format', 'frames', text='36\r6e\r# a remark\n').out.splitlines())
    check.equal('a time of the day with thousandths after a colon', ['1:     07:15:02.100 < block 5 entries 0 status 00 stamp 1'],
                fiolog('decode', text='07:15:02:100 RX B6 05 00 00 00 00 00 01\n').out.splitlines()[:1])
    check.holds('colours where they are asked for', '\x1b[' in fiolog('decode', '--color', 'always', text=LOG).out)
    check.holds('no colours in a pipe', '\x1b[' not in fiolog('decode', text=LOG).out)


def check_shown(check):
    """What is shown beside the text of `show`: the bits of a status, the clock of the log."""
    sets, says = ('3131', 'b1a1000000000005', 'ba01', 'b60500060000000a'), {
        'P': 'the module was reset', 'R': 'status flag', 'K': 'status flag', 'E': 'the same block number was asked for again',
        'F': 'entries between the block before and this one were pushed out', 'Y': 'the watchdog had been set before'}
    rows = fiolog('decode', '--json', '--format', 'frames', text='\n'.join(sets)).objects()
    letters = ('KRW', 'PKW', 'Y', 'FE')
    check.equal('the letters of bits', letters, tuple(''.join(row['bits']) for row in rows))
    check.equal('what bits say', [], [(letter, words) for row in rows for letter, words in row['bits'].items()
                                      if says.get(letter, 'status flag') != words])
    out = fiolog('decode', '--format', 'frames', text=sets[3]).out
    check.equal('the bits of a block', ['  F: ' + says['F'], '  E: ' + says['E']], out.splitlines()[1:])
    check.equal('the row of a repeat', '1:     < block 5 entries 0 status 06 stamp 10' + AGAIN, out.splitlines()[0])
    check.equal('the object of a repeat', [None, None, None, AGAIN.strip()], [row.get('repeat') for row in rows])
    done = fiolog('decode', text='08:15:02.25 TX 36 05\n08:15:02.26 RX b6 05 00 00 00 00 00 0a\n')
    check.equal('the clock of the log', ['08:15:02.250', '08:15:02.260'], done.found(r'\d\d:\d\d:\S+'))
    late = fiolog('decode', '--json', text='{"ts": 1e17, "data": "b60500000000000a"}\n{"ts": 9.5, "data": "b60600000000000a"}\n')
    check.equal('a time beyond the year 9999 is none', (0, [None, 9.5]),
                (late.status, [row['time'] for row in late.objects()]))


def check_judged(check):
    """What `check` says about a breach of limits, the rules of transcripts alone, and what is not judged after a frame that was
    lost."""
    block = '> 3605\n< b605%s\n'
    check.equal('input 63 is there', 0, fiolog('check', '-q', text=block % '013f00010000000001').status)
    for name, octets, words in [('an input', '014500010000000001', 'an entry is of input 69, above 63'),
                                ('the first input that is not there', '014000010000000001', 'an entry is of input 64, above 63'),
                                ('C', '010c00010800000001', 'C says that more entries wait than a block takes, but the block has 1'),
                                ('F', '00040000000a', 'F says that entries were pushed out, but C is not set')]:
        done = fiolog('check', '-q', text=block % octets)
        check.holds('a breach of limits by ' + name, 'line 2: limits: ' + words in done.out, done.out)
    for rule, words in [('pair', 'answer 182 came, but no command 54 is directly above it'),
                        ('number', 'block 5 was asked for, 6 came'), ('rest', 'the block has no entries, but the block before it says that more wait (C)'),
                        ('same', 'E says that the same block number was asked for again, but'), ('sequence', 'G says that the number is not the one before plus one, but'),
                        ('refusal', 'the module says that it is done (S is 0), but')]:
        done = fiolog('check', '-q', '--format', 'transcript', os.path.join(EXAMPLES, 'breaks-%s.transcript' % rule))
        check.holds('what a message does that breaks ' + rule, ': %s: %s' % (rule, words) in done.out, done.out)
    done = fiolog('check', '-q', text='> 3605\n< b605000300000000\n')
    check.holds('E and G', 'line 2: sequence: E says that the same block number was asked for again, and G' in done.out, done.out)
    name = os.path.join(EXAMPLES, 'doubled-entry.transcript')
    check.equal('--rules transcript', (1, 0), (fiolog('check', '-q', name).status, fiolog('check', '-q', '--rules', 'transcript', name).status))
    from fiolog.batch import made_of
    from fiolog.event import DAMAGED, Line, frame_of
    from fiolog.rules import Rules
    lines = ['3605', 'b60500000000000a', '3606', None, 'b60700000000001e', '3607', 'b60700020000001e', '3608']   # the answer 6 and the poll 7 were lost
    events = [frame_of(number, bytes.fromhex(line)) if line else Line(number, DAMAGED) for number, line in enumerate(lines, 1)]
    rules = Rules('bus')
    check.equal('no right link is accused where frames were lost', [], [found for batch in made_of(events) for found in rules.take(batch)])


def check_words(check):
    """What is written on standard error, and the statuses."""
    done = fiolog('decode', text=LOG)
    check.equal('a log that is read whole', (0, ''), (done.status, done.remarks))
    done = fiolog('decode', '-v', text=LOG + 'link down\n')
    check.holds('a line that is skipped', 'line %d: no octets: link down' % (len(SESSION) + 1) in done.err, done.err)
    check.holds('how many are skipped', '1 of %d lines skipped: no octets' % (len(SESSION) + 1) in done.err)
    with tempfile.TemporaryDirectory() as folder:
        both = [written(folder, name, 'link down\n' + LOG) for name in ('one', 'other')]
        named = [path + ' line 1: no octets: link down' for path in both]
        check.holds('each is named with its file', all(words in fiolog('decode', '-v', *both).err for words in named))
        check.holds('how many are skipped of two logs', '2 of %d lines skipped' % (2 * len(SESSION) + 2) in fiolog('decode', *both).err)
    for command in (['decode'], ['stats'], ['check'], ['record'], ['convert', '--to', 'frames']):
        done = fiolog(*command, text='nothing here\n')
        check.equal('%s of nothing' % command[0], (LITTLE, True), (done.status, 'no frame in 1 line:' in done.err))
    check.equal('a file that is not there', 3, fiolog('decode', 'no-such-file').status)
    alone, asked = fiolog(), fiolog('--help')
    check.equal('no word at all: the help', (2, asked.out, ''), (alone.status, alone.out, alone.err))
    for words in ([], ['--help'], ['check', '--help'], ['no-such-command']):
        bare = subprocess.run([*TOOL, *words], env={**ENVIRONMENT, 'FIO2070_LIBRARY': 'no-such-library'}, stdin=subprocess.DEVNULL, capture_output=True,
                              text=True, timeout=LONGEST, check=False)
        check.equal('%s needs no library' % ' '.join(['fiolog', *words]), fiolog(*words), (bare.stdout, bare.stderr, bare.returncode))
    check.holds('the help names the commands', all('\n    %s ' % name in asked.out for name in ('check', 'decode', 'record', 'live')), asked.out)
    done = fiolog('no-such-file')
    check.equal('a word that is no command and no file', (2, 'fiolog: no-such-file is no command and no file (fiolog --help)\n'), (done.status, done.err))
    for words in ([], ['-q'], ['--json']):
        for name in ('doubled-entry', 'good'):
            path = os.path.join(EXAMPLES, name + '.transcript')
            check.equal('%s LOG is check LOG: %s' % (' '.join(['fiolog', *words]), name), fiolog('check', *words, path), fiolog(*words, path))
    check.equal('fiolog - is check -', fiolog('check', '-', text=LOG), fiolog('-', text=LOG))
    version = re.search(r'^## (\S+)', text_of('CHANGELOG.md'), re.M)[1]
    for word in ('--version', '-V'):
        check.equal(word, (0, 'fiolog %s\nlibfio2070 %s %s\n' % (version, version, os.path.abspath(LIBRARY)), ''),
                    (lambda done: (done.status, done.out, done.err))(fiolog(word)))
    check.equal('a pattern without octets', 2, fiolog('decode', '--pattern', '(', text='').status)
    pattern = r'^(?P<time>[\d.]+)!(?P<dir>\w+)!(?P<octets>\w+)$'
    check.equal('a pattern', '1:     1.500 > poll block 5\n',
                fiolog('decode', '--pattern', pattern, text='1.5!tx!3605\n').out)


# Times of lines as logs write them, and as they are shown.
CLOCKS = [('2026-11-22 07:15:02.126', '2026-11-22 07:15:02.126'), ('2026-11-22T07:15:02.126004Z', '2026-11-22 07:15:02.126004'), ('1795331702.108', '2026-11-22 07:15:02.108'),
          ('Nov 22 07:15:02', '11-22 07:15:02.000'), ('07:15:02,126', '07:15:02.126'), ('7:15:02.5 PM', '19:15:02.500'), ('00:00:00.000001', '00:00:00.000001'),
          ('7.763', '7.763'), ('[    7.000000]', '7.000'), ('0.0000015', '0.000001'), ('', '')]


def check_clocks(check):
    """A time is shown by what it counts from, whatever the octets look like; files whose octets do are merged."""
    for time, clock in CLOCKS:
        lines = '%s TX 36 05\n%s RX b6:05:00:00:00:00:00:01\n' % (time, time)
        shown = [re.sub(r'^\d+: +| ?[<>].*', '', line) for line in fiolog('decode', '-q', text=lines * 3).out.splitlines()]
        check.equal('the time %s' % time, [clock] * 6, shown)
    polls = [(number / 1000 + side / 500, side, octets) for number in range(60, 1060, 50) for side, octets in enumerate(
        ('36:%02x' % (number // 50), 'b6:%02x:00:00:00:00:00:%02x' % (number // 50, number // 10)))]
    lines = [('%.6f,0x%02x,%s\n' % (time, 0x81 if side else 2, octets), side) for time, side, octets in polls]
    shown = [line.split()[1] for line in fiolog('decode', '-q', text=''.join(line for line, _ in lines)).out.splitlines()]
    check.equal('the times of octets between colons', ['%.3f' % time for time, _, _ in polls], shown)
    with tempfile.TemporaryDirectory() as folder:
        both = [written(folder, name, ''.join(line for line, of in lines if of == side)) for side, name in enumerate(('tx', 'rx'))]
        done = fiolog('check', '-q', '--merge', *both)
        check.equal('files with octets between colons are merged', (0, True), (done.status, 'frames 40, polls 20, repeats 0, answers lost 0' in done.out))


# Words of `plan`, and the first numbers that it gives: for modules of which few entries may wait.
PLANS = [('--inputs 8 --filter 5 --block 64 --waiting 71', [40, 64, 39, 20, 64, 39]),
         ('--inputs 8 --filter 5 --block 64 --waiting 70', [39, 64, 38, 19, 64, 37]),
         ('--inputs 8 --filter 5 --block 64 --waiting 136', [40, 64, 39, 128, 79]),
         ('--inputs 64 --filter 1 --waiting 63', [0, 0])]


def planned(words):
    """The numbers that `plan` gives for these words, by what they are; if they name none, for a clock that does not drift."""
    words = words.split() + ['--drift', '0'] * ('--drift' not in words)
    return {one['what']: int(float(str(one['number']).split()[0])) for one in fiolog('plan', '--json', *words).objects()[0]}


def check_numbers(check):
    """`stats` counts, and `plan` prints the rows of docs/PLANNING.md."""
    found = fiolog('stats', '--json', text=LOG).objects()[0]
    check.equal('stats', (len(SESSION), 6, 1, 1, 36, 3, {'12': 34, '13': 1, '14': 1}),
                (found['frames'], found['polls'], found['repeats'], found['answers_lost'], found['entries'],
                 len(found['response_ms']) - 1, found['entries_by_input']))
    times = 'no octets\n1.000000 TX 36 05\n1.001500 RX B6 05 00 00 00 00 00 01\n3.250000 TX 36 06\n9.0 no octets\n'
    found = fiolog('stats', '--json', text=times).objects()[0]
    check.equal('a response time of 1.5 ms, in a log from the first frame to the last', ({'count': 1, 'median': 1.5, 'percentile_99': 1.5, 'most': 1.5}, 2.25),
                (found['response_ms'], found['seconds']))
    rows = [[int(cell.replace(',', '')) for cell in re.findall(r'[\d,]+', line)]
            for line in re.findall(r'^\| \d.*', text_of('docs/PLANNING.md'), re.M)]
    for row in rows[::5]:
        names = ['poll every', 'late, at most', 'late, at most, answers lost']
        words = '--inputs %d --filter %d' % tuple(row[:2])
        plan = planned(words)
        check.equal('plan ' + words, row[2:5], [plan[name] for name in names])
        for drift, jitter in ((100, 0), (100, 2), (10_000, 1)):
            clock = '%s --drift %d --jitter %d' % (words, drift, jitter)
            line = Line(1, 0, 0, 0, 0, drift, jitter)
            every = max([every for every in range(1, row[2]) if apart(line, every)[1] <= row[2]], default=0)
            check.equal('plan ' + clock, every, planned(clock)['poll every'])
    check.equal('a crystal, if nothing is said of the clock', ['18', '22'],
                fiolog('plan', '--inputs', '64', '--filter', '5').found(r'^ *(?:poll every|late, at most) +(\d+) ms'))
    check.equal('a round every 12 ms with 5 of each 100 lost, none later than 71', ['12', '71'],
                fiolog('plan', '--inputs', '64', '--filter', '5', '--drift', '0').found(r'5 of each 100 rounds lost +(\d+) ms'))
    for words, expected in PLANS:
        check.equal('plan ' + words, expected, list(planned(words).values())[:len(expected)])
    for rate, words, stop_bits in ((614_400, '--sync', 0), (115_200, '--async', 1), (1_000_000, '--async 2 --answer-time 3', 2)):
        answer, traffic = int(words[-1]) if 'answer' in words else 0, Traffic(16, 10, 255, 1024)
        for drift, jitter in ((0, 0), (100, 0), (100, 3)):
            every, taken, late, _ = least(Line(rate, stop_bits, answer, 0, 0, drift, jitter), traffic)
            clock = '--drift %d --jitter %d' % (drift, jitter)
            check.equal('plan at %d bit/s, %s %s' % (rate, words, clock), [every, taken, late],
                        list(planned('--inputs 16 --filter 10 --rate %d %s %s' % (rate, words, clock)).values())[-4:-1])
    for words in (['--inputs', '8'], ['--filter', '5'], [], ['--inputs', '8', '--filter', '5', '--rate', '9600'],
                  ['--inputs', '8', '--filter', '5', '--sync'], ['--inputs', '65', '--filter', '5'],
                  ['--inputs', '8', '--filter', '5', '--drift', '10001'], ['--inputs', '8', '--filter', '5', '--jitter', '65536']):
        check.equal('plan ' + ' '.join(words), 2, fiolog('plan', *words).status)


def check_convert(check):
    """The texts that it writes are read again, and the capture has the frames."""
    transcript = fiolog('convert', '--to', 'transcript', text=LOG).out
    expected = ''.join('%s %s\n' % (direction, octets.hex()) for _, direction, octets in timed(SESSION))
    check.equal('a transcript', expected, transcript)
    check.equal('frames', ''.join(octets.hex() + '\n' for octets in SESSION), fiolog('convert', '--to', 'frames', text=LOG).out)
    capture = fiolog('convert', '--to', 'pcapng', text=LOG, is_text=False).out
    check.equal('pcapng', [(direction, octets) for _, direction, octets in timed(SESSION)], frames_of(capture))
    shown = fiolog('convert', '--to', 'vcd', text=LOG).out
    check.holds('VCD', shown.startswith('$version') and shown.count('$var wire 1 i') == 3, shown)
    done = fiolog('record', text=LOG)
    record = done.out.splitlines()
    check.equal('the record, of which entries are too near, and a stamp goes back',
                (36, ['line 11 input 12 breaks apart', 'line 13 restarted'], 1),
                (sum('state' in line for line in record), [line for line in record if line.startswith('line')], done.status))
    check.equal('the first line of the record', '7:     2026-11-22 07:15:02.065 input 12 state 1 stamp 999 wide 999',
                re.sub(r'02\.\d+', '02.065', record[0]))


def check_check(check):
    """`check` finds first what the program finds, by `check` or else by `record`, and goes on: past noise, past damage, in
    logs of the other end. It says that the module restarted where the program names `clock` or `watchdog`."""
    for name in sorted(glob.glob(os.path.join(EXAMPLES, '*.transcript'))):
        texts = ''.join(map(text_of, sorted(glob.glob(name[:-len('transcript')] + '[rv]e*'), reverse=True)))
        verdict = re.search(r'^line (\d+) (?:input \d+ )?breaks (\w+)', texts, re.M)
        for form in ('transcript', 'auto'):
            done = fiolog('check', '-q', '--format', form, name)
            found = re.search(r'^line (\d+): (\w+): ', done.out, re.M)
            expected = verdict and verdict.groups()
            if expected and expected[1] in ('clock', 'watchdog'):
                expected = expected[0], 'restarted'
            if expected and expected[1] == 'readable' and form == 'auto':
                # The line may have been damaged on its way into the log.
                check.equal('check of %s, auto' % os.path.basename(name), None, found)
                continue
            status = LOST if expected and expected[1] == 'restarted' else int(bool(expected))
            check.equal('check of %s, %s' % (os.path.basename(name), form), (expected, status),
                        (found and found.groups(), done.status))
    broken = '> 36ff\nnoise\n> 3600\n< b600018000020000000002\n> 3601\n> 3604\n< b6040000000000ff\n'
    done = fiolog('check', text=broken)
    check.equal('every breach', [('3', 'advance', 'block 255 was due, 0 came'), ('6', 'advance', 'block 1 was due, 4 came')],
                done.found(r'line (\d+): (\w+): ([^:\n]*)'))
    check.holds('how often, from where to where', 'fiolog: CPU: advance: 2 times, first in line 3, last in line 6. ' in done.err, done.err)
    timed_log = '07:15:02.100 TX 36 ff\n07:15:02.200 TX 36 00\n'
    check.holds('since when', 'fiolog: CPU: advance: once, in line 2 at 07:15:02.200. ' in fiolog('check', '--like', timed_log.splitlines()[0], text=timed_log).err)
    for name, above, number, words in (
            ('ahead', 13, 15, 'block 14 was due, 15 came: the CPU went on without an answer, and what block 14 had may be lost, which '
             'TEES allows; or the log lost a line (own profile)'),
            ('behind', 13, 13, 'block 14 was due, 13 came: the CPU asks again for a block that was answered; or it did not hear that '
             'answer, and the log is not its own (own profile)'),
            ('ahead, around 255', 255, 1, 'block 0 was due, 1 came: the CPU went on without an answer, and what block 0 had may be lost, '
             'which TEES allows; or the log lost a line (own profile)')):
        done = fiolog('check', text='> 36%02x\n< b6%02x0000000003e8\n> 36%02x\n' % (above, above, number))
        check.equal('what a poll %s means' % name, ['line 3: advance: ' + words], done.found('^line 3.*'))
    for name, text, rule, source, is_own in (
            ('a load that is refused', '> 32000000ff\n< b201\n', 'done', 'own profile', True),
            ('a block with another number', '> 3605\n< b6060000000003e8\n', 'number', 'TEES 2009', False),
            ('an entry that is doubled', text_of('examples/doubled-entry.transcript'), 'fresh', 'TEES 2009; layout own profile', False),
            ('an entry above 63', '> 3605\n< b605014000000000000005\n', 'limits', 'TEES 2009 and own profile', False)):
        done = fiolog('check', '--format', 'transcript', text=text)
        check.equal('the source: ' + name, [(rule, source)], done.found(r'^line \d+: (\w+): .* \(([^()]+)\)$'))
        check.equal('the source in an object: ' + name, [source], [one['source'] for one in fiolog('check', '--json', '--format', 'transcript', text=text).objects()[:-1]])
        done = fiolog('check', '--tees', '--format', 'transcript', text=text)
        check.equal('--tees: ' + name, (int(not is_own), is_own), (done.status, '1 breach of a rule that is left out' in done.out))
        check.holds('--explain has the source: ' + name, 'Source: behaviour ' + source.split(';')[0] in fiolog('check', '--explain', rule).out)
    done = fiolog('check', text=text_of('examples/lost-answer.frames'))
    check.equal('a log of the bus does not accuse a right CPU', ([], 0, True), (done.found('line .*'), done.status, 'not judged' in done.err))
    middle = '< b6050000000003e8\n> 3606\n< b6060000000003e9\n'
    check.equal('--start-at-poll', 0, fiolog('check', '--start-at-poll', text=middle).status)
    # F without C: a module in which no more may wait than a block takes can say that it lost entries.
    lost = '> 3605\n< b605010c000a040000000b\n'
    check.equal('the standard limits', ['limits'], fiolog('check', text=lost).found(r'^line 2: (\w+)'))
    for words, status in ((('255', '64'), LOST), (('255', '1024'), 1), (('0', '64'), 2), (('255', '8193'), 2)):
        check.equal('--limits ' + ' '.join(words), status, fiolog('check', '--limits', *words, text=lost).status)
    check.equal('no frame', LITTLE, fiolog('check', text='').status)


def check_terminal(check, folder):
    """Colours, tables and how much of a long file is read, on a terminal."""
    if not check.has_terminal('colours on a terminal'):
        return
    text = on_terminal(sys.executable, ['decode', '-q'], text=LOG)
    check.holds('colours on a terminal', '\x1b[36mpoll block 255\x1b[0m' in text and '\x1b[33m' in text, text)
    for name, value in (('NO_COLOR', '1'), ('TERM', 'dumb')):
        text = on_terminal(sys.executable, ['decode', '-q'], text=LOG, **{name: value})
        check.holds('no colours with %s' % name, '\x1b[' not in text, text)
    text = on_terminal(sys.executable, ['check', '-q', '--format', 'transcript'], text='> 36ff\n> 3600\n')
    check.holds('the colour of a breach', 'line 2: \x1b[31;1madvance\x1b[0m: block 255 was due' in text, text)
    kept = os.path.join(folder, 'kept')
    # Long by its octets, not by its messages.
    path = written(folder, 'long.log', (LOG + 'link down, %s\n' % ('\0' * 2 ** 18)) * 17)
    text = on_terminal(sys.executable, ['stats', path])
    parts = [int(part) for part in re.findall(r'\x1b\[Kreading (\d+) %\r', text)]
    check.holds('how much of a long file is read', len(parts) > 9 and parts == sorted(set(parts)) and parts[-1] == 100, parts)
    check.holds('that goes, and a table follows', text.rindex('\x1b[K') < text.index('Frames of') and re.search(r'\n  polls +\d+', text), text[-400:])
    for words in (['record'], ['check'], ['decode']):
        with open(kept, 'wb') as out:
            text = on_terminal(sys.executable, [*words, path], out=out)
        check.holds('so it is beside %s into a file' % words[0], re.search(r'reading 9\d %', text), text[:300])
        check.equal('what %s writes stays in the file' % words[0], fiolog(*words, path).out, Path(kept).read_text(encoding='utf-8'))
    check.holds('but not between messages', 'reading' not in on_terminal(sys.executable, ['decode', '--input', '60', path]))
    check.holds('nor of a short file', 'reading' not in on_terminal(sys.executable, ['stats'], text=LOG))


def fault_of_following():
    """`decode` answers each line at once, as with `tail -f`, once the log has shown its forms; by a sample line from the first line on."""
    return fault_of_answers(16) or fault_of_answers(0, '--like', 'TX 36 04', '--like', 'RX B6 04 00 00 00 00 00 01')


def fault_of_answers(above, *words):
    """The same below this many rounds."""
    command = started('decode', '-q', *words, stderr=None)
    try:
        for number in range(256 - above, 256):
            command.stdin.write(b'TX 36 %02X\nRX B6 %02X 00 00 00 00 00 01\n' % (number, number))
        command.stdin.flush()
        for number in range(256 - above, 256):
            rows = command.stdout.readline(), command.stdout.readline()
            if not (b'poll block %d' % number in rows[0] and b'block %d entries 0' % number in rows[1]):
                return rows
        for line, expected in [(b'TX 36 00\n', b'poll block 0'), (b'RX B6 00 00 00 00 00 00 01\n', b'block 0 entries 0'),
                               (b'TX 36 01\n', b'poll block 1'), (b'RX B6 01 00 00 00 00 00 01\n', b'block 1 entries 0')]:
            command.stdin.write(line)
            command.stdin.flush()
            found = command.stdout.readline()
            if expected not in found:
                return found
    finally:
        command.stdin.close()
        command.wait()
        command.stdout.close()
    return None


def fault_of_memory():
    """Ten times the number of lines takes no more memory, noise included."""
    most = []
    for count in (6_000, 60_000):
        lines = "import sys\nfor n in range(%d): sys.stdout.write('TX 36 %%02X\\nRX B6 %%02X 00 00 00 00 00 01\\nnoise %%d\\n' %% (n %% 256, n %% 256, n))" % (count // 3)
        code = ('import subprocess, resource, sys; subprocess.run([sys.executable, "-m", "fiolog", "stats", "-q"], '
                'stdin=sys.stdin, stdout=subprocess.DEVNULL); '
                'print(resource.getrusage(resource.RUSAGE_CHILDREN).ru_maxrss)')
        writer = subprocess.Popen([sys.executable, '-c', lines], stdout=subprocess.PIPE)
        done = subprocess.run([sys.executable, '-c', code], stdin=writer.stdout, stdout=subprocess.PIPE, env=ENVIRONMENT)
        writer.stdout.close()
        writer.wait()
        most.append(int(done.stdout))
    return None if most[1] < most[0] + 4096 else 'KiB: %r' % most


def seconds_of(lines):
    """The seconds of a processor that a log takes with these lines in its middle; frames that answer nothing above and below."""
    frames = [f'07:15:{number:02}.101 TX 36 {number:02x}\n07:15:{number:02}.102 RX b6 {number:02x} 00 00 00 00 00\n' for number in range(40)]
    code = ('import subprocess, resource, sys; subprocess.run([sys.executable, "-m", "fiolog", "check", "-q"], stdout=subprocess.DEVNULL, '
            'stderr=subprocess.DEVNULL); print(resource.getrusage(resource.RUSAGE_CHILDREN).ru_utime)')
    text = ''.join([*frames[:20], *(line + '\n' for line in lines), *frames[20:]])
    return float(subprocess.run([sys.executable, '-c', code], input=text, stdout=subprocess.PIPE, env=ENVIRONMENT, text=True, check=True).stdout)


def fault_of_long_lines(octets):
    """Four lines of 60,000 characters take a few seconds at most: each character is read a bounded number of times."""
    short, long = ([octets * (count // len(octets))] * 4 for count in (600, 60_000))
    more = seconds_of(long) - seconds_of(short)
    return None if more < 5 else 'seconds more: %.1f' % more


def check_faulty_words(check):
    """A command line with a value out of its range is refused before anything is read."""
    for words in (['--input', 'x'], ['--input', '64'], ['--input', '-1'], ['--format', 'nope']):
        done = fiolog('decode', *words, text='3605\n')
        check.equal('decode %s' % ' '.join(words), (2, True), (done.status, words[0] in done.err))
    check.equal('live --udp 65536', 2, fiolog('live', '--udp', '65536').status)


def check_hostile(check, folder):
    """What no logger writes is skipped with a reason; no frame is read from it, and the lines after it keep their
    numbers."""
    good, draw = b'TX 36 05\nRX B6 05 00 00 00 00 00 01\nTX 36 06\n', random.Random(35)
    for name, hostile in [('a line of 3 MB', b'> ' + b'b6' * 1_500_000 + b'\n'), ('zeros', bytes(200_000) + b'\n'),
                          ('a line of words', b'tx rx ' * 40_000 + b'3605\n'), ('no UTF-8', b'\x80\xfe TX 36 05\n'),
                          ('a long row', b'{"data": "' + b' ' * 200_000 + b'3605"}\n')]:
        done = fiolog('decode', '-v', *LIKE, written(folder, 'hostile', hostile + good))
        # A line that is too long is damaged.
        is_long = len(hostile) > 1 << 16
        check.equal('below %s' % name, (int(is_long), ['2', '3', '4']), (done.status, done.found(r'^([2-9]):.*[<>]')))
        check.holds('%s is named' % name, 'line 1: ' in done.err or name in ('zeros', 'no UTF-8'), done.err[:300])
    # Forms are not learnt across such a line: the first ones below it are skipped until those below them show a form.
    log = b'tx rx ' * 40_000 + b'\n' + b''.join(b'TX 36 %02X\nRX B6 %02X 00 00 00 00 00 01\n' % (number, number) for number in range(40))
    found = [int(line) for line in fiolog('decode', '-q', written(folder, 'hostile', log)).found(r'^(\d+):.*[<>]')]
    check.holds('below a first line that is too long, frames from the 34th line on at the latest, without --like', set(range(34, 82)) <= set(found), found)
    for seed in range(3):
        done = fiolog('decode', written(folder, 'hostile', draw.randbytes(60_000)))
        check.equal('random octets, %d' % seed, (LITTLE, ''), (done.status, done.out))
    log = b''.join(b'TX 36 %02X\nRX B6 %02X 00 00 00 00 00 01\n' % (number % 256, number % 256) for number in range(3000))
    for name, pack in (('gzip', gzip.compress), ('xz', lzma.compress), ('bzip2', bz2.compress)):
        packed = pack(log)
        # bzip2 packs all of it in one block.
        for kind, octets, words, is_read in (('a file packed', packed, '', True), ('two files packed', packed + packed, '', True), ('a file cut short, packed', packed[:-20], 'ends early', name != 'bzip2'),
                                             ('a damaged file packed', packed + packed[:-60] + bytes(60), 'is read', True)):
            done = fiolog('decode', written(folder, 'hostile', octets))
            check.equal('%s by %s' % (kind, name), (is_read, True), (done.out.startswith('1:     > poll block 0\n2:     < block 0'), words in done.err))
    done = fiolog('decode', os.path.join(EXAMPLES, 'captures', 'udp.pcap'))
    check.equal('a capture file', (0, ['1', '2', '3', '4', '5', '6', '7']), (done.status, done.found(r'^([0-9]+):')))
    done = fiolog('decode', folder)
    check.equal('a folder', (3, 'fiolog: %s: Is a directory\n' % folder), (done.status, done.err))


def check_closed(check):
    """Streams that are closed or full end the tool with a message, and without a traceback."""
    for words, status in [('>&-', 3), ('> /dev/full', 3), ('<&-', LITTLE), ('| head -n 1', 0), ('2>&-', 0)]:
        command = '%s -m fiolog decode -q %s' % (sys.executable, words)
        done = subprocess.run(['sh', '-c', command], input=LOG * 400, stdout=subprocess.PIPE, stderr=subprocess.PIPE,
                              env=ENVIRONMENT, universal_newlines=True)
        check.equal('with ' + words, (status, False), (done.returncode, 'Traceback' in done.stderr))
    for words in ('', '--help', '--version', 'check --help', 'check --explain advance'):
        done = subprocess.run(['sh', '-c', '%s -m fiolog %s > /dev/full' % (sys.executable, words)], stderr=subprocess.PIPE,
                              env=ENVIRONMENT, universal_newlines=True)
        check.equal('onto a full disk: fiolog ' + words, (3, 'fiolog: standard output: No space left on device\n'),
                    (done.returncode, done.stderr))


def main():
    check = Check()
    use_library(check, 'all commands of fiolog')
    for part in (check_decode, check_shown, check_judged, check_words, check_clocks, check_numbers, check_convert, check_check, check_faulty_words, check_closed):
        part(check)
    with tempfile.TemporaryDirectory() as folder:
        check_hostile(check, folder)
    with tempfile.TemporaryDirectory() as folder:
        check_terminal(check, folder)
    check.fault('answers while the input goes on', fault_of_following)
    check.fault('bounded memory', fault_of_memory)
    for octets in ('a', '00 ', '36 05 ', '1234567890'):
        check.fault('long lines of %r' % octets, fault_of_long_lines, octets)
    check.end()


main()
