#!/usr/bin/env -S python3 -B
"""`fiolog record` with the rules on content: as text exactly what `fio2070 record` writes for the examples and for lossy
runs with an entry dropped, doubled, turned or swapped, but for restarts; each breach in the table, as JSON and as VCD; and
what goes on after a breach, in the middle of traffic, and in logs of the bus and of the module. Last line: `N passed, M failed`."""

import csv
import glob
import json
import os
import random
import re
import tempfile

from support.check import Check
from support.faults import FAULTS, changed
from support.fiolog import fiolog, use_library, written
from support.kinds import LITTLE
from support.lossy_runs import lossy_script, run_of_link
from support.mixes import SIDES, frames_of, mix_of
from support.pages import text_of
from support.tables import TOP, output_of

EXAMPLES = os.path.join(TOP, 'examples')
# What each broken example accuses: line, rule, and if there is one, the input and the index in the block.
BROKEN = {'doubled-entry': (10, 'fresh', 12, 0), 'flag-left': (3, 'cleared'),
          'ignored-input': (7, 'ignored', 12, 0), 'lost-entry': (11, 'alternate', 12, 0), 'near-entries': (7, 'apart', 12, 1),
          'other-states': (13, 'state', 12), 'refused-configuration': (3, 'accepted'), 'refused-load': (3, 'done'),
          'swapped-entries': (7, 'order', 12, 1), 'turned-entry': (9, 'alternate', 12, 0)}
# Those in which the module restarted, or a stamp is wrong: `fio2070 record` names a rule, `fiolog` accuses nobody. The line of each.
RESTARTED = {'clock-back': 5, 'watchdog-forgotten': 5}
SEEDS = 9


def same_text(check, name, text):
    """A row: its text and its status are those of the program. Returns the status."""
    expected, status = output_of('record', text)[:2]
    done = fiolog('record', '-q', '--text', '--format', 'transcript', text=text)
    check.equal('the text of %s' % name, (expected, status), (done.out, done.status))
    return status


def check_examples(check):
    """Each example as text, and what is broken in each form."""
    for path in sorted(glob.glob(os.path.join(EXAMPLES, '*.transcript'))):
        name = os.path.splitext(os.path.basename(path))[0]
        if name not in RESTARTED:
            same_text(check, name, text_of(path))
    for name, (line, rule, *where) in BROKEN.items():
        path = os.path.join(EXAMPLES, name + '.transcript')
        words = 'line %d %sbreaks %s' % (line, 'input %d ' % where[0] if where else '', rule)
        done = fiolog('record', '-q', path)
        check.equal('the table of %s' % name, (1, [words]), (done.status, done.found('.*breaks.*')))
        entries = sum(octets[2] for octets in blocks_of(text_of(path)))
        check.equal('all items of %s' % name, entries, len(done.found(r'^\d+: +input')))
        rows = fiolog('record', '-q', '--json', path).objects()
        check.equal('the object of %s' % name, [{'line': line, 'time': None, **dict(zip(('input', 'entry'), where)), 'breaks': rule}],
                    [one for one in rows if 'breaks' in one])
        done = fiolog('record', '-q', '--vcd', path)
        check.equal('the VCD of %s' % name, (1, int(len(where) == 2), 'fiolog: %s\n' % words),
                    (done.status, done.out.count('\n1b\n'), done.err))
    for name, line in RESTARTED.items():
        path, words = os.path.join(EXAMPLES, name + '.transcript'), 'line %d restarted\n' % line
        check.equal('the text of %s' % name, ('record 0\n' + words, 0), fiolog('record', '-q', '--text', path)[::2])
        check.equal('the table of %s' % name, (words, 0), fiolog('record', '-q', path)[::2])
        rows = fiolog('record', '-q', '--json', path).objects()
        check.equal('the object of %s' % name, [{'line': line, 'time': None, 'outcome': 'restarted'}], rows)
        check.equal('the row of %s' % name, '%s,,%d,,,,,,restarted,' % (path, line), fiolog('record', '-q', '--csv', path).out.splitlines()[-1])
        done = fiolog('record', '-q', '--vcd', path)
        check.equal('the VCD of %s' % name, (0, 'fiolog: ' + words), (done.status, done.err))
    path = os.path.join(EXAMPLES, 'good.transcript')
    check.equal('a record without a breach', (0, False),
                (fiolog('record', '-q', path).status, 'breach' in fiolog('record', '-q', '--vcd', path).out))


def blocks_of(text):
    """The octets of the block answers of a transcript."""
    return [bytes.fromhex(digits) for digits in re.findall(r'^< (b6\w+)$', text, re.M)]


def check_runs(check):
    """Runs of the link are not accused; most of those in which an entry was changed are."""
    draw, found = random.Random(32), dict.fromkeys(FAULTS, 0)
    for seed in range(SEEDS):
        text = run_of_link(lossy_script(seed, (2, 4, 16)))
        check.equal('run %d is not accused' % seed, 0, same_text(check, 'run %d' % seed, text))
        for fault in FAULTS:
            found[fault] += same_text(check, 'run %d with an entry %s' % (seed, fault.__name__), changed(text, fault, draw))
    for fault, count in found.items():
        check.holds('of %d runs with an entry %s most are accused' % (SEEDS, fault.__name__), 2 * count > SEEDS, count)


# An entry of input 12 twice, after whatever comes before.
START, FIRST = '> 33020c05030d0503\n< b300\n', '> 3600\n< b600000000000000\n> 3601\n< b601010c000a000000000b\n'
AGAIN = '> 3602\n< b602010c00140000000015\n'
EARLIER = '> 3602\n< b602010d0009000000000c\n'
# The CPU asks for 9 although 3 is next; from the next poll on the link goes on.
SKIP = '> 3609\n< b60900000000001f\n> 360a\n< b60a000000000020\n'


def breaches(*words, text):
    """What is broken, by line, and the status."""
    done = fiolog('record', '-q', *words, text=text)
    return done.found(r'^line \d+ .*$'), done.status


def check_course(check):
    """What goes on, and what is not judged."""
    check.equal('one more breach in each block', (['line 8 input 12 breaks alternate', 'line 10 input 12 breaks fresh'], 1),
                breaches(text=START + FIRST + AGAIN + AGAIN.replace('3602', '3603').replace('b602', 'b603')))
    later = SKIP + '> 360b\n< b60b010c00280000000029\n> 360c\n< b60c010c003c000000003d\n'
    check.equal('below a breach of the rules of `check` from the next poll on',
                (['line 7 breaks advance', 'line 14 input 12 breaks alternate'], 1), breaches(text=START + FIRST + later))
    load = '> 3200000000\n< b200\n'
    back = '> 360b\n< b60b010c00280000000029\n> 360c\n< b60c018c00010000000002\n'
    check.equal('a time that goes back', ['line 7 breaks advance', 'line 14 restarted'], breaches(text=START + FIRST + SKIP + back)[0])
    check.equal('a load above the breach lifts it', ['line 9 breaks advance'], breaches(text=START + FIRST + load + SKIP + back)[0])
    check.equal('an entry that comes late', (['line 8 input 13 breaks fresh'], 1), breaches(text=START + FIRST + EARLIER))
    # An input is ignored until it is configured, which only a log shows that begins with both ends.
    check.equal('a log that begins later', ([], 0), breaches(text=FIRST))
    check.equal('--whole', (['line 4 input 12 breaks ignored'], 1), breaches('--whole', text=FIRST))
    check.equal('--whole of a right log', ([], 0), breaches('--whole', text=START + FIRST))
    done = fiolog('check', '-q', text=START + FIRST + AGAIN)
    check.equal('`check` says what a breach means', (
        1, 'line 8: alternate: input 12 went to 0 twice in a row, and neither an overflow (F) nor a configuration that was sent can have '
        'hidden a change between: an entry was lost, or this entry is doubled or has the wrong state (TEES 2009; layout own profile)'),
                (done.status, done.out.splitlines()[1]))
    middle = '< b6050000000003e8\n' + FIRST
    check.equal('in the middle of traffic', ([], 0), breaches(text=middle))
    check.equal('the answer to a poll above the log, with --whole', (['line 1 breaks pair'], 1), breaches('--whole', text=middle))
    check.equal('--start-at-poll', ([], 0), breaches('--start-at-poll', text=middle))
    above = '< b605010c03e700000003e8\n' + '> 3606\n< b606018c03f200000003f3\n'
    done = fiolog('record', text=above)
    check.equal('an entry above the first command is recorded, and that is said', (0, ['12', '12'], True),
                (done.status, done.found(r'input (\d+)'), '1 frame above the first command' in done.err))
    check.equal('as text the record begins at the first command', 'record 1\ninput 12 state 1 stamp 1010 wide 1010\n',
                fiolog('record', '-q', '--text', text=above).out)
    passed = '> 3602\n< b60200000000001a\n%s> 3609\n< b609010d001e000000001f\n'
    for name, between, breach in (('nothing', '', True), ('noise', '# a remark\n', True), ('a remark of loss', '3 frames lost\n', False),
                                  ('a heading', 'Log file opened\n', False)):
        done = fiolog('record', '-q', text=START + FIRST + passed % between)
        check.equal('a number is passed over below %s' % name, (int(breach), breach, False, ['13']),
                    (done.status, 'line 9' in done.out or 'line 10' in done.out, 'was due by what was heard' in done.err, done.found(r'^1\d: +input (\d+)')))
    check.equal('noise in between', (['line 9 input 12 breaks alternate'], 1), breaches(text=START + FIRST + '# restarted\n' + AGAIN))
    turned = (START + FIRST + AGAIN).translate(str.maketrans('<>', '><'))
    check.equal('the log of the module', (['line 8 input 12 breaks alternate'], 1), breaches('--at', 'module', text=turned))
    done = fiolog('record', '-q', text=text_of('examples/lost-answer.frames'))
    check.equal('a log of the bus has each entry once, and accuses nobody', (0, 2, []),
                (done.status, len(done.out.splitlines()), done.found('breaks')))


# Logs of two sites: the second begins with the number that the first ends with, and has entries in its first block. Of the third
# no answer to a poll was logged, so the poll that passes over a number is a breach only at its end.
SITES = {'first': '> 36ff\n< b6ff00000000000a\n> 3600\n< b600010c000c0000000014\n',
         'second': '> 3600\n< b600010d00050000000008\n> 3601\n< b601018d000c0000000010\n',
         'third': '> 34\n< b4000000000000000000000001\n> 3605\n> 3607\n'}
PAIRS = [('first', 'second'), ('second', 'first'), ('third', 'first'), ('first', 'third')]


def said_of(form, *names):
    """What a form of the record says of these files: a list of each row of a table without its head, and the status."""
    done = fiolog('record', '-q', *form, *names)
    return done.out.splitlines()[form != [] and form != ['--json']:], done.status


def named(form, name, row):
    """A row of the record of one log, as it is among those of several."""
    if form == ['--json']:
        return '{"file": %s, %s' % (json.dumps(name), row[1:])
    return row + ',' + name if '--hires' in form else row if form else name + ' ' + row


def check_several(check, folder):
    """What the record of several logs says is what the records of each say, with the file."""
    names = {name: written(folder, name, text) for name, text in SITES.items()}
    events = ['--hires', '/dev/stdout', '--start', '2026-03-01T07:00:00', '--signal', '7', '--on', '0']
    paths = sorted(glob.glob(os.path.join(EXAMPLES, '*.transcript')))
    pairs = [(form, (names[one], names[two])) for form in ([], ['--csv'], ['--json'], events) for one, two in PAIRS]
    for form, pair in pairs + [(['--csv'], pair) for pair in zip(paths, paths[1:])]:
        alone = [said_of(form, name) for name in pair]
        statuses = {status for _, status in alone}
        check.equal('record %s of %s and %s' % (' '.join(form[:1]), *map(os.path.basename, pair)),
                    ([named(form, name, row) for name, (rows, _) in zip(pair, alone) for row in rows], 1 if 1 in statuses else max(statuses)),
                    said_of(form, *pair))
    first, second = names['first'], names['second']
    check.equal('an entry of the second log', '%s,,2,,13,0,5,5,,' % second, fiolog('record', '-q', '--csv', first, second).out.splitlines()[2])
    check.equal('the column of the file', ['file,address,line,time,input,state,stamp,wide,mark,fault', 'TimeStamp,DeviceId,EventId,Parameter,File'],
                [fiolog('record', '-q', *form, first, second).out.splitlines()[0] for form in (['--csv'], events)])
    done = fiolog('record', *events, first, second)
    check.equal('each log begins at --start', ('fiolog: each of the 2 logs begins at --start\n', [
        ['2026-03-01 07:00:00.002', '7', '82', '13', first], ['2026-03-01 06:59:59.997', '7', '82', '14', second],
        ['2026-03-01 07:00:00.004', '7', '81', '14', second]]), (done.err, list(csv.reader(done.out.splitlines()[1:]))))
    for words in (['record', '--text'], ['record', '--vcd'], ['convert', '--to', 'vcd']):
        done = fiolog(*words, first, second)
        check.equal('%s of two logs' % ' '.join(words), ('', 2, True), (done.out, done.status, 'one log: name one file, or --merge' in done.err))


def rows_of(*words):
    """The rows of a table, each as an object, without its time, and the status."""
    done = fiolog('record', '-q', '--csv', *words)
    return [{name: cell for name, cell in row.items() if name != 'time'} for row in csv.DictReader(done.out.splitlines())], done.status


def check_stations(check, folder):
    """The record of each station is that of a log with its lines alone, and of a log of two links that do not say which there is none."""
    for seed in range(check.given.mixes):
        _, addresses, lines, owners, cut = mix_of(seed)
        rows = rows_of(written(folder, 'mix', '\n'.join(lines) + '\n'))[0]
        check.equal('rows of other stations in the mix %d' % seed, set(), {row['address'] for row in rows} - {'%02X' % one for one in addresses})
        for link, address in enumerate(addresses):
            places = [place for place, owner in enumerate(owners, 1) if owner == link or place - 1 in cut]
            alone = rows_of(written(folder, 'alone', ''.join(lines[place - 1] + '\n' for place in places)))[0]
            expected = [{**row, 'file': os.path.join(folder, 'mix'), 'line': str(places[int(row['line']) - 1])} for row in alone]
            check.equal('the record of %02X in the mix %d' % (address, seed), expected, [row for row in rows if row['address'] == '%02X' % address])
    mix = written(folder, 'mix', '\n'.join(mix_of(0)[2]) + '\n')
    addresses = ['%02X' % one for one in mix_of(0)[1]]
    check.equal('the stations that are named', set(addresses[:2]), {row['address'] for row in rows_of('--address', ','.join(addresses[:2]), mix)[0]})
    done = fiolog('record', '--text', mix)
    check.equal('one text of several stations', ('', 2, True), (done.out, done.status, '--address (%s)' % ', '.join(sorted(addresses)) in done.err and mix in done.err))
    sites = [[(site, *frame) for frame in frames_of(random.Random(site), 200)] for site in ('North', 'South')]
    both = written(folder, 'both', ''.join('cab %s %s %s\n' % (site, SIDES[way], octets.hex(' ')) for pair in zip(*sites) for site, way, octets in pair))
    done = fiolog('record', '--csv', both)
    check.equal('two links without addresses', (1, LITTLE, True), (done.out.count('\n'), done.status, 'two links' in done.err))


def check_faulty(check, folder):
    """The record of several files goes on after one that cannot be read, or that has no frame."""
    first, last = (written(folder, name, SITES[name]) for name in ('first', 'second'))
    missing, empty = os.path.join(folder, 'missing'), written(folder, 'empty', 'nothing here\n')
    done = fiolog('record', '--csv', first, missing, empty, last)
    rows = list(csv.DictReader(done.out.splitlines()))
    check.equal('rows of files after one that is missing', [first, last, missing], list(dict.fromkeys(row['file'] for row in rows)))
    check.equal('the row of a file that is missing', 'No such file or directory', rows[-1]['fault'])
    check.equal('the status and the words of both', (3, [True, True]), (done.status, [words in done.err for words in (
        '%s: No such file or directory\n' % missing, '%s: no frame\n' % empty)]))
    check.equal('a file without frames beside others', LITTLE, rows_of(first, empty, last)[1])
    done = fiolog('record', first, missing, last)
    check.equal('the table goes on too', (3, True), (done.status, last in done.out))
    below = os.path.join(folder, 'below')
    os.mkdir(below)
    paths = [written(below, name, SITES[name]) for name in ('first', 'second')]
    check.equal('all files below a folder', (paths, 0), (list(dict.fromkeys(row['file'] for row in rows_of('-r', below)[0])), rows_of('-r', below)[1]))


# Two blocks, the first made when the counter was 100; the second says that entries were pushed out (F), and then the counter is
# back at 7. Input 3 has entries too.
HIRES = '> 3600\n< b600010c005a0000000064\n> 3601\n< b601020300788c00820c0000008c\n> 3602\n< b602010c00050000000007\n'
EVENTS = [['2026-03-01 06:59:59.990', '7', '82', '5'], ['2026-03-01 07:00:00.030', '7', '81', '5']]


def check_events(check, folder):
    """High-resolution events: each transition of an input with a channel, at its time; what is missing is reported."""
    name = os.path.join(folder, 'events.csv')
    given = ('--hires', name, '--start', '2026-03-01T07:00:00', '--signal', '7', '--on', '0', '--channels', '12:5')
    done = fiolog('record', '-q', *given, text=HIRES)
    with open(name, newline='') as file:
        head, *rows = csv.reader(file)
    check.equal('the columns of events', ['TimeStamp', 'DeviceId', 'EventId', 'Parameter'], head)
    check.equal('events', EVENTS, rows[:2])
    check.equal('what is missing is said', (3, True, True, True),
                (len(rows), 'the counter went back' in done.err, 'gap mark: transitions are missing before 2026-03-01 07:00:00.020'
                 in done.err, 'inputs 3' in done.err))
    done = fiolog('record', '--hires', name, text=HIRES)
    check.equal('options that events need', (2, True), (done.status, '--start, --signal, --on' in done.err))
    check.equal('a map that is none', 2, fiolog('record', '--channels', '64:1', text=HIRES).status)
    table = list(csv.DictReader(fiolog('record', '-q', '--csv', text=HIRES).out.splitlines()))
    check.equal('record --csv', [('12', '0', '90', ''), ('', '', '', 'gap'), ('3', '0', '120', ''), ('12', '1', '130', ''), ('12', '0', '5', '')],
                [(row['input'], row['state'], row['wide'], row['mark']) for row in table if row['mark'] in ('', 'gap')])


def main():
    check = Check(mixes=(4, 40))
    use_library(check, 'fiolog record')
    for part in (check_examples, check_course):
        part(check)
    with tempfile.TemporaryDirectory() as folder:
        check_events(check, folder)
        check_several(check, folder)
        check_stations(check, folder)
        check_faulty(check, folder)
    check_runs(check)
    check.end()


main()
