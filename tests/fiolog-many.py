#!/usr/bin/env -S python3 -B
"""Many logs: `fiolog check` and `stats` of several files, what their summaries say is not judged, and summaries in Python, which
can be added: of parts of a log, of files side by side, and by Dask over 500 files; tables with commas, folders, what a terminal
shows. Last line: `N passed, M failed`."""

import csv
import io
import os
import re
import subprocess
import sys
import tempfile
from collections import Counter

from support.check import Check
from support.fiolog import ENVIRONMENT, fiolog, on_terminal, reading, use_library, written
from support.line_model import with_check
from support.pages import text_of

# One round each: a poll, and a block with one entry of input 12, 10 ms apart; and the round with an answer that is lost.
START = '> 33020c05030d0503\n< b300\n'
ROUNDS = ['> 36%02x\n< b6%02x01%s%04x00%08x\n' % (number, number, ('0c', '8c')[number % 2], 10 * number + 9, 10 * number + 10)
          for number in range(20)]
LOST = '> 3614\n> 3614\n< b61400020000%04x\n' % 250
DOUBLED = '> 3615\n< b615010c00d700000000d8\n> 3616\n< b616010c00d700000000d9\n'
FILES = 500


def counted(summary):
    """What a summary counts, for the comparison of two."""
    return summary.counts.in_short(), summary.counts.entries, dict(summary.counts.types), summary.counts.responses.at(0.5), \
        summary.lines, dict(summary.broken), dict(summary.left_out)


def check_parts(check):
    """A log that is cut where everything is answered sums to the whole; a path, a file and pieces of any length are the same
    log."""
    from fiolog.summary import Summary, summary_of
    whole = START + ''.join(ROUNDS)
    octets = whole.encode()
    expected = counted(summary_of([octets]))
    check.equal('what the whole log counts', ({'frames': 42, 'polls': 20, 'repeats': 0, 'answers_lost': 0, 'gap_marks': 0}, 20),
                expected[:2])
    for cut in (0, 7, 19):
        parts = START + ''.join(ROUNDS[:cut]), ''.join(ROUNDS[cut:])
        check.equal('a log that is cut after %d rounds' % cut, expected,
                    counted(sum((summary_of([part.encode()]) for part in parts), Summary())))
    check.equal('octets one by one', expected, counted(summary_of(octets[at:at + 1] for at in range(len(octets)))))
    with tempfile.TemporaryDirectory() as folder:
        path = written(folder, 'log', octets)
        check.equal('a path', expected, counted(summary_of(path)))
        with open(path, 'rb') as opened:
            check.equal('a file', expected, counted(summary_of(opened)))


def write_logs(folder):
    """Writes the logs: every seventh doubles an entry, every fifth lost an answer. Returns their paths."""
    return [written(folder, '%03d.log' % number, START + ''.join(ROUNDS) + (LOST if number % 5 == 0 else DOUBLED if number % 7 == 0 else ''))
            for number in range(FILES)]


def check_lost(check):
    """At a damaged line, and among frames at a line of no form that may be a message, the place is lost: nobody is accused."""
    from fiolog.summary import summary_of
    sure = [('frames', '', (bytes.fromhex(digits),)) for digits in ('3605', 'b60500000000000a', '3607')]
    possible = 'possible', 'no form', ()

    def judged(*lines):
        with reading(lines):
            return summary_of([b'\n' * len(lines)])
    check.equal('a poll for another number', {'advance': 1}, dict(judged(*sure).broken))
    for line in ('damaged', '', ()), possible:
        found = judged(*sure[:2], line, sure[2])
        check.equal('below a line that is %s' % line[0], (0, 1, 3), (found.breaches, found.left_out['losses_of_sync'], found.counts.frames))
        found = judged(*sure[:2], line)
        check.equal('below the last frame, a line that is %s' % line[0], (0, 0, 2), (found.breaches, found.left_out['losses_of_sync'], found.counts.frames))
        found = judged(line, *sure)
        check.equal('above the first frame, a line that is %s' % line[0], ({'advance': 1}, 1), (dict(found.broken), found.left_out['losses_of_sync']))
    found = judged(possible, *sure)
    check.equal('a possible one above', ({'advance': 1}, 3), (dict(found.broken), found.counts.frames))


def check_files(check, paths):
    """One table of all files, the worst first, and one row of all."""
    doubled = [path for number, path in enumerate(paths) if number % 5 and number % 7 == 0]
    lost = [path for number, path in enumerate(paths) if number % 5 == 0]
    done = fiolog('check', '--json', '--jobs', '2', *paths)
    *rows, last = done.objects()
    last = last['summary']
    check.equal('check of all files', (1, len(doubled), len(lost), FILES),
                (done.status, last['breaches'], last['answers_lost'], last['files']))
    check.equal('the worst first', set(doubled), {row['file'] for row in rows[:len(doubled)]})
    check.equal('then those that lost an answer', set(lost), {row['file'] for row in rows[len(doubled):][:len(lost)]})
    table = fiolog('check', *paths[:14]).out.splitlines()
    check.equal('a table', (18, '14 logs, the worst first', True, True),
                (len(table), table[0], paths[7] in table[2], table[-1].startswith('not judged: ')))
    done = fiolog('stats', paths[1], paths[7])
    check.equal('stats of two files', (0, True), (done.status, 'all 2 ' in done.out))
    done = fiolog('check', paths[1], 'no-such-file')
    check.equal('a file that cannot be read', (3, True), (done.status, 'no-such-file: No such file' in done.err))


def names_of_rules():
    from fiolog.options import NAMES
    return NAMES


def rows_of(done):
    """The rows of a table with commas, each by its columns."""
    return list(csv.DictReader(io.StringIO(done.out)))


def check_csv(check, paths):
    """A row for each log, with plain numbers: those of the objects; of a file that cannot be read why."""
    done = fiolog('check', '--csv', *paths[:8], 'no-such-file')
    rows, objects = rows_of(done), fiolog('check', '--json', *paths[:8]).objects()[:-1]
    check.equal('--csv: a row for each log', (3, [*[one['file'] for one in objects], 'no-such-file']), (done.status, [row['file'] for row in rows]))
    names = [name for name, value in objects[0].items() if isinstance(value, int)]
    check.equal('--csv: their numbers', [[str(one[name]) for name in names] for one in objects], [[row[name] for name in names] for row in rows[:-1]])
    check.equal('--csv: what is not judged', [{name: str(count) for name, count in one['not_judged'].items() if name in rows[0]} for one in objects],
                [{name: row[name] for name in one['not_judged'] if name in row} for one, row in zip(objects, rows)])
    check.equal('--csv: the rules', [{name: str(count) for name, count in one['rules'].items()} for one in objects],
                [{name: row[name] for name in names_of_rules() if row[name] != '0'} for row in rows[:-1]])
    line, rule, _ = objects[0]['first']
    check.equal('--csv: the first breach', (str(line), rule, ''), tuple(rows[0][name] for name in ('first_line', 'first_rule', 'fault')))
    check.equal('--csv: a file that cannot be read', ('', 'No such file or directory'), (rows[-1]['frames'], rows[-1]['fault']))
    check.equal('--csv of one log', [rows[0]], rows_of(fiolog('check', '--csv', rows[0]['file'])))
    check.equal('--csv with --merge', (2, ''), fiolog('check', '--csv', '--merge', *paths[:2])[::2][::-1])


def check_folders(check, folder):
    """`-r` reads all files below folders; a folder without it is a fault, and so is one without a file."""
    above = os.path.join(folder, 'above')
    os.makedirs(os.path.join(above, 'b', 'c'))
    paths = [written(above, name, '> 3605\n< b60500000000000a\n') for name in ('b/c/2', 'b/1', 'd', 'a')]
    given = sorted(paths), paths[:2]
    for command in 'check', 'stats':
        for words, expected in (([above], given[0]), ([paths[2], os.path.join(above, 'b')], [paths[2], *sorted(given[1])])):
            rows = fiolog(command, '-r', '--json', *words).objects()[:-1]
            check.equal('%s -r of %d' % (command, len(words)), sorted(expected), sorted(row['file'] for row in rows))
    alone = os.path.join(above, 'b', 'c')
    check.equal('-r of one file', fiolog('check', paths[0]).out, fiolog('check', '-r', alone).out)
    check.equal('a folder without -r', (3, True), (fiolog('check', above).status, 'Is a directory' in fiolog('check', above).err))
    os.remove(paths[0])
    check.equal('-r without a file', 2, fiolog('check', '-r', alone).status)


def check_terminal(check, folder):
    """On a terminal it is counted how many logs are read, and no name of a file is cut."""
    if not check.has_terminal('logs that are read'):
        return
    name = 'a-name-that-is-longer-than-a-terminal-is-wide-' * 2
    paths = [written(folder, name + str(number), text) for number, text in enumerate(('> 3605\n', '> 3605\n> 3607\n', '> 3605\n> 3607\n'))]
    text = on_terminal(sys.executable, ['check', '--format', 'transcript', *paths], COLUMNS='80')
    counts = [(int(read), int(breaches)) for read, breaches in re.findall(r'\x1b\[K(\d) of 3, (\d) breach(?:es)?\r', text)]
    check.equal('how many are read', ([1, 2, 3], 2, True), ([read for read, _ in counts], counts[-1][1], counts == sorted(counts)))
    check.equal('names are whole', [True] * 3, [path in text for path in paths])
    check.holds('that goes', text.rindex('\x1b[K') < text.index('3 logs, the worst first'), text)


def check_options(check, folder):
    """Of several logs each is judged as it is alone."""
    logs = ['> 3605\n< b60500000000000a\n> 3606\n> 3607\n< b60600000000000b\n< b60700000000000c\n', '< b700000000\n> 3605\n< b605010c03f20000000a\n< b300\n',
            '> 3605\n< b6050000000003e8\n> 3200000\n> 3606\n< b60600000000000a\n']
    paths = [written(folder, 'option%d' % number, text) for number, text in enumerate(logs)]
    for words in ([], ['--late-answers'], ['--no-loads'], ['--start-at-poll'], ['--rules', 'transcript'], ['--except', 'pair'], ['--whole'], ['--tees'],
                  ['--at', 'bus']):
        rows = {row['file']: row for row in fiolog('check', '--json', '--format', 'transcript', *words, *paths).objects()[:-1]}
        for path in paths:
            alone = fiolog('check', '--json', '--format', 'transcript', *words, path).summary()
            check.equal('of several: %s %s' % (' '.join(words), os.path.basename(path)), (alone['breaches'], alone['not_judged']),
                        (rows[path]['breaches'], rows[path]['not_judged']))


def check_stats(check):
    """What `stats` counts: blocks, response times, and answers that were lost at the end of a file."""
    def numbers(text):
        return fiolog('stats', '--json', text=text).objects()[0]
    block = '> 3605\n< b605010c000a0%d0000000b\n'
    check.equal('a block with E on a number that is new', 1, numbers(block % 2)['entries'])
    check.equal('a block that is sent again', 1, numbers(block % 0 + block % 2)['entries'])
    rounds = ['10:00:00.%d00000 TX 36 0%d\n10:00:00.%s RX B6 0%d 00 00 00 00 00 01\n' % (number, number, at, number)
              for number, at in ((1, '101500'), (2, '202250'), (3, '309000'))]
    for count, expected in ((1, (1.5, 1.5, 1.5)), (2, (2.25, 2.25, 2.25)), (3, (2.25, 9, 9))):
        times = numbers(''.join(rounds[:count]))['response_ms']
        check.equal('response times of %d polls' % count, (count, *expected), tuple(times.values()))
    with tempfile.TemporaryDirectory() as folder:
        paths = [written(folder, 'open', block % 0 + '> 3606\n'), written(folder, 'whole', block % 0)]
        for name, order in (('first', paths), ('second', paths[::-1])):
            check.equal('a poll at the end of the %s of two logs' % name, 1, fiolog('stats', '--json', *order).summary()['answers_lost'])


def check_dask(check, folder):
    """The snippet of docs/CAPTURES.md over all files."""
    python = '/usr/bin/python3'
    if subprocess.run([python, '-c', 'import dask.bag'], stderr=subprocess.DEVNULL, check=False).returncode:
        check.skip('Dask over %d files' % FILES, 'no dask here (Debian package python3-dask)')
        return
    snippet = text_of('docs/CAPTURES.md').split('```python\n')[1].split('```')[0]
    script = written(folder, 'snippet.py', snippet)
    done = subprocess.run([python, script], cwd=folder, env=ENVIRONMENT, stdout=subprocess.PIPE, stderr=subprocess.PIPE, check=False,
                          universal_newlines=True, timeout=900)
    breaches = sum(number % 5 != 0 and number % 7 == 0 for number in range(FILES))
    check.equal('Dask over %d files' % FILES, '%d breaches in %d files\n' % (breaches, FILES), done.stdout or done.stderr)


# The entries of a full block.
FULL = ''.join('%02x%04x' % (place % 64 | place // 64 % 2 << 7, place + 1) for place in range(255))
# A log of the CPU's end: a line that is none, a breach, and what is not judged up to the next poll; a gap mark; a restart of the
# module, which it says in a 177 below one that does not; with SDLC a frame with a wrong check.
UNJUDGED = {
    'a line of other text': (['> 3605', 'link up', '< b60500000000000a'], {'skipped_lines': 1}),
    'a lost place': (['> 3605', '< b60500000000000a', '> 3607', '< b60700000000000b', '> 34', '< b4' + '00' * 12, '> 3608'],
                     {'losses_of_sync': 1, 'frames_at_losses_of_sync': 3}),
    'a gap': (['> 3605', '< b605ff%s0c00000100' % FULL], {'gap_marks': 1}),
    'a restart': (['> 3180', '< b1000000' + '00000001', '> 3180', '< b1800000' + '00000002', '> 3180', '< b1800000' + '00000003'],
                  {'restarts': 1}),
    'a wrong check': ([with_check(bytes.fromhex('1483' + digits)).hex() for digits in ('3605', 'b60500000000000a', '3606')]
                      + ['14833606c41b', with_check(bytes.fromhex('14833606')).hex()],
                      {'damaged_lines': 1, 'losses_of_sync': 1}),
}
WORDS = {'damaged_lines': '1 damaged line', 'skipped_lines': '1 skipped line (no octets)', 'losses_of_sync': '1 loss of sync',
         'frames_at_losses_of_sync': '3 frames from a loss of sync to the next poll',
         'gap_marks': '1 gap mark, above which transitions are lost', 'restarts': '1 restart of the module'}


def counting(counts):
    """The counts that are not 0."""
    return {name: count for name, count in counts.items() if count}


def check_unjudged(check):
    """The summaries of one log and of many say what is not judged, and why; `stats` says what is not counted."""
    with tempfile.TemporaryDirectory() as folder:
        paths, totals = [], Counter()
        for name, (lines, expected) in UNJUDGED.items():
            path = written(folder, '%d.log' % len(paths), '\n'.join(lines) + '\n')
            paths.append(path)
            totals.update(expected)
            check.equal('what is not judged: ' + name, expected, counting(fiolog('check', '--json', path).summary()['not_judged']))
            words = ', '.join(words for key, words in WORDS.items() if key in expected)
            check.equal('words on what is not judged: ' + name, ['not judged: ' + words], fiolog('check', path).found('^not judged: .*'))
            check.equal('what is not counted: ' + name, {key: count for key, count in expected.items() if 'sync' not in key},
                        counting(fiolog('stats', '--json', path).objects()[0]['not_counted']))
        for command, key in (('check', 'not_judged'), ('stats', 'not_counted')):
            *rows, last = fiolog(command, '--json', *paths).objects()
            check.equal('%s of many logs, %s' % (command, key),
                        {name: count for name, count in totals.items() if command == 'check' or 'sync' not in name}, counting(last['summary'][key]))
            by_file = {row['file']: row[key] for row in rows}
            check.equal('%s of each log, %s' % (command, key), [1] * 3,
                        [by_file[paths[place]][name] for place, name in ((0, 'skipped_lines'), (2, 'gap_marks'), (3, 'restarts'))])
            words = fiolog(command, *paths).out.splitlines()[-1]
            check.holds('%s of many logs says it' % command, words.startswith(key.replace('_', ' ') + ': 1 damaged line, 1 skipped line'), words)
    above = fiolog('check', '--json', '--start-at-poll', '--format', 'transcript', text='< b300\n< b300\n> 3605\n').summary()
    check.equal('what is above the first poll', 2, above['not_judged']['frames_above_a_poll'])
    check.holds('a log that is judged whole', 'not judged' not in fiolog('check', text='> 3605\n< b60500000000000a\n').out)


def main():
    check = Check()
    use_library(check, 'many logs')
    check_parts(check)
    check_unjudged(check)
    check_lost(check)
    check_stats(check)
    with tempfile.TemporaryDirectory() as folder:
        paths = write_logs(folder)
        check_files(check, paths)
        check_csv(check, paths)
        for part in check_folders, check_terminal, check_options:
            part(check, folder)
        if check.whole('Dask over %d files' % FILES):
            check_dask(check, folder)
    check.end()


if __name__ == '__main__':
    main()
