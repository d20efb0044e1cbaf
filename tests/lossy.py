#!/usr/bin/env -S python3 -B
"""Runs scripts of tools/lossy-script and reads their reports: the record has the transitions that the scans make, in order,
each once, on a bus that loses and repeats frames; frames are lost and repeated about as often as was requested. Then what
tools/transcript writes for runs. Last line: `N passed, M failed`."""

import os

from support.check import Check
from support.lossy_runs import run, transcripts_of
from support.pages import text_of
from support.tables import TOP, output_of

ROUNDS = 400
WORDS = ('--loss', '0', '--repeat', '0'), ('--loss', '0.1', '--repeat', '0.05'), ('--loss', '0.3', '--repeat', '0.3'), \
    ('--loss', '0', '--repeat', '0.5'), ('--loss', '0.5', '--repeat', '0', '--inputs', '64', '--change', '0.02')
LOST_ANSWER = '''> 3301000101
> 36ff
> 36ff
< b6ff010000010200000001
< b6ff010000010200000001
> 3600
< b600018000020000000002
'''
TIMES = '''0.000 > 3301000101
0.001 > 36ff
0.002 > 36ff
0.002 < b6ff010000010200000001
0.002 < b6ff010000010200000001
0.002 > 3600
0.002 < b600018000020000000002
'''
# Texts that are not a whole report, and why.
NO_REPORTS = [
    ('no text', '', '0 lines without the end of a report'),
    ('a report that is cut', '1 sent 1 3600\n2 quiet\n', '2 lines without the end of a report'),
    ('frames', '3605\nb605018c03e700000003e8\n', '3605'),
    ('a transcript', '> 3605\n< b605018c03e700000003e8\n', '> 3605'),
    ('a text of show', 'poll block 5\n', 'poll block 5'),
    ('a verdict', 'good 7 frames\n', 'good 7 frames'),
]


def transitions(lines, inputs):
    """The lines of a record without losses: each change of an input from 0 on, all being 1 at the start."""
    levels, counter = (1 << 64) - 1, 0
    for line in lines:
        if line.startswith('scan '):
            counter += 1
            sample = int.from_bytes(bytes.fromhex(line[5:]), 'little')
            for place in range(inputs):
                if (sample ^ levels) >> place & 1:
                    yield 'input %d state %d stamp %d wide %d' % (place, sample >> place & 1, counter, counter)
            levels = sample


def fault_of_run(words, seed):
    """What is wrong with a script of the generator, or its run, or None."""
    words = ['--rounds', str(ROUNDS), '--seed', str(seed), *words]
    script, _, status = run('lossy-script', words)
    if status or script != run('lossy-script', words)[0]:
        return 'status %d, or another script at the second time' % status
    report, status = output_of('simulate', script)
    lines, record = script.split('\n'), report.split('\nrecord ')[-1].split('\n')[1:-1]
    option = dict(zip(words[::2], words[1::2]))
    expected = list(transitions(lines, int(option.get('--inputs', 8))))
    if status or record != expected[:len(record)] or len(record) < len(expected) / 2:
        return 'a record of %d entries that is not the first of %d transitions' % (len(record), len(expected))
    polls, arrived = lines.count('poll'), len({line for line in lines if line.startswith('to-module')}) - 1
    heard = [line for line in lines if line.startswith('to-cpu')]
    repeats = sum(line.startswith('to-cpu') and line == above for line, above in zip(lines, [''] + lines))
    loss, repeat = float(option['--loss']), float(option['--repeat'])
    if polls != ROUNDS or abs(arrived / polls - (1 - loss)) > 0.08 or abs(repeats / len(set(heard)) - repeat) > 0.08:
        return '%d polls, %d of which arrived, %d repeats' % (polls, arrived, repeats)
    return None


def fault_of_transcript(words, seed):
    """What is wrong with the transcript of a run without repeats, or None."""
    words = ['--rounds', str(ROUNDS), '--seed', str(seed), '--repeat', '0', *words]
    script = run('lossy-script', words)[0]
    texts = transcripts_of(script)
    frames = sum(line.startswith(('poll', 'send', 'to-cpu')) for line in script.split('\n'))
    verdict = output_of('check', texts[0][0])
    fits = texts[0] == texts[1] and texts[0][1:] == ('', 0) and verdict == ('good %d frames\n' % frames, 0)
    return None if fits else 'transcript: %r' % (verdict,)


def fault_of_text(words, script, report, expected, status):
    """That tools/transcript writes another text, or ends with another status, or None."""
    found, complaint, code = run('transcript', [*words, *([os.path.join(TOP, script)] if script else [])], report)
    fits = (found, code) == (expected, status) and bool(complaint) == bool(status)
    return None if fits else 'transcript of %s: %r' % (script, (found, complaint, code))


def main():
    check = Check()
    for words in WORDS:
        for seed in range(1, 4):
            check.fault(' '.join(words) + ' --seed %d' % seed, fault_of_run, words, seed)
    for loss in ('0', '0.1', '0.4'):
        check.fault('transcript with --loss ' + loss, fault_of_transcript, ('--loss', loss), 5)
    script = 'examples/lost-answer.script'
    report = output_of('simulate', text_of(script))[0]
    check.fault('a transcript', fault_of_text, [], script, report, LOST_ANSWER, 0)
    check.fault('a transcript with times', fault_of_text, ['--times'], script, report, TIMES, 0)
    refused = '1 sent 1 3600\n2 sent 2 3600\n3 sent 1 b600000000000000\n4 refused out of order 1 after 2\n'
    check.fault('a refused event', fault_of_text, [], 'examples/refused.script', refused, '> 3600\n> 3600\n', 1)
    check.fault('a faulty script', fault_of_text, [], script, 'line 1: bad header\n', '? line 1: bad header\n', 1)
    either = '1 sent 1 34\n2 sent 1 b4ffffffffffffffff00000000\n3 quiet\n4 sent 2 34\n' \
        '5 sent 2 b4ffffffffffffffff00000001\n6 other 180\ncounter 1\n'
    unclear = '? the report alone does not say which frame was delivered; name the script\n'
    check.fault('a report that leaves two possibilities', fault_of_text, [], None, either, unclear, 1)
    for name, text, why in NO_REPORTS:
        check.fault('no report: ' + name, fault_of_text, [], None, text, '? %s\n' % why, 1)
    other = 'the script is not that of the report'
    check.fault('the script of another report', fault_of_text, [], 'examples/overflow.script', report, '? %s\n' % other, 1)
    check.fault('a report given as the script', fault_of_text, [], 'examples/lost-answer.report', report,
                '? the script has no header\n', 1)
    for words in (['--loss', '1.5'], ['--rounds', '-1'], ['--inputs', '65'], ['--speed', '1']):
        check.equal('words ' + ' '.join(words), 2, run('lossy-script', words)[2])
    many = run('lossy-script', ['--rounds', '9999'])
    check.equal('more than 10,000 events', ('', 1), (many[0], many[2]))
    check.end()


main()
