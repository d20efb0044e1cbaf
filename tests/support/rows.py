#!/usr/bin/env -S python3 -B
"""The rows of tests/rows.json over the library for C: `rows.py LIBRARY`. The last line is `N passed, M failed`.

A row has the name of a call, or that of a group of calls which keep a struct, as `checker` for checker_start and checker_sent, and
steps. A step is the words of a call (c_calls.py), in a group below the rest of its name, and after ` = ` what the call says, if that
is anything. ` *3` at its end stands for three such steps; `~0` is a number of 64 bits less this one; the step `holds` says what is
in the kept struct, and `line` what a decoder says of a line. What is decoded is written again, as the same octets. Rows of `log`
have the form, a log, in which `~` is the end of a line, and what is read of it; rows of `log_batches` also whether a frame is of
whom its line says, and what the calls for batches say; rows of `log_parts` also a mask, and before ` / ` what is read of the part that
it takes; rows of `log_samples` sample lines before the log, how many forms these show, and
by which the log is read. Each call of the header has a row."""

import ctypes
import json
import os
import re
import sys

from c_calls import Broken, Run, number, octets, words_of
from c_header import CALLS, NUMBERS
import call_loops

TABLE = os.path.join(os.path.dirname(os.path.dirname(os.path.realpath(__file__))), 'rows.json')
# What the counts of a log keep for the next frame.
UNSAID = ('sent_at', 'has_sent_at', 'command', 'has_command', 'polled', 'has_polled', 'block', 'has_block', 'has_reset')
HEARD = ('', 'own', 'other', 'damaged')


def normal(said):
    """A text with each number, and octets, in one notation."""
    words = [str(number(word)) if word in NUMBERS or re.fullmatch(r'0x[0-9a-f]+|~\w+', word) else
             octets(word) if re.fullmatch(r'[0-9a-f]+([*+]|[.]{2})[0-9a-f*+]*', word) else word for word in said.split(' ')]
    return ' '.join(words) if words != ['0'] else ''


def line(run, name, text):
    """What a decoder says of a line: the same by one octet a call and by many, which keep the same."""
    ends, text, before = [], octets(text), bytes(run.kept[name].octets)
    for most in (1, len(text)):
        run.kept[name].octets[:] = before
        ends.append((', '.join(pieces(run, name, text, most)), bytes(run.kept[name].octets)))
    return ends[0][0] if ends[0] == ends[1] else '%s by one, but %s by many' % (ends[0][0], ends[1][0])


def pieces(run, name, text, most):
    """What a decoder says of a line, given at most so many octets a call: a frame is held until the next one."""
    size, at = 2 if name == 'wire' else 1, 0
    while at < len(text):
        part = text[at:at + size * most]
        count, heard = map(int, (run.call(name + '_read', part).replace(' heard', '') + ' 0').split()[:2])
        held = int(run.call(name + '_message_length') or 0)
        if heard == NUMBERS['WIRE_NOTHING'] and count != len(part) // size or (held > 0) != (heard in (1, 2)):
            yield 'too early, or held'
        at += size * count
        if heard:
            frame = bytes(run.kept[name].values[0].octets[:2 + held])
            yield ' '.join([HEARD[heard], *('%02x' % one for one in frame[:2]), frame[2:].hex()] if held else [HEARD[heard]])


def written_again(run, name, given, said):
    """What was decoded, written again."""
    items = run.call({'decode_command': 'command_items', 'decode_answer': 'block_entries'}[name], given)
    parts = items.split() if items != 'no message' else []
    return run.call(name.replace('decode', 'encode'), *said.split(), *parts, *([octets(given)[2:]] if ' body ' in said else []))


def said_by(run, name, words):
    """What a step says."""
    if name in LOGS:
        return LOGS[name](run, *words)
    if name in CALLS:
        said = run.call(name, *words)
        if name in ('decode_command', 'decode_answer') and 'code' in said.split()[:1] and written_again(run, name, words[0], said) != octets(words[0]):
            raise Broken('it is written again as other octets')
        return said
    step, *words = words
    if step == 'line':
        return line(run, name, *words)
    if step == 'holds':
        kept = run.kept[CALLS[name + '_start'].parameters[0].kind.__name__]
        return ' '.join(words_of(kept.values[0], UNSAID if name == 'log_counts' else ()))
    said = run.call(name + '_' + step, *words)
    if name == 'log_signs' and any(run.kept[name].values[0].above[run.kept[name].values[0].length:]):
        raise Broken('octets beyond those of the frame above are not 0')
    return said


def verdicts(batch):
    """What a batch says of lines, and its counts of frames, octets and places."""
    frame = octet = place = 0
    for it in batch.verdicts[:batch.verdict_count]:
        words = ['%d %d %d' % (it.line, it.kind, it.reason)] + ['time %d %d' % (it.time_kind, it.time)] * bool(it.time_kind or it.time) + ['said %d' % it.said] * bool(it.said)
        for length in batch.lengths[frame:frame + it.frames]:
            words.append('frame ' + bytes(batch.octets[octet:octet + length]).hex())
            octet += length
        words += ['at %d %d %d' % (one.line, one.start, one.end) for one in batch.places[place:place + it.places]]
        frame, place = frame + it.frames, place + it.places
        words += ['header %d %d' % (it.address, it.control)] * bool(it.header) + ['foreign %d' % it.foreign] * bool(it.foreign)
        yield ' '.join(words)
    if (frame, octet, place) != (batch.frame_count, batch.octet_count, batch.place_count):
        yield 'and more'


def batches(run, log, size):
    """Yields the batch for each piece of a log, and those for its end."""
    for at in range(0, len(log), size):
        piece = log[at:at + size]
        if run.call('log_read', piece.hex()) != str(len(piece)):
            raise Broken('not all octets are taken')
        yield run.kept['log_batch'].values[0]
    run.call('log_end')
    while True:
        run.call('log_read')
        yield run.kept['log_batch'].values[0]
        if not run.kept['log_batch'].values[0].verdict_count:
            return


def log(run, form, text):
    """What is read of a log, whole and in pieces of each length, one after another by one reader."""
    text, said = text.replace('~', '\n').encode(), []
    run.call('log_start', str(form))
    for size in range(len(text), 0, -1):
        said.append(', '.join(one for batch in batches(run, text, size) for one in verdicts(batch)))
    return said[0] if len(set(said)) == 1 else 'not the same in pieces: ' + ' or '.join(sorted(set(said)))


def take_part(run, mask):
    """Puts the part that a mask takes in place of the batch, over which the next part is written. Returns the mask of the lines below."""
    count = int(run.call('log_batch_part', *filter(None, [mask.hex()])) or 0)
    run.kept.update(log_batch=run.kept['part'], part=run.kept['log_batch'])
    part, whole = (run.kept[name].values[0] for name in ('log_batch', 'part'))
    if (count, part.verdict_count) != (part.frame_count, whole.verdict_count):
        raise Broken('the call says another count of frames, or a line has no verdict')
    return mask[whole.verdict_count:]


def log_parts(run, form, as_said, mask, text):
    """What is read of the part of a log that a mask takes, and what the calls for batches say of it."""
    lines = []
    said = log_batches(run, form, as_said, text, bytes.fromhex(mask), lines)
    return '%s / %s' % (', '.join(lines), said)


def log_batches(run, form, as_said, text, mask=None, lines=None):
    """What the judge says of the frames of a log, what is counted of them, and their sign, by the calls for batches; with a mask of the part
    that it takes, whose lines are added."""
    text, found, taken = text.replace('~', '\n').encode(), [], []
    run.call('log_start', str(form))
    for start in ('log_judge_start 1024 255 0 0', 'log_counts_start', 'log_signs_start'):
        run.call(*start.split())
    for _ in batches(run, text, len(text)):
        if mask is not None:
            mask = take_part(run, mask)
            lines += verdicts(run.kept['log_batch'].values[0])
        found += filter(None, [run.call('log_judge_batch', str(as_said))])
        taken += ['taken ' + one for one in run.call('log_counts_batch').split(', ') if one]
        run.call('log_signs_batch', str(as_said))
    counts = said_by(run, 'log_counts', ['holds']).split()
    return ' '.join([', '.join(found), *taken, *counts, 'sign', run.call('log_signs_sign') or '0'])


def log_samples(run, form, samples, text):
    """How many forms sample lines show, and by which forms a log is read then, in whatever pieces. Once it has begun none is learnt."""
    samples, text, said = samples.replace('~', '\n').encode().hex(), text.replace('~', '\n').encode(), []
    for size in range(max(len(text), 1), 0, -1):
        run.call('log_start', str(form))
        said.append([run.call('log_like', *filter(None, [samples])) or '0'])
        for _ in batches(run, text, size):
            pass
        if text and run.call('log_like', samples or '00'):
            raise Broken('forms are learnt in a log that has begun')
        said[-1].append(run.call('log_forms'))
    return ' '.join(said[0]) if said.count(said[0]) == len(said) else 'not the same in pieces: %s' % said


def log_stretches(run, form, text):
    """The places of a log where a stretch ends or transitions are lost, and what is counted of its stretches."""
    text, found = text.replace('~', '\n').encode(), []
    run.call('log_start', str(form))
    for start in ('log_judge_start 1024 255 0 0', 'log_stretches_start'):
        run.call(*start.split())
    for _ in batches(run, text, len(text)):
        run.call('log_judge_batch', '0')
        found += filter(None, [run.call('log_stretches_batch')])
    kept = run.kept['log_stretches'].values[0]
    names = [name for name, _ in kept._fields_]
    return '%s / %s' % (', '.join(found), ' '.join(words_of(kept, names[names.index('pause'):])))


LOGS = {'log': log, 'log_batches': log_batches, 'log_parts': log_parts, 'log_samples': log_samples, 'log_stretches': log_stretches}


def faults(library, row, called):
    """For each step of a row what it says that it should not, or nothing."""
    run, (name, *steps) = Run(library, called), row
    if name in LOGS:
        parts = [(steps[:-1], steps[-1])]
    else:
        steps = [step for one in steps for step in [one.partition(' *')[0]] * int(one.partition(' *')[2] or 1)]
        parts = [(given.split(), said) for given, said in ((' ' + step + ' = ').split(' = ')[:2] for step in steps)]
    for words, expected in parts:
        try:
            said = said_by(run, name, words)
        except Broken as why:
            said = str(why)
        yield '' if normal(said) == normal(expected) else 'FAILED %s\n  expected: %.200s\n  got: %.200s' % (
            ' '.join(map(str, [name, *words])), expected, said)


def fault_of(loop, run):
    """What does not hold in a loop, or nothing."""
    try:
        return '\n'.join(loop(run))
    except Broken as why:
        return 'FAILED %s: %s' % (loop.__name__, why)


def main():
    library, called = ctypes.CDLL(sys.argv[1]), set()
    with open(TABLE, encoding='utf-8') as file:
        found = [one for row in json.load(file) for one in faults(library, row, called)]
    found += [fault_of(loop, Run(library, called)) for loop in call_loops.LOOPS]
    found += ['' if name in called else 'FAILED no row has fio2070_' + name for name in CALLS]
    failed = list(filter(None, found))
    print(*failed, '%d passed, %d failed' % (len(found) - len(failed), len(failed)), sep='\n')
    sys.exit(bool(failed))


if __name__ == '__main__':
    main()
