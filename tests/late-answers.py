#!/usr/bin/env -S python3 -B
"""`fiolog check --late-answers` on runs of right ends whose answers come late and twice, whole and from any line on: it
accuses none. Faults that are planted in an end are found. Last line: `N passed, M failed`."""

import random
import re

from support.check import Check
from support.fiolog import fiolog, use_library

FAULTS = ('gives a block up', 'goes on at an old block', 'asks for a block again', 'answers with another number',
          'says F without C', 'cuts an answer', 'says G and E')
# What the rules on content find, in those stretches in which no answer is late.
OF_CONTENT = ('drops an entry', 'doubles an entry')
TRIES = 16


def found_in(log, place='cpu'):
    """What `check --late-answers` finds in a log, the names of rules and of restarts, and how many answers are late, as it is judged
    there."""
    from fiolog.batch import made_of
    from fiolog.event import frame_of
    from fiolog.rules import Rules
    rules = Rules(place, late_answers=True)
    frames = [frame_of(number, octets, said=direction) for number, (direction, octets) in enumerate(log, 1)]
    return [found.rule for batch in made_of(frames) for _, found in rules.take(batch)], rules.unjudged['late_answers']


def fault_of_right_runs(runs):
    """No run is accused, nor what remains of it from a random line on."""
    from support.late_runs import late_run
    dice, late = random.Random(1), 0
    for seed in range(runs):
        log = late_run(seed)
        for first in (0, dice.randrange(len(log)), dice.randrange(len(log))):
            found, count = found_in(log[first:])
            late += count
            if found:
                return 'seed %d from line %d: %s' % (seed, first + 1, found)
    return None if late > runs else 'only %d answers are late' % late


def fault_of_taps(runs):
    """At a tap no right end is accused; judged as logs of the CPU's end, most of these logs break `advance`."""
    from support.late_runs import run_at_tap
    accused = 0
    for seed in range(runs):
        log = run_at_tap(seed)
        found = found_in(log, 'bus')[0] or found_in(log, 'module')[0]
        if found:
            return seed, found
        accused += 'advance' in found_in(log)[0]
    return None if accused > runs // 2 else 'only %d runs break advance' % accused


def fault_of_planted(fault, least):
    """A planted fault is found in at least this many runs."""
    from support.late_runs import late_run
    found = sum(bool(found_in(late_run(seed, fault=fault))[0]) for seed in range(TRIES))
    return None if found >= least else 'found in %d runs of %d' % (found, TRIES)


def fault_of_command():
    """The command says the same about a log: how many answers are late, and no breach where `check` finds one of `pair`."""
    from support.late_runs import late_run
    log = next(log for log in map(late_run, range(100)) if found_in(log)[1] > 2)
    text = ''.join('%s %s\n' % (direction, octets.hex()) for direction, octets in log)
    plain, late = fiolog('check', text=text), fiolog('check', '--late-answers', text=text)
    number = re.search(r'late answers (\d+)', late.out)
    fits = plain.status == 1 and ': pair: ' in plain.out and 'try --late-answers' in plain.err and late.status == 0 and number and int(number[1]) == found_in(log)[1]
    return None if fits else (plain.out[-300:], late)


def block(number, again=False, later=0):
    """A block without entries, made `later` than the first one of its number."""
    return '< b6%02x00%02x%08x' % (number, 2 * again, 100 * number + later)


def inputs(stamp):
    """An answer to command 52."""
    return '< b4' + 16 * 'f' + '%08x' % stamp


def round_of(number):
    """A poll, and its block."""
    return ['> 36%02x' % number, block(number)]


# Logs of a CPU's end; whether `check` says that answers came late, the rules that it finds broken if it does not, whether it says what to try,
# and with --late-answers how many were late, of a log of right ends.
LOGS = {
    'two polls for a block, both answered late': ([*round_of(4), '> 3605', '> 3605', block(5), block(5, again=True), *round_of(6)], True, [], False, 1),
    'a second block without E': ([*round_of(4), '> 3605', '> 3605', block(5), block(5, later=1), *round_of(6)], False, ['pair'], True, None),
    'two commands, both answered late': ([*round_of(4), '> 34', '> 34', inputs(401), inputs(402), *round_of(5)], True, [], False, 1),
    'the same answer twice': ([*round_of(4), '> 34', '> 34', inputs(401), inputs(401), *round_of(5)], False, ['pair'], True, None),
    'an answer three rounds late': (['> 3c', *round_of(4), *round_of(5), *round_of(6), '< bc02', *round_of(7)], True, [], False, 1),
    'an answer four rounds late': (['> 3c', *round_of(4), *round_of(5), *round_of(6), *round_of(7), '< bc02'], False, ['pair'], True, 1),
    'an answer to nothing': ([*round_of(4), '< bc02', *round_of(5)], False, ['pair'], False, None),
    'an answer to nothing, and a block of the round above': (
        [*round_of(4), '< bc02', '> 3605', *round_of(5), *round_of(6), block(5, again=True), *round_of(7)], False, ['pair', 'pair'], True, None),
    'an answer to nothing, and a block two rounds above': (
        [*round_of(4), '< bc02', '> 3605', *round_of(5), *round_of(6), *round_of(7), block(5, again=True)], False, ['pair', 'restarted'], False, None),
}


def check_logs(check):
    """Which answers are late, and which are one too many."""
    for name, (lines, is_late, rules, is_hinted, late) in LOGS.items():
        text = ''.join(line + '\n' for line in lines)
        done = fiolog('check', '--json', '--format', 'transcript', text=text)
        check.equal(name, (is_late, rules, is_hinted), ('late answers' in done.summary().get('remarks', ()), [one.get('rule', one.get('outcome')) for one in done.objects()[:-1]],
                                                        'answers came late or twice: try --late-answers' in done.err))
        if late is not None:
            found = fiolog('check', '--json', '--late-answers', '--format', 'transcript', text=text).summary()
            check.equal(name + ', with --late-answers', (0, late), (found['breaches'], found['late_answers']))


def main():
    check = Check(runs=(40, 400))
    use_library(check, 'fiolog check --late-answers')
    check.fault('right runs', fault_of_right_runs, check.given.runs)
    check.fault('right runs at a tap', fault_of_taps, check.given.runs)
    for fault in FAULTS:
        check.fault('an end that %s' % fault, fault_of_planted, fault, TRIES // 2)
    for fault in OF_CONTENT:
        check.fault('an end that %s' % fault, fault_of_planted, fault, 2)
    check.fault('the command', fault_of_command)
    check_logs(check)
    check.end()


main()
