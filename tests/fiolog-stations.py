#!/usr/bin/env -S python3 -B
"""Logs of several stations on one line, read in many parts. What `fiolog check` says of each is what it says of a log with its frames
alone, whatever is between them: the stations are proved modules, of which some get planted faults; support/mixes.py mixes their lines,
and cuts some. And logs of which it is known what is said (support/stations.py), and logs without frame checks: an octet that changes slowly
is no address, that of a station which is only asked 49 is one. Options: how many mixes are made, the first seed, and how many logs without
frame checks of each kind. Last line: `N passed, M failed`."""

from collections import Counter

from support.check import Check
from support.fiolog import fiolog, use_library
from support.mixes import asked_alone, mix_of, slow_octet
from support.stations import CASES

# What is not judged of lines; which of these one is that is cut depends on the forms that the log shows.
OF_LINES = 'damaged_lines', 'lines_with_dropped_octets', 'possible_lines', 'skipped_lines'
# What is lost with a line.
OF_SYNC = 'losses_of_sync', 'frames_at_losses_of_sync'
NUMBERS = 'frames', 'polls', 'repeats', 'answers_lost', 'gap_marks', 'breaches'


def said_of(parts):
    """What is said of a log in these parts: each breach and restart, as its line, its station and its rule; and the summary."""
    *found, last = fiolog('check', '--at', 'cpu', '--json', parts=[part.encode() for part in parts]).objects()
    return [(one['line'], one.get('address', ''), one.get('rule') or one['outcome']) for one in found], last['summary']


def unjudged(summary):
    """What is not judged of a log, and what is said of it."""
    found = {name: count for name, count in summary['not_judged'].items() if count and name not in OF_LINES}
    return Counter(found), sum(summary['not_judged'][name] for name in OF_LINES), sorted(summary.get('remarks', []))


def row_of(summary):
    """What is said of a log in short, as of a station."""
    return {**{name: summary[name] for name in NUMBERS}, **({'restarted': summary['restarted']} if summary['restarted'] else {})}


def check_mix(check, seed):
    """A mix: of each station the same as of its log alone, with the lines that are cut; and of the log what is said of all of these."""
    mix = mix_of(seed)
    name = 'seed %d, %s, %s' % (seed, mix.form, ' '.join('%02X' % one for one in mix.addresses))
    found, summary = said_of(mix.parts())
    rows, missing, lines, remarks = {}, Counter(), set(), []
    for link, address in enumerate('%02X' % one for one in mix.addresses):
        places = [place for place, owner in enumerate(mix.owners, 1) if owner == link or place - 1 in mix.cut]
        alone, of_alone = said_of([''.join(mix.lines[place - 1] + '\n' for place in places)])
        rows[address] = row_of(of_alone)
        check.equal('%s: %s' % (name, address), [(places[number - 1], rule) for number, _, rule in alone],
                    [(number, rule) for number, station, rule in found if station == address])
        more = unjudged(of_alone)
        missing, lines, remarks = missing + more[0], lines | {more[1]}, remarks + more[2]
    check.equal('%s: each station' % name, rows, summary.get('stations'))
    check.equal('%s: what is not judged' % name, (missing, lines, sorted(remarks)), (unjudged(summary)[0], {unjudged(summary)[1]}, unjudged(summary)[2]))


def check_case(check, case):
    """A log of which it is known what is said."""
    found, summary = said_of(case.parts)
    missing = {name: count for name, count in summary['not_judged'].items() if count and name not in OF_SYNC}
    check.equal(case.name, (case.rows, case.found, case.missing), (summary.get('stations', {}), found, missing))


def check_slow_octet(check, seed):
    """An octet that changes slowly is no address: the log is one of one link, and accuses nobody."""
    name, text = slow_octet(seed)
    found, summary = said_of([text])
    check.equal(name, ({}, [], 0, text.count('\n')), (summary.get('stations', {}), found, summary['breaches'], summary['frames']))


def check_asked_alone(check, seed):
    """A station that is only asked 49 is one, and nobody is accused."""
    text = asked_alone(seed)
    found, summary = said_of([text])
    check.equal('a station that is only asked 49, seed %d' % seed, ({one: sum(line[3:5] == one for line in text.splitlines()) for one in ('14', '15')}, []),
                ({address: row['frames'] for address, row in summary.get('stations', {}).items()}, found))


def main():
    check = Check(mixes=(40, 200, 1000), first=0, unchecked=(20, 80, 400))
    use_library(check, 'logs of several stations')
    for case in CASES:
        check_case(check, case)
    for seed in range(check.given.first, check.given.first + check.given.mixes):
        check_mix(check, seed)
    for seed in range(check.given.unchecked):
        check_slow_octet(check, seed)
        check_asked_alone(check, seed)
    check.end()


main()
