"""`fiolog stats`: how much, how often, how fast. Repeated blocks are counted once."""

from collections import Counter

from . import judgement, log, options, statuses, terminal
from .event import DROPPED, OTHER, PASSED, POSSIBLE
from .counts import OF_LINES, Counts, Sample, in_words, unjudged_numbers, unjudged_words, placed
from .stations import Stations, Unjudged

MILLI = 1000    # microseconds


def add_arguments(parser):
    options.add_reading(parser)
    options.add(parser, '-r --recursive', '--jobs')
    parser.add_argument('--json', action='store_true', help='one object; with several logs one for each, and one for all')


def numbers(counts):
    """All that is counted, by name."""
    times, length = counts.responses, counts.seconds
    median, percentile, most = (None if micro is None else micro / MILLI for micro in (times.at(0.5), times.at(0.99), times.most))
    return {
        'frames': counts.frames, 'damaged': counts.damaged, 'seconds': None if length is None else round(length, 6),
        'types': {str(code): count for code, count in sorted(counts.types.items())},
        'polls': counts.polls, 'polls_a_second': round(counts.polls / length, 3) if length else None,
        'repeats': counts.repeats, 'answers_lost': counts.in_short()['answers_lost'],
        'response_ms': {'count': times.count, 'median': median, 'percentile_99': percentile, 'most': most},
        'entries': counts.entries, 'entries_a_second': round(counts.entries / length, 3) if length else None,
        'entries_by_input': {str(number): count for number, count in sorted(counts.inputs.items())},
        'block_fill': {'blocks': sum(counts.fills.values()), 'median': placed(counts.fills, 0.5), 'most': max(counts.fills, default=None)},
        'gap_marks': counts.marks}


def flat(one, above=''):
    """The rows of a table: a name, and its number."""
    for name, value in one.items():
        if isinstance(value, dict):
            yield from flat(value, above + in_words(name) + ' ')
        elif value is not None:
            yield above + in_words(name), value


def run(option):
    """Counts a log, or several side by side, and says what kind of log it is if not that of one link in order."""
    if log.has_several(option):
        from . import many
        return many.run(option, counts_alone=True)
    read, counts = log.Log(option, writes=False), Counts()
    stations = Stations(Unjudged, counts)
    for batch in read.batches():
        stations.take(batch)
        counts.take(batch)
    counts, read.others = stations.total(counts), stations.others
    signs = [read.sign] if read.sign else [one.sign for one in stations.judgements if one.sign]
    if read.is_shifted or read.sign:
        for one in counts, *stations.counts.values():
            one.responses = Sample()
    if not read.summary():
        return statuses.LITTLE
    missing = counts.unjudged() + Counter(
        damaged_lines=read.damaged, lines_with_dropped_octets=read.kinds[DROPPED], possible_lines=read.kinds[POSSIBLE],
        skipped_lines=read.kinds[PASSED], frames_of_others=read.kinds[OTHER] + sum(stations.others.values()))
    each = {address.hex().upper(): numbers(of_station) for address, of_station in sorted(stations.counts.items())}
    if option.json:
        parts = {**({'stations': each} if each else {}), **({'remarks': signs} if signs else {})}
        terminal.print_object({**numbers(counts), **parts, 'not_counted': unjudged_numbers(missing, OF_LINES)}, indent=1)
    else:
        terminal.table('Frames of %s' % ', '.join(option.files), ['what', 'number'], 
                       [*flat(numbers(counts)), *flat({'address ' + address: one for address, one in each.items()})])
        words = unjudged_words(missing, read.reasons, OF_LINES)
        if words:
            print('not counted: ' + words)
    for sign in signs:
        terminal.say(judgement.WORDS[sign])
    return statuses.of_log(False, signs)
