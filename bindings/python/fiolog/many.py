"""Many logs side by side: a row for each, the worst first, and one for all."""

import os
import stat
import sys
from functools import partial, reduce
from operator import add

from . import judgement, log, options, statuses, terminal
from .answer import COLUMNS as OF_ANSWER, answer_of
from .counts import OF_LINES, UNJUDGED, in_words, unjudged_numbers, unjudged_words
from .output import Refused
from .summary import Summary, summary_of
from .terminal import shown

# What a row has; the first columns say which log is the worst.
COLUMNS = ('breaches', 'restarted', 'gap_marks', 'damaged', 'answers_lost', 'repeats', 'polls', 'frames')


def files_of(names):
    """The files of these names, and in place of a folder those below it, in order."""
    for name in names:
        if name == '-' or not os.path.isdir(name):
            yield name
            continue
        for folder, folders, files in os.walk(name):
            folders.sort()
            paths = (os.path.join(folder, one) for one in sorted(files))
            yield from (path for path in paths if os.path.exists(path) and stat.S_ISREG(os.stat(path).st_mode))


def settings_of(option):
    """The reader's settings and the rules', by the options of the command line."""
    return {**options.rules_of(option), 'start_at_poll': getattr(option, 'start_at_poll', False), **log.settings_of(option)}


def summary_or_fault(settings, name):
    """The summary of a file, or words why it cannot be read."""
    try:
        return summary_of(sys.stdin.buffer if name == '-' else name, **settings)
    except OSError as fault:
        return fault.strerror or str(fault)
    except Refused as refusal:
        return str(refusal)
    except Exception as fault:      # the rows of the other files are kept
        return '%s: %s' % (type(fault).__name__, fault)


def numbers(summary):
    """What a row says of a summary, by name."""
    return {'breaches': summary.breaches, 'restarted': summary.restarted, 'damaged': summary.counts.damaged, **summary.counts.in_short()}


def first_words(summary):
    """The first breach, else the first place where transitions are lost, else the first restart, else the remarks."""
    if summary.first_breach:
        return 'line %d: %s' % summary.first_breach[:2]
    lost = [place['line'] for one in summary.said for place in one.answer.places if place['lost']]
    if lost:
        return 'line %d: transitions are lost' % min(lost)
    if summary.first_restart:
        return 'line %d: restarted' % summary.first_restart
    return remarks(summary)


def remarks(summary):
    """Why little can be judged, as a row says it."""
    return ', '.join(map(judgement.IN_SHORT.get, summary.verdicts))


def left_out(summary, counts_alone):
    """What is not judged or, where it is counted alone, not counted: its key, its words and its numbers."""
    found, names = summary.left_out, OF_LINES if counts_alone else tuple(UNJUDGED)
    return 'not counted' if counts_alone else 'not judged', unjudged_words(found, summary.reasons, names), unjudged_numbers(found, names)


def write_json(rows, faults, total, counts_alone):
    """An object for each file, and one for all."""
    def object_of(one):
        key, _, missing = left_out(one, counts_alone)
        verdicts = {'remarks': {judgement.IN_SHORT[name]: count for name, count in one.verdicts.items()}} if one.verdicts else {}
        answer = {} if counts_alone else {'answer': answer_of(one.said) if one.said else one.answer.object()}
        return {**numbers(one), **answer, **verdicts, key.replace(' ', '_'): missing, 'rules': dict(one.broken),
                **({'stations': one.stations} if one.stations else {})}
    for name, one in rows:
        terminal.print_object({'file': shown(name), **object_of(one), 'first': one.first_breach})
    for name, words in faults:
        terminal.print_object({'file': shown(name), 'fault': shown(words)})
    terminal.print_object({'summary': {'files': len(rows), **object_of(total)}})


def write_csv(rows, faults):
    """A row for each file: its numbers, what is not judged, how often each rule is broken, and where the first breach is."""
    import csv
    table, names = csv.writer(sys.stdout, lineterminator='\n'), [*COLUMNS, *OF_ANSWER, 'lines']
    missing = [name for name in UNJUDGED if name not in names]
    table.writerow(['file', *names, *missing, *options.NAMES, 'first_line', 'first_rule', 'remark', 'fault'])
    for name, one in rows:
        found, (line, rule, _) = {**numbers(one), **answer_of(one.said), 'lines': one.lines}, one.first_breach or ('', '', '')
        table.writerow([shown(name), *(found.get(column) for column in names), *(one.left_out[column] for column in missing),
                        *(one.broken[column] for column in options.NAMES), line, rule, remarks(one), ''])
    for name, words in faults:
        table.writerow([shown(name), *[''] * (len(names) + len(missing) + len(options.NAMES) + 3), shown(words)])


def write_table(rows, faults, total, counts_alone):
    """A row for each file, and one for all."""
    table = [[name, *(numbers(one)[column] for column in COLUMNS), first_words(one)] for name, one in rows]
    table.append(['all %d' % len(rows), *(numbers(total)[column] for column in COLUMNS), ''])
    terminal.table('%d logs, the worst first' % len(rows), ['file', *map(in_words, COLUMNS), 'first breach'], table)
    for name, words in faults:
        terminal.say('%s: %s' % (name, words))
    key, words, _ = left_out(total, counts_alone)
    if words:
        print('%s: %s' % (key, words))


class Seen:
    """Says on a terminal how many of the logs are read, and how many breaches are found in them."""

    def __init__(self, count):
        self.count, self.read, self.breaches = count, 0, 0

    def add(self, one):
        """Takes a summary, or the words of a fault."""
        self.read += 1
        self.breaches += getattr(one, 'breaches', 0)
        terminal.status.show('{:,} of {:,}, {:,} breach{}'.format(self.read, self.count, self.breaches, 'es' * (self.breaches != 1)))


def run(option, counts_alone=False):
    """Reads the files, and judges them unless it `counts_alone`. If a file cannot be read, the status says that. If Ctrl-C ended it, the
    rows are those of the files that were read."""
    from . import side_by_side      # which a single log does not need
    work, count = partial(summary_or_fault, settings_of(option)), len(option.files)
    done = side_by_side.results(work, option.files, side_by_side.jobs_of(option.jobs, count), Seen(count).add)
    terminal.status.clear()
    found = [(option.files[index], done[index]) for index in sorted(done)]
    faults = [(name, one) for name, one in found if isinstance(one, str)]
    rows = sorted(((name, one) for name, one in found if not isinstance(one, str)),
                  key=lambda row: [-numbers(row[1])[column] for column in COLUMNS])
    total = reduce(add, (one for _, one in rows), Summary())
    if getattr(option, 'csv', False):
        write_csv(rows, faults)
    else:
        (write_json if option.json else write_table)(rows, faults, total, counts_alone)
    is_little = any(judgement.is_little(one, counts_alone) for one in total.verdicts) or total.partial and not counts_alone
    if len(done) < count:
        terminal.say('ended: %d of %d logs were read' % (len(done), count))
        return statuses.ENDED
    return statuses.FAILED if faults else statuses.of_log(total.breaches and not counts_alone, is_little, total.is_lost and not counts_alone)
