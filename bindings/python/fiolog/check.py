"""`fiolog check`: whether transitions are lost, where and why; and every breach of the rules on the order of messages and on what entries
and answers say, with what should have come and what came, or with what the breach means."""

from collections import Counter

from fio2070.constants import TYPE_LOAD_COUNTER

from . import judgement, log, options, statuses, terminal
from .answer import answer_of
from .event import OTHER, PASSED
from .counts import Counts, in_words, unjudged_numbers, unjudged_words
from .late import is_late
from .log_words import CURES
from .output import Refused
from .rules import RESTARTED, Rules
from .stations import Stations
from .terminal import shown


# Seconds.
A_DAY = 86400


def add_arguments(parser):
    options.add_reading(parser)
    options.add_place(parser)
    parser.add_argument('--rules', choices=('all', 'transcript'), default='all', help='transcript: only the rules on the order of messages, not those on what entries and answers say')
    options.add(parser, '--except')
    parser.add_argument('--tees', action='store_true', help='leave out the rules that are not of TEES 2009: %s' % ', '.join(options.OWN))
    parser.add_argument('--explain', choices=options.NAMES, metavar='RULE', help='say what this rule says, and read no log')
    options.add(parser, '--late-answers', '--no-loads', '-r --recursive', '--jobs')
    form = parser.add_mutually_exclusive_group()
    form.add_argument('--json', action='store_true', help='an object for each breach, with several logs for each log; and one for the summary')
    form.add_argument('--csv', action='store_true', help='a table: a row for each log, with its numbers')


def _place(event):
    """The line of a frame, and its time if it has one."""
    place = 'in %s%s' % (event.head, event.where)
    return place if event.time is None else '%s at %s' % (place, event.clock)


def judged(read, option, counts=None, **settings):
    """The lines of a log, with the breaches and restarts that are certain now and what judges them, which is new for each file; at
    the end of a file None with the others. With --start-at-poll from the first poll on. `settings` are those of Stations."""
    for of_log, batches in read.logs():
        judge = None
        for batch in batches:
            if not (batch.count or any(event.is_loss for _, event in batch.others)):
                continue
            judge = judge or Stations(lambda: judgement.Judgement(rules_for(option), read.name if read.has_several else '', not option.start_at_poll,
                                                                  read.sign), counts, **settings)
            if option.at in ('cpu', 'bus'):
                read.balance += batch.balance
            batch = judge.opened(batch)
            yield batch, judge.take(batch), judge
        if judge:
            broken = [(0, *one) for one in judge.end()]
            read.judgements += judge.judgements
            read.unjudged += judge.unjudged
            read.others += judge.others
            yield None, broken, judge


def rules_for(option):
    """The rules that judge a log, by the options of the command line."""
    return Rules(**options.rules_of(option))


class Findings:
    """The breaches and the restarts of a log, which are written at its end: only then it is known what kind of log it is."""

    def __init__(self, option, read):
        self.option, self.read, self.paint = option, read, terminal.painter('auto')
        self.held, self.count, self.restarts, self.has_late_answers = judgement.Held(), 0, 0, False
        self.spans = {}     # of who breaks a rule, or restarts: the places of the first and of the last one, and how often

    def add(self, event, found):
        """A breach, or a restart."""
        whose = 'CPU' if event.direction == '>' else 'module'
        self.held.add((event.station, found.is_step, (whose, found.rule), _place(event), self._object(event, found) if self.option.json else
                       '%s%s: %s: %s' % (event.head, event.where, self.paint('fault', found.rule), found.meaning)))

    def _object(self, event, found):
        """What is written of it with --json."""
        kind = {'outcome': found.rule} if found.is_restart else {'rule': found.rule, **found.due, 'source': found.source}
        place = {'line': event.number, **({'message': event.message, 'octet': event.octet} if event.message else {}),
                 **({'address': event.station} if event.station else {})}
        return {'file': shown(event.file or self.read.name), **place, **kind, 'says': found.says}

    def write(self):
        """Writes and counts those of links, or of stations, of which the rules are judged."""
        fit = {station: one for one in self.read.judgements if one.is_fit for station in one.stations}
        for station, is_step, whose, place, written in self.held.take():
            if station not in fit or is_step and fit[station].leaves_out:
                continue
            self.count += whose[1] != RESTARTED
            self.restarts += whose[1] == RESTARTED
            first, _, count = self.spans.get(whose, (place, place, 0))
            self.spans[whose] = first, place, count + 1
            (terminal.print_object if self.option.json else print)(written)

    def words(self):
        """A line for each rule that is broken, and for restarts: who, how often, from when to when, and what to do."""
        for (whose, rule), (first, last, count) in self.spans.items():
            often = 'once, ' + first if count == 1 else '%d times, first %s, last %s' % (count, first, last)
            yield '%s: %s: %s. %s' % (whose, rule, often, CURES.get(rule, 'See --explain %s.' % rule))

    def look_for_late(self, batch, broken, counts):
        """Notes whether an answer that was not due came late or twice; `counts` are those above the lines."""
        for frame, event, found in () if self.has_late_answers else broken:
            if found.rule == 'pair' or found.is_restart:
                self.has_late_answers |= is_late(event.octets, batch.octets[:frame], counts, found.is_restart)


def run(option):
    """Checks a log, or several side by side."""
    if option.explain:
        from .explain import explanation
        print('\n'.join(explanation(option.explain)))
        return 0
    if option.csv and option.merge:
        raise Refused('--csv has a row for each log: leave out --merge')
    if log.has_several(option) or option.csv:
        from . import many
        return many.run(option)
    read, counts = log.Log(option, writes=False), Counts()
    findings, judge = Findings(option, read), None
    for batch, broken, judge in judged(read, option, counts):
        if batch and not judge.parts:
            findings.look_for_late(batch, broken, counts)
            counts.take(batch)
        for _, where, found in broken:
            findings.add(where, found)
    said, counts = (judge.answers(counts), judge.total(counts)) if judge else ([], counts)
    for one in said if counts.frames and not option.json else ():
        print(one.line)
    findings.write()
    if not read.summary(says_forms=True):
        return statuses.LITTLE
    for words in () if option.quiet else findings.words():
        terminal.say(words)
    return end(option, read, counts, judge, findings, said)


def end(option, read, counts, judge, findings, said):
    """The summary, and the hints; `said` is the answer."""
    kinds = read.kinds
    left_out = counts.unjudged() + read.unjudged + Counter(skipped_lines=kinds[PASSED], frames_of_others=kinds[OTHER])
    late = {'late_answers': left_out['late_answers']} if option.late_answers else {}
    restarted = {'restarted': findings.restarts} if findings.restarts or option.json else {}
    numbers = {**counts.in_short(), **late, 'breaches': findings.count, **restarted}
    stations = judge.rows() if judge else {}
    if option.json:
        remarks = [judgement.IN_SHORT[one.verdict] for one in read.judgements if one.verdict]
        terminal.print_object({'summary': {**numbers, 'answer': answer_of(said), **({'remarks': remarks} if remarks else {}), **({'stations': stations} if stations else {}),
                                           **log.forms_numbers(*read.read_as()),
                                           'not_judged': unjudged_numbers(left_out)}})
    else:
        print(numbers_words(numbers))
        for address, row in stations.items():
            print('address %s: %s' % (address, numbers_words(row)))
        if left_out:
            print('not judged: ' + unjudged_words(left_out, read.reasons))
    say_excused(left_out['frames_not_at_the_cpu'])
    is_little = judgement.say(read.judgements)
    for words in hints(option, read, counts, judge, findings) if judge and not judge.sign else ():
        terminal.say(words)
    is_lost = findings.restarts > 0 or any(one.answer.is_lost for one in said)
    return statuses.of_log(findings.count, is_little or any(one.answer.is_little for one in said), is_lost)


def hints(option, read, counts, judge, findings):
    """What to try."""
    if read.balance > 0:
        yield 'most lines say the other direction than their messages: if this is the log of the module, try --at module'
    if judge.rules.is_above_polls and counts.polls and not option.start_at_poll:
        yield 'the log begins in the middle of traffic: try --start-at-poll'
    if findings.has_late_answers and not option.late_answers:
        yield 'answers came late or twice: try --late-answers'
    if counts.damaged and (counts.seconds or 0) >= A_DAY and not counts.types[TYPE_LOAD_COUNTER] and not option.no_loads:
        yield 'a day without a load of the counter (50): if the CPU never sends one, try --no-loads'


def numbers_words(numbers):
    """Numbers with their names."""
    return ', '.join('%s %d' % (in_words(name), number) for name, number in numbers.items())


def say_excused(excused):
    """Says how many polls are not judged."""
    if excused:
        terminal.say('not judged, since this log was not taken at the CPU: %d; a poll that repeats a block that was answered is right if the '
                     'CPU did not hear it' % excused)
