"""The answer to what a log is read for: whether transitions are lost, where and why. What is lost is decided by the library's stretches;
here that is put into words (log_words.py) and numbers."""

from collections import Counter
from typing import NamedTuple

from fio2070.constants import TYPE_CONFIGURE_INPUTS

from .event import SINCE_START, clock_of, seconds_of
from .log_words import ANSWER, COUNTED
from .message import BLOCK, message_of, spells
from .plan import row as plan_row
from .terminal import shown

# What the library counts of the stretches.
NUMBERS = ('blocks', 'transitions', 'lost', 'missing', 'missing_blocks', 'passed_over', 'unknown', 'restarts', 'disbelieved', 'timed',
           'timed_whole', 'stamped', 'stamped_whole', 'loads')
# The places that end a stretch, by why; those with F are lost, too.
SEAMS = 'missing', 'passed_over', 'unknown', 'restarts', 'disbelieved'
# What a row of a table says of it.
COLUMNS = 'recorded', 'lost_places', 'missing_blocks', 'passed_over', 'restarts', 'whole_share', 'span_s'
# The most places that are kept; their numbers count all.
MOST_PLACES = 1000
# So many thousandths of the time of a log are in stretches, else little is said of it.
ENOUGH = 500
MILLI, SECOND = 1000, 1_000_000


def counted(name, count):
    """How many, in words."""
    return COUNTED[name][count != 1].format(count='{:,}'.format(count))


def duration(micro):
    """Microseconds in words: below a second in milliseconds."""
    return '%.1f s' % (micro / SECOND) if micro >= SECOND else '%d ms' % (micro // MILLI)


def time_of(batch, frame):
    """The time of a frame in microseconds, with what it counts from; None if it has none."""
    line = batch.said.told(batch.line_of(frame))
    return None if seconds_of(line.time) is None else (line.time, line.time_kind)


def clock(time):
    """A time in whole seconds, or since a start with its unit; empty if there is none."""
    words = clock_of(*time) if time else ''
    return words + ' s' if words and time[1] == SINCE_START else words.partition('.')[0]


class Answer:
    """What is said of the transitions of a log, or of one of its stations. `a + b` has the numbers of both, without places and times."""

    def __init__(self, limits=()):
        self.limits, self.numbers, self.longest_pause = limits, Counter(), 0
        self.places, self.first_lost = [], None     # the first places; the first lost one, its time, and how long no poll came
        self.ends = ()      # the times of the first and of the last block, if there is one
        self.filters = {}       # of each input that is not ignored the shorter filter, as far as configurations say
        # Whether the log is of one link in order, breaches are said below, and blocks without entries are left out.
        self.is_fit, self.says_below, self.leaves_out = True, False, False

    def __add__(self, other):
        both = Answer()
        for one in (self, other):
            both.numbers.update(one.numbers)
        both.longest_pause = max(self.longest_pause, other.longest_pause)
        return both

    def take(self, batch, stretches, seams):
        """Takes what the library says of the stretches in lines."""
        self.numbers, self.longest_pause = Counter({name: getattr(stretches, name) for name in NUMBERS}), stretches.longest_pause
        types = batch.said.types()
        if BLOCK in types:
            self.ends = *(self.ends[:1] or [time_of(batch, types.find(BLOCK))]), time_of(batch, types.rfind(BLOCK))
        for at in [at for at, code in enumerate(types) if code == TYPE_CONFIGURE_INPUTS] if TYPE_CONFIGURE_INPUTS in types else ():
            self._configure(batch.octets[at])
        for seam in seams:
            self._add(batch, seam)

    def end(self, is_fit, says_below, leaves_out=False):
        """At the end of the log it is known whether it is of one link in order, breaches are said below, and blocks without entries are
        left out."""
        self.is_fit, self.says_below, self.leaves_out = is_fit, says_below, leaves_out
        if not is_fit:
            self.numbers, self.places = Counter(), []

    def _configure(self, octets):
        """Takes a configuration of inputs."""
        for item in message_of(octets).parts if spells(octets) else ():
            self.filters[item['input']] = min(item['leading'], item['trailing'])
            if item['ignore']:
                del self.filters[item['input']]

    def _add(self, batch, seam):
        """Takes a place."""
        is_first = seam.is_lost and self.first_lost is None
        if not is_first and len(self.places) == MOST_PLACES:
            return
        event = batch.event(seam.frame)
        if is_first:
            words = event.head + event.where, clock(time_of(batch, seam.frame))
            self.first_lost = ', '.join(filter(None, words)), seam.pause
        if len(self.places) < MOST_PLACES:
            file = {'file': shown(event.file)} if event.file else {}
            self.places.append({**file, 'line': event.number, 'time': event.time, 'kind': seam.why or 'lost', 'number': event.octets[1],
                                'lost': seam.is_lost, **({'missing_blocks': seam.missing} if seam.missing else {})})

    @property
    def permille(self):
        """How many thousandths of the time are in stretches: by the times of lines, else by stamps, if none was loaded; None if neither
        says it."""
        for of_all, of_whole in (('timed', 'timed_whole'), ('stamped', 'stamped_whole'))[:1 if self.numbers['loads'] else 2]:
            if self.numbers[of_all]:
                return 1000 * self.numbers[of_whole] // self.numbers[of_all]
        return None

    @property
    def is_lost(self):
        """Whether transitions are lost, or may be since the module was restarted."""
        return self.numbers['lost'] + self.numbers['restarts'] > 0

    @property
    def is_little(self):
        """Whether too little of the time is in stretches."""
        return self.permille is not None and self.permille < ENOUGH

    @property
    def state(self):
        """A word on it, as it is by now; empty if nothing can be said."""
        numbers = self.numbers
        is_whole = not any(numbers[name] for name in SEAMS)
        return 'lost' if numbers['lost'] else 'restarted' if numbers['restarts'] else '' if numbers['blocks'] < 2 else 'whole' if is_whole else 'not whole'

    def sentences(self, unanswered, repeats):
        """What is said of it, in order; `unanswered` polls have no answer, and `repeats` are polls that ask again."""
        numbers = self.numbers
        if not self.is_fit:
            return [ANSWER['unfit']]
        if numbers['blocks'] < 2 and not numbers['lost']:
            return [ANSWER['few']]
        has_ends = any(numbers[name] for name in SEAMS)
        said = self._lost() if numbers['lost'] else () if has_ends else self._whole(unanswered, repeats)
        return [*said, *(self._rest() if has_ends else ())]

    def _whole(self, unanswered, repeats):
        """What is said of a log that is one stretch."""
        count, (first, last) = self.numbers['transitions'], map(clock, self.ends)
        span = ANSWER['span'].format(first=first, last=last) if first and last else ''
        yield ANSWER['whole' if count > 1 else 'whole_one' if count else 'whole_none'].format(transitions=counted('transitions', count), span=span)
        if unanswered:
            yield ANSWER['again' if unanswered <= repeats else 'silent'].format(answers=counted('answers', unanswered), polls=counted('polls', unanswered))

    def _lost(self):
        """What is said where transitions are lost; and how often to poll, if configurations say which inputs are open."""
        count, (place, pause) = self.numbers['lost'], self.first_lost
        yield ANSWER['lost' if count > 1 else 'lost_one'].format(
            places=counted('places', count), place=place, pause='' if pause is None else ANSWER['pause'].format(pause=duration(pause)))
        inputs, least = len(self.filters), min(self.filters.values(), default=0)
        planned = {what: number for what, number, _ in plan_row(inputs, max(least, 1), *self.limits, (0, 0))} if inputs else {}
        if planned.get('poll every', '0 ms') != '0 ms':
            yield ANSWER['plan'].format(inputs=counted('inputs', inputs), filter=least, every=planned['poll every'],
                                        outage=planned['outage without loss, at most'])

    def _rest(self):
        """What is said of all else, if it is not one stretch."""
        numbers, unknown = self.numbers, self.numbers['passed_over'] + self.numbers['unknown']
        missing, gaps = numbers['missing'], ANSWER['missing' + '_empty' * self.leaves_out if numbers['missing'] else 'unknown'] if numbers['missing'] or unknown else ''
        yield ANSWER['rest_lost' if numbers['lost'] else 'rest'].format(
            share='' if self.permille is None else ANSWER['share'].format(share=self.permille / 10),
            gaps=gaps.format(places=counted('places', missing or unknown), blocks=counted('blocks', numbers['missing_blocks'])))
        if numbers['restarts']:
            yield ANSWER['restarts'].format(times=counted('times', numbers['restarts']))
        if numbers['disbelieved']:
            yield ANSWER['disbelieved'].format(places=counted('places', numbers['disbelieved']), below=ANSWER['below'] * self.says_below)

    def object(self):
        """Its numbers with --json; none if nothing is said."""
        numbers, pause, permille = self.numbers, self.longest_pause, self.permille
        return {'recorded': numbers['transitions'], 'blocks': numbers['blocks'], 'lost_places': numbers['lost'], 'missing_places': numbers['missing'],
                **{name: numbers[name] for name in ('missing_blocks', 'passed_over', 'unknown', 'restarts', 'disbelieved')},
                'whole_share': None if permille is None else permille / 1000, 'longest_pause_s': pause / SECOND if pause else None} if self.is_fit else {}


class Said(NamedTuple):
    """An answer, with the address of its station, empty if there is one link, how many polls have no answer there, and how many ask again."""
    address: str
    answer: Answer
    unanswered: int
    repeats: int

    @property
    def line(self):
        """What is said of it."""
        return 'address %s: ' % self.address * bool(self.address) + ' '.join(self.answer.sentences(self.unanswered, self.repeats))


def numbers_of(answers):
    """The numbers of these answers, which are of one log, with the times of the first and the last block, and the seconds between these; None
    of what is not known, and no number if nothing is said."""
    numbers = sum(answers, Answer()).object() if len(answers) > 1 else answers[0].object()
    firsts, lasts = zip(*(one.ends or (None, None) for one in answers))
    first, last = min(filter(None, firsts), default=None), max(filter(None, lasts), default=None)
    span = (last[0] - first[0]) / SECOND if first and last and first[1] == last[1] and first <= last else None
    return {**numbers, 'first': first and seconds_of(first[0]), 'last': last and seconds_of(last[0]), 'span_s': span} if numbers else {}


def answer_of(said):
    """What --json has of these answers, those of one log, of which COLUMNS are those of a table."""
    places = [{**place, **({'station': one.address} if one.address else {})} for one in said for place in one.answer.places]
    stations = {one.address: numbers_of([one.answer]) for one in said if one.address}
    return {'says': '\n'.join(one.line for one in said), **numbers_of([one.answer for one in said]), **({'stations': stations} if stations else {}), 'places': places}
