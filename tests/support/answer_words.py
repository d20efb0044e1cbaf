"""What is to be said of a log whose truth is known (support/answered.py), in the style of a logger: its text, the sentences, the numbers and the
status of `fiolog check`."""

import time
from typing import NamedTuple

from support.answered import PER_BLOCK, SECOND, WAITING
from support.loggers import LOGGERS, START

GOOD, LITTLE, LOST = 0, 4, 5
# The styles, with how the time of a line is shown, if it has one, and how far below the first line of a frame its octets begin.
OF_DAY, DATE, SINCE_START = '%H:%M:%S', '%Y-%m-%d %H:%M:%S', 's'
STYLES = {'TX and RX': ('', 0), 'arrows': (SINCE_START, 0), 'WRITE and READ': (OF_DAY, 0), 'ISO times': (DATE, 0), 'German times': (DATE, 0), 'table': (DATE, 0),
          'JSON lines': (DATE, 0), 'wrapped at 16': (OF_DAY, 0), 'SDLC': (SINCE_START, 0), 'hexdump -C': (OF_DAY, 1)}
# By the formulas of docs/PLANNING.md, for the links of support/answered.py.
PLAN = 'For 4 inputs with filter 20 a poll each 10 ms is often enough, and an outage of 40 ms loses nothing (plan).'


class Due(NamedTuple):
    """What is due."""
    says: str
    numbers: dict
    status: int


def some(count, noun, more=('', '')):
    """So many, in words; then what follows one, or several."""
    return '%s %s%s%s' % ('{:,}'.format(count), noun, 's' * (count != 1), more[count != 1])


class Written:
    """A log in a style."""

    def __init__(self, made, style):
        self.made, self.write, (self.form, self.below) = made, LOGGERS[style], STYLES[style]
        self.frames = [(frame.time / SECOND, frame.side, frame.octets) for frame in made.frames]
        # By lines, else by stamps, unless the counter was loaded.
        self.by = 0 if self.form and made.all[0] else None if made.loads else 1
        self.text = self.write(self.frames)

    @property
    def words(self):
        """The options of the command line. A log that lacks lines breaks the rule on the numbers of polls, and so does a CPU that passes over some."""
        needs = self.made.does_rise or 'cut' in self.made.kind
        return '--at', self.made.place, '--limits', str(PER_BLOCK), str(WAITING), *(('--except', 'advance') if needs else ())

    def clock(self, milli):
        """A time as it is said."""
        return '%d.%03d s' % divmod(milli, SECOND) if self.form == SINCE_START else time.strftime(self.form, time.gmtime(START + milli // SECOND))

    def _lost(self):
        """What is said of lost transitions."""
        count, (place, milli, pause) = self.made.places['lost'], self.made.first_lost
        line = self.write(self.frames[:place]).lstrip('\n').count('\n') + 1 + self.below
        since = '' if pause is None or not self.form else ', %s after the poll before' % ('%.1f s' % (pause / SECOND) if pause >= SECOND else '%d ms' % pause)
        yield "Transitions are lost at %s at least; %sin line %d%s: the module's buffer overflowed%s." % (
            some(count, 'place'), 'first ' * (count > 1), line, ', ' + self.clock(milli) if self.form else '', since)
        if any(frame.octets[0] == 51 for frame in self.made.frames):
            yield PLAN

    def _whole(self):
        """What is said if there is no place."""
        made, span = self.made, ' from %s to %s' % tuple(self.clock(self.made.times[place]) for place in (0, -1)) if self.form else ''
        count = made.recorded
        yield 'Nothing is lost: %s%s%s.' % (some(count, 'transition') if count else 'no transition', span, {0: '', 1: ', once'}.get(count, ', each once'))
        if made.unanswered:
            yield '%s no answer.' % some(made.unanswered, 'poll', (' had', ' had')) if made.does_rise else '%s lost, and asked for again.' % some(
                made.unanswered, 'answer', (' was', ' were'))

    def _rest(self):
        """What is said of other places."""
        places, silent = self.made.places, self.made.places['passed_over'] + self.made.places['unknown']
        share = ', %.1f %% of the time' % (self.permille / 10) if self.permille is not None else ''
        gap = '; at %s at least %s not in it' % (some(places['missing'], 'place'), some(places['blocks'], 'block', (' is', ' are'))) if places['missing'] else \
            '; at %s the log does not say it' % some(silent, 'place') if silent else ''
        yield 'Nothing %sis lost in what this log has%s%s.' % ('else ' * (places['lost'] > 0), share, gap)
        if places['restarts']:
            yield 'The module was restarted %s; what waited in it then is not recorded.' % ('once' if places['restarts'] == 1 else '%d times' % places['restarts'])

    @property
    def permille(self):
        """How many thousandths of the time are in stretches; None if that is not known."""
        return None if self.by is None or not self.made.all[self.by] else 1000 * self.made.whole[self.by] // self.made.all[self.by]

    def _sentences(self):
        places = self.made.places
        if len(self.made.made) < 2 and not places['lost']:
            return ['Too few blocks to say.']
        has_ends = any(places[name] for name in ('missing', 'passed_over', 'unknown', 'restarts'))
        return [*(self._lost() if places['lost'] else () if has_ends else self._whole()), *(self._rest() if has_ends else ())]

    @property
    def due(self):
        """What is due."""
        made, places = self.made, self.made.places
        span = (made.times[-1] - made.times[0]) / SECOND if self.form and made.times else None
        numbers = {'recorded': made.recorded, 'blocks': len(made.made), 'lost_places': places['lost'], 'missing_places': places['missing'],
                   'missing_blocks': places['blocks'], **{name: places[name] for name in ('passed_over', 'unknown', 'restarts')}, 'disbelieved': 0,
                   'whole_share': None if self.permille is None else self.permille / 1000, 'span_s': span}
        is_little = not made.has_commands or self.permille is not None and self.permille < 500
        return Due(' '.join(self._sentences()), numbers, LOST if places['lost'] + places['restarts'] else LITTLE if is_little else GOOD)
