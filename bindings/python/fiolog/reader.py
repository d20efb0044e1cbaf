"""The lines of a log: its texts, the frames that libfio2070 finds in them (docs/CAPTURES.md), or those of what a line carried, and
what is counted of its lines."""

from collections import Counter

import fio2070

from .batch import Batch, made_of
from .event import DAMAGED, LONGEST_TEXT, OTHER, PASSED, frame_of
from .line import OWN, ROWS, Beginning, Raw, addressed
from .log_words import REASONS
from .options import FORMS
from .output import Refused
from .sizes import Sizes


class Texts:
    """The texts of the lines that have no verdict yet, cut from the octets of a log."""

    def __init__(self):
        self.lines, self.above, self.left = [], 0, b''      # the lines that are kept, how many are above, and what came of the next one

    @property
    def count(self):
        """How many lines came."""
        return self.above + len(self.lines)

    def add(self, octets):
        """Takes octets. A line ends at a line feed, at a carriage return, or at both."""
        lines = (self.left + octets).splitlines(keepends=True)
        # A line feed may follow a carriage return.
        self.left = lines.pop() if lines and not lines[-1].endswith(b'\n') else b''
        self.lines += lines
        if len(self.left) > LONGEST_TEXT:
            self.left = self.left[:LONGEST_TEXT] + b'\r' * self.left.endswith(b'\r')

    def close(self):
        """Takes the line that has no end, if there is one."""
        self.lines += [self.left] * bool(self.left)
        self.left = b''

    def of(self, number):
        """Returns a line; what came of it if its end was not seen yet: a line feed may follow its carriage return."""
        index = number - self.above - 1
        return self.lines[index] if index < len(self.lines) else self.left

    def between(self, first, last):
        """Returns the text of the lines from one to another."""
        return b''.join(self.lines[first - self.above - 1:last - self.above]) + self.left * (last > self.count)

    def drop(self, number):
        """Forgets the lines down to this one, and returns them."""
        number = min(number, self.count) - self.above
        dropped, self.lines, self.above = self.lines[:number], self.lines[number:], self.above + number
        return dropped


class Found(Texts):
    """Makes batches of the octets of a log in which the library finds frames; `form` is one of FORMS, `like` are sample lines, each as its
    octets, `addresses` those of the frames that are judged, or none for all. Raises Refused if the samples show no form."""

    def __init__(self, form, like=(), addresses=()):
        super().__init__()
        self.library, self.form, self.addresses = fio2070.LogReader(form), form, addresses
        self.told = 0   # the last line with a verdict
        self.sizes = Sizes()
        if like and not self.library.like(b'\n'.join(like) + b'\n'):
            raise Refused('--like: these lines show no message and how it is written, such as `TX 36 05`')

    def feed(self, octets):
        """The lines that are certain once these octets are read."""
        self.add(octets)
        return self._batches(self.library.batches(octets))

    def end(self):
        """The lines that waited."""
        self.close()
        return self._batches(self.library.last_batches())

    def waiting(self):
        """The numbers of the lines that have no verdict yet."""
        return range(self.told + 1, self.count + 1)

    def ended(self):
        """What these lines say, if the log ends here."""
        for said in self.library.ended().last_batches():
            yield from Batch(said, self.form == 'transcript', raw_of=self.of).events()

    def _batches(self, batches):
        for said in batches:
            self.told = said.line(len(said) - 1)
            self.sizes.count(said)
            batch = Batch(said, self.form == 'transcript', raw_of=self.of)
            if self.form == 'auto' and self.addresses:
                yield from made_of([addressed(event, self.addresses) for event in batch.events()])
            elif self.form == 'auto':
                yield batch
            else:
                yield from self._by_form(batch)
            self.drop(self.told)

    def _by_form(self, batch):
        """Lines of the project's own texts: octets that spell no message are those of a frame."""
        wrong = REASONS['no message']
        if all(event.note != wrong for _, event in batch.others):
            return [batch]
        return made_of([self._bad(event) if event.note == wrong else event for event in batch.events()], batch.as_said)

    def _bad(self, event):
        """The event of a line with octets that spell no message."""
        is_transcript = self.form == 'transcript'
        frame = frame_of(event.number, bytes.fromhex(event.text[2 * is_transcript:]), raw=event.raw, time=event.time, time_kind=event.time_kind, said=event.said)
        return frame._replace(direction=event.said) if is_transcript else frame


class Octets(Found):
    """Makes batches of a file that is no text: its octets are read as rows of 16 in hexadecimal."""

    ROW = 16

    def __init__(self):
        super().__init__('auto')
        self.held = b''

    def feed(self, octets):
        """The rows that are certain once these octets are read."""
        octets = self.held + octets
        whole = len(octets) - len(octets) % self.ROW
        self.held = octets[whole:]
        return super().feed(self._rows(octets[:whole]))

    def _rows(self, octets):
        """The rows of octets."""
        return b''.join(octets[start:start + self.ROW].hex().encode() + b'\n' for start in range(0, len(octets), self.ROW))

    def end(self):
        """The rows that waited, and the last one."""
        yield from super().feed(self._rows(self.held))
        yield from super().end()


class Reader:
    """Makes batches of the octets of a log, in pieces of any length. `form` is one of FORMS; `pattern` is the
    caller's expression; `line` is one of line.LINES for what a line carried, which is also seen by its beginning; `address` are the
    addresses of the frames that are judged, each with its control octet, both None for any; `like` are sample lines of a text."""

    def __init__(self, form='auto', pattern=None, line='', address=None, like=()):
        self.kinds, self.reasons, self.damages = Counter(), Counter(), Counter()    # the reasons of lines passed over, and of damaged ones
        self.others = Counter()     # of frames that are not judged, by what is said of their address
        self.addresses = tuple(address or ())
        if address and (pattern or form != 'auto'):
            raise Refused('--address: the frames of %s have no address' % ('a --pattern' if pattern else 'a text of this --format'))
        self.as_said = form == FORMS[-1]    # whether the lines say themselves who sent a frame
        if pattern:
            from .pattern import ByPattern
            self.text = ByPattern(pattern)
        else:
            self.text = Found(form, like, self.addresses)
        may_be_line = form == 'auto' and not pattern and not like
        self.way = Raw(line, self.addresses or OWN) if line else None if may_be_line else self.text
        self.beginning = Beginning(self.addresses or OWN)

    @property
    def count(self):
        """How many lines were read."""
        return self.way.count if self.way else 0

    def learn(self, samples):
        """Learns forms from sample lines, before the first octets."""
        if samples:
            self.text.library.like(samples)

    def feed(self, octets):
        """Yields the lines that are certain once these octets are read. A batch is overwritten by the next one."""
        octets = octets if self.way else self._begin(octets)
        if self.way:
            yield from map(self._counted, self.way.feed(octets))

    def read(self, chunks):
        """Yields the lines of a log that comes in these pieces."""
        for octets in chunks:
            yield from self.feed(octets)
        yield from self.end()

    def end(self):
        """Yields the lines that waited."""
        held = b'' if self.way else self._begin(b'', True)
        yield from map(self._counted, self.way.feed(held))
        yield from map(self._counted, self.way.end())

    def _begin(self, octets, is_all=False):
        """Chooses the way by how the file begins, if that shows it, and returns the octets that are to be read."""
        form = self.beginning.form(octets, is_all)
        if form == ROWS and isinstance(self.text, Found):
            self.way = Octets()
        elif form is not None:
            self.way = Raw(form, self.addresses or OWN) if form and form != ROWS else self.text
        return self.beginning.held

    def waiting(self):
        """The numbers of the lines that have no verdict yet, if the lines below can show what they are."""
        return self.way.waiting() if isinstance(self.way, Found) else range(0)

    def ended(self):
        """What these lines say, if the log ends here."""
        return self.way.ended()

    def words(self):
        """Why a file of what a line carried has no frame; empty for any other."""
        return self.way.words() if isinstance(self.way, Raw) else ''

    def forms(self):
        """By which forms lines were read."""
        return [one for one in self.way.library.forms() if one.lines] if isinstance(self.way, Found) else []

    def sizes(self):
        """What is said of modules of another size."""
        return self.way.sizes.words() if isinstance(self.way, Found) else ()

    def _counted(self, batch):
        """A batch, of which is counted what its lines are."""
        self.kinds.update(batch.kinds_of_events())
        for _, event in batch.others:
            if event.kind in (PASSED, DAMAGED):
                (self.reasons if event.kind == PASSED else self.damages)[event.note] += 1
            elif event.kind == OTHER:
                self.others[event.note] += 1
        return batch
