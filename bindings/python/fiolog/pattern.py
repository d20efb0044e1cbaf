"""Lines that are written as the caller says: an expression finds their octets."""

import re

import fio2070

from .batch import made_of
from .event import BLANK, PASSED, Line, frame_of, seconds_of, text_of
from .log_words import REASONS
from .reader import Texts

# The most characters of a line in which the expression is sought: more than a frame and its remarks take.
LONGEST_SOUGHT = 8192
_NO_DIGIT = re.compile(r'0[xX]|\\x|[^0-9A-Fa-f]')
# A frame that the library takes in any log: it serves to read the time and the side before it.
_SURE = ' b600000000000001\n'


class ByPattern(Texts):
    """Makes batches of lines. `pattern` is an expression with the group `octets`, hexadecimal digits, and perhaps `time` and `dir`."""

    def __init__(self, pattern):
        super().__init__()
        self.pattern = re.compile(pattern)
        self.words = fio2070.LogReader()    # reads a time and a side

    def feed(self, octets):
        """The lines that are whole now."""
        self.add(octets)
        return self._of_lines(self.drop(self.count))

    def end(self):
        """The line that has no end."""
        self.close()
        return self._of_lines(self.drop(self.count))

    def _of_lines(self, lines):
        found = [self._found(text_of(raw)) for raw in lines]
        said = self._said([words for _, *both in found for words in both])
        return made_of([self._event(number, raw, one[0], next(said), next(said))
                        for number, (raw, one) in enumerate(zip(lines, found), self.count - len(lines) + 1)])

    def _found(self, text):
        """The digits that the expression finds, None if it finds none; and the words of the time and of the side."""
        found = self.pattern.search(text[:LONGEST_SOUGHT])
        if not found or found.end('octets') == LONGEST_SOUGHT < len(text):   # they may go on below
            return None, '', ''
        parts = found.groupdict()
        return _NO_DIGIT.sub('', found['octets'] or ''), parts.get('time') or '', parts.get('dir') or ''

    def _said(self, texts):
        """What the reader says of octets below each text."""
        return iter(self.words.read(''.join(text + _SURE for text in texts).encode('utf-8', 'replace')) + self.words.end())

    def _event(self, number, raw, digits, when, who):
        """The event of a line, with the time and the side of two verdicts."""
        if digits and len(digits) % 2 == 0:
            return frame_of(number, bytes.fromhex(digits), raw=raw, time=seconds_of(when.time), time_kind=when.time_kind, said=who.said)
        text = text_of(raw)
        is_long = digits is None and len(text) > LONGEST_SOUGHT
        return Line(number, PASSED, raw, note=REASONS['too long' if is_long else 'no octets']) if text.strip() else Line(number, BLANK, raw)
