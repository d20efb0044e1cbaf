"""What is said of messages that this protocol has not, and that the library passes over: those of other types, and 180, 181, 55 and 183 of a
module of another size."""

from collections import Counter

from fio2070.constants import LOG_PASSED_OVER, TYPE_ANSWER, TYPE_FILTERED_INPUTS, TYPE_RAW_INPUTS, TYPE_SET_OUTPUTS

from .log_words import LINE

# Those whose size depends on the module, and the answer to one of them.
LEVELS, OUTPUTS = (TYPE_RAW_INPUTS + TYPE_ANSWER, TYPE_FILTERED_INPUTS + TYPE_ANSWER), TYPE_SET_OUTPUTS
_OF_SIZES = *LEVELS, OUTPUTS, OUTPUTS + TYPE_ANSWER


def note_of(code):
    """What is said of a line that is passed over, with a message of this type."""
    return LINE['size' if code in _OF_SIZES else 'type'].format(type=code)


class Sizes:
    """The messages of modules of another size that are passed over."""

    def __init__(self):
        self.lines = Counter()      # by their type and size

    def count(self, said):
        """Counts those of a batch."""
        if any(said.foreign):
            self.lines.update((code, size) for kind, code, size in zip(said.kinds, said.foreign, said.sizes) if kind == LOG_PASSED_OVER and code and size)

    def words(self):
        """What is said of these modules: of each size by the answers with its inputs, if there are any."""
        for size in sorted({size for _, size in self.lines}):
            lines, code = max((self.lines[code, size], code) for code in LEVELS)
            key = 'inputs' if lines else 'outputs'
            lines, code = (lines, code) if lines else (self.lines[OUTPUTS, size], OUTPUTS)
            yield LINE[key].format(type=code, octets='%d octet%s' % (size, 's' * (size > 1)), count=8 * size,
                                   lines='each of %d lines' % lines if lines > 1 else 'a line')
