"""What is said on standard error, colours, tables and the status line. Text of a log, and names of files, are shown so that nothing acts
on a terminal or breaks a line: it is written as digits."""

import contextlib
import os
import re
import sys

# C0, DEL and C1; what ends a line elsewhere; what turns the direction of text; and surrogates, of which those from U+DC80 on are
# octets that are no UTF-8, as the error handler `surrogateescape` has them.
_ACTS = re.compile('[\0-\x1f\x7f-\x9f\u061c\u200e\u200f\u2028-\u202e\u2066-\u2069\ud800-\udfff]')
_OCTETS = range(0xdc80, 0xdd00)
COLOURS = {'sent': '36', 'heard': '32', 'fault': '31;1', 'mark': '33', 'dim': '2'}


def _digits(found):
    """A character as its digits: that of an octet as the octet."""
    code = ord(found[0])
    code -= 0xdc00 if code in _OCTETS else 0
    return '\\x%02x' % code if code < 0x100 else '\\u%04x' % code


def shown(text):
    """Returns a text with `\\x1b` for the control character 27, and `\\xff` for an octet 255 that is no UTF-8."""
    return text if text.isascii() and text.isprintable() else _ACTS.sub(_digits, text)


def fault_words(fault):
    """What is said of an OSError: what it names, and the words of the system."""
    words = fault.strerror or str(fault)
    return words if fault.filename is None else '%s: %s' % (fault.filename, words)


def say(words, name='fiolog', end='\n'):
    """A line on standard error, below what was written so far; with an empty name the rest of one that has no end yet."""
    with contextlib.suppress(OSError):      # nobody hears it
        if sys.stdout is not None:
            sys.stdout.flush()
    with contextlib.suppress(OSError):
        status.clear()
        sys.stderr.write('%s %s%s' % (name and name + ':', shown(words), end))
        sys.stderr.flush()


def painter(wish):
    """A function that paints a text in a colour of COLOURS, or leaves it: `always`, `never`, or `auto` on a terminal that wants colours."""
    is_wanted = sys.stdout.isatty() and not os.environ.get('NO_COLOR') and os.environ.get('TERM') != 'dumb'
    if wish == 'always' or wish == 'auto' and is_wanted:
        return lambda colour, text: '\x1b[%sm%s\x1b[0m' % (COLOURS[colour], text)
    return lambda colour, text: text


def print_object(one, **form):
    """Writes an object as JSON."""
    import json
    print(json.dumps(one, **form))


def table(title, names, rows):
    """Writes a table in columns."""
    cells = [list(map(str, names))] + [[shown(str(cell)) for cell in row] for row in rows]
    widths = [max(map(len, column)) for column in zip(*cells)]
    print(shown(title))
    for row in cells:
        print('  ' + '  '.join(cell.ljust(width) for cell, width in zip(row, widths)).rstrip())


class Status:
    """A line of standard error below all that is written on a terminal. It is removed before something is written, and cut if it has no
    room."""

    is_shown = False

    def show(self, words):
        """Writes the line again."""
        if not sys.stderr.isatty():
            return
        try:
            room = os.get_terminal_size(sys.stderr.fileno()).columns - 1
        except OSError:
            room = 0
        self.is_shown = True
        self._write('\r\x1b[K%s\r' % (words[:room] if room > 0 else words))

    def clear(self):
        """Removes the line."""
        if self.is_shown:
            self.is_shown = False
            self._write('\r\x1b[K')

    def _write(self, text):
        with contextlib.suppress(OSError):      # nobody sees it
            sys.stderr.write(text)
            sys.stderr.flush()


status = Status()
