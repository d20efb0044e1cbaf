"""What a line carried, as a file: its octets with octet stuffing, or its bits with bit stuffing. The library finds the frames
(fio2070.Wire, fio2070.WireBits); here they become events, of which each is counted as a line of a log."""

import functools
import re

import fio2070
from fio2070.constants import WIRE_ADDRESS, WIRE_CONTROL

from .batch import made_of
from .event import BAD, DAMAGED, FRAME, OTHER, Line, frame_of
from .files import is_binary
from .log_words import LINE
from .options import BITS, HIGH_FIRST, OCTETS

# The address and control octet of frames that are judged, if the caller names none.
OWN = (WIRE_ADDRESS, WIRE_CONTROL),
FLAG = b'\x7e'
# A file that is neither a text nor what a line of SDLC carried.
ROWS = 'rows'
# The first octets of a file, which show what it is, and the first bits, which show how long one is.
WINDOW = 1 << 14
# The octets that show whether bits are a text.
SURE = 64
# The octets of a line that shows a text; after a line that is no text it has more.
SHORT_TEXT, LONG_TEXT = 4, 16
_PIECES = re.compile(rb'[^\r\n]*[\r\n]|[^\r\n]+')
_CONTROLS = re.compile(rb'[\0-\x08\x0e-\x1a\x1c-\x1f]')
# A text of 0 and 1; or the octets 0 and 1, which are read as it is.
_BITS = re.compile(rb'[01\0\1,\s]*')
_ANY_BIT = re.compile(rb'[01\1]')     # zeros alone may be anything
_NO_BITS, _AS_TEXT = bytes(octet for octet in range(256) if octet not in b'01\0\1'), bytes.maketrans(b'\0\1', b'01')
_RUNS = re.compile(rb'0+|1+')
# How many runs, without the first and the last, show how long a bit is; and one run in how many may be noise.
LEAST_RUNS, MOST_SHORT = 16, 20


@functools.lru_cache(maxsize=None)
def _in_order(form):
    """The bits of each octet as a text, in the order in which they came."""
    return [format(octet, '08b')[::1 if form == HIGH_FIRST else -1].encode() for octet in range(256)]


def one_of(addresses):
    """The address and control octet by which the library finds frames of these addresses: any, if there are several."""
    return addresses[0] if len(addresses) == 1 else (None, None)


def words_of(header):
    """What is said of a frame with this header, which is not judged."""
    return LINE['other'].format(address=header[:1].hex().upper(), control=header[1:].hex().upper()) if len(header) > 1 else \
        LINE['of'].format(address=header.hex().upper()) if header else LINE['none']


def addressed(event, addresses):
    """The event of a frame, if it is judged: that of a frame of another address, if it has none of these."""
    if event.kind not in (FRAME, BAD) or any(all(one in (None, octet) for one, octet in zip(address, event.header or (-1,))) for address in addresses):
        return event
    return event._replace(kind=OTHER, note=words_of(event.header))


def event_of(heard, number, addresses, **line):
    """The event of what a line says at a flag; frames of these addresses are judged."""
    if heard.kind == 'damaged':
        return Line(number, DAMAGED, note=LINE['damaged'], **line)
    event = frame_of(number, heard.message, header=bytes((heard.address, heard.control)), **line)
    if heard.kind == 'other':
        return event._replace(kind=OTHER, note=words_of(event.header))
    return addressed(event, addresses)


def _is_text(octets):
    """Whether octets are UTF-8 without control characters."""
    try:
        octets.decode('utf-8')
    except UnicodeDecodeError:
        return False
    return not _CONTROLS.search(octets)


class Beginning:
    """Holds how a file begins until that shows what it is: a text, by a line without control characters; what a line carried, by a
    frame with a right check; or a text of bits. However the octets come, the answer is the same."""

    def __init__(self, addresses):
        self.held, self.addresses, self.probe = b'', addresses, None    # the decoder of what comes from the first flag on
        self.seen, self.line, self.is_strange, self.frames, self.damaged = 0, b'', False, 0, 0

    def form(self, octets, is_all=False):
        """Takes octets. Returns one of LINES, ROWS for another file that is no text, or '' for a text; None if more octets are needed to
        know."""
        self.held += octets
        for piece in _PIECES.findall(self.held[self.seen:WINDOW]):
            self.seen += len(piece)
            form = self._form_by(piece)
            if form is not None:
                return form
        if not is_all and self.seen < WINDOW:
            return None
        if _BITS.fullmatch(self.held[:WINDOW]):
            return BITS if _ANY_BIT.search(self.held, 0, WINDOW) else ''
        if self.frames and self.frames >= self.damaged:
            return OCTETS
        return ROWS if is_binary(self.held) else ''

    def _form_by(self, piece):
        """What this piece of a line shows."""
        if FLAG in piece and not self.probe:
            self.probe = fio2070.Wire(*one_of(self.addresses))
        kinds = [heard.kind for heard in self.probe.read(piece)] if self.probe else []
        self.damaged += kinds.count('damaged')
        self.frames += len(kinds) - kinds.count('damaged')
        if 'message' in kinds:
            return OCTETS
        self.line += piece
        if not piece.endswith((b'\r', b'\n')):
            return None
        line, self.line = self.line[:-1], b''
        self.is_strange = self.is_strange or not _is_text(line)
        is_long = len(line) >= (LONG_TEXT if self.is_strange else SHORT_TEXT)
        return '' if is_long and _is_text(line) and not _BITS.fullmatch(line) else None


class Raw:
    """Makes batches of what a line carried, a file in one of the forms LINES."""

    def __init__(self, form, addresses):
        self.form, self.count, self.frames, self.addresses = form, 0, 0, addresses
        self.decoder = (fio2070.Wire if form == OCTETS else fio2070.WireBits)(*one_of(addresses))
        self.is_text, self.held, self.sample = None, b'', b''

    def feed(self, octets):
        """The parts that end in these octets."""
        return made_of(map(self._event, self.decoder.read(octets if self.form == OCTETS else self._bits(octets))))

    def end(self):
        """What waits: a few octets, of which is not known whether they are a text of bits."""
        return made_of(map(self._event, self.decoder.read(b'' if self.form == OCTETS else self._bits(b'', True))))

    def _event(self, heard):
        self.count += 1
        self.frames += heard.kind != 'damaged'
        return event_of(heard, self.count, self.addresses)

    def _bits(self, octets, is_all=False):
        """The bits of octets that come next, as a text: as they are written, one to an octet, or each octet as eight."""
        if self.is_text is None:
            self.held += octets
            if len(self.held) < SURE and not is_all:
                return b''
            self.is_text, octets = bool(_BITS.fullmatch(self.held[:SURE])), self.held
        bits = octets.translate(_AS_TEXT, _NO_BITS) if self.is_text else b''.join(map(_in_order(self.form).__getitem__, octets))
        self.sample += (bits if self.sample else bits.lstrip(bits[:1]))[:WINDOW - len(self.sample)]
        return bits

    def words(self):
        """Why no frame was found; empty if one was."""
        if self.frames:
            return ''
        runs = sorted(len(run) for run in _RUNS.findall(self.sample)[1:-1])
        samples = runs[len(runs) // MOST_SHORT] if len(runs) >= LEAST_RUNS else 1
        return LINE['faster'].format(count=samples) if samples > 1 else LINE['octets' if self.form == OCTETS else 'bits']
