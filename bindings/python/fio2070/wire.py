"""The wire: frames on a line, between flags, with octet stuffing or bit stuffing and a frame check (own profile)."""

import ctypes
from typing import List, NamedTuple, Optional

from . import _library as c
from . import constants
from .encode import Octets, check_range, octets_of

_KINDS = ('', 'message', 'other', 'damaged')
# How many octets the library gets at a time: what comes after a frame is copied.
_PIECE = 4096


class WireHeard(NamedTuple):
    """What the line says at a flag.

    `kind` is 'message', of a frame with one's own address and control octet; 'other', a frame of another, which is no damage;
    or 'damaged', what is between two flags and is no frame. `address`, `control` and `message`, of 1 to 773 octets, are those
    of the frame."""
    kind: str
    address: Optional[int] = None
    control: Optional[int] = None
    message: bytes = b''


def wire_frame(message: Octets, address: int = constants.WIRE_ADDRESS, control: int = constants.WIRE_CONTROL) -> bytes:
    """A frame as it goes over a line of octets, with both flags. Raises ValueError if the message does not have 1 to 773
    octets."""
    check_range(256, address, control)
    message, out = octets_of(message), (ctypes.c_uint8 * constants.WIRE_LONGEST)()
    count = c.library.fio2070_wire_write(address, control, message, len(message), out, len(out))
    if count == 0 or count > len(out):
        raise ValueError('a message has 1 to %d octets' % c.LONGEST_FRAME)
    return bytes(out[:count])


def wire_check(octets: Octets) -> int:
    """The frame check of octets, FCS-16 of RFC 1662 (CRC-16/X-25): a frame has its low octet first."""
    octets = octets_of(octets)
    return int(c.library.fio2070_wire_check(octets, len(octets)))


class _Decoder(c.Kept):
    """What both decoders do."""

    def __init__(self, address: Optional[int] = None, control: Optional[int] = None) -> None:
        """One's own frames have this address and this control octet; each is one's own if that is None."""
        check_range(256, *(number for number in (address, control) if number is not None))
        self._kept, self._heard = self._struct(), ctypes.c_uint8()
        self._call('start', *(constants.WIRE_ANY if number is None else number for number in (address, control)))

    def _read(self, octets: bytes) -> List[WireHeard]:
        heard: List[WireHeard] = []
        for start in range(0, len(octets), _PIECE):
            piece = octets[start:start + _PIECE]
            while piece:
                piece = piece[self._call('read', piece, len(piece), self._heard):]
                if self._heard.value:
                    heard.append(self._said(_KINDS[self._heard.value]))
        return heard

    def _said(self, kind: str) -> WireHeard:
        length = self._call('message_length')
        if length == 0:
            return WireHeard(kind)
        address, control, *message = self._kept.octets[:length + 2]
        return WireHeard(kind, address, control, bytes(message))


class Wire(_Decoder):
    """A decoder of a line of octets, such as a UART's, which takes them in pieces of any length."""
    _name, _struct = 'wire', c.CWire

    def read(self, octets: Octets) -> List[WireHeard]:
        """Takes the next octets of the line, and returns what they say, in order. What comes before the first flag says
        nothing."""
        return self._read(octets_of(octets))

    def lose(self) -> None:
        """An octet was lost, or came with a wrong parity or stop bit: what is under way is damaged, whatever its check says.
        Before the first flag nothing changes."""
        self._call('lose')


class WireBits(_Decoder):
    """A decoder of a line of bits, such as a logic analyser's with one bit a clock, which takes them in pieces of any length."""
    _name, _struct = 'wire_bits', c.CWireBits

    def read(self, line: Octets) -> List[WireHeard]:
        """Takes the next bits of the line, and returns what they say, in order. Each octet is a bit, its lowest: so the octets
        of a text of 0 and 1 serve too. What comes before the first flag says nothing."""
        return self._read(octets_of(line))
