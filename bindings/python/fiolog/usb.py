"""Packets of USB as the lines of a log: what a serial adapter sent and heard, as usbmon of Linux or USBPcap of Windows captured it.
tools/page/src/usb.js does the same."""

import re
import struct

# The link types of captures: usbmon with its short header and with its long one, and USBPcap.
USBMON, LONG_USBMON, USBPCAP = 189, 220, 249
LINKS = USBMON, LONG_USBMON, USBPCAP
BULK, TO_HOST = 3, 0x80
# Of an adapter of FTDI each packet begins with two octets: the modem's lines, of which the low four bits are always 1, and the state of its
# buffers, of which these bits are no fault. Packets have so many octets.
FTDI_LINES, FTDI_BUFFERS, FTDI_PACKETS = 1, 0x60, (64, 512)
# How what a line carries begins: with a type of a command or of an answer, or with a flag.
BEGINNINGS = (*range(49, 61), *range(177, 189), 0x7e)
# A line of usbmon's text: microseconds, whether a transfer begins or ends, its kind and direction, bus, device, and its octets.
TEXT = re.compile(rb'[0-9a-f]{8,16} (\d+) ([SCE]) ([CZIB])([io]):(?:(\d+):)?(\d+):\d+ \S+(?: (\d+)(?: = ([0-9a-f ]*))?.*)?\s*')


def _head_of(link, order, data):
    """The transfer of a packet, the endpoint, bus and device, whether it has data, how many octets these are in all, and those that are
    here; a struct.error if the packet ends before."""
    if link == USBPCAP:
        size, bus, device, endpoint, transfer, length = struct.unpack_from('<H15xHHBBI', data)
        is_of_data = (data[16] & 1 == 1) == (endpoint & TO_HOST != 0)
        return transfer, endpoint, (bus, device), is_of_data, length, data[size:size + length]
    kind, transfer, endpoint, device, bus, has_none, length, kept = struct.unpack_from(order + '8xBBBBHxB16xII', data)
    size = 48 if link == USBMON else 64
    struct.unpack_from('%dx' % size, data)
    is_of_data = has_none == 0 and (kind == ord('C')) == (endpoint & TO_HOST != 0)
    return transfer, endpoint, (bus, device), is_of_data, length, data[size:size + kept]


def _has_state(data):
    """Whether octets begin as a packet of FTDI does."""
    return len(data) >= 2 and data[0] & 15 == FTDI_LINES and data[1] & ~FTDI_BUFFERS == 0


class Adapters:
    """The adapters of a capture: which of them are of FTDI, as far as that is known."""

    def __init__(self):
        self._are_ftdi = {}

    def octets(self, link, order, data):
        """The adapter of a packet, and what it sent or heard there; None if the packet has none of that. A struct.error if the packet ends
        before that does."""
        transfer, endpoint, device, is_of_data, length, octets = _head_of(link, order, data)
        return device, self._carried(device, endpoint & TO_HOST, length, octets) if transfer == BULK and is_of_data else None

    def octets_of_text(self, found):
        """The same of a line of usbmon's text."""
        _, event, kind, way, bus, device, length, words = found.groups(b'')
        is_of_data, device = kind == b'B' and (event, way) in ((b'S', b'o'), (b'C', b'i')), (bus, device)
        return device, self._carried(device, way == b'i', int(length or 0), bytes.fromhex(words.decode().replace(' ', ''))) if is_of_data else None

    def _carried(self, device, is_heard, length, octets):
        """What an adapter sent or heard, of whose octets these are here; None if it was nothing."""
        if len(octets) < length:
            raise struct.error
        if octets and is_heard and self._is_ftdi(device, octets):
            octets = self._heard(octets)
        return octets or None

    def _is_ftdi(self, device, data):
        """Whether an adapter is of FTDI, by what it heard. An answer 177 and a command 49 may look like the state of one."""
        if device not in self._are_ftdi:
            is_sure = data[0] not in BEGINNINGS or data[2:3] and data[2] in BEGINNINGS
            if _has_state(data) and not is_sure:
                return False
            self._are_ftdi[device] = _has_state(data)
        return self._are_ftdi[device]

    @staticmethod
    def _heard(data):
        """What an adapter of FTDI heard: without the octets with which each packet begins."""
        short, long = FTDI_PACKETS
        size = short if _has_state(data[short:short + 2]) else long
        return b''.join(data[start + 2:start + size] for start in range(0, len(data), size))
