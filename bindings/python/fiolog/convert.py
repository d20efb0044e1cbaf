"""`fiolog convert`: the frames as a transcript for `fio2070 check`, as frames for `fio2070 show`, as a pcapng file for
Wireshark, or the blocks as a VCD file for viewers of waveforms."""

import contextlib
import sys

from fio2070.constants import BIT_LOST as LOST

from . import log, options, statuses
from .event import FRAME
from .captures import Writer
from .message import BLOCK, message_of
from .output import Refused, made
from .waveform import Block, draw


def add_arguments(parser):
    options.add_reading(parser)
    parser.add_argument('--to', choices=('transcript', 'frames', 'pcapng', 'vcd'), required=True)
    parser.add_argument('-o', '--output', metavar='FILE', help='where to (standard output)')
    parser.add_argument('--times', action='store_true', help='begin lines with their time in seconds')


def block_of(octets, broken=-1):
    """The block that octets spell, as it is drawn; `broken` is the index of its first entry that breaks a rule on content."""
    message = message_of(octets)
    return Block(message.fields['block'], message.fields['stamp'], bool(message.fields['status'] & LOST),
                 [(part['input'], part['state'], part['wide']) for part in message.parts], broken)


def write(option, frames, out):
    """Writes the frames in the form that was asked for."""
    if option.to == 'vcd':
        draw((block_of(event.octets) for event in frames if event.octets[0] == BLOCK), out)
        return
    writer = Writer(out) if option.to == 'pcapng' else None
    for event in frames:
        if writer:
            writer.add(event.time, event.direction, event.octets)
        else:
            time = '%.6f ' % event.time if option.times and event.time is not None else ''
            out.write('%s%s%s\n' % (time, event.direction + ' ' if option.to == 'transcript' else '', event.octets.hex()))


def run(option):
    """Converts the logs."""
    is_binary = option.to == 'pcapng'
    if option.to == 'vcd' and log.has_several(option):
        raise Refused('a VCD file has the blocks of one log: name one file, or --merge the files of one line')
    standard = contextlib.nullcontext(sys.stdout.buffer if is_binary else sys.stdout)
    with made(option.output, is_binary) if option.output else standard as out:
        read = log.Log(option, out.flush, writes=not option.output)
        write(option, (event for event in read.events() if event.kind == FRAME), out)
    return statuses.of_log(False, not read.summary())
