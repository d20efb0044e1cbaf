"""What rows of tests/rows.json cannot say: calls in loops. Each yields what does not hold."""

import ctypes
import re

from c_calls import GUARD, Memory
from c_header import NUMBERS, STRUCTS

BLOCK = bytes.fromhex('b605018c03e700000003e8')


def types(run):
    """Each type of a message, and no other number, is written."""
    for code in range(256):
        for way, first in (('command', NUMBERS['TYPE_STATUS']), ('answer', NUMBERS['TYPE_STATUS'] + NUMBERS['TYPE_ANSWER'])):
            said = run.call('encode_' + way, 'code', str(code), 'room', '0')
            if (said == 'no message') == (first <= code <= first + 11):
                yield 'FAILED %s %d: %s' % (way, code, said)


def overflow(run):
    """1,280 transitions, 64 a scan: the latest ones wait, as far as there is room. The first block says whether some were pushed
    out, each but the last that more wait, and each begins with the oldest entry that remains."""
    for room in (1, 2, 63, 64, 100, 255, 256, 1024, 1279, 1280, 1281, 3000):
        run.call('sized_module_start', '2', str(room), '255')
        run.call('sized_module_receive', '3340' + ''.join('%02x0101' % place for place in range(64)))
        for scan in range(20):
            run.call('sized_module_scan', '~0' if scan % 2 else '0')
        waiting = ['%02x%04x' % (place % 64 | (0x80 if place // 64 % 2 else 0), place // 64 + 1) for place in range(1280)][-room:]
        blocks = [waiting[at:at + 255] for at in range(0, len(waiting), 255)]
        for place, block in enumerate(blocks):
            status = 8 * (place < len(blocks) - 1) + 4 * (place == 0 and room < 1280)
            due = 'b6%02x%02x%s%02x00000014' % (place, len(block), ''.join(block), status)
            if run.call('sized_module_receive', '36%02x' % place) != due:
                yield 'FAILED block %d of %d that wait' % (place, room)


def any_octets(run):
    """With any octets of a module, and any number of slots, each call returns, and none writes outside its arguments."""
    module, slot = STRUCTS['sized_module'], STRUCTS['slot']
    for fill in range(0, 256, 5):
        for count in range(4):
            run.kept['sized_module'], run.slots = Memory(module), Memory(slot, count)
            run.kept['sized_module'].octets[GUARD:-GUARD] = bytes([fill]) * ctypes.sizeof(module)
            for name, *words in (('scan', '~0' if fill % 2 else '0'), ('receive', '3600'), ('state',)):
                said = run.call_once('sized_module_' + name, words)
            waiting = int((re.findall(r'waiting (\d+)', said) or [0])[0])
            if not run.slots.is_unwritten(count) or waiting > run.kept['sized_module'].values[0].waiting:
                yield 'FAILED %d slots: %d wait' % (count, waiting)


def next_log(run):
    """After its end no octets of a log are taken until each verdict is given; then they begin a new log of the same form."""
    text, batch = b'# first\n3605\n36'.hex(), lambda: [(one.line, one.kind) for one in kept.verdicts[:kept.verdict_count]]
    run.call('log_start', '1')
    for _ in range(3):
        taken = run.call('log_read', text)
        kept = run.kept['log_batch'].values[0]
        found = [taken, batch()]
        run.call('log_end')
        for octets in (text, ''):
            found += [run.call('log_read', *filter(None, [octets])), batch()]
        if found != ['15', [(1, 0), (2, 1)], '', [(3, 4)], '', []]:
            yield 'FAILED the next log: %s' % found


def ends_with_verdicts_due(run):
    """The lines that wait until the log shows its form have their verdicts at once, and a batch is full wherever it is in a log, whose
    last line may wait. No frame is lost."""
    for end in ('', '\n'):
        for blank in range(4077, 4089):
            lines = ['RX b6 %02x 00 00 00 00 00 01\n' % line for line in range(13)]
            text = ''.join(lines[:8] + ['\n'] * blank + lines[8:]).rstrip('\n') + end
            text, frames, taken = text.encode(), 0, 0
            run.call('log_start', '0')
            while taken < len(text):
                taken += int(run.call('log_read', text[taken:].hex()) or 0)
                frames += run.kept['log_batch'].values[0].frame_count
            run.call('log_end')
            while run.call('log_read') or run.kept['log_batch'].values[0].verdict_count:
                frames += run.kept['log_batch'].values[0].frame_count
            if frames != len(lines):
                yield 'FAILED %d frames below %d lines' % (frames, blank)


LOOPS = [types, overflow, any_octets, next_log, ends_with_verdicts_due]
