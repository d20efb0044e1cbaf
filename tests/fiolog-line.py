#!/usr/bin/env -S python3 -B
"""What a line carried, as `fiolog` reads it, beside the model of the line: files of its octets and of its bits, hostile ones too;
what a file is by its beginning; frames with flags, address or check in lines and dumps of a log; whose frames are judged; a wrong check; a
sample clock that is too fast. However the octets come, the events are the same. Last line: `N passed, M failed`."""

import random
import tempfile
import textwrap

from support import line_model as model
from support.check import Check
from support.fiolog import fiolog, use_library, written
from support.frames import random_message
from support.hostile_lines import hostile_bits, hostile_line
from support.kinds import LITTLE
from support.loggers import LOGGERS, hexdump, pairs, rows_of, xxd
from support.sessions import random_session, timed

POLL, BLOCK = bytes.fromhex('3605'), bytes.fromhex('b605018c03e700000003e8')
NEXT = bytes.fromhex('3606')
IDLE, FLAG = '1' * 15, bytes([model.FLAG])
KINDS = {'frames': model.MESSAGE, 'bad': model.MESSAGE, 'other': model.OTHER, 'damaged': model.DAMAGED}


def said_of(events):
    """What events say, in the words of the model: the kind, and the message."""
    return [(KINDS[event.kind], event.octets) for event in events if event.kind in KINDS]


def due_of(said):
    """What the model says, in the same words."""
    return [(one.kind, one.message) for one in said]


def events_of(octets, size=1 << 20, **settings):
    """The events of a file that is read in pieces of this size."""
    from fiolog.reader import Reader
    reader, events = Reader(**settings), []
    for start in range(0, len(octets), size):
        events += (event for batch in reader.feed(octets[start:start + size]) for event in batch.events())
    return events + [event for batch in reader.end() for event in batch.events()]


def packed(bits, is_high_first=False):
    """Eight bits to an octet, the lowest first unless the highest is."""
    bits += '1' * (-len(bits) % 8)
    return bytes(int(bits[place:place + 8][::1 if is_high_first else -1], 2) for place in range(0, len(bits), 8))


def hostile_octets(dice, count):
    """The octets of hostile lines, one below the other."""
    return bytes(octet for _ in range(count) for octet in hostile_line(dice) if octet is not model.LOST)


# Files ------------------------------------------------------------------------------------------------------------------

def fault_of_octets(count):
    """Hostile lines of octets say what the model says, however they come and whosever frames are judged."""
    dice = random.Random(1)
    for _ in range(count):
        line, size = hostile_octets(dice, 40), dice.choice((1, 3, 100, 1 << 20))
        address, control = dice.choice(((0x14, 0x83), (0x15, 0x83), (None, None)))
        due = due_of(model.said(line, *(model.ANY if number is None else number for number in (address, control))))
        got = said_of(events_of(line, size, line='octets', address=[(address, control)]))
        if got != due:
            return line, got, due
    return None


def fault_of_bits(count):
    """Hostile lines of bits, as a text in lines of any length and as octets of either order."""
    dice = random.Random(2)
    for _ in range(count):
        bits = model.FLAG_BITS + ''.join(hostile_bits(dice) for _ in range(20))
        bits += '1' * (-len(bits) % 8)
        due, width = due_of(model.said_by_bits(bits)), dice.randrange(1, 100)
        text = '\n'.join(textwrap.wrap(bits, width))
        single = bytes(map(int, bits))
        for form, octets in (('bits', text.encode()), ('bits', single), ('bits', packed(bits)), ('bits-high-first', packed(bits, True))):
            got = said_of(events_of(octets, dice.choice((1, 7, 1 << 20)), line=form))
            if got != due:
                return form, bits, got, due
    return None


def stream(dice, count):
    """Messages of the link, one after the other, and the octets and bits of the line that carries them; some flags are shared."""
    messages = [random_message(dice) for _ in range(count)]
    octets, bits = FLAG, model.FLAG_BITS
    for message in messages:
        is_shared = dice.random() < 0.3
        octets += model.line_of(message)[is_shared:]
        bits += model.bit_line_of(message)[8 * (is_shared and bits.endswith(model.FLAG_BITS)):] + '1' * dice.choice((0, 0, 9, 40))
    return messages, octets, bits


def fault_of_beginning(count):
    """A file is seen to be what a line carried, or a text, however its octets come."""
    dice = random.Random(3)
    for _ in range(count):
        messages, octets, bits = stream(dice, 30)
        noise = dice.choice((b'', b'\x00\xff', dice.randbytes(40).replace(FLAG, b''), model.line_of(POLL)[4:-1], b'6\n'))
        log = ''.join('%s %s\n' % ('RX' if one[0] >= 128 else 'TX', one.hex()) for one in messages)
        for name, file, settings in (
                ('octets', noise + octets, {'line': 'octets'}), ('bits', bits.encode(), {'line': 'bits'}),
                ('bits, one to an octet', bytes(map(int, bits)), {'line': 'bits'}),
                ('bits in lines', b'01\n' * 9 + bits.encode(), {'line': 'bits'}), ('a log', log.encode(), {}), ('a log below noise', b'\x00\xfe\x01\n' + b'connected to the port\n' + log.encode(), {})):
            whole = events_of(file, **settings)
            pieces = events_of(file, dice.choice((1, 5, 1000, 20_000)))
            if pieces != whole or len(said_of(whole)) < 9:
                return name, file, said_of(pieces), said_of(whole)
    return None


# Lines of a log ---------------------------------------------------------------------------------------------------------

# How the lines of a log write a frame of a line.
WAYS = {
    'flags, check and octet stuffing': lambda octets: pairs(model.line_of(octets)),
    'the same in digits': lambda octets: model.line_of(octets).hex(),
    'flags and check, as a synchronous line carries them': lambda octets: pairs(FLAG + model.with_check(b'\x14\x83' + octets) + FLAG),
    'a check without flags': lambda octets: pairs(model.with_check(b'\x14\x83' + octets)),
    'an address alone': lambda octets: pairs(b'\x14\x83' + octets),
    'an address alone, in words': lambda octets: ', '.join('0x%02x' % octet for octet in b'\x14\x83' + octets),
    'pieces of seven octets': lambda octets: '\n'.join(('RX ' if octets[0] >= 128 else 'TX ') + pairs(row) for row in rows_of(model.line_of(octets), 7))[3:],
}


def check_lines(check):
    """Frames with flags, address or check are read by themselves, in lines of a log."""
    for count in (20, 300):
        session = timed(random_session(8, count))
        texts = {name: ''.join('%s %s\n' % ('RX' if octets[0] >= 128 else 'TX', write(octets)) for _, _, octets in session) for name, write in WAYS.items()}
        for name, text in {**texts, 'an analyser of a synchronous line': LOGGERS['SDLC'](session)}.items():
            check.equal('%d frames in lines: %s' % (len(session), name), [octets for _, _, octets in session],
                        [octets for _, octets in said_of(events_of(text.encode()))])
    done = fiolog('decode', '-q', '--like', 'TX 7E 14 83 36 01 E0 5D 7E', text='TX 7E 14 83 36 05 C4 1B 7E\n')
    check.equal('a frame in a line, by a sample', ['1:     > poll block 5'], done.out.splitlines())
    for size in (1, 5, 100):
        check.equal('lines that end with CR, in pieces of %d' % size, ['one of them', 'the other'],
                    [event.text for event in events_of(b'one of them\rthe other\r', size)])


def dumps(octets, dice):
    """Dumps of octets: with offsets and characters, in digits alone, and in rows of any length."""
    width = dice.randrange(1, 40)
    yield 'xxd', '\n'.join(xxd(octets))
    yield 'hexdump -C', '\n'.join([*hexdump(octets), '%08x' % len(octets)])
    yield 'xxd -p', '\n'.join(row.hex() for row in rows_of(octets, 30))
    yield 'rows', '\n'.join(map(pairs, rows_of(octets, width)))
    yield 'offsets alone', '\n'.join('%04X  %s' % (place, pairs(octets[place:place + 8])) for place in range(0, len(octets), 8))
    yield 'below a heading', 'TX %d bytes\n' % len(octets) + '\n'.join(hexdump(octets))


def fault_of_dumps(count):
    """A dump of a line has its frames."""
    dice = random.Random(4)
    for _ in range(count):
        messages, octets, _ = stream(dice, 40)
        for name, text in dumps(octets, dice):
            got = said_of(events_of(text.encode() + b'\n', dice.choice((1, 50, 1 << 20))))
            if got != [(model.MESSAGE, message) for message in messages]:
                return name, text, got
    return None


# What is said -----------------------------------------------------------------------------------------------------------

def check_others(check, folder):
    """The frames of another address are shown and counted, and nobody is accused for them; `--address` names whose are judged."""
    line = b''.join(model.line_of(message, address) for message, address in (
        (POLL, 0x14), (b'\x36\x63', 0x15), (BLOCK, 0x15), (BLOCK, 0x14), (b'\x36\x64', 0x15), (NEXT, 0x14)))
    path = written(folder, 'others', line)
    done = fiolog('check', path)
    check.equal('frames of others accuse nobody', (0, 'frames 3, polls 2, repeats 0, answers lost 1, gap marks 0, breaches 0'),
                (done.status, done.out.splitlines()[1]))
    check.equal('and are counted', 'not judged: 3 frames of other addresses', done.out.splitlines()[2])
    check.holds('and said', '3 frames of address 15, control octet 83: not judged (--address)' in done.err, done.err)
    for name, count in (('in JSON', 1), ('of two logs', 2)):
        check.equal(name, 3 * count, fiolog('check', '--json', *[path] * count).summary()['not_judged']['frames_of_others'])
    check.holds('and not counted', 'not counted: 3 frames of other addresses' in fiolog('stats', path).out)
    shown = fiolog('decode', path).out.splitlines()
    check.equal('and shown', '2:     > poll block 99  of address 15, control octet 83: not judged', shown[1])
    check.equal('and not converted', 3, len(fiolog('convert', '--to', 'frames', path).out.splitlines()))
    for address, count in (('14', 3), ('15', 3), ('1583', 3), ('1582', 0), ('any', 6), ('aa', 0)):
        rows = fiolog('decode', '--json', '--address', address, path).objects()
        check.equal('--address %s' % address, (6, 6 - count), (sum('octets' in row for row in rows), sum('other' in row for row in rows)))
    for word in ('5', '12345', 'x4', '', '0x14'):
        check.equal('--address %r' % word, 2, fiolog('decode', '--address', word, path).status)
    check_addresses(check, folder)


def check_addresses(check, folder):
    """`--address` takes frames of one or several addresses in every way of reading that has them, and is refused in any other; two stations
    of one log, each with its verdict."""
    stations = (0x14, 0), (0x15, 40)
    lines = [(side, model.line_of(octets, address)) for number in range(8) for address, first in stations
             for side, octets in (('TX', bytes((0x36, first + number))), ('RX', bytes((0xb6, first + number, 0, 0, 0, 0, 4, number))))]
    path = written(folder, 'stations', ''.join('%s %s\n' % (side, pairs(octets)) for side, octets in lines))
    for words in (['--format', 'transcript'], ['--format', 'frames'], ['--pattern', '(?P<octets>.*)']):
        done = fiolog('check', *words, '--address', '14', path)
        check.equal('--address is refused, with %s' % words, (2, '', True), (done.status, done.out, 'have no address' in done.err))
    check.equal('--address is refused by live --udp', 2, fiolog('live', '--udp', '1', '--address', '14').status)
    for words, count in ((['14'], 16), (['15'], 16), (['14,1583'], 32), (['14', '--address', '15'], 32), (['any'], 32), (['1593'], 0)):
        rows = fiolog('decode', '--json', '--address', *words, path).objects()
        check.equal('decode --address %s' % ' '.join(words), (count, 32 - count),
                    (sum('other' not in row for row in rows), sum('other' in row for row in rows)))
        done = fiolog('check', '-q', '--address', *words, path)
        check.equal('check --address %s' % ' '.join(words), (0 if count else LITTLE, [str(count)][:count]), (done.status, done.found(r'frames (\d+)')[:1]))
    said = 'frames 16, polls 8, repeats 0, answers lost 0, gap marks 0, breaches 0'
    done = fiolog('check', '-q', path)
    check.equal('two stations of one log', (0, ['address 14: ' + said, 'address 15: ' + said], ''), (done.status, done.out.splitlines()[3:], done.err))
    check.equal('and in JSON', ['14', '15'], list(fiolog('check', '--json', path).summary()['stations']))
    rows = fiolog('decode', '--json', path).objects()
    check.equal('addresses in JSON', [('14', '83'), ('15', '83')] * 8, [(row['address'], row['control']) for row in rows[::2]])


def check_damaged(check, folder):
    """A frame with a wrong check accuses nobody, wherever the log was taken: a command, or an answer."""
    frames = [model.line_of(octets) for number in range(5, 25) for octets in (bytes((0x36, number)), bytes((0xb6, number, 0, 0, 0, 0, 0, number)))]
    for place in (24, 25):
        struck = [frame[:4] + bytes([frame[4] ^ (number == place)]) + frame[5:] for number, frame in enumerate(frames)]
        lines = ''.join('%s %s\n' % (('TX', 'RX')[number % 2], pairs(frame)) for number, frame in enumerate(struck))
        for at in ('cpu', 'module', 'bus'):
            for name, words, text in (('octets', ['--line', 'octets'], b''.join(struck)), ('lines', [], lines)):
                done = fiolog('check', '-q', '--at', at, *words, written(folder, 'struck', text))
                check.equal('a wrong check in %s, of frame %d, at %s' % (name, place, at), (0, [], 1), (done.status, done.found('^line .*'), done.out.count('1 damaged line')))


def check_sampled(check, folder):
    """Bits that are several samples long are reported; so is another order of bits."""
    _, _, bits = stream(random.Random(5), 20)
    for samples in (2, 3, 4, 6, 8, 10):
        done = fiolog('check', written(folder, 'fast', ''.join(bit * samples for bit in bits).encode()))
        check.equal('%d samples a bit' % samples, (LITTLE, True),
                    (done.status, 'nearly all bits last %d samples or more: the sample clock is faster' % samples in done.err))
    # A first run and a last one may be cut: 16 others show how long a bit is, and one that is above all is the idle line.
    for runs, is_shown in ((19, True), (18, False)):
        done = fiolog('check', '--line', 'bits', written(folder, 'short', ''.join('01'[place % 2] * 3 for place in range(runs)).encode()))
        check.equal('%d runs of a fast clock' % runs, (LITTLE, is_shown), (done.status, 'nearly all bits last 3 samples' in done.err))
    dice = random.Random(6)
    noisy = ''.join(bit * dice.choice((4, 5)) + ('1' if dice.random() < 0.005 else '') for bit in bits)
    done = fiolog('check', written(folder, 'uneven', b'1' * 40_000 + noisy.encode()))
    check.holds('four or five samples a bit, with noise, below a pause', 'nearly all bits last 4 samples' in done.err, done.err)
    path = written(folder, 'high', packed(bits, True))
    for form, status in (('bits', LITTLE), ('bits-high-first', 0)):
        done = fiolog('decode', '--line', form, path)
        check.equal('highest bit first, read as %s' % form, (status, bool(status)), (done.status, 'try the other order' in done.err))
    done = fiolog('decode', path)
    check.equal('bits in octets are not seen without an order', (LITTLE, True), (done.status, 'if it is what a line carried, see --line' in done.err))
    done = fiolog('decode', '--line', 'octets', written(folder, 'noise', bytes(range(200))))
    check.equal('octets without a frame', (LITTLE, True), (done.status, 'no frame with a right check in the octets of this line' in done.err))
    for words in (['--pattern', '(?P<octets>.*)'], ['--format', 'frames']):
        check.equal('--line and %s' % words[0], 2, fiolog('decode', '--line', 'bits', *words, path).status)


def check_files(check, folder):
    """Files of a line, by the command line; a mark of a text's order of octets is noise there."""
    messages, octets, bits = stream(random.Random(7), 60)
    due = [message.hex() for message in messages]
    for name, file, words in (
            ('octets', octets, []), ('octets by order', octets, ['--line', 'octets']),
            ('a line that begins with ff fe', b'\xff\xfe' + octets, ['--line', 'octets']),
            ('a text of bits', bits.encode(), []), ('bits by order', packed(bits), ['--line', 'bits'])):
        done = fiolog('convert', '-q', '--to', 'frames', *words, written(folder, 'file', file))
        check.equal('a file of %s' % name, due, [line for line in done.out.splitlines() if line])
    from fiolog.summary import summary_of
    check.equal('a summary', len(messages), summary_of(iter([octets])).counts.frames)
    check.equal('a summary of bits', len(messages), summary_of(iter([packed(bits)]), line='bits').counts.frames)


def main():
    check = Check(count=(20, 60, 200))
    use_library(check, 'what a line carried')
    count = check.given.count
    check.fault('hostile lines of octets', fault_of_octets, count)
    check.fault('hostile lines of bits', fault_of_bits, count)
    check.fault('what a file is', fault_of_beginning, count)
    check.fault('dumps', fault_of_dumps, count)
    check_lines(check)
    with tempfile.TemporaryDirectory() as folder:
        for part in (check_others, check_damaged, check_sampled, check_files):
            part(check, folder)
    check.end()


main()
