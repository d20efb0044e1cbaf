"""What a line carried, as the page reads it: files of its octets and of its bits, frames with flags in lines and dumps, whose frames
are judged, a sample clock that is too fast."""

import os

from support import line_model as model
from support.loggers import hexdump, pairs, xxd
from support.opened import ARROWS, CELLS, choose, opened, pasted, words_in

MESSAGES = [bytes.fromhex(digits) for digits in ('3605', 'b605018c03e700000003e8', '367e', 'b67e0000000003e9', '3607', 'b6070000000003ea')]
ANSWER = bytes(5) + b'\1'
LINE = model.line_of(MESSAGES[0]) + b''.join(model.line_of(one)[1:] for one in MESSAGES[1:])
BITS = '0' + '1' * 20 + ''.join(model.bit_line_of(one) + '1' * 9 for one in MESSAGES)
BITS += '1' * (-len(BITS) % 8)


def packed(is_high_first):
    """Eight bits to an octet."""
    return bytes(int(BITS[place:place + 8][::1 if is_high_first else -1], 2) for place in range(0, len(BITS), 8))


def rows(browser):
    """The direction and the octets of each row, and what is said of it."""
    return [(row[2], row[5], row[4]) for row in browser.run(CELLS)]


DUE = [(ARROWS['<' if one[0] >= 128 else '>'], one.hex()) for one in MESSAGES]
# A name, the way that is chosen, and the file.
FILES = [
    ('octets', 'auto', b'\x00\xff\x05' + LINE), ('octets by order', 'line', LINE), ('a text of bits', 'auto', BITS.encode()),
    ('bits in lines', 'auto', '\n'.join(BITS[place:place + 20] for place in range(0, len(BITS), 20)).encode()),
    ('bits, one to an octet', 'auto', bytes(map(int, BITS))), ('bits in octets', 'bits', packed(False)), ('bits in octets, highest first', 'bits-high-first', packed(True)),
    ('a row', 'auto', pairs(LINE).encode()),
    ('rows of digits', 'auto', '\n'.join(LINE[place:place + 30].hex() for place in range(0, len(LINE), 30)).encode()),
    ('xxd', 'auto', '\n'.join(xxd(LINE)).encode()), ('hexdump -C', 'digits', '\n'.join(hexdump(LINE)).encode()),
    ('both sides', 'digits', '\n'.join('%s %s' % ('RX' if one[0] >= 128 else 'TX', part) for one in MESSAGES for part in (
        pairs(model.line_of(one)[:5]), pairs(model.line_of(one)[5:]))).encode()),
]


def check_files(check, browser, folder):
    """Each file has the messages, in order."""
    path = os.path.join(folder, 'line.bin')
    for title, way, file in FILES:
        with open(path, 'wb') as out:
            out.write(file)
        choose(browser, form=way)
        opened(browser, path)
        check.equal('%s of a line' % title, DUE, [row[:2] for row in rows(browser)])
    choose(browser, form='auto')
    with open(path, 'wb') as out:
        out.write(''.join(bit * 5 for bit in BITS).encode())
    opened(browser, path)
    check.holds('bits of five samples are reported', 'nearly all bits last 5 samples' in words_in(browser, '#no-log-passed'))
    pasted(browser, 'TX 3605\nRX b605000000000001\n')
    check.equal('a log is none of these', ['3605', 'b605000000000001'], [row[1] for row in rows(browser)])


def check_damage(check, browser, folder):
    """Damage is shown, and below it nobody is accused; frames of another address are shown, and not judged."""
    path = os.path.join(folder, 'damage.bin')
    poll, block = MESSAGES[:2]
    with open(path, 'wb') as out:
        out.write(model.line_of(poll) + model.line_of(b'\x36\x63', 0x15) + model.line_of(block) + model.line_of(b'\x36\x06')[:-1] + b'\x7d\x7e'
                  + model.line_of(b'\xb6\x06' + block[2:]))
    opened(browser, path)
    shown = [(row[3], row[4]) for row in browser.run(CELLS)]
    check.equal('what a damaged line says', [
        ('poll block 5', ''), ('3663', 'of address 15, control octet 83: not judged'), ('block 5 entries 1 status 00 stamp 1000', ''),
        ('', 'damaged: no frame with a right check'), ('block 6 entries 1 status 00 stamp 1000', '')], shown)
    said = words_in(browser, '#not-judged')
    check.holds('what of it is not judged', '1 frame with another address is not judged' in said and browser.run(
        'return document.getElementById("verdict").dataset.kind') != 'broken', said)
    for address, count in (('15', 1), ('1583', 1), ('1593', 0), ('any', 4)):
        choose(browser, form='line', address=address)
        opened(browser, path)
        got = [row for row in rows(browser) if row[1]]
        check.equal('the messages of the address %s' % address, count, len(got))
    with open(path, 'wb') as out:
        out.write(b''.join(map(model.line_of, (MESSAGES[0], b'\xb6\x05' + ANSWER, b'\x36\x06'))) + model.line_of(b'\xb6\x06' + ANSWER)[:-2] + b'\0\x7e' + model.line_of(b'\x36\x07'))
    for end in ('auto', 'cpu'):
        choose(browser, form='line', address='14', end=end)
        opened(browser, path)
        check.equal('the CPU goes on below a wrong check, taken at %s' % end, 'few', browser.run('return document.getElementById("verdict").dataset.kind'))
    choose(browser, form='auto', end='auto')


CHECKS = (check_files, check_damage)
