"""Hostile lines: frames of the model of the line, some struck, with shared flags, escapes, noise, aborts and losses."""

from support import line_model as model

# Octets and bits that begin and break flags, escapes and runs of ones.
OCTETS = (0x7e, 0x7d, 0x5e, 0x5d, 0x20, 0x3f, 0x1f, 0xf8, 0xff, 0, 0x14, 0x83, 0x36)


def messages(dice, count):
    """Messages, most of them short and full of what is stuffed, some of the greatest length."""
    for _ in range(count):
        length = dice.choice((1, 1, 2, 3, 8, 20, 773)) if dice.random() < 0.02 else dice.randrange(1, 9)
        yield bytes(dice.choice(OCTETS) if dice.random() < 0.7 else dice.randrange(256) for _ in range(length))


def sent(dice, message, write):
    """A frame of one's own or of another."""
    return write(message, *dice.choice(((0x14, 0x83), (0x14, 0x83), (0x15, 0x83), (0x7e, 0x7d), (0x14, 0x13))))


def hostile_line(dice):
    """A line of up to five pieces: frames, some struck, with shared flags, escapes, noise and losses between and in them."""
    line = []
    for message in messages(dice, dice.randrange(1, 6)):
        piece = list(sent(dice, message, model.line_of))
        if line[-1:] == [model.FLAG] and dice.random() < 0.4:
            piece = piece[1:]
        for _ in range(dice.choice((0, 0, 0, 1, 1, 2))):
            place = dice.randrange(len(piece))
            piece[place:place + dice.choice((0, 1, 1, 4))] = dice.choice((
                [], [model.FLAG], [model.ESCAPE], [model.ESCAPE, model.FLAG], [model.LOST], [dice.randrange(256)]))
            piece = piece or [model.FLAG]
        line += piece + dice.choice(([], [], [], [model.LOST], [0xff] * dice.randrange(6), [model.FLAG], [model.ESCAPE],
                                     dice.choices(OCTETS, k=dice.randrange(6)), [model.FLAG] + [0xff] * 4 + [model.FLAG]))
    return line


def hostile_bits(dice):
    """As `hostile_line`, of bits: flags that share a 0, runs of ones, aborts, bits that are flipped, lost or doubled."""
    line = ''.join(dice.choices('0111', k=dice.randrange(12)))
    for message in messages(dice, dice.randrange(1, 5)):
        piece = sent(dice, message, model.bit_line_of)
        if line[-1:] == '0' and dice.random() < 0.5:
            piece = piece[8:] if line.endswith(model.FLAG_BITS) and dice.random() < 0.5 else piece[1:]
        for _ in range(dice.choice((0, 0, 0, 1, 1, 2))):
            place = dice.randrange(len(piece))
            piece = piece[:place] + dice.choice(('', '0', '1', '11', '1' * 7, model.FLAG_BITS)) + piece[place + 1:]
        line += piece + dice.choice(('', '', '1' * dice.randrange(20), ''.join(dice.choices('01', k=dice.randrange(12)))))
    return line
