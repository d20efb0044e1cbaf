"""Logs of several stations of which it is known what is said of each: who is a station (docs/CAPTURES.md, Several stations), whose a line
is, and what is counted of whom. Each is written in parts, which are read one by one; a command and its answer are in one part."""

from typing import Dict, List, NamedTuple, Tuple

from support.line_model import line_of

FIRST, SECOND, ALL = 0x14, 0x15, 0xff


class Case(NamedTuple):
    """A log in parts. `rows` is what is said of each station in short, as `in_short` has it; `found` are the breaches and restarts, each as
    its line, its station and its rule; `missing` is what is not judged, by its reason, but for losses of sync and what is below them."""
    name: str
    parts: List[str]
    rows: Dict[str, dict]
    found: List[Tuple[int, str, str]] = []
    missing: Dict[str, int] = {}


def in_short(polls, answers=None, **numbers):
    """What is said of a station that polls so often: each poll is answered, or `answers` of them are."""
    answers = polls if answers is None else answers
    return {'frames': polls + answers, 'polls': polls, 'repeats': 0, 'answers_lost': polls - answers, 'gap_marks': 0, 'breaches': 0, **numbers}


def line(side, address, *octets):
    """A line of a frame with flags and check."""
    return '%s %s\n' % (side, line_of(bytes(octets), address).hex(' '))


def poll(address, number):
    """A line of a poll."""
    return line('TX', address, 54, number)


def block(address, number, stamp=None):
    """A line of a block without entries."""
    return line('RX', address, 182, number, 0, 0, *(number if stamp is None else stamp).to_bytes(4, 'big'))


def round_of(address, number, stamp=None):
    """Both lines."""
    return poll(address, number) + block(address, number, stamp)


def rounds(count, *addresses, first=0):
    """Rounds of these stations in turn, from this number on."""
    return [round_of(address, number) for number in range(first, first + count) for address in addresses]


def late_station():
    """The second station begins far below, with a number that is not due to the first one."""
    parts = rounds(80, FIRST)
    for number in range(20):
        parts += [round_of(SECOND, 7 + number), round_of(FIRST, 80 + number)]
    return Case('a station that begins late', parts, {'14': in_short(100), '15': in_short(20)})


def damaged_above():
    """A line is damaged while one station alone is known: the judge of the other one knows that, and it is counted once."""
    parts = rounds(20, FIRST)
    parts[9] = parts[9][:12] + '\n' + parts[9][parts[9].index('\n') + 1:]
    return Case('a damaged line above the second station', parts + rounds(8, SECOND, FIRST, first=20), {'14': in_short(27, 28, answers_lost=0), '15': in_short(8)},
                missing={'damaged_lines': 1})


def silent(frames):
    """The fourth command to a station that never answers is the last of this number of frames."""
    polls, is_known = (frames - 4) // 2, frames <= 4 * 64
    parts = [*(poll(SECOND, 0) for _ in range(3)), *rounds(polls, FIRST), poll(SECOND, 0)]
    rows = {'14': in_short(polls), **({'15': in_short(1, 0)} if is_known else {})}
    return Case('a silent station with 4 of %d frames' % frames, parts, rows, missing={'frames_of_others': 3 if is_known else 4})


def crossed(right):
    """One answer has another address than its command, and then this number have the same one."""
    parts = [poll(FIRST, 0) + block(SECOND, 0), *rounds(right, FIRST, first=1)]
    name, log = '1 of %d answers with another address' % (right + 1), [''.join(parts)]
    if right <= 8:
        return Case(name, log, {})
    return Case(name, log, {'14': in_short(right + 1, right, answers_lost=0)}, missing={'frames_of_others': 1})


def one_address():
    """All frames have one address: they are of one link, and of no station."""
    return Case('one address', rounds(12, FIRST), {})


def to_all():
    """A frame to all stations is judged for none, and none loses sync: what it has missed since is accused."""
    parts = [*rounds(9, FIRST, SECOND), line('TX', ALL, 49, 0), round_of(FIRST, 9), round_of(SECOND, 8)]
    return Case('a frame to all stations', parts, {'14': in_short(10), '15': in_short(10, repeats=1, breaches=1)},
                found=[(40, '15', 'advance')], missing={'frames_of_others': 1})


def more_in_line():
    """A line has a frame of one station, and the beginning of one more: it is damaged for the other station, and gives it no frame."""
    parts = rounds(9, FIRST, SECOND)
    both = parts[10].split('\n')
    parts[10] = '%s %s\n%s\n' % (both[0], poll(SECOND, 5).strip()[:-9], both[1])
    return Case('a line with a frame and more', parts, {'14': in_short(9), '15': in_short(9)}, missing={'lines_with_dropped_octets': 1})


def restarted():
    """The module of one station restarts: its stamps go back. Nobody is accused."""
    parts = rounds(9, FIRST, SECOND) + [round_of(FIRST, 9), round_of(SECOND, 9, 1), round_of(FIRST, 10), round_of(SECOND, 10, 2)]
    return Case('a restart', parts, {'14': in_short(11), '15': in_short(11, restarted=1)}, found=[(40, '15', 'restarted')])


def twice():
    """The answers of one station are there twice: it is not the log of one link, and is not judged."""
    parts = [round_of(FIRST, number) + round_of(SECOND, number) + block(SECOND, number) for number in range(12)]
    return Case('each answer of one station twice', parts, {'14': in_short(12), '15': in_short(12, frames=36)}, missing={'frames_of_another_kind': 36})


def without_address():
    """Lines of another form have no address: they are not those of the station with the address 0."""
    parts = []
    for number in range(16):
        said = '36 %02x' % number, 'b6 %02x 00 00 00 00 00 %02x' % (number, number)
        parts += ['TX 00 83 %s\nRX 00 83 %s\n' % said, 'TX 15 83 %s\nRX 15 83 %s\n' % said, 'sent: %s\nheard: %s\n' % said]
    return Case('frames without an address', parts, {'00': in_short(16), '15': in_short(16)}, missing={'frames_of_others': 32})


CASES = [late_station(), damaged_above(), silent(256), silent(258), crossed(8), crossed(9), one_address(), to_all(), more_in_line(), restarted(),
         twice(), without_address()]
