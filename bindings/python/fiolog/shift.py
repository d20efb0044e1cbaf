"""By how much the clocks of two files of one line differ, one of commands and one of answers (docs/CAPTURES.md, Two files of one
line). Frames are in the order of time, each as its time in microseconds and its octets."""

from bisect import bisect_left, bisect_right

from .message import POLL, TYPE_ANSWER

MICRO = 1_000_000
# What is near, and the shifts that are tried. The clocks differ if so many answers are not directly below their commands, which are near, and
# one in so many.
NEAR, LEAST, SHARE = 1 * MICRO, 3, 10
# The most frames of a file that are looked at.
FRAMES = 1 << 14
# The sign of two files that no one shift makes the log of one link.
CLOCKS = 'clocks'


def is_command(frame):
    """Whether a frame is a command."""
    return frame[1][0] < TYPE_ANSWER


def is_answer(command, answer):
    """Whether octets may be the answer to a command."""
    return answer[0] == command[0] + TYPE_ANSWER and (command[0] != POLL or answer[1:2] == command[1:2])


def are_apart(frames):
    """Whether the clocks differ."""
    commands = list(filter(is_command, frames))
    times, answers, aside, above = [time for time, _ in commands], 0, 0, b'\0'
    for frame in frames:
        time, octets = frame
        if is_command(frame):
            above = octets
            continue
        near = commands[bisect_left(times, time - NEAR):bisect_right(times, time + NEAR)]
        answers += 1
        aside += not is_answer(above, octets) and any(is_answer(command, octets) for _, command in near)
    return aside >= LEAST and SHARE * aside >= answers


def shifts(frames):
    """The shifts of the answers by which each is directly below its command: from each of them on up to the second number. First answers
    to no command that is there are left out."""
    commands = list(filter(is_command, frames))
    times, found = [time for time, _ in commands] + [float('inf')], None
    for time, octets in (frame for frame in frames if not is_command(frame)):
        near = range(max(bisect_left(times, time - NEAR) - 1, 0), min(bisect_right(times, time + NEAR), len(commands)))
        fits = [(max(times[at] - time, 1 - NEAR), min(times[at + 1] - time, NEAR)) for at in near if is_answer(commands[at][1], octets)]
        fits = [(first, end) for first, end in fits if first < end]
        if found is not None or fits:
            found = fits if found is None else _both(found, fits)
    return found or []


def _both(some, others):
    """Where two lists of ranges meet."""
    met = ((max(first, other), min(end, last)) for first, end in some for other, last in others)
    return [(first, end) for first, end in met if first < end]


def shift_of(frames):
    """The least shift of the answers, if one range of shifts fits; else None."""
    ranges = shifts(frames)
    if len(ranges) != 1:
        return None
    first, end = ranges[0]
    return first if first > 0 else end - 1 if end <= 0 else 0


def in_words(shift):
    """A shift in seconds, as milliseconds."""
    return '%g ms %s' % (abs(1000 * shift), 'later' if shift > 0 else 'earlier')
