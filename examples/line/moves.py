"""Moves of inputs, and whether a controller's table has each of them once.

All filters are equal, so the module logs transitions in the order of the moves; those of one millisecond in ascending order of
inputs. A table is a log in pieces: entries are missing only where a mark, `gap` or `restart`, says so."""

import itertools
import random
import time

ALL = 2 ** 64 - 1
# Each level lasts this many scans of the module at least: the filters take 5, however busy the machine is.
LEAST_SCANS = 12
PAUSE_S = 0.03


class Mover:
    """Moves inputs at random, and keeps what it did: `made` has each move as (time, input, state)."""

    def __init__(self, lines, seed=1):
        self.lines, self.dice, self.levels, self.made = lines, random.Random(seed), ALL, []
        # The scans of the module when each input was moved last, and when it was asked last.
        self.moved_at, self.scans = [0] * 64, 0

    def move(self, seconds):
        """Moves inputs for this time."""
        end = time.time() + seconds
        while time.time() < end:
            self.step()
            time.sleep(self.dice.uniform(0, PAUSE_S))

    def step(self):
        """Moves some inputs, all of them now and then."""
        now, scans = time.time(), self.lines.counts()['scans']
        if scans < self.scans:      # the module was restarted, and counts anew
            self.moved_at = [scans] * 64
        chosen = sorted(self.dice.sample(range(64), self.dice.choice((1, 1, 2, 5, 64))))
        chosen = [one for one in chosen if scans - self.moved_at[one] > LEAST_SCANS]
        for one in chosen:
            self.levels ^= 1 << one
        self.lines.inputs(self.levels)
        self.scans = self.lines.counts()['scans']
        for one in chosen:
            self.moved_at[one] = self.scans
            self.made.append((now, one, self.levels >> one & 1))


def pieces_of(rows):
    """The rows between marks, each piece in groups of one millisecond."""
    for is_mark, piece in itertools.groupby(rows, lambda row: row['wide'] == ''):
        if not is_mark:
            yield [[(int(row['input']), int(row['state'])) for row in group]
                   for _, group in itertools.groupby(piece, lambda row: row['wide'])]


def in_common(due, start, piece):
    """How many rows of a piece are what was due from an index on, up to the first group that is not."""
    count = 0
    for group in piece:
        if sorted(due[start + count:start + count + len(group)]) != sorted(group):
            break
        count += len(group)
    return count


def fault_of(moves, rows):
    """What is wrong in a table; None if each move is in it once, or is missing at a mark."""
    due, place = [(one, state) for _, one, state in moves], 0
    is_behind_mark = bool(rows) and rows[0]['wide'] == ''
    for piece in pieces_of(rows):
        length, starts = sum(map(len, piece)), range(place, len(due) if is_behind_mark else place + 1)
        start = next((start for start in starts if in_common(due, start, piece) == length), None)
        if start is None:
            found = place + max(in_common(due, start, piece) for start in starts)
            return 'about move %d the table does not have the moves, or not each once' % found
        place, is_behind_mark = start + length, True
    if place < len(due) and not (rows and rows[-1]['wide'] == ''):
        return 'the last %d moves are missing' % (len(due) - place)
    return None


def lateness(moves, rows):
    """The time in the table less that of the move in milliseconds: the least, the median and the most. The table has each move."""
    # In one millisecond the order may be another than that of the moves.
    late = sorted(1000 * (float(row['time']) - at) for (at, _, _), row in zip(moves, rows))
    return late[0], late[len(late) // 2], late[-1]
