#!/usr/bin/env -S python3 -B
"""What the library counts of a log's frames, beside a model that counts whole lists, and beside the counts of `fiolog`: on the logs
of examples/, and on random logs in which frames are lost. Last line: `N passed, M failed`."""

import random
from collections import Counter
from pathlib import Path
from typing import NamedTuple, Optional

from support.check import Check
from support.fiolog import use_library, verdicts_on
from support.sessions import spells
from support.tables import TOP

POLL, BLOCK, STATUS, ANSWER = 54, 182, 177, 128
LOST, AGAIN, RESET = 4, 2, 128
NUMBERS = ('frames', 'polls', 'repeats', 'unanswered', 'marks', 'entries', 'restarts', 'types', 'inputs', 'fills', 'waits', 'reset',
           'first_reset')


class Line(NamedTuple):
    """A line of a log: its octets, None if a frame may be lost; and its time in microseconds."""
    octets: Optional[bytes]
    time: Optional[int] = None


# ---- The model ----

def pairs(places):
    return zip(places, places[1:])


def waits(log, place, end):
    """Whether a poll is neither answered nor passed over above the line `end`."""
    return not any(one.octets is None or spells(one.octets) and one.octets[0] == BLOCK for one in log[place + 1:end])


def time_taken(log, place):
    """How long the module took for the answer there, None if that is not known."""
    answer = log[place]
    asked = next((at for at in reversed(range(place)) if log[at].octets is None or log[at].octets and spells(log[at].octets)
                  and (log[at].octets[0] < ANSWER or log[at].octets[0] == answer.octets[0])), None)
    if asked is None or not log[asked].octets or log[asked].octets[0] != answer.octets[0] - ANSWER:
        return None
    times = log[asked].time, answer.time
    return None if None in times or times[1] < times[0] else times[1] - times[0]


def by_model(log):
    """What is counted of a log, and the times that its answers took, in order."""
    messages = [place for place, line in enumerate(log) if line.octets is not None and spells(line.octets)]
    of_type = {code: [place for place in messages if log[place].octets[0] == code] for code in range(256)}
    commands = [place for place in messages if log[place].octets[0] < ANSWER] + [None]
    number = [log[place].octets[1] for place in of_type[POLL]]
    ends = [below for place, below in pairs(commands) if log[place].octets[0] == POLL]
    polls = [waits(log, place, below) for place, below in zip(of_type[POLL], ends)]
    blocks = [log[place].octets for place in of_type[BLOCK]]
    once = blocks[:1] + [one for above, one in pairs(blocks) if not (one[-5] & AGAIN and one[1] == above[1])]
    resets = [log[place].octets[1] >= RESET for place in of_type[STATUS]]
    is_last = bool(ends) and ends[-1] is None
    taken = [time_taken(log, place) for place in messages if log[place].octets[0] >= ANSWER]
    inputs = Counter(one[3 + 3 * entry] & 127 for one in once for entry in range(one[2]))
    return {'frames': sum(line.octets is not None for line in log), 'polls': len(number),
            'repeats': sum(one == other for one, other in pairs(number)), 'unanswered': sum(polls) - (is_last and polls[-1]),
            'marks': sum(bool(one[-5] & LOST) for one in once), 'entries': sum(inputs.values()),
            'restarts': sum(one and not above for above, one in pairs(resets)),
            'types': Counter(log[place].octets[0] for place in messages), 'inputs': inputs, 'fills': Counter(one[2] for one in once),
            'waits': is_last and polls[-1], 'reset': resets[-1] if resets else None, 'first_reset': resets[0] if resets else None}, \
        [time for time in taken if time is not None]


# ---- What counts ----

def by_library(log):
    import fio2070
    counts, taken = fio2070.LogCounts(), []
    for line in log:
        if line.octets is None:
            counts.lose()
        else:
            taken.append(counts.frame(line.octets, line.time))
    return {name: getattr(counts, name) for name in NUMBERS}, [time for time in taken if time is not None]


def by_fiolog(log):
    from fiolog.batch import made_of
    from fiolog.event import DAMAGED, SINCE_START, Line as Event, frame_of
    from fiolog.counts import NUMBERS as COUNTED, TABLES, Counts
    counts = Counts()
    events = [Event(number, DAMAGED) if line.octets is None else
              frame_of(number, line.octets, time=None if line.time is None else line.time / 1e6, time_kind=SINCE_START)
              for number, line in enumerate(log, 1)]
    for batch in made_of(events):
        counts.take(batch)
    found = {name: getattr(counts, name) for name in (*COUNTED, *TABLES)}
    found.update(waits=counts.waits, first_reset=counts.first_reset, reset=counts.reset)
    return found, list(counts.responses.kept)


def difference(log):
    """What is not the same of a log."""
    counted = by_library(log)
    for name, other in (('the model', by_model), ('fiolog', by_fiolog)):
        if other(log) != counted:
            return name, other(log), counted
    return None


# ---- Logs ----

def log_of(data):
    """The lines of a log as the reader finds them."""
    for verdict in verdicts_on(data):
        yield from [Line(octets, verdict.time) for octets in verdict.frames] if verdict.kind == 'frames' else \
            [Line(None)] * (verdict.kind == 'damaged')


def random_log(draw):
    """The frames of links, one after another, with times; some frames are lost, come twice or are cut, and some lines have no time."""
    from support.links import QUESTIONS, Kind, Link
    log, now = [], draw.randrange(1 << 40)
    for _ in range(draw.randrange(1, 4)):
        kind = Kind(draw.randrange(2, 60), draw.randrange(1, 64), draw.random() ** 3, 3, draw.random() / 4, draw.random() / 4,
                    asks=draw.random() / 2, questions=QUESTIONS, per_block=draw.choice((1, 20, 255)), waiting=draw.choice((4, 1024)))
        for _, octets in Link(draw, kind).frames:
            now += draw.choice((0, 40, 3_200, 100_000)) - draw.choice((0,) * 20 + (50_000,))
            octets = octets[:-1] if draw.random() < 0.03 else octets
            log += [Line(bytes([STATUS, draw.choice((0, 1, RESET)), *range(6)]), now)] * (draw.random() < 0.03)
            log += [Line(octets, now if draw.random() < 0.9 else None)] * draw.choice((1,) * 20 + (0, 2)) + [Line(None)] * (draw.random() < 0.05)
    return log


def fault_of_random_logs(count):
    draw, totals = random.Random(7), Counter()
    for number in range(count):
        log = random_log(draw)
        found = difference(log)
        if found:
            return number, found
        counted, taken = by_library(log)
        totals.update({name: counted[name] for name in NUMBERS[:7]}, times=len(taken))
    return [name for name in (*NUMBERS[:7], 'times') if totals[name] < count // 5]


def main():
    check = Check(logs=(300, 1200, 5000))
    use_library(check, 'what is counted of a log')
    frames = 0
    for path in sorted(path for form in ('*.transcript', '*.frames', 'captures/*.txt') for path in Path(TOP, 'examples').glob(form)):
        log = list(log_of(path.read_bytes()))
        frames += sum(bool(line.octets) for line in log)
        check.fault(path.name, difference, log)
    check.holds('frames of examples', frames > 100, frames)
    check.fault('random logs', fault_of_random_logs, check.given.logs)
    check.end()


main()
