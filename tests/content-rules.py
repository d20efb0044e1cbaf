#!/usr/bin/env -S python3 -B
"""The rules on content as the library has them, on random links (`support/links.py`). Right links are accused in no log, from
any command on or from the start of both ends. On right logs, and on logs with a fault, verdicts are those of the independent
model in `support/content.py`. How many single faults are found is what the table of docs/TESTS.md says; `--write` writes the
table. Last line: `N passed, M failed`."""

import random
from collections import Counter

from support.check import Check
from support.content import Record
from support.faults import FAULTS, earlier, transcript, with_bit, with_fault
from support.fiolog import use_library


def varied(draw):
    """A link of any kind."""
    from support.links import Kind, Link, QUESTIONS
    per_block, waiting = draw.choice(((255, 1024), (20, 60), (6, 24), (2, 24)))
    return Link(draw, Kind(
        commands=draw.choice((20, 60)), inputs=draw.choice((1, 2, 3, 6)), change=draw.choice((0.02, 0.05, 0.1, 0.3)),
        longest=draw.choice((1, 3, 6, 255)), lost=draw.choice((0.1, 0.4)), unheard=draw.choice((0.1, 0.5)),
        configures=draw.choice((0, 0.08, 0.2)), loads=draw.choice((0, 0, 0.05)), asks=draw.choice((0.1, 0.3)), questions=QUESTIONS,
        pauses=draw.choice((0, 0, 0, 0, 0.02)), per_block=per_block, waiting=waiting))


def marks_of(frames):
    """What a log has that the rules are about."""
    for sent, octets in frames:
        if sent:
            yield octets[0]
        elif octets[0] == 182:
            yield from (name for bit, name in ((1, 'G'), (2, 'E'), (4, 'F'), (8, 'C')) if octets[-5] & bit)
    stamps = [int.from_bytes(octets[-4:], 'big') for sent, octets in frames if not sent and octets[0] == 182]
    yield from ('pause' for above, below in zip(stamps, stamps[1:]) if 1 << 16 <= below - above < 1 << 20)


def fault_of_right_links(beginnings):
    """No log of a right link is accused."""
    from support.links import check_breach, content_breach
    count, seen = 0, Counter()
    for seed in range(beginnings):
        link = varied(random.Random(seed))
        logs = [(True, link.frames), *((False, link.frames[place:]) for place in link.beginnings())]
        for begun, frames in logs:
            broken = check_breach(frames, begun, link.kind.per_block) or content_breach(frames, begun)
            if broken:
                return 'seed %d, begun %s, %s: %s' % (seed, begun, broken, transcript(frames))
        count += len(logs)
        seen.update(marks_of(link.frames))
        if count >= beginnings:
            break
    rare = {mark for mark in ('E', 'F', 'C', 'pause', 49, 50, 51, 52, 53, 54, 58) if seen[mark] < 3}
    return 'G' in seen or rare


def faulty_logs(link, draw):
    """Yields logs of the link that a fault is in, and what is left of them from a command on."""
    faulty = [with_fault(link.frames, fault, draw) or (link.frames, 0) for fault in (*FAULTS, earlier)]
    for frames, place in faulty + [with_bit(link.frames, draw) for _ in range(8)]:
        yield True, frames
        yield False, frames[draw.choice([at for at, (sent, _) in enumerate(frames) if sent and at <= place] or [0]):]


def verdict_of_model(frames, begun):
    """The line, the rule and the input of the first breach by the model, as `record` writes it."""
    return Record(transcript(frames), begun).breach


def verdict_of_library(frames, begun):
    """The same by the library."""
    import fio2070
    from support.links import content_breach
    found = content_breach(frames, begun)
    return found and 'line %d%s breaks %s\n' % (
        found[0] + 1, '' if found[2] is None else ' input %d' % found[2], fio2070.content_rule_text(found[1]))


def fault_of_model(count):
    """The library and the model agree on logs that keep the rules of `check`."""
    from support.links import check_breach
    draw, broken, judged = random.Random(2), Counter(), 0
    while judged < count:
        link = varied(draw)
        for begun, frames in [(True, link.frames), *faulty_logs(link, draw)]:
            if check_breach(frames, begun, link.kind.per_block):
                continue
            judged += 1
            due, got = verdict_of_model(frames, begun), verdict_of_library(frames, begun)
            if due != got:
                return 'begun %s: the model %r, the library %r: %s' % (begun, due, got, transcript(frames))
            broken[due and due.split()[-1]] += 1
    return None if len(broken) >= (12 if count >= 40_000 else 8) else broken


def check_found(check):
    """The table of what is found."""
    from support import found
    if not check.wants('what is found'):
        return
    logs, counted = found.count()
    rows = found.table_of(logs, counted)
    if check.given.write:
        found.TABLE.write(rows)
        print(found.HEAD + rows)
    check.equal('what is found can be found', [], found.fault_of_limits(counted))
    check.equal('what is found is what docs/TESTS.md says', rows, found.TABLE.shown())


def main():
    check = Check(write=False, beginnings=(2000, 20_000, 100_000), logs=(1000, 8000, 40_000))
    use_library(check, 'the rules on content')
    check.fault('right links', fault_of_right_links, check.given.beginnings)
    check.fault('the model', fault_of_model, check.given.logs)
    check_found(check)
    check.end()


main()
