#!/usr/bin/env -S python3 -B
"""Compares the Wireshark dissector, as tshark runs it, with `show`: frames of the protocol's tables and random ones in each
way in which a capture carries them; the links between commands and answers of transcripts; frames for which `show` has no
line; the captures of hex2pcap; and what is between the flags of 2,000 hostile lines with the library. With `--all` more random frames
and lines, with `--release` ten times as many, and wrong dissectors, each of which has to be caught by the comparison that is named
with it. `tests/wireshark.py SEED COUNT` takes another seed and another number of random frames. Last line: `N passed, M failed`."""

import concurrent.futures
import os
import re
import shutil
import subprocess
import tempfile

from support.check import Check
from support.dissection import ENTRY, ITEM, fault_of_frame, fault_of_hostile_lines, fault_of_links, shown, spelled_element, values
from support.fiolog import may_use_library
from support.frames import example_transcripts, random_frames, random_transcripts, table_frames
from support.line_model import frame_check
from support.tables import TOP, can_simulate, output_of
from support.tshark import BARE, DISSECTOR, SDLC, WAYS, Tshark
from support.wrong_dissectors import WRONG_DISSECTORS

HEX2PCAP = os.path.join(TOP, 'tools', 'wireshark', 'hex2pcap')
NOT_WHOLE = 'frame not captured whole'
# Groups of elements: the name of an element, its fields, and the type of the frames that have them.
ITEMS, ENTRIES = ('item', ITEM, 51), ('entry', ENTRY, 182)
AFTER_255 = [bytes.fromhex(text) for text in ('36ff', 'b6ff000000000001', '3600', 'b600000000000002')]
# Frames, and which of them each filter of the README selects.
FILTERED = [bytes.fromhex(digits) for digits in '''3605 b605018c03e700000003e8 3606 3606 b6060002000003e9 3608
b6080001000003ea 3301400101 b301 b4ff1000000000000000000005 30 35 b609000c000003eb b605018c03e700000003e8'''.split()]
SELECTED = {
    'fio2070.lost || fio2070.gap': [6, 13],
    'fio2070.again || fio2070.repeated_poll': [4, 5],
    'fio2070.out_of_sequence': [7],
    'fio2070 && _ws.malformed': [11],
    'fio2070.entry.input == 12': [2, 14],
    'fio2070.inputs[1] & 0x10': [10],
    'fio2070.type.answer == 0 && !fio2070.response_in': [3, 11, 12],
    'fio2070.time > 0.01': [14],
    'fio2070.repeated_answer || fio2070.unasked': [10, 13, 14],
    'fio2070.refused || fio2070.bad_input': [8, 9],
}


class Cases:
    """What is compared with the lines of `show`, which are found once."""

    def __init__(self, seed, count, is_whole):
        self.tables = list(table_frames())
        self.frames = self.tables + random_frames(seed, count)
        self.shows = shown(self.frames)
        # Each transcript and each example is a run of tshark, which takes a third of a second to begin.
        self.some = slice(None, None, 1 if is_whole else 4)
        self.transcripts = [(frames, shown(frames)) for frames in
                            [AFTER_255, *random_transcripts(seed, 10 if is_whole else 4, 240), *list(example_transcripts())[self.some]]]


def fault_of_way(tshark, way, frames, shows):
    """The first difference of frames that come in one way, or None."""
    pairs = [(octets, lines) for octets, lines in zip(frames, shows) if len(octets) <= way.longest]
    rows = tshark.rows(way, [octets for octets, _ in pairs])
    if len(rows) != len(pairs):
        return '%d rows of %d' % (len(rows), len(pairs))
    return next(filter(None, (fault_of_frame(*pair, row) for pair, row in zip(pairs, rows))), None)


def fault_of_labels(tshark, frames, shows):
    """The first difference in the labels of the trees, which Wireshark cuts at 240 octets."""
    for octets, lines, labels in zip(frames, shows, tshark.trees(BARE, frames), strict=True):
        cut = 200 if len(lines[0]) > 200 else None
        if labels[:1] != [lines[0]] and labels[0][:200] != lines[0][:cut] or labels[1:] != lines[1:]:
            return 'tree of %s: %r' % (octets.hex()[:40], labels[:2])
    return None


def fault_of_nested(tshark, frames, shows, group, names, kind):
    """The first difference in the elements of a group, as JSON nests them in the frames of its type."""
    of_kind = [(octets, lines[1:]) for octets, lines in zip(frames, shows) if octets[0] == kind]
    found = tshark.nested(BARE, [octets for octets, _ in of_kind], group, names)
    for (octets, lines), elements in zip(of_kind, found, strict=True):
        if [spelled_element(names, element) for element in elements] != lines:
            return 'nested %ss of %s' % (group, octets.hex()[:40])
    return None


def fault_of_trees(tshark, frames, shows):
    """The first difference in the labels of the trees, and in nested elements."""
    return (fault_of_labels(tshark, frames, shows) or fault_of_nested(tshark, frames, shows, *ITEMS)
            or fault_of_nested(tshark, frames, shows, *ENTRIES))


def fault_of_transcripts(tshark, transcripts):
    """The first difference in the links of transcripts, which come in four of the ways in turn."""
    ways = [WAYS[name] for name in ('user link type by preference', 'SDLC by preference', 'UDP by Decode As',
                                    'upper PDU')]
    for place, (frames, shows) in enumerate(transcripts):
        fault = fault_of_links(frames, shows, tshark.rows(ways[place % 4], frames, ['-2']))
        if fault:
            return 'transcript %d, %s' % (place, fault)
    return None


def fault_of_edges(tshark, frames):
    """The first difference at frames for which `show` has no line: without octets, or not captured whole."""
    def infos(rows):
        return {(row['_ws.col.Info'], row['_ws.expert.message'], row['fio2070.response_to']) for row in rows}

    if infos(tshark.rows(BARE, frames, missing=1)) != {(NOT_WHOLE, NOT_WHOLE, '')}:
        return 'frames that lack an octet'
    if infos(tshark.rows(BARE, [b''])) != {('empty', 'empty', '')}:
        return 'a frame of no octet'
    for missing in (1, 2, 3):
        if infos(tshark.rows(SDLC, frames, missing=missing)) != {(NOT_WHOLE, NOT_WHOLE, '')}:
            return 'frames with a header that lack %d octets' % missing
    if infos(tshark.rows(SDLC, [b''])) != {('frame without a message', '', '')}:
        return 'a header and a frame check alone'
    return None


def fault_of_checks(tshark):
    """A frame with a wrong bit is marked, with the frame check that it has and the one that it should have."""
    good = SDLC.around(b'\x36\x05')
    bits = [1 << bit for bit in range(8 * len(good))]
    wrong = [(int.from_bytes(good, 'big') ^ bit).to_bytes(len(good), 'big') for bit in bits]
    rows = tshark.read(tshark.capture(BARE, wrong), ['-o', 'fio2070_sdlc.user:0'])
    expected = ['frame check %04x is not %04x' % (int.from_bytes(octets[-2:], 'little'),
                                                int.from_bytes(frame_check(octets[:-2]), 'little')) for octets in wrong]
    found = [[text for text in values(row, '_ws.expert.message') if text.startswith('frame check ')] for row in rows]
    return None if found == [[text] for text in expected] else 'frame checks: %r' % found[:3]


def fault_of_stations(tshark):
    """Two modules on one line: an answer belongs to the command with its address."""
    frames = [bytes.fromhex(text) for text in ('14833605aa55', '15833605aa55', '1483b6050000000003e8aa55',
                                               '1583b6050000000003e8aa55')]
    rows = tshark.read(tshark.capture(BARE, frames), ['-o', 'fio2070_sdlc.user:0', '-2'])
    found = [(row['fio2070.response_in'], row['fio2070.response_to']) for row in rows]
    return None if found == [('3', ''), ('4', ''), ('', '1'), ('', '2')] else 'stations: %r' % found


def fault_of_ends(tshark):
    """The columns say who sends and who hears, if the capture has no addresses."""
    rows = tshark.rows(BARE, [b'\x36\x05', b'\xb3\x00'])
    found = [(row['_ws.col.Source'], row['_ws.col.Destination']) for row in rows]
    return None if found == [('CPU', 'module'), ('module', 'CPU')] else 'columns: %r' % found


def fault_of_hex2pcap(tshark, name):
    """What a capture made of an example lacks: the frames in order, their direction and their times."""
    path = os.path.join(TOP, 'examples', name)
    with open(path, encoding='ascii') as text:
        lines = re.findall(r'^(?:([<>]) )?((?:[0-9A-Fa-f]{2})+)$', text.read(), re.MULTILINE)
    capture = os.path.join(tshark.folder, 'text.pcapng')
    subprocess.run([HEX2PCAP, '-i', '0.25', path, capture], check=True)
    columns = ('_ws.col.Info', 'frame.time_relative', 'frame.packet_flags_direction')
    expected = []
    for place, (mark, digits) in enumerate(lines):
        inbound = mark == '<' if mark else int(digits[:2], 16) >= 128
        expected.append((shown([bytes.fromhex(digits)])[0][0], place / 4, 1 if inbound else 2))
    found = [(info, float(time), int(direction, 16)) for info, time, direction in tshark.columns(capture, [], columns)]
    return None if found == expected else 'hex2pcap of %s' % name


def fault_of_times(tshark):
    """Lines with times of their own, a line without, and a line that is no frame."""
    capture = os.path.join(tshark.folder, 'times.pcapng')
    done = subprocess.run([HEX2PCAP, '-', capture], input=b'5.5 > 3605\n6.000250 < b300\nzz\n34\n',
                          stderr=subprocess.PIPE)
    found = [float(time) for time, in tshark.columns(capture, [], ['frame.time_epoch'])]
    fits = (found, done.returncode, done.stderr) == ([5.5, 6.00025, 6.00125], 1, b'line 3: bad line\n')
    return None if fits else 'hex2pcap with times: %r' % found


def fault_of_others(tshark):
    """A text that has no frame gives no capture, and is a fault."""
    capture = os.path.join(tshark.folder, 'others.pcapng')
    for text in (b'', b'# 3605\n', b'poll block 5\nidentify\n', b'good 7 frames\n', b'fio2070 script 1 2 0\npoll\n'):
        done = subprocess.run([HEX2PCAP, '-', capture], input=text, stderr=subprocess.PIPE)
        lines = text.count(b'\n')
        last = done.stderr.splitlines()[-1:]
        if os.path.exists(capture) or done.returncode != 1 or last != [b'hex2pcap: no frame in %d lines' % lines]:
            return '%r: status %d, %r' % (text, done.returncode, last)
    return None


def fault_of_simulated_run(tshark):
    """A simulated run, by transcript and hex2pcap, with a time for each frame."""
    tools = os.path.join(TOP, 'tools')
    script, capture = os.path.join(tshark.folder, 'run.script'), os.path.join(tshark.folder, 'run.pcapng')
    with open(script, 'wb') as file:
        subprocess.run([os.path.join(tools, 'lossy-script'), '--rounds', '50'], stdout=file, check=True)
    with open(script, encoding='ascii') as file:
        report = output_of('simulate', file.read())[0].encode()
    lines = subprocess.run([os.path.join(tools, 'transcript'), '--times', script], input=report, check=True,
                           stdout=subprocess.PIPE).stdout
    subprocess.run([HEX2PCAP, '-', capture], input=lines, check=True)
    times, _, frames = zip(*(line.split() for line in lines.decode().splitlines()))
    expected = [(shows[0], float(time)) for shows, time in zip(shown([bytes.fromhex(each) for each in frames]), times)]
    found = [(info, float(time)) for info, time in tshark.columns(capture, [], ['_ws.col.Info', 'frame.time_epoch'])]
    return None if found == expected and len(found) > 50 else 'another Info or another time'


def fault_of_filters(tshark):
    """The ten filters of the README select these frames; Wireshark knows those of colours and graphs."""
    def text(name):
        with open(os.path.join(os.path.dirname(DISSECTOR), name), encoding='utf-8') as file:
            return file.read()

    table = text('README.md').partition('## Ten filters')[2]
    rows = [row.replace('\\|', '|') for row in re.findall(r'(?m)^\| `(fio2070[^`]*)` \|', table)]
    if rows != list(SELECTED):
        return 'the README has other filters: %r' % rows
    capture = tshark.capture(BARE, FILTERED)
    for words, expected in SELECTED.items():
        found = tshark.columns(capture, BARE.words + ['-2', '-Y', words], ['frame.number'])
        if [int(number) for number, in found] != expected:
            return '%s: %r, expected %r' % (words, found, expected)
    graphs = [line.split('","') for line in text('io_graphs').splitlines() if line.startswith('"')]
    others = re.findall(r'(?m)^@[^@]*@([^@]*)@', text('colorfilters'))
    others += [part for graph in graphs for part in (graph[2], graph[6]) if part]
    tshark.run(capture, BARE.words + ['-Y', ' || '.join('(%s)' % words for words in others)])
    return None if len(others) > 10 else 'only %d filters of colours and graphs' % len(others)


def short_comparisons(cases):
    """The comparisons that catch wrong dissectors, by name: functions of tshark, with few frames and transcripts."""
    few = slice(0, len(cases.tables) + 300)
    short = list(zip(*(pair for pair in zip(cases.tables, cases.shows) if len(pair[0]) < 1000)))
    return {
        'frames': lambda tshark: fault_of_way(tshark, BARE, cases.frames[few], cases.shows[few]),
        'SDLC': lambda tshark: fault_of_way(tshark, SDLC, cases.frames[:100], cases.shows[:100]),
        'labels': lambda tshark: fault_of_labels(tshark, *short),
        'nested items': lambda tshark: fault_of_nested(tshark, *short, *ITEMS),
        'nested entries': lambda tshark: fault_of_nested(tshark, *short, *ENTRIES),
        'after block 255': lambda tshark: fault_of_transcripts(tshark, cases.transcripts[:1]),
        'transcripts': lambda tshark: fault_of_transcripts(tshark, cases.transcripts[1:3]),
        'edges': lambda tshark: fault_of_edges(tshark, cases.tables[:9]),
        'stations': fault_of_stations,
        'frame checks': fault_of_checks,
        'ends': fault_of_ends,
        'hostile lines': lambda tshark: fault_of_hostile_lines(tshark, 300),
    }


def fault_of_wrong(folder, by_name, name, text, other, catcher):
    """That a wrong dissector is not caught by the comparison named with it, or None."""
    with open(DISSECTOR, encoding='utf-8') as file:
        source = file.read()
    if source.count(text) != 1:
        return 'the text %r is not exactly once in the dissector' % text
    path = os.path.join(folder, 'wrong.lua')
    os.makedirs(folder)
    with open(path, 'w', encoding='utf-8') as file:
        file.write(source.replace(text, other))
    return None if by_name[catcher](Tshark(folder, path)) else 'not caught by %s: %s' % (catcher, name)


def comparisons(check, cases):
    """Each comparison: its name, and a function of a folder of its own that returns the first difference or None."""
    def over(function, *given):
        return lambda folder: function(Tshark(folder), *given)

    for name, way in WAYS.items():
        yield '%d frames, %s' % (len(cases.frames), name), over(fault_of_way, way, cases.frames, cases.shows)
    short = [pair for pair in zip(cases.frames[:len(cases.tables) + 500], cases.shows) if len(pair[0]) < 1000]
    yield '%d trees' % len(short), over(fault_of_trees, *zip(*short))
    yield '%d transcripts' % len(cases.transcripts), over(fault_of_transcripts, cases.transcripts)
    yield 'edges', over(fault_of_edges, [octets for octets in cases.tables if len(octets) < 1000])
    yield 'stations', over(fault_of_stations)
    yield 'frame checks', over(fault_of_checks)
    yield 'ends', over(fault_of_ends)
    names = [name for name in sorted(os.listdir(os.path.join(TOP, 'examples'))) if name.endswith('.transcript')]
    for name in ['every-type.frames', *names[cases.some]]:
        yield 'hex2pcap of ' + name, over(fault_of_hex2pcap, name)
    yield 'hex2pcap with times', over(fault_of_times)
    yield 'hex2pcap of other texts', over(fault_of_others)
    if can_simulate():
        yield 'a simulated run', over(fault_of_simulated_run)
    yield 'filters', over(fault_of_filters)
    lines = 20_000 if check.given.release else 5_000 if check.given.all else 2_000
    if may_use_library(check, 'hostile lines'):
        yield '%d hostile lines' % lines, over(fault_of_hostile_lines, lines)
    by_name = short_comparisons(cases)
    for wrong in WRONG_DISSECTORS if check.whole('wrong dissectors') else ():
        yield 'wrong: ' + wrong[0], lambda folder, wrong=wrong: fault_of_wrong(folder, by_name, *wrong)


def outcome(folder, function):
    """The difference that a comparison found, an exception counting as one."""
    try:
        return function(folder)
    except (RuntimeError, ValueError, subprocess.SubprocessError) as fault:
        return repr(fault)


def main():
    check = Check(seed=2070, count=(500, 1500, 5000))
    if not shutil.which('tshark') or not shutil.which('text2pcap'):
        check.skip('the dissector', 'no tshark here (Debian package tshark)')
        check.end()
    seed, count = check.given.seed, check.given.count
    cases = Cases(seed, count, check.whole('all examples, and more random transcripts'))
    with tempfile.TemporaryDirectory() as room, concurrent.futures.ThreadPoolExecutor(os.cpu_count()) as pool:
        runs = [(name, pool.submit(outcome, os.path.join(room, str(place)), function))
                for place, (name, function) in enumerate(comparisons(check, cases)) if check.wants(name)]
        for name, run in runs:
            check.fault(name, run.result)
    print('%d frames and %d transcripts from seed %d' % (len(cases.frames), len(cases.transcripts), seed))
    check.end()


main()
