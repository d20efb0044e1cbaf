"""What the page says of lines of several stations, each by itself, and of modules of another size; the same as `fiolog check`."""

import json
import os

from support.fiolog import LIBRARY, fiolog
from support.line_model import line_of
from support.mixes import mix_of
from support.opened import CELLS, FINISHED, RUN_ADDED, choose, example, open_with, pasted, words_in

PAIR = '> 3605\n< b605000000000001\n'


def heard(*frames):
    """A log of frames with their flags, each an address and a message."""
    return ''.join('%s %s\n' % ('TX' if octets[0] < 128 else 'RX', line_of(octets, address).hex(' ')) for address, octets in
                   ((address, bytes.fromhex(digits)) for address, digits in frames))


def exchanges(address, *numbers):
    """Polls with their answers."""
    return [frame for number in numbers for frame in ((address, '36%02x' % number), (address, 'b6%02x0000%08x' % (number, number)))]


ONE, TWO = exchanges(0x1a, 1, 2, 3), exchanges(0x15, 7, 8, 10)
BOTH = [frame for pair in zip(ONE[::2], ONE[1::2], TWO[::2], TWO[1::2]) for frame in pair]
# Frames of stations, and what the verdict says; of each station its line; and what is said of other lines: by hand, from docs/CAPTURES.md.
WHOLE, GAP = 'Nothing is lost: no transition. ', 'Nothing is lost in what this log has, 33.3 % of the time; at 1 place at least 1 block is not in it. '
STATIONS = [
    ('two stations', BOTH, 'A rule is broken at 1 of 2 stations', ['address 15: 6 messages. %sCPU: line 11 breaks the rule advance' % GAP, 'address 1A: 6 messages. %sNo rule is broken in 6 messages.' % WHOLE], ''),
    ('one that is silent', ONE + [(0x15, '3607')] * 4, 'Too few blocks to say at 1 of 2 stations',
     ['address 15: 4 messages. Too few blocks to say. No rule is broken in the 4 messages', 'address 1A: 6 messages. %sNo rule' % WHOLE], ''),
    ('a frame to all', BOTH[:6] + [(0xff, '3605')] + BOTH[6:8], 'Nothing is lost, and no rule broken, at 2 stations',
     ['address 15: 4 messages. %sNo rule is broken in 4' % WHOLE, 'address 1A: 4 messages. %sNo rule' % WHOLE], '1 frame with another address is not judged'),
    ('a frame of neither', BOTH[:8] + [(0x99, '3605')] + BOTH[8:], 'Transitions may be missing at 1 of 2 stations',
     ['address 15: 6 messages. %sNo rule is broken in the 6' % GAP, 'address 1A: 6 messages. %sNo rule' % WHOLE], '1 frame with another address is not judged'),
    ('messages of another type', BOTH[:4] + [(0x1a, '7001'), (0x1a, 'f001')] + BOTH[4:8], 'Nothing is lost, and no rule broken, at 2 stations',
     ['address 15: 4', 'address 1A: 4 messages. %sNo rule is broken in 4' % WHOLE], 'message of type 112, not of this protocol'),
]
# A log of one link without checks, of which an octet before the messages has one of three values in each five exchanges.
SLOW_OCTET = ''.join('TX {0:02X} 36 {1:02X}\nRX {0:02X} B6 {1:02X} 00 00 00 00 00 {1:02X}\n'.format(number // 5 % 3, number) for number in range(60))
STATION_LINES = 'return [...document.querySelectorAll("#stations li")].map((it) => it.textContent)'


def check_stations(check, browser, _):
    """Each station of a line is judged by itself: its line below the verdict, its breach with its address, and its record."""
    for title, frames, says, lines, others in STATIONS:
        pasted(browser, heard(*frames))
        found, words = browser.run(STATION_LINES), words_in(browser, '#verdict') + words_in(browser, '#note')
        check.holds('%s: each by itself' % title, says in words and others in words and [got[:len(line)] for got, line in zip(found, lines)] == lines, (words, found))
    example(browser, 'two-stations.txt')
    browser.click('#first-breach')
    check.equal('a breach names its address', 'Line 7, address 15', words_in(browser, '.detail h2'))
    browser.type('#search', 'address 14')
    browser.wait('return document.querySelectorAll(".line").length === 4')
    check.equal('an address is searched', ['1', '2', '5', '6'], [row[0] for row in browser.run(CELLS)])
    browser.click('#tab-inputs')
    choose(browser, station='21')
    check.equal('the record of a station is chosen', ['14', '15'], browser.run('return [...document.getElementById("station").options].map((it) => it.textContent)'))
    pasted(browser, PAIR)
    check.equal('a log of one link has none', [], browser.run(STATION_LINES))
    pasted(browser, SLOW_OCTET)
    check.holds('an octet that changes slowly is no address', 'No rule is broken in 120 messages' in words_in(browser, '#verdict') and browser.run(STATION_LINES) == [],
                words_in(browser, '#verdict'))


def of_size(size):
    """A log of a module with this many octets of inputs, and of outputs."""
    return ''.join('> 36%02x\n< b6%02x0000%08x\n> 35\n< b5%s%08x\n> 37%s\n< b700\n' % (number, number, number, 'f0' * size, number, '00' * 2 * size)
                   for number in range(6))


# Logs of modules of another size, and what is said once.
SIZES = [('a module with %d inputs' % (8 * size), of_size(size),
          '181 has %d octets of inputs in each of 6 lines: a module with %d inputs? its 180, 181 and 55 are not read, all else is judged.' % (size, 8 * size)) for size in (2, 15)]


def check_sizes(check, browser, _):
    """The messages of a module of another size that depend on it are skipped, and all else is judged."""
    for title, text, says in SIZES:
        pasted(browser, text)
        verdict, note = words_in(browser, '#verdict'), words_in(browser, '#note')
        check.holds(title, 'No rule is broken in 18 messages' in verdict and note.count(says) == 1, (verdict, note))


# What is said of each station of some logs, by the calls: how many messages it has, and the lines of its breaches and its restarts.
OF_STATIONS = FINISHED + '''window.judged = async (texts) => {
    const library = new Library(await startMachine(BUILDS)), logReader = new LogReader(library);
    const logOf = (text) => finished(new Log(library, new Arena(library), "mixed", finished(readLog(library, logReader, new TextEncoder().encode(text), LOG_FORMS.auto)), ENDS.auto).work());
    const saidOf = (log) => [[...log.lengths.subarray(0, log.count)].filter((length) => length > 0).length, [...log.breaches.keys(), ...log.restarts].map((place) => log.lines[place])];
    return texts.map((text) => Object.fromEntries([...logOf(text).stations].map(([address, log]) => [addressText(address), saidOf(log)]))); }'''
MIXES = 100


def stations_by_fiolog(text):
    """The same by `fiolog check`."""
    *found, last = [json.loads(line) for line in fiolog('check', '--json', text=text).out.splitlines()]
    return {address: [row['frames'], [one['line'] for key in ('rule', 'outcome') for one in found if one.get('address') == address and key in one]]
            for address, row in last['summary']['stations'].items()}


def check_mixes(check, browser, folder):
    """Of logs of several stations, some with cut lines, the page says of each station what `fiolog check` says."""
    if not os.path.exists(LIBRARY):
        check.skip('mixes as fiolog judges them', 'no libfio2070.so here (make library)')
        return
    texts = [''.join(line + '\n' for line in mix_of(seed).lines) for seed in range(MIXES)]
    open_with(browser, folder, OF_STATIONS)
    browser.run(RUN_ADDED, OF_STATIONS, texts)
    differ = [seed for seed, (text, found) in enumerate(zip(texts, browser.wait('return window.found'))) if found != stations_by_fiolog(text)]
    check.equal('%d mixes as fiolog judges them' % MIXES, [], differ)


CHECKS = (check_stations, check_sizes, check_mixes)
