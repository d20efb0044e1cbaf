"""The figures of the pages for a Cortex-M4, each with what was measured. Another compiler may take a tenth more or less."""

import os
import re

from support.tables import TOP

ROOM = 0.1
# The rows of the tables in tools/portable/README.md: the first column, and what its figures are, as tests/support/cortex.py
# counts them.
LIBRARY = {
    'code: module / poller / codec': [('code', 'module'), ('code', 'poller'), ('code', 'codec')],
    'code: all calls but those on logs': [('code', 'all')],
    'code: all calls': [('code', 'with logs')],
    '`module_scan`: nothing changes / two inputs do': [('instructions', 'module_scan, nothing changes'),
                                                       ('instructions', 'module_scan, inputs 0 and 1 change')],
    '64 inputs change': [('instructions', 'module_scan, 64 inputs change')],
    '`module_receive`, poll, 20 / 255 entries': [('instructions', 'module_receive, poll, 20 entries'),
                                                 ('instructions', 'module_receive, poll, 255 entries')],
    '`module_receive`, configuration, 64 / 255 items': [('instructions', 'module_receive, 64 items'),
                                                        ('instructions', 'module_receive, 255 items')],
    '`poller_hear`, 20 / 255 entries': [('instructions', 'poller_hear, 20 entries'), ('instructions', 'poller_hear, 255 entries')],
    'stack: `module_scan` / `module_receive`': [('stack', 'module_scan, 64 changes'), ('stack', 'module_receive, poll')],
    'stack: `poller_poll` / `poller_hear`': [('stack', 'poller_poll'), ('stack', 'poller_hear, 255 entries')],
    'stack: `show` / other calls, at most': [('stack', 'show, 255 entries'), ('stack', 'others')]}
# Those of docs/FIRMWARE.md: microseconds with one and the other options, of a processor with this clock in MHz.
RATE = 64
FIRMWARE = {'`_scan`: 64 inputs change': 'module_scan, 64 inputs change',
            '`_receive`: a configuration of 255 items': 'module_receive, 255 items',
            '`fio2070_wire_read`: an octet': 'wire_read, an octet',
            '`fio2070_wire_write`: the longest message': 'wire_write, 773 octets'}


LIBRARY_PAGE, FIRMWARE_PAGE = 'tools/portable/README.md', 'docs/FIRMWARE.md'


def text_of(page):
    with open(os.path.join(TOP, page), encoding='utf-8') as file:
        return file.read()


def rows(ways):
    """Yields each row of both tables: its page, its first column, and the numbers of each other column."""
    for way in ways:
        way['stack']['others'] = max(number for name, number in way['stack'].items() if not name.startswith('show'))
    for first, keys in LIBRARY.items():
        yield LIBRARY_PAGE, first, [[way[kind][name] for kind, name in keys] for way in ways]
    for first, name in FIRMWARE.items():
        yield FIRMWARE_PAGE, first, [[way['instructions'][name] / RATE for way in ways]]


def form_of(first):
    """What finds the row of a table by its first column."""
    return re.compile(r'^\| %s \|(.*)\|$' % re.escape(first), re.M)


def shown_in(page, first):
    """The numbers in each other column of a row."""
    return [[float(it.replace(',', '')) for it in cell.split('/')] for cell in form_of(first).search(text_of(page))[1].split('|')]


def is_near(shown, measured):
    """Whether a figure is what was measured: small ones to the next whole number."""
    return abs(shown - measured) <= max(ROOM * measured, 1)


def differ(ways):
    """The rows whose figures are not what was measured with each of two options; nothing if all are."""
    return [(first, shown, due) for page, first, due in rows(ways) for shown in [shown_in(page, first)]
            if not all(is_near(*pair) for one, other in zip(shown, due) for pair in zip(one, other))] or None


def written(number):
    """A number as the tables have it."""
    return format(round(number), ',') if number >= 2 or number == int(number) else '%.1f' % number


def write(ways):
    """Writes what was measured into the tables."""
    for page, first, due in rows(ways):
        row = '| %s | %s |' % (first, ' | '.join(' / '.join(map(written, numbers)) for numbers in due))
        text = form_of(first).sub(lambda _, row=row: row, text_of(page))
        with open(os.path.join(TOP, page), 'w', encoding='utf-8') as file:
            file.write(text)
