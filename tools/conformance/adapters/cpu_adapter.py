#!/usr/bin/env python3
"""A CPU's end's side of the wire, in Python: reads the lines of `fio2070-test --cpu`, and answers each. Here the end is the
proved one, from the package fio2070; makers of CPU's ends put their own in its place.

    fio2070-test --cpu --command tools/conformance/adapters/cpu_adapter.py"""

import sys

import fio2070


def words_of(item):
    """An item of the record, as the line `record` has it."""
    return 'gap' if item.gap else '%02x%02x%04x%08x' % (item.input, item.state, item.stamp, item.wide)


def main():
    poller = fio2070.Poller(0)
    for line in sys.stdin:
        word, _, rest = line.rstrip('\r\n').partition(' ')
        said = 'done'
        if word == 'reset':
            poller = fio2070.Poller(int(rest, 16))
        elif word == 'poll':
            said = 'frame ' + poller.poll().hex()
        elif word == 'hear':
            poller.hear(bytes.fromhex(rest))
            said = ' '.join(['record %02x' % poller.number, *map(words_of, poller.record)])
            poller.record.clear()
        print(said, flush=True)


main()
