#!/usr/bin/env python3
"""The module's side of the wire, in Python: reads the lines of fio2070-test, and answers each. Here the module is the
proved one, from the package fio2070; makers of modules put their own in its place.

    fio2070-test --command tools/conformance/adapters/adapter.py"""

import sys

import fio2070


def main():
    module = fio2070.Module(id=2)
    for line in sys.stdin:
        word, _, rest = line.rstrip('\r\n').partition(' ')
        said = 'done'
        if word == 'frame':
            answer = module.receive(bytes.fromhex(rest))
            said = 'answer ' + answer.hex() if answer else 'none'
        elif word == 'inputs':
            module.scan(int.from_bytes(bytes.fromhex(rest), 'little'))
        elif word == 'sync':
            module.line_sync()
        elif word == 'reset':
            module.restart()
        print(said, flush=True)


main()
