"""Files of captured packets, as the page reads them: each line as `fiolog` reads it, of whole and of damaged files; a capture is judged
as its messages are."""

import base64
import os

from support import packets
from support.opened import ARROWS, CELLS, FINISHED, TOP, opened
from support.fiolog import PACKAGES

DAMAGED = 500
# The lines of files, which are given in base64; a fault of the page is a text.
LINES = FINISHED + '''return arguments[0].map((file) => { try { return new TextDecoder().decode(finished(linesOfCapture(Uint8Array.from(atob(file), (it) => it.charCodeAt(0))))); }
catch (fault) { return String(fault); } })'''
DUE = ['33010c0101', 'b300', '36ff', '36ff', 'b6ff010c000302000000c8', '3600', 'b600018c010400000001f4']


def lines_by_fiolog(octets):
    """The lines that `fiolog` reads; its reader of captures needs no library."""
    import sys
    sys.path.insert(0, PACKAGES)
    from fiolog import captures
    sys.path.remove(PACKAGES)
    return b''.join(captures.lines_of([octets])).decode()


def check_packets(check, browser, _):
    """The lines are those of `fiolog`."""
    # Firefox's driver sees no constant of the page.
    if browser.run('return typeof linesOfCapture') == 'function':
        files = [octets for _, octets, _ in packets.files()] + list(packets.damaged(DAMAGED))
        got = browser.run(LINES, [base64.b64encode(octets).decode() for octets in files])
        unlike = [(octets.hex(), theirs) for octets, theirs in zip(files, got) if lines_by_fiolog(octets) != theirs]
        check.equal('the lines of captures are those of fiolog', [], unlike[:3])
    opened(browser, os.path.join(TOP, 'examples', 'captures', 'udp.pcap'))
    rows = browser.run(CELLS)
    check.equal('the messages of a capture', [(ARROWS['<' if it[0] in 'b' else '>'], it) for it in DUE], [(row[2], row[5]) for row in rows])
    check.equal('times of a capture', '07:15:02.000', rows[0][1])


CHECKS = (check_packets,)
