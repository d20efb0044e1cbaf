"""What a file is in which no frame was found, by how it begins, and what to do. tools/generate-messages writes the same for the page."""

import re

# The first octets, which show what a file is.
WINDOW = 4096
# By the kind: an expression for how such a file begins, in the words of Python and of JavaScript; what it is; what to do with `fiolog`,
# and on the page. The first that fits is right.
KINDS = {
    'empty': (r'^\s*$', 'an empty file', '', ''),
    'capture': (r'^(?:\xd4\xc3\xb2\xa1|\xa1\xb2\xc3\xd4|\x4d\x3c\xb2\xa1|\xa1\xb2\x3c\x4d|\n\r\r\n)',
                'a capture of packets, and no UDP datagram in it is a message',
                'docs/CAPTURES.md says what is read; Wireshark reads other ways by tools/wireshark/fio2070.lua',
                'Wireshark reads messages that come in other ways, by the dissector of tools/wireshark'),
    'gzip': (r'^\x1f\x8b', 'a file that gzip packed', 'unpack it first', 'unpack it first'),
    'xz': (r'^\xfd7zXZ\0', 'a file that xz packed', 'unpack it first', 'unpack it first'),
    'bzip2': (r'^BZh[1-9]1AY', 'a file that bzip2 packed', 'unpack it first', 'unpack it first'),
    'zst': (r'^\x28\xb5\x2f\xfd', 'a file that zstd packed', 'unpack it first', 'unpack it first'),
    'zip': (r'^PK\x03\x04', 'a zip archive, or a spreadsheet or document that is packed as one',
            'unpack it first, or save it as text', 'unpack it first, or save it as text'),
    'script': (r'^fio2070 script ', 'a script for fio2070 simulate', 'fio2070 simulate runs it', 'the view Play runs it'),
    'record': (r'^record \d+\n', 'a record, which fio2070 record wrote of a log', 'read the log itself', 'open the log itself'),
    'binary': (r'^(?!\xff\xfe|\xfe\xff)[\s\S]*\0', 'a binary file', 'no message is sure in its octets, read as rows of a dump; if it is what a line carried, see --line',
               'no message is sure in its octets; if it is what a line carried, say so at “How is it written?”'),
}
_PATTERNS = {kind: re.compile(row[0].encode('latin-1')) for kind, row in KINDS.items()}
_CONTROLS = bytes(octet for octet in range(32) if octet not in b'\t\n\r\f\x1b')


def kind_of(first):
    """The kind of a file by its first octets; None for a text that may be a log."""
    first = first[:WINDOW]
    found = next((kind for kind, pattern in _PATTERNS.items() if pattern.search(first)), None)
    return found or ('binary' if is_binary(first) else None)


def is_binary(octets):
    """Whether octets are no text: all of them are 0, or of the others one in ten is a control character or no UTF-8."""
    if octets and not octets.strip(b'\0'):
        return True
    octets = octets.replace(b'\0', b'')
    strange = len(octets) - len(octets.translate(None, _CONTROLS)) + octets.decode('utf-8', 'replace').count('\ufffd')
    return 10 * strange > len(octets)


def words(kind):
    """What `fiolog` says of a file of this kind."""
    _, what, act, _ = KINDS[kind]
    return 'this is %s%s' % (what, ': ' + act if act else '')
