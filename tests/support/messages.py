"""The messages as tools/messages.json has them, for the checks in tests/."""

import json
import os

from support.tables import TOP

with open(os.path.join(TOP, 'tools', 'messages.json'), encoding='utf-8') as _table:
    MESSAGES = json.load(_table)

KNOWN = [one['type'] for one in MESSAGES]
# The octets of an item or an entry; a count says how many of these there are.
ELEMENT = 3
_COUNTED = ('items', 'entries')
# How a field appears in a first line.
_FORMS = {'bits': ':x', 'octets': ':o', 'body': ':o'}


def octets_of(part, count=0):
    """How many octets a part has, with this many elements; None if the length of the frame says it."""
    if part.get('form') in _COUNTED:
        return 1 + ELEMENT * count
    return None if part.get('form') == 'body' else part.get('octets', 0)


def length_of(message, count=0):
    """How many octets a message has after its type, with this many elements; None for a body."""
    sizes = [octets_of(part, count) for part in message['parts']]
    return None if None in sizes else sum(sizes)


def is_counted(message):
    """Whether a count says how long a message is."""
    return any(part.get('form') in _COUNTED for part in message['parts'])


def first_line(message):
    """The first line of `show`, by the names of fields; `:x` is one octet in hexadecimal, `:o` octets."""
    return ' '.join(part['words'] + (' {%s%s}' % (part['field'], _FORMS.get(part['form'], '')) if 'field' in part else '')
                    for part in message['parts'])


# How many octets follow the type; a type that is missing here has a count or a body.
LENGTHS = {one['type']: length_of(one) for one in MESSAGES if not is_counted(one) and length_of(one) is not None}
FIRST_LINES = {one['type']: first_line(one) for one in MESSAGES}
