"""What libfio2070 says of octets: whether they spell a message, and of a message its fields by name and the lines that `fio2070 show`
writes of it. A link has few short messages, which come again and again: these are read once."""

import functools

import fio2070
from fio2070 import _library as c
from fio2070.constants import BIT_AGAIN as AGAIN, TYPE_ANSWER, TYPE_POLL as POLL

from .fields import BITS, FIELDS

BLOCK = POLL + TYPE_ANSWER
# The bits of a block's status.
# What the row of a repeated block says.
SENT_AGAIN = 'E: sent again'
# Messages of fewer octets are kept.
SHORT = 8

_command, _answer = c.CCommand(), c.CAnswer()


def direction_of(octets):
    """The direction of a frame by its type: `<` if the module sent it, else `>`."""
    return '<' if octets and octets[0] >= TYPE_ANSWER else '>'


def spells(octets):
    """Whether the octets spell a message."""
    if direction_of(octets) == '<':
        return c.library.fio2070_decode_answer(octets, len(octets), _answer).kind == 0
    return c.library.fio2070_decode_command(octets, len(octets), _command).kind == 0


def words_of(octets):
    """The words of the fault, as `show` writes them; empty if there is none."""
    return '' if spells(octets) else fio2070.show(octets).rstrip('\n')


class Message:
    """The message that octets spell. `fields` are its numbers by name, and in hexadecimal what `show` writes so; `parts` the entries of a
    block or the items of a configuration, each by name too. Raises fio2070.Fault if octets spell none."""

    def __init__(self, octets):
        is_answer = direction_of(octets) == '<'
        read = (fio2070.decode_answer if is_answer else fio2070.decode_command)(octets)
        self.octets, self.code = octets, read.code
        self.fields = {name: getattr(read, name) for name in FIELDS[read.code]}
        for name, value in self.fields.items():
            if name == 'inputs':
                self.fields[name] = value.to_bytes(8, 'little').hex()
            elif isinstance(value, bytes):
                self.fields[name] = value.hex()
        if is_answer:
            self.parts = [{**one._asdict(), 'wide': fio2070.widen(read.stamp, one.stamp)} for one in read.entries]
        else:
            self.parts = [{**one._asdict(), 'ignore': int(one.ignore)} for one in read.items]

    @functools.cached_property
    def lines(self):
        """The lines that `show` writes: one of the message, and one of each part."""
        return fio2070.show(self.octets).splitlines()

    @functools.cached_property
    def bits(self):
        """What the bits of its flags or its status that are 1 say, by their letters."""
        return {letter: says for name in self.fields for letter, bit, says in BITS.get((self.code, name), ()) if self.fields[name] & bit}

    @property
    def is_repeat(self):
        """Whether it is a block that is sent again, by its own word."""
        return self.code == BLOCK and bool(self.fields['status'] & AGAIN)


_short = functools.lru_cache(maxsize=1024)(Message)


def message_of(octets):
    """The message that octets spell; one is kept if it is short. Raises as Message."""
    return _short(octets) if len(octets) < SHORT else Message(octets)
