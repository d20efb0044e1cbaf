"""Messages and their parts. A field that a type does not have is 0 or empty."""

from typing import NamedTuple, Optional, Sequence, Tuple, Type


class Fault(ValueError):
    """Why octets are no message. kind: 1 empty, 2 too long, 3 unknown type, 4 wrong length."""

    def __init__(self, kind: int, code: int, needed: int, got: int, text: str) -> None:
        super().__init__(text)
        self.kind, self.code, self.needed, self.got = kind, code, needed, got

    def __reduce__(self) -> Tuple[Type['Fault'], Tuple[int, int, int, int, str]]:
        return Fault, (self.kind, self.code, self.needed, self.got, str(self))


class Entry(NamedTuple):
    """A transition: the input, 0 to 127, its state after it, and the low 16 bits of the counter."""
    input: int
    state: int
    stamp: int


class ConfigurationItem(NamedTuple):
    """How one input is read; its transitions are not reported if `ignore` is true."""
    input: int
    ignore: bool
    leading: int
    trailing: int


class RecordItem(NamedTuple):
    """An entry with its time `wide` in milliseconds; or a gap, where entries are missing."""
    gap: bool
    input: int
    state: int
    stamp: int
    wide: int


class Breach(NamedTuple):
    """The first rule that a frame breaks, one of `constants.RULE_READABLE` and those after it. If `has_due`, the number
    or the type that was due, and the one that came."""
    rule: int
    has_due: bool
    due: int
    got: int


class ContentBreach(NamedTuple):
    """The first rule on content that a frame breaks, one of `constants.CONTENT_ORDER` and those after it; the input of the
    entry that breaks it, or that whose state is another, None for an answer; and how many items of the frame's block are
    recorded above the breach."""
    rule: int
    input: Optional[int]
    items: int


class Outcome(NamedTuple):
    """What a frame is: its kind, one of `constants.OUTCOME_KEPT` and those after it; why it is excused or not judged, one of
    `constants.WHY_NONE` and those after it; and its breach of a rule of transcripts, or of a rule on content."""
    kind: int
    why: int
    breach: Optional[Breach]
    content: Optional[ContentBreach]


class Command(NamedTuple):
    """A command, 49 to 60."""
    code: int
    clear: int = 0
    block: int = 0
    timeout: int = 0
    load: int = 0
    levels: bytes = bytes(8)
    controls: bytes = bytes(8)
    body: bytes = b''
    items: Sequence[ConfigurationItem] = ()


class Answer(NamedTuple):
    """An answer, 177 to 188."""
    code: int
    flags: int = 0
    receive_errors: int = 0
    transmit_errors: int = 0
    status: int = 0
    block: int = 0
    stamp: int = 0
    inputs: int = 0
    body: bytes = b''
    entries: Sequence[Entry] = ()
