"""Answers that come late, if a CPU waits for each only until a deadline."""

from .message import AGAIN, BLOCK, POLL, TYPE_ANSWER

# The frames above an answer among which its command is sought.
ABOVE = 8


def is_late(octets, above, counts, may_be_due):
    """Whether an answer is to a command above, or a block of the latest number or the one before, and not directly below its command if that
    `may_be`. `above` are the frames of its batch above it, `counts` those above the batch."""
    types, command = [one[:1] for one in above], octets[0] - TYPE_ANSWER
    if may_be_due and (types[-1] == bytes([command]) if above else counts.command == command):
        return False
    if octets[0] == BLOCK:
        polled = next((one[1] for one in reversed(above) if len(one) == 2 and one[0] == POLL), counts.polled)
        return polled is not None and (polled - octets[1]) % 256 < 2
    return command in counts.types or bytes([command]) in types


def _asked(octets):
    """What a command asks for, or an answer is to: a type and, of blocks, a number."""
    return octets[0] % TYPE_ANSWER, octets[1] if octets[0] % TYPE_ANSWER == POLL else None


def is_owed(octets, above):
    """Whether an answer is surely late, and not one too many: of the latest frames `above` it, as many are commands for it as are, with it,
    answers to these, all different. A block that is not the first one of its number has E."""
    asked, commands, answers = _asked(octets), 0, 1
    for one in reversed(above[-ABOVE:]):
        if not one or _asked(one) != asked:
            continue
        if one == octets:
            return False
        commands, answers = commands + (one[0] < TYPE_ANSWER), answers + (one[0] >= TYPE_ANSWER)
        if commands == answers:
            return octets[0] != BLOCK or answers == 1 or octets[-5] & AGAIN != 0
    return False
