"""Instructions that are read and not translated."""

from instructions import LOADS, STORES

# Instructions with one number after them.
ONE_NUMBER = (0x0C, 0x0D, 0x10, 0x20, 0x21, 0x22, 0x23, 0x24)
# A loop, a call, globals, and operations on many octets.
NOT_SMALL = (0x03, 0x10, 0x23, 0x24, 0xFC)
# The most octets of a small function.
SMALL = 100


def is_small(it):
    """Returns whether a function is short and plain."""
    ahead, depth = it.copy(), 0
    if it.end - it.place > SMALL:
        return False
    for _ in range(ahead.number()):
        ahead.number(), ahead.octet()
    while depth >= 0:
        op = ahead.octet()
        if op in NOT_SMALL:
            return False
        if op in (0x02, 0x04):
            ahead.number(signed=True)
            depth += 1
        elif op == 0x0B:
            depth -= 1
        else:
            pass_over(ahead, op)
    return True


def assigned_in(it):
    """Returns the locals that a loop sets, read ahead to its end."""
    ahead, depth, found = it.copy(), 0, set()
    while depth >= 0:
        op = ahead.octet()
        if op in (0x02, 0x03, 0x04):
            ahead.number(signed=True)
            depth += 1
        elif op == 0x0B:
            depth -= 1
        elif op in (0x21, 0x22):
            found.add(ahead.number())
        else:
            pass_over(ahead, op)
    return found


def skip(it):
    """Skips code that cannot be reached, up to the else or end of its block."""
    depth = 0
    while True:
        start = it.place
        op = it.octet()
        if op in (0x02, 0x03, 0x04):
            it.number(signed=True)
            depth += 1
        elif op == 0x0B or (op == 0x05 and depth == 0):
            if depth == 0:
                it.place = start
                return
            depth -= 1
        else:
            pass_over(it, op)


def pass_over(it, op):
    if op in ONE_NUMBER:
        it.number()
    elif op in (0x41, 0x42):
        it.number(signed=True)
    elif op in LOADS or op in STORES:
        it.number(), it.number()
    elif op == 0x0E:
        for _ in range(it.number() + 1):
            it.number()
    elif op == 0xFC:
        for _ in range({10: 2, 11: 1}[it.number()]):
            it.number()
