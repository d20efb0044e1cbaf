#!/usr/bin/env -S python3 -B
"""`record` by the rules on content: worked transcripts, each with what docs/FORMATS.md requires; random transcripts, and
runs of `simulate`, as they are, from a later line on, and with an entry dropped, doubled, turned or swapped, against an
independent model in `support/content.py`. A run that nobody changed breaks no rule, whole or from any line on; most of
the changed ones are found. Last line: `N passed, M failed`."""

import random

from support.check import Check
from support.content import Record
from support.faults import FAULTS, changed
from support.lossy_runs import lossy_script, run_of_link
from support.tables import MOST_OCTETS, lines_that_fit, row

SEEDS = 30
LATE_RUNS = 60
TRANSCRIPTS = 400


def entry(named, state, stamp):
    """An entry in hexadecimal digits."""
    return '%02x%04x' % (named | state << 7, stamp % 65_536)


def block(number, stamp, *entries, status=0):
    """A poll and the block answer to it."""
    return '> 36%02x\n< b6%02x%02x%s%02x%08x\n' % (number, number, len(entries), ''.join(entries), status, stamp)


def configuration(*items, status=0):
    """A configuration of items, and the answer to it."""
    return '> 33%02x%s\n< b3%02x\n' % (len(items), ''.join('%02x%02x%02x' % item for item in items), status)


# Inputs 12 and 13 with filters of 5 and 3 samples, and an empty block; the lines 1 to 4.
START = configuration((12, 5, 3), (13, 5, 3)) + block(0, 0)
ONE = 'input 12 state 0 stamp 10 wide 10\n'
TWO = ONE + 'input 12 state 1 stamp 20 wide 20\n'
LOAD = '> 3200000000\n< b200\n'
LOST = START + block(1, 11, entry(12, 0, 10))
FULL = [entry(0, place % 2, place + 11) for place in range(255)]

LATE_OPENING = block(0, 5, status=2) + block(1, 8, entry(0, 0, 6), entry(0, 0, 8))
LATE_LOAD = block(0, 5000) + block(1, 5001, entry(0, 0, 5001)) + block(2, 11, entry(0, 1, 11))

WORKED = [
    # The entry at 20 in the state 1 is sent, doubled, left out, turned.
    ('two', START + block(1, 11, entry(12, 0, 10)) + block(2, 21, entry(12, 1, 20)), 'record 2\n' + TWO),
    ('doubled', START + block(1, 11, entry(12, 0, 10), entry(12, 0, 10)),
     'record 1\n' + ONE + 'line 6 input 12 breaks order\n'),
    ('doubled in the next block', LOST + block(2, 21, entry(12, 0, 10)),
     'record 1\n' + ONE + 'line 8 input 12 breaks fresh\n'),
    ('lost', LOST + block(2, 31, entry(12, 0, 30)), 'record 1\n' + ONE + 'line 8 input 12 breaks alternate\n'),
    ('turned', LOST + block(2, 21, entry(12, 0, 20)) + block(3, 31, entry(12, 0, 30)),
     'record 1\n' + ONE + 'line 8 input 12 breaks alternate\n'),
    ('swapped', START + block(1, 21, entry(12, 1, 20), entry(13, 0, 10)),
     'record 1\ninput 12 state 1 stamp 20 wide 20\nline 6 input 13 breaks order\n'),
    # A block without entries between them changes nothing, nor does a remark.
    ('below empty blocks', '# run\n' + LOST + block(2, 12) + block(3, 31, entry(12, 0, 30)),
     'record 1\n' + ONE + 'line 11 input 12 breaks alternate\n'),
    # Order: times modulo 2^32; equal times keep it; a gap mark and a load lift it.
    ('equal times', START + block(1, 11, entry(12, 0, 10), entry(13, 0, 10)),
     'record 2\n' + ONE + 'input 13 state 0 stamp 10 wide 10\n'),
    ('around 0', configuration((12, 5, 3)) + block(0, 0xffff_ff00) + block(1, 0xffff_fff1, entry(12, 0, 0xfff0)) + block(2, 9, entry(13, 0, 8)),
     'record 2\ninput 12 state 0 stamp 65520 wide 4294967280\ninput 13 state 0 stamp 8 wide 8\n'),
    ('half of all times ahead', START + block(1, 11, entry(12, 0, 10)) + block(2, 0x8000_000b, entry(13, 0, 11)),
     'record 1\n' + ONE + 'line 8 breaks clock\n'),
    ('one less than half ahead', START + block(1, 11, entry(12, 0, 10)) + block(2, 0x8000_0009, entry(13, 0, 9)),
     'record 2\n' + ONE + 'input 13 state 0 stamp 9 wide 2147483657\n'),
    ('a load', START + block(1, 11, entry(12, 0, 10)) + LOAD + block(2, 6, entry(13, 0, 5)),
     'record 2\n' + ONE + 'input 13 state 0 stamp 5 wide 5\n'),
    ('order before alternate, an earlier time', START + block(1, 11, entry(12, 0, 10), entry(12, 0, 9)),
     'record 1\n' + ONE + 'line 6 input 12 breaks order\n'),
    # Alternate: no block without C comes before the first block.
    ('no block above', block(0, 11, entry(12, 0, 10), entry(12, 0, 10)),
     'record 2\n' + ONE + ONE),
    ('no block without C above', block(0, 300, *FULL, status=8) + block(1, 311, entry(12, 0, 301), entry(12, 0, 301)),
     'record 257\n' + ''.join('input 0 state %d stamp %d wide %d\n' % (place % 2, place + 11, place + 11)
                              for place in range(255)) + 'input 12 state 0 stamp 301 wide 301\n' * 2),
    ('a load does not lift it', LOST + LOAD + block(2, 31, entry(12, 0, 30)),
     'record 1\n' + ONE + 'line 10 input 12 breaks alternate\n'),
    # Only a configuration that ignores the input and, below it, one that opens it lift it: both sent since the clear block
    # before the older entry.
    ('ignored between', LOST + configuration((12 | 128, 5, 3)) + configuration((12, 5, 3)) + block(2, 31, entry(12, 0, 30)),
     'record 2\n' + ONE + 'input 12 state 0 stamp 30 wide 30\n'),
    ('ignored between, no answer', LOST + '> 33018c0505\n' + configuration((12, 5, 3)) + block(2, 31, entry(12, 0, 30)),
     'record 2\n' + ONE + 'input 12 state 0 stamp 30 wide 30\n'),
    ('ignored and not opened', LOST + '> 33018c0505\n' + block(2, 31, entry(12, 0, 30)),
     'record 1\n' + ONE + 'line 9 input 12 breaks alternate\n'),
    ('another input ignored between', LOST + configuration((13 | 128, 5, 3)) + block(2, 31, entry(12, 0, 30)),
     'record 1\n' + ONE + 'line 10 input 12 breaks alternate\n'),
    ('configured between', LOST + configuration((12, 5, 3)) + block(2, 31, entry(12, 0, 30)),
     'record 1\n' + ONE + 'line 10 input 12 breaks alternate\n'),
    ('ignored above the clear block', START + configuration((12 | 128, 1, 1)) + configuration((12, 1, 1)) + block(1, 1) +
     block(2, 11, entry(12, 0, 10)) + block(3, 31, entry(12, 0, 30)),
     'record 1\n' + ONE + 'line 14 input 12 breaks alternate\n'),
    # Below a clear block, one that is sent again settles an input of which no item was sent since the first poll for it.
    ('ignored above the first poll', START + configuration((12 | 128, 1, 1)) + configuration((12, 1, 1)) + '> 3601\n' +
     block(1, 1, status=2) + block(2, 11, entry(12, 0, 10)) + block(3, 31, entry(12, 0, 30)),
     'record 1\n' + ONE + 'line 15 input 12 breaks alternate\n'),
    ('ignored below the first poll', START + '> 3601\n' + configuration((12 | 128, 1, 1)) + configuration((12, 1, 1)) +
     block(1, 1, status=2) + block(2, 11, entry(12, 0, 10)) + block(3, 31, entry(12, 0, 30)),
     'record 2\n' + ONE + 'input 12 state 0 stamp 30 wide 30\n'),
    # Ignored: at the clear block the item was taken, and none has opened the input since.
    ('an ignored input', configuration((12 | 128, 5, 3)) + block(0, 0) + block(1, 11, entry(12, 0, 10)),
     'record 0\nline 6 input 12 breaks ignored\n'),
    ('an ignored input, at a block that is sent again', START + configuration((12 | 128, 5, 3)) + '> 3601\n' +
     block(1, 1, status=2) + block(2, 11, entry(12, 0, 10)), 'record 0\nline 11 input 12 breaks ignored\n'),
    ('an ignored input, no clear block above', configuration((12 | 128, 5, 3)) + '> 3600\n' + block(0, 0, status=2) +
     block(1, 11, entry(12, 0, 10)), 'record 1\n' + ONE),
    ('an ignored input, no answer', '> 33018c0503\n' + block(0, 0) + block(1, 11, entry(12, 0, 10)), 'record 1\n' + ONE),
    ('an ignored input, opened', configuration((12 | 128, 5, 3)) + block(0, 0) + '> 33010c0503\n' +
     block(1, 11, entry(12, 0, 10)), 'record 1\n' + ONE),
    # State: at the entry or the block without C by which the record comes to the 181.
    ('states', LOST + '> 35\n< b5ffefffffffffffff0000000c\n' + block(2, 13), 'record 1\n' + ONE),
    ('other states at a block', LOST + '> 35\n< b5ffffffffffffffff0000000c\n' + block(2, 13),
     'record 1\n' + ONE + 'line 10 input 12 breaks state\n'),
    ('other states at an entry', LOST + '> 35\n< b5ffffffffffffffff0000000c\n' + block(2, 21, entry(13, 0, 13)),
     'record 1\n' + ONE + 'line 10 input 12 breaks state\n'),
    ('other states below a load', LOST + LOAD + '> 35\n< b5ffffffffffffffff0000000c\n' + block(2, 13), 'record 1\n' + ONE),
    # Answers.
    ('a clock that steps back', START + block(1, 11) + block(2, 10), 'record 0\nline 8 breaks clock\n'),
    ('a refused load', '> 3200000000\n< b201\n', 'record 0\nline 2 breaks done\n'),
    ('a flag that is left', '> 3180\n< b18000000000000c\n', 'record 0\nline 2 breaks cleared\n'),
    ('a watchdog that was not set', '> 3a32\n< ba00\n> 3a32\n< ba00\n', 'record 0\nline 4 breaks watchdog\n'),
    ('a refusal of an absent input', configuration((64, 1, 1), status=1), 'record 0\n'),
    # Nothing that is heard above the first command is judged or kept: neither a refusal, nor a stamp, nor that a watchdog is
    # set, nor a block.
    ('answers above the first command', '< b301\n< b5ffffffffffffffff00001000\n< ba00\n' + START, 'record 0\n'),
    ('a watchdog above the first command', '< ba00\n> 3a32\n< ba00\n', 'record 0\n'),
    ('a block above the first command', block(0, 11, entry(12, 0, 10))[7:] + block(1, 11, entry(12, 0, 10)), 'record 1\n' + ONE),
    ('answers alone', '< b301\n< b201\n', 'record 0\n'),
    ('a refusal below the first command', '< b301\n> 33010c0503\n< b301\n', 'record 0\nline 3 breaks accepted\n'),
    # Apart: the filter for the change; 0 acts as 1; the last item of an input counts.
    ('as far as the filter', START + block(1, 14, entry(12, 0, 10), entry(12, 1, 13)),
     'record 2\n' + ONE + 'input 12 state 1 stamp 13 wide 13\n'),
    ('nearer than the filter', START + block(1, 14, entry(12, 0, 10), entry(12, 1, 12)),
     'record 1\n' + ONE + 'line 6 input 12 breaks apart\n'),
    ('the other filter', START + block(1, 19, entry(12, 1, 10), entry(12, 0, 14)),
     'record 1\ninput 12 state 1 stamp 10 wide 10\nline 6 input 12 breaks apart\n'),
    ('another input', START + block(1, 14, entry(12, 0, 10), entry(13, 1, 12)),
     'record 2\n' + ONE + 'input 13 state 1 stamp 12 wide 12\n'),
    ('an input without filters', START + block(1, 14, entry(11, 0, 10), entry(11, 1, 11)),
     'record 2\ninput 11 state 0 stamp 10 wide 10\ninput 11 state 1 stamp 11 wide 11\n'),
    ('a filter of 0', configuration((12, 0, 0)) + block(0, 0) + block(1, 14, entry(12, 0, 10), entry(12, 1, 10)),
     'record 1\n' + ONE + 'line 6 input 12 breaks order\n'),
    ('a filter of 0 and a sample', configuration((12, 0, 0)) + block(0, 0) + block(1, 14, entry(12, 0, 10), entry(12, 1, 11)),
     'record 2\n' + ONE + 'input 12 state 1 stamp 11 wide 11\n'),
    ('the last item', configuration((12, 5, 1), (12, 5, 3)) + block(0, 0) + block(1, 14, entry(12, 0, 10), entry(12, 1, 12)),
     'record 1\n' + ONE + 'line 6 input 12 breaks apart\n'),
    ('the last item, shorter', configuration((12, 5, 3), (12, 5, 1)) + block(0, 0) + block(1, 14, entry(12, 0, 10), entry(12, 1, 12)),
     'record 2\n' + ONE + 'input 12 state 1 stamp 12 wide 12\n'),
    ('a refused configuration', configuration((12, 5, 3), status=1), 'record 0\nline 2 breaks accepted\n'),
    ('an unanswered configuration', '> 33010c0503\n' + block(0, 0) + block(1, 14, entry(12, 0, 10), entry(12, 1, 12)),
     'record 2\n' + ONE + 'input 12 state 1 stamp 12 wide 12\n'),
    ('a later configuration of another input', configuration((12, 5, 3)) + configuration((13, 5, 3)) + block(0, 0) +
     block(1, 14, entry(12, 0, 10), entry(12, 1, 12)), 'record 1\n' + ONE + 'line 8 input 12 breaks apart\n'),
    # Each load excuses one breach; then times are forgotten until the end of a clear block that is heard below.
    ('a load excuses one breach alone', START + LOAD + block(1, 30, entry(12, 0, 10), entry(12, 1, 12), entry(13, 0, 11)) + block(2, 31) +
     block(3, 50, entry(12, 0, 40), entry(12, 1, 42)),
     'record 4\n' + ONE + 'input 12 state 1 stamp 12 wide 12\ninput 13 state 0 stamp 11 wide 11\n' +
     'input 12 state 0 stamp 40 wide 40\nline 12 input 12 breaks apart\n'),
    ('two loads excuse two breaches', START + LOAD + LOAD + block(1, 30, entry(12, 0, 10), entry(12, 1, 12)) + block(2, 31) +
     block(3, 50, entry(12, 0, 40), entry(12, 1, 42)),
     'record 4\n' + ONE + 'input 12 state 1 stamp 12 wide 12\ninput 12 state 0 stamp 40 wide 40\ninput 12 state 1 stamp 42 wide 42\n'),
    ('the block of an excused breach tells no times', START + LOAD + block(1, 30, entry(12, 0, 10), entry(12, 1, 12)) +
     block(2, 50, entry(12, 0, 40), entry(12, 1, 42)),
     'record 4\n' + ONE + 'input 12 state 1 stamp 12 wide 12\ninput 12 state 0 stamp 40 wide 40\ninput 12 state 1 stamp 42 wide 42\n'),
    ('a load excuses no breach of another rule', START + LOAD + block(1, 11, entry(12, 0, 10)) + block(2, 31, entry(12, 0, 30)),
     'record 1\n' + ONE + 'line 10 input 12 breaks alternate\n'),
    ('a load lifts apart', START + LOAD + block(1, 14, entry(12, 0, 10), entry(12, 1, 12)),
     'record 2\n' + ONE + 'input 12 state 1 stamp 12 wide 12\n'),
    # A gap mark between them lifts alternate and state.
    ('a gap mark', configuration((12, 5, 3)) + block(0, 0) + block(1, 11, entry(12, 0, 10)) +
     block(2, 300, *FULL[1:], entry(12, 0, 290), status=12),
     'record 257\n' + ONE + 'gap\n' +
     ''.join('input 0 state %d stamp %d wide %d\n' % (place % 2, place + 11, place + 11) for place in range(1, 255)) +
     'input 12 state 0 stamp 290 wide 290\n'),
    # Right links whose logs begin later: an opening of the input reaches the module after the first poll of the log.
    ('a late opening, from the start', '> 3301000101\n< b300\n> 3600\n> 3301800101\n< b300\n> 3301000101\n< b300\n' + LATE_OPENING,
     'record 2\ninput 0 state 0 stamp 6 wide 6\ninput 0 state 0 stamp 8 wide 8\n'),
    ('a late opening, from a later poll on', LATE_OPENING,
     'record 2\ninput 0 state 0 stamp 6 wide 6\ninput 0 state 0 stamp 8 wide 8\n'),
    # Of each input the last item of a command counts: an item that is overridden hides no change.
    ('an item that another one overrides', configuration((12, 5, 3)) + block(0, 0) + block(1, 11, entry(12, 0, 10)) +
     '> 33028c05030c0503\n< b300\n' + block(2, 31, entry(12, 0, 30)), 'record 1\n' + ONE + 'line 10 input 12 breaks alternate\n'),
    # An input that is ignored, and not opened again, has no entry that a change was hidden before.
    ('an input that is ignored and not opened', configuration((12, 5, 3)) + block(0, 0) + block(1, 11, entry(12, 0, 10)) +
     '> 33018c0503\n< b300\n' + block(2, 31, entry(12, 0, 30)), 'record 1\n' + ONE + 'line 10 input 12 breaks alternate\n'),
    ('an input that is ignored and opened again', configuration((12, 5, 3)) + block(0, 0) + block(1, 11, entry(12, 0, 10)) +
     '> 33018c0503\n< b300\n> 33010c0503\n< b300\n' + block(2, 31, entry(12, 0, 30)),
     'record 2\n' + ONE + 'input 12 state 0 stamp 30 wide 30\n'),
    # The states of a 181 are what the next entry is compared with; two that differ say that the input is not logged.
    ('an entry with the state that was told', configuration((12, 5, 3)) + block(0, 0) + '> 35\n< b5ffffffffffffffff0000000a\n' +
     block(1, 20) + block(2, 31, entry(12, 1, 30)), 'record 0\nline 10 input 12 breaks state\n'),
    ('an entry of an input that is not logged', block(0, 0) + '> 35\n< b5ffffffffffffffff0000000a\n' + block(1, 20) +
     '> 35\n< b5ffefffffffffffff00000019\n' + block(2, 30) + block(3, 41, entry(12, 1, 40)), 'record 0\nline 12 input 12 breaks state\n'),
    # A right link whose CPU pauses: entries wait for 65,536 scans or more, and no time of their block is judged.
    ('an entry that waits for long', '> 3302000101010101\n< b300\n' + block(0, 0) + block(1, 66_002, entry(0, 0, 401), entry(1, 1, 1002)),
     'record 2\ninput 0 state 0 stamp 401 wide 65937\ninput 1 state 1 stamp 1002 wide 1002\n'),
    ('a pause of two minutes', block(7, 1000) + block(8, 121_000, entry(5, 0, 2000), entry(6, 1, 60_000)) + block(9, 121_020),
     'record 2\ninput 5 state 0 stamp 2000 wide 67536\ninput 6 state 1 stamp 60000 wide 60000\n'),
    ('a pause of two minutes, and then a doubled entry', block(7, 1000) + block(8, 121_000, entry(5, 0, 2000)) + block(9, 121_020, entry(6, 0, 55_480), entry(6, 0, 55_480)),
     'record 2\ninput 5 state 0 stamp 2000 wide 67536\ninput 6 state 0 stamp 55480 wide 121016\nline 6 input 6 breaks order\n'),
    # Right links that PROMISES leaves out: a load that was sent before the log takes effect in it; an input changes after 2^32
    # scans or more.
    ('a late load, from the start', '> 3301000101\n< b300\n> 320000000a\n< b200\n' + LATE_LOAD,
     'record 2\ninput 0 state 0 stamp 5001 wide 5001\ninput 0 state 1 stamp 11 wide 11\n'),
    ('a late load, from a later poll on', LATE_LOAD, 'record 1\ninput 0 state 0 stamp 5001 wide 5001\nline 6 breaks clock\n'),
    ('an input that changes after long', configuration((0, 10, 10), (1, 1, 1)) + block(0, 0) + block(1, 20, entry(0, 0, 10)) +
     block(2, 0x4000_000c, entry(1, 0, 12)) + block(3, 0x8000_0004, entry(1, 1, 4)) + block(4, 0xbfff_fffc, entry(1, 0, 65_532)) +
     block(5, 0xffff_fff4, entry(1, 1, 65_524)) + block(6, 15, entry(0, 1, 15)),
     'record 5\ninput 0 state 0 stamp 10 wide 10\ninput 1 state 0 stamp 12 wide 1073741836\n'
     'input 1 state 1 stamp 4 wide 2147483652\ninput 1 state 0 stamp 65532 wide 3221225468\n'
     'input 1 state 1 stamp 65524 wide 4294967284\nline 16 input 0 breaks apart\n'),
    # What no rule finds: a dropped entry with neither a later entry of its input nor a 181 after it.
    ('a lost entry without a later one', '> 3301000101\n< b300\n' + block(0, 0) + block(1, 2, entry(0, 0, 1), entry(0, 1, 2)) +
     block(2, 3) + block(3, 3), 'record 2\ninput 0 state 0 stamp 1 wide 1\ninput 0 state 1 stamp 2 wide 2\n'),
    # After many lines.
    *[('below %d lines' % above, '\n' * above + LOST + block(2, 31, entry(12, 0, 30)),
       'record 1\n' + ONE + 'line %d input 12 breaks alternate\n' % (above + 8))
      for above in (65_527, 65_528, 70_000, 131_072, 1_000_000)],
    # The rules of `check` come first, also after an entry that breaks a rule on content.
    ('a rule broken below', START + block(1, 11, entry(12, 0, 10), entry(12, 0, 10)) + '> 3604\n', 'line 7 breaks advance\n'),
    ('a bad line below', START + block(1, 11, entry(12, 0, 10), entry(12, 0, 10)) + '> zz\n', 'line 7: bad line\n'),
]

# The largest number of blocks that fit, of 255 entries of one input in turn, with the last entry doubled.
BLOCK = block(0, 300, *FULL, status=8)


def longest():
    """The longest transcript of full blocks, whose last entry breaks a rule, and what `record` writes of it."""
    count = lines_that_fit(BLOCK, START) - 1
    text, stamp, state, items = START, 0, 0, []
    for turn in range(count):
        entries = []
        for _ in range(255):
            stamp, state = stamp + 5, 1 - state
            entries.append(entry(13, state, stamp))
            items.append('input 13 state %d stamp %d wide %d\n' % (state, stamp % 65_536, stamp))
        text += block((turn + 1) % 256, stamp, *entries, status=8)
    text += block((count + 1) % 256, stamp + 5, entry(13, state, stamp + 5))
    return text, 'record %d\n%sline %d input 13 breaks alternate\n' % (len(items), ''.join(items), text.count('\n'))


def most_items():
    """The largest number of full blocks that fit, each after a gap mark, and what `record` writes for them."""
    count = lines_that_fit(block(0, 300, *FULL, status=12))
    text = ''.join(block(turn % 256, 300, *FULL, status=12) for turn in range(count))
    items = ''.join('input 0 state %d stamp %d wide %d\n' % (place % 2, place + 11, place + 11) for place in range(255))
    return text, 'record %d\n' % (256 * count) + ('gap\n' + items) * count


def random_transcript(draw):
    """A transcript that keeps the rules of `check`: few inputs, states that mostly alternate, times that mostly rise."""
    lines, number, clock, states, more = [], draw.randrange(256), draw.choice((0, 0xffff_ff00, 70_000)), {}, False
    for _ in range(draw.randrange(4, 40)):
        what = draw.random()
        if what < 0.06:
            lines.append('> 32%08x' % draw.randrange(1 << 32))
            lines += ['< b200'] if draw.random() < 0.7 else []
        elif what < 0.25:
            items = ''.join('%02x%02x%02x' % (draw.randrange(4) | draw.randrange(2) << 7, draw.randrange(9), draw.randrange(9))
                            for _ in range(draw.randrange(5)))
            lines.append('> 33%02x%s' % (len(items) // 6, items))
            lines += ['< b3%02x' % draw.choice((0, 0, 0, 1, 0xfe))] if draw.random() < 0.7 else []
        elif what < 0.4:
            lines.append('> 36%02x' % number)
        elif what < 0.45:
            lines += ['> 3c', '< bc02']
        else:
            count = 255 if draw.random() < 0.05 else draw.randrange(1 if more else 0, 6)
            more = count == 255 and draw.random() < 0.8
            entries = ''
            for _ in range(count):
                clock += draw.choice((0, 1, 1, 2, 3, 5, 9, -1 if draw.random() < 0.1 else 1))
                named = draw.randrange(4)
                states[named] = states.get(named, 0) ^ (draw.random() < 0.9)
                entries += entry(named, states[named], clock)
            status = 8 * more + 4 * (more and draw.random() < 0.4)
            clock += draw.randrange(4)
            lines += ['> 36%02x' % number, '< b6%02x%02x%s%02x%08x' % (number, count, entries, status, clock % (1 << 32))]
            number = (number + 1) % 256
    return '\n'.join(lines) + '\n'


def late_script(draw):
    """A script with configurations and loads of the counter: a command is lost, arrives at once, or arrives late, after
    further commands; its answer reaches the CPU directly after the command or never."""
    lines, sent, last, answers, late, levels = ['fio2070 script 1 2 %d' % draw.randrange(256)], 0, 0, 0, [], (1 << 64) - 1
    loads = draw.random() < 0.3
    for _ in range(150):
        for _ in range(draw.randrange(5)):
            for named in range(6):
                levels ^= (draw.random() < 0.2) << named
            lines.append('scan ' + levels.to_bytes(8, 'little').hex())
        if loads and draw.random() < 0.1:
            lines.append('sync')
        what, sent = draw.random(), sent + 1
        if what < 0.15:
            items = [(draw.randrange(6) | (draw.random() < 0.2) << 7, draw.randrange(6), draw.randrange(6))
                     for _ in range(draw.randrange(1, 7))]
            lines.append('send 33%02x' % len(items) + ''.join('%02x%02x%02x' % item for item in items))
        elif loads and what < 0.2:
            lines.append('send 32%08x' % draw.choice((0, 70_000, 0xffff_fff0)))
        else:
            lines.append('poll')
        while late and draw.random() < 0.5:
            last, answers = late.pop(0), answers + 1
            lines.append('to-module %d' % last)
        arrives = draw.random()
        if arrives < 0.7:
            last, answers, late = sent, answers + 1, []
            lines.append('to-module %d' % sent)
            if draw.random() < 0.8:
                lines.append('to-cpu %d' % answers)
        elif arrives < 0.9:
            late.append(sent)
    return '\n'.join(lines) + '\n'


def from_later(text, draw):
    """The transcript from a line after the first on, as often an answer as a command."""
    lines = text.rstrip('\n').split('\n')
    mark = draw.choice('><')
    places = [place for place, line in enumerate(lines) if line.startswith(mark)][1:]
    return '\n'.join(lines[draw.choice(places):]) + '\n'


def agrees(check, name, text):
    """A row: the program writes what the model says. Returns whether it is a record without a breach."""
    expected = Record(text).text()
    good = '\nline ' not in expected
    row(check, name, 'record', text, expected, 0 if good else 1)
    return good


check = Check()
for name, text, expected in WORKED:
    broken = expected.startswith('line ') or '\nline ' in expected
    row(check, 'worked: ' + name, 'record', text, expected, 1 if broken else 0)
    if not expected.startswith('line '):
        check.equal('worked, the model: ' + name, expected, Record(text).text())
text, expected = longest()
check.holds('the longest transcript is no longer than an input may be', MOST_OCTETS - 4096 < len(text) <= MOST_OCTETS, len(text))
row(check, 'the longest transcript', 'record', text, expected, 1)
text, expected = most_items()
check.holds('a gap mark in each block gives the most items', expected.startswith('record 172288\n'), expected[:20])
row(check, 'the most items', 'record', text, expected, 0)
draw = random.Random(1)
kept = 0
for turn in range(TRANSCRIPTS):
    kept += agrees(check, 'random transcript %d' % turn, random_transcript(draw))
check.holds('of the random transcripts some are broken and some are not', 20 < kept < TRANSCRIPTS - 20, kept)
few, many = ({change: 0 for change in FAULTS} for _ in range(2))
for seed in range(SEEDS):
    text = run_of_link(lossy_script(seed))
    check.holds('a run that nobody changed is not accused: seed %d' % seed, agrees(check, 'run %d' % seed, text))
    check.holds('from a later line on it is not accused: seed %d' % seed,
                agrees(check, 'run %d from a later line on' % seed, from_later(text, draw)))
    for change in FAULTS:
        few[change] += not agrees(check, 'run %d with an entry %s' % (seed, change.__name__), changed(text, change, draw))
for turn in range(LATE_RUNS):
    text = run_of_link(late_script(draw))
    check.holds('a run with late commands is not accused: %d' % turn, agrees(check, 'late run %d' % turn, text) and 'b6' in text)
    if '> 32' not in text:
        check.holds('from a later line on it is not accused: late run %d' % turn,
                    agrees(check, 'late run %d from a later line on' % turn, from_later(text, draw)))
    for change in FAULTS:
        many[change] += not agrees(check, 'late run %d with an entry %s' % (turn, change.__name__), changed(text, change, draw))
for runs, found, share, words in ((SEEDS, few, 3 / 4, 'runs'), (LATE_RUNS, many, 2 / 3, 'late runs')):
    for change, count in found.items():
        check.holds('of %d %s with an entry %s most are found' % (runs, words, change.__name__), count >= share * runs, count)
check.end()
