"""The limits of a module; and the rules by their numbers: the name of each, and what a line does that breaks it, or what a
breach of a rule on content means. Written by tools/generate-constants."""

INPUTS = 64
BLOCK_ENTRIES = 255
STANDARD_WAITING = 1024
MOST_WAITING = 8192

RULES = {
    1: ('readable', 'is no message of its direction'),
    2: ('pair', 'is an answer, but not directly below a command whose type is 128 less'),
    3: ('number', 'is a block answer with another number than the poll directly above'),
    4: ('advance', 'is a poll, not the first, with another number than the one due: that of the poll before, plus one modulo 256 if a block answer is directly below that poll'),
    5: ('same', 'is a block answer with E, though the poll directly above has another number than the poll before that'),
    6: ('sequence', 'is a block answer with G and E, or with G and a block answer before it'),
    7: ('limits', 'is a block answer with F and without C, or with C and a count other than 255, or with an input above 63'),
    8: ('rest', 'is a block answer without entries, and the block answer before it has C'),
    9: ('refusal', 'is an answer 179 that says done (bit 0 is 0) to a configuration 51 that names an input above 63'),
}

CONTENT_RULES = {
    1: ('order', 'input {input} has an entry that is not later than the one above it, but a module logs changes in order of time, then of input: two entries are swapped, one is doubled, a time is wrong, or the module restarted'),
    2: ('fresh', 'input {input} changed before the block above was made, and that block had all changes until then: this entry is doubled or late, or its time is wrong'),
    3: ('alternate', 'input {input} went to {state} twice in a row, and neither an overflow (F) nor a configuration that was sent can have hidden a change between: an entry was lost, or this entry is doubled or has the wrong state'),
    4: ('apart', 'input {input} went to {state} sooner than the shortest filter that it can have allows: a time or a filter is wrong'),
    5: ('ignored', 'input {input} has an entry, but it was ignored, and no configuration that was sent since says to report it: the module does not ignore the input, or the entry is of another input'),
    6: ('state', 'input {input} has another state in an answer 181 than by its entries, and neither an overflow (F) nor a configuration that was sent can have hidden a change between: an entry was lost or has the wrong state, or the answer is wrong'),
    7: ('clock', 'the counter of the module went back, and no load that was sent explains it: the module restarted, or a stamp is wrong'),
    8: ('done', 'the module refused to load its counter, but it can load any number'),
    9: ('accepted', 'the module refused a configuration, but each input that it names exists'),
    10: ('cleared', 'the answer gives the flags that are left, and one that the command clears is still set: the module did not clear it'),
    11: ('watchdog', 'the module says that no watchdog was set before, but it has answered a command that sets one: it restarted, or forgot it'),
}

# What a right link does by a rule on content, and when that is judged.
RIGHT = {
    'order': 'An entry is later than the entry above it, or has its time and a higher input, if no block without C ends between them. Judged if a clear block is above the upper entry, the blocks of both are not late, and no load of the counter excuses it.',
    'fresh': 'An entry is later than the stamp of the latest block without C, which had all entries up to that stamp. Judged if that block or one above it is clear, the block of the entry is not late, and no load of the counter excuses it.',
    'alternate': 'The entries of an input have the states 0 and 1 in turn. Judged if the input is watched from the earlier entry on.',
    'apart': 'An entry of an input follows the one before no sooner than the filter for its change lets it. Judged if a clear block is above the earlier entry, the blocks of both are not late, and no load of the counter excuses it. The filter is the least that can be in force: at first 1; an item that is sent can lower it; a block that settles the input sets it to its last item, if the answer to that says done.',
    'ignored': 'An input that is ignored has no entry. Judged if above some block that settles the input its last item ignores it, and the answer to that says done, and no item that is sent below opens the input.',
    'state': 'An answer 181 has the states of the record at its stamp. Judged if a clear block is above the latest 181, neither a late block nor a gap mark is below it, and no load of the counter excuses it: at the first entry later than its stamp, or the end of the first block without C whose stamp is not before it, of each steady input. From there on the next entry of an input has another state, and an input with another state in the next 181 and no entry between is not logged, and has none: till an item of it is sent, if none was since the latest block that settles it.',
    'clock': 'The stamp of a 177, 180 or 181, or of a block without E, is not before the latest one above. Judged if no load of the counter excuses it.',
    'done': 'An answer 178 has no S: a load of the counter is never refused.',
    'accepted': 'An answer 179 has no S, if its configuration names no input above 63.',
    'cleared': 'An answer 177 has none of the flags that its command clears.',
    'watchdog': 'An answer 186 has Y, if another 186 is above.',
}

# The sources of what a rule says of behaviour, and of the octets and bits that it reads.
SOURCES = {
    'readable': ('TEES 2009', 'own profile'),
    'pair': ('TEES 2009', 'TEES 2009'),
    'number': ('TEES 2009', 'TEES 2009'),
    'advance': ('own profile', 'TEES 2009'),
    'same': ('TEES 2009', 'own profile'),
    'sequence': ('TEES 2009 and own profile', 'own profile'),
    'limits': ('TEES 2009 and own profile', 'own profile'),
    'rest': ('TEES 2009', 'own profile'),
    'refusal': ('own profile', 'own profile'),
    'order': ('TEES 2009', 'own profile'),
    'fresh': ('TEES 2009', 'own profile'),
    'alternate': ('TEES 2009', 'own profile'),
    'apart': ('TEES 2009 and own profile', 'own profile'),
    'ignored': ('TEES 2009', 'own profile'),
    'state': ('TEES 2009', 'own profile'),
    'clock': ('TEES 2009', 'own profile'),
    'done': ('own profile', 'own profile'),
    'accepted': ('own profile', 'own profile'),
    'cleared': ('own profile', 'TEES 2009'),
    'watchdog': ('TEES 2009', 'own profile'),
}

# What a breach of `advance` means, if the number is ahead of the block that was due, or behind.
ADVANCE = {
    'ahead': 'the CPU went on without an answer, and what block {due} had may be lost, which TEES allows; or the log lost a line',
    'behind': 'the CPU asks again for a block that was answered; or it did not hear that answer, and the log is not its own',
}
