"""The planted faults of tests/support/c/planted that tests/conformance.py names, and what it requires of each."""

import re

# Planted faults for which simulate runs a script too.
REPLAYED = [
    ('module', 'E is not set'), ('module', 'F is not set'), ('module', '1 comes after 255'),
    ('module', 'a repeat has a new stamp'), ('module', 'ignored inputs are reported'),
    ('module', 'filters are exchanged'), ('module', 'filter of 0 acts as 2'), ('module', 'load happens at once'),
    ('module', 'blocks have 254 entries'), ('module', 'an absent input is passed over'),
    ('module', 'the newest entry is pushed out'), ('module', 'counter outlasts a restart'),
    ('module', 'an octet too many is accepted'),
    ('cpu', 'a block without entries leaves the number'), ('cpu', 'the second poll for a block raises the number'),
    ('cpu', 'there are no gap marks'), ('cpu', 'states are turned'), ('cpu', 'entries are in the other order'),
    ('cpu', 'blocks with G are refused')]

# Faults of one octet, and the field that the report names.
OF_PARTS = [('the first entry of a full block is turned', 'entry 1, octet 3: '), ('the 100th entry of a full block is turned', 'entry 100, octet 300: '),
            ('the last entry of a full block is turned', 'entry 255, octet 765: '), ('control octets are not kept', 'the outputs, '),
            ('the last control octet is not kept', 'the outputs, ')]

# What a planted fault breaks: rules that the report names for it.
NAMED = {
    'E is not set': 'sent-again', 'F is not set': 'lost', '1 comes after 255': 'zero-after-255',
    'a repeat has a new stamp': 'repeat', 'ignored inputs are reported': 'ignored-input',
    'filters are exchanged': 'leading-filter', 'filter of 0 acts as 2': 'filter-of-zero',
    'load happens at once': 'load-at-sync', 'blocks have 254 entries': 'block-size',
    'an absent input is passed over': 'absent-input', 'the newest entry is pushed out': 'pushed-out',
    'counter outlasts a restart': 'restart', 'an octet too many is accepted': 'wrong-length',
    'a block without entries leaves the number': 'empty-block',
    'the second poll for a block raises the number': 'same-until-taken', 'there are no gap marks': 'gap-mark',
    'states are turned': 'items-in-order', 'outputs are 1 at the start': 'outputs-kept',
    'the number rises by two': 'number-rises', 'blocks with E are refused': 'taken-whole',
    'blocks with C are refused': 'taken-whole', 'blocks with bit 4 are refused': 'unnamed-bits',
    'blocks without entries have no gap mark': 'gap-mark', 'gap marks come with E': 'gap-mark',
    'trailing filter takes one sample more': 'trailing-filter', 'filters are 4 at the start': 'filters-at-start',
    'filters are 6 at the start': 'filters-at-start', 'inputs are reported at the start': 'filters-at-start',
    'states of ignored inputs never change': 'ignored-input', 'a poll starts samples anew': 'samples-anew',
    'a configuration starts samples of all inputs anew': 'samples-anew',
    'a refused configuration starts samples anew': 'absent-input', 'line sync starts samples anew': 'samples-anew',
    'a load starts samples anew': 'samples-anew', 'samples before a configuration count': 'samples-anew',
    'a configuration empties the buffer': 'block-size', 'line sync drops waiting entries': 'block-size',
    'a load drops waiting entries': 'block-size', 'a status drops waiting entries': 'block-size',
    'entries of inputs that become ignored are dropped': 'block-size',
    'waiting entries are dropped after 255 ms without a frame': 'block-size',
    'a refused configuration drops waiting entries': 'absent-input',
    'an entry with the stamp 0 is dropped': 'entry', 'it ends at an empty frame': 'empty-frame',
    'it ends at frames of type 255': 'unknown-type', 'it ends at the 100th repeat': 'sent-again',
    'it hangs at command 59': 'no-answer', 'the CPU ends at an empty frame': 'unreadable',
    'the CPU hangs at 256 items': 'gap-mark'}

# The rule for a frame that is refused for its length.
OF_LENGTH = {'module': 'frame-length', 'cpu': 'block-length'}

# The number of events of a run over a wire: within it each fault is found.
EVENTS = 20000

# Other seeds, and how many of 1,000 faults each may miss.
SEEDS, MISSED = (2, 3, 4), 10

# The most events of a script that was shrunk, except for faults that need long runs.
SHORT = 60

# Faults that are found over a wire in a module with a clock of its own, within 40,000 events.
BY_BOUNDS = ['E is not set', 'a repeat has a new stamp', 'state of an entry is turned', '1 comes after 255',
             'entries of a scan come in descending order', 'C is not set', 'counter steps by two',
             'stamp of a block has 16 bits', 'answer 183 has a stamp of 0', 'ignored inputs are reported',
             'load happens at once', 'first of two loads holds', 'input 63 is not sampled']

# Faults of a module that come late, with their rules, the events of a run that finds them, and words of the report on its
# script.
LATE = 200000
TOO_LONG = [('a millisecond is lost each 65,536 scans', 'block-stamp'), ('the flag P is lost after 60,000 ms', 'flags-at-start')]
OF_BOUND = '\n# A shorter script may show it too: shrinking stopped at its bound.\n'
OF_REPLAY = '\n# Only --replay runs this script: simulate reads at most 1,048,576 octets.\n'

# Answers the lines of a module slowly, and sets E in no block of more than 60 entries.
SLOW = """import sys, time
for line in sys.stdin:
    time.sleep(0.004)
    if line.startswith('answer b6') and len(line) > 380:
        line = line[:-10] + '%x' % (int(line[-10], 16) & 13) + line[-9:]
    print(line, end='', flush=True)"""

# Faults that are found over a wire in a CPU's end, and lines of one that are none, with what is said of them.
BY_LINES = ['states are turned', 'there are two gap marks', 'wide times are the stamp', 'stamps have 15 bits', 'polls have no number',
            'the number that it says is the next one', 'after exactly 14 lost answers a block is recorded twice',
            'the CPU ends at the 120th poll for a block']
WRONG_LINES = [('^frame/answer', 'neither octets nor `none`: answer 3600, '), ('^record/x', 'no `record`: x 0'),
               ('gap/x', 'no `record`: record 01 x'), ('^\\(record .* .*\\)....$/\\1', 'no `record`: record 01 ')]

# Faults that recur after their rule was passed over.
LASTING = [('module', 'a status drops waiting entries'), ('module', 'the 1,025th entry is dropped'),
           ('module', 'entries carry the high half of the counter; filters are 0 at the start'),
           ('module', 'filtered states are 0 at the start'),
           ('cpu', 'gap marks come with G; states are turned')]

# Modules over a wire that end or hang: the fault, the last line that they were asked, and what is said about it.
FAILING = [('it ends at 255 items', 'frame 33ff', 'it ended, by signal 11'),
           ('it hangs at command 59', 'frame 3b', 'it wrote no line in time, and was killed'),
           ('it ends at the 100th repeat', 'frame 36', 'it ended, by signal 11')]

# Passes the lines of a module on, and flips E in every 800th block.
NOW_AND_THEN = """import sys
blocks = 0
for line in sys.stdin:
    blocks += line.startswith('answer b6')
    if line.startswith('answer b6') and blocks % 800 == 0:
        line = line[:-10] + '%x' % (int(line[-10], 16) ^ 2) + line[-9:]
    print(line, end='', flush=True)"""


def is_long(name):
    """Whether a fault comes only after many events: its name has a number above 12, or says so."""
    numbers = [int(number.replace(',', '')) for number in re.findall(r'\d[\d,]*', name)]
    return any(number > 12 for number in numbers) or re.search('filter|came round|57 entries|overflow', name)
