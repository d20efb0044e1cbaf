#!/usr/bin/env -S python3 -B
"""Runs the built program on random octets, random lines and mutated texts, 500 inputs for each tool, with `--all` 2,000 and with `--release` 6,000,
from a fixed seed: each run ends within ten seconds of a processor with status 0 or 1, writes only lines of the known forms, and its status
says whether they report a fault. `tests/random-inputs.py SEED COUNT` takes another seed and another number of inputs for
each tool. Last line: `N passed, M failed`."""

import concurrent.futures
import os
import random
import re
import signal
import subprocess

from support.check import Check
from support.frames import random_frame
from support.pages import text_of
from support.tables import MOST_WAITING, TOP, can_simulate, program, program_of
from support.waits import LONGEST

TOOLS = ('show', 'simulate', 'check', 'record') if can_simulate() else ('show', 'check', 'record')
SECONDS = 10


def rules(head):
    """The rules in a table of docs/FORMATS.md with this head."""
    table = text_of('docs/FORMATS.md').partition('| RULE | %s |' % head)[2].partition('\n\n')[0]
    return re.findall(r'^\| `(\w+)` \|', table, re.M)


FAULT = r'(?:empty|too long got \d+|unknown type \d+|wrong length needed \d+ got \d+)'
FAULTY_LINE = re.compile(r'line (\d+): (?:bad line|%s)' % FAULT)
SHOWN = re.compile('|'.join([
    r'status clear HH', r'load counter N', r'configure inputs N', r'raw inputs', r'filtered inputs',
    r'poll block N', r'set outputs data H16 control H16', r'watchdog ms N', r'identify',
    r'status flags HH receive N transmit N stamp N', r'counter load status HH', r'configure status HH',
    r'(?:raw|filtered) inputs H16 stamp N', r'block N entries N status HH stamp N', r'watchdog status HH',
    r'other N body (?:(?:HH)+|-)',
]).replace('H16', '[0-9a-f]{16}').replace('HH', '[0-9a-f]{2}').replace('N', r'\d+'))
COUNTED = re.compile(r'(?:configure inputs|block \d+ entries) (\d+)')
SHOWN_PART = re.compile(r'  input \d+ (?:ignore [01] leading \d+ trailing \d+|state [01] stamp \d+ wide \d+)')
SCRIPT_FAULT = re.compile(r'line 1: bad header|line \d+: (?:too many events|bad line|bad frame %s)' % FAULT)
OUTCOME = re.compile(r'(\d+) (?:quiet|sent \d+ (?:[0-9a-f]{2})+|block entries \d+ status [0-9a-f]{2}|stale \d+'
                     r'|other \d+|unreadable %s)' % FAULT)
REFUSED_EVENT = re.compile(r'(\d+) refused (?:not sent \d+|out of order \d+ after \d+|poll is ours)')
ITEM = re.compile(r'gap|input \d+ state [01] stamp \d+ wide \d+')
ENDS = [re.compile(word + r' \d+') for word in ('counter', 'number', 'waiting', 'record')]
VERDICT = re.compile(r'good \d+ frames')
BROKEN = re.compile(r'line \d+ breaks (?:%s)|line \d+: bad line' % '|'.join(rules('Broken by a line that')))
CONTENT = 'In a right link'
# The rules whose breach names an input.
OF_INPUTS = re.findall(r"\('(\w+)',\s+'input ", text_of('bindings/python/fiolog/protocol.py'))
BROKEN_CONTENT = re.compile(r'line \d+ input \d+ breaks (?:%s)|line \d+ breaks (?:%s)' % (
    '|'.join(OF_INPUTS), '|'.join(one for one in rules(CONTENT) if one not in OF_INPUTS)))


def lines_that_say(text):
    """The numbers of the lines that are neither empty nor a remark."""
    lines = text.split(b'\n')
    return [place for place, line in enumerate(lines, 1) if line and not line.startswith(b'#')]


def is_show(text, lines, status):
    """There is one line for each line that has content, with its number if it is faulty, and one for each part."""
    places = iter(lines_that_say(text))
    faults = parts = 0
    for line in lines:
        if parts and SHOWN_PART.fullmatch(line):
            parts -= 1
            continue
        place = next(places, None)
        faulty = FAULTY_LINE.fullmatch(line)
        if parts or place is None or not (SHOWN.fullmatch(line) or faulty and int(faulty.group(1)) == place):
            return False
        faults += faulty is not None
        counted = COUNTED.match(line)
        parts = int(counted.group(1)) if counted else 0
    return parts == 0 and next(places, None) is None and status == (1 if faults else 0)


def is_simulate(_, lines, status):
    """Events are reported in order, and then the ends, or a refused event, or the one faulty line."""
    if len(lines) == 1 and SCRIPT_FAULT.fullmatch(lines[0]):
        return status == 1
    done = 0
    while done < len(lines) and OUTCOME.fullmatch(lines[done]):
        if int(lines[done].split()[0]) != done + 1:
            return False
        done += 1
    rest = lines[done:]
    if len(rest) == 1:
        refused = REFUSED_EVENT.fullmatch(rest[0])
        return refused is not None and int(refused.group(1)) == done + 1 and status == 1
    items = rest[4:]
    return (len(rest) >= 4 and all(form.fullmatch(line) for form, line in zip(ENDS, rest))
            and all(ITEM.fullmatch(line) for line in items)
            and int(rest[3].split()[1]) == len(items) and status == 0)


def is_check(text, lines, status):
    """There is one line, and if it is good it counts the lines that have content."""
    if len(lines) != 1:
        return False
    if VERDICT.fullmatch(lines[0]):
        return status == 0 and int(lines[0].split()[1]) == len(lines_that_say(text))
    return BROKEN.fullmatch(lines[0]) is not None and status == 1


def is_record(_, lines, status):
    """A line of `check`; or the record, and the line for the breach of a rule on content if there is one."""
    if len(lines) == 1 and BROKEN.fullmatch(lines[0]):
        return status == 1
    items = lines[1:-1] if status else lines[1:]
    return (len(lines) > status and lines[0] == 'record %d' % len(items) and all(ITEM.fullmatch(line) for line in items)
            and (status == 0 or BROKEN_CONTENT.fullmatch(lines[-1]) is not None))


FORMS = {'show': is_show, 'simulate': is_simulate, 'check': is_check, 'record': is_record}


def is_known(tool, text, told_octets, status):
    """Whether the program wrote lines of the known forms, and ended with their status."""
    if status not in (0, 1):
        return False
    written = told_octets.decode('latin-1')
    if written and not written.endswith('\n'):
        return False
    return FORMS[tool](text, written.split('\n')[:-1], status)


class Inputs:
    """Random inputs for the tools."""

    def __init__(self, seed):
        self.random = random.Random(seed)
        self.examples = {'show': [], 'simulate': [], 'check': []}
        self.examples['record'] = self.examples['check']
        kinds = {'.frames': 'show', '.script': 'simulate', '.transcript': 'check'}
        folder = os.path.join(TOP, 'examples')
        for name in sorted(os.listdir(folder)):
            tool = kinds.get(os.path.splitext(name)[1])
            if tool:
                with open(os.path.join(folder, name), 'rb') as file:
                    self.examples[tool].append(file.read())

    def digits(self):
        """A message, right or nearly right, in hexadecimal digits of either case."""
        digits = random_frame(self.random).hex().encode()
        return digits.upper() if self.random.random() < 0.1 else digits

    def event(self, sent):
        """A line of a script, seldom a wrong one; `sent` counts roughly the frames of each direction."""
        kind = self.random.random()
        if kind < 0.01:
            return self.random.choice([b'scan 00', b'to-cpu 0000000000', b'poll ', b'sync\r', b'to-module 0'])
        if kind < 0.25:
            levels = [bytes([254]) + bytes([255]) * 7, bytes([255]) * 8, bytes(8), self.random.randbytes(8)]
            return b'scan ' + self.random.choice(levels).hex().encode()
        if kind < 0.45:
            sent[0] += 1
            return b'poll'
        if kind < 0.6:
            sent[0] += 1
            frames = [b'3302000101010101', b'34', b'3c', b'3200010000', b'3180', b'3ac8', b'38']
            return b'send ' + (self.digits() if self.random.random() < 0.05 else self.random.choice(frames))
        if kind < 0.78 and sent[0]:
            sent[1] += 1
            return b'to-module %d' % self.near(sent[0])
        if kind < 0.92 and sent[1]:
            return b'to-cpu %d' % self.near(sent[1])
        return self.random.choice([b'sync', b'raise %02x' % self.random.randrange(256), b'restart', b'', b'# ..'])

    def near(self, number):
        """This number, or seldom another one near it."""
        return number if self.random.random() < 0.95 else number + self.random.choice([-1, 1])

    def script(self):
        """The lines of a script."""
        header = self.random.choice([b'fio2070 script 1 2 0', b'fio2070 script 2 2 255', b'fio2070 script 2 2 0',
                                     b'fio2070 script 3 2 0 1 1024', b'fio2070 script 3 2 7 255 %d' % MOST_WAITING])
        if self.random.random() < 0.1:
            header = b'fio2070 script 3 2 0 %d %d' % (self.random.randrange(300), self.random.randrange(9_000))
        sent = [0, 0]
        return [header] + [self.event(sent) for _ in range(self.random.randrange(40))]

    def transcript(self):
        """The lines of a transcript, many of which keep the rules."""
        number, lines = self.random.randrange(256), []
        for _ in range(self.random.randrange(12)):
            lines.append(self.random.choice([b'> 36%02x' % number, b'> ' + self.digits()]))
            if self.random.random() < 0.7:
                body = self.random.choice([b'0000000003e8', b'018c03e700000003e8'])
                block = b'b6%02x' % number + body
                lines.append(b'< ' + self.random.choice([block, block, self.digits()]))
                number = (number + 1) % 256
        return lines

    def lines(self, tool):
        """Lines that are right or nearly right."""
        if tool == 'simulate':
            return self.script()
        if tool in ('check', 'record'):
            return self.transcript()
        return [self.digits() for _ in range(self.random.randrange(12))]

    def mutated(self, text):
        """The text with some octets or lines changed, removed, doubled or inserted."""
        for _ in range(self.random.randrange(1, 6)):
            place = self.random.randrange(len(text) + 1)
            end = min(len(text), place + self.random.choice([1, 1, 2, 16]))
            other = self.random.randrange(len(text) + 1)
            mark = self.random.choice([b' ', b'\n', b'#', b'0', b'f', b'\r', b'\0', b'> ', b'< '])
            text = self.random.choice([
                text[:place] + self.random.randbytes(1) + text[end:],
                text[:place] + mark + text[place:],
                text[:place] + text[end:],
                text[:place] + text[place:end] + text[place:],
                text[:place],
                text[:other] + text[place:end] + text[other:],
            ])
        return text

    def input(self, tool):
        """An input of one of four kinds."""
        kind = self.random.randrange(8)
        if kind == 0:
            return self.random.randbytes(self.random.randrange(300))
        if kind == 1:
            letters = b'0123456789abcdefABCDEF><# \n\n\r-polsendcamturi'
            return bytes(self.random.choice(letters) for _ in range(self.random.randrange(300)))
        if kind in (2, 3):
            return self.mutated(self.random.choice(self.examples[tool]))
        text = b'\n'.join(self.lines(tool))
        return self.mutated(text) if kind in (4, 5) else text


def run(case):
    """How the run of a case ends, and what is wrong with it, or None."""
    _, tool, text = case
    try:
        done = subprocess.run(['sh', '-c', 'ulimit -t %d; exec "$0" "$1"' % SECONDS, program_of(tool), tool], input=text, stdout=subprocess.PIPE,
                              stderr=subprocess.PIPE, timeout=LONGEST)
    except subprocess.TimeoutExpired:
        return None, 'it waits'
    if done.returncode == -signal.SIGXCPU:
        return None, 'no end within %d seconds of a processor' % SECONDS
    if done.stderr or not is_known(tool, text, done.stdout, done.returncode):
        return done.returncode, 'status %d, and wrote %r' % (done.returncode, (done.stdout + done.stderr)[:1000])
    return done.returncode, None


def main():
    check = Check(seed=2070, count=(500, 2000, 6000))
    seed, count = check.given.seed, check.given.count
    # Has the program built if it is not.
    program()
    inputs = Inputs(seed)
    drawn = [(tool, place, inputs.input(tool)) for place in range(count) for tool in TOOLS]
    cases = [('%s input %d' % (tool, place), tool, text) for tool, place, text in drawn]
    cases = [case for case in cases if check.wants(case[0])]
    statuses = {tool: [0, 0] for tool in TOOLS}
    with concurrent.futures.ThreadPoolExecutor(os.cpu_count()) as pool:
        for (name, tool, text), (status, fault) in zip(cases, pool.map(run, cases)):
            check.equal(name, None, fault and '%s of %r' % (fault, text))
            if fault is None:
                statuses[tool][status] += 1
    for tool in TOOLS:
        print('%-8s %d inputs with status 0, %d with status 1' % (tool, *statuses[tool]))
    print('%d random inputs from seed %d' % (len(cases), seed))
    check.end()


main()
