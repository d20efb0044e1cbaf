"""What `./test` prints: a line or the whole of each part as it ends, and at the end what each cost, what was left, what was skipped, what
failed, and the totals. What keeps such an output may cut its middle, so what failed is last, and short enough to be kept."""

import sys

# The most characters of what failed at the end, and of what one row said there; and how many a row is named with.
MOST, MOST_OF_ROW, NAMED = 12_000, 1_300, 300


def minutes(seconds):
    """A time as one says it."""
    return '%d s' % round(seconds) if seconds < 99.5 else '%.1f minutes' % (seconds / 60) if seconds < 595 else '%d minutes' % round(seconds / 60)


def cut(text, most):
    """A text of at most so many characters, with its beginning and its end."""
    return text if len(text) <= most else text[:most // 2] + ' .. ' + text[-(most // 2):]


def told(parts):
    """What failed: of each row its name, what it said, and the command that runs it by itself. If all that is long, each row says less,
    and of very many rows only the first are named."""
    faults = [(part.name, *fault) for part in parts for fault in part.faults]
    share = min(MOST // max(len(faults), 1) - NAMED, MOST_OF_ROW)
    lines = ['%s: %s\n%s    %s' % (part, cut(name, NAMED // 2), cut(said.rstrip('\n'), share) + '\n' if said and share > 0 else '', command)
             for part, name, said, command in faults]
    shown = MOST // NAMED
    return lines if len(lines) <= shown else lines[:shown] + ['and %d more' % (len(lines) - shown)]


class Report:
    """The lines of a run of so many parts."""

    def __init__(self, count, out=sys.stdout):
        self.count, self.out, self.ended = count, out, 0
        self.is_terminal = out.isatty()
        # What is left to `--all`, and what needs the kit.
        self.left, self.needing = [], []

    def print(self, text):
        self.out.write(text if text.endswith('\n') else text + '\n')
        self.out.flush()

    def begin(self, part):
        """A part begins whose lines are told as they come."""
        self.print('== %s' % part.command())

    def hear(self, line):
        """A line of such a part."""
        self.print(line)

    def end_of(self, part, was_told):
        """A part has ended. On a terminal it has one line."""
        self.ended += 1
        place = '%d of %d' % (self.ended, self.count)
        if was_told:
            self.print('== %s: %s has ended' % (place, part.command()))
        elif self.is_terminal:
            self.print('%8s  %s: %d passed, %s, %s' % (place, part.command(), part.passed, '%d FAILED' % part.failed if part.failed else '0 failed',
                                                       minutes(part.seconds)))
        else:
            self.print('== %s: %s\n%s' % (place, part.command(), part.text))

    def show(self, title, lines):
        """Some lines below a title, if there are any."""
        if lines:
            self.print('== %s\n%s' % (title, '\n'.join(lines)))

    def end(self, parts, is_kit_hidden):
        """The end of a run. Returns whether nothing failed."""
        skipped = [(part.name, one) for part in parts for one in part.noted('skipped')]
        # The kit is here, and `./test` did without.
        left = [one for one in skipped if is_kit_hidden and ': no rt here' in one[1]]
        self.show('cost of each part: time, time of a processor', ['%6d s %6d s  %s' % (round(part.seconds), round(part.used), part.name)
                                                                   for part in sorted(parts, key=lambda one: -one.used)])
        self.show('not run, since they need the Rattle kit (README.md, What is trusted)', self.needing)
        self.show('left to ./test --all', self.left + ['%s: %s' % (part.name, one) for part in parts for one in part.noted('left to --all')]
                  + ['%s: %s' % (name, one.partition(': no rt here')[0]) for name, one in left])
        self.show('left to ./test --release', ['%s: %s' % (part.name, one) for part in parts for one in part.noted('left to --release')])
        self.show('skipped', ['%s: %s' % one for one in skipped if one not in left])
        self.show('FAILED, each with how it is run by itself', told(parts))
        failed = sum(part.failed for part in parts)
        self.print('%d passed, %d failed' % (sum(part.passed for part in parts), failed))
        return failed == 0
