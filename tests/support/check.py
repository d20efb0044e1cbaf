"""The counting of rows, for the checks in tests/. Each row has a name; one that fails prints it, with what was expected and
what came instead. The last line of a check is `N passed, M failed`, and its status is 0 if no row failed. With `-k WORD` it
only has the rows whose name has the word in it. A check has a quick form, which `./test` runs, with `--all` its whole form, which
`./test --all` runs, and with `--release` that of a release, which repeats more: it calls `Check.whole` and `Check.release` for the
rows that only these forms have."""

import argparse
import os
import sys

# The most characters of a text that a failing row prints.
SHOWN = 600


def shown(value, place=0):
    """A value as a failing row prints it: a long text is cut around an index."""
    if not isinstance(value, str):
        value = repr(value)
    start = max(0, place - SHOWN // 2) if len(value) > SHOWN else 0
    cut = value[start:start + SHOWN]
    return ('.. ' if start else '') + cut.rstrip('\n') + (' ..' if start + SHOWN < len(value) else '')


class Check:
    """Counts the rows of a check that hold, and prints those that fail."""

    def __init__(self, **settings):
        """Reads the command line: `-k WORD`, `--all`, and the check's own settings. A setting with a number is a word that
        may be given, in order; one with several numbers has one for each form, the last for those below it too; one that is
        `False` is an option, like `--counts`."""
        # The description is the check's own.
        parser = argparse.ArgumentParser(description=sys.modules['__main__'].__doc__)
        parser.add_argument('-k', metavar='WORD', default='', help='only the rows whose name has WORD in it')
        parser.add_argument('--all', action='store_true', help='the whole form, in place of the quick one')
        parser.add_argument('--release', action='store_true', help='the form of a release: the whole one, with more seeds')
        for name, value in settings.items():
            if value is False:
                parser.add_argument('--' + name, action='store_true')
            else:
                parser.add_argument(name, nargs='?', type=int, default=value)
        self.given = parser.parse_args()
        self.given.all |= self.given.release
        for name, value in vars(self.given).items():
            if isinstance(value, tuple):
                now = value[:1 + self.given.all + self.given.release][-1]
                setattr(self.given, name, now)
                if self.given.all and now != value[-1]:
                    print('left to --release: %s %d in place of %d' % (name, value[-1], now))
        self.passed = self.failed = self.skipped = 0

    def wants(self, name):
        """Whether a row of this name is wanted."""
        return self.given.k in name

    def whole(self, name):
        """Returns whether this is the whole form. If not, says that these rows are left to it; `./test` lists them."""
        return self.is_form('all', name)

    def release(self, name):
        """The same of the form of a release."""
        return self.is_form('release', name)

    def is_form(self, form, name):
        is_given = getattr(self.given, form)
        if not is_given and self.wants(name):
            self.skipped += 1
            print('left to --%s: %s' % (form, name))
        return is_given

    def equal(self, name, expected, got):
        """A row: what came is what was expected."""
        if not self.wants(name):
            return
        if got == expected:
            self.passed += 1
            return
        self.failed += 1
        both = isinstance(got, str) and isinstance(expected, str)
        place = len(os.path.commonprefix([expected, got])) if both else 0
        print('FAILED %s\n  expected: %s\n  got: %s' % (name, shown(expected, place), shown(got, place)))

    def holds(self, name, condition, got=''):
        """A row: the condition that its name states holds. If it does not, what was seen is printed."""
        self.equal(name, True, True if condition else got or False)

    def fault(self, name, find, *given):
        """A row: a function of these arguments finds no fault. It is called only if the row is wanted."""
        if self.wants(name):
            self.equal(name, None, find(*given) or None)

    def skip(self, name, why):
        """Rows that cannot be run here. `./test` lists them at its end."""
        if self.wants(name):
            self.skipped += 1
            print('skipped: %s: %s' % (name, why))

    def has_terminal(self, name):
        """Whether there are pseudo-terminals here. If not, skips these rows."""
        try:
            both = os.openpty()
        except OSError:
            self.skip(name, 'no pseudo-terminal here (/dev/pts)')
            return False
        for one in both:
            os.close(one)
        return True

    def end(self):
        """Prints the last line, and ends."""
        if not (self.passed or self.failed or self.skipped):
            print('no row has %r in its name' % self.given.k if self.given.k else 'no row was run')
        print('%d passed, %d failed' % (self.passed, self.failed))
        sys.exit(0 if self.failed == 0 and (self.passed or self.skipped) else 1)
