"""The first page, README.md: how long it is, and its two figures of evidence, which are those of the wrong bodies and of
docs/TESTS.md."""

import re

from support.pages import text_of
from support.stanzas import crates_with_stanzas, stanzas_of

PAGE, TESTS = 'README.md', 'docs/TESTS.md'
MOST_WORDS = 800
# A figure that begins with *some* is right to this part.
ROOM = 0.05
BODIES = r'some ([\d,]+) functions with a planted bug'


def rows(check):
    """Counts the words, and compares the figures."""
    words = len(text_of(PAGE).split())
    check.holds('the first page has at most %d words' % MOST_WORDS, words <= MOST_WORDS, '%d' % words)
    there = sum(1 for crate in crates_with_stanzas() for _ in stanzas_of(crate))
    said = [int(one.replace(',', '')) for one in re.findall(BODIES, text_of(PAGE))]
    check.holds('the number of wrong bodies in ' + PAGE, len(said) == 1 and abs(said[0] - there) <= ROOM * there, '%s; there are %d' % (said, there))
    for form in (r'([\d,]+) (?:random )?scans', r'([\d.]+ million) frames lost'):
        check.equal('the soak of %s is that of %s: %s' % (PAGE, TESTS, form), re.findall(form, text_of(TESTS))[:1], re.findall(form, text_of(PAGE)))
