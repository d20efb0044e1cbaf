"""Wrong bodies: the text that each one changes is in its file exactly once; it has a name of its own, and says what refuses
it. Those without texts are the edits of the folders `must-fail`, for `rt ci`. `wrong-bodies/try` tries whether the prover refuses
them."""

import os

from support.pages import files
from support.stanzas import crates_with_stanzas, stanzas_of, texts_of


def fault_of(stanza, names):
    """Returns what is wrong with a stanza, or None."""
    if stanza.apply(texts_of(stanza.crate, stanza.files())) is None:
        return 'what it changes is not in its file once'
    if names.count(stanza.name) > 1:
        return 'another one has its name'
    count = sum(line.startswith('refused-by:') for line in stanza.lines)
    return None if count == 1 else 'it has %d lines `refused-by:`' % count


def rows(check):
    """Compares the stanzas with the sources and with the edits of `rt ci`."""
    of_gate = []
    for crate in crates_with_stanzas():
        stanzas = list(stanzas_of(crate))
        names = [stanza.name for stanza in stanzas]
        for stanza in stanzas:
            check.fault('%s: %s' % (crate, stanza.name), fault_of, stanza, names)
        of_gate += [stanza for stanza in stanzas if stanza.is_of_gate]
    of_kit = {os.path.basename(path)[:-len('.edit')].replace('-', ' ') for path in files('crates/*/must-fail/*.edit')}
    differ = {stanza.name for stanza in of_gate} ^ of_kit
    check.holds('must-fail: the bodies of the stanzas without texts', not differ, 'not in both: %s' % ', '.join(sorted(differ)))
    for stanza in of_gate:
        check.holds('must-fail: %s: one change' % stanza.name, len(stanza.changes) == 1, '%d' % len(stanza.changes))
