"""Licences: LICENSES-OF-OTHERS has each crate of the Rattle kit that those here use, and those that these use; with the kit, the text of
each is the kit's own."""

import os
import re

from support.functions import crate_names
from support.pages import text_of
from support.tables import CAN_PROVE

PAGE = 'LICENSES-OF-OTHERS'
# Crates of the kit that only another one of the kit uses.
BELOW = {'strsim'}
FORM = re.compile(r'^=+\n(\w+): a port of [^\n]*\n=+\n\n(.*?\n)(?=\n=|\Z)', re.M | re.S)
NAMES = ('LICENSE', 'LICENSE-MIT')


def used():
    """The crates of the kit in crates.txt."""
    words = {word for line in text_of('crates.txt').splitlines() for word in line.partition(':')[2].split()}
    return words - set(crate_names())


def texts_of_kit(crate):
    """The texts of the licences of a crate of the kit."""
    from support.kit import rtlib
    folder = os.path.join(rtlib().KIT, 'rattle', crate)
    paths = [os.path.join(folder, name) for name in NAMES if os.path.exists(os.path.join(folder, name))]
    return [open(path, encoding='utf-8').read().rstrip('\n') + '\n' for path in paths]


def rows(check):
    """Compares the page with crates.txt, and with the kit."""
    found = dict(FORM.findall(text_of(PAGE)))
    check.equal('licences of others: the crates', sorted(used() | BELOW), sorted(found))
    for crate, text in found.items():
        if CAN_PROVE:
            check.holds('licences of others: the text of %s' % crate, text in texts_of_kit(crate), text[:300])
    if not CAN_PROVE:
        check.skip('licences of others: their texts', 'no rt here (the Rattle kit)')
