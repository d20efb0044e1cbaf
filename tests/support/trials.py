"""The list tests/tried.sums: of each crate with wrong bodies the sum of what a trial of them rests on, as it was when all were refused as
they say. `wrong-bodies/try --write` writes it, crate by crate.

A function is proved from the contracts of those that it calls, so of the crates below only what a proof above them can see counts: their
code without the bodies of functions, their definitions and lemmas. Of the crate itself all counts, with its stanzas; so does the kit.
Remarks count nowhere."""

import hashlib
import os
import re

from support.functions import TOP, functions_of, homes_of, read, sources_of, without_bodies
from support.gate import proved
from support.stanzas import edits_of

LIST = os.path.join(TOP, 'tests', 'tried.sums')
HEAD = '''# The crates whose wrong bodies were refused as they say: of each the SHA-256 of what that rests on. `wrong-bodies/try --write` writes this.
'''
# The files of the proof of a function or a law, which no other can cite.
OWN_PROOFS = ('Answers.antt', 'Invariants.antt', 'Proof.antt')
# A remark, with its line if it is alone there, or a text, in which there is none.
REMARKS = {'.rt': re.compile(r'^[ \t]*//[^\n]*\n|//[^\n]*|b?"(?:\\.|[^"\\])*"|b?\'(?:\\.|[^\'\\])\'', re.M | re.S),
           '.antt': re.compile(r'^[ \t]*--[^\n]*\n|"(?:\\.|[^"\\\n])*"', re.M)}


def without_remarks(path, text):
    """A text of a file without its remarks."""
    form = REMARKS.get(os.path.splitext(path)[1])
    return form.sub(lambda found: '' if re.match(r'\s*(?://|--)', found[0]) else found[0], text) if form else text


def sum_of_texts(texts):
    """The sum of texts, by their names."""
    found = hashlib.sha256()
    for name, text in sorted(texts.items()):
        found.update(b'%s %s\n' % (hashlib.sha256(text.encode()).hexdigest().encode(), name.encode()))
    return found.hexdigest()


def texts_of(crate):
    """The files of a crate that are proved, without their remarks."""
    return {path: without_remarks(path, read(os.path.join(TOP, 'crates', crate, path))) for path in proved.files_of(crate)
            if path.endswith(('.rt', '.antt', '.edit'))}


def contracts_of(crate):
    """The sum of what a proof above a crate can see of it."""
    folder, sources = os.path.join(TOP, 'crates', crate), sources_of(crate)
    homes = homes_of(sources)
    bare = {os.path.relpath(path, folder): without_bodies(text, functions_of(path, text, homes)) for path, text in sources.items()}
    texts = {path: text for path, text in texts_of(crate).items()
             if path.startswith('specs/') or path.startswith('proofs/') and os.path.basename(path) not in OWN_PROOFS}
    return sum_of_texts({**texts, **{path: without_remarks(path, text) for path, text in bare.items()}})


def below(crate):
    """The crates that a crate uses, directly or not."""
    uses, found = proved.crates(), set()

    def add(name):
        for one in set(uses[name][1]) - found:
            found.add(one)
            add(one)
    add(crate)
    return found


def sum_of(crate):
    """The sum of what a trial of a crate rests on."""
    return sum_of_texts({'kit': proved.kit() or '', 'line': proved.crates()[crate][0], 'stanzas': read(edits_of(crate)), 'crate': sum_of_texts(texts_of(crate)),
                         **{'below ' + name: contracts_of(name) for name in below(crate)}})


def listed():
    """The sums of the list, by crates."""
    if not os.path.exists(LIST):
        return {}
    with open(LIST, encoding='utf-8') as file:
        return dict(line.split() for line in file if not line.startswith('#'))


def differing(crates):
    """Those of these crates whose sums are not in the list."""
    known = listed()
    return [name for name in crates if known.get(name) != sum_of(name)]


def write(sums):
    """Writes these sums into the list, beside those of other crates, in the order of crates.txt."""
    known = {**listed(), **sums}
    with open(LIST, 'w', encoding='utf-8') as file:
        file.write(HEAD + ''.join('%s %s\n' % (name, known[name]) for name in proved.crates() if name in known))
