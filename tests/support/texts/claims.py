"""Claims: what the documents promise is what the contracts say, by the names of clauses.

The sections "What is proved" of README and docs/PROVED.md: each numbered sentence, and each other one that says *proved*, ends with brackets
that name what carries it; if it begins with a crate, functions are only looked for in that crate. Between semicolons
the brackets have one of the forms

    `accepted` and `refused` of `decode_command` and `read_block`    clauses of public functions
    `rising` of `IsSoundRun`                                         fields of a definition
    the clause of `check_trace`                                      the one clause, which has no name
    each export of `fio_c`                                           each has clauses and no `requires`
    the gate, `rt ci`                                                `./test` runs it

In docs/PROMISES.md the columns *Law* and *Field* name laws and fields that exist, and the brackets of *What is proved* in the head
of a crate's `src/lib.rt` its clauses."""

import re

from support.functions import crate_names, functions_in, laws_in, sources_of
from support.pages import files, section, text_of

LIST = r'`[^`]+`(?:, `[^`]+`)*(?: and `[^`]+`)?'

# Sentences of a section, each with the words with which the check has to find it at fault.
SENTENCES = [
    ('1. **`fio_cpu`** takes the present block (`taken` and `unchanged` of `Poller::hear`).', None),
    ('1. **`fio_world`** keeps order (`headline` of `World::run`; `rising` of `IsSoundRun`).', None),
    ('1. **`fio_tool`** writes the text (`text` of `show_text` and `check_text`).', None),
    ('1. **`fio_check`** gives the verdict (the clause of `check_trace`).', None),
    ('These promises matter most.', None),
    ('1. **`fio_cpu`** takes every block.', 'names no clause'),
    ('1. **`fio_cpu`** takes a block (see below).', 'names no clause'),
    ('1. **`fio_cpu`** takes a block\n   (`taken` of `Poller::hear`). It\n   loses none.', 'names no clause'),
    ('1. **`fio_module`** takes a block (`taken` of `Poller::hear`).', 'no public `Poller::hear` in `fio_module`'),
    ('1. **`fio_cpu`** takes a block (`taken` of `Poller::hear`). It loses none.', 'names no clause'),
    ('Every function is proved to end.', 'names no clause'),
    ('It is **proved**, and so on (by hand).', 'names no clause'),
    ('1. It takes blocks (`accepted` of `Poller::hear`).', '`Poller::hear` has no clause `accepted`'),
    ('1. It takes blocks (`taken` of `Poller::hear` and `Poller::poll`).', '`Poller::poll` has no clause `taken`'),
    ('1. It takes blocks (`taken` of `Poller::listen`).', 'there is no public `Poller::listen`'),
    ('1. It takes blocks (`taken` of `Poller::hear_block`).', 'there is no public `Poller::hear_block`'),
    ('1. It takes blocks (the clause of `Poller::hear`).', '`Poller::hear` has no clause without a name'),
    ('1. The record rises (`rising` of `IsSound`).', '`IsSound` has no clause `rising`'),
    ('1. Each is right (each export of `fio_cpu`).', 'an export of `fio_cpu`'),
    ('1. Each is right (each export of `fio_c`; `no` of `run_tool`).', '`run_tool` has no clause `no`'),
]


def contracts():
    """The functions and laws of all crates, by their crates."""
    found = {crate: sources_of(crate) for crate in crate_names()}
    return {crate: functions_in(sources) + laws_in(sources) for crate, sources in found.items()}


def records():
    """The fields of each record that a definition names."""
    found = {}
    for path in files('crates/*/specs/*.antt'):
        for name, fields in re.findall(r'^pub record (\w+)(.*?)(?=^\S|\Z)', text_of(path), re.M | re.S):
            found.setdefault(name, set()).update(re.findall(r'^  pub (\w+) :', fields, re.M))
    return found


def first(faults):
    """The first of these that is not None, or None."""
    return next(filter(None, faults), None)


class Judge:
    """What the contracts say, and the check that counts the rows."""

    def __init__(self, check):
        self.check, self.contracts, self.records = check, contracts(), records()

    def public(self, name, crate=None):
        """The public functions and laws of this name, which may have modules before it, in one crate or in all."""
        return [one for its, found in self.contracts.items() if crate in (None, its) for one in found
                if one.is_public and name.endswith(one.label()) and ('::' + one.place()).endswith('::' + name)]

    def fault_at(self, target, clause, crate=None):
        """Why a function or a definition does not have this clause or field; '' is the clause without a name."""
        found = self.public(target, crate)
        if not found and target not in self.records:
            return 'there is no public `%s`' % target + (' in `%s`' % crate if crate else '')
        names = [name for one in found for name in one.clauses()] + sorted(self.records.get(target, []))
        if clause in names:
            return None
        return '`%s` has no clause %s' % (target, '`%s`' % clause if clause else 'without a name')

    def fault_of_exports(self, crate):
        exports = [one for one in self.contracts.get(crate, ()) if one.is_export()]
        bad = [one for one in exports if re.search(r'\brequires\b', one.head) or not one.clauses()]
        if exports and not bad:
            return None
        return 'an export of `%s` has no clause, or a `requires`: %s' % (crate, [one.label() for one in bad])

    def fault_of_claim(self, claim, crate=None):
        """Why a claim between semicolons is not carried, or None."""
        if claim == 'the gate, `rt ci`':
            return None if re.search(r"^GATE = \['rt', 'ci'\]$", text_of('tests/support/gate/parts.py'), re.M) else '`./test` does not run `rt ci`'
        exports = re.fullmatch(r'each export of `(\w+)`', claim)
        if exports:
            return self.fault_of_exports(exports[1])
        found = re.fullmatch(r'(?:the clause|(%s)) of (%s)' % (LIST, LIST), claim)
        if found is None:
            return 'names no clause'
        clauses = re.findall(r'`([^`]+)`', found[1]) if found[1] else ['']
        targets = re.findall(r'`([^`]+)`', found[2])
        return first(self.fault_at(target, clause, crate) for target in targets for clause in clauses)

    def fault_of(self, claims, crate=None):
        return first(self.fault_of_claim(claim, crate) for claim in claims.split('; '))

    def fault_of_sentence(self, sentence):
        brackets = re.search(r'\(([^()]*)\)\.$', sentence)
        crate = re.match(r'\*\*`(\w+)`\*\*', sentence)
        return self.fault_of(brackets[1], crate and crate[1]) if brackets else 'names no clause'

    def holds(self, where, what, fault):
        """A row: what a page says has no fault."""
        self.check.equal('%s: %s' % (where, what), None, fault)


def claiming_sentences(text):
    """The sentences of a section that have to name a clause: the numbered ones, and those that say *proved*."""
    for paragraph in re.split(r'\n(?=\d+\. )|\n{2,}', text):
        item = re.match(r'\s*\d+\. ', paragraph)
        words = ' '.join((paragraph[item.end():] if item else paragraph).split())
        for sentence in re.split(r'(?<=\.) (?=[A-Z`*\[])', words):
            if sentence and (item or re.search(r'\bproved\b', sentence)):
                yield sentence


def cells(text, column):
    """The cells of a column in the tables of a text that have it."""
    place = None
    for line in text.split('\n'):
        row = [cell.strip() for cell in line.split('|')]
        if not line.startswith('|'):
            place = None
        elif place is None:
            names = [name.split(' of ')[0] for name in row]
            place = names.index(column) if column in names else -1
        elif place >= 0 and not row[place].startswith('---'):
            yield row[place]


def check_itself(judge):
    """The check finds a fault where it has to, and nowhere else."""
    for text, expected in SENTENCES:
        found = first(judge.fault_of_sentence(sentence) for sentence in claiming_sentences(text))
        is_right = found is None if expected is None else expected in (found or '')
        judge.holds('the check of claims', text, None if is_right else 'is found to be at fault by %s' % found)


def check_sentences(judge):
    """The sentences of README, of docs/PROVED.md, and of "The ten promises" of docs/PROMISES.md, which have the same form: at
    least this many."""
    for name, heading, least in (('README.md', 'What is proved', 2), ('docs/PROVED.md', 'What is proved', 4),
                                 ('docs/PROMISES.md', 'The ten promises', 11)):
        found = list(claiming_sentences(section(name, '## ' + heading)))
        judge.holds(name, heading, None if len(found) >= least else 'has %d sentences' % len(found))
        for sentence in found:
            judge.holds(name, sentence, judge.fault_of_sentence(sentence))


def check_promises(judge):
    """The laws and fields that the tables of docs/PROMISES.md name."""
    text = text_of('docs/PROMISES.md')
    for field in cells(text, 'Field'):
        judge.holds('docs/PROMISES.md', field, judge.fault_at('IsSound', field.strip('`')))
    for column in cells(text, 'Law'):
        for law in column.split('; '):
            is_law = any(one.short.startswith('law ') for one in judge.public(law.strip('`')))
            judge.holds('docs/PROMISES.md', law, None if is_law else judge.fault_of_claim(law))


def check_calls(judge):
    """The brackets of *What is proved* in the head of each crate's `lib.rt` name clauses, calls or laws of that crate."""
    for path in files('crates/*/src/lib.rt'):
        crate = path.split('/')[1]
        head = '\n'.join(re.findall(r'^//! ?(.*)$', text_of(path), re.M))
        found = re.search(r'^# What is proved\n(.*?)(?=^# |\Z)', head, re.M | re.S)
        public = [one for one in judge.contracts[crate] if one.is_public]
        names = {name for one in public for name in one.clauses() + [one.label()]}
        for listed in re.findall(r'\((?:clauses? )?(%s)[,)]' % LIST, ' '.join(found[1].split()) if found else ''):
            for name in re.findall(r'`([^`]+)`', listed):
                judge.holds(path, listed, None if name in names else '`%s` has no clause `%s`' % (crate, name))


def rows(check):
    """Compares the claims of each document with the contracts."""
    judge = Judge(check)
    for part in (check_itself, check_sentences, check_promises, check_calls):
        part(judge)
