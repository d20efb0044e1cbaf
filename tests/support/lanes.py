"""Copies of the crates, in which the prover tries wrong bodies on top of what it has read of each crate.

Only the functions that are requested have their bodies and their proofs there, so that no time goes into the others: a
function is proved from the contracts of those that it calls, whatever their bodies are."""

import os
import re
import shutil
import subprocess

from support.copies import link_or_copy
from support.functions import TOP
from support.kit import crates_of, rtlib
from support.stanzas import texts_of

# A definition that is never admitted.
HOLE = '\nhole : Type 0\nhole = ?\n'
# The proof of a function that is not requested.
LEFT_OUT = '''use Rattle.{place}.Statement.{{statement}}
{lemmas}
left_out : (A : Type 2) → A
left_out = ?

pub {name}_spec : {{M : Type 1}} → statement M
{name}_spec {{M}} = left_out (statement M)
'''
# The files of a function's proof.
ANSWERS, INVARIANTS, PROOF = PROOF_FILES = 'Answers.antt', 'Invariants.antt', 'Proof.antt'
# Where `rt` keeps what it has read and proved of a crate, and the library that it has built.
KEPT, BUILT = (os.path.join('out', name) for name in ('incremental', 'rlib'))


class Done:
    """What a command says in a folder, its status, and how many seconds of processor time it took."""

    def __init__(self, folder, words):
        with subprocess.Popen(words, cwd=folder, stdin=subprocess.DEVNULL, stdout=subprocess.PIPE,
                              stderr=subprocess.STDOUT, errors='replace') as process:
            self.stdout = process.stdout.read()
            _, status, used = os.wait4(process.pid, 0)
            self.returncode = process.returncode = os.waitstatus_to_exitcode(status)
        self.seconds = used.ru_utime + used.ru_stime


CRATES = crates_of(TOP)


def crates_below(name):
    """The crates that a crate uses, directly or not, lowest first."""
    return [one.name for one in CRATES[name].below()]


def lay(folder, texts):
    """Makes the files of a function's proof in a folder equal to these texts, and removes the others."""
    os.makedirs(folder, exist_ok=True)
    for name in PROOF_FILES:
        path = os.path.join(folder, name)
        if name in texts:
            with open(path, 'w', encoding='utf-8') as file:
                file.write(texts[name])
        elif os.path.exists(path):
            os.remove(path)


def copy(source, target, by):
    """Copies a folder that exists, unless the copy exists."""
    if os.path.isdir(source) and not os.path.isdir(target):
        shutil.copytree(source, target, copy_function=by)


def put_back(kept, copied):
    """Makes a copy of a folder equal to the folder again: removes what was added, and restores what was changed."""
    for at, _, files in os.walk(copied):
        of = os.path.join(kept, os.path.relpath(at, copied))
        for name in files:
            path, source = os.path.join(at, name), os.path.join(of, name)
            if not os.path.exists(source):
                os.remove(path)
            elif os.stat(path).st_mtime_ns != os.stat(source).st_mtime_ns:
                shutil.copy2(source, path)


class Lane:
    """A copy of the crates, in which one group is tried after another. What the prover read of each crate in its original
    form is in `kept`, for all lanes."""

    def __init__(self, room, kept, guard, said):
        self.room, self.kept, self.guard, self.said = room, kept, guard, said
        os.mkdir(room)
        for name in ('crates.txt', 'HANDLES'):
            shutil.copy(os.path.join(TOP, name), room)
        for crate in os.listdir(os.path.join(TOP, 'crates')):
            for part in ('src', 'specs', 'proofs'):
                copy(os.path.join(TOP, 'crates', crate, part), os.path.join(room, 'crates', crate, part), shutil.copy2)
        self.crates, self.begun = crates_of(room), set()

    def folder(self, crate):
        return os.path.join(self.room, 'crates', crate.name)

    def proof_folder(self, crate, place):
        return os.path.join(self.folder(crate), 'proofs', *place.split('::')[1:])

    def bring(self, crate):
        """Copies the libraries that a crate uses, which are only read, and leaves bodies and proofs out."""
        for name in crates_below(crate.name):
            copy(os.path.join(TOP, 'crates', name, BUILT), os.path.join(self.room, 'crates', name, BUILT), link_or_copy)
        if crate.name not in self.begun:
            self.begun.add(crate.name)
            self.bare(crate)

    def bare(self, crate):
        """Leaves out the bodies and the proofs of a crate."""
        for short in crate.places:
            self.leave_out(crate, short)
        self.write(crate, {}, set())

    def write(self, crate, texts, named):
        """Writes the files of code, and the texts given, with the bodies of these functions alone."""
        for file, text in {**crate.files, **texts}.items():
            if file in crate.files:
                text = crate.with_bodies(file, text, named)
            with open(os.path.join(self.folder(crate), file), 'w', encoding='utf-8') as out:
                out.write(text)

    def leave_out(self, crate, short):
        """Leaves a hole instead of the proof of a function. It names the lemmas of that proof, so that they are read."""
        place = crate.places[short]
        lemmas = ''.join('use Rattle.%s.proofs.%s\n' % (crate.name, name) for name in sorted(crate.lemmas_of(short)))
        name = '%s.proofs.%s' % (crate.name, '.'.join(place.split('::')[1:]))
        text = LEFT_OUT.format(place=name, lemmas=lemmas, name=place.split('::')[-1])
        lay(self.proof_folder(crate, place), {PROOF: text})

    def bring_back(self, crate, short):
        """Restores the proof of a function or a law. A function has a hole in its answers: the prover then tries the same
        things, but does not run once more for the answers that it would offer. So no function is proved, and a right one is
        refused by no clause. A law has none: the prover says which of its goals remain only with the answers that it
        offers."""
        texts = dict(crate.proofs_of(short))
        if PROOF not in texts and not short.startswith('law '):
            texts[ANSWERS] = texts.get(ANSWERS, '') + HOLE
        lay(self.proof_folder(crate, crate.places[short]), texts)

    def run(self, crate, named):
        words = [word for name in sorted(named) for word in ('--only', crate.places.get(name, name))]
        words = self.crates[crate.name].words(['--jobs', '1', *words])
        return Done(self.folder(crate), [*self.guard, rtlib().RATTLE, 'check', *words, *rtlib().KEPT])

    def read(self, crate):
        """Has the prover read a crate without bodies and proofs. It must find no other fault."""
        self.bring(crate)
        done = self.run(crate, crate.named())
        crate.reading = done.seconds
        faults = re.findall(r'^(?:.*: )?error[:[](?! 1 declaration that depends on `left_out`).*', done.stdout, re.M)
        if faults or not re.search('^only=', done.stdout, re.M):
            crate.tell(done)
            return False
        shutil.copytree(os.path.join(self.folder(crate), KEPT), os.path.join(self.kept, crate.name))
        return True

    def check(self, group):
        """What the prover says about a group, and its status, or None if a stanza does not fit."""
        crate, texts = group.crate, group.texts()
        if texts is None:
            return None
        self.bring(crate)
        folder, kept = self.folder(crate), os.path.join(self.kept, crate.name)
        copy(kept, os.path.join(folder, KEPT), shutil.copy2)
        named = group.named()
        self.write(crate, texts, named)
        for short in named & crate.places.keys():
            self.bring_back(crate, short)
        done = self.run(crate, named)
        for short in named & crate.places.keys():
            self.leave_out(crate, short)
        self.write(crate, texts_of(crate.name, texts), set())
        put_back(kept, os.path.join(folder, KEPT))
        if self.said:
            first = next(iter(group.bodies)).name.replace('/', ' ')
            names = [one.name for one in group.bodies]
            with open(os.path.join(self.said, '%s %s' % (crate.name, first)), 'w', encoding='utf-8') as out:
                out.write('\n'.join([*names, done.stdout]))
        return done
