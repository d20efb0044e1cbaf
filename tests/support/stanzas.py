"""Wrong bodies (functions with a planted bug) and wrong statements, as they are written in `wrong-bodies/CRATE.edits`, in
stanzas with a blank line between them.

    file: src/poller.rt

    # plain name
    old: a text that occurs once in that file
    new: the text that replaces it
    refused-by: Poller::hear_block, taken

A line `file:` between blank lines holds for the stanzas below it, up to the next one. One in a stanza holds for the texts below
it there. A stanza without texts has those of `crates/CRATE/must-fail/PLAIN-NAME.edit`, which `rt ci` tries too. Successive lines `old:` or `new:` are one text of several lines. Lines
`control:` have the new text of what goes with a wrong statement or body and must be proved: the right statement, or the same
edit of the body without the bug; a text without them is the same in both."""

import copy
import os

from support.functions import TOP, crate_names, read


class Stanza:
    """A wrong body or a wrong statement: its crate, its name, what it changes, and what refuses it."""

    def __init__(self, crate, name, lines, file=None):
        self.crate, self.name, self.lines = crate, name, lines
        self.changes, self.refused_by, self.is_control = [], None, False
        self.is_of_gate = not any(line.startswith('old:') for line in lines)
        word = None
        for line in self.texts_of_gate() if self.is_of_gate else lines:
            before, (word, _, rest) = word, line.partition(':')
            rest = rest[1:]
            if word == 'file':
                file = rest
            elif word in ('old', 'new', 'control'):
                place = ('old', 'new', 'control').index(word)
                if word == 'old' and before != 'old':
                    self.changes.append([file, None, None, None])
                texts = self.changes[-1]
                texts[place + 1] = rest if texts[place + 1] is None else texts[place + 1] + '\n' + rest
        for line in lines:
            if line.startswith('refused-by: '):
                self.refused_by = line.partition(': ')[2]

    def texts_of_gate(self):
        """The lines of the file of `must-fail/` that has its texts; none if there is no such file."""
        path = os.path.join(TOP, 'crates', self.crate, 'must-fail', self.name.replace(' ', '-') + '.edit')
        return read(path).splitlines() if os.path.exists(path) else []

    def files(self):
        """The files that it changes, below its crate."""
        return sorted({file for file, _, _, _ in self.changes})

    def is_of_code(self):
        """Whether it changes no definition: only code, with its contracts."""
        return all(file.startswith('src/') for file in self.files())

    def named(self):
        """The functions and laws that its line `refused-by:` names: those that must be proved with its control."""
        return {part.split(', ')[0] for part in (self.refused_by or '').split('; ')} - {''}

    def control(self):
        """The right statement or body that goes with a wrong one, as a stanza of its own, or None if there is none."""
        other = copy.copy(self)
        other.is_control = True
        return other if any(control is not None for _, _, _, control in self.changes) else None

    def apply(self, texts):
        """The texts of files with each change made, by their paths below the crate, or None if one does not fit."""
        texts = dict(texts)
        for file, old, new, control in self.changes:
            if new is None or file not in texts or texts[file].count(old) != 1:
                return None
            texts[file] = texts[file].replace(old, control if self.is_control and control is not None else new)
        return texts if self.changes else None


def texts_of(crate, files):
    """The contents of the files of a crate, by their paths below it."""
    paths = {name: os.path.join(TOP, 'crates', crate, name) for name in files}
    return {name: read(path) for name, path in paths.items() if os.path.exists(path)}


def edits_of(crate):
    """The file that has the stanzas of a crate."""
    return os.path.join(TOP, 'wrong-bodies', crate + '.edits')


def stanzas_of(crate):
    """The stanzas of a crate, each with the file that the lines between stanzas name."""
    path, changed = edits_of(crate), None
    for block in read(path).strip('\n').split('\n\n') if os.path.exists(path) else ():
        head, *lines = block.split('\n')
        if lines:
            yield Stanza(crate, head.removeprefix('# '), [head, *lines], changed)
        else:
            changed = head.removeprefix('file: ')


def crates_with_stanzas():
    """The crates that have stanzas, in the order of `crates.txt`."""
    return [name for name in crate_names() if os.path.exists(edits_of(name))]
