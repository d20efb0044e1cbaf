"""The functions and laws of a crate, and those that a wrong body changes."""

import difflib
import glob
import itertools
import os
import re

TOP = os.path.dirname(os.path.dirname(os.path.dirname(os.path.realpath(__file__))))


def read(path):
    with open(path, encoding='utf-8') as file:
        return file.read()


def crate_names():
    """Returns the crates of the repository, in the order of `crates.txt`."""
    return [line.partition(':')[0].split()[0] for line in read(os.path.join(TOP, 'crates.txt')).splitlines()]


class Function:
    """A function or a law of a crate: its file, what comes before its name, its name, its head, which is what comes before
    its body, its position, the type whose method it is, and the trait if any. Its home is the file whose modules its whole
    name has: that of the type, for a method of no trait."""

    def __init__(self, path, words, name, head, start, end, owner='', trait=''):
        self.path, self.name, self.head, self.owner, self.trait = path, name, head, owner, trait
        self.is_public, self.is_const = words.startswith('pub '), 'const ' in words
        self.start, self.body, self.end = start, start + len(head), end
        self.home, self.short = path, 'law ' + name

    def label(self):
        """Its name as the prover writes it, without the modules."""
        return '::'.join(part for part in (self.owner + self.trait, self.name) if part)

    def place(self):
        """Its whole name, as the prover writes it."""
        crate, _, inner = os.path.relpath(self.home, os.path.join(TOP, 'crates')).partition(os.sep + 'src' + os.sep)
        modules = [] if inner == 'lib.rt' else inner[:-len('.rt')].split(os.sep)
        return '::'.join([crate, *modules, self.label()])

    def is_export(self):
        """Whether it is a call for C."""
        return self.head.startswith('pub extern ')

    def clauses(self):
        """The names of the clauses of its contract, in order: '' if one has none."""
        return re.findall(r'\bensures\s*(\w*)\s*\{', self.head)


def without_words(text):
    """Returns the text with blanks in place of remarks and strings, at the same positions."""
    form = re.compile(r'//[^\n]*|b?"(?:\\.|[^"\\])*"|b?\'(?:\\.|[^\'\\])\'', re.S)
    return form.sub(lambda found: re.sub(r'[^\n]', ' ', found[0]), text)


def end_of_braces(text, start):
    """Returns the position after the brace that closes the one at `start`."""
    depth = 0
    for place in range(start, len(text)):
        depth += (text[place] == '{') - (text[place] == '}')
        if depth == 0:
            return place + 1
    return len(text)


# A law: a public function that does nothing. Its head, and its name.
LAW = re.compile(r'^(pub fn (\w+)[^\n]*\n(?:    [^\n]*\n)*)\{\}$', re.M)
HEADER = re.compile(r'^impl(<[^{]*?>)?\s+(?:(?:\w+::)*(\w+)(<[^{]*?>)?\s+for\s+)?(&?\[?)(\w+)\]?(<[^{>]*>)?[^{]*\{', re.M)


def owner_of(header):
    """The type and the trait, if any, of an `impl`, as the prover names them: with the types that a trait, or the type
    that has it, is of, less its own parameters."""
    parameters, trait, of_trait, mark, name, of_type = header.groups(default='')
    own = re.findall(r'[<,]\s*(?:const )?(\w+)', parameters)
    words = [''.join(word[0].upper() + word[1:] for word in re.findall(r'\b(?:[A-Z]\w+|[iu]\d+)\b', one) if word not in own)
             for one in (of_trait, of_type)]
    marks = 'Ref' * mark.count('&') + 'Slice' * mark.count('[')
    return marks + name + words[1] * bool(trait), trait + words[0]


def functions_of(path, text, homes):
    """Returns the functions of a file that are no laws, without those that a trait requires, by the files of the types of the
    crate. The last pair of braces of an item, after its clauses, is the body."""
    text = without_words(text)
    owners = [(found.start(), end_of_braces(text, found.end() - 1), *owner_of(found)) for found in HEADER.finditer(text)]
    traits = [(found.start(), end_of_braces(text, found.end() - 1))
              for found in re.finditer(r'^(?:pub(?:\(crate\))? )?trait [^{]*\{', text, re.M)]
    for found in re.finditer(r'^( *)((?:pub(?:\(crate\)|\(super\))? )?(?:const |extern +)?)fn (\w+)', text, re.M):
        closing = re.compile(r'^%s\}$' % found[1], re.M).search(text, found.end())
        if closing is None or any(start < found.start() < end for start, end in traits):
            continue
        bodies = [place for place in range(found.end(), closing.end())
                  if text[place:place + 2] == '{\n' and end_of_braces(text, place) == closing.end()]
        if bodies:
            owner = next(((name, trait) for start, end, name, trait in owners if start < found.start() < end), ('', ''))
            head = text[found.start():bodies[-1]]
            one = Function(path, found[2], found[3], head, found.start(), closing.end(), *owner)
            one.home = path if one.trait else homes.get(one.owner, path)
            yield one


def homes_of(sources):
    """The file of each type of a crate."""
    return {found[1]: path for path, text in sources.items()
            for found in re.finditer(r'^ *(?:pub(?:\(crate\)|\(super\))? )?(?:struct|enum) (\w+)', text, re.M)}


def functions_in(sources):
    """Returns the functions of a crate, less its laws. Each has the shortest name that no other has: its type and its own
    name, and modules before them if needed."""
    homes = homes_of(sources)
    functions = [one for path, text in sources.items() for one in functions_of(path, text, homes)]
    places = {one: '::' + one.place() for one in functions}
    for one in functions:
        parts, count = places[one].split('::'), len(one.label().split('::'))
        while any(place != places[one] and place.endswith('::' + '::'.join(parts[-count:])) for place in places.values()):
            count += 1
        one.short = '::'.join(parts[-count:])
    return functions


def laws_in(sources):
    """Returns the laws of a crate."""
    return [Function(path, 'pub ', found[2], found[1], found.start(), found.end())
            for path, text in sources.items() for found in LAW.finditer(without_words(text))]


def sources_of(crate):
    """Returns the files of code of a crate, as texts by their paths."""
    paths = glob.glob(os.path.join(TOP, 'crates', crate, 'src', '**', '*.rt'), recursive=True)
    return {path: read(path) for path in paths}


def changed_places(sources, stanza):
    """Each range of lines that a stanza changes: its file, and the first and the last position."""
    folder = os.path.join(TOP, 'crates', stanza.crate)
    texts = {file: sources.get(os.path.join(folder, file), '') for file in stanza.files()}
    for file, text in (stanza.apply(texts) or {}).items():
        before = texts[file].splitlines(keepends=True)
        starts = [0] + list(itertools.accumulate(map(len, before)))
        matched = difflib.SequenceMatcher(None, before, text.splitlines(keepends=True), autojunk=False)
        for tag, first, last, _, _ in matched.get_opcodes():
            if tag != 'equal':
                yield os.path.join(folder, file), starts[first], max(starts[first] + 1, starts[last])


def without_bodies(text, functions):
    """Returns the text of a file with nothing in the bodies of these functions, which nobody may then call. Bodies that are
    computed while the code is read stay."""
    for one in sorted(functions, key=lambda one: -one.body):
        if not one.is_const:
            text = text[:one.body] + '{ unreachable!() }' + text[one.end:]
    return text
