"""What the generators in this folder share: the sources that they read, and the files that they write or compare."""

import os
import re
import sys
import textwrap

TOP = os.path.dirname(os.path.dirname(os.path.realpath(__file__)))


class Unfit(Exception):
    """A source or a written file is not as a generator needs it."""


def read(path):
    """Returns the text of a file of the repository."""
    with open(os.path.join(TOP, path), encoding='utf-8') as file:
        return file.read()


def numbers_in(*paths):
    """Returns the constants of these sources that are sums and products of numbers and of constants above, by name."""
    numbers = {}
    for path in paths:
        for name, terms in re.findall(r'^(?:pub )?const (\w+): \w+ = (.+);', read(path), re.M):
            terms = terms.removesuffix(' as usize')
            if re.fullmatch(r'[\w+*() -]+', terms):
                words = re.sub(r'[A-Z]\w*', lambda word: str(numbers[word[0]]), terms)
                numbers[name] = eval(words)  # sums and products of numbers, as the line above says
    return numbers


def comment(words, width=99):
    """Returns words as the lines of a comment of Doxygen."""
    first, *rest = textwrap.wrap(words, width)
    return ['/** ' + first, *(' *  ' + line for line in rest[:-1]), ' *  %s */' % rest[-1]] if rest else ['/** %s */' % first]


def replaced(text, pattern, new, what):
    """Returns the text with the one match of a pattern replaced."""
    result, count = re.subn(pattern, lambda _: new, text, flags=re.S | re.M)
    if count != 1:
        raise Unfit('%s is found %d times' % (what, count))
    return result


def write(generator, words, writers):
    """Writes each file as its function of the present text says. With `--check` nothing is written, and a file that differs
    is an error."""
    if words not in ([], ['--check']):
        sys.exit('usage: tools/%s [--check]' % generator)
    differs = []
    try:
        for path, writer in writers:
            text = read(path) if os.path.exists(os.path.join(TOP, path)) else ''
            new = writer(text)
            if new == text:
                continue
            differs.append(path)
            if not words:
                with open(os.path.join(TOP, path), 'w', encoding='utf-8') as file:
                    file.write(new)
    except (OSError, KeyError, Unfit) as error:
        sys.exit('tools/%s: %s' % (generator, error))
    if words and differs:
        sys.exit('not as tools/%s writes it: %s' % (generator, ', '.join(differs)))
