"""Links: each file that a document names, in a link or in code, exists, and so does each heading that a link names; each check
says in its head what it does."""

import os
import re

from support.pages import documents, files, opened, text_of, tool
from support.tables import TOP

# Where a name in code may begin, apart from the top.
PLACES = ['', 'docs', 'examples', 'crates'] + files('crates/*', 'crates/*/src', 'crates/*/src/*', 'crates/*/specs')


def exists(*path):
    return os.path.exists(os.path.join(TOP, *path))


def missing(document):
    """Returns the files that a document names and that do not exist."""
    text = text_of(document)
    words = re.findall(r'`([\w./{},-]+(?<!\.so)\.(?:rt|antt|edit|md|script|transcript|frames|1))`', text)
    names = [name for word in words for name in opened(word)]
    links = re.findall(r'\]\(([^)#:]+)(?:#[^)]*)?\)', text)
    return ([name for name in names if not any(exists(place, name) for place in PLACES)]
            + [link for link in links if not exists(os.path.dirname(document), link)])


def anchors(document):
    """Returns the names by which links lead to the headings of a document."""
    headings = re.findall(r'^#+ (.*)$', re.sub(r'^```.*?^```$', '', text_of(document), flags=re.M | re.S), re.M)
    return [re.sub(r'[^\w -]', '', heading.lower()).replace(' ', '-') for heading in headings]


def missing_headings(document):
    """Returns the links of a document that lead to no heading of a document."""
    links = re.findall(r'\]\(([\w./-]*)#([^)]+)\)', text_of(document))
    paths = [(os.path.normpath(os.path.join(os.path.dirname(document), path)) if path else document, name) for path, name in links]
    return ['%s#%s' % (path, name) for path, name in paths if path.endswith('.md') and name not in anchors(path)]


def rows(check):
    """Looks for the files and headings that each document names; each check says in its head what it does."""
    for document in documents():
        check.equal('files that %s names and that are missing' % document, [], missing(document))
        check.equal('headings that %s names and that are missing' % document, [], missing_headings(document))
    checks = [path for path in files('tests/*.*') if os.access(os.path.join(TOP, path), os.X_OK)]
    named = re.findall(r'^- `(tests/[\w-]+\.\w+)`: \w', tool('generate-checks').page().replace('`: `', '`: '), re.M)
    check.equal('checks that say what they do', checks, sorted(named))
