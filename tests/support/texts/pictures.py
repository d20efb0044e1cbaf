"""Pictures: each label of a `.dot` or `.puml` of docs/pictures is in its drawing, and `crates.svg` has the crates and uses of
crates.txt. No drawing program is needed."""

import html
import os
import re

from support.pages import files, text_of, tool


def texts_in(picture):
    """Returns the texts of a drawing, each of one line."""
    found = re.findall(r'<text[^>]*>([^<]*)</text>', picture)
    return sorted(html.unescape(text).replace('\u00a0', ' ') for text in found)


def labels_of_graph(source):
    """Returns the lines of the labels of a source for graphviz."""
    return sorted(line for label in re.findall(r'label="([^"]*)"', source) for line in label.split('\\n'))


def labels_of_sequence(source):
    """Returns the labels of a source for PlantUML: who takes part, notes and messages."""
    return sorted(re.findall(r'^participant (.*)$', source, re.M) + re.findall(r'^(?:note|\w+ -).* : (.*)$', source, re.M))


def uses_in(picture):
    """Returns the arrows of a drawing by graphviz."""
    return sorted(tuple(html.unescape(title).split('->'))
                  for title in re.findall(r'class="edge">\s*<title>([^<]*)</title>', picture))


def rows(check):
    """Compares each drawing with its source."""
    drawing = tool('draw-pictures')
    for form, labels in (('.dot', labels_of_graph), ('.puml', labels_of_sequence)):
        for path in files('docs/pictures/*' + form):
            picture = text_of(path.replace(form, '.svg'))
            check.equal('labels of ' + os.path.basename(path), labels(text_of(path)), texts_in(picture))
    crates = text_of('docs/pictures/crates.svg')
    check.equal('labels of crates', labels_of_graph(drawing.crates_graph()), texts_in(crates))
    check.equal('uses of crates', sorted(drawing.drawn_uses(drawing.uses_of_crates())), uses_in(crates))
