"""What a rule says, in the words of docs/FORMATS.md, and what these words mean."""

import re
import textwrap

from .fields import BITS
from .log_words import TERMS
from .protocol import ADVANCE, CONTENT_RULES, RIGHT, RULES, SOURCES

WIDTH = 100
# What the bits of statuses mean, by their letters.
LETTERS = {letter: meaning for (_, field), bits in BITS.items() if field == 'status' for letter, _, meaning in bits}


def explanation(name):
    """Returns the lines that explain a rule, by its name."""
    words = next((words for rule, words in RULES.values() if rule == name), None)
    if words is not None:
        said = ['Broken by a line that %s.' % words]
        said += ['A breach means: %s.' % meaning.format(due='N') for meaning in ADVANCE.values()] if name == 'advance' else []
    else:
        breach = next(words for rule, words in CONTENT_RULES.values() if rule == name)
        said = ['In a right link: %s' % RIGHT[name],
                'A breach means: %s.' % breach.format(input='I', state='S')]
    said.append('Source: behaviour %s, layout %s (docs/PROTOCOL.md).' % SOURCES[name])
    terms = ['%s: %s.' % pair for pair in (*TERMS.items(), *LETTERS.items())
             if re.search(r'\b%s\b' % pair[0], said[0]) or '(%s)' % pair[0] in said[-2]]
    return [name, *(line for part in said for line in textwrap.wrap(part, WIDTH, initial_indent='  ', subsequent_indent='  ')),
            *(line for term in terms for line in textwrap.wrap(term, WIDTH, initial_indent='  ', subsequent_indent='    ')),
            '  docs/FORMATS.md has all rules.']
