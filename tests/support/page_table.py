"""A table of a page whose rows are measured."""

import os
import re

from support.tables import TOP


class PageTable:
    """The rows below this head, in a page of docs/."""

    def __init__(self, page, head):
        self.path, self.rows = os.path.join(TOP, 'docs', page), re.compile('(?<=%s)(?:.+\n)+' % re.escape(head))

    def _text(self):
        with open(self.path, encoding='utf-8') as file:
            return file.read()

    def shown(self):
        """The rows on the page."""
        return self.rows.search(self._text())[0]

    def write(self, rows):
        """Writes rows into the page."""
        text = self.rows.sub(lambda _: rows, self._text())
        with open(self.path, 'w', encoding='utf-8') as file:
            file.write(text)
