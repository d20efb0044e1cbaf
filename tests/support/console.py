"""What the commands of a document print, compared with the lines after them in the document."""

import re


def commands(lines):
    """Each command in these numbered lines, with its number, and the lines after it, which it should print."""
    found = []
    for number, line in lines:
        if line.startswith('$ '):
            found.append((number, line[2:], []))
        elif found:
            found[-1][2].append(line)
    return found


def row(check, name, expected, text):
    """A row of a check: a command printed the expected lines, where a line `...` matches any lines."""
    form = ''.join('(?:.*\n)*?' if line == '...' else re.escape(line + '\n') for line in expected)
    whole = ''.join(line + '\n' for line in expected)
    check.equal(name, whole, whole if re.fullmatch(form, text) else text)
