"""Help: the statuses, numbers, bits, events and rules of `--help` are those of docs/FORMATS.md and docs/PROTOCOL.md. An
item may have other words than its row of a table, but no other row has more of them; status 3 has the same ones."""

import re
import subprocess

from support import tables
from support.pages import section, text_of

TOOLS = ('show', 'simulate', 'check', 'record')


def help_of(*words):
    """Returns what the program writes with these words and `--help`."""
    return subprocess.run([tables.program(), *words, '--help'], stdout=subprocess.PIPE).stdout.decode()


def table(text, heading):
    """Returns the rows of the table with this first line: the first cell without its marks, and the second."""
    lines = text.partition(heading)[2].split('\n\n')[0].split('\n')[2:]
    cells = [line.strip('| ').split(' | ') for line in lines]
    return {row[0].strip('`'): row[1] for row in cells}


def items(text, heading, form):
    """Returns the items after a heading of a help text, by their names: each is a line of this form, indented like the
    first, and the lines after it that begin in the column of its words."""
    found, name, lead, column = {}, None, None, None
    for line in text.partition(heading)[2].split('\n'):
        item = re.fullmatch(r'( +)(%s)( +)(.+)' % form, line)
        if item and lead in (None, item[1]):
            name, lead, column = item[2], item[1], item.start(4)
            found[name] = item[4]
        elif name and len(line) - len(line.lstrip()) == column:
            found[name] += ' ' + line.strip()
        else:
            break
    return found


def words_of(text):
    return set(re.findall(r'[a-z]+', text.lower()))


def nearest(text, rows):
    """Returns the name of the row that has the most words of a text."""
    return max(rows, key=lambda name: len(words_of(text) & words_of(rows[name])))


def same_items(check, name, rows, found):
    """Rows: the items are those of the table, in its order, each with the words of its own row."""
    check.equal('names of %s' % name, list(rows), list(found))
    check.equal('words of %s' % name, list(found), [nearest(text, rows) for text in found.values()])


def numbers(text):
    return [int(number.replace(',', '')) for number in re.findall(r'\d[\d,]*\d|\d', text)]


def check_statuses(check, helps):
    """The statuses, and the most octets of an input, which is named with the status that an input with more has."""
    rows = table(section('docs/FORMATS.md', '## Statuses and the program\'s own lines'), '| Status | When |')
    most, status = re.search(r'at most ([\d,]+) octets.*ends with status (\d)', text_of('docs/FORMATS.md')).groups()
    for name, text in helps.items():
        found = items(text, '\nExit status:\n', r'\d')
        if name == 'fio2070':
            same_items(check, 'the statuses in fio2070 --help', rows, found)
        check.equal('statuses of %s --help' % name, [one for one in rows if name == 'fio2070' or one != '2'], list(found))
        check.equal('status 3 of %s --help' % name, rows['3'], found.get('3'))
        check.equal('status of a long input in %s --help' % name, [(status, numbers(most))],
                    [(one, numbers(words)) for one, words in found.items() if numbers(words)])


def check_blocks(check, text):
    """The bits of a block's status, and of its times."""
    found = {letter: (int(mask, 16), words) for mask, letter, words in
             re.findall(r'(\d\d) ([A-Z]), ([^;]+?)(?=;| stamp )', ' '.join(text.split()))}
    rows = {letter: (1 << int(bit), words) for bit, letter, words in
            re.findall(r'^  - bit (\d) is (\w), (.*)[;.]$', text_of('docs/PROTOCOL.md'), re.M)}
    check.equal('bits in show --help', {name: mask for name, (mask, _) in rows.items()},
                {name: mask for name, (mask, _) in found.items()})
    same_items(check, 'the bits in show --help', {name: row[1] for name, row in rows.items()},
               {name: row[1] for name, row in found.items()})
    for form in (r'low (\d+) bits', r'time[a-z ]* in (\d+) bits'):
        expected = re.findall(form, section('docs/FORMATS.md', '## `fio2070 show`'))
        check.equal('%r in show --help' % form, expected, re.findall(form, text))


def check_scripts(check, text):
    """The events of a script, the digits of their words, the versions of the header, and the limits of the third."""
    page = section('docs/FORMATS.md', '## `fio2070 simulate`')
    rows = {name.split(' ')[0]: words for name, words in table(page, '| Line | Event |').items()}
    found = {name.split(' ')[0]: words for name, words in
             items(text, 'is an\n         event:\n', r'[a-z-]+(?: [A-Z]+)?').items()}
    same_items(check, 'the events in simulate --help', rows, found)
    digits = table(text_of('docs/FORMATS.md'), '| Word | What is read |')
    for event, word in (('scan', 'H16'), ('raise', 'HH')):
        check.equal('digits of %s in simulate --help' % event, numbers(digits[word])[0], numbers(found.get(event, '0'))[0])
    headers = table(page, '| Version | Header | Adds |')
    said = re.search(r'`fio2070 script (\d) .*Version (\d) has\s+`restart`.*version (\d) two limits', text, re.S)
    check.equal('versions of a header in simulate --help', tuple(headers), said and said.groups())
    limits = re.search(r'own profile\): ([\d,]+ to [\d,]+, and [\d,]+ to [\d,]+)', section('docs/PROTOCOL.md', '### Limits'))
    said = re.search(r'most entries of a\s+block, (\d+ to \d+, and the most that wait, \d+ to \d+)', text)
    check.equal('limits in simulate --help', numbers(limits[1]), said and numbers(said[1]))


def check_rules(check, text):
    """The rules on content, and in the manual page, which `check --help` names for them, the rules of a transcript."""
    rules = {tool: table(section('docs/FORMATS.md', '## `fio2070 %s`' % tool), '| RULE |') for tool in ('check', 'record')}
    same_items(check, 'the rules in record --help', rules['record'], items(text, 'and one of:\n', '[a-z]+'))
    for tool in ('check', 'record'):
        part = text_of('man/fio2070.1').partition('.SS %s\n' % tool)[2].partition('In this order')[2].partition('.PP')[0]
        found = re.findall(r'^\.B (\w+)\n((?:[^.].*\n)+)', part.partition('\n.S')[0] + '\n', re.M)
        same_items(check, 'the rules of %s in the manual page' % tool, rules[tool],
                   {name: ' '.join(words.split()).partition(' Judged if')[0] for name, words in found})


def rows(check):
    """Compares the help texts with the pages."""
    helps = dict([('fio2070', help_of())] + [(tool, help_of(tool)) for tool in TOOLS])
    headings = re.findall(r'^## `fio2070 (\w+)`$', text_of('docs/FORMATS.md'), re.M)
    check.equal('subcommands in fio2070 --help', headings, list(items(helps['fio2070'], '\nCommands:\n', '[a-z]+')))
    check_statuses(check, helps)
    check_blocks(check, helps['show'])
    check_scripts(check, helps['simulate'])
    check_rules(check, helps['record'])
