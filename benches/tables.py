"""Tables of what was measured, in Markdown."""

import shutil
import statistics
from pathlib import Path

import workloads
from programs import TOP

PAGE = TOP / 'docs/PERFORMANCE.md'
RECORD_ROUNDS = 31
PARTS = [(0.25, 'a quarter'), (0.5, 'a half'), (1, 'whole')]


def table(heads, rows):
    """Lines of a table. All columns but the first have numbers."""
    lines = [heads, ['---'] + ['---:'] * (len(heads) - 1), *rows]
    return ''.join('| ' + ' | '.join(line) + ' |\n' for line in lines)


def figure(value, digits):
    """A number, or a dash if it is not known."""
    return '-' if value is None else f'{value:.{digits}f}'


def compared(values, digits):
    """Our number, and if there is another one, that number and the ratio."""
    cells = [figure(value, digits) for value in values]
    if len(values) == 2:
        ours, other = values
        cells.append('-' if ours is None or not other else f'{ours / other:.2f}')
    return cells


def heads_of(name, pair):
    """The heads of the columns of one quantity."""
    return [name] if len(pair) == 1 else [name, 'peer', 'ratio']


def millions(bench, program, word, path):
    """Instructions of a run in millions, or `None` if there is no valgrind."""
    count = bench.instructions(program, word, path)
    return None if count is None else count / 1e6


def of_programs(bench, pair, inputs, rounds):
    """Instructions, time and memory of each input."""
    rows = []
    for name in workloads.NAMES:
        path = Path(inputs) / f'{name}.in' if inputs else bench.keep(name, workloads.make(name))
        word = name.split('-', maxsplit=1)[0]
        counts = [millions(bench, program, word, path) for program in pair]
        runs = bench.times(pair, word, path, rounds)
        rows.append([name, *compared(counts, 2), *compared([run[0] for run in runs], 2),
                     *compared([run[1] for run in runs], 1)])
    heads = ['Input', *heads_of('instructions, millions', pair), *heads_of('time, ms', pair),
             *heads_of('memory, MB', pair)]
    return table(heads, rows)


def of_growth(bench, pair):
    """Instructions at three sizes of each input, or times if there is no valgrind."""
    rows = []
    for name in workloads.NAMES:
        word = name.split('-', maxsplit=1)[0]
        paths = [bench.keep(f'{name}-{part}', workloads.make(name, part)) for part, _ in PARTS]
        row = [name]
        for program in pair:
            counts = [millions(bench, program, word, path) for path in paths]
            if None in counts:
                counts = [bench.times([program], word, path, 11)[0][0] for path in paths]
            row += [figure(count, 2) for count in counts]
        rows.append(row)
    quantity = 'time, ms' if shutil.which('valgrind') is None else 'instructions, millions'
    heads = [f'{quantity}: {size}' for _, size in PARTS]
    heads += [f'peer: {size}' for _, size in PARTS] if len(pair) == 2 else []
    return table(['Input', *heads], rows)


def times_in_turns(bench, program, words, path):
    """The median of the milliseconds that a run takes with each of the words; runs alternate."""
    runs = [[bench.times([program], word, path, 1)[0][0] for word in words] for _ in range(RECORD_ROUNDS)]
    return [statistics.median(times) for times in zip(*runs)]


def of_record(bench, program):
    """Instructions and time of `record` and of `check` for each transcript."""
    words = ('record', 'check')
    rows = []
    for name in workloads.RECORDED:
        path = bench.keep('record-' + name.replace(' ', '-'), workloads.recorded(name))
        counts = [millions(bench, program, word, path) for word in words]
        rows.append([name, *compared(counts, 2), *compared(times_in_turns(bench, program, words, path), 2)])
    heads = ['Transcript', '`record`, millions', '`check`', 'ratio', '`record`, ms', '`check`', 'ratio']
    return table(heads, rows)


def of_profile(bench, program):
    """The functions that take most of the instructions of each input, a function with those that it has inlined."""
    rows = []
    for name in workloads.NAMES:
        path = bench.keep(name, workloads.make(name))
        if bench.instructions(program, name.split('-', maxsplit=1)[0], path) is None:
            return ''
        rows.append([name, ', '.join(f'`{call}` {share:.0f} %' for share, call in bench.shares()[:6] if share >= 2)])
    return table(['Input', 'functions'], rows).replace('---:', '---')


def of_logs(found):
    """Time, and instructions of a line, of each program for each log, and their ratios to those of the first, the plain one."""
    rows = []
    for log, costs in found:
        plain = next(iter(costs.values()))
        for program, cost in costs.items():
            ratios = [figure(one and one / other, 1) for one, other in zip(cost, plain)]
            rows.append([log, program, figure(cost[0], 0), ratios[0], figure(cost[1], 0), ratios[1]])
    heads = ['Log', 'program', 'time of a processor, ms', 'ratio', 'instructions of a line', 'ratio']
    return table(heads, rows).replace('| --- | ---: |', '| --- | --- |', 1)


def of_ratios(lines):
    """The three ratios of each input, from the table of the program with those of another implementation."""
    rows = [[cell.strip() for cell in line.split('|')[1:-1]] for line in lines.splitlines()[2:]]
    return table(['Input', 'instructions', 'time', 'memory'], [[row[0], row[3], row[6], row[9]] for row in rows])


def put(page, found):
    """Replaces the tables of a page, each between its two marks."""
    text = page.read_text()
    for part, lines in found.items():
        marks = f'<!-- {part} -->\n', f'<!-- end of {part} -->'
        before, rest = text.split(marks[0])
        text = before + marks[0] + '\n' + lines + '\n' + marks[1] + rest.split(marks[1], maxsplit=1)[1]
    page.write_text(text)


def write(found):
    """Writes the ratios of the program into their page."""
    if 'ratio' in found.get('programs', ''):
        put(PAGE, {'ratios': of_ratios(found['programs'])})
