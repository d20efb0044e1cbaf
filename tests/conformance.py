#!/usr/bin/env -S python3 -B
"""The tester of tools/conformance: it finds no difference in the proved ends and in right ones that are written from
docs/PROTOCOL.md, and exercises each rule, in 100,000 events; also its reports, scripts, texts and tables. With `--all` in a
million events; it finds each planted fault, of a module and of a CPU's end, within the 20,000 events of a run over a wire, or the
200,000 of one with long scripts; and it does so by a second compiler and with sanitizers. Last line: `N passed, M failed`."""

import os
import pty
import re
import shlex
import shutil
import socket
import subprocess
import sys
import tempfile
import threading
import tty
from concurrent.futures import ThreadPoolExecutor
import xml.etree.ElementTree as xml

from support.check import Check
from support.planted import (BY_BOUNDS, BY_LINES, EVENTS, FAILING, LASTING, LATE, MISSED, NAMED, NOW_AND_THEN, OF_BOUND,
                             OF_LENGTH, OF_PARTS, OF_REPLAY, REPLAYED, SEEDS, SHORT, SLOW, TOO_LONG, WRONG_LINES, is_long)
from support.pages import text_of
from support.tables import TOP, can_simulate

# The sections of docs/PROTOCOL.md that have rules in tables.
RULED = ['Counter', 'Filters', 'Configuration', 'Waiting entries', 'Polls', 'Other commands']

# The line of a script that simulate has not: it is for `--replay` alone.
FOR_REPLAY = re.compile('(frame|answer) ')

# What a tester says while it shrinks a script.
GOES_ON = re.compile('(?m)^# Shrinking (?:goes on|has taken).*\n')

# The line of a report that names the rule.
BREAKS = '# the first rule that this breaks: '


def run(words, text=''):
    """The status of a command, and what it writes, apart from words that it goes on."""
    done = subprocess.run(words, input=text.encode(), stdout=subprocess.PIPE, stderr=subprocess.STDOUT, timeout=1500)
    return done.returncode, GOES_ON.sub('', done.stdout.decode('utf-8', 'replace'))


def sources(folder):
    """The files of C in a folder of the repository."""
    place = os.path.join(TOP, folder)
    return sorted(os.path.join(place, name) for name in os.listdir(place) if name.endswith('.c'))


def built(check, room, name, compiler, *options):
    """The program of planted faults, by a compiler; None if it does not build."""
    program = os.path.join(room, name)
    folder = os.path.join(room, name + '.objects')
    os.mkdir(folder)
    words = [compiler, *options, '-Wall', '-Wextra', '-Wpedantic', '-Wconversion', '-Werror', '-I', os.path.join(TOP, 'include'), '-I',
             os.path.join(TOP, 'tools/conformance')]
    for source in sources('tools/conformance') + sources('tests/support/c/planted'):
        if os.path.basename(source) == 'fio2070_test.c':
            continue
        status, said = run([*words, '-c', source, '-o', os.path.join(folder, os.path.basename(source) + '.o')])
        if status != 0:
            check.equal('build by ' + name, '', said)
            return None
    objects = [os.path.join(folder, one) for one in sorted(os.listdir(folder))]
    linker = [option for option in options if option.startswith('-fsanitize')]
    status, said = run([compiler, *linker, *objects, os.path.join(TOP, 'libfio2070.a'), '-o', program])
    check.equal('build by ' + name, '', said)
    return program if status == 0 else None


def script_of(report):
    """The script of a report: its header and the lines of its events."""
    script = report[report.index('fio2070 script '):]
    return ''.join(line for line in script.splitlines(keepends=True) if not line.startswith('#'))


def rules_of(report):
    """The rules that reports name."""
    return re.findall('(?m)^%s([^,]*),' % BREAKS, report)


def planted_faults(check, program):
    """Each planted fault is found within the events of a run over a wire, most by short scripts."""
    if not check.wants('planted') or not check.whole('planted faults'):
        return
    rows = re.findall(r'^(module|cpu) +(\d+) +(\d+)  (\S+(?: \S+)*?) {2,}(.*)$', run([program])[1], re.M)
    for end in ('module', 'cpu'):
        check.holds('planted faults: more than 150 of a ' + end, sum(row[0] == end for row in rows) > 150)
    for end, events, length, rule, name in rows:
        short = int(length) <= SHORT or is_long(name)
        check.holds('planted: %s: %s' % (end, name), rule != 'none' and short, '%s by %s events, at event %s' % (
            rule, length, events))
        named = OF_LENGTH[end] if re.match('(lengths of )?frames .*(refused|bits)', name) else NAMED.get(name, rule)
        check.equal('planted: rule of %s: %s' % (end, name), named, rule)
    check.equal('planted: rules of faults that are none', set(), set(NAMED) - {row[4] for row in rows})


def other_seeds(check, program):
    """Other seeds find nearly all planted faults within the same number of events."""
    for seed in SEEDS:
        if check.whole('planted faults by the seed %d' % seed):
            said = run([program, 'found', str(EVENTS), str(seed)])[1]
            missed = re.findall('(?m)^(?:module|cpu) .* none .*$', said)
            check.holds('planted faults by the seed %d' % seed, 1000 * len(missed) <= MISSED * len(said.splitlines()), missed)


def right_ends(check, program):
    """Ends without a fault show no difference, and each rule is exercised."""
    events = check.given.events
    for end in ('module', 'cpu'):
        status, said = run([program, end, 'none', '--coverage', str(events)])
        check.equal('right %s' % end, (0, 'no difference in %d events' % events), (status, said.splitlines()[-1]))
        check.equal('rules that a run leaves out, %s' % end, [], re.findall('not exercised.*', said))
        check.equal('a good run of %s says that alone' % end, (0, 'no difference in %d events\n' % EVENTS),
                    run([program, end, 'none', str(EVENTS)]))
    status, said = run([program, 'module', 'none', '--coverage', '2000'])
    check.holds('a short run says what it leaves out', status == 1 and '\nnot exercised: ' in said, said)


def simulated(report):
    """What is wrong with what `fio2070 simulate` says about a report's script; None if it does what was expected."""
    script = script_of(report)
    text = run([os.path.join(TOP, 'fio2070'), 'simulate'], script)[1]
    for number, line in enumerate(script.splitlines(), 1):
        if FOR_REPLAY.match(line):
            return None if text == 'line %d: bad line\n' % number else text
    number = re.search('^# expected: (number \\d+) items', report, re.M)
    octets = re.search('^# expected: ([0-9a-f]+)$', report, re.M)
    wanted = '\n%s\n' % number[1] if number else ' %s\n' % octets[1] if octets else '\ncounter '
    return None if wanted in text else 'no %r in %s' % (wanted, text)


def reports(check, program):
    """Reports are replayed, name the rule, and simulate runs their scripts."""
    for end, name in REPLAYED:
        if not check.wants(name):
            continue
        written = run([program, end, name, '--first'])[1]
        report = re.sub('(?s)\nrules that differ: .*', '\n', re.sub('(?m)^# Something .*\n', '', written))
        for given, text in ('script', script_of(report)), ('report', written):
            check.equal('replay of the %s of: %s' % (given, name), (1, report), run([program, end, name, '--replay'], text))
            check.equal('the right end on the %s of: %s' % (given, name), (0, 'no difference\n'),
                        run([program, end, 'none', '--replay'], text))
        if name in NAMED:
            check.equal('rule of: ' + name, [NAMED[name]], rules_of(report))
        if can_simulate():
            check.fault('simulate on: ' + name, simulated, report)


def parts_of_answers(check, program):
    """A wrong octet is found wherever it is: in the first, a middle and the last entry of the longest block, and in all octets of outputs."""
    for fault, field in OF_PARTS:
        name = 'a wrong octet: ' + fault
        if check.wants(name):
            status, report = run([program, 'module', fault, '--first', str(EVENTS)])
            check.holds(name, status == 1 and '\n# field: %s' % field in report, report)


def long_scripts(check, program):
    """Scripts that are too long for simulate are for --replay alone, and say so; shorter runs do without them."""
    for name, rule in TOO_LONG if check.whole('several long scripts') else TOO_LONG[-1:]:
        if not check.wants(name):
            continue
        report = run([program, 'module', name, str(LATE), '--first'])[1]
        check.holds('shrinking stops at a bound: ' + name, OF_BOUND in report, report[:2000])
        report = report[:report.index('rules that differ: ')]
        check.equal('rule of a long script: ' + name, [rule], rules_of(report))
        check.holds('a long script says what runs it: ' + name, OF_REPLAY in report, report[:2000])
        report = report.replace(OF_BOUND, '\n')
        check.equal('replay of a long script: ' + name, (1, report), run([program, 'module', name, '--replay'], report))
        check.equal('the right end on a long script: ' + name, (0, 'no difference\n'),
                    run([program, 'module', 'none', '--replay'], report))
        check.equal('a shorter run has no long scripts: ' + name, 0, run([program, 'module', name, str(LATE - 1)])[0])
        if can_simulate():
            check.equal('simulate on a long script: ' + name, (1, 'input too long\n'),
                        run([os.path.join(TOP, 'fio2070'), 'simulate'], script_of(report)))


def goes_on(check, program):
    """A run finds all rules that differ, leaves out rules of the own profile, and says what survives a reset."""
    several = 'E is not set; filter of 0 acts as 2; F is not set; identification is another octet'
    found = set(rules_of(run([program, 'module', several])[1]))
    wanted = {'sent-again', 'filter-of-zero', 'lost', 'identification'}
    check.holds('a run goes on after a difference', wanted <= found, found)
    several = 'wide times are the stamp; there are two gap marks; states are turned'
    found = set(rules_of(run([program, 'cpu', several])[1]))
    check.equal("a run of a CPU's end goes on", {'wide-time', 'gap-mark', 'items-in-order'}, found)
    for end, fault, rule in [('module', 'filter of 0 acts as 2', 'filter-of-zero'), ('module', 'identification has two '
                             'octets', 'identification'), ('module', 'counter is 1 at the start', 'counter-at-start'),
                             ('module', 'an absent input is passed over', 'absent-input'),
                             ('module', 'the newest entry is pushed out', 'pushed-out'),
                             ('cpu', 'the second poll for a block raises the number', 'same-until-taken')]:
        events = min(check.given.events, 300000)
        check.equal('except ' + rule, (0, 'no difference in %d events' % events),
                    (lambda done: (done[0], done[1].splitlines()[-1]))(
                        run([program, end, fault, '--except', rule, str(events)])))
    report = run([program, 'module', 'outputs are 1 at the start', '--first'])[1]
    check.holds('equal octets are said to be equal', re.search('(?m)^# got: .*, the same octets: see the field$', report)
                and '\n# field: the outputs, ' in report, report)
    for end, several in LASTING:
        said = run([program, end, several, str(EVENTS)])[1]
        check.holds('a run goes on to its end: ' + several, said.endswith(' in %d events\n' % EVENTS)
                    and BREAKS in said, said)
    for fault in ('watchdog outlasts a restart', 'flags outlast a restart', 'outputs outlast a restart'):
        report = run([program, 'module', fault, '--first'])[1]
        check.holds('a dirty start: ' + fault, re.search('\n# Something outlasts a reset.*\nfio2070 script ', report)
                    and '\nrestart\n' in report and rules_of(report) == ['restart'], report)


def words(check, program):
    """What the words of a tester do, and what it says about words and scripts that are faulty."""
    for given, wanted in [(['--except', 'none-such'], 'no rule has the name none-such'),
                          (['--except', 'sent-again'], "the rule sent-again is not this project's own"),
                          (['--except', 'stale'], 'no rule has the name stale'), (['x'], 'usage: '),
                          (['1', '2', '3'], 'usage: ')]:
        status, said = run([program, 'module', 'none', *given])
        check.holds('words %s' % ' '.join(given), status == 2 and said.startswith(wanted), said)
    for line in ('fio2070 script 1 2', 'to-module 1', 'to-cpu 1', 'scan 00', 'send 3', 'polls', ' sync', 'frame x',
                 '# frame to the module: x', '0 lines', 'differences'):
        text = 'fio2070 script 1 2 0\nsync\n%s\n' % line
        check.equal('faulty line ' + line, (2, 'line 3: bad line\n'), run([program, 'module', 'none', '--replay'], text))
    for header in ('fio2070 script 1 9 0', 'fio2070 script 3 2 0 200 1024'):
        status, said = run([program, 'module', 'none', '--replay'], header + '\npoll\nto-module 1\n')
        check.holds('header ' + header, status == 2 and said.startswith('the script is for a module with '), said)
    script = ('fio2070 script 1 2 5\npoll\nto-module 1\nframe 3605\npoll\nto-module 2\nframe 3606\npoll\nto-module 3\n'
              'frame 33006f\n')
    for form, text in ('', script), (' of before', script.replace('frame ', '# frame to the module: ')):
        replayed = run([program, 'module', 'an octet too many is accepted', '--replay'], text)[1]
        check.holds('a script%s is replayed as it was read' % form, replayed.endswith('\n' + script), replayed)
    check.equal('a text without a script', (2, 'line 2: bad line\n'), run([program, 'module', 'none', '--replay'],
                                                                         '# nothing\n'))


def earlier_reports(check, program):
    """What a run writes is a text of scripts for `--replay`, with its table and its results; other lines are refused."""
    several = 'E is not set; filter of 0 acts as 2; F is not set; identification is another octet'
    report = run([program, 'module', several, '--coverage', str(EVENTS)])[1]
    replayed = run([program, 'module', several, '--replay'], report)
    # A replay passes over no rule, so a script may show another one first.
    check.equal('a report of several rules is replayed', (1, len(rules_of(report))), (replayed[0], len(rules_of(replayed[1]))))
    check.equal('the right end on a report of several rules', (0, 'no difference\n'),
                run([program, 'module', 'none', '--replay'], report))
    nothing = run([program, 'module', 'none', '--coverage', str(EVENTS)])[1]
    check.equal('a report without a script', (0, 'no difference\n'), run([program, 'module', 'none', '--replay'], nothing))
    end = len(report.splitlines()) + 1
    check.equal('a faulty line below a report', (2, 'line %d: bad line' % end), (lambda done: (
        done[0], done[1].splitlines()[-1]))(run([program, 'module', 'none', '--replay'], report + 'polls\n')))
    before = ('fio2070 script 1 2 0\r\npoll\r\nto-module 1\r\npoll\r\nto-module 2\r\n# expected: b600000200000000\r\n'
              'not exercised: lost\r\nrules that differ: 1 in 2000 events\r\n')
    check.equal('a report of before', (1, ['sent-again']), (lambda done: (done[0], rules_of(done[1])))(
        run([program, 'module', 'E is not set', '--replay'], before)))
    check.equal('a report of a run that failed', (0, 'no difference\n'), run(
        [program, 'module', 'none', '--replay'], before + 'the end under test failed\n/dev/ttyUSB0: it ended\n'))


def transcripts(check, program):
    """The transcripts of CPU's ends that raise their number at the wrong time break the rule `advance`."""
    for name in ('the second poll for a block raises the number', 'a block without entries leaves the number'):
        report = run([program, 'cpu', name, '--first'])[1]
        text = ''.join(line + '\n' for line in re.findall('^# ([<>] .*)$', report, re.M))
        check.holds('transcript of: ' + name, 'breaks advance\n' in run([os.path.join(TOP, 'fio2070'), 'check'], text)[1])


def tables(check, program, room):
    """Each rule is in docs/PROTOCOL.md under its section; the XML has a case for each, with its result."""
    with open(os.path.join(TOP, 'docs/PROTOCOL.md'), encoding='utf-8') as document:
        sections = re.split('(?m)^#+ ', document.read())
    plain = {section.partition('\n')[0]: section.replace('*', '') for section in sections}
    pages = {section.partition('\n')[0]: re.sub(r'\s+', ' ', section.replace('*', '')) for section in sections}
    names, cited = set(), {}
    for end in ('module', 'cpu'):
        for name, source, section, sentence in re.findall(
                r'^(\S+) +(TEES 2009|own profile) +([^:]*): (.*)$', run([program, end, 'none', '--rules'])[1], re.M):
            names.add(name)
            cited.setdefault(section, []).append(sentence)
            check.holds('rule ' + name, sentence in pages.get(section, ''), '%s: %s' % (section, sentence))
    check.holds('names of rules', len(names) > 60)
    left = [row for section in RULED for row in re.findall(r'^\| (.*) \| [^|]*(?:TEES 2009|own profile)[^|]* \|$',
                                                           plain[section], re.M)
            if not any(part in row for part in cited[section])]
    check.equal('rows of PROTOCOL that no rule cites', [], left)
    result = os.path.join(room, 'result.xml')
    run([program, 'module', 'E is not set', '--junit', result, '--except', 'lost'])
    suite = xml.parse(result).getroot()
    cases = {case.get('name'): [child.tag for child in case] for case in suite}
    check.equal('JUnit: what became of rules', (['failure'], ['skipped'], []),
                (cases['sent-again'], cases['lost'], cases['load-at-sync']))
    check.equal('JUnit: counts', (len(cases), 1), (int(suite.get('tests')), int(suite.get('failures'))))
    said = suite.find('.//failure').text
    check.holds('JUnit: the report', said.startswith('# expected: ') and '\n# field: E of' in said
                and '\n%ssent-again, TEES 2009, docs/PROTOCOL.md, Polls: ' % BREAKS in said
                and '\nfio2070 script 1 2 0\npoll\n' in said, said)


def page(check, program):
    """The report on the page is the one that the tester writes for its script."""
    with open(os.path.join(TOP, 'tools/conformance/README.md'), encoding='utf-8') as document:
        blocks = re.findall('(?s)```text\n(# expected: [^`]*\nfio2070 script.*?)```', document.read())
    check.equal('report of the page', blocks, [
        run([program, 'module', 'E is not set', '--replay'], block)[1] for block in blocks[:1] or ['']])


def over(check, name, command, wanted):
    """A row: a tester that asks over a wire ends with this status, and its last line has these words."""
    if check.wants(name):
        status, said = run(command)
        check.holds(name, status == wanted[0] and wanted[1] in said.splitlines()[-1], said)


def says_first(words, line):
    """What a run writes, if that does not begin with a line of these words."""
    said = run(words)[1]
    return None if said.startswith(line) else said


def served(*words):
    """A port at which a command serves one connection."""
    listener = socket.create_server(('127.0.0.1', 0))

    def serve():
        with listener, listener.accept()[0] as stream:
            subprocess.run(words, stdin=stream, stdout=stream, stderr=subprocess.DEVNULL)
    threading.Thread(target=serve, daemon=True).start()
    return listener.getsockname()[1]


# The milliseconds in which a line has to come that does come, also on a busy machine: after a hang, and where none hangs.
PATIENT, LONG = '3000', '60000'


def failing(tester, faulty, fault, asked, said):
    """What is wrong with the report of a module over a wire that ends or hangs at a frame."""
    status, text = run([tester, '--deadline', PATIENT, '--command', "%s wire '%s'" % (faulty, fault), str(EVENTS)])
    if status != 1 or '\n# got: %s\n# asked: %s' % (said, asked) not in text or '\n' + BREAKS not in text:
        return '%d: %s' % (status, text)
    if 'ends' in fault and '\n# standard error: module: bad access\n' not in text:
        return text
    if not text.endswith(' in %d events\n' % EVENTS):
        return text
    # On a busy machine the bound of time may come first.
    return None if OF_BOUND not in text or os.getloadavg()[0] > os.cpu_count() else 'shrinking it took too long'


def ends_for_good(tester, faulty):
    """What is wrong with the report of a module that ends, and whose socket can't be connected again."""
    port = served(faulty, 'wire', 'it ends at 255 items')
    status, text = run([tester, '--deadline', PATIENT, '--socket', '127.0.0.1:%d' % port, str(EVENTS)])
    wanted = ["# It can't be asked again: the script is as it was.\n", '\n# asked: frame 33ff', '\n%sframe-length, ' % BREAKS]
    return None if status == 3 and all(part in text for part in wanted) else '%d: %s' % (status, text)


def now_and_then(tester, adapter):
    """What is wrong with the report of a module whose answers now and then have another status."""
    command = '%s | %s -c %s' % (adapter, sys.executable, shlex.quote(NOW_AND_THEN))
    status, text = run([tester, '--command', command, str(EVENTS)])
    told = re.findall('(?m)^(# (?:Seen once|It does not come each time).*)$', text)
    if (status != 1 or not told or '\nseen, and not again: sent-again, in ' not in text
            or '\n%ssent-again' % BREAKS not in text):
        return '%d: %s' % (status, text)
    return None if ' in %d events\n' % EVENTS in text else text


def slow(tester, adapter):
    """What is wrong with what is said while the script of a slow module is shrunk."""
    command = '%s | %s -c %s' % (adapter, sys.executable, shlex.quote(SLOW))
    done = subprocess.run([tester, '--command', command, '1000', '--first'], stdout=subprocess.PIPE, stderr=subprocess.PIPE,
                          text=True)
    is_said = re.match('# Shrinking goes on: [0-9]+ events so far, after [0-9]+ s of at most 120.\n', done.stderr)
    return None if done.returncode == 1 and is_said and rules_of(done.stdout) == ['sent-again'] else done.stderr + done.stdout


def wrong_line(tester, command, said):
    """What is wrong with the report of a CPU's end with a line that is none."""
    status, text = run([tester, '--cpu', '--command', command, str(EVENTS), '--first'])
    return None if status == 1 and '\n# got: %s' % said in text and BREAKS in text else '%d: %s' % (status, text)


def cpus_end(check, tester, python, faulty):
    """A CPU's end over a wire, right and wrong."""
    python, differs = python.replace('/adapter.py', '/cpu_adapter.py'), (1, 'rules that differ: 1 in ')
    over(check, "wire: a CPU's end in Python", [tester, '--cpu', '--command', python, '5000'], (0, 'no difference in 5000 '))
    over(check, "wire: a CPU's end", [tester, '--cpu', '--command', faulty + ' wire-cpu none', str(EVENTS)],
         (0, 'no difference in %d ' % EVENTS))
    for fault in BY_LINES:
        over(check, "wire: a CPU's end: " + fault, [tester, '--cpu', '--deadline', PATIENT, '--command', "%s wire-cpu '%s'" % (
            faulty, fault), str(EVENTS), '--first'], differs)
    for pattern, said in WRONG_LINES:
        check.fault("wire: a CPU's end says " + pattern, wrong_line, tester, "%s wire-cpu none | sed -u 's/%s/'" % (
            faulty, pattern), said)


def wires(check, room):
    """The command over a pipe, a socket and a pseudo-terminal, with the adapters in C and in Python, right and wrong."""
    tester, adapter = os.path.join(TOP, 'fio2070-test'), os.path.join(room, 'adapter')
    folder = os.path.join(TOP, 'tools/conformance/adapters')
    check.equal('build of the adapter', (0, ''), run(
        ['cc', '-Wall', '-Wextra', '-Werror', '-I', os.path.join(TOP, 'include'), os.path.join(folder, 'adapter.c'),
         os.path.join(TOP, 'libfio2070.a'), '-o', adapter]))
    python = 'FIO2070_LIBRARY=%s PYTHONPATH=%s PYTHONDONTWRITEBYTECODE=1 %s/adapter.py' % (
        os.path.join(TOP, 'libfio2070.so'), os.path.join(TOP, 'bindings/python'), folder)
    faulty = os.path.join(room, 'gcc')
    same, differs = (0, 'no difference in '), (1, 'rules that differ: ')
    over(check, 'wire: adapter in C', [tester, '--command', adapter, '20000'], same)
    over(check, 'wire: adapter in Python', [tester, '--command', python, '5000'], same)
    over(check, 'wire: a wrong module', [tester, '--command', adapter + " | sed -u 's/^answer bc02/answer bc03/'", '5000',
                                         '--first'], differs)
    for words in (['--id', 'abc'], ['--id', '1x'], ['--id', '256'], ['--deadline', '-5'], ['--deadline', '0'], ['--per-block', '']):
        done = subprocess.run([tester, *words, '--self', 'module', '10'], capture_output=True, text=True, check=False, timeout=60)
        check.equal('refused: ' + ' '.join(words), (2, 'a number is out of its range\n'), (done.returncode, done.stdout))
    turned = "sed -u -E 's/^inputs (..)(..)(..)(..)(..)(..)(..)(..)/inputs \\8\\7\\6\\5\\4\\3\\2\\1/' | %s"
    for name, words, command in (('', [], adapter), (', own clock', ['--own-clock'], adapter + ' clock')):
        check.fault('wire: inputs in reverse order of octets' + name, says_first, [tester, *words, '--command', turned % command, '5000', '--first'],
                    '# the inputs seem to be in reverse order of octets')
    over(check, 'wire: another identification', [tester, '--id', '3', '--command', adapter, '5000', '--first'], differs)
    for name, ms, command, fault in [('ends', LONG, 'read line', 'it ended'), ('is late', '300', 'sleep 9', 'it wrote no line in time'),
                                     ('says something else', LONG, "sed -u 's/.*/what/'", 'not `done`: what'),
                                     ('says what is no text', LONG, r"LC_ALL=C sed -u 's/.*/\x1b[2J\xff/'", 'not `done`: ?[2J?')]:
        over(check, 'wire: a module that ' + name, [tester, '--deadline', ms, '--command', command, '1000'], (3, fault))
    over(check, 'wire: a module that writes for ever', [tester, '--deadline', LONG, '--command', 'yes done 2>/dev/null', '1000'], differs)
    over(check, 'wire: a socket', [tester, '--socket', '127.0.0.1:%d' % served(adapter), '5000'], same)
    cpus_end(check, tester, python, faulty)
    if check.has_terminal('wire: a pseudo-terminal'):
        ours, theirs = pty.openpty()
        tty.setraw(theirs)
        with subprocess.Popen([adapter], stdin=ours, stdout=ours) as process:
            over(check, 'wire: a pseudo-terminal', [tester, '--serial', os.ttyname(theirs), '5000'], same)
            process.kill()
    for fault, asked, said in FAILING if check.whole('wire: planted faults') else ():
        check.fault('wire: ' + fault, failing, tester, faulty, fault, asked, said)
    check.fault('wire: a difference now and then', now_and_then, tester, adapter)
    check.fault('wire: a slow module', slow, tester, adapter)
    check.fault('wire: a socket that ends', ends_for_good, tester, faulty)
    over(check, 'wire: it hangs at once', [tester, '--deadline', '300', '--command', 'sleep 100', '1000'],
         (3, 'it wrote no line in time'))
    over(check, 'an option before WIRE', [tester, '--first', '--command', adapter], (2, '--first before WIRE '))
    over(check, 'wire: a leaking module', [tester, '--command', faulty + " wire 'watchdog outlasts a restart'", '20000',
                                           '--first'], differs)
    over(check, 'own clock: adapter in C', [tester, '--own-clock', '--command', adapter + ' clock', '8000'], same)
    with ThreadPoolExecutor(len(BY_BOUNDS)) as threads:
        rows = [threads.submit(over, check, 'own clock: ' + fault, [
            tester, '--own-clock', '--command', "%s wire '%s' clock" % (faulty, fault), '40000', '--first'], differs)
                for fault in (BY_BOUNDS if check.whole('own clock: planted faults') else ())]
        for row in rows:
            row.result()  # raises what went wrong there
    for end in ('module', 'cpu'):
        over(check, 'the proved end: ' + end, [tester, '--self', end, str(min(check.given.events, 300000))], same)
    if check.wants('--version'):
        version = re.search(r'^## (\S+)', text_of('CHANGELOG.md'), re.M)[1]
        check.equal('--version', (0, 'fio2070-test %s\nlibfio2070 %s in %s\n' % (version, version, os.path.realpath(tester))), run([tester, '--version']))
    for wire, why in (('--self x', '--self has module or cpu after it'), ('--serial /none', 'No such file or directory'), ('--serial /', 'Is a directory'),
                      ('--socket none', 'it is no HOST:PORT'), ('--socket 127.0.0.1:1', 'Connection refused'), ('--socket 127.0.0.1:x', '')):
        status, said = run([tester, *wire.split(), '5000'])
        check.holds("can't open " + wire, (status, said[:-1]) == (2, "can't open %s: %s" % (wire.split()[1], why)) or status == 2 and not why, said)
    late = "sh -c 'exec 2>/dev/null; while read line; do for n in 1 2 3 4 5 6 7 8 9; do printf x; sleep 0.1; done; done'"
    over(check, 'wire: a line that does not end', [tester, '--deadline', '300', '--command', late, '1000'],
         (3, 'it wrote no line in time'))


def bounds(check, room):
    """How long a script is shrunk after the time that those before it took, and that it is said once if it is less."""
    if not check.wants('bounds of shrinking'):
        return
    program = os.path.join(room, 'shrinking')
    check.equal('build of the bounds of shrinking', (0, ''), run(
        ['cc', '-Wall', '-Wextra', '-Werror', '-I', os.path.join(TOP, 'include'), '-I', os.path.join(TOP, 'tools/conformance'),
         os.path.join(TOP, 'tests/support/c/shrinking.c'), os.path.join(TOP, 'out/tester/tester.a'), os.path.join(TOP, 'libfio2070.a'), '-o', program]))
    done = subprocess.run([program], capture_output=True, text=True, check=False)
    line = '# Shrinking has taken %s in this run: from here on at most %s.\n'
    wanted = line % ('300 s', '5000 ms for each script') + line % ('20 s', '500 ms for each script at which the end fails')
    check.holds('bounds of shrinking', (done.returncode, done.stderr) == (0, wanted), done.stdout + done.stderr)


def sanitized(check, room):
    """Built with sanitizers, the tester runs as well."""
    if not check.whole('with sanitizers'):
        return
    if not shutil.which('clang'):
        check.skip('build by clang', 'it is not installed')
        return
    program = built(check, room, 'clang', 'clang', '-std=c99', '-g', '-O1', '-fsanitize=address,undefined',
                    '-fno-sanitize-recover=all')
    for end, name in program and [('module', 'none'), ('cpu', 'none'), REPLAYED[1], REPLAYED[15]] or []:
        status, said = run([program, end, name, '100000'])
        check.equal('with sanitizers, %s: %s' % (end, name), 0 if name == 'none' else 1, status if status < 2 else said)


def main():
    check = Check(events=(100_000, 1_000_000))
    with tempfile.TemporaryDirectory() as room:
        check.equal('make library', (0, ''), run(['make', '-s', '-C', TOP, 'library']))
        program = built(check, room, 'gcc', 'gcc', '-std=c99', '-O2')
        if check.whole('build by g++'):
            built(check, room, 'g++', 'g++', '-x', 'c++', '-std=c++11') if shutil.which('g++') else check.skip(
                'build by g++', 'it is not installed')
        if program:
            for part in (right_ends, planted_faults, other_seeds, reports, parts_of_answers, long_scripts, goes_on, words, earlier_reports,
                         transcripts):
                part(check, program)
            tables(check, program, room)
            page(check, program)
        wires(check, room)
        bounds(check, room)
        sanitized(check, room)
    check.end()


main()
