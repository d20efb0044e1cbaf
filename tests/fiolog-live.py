#!/usr/bin/env -S python3 -B
"""`fiolog live` on lines that carry traffic: a process, a pseudo-terminal, datagrams and a pipe, with the proved module and
poller on the other side, with losses, damage, a device that babbles, frames of another module, and entries that break a rule
on content; the status line of a terminal; a capture in a pipe. Last line: `N passed, M failed`."""

import glob
import os
import pty
import re
import shutil
import socket
import subprocess
import sys
import tempfile
import termios
from pathlib import Path

from support.check import Check
from support.fiolog import ENVIRONMENT, Terminal, fiolog, started, use_library, written
from support.kinds import LITTLE, LOST
from support.line_model import line_of
from support.loggers import LOGGERS
from support.pages import text_of
from support.pcapng import frames_of
from support.sessions import SESSION, timed
from support.tables import TOP
from support.waits import LONGEST, is_gone, sleeps, until

EXAMPLES = os.path.join(TOP, 'examples')
TALK = '%s %s' % (sys.executable, os.path.join(TOP, 'tests', 'support', 'talking.py'))
LOG = LOGGERS['ISO times'](timed(SESSION))
# An entry of input 12 twice.
DOUBLED = ['33020c05030d0503', 'b300', '3600', 'b600000000000000', '3601', 'b601010c000a000000000b', '3602',
           'b602010c00140000000015']
REMARK = 'line 8: alternate: input 12 went to 0 twice'


def numbers_of(text):
    """The numbers of a summary line."""
    return {name: int(number) for name, number in re.findall(r'([a-z ]+) (\d+)(?:, |$)', text.strip().splitlines()[-1])}


def check_forms(check, folder):
    """A process may write any form that is read; a transcript is shown line by line."""
    for form in ('ISO times', 'TX and RX', 'arrows', 'transcript', 'JSON lines', 'Docklight', 'hexdump -C', 'SDLC'):
        done = fiolog('live', '-q', '--exec', 'cat ' + written(folder, 'log', '# connected\n' + LOGGERS[form](timed(SESSION))))
        check.equal('a process that writes %s' % form, len(SESSION), numbers_of(done.out)['frames'])
    live = started('live', '--exec', "sh -c 'echo hello; echo \\> 3605; exec sleep 600'")
    check.holds('a poll of a transcript is shown as it comes', b'> poll block 5' in live.stdout.readline())
    ended(live)
    live = started('live', '--like', '12:00:00.000 TX 36 05', '--exec',
                   "sh -c 'for second in 1 2 3 4; do echo 12:00:0$second.000 TX 36 05; done; exec sleep 600'")
    shown = [live.stdout.readline() for _ in range(4)]
    shown += ended(live)[0].splitlines(True)[:-2]
    check.equal('so is each of a log of which a line is given, while the module is silent',
                ['%d:     12:00:0%d.000 > poll block 5\n' % (number, number) for number in range(1, 5)],
                [line.decode() if isinstance(line, bytes) else line for line in shown])
    done = fiolog('live', '-q', '--exec', 'echo hello')
    check.equal('a process that writes no frame', (1, LITTLE), (numbers_of(done.out)['skipped lines'], done.status))


def fault_of_process():
    """A process with the proved ends: 40 rounds, of which every fifth answer is lost."""
    done = fiolog('live', '--exec', TALK, '--quiet')
    found = numbers_of(done.out)
    return None if (found['polls'], found['answers lost'], found['gap marks'], done.status) == (40, 8, 0, 0) else done


def ended(command):
    """What a run writes on both streams until it is ended like by Ctrl-C."""
    command.terminate()
    return [octets.decode() for octets in command.communicate(timeout=LONGEST)]


def on_serial(write, *words):
    """The output and the status of a run whose serial port is a pseudo-terminal that brings this text."""
    ours, theirs = pty.openpty()
    command = started('live', '--serial', os.ttyname(theirs), '--quiet', *words)
    # What comes while the port is set is dropped.
    until(lambda: not termios.tcgetattr(theirs)[3] & termios.ICANON and sleeps(command.pid))
    due = octets_read_by(command.pid)

    def put(octets):
        nonlocal due
        due += os.write(ours, octets)
    write(put)
    until(lambda: octets_read_by(command.pid) >= due and sleeps(command.pid))
    out = ended(command)[0]
    os.close(ours)
    os.close(theirs)
    return out, command.returncode


def octets_read_by(number):
    """How many octets a process has read: what a terminal was given comes to its other end only after a while (Linux: /proc/PID/io)."""
    return int(re.search(r'^rchar: (\d+)$', Path('/proc/%d/io' % number).read_text(), re.M)[1])


def fault_of_serial():
    """A pseudo-terminal as serial port: frames with checks; an answer that the CPU heard is damaged here, one comes in two
    pieces, then a damaged one, then a device babbles. Nobody is accused."""
    from support.talking import rounds
    frames = [octets for _, octets in rounds(20)]
    lost = next(place for place, octets in enumerate(frames) if octets[0] == 182 and octets[2] and frames[place + 1][1] != octets[1])

    def write(put):
        for place, octets in enumerate(frames):
            put(line_of(octets)[:-2])
            put(b'\x00\x7e' if place == lost else line_of(octets)[-2:])
        put(line_of(b'\x36\x05')[:-3] + b'\x00\x00\x7e')
        for _ in range(8):
            put(b'\x55' * 500)
        put(b'\x7e' + line_of(b'\x36\x05'))
    out, status = on_serial(write)
    found = numbers_of(out)
    expected = {'frames': len(frames), 'wrong frame checks': 3, 'breaches': 0, 'breaches in content': 0}
    return None if expected == {name: found[name] for name in expected} and status == 0 else out


def fault_of_line():
    """What comes before the first flag is nothing. A frame that is broken off after its check, one that is too long and one without a
    message are damage; a frame of another address is shown, and is none."""
    poll, block, other = b'\x36\x05', bytes.fromhex('b6050000000003e8'), b'\x36\x63'
    frames = [octets for number in range(1, 5) for octets in (bytes([0x36, number]), bytes([0xb6, number]) + block[2:])]

    def write(put):
        put(b'\xff' + line_of(poll)[2:-1] + b''.join(map(line_of, frames)) + line_of(poll))
        put(line_of(block)[:-1] + b'\x7d\x7e' + line_of(other, 0x15) + line_of(block)[1:])
        put(line_of(bytes(774)) + b'\xff' * 4 + line_of(b'\x36\x06'))
    due = {'frames': len(frames) + 3, 'polls': 6, 'wrong frame checks': 3, 'frames of other addresses': 1, 'breaches': 0}
    out, status = on_serial(write)
    found = numbers_of(out)
    if due != {name: found.get(name) for name in due} or status:
        return out, status
    out, status = on_serial(write, '--address', '15')
    found = numbers_of(out)
    return None if (found['frames'], found['frames of other addresses'], found['breaches']) == (1, len(frames) + 3, 0) else (out, status)


def fault_of_doubled():
    """A doubled entry at a pseudo-terminal is named as it comes, and counted."""
    def write(put):
        for digits in DOUBLED:
            put(line_of(bytes.fromhex(digits)))
    out, status = on_serial(write)
    found = numbers_of(out)
    fits = out.startswith(REMARK) and (found['breaches'], found['breaches in content'], status) == (0, 1, 1)
    return None if fits else (out, status)


def datagrams_at(port):
    """How many octets of datagrams a socket at this port has that nobody has read; None if there is none (Linux: /proc/net/udp)."""
    found = re.search(r':%04X [0-9A-F:]+ \w+ \w+:(\w+) ' % port, Path('/proc/net/udp').read_text())
    return int(found[1], 16) if found else None


def fault_of_datagrams():
    """Datagrams, one of them no message, and one without octets, which is none."""
    from support.talking import rounds
    with socket.socket(socket.AF_INET, socket.SOCK_DGRAM) as probe:
        probe.bind(('127.0.0.1', 0))
        port = probe.getsockname()[1]
    command = started('live', '--udp', str(port))
    until(lambda: datagrams_at(port) is not None)
    frames = [b''] + [octets for _, octets in rounds(10)] + [b'\x30']
    with socket.socket(socket.AF_INET, socket.SOCK_DGRAM) as sender:
        for octets in frames:
            sender.sendto(octets, ('127.0.0.1', port))
    until(lambda: datagrams_at(port) == 0 and sleeps(command.pid))
    out = ended(command)[0]
    return None if numbers_of(out)['frames'] == len(frames) - 1 and 'unknown type 48' in out else out


def heard(folder, text, *words):
    """The output and the status of a run for a named pipe with this text, whose writer then goes away."""
    pipe = os.path.join(folder, 'pipe')
    if not os.path.exists(pipe):
        os.mkfifo(pipe)
    command = started('live', '--fifo', pipe, *words)
    Path(pipe).write_text(text)
    out, err = (octets.decode() for octets in command.communicate(timeout=LONGEST))
    return out, err, command.returncode


def fault_of_pipe(folder):
    """A named pipe, with a transcript and a capture as well, whose writer stops in the middle of a line."""
    transcript, capture = [os.path.join(folder, name) for name in ('transcript', 'capture')]
    out = heard(folder, LOG + '2026-11-22T07:15:09.000Z tx 36', '--quiet', '--transcript', transcript, '--pcapng', capture)[0]
    frames, expected = frames_of(Path(capture).read_bytes()), [(direction, octets) for _, direction, octets in timed(SESSION)]
    lines = [(line[0], bytes.fromhex(line[2:])) for line in Path(transcript).read_text().splitlines()]
    fits = lines[:len(expected)] == frames[:len(expected)] == expected
    return None if fits and numbers_of(out)['polls'] == 6 else out


def check_content(check, folder):
    """The examples whose record breaks a rule on content are accused of it, and no others are; of those that say so the module
    restarted."""
    for path in sorted(glob.glob(os.path.join(EXAMPLES, '*.record'))):
        expected = re.findall(r'^line (\d+) (?:input (\d+) )?breaks (\w+)$', text_of(path), re.M)
        out, _, status = heard(folder, text_of(path[:-len('record')] + 'transcript'), '--quiet')
        found = re.findall(r'^line (\d+): (\w+): (?:input (\d+) )?', out, re.M)
        numbers, name = numbers_of(out), os.path.basename(path)[:-len('.record')]
        restarts = int(name in ('clock-back', 'watchdog-forgotten'))
        check.equal('live on ' + name, ([(line, 'restarted' if restarts else rule, number) for line, number, rule in expected], 0,
                                        len(expected) - restarts, restarts, LOST if restarts else int(len(expected) > 0)),
                    (found, numbers['breaches'], numbers['breaches in content'], numbers.get('restarted', 0), status))


def check_beginning(check, folder):
    """A line that is joined in the middle of traffic, and a log of the bus, accuse nobody."""
    middle = '< b6050000000003e8\n> 3606\n< b6060000000003e9\n'
    out, _, status = heard(folder, middle, '--quiet')
    found = numbers_of(out)
    check.equal('an answer to what was sent before', (0, 1, 0), (found['breaches'], found['frames above the first command'], status))
    out, err, status = heard(folder, text_of('examples/lost-answer.frames'), '--quiet')
    check.equal('the bus', (0, 0, 0, True), (numbers_of(out)['breaches'], numbers_of(out)['breaches in content'], status, 'not judged' in err))


def check_loads(check, folder):
    """A damaged line may be a load of the counter, which explains a stamp that goes back, unless the CPU never sends one."""
    log = written(folder, 'loads', '> 3605\n< b6050000000003e8\n> 3200000\n> 3606\n< b60600000000000a\n')
    for words, is_told in (([], False), (['--no-loads'], True)):
        done = fiolog('live', '-q', *words, '--exec', 'cat ' + log)
        check.equal('a stamp that goes back below a damaged line ' + ' '.join(words), (is_told, not is_told),
                    ('line 5: restarted: ' in done.out, 'a load of the counter may explain 1' in done.out))


def check_passed(check, folder):
    """What is skipped, and what is damaged, is reported."""
    out, err, _ = heard(folder, LOG + 'link down\n', '--quiet', '-v')
    check.holds('a line that is passed over', 'line %d: no octets: link down' % (len(SESSION) + 1) in err, err)
    check.equal('and counted', 1, numbers_of(out)['skipped lines'])
    out, err, status = heard(folder, LOG + '2026-11-22T07:15:09.000Z tx 3604\n2026-11-22T07:15:09.010Z rx b604000000\n'
                             '2026-11-22T07:15:09.020Z tx 3605\n', '--quiet', '-v')
    check.equal('a damaged line accuses nobody', (1, numbers_of(heard(folder, LOG, '--quiet')[0])['breaches']),
                (sum(numbers_of(out).get(name, 0) for name in ('damaged lines', 'lines that may be a message and have no form')), numbers_of(out)['breaches']))
    out = heard(folder, '> ' + 'b6' * 200_000 + '\n> 3605\n< b60500000000000a\n> 3606\n', '--like', '> 3605', '--like', '< b60500000000000a')[0]
    check.equal('below a line of 400 KB', (3, 'poll block 5'), (numbers_of(out)['frames'], out.splitlines()[0][-12:]))


def screen(text):
    """The lines that a terminal shows for a text, without colours."""
    lines, place = [''], 0
    for part in re.findall(r'\r|\n|\x1b\[K|[^\r\n\x1b]+', re.sub(r'\x1b\[[0-9;]*m', '', text)):
        if part == '\r':
            place = 0
        elif part == '\n':
            lines.append('')
            place = 0
        elif part == '\x1b[K':
            lines[-1] = lines[-1][:place]
        else:
            lines[-1] = lines[-1][:place] + part + lines[-1][place + len(part):]
            place += len(part)
    return lines


def check_status_line(check, folder):
    """On a terminal the status line goes before each message, and the summary follows the last."""
    if not check.has_terminal('the status line'):
        return
    lines = ['%s %s' % ('<' if digits[0] == 'b' else '>', digits) for digits in DOUBLED]
    pipe = os.path.join(folder, 'lines')
    os.mkfifo(pipe)
    with Terminal(['live', '--exec', 'cat ' + pipe]) as live, open(pipe, 'w', encoding='ascii') as talking:
        for number, line in enumerate(lines, 1):
            talking.write(line + '\n')
            talking.flush()
            live.wait_for('frames %d, ' % number)
        live.wait_for('silent for 2 s')
        talking.close()
        text = live.rest()
    shown = screen(text)
    messages = [line[re.match(r'\d+: +\S+ \S+ ', line).end():] for line in shown if re.match(r'\d+: ', line)]
    expected = fiolog('decode', '-q', text='\n'.join(lines)).found(r'^\S+ +(.*)')
    check.equal('the messages on a terminal', expected, messages)
    check.equal('the last lines', [True, 'Nothing is lost in what this log has, so % of the time. At 1 place entries are not to be believed (below).', 'frames 8, polls 3, repeats 0, answers lost 0, gap marks 0, breaches 0, breaches in content 1', ''],
                [shown[-4].startswith(REMARK), re.sub(r'[\d.]+ %', 'so %', shown[-3]), *shown[-2:]])
    check.holds('the status line while it talks', 'whole, frames 7, polls 3, breaches 0\r' in text, text[-900:])
    check.holds('the status line in silence', 'not whole, frames 8, polls 3, breaches 0, breaches in content 1, silent for 2 s\r' in text, text[-400:])


def check_process_ends(check):
    """A process that fails is named; one that goes on is ended."""
    done = fiolog('live', '--exec', 'sh -c "echo \\> 3605; exit 3"', '--quiet')
    check.equal('a process that fails', (1, True), (done.status, 'the process ended with status 3' in done.err))
    with tempfile.TemporaryDirectory() as folder:
        path = os.path.join(folder, 'number')
        # The process has to begin in that time.
        for seconds in ('0.3', '3', '30'):
            done = fiolog('live', '--exec', "sh -c 'echo $$ > %s; exec sleep 600'" % path, '--seconds', seconds)
            if os.path.exists(path) and os.path.getsize(path):
                break
        number = int(Path(path).read_text())
    check.equal('a process that goes on is ended', (LITTLE, True), (done.status, until(lambda: is_gone(number))))
    for words in (['--exec', 'no-such-command'], ['--exec', '"'], ['--fifo', 'no-such-pipe'], ['--serial', '/dev/no-such-port'],
                  ['--serial', __file__]):
        done = fiolog('live', *words)
        check.equal('live %s' % ' '.join(words), (3, False), (done.status, 'Traceback' in done.err))


def check_ended_from_outside(check, folder):
    """SIGTERM acts like Ctrl-C; a pipe without a writer is left in time."""
    path, pipe = os.path.join(folder, 'number'), os.path.join(folder, 'silent')
    live = started('live', '--exec', "sh -c 'echo $$ > %s; echo \\> 3605; exec sleep 600'" % path)
    live.stdout.readline()
    out = ended(live)[0]
    number = int(Path(path).read_text())
    check.equal('SIGTERM ends both, with the summary', (1, True), (numbers_of(out)['frames'], until(lambda: is_gone(number))))
    os.mkfifo(pipe)
    done = fiolog('live', '--fifo', pipe, '--seconds', '0.2')
    check.equal('a pipe without a writer', (LITTLE, True), (done.status, 'no frame came' in done.err))


def check_capture_in_pipe(check):
    """A capture in a pipe is read as it comes."""
    if not shutil.which('tshark'):
        check.skip('a capture in a pipe', 'no tshark here')
        return
    expected = subprocess.run([sys.executable, os.path.join(TOP, 'tests', 'support', 'talking.py')], stdout=subprocess.PIPE,
                              env=ENVIRONMENT, universal_newlines=True).stdout
    live = started('live', '--exec', TALK, '--quiet', '--pcapng', '-', stdin=None, stderr=subprocess.DEVNULL)
    done = subprocess.run(['tshark', '-X', 'lua_script:' + os.path.join(TOP, 'tools', 'wireshark', 'fio2070.lua'), '-r', '-', '-T',
                           'fields', '-e', 'frame.packet_flags_direction', '-e', 'fio2070.octets'], stdin=live.stdout,
                          stdout=subprocess.PIPE, stderr=subprocess.DEVNULL, universal_newlines=True)
    live.stdout.close()
    live.wait()
    rows = [line.split('\t') for line in done.stdout.splitlines()]
    found = ''.join('%s %s\n' % ({'2': '>', '1': '<'}.get(str(int(way, 0)), way), octets.replace(':', '')) for way, octets in rows)
    check.equal('a capture in a pipe', expected, found)


def main():
    check = Check()
    use_library(check, 'fiolog live')
    check.fault('a process', fault_of_process)
    if check.has_terminal('a pseudo-terminal'):
        check.fault('a pseudo-terminal', fault_of_serial)
        check.fault('damage, and frames of others, at a pseudo-terminal', fault_of_line)
        check.fault('a doubled entry at a pseudo-terminal', fault_of_doubled)
    check.fault('datagrams', fault_of_datagrams)
    with tempfile.TemporaryDirectory() as folder:
        check.fault('a pipe', fault_of_pipe, folder)
        for part in (check_forms, check_content, check_beginning, check_loads, check_passed, check_status_line, check_ended_from_outside):
            part(check, folder)
    check_process_ends(check)
    check_capture_in_pipe(check)
    check.end()


main()
