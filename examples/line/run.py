#!/usr/bin/env python3
"""Runs the whole of it: the firmware under qemu-system-arm, a bad line, the controller, and a script that moves the inputs. Then
compares the controller's table with the moves, and with what `fio2070 check` and `record` say of its transcript. The last line
says what was compared, and ends in `right`; the status is 0 then.

Without --rough no frame is repeated, and each answer comes by the deadline or never, unless the machine is too busy. With --rough
answers come late and twice: `check` says so of the transcript, and the table is right all the same. With --overflow the line is cut
until the module's buffer has run over, so the table has gaps. When the controller is to end, the line is cut, so that the command under
way is lost, and then becomes good: it sends the command again, until it hears the answer."""

import argparse
import contextlib
import csv
import os
import shutil
import signal
import subprocess
import sys
import threading
import time

sys.dont_write_bytecode = True

import board
import moves

HERE = os.path.dirname(os.path.realpath(__file__))
TOP = os.path.dirname(os.path.dirname(HERE))
# The entries that wait in the module at most, by the standard limits.
MOST_WAITING = 1024
# How long the controller waits for its last answer, which comes on a good line, also on a busy machine.
WAIT_S = 20


def options():
    """The command line."""
    parser = argparse.ArgumentParser(description=__doc__, formatter_class=argparse.RawDescriptionHelpFormatter)
    parser.add_argument('--seconds', type=float, default=20.0, help='how long inputs are moved')
    parser.add_argument('--rough', action='store_true', help='one frame in ten comes twice, and answers come up to 80 ms late')
    parser.add_argument('--overflow', action='store_true', help='half way through, the line is cut until the buffer has run over')
    parser.add_argument('--restart', choices=('module', 'controller', 'ended'), help='half way through, an end is ended and begun anew; '
                        '`ended`: the controller, once it has ended by itself')
    parser.add_argument('--deadline', type=int, metavar='MS', help='how long the controller waits for an answer')
    for name, default in ('lose', 0.1), ('damage', 0.05), ('repeat', 0.0):
        parser.add_argument('--' + name, type=float, default=default, metavar='P', help='the part of frames, %s by default' % default)
    parser.add_argument('--delay', type=float, default=8.0, metavar='MS', help='the most that a frame is delayed')
    parser.add_argument('--seed', type=int, default=1)
    parser.add_argument('--out', default=os.path.join(TOP, 'examples', 'out'), help='the folder of the programs and tables')
    parser.add_argument('--program', help='the command fio2070, for check and record; `none` leaves these out')
    option = parser.parse_args()
    if option.rough:
        option.repeat, option.delay = option.repeat or 0.1, 80.0
    option.deadline = option.deadline or (40 if option.rough else 200)
    return option


class Controller:
    """The controller at a port. It can be ended at once, and begun again."""

    def __init__(self, option, port):
        self.files = {name: os.path.join(option.out, name) for name in ('record.csv', 'events.csv', 'line.transcript', 'number')}
        for path in self.files.values():
            with contextlib.suppress(FileNotFoundError):
                os.remove(path)
        self.words = [os.path.join(option.out, 'controller'), '--deadline', str(option.deadline), '--wait', str(WAIT_S),
                      '--keep', self.files['number'], '--transcript', self.files['line.transcript'],
                      '--events', self.files['events.csv'], '--on', '0', '127.0.0.1:%d' % port, self.files['record.csv']]
        self.process = None

    def begin(self):
        self.process = subprocess.Popen(self.words, stdin=subprocess.DEVNULL)

    def commands(self):
        """How many commands it has sent."""
        with open(self.files['line.transcript'], encoding='ascii') as file:
            return sum(line.startswith('> ') for line in file)

    def end(self, relay):
        """Ends it as a user does, while a command is lost, and makes the line good once it is sent again. Returns whether its status
        is 0: it sends the command again, until it hears the answer."""
        for process, number in (relay, signal.SIGUSR2), (self.process, signal.SIGINT):
            process.send_signal(number)
            sent = self.commands()
            # The first of these may have been sent before the signal came.
            wait_for(lambda before=sent: self.process.poll() is not None or self.commands() > before + 1)
        relay.send_signal(signal.SIGUSR1)
        return self.process.wait(board.ANSWER_S) == 0

    def number(self):
        """The number that it keeps, as its file has it; none before the first block."""
        try:
            with open(self.files['number'], encoding='ascii') as file:
                return file.read(3)
        except FileNotFoundError:
            return ''

    def has_kept(self):
        """Whether the number that it keeps is that after its last block. Else this block is asked for again, which `check` blames."""
        with open(self.files['line.transcript'], encoding='ascii') as file:
            blocks = [line[4:6] for line in file if line.startswith('< b6')]
        return bool(blocks) and self.number() == '%03d' % ((int(blocks[-1], 16) + 1) % 256)

    def kill(self, seconds=board.ANSWER_S):
        """Kills it when it has kept its last number, if it has not ended by itself; whatever it has kept after this time."""
        end = time.time() + seconds
        while self.process.poll() is None:
            self.process.send_signal(signal.SIGSTOP)
            os.waitid(os.P_PID, self.process.pid, os.WSTOPPED | os.WEXITED | os.WNOWAIT)
            if self.has_kept() or time.time() > end:
                break
            self.process.send_signal(signal.SIGCONT)
            time.sleep(0.002)
        self.process.kill()
        self.process.wait()

    def wait(self):
        """Waits until it has ended by itself."""
        with contextlib.suppress(subprocess.TimeoutExpired):
            self.process.wait(board.ANSWER_S)
        self.process.kill()
        self.process.wait()

    def rows(self):
        """The rows of its table."""
        with open(self.files['record.csv'], encoding='ascii') as file:
            return list(csv.DictReader(file))


def wait_for(condition, seconds=board.ANSWER_S):
    """Waits until a condition holds, at most this long."""
    end = time.time() + seconds
    while not condition() and time.time() < end:
        time.sleep(0.05)


def settle(controller, lines):
    """Waits until all that the inputs did is in the table: no entry waits, and two further blocks were taken."""
    scans = lines.counts()['scans'] + moves.LEAST_SCANS
    wait_for(lambda: lines.counts()['scans'] > scans)
    wait_for(lambda: lines.counts()['waiting'] == 0)
    for _ in range(2):
        number = controller.number()
        wait_for(lambda before=number: controller.number() != before)
    print('firmware:', ' '.join('%s %d' % pair for pair in lines.counts().items()), flush=True)


def run_over(mover, lines, relay):
    """Cuts the line, and moves inputs until the module's buffer is full and one more transition is logged."""
    relay.send_signal(signal.SIGUSR2)
    wait_for(lambda: mover.step() or lines.counts()['waiting'] == MOST_WAITING)
    made = len(mover.made)
    wait_for(lambda: mover.step() or len(mover.made) > made)
    scans = lines.counts()['scans'] + moves.LEAST_SCANS
    wait_for(lambda: lines.counts()['scans'] > scans)
    relay.send_signal(signal.SIGUSR2)


def moved(option, lines, controller, relay):
    """Moves inputs, and restarts an end or cuts the line half way through if that is asked for. Returns the moves."""
    mover = moves.Mover(lines, option.seed)
    mover.move(option.seconds / 2)
    if option.overflow:
        run_over(mover, lines, relay)
    if option.restart == 'module':
        lines.done('reset')
        wait_for(lambda: any(row['input'] == 'restart' for row in controller.rows()))
    elif option.restart:
        ending = threading.Thread(target=controller.kill if option.restart == 'controller' else controller.wait)
        ending.start()
        while ending.is_alive():
            mover.move(0.1)  # so that blocks have entries
        controller.begin()
    mover.move(option.seconds / 2)
    return mover.made


def whole_run(option):
    """Runs all of it. Returns the moves, the controller, and whether it ended well."""
    link, lines_port, bad = board.free_port(), board.free_port(), board.free_port()
    image = os.path.join(option.out, 'firmware.elf')
    relay = [sys.executable, os.path.join(HERE, 'relay.py'), str(bad), '127.0.0.1:%d' % link, '--seed', str(option.seed),
             *('--%s=%s' % (name, getattr(option, name)) for name in ('lose', 'damage', 'repeat', 'delay'))]
    controller = Controller(option, bad)
    module = board.board_words(image, link, lines_port)
    with board.running(module, signal.SIGTERM), board.running(relay, signal.SIGINT, stdout=subprocess.PIPE, text=True) as line:
        lines = board.Lines(lines_port)
        line.stdout.readline()  # it is open
        controller.begin()
        try:
            # Inputs are reported from their configuration on.
            wait_for(controller.number)
            time.sleep(0.2)
            made = moved(option, lines, controller, line)
            settle(controller, lines)
            is_ended = controller.end(line)
        finally:
            controller.process.kill()
            controller.process.wait()
            lines.close()
    print(line.stdout.read(), end='', flush=True)
    return made, controller, is_ended


def program_of(option):
    """The command fio2070: the one that is named, the one of this tree, or that of the path."""
    here = os.path.join(TOP, 'fio2070')
    return option.program or (here if os.path.exists(here) else shutil.which('fio2070'))


def said(program, tool, path):
    """The lines that a tool of the program writes of a transcript."""
    with open(path, encoding='ascii') as file:
        return subprocess.run([program, tool], stdin=file, capture_output=True, text=True, check=False).stdout.splitlines()


def as_record(rows):
    """The lines that `record` writes of these rows."""
    return ['record %d' % len(rows)] + ['gap' if row['input'] == 'gap' else 'input %s state %s stamp %d wide %s' % (
        row['input'], row['state'], int(row['wide']) & 0xffff, row['wide']) for row in rows]


def events_fault(rows, path):
    """Whether the high-resolution events are the rows of the table: 82 is on, which is state 0 here, and input 0 is channel 1."""
    due = [('82' if row['state'] == '0' else '81', str(int(row['input']) + 1)) for row in rows if row['wide']]
    with open(path, encoding='ascii') as file:
        return None if due == [tuple(line.rstrip('\n').split(',')[1:]) for line in file] else 'the events are not the table'


def judged(option, made, controller):
    """What is wrong, nothing if all is right, and the words that say what was compared."""
    rows = controller.rows()
    marks = [row['input'] for row in rows if row['wide'] == '']
    fault = moves.fault_of(made, rows) or events_fault(rows, controller.files['events.csv'])
    if not fault and not marks:
        print('the time in the table less that of the move, ms: least %.1f, median %.1f, most %.1f' % moves.lateness(made, rows))
    missing = len(made) - (len(rows) - len(marks))
    gone = '%d missing at %d marks, each other' % (missing, len(marks)) if marks else 'each'
    words = ['%d moves of inputs, %s once in the table and in the events' % (len(made), gone)]
    program = program_of(option)
    if program in (None, 'none'):
        return fault, [*words, 'check and record are left out, without the program fio2070']
    if option.rough or option.restart == 'module':
        return fault, words
    transcript = controller.files['line.transcript']
    check = (said(program, 'check', transcript) or ['nothing'])[0]
    if check.endswith((' pair', ' number')):
        # The machine was too busy for the deadline.
        return fault, [*words, 'an answer came late, so check and record are left out']
    words.append('check says %s' % check)
    if not check.startswith('good'):
        fault = fault or 'the transcript breaks a rule: check says %s' % check
    elif said(program, 'record', transcript) != as_record(rows):
        fault = fault or 'record does not write the table'
    else:
        words.append('record writes the table')
    return fault, words


def main():
    option = options()
    made, controller, is_ended = whole_run(option)
    fault, words = judged(option, made, controller)
    fault = fault or (None if is_ended else 'the controller did not end well')
    print('WRONG: %s (%d moves of inputs)' % (fault, len(made)) if fault else '; '.join(words) + ': right')
    return 1 if fault else 0


if __name__ == '__main__':
    sys.exit(main())
