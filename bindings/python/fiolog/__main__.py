"""The command `fiolog`."""

import argparse
import functools
import gc
import importlib
import os
import re
import sys

from . import library, output
from .terminal import say, shown

COMMANDS = {
    'decode': 'what each frame says',
    'check': 'whether transitions are lost, where and why; and every breach of the rules',
    'stats': 'how much, how often, how fast',
    'plan': 'how often to poll, how long an outage may last, how late a transition can be',
    'convert': 'the frames as a transcript, frames, pcapng or VCD',
    'record': 'what the CPU learned, and the entries and answers that no right module sends',
    'live': 'decodes a line that talks now, and checks it by all these rules',
}

# The options that are of no command.
OWN_OPTIONS = '-h', '--help', '-V', '--version'
# Lines have no cycles: to look for some among those of each piece takes a tenth of the time.
COLLECT_AFTER = 1 << 16
BEGINNING = ('Begin with `fiolog LOG`, which is `fiolog check LOG`: what is lost or wrong, since when and how often. `fiolog decode LOG` writes '
             'what each frame says, `fiolog record LOG` what became of the entries; `fiolog COMMAND --help` lists the options. '
             'Status 1 is a breach, 5 that transitions are lost, 4 that little could be judged.')


def module_of(name):
    """The module of a subcommand."""
    return importlib.import_module('fiolog.' + name)


class Version(argparse.Action):
    """Says which program and which library this is, and ends."""

    def __call__(self, parser, namespace, values, option_string=None):
        print('\n'.join(library.versions()))
        parser.exit()


class Parser(argparse.ArgumentParser):
    """A parser that says in one line what is wrong."""

    def error(self, message):
        self.exit(2, '%s: %s (%s --help)\n' % (self.prog, shown(message), self.prog))


def arguments(words):
    """The command line. Where no command is named, a log, or an option of its own, is of `check`; without a word help is printed, and
    it ends with status 2."""
    if words and words[0] not in (*COMMANDS, *OWN_OPTIONS) and (words[0].startswith('-') or os.path.exists(words[0])):
        words = ['check', *words]
    # Only help is as wide as the terminal: to look how wide that is takes a part of the start, for each option.
    has_help = not words or any(word.startswith('-') and 'h' in word for word in words)
    form = argparse.HelpFormatter if has_help else functools.partial(argparse.HelpFormatter, width=80)
    parser = Parser(prog='fiolog', description='Reads logs of the field I/O transition link.', epilog=BEGINNING, formatter_class=form)
    parser.add_argument(*OWN_OPTIONS[2:], action=Version, nargs=0, help='print the versions of the program and of the library, and its path')
    choices = parser.add_subparsers(dest='command', metavar='COMMAND', required=True)
    for name in COMMANDS:
        module = module_of(name) if words[:1] in ([name], []) or words[0] not in COMMANDS else None
        one = choices.add_parser(name, help=COMMANDS[name], description=module.__doc__ if module else '', formatter_class=form)
        if module:
            module.add_arguments(one)
    if not words:
        parser.print_help()
        parser.exit(2)
    if words[0] not in (*COMMANDS, *OWN_OPTIONS):
        parser.error('%s is no command and no file' % words[0])
    option = parser.parse_args(words)
    check_forms(parser, option)
    return option


def check_forms(parser, option):
    """Ends with a word if the caller's expression is none, if what a line carried is to be read as lines of a log, or if folders have no
    file."""
    is_said, line = bool(getattr(option, 'pattern', None)) or getattr(option, 'format', 'auto') != 'auto', getattr(option, 'line', '')
    if line and is_said:
        parser.error('--line is of a file without lines: leave out --format and --pattern')
    if getattr(option, 'like', ()) and (line or is_said):
        parser.error('--like is of the lines of a log by their forms: leave out --format, --line and --pattern')
    if getattr(option, 'pattern', None):
        try:
            if 'octets' not in re.compile(option.pattern).groupindex:
                parser.error('--pattern needs the group octets')
        except (re.error, OverflowError, RecursionError) as fault:
            parser.error('--pattern: %s' % fault)
    if getattr(option, 'recursive', False):
        option.files = list(module_of('many').files_of(option.files)) or parser.error('there is no file below the folders')


def open_streams():
    """Puts an empty file in place of a stream that was closed; without standard output nothing is done."""
    for name, mode in (('stdin', 'r'), ('stderr', 'w')):
        if getattr(sys, name) is None:
            setattr(sys, name, open(os.devnull, mode))
    if sys.stdout is None:
        say('standard output is closed')
        sys.exit(3)


def refuse_inputs(option):
    """Raises Refused if a file of the command line is read and written."""
    read = getattr(option, 'files', None) or [getattr(option, 'fifo', None), getattr(option, 'serial', None)]
    written = [getattr(option, name, None) for name in ('output', 'hires', 'transcript', 'pcapng')]
    output.refuse_inputs([*output.STREAMS, *written], [0 if name == '-' else name for name in read])


def main(words=None):
    """Runs a subcommand, and returns its status."""
    gc.set_threshold(COLLECT_AFTER)
    open_streams()

    def run():
        option = arguments(sys.argv[1:] if words is None else words)
        library.load()
        refuse_inputs(option)
        return module_of(option.command).run(option)
    return output.guarded('fiolog', run)


if __name__ == '__main__':
    sys.exit(main())
