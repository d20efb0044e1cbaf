#!/usr/bin/env -S python3 -B
"""Compares the translator of the portable library (tools/portable) with an interpreter: each instruction that it takes is
run on numbers at the edges of its range, by `wasm-interp` of the Debian package wabt and as translated C, and each other
instruction is refused; an access outside ends a program that does not say how. With `--all` also with sanitizers; and
translators with a wrong rule that no frame reveals are found. Last line: `N passed, M failed`."""

import os
import re
import shutil
import signal
import sys

from support import instructions as cases
from support.check import Check
from support.room import path, room, run, written
from support.tables import TOP
from support.translators import UNSEEN, changed

TRANSLATOR = os.path.join(TOP, 'tools', 'portable')
sys.path.insert(0, TRANSLATOR)

from functions import STEPS
from instructions import LOADS, STORES
from instructions import NUMERIC as RULES

C = os.path.join(TOP, 'tests/support/c/instructions.c')
FLAGS = ['--enable-memory64']
# Each of these compiles the C, the second without the operations that gcc has beyond C99.
WAYS = [['-O0'], ['-O2', '-DFIO2070_FAST', '-DPLAIN', '-w'],
        ['-O1', '-fsanitize=address,undefined', '-fno-sanitize-recover=all']]
# What ends a program that says nothing of FIO2070_TRAP.
LOUD = [(['-O0'], ('SIGILL', 'SIGTRAP')), (['-O2', '-DFIO2070_FAST'], ('SIGILL', 'SIGTRAP')), (['-O0', '-DPLAIN', '-w'], ('SIGABRT',))]

check = Check()


def module_of(functions):
    """The module of some functions in WebAssembly's text, as octets in a file."""
    written('module.wat', cases.module_text(functions))
    done = run('wat2wasm', *FLAGS, 'module.wat', '-o', 'module.wasm')
    if done.returncode:
        raise ValueError(done.stderr)
    return path('module.wasm')


def interpreted(functions):
    """The result of each function by the interpreter: its number, or `trap`."""
    said = run('wasm-interp', *FLAGS, module_of(functions), '--run-all-exports').stdout
    found = dict(re.findall(r'^(\w+)\(\) => (?:i\d+:)?(.*)$', said, re.M))
    return {name: 'trap' if value.startswith('error') else value for name, value in found.items()}


def translated_text(octets, translator=TRANSLATOR):
    """The C of a module, without the calls of a library; nothing if the translator refuses it."""
    done = run(sys.executable, '-c', 'import sys; sys.path.insert(0, %r); sys.dont_write_bytecode = True\n'
               'from importlib.machinery import SourceFileLoader as Loader\n'
               'translate = Loader("translate", %r).load_module()\n'
               'try: print(translate.translated(translate.Module(open(%r, "rb").read())))\n'
               'except translate.Refused as why: sys.exit("translate: %%s" %% why)'
               % (translator, os.path.join(translator, 'translate'), octets))
    return done.stdout if not done.returncode else None


def translated(functions, options, translator=TRANSLATOR):
    """The result of each function by the translated C."""
    text = translated_text(module_of(functions), translator)
    if text is None:
        return {}
    written('translated.c', text)
    written('cases.c', ''.join('CASE(%s)\n' % name for name, _ in functions))
    done = run('gcc', '-std=c99', *options, '-I', room, C, '-o', path('cases'))
    if done.returncode:
        return {'compiler': done.stderr[-500:]}
    done = run('prlimit', '--cpu=60', path('cases'))
    found = dict(line.split(' ', 1) for line in done.stdout.splitlines())
    return {**found, 'status': str(done.returncode)} if done.returncode else found


def is_found(wrong):
    """A wrong translator: the C that it makes gives another number, or has no trap, or crashes."""
    shutil.rmtree(path('wrong'), ignore_errors=True)
    changed(TRANSLATOR, path('wrong'), wrong)
    functions, due = cases.TAKEN + cases.OUTSIDE, {**wanted, **{name: 'trap' for name, _ in cases.OUTSIDE}}
    found = translated(functions, ['-O0', '-w'] + ['-DPLAIN'] * wrong.is_plain, path('wrong'))
    if not found or 'compiler' in found:
        return 'it was not run: %s' % found.get('compiler')
    return None if found != due else 'all is the same'


def is_loud(options, signals):
    """Such a program ends by one of these signals."""
    found = translated(cases.OUTSIDE[:1], ['-DOWN_TRAP', *options])
    return None if found.get('status') in ['-%d' % getattr(signal, name) for name in signals] else found


def is_refused(text):
    return None if translated_text(module_of([('case', text)])) is None else 'it is translated'


if not shutil.which('wasm-interp'):
    check.skip('instructions', 'no wasm-interp here (Debian package wabt)')
    check.end()
wanted = interpreted(cases.TAKEN)
for options, signals in LOUD:
    check.fault('an access outside ends the program, by gcc ' + ' '.join(options), is_loud, options, signals)
check.equal('each function is run', sorted(name for name, _ in cases.TAKEN), sorted(wanted))
for options in WAYS if check.whole('with sanitizers') else WAYS[:2]:
    found = translated(cases.TAKEN, options)
    for name, _ in cases.TAKEN:
        check.equal('%s by gcc %s' % (name, options[0]), wanted.get(name), found.get(name, found.get('compiler')))
for options in WAYS[:2]:
    for name, outside in translated(cases.OUTSIDE, options).items():
        check.equal('%s is outside, by gcc %s' % (name, options[0]), 'trap', outside)
for name, wrong in UNSEEN if check.whole('wrong translators') else ():
    check.fault('wrong: ' + name, is_found, wrong)
for name, text in cases.REFUSED:
    check.fault('%s is refused' % name, is_refused, text)
check.equal('the instructions that the translator takes', sorted(cases.OPCODES.values()),
            sorted({*RULES, *LOADS, *STORES, *STEPS}))
check.end()
