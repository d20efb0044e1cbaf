"""The signals that end a command: at once while it has nothing to put in order, else as Ctrl-C does in Python."""

import signal

# As far as a system has them.
ENDING = 'SIGINT', 'SIGTERM', 'SIGHUP'


def ending():
    """The signals that end a command."""
    return {getattr(signal, name) for name in ENDING if hasattr(signal, name)}


def _interrupt(number, frame):
    raise KeyboardInterrupt


def _set(old, new):
    """Sets what these signals do, but for those that whoever began the command has it ignore."""
    for number in ending():
        if signal.getsignal(number) in old:
            signal.signal(number, new)


def end_at_once():
    """Lets these signals end the process as the system does, without a word."""
    _set((_interrupt, signal.default_int_handler), signal.SIG_DFL)


def end_in_order():
    """Lets these signals raise KeyboardInterrupt, so that all is put in order."""
    _set((signal.SIG_DFL, signal.default_int_handler), _interrupt)
