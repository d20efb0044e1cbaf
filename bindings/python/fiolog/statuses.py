"""The statuses of the commands, and which one a log has."""

# All is good; a breach; the command line is invalid; a file cannot be read or written; little could be judged; no breach, but transitions
# are lost or the module was restarted; Ctrl-C, SIGTERM or SIGHUP.
GOOD, BREACH, REFUSED, FAILED, LITTLE, LOST, ENDED = 0, 1, 2, 3, 4, 5, 130


def of_log(has_breach, is_little, is_lost=False):
    """Returns the status of logs: a breach, or else whether transitions are lost, or else whether little of them could be judged. A command
    that says nothing of what is lost has no status of it."""
    return BREACH if has_breach else LOST if is_lost else LITTLE if is_little else GOOD
