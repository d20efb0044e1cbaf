"""Reads logs of the field I/O transition link: what is said, what is wrong, since when, how often. Every octet is
decoded, and every rule judged, by the proved library libfio2070."""


def main():
    """Runs the command `fiolog`, for what begins it. Until the command is ready Ctrl-C ends it at once, without a word."""
    from .signals import end_at_once
    end_at_once()
    from .__main__ import main as run
    return run()
