"""Copies of folders with what is built of the crates, which takes hundreds of megabytes."""

import os
import shutil


def link_or_copy(source, target):
    """Links a file under a further name, or copies it if that is on another file system."""
    try:
        os.link(source, target)
    except OSError:
        shutil.copy2(source, target)
