"""Waits until a create waits for its text."""

import os
import time

from rows import HANGS


def is_asleep(process):
    """Whether a process waits. A create waits for nothing but its text: it asks for locks that it gets at
    once or not at all."""
    with open(f"/proc/{process.pid}/stat", encoding="ascii", errors="replace") as file:
        return file.read().rsplit(")", 1)[1].split()[0] == "S"


def waits(process, path):
    """Waits until a create has made its file, holds its lock and reads its text, which has not come; and
    answers whether it does."""
    end = time.monotonic() + HANGS
    while time.monotonic() < end:
        if os.path.exists(path) and is_asleep(process):
            return True
        if process.poll() is not None:
            return False
        time.sleep(0.01)
    return False
