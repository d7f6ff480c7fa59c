"""What a call leaves behind that a signal ended: its plugins are ended too, where they go on without it."""

import ctypes
import os
import signal
import time
from pathlib import Path

# (of prctl: processes whose parent ends become children of this one)
BECOME_PARENT = 36
# Seconds that a plugin has, which may be at its own end by then.
GRACE = 0.5


def before(_call):
    ctypes.CDLL(None).prctl(BECOME_PARENT, 1)
    return []


def after(_call, status, _errors):
    """Where the program ended by itself it had ended its plugins; what these left running isn't touched."""
    if status < 0 and left():
        time.sleep(GRACE)
        for child in left():
            end(child)
    return []


def left():
    """The children that the program left."""
    try:
        return [int(child) for child in Path(f"/proc/self/task/{os.getpid()}/children").read_text(encoding="ascii").split()]
    except OSError:
        return []


def end(child):
    try:
        os.kill(child, signal.SIGKILL)
        os.waitpid(child, 0)
    except (ProcessLookupError, ChildProcessError):
        pass
