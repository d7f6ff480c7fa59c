"""How each program ends: its status, and what it says where it was stopped."""

import contextlib
import os
import resource
import signal
import sys
from collections.abc import Callable

from explaining import explain
from reference import masking

from .errors import BridgeError, NoAnswer, OutputFailed, Refused
from .output import begin

INTERRUPTED = 130
# The status of a file or a stream that failed, and of memory that lacked.
FAILED = 4


def end_by_signal(number: int, _frame: object) -> None:
    """(so that what was begun is cleared away: drafts of files, an etcd over a snapshot)"""
    sys.exit(128 + number)


def say(line: str) -> None:
    """A line on standard error, where that takes it. What others wrote in it moves nothing on a terminal."""
    with contextlib.suppress(OSError):
        print(masking.printable(line), file=sys.stderr, flush=True)


def run_program(name: str, work: Callable[[], int], no_answer: int = 1, writes: bool = True) -> int:
    """The status of a program's work; `no_answer` is that where etcd gives none. What is refused, is so before anything is
    written, which is told of a program that writes."""
    masking.guard(name)
    # (what a call has in memory, keys and data, is left in no file where a signal ends it)
    resource.setrlimit(resource.RLIMIT_CORE, (0, 0))
    signal.signal(signal.SIGTERM, end_by_signal)
    try:
        begin()
        return work()
    except BridgeError as no:
        return stopped(name, no, no_answer, writes)
    except KeyboardInterrupt:
        return INTERRUPTED
    except MemoryError:
        say(f"{name}: out of memory")
        return FAILED
    except OSError as no:
        place = f"{os.fsdecode(no.filename)}: " if no.filename else ""
        say(f"{name}: {place}{no.strerror or 'a file or a stream failed'}")
        return FAILED


def stopped(name: str, no: BridgeError, no_answer: int, writes: bool) -> int:
    """What a call says that was stopped, and its status."""
    lines = [f"{name}: {line}" for line in str(no).splitlines()]
    for line in lines:
        say(line)
    if isinstance(no, Refused) and writes:
        say(f"{name}: nothing was written")
    with contextlib.suppress(OSError):
        explain(lines)
    if isinstance(no, OutputFailed):
        return FAILED
    return no_answer if isinstance(no, NoAnswer) else 1
