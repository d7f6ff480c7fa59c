"""What a failed call's own line means, below it: on a terminal, or with KMSREST_EXPLAIN=1."""

import importlib.machinery
import importlib.util
import os
import signal
from pathlib import Path

import outcomes

EXPLAIN = Path(__file__).resolve().parent.parent / "help" / "explain"
# So many seconds of a processor, and so many by the clock of a busy machine, looking at the call's files may take; what `explain` is
# asked by hand has no limit.
LIMITS = ((signal.ITIMER_PROF, signal.SIGPROF, 5), (signal.ITIMER_REAL, signal.SIGALRM, 60))
# Statuses of calls that failed. A status above is a signal's or the script's own.
FAILED = range(1, 7)
# How many lines are explained where a call has several: a bridge that is a plugin writes lines of its own before the program's.
MOST_LINES = 3


def is_wanted():
    """Whether somebody looks at standard error, or asked for it."""
    asked = os.environ.get("KMSREST_EXPLAIN")
    return asked == "1" or (asked != "0" and os.isatty(2))


def explainer():
    """The program `explain` as a module."""
    loader = importlib.machinery.SourceFileLoader("explain", str(EXPLAIN))
    module = importlib.util.module_from_spec(importlib.util.spec_from_loader("explain", loader))
    loader.exec_module(module)
    return module


def own_lines(errors):
    """The lines of standard error that are the program's or a bridge's, the last ones."""
    fronts = ("kmsrest: ", "kms-bridge: ")
    return [line for line in errors.splitlines() if line.startswith(fronts)][-MOST_LINES:]


LATER = "kmsrest explain 'LINE' WORDS, with that line and the call's words, tells what it means: the files are too large to be looked at by the way"


class TooLong(Exception):
    """Looking at the files takes longer than a person waits."""


def give_up(_number, _frame):
    raise TooLong


def after(call, status, errors):
    if status not in FAILED or not is_wanted():
        return []
    lines = own_lines(errors)
    return answers(lambda: lines or outcomes.lines(call, status), call) or outcomes.told(call, status)


def answers(lines, call):
    """What `explain` says of the lines that a function gives, each answer once, within the time that a person waits."""
    before = [signal.signal(number, give_up) for _timer, number, _seconds in LIMITS]
    for timer, _number, seconds in LIMITS:
        signal.setitimer(timer, seconds)
    try:
        answer_to, told = explainer().answer_to, []
        for line in lines():
            answer = answer_to(line, call)
            if answer and answer not in told:
                told.append(answer)
        return [line for answer in told for line in answer.splitlines()]
    except TooLong:
        return [LATER]
    finally:
        for (timer, number, _seconds), handler in zip(LIMITS, before):
            signal.setitimer(timer, 0)
            signal.signal(number, handler)
