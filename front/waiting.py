"""For whom a call waits: on a terminal it is told once the program has stood still for ten seconds, and what may be done."""

import os
import platform
import re
import stat
import time
from pathlib import Path

from explanations import is_wanted

PATIENCE = 10
# The numbers of the calls `read`, `open` and `openat` by which the program waits for others, on each kind of machine.
READ, OPENS = {"x86_64": (0, (2, 257)), "aarch64": (63, (56,))}.get(platform.machine(), (None, ()))
BOUND = "Ctrl-C ends the call; `timeout -k 5 60 kmsrest ..` bounds one"

# Where each thread stood when that was looked at first, and since when; and whether it was told.
_stood, _told = {}, []


def waits(call, number):
    """What is said while the program runs on."""
    if _told or not is_wanted():
        return []
    now, seen = time.monotonic(), stands(number)
    for thread, place in seen.items():
        if _stood.get(thread, (None, 0))[0] != place:
            _stood[thread] = (place, now)
    # (one thread that goes on is a call that goes on)
    if not seen or any(now - _stood[thread][1] < PATIENCE for thread in seen):
        return []
    found = next(filter(None, (whom(call, number, place) for place, _switches in seen.values())), None)
    if found is None:
        return []
    _told.append(found)
    return [f"waiting: for {PATIENCE} seconds {found}; {BOUND}"]


def stands(number):
    """For each thread of a process the system's call in which it is, and how often it has waited."""
    found = {}
    for task in folder_of(f"/proc/{number}/task"):
        try:
            text = Path(task, "syscall").read_text(encoding="ascii")
            status = Path(task, "status").read_text(encoding="utf-8", errors="replace")
        except OSError:
            continue
        found[task] = (text, tuple(re.findall(r"ctxt_switches:\s*(\d+)", status)))
    return found


def folder_of(name):
    try:
        return [f"{name}/{entry}" for entry in os.listdir(name)]
    except OSError:
        return []


def whom(call, number, place):
    """For whom a thread waits that stands in this call, in words; None where it waits for nobody outside."""
    words = place.split()
    if not words or not words[0].isdigit():
        return None
    if int(words[0]) in OPENS:
        return pipe_of(call)
    if int(words[0]) != READ or len(words) < 2:
        return None
    descriptor = int(words[1], 16)
    source = link_of(f"/proc/{number}/fd/{descriptor}")
    if descriptor == 0:
        return "for more of its standard input"
    child = next((one for one in children_of(number) if source and link_of(f"/proc/{one}/fd/1") == source), None)
    return plugin_of(call, child) if child else None


def pipe_of(call):
    """A pipe among the call's files, which nobody opens to write."""
    for name, what in call.files():
        try:
            if stat.S_ISFIFO(os.stat(name).st_mode):
                return f"for somebody who writes to the pipe {name} ({what})"
        except OSError:
            pass
    return None


def link_of(name):
    try:
        return os.readlink(name)
    except OSError:
        return None


def children_of(number):
    found = []
    for task in folder_of(f"/proc/{number}/task"):
        try:
            found += Path(task, "children").read_text(encoding="ascii").split()
        except OSError:
            pass
    return found


def plugin_of(call, child):
    """The plugin that runs as this process, by its program's name, or where there is one alone."""
    plugins = list(dict.fromkeys(call.plugins()))
    try:
        words = Path(f"/proc/{child}/cmdline").read_bytes().split(b"\0")
    except OSError:
        words = []
    fitting = plugins if len(plugins) == 1 else [one for one in plugins if os.fsencode(one[1]) in words]
    if len(fitting) == 1:
        return f"for an answer of the plugin {fitting[0][0]} ({fitting[0][1]}, process {child})"
    return f"for an answer of a plugin, process {child}"
