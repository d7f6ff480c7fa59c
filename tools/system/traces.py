"""What a program asked of the system, as strace tells it: writes, cuts and syncs of files, and lines of the output."""
import re
import subprocess
from collections.abc import Sequence
from dataclasses import dataclass
from pathlib import Path

from support import PATIENCE

CALLS = "openat,write,writev,pwrite64,ftruncate,fsync,fdatasync"
WRITES = {"write", "writev", "pwrite64"}
SYNCS = {"fsync", "fdatasync"}
WHOLE = re.compile(r"^(\d+) +(\w+)\((\d+)<([^>]*)>(.*) = (-?\d+)(?: .*)?$")
BEGUN = re.compile(r"^(\d+) +(\w+)\((\d+)<([^>]*)>(.*) <unfinished \.\.\.>$")
RESUMED = re.compile(r"^(\d+) +<\.\.\. (\w+) resumed>.* = (-?\d+)(?: .*)?$")


@dataclass(frozen=True)
class Event:
    """A call that was done: on which descriptor and file, and whether it did what it was asked."""

    name: str
    descriptor: int
    path: str
    done: bool


def _events(lines: Sequence[str]) -> list[Event]:
    """In the order in which they ended."""
    events, begun = [], {}
    for line in lines:
        if found := WHOLE.match(line):
            events.append(Event(found[2], int(found[3]), found[4], int(found[6]) >= 0))
        elif found := BEGUN.match(line):
            begun[found[1]] = (found[2], int(found[3]), found[4])
        elif (found := RESUMED.match(line)) and found[1] in begun:
            events.append(Event(*begun.pop(found[1]), int(found[3]) >= 0))
    return events


class Traced:
    """A call of a program that was traced."""

    def __init__(self, done: subprocess.CompletedProcess, lines: Sequence[str]):
        self.status, self.output, self.errors = done.returncode, done.stdout, done.stderr.decode(errors="replace")
        self._events = _events(lines)

    def writes(self, path: Path) -> int:
        """How often the file was written."""
        return sum(each.name in WRITES and each.path == str(path) for each in self._events)

    def cuts(self, path: Path) -> int:
        """How often it was cut."""
        return sum(each.name == "ftruncate" and each.path == str(path) for each in self._events)

    def early_lines(self, path: Path) -> list[str]:
        """What was written to the output while the file had bytes, or an end, that no sync covers."""
        early, settled = [], True
        for each in self._events:
            if each.path == str(path) and (each.name in WRITES or each.name == "ftruncate"):
                settled = False
            elif each.path == str(path) and each.name in SYNCS and each.done:
                settled = True
            elif each.name in WRITES and each.descriptor == 1 and not settled:
                early.append(each.name)
        return early

    def cuts_are_synced(self, path: Path) -> bool:
        """Whether a sync stands between each cut and the next write, but for a cut that takes back a write that failed."""
        events = [each for each in self._events if each.path == str(path)]
        failed = False
        for at, each in enumerate(events):
            if each.name == "ftruncate" and not failed:
                behind = [other.name for other in events[at + 1:]]
                syncs = [place for place, name in enumerate(behind) if name in SYNCS]
                writes = [place for place, name in enumerate(behind) if name in WRITES]
                if writes and (not syncs or syncs[0] > writes[0]):
                    return False
            failed = each.name in WRITES and not each.done
        return True

    def synced_before_output(self, path: Path) -> bool:
        """Whether the file or folder was synced, and nothing was written to the output before."""
        for each in self._events:
            if each.name in SYNCS and each.path == str(path) and each.done:
                return True
            if each.name in WRITES and each.descriptor == 1:
                return False
        return False


def trace(words: Sequence[object], data: bytes, log: Path, inject: str = "") -> Traced:
    """Calls the program under strace. `inject` lets calls fail, as strace's words say it."""
    options = ["strace", "-f", "-y", "-q", "-s", "32", "-o", str(log), "-e", f"trace={CALLS}"]
    if inject:
        options += ["-e", f"inject={inject}"]
    done = subprocess.run(
        [*options, *(str(word) for word in words)], input=data, capture_output=True, timeout=PATIENCE, check=False
    )
    return Traced(done, log.read_text(encoding="utf-8", errors="replace").splitlines())
