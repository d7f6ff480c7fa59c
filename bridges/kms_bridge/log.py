"""The log of a bridge: a JSON line a call. It has sizes, key ids and uids, and none of the bytes."""
import json
import os
from datetime import datetime, timezone

# The plugin's own words are cut here.
WORDS_LIMIT = 300


class Log:
    """Adds lines to a file, of its owner's alone where it is made; or to none. Bridges may share one."""

    def __init__(self, name: str | None):
        self._file = None
        if name is not None:
            self._file = os.open(name, os.O_WRONLY | os.O_APPEND | os.O_CREAT | os.O_CLOEXEC, 0o600)

    def add(self, call: str, **members: object) -> None:
        """A line, in one write; members that are None are left out. A log that fails stops no call."""
        if self._file is None:
            return
        now = datetime.now(timezone.utc).isoformat(timespec="milliseconds")
        told = {name: value for name, value in members.items() if value is not None}
        line = json.dumps({"time": now, "bridge": os.getpid(), "call": call, **told})
        try:
            os.write(self._file, line.encode() + b"\n")
        except OSError:
            pass
