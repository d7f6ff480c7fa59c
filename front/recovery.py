"""What can be had of a store that breaks its format: the rows before the breach, as a new store, and of those behind it what each
path's last one was, as far as it can be read. A store of either format; docs/OPERATORS.md, "After a loss of power"."""

import fcntl
import os
import re
import secrets
import stat
from dataclasses import dataclass
from pathlib import Path

from reference import store
from reference.values import MARK, split

DONE, WHOLE, WORDS, NO_STORE, FAULT = 0, 1, 2, 3, 4
USAGE = "kmsrest: usage: kmsrest recover STORE NEW"
# How a row begins: its kind, and the first half of its revision, which no store's rows reach beyond.
BEGINS = re.compile(rb"[\1\2]\0{4}")
# The least bytes of a row, by which a file's rows are at most so many.
LEAST_ROW = 12


class Stopped(Exception):
    """Why nothing is recovered, with the status."""

    def __init__(self, status: int, why: str):
        super().__init__(why)
        self.status = status


@dataclass(frozen=True)
class Behind:
    """A row behind the breach: its revision, whether all of it is there, and, where it is a put, its resource and its provider."""

    path: bytes
    revision: int
    resource: bytes | None
    provider: bytes | None
    is_cut: bool

    def line(self, kept: int | None) -> str:
        what = "deleted" if self.resource is None else f"{self.resource.decode()} {(self.provider or b'?').decode()}"
        return f"behind {self.revision} {self.path.decode()} {what} {'cut' if self.is_cut else 'whole'}, kept {kept or 'none'}"


@dataclass(frozen=True)
class Recovered:
    """What is had of a store: the bytes before its breach, their rows, the breach, what stands behind it by its paths, and how many
    bytes there are no row that is whole."""

    data: bytes
    rows: list
    code: int
    place: int
    behind: dict[bytes, Behind]
    unread: int

    def lines(self) -> list[str]:
        kept = {path: revision for path, (revision, _row) in store.live(self.rows).items()}
        told = [found.line(kept.get(path)) for path, found in sorted(self.behind.items())]
        return [f"breach {self.code} {self.place}", *told, f"behind {len(told)}", f"unread {self.unread}", f"recovered {len(self.rows)}"]


def read_store(name: str) -> bytes:
    """The bytes of a store, which nobody writes meanwhile."""
    try:
        descriptor = os.open(name, os.O_RDONLY | os.O_NONBLOCK | os.O_CLOEXEC)
        with open(descriptor, "rb") as file:
            if not stat.S_ISREG(os.fstat(descriptor).st_mode):
                raise Stopped(FAULT, f"{name} is no plain file")
            fcntl.flock(descriptor, fcntl.LOCK_SH | fcntl.LOCK_NB)
            data = file.read(store.MOST_STORE + 1)
    except BlockingIOError:
        raise Stopped(FAULT, f"{name} is open in another call: wait for that one") from None
    except OSError as no:
        raise Stopped(FAULT, f"{name}: {no.strerror}") from None
    if len(data) > store.MOST_STORE:
        raise Stopped(NO_STORE, f"{name} has more than {store.MOST_STORE} bytes, and is no store")
    return data


def recovered(name: str, data: bytes) -> Recovered:
    """What is had of these bytes, which must be a store that breaks."""
    try:
        rows = store.read(data)[1]
    except store.Broken as breach:
        if breach.place < len(store.MAGICS[1]):
            raise Stopped(NO_STORE, f"{name} has no row before its breach: text {breach.code} {breach.place}") from None
        form, rows = store.read(data[: breach.place])
        behind, unread = rows_behind(data, breach.place, form, len(rows))
        return Recovered(data[: breach.place], rows, breach.code, breach.place, behind, unread)
    raise Stopped(WHOLE, f"{name} is whole, with {len(rows)} rows: there is nothing to recover")


def rows_behind(data: bytes, breach: int, form: int, count: int) -> tuple[dict[bytes, Behind], int]:
    """The last row of each path that can be read from the breach on, and how many bytes are no whole row. Where none begins, or one
    has no end, the next place that looks like one is tried. The row of the breach itself may have any revision."""
    found, place, unread = {}, breach, len(data) - breach
    most = count + 1 + unread // LEAST_ROW
    while (begun := BEGINS.search(data, place)) is not None:
        row, end = row_at(data, begun.start(), form)
        place = begun.start() + 1
        if row is None or not (count < row.revision <= most or begun.start() == breach):
            continue
        if not row.is_cut:
            unread, place = unread - (end - begun.start()), end
        known = found.get(row.path)
        if known is None or row.revision >= known.revision:
            found[row.path] = row
    return found, unread


def row_at(data: bytes, place: int, form: int) -> tuple[Behind | None, int]:
    """The row that begins at a place and where it ends; None where none does. One whose end isn't there is told by what is: its
    path at least."""
    parts = store.Parts(data)
    parts.at = parts.row = place
    path, resource, value, is_cut = None, None, None, True
    try:
        kind, revision = parts.take(1), parts.number(8)
        path = parts.keeping(parts.sized(1024, 2), store.is_path)
        if kind == b"\1":
            resource = parts.keeping(parts.sized(253, 2), store.is_resource)
            if form == 2:
                parts.take(8)
            size = parts.number(4)
            if size > store.MOST_VALUE:
                return None, place
            value = data[parts.at : parts.at + size]
            parts.take(size)
        is_cut = False
    except store.Broken as no:
        if no.code != 42 or path is None or (kind == b"\1" and resource is None):
            return None, place
    return Behind(path, revision, resource, provider_of(value, is_cut), is_cut), len(data) if is_cut else parts.at


def provider_of(value: bytes | None, is_cut: bool) -> bytes | None:
    """Who sealed a value, as a list tells it; None where too little of it is there."""
    if value is None or (is_cut and (MARK.startswith(value) or (value.startswith(MARK) and split(value) is None))):
        return None
    return store.tag(value)


def write_new(name: str, data: bytes) -> None:
    """A new store, of its owner alone, which gets its name once it is whole, and is on the disk then."""
    target = Path(name)
    draft = target.parent / f".{target.name}.{secrets.token_hex(4)}"
    try:
        descriptor = os.open(draft, os.O_WRONLY | os.O_CREAT | os.O_EXCL | os.O_CLOEXEC, 0o600)
        try:
            with open(descriptor, "wb") as file:
                file.write(data)
                file.flush()
                os.fsync(descriptor)
            os.link(draft, target)
        finally:
            draft.unlink()
        folder = os.open(target.parent, os.O_RDONLY | os.O_DIRECTORY | os.O_CLOEXEC)
        os.fsync(folder)
        os.close(folder)
    except FileExistsError:
        raise Stopped(FAULT, f"{name} is there already, and nothing is written over") from None
    except OSError as no:
        raise Stopped(FAULT, f"{name}: {no.strerror}") from None


def recover(words: list[str]) -> list[str]:
    """Does what the words ask. Answers the lines that tell of it."""
    if len(words) != 2 or any(word.startswith("-") or not word for word in words):
        raise Stopped(WORDS, "")
    name, new = words
    if os.path.lexists(new):
        raise Stopped(FAULT, f"{new} is there already, and nothing is written over")
    found = recovered(name, read_store(name))
    write_new(new, found.data)
    return found.lines()
