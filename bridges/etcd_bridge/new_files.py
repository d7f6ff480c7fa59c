"""New files: of their owner alone, never in the place of another, and all of them or none.

They are written as drafts, `.NAME.` with eight digits of base 16, and get their names as links once all are whole. The first one's
draft goes first, and with it the call is done: while it is there, a call that was killed in between has given names to a part of its
files, each of which has its draft beside it still. The next call for these names takes such a state away, and begins anew."""

import contextlib
import errno
import fcntl
import os
import re
import secrets
import stat
from pathlib import Path
from typing import BinaryIO

from .errors import Refused

MODE = 0o600
DRAFT = re.compile(r"\.(?P<name>.+)\.[0-9a-f]{8}", re.S)


class NewFile:
    """A file that is written: each fault is the call's, by the file's own name, and nothing was written then."""

    def __init__(self, name: str, file: BinaryIO):
        self.name, self.file = name, file

    def write(self, data: bytes) -> None:
        try:
            self.file.write(data)
        except OSError as no:
            raise Refused(f"{self.name}: {no.strerror}") from None


class NewFiles:
    """Files that are written under other names, and get their own once all are whole."""

    def __init__(self):
        self.made: list[tuple[Path, Path, BinaryIO | None]] = []

    def open(self, name: str) -> NewFile:
        """A new file, to be written; its name must be free."""
        target = Path(name)
        if target.exists() or target.is_symlink():
            raise Refused(f"{name} is there already, and nothing is written over")
        draft = target.parent / f".{target.name}.{secrets.token_hex(4)}"
        # (known before it is there, so that one who is ended in between leaves none)
        self.made.append((target, draft, None))
        try:
            file = os.fdopen(os.open(draft, os.O_WRONLY | os.O_CREAT | os.O_EXCL | os.O_CLOEXEC, MODE), "wb")
            # (held until the end, so that nobody takes it for one of a call that was killed; some file systems know no locks)
            with contextlib.suppress(OSError):
                fcntl.flock(file, fcntl.LOCK_EX | fcntl.LOCK_NB)
        except OSError as no:
            raise Refused(f"{name}: {no.strerror}") from None
        self.made[-1] = (target, draft, file)
        return NewFile(name, file)

    def keep(self) -> None:
        """Each file gets its name, in the order in which they were opened. Where one can't, or the call is ended, none does. Then
        all of that is on the disk."""
        folders, target = {target.parent for target, _draft, _file in self.made}, None
        try:
            for target, _draft, file in self.made:
                file.flush()
                os.fsync(file.fileno())
            for target, draft, _file in self.made:
                os.link(draft, target)
            sync(folders)
        except BaseException as no:
            for other, draft, _file in self.made:
                if is_one(draft, other):
                    other.unlink()
            if not isinstance(no, OSError):
                raise
            why = "it is there already" if no.errno == errno.EEXIST else no.strerror
            raise Refused(f"{target}: {why}; nothing was written") from None
        finally:
            self.drop()
        sync(folders)

    def drop(self) -> None:
        """The drafts go, the first one before all others."""
        for _target, draft, file in self.made:
            draft.unlink(missing_ok=True)
            with contextlib.suppress(OSError):
                if file is not None:
                    file.close()
        self.made = []


def sync(folders: set[Path]) -> None:
    """The names in these folders are on the disk."""
    for folder in folders:
        held = os.open(folder, os.O_RDONLY | os.O_DIRECTORY | os.O_CLOEXEC)
        try:
            os.fsync(held)
        finally:
            os.close(held)


def clear_killed(first: str, folders: set[Path], wanted: re.Pattern) -> None:
    """Takes away what a killed call left of files whose names fit: drafts, and where the first file's is among them, the names that
    it had given. A call that still runs holds its drafts, and keeps them."""
    drafts = {draft: draft.parent / found["name"] for folder in folders for draft, found in drafts_in(folder, wanted)}
    held = [file for file in map(taken, drafts) if file is not None]
    try:
        if len(held) != len(drafts):
            return
        is_first = {draft: target == Path(first) for draft, target in drafts.items()}
        is_unfinished = any(is_first[draft] and is_one(draft, target) for draft, target in drafts.items())
        # (the first one last, so that a call that is killed here is taken up again)
        for draft in sorted(drafts, key=is_first.get):
            if is_unfinished and is_one(draft, drafts[draft]):
                drafts[draft].unlink()
            draft.unlink(missing_ok=True)
    finally:
        for file in held:
            os.close(file)


def drafts_in(folder: Path, wanted: re.Pattern) -> list[tuple[Path, re.Match]]:
    """The drafts in a folder, each with the parts of its name, of files whose names fit."""
    try:
        found = [(entry, DRAFT.fullmatch(entry.name)) for entry in folder.iterdir()]
    except OSError:
        return []
    return [(entry, parts) for entry, parts in found if parts is not None and wanted.fullmatch(parts["name"])]


def taken(draft: Path) -> int | None:
    """A draft of this user's that no call holds any more, locked; or None."""
    try:
        file = os.open(draft, os.O_RDONLY | os.O_NOFOLLOW | os.O_NONBLOCK | os.O_CLOEXEC)
    except OSError:
        return None
    found = os.fstat(file)
    try:
        if stat.S_ISREG(found.st_mode) and found.st_uid == os.geteuid() and stat.S_IMODE(found.st_mode) == MODE:
            fcntl.flock(file, fcntl.LOCK_EX | fcntl.LOCK_NB)
            return file
    except OSError:
        pass
    os.close(file)
    return None


def is_one(draft: Path, target: Path) -> bool:
    """Whether both names are of one file."""
    try:
        return os.path.samestat(os.lstat(draft), os.lstat(target))
    except OSError:
        return False
