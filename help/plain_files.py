"""The files of a call, as they may be read behind it: plain ones alone, since a pipe gave its bytes to the call itself, and what is
shown of them."""

import errno
import functools
import os
import stat
from pathlib import Path

from reference import masking

HELP = Path(__file__).resolve().parent


# No file that a call reads has more: a store's and a fleet file's limit.
MOST_FILE = 67_108_864


def content(name, most=None):
    """The bytes of a plain file, all of them or at most so many; OSError where it is none, or larger than any that is read."""
    descriptor = os.open(name, os.O_RDONLY | os.O_NONBLOCK | os.O_CLOEXEC)
    with open(descriptor, "rb") as file:
        if not stat.S_ISREG(os.fstat(descriptor).st_mode):
            raise OSError(errno.EINVAL, "no plain file")
        data = file.read(MOST_FILE + 1 if most is None else most)
    if most is None and len(data) > MOST_FILE:
        raise OSError(errno.EFBIG, f"more than {MOST_FILE} bytes")
    return data


def text_of(name):
    """A file's text, whatever its bytes are; nothing where it can't be read."""
    try:
        return content(name).decode(errors="replace")
    except OSError:
        return ""


def confidential(call):
    """Each piece of a call's configurations and fleet files that may be secret."""
    for name in call.options.get("file", ()):
        yield from masking.fleet_pieces(text_of(name))
    for name in {name for name, _ in call.configurations()}:
        yield from masking.pieces(text_of(name))


@functools.cache
def own_texts():
    """The sources of help/ and front/: what stands there may stand in an answer whatever the files hold."""
    folders = [folder for folder in (HELP, HELP.parent / "front") if folder.is_dir()]
    sources = [path for folder in folders for path in sorted(folder.iterdir()) if path.is_file() and path.suffix in ("", ".py")]
    return "\n".join(path.read_text(encoding="utf-8") for path in sources)


def own_words(call):
    """Those texts, and the names of the call's files."""
    return "\n".join([own_texts(), *(name for name, _ in call.files()), *(program for _, program in call.plugins())])


def safe(text, call):
    """An answer without what stands in a secret of the call's files, however it came there."""
    return masking.hide(text, confidential(call), own_words(call))
