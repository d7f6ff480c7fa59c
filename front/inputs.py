"""What is said where `decrypt` got no bytes: by identity they are read as an object without data."""

import array
import fcntl
import os
import select
import stat
import termios

STATE = {"is_empty": False}


def before(call):
    """Looks whether standard input has any byte, without taking one: of a pipe once its writer has written or gone."""
    STATE["is_empty"] = call.command == "decrypt" and not os.isatty(0) and has_none(0)
    return []


def has_none(descriptor):
    found = os.fstat(descriptor)
    if stat.S_ISREG(found.st_mode):
        return os.lseek(descriptor, 0, os.SEEK_CUR) >= found.st_size
    if stat.S_ISFIFO(found.st_mode) or stat.S_ISSOCK(found.st_mode):
        select.select([descriptor], [], [])
        waiting = array.array("i", [0])
        fcntl.ioctl(descriptor, termios.FIONREAD, waiting)
        return waiting[0] == 0
    return found.st_rdev == os.stat(os.devnull).st_rdev and stat.S_ISCHR(found.st_mode)


def after(_call, status, _errors):
    if not STATE["is_empty"] or status not in (0, 1):
        return []
    return ["remark: standard input had no bytes, so no value was decrypted: did the command before it fail?"]
