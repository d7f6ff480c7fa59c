"""Who else may change a program before it is run: by its own rights and owner, and by those of each folder on the way to it."""

import os
import pwd
import stat

# So many links in a path as the system itself follows.
MOST_LINKS = 40
OTHERS_WRITE = stat.S_IWGRP | stat.S_IWOTH


def others_who(path):
    """How somebody besides this user and root may change what stands at the path, or put something else there; None where
    nobody may. What isn't there yet is as good as the folders before it."""
    at, rest, links = "/", _parts(os.path.join(os.getcwd(), path)), 0
    why = _rights(at, os.lstat(at))
    while why is None and rest:
        at = os.path.join(at, rest.pop(0))
        try:
            found = os.lstat(at)
        except FileNotFoundError:
            return None
        why = _rights(at, found)
        if stat.S_ISLNK(found.st_mode):
            links += 1
            if links > MOST_LINKS:
                return f"{at} is a link without an end"
            target = os.readlink(at)
            start = "/" if target.startswith("/") else os.path.dirname(at)
            # (`..` behind a link is of the folder that the link leads to, so each part is walked)
            at, rest = start, _parts(target) + rest
    return why


def _parts(path):
    return [part for part in path.split("/") if part not in ("", ".")]


def _rights(at, found):
    """How others may change this one: they own it, or write it. In a folder with the sticky bit, as /tmp, they may make files, and
    change those alone that they own."""
    if found.st_uid not in (0, os.geteuid()):
        return f"{at} belongs to {_user(found.st_uid)}"
    is_open = found.st_mode & OTHERS_WRITE and not stat.S_ISLNK(found.st_mode)
    if is_open and not (stat.S_ISDIR(found.st_mode) and found.st_mode & stat.S_ISVTX):
        return f"{at} may be written by others (mode {stat.S_IMODE(found.st_mode):o})"
    return None


def _user(number):
    try:
        return f"the user {pwd.getpwuid(number).pw_name}"
    except KeyError:
        return f"the user {number}"
