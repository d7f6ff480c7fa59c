"""What is said of a call whose standard output is its own store."""

import os
import stat


def before(call):
    """What is printed goes into the store then, and it can't be read from then on."""
    output = os.fstat(1)
    return [
        f"remark: standard output is the store {name} itself: what is printed goes into it, and it is no store then"
        for option in ("store", "to")
        for name in call.options.get(option, ())
        if stat.S_ISREG(output.st_mode) and is_same(name, output)
    ]


def is_same(name, output):
    try:
        return os.path.samestat(os.stat(name), output)
    except OSError:
        return False
