"""Standard output of a bridge: told at once, and never lost in silence. What it doesn't take goes to standard error."""

import os
import sys
from collections.abc import Iterable

from .errors import OutputFailed


def begin() -> None:
    """Before anything is done: there must be a standard output, and no file that is opened gets the place of a closed one."""
    for descriptor in (0, 1, 2):
        try:
            os.fstat(descriptor)
        except OSError:
            os.open(os.devnull, os.O_RDWR)
            if descriptor == 1:
                raise OutputFailed("standard output is closed, so nothing could be told; nothing was done") from None
    if sys.stderr is None:
        # (what is told there goes nowhere, and not to standard output)
        sys.stderr = open(os.devnull, "w", encoding="utf-8")
    # (a name in another encoding is shown by its bytes)
    sys.stdout.reconfigure(encoding="utf-8", errors="surrogateescape")


def tell(lines: Iterable[str]) -> None:
    """Lines on standard output. Where it fails they go to standard error, and so does all that is told from then on."""
    told = "".join(f"{line}\n" for line in lines)
    try:
        sys.stdout.write(told)
        sys.stdout.flush()
    except OSError as no:
        # (what is left in the buffer goes nowhere, and isn't tried again at the end)
        os.dup2(os.open(os.devnull, os.O_WRONLY), sys.stdout.fileno())
        sys.stdout = sys.stderr
        print(told, end="", file=sys.stderr, flush=True)
        raise OutputFailed(f"standard output: {no.strerror}") from None
