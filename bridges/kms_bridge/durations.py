"""Durations as Kubernetes' configurations write them: `3s`, `500ms`, `1m30s`."""
import re
from fractions import Fraction

from reference import masking

# (two characters look like the sign of micro)
UNITS = {"h": 3600 * 10**9, "m": 60 * 10**9, "s": 10**9, "ms": 10**6, "us": 1000, "\u00b5s": 1000, "\u03bcs": 1000, "ns": 1}
PART = re.compile("([0-9]+(?:\\.[0-9]*)?|\\.[0-9]+)(h|ms|m|s|us|\u00b5s|\u03bcs|ns)")
# A duration is kept as a count of whole nanoseconds in 63 bits.
MOST = 2**63 - 1


def seconds_of(text: str) -> float:
    """The seconds of a duration above zero; ValueError for any other text."""
    total, at = 0, 1 if text[:1] == "+" else 0
    while at < len(text):
        part = PART.match(text, at)
        if part is None:
            raise ValueError(f"{masking.scalar(text)} is no duration such as 3s or 500ms")
        total += int(Fraction(part[1]) * UNITS[part[2]])
        at = part.end()
    if total <= 0:
        raise ValueError(f"{masking.scalar(text)} isn't above zero")
    if total > MOST:
        raise ValueError(f"{masking.scalar(text)} is longer than a duration may be")
    return total / 10**9
