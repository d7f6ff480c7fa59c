"""A bridge explains its own lines, as the front end does those of kmsrest: on a terminal, or with KMSREST_EXPLAIN=1."""

import os
import sys
from pathlib import Path

TOP = Path(__file__).resolve().parent.parent
# How many lines are explained: of many with one cause the first ones tell it.
MOST_LINES = 3


def explain(lines: list[str]) -> None:
    """What these lines mean for this call, on standard error."""
    asked = os.environ.get("KMSREST_EXPLAIN")
    if asked == "0" or (asked != "1" and not sys.stderr.isatty()):
        return
    for folder in ("help", "front"):
        if str(TOP / folder) not in sys.path:
            sys.path.append(str(TOP / folder))
    from call_words import Call
    from explanations import answers

    for line in answers(lambda: lines[:MOST_LINES], Call([os.path.basename(sys.argv[0]), *sys.argv[1:]])):
        print(line, file=sys.stderr)
