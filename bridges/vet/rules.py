"""What a rule of an API server is: it looks at a file that `check` reads, and tells what that server refuses or reads otherwise."""

from collections.abc import Callable, Iterator
from dataclasses import dataclass

from .document import Document, Path


@dataclass(frozen=True)
class Fault:
    """What a rule found: its code, the path of the part, what is so, and what to do."""

    code: str
    path: Path
    text: str
    do: str


Rule = Callable[[Document], Iterator[Fault]]
ALL: list[Rule] = []


def a_rule(rule: Rule) -> Rule:
    """The rule is asked of each new file."""
    ALL.append(rule)
    return rule
