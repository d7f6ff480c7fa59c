"""Why values can't be copied: many keys may have one reason, and many reasons one cause."""

from collections.abc import Iterator
from dataclasses import dataclass, field

from .errors import Refused, visible

# How many values of one cause a refusal names.
NAMED = 10


@dataclass
class Cause:
    """The first lines of a cause, how many keys have it, and the words for those that aren't named."""

    rest: str
    lines: list[str] = field(default_factory=list)
    count: int = 0


@dataclass
class Troubles:
    """Why values can't be copied, by causes."""

    causes: dict[str, Cause] = field(default_factory=dict)

    def add(self, why: str, key: bytes, cause: str = "") -> None:
        """One more key with a reason. Where the reason names something of the key, `cause` is what such reasons have in common."""
        found = self.causes.setdefault(cause or why, Cause(cause or why))
        found.count += 1
        if len(found.lines) < NAMED:
            found.lines.append(f"{visible(key)}: {why}")

    def judge(self) -> None:
        if self.causes:
            raise Refused("\n".join(self.lines()))

    def lines(self) -> Iterator[str]:
        for cause in self.causes.values():
            yield from cause.lines
            if cause.count > len(cause.lines):
                yield f"(and {cause.count - len(cause.lines)} more: {cause.rest})"
