"""What an export tells of its values: a line of each that didn't go, how far it is, and the counts at its end, whatever ended it."""

import sys
from collections.abc import Iterator

from .keys import Write
from .output import tell
from .sending import Outcome

# Counts that are told where there are any; the others always are.
RARE = (Outcome.UNKNOWN,)


class Report:
    """The counts of one export: of what it sent, and of what it left."""

    def __init__(self, is_dry: bool, of: int, same: int, left_plain: int):
        self.is_dry, self.of, self.same, self.left_plain = is_dry, of, same, left_plain
        self.counts = dict.fromkeys(Outcome, 0)
        self.shows = sys.stderr is not None and sys.stderr.isatty()

    @property
    def done(self) -> int:
        return sum(self.counts.values())

    def add(self, write: Write, outcome: Outcome, why: str) -> None:
        """One more outcome; one that isn't as it should be has a line."""
        self.counts[outcome] += 1
        path = write.key.decode()
        if outcome in (Outcome.CHANGED, Outcome.UNKNOWN):
            tell([f"{outcome.value} {path}"])
        elif outcome is Outcome.REFUSED:
            tell([f"refused {path} {why}"])

    def show(self) -> None:
        """How far it is, on a terminal alone."""
        if self.shows:
            print(f"\rstore-to-etcd: {self.done} of {self.of}", end="", file=sys.stderr, flush=True)

    def end(self, unknown: list[Write]) -> None:
        """The counts, behind a line of each value of which nobody knows whether it was written."""
        if self.shows:
            print(file=sys.stderr)
        self.counts[Outcome.UNKNOWN] += len(unknown)
        tell([*(f"unknown {it.key.decode()}" for it in unknown), *self.lines()])

    def lines(self) -> Iterator[str]:
        for outcome, number in self.counts.items():
            if number or outcome not in RARE:
                yield f"{'would-write' if self.is_dry and outcome is Outcome.WRITTEN else outcome.value} {number}"
        if self.done < self.of:
            yield f"unsent {self.of - self.done}"
        yield f"same {self.same}"
        if self.left_plain:
            yield f"left-plain {self.left_plain}"

    def is_done(self) -> bool:
        """Whether each value went, or was there already."""
        went = self.counts[Outcome.WRITTEN] + self.counts[Outcome.ALREADY]
        return went == self.of and not self.left_plain
