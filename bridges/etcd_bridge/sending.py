"""Values into etcd, a transaction for some at once. What a transaction finds changed is told, and the rest is tried again."""

import enum
from collections.abc import Iterator

from .errors import NoAnswer, TooLarge
from .etcd import Etcd
from .keys import KeyValue, Write

# etcd's own limits, if nobody set others: comparisons of a transaction, of which a key has three, and bytes of a request, here with
# room to spare.
COMPARED = 3
MOST_BATCH = 128 // COMPARED
MOST_BYTES = 1_000_000


class Outcome(enum.Enum):
    """What became of a write."""

    WRITTEN = "written"
    ALREADY = "already"
    CHANGED = "changed"
    REFUSED = "refused"
    UNKNOWN = "unknown"


Told = tuple[Write, Outcome, str]


class Sender:
    """Writes to an etcd, or on a dry run looks at what is there."""

    def __init__(self, etcd: Etcd, is_dry: bool):
        self.etcd, self.is_dry = etcd, is_dry
        # What is being sent: where the etcd is unsure, nobody knows what became of it.
        self.pending: list[Write] = []

    def batches(self, writes: list[Write], most: int) -> Iterator[list[Write]]:
        """Lists of at most so many writes, each of no more bytes than a request may have, but for one that is longer alone."""
        batch, size = [], 0
        for write in writes:
            length = len(write.value) + len(write.old) + (COMPARED + 2) * len(write.key)
            if batch and (len(batch) == most or size + length > MOST_BYTES):
                yield batch
                batch, size = [], 0
            batch.append(write)
            size += length
        if batch:
            yield batch

    def send(self, batch: list[Write]) -> Iterator[Told]:
        """What became of each write, as it is known: it, its outcome, and why where it was refused."""
        if self.is_dry:
            found = self.looked(batch)
            yield from ((it, outcome_of(it, now) or Outcome.WRITTEN, "") for it, now in zip(batch, found, strict=True))
            return
        rest = batch
        while rest:
            try:
                found = self.swapped(rest)
            except TooLarge:
                yield from self.parted(rest)
                return
            if found is None:
                yield from ((it, Outcome.WRITTEN, "") for it in rest)
                return
            told = [(it, outcome_of(it, now), "") for it, now in zip(rest, found, strict=True)]
            yield from (one for one in told if one[1] is not None)
            left = [it for it, outcome, _why in told if outcome is None]
            if len(left) == len(rest):
                raise NoAnswer("etcd refuses a transaction though all that it compares holds")
            rest = left

    def swapped(self, rest: list[Write], with_values: bool = True) -> list[KeyValue | None] | None:
        """A transaction's answer, for each of its keys."""
        self.pending = rest
        found = self.etcd.swap(rest, with_values)
        self.pending = []
        return found if found is None else whole(found, rest)

    def looked(self, writes: list[Write]) -> list[KeyValue | None]:
        return whole(self.etcd.now([it.key for it in writes]), writes)

    def parted(self, rest: list[Write]) -> Iterator[Told]:
        """What is too large together may do one by one. A value that is too large beside the old one is looked at first, and then
        sent with the revisions alone."""
        self.pending = []
        if len(rest) > 1:
            for write in rest:
                yield from self.send([write])
            return
        write = rest[0]
        outcome = outcome_of(write, self.looked(rest)[0])
        if outcome is None:
            try:
                found = self.swapped(rest, with_values=False)
            except TooLarge as still:
                self.pending = []
                yield write, Outcome.REFUSED, str(still)
                return
            outcome = Outcome.WRITTEN if found is None else outcome_of(write, found[0]) or Outcome.CHANGED
        yield write, outcome, ""

    def unknown(self) -> list[Write]:
        """The writes of which nobody knows whether they were done."""
        return self.pending if self.etcd.is_unsure else []


def whole(found: list[KeyValue | None], asked: list[Write]) -> list[KeyValue | None]:
    """An answer must have a part for each key."""
    if len(found) != len(asked):
        raise NoAnswer("etcd's answer to a transaction doesn't tell what stands there")
    return found


def outcome_of(write: Write, now: KeyValue | None) -> Outcome | None:
    """What there is now decides a write: it is there already, or another's; None where it may still be made."""
    if write.replaces(now):
        return None
    return Outcome.ALREADY if now is not None and now.value == write.value else Outcome.CHANGED
