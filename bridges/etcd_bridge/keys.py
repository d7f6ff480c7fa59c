"""Keys of etcd, ranges of them, and what is stored at a key."""

from dataclasses import dataclass


@dataclass(frozen=True)
class KeyValue:
    """What etcd has at a key: the value, the revision that put it, and the one that made the key."""

    key: bytes
    value: bytes
    mod: int
    create: int


@dataclass(frozen=True, order=True)
class KeyRange:
    """The keys from `start` to before `end`."""

    start: bytes
    end: bytes

    def has(self, key: bytes) -> bool:
        return self.start <= key < self.end


@dataclass(frozen=True)
class Write:
    """A value to be put in the place of the old one, which has these revisions too. An older map doesn't tell the one that made
    the key: None."""

    key: bytes
    old: bytes
    mod: int
    create: int | None
    value: bytes

    def replaces(self, now: KeyValue | None) -> bool:
        """Whether what stands there now is what was imported. Revisions alone don't tell it: a cluster that was restored counts
        them anew under its old id, and another value may have the same ones."""
        return (
            now is not None and now.value == self.old and now.mod == self.mod and self.create in (None, now.create)
        )


def prefixed(prefix: bytes) -> KeyRange:
    """The range of the keys that begin with a prefix that isn't empty and doesn't end with the byte 255."""
    return KeyRange(prefix, prefix[:-1] + bytes([prefix[-1] + 1]))


def without_nested(ranges: list[KeyRange]) -> list[KeyRange]:
    """The ranges of prefixes in order, without those that lie in another one."""
    kept: list[KeyRange] = []
    for one in sorted(set(ranges)):
        if not any(other.has(one.start) for other in kept):
            kept.append(one)
    return kept


def below(prefix: str) -> bytes:
    """What the keys of an API server begin with, by its --etcd-prefix."""
    return prefix.rstrip("/").encode() + b"/"
