"""Keys of aesgcm that have sealed so many of the values in etcd that they are to be exchanged."""

import collections
from collections.abc import Iterator, Mapping
from typing import Protocol

from reference.nonces import MOST_SEALED


class Kind(Protocol):
    """What an audit counts by: here the provider counts alone."""

    provider: str


def worn(counts: Mapping[Kind, int]) -> Iterator[str]:
    """A line of each such key, over all resources. What it sealed before, and was written over since, isn't seen."""
    by_key: collections.Counter[str] = collections.Counter()
    for kind, number in counts.items():
        if kind.provider.startswith("aesgcm:"):
            by_key[kind.provider] += number
    for key, number in sorted(by_key.items()):
        if number > MOST_SEALED:
            yield f"{key} sealed {number} of these values: one key is for {MOST_SEALED} writes, exchange it"
