"""Whether API servers seal a resource at all. Which ones they seal depends on their version: what an entry names besides is
stored in the clear, and an object of it that was sealed by somebody else can't be read any more, nor can it be listed. A sealed
value of the resource in etcd shows that API servers seal it; without one its plain values are left, unless a user says so."""

import sys
from collections.abc import Collection
from dataclasses import dataclass
from typing import Protocol

from reference.values import MARK

from .etcd import PAGE, Etcd
from .keys import KeyRange, Write, prefixed
from .maps import Map
from .places import Places


class Change(Protocol):
    """A value that goes back, its resource, and the value that it replaces."""

    write: Write
    resource: str
    old: bytes


@dataclass(frozen=True)
class Unshown:
    """A resource of which no value in etcd is sealed, and how many plain values of it a rewrite has sealed."""

    resource: str
    count: int


def is_sealed(value: bytes) -> bool:
    return value.startswith(MARK)


def seals_first(change: Change) -> bool:
    """Whether it seals what stands in the clear."""
    return is_sealed(change.write.value) and not is_sealed(change.old)


@dataclass(frozen=True)
class Whereabouts:
    """The places at which resources are stored: the table's, and those that the import was told of, as the map's rows show them."""

    places: Places
    told: dict[bytes, set[str]]

    @classmethod
    def of(cls, known: Map) -> "Whereabouts":
        it = cls(Places.below(known.prefix, {}), {})
        for key, row in known.rows.items():
            it.told.setdefault(it.places.place_of(key.encode()), set()).add(row.resource)
        return it

    def ranges(self, resource: str) -> list[KeyRange]:
        """Where objects of the resource are stored."""
        found = {place for place, resources in self.told.items() if resource in resources}
        found |= {place.encode() for place in self.places.places_for(resource)}
        return [prefixed(self.places.base + place + b"/") for place in sorted(found)]

    def resource_of(self, key: bytes) -> str | None:
        """The resource of a key that the map hasn't. At a place that the table doesn't know it is told where all rows of the place
        are of one resource."""
        told = self.told.get(self.places.place_of(key), set())
        return self.places.resource_of(key) or (next(iter(told)) if len(told) == 1 else None)


def has_sealed(etcd: Etcd, resource: str, known: Map) -> bool:
    """Whether etcd has a sealed value of the resource now."""
    where = Whereabouts.of(known)
    for span in where.ranges(resource):
        for page in etcd.pages(span, PAGE):
            for found in page:
                row = known.rows.get(found.key.decode(errors="replace"))
                is_of = row.resource if row is not None else where.resource_of(found.key)
                if is_of == resource and is_sealed(found.value):
                    return True
    return False


def unshown(etcd: Etcd, known: Map, changes: list[Change], shown: Collection[str]) -> list[Unshown]:
    """The resources that would be sealed for the first time, but for those that are shown to be sealed."""
    asked = sorted({change.resource for change in changes if seals_first(change)} - set(shown))
    missing = [resource for resource in asked if not has_sealed(etcd, resource, known)]
    counts = {it: sum(change.resource == it and seals_first(change) for change in changes) for it in missing}
    return [Unshown(resource, count) for resource, count in counts.items()]


def tell(left: list[Unshown]) -> None:
    """Why plain values are left, and what to do."""
    for it in left:
        values = "1 plain value stays" if it.count == 1 else f"{it.count} plain values stay"
        print(f"store-to-etcd: {it.resource}: {values}, since nothing of it in etcd is sealed: do the API servers seal it at all?", file=sys.stderr)
        print(f"store-to-etcd: {it.resource}: write one object of it through an API server, and look by etcd-audit", file=sys.stderr)
    if left:
        print("store-to-etcd: --first RESOURCE seals the plain values of a resource all the same", file=sys.stderr)
