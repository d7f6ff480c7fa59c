"""Rules of the API server for the resources that entries name."""

from collections.abc import Iterator

from reference import configuration, masking

from . import resources
from .document import Document, pattern_text, patterns
from .lints import NEWEST
from .rules import Fault, a_rule

# Groups whose objects are stored by another group's name: the code, why, and what to do.
MOVED = {
    "events.k8s.io": ("other-events", "such events are stored as those of the core group", "write events"),
    "extensions": ("extensions", "the group extensions is gone", "name the resource by the group that it has now, as deployments.apps"),
}


def hidden_by(pattern: str, wild: str) -> bool:
    """Whether an earlier wildcard takes all that a pattern matches."""
    if not wild.startswith("*."):
        return False
    return wild in ("*.*", pattern) or (not pattern.startswith("*.") and configuration.covers(wild, pattern))


@a_rule
def masked_resources(document: Document) -> Iterator[Fault]:
    earlier: list[tuple[int, str]] = []
    for number, place, pattern in patterns(document):
        hides = next((it for it in earlier if it[0] < number and hidden_by(pattern, it[1])), None)
        path = ("resources", number, "resources", place)
        if hides:
            told = f"entry {hides[0]} has {hides[1]} and comes first, so this never counts"
            yield Fault("masked", path, told, "put the narrower entry first, or delete this resource")
        elif any(other == pattern for _, other in earlier):
            where = f"{pattern_text(pattern)} stands in an earlier entry"
            told = f"{where}: the API server reads by both, and the verdict knows the first alone"
            yield Fault("two-entries", path, told, "join the two entries")
        earlier.append((number, pattern))


@a_rule
def wildcards(document: Document) -> Iterator[Fault]:
    for number, place, pattern in patterns(document):
        path = ("resources", number, "resources", place)
        if not pattern.startswith("*."):
            continue
        before = f"wildcards are of 1.27: before, {pattern}"
        if any(it[0] != "identity" for it in document.entries[number][1]):
            told = f"{before} is a resource of that name, and nothing is sealed by this entry"
            yield Fault("wildcards", path, told, "name each resource")
        elif any(later > number and hidden_by(other, pattern) for later, _place, other in patterns(document)):
            told = f"{before} takes nothing from the entries behind it, as it does in the verdict"
            yield Fault("wildcards", path, told, "put this entry last, or leave it out")


@a_rule
def forbidden_resources(document: Document) -> Iterator[Fault]:
    for number, place, pattern in patterns(document):
        path, group = ("resources", number, "resources", place), resources.group_of(pattern)
        if group in MOVED:
            code, why, do = MOVED[group]
            yield Fault(code, path, why, do)
            yield Fault("moved-group", path, f"{why}: this says nothing", do)
        if pattern in resources.ADDRESSES:
            yield Fault("addresses", path, f"{pattern} has no API of its own, and wildcards alone match it", "take it out")


@a_rule
def unsealed_resources(document: Document) -> Iterator[Fault]:
    for number, place, pattern in patterns(document):
        is_late = pattern in (resources.SERVICES, resources.DEFINITIONS) or resources.is_custom(pattern)
        if is_late and document.entries[number][1][0][0] != "identity":
            told = "API servers before 1.26 store it in the clear, and can't read it sealed"
            do = "take it out until each API server is of 1.26 or later"
            yield Fault("unsealed", ("resources", number, "resources", place), told, do)


@a_rule
def strange_resources(document: Document) -> Iterator[Fault]:
    for number, place, pattern in patterns(document):
        path = ("resources", number, "resources", place)
        if resources.is_never_stored(pattern):
            yield Fault("unstored", path, f"no API server stores {pattern_text(pattern)}, so this says nothing", "take it out")
        elif resources.is_unknown(pattern):
            near = resources.nearest(pattern)
            do = f"write {near}" if near else "write the plural with its group: `kubectl api-resources` has both"
            told = f"Kubernetes up to 1.{NEWEST} has no resource {masking.scalar(pattern)}: what is meant is stored in the clear"
            yield Fault("unknown-resource", path, told, do)
