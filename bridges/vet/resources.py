"""Which resources clusters have, and which of them an API server stores or seals."""

import difflib

from etcd_bridge.places import REGULAR, built_in

SERVICES = "apiservices.apiregistration.k8s.io"
DEFINITIONS = "customresourcedefinitions.apiextensions.k8s.io"
# Resources of the core group that are stored and that no configuration may name.
ADDRESSES = ("apiserveripinfo", "serviceipallocations", "servicenodeportallocations")
# Groups whose objects are stored under another group.
OTHER_GROUPS = ("events.k8s.io", "extensions")
# Groups of built-in resources that are asked and answered, and never stored.
ANSWERED_GROUPS = (
    *("authentication.k8s.io", "authorization.k8s.io", "imagepolicy.k8s.io"),
    *("metrics.k8s.io", "custom.metrics.k8s.io", "external.metrics.k8s.io"),
)
ANSWERED = ("bindings", "componentstatuses")
KNOWN = (set(built_in().values()) | {SERVICES, DEFINITIONS}) - set(ADDRESSES)
GROUPS = set(REGULAR) | {"apiregistration.k8s.io", "apiextensions.k8s.io", *OTHER_GROUPS}


def group_of(pattern: str) -> str:
    return pattern.partition(".")[2]


def is_custom(pattern: str) -> bool:
    """Whether a pattern is of a custom resource: built-in groups have names that are known, and those of others have a dot."""
    group = group_of(pattern)
    return "." in group and group not in GROUPS and group not in ANSWERED_GROUPS


def is_never_stored(pattern: str) -> bool:
    return pattern in ANSWERED or group_of(pattern) in ANSWERED_GROUPS


def is_unknown(pattern: str) -> bool:
    """Whether no cluster has such a resource, or a resource of such a group."""
    group = group_of(pattern)
    if pattern.startswith("*."):
        return group not in GROUPS | {"*"} and "." not in group
    if pattern in ADDRESSES or is_custom(pattern) or is_never_stored(pattern) or group in OTHER_GROUPS:
        return False
    return pattern not in KNOWN


def nearest(pattern: str) -> str | None:
    """The known resource that was likely meant: one of that plural in another group, or one with nearly this name."""
    if pattern.startswith("*."):
        found = difflib.get_close_matches(group_of(pattern), sorted(GROUPS - {"", *OTHER_GROUPS}), 1, 0.6)
        return f"*.{found[0]}" if found else None
    name = pattern.partition(".")[0]
    same = sorted((known for known in KNOWN if known.partition(".")[0] in (name, name + "s", name + "es")), key=len)
    return same[0] if same else next(iter(difflib.get_close_matches(pattern, sorted(KNOWN), 1, 0.7)), None)
