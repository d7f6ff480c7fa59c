"""The rule of the API server for the keys of annotations: each is a domain name of two labels or more."""
import re
from collections.abc import Iterable

LABEL = re.compile(r"[a-z0-9](?:[-a-z0-9]*[a-z0-9])?")
LABEL_LIMIT = 63
NAME_LIMIT = 253


def is_domain_name(key: str) -> bool:
    """Is it one that the API server takes? A last dot doesn't count."""
    name = key.removesuffix(".")
    labels = name.split(".")
    return (
        len(name) <= NAME_LIMIT
        and len(labels) >= 2
        and all(len(label) <= LABEL_LIMIT and LABEL.fullmatch(label) for label in labels)
    )


def first_breach(keys: Iterable[str]) -> str | None:
    """The least key that is no domain name."""
    return min((key for key in keys if not is_domain_name(key)), default=None)
