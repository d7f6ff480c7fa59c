"""What an API server refuses in a file that `check` reads, and what it reads otherwise. docs/FORMATS.md, "Where the API server
answers otherwise", has the same differences by the same names."""

from collections.abc import Iterator

from . import member_rules, resource_rules, rules  # noqa: F401 (a module's rules are known once it is imported)
from .document import Document
from .lints import BY_CODE, Finding

COLON = "a colon ends a name in a stored value; API servers refuse it of a plugin from 1.25 on, and may take one key's value for another's"
# Rules by which a verdict is of another file than API servers have, and their codes.
OTHERWISE = (resource_rules.wildcards, resource_rules.masked_resources)
OTHERWISE_CODES = ("wildcards", "two-entries")


def findings(document: Document) -> Iterator[Finding]:
    """What all rules find in a file, for whatever version."""
    for rule in rules.ALL:
        for it in rule(document):
            yield Finding(BY_CODE[it.code], document.name, document.line(*it.path), it.text, it.do)


def base_findings(base: Document, minor: int) -> Iterator[Finding]:
    """What API servers of a version read otherwise in the file that they have: the verdict is of another file then."""
    for rule in OTHERWISE:
        for it in rule(base):
            if it.code in OTHERWISE_CODES and BY_CODE[it.code].holds(minor):
                text = f"{it.text}; so the verdict isn't of what API servers have"
                do = "ask `kmsrest judge` and etcd before the first reload"
                yield Finding(BY_CODE["base-otherwise"], base.name, base.line(*it.path), text, do)


def is_colon(document: Document) -> bool:
    """Whether the first rule of `check` that the file breaks is a colon in a name."""
    return document.breach is not None and document.breach.answer.startswith("text 31 ") and "has a colon" in document.breach.found
