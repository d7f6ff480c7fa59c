"""A configuration file as vet looks at it: what `check` reads of it, or the first rule that it breaks; and where its parts stand."""

import base64
import os
import stat
from collections.abc import Iterator
from dataclasses import dataclass, field
from typing import Any

import configurations
import trees
from reference import configuration, masking, rollout

CIPHERS = ("aescbc", "aesgcm")
Path = tuple[str | int, ...]
Entries = list[tuple[list[str], list[tuple]]]


@dataclass(frozen=True)
class Breach:
    """The first rule of `check` that a file breaks: the program's line, the file's line, and what to do."""

    answer: str
    line: int
    found: str
    do: str


@dataclass(frozen=True)
class Document:
    """A file that keeps the rules: the name that is shown, its bytes, its tree, the line of each part, and its entries."""

    name: str
    data: bytes
    tree: Any = None
    lines: dict[Path, int] = field(default_factory=dict)
    entries: Entries = field(default_factory=list)
    breach: Breach | None = None
    is_readable: bool = False

    def line(self, *path: str | int) -> int:
        """The line of a part, or of the nearest one around it that has a line."""
        while path and path not in self.lines:
            path = path[:-1]
        return self.lines.get(path, 1)

    @property
    def rows(self) -> list[str]:
        """The file's lines as text."""
        return self.data.decode(errors="replace").split("\n")


@dataclass(frozen=True)
class Element:
    """A provider's element: the numbers of its entry and of itself, its kind, and what stands there."""

    entry: int
    place: int
    kind: str
    node: Any

    @property
    def path(self) -> Path:
        return ("resources", self.entry, "providers", self.place, self.kind)


@dataclass(frozen=True)
class Key:
    """A key of a cipher: its provider, its secret, and where it stands."""

    kind: str
    name: str
    secret: bytes
    path: Path

    @property
    def shown(self) -> str:
        return provider_text((self.kind, self.name))


def name_text(name: str) -> str:
    """A name for people: whole, but where it looks like a secret in the wrong place."""
    return masking.name(name).strip("`").replace("`", "")


def provider_text(provider: tuple) -> str:
    return f"{provider[0]}:{name_text(provider[1])}" if provider[1] else provider[0]


def pattern_text(pattern: str) -> str:
    """A resource for people: as it stands where it is one of a kind that is known, and else shortened where it is long."""
    return pattern if all(len(label) < masking.LONG or label in masking.KNOWN for label in pattern.split(".")) else masking.shown(pattern)


def elements(document: Document) -> Iterator[Element]:
    for number, entry in enumerate(document.tree["resources"] if document.tree else ()):
        for place, node in enumerate(entry["providers"]):
            kind = next(kind for kind in configuration.PROVIDERS if kind in node)
            yield Element(number, place, kind, node[kind])


def keys(document: Document) -> Iterator[Key]:
    for it in elements(document):
        if it.kind in CIPHERS:
            for number, key in enumerate(it.node["keys"]):
                yield Key(it.kind, key["name"], base64.b64decode(key["secret"]), (*it.path, "keys", number))


def open_words(documents: list[Document]) -> list[str]:
    """The names and resources of files in order that may be shown whatever else holds them, as a comment: those that look like no
    secret, and have no piece of a secret of these files."""
    held = [form for it in documents for key in keys(it) for form in masking.forms(key.secret)]
    words = {word for it in documents for listed, providers in it.entries for word in (*listed, *(provider[1] for provider in providers))}
    return [word for word in sorted(words) if name_text(word) == word and masking.hide(word, held) == word]


def patterns(document: Document) -> Iterator[tuple[int, int, str]]:
    """Each resource with the numbers of its entry and of itself."""
    for number, (listed, _providers) in enumerate(document.entries):
        for place, pattern in enumerate(listed):
            yield number, place, pattern


def entry_of(document: Document, found: str) -> int | None:
    """The entry that decides for a class of resources, if one does."""
    for number, (listed, _providers) in enumerate(document.entries):
        if any(rollout.speaks_of(pattern, found) for pattern in listed):
            return number
    return None


def line_of_class(document: Document, found: str) -> int:
    """The line of the providers of a class; the list of entries where none speaks of it."""
    number = entry_of(document, found)
    return document.line("resources") if number is None else document.line("resources", number, "providers")


def breach_of(data: bytes) -> Breach | None:
    found = configurations.look(data)
    return found and Breach(found.answer, found.line, f"{found.where}: {found.found}", found.do)


def is_readable(file: str) -> bool:
    """Whether others than its owner may read a plain file."""
    found = os.stat(file)
    return stat.S_ISREG(found.st_mode) and bool(found.st_mode & (stat.S_IRGRP | stat.S_IROTH))


def read(file: str, name: str, may_be_empty: bool = False) -> Document:
    """The document in a file. An empty one stands for no configuration where it may: all is stored in the clear."""
    with open(file, "rb") as opened:
        data = opened.read(configurations.MOST_BYTES + 1)
    if may_be_empty and not data:
        return Document(name, data)
    breach = breach_of(data)
    if breach:
        return Document(name, data, breach=breach)
    tree, lines = trees.placed(data)
    return Document(name, data, tree, lines, configuration.read(data), None, is_readable(file))
