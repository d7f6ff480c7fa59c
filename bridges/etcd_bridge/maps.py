"""The map beside a store: of which etcd it is, and what each key had there. JSON lines; docs/FORMATS.md, "The map"."""

import hashlib
import json
import re
from collections.abc import Callable, Mapping
from dataclasses import dataclass
from pathlib import Path

from reference.words import is_path, is_resource

from .errors import Refused

# The versions that are read. The first one doesn't tell the revision that made a key.
VERSIONS = (1, 2)
VERSION = 2
# etcd's revisions are signed numbers of 64 bits.
MOST_NUMBER = 2**63 - 1

Rule = Callable[[object], bool]


def is_number(found: object, least: int = 1) -> bool:
    return isinstance(found, int) and not isinstance(found, bool) and least <= found <= MOST_NUMBER


def is_count(found: object) -> bool:
    return is_number(found, 0)


def is_text(rule: Callable[[bytes], object]) -> Rule:
    """The rule of a text in UTF-8 whose bytes another one takes."""

    def holds(found: object) -> bool:
        try:
            return isinstance(found, str) and bool(rule(found.encode()))
        except UnicodeEncodeError:
            return False

    return holds


def is_cluster(found: object) -> bool:
    return found is None or (isinstance(found, str) and re.fullmatch("[0-9a-f]{1,16}", found) is not None)


def is_digest(found: object) -> bool:
    return isinstance(found, str) and re.fullmatch("[0-9a-f]{64}", found) is not None


HEAD = {
    "map": is_count,
    "cluster": is_cluster,
    "revision": is_count,
    "prefix": is_text(lambda text: text.isascii() and text.strip(b"/")),
    "rows": is_count,
}
ROWS = {
    1: {"key": is_text(is_path), "resource": is_text(is_resource), "mod": is_number, "sha256": is_digest},
    2: {"key": is_text(is_path), "resource": is_text(is_resource), "mod": is_number, "create": is_number, "sha256": is_digest},
}


def digest(value: bytes) -> str:
    return hashlib.sha256(value).hexdigest()


def cluster_text(cluster: int | None) -> str | None:
    """A cluster's id as etcd's log and its members' list have it."""
    return None if cluster is None else f"{cluster:x}"


@dataclass(frozen=True)
class MapRow:
    """What a key had: its resource, the revision that put its value, the one that made the key (None in a map of the first
    version), and the value's digest."""

    resource: str
    mod: int
    create: int | None
    sha256: str


@dataclass
class Map:
    """Of which etcd and at which revision a store is, and its rows by their keys."""

    cluster: str | None
    revision: int
    prefix: str
    rows: dict[str, MapRow]

    def written(self) -> bytes:
        """The bytes of the file."""
        head = {
            "map": VERSION,
            "cluster": self.cluster,
            "revision": self.revision,
            "prefix": self.prefix,
            "rows": len(self.rows),
        }
        lines = [head]
        for key, row in self.rows.items():
            lines.append({"key": key, "resource": row.resource, "mod": row.mod, "create": row.create, "sha256": row.sha256})
        return "".join(json.dumps(line, separators=(",", ":")) + "\n" for line in lines).encode()

    @classmethod
    def read(cls, name: str) -> "Map":
        try:
            content = Path(name).read_bytes()
        except OSError as no:
            raise Refused(f"the map {name}: {no.strerror}") from None
        if not content.endswith(b"\n"):
            raise Refused(f"the map {name} is torn: its last line has no end")
        lines = [parsed(name, number, line) for number, line in enumerate(content.splitlines(), 1)]
        head = member(name, 1, lines[0], HEAD)
        if head["map"] not in VERSIONS:
            raise Refused(f"the map {name} is of version {head['map']}, and not {' or '.join(map(str, VERSIONS))}")
        if head["rows"] != len(lines) - 1:
            raise Refused(f"the map {name} is torn: it has {len(lines) - 1} rows of {head['rows']}")
        rows = {}
        for number, line in enumerate(lines[1:], 2):
            row = member(name, number, line, ROWS[head["map"]])
            if row["key"] in rows:
                raise Refused(f"the map {name}: line {number} has a key that stands above it")
            rows[row["key"]] = MapRow(row["resource"], row["mod"], row.get("create"), row["sha256"])
        return cls(head["cluster"], head["revision"], head["prefix"], rows)


def parsed(name: str, number: int, line: bytes) -> object:
    try:
        return json.loads(line)
    except (ValueError, RecursionError):
        raise Refused(f"the map {name} is torn: line {number} is no JSON") from None


def member(name: str, number: int, line: object, form: Mapping[str, Rule]) -> dict:
    """A line whose members are as a form has them."""
    if not isinstance(line, dict) or not all(key in line for key in form):
        raise Refused(f"the map {name}: line {number} hasn't the members {', '.join(form)}")
    wrong = next((key for key, rule in form.items() if not rule(line[key])), None)
    if wrong is not None:
        raise Refused(f"the map {name}: line {number} has a member {wrong} that breaks its rule")
    return line
