"""Configurations that were changed at random: none that both accept is read otherwise, and which of them one side alone accepts
is told by classes."""

import collections
import random
import re
from dataclasses import dataclass, field
from pathlib import Path

from asking import NotSo, Opened, Peer, Refused, expect, kmsrest
from differences import Class, Side, a_class
from mutations import SECRETS, mutated
from own_files import OWN

from reference import configuration
from reference.board import who_text
from reference.store import Row, written
from reference.values import MARK, seal, unseal
from reference.values import Refused as ValueRefused

# What this program refuses, by its code.
BY_CODE = {
    20: a_class("json-form", Side.THERE),
    28: a_class("secretbox", Side.THERE),
    29: a_class("kms-version", Side.THERE),
    31: a_class("names", Side.THERE),
    32: a_class("endpoint-form", Side.THERE),
    33: a_class("secret-form", Side.THERE),
    35: a_class("pattern-form", Side.THERE),
    36: a_class("pattern-twice", Side.THERE),
    37: a_class("pattern-overlap", Side.THERE),
    38: a_class("provider-twice", Side.THERE),
    39: a_class("limits", Side.THERE),
}
BY_CODE[30] = BY_CODE[29]
# What breaks the YAML profile, by the kind behind the line's number.
BY_KIND = {
    1: a_class("yaml-form", Side.THERE),
    2: a_class("yaml-indent", Side.THERE),
    3: a_class("yaml-twice", Side.THERE),
    4: a_class("yaml-deep", Side.THERE),
}
BREAKS_PROFILE = 21
NULL_PATTERN = a_class("null-pattern", Side.THERE)
NULL_ELEMENT = a_class("null-element", Side.THERE)
OLD_KIND = a_class("old-kind", Side.THERE)
BLANKS = a_class("blanks", Side.THERE)
# What the API server refuses, by its words and by what the file holds.
BY_WORDS = (
    (r"kms\.timeout|[Dd]uration|KMSConfiguration\.Timeout", rb"timeout", a_class("timeout", Side.HERE)),
    (r"cachesize|CacheSize", rb"cachesize", a_class("cachesize", Side.HERE)),
    (r"kms\.endpoint", rb"endpoint", a_class("endpoint-url", Side.HERE)),
    (r"ReadString: expects", rb"", a_class("no-text", Side.HERE)),
    (r"provider does not contain any|mandatory field|is required", rb"", a_class("nothing", Side.HERE)),
    (r"unknown escape character", rb"\\/", a_class("escaped-slash", Side.HERE)),
    (r"block sequence entries are not allowed", rb": -\s*(\n|$)", a_class("lone-dash", Side.HERE)),
    (r"mapping values are not allowed", rb":\t", a_class("colon-tab", Side.HERE)),
)
# What both accept, and read otherwise.
WILDCARDS = a_class("wildcards", Side.READING)
TWO_ENTRIES = a_class("two-entries", Side.READING)
KMS_V1 = a_class("kms-as-v1", Side.READING)
# (a URL with a tab is refused there, so a file that is accepted has none)
ENDPOINT_TAB = a_class("endpoint-tab", Side.READING)
TAB_BEHIND = re.compile(rb"endpoint\"?: [^'\"\n]+\t\s*(\n|$)")

RESOURCES = ("secrets", "configmaps", "events", "deployments.apps", "pods")
PLACE = "/registry/read"
NAMES = ("key1", "key2", "k3", "k")
STRANGE = MARK + b"strange:v1:value"
NAME = "read"


@dataclass
class Counts:
    """What came of the configurations."""

    files: int = 0
    refused: int = 0
    alike: int = 0
    values: int = 0
    classes: collections.Counter = field(default_factory=collections.Counter)


def entry_text(number: int, entry: tuple) -> str:
    patterns, providers = entry
    return f"entry {number}: {','.join(patterns)}: {','.join(who_text(it) for it in providers)}\n"


@dataclass(frozen=True)
class Seen:
    """A value that was opened by the API server's code, its path and resource, and what that said of it."""

    path: str
    resource: str
    value: bytes
    said: str


class ReadAlike:
    """Files in one folder, read by both."""

    def __init__(self, peer: Peer, draw: random.Random, folder: Path):
        self.peer, self.draw, self.counts = peer, draw, Counts()
        self.file, self.store = folder / "configuration", folder / "read"
        self.seen: list[Seen] = []

    def one(self, content: bytes) -> Class | None:
        """Reads a file by both; the class by which they differ, if they do."""
        self.file.write_bytes(content)
        self.counts.files += 1
        here, there = kmsrest("check", "--config", self.file), self.peer.load(NAME, self.file)
        expect(here.status in (0, 3, 6), f"{content!r}: kmsrest ends with {here.status}: {here.errors}")
        if here.status and there:
            self.counts.refused += 1
            return None
        if here.status == 0 and there is None:
            named = self.judge_reading(content, here.output.decode())
        elif here.status == 0:
            named = refused_there(there.why, content)
            expect(named is not None, f"{content!r} is accepted here, and refused there: {there.why}")
        else:
            named = refused_here(here.errors, content)
            expect(named is not None, f"{content!r} is refused here, {here.errors}, and accepted there")
        if named:
            self.counts.classes[named] += 1
        return named

    def judge_reading(self, content: bytes, printed: str) -> Class | None:
        """What both accept is read alike: by value and value of each resource."""
        try:
            entries = configuration.read(content)
        except configuration.Breach as no:
            raise NotSo(f"{content!r} is accepted by both, and reference/ refuses it: {no}") from None
        wanted = "".join(entry_text(number, entry) for number, entry in enumerate(entries))
        expect(printed == wanted, f"{content!r}: kmsrest reads {printed!r}, and reference/ {wanted!r}")
        patterns = [pattern for patterns, _ in entries for pattern in patterns]
        if any(pattern.startswith("*.") for pattern in patterns):
            return WILDCARDS
        if len(set(patterns)) < len(patterns):
            return TWO_ENTRIES
        has_plugin = any(it[0] == "kms" for _, providers in entries for it in providers)
        self.seen = []
        try:
            for resource in sorted({*RESOURCES, *patterns}):
                self.judge_resource(entries, resource, resource in patterns)
            if not has_plugin:
                self.judge_seen()
        except NotSo as no:
            raise NotSo(f"{content!r} is accepted by both, and read otherwise: {no}") from None
        self.counts.alike += 1
        # (the version that is tried knows no v2, and takes each plugin for one of v1; ciphers beside it are read alike)
        if has_plugin:
            return ENDPOINT_TAB if TAB_BEHIND.search(content) else KMS_V1
        return None

    def judge_seen(self) -> None:
        """The built program says of each value what the API server's code said."""
        self.store.write_bytes(written(1, [Row(it.path.encode(), it.resource.encode(), it.value) for it in self.seen]))
        told = kmsrest("verify", "--config", self.file, "--store", self.store)
        lines = [line.split(" ") for line in told.output.decode().splitlines()]
        found = {line[2]: line[3] for line in lines if len(line) > 3}
        wanted = {it.path: it.said for it in self.seen}
        expect(found == wanted, f"kmsrest says {found} {told.errors}, and there it is {wanted}")

    def judge_resource(self, entries: list, resource: str, is_named: bool) -> None:
        providers, data = configuration.list_for(entries, resource), b"k8s\0" + self.draw.randbytes(12)
        strange = self.peer.open(NAME, resource, self.path(), STRANGE)
        expect(isinstance(strange, Refused) == is_named, f"an entry for {resource} is {is_named} here, and there {strange}")
        if providers[0][0] != "kms":
            value = self.peer.seal(NAME, resource, self.path(), data)
            self.judge_value(providers, resource, value, (data, False))
        for place, provider in enumerate(providers):
            if provider[0] != "kms":
                self.judge_value(providers, resource, self.sealed(provider, data), (data, place > 0))
        if is_named:
            # (keys that only the peer might have)
            kind, name = self.draw.choice(("aescbc", "aesgcm")), self.draw.choice(NAMES)
            secret = configuration.secret_of(self.draw.choice(SECRETS), 0, 0)
            self.judge_value(providers, resource, self.sealed((kind, name, secret), data))

    def path(self) -> str:
        """That of the next value of the file."""
        return f"{PLACE}/{len(self.seen)}"

    def sealed(self, provider: tuple, data: bytes) -> bytes:
        return seal(provider, self.path().encode(), data, self.draw.randbytes)

    def judge_value(self, providers: list, resource: str, value: bytes, wanted: tuple | None = None) -> None:
        """Both open a value alike, and as it must be, where that is known."""
        path = self.path()
        try:
            here = unseal(providers, path.encode(), value)
        except ValueRefused:
            here = None
        there = self.peer.open(NAME, resource, path, value)
        found = (there.data, there.stale) if isinstance(there, Opened) else None
        self.counts.values += 1
        is_so = here == found and (wanted is None or here == wanted)
        expect(is_so, f"{resource} {value[:40]!r}: {here} here, {found} there, {wanted} wanted")
        self.seen.append(Seen(path, resource, value, "refused" if found is None else "stale" if found[1] else "fresh"))


def by_part(content: bytes, entry: int, place: int) -> Class | None:
    """The class of a part that hasn't its form, or is two providers, by what stands there."""
    try:
        part = configuration.read_tree(content)["resources"][entry]
        if None in part["resources"]:
            return NULL_PATTERN
        element = configuration.mapping(part["providers"][place])
    except (configuration.Breach, LookupError, TypeError):
        return None
    if None in element.values():
        return NULL_ELEMENT
    plugin = element.get("kms")
    version = plugin.get("apiVersion", "") if isinstance(plugin, dict) else ""
    return None if isinstance(version, str) else BY_CODE[29]


def refused_here(line: str, content: bytes) -> Class | None:
    """The class of what kmsrest refuses, by its line."""
    if line.startswith("kmsrest: limit"):
        return BY_CODE[39]
    code, first, second = map(int, line.split()[2:5])
    if code == BREAKS_PROFILE:
        return BY_KIND.get(second)
    if code in BY_CODE:
        return BY_CODE[code]
    if code in (22, 27) and (found := by_part(content, first, second)):
        return found
    if code == 23 and b"EncryptionConfig" in content and re.search(rb"apiVersion\W+v1", content):
        return OLD_KIND
    # (the library drops a tab behind a plain scalar, and a blank in front of a colon)
    return BLANKS if code in (22, 23, 24, 25, 26, 34) and re.search(rb"\t|[ \t]:", content) else None


def refused_there(words: str, content: bytes) -> Class | None:
    return next((it for form, held, it in BY_WORDS if re.search(form, words) and re.search(held, content)), None)


def check(peer: Peer, folder: Path, seed: int, count: int) -> Counts:
    alike = ReadAlike(peer, random.Random(seed), folder)
    for name, content in OWN:
        found = alike.one(content)
        expect(found is not None and found.name == name, f"{content!r} is of the class {found}, and not of {name}")
    for _ in range(count):
        alike.one(mutated(alike.draw))
    return alike.counts
