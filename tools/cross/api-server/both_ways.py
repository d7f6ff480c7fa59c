"""Values both ways: what each side seals the other opens, and says stale; what is damaged or foreign both refuse, or open alike."""

import collections
import random
from dataclasses import dataclass, field
from pathlib import Path

import differences
from asking import NotSo, Opened, Peer, Refused, expect, open_here, seal_here
from differences import Class, Side, a_class
from files import PLAIN, Key, write

from cryptography.hazmat.primitives.ciphers import Cipher, algorithms, modes

NO_ENTRY = a_class("no-entry", Side.THERE)
LONG_PADDING = a_class("long-padding", Side.THERE)
MARKED_DATA = a_class("marked-data", Side.THERE)
ODD_PATH = a_class("odd-path", Side.THERE)
LARGE_DATA = a_class("large-data", Side.THERE)

NAMES = ("key1", "k", "a-b.c/d_e", "key", "key1-2")
ENTRY_NAMES = (["secrets"], ["configmaps", "deployments.apps"], ["pandas.awesome.bears.example"])
RESOURCES = ("secrets", "configmaps", "deployments.apps", "pandas.awesome.bears.example", "pods")
PATHS = ("/registry/secrets/default/db", "/registry/secrets/kube-system/a.b:c~!", "/", "/registry/" + "x" * 900)
SIZES = (0, 1, 15, 16, 17, 31, 32, 33, 1000, 70_000)
LARGE = 700_000
MOST_DATA, USAGE = 2_097_152, "kmsrest: usage: kmsrest COMMAND OPTIONS"
FOREIGN = (b"k8s:enc:", b"k8s:enc:secretbox:v1:key1:" + bytes(60), b"k8s:enc:kms:v1:p:" + bytes(60), b"k8s:enc:aescbc:v1:")
FOREIGN += (b"k8s:enc:aescbc:v2:key1:" + bytes(32), b"k8s:enc:aesgcm:v1:key1:", b"K8S:enc:aescbc:v1:key1:", b"", b"k8s:en", b"\0")


@dataclass
class Counts:
    """What was compared."""

    sealed: int = 0
    opened: int = 0
    stale: int = 0
    refused: int = 0
    classes: collections.Counter = field(default_factory=collections.Counter)
    met: set["Met"] = field(default_factory=set)


@dataclass(frozen=True)
class Met:
    """A provider's kind, the size of its key, whether a value of it was stale, and whether kmsrest had sealed it."""

    kind: str
    size: int
    is_stale: bool
    is_from_here: bool


@dataclass(frozen=True)
class Kept:
    """A configuration: its name at the peer, its file, and the keys of each resource that an entry names."""

    name: str
    file: Path
    keys: dict[str, list[Key]]


@dataclass(frozen=True)
class Value:
    """A value, where it was sealed, and the data."""

    value: bytes
    resource: str
    path: str
    data: bytes
    is_from_here: bool


def drawn_keys(draw: random.Random, most: int = 4) -> list[Key]:
    found: dict[tuple[str, str], Key] = {}
    for _ in range(draw.randint(1, most)):
        kind = draw.choice(("aescbc", "aesgcm", "aescbc", "aesgcm", "identity"))
        if kind == "identity":
            found[kind, ""] = PLAIN
            continue
        name = draw.choice(NAMES)
        # (few secrets, so that configurations share some, and have others under one name)
        size, which = draw.choice((16, 24, 32)), draw.randrange(3)
        found[kind, name] = Key(kind, name, bytes((which * 50 + at) % 256 for at in range(size)))
    return draw.sample(list(found.values()), len(found))


def drawn(draw: random.Random, number: int, folder: Path, peer: Peer) -> Kept:
    entries = [(names, drawn_keys(draw)) for names in draw.sample(ENTRY_NAMES, draw.randint(1, 3))]
    file = write(folder / f"configuration-{number}.json", entries, joined=draw.random() < 0.7)
    no = peer.load(str(number), file)
    expect(no is None, f"the API server's code refuses {file.read_text()}: {no}")
    return Kept(str(number), file, {name: keys for names, keys in entries for name in names})


class BothWays:
    """Values of some configurations, of both sides."""

    def __init__(self, peer: Peer, draw: random.Random, folder: Path):
        self.peer, self.draw, self.counts = peer, draw, Counts()
        self.kept = [drawn(draw, number, folder, peer) for number in range(40)]

    def data(self) -> bytes:
        begin = self.draw.choice((b"k8s\0", b"{", b"", b"\x10" * 16, b"k8s:en"))
        return begin + self.draw.randbytes(self.draw.choice(SIZES))

    def seal(self, it: Kept, resource: str) -> list[Value]:
        """A value of each side, opened by the other as it must be: the data, and fresh."""
        made = []
        for is_here in (True, False):
            path, data = self.draw.choice(PATHS), self.data()
            if is_here:
                value = seal_here(it.file, resource, path, data)
                expect(isinstance(value, bytes), f"kmsrest seals nothing by {it.file}: {value}")
                found = self.peer.open(it.name, resource, path, value)
            else:
                value = self.peer.seal(it.name, resource, path, data)
                found = open_here(it.file, resource, path, value)
            expect(found == Opened(data, False), f"{resource} by {it.file.read_text()}, sealed here {is_here}: {found}")
            made.append(Value(value, resource, path, data, is_here))
            self.counts.sealed += 1
            self.meet(it.keys.get(resource, [PLAIN])[0], is_stale=False, is_here=is_here)
        return made

    def meet(self, key: Key, is_stale: bool, is_here: bool) -> None:
        self.counts.met.add(Met(key.kind, len(key.secret), is_stale, is_here))

    def turned(self, it: Kept, number: int) -> None:
        """The same keys in another order: what each of them sealed is opened, and stale but for the first one's."""
        for resource, keys in it.keys.items():
            for key in keys:
                other, path, data = [key, *(one for one in keys if one != key)], self.draw.choice(PATHS), self.data()
                file = write(it.file.with_suffix(".turned"), [([resource], other)])
                name, is_here = f"turned-{number}", self.draw.random() < 0.5
                expect(self.peer.load(name, file) is None, f"the API server's code refuses {file.read_text()}")
                value = seal_here(file, resource, path, data) if is_here else self.peer.seal(name, resource, path, data)
                wanted = Opened(data, key != keys[0])
                found = (open_here(it.file, resource, path, value), self.peer.open(it.name, resource, path, value))
                expect(found == (wanted, wanted), f"{resource} by {it.file.read_text()} behind {file.read_text()}: {found}")
                self.meet(key, wanted.stale, is_here)
                self.counts.opened += 1
                self.counts.stale += wanted.stale

    def compare(self, it: Kept, resource: str, path: str, value: bytes) -> None:
        """Both open a value to the same data, and say the same of it; or both refuse it; or they differ by a class."""
        here, there = open_here(it.file, resource, path, value), self.peer.open(it.name, resource, path, value)
        if isinstance(here, Refused) and isinstance(there, Refused):
            self.counts.refused += 1
        elif here == there:
            self.counts.opened += 1
            self.counts.stale += here.stale
        else:
            named = class_of(it, resource, value, here, there)
            expect(named is not None, f"{value[:60]!r} for {resource} at {path} by {it.file.read_text()}: {here}, {there}")
            self.counts.classes[named] += 1

    def damaged(self, value: bytes) -> bytes:
        at = self.draw.randrange(len(value)) if value else 0
        kind = self.draw.randrange(6)
        if kind == 0 and value:
            return value[:at] + bytes([value[at] ^ 1 << self.draw.randrange(8)]) + value[at + 1 :]
        if kind == 1:
            return value[:at]
        if kind == 2:
            return value + self.draw.choice((b"\n", b"\0", bytes(16)))
        if kind == 3:
            return value.replace(b"aescbc", b"aesgcm") if b"aescbc" in value[:20] else value.replace(b"aesgcm", b"aescbc")
        if kind == 4:
            return value.replace(b":key1:", b":key:", 1)
        return value[: len(value) - self.draw.choice((1, 16))]

    def run(self) -> None:
        values = [one for it in self.kept for resource in RESOURCES for one in self.seal(it, resource)]
        for one in values:
            other = self.draw.choice(self.kept)
            self.compare(other, one.resource, one.path, one.value)
            self.compare(other, self.draw.choice(RESOURCES), self.draw.choice(PATHS), one.value)
            self.compare(self.draw.choice(self.kept), one.resource, one.path, self.damaged(one.value))
        for it in self.kept[::4]:
            for value in FOREIGN:
                self.compare(it, self.draw.choice(RESOURCES), PATHS[0], value)
        for number, it in enumerate(self.kept):
            self.turned(it, number)
            self.own_cases(it)
        for path in ("/registry/secrets/d/a b", "/registry/secrets/d/\u00e9", "/registry/" + "x" * 1015):
            self.sealed_there(ODD_PATH, path, b"k8s\0", USAGE)
        self.sealed_there(LARGE_DATA, PATHS[0], bytes(MOST_DATA + 1), f"kmsrest: limit data {MOST_DATA}")

    def own_cases(self, it: Kept) -> None:
        """What chance hardly makes: long paddings, bodies of an IV alone, large data, and data that begin as sealed ones."""
        for resource, keys in it.keys.items():
            for key in keys:
                if key.kind == "aescbc":
                    self.compare(it, resource, PATHS[0], long_padding(key, self.draw.choice((17, 32, 255))))
                    self.compare(it, resource, PATHS[0], head(key) + bytes(16))
            if keys[0] == PLAIN:
                self.marked_data(it, resource)
        if self.draw.randrange(8) == 0:
            self.large(it)

    def marked_data(self, it: Kept, resource: str) -> None:
        data = b"k8s:enc:of a user"
        here, there = seal_here(it.file, resource, PATHS[0], data), self.peer.seal(it.name, resource, PATHS[0], data)
        expect((here, there) == (Refused("kmsrest: refused 13 LooksEncrypted"), data), f"marked data: {here}, {there}")
        self.counts.classes[MARKED_DATA] += 1

    def sealed_there(self, named: Class, path: str, data: bytes, why: str) -> None:
        """What the API server's code seals and opens again, and kmsrest refuses to seal."""
        it = self.kept[0]
        resource = next(iter(it.keys))
        value = self.peer.seal(it.name, resource, path, data)
        found = (seal_here(it.file, resource, path, data), self.peer.open(it.name, resource, path, value))
        expect(found == (Refused(why), Opened(data, False)), f"{named.name} at {path[:40]}: {found[0]}")
        self.counts.classes[named] += 1

    def large(self, it: Kept) -> None:
        data, resource = self.draw.randbytes(LARGE), self.draw.choice(list(it.keys))
        value = self.peer.seal(it.name, resource, PATHS[0], data)
        expect(open_here(it.file, resource, PATHS[0], value) == Opened(data, False), f"{LARGE} bytes by {it.file}")
        self.counts.sealed += 1


def head(key: Key) -> bytes:
    return f"k8s:enc:{key.kind}:v1:{key.name}:".encode()


def long_padding(key: Key, size: int) -> bytes:
    """A value of aescbc whose padding has more bytes than a block."""
    data = b"k8s\0" + bytes(-(4 + size) % 16)
    step = Cipher(algorithms.AES(key.secret), modes.CBC(bytes(16))).encryptor()
    return head(key) + bytes(16) + step.update(data + bytes([size]) * size) + step.finalize()


def class_of(it: Kept, resource: str, value: bytes, here: Opened | Refused, there: Opened | Refused):
    if isinstance(here, Opened) or isinstance(there, Refused):
        return None
    if resource not in it.keys and here.why.endswith("12 NoProvider") and there == Opened(value, False):
        return NO_ENTRY
    if here.why.endswith("3 BadPadding") and there.data.startswith(b"k8s\0") and b"aescbc" in value[:20]:
        return LONG_PADDING
    return None


def check(peer: Peer, folder: Path, seed: int) -> Counts:
    both = BothWays(peer, random.Random(seed), folder)
    both.run()
    sorts = [(kind, size) for kind in ("aescbc", "aesgcm") for size in (16, 24, 32)] + [(PLAIN.kind, 0)]
    missing = {Met(*sort, is_stale, is_here) for sort in sorts for is_stale in (False, True) for is_here in (False, True)} - both.counts.met
    expect(not missing, f"not met: {missing}")
    for wanted in (NO_ENTRY, LONG_PADDING, MARKED_DATA, ODD_PATH, LARGE_DATA):
        if not both.counts.classes[wanted]:
            raise NotSo(f"no value of the class {wanted.name} was met")
    return both.counts
