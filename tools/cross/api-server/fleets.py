"""The judge beside what the API server's own code then reads: fleets of two to five servers, stored values, and a reload. A
refusal must be a real break, and a pass must read all."""

import collections
import random
import re
from dataclasses import dataclass, field
from pathlib import Path

from asking import NotSo, Opened, Peer, expect, kmsrest
from files import PLAIN, Key, write

from reference.store import Row, written
from reference.values import check_of

POOL = (
    Key("aescbc", "key1", bytes(range(32))),
    Key("aescbc", "key2", bytes(range(16))),
    Key("aesgcm", "key1", bytes(range(24))),
    Key("aesgcm", "key3", bytes(range(40, 72))),
    # (other secrets under names that are in use)
    Key("aescbc", "key1", bytes(range(32, 64))),
    Key("aesgcm", "key3", bytes(range(72, 104))),
    PLAIN,
)
RESOURCES = ("secrets", "configmaps", "pods")
# A resource of the class of all that no entry names.
OF_THE_REST = "pods"
NEW = "new"


class Verdict:
    """The words by which the judge begins."""

    PASS, STORED, WRITER, UNREAD = "pass", "drops-stored", "drops-writer", "unread"


@dataclass(frozen=True)
class Stored:
    """What is stored at a path, and the key by which."""

    path: str
    resource: str
    value: bytes
    data: bytes
    key: Key


Lists = dict[str, list[Key]]


@dataclass
class Fleet:
    """The servers' lists by resource, what is stored, and the reload: which server, and its new list."""

    servers: list[Lists]
    stored: list[Stored]
    reload: int
    new: Lists


@dataclass
class Counts:
    """Fleets by what the judge said, and passes of which the replaced configuration's own writer isn't read any more."""

    verdicts: collections.Counter = field(default_factory=collections.Counter)
    own_writer: int = 0


def one_of_a_name(draw: random.Random, keys: list[Key]) -> list[Key]:
    """No two of one kind and name, in any order."""
    found = {(key.kind, key.name): key for key in draw.sample(keys, len(keys))}
    return draw.sample(list(found.values()), len(found))


def namesake(key: Key) -> Key:
    """The key of the same name with another secret, if there is one."""
    return next((it for it in POOL if (it.kind, it.name) == (key.kind, key.name) and it != key), key)


def drawn_list(draw: random.Random, base: list[Key], change: float) -> list[Key]:
    """The base in another order; with this chance with one less, and with half of it with one more."""
    keys = list(base)
    if len(keys) > 1 and draw.random() < change:
        keys.remove(draw.choice(keys))
    if draw.random() < change / 2:
        keys.append(draw.choice(POOL))
    return one_of_a_name(draw, keys)


def drawn_lists(draw: random.Random, bases: Lists, change: float) -> Lists:
    """A resource may be named by no entry, and then has identity alone."""
    named = {name: base for name, base in bases.items() if base != [PLAIN] or draw.random() < 0.5}
    return {name: drawn_list(draw, base, change) for name, base in named.items()}


def entries_of(lists: Lists) -> list[tuple[list[str], list[Key]]]:
    # (a configuration has at least one entry)
    return [([name], keys) for name, keys in lists.items()] or [(["events"], [PLAIN])]


class Judged:
    """Fleets over one folder, with the peer that has their configurations loaded."""

    def __init__(self, peer: Peer, draw: random.Random, folder: Path):
        self.peer, self.draw, self.folder, self.counts = peer, draw, folder, Counts()

    def file(self, name: str) -> Path:
        return self.folder / f"{name}.json"

    def load(self, name: str, lists: Lists) -> None:
        no = self.peer.load(name, write(self.file(name), entries_of(lists)))
        expect(no is None, f"the API server's code refuses {lists}: {no}")

    def fleet(self) -> Fleet:
        draw = self.draw
        bases = {"secrets": one_of_a_name(draw, draw.sample(POOL, draw.randint(2, 4)))}
        bases["configmaps"] = draw.choice(([PLAIN], bases["secrets"], [PLAIN, POOL[0]]))
        servers = [drawn_lists(draw, bases, 0.05) for _ in range(draw.randint(2, 5))]
        if draw.random() < 0.05:
            servers[0] = {name: [namesake(key) for key in keys] for name, keys in servers[0].items()}
        for number, lists in enumerate(servers):
            self.load(str(number), lists)
        new = drawn_lists(draw, bases, 0.4)
        self.load(NEW, new)
        return Fleet(servers, self.stored(servers), draw.randrange(len(servers)), new)

    def stored(self, servers: list[Lists]) -> list[Stored]:
        """What the servers wrote, each value sealed by the API server's own code."""
        found = []
        for number in range(self.draw.randrange(5)):
            who, resource = self.draw.randrange(len(servers)), self.draw.choice(RESOURCES)
            path, data = f"/registry/{resource}/d/o{number}", b"k8s\0" + self.draw.randbytes(20)
            value = self.peer.seal(str(who), resource, path, data)
            found.append(Stored(path, resource, value, data, servers[who].get(resource, [PLAIN])[0]))
        return found

    def judge(self, fleet: Fleet) -> str:
        """The judge's own line, on either stream."""
        store = self.folder / "store"
        checks = [check_of((it.key.kind, it.key.name, it.key.secret)) for it in fleet.stored]
        rows = [Row(it.path.encode(), it.resource.encode(), it.value, check) for it, check in zip(fleet.stored, checks)]
        store.write_bytes(written(2, rows))
        words = [word for number in range(len(fleet.servers)) for word in ("--replica", self.file(str(number)))]
        done = kmsrest("judge", "--store", store, *words, "--reload", f"{fleet.reload}={self.file(NEW)}")
        return done.output.decode().strip() or done.errors.removeprefix("kmsrest: ")

    def reads(self, name: str, it: Stored) -> bool:
        found = self.peer.open(name, it.resource, it.path, it.value)
        return isinstance(found, Opened) and found.data == it.data

    def reads_of(self, reader: str, writer: str, resource: str) -> bool:
        """Whether one configuration reads what another writes."""
        path, data = "/registry/written", b"k8s\0written" + self.draw.randbytes(20)
        return self.reads(reader, Stored(path, resource, self.peer.seal(writer, resource, path, data), data, PLAIN))

    def is_break(self, fleet: Fleet, verdict: str, name: str) -> bool:
        """Whether what a verdict on a configuration names is really not read."""
        word, *told = verdict.split(" ")
        if word == Verdict.STORED:
            named = [it for it in fleet.stored if it.path == told[0]]
            return bool(named) and not self.reads(name, named[0])
        other, resource = told[0], OF_THE_REST if told[1] == "*.*" else told[1]
        if word == Verdict.WRITER:
            return not self.reads_of(name, other, resource)
        expect(word == Verdict.UNREAD, f"the judge says {verdict}")
        return not self.reads_of(other, name, resource)

    def judge_read(self, names: list[str], fleet: Fleet) -> None:
        """All that is stored is read by all of these, and so is what each of them writes."""
        for name in names:
            expect(all(self.reads(name, it) for it in fleet.stored), f"{name} doesn't read all that is stored")
            for writer in names:
                for resource in RESOURCES:
                    expect(self.reads_of(name, writer, resource), f"{name} doesn't read {resource} of {writer}")

    def reads_all(self, names: list[str], fleet: Fleet) -> bool:
        try:
            self.judge_read(names, fleet)
        except NotSo:
            return False
        return True

    def judge_pass(self, fleet: Fleet) -> None:
        """Behind a pass all is read, and no reason for a refusal would be a break."""
        servers = [str(number) for number in range(len(fleet.servers))]
        servers[fleet.reload] = NEW
        self.judge_read(servers, fleet)
        reasons = [f"{Verdict.STORED} {it.path} {it.key.shown}" for it in fleet.stored]
        others = [name for name in servers if name != NEW]
        reasons += [f"{word} {name} {it} -" for word in (Verdict.WRITER, Verdict.UNREAD) for name in others for it in RESOURCES]
        for reason in reasons:
            expect(not self.is_break(fleet, reason, NEW), f"{reason} would be a break")
        self.counts.own_writer += not all(self.reads_of(NEW, str(fleet.reload), resource) for resource in RESOURCES)

    def judge_refusal(self, fleet: Fleet, said: str) -> None:
        """What a refusal names really breaks; so something isn't read, behind the reload or before it already."""
        begun = re.match(r"text (48|51) (\S+)$|text (49) (\d+) (.*)$", said)
        servers = [str(number) for number in range(len(fleet.servers))]
        if begun and begun[3]:
            expect(self.is_break(fleet, begun[5], begun[4]), "nothing breaks")
        elif begun:
            expect(self.is_break(fleet, f"{Verdict.STORED} {begun[2]}", "0"), "nothing breaks")
        else:
            expect(self.is_break(fleet, said, NEW), "nothing breaks")
            servers[fleet.reload] = NEW
        expect(not self.reads_all(servers, fleet), "all is read all the same")

    def one(self) -> None:
        fleet = self.fleet()
        said = self.judge(fleet)
        try:
            if said == Verdict.PASS:
                self.judge_pass(fleet)
            else:
                self.judge_refusal(fleet, said)
        except NotSo as no:
            raise NotSo(f"the judge says {said}, and {no}: {fleet}") from None
        words = said.split(" ")
        self.counts.verdicts[" ".join(words[: 2 if words[0] == "text" else 1])] += 1


def check(peer: Peer, folder: Path, seed: int, count: int) -> Counts:
    judged = Judged(peer, random.Random(seed), folder)
    for _ in range(count):
        judged.one()
    wanted = {Verdict.PASS, Verdict.STORED, Verdict.WRITER, Verdict.UNREAD, "text 48", "text 49", "text 51"}
    expect(set(judged.counts.verdicts) == wanted, f"the judge said {judged.counts.verdicts}, and not each of {wanted}")
    return judged.counts
