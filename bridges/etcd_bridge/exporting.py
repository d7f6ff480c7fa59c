"""store-to-etcd: what a rewrite sealed anew goes back to its etcd, where nobody wrote there meanwhile."""

import argparse
import contextlib
import fcntl
import time
from dataclasses import dataclass, field

from reference.store import MOST_STORE, Broken, Row, read

from . import first_sealing, written_back
from .common_words import count, plugin, resource, seconds
from .errors import OutputFailed, Refused
from .etcd import Etcd, connect
from .keys import Write, below, prefixed
from .maps import Map, cluster_text, digest
from .opening import Configuration
from .programs import run_program
from .reporting import Report
from .sending import MOST_BATCH, Sender


def parsed(arguments: list[str]) -> argparse.Namespace:
    parser = argparse.ArgumentParser(
        prog="store-to-etcd",
        allow_abbrev=False,
        description=__doc__,
        epilog="Endpoints and certificates come from etcdctl's environment. Status: 0 done; 1 something changed meanwhile, was "
        "refused, or was left plain; 2 wrong words.",
    )
    parser.add_argument("--store", required=True, metavar="F", help="the store, as `kmsrest rewrite` left it")
    parser.add_argument("--map", metavar="M", help="its map (F.map)")
    kind = parser.add_mutually_exclusive_group(required=True)
    kind.add_argument(
        "--verify", metavar="C", help="open each old and each new value with this configuration: both must be the same object"
    )
    kind.add_argument("--no-verify", action="store_true", help="open nothing")
    parser.add_argument(
        "--plugin",
        action="append",
        default=[],
        type=plugin,
        metavar="NAME=PROGRAM",
        help="the program of a plugin, with which --verify opens its values; may be repeated",
    )
    parser.add_argument("--dry-run", action="store_true", help="print what would be written, and write nothing")
    parser.add_argument(
        "--batch", type=count, default=MOST_BATCH, metavar="N", help=f"how many values to write in one transaction (at most {MOST_BATCH})"
    )
    parser.add_argument("--pause", type=seconds, default=0, metavar="S", help="seconds between transactions (0)")
    parser.add_argument(
        "--cluster", metavar="ID", help="the cluster to write to, if it isn't the map's (restored) or the map has none"
    )
    parser.add_argument(
        "--first",
        action="append",
        default=[],
        type=resource,
        metavar="RESOURCE",
        help="seal this resource's plain values even if nothing of it in etcd is sealed yet; may be repeated",
    )
    words = parser.parse_args(arguments)
    if words.batch > MOST_BATCH:
        parser.error(f"--batch: etcd takes at most {MOST_BATCH} in a transaction")
    if words.plugin and not words.verify:
        parser.error("--plugin is for --verify")
    return words


@dataclass(frozen=True)
class Change:
    """A value that goes back, and the one that it replaces."""

    write: Write
    resource: str
    old: bytes


def rows_of(name: str) -> dict[bytes, tuple[Row, Row]]:
    """For each path of a store its first and its last row."""
    try:
        with open(name, "rb") as file:
            # (kmsrest locks a store as long as it has it open, so none is read in the midst of a rewrite)
            fcntl.flock(file, fcntl.LOCK_SH | fcntl.LOCK_NB)
            content = file.read(MOST_STORE + 1)
    except BlockingIOError:
        raise Refused(f"the store {name} is locked: another program has it open") from None
    except OSError as no:
        raise Refused(f"the store {name}: {no.strerror}") from None
    if len(content) > MOST_STORE:
        raise Refused(f"the store {name} has more than {MOST_STORE} bytes")
    try:
        _form, rows = read(content)
    except Broken as no:
        raise Refused(f"the store {name}: text {no.code} {no.place}") from None
    found = {}
    for row in rows:
        first, _last = found.get(row.path, (row, row))
        found[row.path] = (first, row)
    return found


@dataclass
class Plan:
    """What goes back, how many values are as they were, the resources that had sealed values, and how many plain values are
    left since nothing shows that API servers seal them."""

    changes: list[Change] = field(default_factory=list)
    same: int = 0
    sealed: set[str] = field(default_factory=set)
    left_plain: int = 0

    @classmethod
    def of(cls, rows: dict[bytes, tuple[Row, Row]], known: Map) -> "Plan":
        """The store must be what was imported with the map, and a rewrite of it: no other paths, resources or beginnings."""
        plan = cls()
        for path in rows:
            if path.decode() not in known.rows:
                raise Refused(f"{path.decode()}: the map hasn't this path")
        for key, kept in known.rows.items():
            first, last = rows.get(key.encode(), (None, None))
            if last is None or last.value is None:
                raise Refused(f"{key}: the store's value is gone")
            if {first.resource, last.resource} != {kept.resource.encode()}:
                raise Refused(f"{key}: the store has it as {last.resource.decode()}, the map as {kept.resource}")
            if digest(first.value) != kept.sha256:
                raise Refused(f"{key}: the store's first value isn't the one that the map was made with")
            if first_sealing.is_sealed(first.value):
                plan.sealed.add(kept.resource)
            if last.value == first.value:
                plan.same += 1
            else:
                write = Write(key.encode(), first.value, kept.mod, kept.create, last.value)
                plan.changes.append(Change(write, kept.resource, first.value))
        return plan

    def verify(self, configuration: Configuration) -> None:
        """Each old and each new value opens, to one and the same object."""
        for change in self.changes:
            key = change.write.key
            try:
                old = configuration.object_of(change.resource, key, change.old)
                new = configuration.object_of(change.resource, key, change.write.value)
            except Refused as no:
                raise Refused(f"{key.decode()}: {no}") from None
            if old != new:
                raise Refused(f"{key.decode()}: the old value and the new one open to different objects")

    def leave_unshown(self, etcd: Etcd, known: Map, first: list[str]) -> None:
        """Plain values are left where nothing shows that API servers seal their resource."""
        left = first_sealing.unshown(etcd, known, self.changes, self.sealed.union(first))
        names = {it.resource for it in left}
        self.changes = [it for it in self.changes if it.resource not in names or not first_sealing.seals_first(it)]
        self.left_plain = sum(it.count for it in left)
        first_sealing.tell(left)


def planned(words: argparse.Namespace) -> tuple[Map, Plan]:
    """The map, and what goes back; all of it is looked at before etcd is asked."""
    known = Map.read(words.map or words.store + ".map")
    plan = Plan.of(rows_of(words.store), known)
    if words.verify:
        configuration = Configuration.read(words.verify, words.plugin)
        try:
            plan.verify(configuration)
        finally:
            configuration.close()
    return known, plan


def judge_cluster(etcd: Etcd, known: Map, wanted: str | None) -> None:
    """The etcd that answers must be the one that the map's revisions are of."""
    etcd.meet_all()
    next(etcd.pages(prefixed(below(known.prefix)), 1))
    found, named = cluster_text(etcd.cluster), wanted or known.cluster
    if named is None:
        raise Refused(f"the map names no cluster, since it is of a snapshot: --cluster {found} says that this one is it")
    if named.lower() != found:
        raise Refused(f"this is the cluster {found}, and not {named}")


def sent(words: argparse.Namespace, etcd: Etcd, plan: Plan) -> bool:
    """Sends the changes, and tells what came of them, also where etcd stops answering in their midst. Whether all went."""
    sender = Sender(etcd, words.dry_run)
    report = Report(words.dry_run, len(plan.changes), plan.same, plan.left_plain)
    try:
        for number, batch in enumerate(sender.batches([it.write for it in plan.changes], words.batch)):
            if number and words.pause and not words.dry_run:
                time.sleep(words.pause)
            for write, outcome, why in sender.send(batch):
                report.add(write, outcome, why)
            report.show()
    except BaseException:
        with contextlib.suppress(OutputFailed):
            report.end(sender.unknown())
        raise
    report.end([])
    return report.is_done()


def work(arguments: list[str]) -> int:
    words = parsed(arguments)
    known, plan = planned(words)
    etcd = connect()
    try:
        judge_cluster(etcd, known, words.cluster)
        plan.leave_unshown(etcd, known, words.first)
        all_went = sent(words, etcd, plan)
        if all_went and not words.dry_run:
            written_back.note(words.store)
        return 0 if all_went else 1
    finally:
        etcd.close()


def main(arguments: list[str]) -> int:
    return run_program("store-to-etcd", lambda: work(arguments))
