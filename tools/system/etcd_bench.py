"""What the cases with an etcd share: an etcd, a folder, and calls of the bridges over them."""
from dataclasses import dataclass
from pathlib import Path

from etcd_server import EtcdServer, kmsrest
from etcd_values import KEY1, aescbc, an_object
from support import TOP, Checks, Ended

ROTATION = TOP / "examples" / "rotation"
OLD, BOTH, NEW, LAST = (ROTATION / f"{name}.yaml" for name in ("old", "both", "new", "last"))
# What names the providers that audits are asked for: key1 and key2, and the plugin p.
NAMING = ("--config", NEW, "--config", TOP / "examples" / "kms.yaml")
IMPORT, EXPORT, AUDIT = "etcd-to-store", "store-to-etcd", "etcd-audit"


@dataclass
class Bench:
    """Where the cases work: counts, an etcd, and a folder. Each case has a prefix of its own there."""

    checks: Checks
    etcd: EtcdServer
    folder: Path

    def at(self, name: str) -> Path:
        return self.folder / name

    def sealed(self, prefix: str, count: int, size: int = 40) -> dict[str, bytes]:
        """So many secrets, sealed by key1; the objects, by their paths."""
        objects = {f"{prefix}/secrets/d/s{number:05}": an_object(str(number), size) for number in range(count)}
        self.etcd.fill({path: aescbc(KEY1, "key1", data) for path, data in objects.items()})
        return objects

    def imported(self, store: str, *words: object, **environment: str) -> Ended:
        return self.etcd.bridge(IMPORT, "--store", self.at(store), *words, **environment)

    def exported(self, store: str, *words: object, **environment: str) -> Ended:
        return self.etcd.bridge(EXPORT, "--store", self.at(store), *words, **environment)

    def rewritten(self, store: str, config: Path) -> Ended:
        return kmsrest("rewrite", "--store", self.at(store), "--config", config)

    def still(self, prefix: str, *providers: str) -> tuple[int, list[str]]:
        """The status of an audit, and those of the providers of which it finds values."""
        done = self.etcd.bridge(AUDIT, "--prefix", prefix, *NAMING, *(word for it in providers for word in ("--still", it)))
        told = [line.removeprefix("etcd-audit: still ") for line in done.errors.splitlines()]
        return done.status, [line.rsplit(": ", 1)[0] for line in told]

    def expect(self, what: str, wanted: object, found: object) -> None:
        self.checks.expect(what, wanted, found)


def numbers(ended: Ended) -> dict[str, int]:
    """The lines of a name and a number."""
    pairs = (line.split() for line in ended.output.decode().splitlines())
    return {pair[0]: int(pair[1]) for pair in pairs if len(pair) == 2 and pair[1].isdigit()}


def report(rewritten: int, fresh: int) -> bytes:
    return f"rewritten {rewritten}\nfresh {fresh}\nchanged 0\nleft 0\n".encode()
