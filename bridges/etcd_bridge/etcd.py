"""What the bridges ask of an etcd, whatever carries it there, and the connection that the environment names."""

import abc
import os
import shutil
from collections.abc import Iterator, Mapping

from .errors import NoAnswer, visible
from .keys import KeyRange, KeyValue, Write

PAGE = 500
# More than an etcd of any size holds: one that goes on is none.
MOST_KEYS = 100_000_000


class Etcd(abc.ABC):
    """An etcd that answers. All that is read is of one revision, that of the first answer."""

    def __init__(self) -> None:
        self.cluster: int | None = None
        self.revision = 0
        # Whether a transaction was sent of which no answer tells what became of it.
        self.is_unsure = False

    def pages(self, span: KeyRange, size: int) -> Iterator[list[KeyValue]]:
        """Lists of what is stored in a range of keys, in the order of the keys, of at most so many each. An etcd that tells a key
        twice, or one of another range, is none, and would be read without an end."""
        last, count = None, 0
        for page in self.told_pages(span, size):
            count += len(page)
            if count > MOST_KEYS:
                raise NoAnswer(f"etcd tells more than {MOST_KEYS} keys")
            for found in page:
                if not span.has(found.key) or (last is not None and found.key <= last):
                    raise NoAnswer(f"etcd tells the key {visible(found.key)} where it can't be: each comes once, in its order")
                last = found.key
            yield page

    @abc.abstractmethod
    def told_pages(self, span: KeyRange, size: int) -> Iterator[list[KeyValue]]:
        """The same, as etcd tells them."""

    @abc.abstractmethod
    def swap(self, writes: list[Write], with_values: bool = True) -> list[KeyValue | None] | None:
        """All values are put, each with the lease of its key, where each key has the old value of its write and its revisions:
        None. Else nothing is put, and what is there now is the answer, in order, with None for a key that is gone. Without values
        the revisions alone are compared. No endpoint is sent a write before it has named its cluster."""

    @abc.abstractmethod
    def now(self, keys: list[bytes]) -> list[KeyValue | None]:
        """What the keys have now, with None for one that is gone."""

    def meet_all(self) -> None:
        """Each endpoint names its cluster, where that can be asked of all at once; else each is asked before its first write."""

    def close(self) -> None:
        """Nothing more is asked."""

    def meet(self, cluster: int, revision: int) -> None:
        """An answer names its cluster, which stays the same, and its revision, of which the first is kept."""
        if self.cluster not in (None, cluster):
            raise NoAnswer(f"the endpoints are of several clusters, {self.cluster:x} and {cluster:x}")
        self.cluster = cluster
        self.revision = self.revision or revision


def connect(environment: Mapping[str, str] = os.environ) -> Etcd:
    """The etcd that etcdctl's environment names: by gRPC, or by etcdctl where a program for it is named, where there is no
    grpcio, or where the environment has what only etcdctl knows."""
    from .by_etcdctl import ByEtcdctl

    program = environment.get("ETCDCTL")
    if program:
        return ByEtcdctl(program, environment)
    from .settings import Settings, judge_certificates

    settings = Settings.of(environment)
    try:
        from .by_grpc import ByGrpc
    except ImportError:
        missing = "there is no grpcio"
    else:
        if not settings.for_etcdctl:
            judge_certificates(environment)
            return ByGrpc(settings)
        missing = f"{settings.for_etcdctl} is for etcdctl alone"
    if shutil.which("etcdctl") is None:
        raise NoAnswer(f"{missing}, and there is no etcdctl")
    return ByEtcdctl("etcdctl", environment)
