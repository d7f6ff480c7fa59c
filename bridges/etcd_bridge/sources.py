"""Where an import and an audit read from: an etcd that answers, a snapshot, or etcdctl's JSON."""

import argparse
import contextlib
import itertools
import os
import shutil
import socket
import subprocess
import tempfile
import time
from collections.abc import Iterable, Iterator
from pathlib import Path
from typing import Protocol

from reference import masking

from .errors import NoAnswer, Refused, visible
from .etcd import Etcd, connect
from .etcdctl_json import header_of, keys_and_values, parsed
from .keys import KeyRange, KeyValue, below, prefixed

# Seconds in which an etcd over a snapshot must answer.
PATIENCE = 60
# All keys that a person can type.
PRINTABLE = KeyRange(b"!", b"\x7f")


class Source(Protocol):
    """Where keys and values come from: of one revision, and of a cluster, if that is known. Both are told once a page is."""

    cluster: int | None
    revision: int

    def pages(self, span: KeyRange, size: int) -> Iterable[list[KeyValue]]:
        """Lists of what is stored in a range of keys, in the order of the keys, of at most so many each."""


class FromJson:
    """The keys that `etcdctl get --prefix .. -w json` wrote to a file."""

    def __init__(self, name: str):
        try:
            content = Path(name).read_bytes()
        except OSError as no:
            raise Refused(f"{name}: {no.strerror}") from None
        try:
            answer = parsed(content, name)
            self.cluster, self.revision = header_of(answer, name)
            self.found = sorted(keys_and_values(answer), key=lambda it: it.key)
        except NoAnswer as no:
            raise Refused(str(no)) from None
        twice = next((one.key for one, other in itertools.pairwise(self.found) if one.key == other.key), None)
        if twice is not None:
            raise Refused(f"{name} has the key {visible(twice)} twice")
        count = answer.get("count", 0)
        if answer.get("more") or len(self.found) != count:
            told = count if isinstance(count, int) else "?"
            raise Refused(f"{name} has {len(self.found)} of {told} keys: it was written with a limit")
        if not all(one.value for one in self.found):
            raise Refused(f"{name} has keys without values: it was written with --keys-only")

    def pages(self, span: KeyRange, size: int) -> Iterable[list[KeyValue]]:
        found = [one for one in self.found if span.has(one.key)]
        for at in range(0, len(found), size):
            yield found[at : at + size]


@contextlib.contextmanager
def live() -> Iterator[Source]:
    """The etcd that the environment names."""
    etcd = connect()
    try:
        yield etcd
    finally:
        etcd.close()


@contextlib.contextmanager
def from_json(name: str) -> Iterator[Source]:
    yield FromJson(name)


@contextlib.contextmanager
def from_snapshot(name: str) -> Iterator[Source]:
    """An etcd over a copy of a snapshot, behind a socket in a folder of its own; it is ended by its pid."""
    tool = next((tool for tool in ("etcdutl", "etcdctl") if shutil.which(tool)), None)
    if tool is None or shutil.which("etcd") is None:
        raise Refused("a snapshot is read by etcd and etcdutl or etcdctl, which aren't there")
    with tempfile.TemporaryDirectory(prefix="etcd-to-store-") as folder:
        restore(tool, os.path.abspath(name), folder)
        with open(os.path.join(folder, "log"), "wb") as log:
            child = subprocess.Popen(["etcd", *serving_words()], cwd=folder, stdout=log, stderr=log, env=bare())
        try:
            etcd = wait_for(child, folder)
            yield AsCopied(etcd)
            etcd.close()
        finally:
            child.terminate()
            child.wait()


class AsCopied:
    """An etcd over a copy, whose own cluster isn't that of the snapshot, which a snapshot doesn't name."""

    cluster = None

    def __init__(self, etcd: Etcd):
        self.pages, self.etcd = etcd.pages, etcd

    @property
    def revision(self) -> int:
        return self.etcd.revision


def bare() -> dict[str, str]:
    """The environment without what speaks of another etcd."""
    kept = {name: value for name, value in os.environ.items() if not name.startswith(("ETCD_", "ETCDCTL"))}
    return {**kept, "ETCDCTL_API": "3"}


def restore(tool: str, snapshot: str, folder: str) -> None:
    words = [tool, "snapshot", "restore", snapshot, "--data-dir", "data", *member_words()]
    done = subprocess.run(words, cwd=folder, env=bare(), capture_output=True, check=False)
    if done.returncode != 0:
        text = done.stderr.decode(errors="replace").strip() or "no word"
        raise Refused(f"{snapshot} can't be restored: {masking.foreign(text.splitlines()[-1])}")


def member_words() -> list[str]:
    # (no one is called at this address: the cluster has one member)
    peer = "http://localhost:2"
    return ["--name", "copy", "--initial-cluster", f"copy={peer}", "--initial-advertise-peer-urls", peer]


def serving_words() -> list[str]:
    """Both of its ends are sockets in its folder, which is its owner's alone: nobody else reads the copy."""
    urls = ["--listen-client-urls", "unix://client:1", "--advertise-client-urls", "unix://client:1"]
    return ["--data-dir", "data", *member_words(), "--listen-peer-urls", "unix://peer:1", *urls, "--enable-grpc-gateway=false"]


def wait_for(child: subprocess.Popen, folder: str) -> Etcd:
    path = os.path.join(folder, "client:1")
    began = time.monotonic()
    while time.monotonic() - began < PATIENCE and child.poll() is None:
        with socket.socket(socket.AF_UNIX) as probe:
            with contextlib.suppress(OSError):
                probe.connect(path)
                return connect({**bare(), "ETCDCTL_ENDPOINTS": f"unix://{path}"})
        time.sleep(0.05)
    with open(os.path.join(folder, "log"), encoding="utf-8", errors="replace") as log:
        said = " ".join(masking.foreign(line.strip()) for line in log.readlines()[-3:])
        raise Refused(f"etcd doesn't serve the snapshot's copy: {said}")


def judge_prefix(source: Source, prefix: str) -> None:
    """Refuses where no key stands below a prefix, since a wrong one would pass for an etcd without objects. (It is asked where
    nothing was read, which may also be that a resource has no objects.)"""
    if any(page for page in source.pages(prefixed(below(prefix)), 1)):
        return
    beside = ""
    # (who may read the prefix alone isn't told of other keys)
    with contextlib.suppress(NoAnswer):
        other = next((page[0].key for page in source.pages(PRINTABLE, 1) if page), None)
        beside = ", nor elsewhere" if other is None else f", and the first key is {visible(other)}"
    raise Refused(f"no key stands below {below(prefix).decode()}{beside}: --prefix names the API server's --etcd-prefix")


def source_of(words: argparse.Namespace) -> contextlib.AbstractContextManager[Source]:
    """The source that an import's words name."""
    if words.snapshot:
        return from_snapshot(words.snapshot)
    return from_json(words.json) if words.json else live()
