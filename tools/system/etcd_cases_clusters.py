"""What may be written to: the values that were imported, of the cluster that they are of, and no others."""
import contextlib
import json
import shutil
import signal
import socket
import subprocess
import threading
from pathlib import Path

from etcd_bench import EXPORT, NEW, Bench, numbers
from etcd_server import BRIDGES, PEER, EtcdServer, bare_environment, free_port
from etcd_values import KEY1, aescbc, an_object
from support import PATIENCE, call, wait_until

PIECE = 65536


def restored_into(snapshot: Path, folder: Path, token: str) -> None:
    """A member's data out of a snapshot; the token and the address of the member make the cluster's id."""
    words = ["--name", "default", "--initial-cluster", f"default={PEER}", "--initial-advertise-peer-urls", PEER]
    done = call(["etcdctl", "snapshot", "restore", snapshot, "--data-dir", folder / "data", "--initial-cluster-token", token, *words],
                env=bare_environment())
    if done.status != 0:
        raise RuntimeError(f"etcdctl snapshot restore: {done.errors}")


def as_first_version(written: Path) -> None:
    """A map as bridges before this one wrote it."""
    head, *rows = map(json.loads, written.read_text().splitlines())
    for row in rows:
        del row["create"]
    written.write_text("".join(json.dumps(line) + "\n" for line in [{**head, "map": 1}, *rows]))


def restored(bench: Bench) -> None:
    """An etcd that was restored under its old id, with an object made anew that has the old one's revisions: it stays. So it does
    where an older map tells neither its making nor its value."""
    path, snapshot = "/registry/secrets/d/s", bench.at("snapshot")
    etcd = EtcdServer(bench.at("etcd"))
    inside = Bench(bench.checks, etcd, bench.folder)
    with etcd:
        etcd.put("/registry/secrets/d/other", aescbc(KEY1, "key1", an_object("other")))
        etcd.etcdctl("snapshot", "save", snapshot)
        etcd.put(path, aescbc(KEY1, "key1", an_object("password-1")))
        for store in ("grpc", "etcdctl", "old"):
            bench.expect(f"restored: the import, {store}", 0, inside.imported(store, "--config", NEW).status)
            inside.rewritten(store, NEW)
        before = etcd.values(path)[path]
    as_first_version(bench.at("old.map"))
    shutil.rmtree(etcd.folder / "data")
    restored_into(snapshot, etcd.folder, "etcd-cluster")
    with etcd:
        newer = aescbc(KEY1, "key1", an_object("password-2"))
        etcd.put(path, newer)
        bench.expect("restored: the new object has the old one's revision", before.mod, etcd.values(path)[path].mod)
        for store, way in (("grpc", {}), ("etcdctl", {"ETCDCTL": "etcdctl"}), ("old", {})):
            done = inside.exported(store, "--verify", NEW, "--dry-run", **way)
            bench.expect(f"restored: a dry run sees it, {store}", True, f"changed {path}\n" in done.output.decode())
            done = inside.exported(store, "--verify", NEW, **way)
            found = (done.status, f"changed {path}\n" in done.output.decode(), etcd.values(path)[path].value == newer)
            bench.expect(f"restored: no update is lost, {store}", (1, True, True), found)
        bench.expect("restored: what is as it was imported is written", (0, 1, 1), beside_it(inside, etcd))


def beside_it(bench: Bench, etcd: EtcdServer) -> tuple[int, int, int]:
    """Another import of what stands there now, and its way back."""
    bench.imported("fresh", "--config", NEW)
    bench.rewritten("fresh", NEW)
    done = bench.exported("fresh", "--verify", NEW)
    return done.status, numbers(done)["written"], numbers(done)["same"]


def other_cluster(bench: Bench) -> None:
    """The endpoints are of two clusters that have the same keys, values and revisions; the first one ends in the midst. Nothing of
    the second is written."""
    count, snapshot = 60, bench.at("snapshot")
    first, second = EtcdServer(bench.at("first")), EtcdServer(bench.at("second"))
    inside = Bench(bench.checks, first, bench.folder)
    with first:
        inside.sealed("/registry", count)
        first.etcdctl("snapshot", "save", snapshot)
        restored_into(snapshot, second.folder, "another-token")
        for store in ("grpc", "etcdctl"):
            inside.imported(store, "--config", NEW)
            inside.rewritten(store, NEW)
        with second:
            before = second.values("/registry")
            bench.expect("two clusters: the same values and revisions", True, first.values("/registry") == before)
            both = {**first.environment, "ETCDCTL_ENDPOINTS": f"{first.endpoint},{second.endpoint}"}
            done = call([BRIDGES / EXPORT, "--store", bench.at("etcdctl"), "--verify", NEW], env={**both, "ETCDCTL": "etcdctl"})
            found = (done.status, "of several clusters" in done.errors, first.values("/registry") == before)
            bench.expect("two clusters: by etcdctl nothing is written to either", (1, True, True), found)
            output, errors, status = ended_midway(bench, first, both)
            bench.expect("two clusters: the second is refused", (1, True), (status, "of several clusters" in errors))
            bench.expect("two clusters: and nothing of it is written", True, second.values("/registry") == before)
            told = dict(line.split() for line in output.splitlines() if not line.startswith("unknown /"))
            all_told = sum(int(told.get(word, 0)) for word in ("written", "unknown", "unsent"))
            bench.expect("two clusters: each value is told", (count, True), (all_told, 0 < int(told["written"]) < count))


def sealed_anew(etcd: EtcdServer, prefix: str) -> int:
    """How many values there are by the new key."""
    return sum(b":key2:" in stored.value for stored in etcd.values(prefix).values())


def ended_midway(bench: Bench, first: EtcdServer, environment: dict[str, str]) -> tuple[str, str, int]:
    """An export whose etcd is killed once it has written something: its output, its errors and its status."""
    words = [BRIDGES / EXPORT, "--store", bench.at("grpc"), "--verify", NEW, "--batch", "5", "--pause", "5"]
    child = subprocess.Popen(list(map(str, words)), env=environment, stdout=subprocess.PIPE, stderr=subprocess.PIPE, text=True)
    wait_until(lambda: sealed_anew(first, "/registry"), "an export has written something", child)
    first.process.send_signal(signal.SIGKILL)
    first.stop()
    output, errors = child.communicate(timeout=PATIENCE)
    return output, errors, child.returncode


class Relay:
    """What stands before an etcd, and hands on what is said. Once a value by the new key has gone to it, that one is handed on, its
    answer isn't, and nobody is there any more."""

    def __init__(self, endpoint: str):
        host, port = endpoint.removeprefix("http://").split(":")
        self.there, self.listener = (host, int(port)), socket.create_server(("127.0.0.1", 0))
        self.endpoint = "http://127.0.0.1:%d" % self.listener.getsockname()[1]
        threading.Thread(target=self.serve, daemon=True).start()

    def serve(self) -> None:
        while True:
            try:
                ours, _ = self.listener.accept()
            except OSError:
                return
            theirs = socket.create_connection(self.there)
            threading.Thread(target=self.answers, args=(theirs, ours), daemon=True).start()
            threading.Thread(target=self.requests, args=(ours, theirs), daemon=True).start()

    def requests(self, ours: socket.socket, theirs: socket.socket) -> None:
        while piece := received(ours):
            is_last = b"k8s:enc:aescbc:v1:key2:" in piece
            if is_last:
                # (an accept that waits goes on though its socket is closed)
                self.listener.shutdown(socket.SHUT_RDWR)
                self.listener.close()
                ours.shutdown(socket.SHUT_WR)
            theirs.sendall(piece)
            if is_last:
                ours.close()
                return

    @staticmethod
    def answers(theirs: socket.socket, ours: socket.socket) -> None:
        with contextlib.suppress(OSError):
            while piece := received(theirs):
                ours.sendall(piece)


def received(source: socket.socket) -> bytes:
    """What comes next; nothing at the end, whoever made it."""
    try:
        return source.recv(PIECE)
    except OSError:
        return b""


def unanswered(bench: Bench) -> None:
    """A transaction whose answer never comes: its values are told by their paths, and what wasn't sent is counted."""
    prefix, count = "/unanswered", 12
    paths = list(bench.sealed(prefix, count))
    bench.imported("store", "--prefix", prefix, "--config", NEW)
    bench.rewritten("store", NEW)
    relay = Relay(bench.etcd.endpoint)
    done = bench.exported("store", "--verify", NEW, "--batch", "5", ETCDCTL_ENDPOINTS=relay.endpoint)
    told = [line.removeprefix("unknown ") for line in done.output.decode().splitlines() if line.startswith("unknown /")]
    bench.expect("no answer: the paths of its values are told", (1, paths[:5]), (done.status, told))
    found = numbers(done)
    bench.expect("no answer: and counted", (0, 5, 7), (found["written"], found.get("unknown"), found.get("unsent")))
    wait_until(lambda: sealed_anew(bench.etcd, prefix), "etcd has done what it was asked")
    bench.expect("no answer: they were written, in truth", 5, sealed_anew(bench.etcd, prefix))
    found = numbers(bench.exported("store", "--verify", NEW))
    bench.expect("no answer: run again it is clear", (7, 5), (found["written"], found["already"]))
    nowhere = f"http://127.0.0.1:{free_port()}"
    done = bench.exported("store", "--no-verify", ETCDCTL_ENDPOINTS=nowhere)
    bench.expect("no answer: where nothing was sent, nothing is unknown", (1, b""), (done.status, done.output))
