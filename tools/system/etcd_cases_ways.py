"""The ways to read and to write: gRPC, etcdctl, a snapshot, JSON."""
import json

from etcd_bench import AUDIT, NEW, Bench, numbers
from etcd_values import KEY1, KEY2, aescbc, an_object, by_cryptography

# An etcdctl that writes once and compacts before its second call.
COMPACTING = """#!/bin/bash
if [ -e {again} ]; then
  [[ $(etcdctl put {key} x -w json) =~ \\"revision\\":([0-9]+) ]] && etcdctl compact ${{BASH_REMATCH[1]}} >/dev/null
fi
touch {again}
exec etcdctl "$@"
"""


def transports(bench: Bench) -> None:
    """gRPC and etcdctl read, in pages, and write the same; leases stay. (Other cases write by gRPC.)"""
    prefix = "/ways"
    objects = bench.sealed(prefix, 23)
    lease = bench.etcd.etcdctl("lease", "grant", "3600").output.decode().split()[1]
    leased = f"{prefix}/secrets/d/leased"
    objects[leased] = an_object("leased")
    bench.etcd.put(leased, aescbc(KEY1, "key1", objects[leased]), "--lease", lease)
    odd = prefix + "/secrets/d/odd\"'\\(x)$`"
    objects[odd] = an_object("odd")
    bench.etcd.put(odd, aescbc(KEY1, "key1", objects[odd]))
    words = ("--prefix", prefix, "--config", NEW, "--page", "4")
    bench.expect("transports: by gRPC", 0, bench.imported("grpc", *words).status)
    bench.expect("transports: by etcdctl", 0, bench.imported("ctl", *words, ETCDCTL="etcdctl").status)
    for suffix in ("", ".map"):
        one, other = (bench.at(name + suffix).read_bytes() for name in ("grpc", "ctl"))
        bench.expect(f"transports: one and the same {suffix or 'store'}", True, one == other and len(one) > 1000)
    hidden = bench.at("hidden")
    hidden.mkdir()
    (hidden / "grpc.py").write_text("raise ImportError\n")
    done = bench.imported("without", *words, PYTHONPATH=str(hidden))
    same = done.status == 0 and bench.at("without").read_bytes() == bench.at("grpc").read_bytes()
    bench.expect("transports: by etcdctl where there is no grpcio", True, same)
    done = bench.imported("nothing", *words, PYTHONPATH=str(hidden), PATH="/nowhere")
    bench.expect("transports: and refused where there is neither", (1, True), (done.status, "there is no etcdctl" in done.errors))
    mode = [bench.at(name).stat().st_mode & 0o777 for name in ("grpc", "grpc.map")]
    bench.expect("transports: the files are their owner's alone", [0o600, 0o600], mode)
    bench.rewritten("ctl", NEW)
    done = bench.exported("ctl", "--verify", NEW, "--batch", "7", ETCDCTL="etcdctl")
    bench.expect("transports: written back by etcdctl", (0, 25), (done.status, numbers(done)["written"]))
    now = bench.etcd.values(prefix)
    opened = {path: by_cryptography(KEY2, "key2", stored.value) for path, stored in now.items()}
    bench.expect("transports: read back", objects, opened)
    bench.expect("transports: the lease stays", lease, f"{now[leased].lease:016x}")


def compacted(bench: Bench) -> None:
    """The revision that is read may be compacted away between two pages."""
    prefix, program = "/compacted", bench.at("etcdctl")
    bench.sealed(prefix, 5)
    program.write_text(COMPACTING.format(again=bench.at("again"), key=f"{prefix}/secrets/d/s00000"))
    program.chmod(0o755)
    done = bench.imported("compacted", "--prefix", prefix, "--page", "2", ETCDCTL=str(program))
    bench.expect("compacted: refused", (1, True), (done.status, "has been compacted" in done.errors))
    bench.expect("compacted: nothing was written", ["again", "etcdctl"], sorted(path.name for path in bench.folder.iterdir()))


def lease_by_grpc(bench: Bench) -> None:
    path = "/leases/secrets/d/s"
    lease = bench.etcd.etcdctl("lease", "grant", "3600").output.decode().split()[1]
    bench.etcd.put(path, aescbc(KEY1, "key1", an_object("leased")), "--lease", lease)
    bench.imported("lease", "--prefix", "/leases", "--config", NEW)
    bench.rewritten("lease", NEW)
    done = bench.exported("lease", "--verify", NEW)
    bench.expect("leases: written back by gRPC", (0, 1), (done.status, numbers(done)["written"]))
    stored = bench.etcd.values(path)[path]
    bench.expect("leases: the lease stays", (lease, True), (f"{stored.lease:016x}", b":key2:" in stored.value))
    bench.etcd.etcdctl("lease", "revoke", lease)
    bench.expect("leases: and ends the key", {}, bench.etcd.values(path))


def snapshot_and_json(bench: Bench) -> None:
    """All of one moment: live, from a snapshot and from JSON it is one store."""
    prefix = "/snap"
    bench.sealed(prefix, 30)
    snapshot, written = bench.at("snapshot.db"), bench.at("registry.json")
    bench.etcd.etcdctl("snapshot", "save", snapshot)
    written.write_bytes(bench.etcd.etcdctl("get", "--prefix", prefix + "/", "-w", "json").output)
    words = ("--prefix", prefix, "--config", NEW)
    bench.expect("snapshot: read", 0, bench.imported("by-snapshot", *words, "--snapshot", snapshot).status)
    bench.expect("json: read", 0, bench.imported("by-json", *words, "--json", written).status)
    bench.expect("snapshot: read live", 0, bench.imported("by-live", *words).status)
    stores = {bench.at(f"by-{way}").read_bytes() for way in ("snapshot", "json", "live")}
    bench.expect("snapshot and json: one and the same store", 1, len(stores))
    heads, rows = zip(*(bench.at(f"by-{way}.map").read_text().split("\n", 1) for way in ("snapshot", "json", "live")))
    bench.expect("snapshot and json: one and the same rows of the map", 1, len(set(rows)))
    ways = ((), ("--snapshot", snapshot), ("--json", written))
    counts = [bench.etcd.bridge(AUDIT, "--prefix", prefix, *way).output for way in ways]
    bench.expect("snapshot and json: one and the same audit", [b"30 secrets aescbc:key1\n"] * 3, counts)
    clusters = [json.loads(head)["cluster"] for head in heads]
    bench.expect("snapshot: its map names no cluster", [None, clusters[2], clusters[2]], clusters)
    bench.rewritten("by-snapshot", NEW)
    done = bench.exported("by-snapshot", "--verify", NEW)
    bench.expect("snapshot: no way back without --cluster", (1, True), (done.status, f"--cluster {clusters[2]}" in done.errors))
    done = bench.exported("by-snapshot", "--verify", NEW, "--cluster", clusters[2])
    bench.expect("snapshot: and back with it", (0, 30), (done.status, numbers(done)["written"]))
    cut = bench.at("cut.json")
    cut.write_bytes(bench.etcd.etcdctl("get", "--prefix", prefix + "/", "--limit", "5", "-w", "json").output)
    bench.expect("json: written with a limit", 1, bench.imported("by-cut", *words, "--json", cut).status)
    cut.write_bytes(bench.etcd.etcdctl("get", "--prefix", prefix + "/", "--keys-only", "-w", "json").output)
    bench.expect("json: written without values", 1, bench.imported("by-cut", *words, "--json", cut).status)
    snapshot.write_bytes(snapshot.read_bytes()[:-100])
    bench.expect("snapshot: torn", 1, bench.imported("by-torn", *words, "--snapshot", snapshot).status)
    bench.expect("snapshot and json: nothing is left of either", [], sorted(bench.folder.glob("*by-[ct]*")))
