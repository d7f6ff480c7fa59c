"""Mutual TLS, and an etcd that doesn't answer."""
from concurrent.futures import ThreadPoolExecutor

from etcd_bench import AUDIT, IMPORT, NAMING, NEW, Bench, numbers
from etcd_server import IMPATIENT, Certificates, EtcdServer, free_port


def mutual(bench: Bench) -> None:
    """An etcd that wants a certificate of each client, as kubeadm's does."""
    with EtcdServer(bench.at("tls"), Certificates(bench.at("certificates"))) as etcd:
        inside = Bench(bench.checks, etcd, bench.folder)
        for way, environment in (("gRPC", {}), ("etcdctl", {"ETCDCTL": "etcdctl"})):
            prefix = f"/{way}"
            inside.sealed(prefix, 8)
            done = inside.imported(way, "--prefix", prefix, "--config", NEW, **environment)
            bench.expect(f"mutual TLS: an import by {way}", 0, done.status)
            inside.rewritten(way, NEW)
            done = inside.exported(way, "--verify", NEW, **environment)
            bench.expect(f"mutual TLS: an export by {way}", (0, 8), (done.status, numbers(done)["written"]))
            done = etcd.bridge(AUDIT, "--prefix", prefix, "--still", "aescbc:key1", *NAMING, **environment)
            bench.expect(f"mutual TLS: an audit by {way}", 0, done.status)
        no_certificate = {"ETCDCTL_CERT": "", "ETCDCTL_KEY": ""}
        calls = [
            lambda: etcd.bridge(IMPORT, "--store", bench.at("none"), **no_certificate),
            lambda: etcd.bridge(IMPORT, "--store", bench.at("none"), ETCDCTL_CACERT=""),
            lambda: etcd.bridge(AUDIT, **no_certificate),
            lambda: etcd.bridge(AUDIT, ETCDCTL_CERT="/nowhere"),
        ]
        found = statuses(calls)
    what = "mutual TLS: no import without a certificate, nor without an authority, no audit, and none by a file that isn't there"
    bench.expect(what, ([1, 1, 3, 3], False), (found, bench.at("none").exists()))


def statuses(calls: list) -> list[int]:
    """How calls end that are made side by side, since each waits for an etcd."""
    with ThreadPoolExecutor(max_workers=len(calls)) as pool:
        return [done.status for done in pool.map(lambda ask: ask(), calls)]


def no_answer(bench: Bench) -> None:
    """Status 3 of an audit, 1 of the others, and nothing written; a second endpoint takes the place of a first one."""
    nowhere = f"127.0.0.1:{free_port()}"
    bench.sealed("/answer", 2)
    bench.imported("store", "--prefix", "/answer", "--config", NEW)
    for way, environment in (("gRPC", {}), ("etcdctl", {"ETCDCTL": " ".join(["etcdctl", *IMPATIENT])})):
        gone = {"ETCDCTL_ENDPOINTS": nowhere, **environment}
        calls = [
            lambda: bench.etcd.bridge(AUDIT, **gone),
            lambda: bench.imported("none", **gone),
            lambda: bench.exported("store", "--no-verify", **gone),
        ]
        bench.expect(f"etcd doesn't answer by {way}", ([3, 1, 1], False), (statuses(calls), bench.at("none").exists()))
    done = bench.etcd.bridge(AUDIT, ETCDCTL="/no/such/program")
    bench.expect("there is no etcdctl", (3, True), (done.status, "No such file" in done.errors))
    two = f"{nowhere},{bench.etcd.endpoint}"
    done = bench.etcd.bridge(AUDIT, "--prefix", "/answer", ETCDCTL_ENDPOINTS=two)
    bench.expect("a second endpoint answers", (0, b"2 secrets aescbc:key1\n"), (done.status, done.output))
