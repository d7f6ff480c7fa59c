"""How the bridges end where something else fails: one line, a status, and the counts of what was done."""
import os
import resource
import shutil
import subprocess
from pathlib import Path

from etcd_bench import AUDIT, EXPORT, IMPORT, NEW, Bench, numbers
from etcd_server import BRIDGES, TOLD
from hostile_etcd import CLUSTER, HostileEtcd
from support import PATIENCE, Ended, call

FAILED = 4
# What another program that speaks for etcd may write.
NO_ANSWERS = {
    "JSON in JSON without an end": "head -c 200000 /dev/zero | tr '\\0' '['",
    "a cluster's id that is a text": """echo '{"header":{"cluster_id":"x","revision":5}}'""",
    "a revision that etcd can't have": """echo '{"header":{"cluster_id":1,"revision":-1}}'""",
    "keys that are no list": """echo '{"header":{"cluster_id":1,"revision":5},"kvs":5}'""",
}
ODD_KEY = '{"header":{"cluster_id":1,"revision":5},"count":%d,"kvs":[%s]}'
ONE_KEY = '{"key":"L3JlZ2lzdHJ5L3NlY3JldHMvZC9h","create_revision":2,"mod_revision":%s,"value":"azhzAA=="}'


def one_line(done: Ended, told: str) -> bool:
    """Whether a call said this, in lines of its own alone, without a fault of its own."""
    return told in done.errors and "fault of its own" not in done.errors and "\x1b" not in done.errors


def with_output(bench: Bench, output: object, name: str, *words: object, **options) -> Ended:
    """A bridge whose standard output is this file."""
    child = subprocess.run([str(word) for word in (BRIDGES / name, *words)], stdout=output, stderr=subprocess.PIPE, env=bench.etcd.environment,
                           timeout=PATIENCE, check=False, **options)
    errors = child.stderr.decode(errors="replace")
    TOLD.update((name, line) for line in errors.splitlines())
    return Ended(child.returncode, b"", errors, 0)


def outputs(bench: Bench) -> None:
    """Standard output is full, closed, or has no reader: what was done is told on standard error."""
    prefix = "/outputs"
    first = next(iter(bench.sealed(prefix, 4)))
    imported = lambda store: ("--store", bench.at(store), "--prefix", prefix, "--config", NEW)
    with open("/dev/full", "wb") as full:
        done = with_output(bench, full, IMPORT, *imported("store"))
        found = (done.status, one_line(done, "standard output: No space left"), "\nrows 4\n" in f"\n{done.errors}", bench.at("store").exists())
        bench.expect("a full output: an import tells what it made", (FAILED, True, True, True), found)
        bench.expect("a full output: and doesn't say that nothing was", False, "nothing was written" in done.errors)
        done = with_output(bench, full, AUDIT, "--prefix", prefix)
        bench.expect("a full output: an audit", (FAILED, True), (done.status, one_line(done, "4 secrets aescbc:key1")))
        bench.rewritten("store", NEW)
        bench.etcd.put(first, b"k8s\0another")
        done = with_output(bench, full, EXPORT, "--store", bench.at("store"), "--verify", NEW, "--batch", "1")
        found = (done.status, f"changed {first}" in done.errors, "\nchanged 1\nrefused 0\nunsent 3\n" in done.errors)
        bench.expect("a full output: an export stops, and counts", (FAILED, True, True), found)
    call([BRIDGES / IMPORT, *imported("second")], env=bench.etcd.environment)
    bench.rewritten("second", NEW)
    read, write = os.pipe()
    os.close(read)
    done = with_output(bench, write, EXPORT, "--store", bench.at("second"), "--verify", NEW)
    os.close(write)
    bench.expect("no reader: an export counts what it wrote", (FAILED, True), (done.status, one_line(done, "written 4\n")))
    closed = {"preexec_fn": lambda: os.close(1)}
    done = with_output(bench, None, IMPORT, *imported("none"), **closed)
    found = (done.status, one_line(done, "standard output is closed"), bench.at("none").exists())
    bench.expect("a closed output: nothing is done", (FAILED, True, False), found)
    done = with_output(bench, None, AUDIT, "--prefix", prefix, **closed)
    bench.expect("a closed output: an audit", (FAILED, True), (done.status, one_line(done, "standard output is closed")))


def full_disk(bench: Bench) -> None:
    """A store that finds no room: nothing is left of it."""
    bench.sealed("/full", 60)
    small = {"preexec_fn": lambda: resource.setrlimit(resource.RLIMIT_FSIZE, (2048, 2048))}
    for what, words in (("a store", ()), ("its parts", ("--part", "3000"))):
        done = with_output(bench, subprocess.PIPE, IMPORT, "--store", bench.at("store"), "--prefix", "/full", *words, **small)
        left = sorted(path.name for path in bench.folder.iterdir())
        bench.expect(f"no room for {what}", (1, True, []), (done.status, one_line(done, "File too large"), left))
    bench.expect("no core file of a bridge", [], [path.name for path in Path.cwd().glob("core*")])


def settings(bench: Bench) -> None:
    """Words of etcdctl's environment that go together and don't."""
    pem = bench.at("pem")
    call(["openssl", "req", "-x509", "-newkey", "ec", "-pkeyopt", "ec_paramgen_curve:P-256", "-nodes", "-subj", "/CN=x", "-keyout", bench.at("key"), "-out", pem])
    call(["openssl", "genpkey", "-algorithm", "EC", "-pkeyopt", "ec_paramgen_curve:P-256", "-out", bench.at("other")])
    bench.at("rubbish").write_text("rubbish\n")
    key, other, rubbish = (str(bench.at(name)) for name in ("key", "other", "rubbish"))
    pem = str(pem)
    cases = [
        ("endpoints that are none", {"ETCDCTL_ENDPOINTS": ","}, "ETCDCTL_ENDPOINTS names no endpoint"),
        ("a key without its certificate", {"ETCDCTL_KEY": key}, "ETCDCTL_CERT isn't"),
        ("a certificate without its key", {"ETCDCTL_CERT": pem}, "ETCDCTL_KEY isn't"),
        ("a key of another one", {"ETCDCTL_CERT": pem, "ETCDCTL_KEY": other}, "or don't go together"),
        ("a key that is none", {"ETCDCTL_CERT": pem, "ETCDCTL_KEY": rubbish}, "or don't go together"),
        ("an authority that is none", {"ETCDCTL_CACERT": rubbish}, "no certificate in PEM"),
    ]
    for what, environment, told in cases:
        done = bench.etcd.bridge(AUDIT, **{"ETCDCTL_ENDPOINTS": "https://127.0.0.1:1", **environment})
        bench.expect(f"settings: {what}", (3, True, 1), (done.status, one_line(done, told), len(done.errors.splitlines())))


def hostile(bench: Bench) -> None:
    """Servers, programs and files that answer what no etcd does."""
    ways = ("the same page again and again", "more, and no key", "a key twice", "a key that wasn't asked for", "escapes")
    for way in ways:
        with HostileEtcd(way) as server:
            done = bench.etcd.bridge(AUDIT, ETCDCTL_ENDPOINTS=server.endpoint)
        bench.expect(f"hostile: {way}", (3, True, 1), (done.status, one_line(done, "etcd "), len(done.errors.splitlines())))
    for what, line in NO_ANSWERS.items():
        program = bench.at("speaks")
        program.write_text(f"#!/bin/sh\n{line}\n")
        program.chmod(0o755)
        done = bench.etcd.bridge(AUDIT, ETCDCTL=str(program))
        bench.expect(f"hostile: {what}", (3, True, 1), (done.status, one_line(done, "JSON"), len(done.errors.splitlines())))
    for what, keys in (("a revision that is a text", [ONE_KEY % '"3"']), ("a key that stands twice", [ONE_KEY % 3] * 2)):
        bench.at("json").write_text(ODD_KEY % (len(keys), ",".join(keys)))
        done = bench.imported("odd", "--json", bench.at("json"))
        bench.expect(f"hostile: JSON with {what}", (1, True), (done.status, one_line(done, "nothing was written")))
    bench.sealed("/hostile", 3)
    bench.imported("store", "--prefix", "/hostile", "--config", NEW)
    bench.rewritten("store", NEW)
    with HostileEtcd("transactions without answers") as server:
        done = bench.exported("store", "--verify", NEW, "--cluster", f"{CLUSTER:x}", ETCDCTL_ENDPOINTS=server.endpoint)
    told = one_line(done, "doesn't tell what stands there")
    bench.expect("hostile: a transaction that fails and tells nothing", (1, True, 3), (done.status, told, numbers(done).get("unsent")))


def naming(bench: Bench) -> None:
    """An import in parts that is killed while it names its files: the next call takes that up. The folder is synced before the
    counts are told."""
    if shutil.which("strace") is None:
        print("left out: calls that are killed while they name files, since there is no strace (tools/install-checks installs it)")
        return
    prefix = "/naming"
    bench.sealed(prefix, 30)
    words = [BRIDGES / IMPORT, "--store", bench.at("part"), "--prefix", prefix, "--config", NEW, "--part", "1300"]
    traced = lambda *more: call(["strace", "-f", "-qq", "-o", bench.at("trace"), *more, *words], env=bench.etcd.environment)
    names = None
    # (the links are the names that are given, and the first file that is unlinked is the first draft)
    for calls, number in (("link,linkat", 1), ("link,linkat", 3), ("link,linkat", 6), ("unlink,unlinkat", 1)):
        done = traced("-e", f"trace={calls}", "-e", f"inject={calls}:signal=KILL:when={number}")
        again = call(words, env=bench.etcd.environment)
        left = sorted(path.name for path in bench.folder.iterdir() if path.name != "trace")
        names = names or left
        is_whole = all(path.stat().st_nlink == 1 for path in bench.folder.iterdir())
        found = (done.status != 0, again.status, left == names and is_whole and len(left) >= 6, numbers(again).get("rows"))
        bench.expect(f"killed at its {number}. of {calls}: the next call makes all anew", (True, 0, True, 30), found)
        done = call(words, env=bench.etcd.environment)
        bench.expect("and the one behind that writes over nothing", (1, True), (done.status, "is there already" in done.errors))
        for path in bench.folder.iterdir():
            path.unlink()
    traced("-e", "trace=openat,fsync,write")
    lines = bench.at("trace").read_text(errors="replace").splitlines()
    told = next((at for at, line in enumerate(lines) if 'write(1, "rows ' in line), None)
    opened = max((at for at, line in enumerate(lines) if "O_DIRECTORY" in line and str(bench.folder) in line), default=None)
    synced = [at for at, line in enumerate(lines) if "fsync(" in line and opened is not None and at > opened]
    bench.expect("the folder is synced before the counts are told", True, told is not None and bool(synced) and opened < synced[0] < told)
