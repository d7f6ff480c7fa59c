"""Programs that are stopped in their midst, and what changed meanwhile."""
import fcntl
import os
import signal
import subprocess

from etcd_bench import EXPORT, IMPORT, NEW, Bench, numbers
from etcd_cases_clusters import sealed_anew
from etcd_server import BRIDGES
from support import PATIENCE, stood_on, wait_until


def killed(bench: Bench) -> None:
    """An export that is killed in its midst, in its first pause, and run again."""
    prefix, count = "/killed", 60
    bench.sealed(prefix, count)
    bench.imported("killed", "--prefix", prefix, "--config", NEW)
    bench.rewritten("killed", NEW)
    words = [BRIDGES / EXPORT, "--store", bench.at("killed"), "--verify", NEW, "--batch", "1", "--pause", "5"]
    child = subprocess.Popen(list(map(str, words)), env=bench.etcd.environment, stdout=subprocess.DEVNULL)
    wait_until(lambda: sealed_anew(bench.etcd, prefix), "an export has written something", child)
    child.send_signal(signal.SIGKILL)
    child.wait()
    done_before = sealed_anew(bench.etcd, prefix)
    bench.expect("killed: in its midst", True, 0 < done_before < count)
    done = bench.exported("killed", "--verify", NEW, "--dry-run")
    found = numbers(done)
    bench.expect("killed: a dry run", (done_before, count - done_before), (found["already"], found["would-write"]))
    done = bench.exported("killed", "--verify", NEW)
    found = numbers(done)
    bench.expect("killed: run again", (0, done_before, count - done_before), (done.status, found["already"], found["written"]))
    bench.expect("killed: the old key may go", (0, []), bench.still(prefix, "aescbc:key1"))


def terminated(bench: Bench) -> None:
    """An import that is ended in its midst leaves nothing."""
    bench.sealed("/terminated", 3)
    slow = bench.at("slow")
    slow.write_text("#!/bin/bash\nexec sleep 9999\n")
    slow.chmod(0o755)
    words = [BRIDGES / IMPORT, "--store", bench.at("store"), "--prefix", "/terminated"]
    child = subprocess.Popen(list(map(str, words)), env={**bench.etcd.environment, "ETCDCTL": str(slow)})
    wait_until(lambda: len(list(bench.folder.iterdir())) >= 3, "an import has begun its files", child)
    child.terminate()
    bench.expect("terminated: its status", 128 + signal.SIGTERM, child.wait(PATIENCE))
    bench.expect("terminated: nothing is left", ["slow"], [path.name for path in bench.folder.iterdir()])


def locked(bench: Bench) -> None:
    """A store that kmsrest has open isn't read."""
    bench.sealed("/locked", 3)
    bench.imported("store", "--prefix", "/locked", "--config", NEW)
    with open(bench.at("store"), "rb") as file:
        fcntl.flock(file, fcntl.LOCK_EX)
        done = bench.exported("store", "--no-verify")
    bench.expect("a locked store isn't read", (1, True), (done.status, "is locked" in done.errors))


def terminal(bench: Bench) -> None:
    """Progress is shown on a terminal alone."""
    bench.sealed("/terminal", 3)
    bench.imported("store", "--prefix", "/terminal", "--config", NEW)
    bench.rewritten("store", NEW)
    words = [str(word) for word in (BRIDGES / EXPORT, "--store", bench.at("store"), "--no-verify", "--batch", "2")]
    ours, theirs = os.openpty()
    subprocess.run([*words, "--dry-run"], env=bench.etcd.environment, stdout=subprocess.DEVNULL, stderr=theirs, check=True)
    os.close(theirs)
    bench.expect("progress on a terminal", True, b"2 of 3\rstore-to-etcd: 3 of 3\r\n" in stood_on(ours))
    bench.expect("and nowhere else", "", bench.exported("store", "--no-verify").errors)


def changed_key(bench: Bench) -> None:
    """Keys that got another value, also the same bytes anew, stay as they are."""
    prefix = "/changed"
    paths = list(bench.sealed(prefix, 5))
    bench.imported("changed", "--prefix", prefix, "--config", NEW)
    bench.rewritten("changed", NEW)
    same = bench.etcd.values(paths[2])[paths[2]].value
    bench.etcd.put(paths[2], same)
    done = bench.exported("changed", "--no-verify")
    bench.expect("a changed key: told", (1, True), (done.status, f"changed {paths[2]}\n" in done.output.decode()))
    now = bench.etcd.values(prefix)
    bench.expect("a changed key: stays", same, now[paths[2]].value)
    bench.expect("a changed key: the others are written", 4, sum(b":key2:" in stored.value for stored in now.values()))
