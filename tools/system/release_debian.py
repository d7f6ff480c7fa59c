"""The Debian package in a Debian that has nothing else: installed, tried by somebody who isn't root, removed."""
import os
import shutil
from pathlib import Path

import debian_root
from debian_root import Root
from etcd_server import PATIENT, EtcdServer
from release_made import NOBODY
from support import TOP, Checks, call, skip

# Seconds in which the gate makes a Debian, where none is kept.
MAKING = 150
LIBRARY = "/usr/lib/kmsrest"
SECRET = f"--config {LIBRARY}/examples/three-entries.yaml --resource secrets --path /registry/secrets/d/s"
STORED = "/registry/secrets/d/s"


def fields(package: Path) -> dict[str, str]:
    told = call(["dpkg-deb", "--field", package]).output.decode()
    return dict(line.split(": ", 1) for line in told.splitlines() if ": " in line and not line.startswith(" "))


def describes(checks: Checks, package: Path) -> None:
    """What dpkg is told."""
    told = fields(package)
    depends = [one.split()[0] for one in told["Depends"].split(", ")]
    checks.expect("the package depends on python3 and the C library", ["python3", "libc6"], depends)
    checks.expect("and recommends what the bridges want", ", ".join(debian_root.RECOMMENDED), told["Recommends"])
    owners = {line.split()[1] for line in call(["dpkg-deb", "--contents", package]).output.decode().splitlines()}
    checks.expect("all of it is root's", {"root/root"}, owners)


def uses(checks: Checks, root: Root) -> None:
    """kmsrest as somebody who isn't root."""
    version = (TOP / "VERSION").read_text(encoding="utf-8").strip()
    done = root.call("kmsrest", "--version", user=NOBODY)
    checks.expect("kmsrest --version", (0, f"kmsrest {version}\n"), (done.status, done.output.decode()))
    script = f"printf hello | kmsrest encrypt {SECRET} | kmsrest decrypt {SECRET}"
    done = root.call("bash", "-c", script, user=NOBODY)
    checks.expect("a value is sealed and read", (0, b"hello", "fresh\n"), (done.status, done.output, done.errors))
    done = root.call("kmsrest", "explain", "kmsrest: refused 2 BadBlock", user=NOBODY)
    checks.expect("kmsrest explain", (0, b"means:"), (done.status, done.output[:6]))
    done = root.call("kubectl-kmsrest", "check", "--config", f"{LIBRARY}/examples/identity.yaml", user=NOBODY)
    checks.expect("kubectl-kmsrest check", 0, done.status)
    for path in sorted((root.folder / LIBRARY.lstrip("/") / "bridges").iterdir()):
        if path.is_file() and os.access(path, os.X_OK):
            checks.expect(f"{path.name} --help", 0, root.call(path.name, "--help", user=NOBODY).status)


def audits(checks: Checks, root: Root, room: Path) -> None:
    """A bridge over a real etcd, by gRPC and by the package's own etcdctl."""
    if not (shutil.which("etcd") and shutil.which("etcdctl")):
        print("(left out: an audit, since there is no etcd here)", flush=True)
        return
    with EtcdServer(room / "etcd-of-debian") as etcd:
        etcd.put(STORED, b"k8s\0plain")
        own = {"ETCDCTL_API": "3", "ETCDCTL_ENDPOINTS": etcd.endpoint}
        for more in ({}, {"ETCDCTL": " ".join(PATIENT)}):
            done = root.call("etcd-audit", user=NOBODY, **own, **more)
            checks.expect(f"etcd-audit {'by etcdctl' if more else 'by gRPC'}", b"1 secrets plain\n", done.output)


def check_in(checks: Checks, root: Root, package: Path, room: Path) -> None:
    before = root.files()
    shutil.copy(package, root.folder / "kmsrest.deb")
    done = root.call("dpkg", "--install", "/kmsrest.deb")
    (root.folder / "kmsrest.deb").unlink()
    checks.expect("dpkg --install", 0, done.status)
    if done.status != 0:
        print(done.errors)
        return
    done = root.call("dpkg", "--verify", "kmsrest")
    checks.expect("dpkg --verify says nothing", (0, b""), (done.status, done.output))
    uses(checks, root)
    audits(checks, root, room)
    # (as root a bridge leaves what Python keeps beside its sources)
    root.call("etcd-audit", "--help")
    left = {name for name in root.files() if "kmsrest/" in name and "__pycache__" in name}
    checks.expect("Python leaves something beside the sources", True, bool(left))
    done = root.call("dpkg", "--purge", "kmsrest")
    checks.expect("dpkg --purge leaves what was there before", (0, set()), (done.status, root.files() ^ before))


def check(checks: Checks, package: Path, room: Path) -> None:
    describes(checks, package)
    try:
        with debian_root.unpacked(room, MAKING) as root:
            check_in(checks, root, package, room)
    except debian_root.Missing as no:
        if checks.failed:
            return
        skip(f"{no} (tools/system/debian_root.py makes a Debian beforehand)")
