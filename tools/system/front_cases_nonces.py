"""What the front end and the audit say of a key of aesgcm that seals more values than one key is for."""
import base64
import importlib
import json
import sys
from pathlib import Path

from support import TOP, Checks, call, kmsrest_program

sys.path[:0] = [str(TOP), str(TOP / "help"), str(TOP / "front")]
from call_words import Call  # noqa: E402 (their folders must be on the path first)
from reference import store  # noqa: E402

AROUND = TOP / "front" / "around"
MOST, FEW = 200_000, 200
SECRET, OTHER = (base64.b64encode(bytes([byte]) * 32).decode() for byte in b"ab")


def configuration(room: Path, name: str, *entries: tuple[str, str, str]) -> Path:
    """An entry for each resource, sealed by a key of this name and secret."""
    tree = {
        "apiVersion": "apiserver.config.k8s.io/v1",
        "kind": "EncryptionConfiguration",
        "resources": [
            {"resources": [what], "providers": [{"aesgcm": {"keys": [{"name": key, "secret": secret}]}}, {"identity": {}}]}
            for what, key, secret in entries
        ],
    }
    (room / name).write_text(json.dumps(tree))
    return room / name


def plain_store(file: Path, count: int) -> None:
    """Half of the objects are secrets, the others configmaps, all of them plain."""
    rows = [store.Row(b"/r/%d" % number, b"secrets" if number % 2 else b"configmaps", b"k8s\0x", bytes(8)) for number in range(count)]
    file.write_bytes(store.written(2, rows))


def sealed(name: str, number: int, resource: bytes = b"secrets") -> list[store.Row]:
    """Rows as a rewrite leaves them: the lengths alone count here."""
    value = b"k8s:enc:aesgcm:v1:%s:" % name.encode() + bytes(33)
    return [store.Row(b"/r/%s%d" % (name.encode(), at), resource, value, bytes(8)) for at in range(number)]


def said(room: Path, config: Path, rows: list[store.Row]) -> list[str]:
    """What the module says of a rewrite that put these rows, where one key is for FEW values."""
    nonces = importlib.import_module("nonces")
    called = Call(["rewrite", "--config", str(config), "--store", str(room / "rows")])
    plain_store(room / "rows", 1)
    most, nonces.MOST_SEALED = nonces.MOST_SEALED, FEW
    try:
        nonces.before(called)
        start = (room / "rows").read_bytes()
        data = b"".join(store.row_bytes(2, revision, row) for revision, row in enumerate(rows, 2))
        (room / "rows").write_bytes(start + data)
        return nonces.after(called, 0, "")
    finally:
        nonces.MOST_SEALED = most


def many_sealed(checks: Checks, room: Path) -> None:
    """A real rewrite of one value more than a key is for, one of so many, and what two names of one secret count."""
    one = configuration(room, "one.json", ("secrets", "k", SECRET), ("configmaps", "k", SECRET))
    plain_store(room / "store", MOST + 1)
    done = call([AROUND, kmsrest_program(), "rewrite", "--config", one, "--store", room / "store"])
    told = [line for line in done.errors.splitlines() if line.startswith(f"remark: this rewrite sealed {MOST + 1} values by aesgcm:k: ")]
    found = (done.status, done.output.splitlines()[:1], len(told), SECRET in done.errors)
    checks.expect("a rewrite of 200,001 values by one key is remarked", (0, [b"rewritten %d" % (MOST + 1)], 1, False), found)
    done = call([AROUND, kmsrest_program(), "rewrite", "--config", one, "--store", room / "store"])
    checks.expect("and not one that seals nothing anew", (0, ""), (done.status, done.errors))
    checks.expect("one more than a key is for is told", 1, len(said(room, one, sealed("k", FEW + 1))))
    checks.expect("so many as a key is for: nothing is said", [], said(room, one, sealed("k", FEW)))
    two = configuration(room, "two.json", ("secrets", "k", SECRET), ("configmaps", "l", SECRET))
    rows = sealed("k", FEW // 2) + sealed("l", FEW // 2 + 1, b"configmaps")
    lines = said(room, two, rows)
    checks.expect("two names of one secret are one key", (1, True), (len(lines), f"sealed {FEW + 1} values by aesgcm:k and l:" in "".join(lines)))
    other = configuration(room, "other.json", ("secrets", "k", SECRET), ("configmaps", "l", OTHER))
    checks.expect("two keys are two", [], said(room, other, rows))


def audited(checks: Checks, room: Path) -> None:
    """An audit of so many values by one key, and of one more."""
    value = base64.b64encode(b"k8s:enc:aesgcm:v1:k:" + bytes(33)).decode()
    for count, wanted in ((MOST, []), (MOST + 1, [f"etcd-audit: aesgcm:k sealed {MOST + 1} of these values: one key is for {MOST} writes, exchange it"])):
        places = ("secrets", "configmaps")
        keys = [base64.b64encode(b"/registry/%s/%d" % (places[number % 2].encode(), number)).decode() for number in range(count)]
        rows = [{"key": key, "create_revision": 2, "mod_revision": 2, "value": value} for key in keys]
        (room / "json").write_text(json.dumps({"header": {"cluster_id": 1, "revision": 5}, "kvs": rows, "count": count}))
        done = call([TOP / "bridges" / "etcd-audit", "--json", room / "json"])
        checks.expect(f"an audit of {count} values by one key", (0, wanted), (done.status, done.errors.splitlines()))
