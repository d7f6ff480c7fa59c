"""What an etcd holds, answers and says, with known keys and plain values, and what the bridges say of it."""
import base64
import json
import os
import random
from collections.abc import Callable, Iterator
from dataclasses import dataclass

from masking_said import Said, encoded, forms_of
from masking_stores import Told, changed
from masking_typos import drawn, in_yaml, phrase
from reference import store, values

# How many answers of an etcd are imported, and how many rewrites are written back to one.
IMPORTS, EXPORTS = 80, 60
PATHS = ("/registry/secrets/d/s0", "/registry/secrets/d/s1", "/registry/secrets/d/s2")
HEADER = {"cluster_id": 7, "revision": 9}


def object_of(draw: random.Random) -> bytes:
    return b'{"kind":"Secret","data":"%s"}' % phrase(draw).encode()


def answered(found: dict[str, bytes], **more: object) -> dict:
    """What etcdctl writes of a range."""
    kvs = [{"key": encoded(key.encode()), "value": encoded(value), "mod_revision": at, "create_revision": at} for at, (key, value) in enumerate(found.items(), 1)]
    return {"header": HEADER, "count": len(kvs), "kvs": kvs, **more}


def imports(said: Said, draw: random.Random) -> Iterator[Told]:
    """What etcdctl wrote of an etcd with known plain values and keys of a configuration, whole and changed."""
    from etcd_bridge.auditing import main as audit
    from etcd_bridge.importing import main as to_store

    for number in range(IMPORTS):
        plain = [object_of(draw), phrase(draw).encode(), b"k8s:enc:aescbc:v1:key1:" + phrase(draw).encode()]
        answer = answered(dict(zip(PATHS, plain)))
        if number % 4 == 1:
            answer["count"] = plain[0].decode()
        if number % 4 == 2:
            answer["kvs"][1][("key", "value", "mod_revision")[number % 3]] = draw.choice([plain[0].decode(), [plain[0].decode()], None, 3, {}])
        data = json.dumps(answer).encode()
        (said.room / "j").write_bytes(changed(data, draw) if number % 4 == 3 else data)
        keys = tuple(drawn(draw, size) for size in (32, 16, 24))
        (said.room / "c").write_text(in_yaml(*keys))
        told = [("etcd-audit", said.within(audit, ["--json", "j", "--output", ("text", "json", "prometheus")[number % 3]]))]
        for name in ("s", "s.map"):
            (said.room / name).unlink(missing_ok=True)
        told.append(("etcd-to-store", said.within(to_store, ["--json", "j", "--store", "s", *(("--config", "c") if number % 2 else ())])))
        if number % 20 == 3:
            told.append(("etcd-audit as a program", said.run([said.top / "bridges" / "etcd-audit", "--json", "j"])))
        # (of the third value the body alone is secret: its head is what a listing names)
        yield f"an etcd, number {number}", (*keys, *plain[:2], plain[2][23:]), told


# ---- a rewrite that is written back


@dataclass(frozen=True)
class Export:
    """Three objects, as they were and as a rewrite left them."""

    old: dict[str, bytes]
    new: dict[str, bytes]

    def write(self, said: Said) -> None:
        """An import of the old ones, with the rows of the rewrite behind."""
        from etcd_bridge.importing import main as to_store

        (said.room / "j").write_text(json.dumps(answered(self.old)))
        for name in ("e", "e.map"):
            (said.room / name).unlink(missing_ok=True)
        said.within(to_store, ["--json", "j", "--store", "e"])
        rows = [store.Row(key.encode(), b"secrets", value) for key, value in self.new.items()]
        more = [store.row_bytes(1, number, row) for number, row in enumerate(rows, len(self.old) + 1)]
        (said.room / "e").write_bytes((said.room / "e").read_bytes() + b"".join(more))


STATUS = json.dumps([{"Endpoint": "localhost", "Status": {"header": HEADER}}])
ETCDCTL = """#!/usr/bin/python3
import sys
sys.stdin.read()
error, status, output = {0!r}
if "txn" not in sys.argv:
    error, status, output = "", 0, {2!r} if "endpoint" in sys.argv else {1!r}
sys.stderr.write(error)
print(output)
sys.exit(status)
"""


def repeated(held: list[bytes]) -> str:
    """What a server says that repeats what it was given, in each form."""
    return "; ".join(f"no {form}" for one in held for form in (repr(one), str(list(one)), one.hex(" "), *forms_of(one).split("\n")))


def transactions(export: Export, draw: random.Random) -> list[tuple[str, int, str]]:
    """How an etcd may answer a transaction: its error, its status, its output."""
    others = [{"Response": {"response_range": {"kvs": [one]}}} for one in answered({key: object_of(draw) for key in PATHS})["kvs"]]
    done = {"header": HEADER, "succeeded": True, "responses": others}
    held = list(export.new.values())
    return [
        ("", 0, json.dumps(done)),
        (repeated(held), 1, ""),
        (f"{held[0]!r}: request is too large", 1, ""),
        ("", 0, json.dumps({**done, "succeeded": False})),
        ("", 0, json.dumps({**done, "header": encoded(held[0])})),
        ("", 0, changed(json.dumps({**done, "succeeded": False}).encode(), draw).decode(errors="replace").replace("\0", "?")),
    ]


def sealed(keys: tuple[str, ...], number: int, draw: random.Random) -> Export:
    """Plain objects that a rewrite sealed: as it should, by another secret of the name, to another object, or left plain."""
    old = {key: object_of(draw) for key in PATHS}
    secret = base64.b64decode((keys[0], drawn(draw, 32))[number % 4 == 1])
    opened = {key: object_of(draw) if number % 4 == 2 else value for key, value in old.items()}
    seal: Callable[[str, bytes], bytes] = lambda key, data: values.seal(("aescbc", "key1", secret), key.encode(), data, draw.randbytes)
    return Export(old, opened if number % 4 == 3 else {key: seal(key, data) for key, data in opened.items()})


def body(value: bytes) -> bytes:
    """A value without its provider's prefix, which is no secret."""
    return value[len(store.MARK) :].split(b":", 3)[-1] if value.startswith(store.MARK) else value


def exports(said: Said, draw: random.Random) -> Iterator[Told]:
    """Rewrites on their way back: whole and changed, over an etcd that takes them, refuses them, and repeats what it was given."""
    from etcd_bridge.exporting import main as to_etcd

    before = os.environ.get("ETCDCTL")
    os.environ["ETCDCTL"] = str(said.room / "etcdctl")
    for number in range(EXPORTS):
        keys = tuple(drawn(draw, size) for size in (32, 16, 24))
        export = sealed(keys, number // 6, draw)
        program = said.room / "etcdctl"
        ways = transactions(export, draw)
        program.write_text(ETCDCTL.format(ways[number % len(ways)], json.dumps(answered(export.old)), STATUS))
        program.chmod(0o755)
        export.write(said)
        if number % 5 == 4:
            name = said.room / ("e", "e.map")[number % 2]
            name.write_bytes(changed(name.read_bytes(), draw))
        (said.room / "c").write_text(in_yaml(*keys))
        how = ["--verify", "c"] if number % 3 else ["--no-verify"]
        told = [("store-to-etcd", said.within(to_etcd, ["--store", "e", "--first", "secrets", *how, *(["--dry-run"] if number % 7 == 6 else [])]))]
        if number % 20 == 1:
            told.append(("store-to-etcd as a program", said.run([said.top / "bridges" / "store-to-etcd", "--store", "e", "--first", "secrets", *how])))
        yield f"a rewrite on its way back, number {number}", (*keys, *export.old.values(), *map(body, export.new.values())), told
    os.environ.pop("ETCDCTL")
    if before is not None:
        os.environ["ETCDCTL"] = before
