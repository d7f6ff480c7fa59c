"""Stores, fleet files and lines of plugins, with known keys, seeds and plain values, and what is said of them."""
import base64
import json
import random
from collections.abc import Iterator

from masking_said import Said, encoded, loaded
from masking_typos import drawn, in_json, in_yaml, phrase
from reference import masking, store

Told = tuple[str, tuple, list[tuple[str, str]]]
STORE_LINES = ("kmsrest: text 41 0", "kmsrest: text 42 8", "kmsrest: text 42 60", "kmsrest: text 43 60", "kmsrest: text 46 60", "kmsrest: text 48 /s1", "kmsrest: text 51 /s2")
VERDICTS = ("drops-stored /s1 aescbc:key1", "kmsrest: text 49 0 drops-stored /s2 aescbc:key1", "pass", "kmsrest: absent /s3", "kmsrest: fault store 1", "kmsrest: fault files 1")


def changed(data: bytes, draw: random.Random) -> bytes:
    """A file that was cut, has another byte, or begins or ends otherwise."""
    at = draw.randrange(len(data))
    ways = (data[:at], data[:at] + draw.randbytes(1) + data[at + 1 :], data[at:], data + data[:at], b"\xef\xbb\xbf" + data, data[8:], data[:at] + data[at + 1 :])
    return ways[draw.randrange(len(ways))]


def stores(said: Said, draw: random.Random) -> Iterator[Told]:
    """Stores with plain values, whole and changed, and files that are none: a value, a key, an object."""
    recover = loaded(said.top / "front" / "recover").main
    for number in range(60):
        plain = [phrase(draw).encode() + draw.randbytes(30) for _ in range(3)]
        rows = [store.Row(b"/s%d" % at, b"secrets", value, bytes(8)) for at, value in enumerate(plain)]
        rows.append(store.Row(b"/s2", b"secrets", b"k8s:enc:aescbc:v1:key1:" + bytes(48), bytes(8)))
        whole = store.written(2, rows)
        keys = tuple(drawn(draw, size) for size in (32, 16, 24))
        data = (whole, changed(whole, draw), plain[0], keys[0].encode(), base64.b64decode(keys[0]))[number % 5 if number % 3 else 1]
        (said.room / "STORE").write_bytes(data)
        (said.room / "c").write_text(in_yaml(*keys))
        words = ("--config", "c", "--store", "STORE")
        told = [said.told(line, command, *words) for line in STORE_LINES for command in ("verify", "rewrite")[number % 2 :][:1]]
        judge = ("judge", "--store", "STORE", "--replica", "c", "--reload", "0=c")
        told += [said.told(line, *judge) for line in VERDICTS]
        (said.room / "NEW").unlink(missing_ok=True)
        told.append(("recover", said.within(recover, ["STORE", "NEW"])))
        if said.program and number % 10 < 2:
            told.append(("list by the front end", said.run([*said.front_end(), "list", "--store", "STORE"])))
            told.append(("verify by the front end", said.run([*said.front_end(), "verify", *words])))
            told.append(("judge by the front end", said.run([*said.front_end(), *judge])))
        yield f"a store, number {number}", (*keys, *plain), told


FLEET_TYPOS = (
    "putt secrets /s {data}",
    "put secrets {data} /s",
    "put {data} secrets /s",
    "put /s {data}",
    "put secrets /s {data} {data}",
    "put secrets /s {data}=",
    "put secrets /s {cut}",
    "put\tsecrets\t/s\t{data}",
    "{data}",
    "put {data}",
    "get {data} {data}",
    "reload {data} c",
    "worker {data} b",
    "worker w {data}",
    "replica {data} c",
    "put secrets /s '{data}'",
    "put Secrets /s {data}",
    "put secrets /s {plain}",
    "put secrets: /s {plain}",
    "delete {plain} {plain}",
)


def fleets(said: Said, draw: random.Random) -> Iterator[Told]:
    """Fleet files with a wrong line, behind lines that put known data."""
    for number, typo in enumerate(FLEET_TYPOS):
        plain = [phrase(draw), phrase(draw)]
        data = encoded(plain[1].encode())
        line = typo.format(data=data, plain=plain[1], cut=data[:-3])
        text = f"fleet 1\nreplica a c\nworker v a\nput secrets /a {encoded(plain[0].encode())}\n{line}\n"
        (said.room / "FLEET").write_text(text)
        keys = tuple(drawn(draw, 32) for _ in range(3))
        (said.room / "c").write_text(in_json(*keys))
        words = ("fleet", "--file", "FLEET", "--store", "no-store")
        told = [said.told(f"kmsrest: text 47 {at}", *words) for at in (4, 5, 6)]
        told += [said.told(said_line, *words) for said_line in ("kmsrest: text 22 0 0", "kmsrest: fault files 1", line)]
        if said.program and number % 4 == 0:
            told.append(("fleet by the front end", said.run([*said.front_end(), *words])))
        yield f"a fleet file: {typo}", (*keys, *plain), told


# ---- plugins


def kms_calls(said: Said, draw: random.Random) -> Iterator[Told]:
    """Requests to kms-bridge, whole and changed, over a plugin that repeats in its refusal what it was given."""
    import grpc
    from kms_bridge.bridge import Bridge
    from kms_bridge.log import Log
    from kms_bridge.plugin import Plugin

    class Refusal(grpc.RpcError):
        """A refusal that repeats what was asked."""

        def __init__(self, *given: bytes):
            self.given = given

        def code(self) -> grpc.StatusCode:
            return grpc.StatusCode.INTERNAL

        def details(self) -> str:
            return "; ".join(f"no {one!r}, no {encoded(one)}, no {one.hex()}" for one in self.given)

    def refuse(request, **_options):
        raise Refusal(*(getattr(request, name) for name in ("plaintext", "ciphertext") if hasattr(request, name)))

    plugin = Plugin("unix:nowhere", 1, 0)
    plugin._status = plugin._encrypt = plugin._decrypt = refuse
    log = said.room / "log"
    bridge = Bridge(plugin, Log(str(log)), False)
    for number in range(120):
        seed = draw.randbytes(32)
        request = {"call": ("encrypt", "decrypt")[number % 2], "plaintext": encoded(seed), "ciphertext": encoded(seed), "key_id": "k", "annotations": {}, "uid": "1"}
        line = json.dumps(request).encode()
        line = line if number < 10 else changed(line, draw)
        replies = []
        told = said.within(lambda words: replies.append(bridge.answer(words[0])) or 0, [line])
        kept = log.read_text() if log.exists() else ""
        # (an error is what kmsrest is answered, and shows nowhere; it is searched all the same)
        errors = [reply.decode() for reply in replies if b'"error"' in reply]
        yield f"a request to kms-bridge, number {number}", (seed,), [("stderr", told), ("log", kept), ("error", "".join(errors))]
        log.write_bytes(b"")
    plugin.close()


PLUGIN = """#!/usr/bin/python3
import sys
for line in sys.stdin:
    print({reply!r}, flush=True)
"""


def asked_plugins(said: Said, draw: random.Random) -> Iterator[Told]:
    """Replies of plugins with seeds in them, as an export's --verify asks, and as the program does."""
    from etcd_bridge.errors import BridgeError
    from etcd_bridge.plugin_lines import Link

    seed = draw.randbytes(32)
    held = encoded(seed)
    replies = [
        json.dumps({"error": f"the seed is {held}"}),
        json.dumps({"error": f"it is {seed.hex()}, or\n{held}"}),
        json.dumps({"plaintext": held + "!"}),
        json.dumps({"plaintext": [held]}),
        json.dumps([held]),
        f'{{"plaintext": "{held}',
        held,
        json.dumps({"error": [held, {"a": held}]}),
    ]
    for number, reply in enumerate(replies):
        program = said.room / "plugin"
        program.write_text(PLUGIN.format(reply=reply))
        program.chmod(0o755)

        def ask(words: list[str]) -> int:
            link = Link("p", words[0])
            try:
                link.unwrap(b"k", {}, b"x")
            except BridgeError as no:
                print(no)
            finally:
                link.close()
            return 0

        told = [("etcd_bridge", said.within(ask, [str(program)]))]
        if said.program and number % 3 == 0:
            (said.room / "c").write_bytes((said.room / "kms.yaml").read_bytes())
            words = ["encrypt", "--config", "c", "--resource", "secrets", "--path", "/s", "--plugin", f"p={program}"]
            told.append(("encrypt by the front end", said.run([*said.front_end(), *words], b"")))
        yield f"a plugin's reply, number {number}", (seed,), told


def in_quotes(_said: Said, draw: random.Random) -> Iterator[Told]:
    """Bytes that a plugin or a server repeats in quotes, as Python and JSON write them, among which are quotes, tabs and backslashes."""
    for _ in range(400):
        data = bytes(draw.choice(b"\t\n\r\\'\"") if draw.random() < 0.3 else draw.randrange(256) for _ in range(32))
        for form in (repr(data), json.dumps(data.decode("latin-1")), str(bytearray(data))):
            yield "bytes in quotes", (data,), [("words", masking.foreign(f"INTERNAL: no {form}", [data]))]
