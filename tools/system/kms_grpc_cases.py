"""The built program with a KMS v2 plugin over gRPC: what is sealed and opened, and what it ends with where calls fail."""
import json
import os
import shutil
import subprocess
import threading
import time
import uuid
from pathlib import Path

from support import BRIDGE, PATH, PATIENCE, Checks, Ended, KmsServer, call, kmsrest_program, running

FAULT = "kmsrest: fault plugin p 1"
DATA = b"what is to be kept secret"
# Seconds of a try: so long that each answer is there before, and so short that two tries without one end soon.
LONG, SHORT = 120, 3
CONFIG = """apiVersion: apiserver.config.k8s.io/v1
kind: EncryptionConfiguration
resources:
  - resources: [secrets]
    providers:
      - kms:
          apiVersion: v2
          name: p
          endpoint: ENDPOINT
          timeout: TIMEOUT
      - identity: {}
"""


class Desk:
    """A folder with a configuration, the bridge's program for it, and a server that it leads to."""

    def __init__(self, folder: Path, name: str, endpoint: str | None = None, target: str | None = None):
        self.folder = folder / name
        self.folder.mkdir()
        self.endpoint = endpoint or f"unix://{self.folder}/kms.sock"
        self.server = KmsServer(self.folder, "server", target or f"unix:{self.folder}/kms.sock")
        self.log = self.folder / "log"
        self.store = self.folder / "store"
        self.config = self.folder / "config.yaml"
        self.plugin = ""
        self.bridge()

    def bridge(self, *words: str, seconds: int = LONG) -> None:
        """Writes the bridge's program anew, with these words."""
        text = CONFIG.replace("ENDPOINT", self.endpoint).replace("TIMEOUT", f"{seconds}s")
        self.config.write_text(text, encoding="utf-8")
        shutil.rmtree(self.folder / "programs", ignore_errors=True)
        asked = [BRIDGE, "--into", self.folder / "programs", "--config", self.config, "--log", self.log, *words]
        self.plugin = call(asked).output.decode().strip()

    def kmsrest(self, command: str, *words: object, data: bytes = b"") -> Ended:
        """Calls the built program with the configuration, and the plugin."""
        return call([kmsrest_program(), command, "--config", self.config, *words, self.plugin], data)

    def encrypt(self) -> Ended:
        """Seals the data."""
        return self.kmsrest("encrypt", "--resource", "secrets", "--path", PATH, data=DATA)

    def decrypt(self, value: bytes) -> Ended:
        """Opens a value."""
        return self.kmsrest("decrypt", "--resource", "secrets", "--path", PATH, data=value)

    def put(self, name: str) -> Ended:
        """Puts the data at a path of that name."""
        words = ["--store", self.store, "--resource", "secrets", "--path", f"/registry/secrets/d/{name}"]
        return self.kmsrest("put", *words, data=DATA)

    def get(self, name: str) -> tuple[int, bytes, str]:
        """Reads the object of that name."""
        done = self.kmsrest("get", "--store", self.store, "--path", f"/registry/secrets/d/{name}")
        return done.status, done.output, done.own_line

    def rewrite(self) -> tuple[int, list[str], str]:
        """Seals anew what is stale."""
        done = self.kmsrest("rewrite", "--store", self.store)
        return done.status, done.output.decode().splitlines(), done.own_line

    def logged(self, kind: str) -> list[dict]:
        """What the log has of a kind of calls."""
        lines = map(json.loads, self.log.read_text(encoding="utf-8").splitlines())
        return [line for line in lines if line["call"] == kind]

    def forget_log(self) -> None:
        """The log begins anew."""
        self.log.write_text("", encoding="utf-8")


def _inspect(value: bytes) -> list[str]:
    return call([kmsrest_program(), "inspect"], value).output.decode().splitlines()


def _is_uuid(text: str) -> bool:
    try:
        return str(uuid.UUID(text)) == text
    except ValueError:
        return False


def _fails(checks: Checks, desk: Desk, what: str, line: str = FAULT, status: int = 4) -> Ended:
    done = desk.encrypt()
    checks.expect(what, (status, b"", line), (done.status, done.output, done.own_line))
    return done


def _check_sealing(checks: Checks, desk: Desk) -> None:
    desk.server.says(annotations={"kind.example.com": "0102"})
    sealed = desk.encrypt()
    checks.expect("data are sealed", (0, ""), (sealed.status, sealed.errors))
    first, *members, _data = _inspect(sealed.output)
    wanted = ["kms p", "key-id k1", "source 60", "annotation kind.example.com 2", "type 1"]
    checks.expect("the value has the key id, the source and the annotation", wanted, [first.rsplit(" ", 1)[0], *members])
    opened = desk.decrypt(sealed.output)
    checks.expect("and are opened", (0, DATA, "fresh\n"), (opened.status, opened.output, opened.errors))
    asked = [desk.server.calls(kind)[-1] for kind in ("Encrypt", "Decrypt")]
    checks.expect("each request has a uid of its own", [True, True, True],
                  [_is_uuid(asked[0]["uid"]), _is_uuid(asked[1]["uid"]), asked[0]["uid"] != asked[1]["uid"]])
    logged = [desk.logged(kind)[-1] for kind in ("encrypt", "decrypt")]
    checks.expect("the log has both uids", [each["uid"] for each in asked], [each["sent"] for each in logged])
    checks.expect("also kmsrest's own", [True, True], [each["uid"].isdigit() for each in logged])
    checks.expect("the authority is localhost", {"localhost"}, {each["host"] for each in asked})
    checks.expect("a call has a deadline of the timeout", [True] * 2, [LONG / 10 < each["left"] < LONG + 1 for each in asked])
    checks.expect("the log is its owner's alone", 0o600, desk.log.stat().st_mode & 0o777)


def _check_refusals(checks: Checks, desk: Desk) -> None:
    desk.server.says(troubles=[{"call": "Encrypt", "do": "PERMISSION_DENIED"}])
    done = _fails(checks, desk, "a plugin that refuses is a fault")
    checks.expect("the user reads why", True, "kms-bridge: encrypt: PERMISSION_DENIED: as the test wants it" in done.errors)
    checks.expect("it isn't asked again", 1, len(desk.server.calls("Encrypt")))
    checks.expect("the log has the code", "PERMISSION_DENIED", desk.logged("encrypt")[-1]["failed"])
    desk.server.says(healthz="down")
    _fails(checks, desk, "a plugin that isn't well is told", "kmsrest: text 45 p healthz down", 3)
    desk.server.says(version="v2beta1")
    _fails(checks, desk, "v2beta1 isn't taken", "kmsrest: text 45 p version v2beta1", 3)
    desk.bridge("--accept-v2beta1")
    checks.expect("unless it is accepted", 0, desk.encrypt().status)
    desk.bridge()
    desk.server.says(annotations={"nodots": "00"})
    _fails(checks, desk, "an annotation whose key is no domain name is a fault")
    desk.server.says()
    sealed = desk.encrypt().output
    desk.server.says(troubles=[{"call": "Decrypt", "do": "flip"}])
    opened = desk.decrypt(sealed)
    checks.expect("another seed opens nothing", (1, b"", "kmsrest: refused 4 BadTag"),
                  (opened.status, opened.output, opened.own_line))


def _check_retries(checks: Checks, desk: Desk) -> None:
    desk.server.says(troubles=[{"call": "Encrypt", "do": "UNAVAILABLE", "to": 2}])
    checks.expect("a plugin that is there at the third try is used", 0, desk.encrypt().status)
    asked = desk.server.calls("Encrypt")
    checks.expect("the tries have one uid", (3, 1), (len(asked), len({each["uid"] for each in asked})))
    checks.expect("the log has how many", 3, desk.logged("encrypt")[-1]["tries"])
    desk.bridge("--retries", "1")
    desk.server.says(troubles=[{"call": "Encrypt", "do": "UNAVAILABLE", "to": 2}])
    _fails(checks, desk, "with one retry it is a fault")
    desk.bridge("--retries", "1", seconds=SHORT)
    desk.server.says(troubles=[{"call": "Encrypt", "do": "hang"}])
    done = _fails(checks, desk, "a plugin that hangs is a fault")
    checks.expect("after its two deadlines", (2, True), (len(desk.server.calls("Encrypt")), 2 * SHORT <= done.seconds))
    checks.expect("each of the timeout", [True] * 2, [0 < each["left"] < SHORT + 1 for each in desk.server.calls("Encrypt")])
    desk.server.says(troubles=[{"call": "Encrypt", "do": "hang", "to": 1}])
    checks.expect("one that hangs once is asked again", 0, desk.encrypt().status)
    desk.bridge()


def _check_late(checks: Checks, desk: Desk) -> None:
    timer = threading.Timer(1.0, desk.server.start)
    timer.start()
    try:
        done = desk.encrypt()
        checks.expect("a plugin that comes late is waited for", (0, ""), (done.status, done.errors))
    finally:
        timer.join()
        desk.server.stop()
    desk.bridge("--retries", "0", seconds=SHORT)
    _fails(checks, desk, "nobody at the socket is a fault")
    desk.bridge()


def _check_restart(checks: Checks, desk: Desk) -> None:
    """One bridge, and a server that dies between two of its lines."""
    words = [BRIDGE, "--endpoint", desk.endpoint, "--timeout", f"{LONG}s"]
    with subprocess.Popen(words, stdin=subprocess.PIPE, stdout=subprocess.PIPE) as bridge:
        def status() -> str | None:
            bridge.stdin.write(b'{"call":"status"}\n')
            bridge.stdin.flush()
            return json.loads(bridge.stdout.readline()).get("key_id")

        with running(desk.server):
            before = status()
        desk.server.says(current="k2")
        with running(desk.server):
            checks.expect("a server that was started anew is found again", ("k1", "k2"), (before, status()))
        # (what it writes to goes on being read until it has ended: a bridge without a reader ends otherwise)
        bridge.stdin.close()
        ended = bridge.wait(PATIENCE)
    checks.expect("a bridge ends at its input's end", 0, ended)


def _check_own_rotation(checks: Checks, desk: Desk) -> None:
    names = ["a", "b", "c", "d", "e"]
    with running(desk.server):
        checks.expect("objects are put", [0] * 5, [desk.put(name).status for name in names])
        desk.server.says(current="k2")
        checks.expect("under another key of the plugin an object is stale", (0, DATA, "stale"), desk.get("a"))
        # One seed is wrapped for all, and each value's own is unwrapped. (With a retry the bridge would wait for another server.)
        desk.bridge("--retries", "0")
        desk.server.says(current="k2", troubles=[{"call": "Decrypt", "do": "die", "from": 3}])
        status, lines, line = desk.rewrite()
        checks.expect("a plugin that dies within a rewrite is a fault", (4, FAULT), (status, line))
        checks.expect("what was done is reported", ["rewritten 2", "fresh 0", "changed 0", "left 0"], lines)
    desk.bridge()
    with running(desk.server):
        desk.server.says(current="k2")
        checks.expect("all objects are still read", [(0, DATA)] * 5, [desk.get(name)[:2] for name in names])
        status, lines, _ = desk.rewrite()
        checks.expect("the rest is done later", (0, ["rewritten 3", "fresh 2"]), (status, lines[:2]))
        desk.server.says(current="k2", keys={"k2": KmsServer.KEYS["k2"]})
        checks.expect("then the old key isn't needed", [(0, DATA, "fresh")] * 5, [desk.get(name) for name in names])


def _check_fleet(checks: Checks, desk: Desk) -> None:
    workers = 4
    lines = ["fleet 1", "replica a config.yaml"]
    for number in range(workers):
        lines += [f"worker w{number} a", f"put secrets /s{number} aGVsbG8=", f"get /s{number}"]
    (desk.folder / "fleet").write_text("\n".join(lines) + "\n", encoding="utf-8")
    with running(desk.server):
        desk.forget_log()
        words = [kmsrest_program(), "fleet", "--file", "fleet", "--store", "fleet-store", desk.plugin]
        done = call(words, cwd=desk.folder)
    found = [line for line in done.output.decode().splitlines() if line.endswith(" aGVsbG8=")]
    checks.expect("a fleet's workers share a server", (0, workers), (done.status, len(found)))
    checks.expect("the seed was wrapped once", 1, len(desk.server.calls("Encrypt")))


def _check_secrecy(checks: Checks, desk: Desk, seen: list[bytes]) -> None:
    """No log, program or standard error has a key of the server, or the data."""
    wanted = [DATA, *(key.encode() for key in KmsServer.KEYS.values())]
    texts = [*seen, *(file.read_bytes() for file in (desk.folder / "programs").iterdir()), desk.log.read_bytes()]
    checks.expect("no log has data or keys", 0, sum(each in text for each in wanted for text in texts))


def check(checks: Checks, folder: Path) -> None:
    """All of it."""
    desk = Desk(folder, "path")
    with running(desk.server):
        _check_sealing(checks, desk)
        _check_refusals(checks, desk)
        _check_retries(checks, desk)
    desk.server.says()
    _check_late(checks, desk)
    _check_restart(checks, desk)
    desk.server.says()
    _check_own_rotation(checks, desk)
    desk.server.says()
    _check_fleet(checks, desk)
    _check_secrecy(checks, desk, [])
    name = f"kmsrest-check-{os.getpid()}-{time.monotonic_ns()}"
    abstract = Desk(folder, "abstract", f"unix:///@{name}", f"unix-abstract:{name}")
    with running(abstract.server):
        sealed = abstract.encrypt()
        opened = abstract.decrypt(sealed.output)
        checks.expect("an abstract socket leads to the plugin", (0, 0, DATA), (sealed.status, opened.status, opened.output))
