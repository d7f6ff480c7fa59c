"""The two that are asked: the API server's own code, and the built program of kmsrest."""

import base64
import json
import os
import subprocess
import sys
from dataclasses import dataclass
from pathlib import Path

sys.dont_write_bytecode = True
TOP = Path(__file__).resolve().parents[3]
sys.path.append(str(TOP))
# Seconds in which a call has ended.
PATIENCE = 600


class NotSo(Exception):
    """The two differ where they must agree."""


@dataclass(frozen=True)
class Opened:
    """What a value opened to, and whether it would be written otherwise today."""

    data: bytes
    stale: bool


@dataclass(frozen=True)
class Refused:
    """Why a value or a configuration is refused."""

    why: str


class Peer:
    """The API server's own code, behind lines."""

    def __init__(self, program: Path):
        self.child = subprocess.Popen([program], stdin=subprocess.PIPE, stdout=subprocess.PIPE, stderr=subprocess.DEVNULL)

    def __enter__(self) -> "Peer":
        return self

    def __exit__(self, *_error) -> None:
        self.child.stdin.close()
        self.child.stdout.close()
        self.child.wait()

    def ask(self, **request: object) -> dict:
        self.child.stdin.write(json.dumps(request).encode() + b"\n")
        self.child.stdin.flush()
        line = self.child.stdout.readline()
        if not line:
            raise NotSo("the peer ended")
        return json.loads(line)

    def load(self, name: str, file: Path) -> Refused | None:
        """Keeps the configuration in a file under a name, or tells why it is refused."""
        given = self.ask(op="load", name=name, file=str(file))
        return None if given["ok"] else Refused(given["error"])

    def seal(self, name: str, resource: str, path: str, data: bytes) -> bytes:
        given = self.ask(op="seal", name=name, resource=resource, path=path, data=base64.b64encode(data).decode())
        if not given["ok"]:
            raise NotSo(f"the API server's code seals nothing by {name} for {resource}: {given['error']}")
        return base64.b64decode(given["value"] or "")

    def open(self, name: str, resource: str, path: str, value: bytes) -> Opened | Refused:
        given = self.ask(op="open", name=name, resource=resource, path=path, value=base64.b64encode(value).decode())
        return Opened(base64.b64decode(given["data"] or ""), given["stale"]) if given["ok"] else Refused(given["error"])


def program() -> Path:
    """The built program: that of KMSREST, or the checkout's own."""
    named = os.environ.get("KMSREST")
    return Path(named).absolute() if named else TOP / "crates" / "kmsrest" / "out" / "kmsrest"


@dataclass(frozen=True)
class Ended:
    """How a call of kmsrest ended."""

    status: int
    output: bytes
    errors: str


def kmsrest(*words: object, data: bytes = b"") -> Ended:
    called = [str(word) for word in (program(), *words)]
    done = subprocess.run(called, input=data, capture_output=True, timeout=PATIENCE, check=False)
    return Ended(done.returncode, done.stdout, done.stderr.decode(errors="replace").strip())


def seal_here(file: Path, resource: str, path: str, data: bytes) -> bytes | Refused:
    done = kmsrest("encrypt", "--config", file, "--resource", resource, "--path", path, data=data)
    return done.output if done.status == 0 else Refused(done.errors)


def open_here(file: Path, resource: str, path: str, value: bytes) -> Opened | Refused:
    done = kmsrest("decrypt", "--config", file, "--resource", resource, "--path", path, data=value)
    if done.status == 0 and done.errors in ("fresh", "stale"):
        return Opened(done.output, done.errors == "stale")
    return Refused(done.errors)


def expect(holds: bool, what: str) -> None:
    if not holds:
        raise NotSo(what)
