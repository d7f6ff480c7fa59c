"""What the checks of this folder share: counts of what was seen, calls of the built program, and a KMS v2 server."""
import json
import os
import subprocess
import sys
import time
from collections.abc import Callable, Mapping
from contextlib import contextmanager
from dataclasses import dataclass
from pathlib import Path
from typing import Any

TOP = Path(__file__).resolve().parents[2]
BRIDGE = TOP / "bridges" / "kms-bridge"
PATH = "/registry/secrets/d/s"
# Seconds in which whatever is waited for has come: ten times of what a slow and busy machine needs. Nothing is measured by them.
PATIENCE = 600


def kmsrest_program() -> Path:
    """The built program: that of KMSREST, or the checkout's own."""
    named = os.environ.get("KMSREST")
    return Path(named).absolute() if named else TOP / "crates" / "kmsrest" / "out" / "kmsrest"


def skip(reason: str) -> None:
    """Ends a check that can't be made here."""
    print(f"skipped: {reason}")
    sys.exit(0)


class Checks:
    """How many things were as they must be; each is a line."""

    def __init__(self):
        self.passed = 0
        self.failed = 0

    def expect(self, what: str, wanted: object, found: object) -> None:
        """Counts what was found."""
        if wanted == found:
            self.passed += 1
            print(f"ok: {what}", flush=True)
        else:
            self.failed += 1
            print(f"not so: {what}: {found!r}, and not {wanted!r}", flush=True)

    def end(self) -> int:
        """The last line, and the status."""
        print(f"{self.passed} passed, {self.failed} failed")
        return 1 if self.failed else 0


@dataclass(frozen=True)
class Ended:
    """How a call of the program ended."""

    status: int
    output: bytes
    errors: str
    seconds: float

    @property
    def own_line(self) -> str:
        """The program's own line: the last of its standard error, where plugins' words stand before it."""
        lines = self.errors.splitlines()
        return lines[-1] if lines else ""


def wait_until(is_so: Callable[[], Any], what: str, child: subprocess.Popen | None = None) -> None:
    """Waits until it is so. It is an error where it isn't in time, or where the child that is to bring it about has ended before."""
    end = time.monotonic() + PATIENCE
    while not is_so():
        if child is not None and child.poll() is not None and not is_so():
            raise RuntimeError(f"{what}: the program ended before, with {child.returncode}")
        if time.monotonic() > end:
            raise RuntimeError(f"{what}: not in {PATIENCE} seconds")
        time.sleep(0.02)


def stood_on(terminal: int) -> bytes:
    """All that was written to a terminal, by its own end, once nobody has the other one. That end is closed."""
    text = b""
    try:
        while piece := os.read(terminal, 65536):
            text += piece
    except OSError:  # (nobody has the other end any more)
        pass
    os.close(terminal)
    return text


def call(words: list[object], data: bytes = b"", timeout: float = PATIENCE, **options: Any) -> Ended:
    """Calls a program and waits for its end."""
    began = time.monotonic()
    done = subprocess.run(
        [str(word) for word in words], input=data, capture_output=True, timeout=timeout, check=False, **options
    )
    return Ended(done.returncode, done.stdout, done.stderr.decode(errors="replace"), time.monotonic() - began)


class KmsServer:
    """The server of kms-server, its state and its record."""

    KEYS = {"k1": "00" * 32, "k2": "11" * 32}

    def __init__(self, folder: Path, name: str, target: str):
        self.target = target
        self._state = folder / f"{name}.state"
        self._record = folder / f"{name}.record"
        self._process: subprocess.Popen | None = None
        self.says()

    def says(self, **state: Any) -> None:
        """Another state. What isn't given is as in a plugin that is well and writes by k1. The record begins anew."""
        text = json.dumps({"current": "k1", "keys": self.KEYS, "written": time.monotonic_ns(), **state})
        fresh = self._state.with_suffix(".fresh")
        fresh.write_text(text, encoding="utf-8")
        fresh.replace(self._state)
        self._record.write_text("", encoding="utf-8")

    def start(self) -> None:
        """Starts it, and waits until it listens."""
        words = ["/usr/bin/python3", TOP / "tools/system/kms-server", self.target, self._state, self._record]
        self._process = subprocess.Popen(words, stdout=subprocess.PIPE, stderr=subprocess.DEVNULL)
        if not self._process.stdout.readline():
            raise RuntimeError(f"kms-server doesn't listen at {self.target}: it ended with {self._process.wait(PATIENCE)}")

    def stop(self) -> None:
        """Ends it, where it hasn't ended by itself, and waits for it."""
        if self._process is not None:
            self._process.kill()
            self._process.wait()
            self._process.stdout.close()
            self._process = None

    def calls(self, kind: str) -> list[Mapping[str, Any]]:
        """What it was asked of this kind since its state was given."""
        lines = self._record.read_text(encoding="utf-8").splitlines()
        return [each for each in map(json.loads, lines) if each["call"] == kind]


@contextmanager
def running(server: KmsServer):
    """The server, started, and ended behind all."""
    server.start()
    try:
        yield server
    finally:
        server.stop()
