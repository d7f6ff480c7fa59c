"""An etcd of a call's own: on loopback, in a folder of its own, ended with the call."""
import ctypes
import signal
import socket
import subprocess
import time
import urllib.error
import urllib.request
from pathlib import Path

PATIENCE = 60
# How often another port is taken where somebody else has begun to listen at one.
PORTS = 5
TAKEN = "address already in use"
# (the end of a child by the end of its parent, of prctl)
PARENT_ENDS = 1


class CannotServe(Exception):
    """Why no etcd serves, in one line."""


def free_port() -> int:
    """A port of loopback that nobody listens at now."""
    with socket.socket() as probe:
        probe.bind(("127.0.0.1", 0))
        return probe.getsockname()[1]


def end_with_parent() -> None:
    """Of a child: it is killed where this process ends without a word."""
    ctypes.CDLL(None).prctl(PARENT_ENDS, signal.SIGKILL)


class OwnEtcd:
    """An etcd of one member, which serves within the `with` block at `endpoint`."""

    def __init__(self, folder: Path):
        self.folder, self.endpoint, self.process = folder, "", None

    def __enter__(self) -> "OwnEtcd":
        self.folder.mkdir()
        return self.at_free_port(PORTS)

    def at_free_port(self, ports: int) -> "OwnEtcd":
        """It serves at one of so many ports, each of which was free when it was looked at."""
        self.endpoint = f"http://127.0.0.1:{free_port()}"
        try:
            return self.started()
        except CannotServe:
            if ports > 1 and TAKEN in self.log():
                return self.at_free_port(ports - 1)
            raise

    def log(self) -> str:
        return (self.folder / "log").read_text(errors="replace")

    def started(self) -> "OwnEtcd":
        """It serves at its endpoint."""
        words = ["etcd", "--data-dir", "data", "--listen-client-urls", self.endpoint, "--advertise-client-urls", self.endpoint]
        words += [
            "--listen-peer-urls",
            "unix://peer:1",
            "--initial-advertise-peer-urls",
            "http://localhost:2",
            "--initial-cluster",
            "default=http://localhost:2",
        ]
        with open(self.folder / "log", "wb") as log:
            self.process = subprocess.Popen(
                words,
                cwd=self.folder,
                stdout=log,
                stderr=log,
                stdin=subprocess.DEVNULL,
                start_new_session=True,
                preexec_fn=end_with_parent,
            )
        try:
            self.wait()
        except BaseException:
            self.__exit__()
            raise
        return self

    def wait(self) -> None:
        """Waits until it serves."""
        began = time.monotonic()
        while not self.serves():
            if self.process.poll() is not None or time.monotonic() - began > PATIENCE:
                told = self.log().splitlines()[-1:]
                raise CannotServe(f"etcd doesn't serve: {''.join(told)[:300]}")
            time.sleep(0.1)

    def serves(self) -> bool:
        """Whether it says that it is well."""
        direct = urllib.request.build_opener(urllib.request.ProxyHandler({}))
        try:
            with direct.open(f"{self.endpoint}/health", timeout=2) as answer:
                return b"true" in answer.read()
        except (urllib.error.URLError, OSError):
            return False

    def __exit__(self, *_error) -> None:
        """Ends it, by its number."""
        self.process.terminate()
        self.process.wait()
