"""An etcd of a check's own, on loopback, and what the checks do there: values in, values out, by etcdctl's own words."""
import base64
import json
import os
import random
import shutil
import signal
import socket
import subprocess
import time
from dataclasses import dataclass
from pathlib import Path

from support import PATIENCE, TOP, Ended, call, kmsrest_program

BRIDGES = TOP / "bridges"
PEER = "http://localhost:2"
# etcdctl's own patience is two seconds for a connection and five for an answer, which a busy machine takes. It reads no other one from
# the environment.
PATIENT = ("etcdctl", f"--dial-timeout={PATIENCE}s", f"--command-timeout={PATIENCE}s")
IMPATIENT = ("--dial-timeout=1s", "--command-timeout=5s")
# Ports that a system doesn't give to clients, and those of them that are this process's own, each by a socket that keeps others off.
PORTS = range(15000, 30000)
OWN: dict[int, socket.socket] = {}
# What the bridges have printed, each line with its program.
TOLD: set[tuple[str, str]] = set()


@dataclass(frozen=True)
class Stored:
    """What etcd has at a key."""

    value: bytes
    mod: int
    lease: int


def free_port() -> int:
    """A port of loopback at which nobody listens. It is this process's own up to its end: the checks that run beside it take another
    one, also before somebody listens there."""
    draw = random.SystemRandom()
    while True:
        port = draw.choice(PORTS)
        own = socket.socket(socket.AF_UNIX, socket.SOCK_DGRAM)
        try:
            own.bind(f"\0kmsrest-check-port-{port}")
            with socket.socket() as probe:
                probe.bind(("127.0.0.1", port))
        except OSError:
            own.close()
            continue
        OWN[port] = own
        return port


def bare_environment() -> dict[str, str]:
    """The environment without what speaks of another etcd."""
    kept = {name: value for name, value in os.environ.items() if not name.startswith(("ETCD_", "ETCDCTL"))}
    return {**kept, "ETCDCTL_API": "3", "PYTHONDONTWRITEBYTECODE": "1"}


def patient_etcdctl(folder: Path) -> Path:
    """A folder with an etcdctl, for who finds it on the path: the real one, with patience."""
    program = folder / "bin" / "etcdctl"
    program.parent.mkdir()
    words = " ".join([shutil.which("etcdctl") or "/nowhere/etcdctl", *PATIENT[1:]])
    program.write_text(f'#!/bin/sh\nexec {words} "$@"\n')
    program.chmod(0o755)
    return program.parent


class EtcdServer:
    """An etcd of one member in a folder of its own; with certificates it wants one of its clients too."""

    def __init__(self, folder: Path, certificates: "Certificates | None" = None):
        folder.mkdir()
        self.folder, self.certificates, self.process = folder, certificates, None
        scheme = "http" if certificates is None else "https"
        self.endpoint = f"{scheme}://127.0.0.1:{free_port()}"
        self.programs = patient_etcdctl(folder)
        self.environment = {**bare_environment(), "ETCDCTL_ENDPOINTS": self.endpoint}
        self.environment["PATH"] = f"{self.programs}:{os.environ['PATH']}"
        if certificates is not None:
            self.environment |= certificates.client_environment()

    def __enter__(self) -> "EtcdServer":
        words = ["etcd", "--data-dir", "data", "--enable-grpc-gateway=false", "--listen-peer-urls", "unix://peer:1"]
        words += ["--initial-advertise-peer-urls", PEER, "--initial-cluster", f"default={PEER}"]
        words += ["--listen-client-urls", self.endpoint, "--advertise-client-urls", self.endpoint]
        if self.certificates is not None:
            words += self.certificates.server_words()
        self.log = open(self.folder / "log", "wb")
        self.process = subprocess.Popen(
            words, cwd=self.folder, stdout=self.log, stderr=self.log, env=bare_environment(), start_new_session=True
        )
        began = time.monotonic()
        while self.etcdctl(*IMPATIENT, "endpoint", "health").status != 0:
            if time.monotonic() - began > PATIENCE or self.process.poll() is not None:
                self.stop()
                raise RuntimeError(f"etcd doesn't serve: {(self.folder / 'log').read_text()[-400:]}")
            time.sleep(0.1)
        return self

    def __exit__(self, *_error) -> None:
        self.stop()

    def stop(self) -> None:
        """Ends it, by its pid."""
        if self.process is not None:
            self.process.send_signal(signal.SIGTERM)
            self.process.wait()
            self.process = None
            self.log.close()

    def etcdctl(self, *words: object, data: bytes = b"") -> Ended:
        return call(["etcdctl", *words], data, env=self.environment)

    def put(self, key: str, value: bytes, *words: str) -> None:
        done = self.etcdctl("put", *words, "--", key, data=value)
        if done.output != b"OK\n":
            raise RuntimeError(f"etcdctl put {key}: {done.errors}")

    def delete(self, key: str) -> None:
        self.etcdctl("del", "--", key)

    def fill(self, values: dict[str, bytes]) -> None:
        """Many values, in transactions of etcdctl's own words."""
        batch, size = [], 0
        for key, value in values.items():
            if batch and (len(batch) == 100 or size + len(value) > 500_000):
                self.send(batch)
                batch, size = [], 0
            batch.append(f'put "{key}" "{escaped(value)}"\n')
            size += len(value)
        self.send(batch)

    def send(self, puts: list[str]) -> None:
        done = self.etcdctl("txn", data=("\n" + "".join(puts) + "\n\n").encode())
        if done.status != 0:
            raise RuntimeError(f"etcdctl txn: {done.errors}")

    def values(self, prefix: str) -> dict[str, Stored]:
        """All that is stored below a prefix."""
        answer = json.loads(self.etcdctl("get", "--prefix", prefix, "-w", "json").output)
        decoded = lambda text: base64.b64decode(text)
        return {
            decoded(one["key"]).decode(): Stored(decoded(one.get("value", "")), one["mod_revision"], one.get("lease", 0))
            for one in answer.get("kvs", ())
        }

    def bridge(self, name: str, *words: object, **environment: str) -> Ended:
        """Calls one of the bridges on this etcd."""
        done = call([BRIDGES / name, *words], env={**self.environment, **environment})
        TOLD.update((name, line) for text in (done.output.decode(errors="replace"), done.errors) for line in text.splitlines())
        return done


def escaped(value: bytes) -> str:
    return "".join(f"\\x{byte:02x}" for byte in value)


def kmsrest(*words: object, data: bytes = b"", cwd: Path | None = None) -> Ended:
    """Calls the built program."""
    return call([kmsrest_program(), *words], data, cwd=cwd)


class Certificates:
    """An authority, and certificates of a server and of a client, which openssl makes."""

    def __init__(self, folder: Path):
        folder.mkdir()
        self.folder = folder
        self.openssl("req", "-x509", *self.key("ca"), "-subj", "/CN=check", "-days", "2", "-out", folder / "ca.crt")
        self.signed("server", "subjectAltName=IP:127.0.0.1,DNS:localhost\nextendedKeyUsage=serverAuth,clientAuth")
        self.signed("client", "extendedKeyUsage=clientAuth")

    def key(self, name: str) -> list[object]:
        return ["-newkey", "ec", "-pkeyopt", "ec_paramgen_curve:P-256", "-nodes", "-keyout", self.folder / f"{name}.key"]

    def openssl(self, *words: object) -> None:
        done = call(["openssl", *words])
        if done.status != 0:
            raise RuntimeError(f"openssl: {done.errors}")

    def signed(self, name: str, extensions: str) -> None:
        request, told = self.folder / f"{name}.csr", self.folder / f"{name}.ext"
        told.write_text(extensions + "\n")
        self.openssl("req", "-new", *self.key(name), "-subj", f"/CN={name}", "-out", request)
        authority = ["-CA", self.folder / "ca.crt", "-CAkey", self.folder / "ca.key", "-CAcreateserial"]
        out = ["-extfile", told, "-days", "2", "-out", self.folder / f"{name}.crt"]
        self.openssl("x509", "-req", "-in", request, *authority, *out)

    def server_words(self) -> list[str]:
        pair = ["--cert-file", f"{self.folder}/server.crt", "--key-file", f"{self.folder}/server.key"]
        return [*pair, "--trusted-ca-file", f"{self.folder}/ca.crt", "--client-cert-auth"]

    def client_environment(self) -> dict[str, str]:
        return {
            "ETCDCTL_CACERT": f"{self.folder}/ca.crt",
            "ETCDCTL_CERT": f"{self.folder}/client.crt",
            "ETCDCTL_KEY": f"{self.folder}/client.key",
        }
