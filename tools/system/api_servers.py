"""Real API servers of a check's own over an etcd of its own, on loopback: started, asked over HTTPS, and ended by their pids."""
import base64
import http.client
import json
import os
import signal
import ssl
import subprocess
import sys
import tempfile
import time
from dataclasses import dataclass, field
from pathlib import Path

from etcd_server import Certificates, EtcdServer, free_port
from support import TOP, call

sys.path.append(str(TOP / "tools" / "cross" / "api-server"))
import building  # noqa: E402 (its folder is known only now)

# Seconds in which an API server must be ready, and for how long one that never gets so is looked at.
PATIENCE, STAYS = 400, 15
TOKEN = "token-of-the-check"
NAMESPACE = "check"
SECRETS = f"/api/v1/namespaces/{NAMESPACE}/secrets"
FLAGS = (
    *("--bind-address=127.0.0.1", "--insecure-port=0", "--service-account-issuer=https://kubernetes.default.svc"),
    *("--authorization-mode=AlwaysAllow", "--anonymous-auth=false", "--service-cluster-ip-range=10.96.0.0/24"),
    # (an address of no machine: it stands in etcd alone, with the lease of the masters)
    *("--advertise-address=192.0.2.1", "--profiling=false", "--v=1", "--watch-cache=true"),
    "--disable-admission-plugins=ServiceAccount,TaintNodesByCondition,Priority,StorageObjectInUseProtection",
)


@dataclass(frozen=True)
class Answer:
    """What an API server answered."""

    status: int
    body: bytes

    def json(self) -> dict:
        return json.loads(self.body)


def kubectl_program() -> Path:
    """Debian's kubectl of the same release, unpacked beside the API server."""
    folder = building.cache() / f"{building.PACKAGE}-{building.release().version}"
    program = folder / "kubectl"
    if not os.access(program, os.X_OK):
        done = call(["apt-get", "download", "-q", building.BINARY_PACKAGE], cwd=folder)
        package = next(folder.glob(f"{building.BINARY_PACKAGE}_*.deb"), None)
        if done.status != 0 or package is None:
            raise building.Missing(f"apt-get download {building.BINARY_PACKAGE}: {done.errors.strip()[-200:]}")
        with tempfile.TemporaryDirectory(dir=folder) as room:
            call(["dpkg", "-x", package, room])
            (Path(room) / "usr" / "bin" / "kubectl").replace(program)
        package.unlink()
    return program


class Cluster:
    """An etcd, certificates, and API servers by their numbers."""

    def __init__(self, program: Path, folder: Path, count: int, config: Path):
        folder.mkdir()
        self.program, self.folder = program, folder
        self.etcd = EtcdServer(folder / "etcd")
        self.certificates = Certificates(folder / "certificates")
        self.certificates.openssl("genrsa", "-out", folder / "account.key", "2048")
        (folder / "tokens").write_text(f'{TOKEN},check,1,"system:masters"\n')
        self.servers = [ApiServer(self, number) for number in range(count)]
        self.config = config

    def __enter__(self) -> "Cluster":
        self.etcd.__enter__()
        try:
            self.start_all()
            self.servers[0].create("/api/v1/namespaces", {"kind": "Namespace", "metadata": {"name": NAMESPACE}})
        except BaseException:
            self.__exit__()
            raise
        return self

    def start_all(self) -> None:
        for server in self.servers:
            server.start(self.config)
        for server in self.servers:
            server.wait_ready()

    def __exit__(self, *_error) -> None:
        for server in self.servers:
            server.stop()
        self.etcd.stop()

    def stored(self, prefix: str = f"/registry/secrets/{NAMESPACE}/"):
        return self.etcd.values(prefix)


@dataclass
class ApiServer:
    """One API server, with the configuration that it was started with last."""

    cluster: Cluster
    number: int
    config: Path | None = None
    process: subprocess.Popen | None = None
    port: int = field(default_factory=free_port)

    def words(self) -> list[str]:
        at, pair = self.cluster.folder, self.cluster.certificates.folder
        own = {
            "etcd-servers": self.cluster.etcd.endpoint,
            "secure-port": self.port,
            "tls-cert-file": pair / "server.crt",
            "tls-private-key-file": pair / "server.key",
            "cert-dir": at / f"made-{self.number}",
            "service-account-key-file": at / "account.key",
            "service-account-signing-key-file": at / "account.key",
            "token-auth-file": at / "tokens",
            "encryption-provider-config": self.config,
        }
        return [str(self.cluster.program), *FLAGS, *(f"--{name}={value}" for name, value in own.items())]

    def start(self, config: Path) -> None:
        self.config = config
        with open(self.cluster.folder / f"log-{self.number}", "ab") as log:
            self.process = subprocess.Popen(self.words(), stdout=log, stderr=log, start_new_session=True)

    def stop(self) -> None:
        """Ends it at once: one with hung watches takes half a minute to end by itself."""
        if self.process is not None:
            self.process.send_signal(signal.SIGKILL)
            self.process.wait()
            self.process = None

    def restart(self, config: Path) -> None:
        self.stop()
        self.start(config)

    def reload(self, config: Path) -> None:
        """Another configuration, as an API server without automatic reload gets it."""
        self.restart(config)
        self.wait_ready()

    def is_ready(self) -> bool:
        try:
            return self.ask("GET", "/readyz").status == 200
        except (OSError, http.client.HTTPException):
            return False

    def wait_ready(self) -> None:
        began = time.monotonic()
        while not self.is_ready():
            self.judge_patience(began)
            time.sleep(0.3)

    def judge_patience(self, began: float) -> None:
        if self.process.poll() is not None:
            raise RuntimeError(f"the API server {self.number} ended: {self.log()[-600:]}")
        if time.monotonic() - began > PATIENCE:
            raise RuntimeError(f"the API server {self.number} isn't as it must be: {self.unready()}")

    def never_ready(self) -> bool:
        """Whether it comes up but for its informers, and stays so."""
        began, since = time.monotonic(), None
        while since is None or time.monotonic() - since < STAYS:
            self.judge_patience(began)
            try:
                if self.is_ready():
                    return False
                stuck = self.unready() == ["[-]informer-sync failed: reason withheld"]
            except (OSError, http.client.HTTPException):
                stuck = False
            since = (since or time.monotonic()) if stuck else None
            time.sleep(0.5)
        return True

    def unready(self) -> list[str]:
        """What `/readyz` says isn't well."""
        lines = self.ask("GET", "/readyz?verbose").body.decode(errors="replace").splitlines()
        return [line for line in lines if line.startswith("[-]")]

    def log(self) -> str:
        return (self.cluster.folder / f"log-{self.number}").read_text(errors="replace")

    def connection(self, timeout: int = 60) -> http.client.HTTPSConnection:
        context = ssl.create_default_context(cafile=str(self.cluster.certificates.folder / "ca.crt"))
        return http.client.HTTPSConnection("127.0.0.1", self.port, timeout=timeout, context=context)

    def ask(self, method: str, path: str, body: dict | None = None, through: http.client.HTTPSConnection | None = None) -> Answer:
        connection = through or self.connection()
        headers = {"Authorization": f"Bearer {TOKEN}", "Content-Type": "application/json"}
        connection.request(method, path, json.dumps(body) if body is not None else None, headers)
        answer = connection.getresponse()
        found = Answer(answer.status, answer.read())
        if through is None:
            connection.close()
        return found

    def create(self, path: str, body: dict) -> Answer:
        """Makes an object; a namespace may not be seen at once by each admission."""
        answer = self.ask("POST", path, body)
        for _ in range(40):
            if answer.status in (200, 201, 409):
                return answer
            time.sleep(0.5)
            answer = self.ask("POST", path, body)
        raise RuntimeError(f"POST {path}: {answer.status} {answer.body[:300]!r}")

    def put_secret(self, name: str, text: str, through: http.client.HTTPSConnection | None = None) -> Answer:
        return self.ask("PUT", f"{SECRETS}/{name}", secret(name, text), through)

    def make_secret(self, name: str, text: str) -> Answer:
        return self.create(SECRETS, secret(name, text))

    def get_secret(self, name: str) -> str | None:
        """The text of a secret, or None where it can't be read."""
        answer = self.ask("GET", f"{SECRETS}/{name}")
        return base64.b64decode(answer.json()["data"]["text"]).decode() if answer.status == 200 else None

    def list_status(self, path: str = SECRETS) -> int:
        return self.ask("GET", path).status


def secret(name: str, text: str) -> dict:
    return {"kind": "Secret", "metadata": {"name": name}, "data": {"text": base64.b64encode(text.encode()).decode()}}
