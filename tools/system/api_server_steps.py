"""What the cases with API servers share: the bridges and the program over a cluster, the steps of OPERATORS, and writers."""
import base64
import http.client
import json
import threading
import time
from dataclasses import dataclass, field
from pathlib import Path
from typing import Protocol

from api_servers import NAMESPACE, ApiServer, Cluster, secret
from etcd_server import kmsrest
from support import Ended

KEYS = {f"key{number}": bytes((number * 40 + at) % 256 for at in range(32)) for number in (1, 2, 3)}


def configuration(file: Path, *providers: str, resources: tuple[str, ...] = ("secrets",)) -> Path:
    """A configuration of one entry; a provider is `identity`, or a cipher and a key as `aescbc:key1`."""
    elements = []
    for provider in providers:
        kind, _colon, name = provider.partition(":")
        key = {"name": name, "secret": base64.b64encode(KEYS[name]).decode()} if name else None
        elements.append({kind: {"keys": [key]} if key else {}})
    entry = {"resources": list(resources), "providers": elements}
    tree = {"apiVersion": "apiserver.config.k8s.io/v1", "kind": "EncryptionConfiguration", "resources": [entry]}
    file.write_text(json.dumps(tree))
    return file


class Counts(Protocol):
    """What counts what was seen."""

    def expect(self, what: str, wanted: object, found: object) -> None: ...


@dataclass
class Bench:
    """A case's name, its counts, its folder, the program of the API servers, and the figures that are told at the end."""

    name: str
    checks: Counts
    folder: Path
    program: Path
    figures: list[str] = field(default_factory=list)

    def expect(self, what: str, wanted: object, found: object) -> None:
        self.checks.expect(f"{self.name}: {what}", wanted, found)

    def at(self, name: str) -> Path:
        return self.folder / name

    def cluster(self, count: int, config: Path) -> Cluster:
        return Cluster(self.program, self.at("cluster"), count, config)

    def configuration(self, name: str, *providers: str, resources: tuple[str, ...] = ("secrets",)) -> Path:
        return configuration(self.at(name), *providers, resources=resources)


class Steps:
    """The steps of OPERATORS over a cluster."""

    def __init__(self, bench: Bench, cluster: Cluster):
        self.bench, self.cluster, self.made = bench, cluster, 0

    def imported(self, config: Path, *words: str) -> Path:
        """A new store of all that etcd has now."""
        self.made += 1
        store = self.bench.at(f"store-{self.made}")
        done = self.cluster.etcd.bridge("etcd-to-store", "--store", store, "--config", config, *words)
        if done.status != 0:
            raise RuntimeError(f"etcd-to-store: {done.errors}")
        return store

    def judge(self, store: Path, server: int, config: Path) -> str:
        """The judge's own line on a reload, over the files that the API servers have."""
        replicas = [word for it in self.cluster.servers for word in ("--replica", it.config)]
        done = kmsrest("judge", "--store", store, *replicas, "--reload", f"{server}={config}")
        return done.output.decode().strip() or done.own_line

    def reload(self, store: Path, server: int, config: Path) -> None:
        """A move: judge, and then the file."""
        it = self.cluster.servers[server]
        self.bench.expect(f"the judge passes {config.name} at {server}", "pass", self.judge(store, server, config))
        it.reload(config)

    def write_back(self, store: Path, config: Path, *words: str) -> Ended:
        return self.cluster.etcd.bridge("store-to-etcd", "--store", store, "--verify", config, *words)

    def still(self, provider: str, *configs: Path) -> int:
        naming = [word for config in configs for word in ("--config", config)]
        return self.cluster.etcd.bridge("etcd-audit", "--only", "secrets", "--still", provider, *naming).status

    def round(self, config: Path) -> dict[str, int]:
        """Import, rewrite, verify and write-back; the counts of the last."""
        store = self.imported(config)
        done = kmsrest("rewrite", "--config", config, "--store", store)
        self.bench.expect("the rewrite leaves none", (0, True), (done.status, b"\nleft 0\n" in done.output))
        done = self.write_back(store, config)
        pairs = [line.split() for line in done.output.decode().splitlines() if not line.startswith("changed /")]
        return {name: int(number) for name, number in pairs}


class Writer(threading.Thread):
    """One that writes through an API server until it is told to stop, and knows what it wrote last. It makes, changes and deletes
    secrets of its own, and now and then one of those that were there before, so that a write-back meets what it changed."""

    def __init__(self, server: ApiServer, name: str, there: dict[str, str]):
        super().__init__(daemon=True)
        self.server, self.label, self.ends = server, name, threading.Event()
        self.texts: dict[str, str | None] = dict(there)
        self.there, self.writes, self.fault = list(there), 0, None

    def name(self) -> str:
        """That of the next secret: each thirtieth is one that was there before."""
        turn, rest = divmod(self.writes, 30)
        return self.there[turn % len(self.there)] if rest == 29 else f"{self.label}-{self.writes % 7}"

    def run(self) -> None:
        through = self.server.connection()
        try:
            while not self.ends.is_set():
                self.one(through)
                time.sleep(0.02)
        except (OSError, http.client.HTTPException, RuntimeError) as no:
            self.fault = repr(no)
        finally:
            through.close()

    def one(self, through: http.client.HTTPSConnection) -> None:
        """Makes, changes or deletes one."""
        name, text = self.name(), f"{self.label} wrote {self.writes}"
        path = f"/api/v1/namespaces/{NAMESPACE}/secrets"
        if self.texts.get(name) is None:
            answer, wanted = self.server.ask("POST", path, secret(name, text), through), 201
        elif self.writes % 11 == 10:
            answer, wanted, text = self.server.ask("DELETE", f"{path}/{name}", None, through), 200, None
        else:
            answer, wanted = self.server.ask("PUT", f"{path}/{name}", secret(name, text), through), 200
        if answer.status != wanted:
            raise RuntimeError(f"{name}: {answer.status} {answer.body[:200]!r}")
        self.texts[name] = text
        self.writes += 1

    def stop(self) -> None:
        self.ends.set()
        self.join()


def secrets_of(server: ApiServer, names: list[str]) -> dict[str, str | None]:
    return {name: server.get_secret(name) for name in names}


def exchange(bench: Bench, count: int, old: Path, last: Path, providers: tuple[str, str]) -> None:
    """A whole exchange by a plan, as OPERATORS has it, while two write; providers are the old writer and the new one, as the
    audit names them."""
    texts = {f"s{number}": f"secret {number}" for number in range(12)}
    with bench.cluster(count, old) as cluster:
        steps = Steps(bench, cluster)
        for number, (name, text) in enumerate(texts.items()):
            cluster.servers[number % count].make_secret(name, text)
        files = {"to": last, "wide": bench.at("wide.json"), "turned": bench.at("turned.json")}
        plan = ("plan", "--from", old, "--to", last, "--replicas", count)
        for name in ("wide", "turned"):
            files[name].write_bytes(without_rest(kmsrest(*plan, "--show", name).output))
        store = steps.imported(old)
        for line in kmsrest(*plan).output.decode().splitlines():
            move, *told = line.split()
            if move == "rewrite":
                texts |= rewrite_step(bench, steps, files["turned"], texts)
                store = steps.imported(files["turned"])
                done = kmsrest("verify", "--config", last, "--store", store)
                bench.expect("all is read without the old one", (0, True), (done.status, b"\nrefused 0\n" in done.output))
            else:
                steps.reload(store, int(told[0]), files[told[1]])
            at = cluster.servers[-1]
            bench.expect(f"all is read behind `{line}`", texts, secrets_of(at, list(texts)))
        bench.expect("nothing is sealed by the old one", 0, steps.still(providers[0], old))
        bench.expect("and all by the new one", True, all(who(it.value) == providers[1] for it in cluster.stored().values()))
        for server in cluster.servers:
            bench.expect(f"LIST at {server.number}", 200, server.list_status("/api/v1/secrets"))


def without_rest(text: bytes) -> bytes:
    """A plan's file without the entry of all the rest, which an API server before 1.27 doesn't know."""
    tree = json.loads(text)
    tree["resources"] = [entry for entry in tree["resources"] if entry["resources"] != ["*.*"]]
    return json.dumps(tree).encode()


def rewrite_step(bench: Bench, steps: Steps, config: Path, there: dict[str, str]) -> dict[str, str | None]:
    """What is stored is sealed anew, while two write through two API servers; what they wrote."""
    servers, half = steps.cluster.servers, len(there) // 2
    shares = [dict(list(there.items())[:half]), dict(list(there.items())[half:])]
    writers = [Writer(servers[number], f"w{number}", share) for number, share in zip((0, len(servers) - 1), shares)]
    # (a throwaway object shows that the API servers seal the resource)
    servers[0].make_secret("throwaway", "nothing")
    for writer in writers:
        writer.start()
    counts = steps.round(config)
    for writer in writers:
        writer.stop()
        bench.expect(f"{writer.label} wrote without a fault", None, writer.fault)
    rounds, written, changed = 1, counts["written"], counts["changed"]
    while counts["changed"] and rounds < 4:
        counts, rounds = steps.round(config), rounds + 1
        written += counts["written"]
    bench.expect("a round without writers changes nothing more", 0, counts["changed"])
    wrote = sum(writer.writes for writer in writers)
    told = f"{written} values written back, {changed} left that changed meanwhile, {wrote} writes beside it, rounds: {rounds}"
    bench.figures.append(f"{bench.name}: {told}")
    return {"throwaway": "nothing"} | {name: text for writer in writers for name, text in writer.texts.items()}


def who(value: bytes) -> str:
    """Who sealed a value, as the audit names it."""
    parts = value.split(b":", 5)
    return f"{parts[2].decode()}:{parts[4].decode()}" if value.startswith(b"k8s:enc:") else "plain"
