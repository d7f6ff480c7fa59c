"""A plan of the program, done to its end over an etcd with writers at work, and plans that are broken by hand."""
import json
import os
import random
import sys
import threading
from dataclasses import dataclass, field

from etcd_bench import LAST, OLD, Bench, numbers
from etcd_server import kmsrest
from etcd_values import KEY2, an_object, by_cryptography
from support import TOP, wait_until

sys.path.append(str(TOP))
from reference import configuration, values  # noqa: E402 (its folder must be on the path first)

PREFIX, RESOURCE = "/plan", "secrets"
# How many objects there are at first, and at how many of these places writers are at work.
SERVERS, WRITERS, OBJECTS, PATHS = 3, 3, 40, 8
# So many puts and deletes come between two moves, at the least.
BETWEEN = 2


@dataclass
class Servers:
    """API servers that stand in: the configuration that each has, and which ones their calls still go by."""

    entries: dict[str, list]
    has: list[str] = field(default_factory=lambda: ["from"] * SERVERS)
    held: list[str] = field(default_factory=list)
    lock: threading.Lock = field(default_factory=threading.Lock)

    def begin(self, server: int) -> str:
        """A call begins, by what its server has now."""
        with self.lock:
            self.held.append(self.has[server])
            return self.held[-1]

    def end(self, name: str) -> None:
        with self.lock:
            self.held.remove(name)

    def live(self) -> set[str]:
        with self.lock:
            return {*self.has, *self.held}

    def providers(self, name: str) -> list[tuple]:
        return configuration.list_for(self.entries[name], RESOURCE)


class Writer(threading.Thread):
    """Puts, reads and deletes at all servers, up to its end. It keeps what was written at which revision, and what went wrong."""

    def __init__(self, bench: Bench, servers: Servers, seed: int):
        super().__init__(daemon=True)
        self.bench, self.servers, self.draw = bench, servers, random.Random(seed)
        self.is_over, self.faults = threading.Event(), []
        self.written: list[tuple[int, str, bytes | None]] = []

    def run(self) -> None:
        while not self.is_over.is_set():
            name = self.servers.begin(self.draw.randrange(SERVERS))
            try:
                self.call(name, f"{PREFIX}/{RESOURCE}/d/s{self.draw.randrange(PATHS):05}")
            except Exception as fault:  # (whatever it is, it is told by the check)
                self.faults.append(f"{name}: {fault!r}")
                return
            finally:
                self.servers.end(name)

    def call(self, name: str, path: str) -> None:
        """One call by this configuration."""
        kind = self.draw.choice(("put", "put", "read", "read", "delete"))
        if kind == "read":
            self.read(name, path)
            return
        data = an_object(f"{self.name}-{len(self.written)}") if kind == "put" else None
        self.written.append((self.put(name, path, data) if data else self.answer("del", "--", path)["header"]["revision"], path, data))

    def put(self, name: str, path: str, data: bytes) -> int:
        value = values.seal(self.servers.providers(name)[0], path.encode(), data, os.urandom)
        return self.answer("put", "--", path, data=value)["header"]["revision"]

    def read(self, name: str, path: str) -> None:
        """What stands there opens by this configuration."""
        if path in (found := self.bench.etcd.values(path)):
            values.unseal(self.servers.providers(name), path.encode(), found[path].value)

    def answer(self, command: str, *words: str, data: bytes = b"") -> dict:
        done = self.bench.etcd.etcdctl(command, "-w", "json", *words, data=data)
        if done.status != 0:
            raise RuntimeError(done.errors)
        return json.loads(done.output)


class Rollout:
    """The moves of the program's plan over what etcd holds, each judged before it is done."""

    def __init__(self, bench: Bench):
        self.bench, self.files, self.imports = bench, {"from": OLD, "to": LAST}, 0
        words = ("plan", "--from", OLD, "--to", LAST, "--replicas", SERVERS)
        self.moves = kmsrest(*words).output.decode().splitlines()
        for name in ("wide", "turned"):
            self.files[name] = bench.at(name)
            self.files[name].write_bytes(kmsrest(*words, "--show", name).output)
        self.files["short"] = bench.at("short")
        self.files["short"].write_text(LAST.read_text().replace("key2", "key3"))
        self.servers = Servers({name: configuration.read(file.read_bytes()) for name, file in self.files.items()})
        self.writers = [Writer(bench, self.servers, seed) for seed in range(WRITERS)]

    def verdict(self, server: int, name: str) -> str:
        """What the judge says of a server's next configuration, over what etcd holds now."""
        self.imports += 1
        store = f"heads-{self.imports}"
        self.bench.expect(f"plan: import {self.imports}", 0, self.bench.imported(store, "--prefix", PREFIX, "--heads", "--only", RESOURCE).status)
        words = [word for it in self.servers.has for word in ("--replica", self.files[it])]
        done = kmsrest("judge", "--store", self.bench.at(store), *words, "--reload", f"{server}={self.files[name]}")
        return done.output.decode().strip()

    def refused(self, what: str, server: int, name: str, verdict: str) -> None:
        found = self.verdict(server, name)
        self.bench.expect(f"a plan {what} is refused", True, found.startswith(verdict) or found)

    def writers_go_on(self) -> None:
        """Each move has puts and deletes of writers before it."""
        wanted = self.written() + BETWEEN
        wait_until(lambda: self.written() >= wanted or any(it.faults for it in self.writers), "writers go on")

    def written(self) -> int:
        return sum(len(it.written) for it in self.writers)

    def older_calls_end(self) -> None:
        """A round is over once nothing is live that is older."""
        wait_until(lambda: self.servers.live() == set(self.servers.has), "older calls end")

    def rewrite(self) -> None:
        """What stands there is sealed anew once, and goes back where nobody wrote meanwhile."""
        self.older_calls_end()
        turned = self.files["turned"]
        done = self.bench.imported("store", "--prefix", PREFIX, "--only", RESOURCE, "--config", turned)
        self.writers_go_on()
        rewritten = self.bench.rewritten("store", turned)
        self.writers_go_on()
        exported = numbers(self.bench.exported("store", "--verify", turned))
        left = (numbers(rewritten).get("left"), numbers(rewritten).get("changed"), exported.get("refused"), exported.get("unsent", 0))
        self.bench.expect("plan: the rewrite leaves nothing", (0, 0, 0, 0, 0), (done.status, *left))
        print(f"(written back {exported['written']}, changed meanwhile {exported['changed']})", flush=True)

    def reload(self, server: int, name: str) -> None:
        """The first of a round begins once the round before is over."""
        if name not in self.servers.has:
            self.older_calls_end()
        self.writers_go_on()
        self.bench.expect(f"plan: server {server} may take {name}", "pass", self.verdict(server, name))
        with self.servers.lock:
            self.servers.has[server] = name

    def break_it(self, move: str) -> None:
        """Before some moves, what would come instead of them in a plan that is broken."""
        has = self.servers.has
        if move == "reload 1 wide":
            self.refused("that turns before all read", 0, "turned", "unread 1 secrets aescbc:key2")
        elif move == "reload 0 turned":
            self.refused("without its middle round", 0, "to", f"drops-stored {PREFIX}/")
        elif move == "reload 0 to" and set(has) == {"turned"}:
            self.refused("with a target that drops a stored provider", 0, "short", f"drops-stored {PREFIX}/")


def planned(bench: Bench) -> None:
    """Three servers, three writers: no move is refused, no read fails, and at the end the new key alone opens what was last written."""
    objects = bench.sealed(PREFIX, OBJECTS)
    rollout = Rollout(bench)
    bench.expect("plan: three rounds and a rewrite", 3 * SERVERS + 1, len(rollout.moves))
    for writer in rollout.writers:
        writer.start()
    try:
        for move in rollout.moves:
            rollout.break_it(move)
            word, *rest = move.split(" ")
            rollout.rewrite() if word == "rewrite" else rollout.reload(int(rest[0]), rest[1])
        rollout.writers_go_on()
    finally:
        for writer in rollout.writers:
            writer.is_over.set()
        for writer in rollout.writers:
            writer.join()
    bench.expect("plan: no call of a writer fails", [], [fault for it in rollout.writers for fault in it.faults])
    reads_all(bench, rollout, objects)


def reads_all(bench: Bench, rollout: Rollout, objects: dict[str, bytes]) -> None:
    """The objects by the last of their writes, and the old key nowhere."""
    for _revision, path, data in sorted((it for writer in rollout.writers for it in writer.written), key=lambda it: it[0]):
        objects[path] = data
    wanted = {path: data for path, data in objects.items() if data is not None}
    found = {path: by_cryptography(KEY2, "key2", it.value) for path, it in bench.etcd.values(PREFIX).items()}
    bench.expect("plan: the new key alone opens what was last written", True, found == wanted)
    bench.expect("plan: the old key may go", (0, []), bench.still(PREFIX, "aescbc:key1"))
