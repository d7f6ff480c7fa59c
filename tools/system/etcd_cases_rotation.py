"""The rotation of README's example, over an etcd; and another secret of the same name."""
from pathlib import Path

from etcd_bench import BOTH, LAST, NEW, OLD, Bench, numbers, report
from etcd_server import kmsrest
from etcd_values import (
    KEY1,
    KEY2,
    WRONG,
    aescbc,
    aesgcm,
    an_object,
    by_cryptography,
    by_openssl,
    padded_by_chance,
    write_configuration,
)


def judged(bench: Bench, store: str, replicas: list[Path], reload: str) -> str:
    words = [word for config in replicas for word in ("--replica", config)]
    return kmsrest("judge", "--store", bench.at(store), *words, "--reload", reload).output.decode().strip()


def rotation(bench: Bench) -> None:
    """A key is exchanged at two replicas; one writes and one deletes between import and export."""
    prefix, first = "/registry", "/registry/secrets/d/s00000"
    objects = bench.sealed(prefix, 40)
    bench.etcd.put("/registry/configmaps/d/c", b"k8s\0a plain one")
    bench.expect("rotation: heads are copied", 0, bench.imported("heads", "--heads", "--only", "secrets").status)
    bench.expect("rotation: heads have no map", False, bench.at("heads.map").exists())
    listed = kmsrest("list", "--store", bench.at("heads")).output.decode().splitlines()
    bench.expect("rotation: heads are enough for list", {"aescbc:key1"}, {line.split()[3] for line in listed})
    steps = [
        ("too early", [OLD, OLD], f"0={NEW}", "unread 1 secrets aescbc:key2"),
        ("the new key behind, at a", [OLD, OLD], f"0={BOTH}", "pass"),
        ("the new key behind, at b", [BOTH, OLD], f"1={BOTH}", "pass"),
        ("the new key first, at a", [BOTH, BOTH], f"0={NEW}", "pass"),
        ("the new key first, at b", [NEW, BOTH], f"1={NEW}", "pass"),
        ("the old key gone, too early", [NEW, NEW], f"0={LAST}", f"drops-stored {first} aescbc:key1"),
    ]
    for what, replicas, reload, verdict in steps:
        bench.expect(f"rotation: heads are enough for judge, {what}", verdict, judged(bench, "heads", replicas, reload))
    rewrite_between(bench, prefix, objects)
    bench.expect("rotation: the old key may go at a", 0, bench.imported("heads-2", "--heads", "--only", "secrets").status)
    bench.expect("rotation: judge says so", "pass", judged(bench, "heads-2", [NEW, NEW], f"0={LAST}"))
    bench.expect("rotation: and then at b", "pass", judged(bench, "heads-2", [LAST, NEW], f"1={LAST}"))
    values = {path: stored.value for path, stored in bench.etcd.values("/registry/secrets/").items()}
    opened = {path: by_cryptography(KEY2, "key2", value) for path, value in values.items()}
    bench.expect("rotation: cryptography reads each value back", objects, opened)
    sample = list(objects)[::5]
    opened = {path: by_openssl(KEY2, "key2", values[path]) for path in sample}
    bench.expect("rotation: openssl reads values back", {path: objects[path] for path in sample}, opened)


def rewrite_between(bench: Bench, prefix: str, objects: dict[str, bytes]) -> None:
    """Two rounds: in the first, b, which still writes by key1, writes once and deletes once before the export."""
    paths = list(objects)
    done = bench.imported("round-1", "--config", NEW, "--only", "secrets")
    bench.expect("rotation: the import", (0, 40), (done.status, numbers(done).get("rows")))
    done = bench.rewritten("round-1", NEW)
    bench.expect("rotation: the rewrite", (0, report(40, 0)), (done.status, done.output))
    objects[paths[0]] = an_object("written between")
    bench.etcd.put(paths[0], aescbc(KEY1, "key1", objects[paths[0]]))
    bench.etcd.delete(paths[1])
    del objects[paths[1]]
    done = bench.exported("round-1", "--verify", NEW)
    found = numbers(done)
    bench.expect("rotation: the export writes the rest", (1, 38, 2), (done.status, found["written"], found["changed"]))
    told = [line for line in done.output.decode().splitlines() if line.startswith("changed /")]
    bench.expect("rotation: and names what changed", [f"changed {path}" for path in paths[:2]], told)
    bench.expect("rotation: what was deleted stays so", False, paths[1] in bench.etcd.values(paths[1]))
    bench.expect("rotation: --still aescbc:key1 before", (1, ["aescbc:key1"]), bench.still(prefix, "aescbc:key1"))
    bench.expect("rotation: the second import", 0, bench.imported("round-2", "--config", NEW, "--only", "secrets").status)
    bench.expect("rotation: the second rewrite", report(1, 38), bench.rewritten("round-2", NEW).output)
    done = bench.exported("round-2", "--verify", NEW)
    bench.expect("rotation: the second export", (0, 1, 38), (done.status, numbers(done)["written"], numbers(done)["same"]))
    bench.expect("rotation: --still aescbc:key1 after", (0, []), bench.still(prefix, "aescbc:key1"))


def wrong_secret(bench: Bench) -> None:
    """Of aescbc's values one in 256 opens by a wrong secret. Here all do."""
    prefix, count = "/wrong", 6
    paths = [f"{prefix}/secrets/d/s{number}" for number in range(count)]
    before = {path: padded_by_chance(KEY1, "key1", an_object(path), WRONG) for path in paths}
    bench.etcd.fill(before)
    wrong = write_configuration(bench.at("wrong.json"), [("aescbc", [("key2", KEY2), ("key1", WRONG)]), ("identity", None)])
    words = ("--prefix", prefix)
    done = bench.imported("wrong", *words, "--config", wrong)
    bench.expect("wrong secret: the import's opening stops it", (1, False), (done.status, bench.at("wrong").exists()))
    bench.expect("wrong secret: it says why", True, "no object of an API server: another secret of that name?" in done.errors)
    bench.expect("wrong secret: an import without a configuration", 0, bench.imported("unchecked", *words).status)
    bench.expect("wrong secret: a rewrite of it destroys all", report(count, 0), bench.rewritten("unchecked", wrong).output)
    done = bench.exported("unchecked", "--verify", wrong)
    now = {path: stored.value for path, stored in bench.etcd.values(prefix).items()}
    bench.expect("wrong secret: the export's opening stops it", (1, before), (done.status, now))
    bench.expect("wrong secret: an import by the right one", 0, bench.imported("checked", *words, "--config", NEW).status)
    done = bench.rewritten("checked", wrong)
    stopped = (3, f"kmsrest: text 51 {paths[0]}")
    bench.expect("wrong secret: the store's check stops the rewrite", stopped, (done.status, done.own_line))
    bench.imported("heads", *words, "--heads", "--config", NEW)
    done = kmsrest("judge", "--store", bench.at("heads"), "--replica", NEW, "--reload", f"0={wrong}")
    verdict = f"drops-stored {paths[0]} aescbc:key1\n"
    what = "wrong secret: heads with checks are enough for judge to see it"
    bench.expect(what, (1, verdict), (done.status, done.output.decode()))
    path = "/wronggcm/secrets/d/s"
    bench.etcd.put(path, aesgcm(KEY1, "key1", an_object("gcm"), path))
    wrong = write_configuration(bench.at("wrong-gcm.json"), [("aesgcm", [("key1", WRONG)]), ("identity", None)])
    done = bench.imported("gcm", "--prefix", "/wronggcm", "--config", wrong)
    bench.expect("wrong secret: aesgcm's too", (1, True), (done.status, "BadTag" in done.errors))
