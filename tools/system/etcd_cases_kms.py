"""Values of a KMS v2 plugin over gRPC, by kms-bridge."""
from pathlib import Path

from etcd_bench import Bench, numbers, report
from etcd_server import BRIDGES, kmsrest
from etcd_values import KEY1, aescbc, an_object, write_configuration
from support import Ended, KmsServer, call, running


def words_of_plugin(bench: Bench, socket: Path) -> tuple[Path, str]:
    """A configuration that writes by the plugin and reads key1's values, and the words that name its program."""
    config = write_configuration(
        bench.at("kms.json"), [("kms", ("p", f"unix://{socket}")), ("aescbc", [("key1", KEY1)]), ("identity", None)]
    )
    into = bench.at("plugins")
    into.mkdir()
    done = call([BRIDGES / "kms-bridge", "--into", into, "--config", config, "--retries", "0"])
    return config, done.output.decode().strip().removeprefix("--plugin=")


def round_of(bench: Bench, prefix: str, store: str, config: Path, plugin: str) -> tuple[Ended, Ended]:
    """Import, rewrite and export."""
    bench.imported(store, "--prefix", prefix, "--config", config)
    rewritten = kmsrest("rewrite", "--store", bench.at(store), "--config", config, "--plugin", plugin)
    exported = bench.exported(store, "--verify", config, "--plugin", plugin)
    return rewritten, exported


def outcome(rewritten: Ended, exported: Ended) -> tuple[int, int, int]:
    return rewritten.status, exported.status, numbers(exported)["written"]


def own_key(bench: Bench) -> None:
    """Values go from aescbc to a plugin, and the plugin then exchanges its own key."""
    prefix, socket = "/kms", bench.at("kms.sock")
    bench.sealed(prefix, 20)
    config, plugin = words_of_plugin(bench, socket)
    asked = ("aescbc:key1", "kms:p", "kms:p@k1", "kms:p@k2")
    with running(KmsServer(bench.folder, "server", f"unix:{socket}")) as server:
        rewritten, exported = round_of(bench, prefix, "first", config, plugin)
        bench.expect("kms: from aescbc to the plugin", (0, 0, 20), outcome(rewritten, exported))
        bench.expect("kms: --still kms:p@k1 before its rotation", (1, ["kms:p", "kms:p@k1"]), bench.still(prefix, *asked))
        server.says(current="k2")
        rewritten, exported = round_of(bench, prefix, "second", config, plugin)
        bench.expect("kms: the plugin's own key", (0, 0, 20), outcome(rewritten, exported))
        bench.expect("kms: --still kms:p@k1 after it", (0, []), bench.still(prefix, "aescbc:key1", "kms:p@k1"))
        bench.expect("kms: and kms:p@k2", (1, ["kms:p", "kms:p@k2"]), bench.still(prefix, *asked))
        server.says(current="k2", keys={"k2": KmsServer.KEYS["k2"]})
        rewritten, _exported = round_of(bench, prefix, "third", config, plugin)
        bench.expect("kms: all is fresh once k1 is gone", (0, report(0, 20)), (rewritten.status, rewritten.output))
        done = bench.exported("third", "--verify", config)
        bench.expect("kms: nothing to write needs no plugin", (0, 20), (done.status, numbers(done)["same"]))
    done = bench.exported("second", "--verify", config)
    bench.expect("kms: --verify wants the plugin", (1, True), (done.status, "--plugin p=PROGRAM" in done.errors))


def dies_midway(bench: Bench) -> None:
    """A plugin that dies within a rewrite: what was sealed anew goes back, and a second round does the rest."""
    prefix, socket = "/kmsdies", bench.at("kms.sock")
    config, plugin = words_of_plugin(bench, socket)
    with running(KmsServer(bench.folder, "server", f"unix:{socket}")) as server:
        for number in range(3):
            # (each round seals by a seed of its own, so a rewrite asks four times)
            bench.etcd.put(f"{prefix}/secrets/d/s{number}", aescbc(KEY1, "key1", an_object(str(number))))
            round_of(bench, prefix, f"seed-{number}", config, plugin)
        server.says(current="k2", troubles=[{"call": "Decrypt", "do": "die", "from": 2}])
        bench.imported("dies", "--prefix", prefix, "--config", config)
        done = kmsrest("rewrite", "--store", bench.at("dies"), "--config", config, "--plugin", plugin)
        bench.expect("a plugin dies within a rewrite", (4, True), (done.status, done.output.startswith(b"rewritten 1\n")))
        server.stop()
        server.says(current="k2")
        server.start()
        done = bench.exported("dies", "--verify", config, "--plugin", plugin)
        bench.expect("what was sealed anew goes back", (0, 1, 2), (done.status, numbers(done)["written"], numbers(done)["same"]))
        bench.expect("the old key is still there", (1, ["kms:p@k1"]), bench.still(prefix, "kms:p@k1"))
        rewritten, exported = round_of(bench, prefix, "again", config, plugin)
        bench.expect("a second round does the rest", (0, 0, 2), outcome(rewritten, exported))
        bench.expect("and the old key may go", (0, []), bench.still(prefix, "kms:p@k1"))
