"""What the bridges refuse, and what they count."""
import json

from etcd_bench import AUDIT, LAST, NAMING, NEW, Bench, numbers
from etcd_server import kmsrest
from etcd_values import KEY1, KEY2, aescbc, an_object

LONG = "/odd/secrets/d/" + "n" * 1010


PLACES = {
    "secrets/d/s": "secrets",
    "deployments/d/x": "deployments.apps",
    "services/specs/d/x": "services",
    "services/endpoints/d/x": "endpoints",
    "controllers/d/x": "replicationcontrollers",
    "minions/x": "nodes",
    "ingress/d/x": "ingresses.networking.k8s.io",
    "masterleases/10.0.0.1": "apiserveripinfo",
    "ranges/serviceips": "services",
    "apiextensions.k8s.io/customresourcedefinitions/x": "customresourcedefinitions.apiextensions.k8s.io",
    "example.com/widgets/d/x": "widgets.example.com",
}


def filled(bench: Bench, prefix: str) -> None:
    """A value at each of these places; the secret is sealed."""
    values = {f"{prefix}/{place}": b"k8s\0plain" for place in PLACES}
    bench.etcd.fill(values | {f"{prefix}/secrets/d/s": aescbc(KEY1, "key1", an_object("s"))})


def places(bench: Bench) -> None:
    """The resources of places; and that a store with checks is what `migrate` makes of one without."""
    filled(bench, "/places")
    words = ("--prefix", "/places")
    bench.expect("places: all are known", 0, bench.imported("plain", *words).status)
    listed = kmsrest("list", "--store", bench.at("plain")).output.decode().splitlines()
    found = {line.split()[2].removeprefix("/places/"): line.split()[1] for line in listed}
    bench.expect("places: their resources", PLACES, found)
    bench.expect("formats: with checks", 0, bench.imported("checked", *words, "--config", NEW).status)
    done = kmsrest("migrate", "--store", bench.at("plain"), "--to", bench.at("to"), "--config", NEW)
    bench.expect("formats: migrate", 0, done.status)
    what = "formats: an import with checks is what migrate makes of one without"
    bench.expect(what, bench.at("to").read_bytes(), bench.at("checked").read_bytes())
    known = bytes.fromhex("5c4d21ee5cd15c35")
    bench.expect("formats: the check that docs/FORMATS.md tells", True, known in bench.at("checked").read_bytes())


def imports(bench: Bench) -> None:
    """Unknown places, what stands already, wrong words."""
    prefix, count = "/imports", len(PLACES)
    filled(bench, prefix)
    words = ("--prefix", prefix)
    bench.imported("plain", *words)
    before = bench.at("plain").read_bytes()
    done = bench.imported("plain", *words)
    bench.expect("an import writes over nothing", (1, before), (done.status, bench.at("plain").read_bytes()))
    bench.at("mine.map").write_text("mine\n")
    done = bench.imported("mine", *words)
    found = (done.status, bench.at("mine").exists(), bench.at("mine.map").read_text())
    bench.expect("nor over a map", (1, False, "mine\n"), found)
    bench.etcd.put(f"{prefix}/gadgets/d/x", b"{}")
    done = bench.imported("unknown", *words)
    bench.expect("an unknown place is refused", (1, True), (done.status, "the place gadgets is unknown" in done.errors))
    done = bench.imported("named", *words, "--resource", "gadgets=gadgets.example.org")
    bench.expect("until --resource names it", (0, count + 1), (done.status, numbers(done)["rows"]))
    done = bench.imported("only", *words, "--only", "services", "--only", "widgets.example.com")
    bench.expect("--only reads some resources", (0, 3), (done.status, numbers(done)["rows"]))
    left = ("--except", "services", "--except", "gadgets")
    done = bench.imported("except", *words, "--resource", "gadgets=gadgets", *left)
    bench.expect("--except leaves some", (0, count - 2), (done.status, numbers(done)["rows"]))
    pairs = (("--heads", "--map=m"), ("--json=a", "--snapshot=b"))
    done = bench.imported("lacking", "--prefix", prefix, "--only", "secrets", "--config", LAST)
    why = f"{prefix}/secrets/d/s: no provider of secrets reads the value, sealed by aescbc:key1"
    bench.expect("a key that the configuration lacks is named", (1, True), (done.status, why in done.errors))
    usages = [*pairs, ("--only", "gadgets"), ("--part", "0"), ("--resource", "x")]
    found = [bench.imported("usage", *words, *usage).status for usage in usages]
    bench.expect("wrong words are status 2", [2] * len(usages), found)
    nobody(bench)
    bench.expect("nothing is left of what was refused", [], [path.name for path in bench.folder.glob(".*")])


def nobody(bench: Bench) -> None:
    """A prefix below which no key stands is refused, since it would pass for an etcd without objects; a resource without objects
    isn't."""
    for way in ({}, {"ETCDCTL": "etcdctl"}):
        words = ("--prefix", "/nobody")
        done = bench.imported("nobody", *words, **way)
        why = "no key stands below /nobody/, and the first key is /"
        found = (done.status, bench.at("nobody").exists(), why in done.errors, "nothing was written" in done.errors)
        bench.expect(f"an import of a prefix without keys is refused {way}", (1, False, True, True), found)
        done = bench.etcd.bridge(AUDIT, *words, *NAMING, "--still", "aescbc:key1", **way)
        found = (done.status, done.output, why in done.errors, "nothing was written" in done.errors)
        bench.expect(f"an audit of it too {way}", (1, b"", True, False), found)
    words = ("--prefix", "/imports", "--only", "pods")
    done = bench.imported("pods", *words)
    found = (done.status, numbers(done)["rows"], "none is of a resource" in done.errors)
    bench.expect("a resource without objects is no refusal", (0, 0, True), found)
    bench.expect("nor of an audit", (0, b""), (bench.etcd.bridge(AUDIT, *words).status, bench.etcd.bridge(AUDIT, *words).output))


def left_out(bench: Bench) -> None:
    """Keys and values that no store can hold."""
    bench.etcd.put("/odd/secrets/d/fits", aescbc(KEY1, "key1", an_object("fits")))
    for key in ("/odd/secrets/d/with space", "/odd/secrets/d/\u00e9", LONG):
        bench.etcd.put(key, b"k8s\0")
    done = bench.imported("odd", "--prefix", "/odd")
    bench.expect("odd keys are refused", (1, 3), (done.status, done.errors.count("--leave-out copies the rest")))
    for transport in ({}, {"ETCDCTL": "etcdctl"}):
        store = f"odd-{len(transport)}"
        done = bench.imported(store, "--prefix", "/odd", "--leave-out", "--page", "1", **transport)
        told = sorted(line for line in done.output.decode().splitlines() if line.startswith("left-out /"))
        found = (done.status, numbers(done)["rows"], len(told))
        bench.expect(f"or left out and listed {transport or 'by gRPC'}", (0, 1, 3), found)
        bench.expect("with the bytes shown", True, "left-out /odd/secrets/d/\\xc3\\xa9: the key has a space" in told[0])


def wrong_maps(bench: Bench) -> None:
    """Maps and stores that don't go together, another cluster."""
    prefix, count = "/maps", 4
    bench.sealed(prefix, count)
    bench.imported("good", "--prefix", prefix, "--config", NEW)
    bench.rewritten("good", NEW)
    good = bench.at("good.map").read_text()
    lines = good.splitlines(keepends=True)
    changed = lambda number, **members: "".join(
        json.dumps(json.loads(line) | members) + "\n" if at == number else line for at, line in enumerate(lines)
    )
    maps = [
        ("a map that lacks a row", "".join(lines[:-1]), "is torn: it has 3 rows of 4"),
        ("a map whose last line is cut", good[:-20], "is torn: its last line has no end"),
        ("a map of another version", changed(0, map=3), "is of version 3, and not 1 or 2"),
        ("a revision that etcd can't have", changed(1, mod=2**63), "a member mod that breaks its rule"),
        ("one that isn't above zero", changed(2, create=0), "a member create that breaks its rule"),
        ("one that is a text", changed(1, mod="3"), "a member mod that breaks its rule"),
        ("one that is a truth", changed(1, mod=True), "a member mod that breaks its rule"),
        ("a row without the key's making", changed(1).replace('"create"', '"made"', 1), "hasn't the members"),
        ("a prefix that is no text", changed(0, prefix="\ud800"), "a member prefix that breaks its rule"),
        ("a cluster that is no id", changed(0, cluster="one"), "a member cluster that breaks its rule"),
        ("JSON in JSON without an end", "[" * 100_000 + "\n", "is no JSON"),
        ("another cluster", changed(0, cluster="1234"), "and not 1234"),
        ("a path that the map hasn't", changed(0, rows=3).replace(lines[-1], ""), "the map hasn't this path"),
        ("another resource", changed(1, resource="configmaps"), "the store has it as secrets, the map as configmaps"),
        ("another value than was imported", changed(1, sha256="0" * 64), "isn't the one that the map was made with"),
    ]
    for number, (what, text, why) in enumerate(maps):
        bench.at(f"{number}.map").write_text(text)
        done = bench.exported("good", "--no-verify", "--map", bench.at(f"{number}.map"))
        found = (done.status, why in done.errors, "nothing was written" in done.errors)
        bench.expect(f"refused: {what}", (1, True, True), found)
    sealed = sum(b":key1:" in it.value for it in bench.etcd.values(prefix).values())
    bench.expect("nothing of all that was written", count, sealed)


def changed_by_fleet(bench: Bench, store: str, line: str) -> None:
    """A copy of the store `good` in which a fleet did this."""
    fleet = bench.at("fleet")
    fleet.write_text(f"fleet 1\nreplica a {NEW}\nworker w a\n{line}\n")
    bench.at(store).write_bytes(bench.at("good").read_bytes())
    done = kmsrest("fleet", "--file", fleet, "--store", bench.at(store))
    bench.expect(f"a fleet: {line.split()[0]}", 0, done.status)


def exports(bench: Bench) -> None:
    """Stores that are no rewrite of what was imported, and wrong words."""
    prefix, count = "/exports", 4
    paths = list(bench.sealed(prefix, count))
    bench.imported("good", "--prefix", prefix, "--config", NEW)
    bench.rewritten("good", NEW)
    the_map = ("--map", bench.at("good.map"))
    changed_by_fleet(bench, "gone", f"delete {paths[0]}")
    done = bench.exported("gone", "--no-verify", *the_map)
    why = "the store's value is gone"
    bench.expect("refused: a value that is gone from the store", (1, True), (done.status, why in done.errors))
    changed_by_fleet(bench, "other", f"put secrets {paths[0]} azhzAHg=")
    done = bench.exported("other", "--verify", NEW, *the_map)
    why = "open to different objects"
    bench.expect("refused: another object, by --verify", (1, True), (done.status, why in done.errors))
    bench.at("torn").write_bytes(bench.at("good").read_bytes()[:-1])
    done = bench.exported("torn", "--no-verify", *the_map)
    bench.expect("refused: a torn store", (1, True), (done.status, "text 42 " in done.errors))
    usages = [[], ["--verify", NEW, "--no-verify"], ["--no-verify", "--batch", "200"], ["--no-verify", "--plugin", "p=x"]]
    bench.expect("wrong words are status 2", [2] * 4, [bench.exported("good", *usage).status for usage in usages])
    sealed = sum(b":key1:" in it.value for it in bench.etcd.values(prefix).values())
    bench.expect("nothing of all that was written", count, sealed)


def naming_all(bench: Bench) -> tuple[object, ...]:
    """Words that name key1 to key3 of aescbc, key1 of aesgcm, and the plugin p."""
    more = bench.at("named.yaml")
    text = NEW.read_text(encoding="utf-8")
    more.write_text(text.replace("name: key2", "name: key3").replace("      - aescbc", "      - aesgcm:\n          keys:\n            - name: key1\n              secret: AAECAwQFBgcICQoLDA0ODw==\n      - aescbc"))
    return (*NAMING, "--config", more)


def audits(bench: Bench) -> None:
    """Counts in three forms, and the question whether a key may go."""
    prefix = "/audit"
    bench.etcd.fill(
        {
            f"{prefix}/secrets/d/a": aescbc(KEY1, "key1", b"k8s\0"),
            f"{prefix}/secrets/d/b": aescbc(KEY2, "key2", b"k8s\0"),
            f"{prefix}/configmaps/d/c": b"k8s\0",
            f"{prefix}/gadgets/x": b"k8s:enc:secretbox:v1:k:..",
            f"{prefix}/secrets/d/k": b"k8s:enc:kms:v2:p:\x0a\x01d\x12\x04k \"1\x1a\x01s",
        }
    )
    audit = lambda *words: bench.etcd.bridge("etcd-audit", "--prefix", prefix, *words)
    text = '1 ?gadgets strange\n1 configmaps plain\n1 secrets aescbc:key1\n1 secrets aescbc:key2\n1 secrets kms:p k "1\n'
    bench.expect("audit: text", text, audit().output.decode())
    told = json.loads(audit("--output", "json").output)
    bench.expect("audit: json", 5, sum(value["count"] for value in told["values"]))
    line = 'kmsrest_stored_values{resource="secrets",provider="kms:p",key_id="k \\"1"} 1'
    bench.expect("audit: prometheus", True, line in audit("--output", "prometheus").output.decode().splitlines())
    asked = ["aescbc:key1", "aescbc:key3", "kms:p", 'kms:p@k "1', "kms:p@k2", "plain", "identity", "aesgcm:key1"]
    naming = naming_all(bench)
    done = audit(*naming, *(word for still in asked for word in ("--still", still)))
    found = [line.removeprefix("etcd-audit: still ") for line in done.errors.splitlines()]
    wanted = ["aescbc:key1: 1", "kms:p: 1", 'kms:p@k "1: 1', "plain: 1", "plain: 1"]
    bench.expect("audit: --still", (1, wanted), (done.status, found))
    done = audit(*naming, "--still", "aescbc:key3", "--still", "kms:p@k2")
    bench.expect("audit: --still of what isn't there", 0, done.status)
    bench.expect("audit: --still of what needs no configuration", (0, 1), (audit("--still", "aesgcm:key1", *naming).status, audit("--still", "plain").status))
    done = audit(*naming, "--still", "aescbc:key1", "--only", "configmaps")
    remark = "etcd-audit: remark: aescbc:key1 was looked for among configmaps alone, as --only says: other resources may need it\n"
    bench.expect("audit: --still with --only says what it left out", (0, remark), (done.status, done.errors))
    done = audit("--still", "aescbc:key3")
    bench.expect("audit: --still without a configuration", (2, True), (done.status, "wants --config C" in done.errors))
    done = audit(*NAMING, "--still", "aescbc:key01")
    bench.expect("audit: --still of a slip", (2, True), (done.status, "no --config names it; one names aescbc:key1" in done.errors))
    done = audit(*NAMING, "--still", "aescbc:key1@k1")
    bench.expect("audit: --still of a cipher's key id", (2, True), (done.status, "a plugin alone have a key id" in done.errors))
    done = audit("--config", bench.at("nowhere"), "--still", "aescbc:key1")
    bench.expect("audit: a configuration that isn't there", (1, True), (done.status, "No such file" in done.errors))
    bench.expect("audit: --only", "1 configmaps plain\n", audit("--only", "configmaps").output.decode())
    bench.expect("audit: wrong words", [2, 2], [audit("--still", "key1").status, audit("--output", "xml").status])
    both = bench.etcd.bridge("etcd-audit", "--prefix", prefix, ETCDCTL="etcdctl").output.decode()
    bench.expect("audit: by etcdctl", text, both)
