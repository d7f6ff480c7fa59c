"""The wrong steps of OPERATORS, each really done at API servers beside the judge's refusal of it, and healed as its way back says."""
import base64
import json

from api_server_steps import KEYS, Bench, Steps, secrets_of
from api_servers import NAMESPACE, SECRETS, ApiServer
from etcd_server import kmsrest

EVERYWHERE = "/api/v1/secrets"


def path_of(name: str) -> str:
    return f"/registry/secrets/{NAMESPACE}/{name}"


def broken(bench: Bench, server: ApiServer, name: str, what: str) -> None:
    """What one sees at an API server that can't read one object of a resource."""
    at = f"{SECRETS}/{name}"
    bench.expect(f"{what}: GET and DELETE of it fail", (500, 500), (server.ask("GET", at).status, server.ask("DELETE", at).status))
    bench.expect(f"{what}: so does LIST, in its namespace and over all", (500, 500), (server.list_status(), server.list_status(EVERYWHERE)))
    told = server.ask("GET", EVERYWHERE).json()["message"]
    bench.expect(f"{what}: LIST names the object's key", True, f'unable to transform key "{path_of(name)}"' in told)


def healed(bench: Bench, servers: list[ApiServer], names: list[str], what: str) -> None:
    for server in servers:
        at = f"{what}, at {server.number}"
        bench.expect(f"{at}: it is ready, and LIST is well", (True, 200, 200), (server.is_ready(), server.list_status(), server.list_status(EVERYWHERE)))
        bench.expect(f"{at}: each object is read", True, None not in secrets_of(server, names).values())


def stuck(bench: Bench, server: ApiServer, config, what: str) -> None:
    """Restarted by this file it never gets ready, for its informers alone."""
    server.restart(config)
    bench.expect(f"{what}: restarted it never gets ready", True, server.never_ready())


def wrong_exchange(bench: Bench) -> None:
    """An exchange of a key: a new writer too early, the old key gone too early, and an old writer that is left."""
    files = {
        "old": bench.configuration("old.json", "aescbc:key1", "identity"),
        "wide": bench.configuration("wide.json", "aescbc:key1", "identity", "aescbc:key2"),
        "turned": bench.configuration("turned.json", "aescbc:key2", "identity", "aescbc:key1"),
        "last": bench.configuration("last.json", "aescbc:key2", "identity"),
    }
    with bench.cluster(2, files["old"]) as cluster:
        cluster.servers[0].make_secret("before", "by key1")
        steps = Steps(bench, cluster)
        writer_too_early(bench, steps, files)
        key_gone(bench, steps, files)
        old_writer(bench, steps, files)


def writer_too_early(bench: Bench, steps: Steps, files: dict) -> None:
    one, other = steps.cluster.servers
    what = "a writer too early"
    said = steps.judge(steps.imported(files["old"]), 0, files["turned"])
    bench.expect(f"{what}: the judge refuses it", "unread 1 secrets aescbc:key2", said)
    one.reload(files["turned"])
    one.reload(files["old"])
    healed(bench, [one, other], ["before"], f"{what}, way back while nothing is written by it")
    one.reload(files["turned"])
    one.make_secret("early", "by key2")
    broken(bench, other, "early", what)
    found = (other.get_secret("before"), other.make_secret("more", "m").status, other.ask("GET", "/livez").status, other.is_ready())
    bench.expect(f"{what}: other objects are read and made, and it still says that it is well", ("by key1", 201, 200, True), found)
    stuck(bench, other, files["old"], what)
    said = steps.judge(steps.imported(files["wide"]), 0, files["wide"])
    bench.expect(f"{what}: the judge tells where", f"kmsrest: text 49 1 drops-stored {path_of('early')} aescbc:key2", said)
    one.reload(files["wide"])
    other.reload(files["wide"])
    healed(bench, [one, other], ["before", "early", "more"], f"{what}, way back")
    bench.expect(f"{what}: the next move passes", "pass", steps.judge(steps.imported(files["wide"]), 0, files["turned"]))


def key_gone(bench: Bench, steps: Steps, files: dict) -> None:
    one, other = steps.cluster.servers
    what = "a key gone too early"
    for server in (one, other):
        server.reload(files["turned"])
    said = steps.judge(steps.imported(files["turned"]), 0, files["last"])
    bench.expect(f"{what}: the judge refuses it", f"drops-stored {path_of('before')} aescbc:key1", said)
    stuck(bench, one, files["last"], what)
    broken(bench, one, "before", what)
    for server in (one, other):
        server.reload(files["wide"])
    healed(bench, [one, other], ["before", "early", "more"], f"{what}, way back")


def old_writer(bench: Bench, steps: Steps, files: dict) -> None:
    one, other = steps.cluster.servers
    what = "an old writer that is left"
    one.reload(files["turned"])
    bench.expect(f"{what}: all is sealed anew", 0, steps.round(files["turned"])["changed"])
    said = steps.judge(steps.imported(files["turned"]), 0, files["last"])
    bench.expect(f"{what}: the judge refuses the move", "drops-writer 1 secrets aescbc:key1", said)
    one.reload(files["last"])
    other.make_secret("late", "by key1 again")
    broken(bench, one, "late", what)
    for server in (one, other):
        server.reload(files["turned"])
    healed(bench, [one, other], ["before", "early", "more", "late"], f"{what}, way back")


def wrong_on_and_off(bench: Bench) -> None:
    """Encryption turned on at one alone, turned off while objects are sealed, and `identity` taken away while one is plain."""
    off, on = bench.configuration("off.json", "identity"), bench.configuration("on.json", "aesgcm:key1", "identity")
    reads, only = bench.configuration("reads.json", "identity", "aesgcm:key1"), bench.configuration("only.json", "aesgcm:key1")
    with bench.cluster(2, off) as cluster:
        steps, (one, other) = Steps(bench, cluster), cluster.servers
        one.make_secret("db", "plain")
        what = "on at one alone"
        bench.expect(f"{what}: the judge refuses it", "unread 1 secrets aesgcm:key1", steps.judge(steps.imported(off), 0, on))
        one.reload(on)
        one.make_secret("sealed", "by key1")
        broken(bench, other, "sealed", what)
        for server in (one, other):
            server.reload(reads)
        healed(bench, [one, other], ["db", "sealed"], f"{what}, way back")
        for server in (one, other):
            server.reload(on)
        for what, wanted, wrong in (("off too early", "sealed aesgcm:key1", off), ("identity gone too early", "db identity", only)):
            name, provider = wanted.split(" ")
            said = steps.judge(steps.imported(on), 0, wrong)
            bench.expect(f"{what}: the judge refuses it", f"drops-stored {path_of(name)} {provider}", said)
            stuck(bench, one, wrong, what)
            broken(bench, one, name, what)
            one.reload(on)
            healed(bench, [one, other], ["db", "sealed"], f"{what}, way back")
        steps.round(on)
        bench.expect("and behind a rewrite identity may go", "pass", steps.judge(steps.imported(on), 0, only))
        one.reload(only)
        healed(bench, [one, other], ["db", "sealed"], "identity gone behind a rewrite")


def wrong_secret(bench: Bench) -> None:
    """Another secret under the name of a key that is in use."""
    old, wrong = bench.configuration("old.json", "aesgcm:key1"), bench.at("wrong.json")
    tree = json.loads(old.read_text())
    tree["resources"][0]["providers"][0]["aesgcm"]["keys"][0]["secret"] = base64.b64encode(KEYS["key2"]).decode()
    wrong.write_text(json.dumps(tree))
    with bench.cluster(1, old) as cluster:
        steps, server = Steps(bench, cluster), cluster.servers[0]
        server.make_secret("db", "by key1")
        store = steps.imported(old)
        bench.expect("the judge refuses it", f"drops-stored {path_of('db')} aesgcm:key1", steps.judge(store, 0, wrong))
        stuck(bench, server, wrong, "done all the same")
        broken(bench, server, "db", "done all the same")
        bench.expect("the judge tells why", f"kmsrest: text 51 {path_of('db')}", steps.judge(store, 0, wrong))
        server.reload(old)
        healed(bench, [server], ["db"], "way back")


def own_writer(bench: Bench) -> None:
    """A pass is of what is stored at that moment: a write before the restart is sealed by a key that the new file drops."""
    first, second = bench.configuration("first.json", "aescbc:key1"), bench.configuration("second.json", "aescbc:key2")
    both = bench.configuration("both.json", "aescbc:key2", "aescbc:key1")
    with bench.cluster(1, first) as cluster:
        steps, server = Steps(bench, cluster), cluster.servers[0]
        bench.expect("nothing is stored, and the judge passes", "pass", steps.judge(steps.imported(first), 0, second))
        server.make_secret("between", "by key1")
        stuck(bench, server, second, "a write before the restart")
        broken(bench, server, "between", "a write before the restart")
        words = ("--store", steps.imported(both), "--replica", first, "--reload", f"0={second}")
        said = kmsrest("judge", *words).output.decode().strip()
        wanted = f"drops-stored {path_of('between')} aescbc:key1"
        bench.expect("over a store that is read now the judge refuses the same", wanted, said)
        server.reload(both)
        healed(bench, [server], ["between"], "way back")


def lost_key(bench: Bench) -> None:
    """A value that no key opens, and one whose key is found, as OPERATORS treats them: by etcd, beside a server that runs."""
    old, key3 = bench.configuration("old.json", "aescbc:key1", "identity"), bench.configuration("key3.json", "aescbc:key3")
    with bench.cluster(1, old) as cluster:
        server = cluster.servers[0]
        server.make_secret("db", "by key1")
        server.make_secret("gone", "by key3")
        at = ("--resource", "secrets", "--path", path_of("gone"))
        data = kmsrest("decrypt", "--config", old, *at, data=cluster.stored()[path_of("gone")].value).output
        cluster.etcd.put(path_of("gone"), kmsrest("encrypt", "--config", key3, *at, data=data).output)
        broken(bench, server, "gone", "of another key")
        found = kmsrest("decrypt", "--config", key3, *at, data=cluster.stored()[path_of("gone")].value).output
        cluster.etcd.put(path_of("gone"), kmsrest("encrypt", "--config", old, *at, data=found).output)
        healed(bench, [server], ["db", "gone"], "sealed by today's file")
        cluster.etcd.put(path_of("lost"), b"k8s:enc:aescbc:v1:key1:" + bytes(32))
        broken(bench, server, "lost", "of no key")
        cluster.etcd.delete(path_of("lost"))
        healed(bench, [server], ["db", "gone"], "deleted in etcd")
        bench.expect("and made anew", 201, server.make_secret("lost", "again").status)
        server.reload(old)
        healed(bench, [server], ["db", "gone", "lost"], "restarted")


ALL = (wrong_exchange, wrong_on_and_off, wrong_secret, own_writer, lost_key)
