"""Resources that are sealed for the first time: only where a sealed value of them shows that API servers seal them."""
from etcd_bench import Bench, numbers
from etcd_values import KEY1, aesgcm, an_object, write_configuration

SERVICES = "apiservices.apiregistration.k8s.io"
GADGETS = "gadgets.example.com"


def plain(bench: Bench, prefix: str, place: str, count: int) -> dict[str, bytes]:
    """So many plain values below a place."""
    values = {f"{prefix}/{place}/o{number}": an_object(f"{place}{number}") for number in range(count)}
    bench.etcd.fill(values)
    return values


def sealed_by_server(bench: Bench, path: str) -> None:
    """A value as an API server that seals its resource writes it."""
    bench.etcd.put(path, aesgcm(KEY1, "key1", an_object(path), path))


def now(bench: Bench, prefix: str) -> dict[str, bytes]:
    return {path: stored.value for path, stored in bench.etcd.values(prefix).items()}


def first_sealing(bench: Bench) -> None:
    """Secrets have a sealed value, services and gadgets have none until an API server writes one, or until they are named."""
    prefix = "/first"
    plain(bench, prefix, "secrets/d", 5)
    left = plain(bench, prefix, "apiregistration.k8s.io/apiservices", 3) | plain(bench, prefix, "odd", 2)
    sealed_by_server(bench, f"{prefix}/secrets/d/throwaway")
    resources = ("secrets", SERVICES, GADGETS)
    config = write_configuration(bench.at("on.json"), [("aesgcm", [("key1", KEY1)]), ("identity", None)], resources)
    words = ("--prefix", prefix, "--config", config, "--resource", f"odd={GADGETS}")
    bench.expect("first sealing: the import", 0, bench.imported("first", *words).status)
    bench.expect("first sealing: the rewrite", 10, numbers(bench.rewritten("first", config))["rewritten"])
    done = bench.exported("first", "--verify", config, "--dry-run")
    found = (done.status, numbers(done)["would-write"], numbers(done).get("left-plain"))
    bench.expect("first sealing: a dry run tells what is left", (1, 5, 5), found)
    done = bench.exported("first", "--verify", config)
    found = (done.status, numbers(done)["written"], numbers(done).get("left-plain"))
    bench.expect("first sealing: secrets are sealed, the others left", (1, 5, 5), found)
    stays = [line for line in done.errors.splitlines() if "nothing of it in etcd is sealed" in line]
    begin = [f"store-to-etcd: {SERVICES}: 3 plain values stay", f"store-to-etcd: {GADGETS}: 2 plain values stay"]
    bench.expect("first sealing: and told by their names", begin, [line.split(",")[0] for line in stays])
    bench.expect("first sealing: how to find out is told", 2, done.errors.count("write one object of it through an API server"))
    bench.expect("first sealing: what is left is as it was", left, {path: now(bench, prefix)[path] for path in left})
    sealed_by_server(bench, f"{prefix}/apiregistration.k8s.io/apiservices/throwaway")
    done = bench.exported("first", "--verify", config, "--first", GADGETS, ETCDCTL="etcdctl")
    found = numbers(done)
    what = "first sealing: one that an API server sealed shows it, and a word says it"
    bench.expect(what, (0, 5, 5, None), (done.status, found["written"], found["already"], found.get("left-plain")))
    bench.expect("first sealing: nothing is plain any more", (0, []), bench.still(prefix, "plain"))
    other_ways(bench, config)


def other_ways(bench: Bench, config) -> None:
    """A sealed value at a place that the table doesn't know; what is sealed already; and turning off, which is never left."""
    prefix = "/first-odd"
    plain(bench, prefix, "odd", 2)
    words = ("--prefix", prefix, "--config", config, "--resource", f"odd={GADGETS}")
    bench.imported("odd", *words)
    bench.rewritten("odd", config)
    sealed_by_server(bench, f"{prefix}/odd/later")
    done = bench.exported("odd", "--verify", config)
    bench.expect("first sealing: a place of its own is looked at too", (0, 2), (done.status, numbers(done)["written"]))
    off = write_configuration(bench.at("off.json"), [("identity", None), ("aesgcm", [("key1", KEY1)])], (GADGETS,))
    bench.imported("off", "--prefix", prefix, "--config", off, "--resource", f"odd={GADGETS}")
    bench.rewritten("off", off)
    done = bench.exported("off", "--verify", off)
    bench.expect("first sealing: to write plain nothing is asked", (0, 3), (done.status, numbers(done)["written"]))
    nested(bench, config)
    bench.expect("first sealing: a wrong word", 2, bench.exported("off", "--no-verify", "--first", "Odd").status)


def nested(bench: Bench, config) -> None:
    """A sealed value of one resource shows nothing of another one, though its place lies within that one's."""
    prefix = "/first-nested"
    plain(bench, prefix, "odd", 1)
    plain(bench, prefix, "odd/services", 1)
    bench.imported("nested", "--prefix", prefix, "--config", config, "--resource", f"odd={GADGETS}", "--resource", f"odd/services={SERVICES}")
    bench.rewritten("nested", config)
    sealed_by_server(bench, f"{prefix}/odd/services/later")
    sealed_by_server(bench, f"{prefix}/secrets/d/later")
    done = bench.exported("nested", "--verify", config)
    bench.expect("first sealing: none is shown by another's value", (1, 0, 2), (done.status, numbers(done)["written"], numbers(done).get("left-plain")))
