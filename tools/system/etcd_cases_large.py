"""Many values, in parts: side by side, and large ones."""
from concurrent.futures import ThreadPoolExecutor

from etcd_bench import NEW, Bench, numbers
from etcd_values import KEY1, KEY2, aescbc, an_object, by_cryptography

# etcd takes requests of up to 1.5 MiB; a release of Helm may have nearly a MiB.
HELM = 1_000_000


def round_of(bench: Bench, store: str) -> tuple[int, int, int]:
    """A part's rewrite and its way back."""
    rewritten = bench.rewritten(store, NEW)
    done = bench.exported(store, "--verify", NEW)
    return rewritten.status, done.status, numbers(done)["written"]


def side_by_side(bench: Bench) -> None:
    """Four parts of one import at a time, each with a store of its own; etcd's transactions alone are between them."""
    prefix, count = "/parts", 400
    objects = bench.sealed(prefix, count, 1000)
    done = bench.imported("part", "--prefix", prefix, "--config", NEW, "--part", "60000")
    stores = [line.split()[1] for line in done.output.decode().splitlines() if line.startswith("part ")]
    bench.expect("parts: eight or more", (0, True), (done.status, len(stores) >= 8))
    sizes = [bench.at(store.rsplit("/", 1)[1]).stat().st_size for store in stores]
    bench.expect("parts: none is too long", True, max(sizes) <= 60_000)
    with ThreadPoolExecutor(max_workers=4) as pool:
        found = list(pool.map(lambda store: round_of(bench, store.rsplit("/", 1)[1]), stores))
    bench.expect("parts: each goes through, four at a time", {(0, 0)}, {part[:2] for part in found})
    bench.expect("parts: each value once", count, sum(part[2] for part in found))
    bench.expect("parts: the old key may go", (0, []), bench.still(prefix, "aescbc:key1"))
    opened = {path: by_cryptography(KEY2, "key2", it.value) for path, it in bench.etcd.values(prefix).items()}
    bench.expect("parts: read back", objects, opened)
    overlapping(bench, prefix)


def overlapping(bench: Bench, prefix: str) -> None:
    """Two workers with the same values: each is written once, and is the other's `changed`."""
    objects = bench.sealed(prefix, 60, 1000)
    for name in ("one", "other"):
        bench.imported(name, "--prefix", prefix, "--config", NEW)
        bench.rewritten(name, NEW)
    with ThreadPoolExecutor(max_workers=2) as pool:
        ended = list(pool.map(lambda name: bench.exported(name, "--no-verify", "--batch", "5"), ("one", "other")))
    written = sum(numbers(done)["written"] for done in ended)
    changed = sum(numbers(done)["changed"] for done in ended)
    bench.expect("two workers with the same values", (60, 60), (written, changed))
    now = bench.etcd.values(prefix)
    opened = {path: by_cryptography(KEY2, "key2", now[path].value) for path in objects}
    bench.expect("read back", objects, opened)


def large_secrets(bench: Bench) -> None:
    """35 megabytes in secrets of a megabyte each."""
    prefix, count = "/helm", 35
    objects = {f"{prefix}/secrets/d/sh.helm.release.v1.r.v{number}": an_object("helm", HELM) for number in range(count)}
    for path, data in objects.items():
        bench.etcd.put(path, aescbc(KEY1, "key1", data))
    done = bench.imported("helm", "--prefix", prefix, "--config", NEW, "--part", "8100000", "--page", "4")
    stores = [f"helm.{number:03}" for number in range(1, 6)]
    bench.expect("35 MB: in five parts", (0, True), (done.status, all(bench.at(name).exists() for name in stores)))
    found = [round_of(bench, store) for store in stores]
    bench.expect("35 MB: each goes through", [(0, 0)] * 5, [part[:2] for part in found])
    bench.expect("35 MB: each value once", count, sum(part[2] for part in found))
    opened = {path: by_cryptography(KEY2, "key2", it.value) for path, it in bench.etcd.values(prefix).items()}
    bench.expect("35 MB: read back", True, objects == opened)
    whole = bench.imported("whole", "--prefix", prefix, "--config", NEW)
    told = "needs as much room again" in whole.errors
    bench.expect("35 MB: in one store, with a word on room", (0, True), (whole.status, told))
    bench.expect("35 MB: the old key may go", (0, []), bench.still(prefix, "aescbc:key1"))
