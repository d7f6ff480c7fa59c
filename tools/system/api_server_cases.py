"""The cases with real API servers."""
import subprocess
import time
from concurrent.futures import ThreadPoolExecutor

import api_server_wrong
from api_server_places import places, unsealed, wildcard
from api_server_steps import Bench, Steps, exchange, who
from api_servers import SECRETS, TOKEN, ApiServer, kubectl_program
from etcd_server import kmsrest

MANY = 5_000


def exchange_aescbc(bench: Bench) -> None:
    """A key of aescbc is exchanged on three API servers, of which two write meanwhile."""
    old = bench.configuration("old.json", "aescbc:key1", "identity")
    last = bench.configuration("last.json", "aescbc:key2", "identity")
    exchange(bench, 3, old, last, ("aescbc:key1", "aescbc:key2"))


def exchange_aesgcm(bench: Bench) -> None:
    old = bench.configuration("old.json", "aesgcm:key1", "identity")
    last = bench.configuration("last.json", "aesgcm:key2", "identity")
    exchange(bench, 2, old, last, ("aesgcm:key1", "aesgcm:key2"))


def cbc_to_gcm(bench: Bench) -> None:
    """One cipher gives way to the other."""
    old = bench.configuration("old.json", "aescbc:key1", "identity")
    last = bench.configuration("last.json", "aesgcm:key2", "identity")
    exchange(bench, 2, old, last, ("aescbc:key1", "aesgcm:key2"))


def turned_on(bench: Bench) -> None:
    """From nothing to sealed."""
    off = bench.configuration("off.json", "identity")
    on = bench.configuration("on.json", "aesgcm:key1", "identity")
    exchange(bench, 2, off, on, ("plain", "aesgcm:key1"))


def turned_off(bench: Bench) -> None:
    """And back."""
    on = bench.configuration("on.json", "aesgcm:key1", "identity")
    off = bench.configuration("off.json", "identity")
    exchange(bench, 2, on, off, ("aesgcm:key1", "plain"))


def stale(bench: Bench) -> None:
    """An API server writes an unchanged object anew exactly where `verify` says stale."""
    lists = (("aesgcm:key1", "aescbc:key2", "identity"), ("aescbc:key2", "identity", "aesgcm:key1"), ("identity", "aesgcm:key1", "aescbc:key2"))
    configs = [bench.configuration(f"{number}.json", *providers) for number, providers in enumerate(lists)]
    with bench.cluster(1, configs[0]) as cluster:
        server, tried = cluster.servers[0], 0
        for number, config in enumerate((*configs, configs[0])):
            if number:
                server.reload(config)
            server.make_secret(f"by-{number}-a", f"{number}")
            server.make_secret(f"by-{number}-b", f"{number}" * 3000)
            said, seen = stale_here(bench, cluster, config, number), stale_there(cluster, server)
            bench.expect(f"stale by {config.name}, of {len(said)}", said, seen)
            tried += len(said)
        bench.figures.append(f"stale: {tried} objects said stale or fresh as an unchanged PUT shows")


def stale_here(bench: Bench, cluster, config, number: int) -> dict[str, bool]:
    steps = Steps(bench, cluster)
    steps.made = number * 10
    store = steps.imported(config, "--only", "secrets")
    lines = kmsrest("verify", "--config", config, "--store", store).output.decode().splitlines()
    return {parts[2]: parts[3] == "stale" for parts in map(str.split, lines) if len(parts) == 4}


def stale_there(cluster, server: ApiServer) -> dict[str, bool]:
    """Which objects have another revision behind an unchanged GET and PUT; each second one is left for the next configuration."""
    before = cluster.stored()
    found = {}
    for path in before:
        url = f"{SECRETS}/{path.rsplit('/', 1)[1]}"
        server.ask("PUT", url, server.ask("GET", url).json())
        found[path] = cluster.stored(path)[path].mod != before[path].mod
    # (what was written anew goes back, so that values of each provider stay)
    for path, was in found.items():
        if was and path.endswith("-b"):
            cluster.etcd.put(path, before[path].value)
    return found


def kubectl_beside(bench: Bench) -> None:
    """5,000 secrets sealed anew: by kmsrest, and by kubectl through the API server."""
    old = bench.configuration("old.json", "aescbc:key1", "aescbc:key2")
    new = bench.configuration("new.json", "aescbc:key2", "aescbc:key1")
    with bench.cluster(1, old) as cluster:
        steps, server = Steps(bench, cluster), cluster.servers[0]
        with ThreadPoolExecutor(8) as pool:
            made = pool.map(lambda number: server.make_secret(f"many-{number}", "x" * 1000).status, range(MANY))
            bench.expect("they are made", {201}, set(made))
        began = time.monotonic()
        counts = steps.round(new)
        here = time.monotonic() - began
        bench.expect("kmsrest seals them anew", MANY, counts["written"])
        words = [kubectl_program(), f"--server=https://127.0.0.1:{server.port}", f"--token={TOKEN}"]
        words += [f"--certificate-authority={cluster.certificates.folder / 'ca.crt'}", "--cache-dir", bench.at("kubectl")]
        began = time.monotonic()
        with open(bench.at("all.json"), "wb") as file:
            subprocess.run([*words, "get", "secrets", "-A", "-o", "json"], stdout=file, check=True)
        with open(bench.at("all.json"), "rb") as file:
            subprocess.run([*words, "replace", "-f", "-"], stdin=file, stdout=subprocess.DEVNULL, check=True)
        there = time.monotonic() - began
        by = {who(it.value) for it in cluster.stored().values()}
        bench.expect("and kubectl replaces them all", ({"aescbc:key1"}, MANY), (by, len(cluster.stored())))
        bench.figures.append(f"kubectl_beside: {MANY} secrets of 1 KB: {here:.1f} s by kmsrest, {there:.1f} s by kubectl")


ALL = (
    *(exchange_aescbc, exchange_aesgcm, cbc_to_gcm, turned_on, turned_off, *api_server_wrong.ALL),
    *(stale, places, unsealed, wildcard, kubectl_beside),
)
