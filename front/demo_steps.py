"""What `kmsrest demo` does: each step's commands, how they must end, and what that means."""
from dataclasses import dataclass

SECRETS = "/registry/secrets/default"


@dataclass(frozen=True)
class Step:
    """Commands of bash; the status of each; what stands in what each prints; and one line on what that means."""

    means: str
    commands: tuple[str, ...]
    prints: str = ""
    status: int = 0


def judge(store: str, first: str, second: str, reload: str) -> str:
    """May one of the two API servers, which have these files, get another one now?"""
    return f"kmsrest judge --store {store} --replica {first} --replica {second} --reload {reload}"


def plan(store: str) -> tuple[Step, ...]:
    """From the wrong reload to the moment when both API servers write by the new key."""
    return (
        Step(
            "too early: API server 0 would no longer read what is stored. That is what a cluster finds out when it reads",
            (judge(store, "old.yaml", "old.yaml", "0=last.yaml"),),
            f"drops-stored {SECRETS}/db aescbc:key1",
            1,
        ),
        Step(
            "too early as well: API server 0 would write by a key that API server 1 can't read yet",
            (judge(store, "old.yaml", "old.yaml", "0=new.yaml"),),
            "unread 1 secrets aescbc:key2",
            1,
        ),
        Step(
            "the moves that no judge refuses: both read the new key, both write by it, all is sealed anew, and the old key goes",
            ("kmsrest plan --from old.yaml --to last.yaml --replicas 2",),
            "reload 1 to",
        ),
        Step(
            "the two files between: `wide` reads both keys and writes by the old one, `turned` writes by the new one",
            (
                "kmsrest plan --from old.yaml --to last.yaml --replicas 2 --show wide >wide.json",
                "kmsrest plan --from old.yaml --to last.yaml --replicas 2 --show turned >turned.json",
            ),
        ),
        Step(
            "one API server after another may read the new key",
            (judge(store, "old.yaml", "old.yaml", "0=wide.json"), judge(store, "wide.json", "old.yaml", "1=wide.json")),
            "pass",
        ),
        Step(
            "and write by it",
            (judge(store, "wide.json", "wide.json", "0=turned.json"), judge(store, "turned.json", "wide.json", "1=turned.json")),
            "pass",
        ),
    )


def end(store: str) -> tuple[Step, ...]:
    """The old key goes, and what was stored is read without it."""
    return (
        Step(
            "all is read without the old key, and written as the last file would write it today",
            (f"kmsrest verify --config last.yaml --store {store}",),
            "refused 0",
        ),
        Step(
            "the same reload as at first, and now nothing stands against it: the old key goes",
            (judge(store, "turned.json", "turned.json", "0=last.yaml"), judge(store, "last.yaml", "turned.json", "1=last.yaml")),
            "pass",
        ),
    )


STEPS = (
    Step(
        "two secrets are stored, each sealed by the old key, key1",
        (
            f"printf hunter2 | kmsrest put --config old.yaml --store store --resource secrets --path {SECRETS}/db",
            f"printf token1 | kmsrest put --config old.yaml --store store --resource secrets --path {SECRETS}/token",
        ),
        "revision",
    ),
    Step("who wrote each is told without any key", ("kmsrest list --store store",), f"2 secrets {SECRETS}/token aescbc:key1"),
    *plan("store"),
    Step(
        "what is stored is sealed anew by key2, and nothing is left by key1",
        ("kmsrest rewrite --config turned.json --store store",),
        "left 0",
    ),
    *end("store"),
    Step(
        "the data are what was put, by the new key alone; `fresh` says that the value is written as this file would write it today",
        (f"kmsrest get --config last.yaml --store store --path {SECRETS}/db",),
        "hunter2",
    ),
)

SEALED = 'printf "k8s\\0%s" %s | kmsrest encrypt --config old.yaml --resource secrets --path %s/%s | etcdctl put %s/%s'

STEPS_WITH_ETCD = (
    Step(
        "two secrets stand in etcd, sealed by key1 as an API server would seal them",
        tuple(SEALED % ("%s", name, SECRETS, name, SECRETS, name) for name in ("db", "token")),
        "OK",
    ),
    Step("who wrote what is there is told without any key", ("etcd-audit",), "2 secrets aescbc:key1"),
    Step("a store is made of what etcd holds, with a check of each key", ("etcd-to-store --store before --config old.yaml",), "rows 2"),
    *plan("before"),
    Step(
        "etcd is read once more, since API servers went on writing, and that store is sealed anew",
        ("etcd-to-store --store store --config turned.json", "kmsrest rewrite --config turned.json --store store"),
        "2",
    ),
    Step(
        "what was sealed anew goes back, where nobody wrote meanwhile", ("store-to-etcd --store store --verify turned.json",), "written 2"
    ),
    Step("no value in etcd is sealed by the old key any more", ("etcd-audit --config turned.json --still aescbc:key1",), "2 secrets aescbc:key2"),
    Step("etcd as it stands now, for the last question", ("etcd-to-store --store after --config turned.json",), "rows 2"),
    *end("after"),
    Step(
        "the data in etcd are what was put, by the new key alone; `fresh` says that the value is written as this file would write it today",
        (
            f"etcdctl get {SECRETS}/db --print-value-only | head -c -1 |"
            f" kmsrest decrypt --config last.yaml --resource secrets --path {SECRETS}/db | tail -c +5",
        ),
        "db",
    ),
)
