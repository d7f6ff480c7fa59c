"""Each of the descriptors 0, 1 and 2 closed: no store, pipe or device takes its number and gets what is written there."""
import itertools
from pathlib import Path

from support import PATH, TOP, Checks, Ended, call, kmsrest_program

IDENTITY = TOP / "examples" / "identity.yaml"
KMS = TOP / "examples" / "kms.yaml"
MASK = TOP / "examples" / "plugins" / "mask.py"
DATA = b"hello"
PUT = ["put", "--config", IDENTITY, "--resource", "secrets", "--path", PATH, "--store"]
CLOSINGS = {0: "0<&-", 1: "1>&-", 2: "2>&-"}


def without(descriptors: tuple[int, ...], *words: object, data: bytes = DATA) -> Ended:
    """Calls the program with these descriptors closed."""
    closings = " ".join(CLOSINGS[each] for each in descriptors)
    return call(["/bin/sh", "-c", f'exec "$@" {closings}', "sh", kmsrest_program(), *words], data)


def _all_of(done: Ended) -> tuple[int, bytes, str]:
    return done.status, done.output, done.errors


def _rows(store: Path) -> list[str]:
    return call([kmsrest_program(), "list", "--store", store]).output.decode().splitlines()


def _check_put(checks: Checks, folder: Path) -> None:
    row = f"1 secrets {PATH} plain"
    store = folder / "store0"
    done = without((0,), *PUT, store)
    checks.expect("put without an input is a fault of it", (4, b"", "kmsrest: fault input 1\n"), _all_of(done))
    checks.expect("and makes no store", False, store.exists())
    store = folder / "store1"
    done = without((1,), *PUT, store)
    checks.expect("put without an output is a fault of it", (4, b"", "kmsrest: fault output 1\n"), _all_of(done))
    checks.expect("and the store has its row, and nothing else", [row], _rows(store))
    store = folder / "store2"
    done = without((2,), *PUT, store)
    checks.expect("put without errors is done", (0, b"revision 1\n", ""), _all_of(done))
    checks.expect("and the store has its row", [row], _rows(store))
    whole = store.read_bytes()
    for count in (1, 2, 3):
        for closed in itertools.combinations(range(3), count):
            done = without(closed, *PUT, store, data=b"k8s:enc:refused")
            checks.expect(f"a put that is refused, without {closed}, writes nothing to the store",
                          (4 if 0 in closed or 2 in closed else 1, True), (done.status, store.read_bytes() == whole))


def _check_list(checks: Checks, folder: Path) -> None:
    store = folder / "store2"
    whole, row = store.read_bytes(), f"1 secrets {PATH} plain\n".encode()
    wanted = {0: (0, row, ""), 1: (4, b"", "kmsrest: fault output 1\n"), 2: (0, row, "")}
    for closed, answer in wanted.items():
        done = without((closed,), "list", "--store", store)
        checks.expect(f"list without {closed}", answer, _all_of(done))
    done = without((0, 1, 2), "list", "--store", store)
    checks.expect("list without any", 4, done.status)
    checks.expect("the store is as it was", True, store.read_bytes() == whole)


def _check_encrypt(checks: Checks) -> None:
    for config, plugin in [(IDENTITY, []), (KMS, [f"--plugin=p={MASK}"])]:
        words = ["encrypt", "--config", config, "--resource", "secrets", "--path", PATH, *plugin]
        what = f"encrypt by {config.name}"
        done = without((0,), *words)
        checks.expect(f"{what} without an input", (4, b"", "kmsrest: fault input 1\n"), _all_of(done))
        done = without((1,), *words)
        checks.expect(f"{what} without an output", (4, b"", "kmsrest: fault output 1\n"), _all_of(done))
        done = without((2,), *words)
        found = (done.status, len(done.output) >= len(DATA), done.errors)
        checks.expect(f"{what} without errors", (0, True, ""), found)
        done = without((0, 1, 2), *words)
        checks.expect(f"{what} without any", 4, done.status)


def check(checks: Checks, folder: Path) -> None:
    """All of it."""
    _check_put(checks, folder)
    _check_list(checks, folder)
    _check_encrypt(checks)
