"""Stores that several calls have open at once, and stores without the right to write: who only reads needs neither."""
import os
import shutil
import subprocess
from pathlib import Path

from support import PATH, PATIENCE, TOP, Checks, Ended, call, kmsrest_program, wait_until

IDENTITY = TOP / "examples" / "identity.yaml"
KMS = TOP / "examples" / "kms.yaml"
FAULT = (4, b"", "kmsrest: fault files 1\n")
READERS = 20
NOBODY = 65534
# It tells by a file that it was started, and answers as mask.py does once another file is there.
WAITS = f"""#!/usr/bin/python3
import os, sys, time
sys.dont_write_bytecode = True
open(os.environ["STARTED"], "w").close()
while not os.path.exists(os.environ["GO"]): time.sleep(0.01)
sys.path.insert(0, "{TOP}/examples/plugins")
import mask
"""


def _put(config: Path, store: Path, *options: object) -> list[object]:
    return ["put", "--config", config, "--resource", "secrets", "--path", PATH, "--store", store, *options]


def _answer(done: Ended) -> tuple[int, bytes, str]:
    return done.status, done.output, done.errors


def _check_readers(checks: Checks, store: Path) -> None:
    """Many lists of one store begin together: each has it, whoever else reads it."""
    words = [str(word) for word in (kmsrest_program(), "list", "--store", store)]
    lists = [subprocess.Popen(words, stdout=subprocess.PIPE, stderr=subprocess.PIPE) for _ in range(READERS)]
    found = {(*each.communicate(timeout=PATIENCE), each.returncode) for each in lists}
    checks.expect(f"{READERS} lists at once", {(f"1 secrets {PATH} plain\n".encode(), b"", 0)}, found)


def _check_beside(checks: Checks, store: Path) -> None:
    """A list, and a put, while another process holds the lock of one who reads."""
    words = ["flock", "-s", "-n", store, kmsrest_program()]
    done = call([*words, "list", "--store", store])
    checks.expect("a list beside one who reads", (0, f"1 secrets {PATH} plain\n".encode(), ""), _answer(done))
    done = call([*words, *_put(IDENTITY, store)], b"hello")
    checks.expect("a put beside one who reads", FAULT, _answer(done))


def _check_writer(checks: Checks, folder: Path, store: Path) -> None:
    """A put has the store from before its plugin is asked: until it is done, nobody else has it."""
    plugin, started, go = folder / "waits", folder / "started", folder / "go"
    plugin.write_text(WAITS, encoding="utf-8")
    plugin.chmod(0o700)
    words = [kmsrest_program(), *_put(KMS, store, f"--plugin=p={plugin}")]
    environment = {**os.environ, "STARTED": str(started), "GO": str(go)}
    with subprocess.Popen([str(word) for word in words], stdin=subprocess.PIPE, stdout=subprocess.PIPE,
                          stderr=subprocess.PIPE, env=environment) as writer:
        writer.stdin.write(b"hello")
        writer.stdin.close()
        wait_until(started.exists, "the plugin of a put is started", writer)
        beside = call([kmsrest_program(), "list", "--store", store])
        go.touch()
        output, errors = writer.stdout.read(), writer.stderr.read()
    checks.expect("a list beside one who writes", FAULT, _answer(beside))
    checks.expect("the one who writes is done", (0, b"revision 2\n", b""), (writer.returncode, output, errors))
    done = call([kmsrest_program(), "list", "--store", store])
    checks.expect("and then it is listed", (0, 1), (done.status, len(done.output.splitlines())))


def _check_rights(checks: Checks, folder: Path) -> None:
    """A store that may be read and not written. Where this runs as root, to whom each file is open, the calls are another user's."""
    program, store, target = folder / "kmsrest", folder / "readable", folder / "target"
    shutil.copy(kmsrest_program(), program)
    program.chmod(0o755)
    shutil.copy(IDENTITY, folder / "config.yaml")
    call([program, *_put(IDENTITY, store)], b"hello")
    old = folder / "old"
    old.write_bytes(b"KRSTORE1")
    whole = store.read_bytes()
    for each in (store, old):
        each.chmod(0o444)
    folder.chmod(0o777)
    options = {"user": NOBODY, "group": NOBODY, "extra_groups": []} if os.geteuid() == 0 else {}

    def ask(*words: object, data: bytes = b"") -> Ended:
        return call([program, *words], data, cwd=folder, **options)

    found = _answer(ask("list", "--store", store))
    checks.expect("a store without the right to write is listed", (0, f"1 secrets {PATH} plain\n".encode(), ""), found)
    words = ["--config", "config.yaml", "--path", PATH, "--store", store]
    checks.expect("and read", (0, b"hello"), _answer(ask("get", *words))[:2])
    checks.expect("and verified", 0, ask("verify", "--config", "config.yaml", "--store", store).status)
    checks.expect("and judged", 0, ask("judge", "--store", store, "--replica", "config.yaml", "--reload", "0=config.yaml").status)
    done = ask("migrate", "--config", "config.yaml", "--store", old, "--to", target)
    checks.expect("and one of the first format migrated", (0, ""), (done.status, done.errors))
    checks.expect("a put into it is a fault", FAULT, _answer(ask(*_put(Path("config.yaml"), store), data=b"hello")))
    done = ask("rewrite", "--config", "config.yaml", "--store", store)
    checks.expect("and a rewrite", FAULT, _answer(done))
    checks.expect("it is as it was", True, store.read_bytes() == whole)
    store.chmod(0)
    checks.expect("one without the right to read isn't listed", FAULT, _answer(ask("list", "--store", store)))


def check(checks: Checks, folder: Path) -> None:
    """All of it."""
    store = folder / "shared"
    call([kmsrest_program(), *_put(IDENTITY, store)], b"hello")
    _check_readers(checks, store)
    _check_beside(checks, store)
    _check_writer(checks, folder, store)
    _check_rights(checks, folder)
