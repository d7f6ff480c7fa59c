"""What the front end remarks on calls that went well and may mean something else; beside each a call of which it says nothing."""
import json
import os
import sys
from pathlib import Path

from support import PATH, PATIENCE, TOP, Checks, Ended, call, kmsrest_program

sys.path[:0] = [str(TOP), str(TOP / "bridges")]
from reference import store  # noqa: E402 (its folder must be on the path first)

AROUND = TOP / "front" / "around"
EXAMPLES = TOP / "examples"
ROTATION = EXAMPLES / "rotation"
IDENTITY = EXAMPLES / "identity.yaml"


def front(*words: object, data: bytes = b"", **options) -> Ended:
    return call([AROUND, kmsrest_program(), *words], data, **options)


def remarks(ended: Ended) -> list[str]:
    return [line for line in ended.errors.splitlines() if line.startswith("remark: ")]


def expect(checks: Checks, what: str, ended: Ended, status: int, *pieces: str) -> None:
    """The status, and one remark with these pieces; without any, none."""
    told = remarks(ended)
    is_so = len(told) == 1 and all(piece in told[0] for piece in pieces) if pieces else told == []
    checks.expect(what, (status, True, told if is_so else []), (ended.status, is_so, told))


def stored(room: Path, name: str, rows: int) -> Path:
    """A store of so many plain rows, each of a path of its own."""
    path = room / name
    made = [store.Row(b"/registry/secrets/d/s%d" % number, b"secrets", b"k8s\0plain", bytes(8)) for number in range(rows)]
    path.write_bytes(store.written(1, [store.Row(row.path, row.resource, row.value) for row in made]))
    return path


def judge(name: Path, *words: object) -> Ended:
    return front("judge", "--store", name, *words)


SAME = ("--replica", IDENTITY, "--reload", f"0={IDENTITY}")


def no_rows(checks: Checks, room: Path) -> None:
    """A store that was emptied, or never filled, passes all."""
    (room / "emptied").write_bytes(b"")
    (room / "bare").write_bytes(b"KRSTORE2")
    filled = stored(room, "filled", 1)
    for name in ("emptied", "bare"):
        expect(checks, f"judge over a store without rows, {name}", judge(room / name, *SAME), 0, "has no rows", name)
        expect(checks, f"verify of it, {name}", front("verify", "--config", IDENTITY, "--store", room / name), 0, "has no rows", name)
    expect(checks, "judge over a store with a row", judge(filled, *SAME), 0)
    expect(checks, "verify of it", front("verify", "--config", IDENTITY, "--store", filled), 0)


def mapped(room: Path, name: str, rows: int, imported: int) -> Path:
    """A store of so many rows, with a map of which the first were imported."""
    path = stored(room, name, rows)
    head = {"map": 1, "cluster": "7", "revision": 9, "prefix": "/registry", "rows": imported}
    Path(f"{path}.map").write_text(json.dumps(head) + "\n")
    return path


def not_written_back(checks: Checks, room: Path) -> None:
    """Rows of a rewrite that etcd hasn't: a store that came out of it is another than etcd meanwhile."""
    from etcd_bridge.written_back import note

    name, as_imported = mapped(room, "ahead", 3, 2), mapped(room, "same", 2, 2)
    ask = {"judge": lambda it: judge(it, *SAME), "verify": lambda it: front("verify", "--config", IDENTITY, "--store", it)}
    for command, asked in ask.items():
        expect(checks, f"{command} of a rewrite that wasn't written back", asked(name), 0, "1 row more than were imported", "until store-to-etcd --store")
        expect(checks, f"{command} of what was imported", asked(as_imported), 0)
    note(str(name))
    for command, asked in ask.items():
        expect(checks, f"{command} of a rewrite that was written back", asked(name), 0)
    checks.expect("the note is its owner's", 0o600, Path(f"{name}.written").stat().st_mode & 0o777)
    stored(room, "ahead", 4)
    expect(checks, "rows behind that", judge(name, *SAME), 0, "2 rows more than were imported")


def own_writes(checks: Checks, room: Path) -> None:
    """A pass of a file that doesn't read what its own API server writes until then."""
    old, both, new, last = (ROTATION / f"{name}.yaml" for name in ("old", "both", "new", "last"))
    name = stored(room, "plain", 1)
    found = judge(name, "--replica", old, "--reload", f"0={last}")
    checks.expect("the judge passes it", b"pass\n", found.output)
    expect(checks, "a reload that drops its own writer", found, 0, "API server 0 still writes by aescbc:key1 (secrets)", "a write before its restart can't be read", "Turn first")
    for before, after in ((old, both), (both, new), (new, last)):
        expect(checks, f"the moves of a plan, {before.stem} to {after.stem}", judge(name, "--replica", before, "--reload", f"0={after}"), 0)
    found = judge(name, "--replica", last, "--replica", old, "--reload", f"1={last}")
    checks.expect("a verdict against it needs no remark", (True, []), (found.status != 0, remarks(found)))


def no_bytes(checks: Checks, room: Path) -> None:
    """`decrypt` of nothing: by identity that is an object without data."""
    words = ("decrypt", "--config", IDENTITY, "--resource", "secrets", "--path", PATH)
    expect(checks, "decrypt of an empty pipe", front(*words), 0, "standard input had no bytes")
    (room / "empty").write_bytes(b"")
    (room / "value").write_bytes(b"hello")
    for name, pieces in (("empty", ("no bytes",)), ("value", ()), (os.devnull, ("no bytes",))):
        with open(room / name, "rb") as file:
            found = kept(words, file)
        expect(checks, f"decrypt of the file {Path(name).name}", found, 0, *pieces)
    found = front(*words, data=b"hello")
    expect(checks, "decrypt of a pipe with a value", found, 0)
    checks.expect("which is read whole", b"hello", found.output)
    expect(checks, "encrypt of nothing is an object without data", front("encrypt", *words[1:]), 0)


def kept(words: tuple, file) -> Ended:
    """A call whose standard input is a file."""
    import subprocess

    done = subprocess.run([AROUND, kmsrest_program(), *map(str, words)], stdin=file, capture_output=True, timeout=PATIENCE, check=False)
    return Ended(done.returncode, done.stdout, done.stderr.decode(), 0)


def no_entry(checks: Checks, room: Path) -> None:
    """`check --resource` of a resource that no entry names."""
    ask = lambda config, resource: front("check", "--config", config, "--resource", resource)
    expect(checks, "a resource in the singular", ask(IDENTITY, "secret"), 0, "no entry", "names secret", "did you mean secrets?")
    found = ask(IDENTITY, "deployments.apps")
    expect(checks, "a resource that no entry names", found, 0, "names deployments.apps", "in the clear")
    checks.expect("is no slip of another", False, "did you mean" in found.errors)
    expect(checks, "a resource that one names", ask(IDENTITY, "secrets"), 0)
    every = room / "every.yaml"
    every.write_text(IDENTITY.read_text().replace("- secrets", "- '*.*'"))
    expect(checks, "a resource that a wildcard matches", ask(every, "widgets.example.com"), 0)
    expect(checks, "without a resource", front("check", "--config", IDENTITY), 0)
