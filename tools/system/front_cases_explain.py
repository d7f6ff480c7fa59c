"""What `explain` makes of lines that nobody wrote, and of files that are none."""
import os
import signal
from pathlib import Path

from etcd_cases_told import explainer
from support import TOP, Checks, call

LINES = (
    "kmsrest: text 49 1 drops-stored /registry/secrets/d/s aescbc:key1", "kmsrest: text 49 1 unread 2 secrets aescbc:key2",
    "kmsrest: text 42 123", "kmsrest: text 34 0 0", "kmsrest: text 45 p status ok", "kmsrest: text 51 /registry/secrets/d/s",
    "kmsrest: text 21 3 tag", "kmsrest: refused 3 BadPadding", "kmsrest: fault plugin p 1", "kmsrest: limit store",
    "drops-writer 1 secrets aescbc:key1", "w 3 refused unread 1 secrets aescbc:key2", "changed 2", "breach 42 123",
    "behind 3 /registry/secrets/d/s secrets aescbc:key1 cut, kept 1", "recovered 2", "unread 7",
    "kmsrest: recover: store is whole, with 3 rows: there is nothing to recover",
)


def mangled(line: str) -> set[str]:
    """The line cut behind each word, without each word, with a letter more in each, and with each another one."""
    words = line.split()
    found = {" ".join(words[:at]) for at in range(1, len(words))}
    for at, word in enumerate(words):
        for other in ([], [word + "f"], [word[:-1]], ["x"], ["-1"], ["9" * 30], ["\u00b2"]):
            found.add(" ".join([*words[:at], *other, *words[at + 1 :]]))
    return found


def faults_of(room: Path) -> list[str]:
    """Which mangled lines make `explain` fail."""
    answer, read, failed = *explainer(), []
    words = ["judge", "--store", str(room / "store"), "--replica", str(room / "none"), "--reload", f"0={room / 'none'}"]
    for line in sorted(set().union(*map(mangled, LINES))):
        try:
            answer(line, read(words))
        except Exception as error:  # (whatever it is, it is a fault)
            failed.append(f"{line}: {type(error).__name__}")
    return failed


def odd_lines(checks: Checks, room: Path) -> None:
    """Lines with words too few, too many and wrong; a device and a pipe as a store, its map, a configuration and a plugin."""
    (room / "store").write_bytes(b"KRSTORE2abc")
    checks.expect("explain fails at no mangled line", [], faults_of(room)[:5])
    os.mkfifo(room / "pipe")
    os.mkfifo(room / "store.map")
    with open(room / "huge", "wb") as huge:
        huge.truncate(1 << 36)
    files = ("/dev/zero", room / "pipe", room / "huge", room / "store")
    calls = [["kmsrest: text 42 8", "rewrite", "--config", file, "--store", store] for file in ("/dev/zero", room / "pipe") for store in files]
    calls += [["kmsrest: fault plugin p 1", "encrypt", "--config", TOP / "examples" / "kms.yaml", f"--plugin=p={room / 'pipe'}"]]
    (room / "pipe").chmod(0o777)
    done = [call([TOP / "help" / "explain", *words], env={**os.environ, "PYTHONDONTWRITEBYTECODE": "1"}) for words in calls]
    faulty = [ended.errors[-200:] for ended in done if ended.status not in (0, 2) or ended.errors]
    checks.expect("nor at files that are none, and waits for none", [], faulty)
    checks.expect("nor is it ended by a signal", [], [ended.status for ended in done if ended.status in (-signal.SIGKILL, -signal.SIGTERM)])
